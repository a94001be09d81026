#!/usr/bin/env python3
"""Times a command on each shape of input, at its full size and at half of it, side by side; and one command alone:

    bench/timing.py PROGRAM WORD..
"""
import os
import subprocess
import sys
import tempfile
import time

from growth import growth


def timed(words):
    """The seconds that a command takes, its status and the first line that it prints."""
    begin = time.monotonic()
    done = subprocess.run(words, capture_output=True, text=True)
    return "%6.2f s status %d %s" % (time.monotonic() - begin, done.returncode, done.stdout.split("\n", 1)[0])


def stored(capcheck, command, after):
    """The seconds that it takes to store what a command makes of the package in the last folder, and how it grew."""
    with tempfile.TemporaryDirectory() as out:
        row = timed([capcheck, command, out, *after])
        return row + (", " + growth(after[-1], out) if os.path.exists(os.path.join(out, "Header.cap")) else "")


def answered(capcheck, command, after):
    """The time of a command on the words after its name, with what it says."""
    return stored(capcheck, command, after) if command in ("transform", "share", "asm") else timed([capcheck, command, *after])


def run(usage, commands, shapes, make):
    """Runs a maker on its own words, FOLDER [CAPCHECK [PERCENT]]. `make(shape, share, folder)` makes a shape of
    this share of its full size in the folder, and gives the words that stand after a command's name. Each of the
    commands, words of one text, is timed on it; `transform`, `share` and `asm` store in a folder of their own, and the growth is told."""
    words = sys.argv[1:]
    if not 1 <= len(words) <= 3:
        sys.exit(usage)
    share = int(words[2]) / 100 if len(words) == 3 else 1
    for shape in shapes:
        made = [(name, make(shape, size, os.path.abspath(os.path.join(words[0], shape.__name__ + "-" + name))))
                for name, size in (("full", share), ("half", share / 2))]
        for command in commands.split():
            row = [name + " " + answered(words[1], command, after) for name, after in made] if len(words) > 1 else []
            print("%-9s %-13s %s" % (command, shape.__name__, "   ".join(row)), flush=True)


if __name__ == "__main__":
    if len(sys.argv) < 3:
        sys.exit(__doc__)
    print(timed(sys.argv[1:]))
