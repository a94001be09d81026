#!/usr/bin/env python3
"""Makes packages whose listings are as long as `asm` takes, and half as long, and times `list` and `asm` on them.

    bench/make_listings.py FOLDER [CAPCHECK [PERCENT]]

Each shape becomes the folders FOLDER/SHAPE-full and FOLDER/SHAPE-half, of a package and the listing of its methods. With
CAPCHECK, the path of the program or of the script `capcheck`, the time of each command on both is printed side by side, with
its first line. A listing has at most 65,538 bytes, of which PERCENT, or else all, are made.
"""
import os

from packages import Package, class_record, method, u2
from timing import run

LONGEST = 65538
NOP, SCONST_0, SLOOKUPSWITCH, RETURN = 0, 3, 117, 122


def instructions(size):
    """One method with as many instructions as there can be: each line has 9 bytes or fewer."""
    count = (size - 60) // 9
    return [(bytes([NOP] * count + [RETURN]), ["%d nop" % n for n in range(count)] + ["%d return" % count])]


def methods(size):
    """As many methods as there can be, of one instruction each: three lines of 51 bytes or fewer."""
    return [(bytes([RETURN]), ["0 return"])] * (size // 51)


def keys(size):
    """A switch with as many keys as there can be, each with its target in 11 bytes or fewer."""
    count = (size - 110) // 11
    end = 6 + 4 * count
    code = bytes([SCONST_0, SLOOKUPSWITCH]) + u2(end - 1) + u2(count)
    code += b"".join(u2(key) + u2(end - 1) for key in range(count)) + bytes([RETURN])
    switch = "1 slookupswitch %d %d" % (end, count) + "".join(" %d %d" % (key, end) for key in range(count))
    return [(code, ["0 sconst_0", switch, "%d return" % end])]


def make(shape, share, folder):
    package, records, lines = Package(), [], []
    for number, (code, listed) in enumerate(shape(int(LONGEST * share))):
        records.append(method(package.next_method(), package.first_type(), len(code)))
        package.methods += bytes([1, 0]) + code
        lines += ["method 0.%d stack 1 args 0 locals 0" % number, *listed, "end"]
    package.add_class(class_record(), [], records)
    package.write(folder)
    text = "".join(line + "\n" for line in lines)
    assert len(text) <= LONGEST, (folder, len(text))
    with open(os.path.join(folder, "Listing.txt"), "w", encoding="utf-8") as file:
        file.write(text)
    return [folder]


run(__doc__, "list asm", [instructions, methods, keys], make)
