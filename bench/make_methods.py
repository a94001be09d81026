#!/usr/bin/env python3
"""Makes the longest bare methods of each shape, and methods of half the length, and times `probe` on them.

    bench/make_methods.py FOLDER [CAPCHECK [PERCENT]]

Each shape becomes the folders FOLDER/SHAPE-full and FOLDER/SHAPE-half with a Method.cap each. With
CAPCHECK, the path of the program or of the script `capcheck`, the time of `probe` on both is printed side
by side, with its first line. A method has at most 32,767 bytes of code, of which PERCENT, or else all, are
made; the budget of steps is as many.
"""
from packages import write_component
from timing import run

RETURN_ZERO = bytes([0x03, 0x78])


def straight(size):
    """A constant pushed and popped, over and over."""
    return bytes([0x03, 0x3B]) * ((size - 2) // 2) + RETURN_ZERO


def branches(size):
    """Branches to the next instruction: every place is a target, and targets are sought at each."""
    return bytes([0x70, 0x02]) * ((size - 2) // 2) + RETURN_ZERO


def conditionals(size):
    """A constant and a branch on it, as many instructions ahead as a byte reaches."""
    count = (size - 2) // 3
    ahead = [min(42, count - n) for n in range(count)]
    return b"".join(bytes([0x03, 0x61, 3 * n - 1]) for n in ahead) + RETURN_ZERO


SHAPES = [straight, branches, conditionals]


def make(shape, share, folder):
    size = int(32767 * share)
    write_component(folder, 7, bytes([0, 0x02, 0x00]) + shape(size))
    return [folder, str(size)]


run(__doc__, "probe", SHAPES, make)
