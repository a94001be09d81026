#!/usr/bin/env python3
"""Tells how a package grew when it was transformed: the bytes of its code and the registers of its methods, each summed
over all methods with code.

    bench/growth.py FROM TO

FROM is the folder of the package, TO that of the transformed one.
"""
import os
import sys

CLASS_BYTES, FIELD_BYTES, METHOD_BYTES = 9, 7, 12
EXTENDED = 0x80


def read(folder, name):
    """The info of a component."""
    with open(os.path.join(folder, name + ".cap"), "rb") as file:
        return file.read()[3:]


def u2(info, at):
    return int.from_bytes(info[at:at + 2], "big")


def described(info):
    """The offset and the number of code bytes of each described method."""
    at = 1
    for _ in range(info[0]):
        interfaces, fields, methods = info[at + 4], u2(info, at + 5), u2(info, at + 7)
        at += CLASS_BYTES + 2 * interfaces + FIELD_BYTES * fields
        for _ in range(methods):
            yield u2(info, at + 2), u2(info, at + 6)
            at += METHOD_BYTES


def registers(info, at):
    """The arguments and locals that a method's header tells."""
    if info[at] & EXTENDED:
        return info[at + 2] + info[at + 3]
    return (info[at + 1] >> 4) + (info[at + 1] & 15)


def sizes(folder):
    """The bytes of code and the registers of a package."""
    methods = read(folder, "Method")
    found = [(count, registers(methods, at)) for at, count in described(read(folder, "Descriptor")) if count > 0]
    return sum(count for count, _ in found), sum(number for _, number in found)


def growth(source, target):
    """One line on both."""
    (code, kept), (new_code, new_kept) = sizes(source), sizes(target)
    return "code %d to %d bytes, registers %d to %d" % (code, new_code, kept, new_kept)


if __name__ == "__main__":
    if len(sys.argv) != 3:
        sys.exit(__doc__)
    print(growth(sys.argv[1], sys.argv[2]))
