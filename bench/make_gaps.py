#!/usr/bin/env python3
"""Makes a package with a table switch that has gaps, as compilers give it: 4,800 cases, all of which lead where the default does, to a
place before which one local has to be copied.

    bench/make_gaps.py FOLDER

Method 0.0 takes a short. It pops it four times, and a constant twice; where the short is not 0, local 1 gets a byte array, and else
null. The switch stands on the way with null.
"""
import sys

from packages import NO_SUPERCLASS, Package, class_record, method, u2

ROLES = 8
CASES = 4800
SHORT_TO_SHORT = bytes([2, 0x44])
SLOAD_0, POP, SRETURN, IFEQ, SCONST_0, SCONST_1, ASTORE_1, ACONST_NULL = 0x1C, 0x3B, 0x78, 0x60, 0x03, 0x04, 0x2C, 0x01
NEWARRAY_OF_BYTES, STABLESWITCH = bytes([0x90, 11]), 0x73


def goto_w(distance):
    return bytes([0xA8]) + u2(distance)


def code():
    head = bytes([SLOAD_0, POP]) * 4 + bytes([0x11, 0, 1, POP]) * 2
    table = bytes([ACONST_NULL, ASTORE_1, SLOAD_0, STABLESWITCH])
    to_end = 7 + 2 * CASES
    table += u2(to_end) + u2(0) + u2(CASES - 1) + u2(to_end) * CASES
    array = bytes([SCONST_1]) + NEWARRAY_OF_BYTES + bytes([ASTORE_1]) + goto_w(3 + len(table))
    return head + bytes([SLOAD_0, IFEQ, 2 + len(array)]) + array + table + bytes([SCONST_0, SRETURN])


def package():
    made, body = Package(), code()
    made.types = SHORT_TO_SHORT
    start = made.next_method()
    made.methods = bytes([0x80, 200, 1, 1]) + body
    for number in range(ROLES):
        above = [NO_SUPERCLASS, 2][number] if number < 2 else len(class_record()) + 2
        made.add_class(class_record(above=above), [], [method(start, made.first_type(), len(body))] if number == 0 else [])
    made.roles = bytes(range(ROLES))
    return made


package().write(sys.argv[1])
