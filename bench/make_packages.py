#!/usr/bin/env python3
"""Makes the largest packages of each shape, and packages of half the size, and times `show` on them.

    bench/make_packages.py FOLDER [CAPCHECK [PERCENT]]

Each shape becomes the folders FOLDER/SHAPE-full and FOLDER/SHAPE-half. With CAPCHECK, the path of the
program or of the script `capcheck`, the time of `show` on both is printed side by side, with its first
line. A component has at most 65,535 bytes of info, of which each shape fills PERCENT, or else all, in one or
two components with as many records as fit, so that the conditions on the agreement of the parts compare as
many pairs as they can.
"""
from packages import BOOLEAN, Package, class_record, method, static_field, u2
from timing import run


def code(count, start):
    """Methods of one byte of code with compact headers, and the offsets at which they stand."""
    return bytes([0x01, 0x00, 0x7A]) * count, [start + 3 * n for n in range(count)]


def methods_only(size):
    """As many methods as the Descriptor can describe: pairs of methods."""
    package, count = Package(), size // 12 - 2
    package.methods, offsets = code(count, 1)
    package.add_class(class_record(), [], [method(o, 2, 1) for o in offsets])
    return package


def statics_only(size):
    """As many static fields as the Descriptor can describe: pairs of fields."""
    package, count = Package(), size // 7 - 4
    package.zeros = count
    package.add_class(class_record(), [static_field(o, BOOLEAN) for o in range(count)])
    return package


def dispatch(size):
    """Full dispatch tables whose entries name the last method, of as many classes as references can name: entries and methods."""
    package = Package()
    classes = size // 2 // 1032
    count = (size - 9 * classes - 20) // 12
    package.methods, offsets = code(count, 1)
    entries = [offsets[-1]] * 255
    for n in range(classes):
        package.add_class(class_record(entries, entries), [], [method(o, 2, 1) for o in offsets] if n == 0 else [])
    return package


def exports(size):
    """Full exports that name the last static field and the last method."""
    package = Package()
    fields, count = size // 2 // 7 - 4, size // 2 // 12 - 4
    package.methods, offsets = code(count, 1)
    package.zeros = fields
    package.add_class(class_record(), [static_field(o, BOOLEAN) for o in range(fields)], [method(o, 2, 1) for o in offsets])
    one = u2(2) + bytes([255, 255]) + u2(fields - 1) * 255 + u2(offsets[-1]) * 255
    classes = size // len(one)
    package.export = bytes([classes]) + one * classes
    return package


def handlers(size):
    """A full handler table, of which the last method owns every entry."""
    package = Package()
    entries = 255 * size // 65535
    start = 1 + 8 * entries
    count = size // 12 - 2
    package.methods, offsets = code(count, start)
    last = offsets[-1] + 2
    package.handlers = (u2(last) + u2(0x8001) + u2(last) + u2(0)) * entries
    records = [method(o, 2, 1) for o in offsets[:-1]] + [method(offsets[-1], 2, 1, entries, 0)]
    package.add_class(class_record(), [], records)
    return package


def interfaces(size):
    """As many records of one byte as the Class component holds, described as far as a byte counts."""
    package = Package()
    for _ in range(size - 2):
        package.add_class(bytes([0x80]))
    return package


def arrays(size):
    """Empty initial arrays, and static fields that are references."""
    package = Package()
    package.types += bytes([1, 0xC0])    # at offset 4: an array of shorts
    count = size // 3 - 8
    package.arrays = [(4, b"")] * count
    fields = min(size // 7 - 4, count)
    package.references = count
    package.add_class(class_record(), [static_field(2 * n, 4) for n in range(fields)])
    return package


SHAPES = [methods_only, statics_only, dispatch, exports, handlers, interfaces, arrays]


def make(shape, share, folder):
    shape(int(65535 * share)).write(folder)
    return [folder]


run(__doc__, "show", SHAPES, make)
