#!/usr/bin/env python3
"""Makes the largest worlds and the methods that take longest to type, and each of half the size, and times
`check`, `verify`, `transform` and `share` on them.

    bench/make_worlds.py FOLDER [CAPCHECK [PERCENT]]

Each shape becomes the folders FOLDER/SHAPE-full/NN and FOLDER/SHAPE-half/NN, one for each package, in
their order; the file of roles stands in the first. With CAPCHECK, the path of the program or of the script
`capcheck`, the time of each command on both is printed side by side, with its first line. With PERCENT, the
shapes have this much of the sizes below.

The worlds have 16 packages (half: 8), with all the classes that 16 packages can have: 4,080 and not 4,096,
since a Descriptor counts the classes of its package in one byte. The methods are of 32,767 bytes (half:
16,383), but for four shapes. The time of `climbing` grows with the square of its length, or more: it has
8,192 bytes (half: 4,096). That of `waves` grows with the third power: it has 2,048 bytes (half: 1,024).
`verify` goes over the code once for each target of `branches`, but not of `indexed`, the same code with a
target index; and it does so in each of the 255 passes of `rounds`, where a cell stands on the stack between targets: it has
4,096 bytes (half: 2,048). In the code that
`transform` lays for `widening` each branch that becomes wide forces one more, 8,000 in all. Each place of
`deep_handlers` takes as many steps as there are handlers, registers and superclasses, multiplied: it has 16
such places (half: 8). At each edge of `branches_in` and `cases_in` 250 handlers come to cover 250 registers. `handled` is for `share`: 255 registers
under 255 handlers, of which each begins behind the one before and reads a register.
"""
import os

from packages import NO_SUPERCLASS, SHORT, Package, class_record, instance_field, method, static_field, u2
from timing import run

CLASSES = 255       # of a package
ROLES = 8
POOL = 5000         # entries of a full package: with its fields and methods they fill the Descriptor
RETURN = bytes([0x7A])
ACONST_NULL, ALOAD, ASTORE, SCONST_0, SCONST_1, SLOAD, SSTORE, SADD = 1, 21, 40, 3, 4, 22, 41, 65
ALOAD_0, ASTORE_0, POP, GOTO, STABLESWITCH, CHECKCAST, IFEQ_W, IFNE_W = 24, 43, 59, 112, 115, 148, 152, 153


def aid(number):
    return bytes([0xF0, 1, 2, 3, number])


def external(package, token):
    """The reference of a class that the package of an import exports; here an import's token is the package's number."""
    return 0x8000 + 256 * package + token


def exported(offset, fields=(), methods=()):
    return u2(offset) + bytes([len(fields), len(methods)]) + b"".join(map(u2, fields)) + b"".join(map(u2, methods))


def part(share, most):
    return max(int(share * most), 1)


# ---- worlds with as many classes and methods as there can be


def above_in_chain(package, number, at):
    """The superclass is the class before: all classes of the world are one chain."""
    if number > 0:
        return at[number - 1]
    return external(package - 1, CLASSES - 1) if package > 0 else NO_SUPERCLASS


def above_in_tree(package, number, at):
    """The superclass is object, and for the roles after throwable it is throwable."""
    if package > 0:
        return external(0, 0)
    if number == 0:
        return NO_SUPERCLASS
    return at[1] if 1 < number < ROLES else at[0]


def one_byte_methods(package, count, this):
    """Methods of one instruction, and where they stand; `this` says how many argument words they have."""
    start = package.next_method()
    package.methods += bytes([0x01, 16 * this, RETURN[0]]) * count
    return [start + 3 * n for n in range(count)]


def pool_entries(number, count, at, statics):
    """Entries of each kind, over the classes of the package and of the one before."""
    before = max(number - 1, 0)
    for n in range(count):
        c = n // 8 % CLASSES
        reference = at[c] if n % 16 < 8 or number == 0 else external(before, c)
        own = at[max(c, 1)]     # a class with a superclass
        yield [
            bytes([1]) + u2(reference) + bytes([0]),
            bytes([2]) + u2(reference) + bytes([100]),      # a field of object
            bytes([3]) + u2(reference) + bytes([127]),      # a method of object
            bytes([4]) + u2(own) + bytes([3]),
            bytes([5, 0]) + u2(16 * c) if number == 0 else bytes([5, 0x80 + before, c, 7]),
            bytes([6, 0]) + u2(statics[c]) if number == 0 else bytes([6, 0x80 + before, c, 3]),
            bytes([5, 0]) + u2(16 * c + 14),
            bytes([6, 0]) + u2(statics[c]),
        ][n % 8]


def full_package(number, above):
    """255 classes with 2,048 methods, 2,040 static and as many instance fields, and a pool of every kind."""
    package, at, exports, statics = Package(aid(number)), [], [], []
    package.imports = [aid(n) for n in range(number)]
    package.zeros = 16 * CLASSES
    first = 2 + 2 * POOL
    for c in range(CLASSES):
        at.append(package.next_class())
        own = one_byte_methods(package, 4, 1)
        shared = one_byte_methods(package, 4 if c < CLASSES - 1 else 12, 0)
        public = [own[0]] * 128 if (number, c) == (0, 0) else own
        visible = [own[0]] * 128 if c == 0 else []
        tokens = range(100, 108) if (number, c) == (0, 0) else range(8)
        fields = [static_field(16 * c + 2 * n, SHORT) for n in range(8)] + [instance_field(t, at[c], SHORT) for t in tokens]
        methods = [method(o, first, 1, token=n, static=False) for n, o in enumerate(own)]
        methods += [method(o, first, 1, token=n) for n, o in enumerate(shared)]
        package.add_class(class_record(public, visible, above(number, c, at), 8), fields, methods)
        exports.append(exported(at[c], [16 * c + 2 * n for n in range(8)], shared))
        statics.append(shared[0])
    package.pool = list(pool_entries(number, POOL, at, statics))
    package.export = bytes([len(exports)]) + b"".join(exports)
    return package


def chain(share):
    """All classes are one chain; instances have up to 32,640 cells, and static fields as many."""
    return with_roles([full_package(n, above_in_chain) for n in range(part(share, 16))])


def tree(share):
    """The same, but all classes stand below object."""
    return with_roles([full_package(n, above_in_tree) for n in range(part(share, 16))])


def with_roles(packages):
    packages[0].roles = bytes(range(ROLES))
    return packages


# ---- methods that take long to type


def class_chain(number):
    """255 classes in one chain that goes on from the package before."""
    package, at = Package(aid(number)), []
    package.imports = [aid(n) for n in range(number)]
    for c in range(CLASSES):
        at.append(package.next_class())
        package.add_class(class_record(above=above_in_chain(number, c, at)))
    package.export = bytes([CLASSES]) + b"".join(map(exported, at))
    return package


def with_method(code, max_stack, classes, handlers=(), registers=255):
    """A method with so many registers after packages with a chain of so many classes or more, of which its
    pool names as many from the lowest on. A handler is its first place, its length and its entry."""
    libraries = [class_chain(n) for n in range(max(1, -(-classes // CLASSES)))]
    count = len(libraries)
    package = Package(aid(count))
    package.imports = [aid(n) for n in range(count)]
    lowest = count * CLASSES - 1
    package.pool = [bytes([1]) + u2(external((lowest - n) // CLASSES, (lowest - n) % CLASSES)) + bytes([0]) for n in range(classes)]
    start = 1 + 8 * len(handlers)
    first = start + 4
    package.handlers = b"".join(u2(first + at) + u2(length) + u2(first + entry) + u2(0) for at, length, entry in handlers)
    package.methods = bytes([0x80, max_stack, 0, registers]) + code
    package.indices = [first + at for at in checkcasts(code)]
    package.add_class(class_record(above=external(0, 0)), [], [method(start, package.first_type(), len(code), len(handlers), 0)])
    return with_roles(libraries + [package])


LENGTHS = {ALOAD: 2, ASTORE: 2, SLOAD: 2, SSTORE: 2, GOTO: 2, CHECKCAST: 4, IFEQ_W: 3, IFNE_W: 3}


def checkcasts(code):
    """Where the indices of `checkcast` stand, in code of the instructions of this file."""
    at, places = 0, []
    while at < len(code):
        if code[at] == CHECKCAST:
            places.append(at + 2)
        at += LENGTHS.get(code[at], 1)
    return places


def branch(opcode, distance):
    return bytes([opcode]) + distance.to_bytes(2, "big", signed=True)


def padded(code, size):
    """The code with as many instructions that do nothing before its last one as fill it up."""
    return code + bytes(max(size - len(code) - 1, 0)) + RETURN


def straight(share):
    """The common shape: long straight code over 255 registers, with a branch ahead in every fifth instruction."""
    size = part(share, 32767)
    code = b"".join(bytes([SCONST_0, SSTORE, x]) for x in range(255))
    unit = 0
    while len(code) + 12 <= size:
        x, y = unit % 255, (7 * unit + 3) % 255
        code += bytes([SLOAD, x]) + branch(IFEQ_W, 9) + bytes([SLOAD, y, SCONST_1, SADD, SSTORE, x])
        unit += 1
    return with_method(padded(code, size), 2, 1)


def covered(share):
    """Straight code under 255 handlers: each of its places leads to each of them."""
    size = part(share, 32767)
    code = b"".join(bytes([SCONST_0, SSTORE, x]) for x in range(255))
    return with_method(padded(code, size - 1) + RETURN, 1, 1, [(0, size - 1, size - 1)] * 255)


def handled(share):
    """Straight code over 255 registers under 255 handlers, each with an entry of its own, at which it reads a register."""
    size, handlers = part(share, 32767), part(share, 255)
    code = b"".join(bytes([SCONST_0, SSTORE, x]) for x in range(255))
    first = len(code)
    units = (size - first - 1 - 6 * handlers) // 4
    code += b"".join(bytes([SLOAD, unit % 255, SSTORE, (7 * unit + 3) % 255]) for unit in range(units)) + RETURN
    entries = [len(code) + 6 * n for n in range(handlers)]
    code += b"".join(bytes([POP, SLOAD, n, SSTORE, (n + 1) % 255]) + RETURN for n in range(handlers))
    ranges = [(first + 4 * n, entries[0] - 1 - first - 4 * n, entry) for n, entry in enumerate(entries)]
    return with_method(code, 1, 1, ranges)


def all_registers(index):
    """All registers hold null as an object of the class of a pool entry."""
    first = bytes([ACONST_NULL, CHECKCAST, 0]) + u2(index) + bytes([ASTORE_0])
    return first + b"".join(bytes([ALOAD_0, ASTORE, x]) for x in range(1, 255))


def deep_handlers(share):
    """Places under 255 handlers at one entry, where all registers have class throwable by another way; at the
    places they have the lowest class of a chain of 3,825. So each merge climbs the chain for each register."""
    places, classes = part(share, 16), 15 * CLASSES
    before = all_registers(classes - 2) + bytes([ACONST_NULL, SCONST_0])
    between = bytes([POP]) + all_registers(0)
    start = len(before) + 3 + len(between)
    entry = start + places + 1
    code = before + branch(IFNE_W, entry - len(before)) + between + bytes(places) + RETURN + RETURN
    return with_method(code, 2, classes, [(start, places, entry)] * 255)


def back_branches(count, head, at):
    """Branches back to a place, each with a class in register 0 that stands one above that of the one before."""
    code = b""
    for n in range(count):
        code += bytes([ALOAD_0, CHECKCAST, 0]) + u2(n) + bytes([ASTORE_0, SCONST_0])
        code += branch(IFNE_W, head - (at + len(code)))
    return code


def climbing(share):
    """Half of the code is straight, and after it stand branches back to its beginning. Each raises register 0 by
    one class along a chain, so that all the straight code is gone over again for each."""
    size = part(share, 8192)
    code = bytes([ACONST_NULL, ASTORE_0])
    head = len(code)
    code += bytes(size // 2)
    count = (size - 1 - len(code)) // 10
    return with_method(padded(code + back_branches(count, head, len(code)), size), 1, count)


def waves(share):
    """The same, but the straight code moves each register to the next: each class that comes to register 0 goes
    over all of them, one in each round. So every register rises through all classes, one at a time, at every place."""
    size, registers = part(share, 2048), part(share, 128)
    code = b"".join(bytes([ACONST_NULL, ASTORE, x]) for x in range(registers))
    head = len(code)
    code += b"".join(bytes([ALOAD, x - 1, ASTORE, x]) for x in range(registers - 1, 0, -1))
    count = (size - 1 - len(code)) // 10
    return with_method(padded(code + back_branches(count, head, len(code)), size), 1, count)


def to_next(count):
    """Branches to the next instruction: each of their places but the first is a target of its own."""
    return bytes([GOTO, 2]) * count


def branches(share):
    """Every place is a target, and places are not remembered: whether one is an instruction's is sought along the code."""
    size = part(share, 32767)
    return with_method(to_next((size - 1) // 2) + RETURN, 0, 1)


def indexed(share):
    """The same with a target index, which lists the place after each branch."""
    packages = branches(share)
    packages[-1].index = [[2 * n for n in range(1, (part(share, 32767) - 1) // 2 + 1)]]
    return packages


def rounds(share):
    """Branches to the next instruction, each after a push and a pop, so that the next target is sought there; and before them
    moves of each register to the next, the last first: a class that comes to register 0 in the first pass goes on by one
    register in each pass."""
    size, registers = part(share, 4096), part(share, 255)
    code = b"".join(bytes([ACONST_NULL, ASTORE, x]) for x in range(registers))
    code += b"".join(bytes([ALOAD, x - 1, ASTORE, x]) for x in range(registers - 1, 0, -1))
    code += bytes([ACONST_NULL, CHECKCAST, 0]) + u2(0) + bytes([ASTORE_0])
    return with_method(code + bytes([SCONST_0, POP, GOTO, 2]) * ((size - 1 - len(code)) // 4) + RETURN, 1, 1)


def forcing(unit, units):
    """A branch to the unit after the next 31, which take 126 bytes where all their branches are wide: so it can be short, at 127,
    as long as one of them is. The last 32 are wide, since they lead to the first."""
    def start(n):
        return 4 * n + -(-n // 31) + (n + 15) // 31

    spare = bytes(start(unit + 1) - start(unit) - 4)
    target = start(unit + 32) if unit + 32 < units else 0
    return spare + bytes([SCONST_0]) + branch(IFEQ_W, target - (start(unit) + len(spare) + 1))


def widening(share):
    """Branches of which each becomes wide only when the one after it has."""
    units = (part(share, 32767) - 1) * 31 // 126
    return with_method(b"".join(forcing(unit, units) for unit in range(units)) + RETURN, 1, 1)


def entered(head, count, handlers):
    """So many places under handlers, each with an entry of its own, over 250 registers; the head leads to them."""
    code = head + bytes(count) + RETURN + (bytes([POP]) + RETURN) * handlers
    after = len(head) + count + 1
    return with_method(code, 2, 1, [(len(head), count, after + 2 * n) for n in range(handlers)], 250)


def shorts(count):
    return b"".join(bytes([SCONST_0, SSTORE, x]) for x in range(count))


def branches_in(share):
    """Branches to places under 250 handlers, from where none covers."""
    handlers, first = part(share, 250), shorts(250)
    count = (part(share, 30000) - len(first) - 2 * handlers - 1) // 5
    start = len(first) + 4 * count
    jumps = (bytes([SCONST_0]) + branch(IFEQ_W, start + n - (len(first) + 4 * n + 1)) for n in range(count))
    return entered(first + b"".join(jumps), count, handlers)


def cases_in(share):
    """A switch with 4,000 cases, each of which leads to a place of its own under 250 handlers."""
    handlers, count, first = part(share, 250), part(share, 4000), shorts(250) + bytes([SCONST_0])
    table = 7 + 2 * count
    ways = b"".join(u2(table + n) for n in range(count))
    return entered(first + bytes([STABLESWITCH]) + u2(table) + u2(0) + u2(count - 1) + ways, count, handlers)


SHAPES = [tree, chain, straight, covered, handled, deep_handlers, branches_in, cases_in, climbing, waves, branches, rounds, indexed, widening]


def make(shape, share, folder):
    dirs = []
    for number, package in enumerate(shape(share)):
        dirs.append(os.path.join(folder, "%02d" % number))
        package.write(dirs[-1])
    return dirs


run(__doc__, "check verify transform share", SHAPES, make)
