#!/usr/bin/env python3
"""Makes packages with as many calls, classes and methods as there can be, and half of each, and times `bound` on them.

    bench/make_bounds.py FOLDER [CAPCHECK [PERCENT]]

Each shape becomes the folders FOLDER/SHAPE-full/NN and FOLDER/SHAPE-half/NN, one for each package, in their order; the file
of roles stands in the first. With CAPCHECK, the path of the program or of the script `capcheck`, the time on both is printed
side by side, with the first line. With PERCENT, the shapes have this much of the sizes below.

`overriding` has 4,080 classes in one chain, each of which overrides one method of object, and a call of it. `ring` has
32,768 methods that call each other in a ring, and `line` as many without the call that closes it: calls of static methods
within a package and of the package before, and from the first one a call of a method of object that a class of the last one
overrides. `calls` has 16 packages whose methods are full of calls of public methods, each of another class and token.
`served` has 120 interfaces with 8 methods each, which one class implements by itself and its superclasses, and 3,825
classes below it; a method calls all of them. `naming` has 2,000 interfaces, and 2,040 classes in one chain, each of which
names 15 of them; a method calls all.
"""
import os

from packages import NO_SUPERCLASS, Package, class_record, method, u2
from timing import run

CLASSES = 255       # of a package
METHODS = 2048      # of a package
ACONST_NULL, INVOKEVIRTUAL, INVOKESTATIC, INVOKEINTERFACE, RETURN = 1, 139, 141, 142, 122
ROLES = bytes([0, 1, 1, 1, 1, 1, 1, 1])


def aid(number):
    return bytes([0xF0, 1, 2, 3, number])


def part(share, most):
    return max(int(share * most), 1)


def external(package, token):
    """The reference of a class of a package; here an import's token is the package's number."""
    return 0x8000 + 256 * package + token


def exported(offset, methods=()):
    return u2(offset) + bytes([0, len(methods)]) + b"".join(map(u2, methods))


def new_package(number):
    package = Package(aid(number))
    package.imports = [aid(n) for n in range(number)]
    return package


def virtual_of(reference, token):
    return bytes([3]) + u2(reference) + bytes([token])


def static_of(offset):
    return bytes([6, 0]) + u2(offset)


def add_method(package, code, words, stack):
    """A method with so many argument words; the indices of its calls are found. It gives where the method stands."""
    at = package.next_method()
    package.methods += bytes([stack, 16 * words]) + code
    place = 0
    while place < len(code):
        if code[place] in (INVOKEVIRTUAL, INVOKESTATIC):
            package.indices.append(at + 2 + place + 1)
            place += 2
        place += 1
    return at


def call_virtual(index):
    return bytes([ACONST_NULL, INVOKEVIRTUAL]) + u2(index)


def call_static(index):
    return bytes([INVOKESTATIC]) + u2(index)


def above(package, number, at):
    """The class before: all classes are one chain."""
    if number > 0:
        return at[number - 1]
    return external(package - 1, CLASSES - 1) if package > 0 else NO_SUPERCLASS


def described(package, at, code, token=0, static=True):
    return method(at, package.first_type(), len(code), token=token, static=static)


def finished(packages):
    packages[0].roles = ROLES
    return packages


def overriding(share):
    packages = []
    for number in range(part(share, 16)):
        package, at, last = new_package(number), [], number == part(share, 16) - 1
        package.pool = [virtual_of(external(0, 0) if number > 0 else 2, 0)]
        body = bytes([RETURN])
        for c in range(CLASSES):
            at.append(package.next_class())
            own = add_method(package, body, 1, 0)
            methods = [described(package, own, body, static=False)]
            if last and c == CLASSES - 1:
                code = call_virtual(0) + bytes([RETURN])
                methods.append(described(package, add_method(package, code, 0, 1), code))
            package.add_class(class_record([own], above=above(number, c, at)), [], methods)
        package.export = bytes([CLASSES]) + b"".join(map(exported, at))
        packages.append(package)
    return finished(packages)


def calling(share, closed):
    """Methods of which each calls the next; the last one of a package calls the first of the package before."""
    packages, count = [], part(share, 16)
    for number in range(count):
        package, first = new_package(number), number == 0
        shared = 200                # methods of a class that has the others
        at, starts, size = [], [], 6
        begin = package.next_method()
        # class 0 has one public method, which calls the first static one; the static methods follow
        room = METHODS - 1
        starts = [begin + size * n for n in range(room + 1)]
        package.pool = [static_of(s) for s in starts]
        package.pool.append(virtual_of(2 if first else external(0, 0), 0))
        package.pool.append(bytes([6, 0x80 + max(number - 1, 0), 1, 0]) if number > 0 else static_of(starts[1]))
        public_code = call_static(1) + bytes([RETURN])
        own = add_method(package, public_code, 1, 0)
        assert own == starts[0] and len(public_code) + 2 == size
        methods = []
        for n in range(1, room):
            code = call_static(n + 1) + bytes([RETURN])
            methods.append(described(package, add_method(package, code, 0, 0), code, token=255))
        if number > 0:
            code = call_static(room + 2) + bytes([RETURN])
        elif closed:
            code = call_virtual(room + 1) + bytes([RETURN])
        else:
            code = bytes([RETURN])
        end = add_method(package, code, 0, 1)
        assert end == starts[room]
        methods.append(described(package, end, code, token=255))
        methods[0] = described(package, starts[1], call_static(2) + bytes([RETURN]), token=0)
        top = NO_SUPERCLASS if first else external(0, 0)
        at.append(package.next_class())
        package.add_class(class_record([own], above=top), [], [described(package, own, public_code, static=False)])
        at.append(package.next_class())
        package.add_class(class_record([own] if first else [], above=at[0], base=0 if first else 1), [], methods)
        package.export = bytes([2]) + exported(at[0]) + exported(at[1], [starts[1]])
        packages.append(package)
    return finished(packages)


def ring(share):
    return calling(share, True)


def line(share):
    return calling(share, False)


def calls(share):
    packages, count = [], part(share, 16)
    for number in range(count):
        package, at = new_package(number), []
        before = max(number - 1, 0)
        body = bytes([RETURN])
        references = [external(before, c) if number > 0 else None for c in range(CLASSES)]
        size = len(class_record([0] * 8))
        where = [2 + size * c for c in range(CLASSES)]
        package.pool = [virtual_of((references[c] if c % 2 and number > 0 else where[c]), t) for c in range(CLASSES) for t in range(8)]
        entries = len(package.pool)
        for c in range(CLASSES):
            at.append(package.next_class())
            owns = [add_method(package, body, 1, 0) for _ in range(7)]
            methods = [described(package, o, body, token=t, static=False) for t, o in enumerate(owns)]
            eighth = owns[-1:]
            package.add_class(class_record(owns + eighth, above=external(0, 0) if number > 0 else (where[0] if c else NO_SUPERCLASS)), [], methods)
        room = (65535 - package.next_method() - 8) // 2
        last = package.described[-1]
        for half in range(2):
            code = b"".join(call_virtual((n * 7 + half) % entries) for n in range((min(room, 32767) - 3) // 4)) + bytes([RETURN])
            last[3].append(described(package, add_method(package, code, 0, 1), code))
        package.export = bytes([CLASSES]) + b"".join(map(exported, at))
        packages.append(package)
    return finished(packages)


def with_interfaces(record, interfaces, count):
    """The class record, where it also names interfaces, each with so many methods that the public token 0 serves."""
    named = b"".join(u2(interface) + bytes([count]) + bytes(count) for interface in interfaces)
    return bytes([record[0] | len(interfaces)]) + record[1:] + named


def served(share):
    """Interfaces that a chain of classes implements, of which the lowest has all other classes for subclasses."""
    each, many, methods = 15, 8, 8
    count, packages, body = each * many, [], bytes([RETURN])
    for number in range(max(part(share, 16), 2)):
        package, at, last = new_package(number), [], number == max(part(share, 16), 2) - 1
        package.pool = [bytes([1]) + u2(external(0, n) if number else 2 + n) + bytes([0]) for n in range(count)]
        if number == 0:
            for n in range(count):
                at.append(package.next_class())
                there = [method(0, package.first_type(), 0, token=t, static=False) for t in range(methods)]
                package.add_class(bytes([0x80]), [], there, flags=0x41)
            for c in range(2 + many):       # object, throwable and the chain
                at.append(package.next_class())
                own = add_method(package, body, 1, 0)
                top = NO_SUPERCLASS if c == 0 else at[count] if c <= 2 else at[-2]
                interfaces = at[each * (c - 2):each * (c - 1)] if c >= 2 else []
                package.add_class(with_interfaces(class_record([own], above=top), interfaces, methods), [],
                                  [described(package, own, body, static=False)])
        for c in range(CLASSES if number else 0):
            at.append(package.next_class())
            own = add_method(package, body, 1, 0)
            there = [described(package, own, body, static=False)]
            if last and c == CLASSES - 1:
                there.append(calls_of_interfaces(package, count, methods))
            package.add_class(class_record([own], above=external(0, count + 1 + many)), [], there)
        package.export = bytes([len(at)]) + b"".join(map(exported, at))
        packages.append(package)
    packages[0].roles = bytes([count] + [count + 1] * 7)
    return packages


def naming(share):
    """About as many interfaces as classes, in a chain of classes each of which names some of them."""
    each, names, body, packages = 250, 15, bytes([RETURN]), []
    half = max(part(share, 16) // 2, 1)
    wanted = [external(number, n) for number in range(half) for n in range(each)]
    for number in range(2 * half):
        package, at, last = new_package(number), [], number == 2 * half - 1
        package.pool = [bytes([1]) + u2(one) + bytes([0]) for one in wanted] if last else []
        for n in range(each if number < half else 0):
            at.append(package.next_class())
            package.add_class(bytes([0x80]), [], [method(0, package.first_type(), 0, static=False)], flags=0x41)
        for c in range(2 if number == 0 else CLASSES if number >= half else 0):
            before = external(0, each + 1) if number == half else external(number - 1, CLASSES - 1)
            top = NO_SUPERCLASS if number == c == 0 else at[-1] if c > 0 else before
            at.append(package.next_class())
            own = add_method(package, body, 1, 0)
            first = ((number - half) * CLASSES + c) * names
            interfaces = [wanted[(first + k) % len(wanted)] for k in range(names)] if number >= half else []
            there = [described(package, own, body, static=False)]
            if last and c == CLASSES - 1:
                there.append(calls_of_interfaces(package, len(wanted), 1))
            package.add_class(with_interfaces(class_record([own], above=top), interfaces, 1), [], there)
        package.export = bytes([len(at)]) + b"".join(map(exported, at))
        packages.append(package)
    packages[0].roles = bytes([each] + [each + 1] * 7)
    return packages


def calls_of_interfaces(package, count, methods):
    """A method that calls each method of the interfaces, the first entries of the pool."""
    one = [bytes([ACONST_NULL, INVOKEINTERFACE, 1]) + u2(n) + bytes([t]) for n in range(count) for t in range(methods)]
    start, code = package.next_method(), b"".join(one) + bytes([RETURN])
    package.methods += bytes([1, 0]) + code
    package.indices += [start + 2 + 6 * k + 3 for k in range(len(one))]
    return described(package, start, code)


ENTRIES = {"served": "254.1", "naming": "254.1", "overriding": "254.1", "ring": "1.0", "line": "1.0", "calls": "254.7"}


def make(shape, share, folder):
    dirs = []
    for number, package in enumerate(shape(share)):
        dirs.append(os.path.join(folder, "%02d" % number))
        package.write(dirs[-1])
    return [ENTRIES[shape.__name__], *dirs]


if __name__ == "__main__":
    run(__doc__, "bound", [overriding, ring, line, calls, served, naming], make)
