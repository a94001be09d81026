"""Methods in the mnemonics of the standard, laid into the Method component of a package; JCVM 2.2, chapters 6 and 7."""
import os
import sys

sys.path.insert(0, os.path.join(os.path.dirname(os.path.dirname(os.path.realpath(__file__))), "tools"))
from instructions import INSTRUCTIONS, KIND, KINDS, LABEL, POOL, POOL_BYTE, SIGNED, SIZES, WIDE_LABEL  # noqa: E402
from packages import method, u2  # noqa: E402


def parsed(text):
    """The labels and instructions of a method's text in their order: a label as a text, an instruction as its opcode and
    its operands, each with its kind."""
    for line in filter(None, map(str.strip, text.splitlines())):
        if line.endswith(":"):
            yield line[:-1]
            continue
        name, *operands = line.split()
        opcode, *kinds = INSTRUCTIONS[name]
        kinds += kinds[-1:] * (len(operands) - len(kinds))
        assert len(kinds) == len(operands), line
        yield opcode, list(zip(kinds, operands))


def named(text):
    """What the instructions of a method name in the pool, in their order."""
    instructions = [item for item in parsed(text) if not isinstance(item, str)]
    return [operand for _, operands in instructions for kind, operand in operands if kind in (POOL, POOL_BYTE)]


class Code:
    """The bytes of a method, the places of its labels, and where indices into the pool stand in it. The pool is
    given by the names of its entries."""

    def __init__(self, text, pool):
        self.labels, self.indices, self.byte_indices = {}, [], []
        instructions, size = [], 0
        for item in parsed(text):
            if isinstance(item, str):
                self.labels[item] = size
                continue
            instructions.append((size, *item))
            size += 1 + sum(SIZES[kind] for kind, _ in item[1])
        self.bytes = b"".join(self.encoded(at, opcode, operands, pool) for at, opcode, operands in instructions)

    def encoded(self, start, opcode, operands, pool):
        code = bytes([opcode])
        for kind, operand in operands:
            if kind in (POOL, POOL_BYTE):
                number = pool.index(operand)
                (self.indices if kind == POOL else self.byte_indices).append(start + len(code))
            elif kind in (LABEL, WIDE_LABEL):
                number = self.labels[operand] - start
            else:
                number = KINDS[operand] if kind == KIND else int(operand)
            code += number.to_bytes(SIZES[kind], "big", signed=kind in SIGNED)
        return code


class Types:
    """The type descriptors of a package, each once: given as nibbles in hexadecimal, told by their offsets in the
    Descriptor, where they stand after the types of the pool's entries."""

    def __init__(self, entries):
        self.first, self.bytes, self.places = 2 + 2 * entries, b"", {}

    def offset(self, nibbles):
        if nibbles not in self.places:
            self.places[nibbles] = self.first + len(self.bytes)
            self.bytes += bytes([len(nibbles)]) + bytes.fromhex(nibbles + "0" * (len(nibbles) % 2))
        return self.places[nibbles]


# ---- methods

PUBLIC, PRIVATE, PROTECTED, STATIC, FINAL, ABSTRACT, CONSTRUCTOR = 1, 2, 4, 8, 16, 64, 128
UNNAMED = 255   # the token of what no other package names


class Method:
    """A method: flags, token, type as nibbles, the most cells on its stack, its argument words and code, and how many
    words of local variables it has. A handler goes from a label to a label, is entered at a third, and catches what the pool
    names, or all where that is None."""

    def __init__(self, flags, token, nibbles, stack, arguments, text, handlers=(), variables=0):
        self.flags, self.token, self.nibbles, self.text, self.handlers = flags, token, nibbles, text, handlers
        kind = 64 if flags & ABSTRACT else 0
        is_short = max(stack, arguments, variables) < 16
        self.header = bytes([kind + stack, 16 * arguments + variables] if is_short else [kind + 128, stack, arguments, variables])


def handler_table(package, start, handlers, labels, pool):
    """The entries of a method's handlers, whose code starts at an offset. The stop bit of one is set where no later range of
    the method contains its own."""
    ranges = [(labels[begin], labels[end]) for begin, end, _, _ in handlers]
    for number, (_, _, entry, caught) in enumerate(handlers):
        begin, end = ranges[number]
        stop = 0 if any(first <= begin and end <= last for first, last in ranges[number + 1:]) else 0x8000
        if caught is not None:
            package.indices.append(1 + len(package.handlers) + 6)
        index = 0 if caught is None else pool.index(caught)
        package.handlers += u2(start + begin) + u2(stop + end - begin) + u2(start + labels[entry]) + u2(index)


def lay(package, methods, pool, types):
    """Lays methods with their handlers into the Method component of a package, whose pool has entries of these
    names. Gives their offsets there and their records in the Descriptor."""
    first = 1 + 8 * sum(len(m.handlers) for m in methods)
    offsets, records = [], []
    for m in methods:
        code, offset = Code(m.text, pool), first + len(package.methods)
        start = offset + len(m.header)
        handlers = len(package.handlers) // 8
        handler_table(package, start, m.handlers, code.labels, pool)
        package.methods += m.header + code.bytes
        package.indices += [start + at for at in code.indices]
        package.byte_indices += [start + at for at in code.byte_indices]
        record = method(offset, types.offset(m.nibbles), len(code.bytes), len(m.handlers), handlers if m.handlers else 0)
        offsets.append(offset)
        records.append(bytes([m.token, m.flags]) + record[2:])
    package.indices.sort()
    package.types = types.bytes
    return offsets, records


# ---- entries of constant pools


def class_entry(reference):
    return bytes([1]) + u2(reference) + bytes([0])


def field_entry(reference, token):
    return bytes([2]) + u2(reference) + bytes([token])


def virtual_entry(reference, token):
    return bytes([3]) + u2(reference) + bytes([token])


def super_entry(reference, token):
    """The method that the superclass of a class of the package has at a token."""
    return bytes([4]) + u2(reference) + bytes([token])


def own_static_entry(tag, offset):
    """A static field, tag 5, or a static method or constructor, tag 6, of the package itself."""
    return bytes([tag, 0]) + u2(offset)


def imported_static_entry(tag, reference, token):
    """The same of an imported class, by its reference and the token of the member there."""
    return bytes([tag]) + u2(reference) + bytes([token])


def imported_constructor_entry(token):
    """The constructor of a class of the first import; it has static token 0 there."""
    return imported_static_entry(6, 0x8000 + token, 0)
