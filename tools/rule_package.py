"""Packages that are written for the cases of rules: a library, and packages over it that differ in their test methods alone.

A method is a text in the mnemonics of the standard, with the changes of one byte that a case makes in it. A change says what
it shows: where the method is refused then, and why. JCVM 2.2, chapters 6 and 7, has the formats.
"""
import re
from dataclasses import dataclass, field

from formats import distances, u2
from instructions import INSTRUCTIONS, KINDS, POOL, POOL_BYTE, SIGNED, SIZES

PUBLIC, PRIVATE, STATIC, ABSTRACT, CONSTRUCTOR = 1, 2, 8, 64, 128
UNNAMED, VISIBLE = 255, 128         # the token of what no table has; from where on tokens are of the package-visible table
FIELD_TYPES = {"Z": 0x8002, "B": 0x8003, "S": 0x8004, "I": 0x8005}
NIBBLES = {"V": "1", "Z": "2", "B": "3", "S": "4", "I": "5", "[Z": "A", "[B": "B", "[S": "C", "[I": "D"}
BYTES = {"Z": 1, "B": 1, "S": 2, "I": 4}
INDEX_AID = bytes.fromhex("F06C65726F79")   # of the custom component that is a list of branch targets


def is_reference(kind):
    return kind not in BYTES


def width(kinds):
    """The cells of values of these types."""
    return sum(2 if kind == "I" else 1 for kind in kinds)


@dataclass
class Change:
    """One byte that becomes another. It stands in the code, in the header or in an entry of the handler table (`part`): so many
    bytes after an instruction of this number, or after the beginning. Then the instruction of number `refused` is refused."""
    title: str
    part: str
    number: int
    offset: int
    value: object           # a number; or as text a mnemonic, an entry of the pool, a label after `->`, a number to add after a sign
    refused: int
    fault: str              # `@N` in it is the place of instruction N; None where the method is accepted all the same


@dataclass
class Method:
    """A method: its type as `S I -> V`, its flags and token, its max_stack and further registers, and its code as instructions."""
    name: str
    type: str = "-> V"
    flags: int = PUBLIC + STATIC
    token: int = UNNAMED
    stack: int = 8
    registers: int = 0
    is_compact: bool = False
    items: list = field(default_factory=list)       # an instruction as its words
    labels: dict = field(default_factory=dict)      # the numbers of instructions
    handlers: list = field(default_factory=list)    # labels of begin, end and entry, and what is caught or None
    changes: list = field(default_factory=list)

    def add(self, text):
        """Adds instructions, with `;` between, and gives the number of the first. A label stands before one, with `:`."""
        first = len(self.items)
        for words in (piece.split() for piece in text.split(";") if piece.split()):
            while words and words[0].endswith(":"):
                self.labels[words.pop(0)[:-1]] = len(self.items)
            if words:
                self.items.append(words)
        return first

    def snip(self, text, *changes):
        """Adds instructions with changes in them: a title, the instruction's number here and the byte in it, the new value, the
        number of the instruction that is refused, and the fault, in which `@N` is the place of instruction N here."""
        first = self.add(text)
        for title, number, offset, value, refused, fault in changes:
            fault = fault and re.sub(r"@(\d+)", lambda found: "@%d" % (first + int(found[1])), fault)
            self.changes.append(Change(title, "code", first + number, offset, value, first + refused, fault))
        return self

    def change(self, title, number, offset, value, fault, refused=None):
        """A change in the instruction of this number, which is the one that is refused where no other is named."""
        self.changes.append(Change(title, "code", number, offset, value, number if refused is None else refused, fault))
        return self

    def header(self, title, offset, value, refused, fault):
        self.changes.append(Change(title, "header", 0, offset, value, refused, fault))
        return self

    def handler(self, title, number, offset, value, refused, fault):
        self.changes.append(Change(title, "handler", number, offset, value, refused, fault))
        return self

    def argument_types(self):
        return self.type.partition("->")[0].split()

    def result(self):
        return self.type.partition("->")[2].strip()

    def header_bytes(self):
        flags, words = (64 if self.flags & ABSTRACT else 0), width(self.argument_types()) + (0 if self.flags & STATIC else 1)
        if self.is_compact:
            return bytes([flags + self.stack, 16 * words + self.registers])
        return bytes([flags + 128, self.stack, words, self.registers])


@dataclass
class Class:
    """A class or interface; a field is a name, its type and its token or None for a static one."""
    name: str
    above: str = None
    interfaces: list = field(default_factory=list)      # pairs of a name and the public tokens, of a class
    fields: list = field(default_factory=list)
    methods: list = field(default_factory=list)
    is_interface: bool = False

    def own_table(self, is_visible):
        """The first token of a dispatch table and the methods in it, None where that of the superclass stays."""
        own = {m.token: m for m in self.methods if m.token != UNNAMED and not m.flags & (STATIC | CONSTRUCTOR)
               and (m.token >= VISIBLE) == is_visible}
        if not own or self.is_interface:
            return None, []
        return min(own), [own.get(token) for token in range(min(own), max(own) + 1)]

    def size(self):
        if self.is_interface:
            return 1 + 2 * len(self.interfaces)
        tables = sum(len(self.own_table(is_visible)[1]) for is_visible in (False, True))
        return 10 + 2 * tables + sum(3 + len(tokens) for _, tokens in self.interfaces)


class Code:
    """The bytes of a method's code, the places of its instructions, and where indices into the pool stand in it."""

    def __init__(self, method, pool):
        self.method, self.pool, self.places, self.byte_indices, self.indices = method, pool, [], [], []
        for words in method.items:
            self.places.append(self.places[-1] + size if self.places else 0)
            size = 1 + sum(SIZES[kind] for kind, _ in self.operands(words))
        self.length = self.places[-1] + size if self.places else 0
        self.bytes = b"".join(self.encoded(number, words) for number, words in enumerate(method.items))

    def operands(self, words):
        """The operands of an instruction, each with its kind; of a switch the last kind stands for all cases."""
        if words[0] == "bytes":
            return [("u1 number", word) for word in words[2:]]
        kinds = list(INSTRUCTIONS[words[0]][1:])
        if words[0].endswith("lookupswitch"):
            kinds += ["s2 number" if words[0][0] == "s" else "s4 number", "s2 branch"] * ((len(words) - 3) // 2)
        return list(zip(kinds + kinds[-1:] * (len(words) - 1 - len(kinds)), words[1:]))

    def place(self, label, number):
        """The place of a label; `next` is the instruction after that of this number."""
        number = number + 1 if label == "next" else self.method.labels[label]
        return self.places[number] if number < len(self.places) else self.length

    def number(self, word, at, kind):
        if re.fullmatch(r"-?\d+", word):
            return int(word)
        if "branch" in kind:
            return self.place(word, at) - self.places[at]
        return KINDS[word] if word in KINDS else self.pool.index(word)

    def encoded(self, at, words):
        code = bytes([int(words[1]) if words[0] == "bytes" else INSTRUCTIONS[words[0]][0]])
        for kind, word in self.operands(words):
            if kind in (POOL, POOL_BYTE):
                (self.indices if kind == POOL else self.byte_indices).append(self.places[at] + len(code))
            number, size = self.number(word, at, kind), SIZES.get(kind, int(kind[1]))
            code += (number % 256 ** size).to_bytes(size, "big") if kind in SIGNED or number < 0 else number.to_bytes(size, "big")
        return code

    def new_byte(self, change, former):
        """The byte that a change makes of the former one."""
        value = change.value
        if isinstance(value, str):
            if value.startswith("->"):
                value = self.place(value[2:], change.number) - self.places[change.number]
            elif value[0] in "+-":
                value = former + int(value)
                assert 0 <= value < 256, change
            else:
                value = INSTRUCTIONS[value][0] if value in INSTRUCTIONS else self.pool.index(value)
        return value % 256


class Writer:
    """A package on its way to the files of its components. `world` has the numbers and references of classes of other packages."""

    def __init__(self, aid, classes, pool, imports=()):
        self.aid, self.classes, self.pool, self.imports = aid, classes, pool, imports
        self.outside, self.lists, self.list_aid, self.is_exporting = {}, None, INDEX_AID, False
        self.types, self.type_places = b"", {}
        self.at, place = {}, 2
        for one in classes:
            self.at[one.name] = place
            place += one.size()

    def reference(self, name):
        return self.at[name] if name in self.at else self.outside[name]

    def type_offset(self, kinds):
        nibbles = ""
        for kind in kinds:
            nibbles += NIBBLES.get(kind) or ("E" if kind[0] == "[" else "6") + "%04x" % self.reference(kind.lstrip("["))
        if nibbles not in self.type_places:
            self.type_places[nibbles] = 2 + 2 * len(self.pool) + len(self.types)
            self.types += bytes([len(nibbles)]) + bytes.fromhex(nibbles + "0" * (len(nibbles) % 2))
        return self.type_places[nibbles]

    # ---- methods

    def lay_methods(self):
        """The Method component, and for each method its offset there and its code."""
        bodies = [m for one in self.classes if not one.is_interface for m in one.methods]
        names, self.codes, self.offsets, self.handler_numbers = list(self.pool), {}, {}, {}
        table = sum(len(m.handlers) for m in bodies)
        content, handlers, self.byte_indices, self.indices = bytes([table]), b"", [], []
        at = 1 + 8 * table
        laid = b""
        for m in bodies:
            code = Code(m, names)
            size = len(m.header_bytes()) + code.length
            if m.handlers and at // 256 < (at + size) // 256:       # places of one method differ in their lower byte alone
                laid, at = laid + bytes(-at % 256), at + -at % 256
            self.codes[id(m)], self.offsets[id(m)], self.handler_numbers[id(m)] = code, at, len(handlers) // 8
            start = at + len(m.header_bytes())
            for number, (_, _, _, caught) in enumerate(m.handlers):
                handlers += self.handler(m, number, start, code)
                if caught is not None:
                    self.indices.append(1 + len(handlers) - 2)
            laid += m.header_bytes() + code.bytes
            self.byte_indices += [start + n for n in code.byte_indices]
            self.indices += [start + n for n in code.indices]
            at = start + len(code.bytes)
        self.indices.sort()
        return content + handlers + laid

    def handler(self, m, number, start, code):
        ranges = [(code.place(begin, 0), code.place(end, 0)) for begin, end, _, _ in m.handlers]
        begin, end = ranges[number]
        stop = 0 if any(first <= begin and end <= last for first, last in ranges[number + 1:]) else 0x8000
        caught = m.handlers[number][3]
        return (u2(start + begin) + u2(stop + end - begin) + u2(start + code.place(m.handlers[number][2], 0))
                + u2(0 if caught is None else list(self.pool).index(caught)))

    def line(self, m, change):
        """The end of the line that tells what a change comes to: the place and the fault."""
        places = self.codes[id(m)].places
        fault = re.sub(r"@(\d+)(?:\+(\d+))?", lambda found: str(places[int(found[1])] + int(found[2] or 0)), change.fault)
        return fault if fault.startswith("place ") else "place %d %s" % (places[change.refused], fault)

    def spot(self, m, change):
        """The offset in the file of the byte that a change names."""
        at = 3 + self.offsets[id(m)]
        if change.part == "handler":
            return 3 + 1 + 8 * (self.handler_numbers[id(m)] + change.number) + change.offset
        if change.part == "header":
            return at + change.offset
        return at + len(m.header_bytes()) + self.codes[id(m)].places[change.number] + change.offset

    # ---- components

    def statics(self):
        """The offset of each static field in the image: references first, and then what has most bytes."""
        found = [(one.name, name, kind) for one in self.classes for name, kind, token in one.fields if token is None]
        at, offsets = 0, {}
        for owner, name, kind in sorted(found, key=lambda f: (0 if is_reference(f[2]) else 1, -BYTES.get(f[2], 2))):
            offsets[owner, name] = at
            at += BYTES.get(kind, 2)
        return offsets, at, sum(is_reference(kind) for _, _, kind in found)

    def class_record(self, one):
        if one.is_interface:
            return bytes([128 + len(one.interfaces)]) + b"".join(u2(self.reference(name)) for name, _ in one.interfaces)
        references = [token for _, kind, token in one.fields if token is not None and is_reference(kind)]
        head = bytes([len(one.interfaces)]) + u2(0xFFFF if one.above is None else self.reference(one.above))
        head += bytes([width(kind for _, kind, token in one.fields if token is not None),
                       *((min(references), len(references)) if references else (255, 0))])
        tables = b""
        for is_visible in (False, True):
            first, table = one.own_table(is_visible)
            head += bytes([(first or 0) % VISIBLE, len(table)])
            tables += b"".join(u2(0xFFFF if m is None else self.offsets[id(m)]) for m in table)
        served = b"".join(u2(self.reference(name)) + bytes([len(tokens), *tokens]) for name, tokens in one.interfaces)
        return head + tables + served

    def described(self, number, one, offsets):
        fields = b""
        for name, kind, token in one.fields:
            told = FIELD_TYPES.get(kind) or self.type_offset([kind])
            here = bytes([0]) + u2(offsets[one.name, name]) if token is None else u2(self.at[one.name]) + bytes([token])
            fields += bytes([0 if token is None else token, PUBLIC + (STATIC if token is None else 0)]) + here + u2(told)
        methods = b""
        for m in one.methods:
            kind = u2(self.type_offset([*m.argument_types(), m.result()]))
            if one.is_interface:
                methods += bytes([m.token, m.flags, 0, 0]) + kind + bytes(6)
                continue
            count = len(m.handlers)
            methods += bytes([m.token, m.flags]) + u2(self.offsets[id(m)]) + kind + u2(self.codes[id(m)].length)
            methods += u2(count) + u2(self.handler_numbers[id(m)] if count else 0)
        head = bytes([number, PUBLIC]) + u2(self.at[one.name]) + bytes([0]) + u2(len(one.fields)) + u2(len(one.methods))
        return head + fields + methods

    def pool_entry(self, told, statics):
        tag, owner, member = told
        if tag == 1:
            return bytes([1]) + u2(self.reference(owner)) + bytes([0])
        if tag in (2, 3, 4):
            return bytes([tag]) + u2(self.reference(owner)) + bytes([member])
        if isinstance(member, int):
            return bytes([tag]) + u2(self.reference(owner)) + bytes([member])
        if tag == 5:
            return bytes([5, 0]) + u2(statics[owner, member])
        methods = {m.name: m for one in self.classes if one.name == owner for m in one.methods}
        return bytes([6, 0]) + u2(self.offsets[id(methods[member])])

    def exported(self, statics):
        content = bytes([len(self.classes)])
        for one in self.classes:
            fields = [statics[one.name, name] for name, _, token in one.fields if token is None]
            methods = [self.offsets[id(m)] for m in one.methods if not one.is_interface and m.flags & (STATIC | CONSTRUCTOR)]
            content += u2(self.at[one.name]) + bytes([len(fields), len(methods)]) + b"".join(map(u2, [*fields, *methods]))
        return content

    def infos(self):
        """The infos of the components by tag."""
        method = self.lay_methods()
        statics, image, references = self.statics()
        described = b"".join(self.described(number, one, statics) for number, one in enumerate(self.classes))
        flags = 1 + (2 if self.is_exporting else 0)
        infos = {
            1: bytes.fromhex("DECAFFED0202") + bytes([flags, 0, 1, len(self.aid)]) + self.aid + bytes([0]),
            4: bytes([len(self.imports)]) + b"".join(bytes([0, 1, len(aid)]) + aid for aid in self.imports),
            5: u2(len(self.pool)) + b"".join(self.pool_entry(told, statics) for told in self.pool.values()),
            6: u2(0) + b"".join(map(self.class_record, self.classes)),
            7: method,
            8: u2(image) + u2(references) + u2(0) + u2(image - 2 * references) + u2(0),
            9: distances(self.byte_indices) + distances(self.indices),
            11: bytes([len(self.classes)]) + described + u2(len(self.pool)) + bytes(2 * len(self.pool)) + self.types,
        }
        if self.is_exporting:
            infos[10] = self.exported(statics)
        if self.lists is not None:
            infos[128] = self.lists
        customs = b"" if self.lists is None else bytes([128]) + u2(len(self.lists)) + bytes([len(self.list_aid)]) + self.list_aid
        sizes = {**{tag: len(info) for tag, info in infos.items()}, 2: 33 + len(customs)}
        infos[2] = (b"".join(u2(sizes.get(tag, 0)) for tag in range(1, 13)) + u2(image) + bytes(4)
                    + bytes([len(self.imports), 0, 1 if customs else 0]) + customs)
        return infos

    def parts(self):
        """The files of the components by tag."""
        return {tag: bytes([tag]) + u2(len(info)) + info for tag, info in self.infos().items()}
