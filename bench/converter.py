"""Lays classes with their fields and methods into the components of a package, as converters do; JCVM 2.2, chapters 4 and 6.

What a method names stands in its mnemonics as `C` for a class, `C.m` for a member, `C.<init>` for the constructor, and
`C.super.m` for the method m of the superclass of C. Types are descriptors as in a class file, with class names alone.
"""
import re
from dataclasses import dataclass, field

from assembly import (ABSTRACT, CONSTRUCTOR, FINAL, PRIVATE, PROTECTED, PUBLIC, STATIC, UNNAMED, class_entry, field_entry,
                      imported_static_entry, lay, named, own_static_entry, super_entry, virtual_entry)
from assembly import Method as LaidMethod
from assembly import Types
from exports import ExportedClass, export_bytes
from packages import NO_SUPERCLASS, Package, class_record, u2

NIBBLES = {"V": "1", "Z": "2", "B": "3", "S": "4", "I": "5", "[Z": "A", "[B": "B", "[S": "C", "[I": "D"}
FIELD_TYPES = {"Z": 0x8002, "B": 0x8003, "S": 0x8004, "I": 0x8005}
BYTES = {"Z": 1, "B": 1, "S": 2, "I": 4}
ABSTRACT_CLASS = 128    # the flag of a class in the Descriptor
ELEMENTS = {"[Z": 2, "[B": 3, "[S": 4, "[I": 5}     # types of initial arrays


@dataclass(eq=False)
class Field:
    """A field with its flags, and the value of a static one: a number, the elements of an array, or none."""
    flags: int
    type: str
    name: str
    value: object = None

    def is_static(self):
        return bool(self.flags & STATIC)

    def is_reference(self):
        return self.type not in FIELD_TYPES

    def cells(self):
        return 2 if self.type == "I" else 1

    def category(self):
        """In this order fields of instances get their tokens (JCVM 4.3.7.6)."""
        is_named = bool(self.flags & (PUBLIC | PROTECTED))
        return (0 if is_named else 3) if not self.is_reference() else 1 if is_named else 2


@dataclass(eq=False)
class Method:
    """A method as in `assembly`, with its name."""
    flags: int
    name: str
    type: str
    stack: int = 0
    text: str = ""
    handlers: tuple = ()
    variables: int = 0

    def is_static(self):
        """Whether it is named as a static method is, which constructors are too."""
        return bool(self.flags & (STATIC | CONSTRUCTOR))

    def is_named(self):
        return bool(self.flags & (PUBLIC | PROTECTED))

    def words(self):
        """The words of its arguments, with that of `this`."""
        arguments = parts(self.type[1:self.type.index(")")])
        return sum(2 if part == "I" else 1 for part in arguments) + (0 if self.flags & STATIC else 1)


@dataclass(eq=False)
class Class:
    name: str
    above: object       # the superclass, or None
    flags: int
    fields: list
    methods: list

    def own_fields(self):
        """Its fields of instances by name, with their tokens."""
        found, token = {}, 0
        for one in sorted((f for f in self.fields if not f.is_static()), key=Field.category):
            found[one.name] = (token, one)
            token += one.cells()
        return found

    def virtual(self, is_named):
        """The names of the virtual methods that other packages see, or of those that they do not see, by token; inherited
        ones come first."""
        names = self.above.virtual(is_named) if self.above else []
        own = [m for m in self.methods if not m.is_static() and not m.flags & PRIVATE and m.is_named() == is_named]
        return names + [m.name for m in own if m.name not in names]

    def exported_methods(self):
        return [m for m in self.methods if m.is_static() and m.is_named()]

    def exported_fields(self):
        return [f for f in self.fields if f.is_static() and f.flags & (PUBLIC | PROTECTED)]

    def member(self, name):
        """The class from here upwards that declares a member of this name, and the member."""
        for one in (*self.fields, *self.methods):
            if one.name == name:
                return self, one
        assert self.above, name
        return self.above.member(name)


@dataclass(eq=False)
class Unit:
    """The classes of a package, each after its superclass, and the units that it imports."""
    name: str
    classes: list
    imports: list = field(default_factory=list)
    is_exporting: bool = False

    def aid(self):
        return bytes([0xF0]) + self.name.encode()

    def find(self, name):
        return next(c for unit in (self, *self.imports) for c in unit.classes if c.name == name)


def parts(descriptor):
    return re.findall(r"\[?(?:L[\w/$]+;|[VZBSI])", descriptor)


class Conversion:
    """A unit on its way to a package."""

    def __init__(self, unit):
        self.unit, self.package = unit, Package(unit.aid())
        self.methods = [(c, m) for c in unit.classes for m in c.methods]
        self.pool = list(dict.fromkeys(name for _, m in self.methods for name in
                                       (*named(m.text), *(h[3] for h in m.handlers if h[3] is not None))))
        self.types = Types(len(self.pool))
        self.places = self.class_places()
        self.statics = self.lay_statics()
        laid = [LaidMethod(m.flags, self.method_token(c, m), self.nibbles(m.type), m.stack, m.words(), m.text, m.handlers,
                           m.variables) for c, m in self.methods]
        self.offsets, self.records = lay(self.package, laid, self.pool, self.types)

    # ---- references and types

    def class_places(self):
        """The offset of each class in the Class component."""
        places, at = {}, 2
        for one in self.unit.classes:
            places[one.name] = at
            at += 10 + 2 * sum(len(range(*self.table(one, is_named))) for is_named in (True, False))
        return places

    def reference(self, name):
        for number, unit in enumerate(self.unit.imports):
            for token, one in enumerate(unit.classes):
                if one.name == name:
                    return 0x8000 + 256 * number + token
        return self.places[name]

    def nibbles(self, descriptor):
        """The nibbles of a field's type, or of a method's: its arguments and then its result."""
        out = ""
        for part in parts(descriptor):
            out += NIBBLES.get(part) or ("E" if part[0] == "[" else "6") + "%04x" % self.reference(part.lstrip("[")[1:-1])
        return out

    def field_type(self, one):
        return FIELD_TYPES.get(one.type) or self.types.offset(self.nibbles(one.type))

    # ---- tables of classes

    def table(self, one, is_named):
        """The first token of a class's table of methods, and the one after its last."""
        names, own = one.virtual(is_named), [m.name for m in one.methods]
        return next((token for token, name in enumerate(names) if name in own), len(names)), len(names)

    def is_own(self, one):
        return one in self.unit.classes

    def entries(self, one, is_named):
        """The offsets of the methods in a table of a class; 0xFFFF for one of an imported class."""
        names = one.virtual(is_named)
        found = [one.member(names[token]) for token in range(*self.table(one, is_named))]
        return [self.offset_of(c, m) if self.is_own(c) else 0xFFFF for c, m in found]

    def offset_of(self, owner, method):
        return next(offset for (c, m), offset in zip(self.methods, self.offsets) if c is owner and m is method)

    def method_token(self, owner, method):
        if method.is_static():
            is_told = self.unit.is_exporting and method.is_named()
            return owner.exported_methods().index(method) if is_told else UNNAMED
        if method.flags & PRIVATE:
            return UNNAMED
        return self.virtual_token(owner, method)

    def virtual_token(self, owner, method):
        return owner.virtual(method.is_named()).index(method.name) + (0 if method.is_named() else 128)

    def class_record(self, one):
        fields = one.own_fields().values()
        tokens = [token for token, f in fields if f.is_reference()]
        return class_record(
            self.entries(one, True), self.entries(one, False),
            above=self.reference(one.above.name) if one.above else NO_SUPERCLASS, cells=sum(f.cells() for _, f in fields),
            base=self.table(one, True)[0], visible_base=self.table(one, False)[0],
            references=(tokens[0], len(tokens)) if tokens else (0xFF, 0))

    # ---- static fields

    def lay_statics(self):
        """Lays the image of the static fields, and gives their offsets there: references to arrays first, then null, then
        fields without a value of their own, then the others."""
        package, offsets = self.package, {}
        fields = [(c.name, f) for c in self.unit.classes for f in c.fields if f.is_static()]
        arrays = [pair for pair in fields if pair[1].is_reference() and pair[1].value is not None]
        nulls = [pair for pair in fields if pair[1].is_reference() and pair[1].value is None]
        zeros = [pair for pair in fields if not pair[1].is_reference() and not pair[1].value]
        valued = [pair for pair in fields if not pair[1].is_reference() and pair[1].value]
        at = 0
        for name, one in arrays + nulls + zeros + valued:
            offsets[name, one.name] = at
            at += BYTES.get(one.type, 2)
        package.references = len(arrays) + len(nulls)
        package.arrays = [(ELEMENTS[f.type], b"".join(number_of(f.type[1], v) for v in f.value)) for _, f in arrays]
        package.zeros = sum(BYTES[f.type] for _, f in zeros)
        package.values = b"".join(number_of(f.type, f.value) for _, f in valued)
        return offsets

    # ---- the constant pool

    def entry(self, name):
        """An entry of the pool, and the offset of its type."""
        if "." not in name:
            return class_entry(self.reference(name)), 0xFFFF
        head, tail = name.split(".", 1)
        one, is_super = self.unit.find(head), tail.startswith("super.")
        owner, member = (one.above if is_super else one).member(tail.split(".")[-1])
        if isinstance(member, Field):
            return self.field_entry(owner, member), self.field_type(member)
        type_offset = self.types.offset(self.nibbles(member.type))
        if member.is_static():
            return self.static_entry(6, owner, member, owner.exported_methods), type_offset
        token = self.virtual_token(owner, member)
        return (super_entry if is_super else virtual_entry)(self.reference(head), token), type_offset

    def field_entry(self, owner, member):
        if member.is_static():
            return self.static_entry(5, owner, member, owner.exported_fields)
        return field_entry(self.reference(owner.name), owner.own_fields()[member.name][0])

    def static_entry(self, tag, owner, member, exported):
        if self.is_own(owner):
            offset = self.statics[owner.name, member.name] if tag == 5 else self.offset_of(owner, member)
            return own_static_entry(tag, offset)
        return imported_static_entry(tag, self.reference(owner.name), exported().index(member))

    # ---- the package

    def field_records(self, one):
        for f in one.fields:
            if f.is_static():
                token = one.exported_fields().index(f) if self.unit.is_exporting and f in one.exported_fields() else UNNAMED
                place = bytes([0]) + u2(self.statics[one.name, f.name])
            else:
                token = one.own_fields()[f.name][0]
                place = u2(self.places[one.name]) + bytes([token])
            yield bytes([token, f.flags]) + place + u2(self.field_type(f))

    def export(self):
        info = bytes([len(self.unit.classes)])
        for one in self.unit.classes:
            fields = [u2(self.statics[one.name, f.name]) for f in one.exported_fields()]
            methods = [u2(self.offset_of(one, m)) for m in one.exported_methods()]
            info += u2(self.places[one.name]) + bytes([len(fields), len(methods)]) + b"".join(fields + methods)
        return info

    def whole(self):
        package, unit = self.package, self.unit
        package.imports = [imported.aid() for imported in unit.imports]
        found = [self.entry(name) for name in self.pool]
        package.pool, package.pool_types = [entry for entry, _ in found], [offset for _, offset in found]
        for number, one in enumerate(unit.classes):
            records = [record for (c, _), record in zip(self.methods, self.records) if c is one]
            token = number if unit.is_exporting else UNNAMED
            package.add_class(self.class_record(one), list(self.field_records(one)), records, token, one.flags)
        package.types = self.types.bytes
        package.has_ints = any("I" in member.type for c in unit.classes for member in (*c.fields, *c.methods))
        if unit.is_exporting:
            package.export = self.export()
        return package

    def debug(self):
        """The Debug component: the names of all that has a place in the others, without lines and variables (JCVM 6.14)."""
        strings, classes = [], b""

        def text(string):
            if string not in strings:
                strings.append(string)
            return u2(strings.index(string))

        head = text(self.unit.name)
        for one in self.unit.classes:
            above = text(one.above.name) if one.above else u2(0xFFFF)
            classes += text(one.name) + u2(one.flags) + u2(self.places[one.name]) + above + text(one.name + ".java")
            classes += bytes([0]) + u2(len(one.fields)) + u2(len(one.methods))
            for f, record in zip(one.fields, self.field_records(one)):
                place = bytes(2) + record[3:5] if f.is_static() else bytes([0, 0, 0, record[4]])
                classes += text(f.name) + text(f.type) + u2(f.flags) + place
            for m in one.methods:
                _, record = next(pair for pair in zip(self.methods, self.records) if pair[0][1] is m)
                offset, size = record[2:4], record[6:8]
                classes += text(m.name) + text(m.type) + u2(m.flags) + offset + bytes([2]) + size + u2(0) + u2(0)
        table = b"".join(u2(len(string)) + string.encode() for string in strings)
        return u2(len(strings)) + table + head + u2(len(self.unit.classes)) + classes


def exported(unit, path):
    """The export file of a unit, whose classes have the names that they have in the package of this path."""
    def named(kind):
        return re.sub(r"L(\w+);", r"L%s/\1;" % path, kind)

    classes = []
    for one in unit.classes:
        supers, over = [], one.above
        while over is not None:
            supers, over = supers + ["%s/%s" % (path, over.name)], over.above
        fields = [(token, f.flags, f.name, named(f.type)) for token, f in enumerate(one.exported_fields())]
        fields += [(token, f.flags, name, named(f.type)) for name, (token, f) in one.own_fields().items()
                   if f.flags & (PUBLIC | PROTECTED)]
        methods = [(token, access_flags(m.flags, ABSTRACT), m.name, named(m.type)) for token, m in enumerate(one.exported_methods())]
        members = [one.member(name)[1] for name in one.virtual(True)]
        methods += [(token, access_flags(m.flags, ABSTRACT), m.name, named(m.type)) for token, m in enumerate(members)]
        classes.append(ExportedClass("%s/%s" % (path, one.name), access_flags(one.flags, ABSTRACT_CLASS), supers, fields=fields, methods=methods))
    return export_bytes(path, unit.aid(), classes)


def access_flags(flags, abstract):
    """Flags of the Descriptor as an export file has them: those of Java, in which 0x400 is abstract."""
    return (flags & (PUBLIC | PROTECTED | STATIC | FINAL)) | (0x400 if flags & abstract else 0)


def number_of(kind, value):
    return int(value).to_bytes(BYTES[kind], "big", signed=True)
