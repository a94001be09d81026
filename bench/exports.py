"""Export files as converters write them (JCVM 2.2, chapter 5), for the makers of examples and the tests of the tools."""
from dataclasses import dataclass, field

from packages import u2

UTF8, CLASS, PACKAGE = 1, 7, 13


@dataclass
class ExportedClass:
    """A class or interface: its superclasses upwards and its interfaces by name; members are (token, flags, name, type)."""
    name: str
    flags: int
    above: list = field(default_factory=list)
    interfaces: list = field(default_factory=list)
    fields: list = field(default_factory=list)
    methods: list = field(default_factory=list)


class Pool:
    """The constant pool, in which each entry stands once."""

    def __init__(self):
        self.entries = []

    def index(self, entry):
        if entry not in self.entries:
            self.entries.append(entry)
        return u2(self.entries.index(entry))

    def text(self, text):
        return self.index(bytes([UTF8]) + u2(len(text.encode())) + text.encode())

    def class_named(self, name):
        return self.index(bytes([CLASS]) + self.text(name))

    def package(self, path, aid, version):
        major, minor = version
        return self.index(bytes([PACKAGE, 1]) + self.text(path) + bytes([minor, major, len(aid)]) + aid)


def export_bytes(path, aid, classes, version=(1, 0), inherited=None):
    """The export file of a package; the classes stand by token. With `inherited` the file is of format 2.2, in which each class
    tells how many tokens of public methods a subclass inherits."""
    pool = Pool()
    this, records = pool.package(path, aid, version), b""
    for token, one in enumerate(classes):
        records += bytes([token]) + u2(one.flags) + pool.class_named(one.name)
        records += u2(len(one.above)) + b"".join(map(pool.class_named, one.above))
        records += bytes([len(one.interfaces)]) + b"".join(map(pool.class_named, one.interfaces))
        records += u2(len(one.fields))
        for number, flags, name, kind in one.fields:
            records += bytes([number]) + u2(flags) + pool.text(name) + pool.text(kind) + u2(0)
        records += u2(len(one.methods))
        for number, flags, name, kind in one.methods:
            records += bytes([number]) + u2(flags) + pool.text(name) + pool.text(kind)
        records += b"" if inherited is None else bytes([inherited])
    head = bytes.fromhex("00FACADE") + bytes([1 if inherited is None else 2, 2])
    return head + u2(len(pool.entries)) + b"".join(pool.entries) + this + bytes([len(classes)]) + records
