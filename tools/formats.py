"""The files of Java Card packages, as the tools read them: CAP archives, folders of components, and export files.

The components are those of chapter 6 of the Java Card 2.2 Virtual Machine Specification, an archive is that of section 4.1.2,
and export files are those of chapter 5. A Malformed says what is wrong with which file.
"""
import os
import re
import sys
import zipfile
from dataclasses import dataclass, field

NAMES = {1: "Header", 2: "Directory", 3: "Applet", 4: "Import", 5: "ConstantPool", 6: "Class", 7: "Method",
         8: "StaticField", 9: "RefLocation", 10: "Export", 11: "Descriptor", 12: "Debug"}
ROLES_FILE = "Roles.cap"
DEBUG, FIRST_CUSTOM = 12, 128
NAME = re.compile(r"[A-Za-z_$][\w$]*(/[A-Za-z_$][\w$]*)*")      # of a package, as the path of its folder
MOST = 65538            # bytes of a component with its tag and size
READ_FORMATS = [(2, 1), (2, 2)]

# The packages that vendors' applets import most, by AID (JCVM 2.2, section 4.2, and the standards that name them).
WELL_KNOWN = {bytes.fromhex(aid): name for aid, name in (
    ("A0000000620001", "java.lang"), ("A0000000620002", "java.io"), ("A0000000620003", "java.rmi"),
    ("A0000000620101", "javacard.framework"), ("A000000062010101", "javacard.framework.service"),
    ("A0000000620102", "javacard.security"), ("A0000000620201", "javacardx.crypto"),
    ("A0000000620202", "javacardx.biometry"), ("A0000000620203", "javacardx.external"),
    ("A0000000620204", "javacardx.biometry1toN"), ("A0000000620205", "javacardx.security"),
    ("A000000062020801", "javacardx.framework.util"), ("A00000006202080101", "javacardx.framework.util.intx"),
    ("A000000062020802", "javacardx.framework.math"), ("A000000062020803", "javacardx.framework.tlv"),
    ("A000000062020804", "javacardx.framework.string"), ("A0000000620209", "javacardx.apdu"),
    ("A000000062020901", "javacardx.apdu.util"), ("A00000015100", "org.globalplatform"),
    ("A0000000090003FFFFFFFF8910710001", "sim.access"), ("A0000000090003FFFFFFFF8910710002", "sim.toolkit"),
    ("A0000000090005FFFFFFFF8911000000", "uicc.access"), ("A0000000090005FFFFFFFF8912000000", "uicc.toolkit"),
)}


class Malformed(Exception):
    """A file is not what it should be; the text says what is wrong."""


class Reader:
    """The bytes of a file or component, taken one item after the other; numbers are big-endian."""

    def __init__(self, data, what):
        self.data, self.at, self.what = data, 0, what

    def take(self, count):
        piece = self.data[self.at:self.at + count]
        if len(piece) < count:
            raise Malformed("%s ends inside an item, at byte %d" % (self.what, len(self.data)))
        self.at += count
        return piece

    def number(self, size):
        return int.from_bytes(self.take(size), "big")

    def u1(self):
        return self.number(1)

    def u2(self):
        return self.number(2)

    def u4(self):
        return self.number(4)

    def is_done(self):
        return self.at == len(self.data)


def help_if_asked(words, text):
    """Prints a tool's text and ends with status 0, where the words ask for it."""
    if words[:1] in (["--help"], ["-help"], ["-h"]):
        print(text.strip())
        sys.exit(0)


def misused(tool, cause, status=1):
    """Ends a tool whose words are wrong."""
    print("tools/%s: %s; see tools/%s --help" % (tool, cause, tool), file=sys.stderr)
    sys.exit(status)


def unknown_option(words):
    return next((word for word in words if word.startswith("-")), None)


def read_file(path):
    with open(path, "rb") as file:
        return file.read()


def write_file(content, *path):
    with open(os.path.join(*path), "wb") as file:
        file.write(content)


def file_name(tag):
    """The name of a component's file, as capcheck wants it."""
    return "%s.cap" % NAMES.get(tag, "Custom%d" % tag)


# ---- components and packages


def info(content, tag, what):
    """A component's info, as a reader."""
    reader = Reader(content, what)
    if reader.u1() != tag:
        raise Malformed("%s has not tag %d" % (what, tag))
    return Reader(reader.take(reader.u2()), what)


def component(folder, tag):
    """The info of a component of a folder."""
    path = os.path.join(folder, file_name(tag))
    return info(read_file(path), tag, path)


def components_of_folder(folder):
    """The files of a folder that are components, by tag."""
    found = {}
    for tag in (*NAMES, *range(FIRST_CUSTOM, 256)):
        path = os.path.join(folder, file_name(tag))
        if os.path.isfile(path):
            found[tag] = read_file(path)
    return found


@dataclass(frozen=True)
class Version:
    """A package as an import names it, or as it names itself."""
    aid: bytes
    major: int
    minor: int

    def meets(self, wanted):
        """Whether this package serves an import of that one: the same AID and major version, and no lesser minor one."""
        return (self.aid, self.major) == (wanted.aid, wanted.major) and self.minor >= wanted.minor

    def __str__(self):
        name = WELL_KNOWN.get(self.aid)
        return "%s%d.%d (AID %s)" % (name + " " if name else "", self.major, self.minor, self.aid.hex())


def package_info(reader):
    minor, major = reader.u1(), reader.u1()
    return Version(reader.take(reader.u1()), major, minor)


@dataclass
class Package:
    """What the Header and the Import component of a package say, with the files of its components by tag. `name` is that
    of its folder, or the path that it has in an archive."""
    name: str
    parts: dict
    version: Version = None
    format: tuple = None
    flags: int = 0
    imports: list = field(default_factory=list)

    def read(self, what):
        for tag in (1, 4):
            if tag not in self.parts:
                raise Malformed("%s has no %s" % (what, file_name(tag)))
        header = info(self.parts[1], 1, what + " " + file_name(1))
        if header.u4() != 0xDECAFFED:
            raise Malformed("%s is no CAP file: its Header does not begin with DECAFFED" % what)
        minor, major = header.u1(), header.u1()
        self.format = major, minor
        self.flags = header.u1()
        self.version = package_info(header)
        imports = info(self.parts[4], 4, what + " " + file_name(4))
        self.imports = [package_info(imports) for _ in range(imports.u1())]
        return self

    def is_read(self):
        """Whether capcheck reads the format of the package."""
        return self.format in READ_FORMATS

    def has_base(self):
        """Whether it is a base package: one that imports nothing."""
        return not self.imports


def package_of_folder(folder):
    return Package(folder, components_of_folder(folder)).read(folder)


def told_sizes(package, what):
    """The sizes that the Directory gives the components, by tag, where they are not 0."""
    if 2 not in package.parts:
        raise Malformed("%s has no %s" % (what, file_name(2)))
    reader = info(package.parts[2], 2, os.path.join(what, file_name(2)))
    sizes = {tag: reader.u2() for tag in NAMES if tag != DEBUG or package.format != (2, 1)}
    reader.take(2 * 3 + 2)              # the static image, and the counts of imports and applets
    for _ in range(reader.u1()):
        tag = reader.u1()
        sizes[tag] = reader.u2()
        reader.take(reader.u1())
    return {tag: size for tag, size in sizes.items() if size}


def entry_tag(name, content, what):
    """The tag of an entry of an archive: by its name, or for a custom component by its first byte."""
    known = {"%s.cap" % known: tag for tag, known in NAMES.items()}
    if name in known:
        return known[name]
    if len(content) < 3 or content[0] < FIRST_CUSTOM:
        raise Malformed("%s has an entry %s, which is no component" % (what, name))
    return content[0]


def package_of_archive(path):
    """The package of a CAP archive, whose components stand in a folder `javacard` below that of the package."""
    try:
        with zipfile.ZipFile(path) as archive:
            entries = [entry for entry in archive.infolist() if not entry.is_dir()]
            extended = [entry for entry in entries if entry.filename.endswith(".capx")]
            if extended:
                raise Malformed("%s is of the extended CAP format, which capcheck does not read" % path)
            wanted = [entry for entry in entries if entry.filename.endswith(".cap")]
            large = [entry.filename for entry in wanted if entry.file_size > MOST]
            if large:
                raise Malformed("%s: %s has more than %d bytes" % (path, large[0], MOST))
            contents = {entry.filename: archive.read(entry) for entry in wanted}
    except zipfile.BadZipFile:
        raise Malformed("%s is no CAP archive" % path)
    parts, places = {}, set()
    for name, content in contents.items():
        place, _, last = name.rpartition("/")
        tag = entry_tag(last, content, path)
        if tag in parts:
            raise Malformed("%s has two components with tag %d" % (path, tag))
        parts[tag] = content
        places.add(place)
    if len(places) > 1:
        raise Malformed("%s has components in several folders: %s" % (path, ", ".join(sorted(places))))
    name = "".join(places)
    return Package(name[:-len("/javacard")] if name.endswith("/javacard") else name, parts).read(path)


def ordered(packages):
    """The packages, each after those that it imports and else as they are given; and what is missing: pairs of a package
    and an import that none of them serves."""
    missing = [(one, wanted) for one in packages for wanted in one.imports
               if not any(other.version.meets(wanted) for other in packages)]
    placed, waiting = [], list(packages)
    while waiting:
        ready = [one for one in waiting if not any(other is not one and other.version.meets(wanted)
                                                   for wanted in one.imports for other in waiting)]
        if not ready:
            raise Malformed("packages import one another: %s" % ", ".join(str(one.version) for one in waiting))
        placed.append(next((one for one in ready if one.has_base()), ready[0]))
        waiting.remove(placed[-1])
    return placed, missing


def needed(packages, last):
    """Those of the packages, in their order, that one of them stands on, and that one last."""
    found, waiting = [last], [last]
    while waiting:
        for wanted in waiting.pop().imports:
            other = next((one for one in packages if one.version.meets(wanted)), None)
            if other is not None and other not in found:
                found.append(other)
                waiting.append(other)
    return [one for one in packages if one in found and one is not last] + [last]


# ---- export files, JCVM 2.2 chapter 5

UTF8, INTEGER, CLASS, PACKAGE = 1, 3, 7, 13


@dataclass
class ExportedField:
    token: int
    flags: int
    name: str
    type: str


@dataclass
class ExportedMethod:
    token: int
    flags: int
    name: str
    type: str


@dataclass
class ExportedClass:
    token: int
    flags: int
    name: str
    above: list         # the names of its superclasses that other packages see
    interfaces: list
    fields: list
    methods: list


@dataclass
class ExportFile:
    """The names of a package: its own as `a/b`, those of classes as `a/b/C`, and of members with their tokens."""
    path: str
    name: str
    version: Version
    classes: list

    def class_of(self, token):
        return next((one for one in self.classes if one.token == token), None)


class ExportReader:
    """An export file that is read with or without the items that later versions of the format have."""

    def __init__(self, data, what, inherited, referenced):
        self.reader, self.what, self.inherited, self.referenced = Reader(data, what), what, inherited, referenced

    def constant(self):
        """An entry of the constant pool: its tag, and a text, a number, or the flags, name and version of a package."""
        reader = self.reader
        tag = reader.u1()
        if tag == UTF8:
            return tag, reader.take(reader.u2()).decode("utf-8", "replace")
        if tag == INTEGER:
            return tag, reader.u4()
        if tag == CLASS:
            return tag, reader.u2()
        if tag == PACKAGE:
            reader.u1()
            name = reader.u2()
            return tag, (name, package_info(reader))
        raise Malformed("%s has a constant with tag %d" % (self.what, tag))

    def of_tag(self, index, tag):
        """What the constant pool has at an index, which is to be an entry of this tag."""
        if index >= len(self.pool) or self.pool[index][0] != tag:
            raise Malformed("%s names constant %d, which has not tag %d" % (self.what, index, tag))
        return self.pool[index][1]

    def text(self):
        return self.of_tag(self.reader.u2(), UTF8)

    def class_name(self):
        return self.of_tag(self.of_tag(self.reader.u2(), CLASS), UTF8)

    def field_record(self):
        reader = self.reader
        found = ExportedField(reader.u1(), reader.u2(), self.text(), self.text())
        for _ in range(reader.u2()):
            reader.u2()
            reader.take(reader.u4())
        return found

    def method_record(self):
        return ExportedMethod(self.reader.u1(), self.reader.u2(), self.text(), self.text())

    def class_record(self):
        reader = self.reader
        found = ExportedClass(
            reader.u1(), reader.u2(), self.class_name(), [self.class_name() for _ in range(reader.u2())],
            [self.class_name() for _ in range(reader.u1())], [self.field_record() for _ in range(reader.u2())],
            [self.method_record() for _ in range(reader.u2())])
        reader.take(1 if self.inherited else 0)     # how many tokens of public methods a subclass inherits
        return found

    def whole(self):
        reader = self.reader
        if reader.u4() != 0x00FACADE:
            raise Malformed("%s is no export file: it does not begin with 00FACADE" % self.what)
        reader.take(2)
        self.pool = [self.constant() for _ in range(reader.u2())]
        name, version = self.of_tag(reader.u2(), PACKAGE)
        if self.referenced:
            reader.take(2 * reader.u1())
        classes = [self.class_record() for _ in range(reader.u1())]
        if not reader.is_done():
            raise Malformed("%s goes on after its last class, at byte %d" % (self.what, reader.at))
        name = self.of_tag(name, UTF8) if name < len(self.pool) and self.pool[name][0] == UTF8 else ""
        return ExportFile(self.what, name, version, classes)


def export_file(path):
    """An export file, of whichever version of the format it reads as."""
    data, first = read_file(path), None
    for inherited, referenced in ((False, False), (True, False), (True, True)):
        try:
            return ExportReader(data, path, inherited, referenced).whole()
        except Malformed as fault:
            first = first or fault
    raise first


# ---- records of the Class and the Export component

INTERFACE, REMOTE = 8, 2


@dataclass
class ClassRecord:
    """Where a record of the Class component stands, and its tables of methods: their first tokens and the offsets there."""
    offset: int
    is_interface: bool
    above: int = 0xFFFF
    public_base: int = 0
    public: tuple = ()
    visible_base: int = 0
    visible: tuple = ()


def class_records(reader, format):
    """The records of the Class component, in their order."""
    if format == (2, 2):
        reader.take(reader.u2())        # the signature pool
    records = []
    while not reader.is_done():
        at, first = reader.at, reader.u1()
        flags, interfaces = first >> 4, first & 15
        if flags & REMOTE:
            raise Malformed("%s has a remote class, which capcheck leaves out" % reader.what)
        if flags & INTERFACE:
            reader.take(2 * interfaces)
            records.append(ClassRecord(at, True))
            continue
        above = reader.u2()
        reader.take(3)                  # the cells and references of an instance
        base, public, visible_base, visible = (reader.u1() for _ in range(4))
        tables = [tuple(reader.u2() for _ in range(count)) for count in (public, visible)]
        records.append(ClassRecord(at, False, above, base, tables[0], visible_base, tables[1]))
        for _ in range(interfaces):
            reader.take(2)
            reader.take(reader.u1())
    return records


@dataclass
class ExportRecord:
    """A class of the Export component: offsets of its record, of its static fields and of its static methods."""
    offset: int
    fields: tuple
    methods: tuple


def export_records(reader):
    """The exported classes, by token."""
    records = []
    for _ in range(reader.u1()):
        offset, fields, methods = reader.u2(), reader.u1(), reader.u1()
        records.append(ExportRecord(offset, tuple(reader.u2() for _ in range(fields)), tuple(reader.u2() for _ in range(methods))))
    return records


# ---- names of the Debug component, where a package has one (JCVM 2.2, section 6.14); nothing else speaks of them


@dataclass
class DebugMethod:
    """A method's name with its type, and its lines: the first place, the last one and the number in the source."""
    name: str
    lines: list


class Debug:
    """The names of classes by their offsets in the Class component, and the methods by theirs in Method."""

    def __init__(self, reader):
        self.reader, self.classes, self.methods = reader, {}, {}
        self.strings = [reader.take(reader.u2()).decode("utf-8", "replace") for _ in range(reader.u2())]
        reader.take(2)
        for _ in range(reader.u2()):
            self.read_class()

    def text(self):
        index = self.reader.u2()
        if index >= len(self.strings):
            raise Malformed("%s names string %d, and has %d" % (self.reader.what, index, len(self.strings)))
        return self.strings[index]

    def read_class(self):
        reader, name = self.reader, self.text()
        reader.take(2)
        self.classes[reader.u2()] = name
        reader.take(4)
        interfaces, fields, methods = reader.u1(), reader.u2(), reader.u2()
        reader.take(2 * interfaces + 10 * fields)
        for _ in range(methods):
            self.read_method(name)

    def read_method(self, owner):
        reader = self.reader
        name = "%s.%s%s" % (owner, self.text(), self.text())
        reader.take(2)
        offset = reader.u2()
        reader.take(3)
        variables, lines = reader.u2(), reader.u2()
        reader.take(9 * variables)
        self.methods[offset] = DebugMethod(name, [(reader.u2(), reader.u2(), reader.u2()) for _ in range(lines)])


# ---- roles of the base package

ROLE_NAMES = ["java/lang/" + name for name in (
    "Object", "Throwable", "NullPointerException", "ArithmeticException", "ArrayIndexOutOfBoundsException",
    "NegativeArraySizeException", "ClassCastException", "ArrayStoreException")]


def roles(exported, package, what):
    """The eight bytes of Roles.cap for a base package, of which there is the export file: byte k is the position, from 0, of
    the record in the Class component that has role k. The export file tells the token of the class with that name; the
    entry of this number in the Export component tells the offset of its record in the Class component; its position is
    the number of records before it."""
    if exported.version.aid != package.version.aid:
        raise Malformed("%s is the export file of another package than that in %s" % (exported.path, what))
    for tag in (6, 10):
        if tag not in package.parts:
            raise Malformed("%s has no %s" % (what, file_name(tag)))
    offsets = [one.offset for one in class_records(info(package.parts[6], 6, what + " " + file_name(6)), package.format)]
    records = export_records(info(package.parts[10], 10, what + " " + file_name(10)))
    tokens, positions = {one.name: one.token for one in exported.classes}, []
    for name in ROLE_NAMES:
        if name not in tokens:
            raise Malformed("%s has no class %s" % (exported.path, name))
        token = tokens[name]
        if token >= len(records) or records[token].offset not in offsets:
            raise Malformed("no record of the Class component in %s has the token of %s" % (what, name))
        positions.append(offsets.index(records[token].offset))
    if max(positions) > 255:
        raise Malformed("a role stands beyond the first 256 records of the Class component in %s" % what)
    return bytes(positions)


# ---- folders that are written


def short_names(packages):
    """A folder name for each package: the last part of its path, or all of it where two have the same last part, and its
    version too where two have the same path. A path that is no name of a package gives the AID: an archive chooses it."""
    def told(names, more):
        return [name if names.count(name) == 1 else more(one, name) for one, name in zip(packages, names)]

    paths = [one.name if NAME.fullmatch(one.name) else one.version.aid.hex() for one in packages]
    whole = dict(zip(map(id, packages), paths))
    lasts = told([path.rpartition("/")[2] for path in paths], lambda one, _: whole[id(one)].replace("/", "."))
    return told(lasts, lambda one, name: "%s-%d.%d" % (name, one.version.major, one.version.minor))


def write_parts(parts, folder, roles_bytes=None):
    """Writes components into a folder, which is made where it is missing; other components and roles in it are removed."""
    os.makedirs(folder, exist_ok=True)
    for name in os.listdir(folder):
        if name.endswith(".cap"):
            os.remove(os.path.join(folder, name))
    for tag, content in parts.items():
        write_file(content, folder, file_name(tag))
    if roles_bytes is not None:
        write_file(roles_bytes, folder, ROLES_FILE)


def u2(number):
    return number.to_bytes(2, "big")


def distances(places):
    """Rising offsets as distances of one byte, where 255 goes on: a list of the RefLocation component."""
    out, last = b"", 0
    for place in places:
        out += bytes([255]) * ((place - last) // 255) + bytes([(place - last) % 255])
        last = place
    return u2(len(out)) + out
