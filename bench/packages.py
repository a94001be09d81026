"""A package as it is laid into the files of its components, for the makers of examples and of large ones."""
import os
import sys

sys.path.insert(0, os.path.join(os.path.dirname(os.path.dirname(os.path.realpath(__file__))), "tools"))
from formats import distances, u2  # noqa: E402

AID = bytes([0xF0, 1, 2, 3, 4])
NAMES = {1: "Header", 2: "Directory", 3: "Applet", 4: "Import", 5: "ConstantPool", 6: "Class", 7: "Method",
         8: "StaticField", 9: "RefLocation", 10: "Export", 11: "Descriptor", 12: "Debug"}
INDEX_AID = bytes.fromhex("F06C65726F79")   # of the custom component that is a target index
BOOLEAN, SHORT = 0x8002, 0x8004
NO_SUPERCLASS = 0xFFFF
MOST = 65535    # bytes of a component's info


def file_name(tag):
    """The name of a component's file; from tag 128 on components are custom ones."""
    return NAMES.get(tag, "Custom%d" % tag) + ".cap"


def write_component(folder, tag, info):
    """Writes a component's file into a folder, which is made where it is missing."""
    assert len(info) <= MOST, (folder, tag, len(info))
    os.makedirs(folder, exist_ok=True)
    with open(os.path.join(folder, file_name(tag)), "wb") as file:
        file.write(bytes([tag]) + u2(len(info)) + info)


def class_record(public=(), visible=(), above=NO_SUPERCLASS, cells=0, base=0, visible_base=0, references=(0xFF, 0)):
    """A class with its superclass's reference, so many cells of its own, and two tables: the public one begins at the token
    `base`, the package-visible one at `visible_base`. Those of its fields that are references have tokens in a row: the
    first, and how many they are."""
    head = bytes([0]) + u2(above) + bytes([cells, *references, base, len(public), visible_base, len(visible)])
    return head + b"".join(map(u2, public)) + b"".join(map(u2, visible))


def static_field(offset, ty):
    return bytes([0, 8, 0]) + u2(offset) + u2(ty)


def instance_field(token, reference, ty):
    return bytes([token, 0]) + u2(reference) + bytes([token]) + u2(ty)


def method(offset, type_offset, code, handlers=0, index=0, token=0, static=True):
    """A method of the Descriptor, with its bytes of code and its entries of the handler table."""
    return bytes([token, 8 if static else 0]) + u2(offset) + u2(type_offset) + u2(code) + u2(handlers) + u2(index)


class Package:
    """The infos of a package's components; classes are described in their order."""

    def __init__(self, aid=AID):
        self.aid = aid
        self.applets = []       # pairs of an AID and the offset of the install method
        self.version = 1, 0     # major and minor
        self.imports = []       # AIDs of packages, each alone for version 1.0 or with its major and minor version
        self.pool = []          # entries of four bytes
        self.pool_types = None  # for each entry its type in the Descriptor; None: zeros
        self.classes = []       # Class records
        self.described = []     # for each its token, its flags, field records and method records
        self.handlers = b""
        self.methods = b""
        self.indices = []       # where indices of two bytes into the pool stand in the info of Method
        self.byte_indices = []  # the same of indices of one byte
        self.references = 0
        self.arrays = []
        self.zeros = 0
        self.values = b""
        self.export = None
        self.types = bytes([1, 0x10])   # the first: no argument, void
        self.roles = None
        self.index = None       # for each method with code the places that a target index lists
        self.customs = {}       # by tag the AID and the info of a custom component
        self.debug = None
        self.has_ints = False

    def add_class(self, record, fields=(), methods=(), token=None, flags=1):
        """Adds a class, with its token and its flags in the Descriptor; the token is its number where none is given."""
        self.classes.append(record)
        self.described.append((token, flags, fields, methods))

    def next_class(self):
        """The offset of the next class in the Class component."""
        return 2 + sum(map(len, self.classes))

    def next_method(self):
        """The offset of the next method in the Method component."""
        return 1 + len(self.handlers) + len(self.methods)

    def first_type(self):
        """The offset of the first type descriptor; the pool has to be whole."""
        return 2 + 2 * len(self.pool)

    def descriptor(self):
        info, at = bytes([min(len(self.described), 255)]), 2
        for number, (record, described) in enumerate(list(zip(self.classes, self.described))[:255]):
            token, flags, fields, methods = described
            info += bytes([number if token is None else token, flags]) + u2(at)
            info += bytes([0]) + u2(len(fields)) + u2(len(methods)) + b"".join(fields) + b"".join(methods)
            at += len(record)
        pool_types = self.pool_types or [0] * len(self.pool)
        return info + u2(len(self.pool)) + b"".join(map(u2, pool_types)) + self.types

    def statics(self):
        info = u2(self.image_size()) + u2(self.references) + u2(len(self.arrays))
        info += b"".join(bytes([kind]) + u2(len(values)) + values for kind, values in self.arrays)
        return info + u2(self.zeros) + u2(len(self.values)) + self.values

    def image_size(self):
        return 2 * self.references + self.zeros + len(self.values)

    def directory(self, infos):
        customs = b"".join(bytes([tag]) + u2(len(infos[tag])) + bytes([len(aid)]) + aid
                           for tag, (aid, _) in sorted(self.all_customs().items()))
        sizes = {tag: len(info) for tag, info in infos.items()}
        sizes[2] = 33 + len(customs)
        array_bytes = sum(len(values) for _, values in self.arrays)
        info = b"".join(u2(sizes.get(tag, 0)) for tag in range(1, 13))
        info += u2(self.image_size()) + u2(len(self.arrays)) + u2(array_bytes & 0xFFFF)
        return info + bytes([len(self.imports), len(self.applets), len(self.all_customs())]) + customs

    def all_customs(self):
        """The custom components, with that of the target index."""
        return self.customs if self.index is None else {**self.customs, 128: (INDEX_AID, self.target_index())}

    def target_index(self):
        return u2(len(self.index)) + b"".join(u2(len(places)) + b"".join(map(u2, places)) for places in self.index)

    def import_info(self):
        named = [(one, 1, 0) if isinstance(one, bytes) else one for one in self.imports]
        return bytes([len(named)]) + b"".join(bytes([minor, major, len(aid)]) + aid for aid, major, minor in named)

    def infos(self):
        major, minor = self.version
        flags = (1 if self.has_ints else 0) + (0 if self.export is None else 2) + (4 if self.applets else 0)
        infos = {
            1: bytes.fromhex("DECAFFED0202") + bytes([flags, minor, major, len(self.aid)]) + self.aid + bytes([0]),
            4: self.import_info(),
            5: u2(len(self.pool)) + b"".join(self.pool),
            6: u2(0) + b"".join(self.classes),
            7: bytes([len(self.handlers) // 8]) + self.handlers + self.methods,
            8: self.statics(), 9: distances(self.byte_indices) + distances(self.indices), 11: self.descriptor(),
        }
        if self.applets:
            infos[3] = bytes([len(self.applets)])
            infos[3] += b"".join(bytes([len(aid)]) + aid + u2(install) for aid, install in self.applets)
        if self.export is not None:
            infos[10] = self.export
        if self.debug is not None:
            infos[12] = self.debug
        infos.update((tag, info) for tag, (_, info) in self.all_customs().items())
        infos[2] = self.directory(infos)
        return infos

    def write(self, folder):
        for tag, info in self.infos().items():
            write_component(folder, tag, info)
        if self.roles is not None:
            with open(os.path.join(folder, "Roles.cap"), "wb") as file:
                file.write(self.roles)
