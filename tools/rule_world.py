"""The classes over which the cases of rules stand: those of a library, and those of each package over it, with its pool."""
from rule_package import ABSTRACT, CONSTRUCTOR, PRIVATE, PUBLIC, STATIC, VISIBLE, Class, Method, Writer, is_reference, u2

LIBRARY_AID, RULES_AID = b"\xf0library", b"\xf0rules"
BODIES = {"V": "return", "Z": "sconst_0; sreturn", "S": "sconst_0; sreturn", "I": "iconst_0; ireturn"}
ROLES = ["Object", "Throwable", "NullPointer", "Arithmetic", "ArrayIndex", "NegativeSize", "ClassCast", "ArrayStore"]


def body(name, kind, flags=PUBLIC, **more):
    """A method that gives zero or null."""
    one = Method(name, kind, flags, stack=2, is_compact=True, **more)
    one.add("" if flags & ABSTRACT else BODIES.get(one.result(), "aconst_null; areturn"))
    return one


def constructor(*kinds):
    return [body("init" + "".join(kinds), " ".join(kinds) + " -> V", PUBLIC + CONSTRUCTOR, token=0)]


def abstract(name, kind, token):
    return Method(name, kind, PUBLIC + ABSTRACT, token, 0, is_compact=True)


def library_classes():
    return [
        Class("Sized", is_interface=True, methods=[abstract("size", "S -> S", 0)]),
        Class("Named", is_interface=True, interfaces=[("Sized", [])], methods=[abstract("name", "I Object -> S", 1)]),
        Class("Object", methods=constructor() + [body("equals", "Object -> Z", token=0)]),
        Class("Throwable", "Object", methods=constructor()),
        *(Class(name, "Throwable") for name in ROLES[2:]),
        Class("Thing", "Object", fields=[
            ("a", "Thing", 0), ("b", "B", 1), ("s", "S", 2), ("i", "I", 3),
            ("theThing", "Thing", None), ("theBoolean", "Z", None), ("theShort", "S", None), ("theInt", "I", None),
        ], methods=constructor() + [body("only", "S -> Thing", PUBLIC + STATIC), body("put", "[S I -> [S", token=1)]),
    ]


def parent():
    fields = [("a", "Parent", 0), ("array", "[S", 1), ("held", "Own", 2), ("z", "Z", 3), ("b", "B", 4), ("s", "S", 5), ("i", "I", 6)]
    fields += [("the" + name, kind, None) for name, kind in (
        ("Object", "Object"), ("Parent", "Parent"), ("Child", "Child"), ("Sibling", "Sibling"), ("Thing", "Thing"),
        ("Throwable", "Throwable"), ("Alarm", "Alarm"), ("Siren", "Siren"), ("Bell", "Bell"), ("Booleans", "[Z"), ("Bytes", "[B"),
        ("Shorts", "[S"), ("Ints", "[I"), ("Objects", "[Object"), ("Parents", "[Parent"), ("Children", "[Child"),
        ("Siblings", "[Sibling"), ("Own", "Own"), ("Owns", "[Own"), ("Boolean", "Z"), ("Byte", "B"), ("Short", "S"), ("Int", "I"))]
    return Class("Parent", "Object", [("Own", [5])], fields, [
        *constructor(), *constructor("S"), body("hidden", "S -> S", PRIVATE), body("twice", "S -> S", PUBLIC + STATIC),
        body("sum", "I S -> I", PUBLIC + STATIC), body("make", "Parent [S -> Parent", PUBLIC + STATIC),
        body("many", "Z B [Z [B [I Own [Own -> V", PUBLIC + STATIC), body("get", "-> S", token=1), body("wide", "I -> I", token=2),
        body("next", "Parent -> Parent", token=3), body("none", "-> V", token=4), body("own", "S -> I", token=5),
        body("near", "S -> S", token=VISIBLE)])


def rule_classes(tests):
    """Those of a package over the library; the last has the methods of the cases."""
    return [
        Class("Own", is_interface=True, methods=[abstract("own", "S -> I", 0)]),
        parent(),
        Class("Child", "Parent", [("Sized", [6])], methods=[
            *constructor(), body("get", "-> S", token=1), body("size", "S -> S", token=6)]),
        Class("Sibling", "Parent", methods=constructor()),
        Class("Hollow", "Parent", methods=[*constructor(), abstract("hollow", "-> V", 6)]),
        Class("Full", "Hollow", methods=[body("hollow", "-> V", token=6)]),
        Class("Vacant", "Hollow", methods=constructor()),
        Class("Part", "Thing", [("Named", [2, 3])], methods=[
            *constructor(), body("size", "S -> S", token=2), body("name", "I Object -> S", token=3)]),
        Class("Alarm", "Throwable", methods=constructor()),
        Class("Siren", "Alarm", methods=constructor()),
        Class("Bell", "Alarm", methods=constructor()),
        Class("Tests", "Parent", methods=tests),
    ]


LIBRARY_NAMES = [one.name for one in library_classes()]
RULE_NAMES = [one.name for one in rule_classes([])]
NUMBERS = {name: number for number, name in enumerate(LIBRARY_NAMES + RULE_NAMES)}      # of the classes of both packages
ABOVE = {one.name: one.above for one in (*library_classes(), *rule_classes([]))}
INTERFACES = ["Sized", "Named", "Own"]


def pool():
    """The entries of the pool by their names: a tag, a class and a member."""
    entries = {name: (1, name, None) for name in (*RULE_NAMES, "Object", "Throwable", "NullPointer", "Thing", "Sized", "Named")}
    entries.update(("Parent." + name, (2, "Parent", token)) for name, _, token in parent().fields if token is not None)
    entries.update(("Child." + name, (2, "Child", token)) for name, token in (("a", 0), ("s", 5)))
    entries.update(("Thing." + name, (2, "Thing", token)) for name, token in (("a", 0), ("b", 1), ("s", 2), ("i", 3)))
    entries.update((name, (5, "Parent", name)) for name, _, token in parent().fields if token is None)
    entries.update(("Thing." + name, (5, "Thing", number)) for number, name in enumerate(("theThing", "theBoolean", "theShort", "theInt")))
    entries.update(("Parent." + m.name, (3, "Parent", m.token)) for m in parent().methods
                   if not m.flags & (STATIC | CONSTRUCTOR | PRIVATE))
    entries.update({"Object.equals": (3, "Object", 0), "Thing.put": (3, "Thing", 1), "Child.size": (3, "Child", 6),
                    "Child.next": (3, "Child", 3), "Hollow.hollow": (3, "Hollow", 6)})
    entries.update({"super.get": (4, "Child", 1), "super.near": (4, "Child", VISIBLE), "super.put": (4, "Part", 1),
                    "super.next": (4, "Tests", 3), "super.hollow": (4, "Full", 6)})
    entries.update(("Parent." + name, (6, "Parent", name)) for name in ("init", "initS", "hidden", "twice", "sum", "make", "many"))
    entries.update((name + ".init", (6, name, "init")) for name in ("Child", "Sibling", "Hollow", "Alarm"))
    entries.update({"bare.get": (6, "Parent", "get"), "bare.hollow": (6, "Hollow", "hollow"),
                    "Object.init": (6, "Object", 0), "Thing.init": (6, "Thing", 0), "Thing.only": (6, "Thing", 1)})
    return entries


ENTRIES = pool()
TYPES = {name: kind for name, kind, token in parent().fields if token is None}      # of the static fields
REFERENCES = [name for name, kind in TYPES.items() if is_reference(kind)]


def library():
    """The files of the library, and the byte of each role."""
    one = Writer(LIBRARY_AID, library_classes(), {})
    one.is_exporting = True
    return one.parts(), bytes(LIBRARY_NAMES.index(role) for role in ROLES)


class Rules(Writer):
    """A package over the library with these test methods."""

    def __init__(self, tests):
        super().__init__(RULES_AID, rule_classes(tests), ENTRIES, [LIBRARY_AID])
        self.outside = {name: 0x8000 + token for token, name in enumerate(LIBRARY_NAMES)}
        self.tests = tests
        self.numbers = {id(m): number for number, m in enumerate(tests)}

    def name_of(self, m):
        """The numbers C.M of a test method."""
        return "%d.%d" % (len(RULE_NAMES) - 1, self.numbers[id(m)])

    def list_targets(self, places, rest):
        """Gives the package a list of branch targets: so many places for each test method and none for all others; then these bytes."""
        bodies = [m for one in self.classes if not one.is_interface for m in one.methods if not m.flags & ABSTRACT]
        listed = [[] for _ in range(len(bodies) - len(self.tests))] + places
        self.lists = u2(len(listed)) + b"".join(u2(len(one)) + b"".join(map(u2, one)) for one in listed) + rest
        return self

    def wanted(self, m, change):
        """The beginning of the line that the program has to print of a change."""
        if change.fault is None:
            return "accepted "
        return told("refused package 1 method %s %s" % (self.name_of(m), self.line(m, change)))


class Root(Writer):
    """A base package in which object has an abstract method, and throwable one in its place; the classes below have the tests."""

    def __init__(self, tests):
        run = Method("run", "-> V", PUBLIC + ABSTRACT, 0, 0, is_compact=True)
        classes = [Class("Object", methods=[run]), Class("Throwable", "Object", methods=[body("run", "-> V", token=0)]),
                   *(Class(name, "Throwable") for name in ROLES[2:]), Class("Tests", "Throwable", methods=tests)]
        super().__init__(b"\xf0root!", classes, {
            "Object.run": (3, "Object", 0), "Throwable.run": (3, "Throwable", 0), "super.run": (4, "Tests", 0), "above.run": (4, "Throwable", 0)})
        self.tests = tests

    def name_of(self, m):
        return "%d.%d" % (len(ROLES), self.tests.index(m))

    def wanted(self, m, change):
        return "refused package 0 method %s %s" % (self.name_of(m), self.line(m, change))


# ---- types, as a line of the program tells them


def told(text):
    """A text with the numbers of the classes that it names after `class`."""
    words = text.split()
    return " ".join(str(NUMBERS[word]) if before == "class" and word in NUMBERS else word
                    for before, word in zip(["", *words], words))


def type_told(kind):
    """The type of a value of this kind, with its class by name."""
    if kind in INTERFACES:
        return "class Object"
    if kind[0] == "[":
        named = {"[Z": "array boolean", "[B": "array byte", "[S": "array short", "[I": "array int"}
        return named.get(kind) or "array " + type_told(kind[1:])
    return {"Z": "short", "B": "short", "S": "short", "I": "intlow"}.get(kind) or "class " + kind


def line_of(name):
    """A class and those above it."""
    return [name, *line_of(ABOVE[name])] if ABOVE[name] else [name]


def is_below(kind, other):
    """Whether a type is the other or below it."""
    if kind == other or kind == "null" and other.startswith(("class", "array")):
        return True
    if kind.startswith("array class") and other.startswith("array class"):
        return other.split()[2] in line_of(kind.split()[2])
    if kind.startswith("class") and other.startswith("class"):
        return other.split()[1] in line_of(kind.split()[1])
    return kind.startswith("array") and other == "class Object"


def join(kind, other):
    """The least type above two references."""
    if is_below(kind, other) or is_below(other, kind):
        return other if is_below(kind, other) else kind
    if kind.startswith("array class") and other.startswith("array class") or kind.startswith("class") and other.startswith("class"):
        *head, name = kind.split()
        return " ".join([*head, next(above for above in line_of(name) if above in line_of(other.split()[-1]))])
    return "class Object"
