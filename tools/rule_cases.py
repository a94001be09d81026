"""The cases of the rules of instructions: for each one the operands that it takes and those that it does not, what it gives, and the
room for that."""
from instructions import BY_OPCODE, BRANCHES
from rule_package import Method
from rule_world import TYPES, is_below, type_told

PUSHES = {
    "short": "sconst_1", "intlow": "iconst_1", "null": "aconst_null", "class Object": "getstatic_a theObject",
    "class Parent": "getstatic_a theParent", "class Child": "getstatic_a theChild", "class Sibling": "getstatic_a theSibling",
    "class Thing": "getstatic_a theThing", "class Alarm": "getstatic_a theAlarm", "array boolean": "getstatic_a theBooleans",
    "array byte": "getstatic_a theBytes", "array short": "getstatic_a theShorts", "array int": "getstatic_a theInts",
    "array class Object": "getstatic_a theObjects", "array class Parent": "getstatic_a theParents",
    "array class Child": "getstatic_a theChildren", "fresh": "new Parent",
}
FEW = ["short", "intlow", "null", "class Object", "class Thing", "array byte", "array class Object", "fresh"]    # the second time
ARRAYS = ["array boolean", "array byte", "array short", "array int", "array class Object"]
DEMANDS = {     # the type that is told, and all that serve
    "short": ("short", ["short"]), "int": ("intlow", ["intlow"]), "object": ("class Object", ["class Object"]),
    "storable": ("class Object", ["class Object"]),
    "bytes": ("array byte", ["array byte", "array boolean"]), "refs": ("array class Object", ["array class Object"]),
    "array": ("array byte", ARRAYS), "whole": ("", [kind for kind in PUSHES if kind != "intlow"]),
}


def serves(demand, kind):
    _, wanted = DEMANDS.get(demand) or (None, [type_told(demand)])
    return any(is_below(kind, other) for other in wanted)


def refusal(demand, kind, place):
    """The fault where a cell has not the type that is demanded; `place` is the instruction that pushed it."""
    if demand == "whole":
        return "SplitInt"
    if demand == "storable" and kind == "fresh":
        return "FreshKept"
    wanted, _ = DEMANDS.get(demand) or (type_told(demand), None)
    return "Mismatch found %s wanted %s" % ("fresh @%d class Parent" % place if kind == "fresh" else kind, wanted)


def push(demand):
    """An instruction of one byte that pushes what serves."""
    return {"short": "sconst_1", "S": "sconst_1", "Z": "sconst_1", "B": "sconst_1", "int": "iconst_1", "I": "iconst_1",
            "whole": "sconst_1"}.get(demand, "aconst_null")


def cells(demands):
    return sum(2 if demand in ("int", "I") else 1 for demand in demands)


def rule_asks(name):
    """What a branch asks of the cells."""
    kind = "object" if "null" in name or "acmp" in name else "short"
    return [kind, kind] if "cmp" in name else [kind]


class Rule:
    """An instruction with what it asks of the cells, from the top down, and what it gives: a type, `int`, `two` cells or nothing.
    Types that are left out are tried otherwise."""

    def __init__(self, text, asks="", gives=None, without=()):
        self.text, self.asks, self.gives, self.without = text, asks.split(), gives, without
        self.name = text.split()[0]
        self.title = " ".join(word for word in text.split() if word != "next")
        self.kinds = list(PUSHES)

    def drop(self):
        """What is left goes, and a change shows that nothing is there then."""
        return {None: "", "int": "pop2; ", "two": "pop2; "}.get(self.gives, "pop; ") + "nop"

    def count(self, text):
        return text.count(";") + 1

    def add_refused(self, method, number, kind):
        """The operand of this number is refused where it has this type, which comes on top of one that serves."""
        deeper, upper = self.asks[:number:-1], self.asks[:number][::-1]
        before = "; ".join([push(one) for one in [*deeper, self.asks[number]]])
        at = self.count(before)
        text = "; ".join([before, PUSHES[kind], "pop2" if kind == "intlow" else "pop", *map(push, upper), self.text, self.drop()])
        told = "cell %d is %s" % (cells(self.asks[:number]), kind.replace("low", ""))
        method.snip(text, (self.title + ": " + told, at + 1, 0, "nop", at + 2 + len(upper), refusal(self.asks[number], kind, at)))

    def add_short(self, method, number):
        """The operands from this one down are missing: a return before the others empties the stack."""
        deeper, upper = self.asks[:number - 1 if number else None:-1], self.asks[:number][::-1]
        text = "; ".join([*map(push, deeper), "nop", *map(push, upper), self.text, self.drop()])
        told = "%s: %d cells are there" % (self.title, cells(upper))
        method.snip(text, (told, len(deeper), 0, "return", len(deeper) + 1 + len(upper), "Underflow"))

    def add_given(self, method):
        """What the instruction gives is shown by one that does not take it, and the depth by a pop of what is not there."""
        before = "; ".join(map(push, self.asks[::-1]))
        at = self.count(before) if before else 0
        head = before + "; " * bool(before) + self.text + "; "
        if self.gives is None:
            method.snip(head + "nop", (self.title + ": nothing is left", at + 1, 0, "pop", at + 1, "Underflow"))
            return
        kind = "intlow" if self.gives == "int" else self.gives
        shown, wanted = ("arraylength", "array byte") if kind == "short" else ("sneg", "short")
        found = kind.replace("fresh", "fresh @%d" % at)
        method.snip(head + "nop; " + self.drop(),
                    (self.title + ": gives " + kind.replace("low", ""), at + 1, 0, shown, at + 1, "Mismatch found %s wanted %s" % (found, wanted)),
                    (self.title + ": gives no more", at + 3, 0, "pop", at + 3, "Underflow"))
        if kind == "intlow":
            method.snip(head + "i2s; pop")

    def method(self):
        """A method with an operand of each type in each place."""
        method = Method(self.title, stack=14, registers=12)
        self.add_operands(method)
        self.add_given(method)
        if "next" in self.text.split():
            self.add_left(method)
        method.add("return")
        return method

    def add_operands(self, method):
        for number, demand in enumerate(self.asks):
            for kind in (kind for kind in self.kinds if kind not in self.without):
                if not serves(demand, kind):
                    self.add_refused(method, number, kind)
                elif kind != "fresh":
                    deeper, upper = self.asks[:number:-1], self.asks[:number][::-1]
                    method.add("; ".join([*map(push, deeper), PUSHES[kind], *map(push, upper), self.text, self.drop()]))
            self.add_short(method, number)

    def add_left(self, method):
        """A branch is left, or its target fallen into, with a cell on the stack."""
        pushes = [push(one) for one in self.asks[::-1]]
        method.snip("; ".join(["nop", *pushes, self.text]),
                    (self.title + ": a cell is left", 0, 0, "sconst_1", len(pushes) + 1, "StackAtBranch"))
        label = "back%d" % len(method.items)
        words = self.text.split()
        for number, at in enumerate(at for at, word in enumerate(words) if word == "next"):
            text = " ".join([*words[:at], label, *words[at + 1:]])
            method.snip("; ".join(["nop", label + ": nop", *pushes, text]),
                        ("%s: target %d is fallen into with a cell" % (self.title, number), 0, 0, "sconst_1", 1, "StackAtTarget"))
            label += "_"

    def room(self):
        """A method with just the room that the result takes; None where the operands have as much."""
        taken, given = cells(self.asks), {None: 0, "int": 2}.get(self.gives, 1)
        if given <= taken:
            return None
        method = Method(self.title + ", room", stack=given, registers=12)
        method.snip("; ".join(["nop", *map(push, self.asks[::-1]), self.text, self.drop(), "return"]),
                    (self.title + ": one cell of room lacks", 0, 0, "sconst_1", len(self.asks) + 1, "Overflow"))
        return method.header(self.title + ": max_stack is one less", 1, given - 1, len(self.asks) + 1, "Overflow")


# ---- the instructions by their kinds


def constants():
    yield from (Rule("nop"), Rule("aconst_null", "", "null"))
    for row in BY_OPCODE[2:16]:
        yield Rule(row[0], "", "short" if row[0][0] == "s" else "int")
    yield from (Rule("bspush -7", "", "short"), Rule("sspush 300", "", "short"), Rule("bipush -7", "", "int"),
                Rule("sipush 300", "", "int"), Rule("iipush 100000", "", "int"))


def arrays():
    yield Rule("aaload", "short refs", "null")
    yield from (Rule("baload", "short bytes", "short"), Rule("saload", "short [S", "short"), Rule("iaload", "short [I", "int"))
    yield from (Rule("aastore", "object short refs"), Rule("bastore", "short short bytes"), Rule("sastore", "short short [S"),
                Rule("iastore", "int short [I"), Rule("arraylength", "array", "short"))
    for kind in ("boolean", "byte", "short", "int"):
        yield Rule("newarray " + kind, "short", "array " + kind)
    for name in ("Parent", "Object", "Thing", "Own", "Hollow"):
        yield Rule("anewarray " + name, "short", "array " + type_told(name))


def arithmetic():
    unary = {"sneg": "short", "s2b": "short", "s2i": "int", "i2b": "short", "i2s": "short", "ineg": "int"}
    for row in BY_OPCODE[65:89]:
        if row[0] not in unary:
            kind = "short" if row[0][0] == "s" else "int"
            yield Rule(row[0], "%s %s" % (kind, kind), kind)
    for name, given in unary.items():
        yield Rule(name, "int" if name[0] == "i" else "short", given)
    yield Rule("icmp", "int int", "short")


def branches():
    for name in (*BRANCHES, *(name + "_w" for name in BRANCHES)):
        yield Rule(name + " next", " ".join(rule_asks(name)))
    yield from (Rule("goto next"), Rule("goto_w next"))
    yield from (Rule("stableswitch next -1 1 next next next", "short"), Rule("itableswitch next 7 8 next next", "int"),
                Rule("slookupswitch next 2 -5 next 7 next", "short"), Rule("ilookupswitch next 2 -70000 next 70000 next", "int"),
                Rule("slookupswitch next 0", "short"), Rule("ilookupswitch next 0", "int"))


def field_rules(reading, writing, name, kind, below):
    """Reading and writing a field of this type, over these cells."""
    gives = "int" if kind == "I" else type_told(kind)
    asks = {"I": "int", "S": "short", "B": "short", "Z": "short"}.get(kind, kind)
    return Rule("%s %s" % (reading, name), below, gives), Rule("%s %s" % (writing, name), (asks + " " + below).strip())


def letter(kind):
    return {"Z": "b", "B": "b", "S": "s", "I": "i"}.get(kind, "a")


def fields():
    for name, kind in (*TYPES.items(), ("Thing.theThing", "Thing"), ("Thing.theBoolean", "Z"), ("Thing.theShort", "S"), ("Thing.theInt", "I")):
        yield from field_rules("getstatic_" + letter(kind), "putstatic_" + letter(kind), name, kind, "")
    for owner, name, kind in (("Parent", "a", "Parent"), ("Parent", "array", "[S"), ("Parent", "held", "Own"), ("Parent", "z", "Z"),
                              ("Parent", "b", "B"), ("Parent", "s", "S"), ("Parent", "i", "I"), ("Thing", "a", "Thing"), ("Thing", "b", "B"),
                              ("Thing", "s", "S"), ("Thing", "i", "I"), ("Child", "a", "Parent"), ("Child", "s", "S")):
        for form in ("", "_w") if owner == "Parent" and name in "absi" else ("",):
            yield from field_rules("getfield_" + letter(kind) + form, "putfield_" + letter(kind) + form, owner + "." + name, kind, owner)


def calls():
    yield from (Rule("invokevirtual Parent.get", "Parent", "short"), Rule("invokevirtual Parent.wide", "int Parent", "int"),
                Rule("invokevirtual Parent.next", "Parent Parent", "class Parent"), Rule("invokevirtual Parent.none", "Parent"),
                Rule("invokevirtual Parent.near", "short Parent", "short"), Rule("invokevirtual Object.equals", "object object", "short"),
                Rule("invokevirtual Thing.put", "int [S Thing", "array short"), Rule("invokevirtual Child.size", "short Child", "short"),
                Rule("invokevirtual Child.next", "Parent Child", "class Parent"), Rule("invokevirtual Hollow.hollow", "Hollow"))
    yield from (Rule("invokespecial super.get", "Child", "short"), Rule("invokespecial super.near", "short Child", "short"),
                Rule("invokespecial super.put", "int [S Part", "array short"), Rule("invokespecial Parent.hidden", "short Parent", "short"),
                Rule("invokespecial super.next", "Parent Tests", "class Parent"), Rule("invokespecial bare.get", "Parent", "short"))
    yield from (Rule("invokestatic Parent.twice", "short", "short"), Rule("invokestatic Parent.sum", "short int", "int"),
                Rule("invokestatic Parent.make", "[S Parent", "class Parent"), Rule("invokestatic Thing.only", "short", "class Thing"),
                Rule("invokestatic Parent.many", "[Own Own [I [B [Z short short"))
    yield from (Rule("invokeinterface 2 Own 0", "short object", "int"), Rule("invokeinterface 2 Sized 0", "short object", "short"),
                Rule("invokeinterface 4 Named 1", "object int object", "short"))


def objects():
    yield from (Rule("new " + name, "", "fresh class " + name) for name in ("Parent", "Child", "Thing", "Object", "Full"))
    yield Rule("athrow", "Throwable")
    kinds = [("object", name) for name in ("Parent", "Object", "Thing", "Own")]
    kinds += [("array", name) for name in ("Parent", "Object", "Own")] + [(name, "Object") for name in ("boolean", "byte", "short", "int")]
    for kind, name in kinds:
        given = {"object": "", "array": "array "}
        type_given = given[kind] + type_told(name) if kind in given else "array " + kind
        yield Rule("checkcast %s %s" % (kind, name), "object", type_given)
        yield Rule("instanceof %s %s" % (kind, name), "object", "short")


def elements():
    """What is loaded from an array of a class is of this class."""
    method = Method("aaload, elements", stack=4)
    for name, element in (("theParents", "Parent"), ("theChildren", "Child"), ("theObjects", "Object"), ("theOwns", "Object")):
        method.snip("getstatic_a %s; sconst_1; aaload; nop; pop" % name, (
            "aaload: gives class " + element, 3, 0, "sneg", 3, "Mismatch found class %s wanted short" % element))
        method.add("getstatic_a %s; sconst_1; aaload; putstatic_a the%s" % (name, element))
    return method.snip("return")


def rooms():
    """Where a demand is not met and room lacks too, the demand comes first."""
    wrong_object = "Mismatch found short wanted class Parent"
    for before, former, given, fault in (
            ("aconst_null", "nop", "s2i", "Mismatch found null wanted short"), ("iconst_1", "nop", "dup", "SplitInt"),
            ("iconst_1; sconst_1", "nop", "dup2", "SplitInt"), ("sconst_1", "sinc 0 Parent.i", "getfield_i_w", wrong_object),
            ("iconst_1; sconst_1", "sstore 34", "dup_x", "SplitInt"), ("iconst_1; sconst_1", "sstore 36", "dup_x", "SplitInt"),
            ("sconst_1; sconst_1", "sstore Parent.i", "getfield_i", wrong_object)):
        pushes = before.split("; ")
        method = Method("%s in place of %s" % (given, former), registers=100, stack=len(pushes) + before.count("iconst"))
        yield method.snip("%s; %s; return" % (before, former), (
            "%s: the demand comes before the room" % given, len(pushes), 0, given, len(pushes), fault))


def families():
    """The methods of each family of instructions, by the family's name."""
    for name, rules in (("constants", constants), ("arrays", arrays), ("arithmetic", arithmetic), ("branches", branches), ("fields", fields),
                        ("calls", calls), ("objects", objects)):
        methods, seen = [], set()
        for rule in rules():
            rule.kinds = FEW if tuple(rule.asks) in seen else rule.kinds
            seen.add(tuple(rule.asks))
            methods += [one for one in (rule.method(), rule.room()) if one]
        yield name, methods + ([elements()] if name == "arrays" else [])
    yield "room", list(rooms())
