"""The cases of what is asked before the operands: how an instruction is decoded, where it leads, and what it names in the pool. Then those
of cells that move, and of objects before their constructor ran."""
from instructions import BRANCHES, BY_OPCODE, POOL, POOL_BYTE, SIZES
from rule_cases import PUSHES, Rule, push, rule_asks
from rule_package import Method
from rule_world import ENTRIES, Root

LEFT_OUT, UNUSED = (113, 114, 254, 255), range(185, 254)
BEYOND = 250        # no entry of the pool has this number


# ---- decoding


def opcodes():
    method = Method("opcodes")
    method.add("return")
    for opcode in (*LEFT_OUT, *UNUSED):
        fault = "%s %d" % ("OutOfScope" if opcode in LEFT_OUT else "NoOpcode", opcode)
        method.header("opcode %d" % opcode, 4, opcode, 0, fault)
    yield method


def cut_codes():
    """The last instruction becomes one with operands, of which none or not all are there."""
    for there in range(8):
        method = Method("the code ends after %d bytes of operands" % there)
        method.add("return; " + "nop; " * there + "return")
        for opcode, row in enumerate(BY_OPCODE):
            operands = row[1:] if row else ()
            size = sum(map(SIZES.get, operands[:3] if row and "switch" in row[0] else operands))
            if there < size and (there == 0 or there == size - 1) and not (row[0].endswith("lookupswitch") and there):
                method.header("%s: %d of %d bytes of operands are there" % (row[0], there, size), 4 + 1, opcode, 1, "Cut")
        yield method


def switch_codes():
    method = Method("tables of switches")
    method.snip("sconst_1; stableswitch next 1 2 next next", ("stableswitch: the high bound is below the low one", 1, 6, 0, 1, "BadOperand 0"),
                ("stableswitch: bounds are signed", 1, 3, 128, 1, "Cut"), ("stableswitch: the low bound is above", 1, 4, 3, 1, "BadOperand 0"),
                ("stableswitch: the high bound is negative", 1, 5, 255, 1, "BadOperand 255"))
    method.snip("iconst_1; itableswitch next 1 2 next next", ("itableswitch: the high bound is below the low one", 1, 10, 0, 1, "BadOperand 0"),
                ("itableswitch: the high bound is negative", 1, 7, 255, 1, "BadOperand 255"), ("itableswitch: more cases than bytes", 1, 9, 1, 1, "Cut"))
    method.snip("sconst_1; slookupswitch next 3 -2 next 1 next 300 next", ("slookupswitch: a negative key after", 1, 9, 128, 1, "BadOperand 128"),
                ("slookupswitch: more keys than bytes", 1, 3, 200, 1, "Cut"), ("slookupswitch: keys are signed", 1, 5, 127, 1, "BadOperand 0"))
    method.snip("iconst_1; ilookupswitch next 3 -2 next 1 next 70000 next", ("ilookupswitch: a negative key after", 1, 11, 128, 1, "BadOperand 128"),
                ("ilookupswitch: keys are signed", 1, 5, 127, 1, "BadOperand 0"), ("ilookupswitch: more keys than bytes", 1, 3, 200, 1, "Cut"))
    method.snip("sconst_1; slookupswitch next 2 1 next 2 next", ("slookupswitch: a key as the one before", 1, 10, 1, 1, "BadOperand 0"),
                ("slookupswitch: a key below the one before", 1, 10, 0, 1, "BadOperand 0"))
    method.snip("iconst_1; ilookupswitch next 2 1 next 2 next", ("ilookupswitch: a key as the one before", 1, 14, 1, 1, "BadOperand 0"),
                ("ilookupswitch: a key below the one before", 1, 14, 0, 1, "BadOperand 0"))
    yield method.snip("return")


def forbidden_operands():
    method = Method("forbidden operands", stack=20)
    method.add("; ".join(["sconst_1"] * 8))
    for name, allowed, good in (("dup_x", [16 * m + n for m in range(1, 5) for n in (0, *range(m, m + 5))], 0x11),
                                ("swap_x", [0x11, 0x12, 0x21, 0x22], 0x11)):
        wrong = [value for value in [16 * m + n for m in range(6) for n in range(10)] + [255] if value not in allowed]
        method.snip("%s %d" % (name, good), *(("%s: operand %d" % (name, value), 0, 1, value, 0, "BadOperand %d" % value) for value in wrong))
    for name, kinds in (("newarray", (10, 11, 12, 13)), ("checkcast", (0, 10, 11, 12, 13, 14)), ("instanceof", (0, 10, 11, 12, 13, 14))):
        before, operands = ("sconst_1", "boolean") if name == "newarray" else ("aconst_null", "object Parent")
        wrong = [value for value in (*range(18), 127, 255) if value not in kinds]
        method.snip("%s; %s %s; pop" % (before, name, operands), *(
            ("%s: type %d" % (name, value), 1, 1, value, 1, "BadOperand %d" % value) for value in wrong))
        if name != "newarray":
            method.snip("aconst_null; %s short Parent; pop" % name, (name + ": the index beside a type of numbers is not read", 1, 3, BEYOND, 0, None))
    yield method.snip("return")


def targets():
    """The offset of each branch is changed to lead to no instruction: into one, before the code, to its end and beyond."""
    names = [*BRANCHES, "goto"]
    for name in (*names, *(name + "_w" for name in names)):
        method = Method(name + ", targets", stack=2)
        pushes = [] if "goto" in name else [push(one) for one in rule_asks(name)]
        at, low = len(pushes) + 1, 2 if name.endswith("_w") else 1
        method.add("; ".join(["nop", *pushes, name + " over", "over: sspush 5", "pop", "return"]))
        for told, offset, value in (("into an instruction", low, low + 2), ("its own operand", low, 1), ("the end of the code", low, low + 6),
                                    ("far beyond", low, 127), ("before the code", 1, 255 if low == 2 else -at - 1)):
            method.change("%s: %s" % (name, told), at, offset, value, "BadTarget")
        if low == 2:
            method.change(name + ": the upper byte counts", at, 1, 1, "BadTarget")
        yield method
    yield switch_targets()


def switch_targets():
    method = Method("targets of switches")
    for text, before, defaults, cases in (
            ("stableswitch next 1 2 next next", "sconst_1", 1, (7, 9)), ("itableswitch next 1 2 next next", "iconst_1", 1, (11, 13)),
            ("slookupswitch next 2 1 next 2 next", "sconst_1", 1, (7, 11)), ("ilookupswitch next 2 1 next 2 next", "iconst_1", 1, (9, 15))):
        name = text.split()[0]
        method.snip("%s; %s" % (before, text), (name + ": the default leads into itself", 1, defaults + 1, 1, 1, "BadTarget"),
                    (name + ": the first case leads into itself", 1, cases[0] + 1, 1, 1, "BadTarget"),
                    (name + ": the second case leads beyond the code", 1, cases[1], 100, 1, "BadTarget"))
    return method.snip("return")


# ---- members

NAMED = {
    "a class": "Parent", "an interface": "Own", "a field of references": "Parent.a", "a boolean field": "Parent.z", "a byte field": "Parent.b",
    "a short field": "Parent.s", "an int field": "Parent.i", "a virtual method": "Parent.get", "a method of the superclass": "super.get",
    "a static field of references": "theParent", "a static boolean": "theBoolean", "a static byte": "theByte", "a static short": "theShort",
    "a static int": "theInt", "a static method": "Parent.twice", "a constructor": "Parent.init", "a private method": "Parent.hidden",
    "an abstract method by its offset": "bare.hollow", "an abstract method of the superclass": "super.hollow",
    "an inherited virtual method": "Child.next", "the entry after the last": len(ENTRIES), "an entry far beyond": BEYOND,
}
FIELDS = {"a": ("a field of references",), "b": ("a boolean field", "a byte field"), "s": ("a short field",), "i": ("an int field",)}
STATICS = {"a": ("a static field of references",), "b": ("a static boolean", "a static byte"), "s": ("a static short",), "i": ("a static int",)}
SERVING = {
    "invokevirtual": ("a virtual method", "an inherited virtual method"), "invokespecial": ("a method of the superclass", "a constructor", "a private method"),
    "invokestatic": ("a static method",), "invokeinterface": ("an interface",), "new": ("a class", "an interface"),
    "anewarray": ("a class", "an interface"), "checkcast": ("a class", "an interface"), "instanceof": ("a class", "an interface"),
}
EXAMPLES = {"new": "new Parent", "anewarray": "anewarray Parent", "checkcast": "checkcast object Parent", "instanceof": "instanceof array Parent",
            "invokevirtual": "invokevirtual Parent.get", "invokespecial": "invokespecial super.get", "invokestatic": "invokestatic Parent.twice",
            "invokeinterface": "invokeinterface 2 Own 0"}


def serving(name):
    if name in SERVING:
        return SERVING[name]
    return (STATICS if "static" in name else FIELDS)[name.split("_")[1]]


def index_offset(row):
    """Where the last byte of the index stands in an instruction, and how many bytes it has."""
    at = 1
    for kind in row[1:]:
        at += SIZES[kind]
        if kind in (POOL, POOL_BYTE):
            return at - 1, SIZES[kind]
    return None


def member_kinds():
    """An instruction that nothing reaches names an entry that serves, and then each that does not."""
    for row in filter(None, BY_OPCODE):
        if index_offset(row) is None:
            continue
        name, (at, size) = row[0], index_offset(row)
        method = Method(name + ", members", stack=10, registers=1)
        good = EXAMPLES.get(name) or "%s %s" % (name, NAMED[serving(name)[0]])
        pushes = before_member(name)
        refused = len(pushes)
        for told, entry in NAMED.items():
            if told in serving(name):
                continue
            method.change(name + ": names " + told, refused, at, entry, "BadMember")
        if size == 2:
            method.change(name + ": the upper byte of the index", refused, at - 1, 1, "BadMember")
        method.add("; ".join([*pushes, good, "return"]))
        yield method


def before_member(name):
    if name in ("new", "invokestatic", "anewarray"):
        return [] if name == "new" else ["sconst_1"]
    if "interface" in name:
        return ["aconst_null", "sconst_1"]
    if name in SERVING:
        return ["aconst_null"]
    value = {"a": "aconst_null", "i": "iconst_1"}.get(name.split("_")[1], "sconst_1")
    pushes = [] if "static" in name or "this" in name else ["aconst_null"]
    return pushes + ([value] if name.startswith("put") else [])


def other_members():
    method = Method("what interface calls name", stack=10)
    method.snip("aconst_null; sconst_1; invokeinterface 2 Own 0; pop2", *(
        ("invokeinterface: %d words" % words, 2, 1, words, 2, "BadMember") for words in (0, 1, 3, 255)),
        ("invokeinterface: a token that the interface has not", 2, 4, 1, 2, "BadMember"), ("invokeinterface: token 255", 2, 4, 255, 2, "BadMember"))
    method.snip("aconst_null; iconst_1; aconst_null; invokeinterface 4 Named 1; pop",
                ("invokeinterface: a method that another interface describes", 3, 4, 0, 3, "BadMember"),
                ("invokeinterface: an int is two words", 3, 1, 3, 3, "BadMember"))
    method.snip("aconst_null; sconst_1; invokeinterface 2 Sized 0; pop", (
        "invokeinterface: what the interface extends describes the method", 2, 3, "Named", 2, "BadMember"))
    method.snip("new Parent; pop", ("new: an interface", 0, 2, "Own", 0, "NotConcrete"),
                ("new: a class with an abstract method", 0, 2, "Hollow", 0, "NotConcrete"),
                ("new: a class that inherits an abstract method", 0, 2, "Vacant", 0, "NotConcrete"),
                ("new: an interface of the library", 0, 2, "Sized", 0, "NotConcrete"))
    yield method.snip("return")
    order = Method("members before operands", stack=4, registers=1)
    for name in ("putstatic_s", "new", "anewarray", "invokestatic", "invokevirtual", "invokespecial"):
        order.snip("sspush %d; pop" % BEYOND, ("%s: the member is asked first" % name, 0, 0, name, 0, "BadMember"))
    for name in ("getfield_s", "putfield_s", "putfield_s_this"):
        order.snip("bspush Parent.a; pop", ("%s: the member is asked first" % name, 0, 0, name, 0, "BadMember"))
    order.snip("bspush Parent.s; pop", ("putfield_s: then the stack", 0, 0, "putfield_s", 0, "Underflow"),
               ("putfield_s_this: then the stack", 0, 0, "putfield_s_this", 0, "Underflow"))
    for name in ("astore", "sstore", "istore", "aload", "sload", "iload"):
        order.snip("bspush 77; pop", ("%s: the register is asked first" % name, 0, 0, name, 0, "NoLocal 77"))
    order.snip("sconst_1; sstore_0; bspush Parent.s; pop", (
        "putfield_s_this: the cell is asked before the class of register 0", 2, 0, "putfield_s_this", 2, "Underflow"))
    yield order.snip("return")
    bare = Method("no registers and no operands", stack=4)
    bare.snip("bspush Parent.s; pop", ("putfield_s_this: the register is asked before the stack", 0, 0, "putfield_s_this", 0, "NoLocal 0"))
    yield bare.snip("return")


# ---- cells that move

MARKS = ["array boolean", "array byte", "array short", "array int", "class Parent", "class Child", "class Thing", "class Alarm",
         "array class Parent", "array class Child", "class Object", "class Sibling"]


def moves():
    for text, given in (("pop", None), ("dup", "two")):
        method = Method(text, stack=4)
        Rule(text, "whole", given).add_operands(method)
        yield method.snip("return")
    moved = [("pop2", 2, 0), ("dup2", 2, 0), ("dup", 1, 0), ("pop", 1, 0)]
    moved += [("dup_x %d" % (16 * m + n), m, n) for m in range(1, 5) for n in (0, *range(m, m + 5))]
    moved += [("swap_x %d" % (16 * m + n), m, n) for m in (1, 2) for n in (1, 2)]
    for text, m, n in moved:
        depth, left = m + n if text.startswith("swap") else max(m, n), left_by(text, m, n)
        yield moved_cells(text, depth, left)
        yield split_ints(text, depth, sorted({m, depth if text.startswith("swap") else n or m}))
        if len(left) > depth:
            yield room(text, depth, len(left))


def left_by(text, m, n):
    """The cells after a move, from the top down, by their numbers before."""
    if text.startswith("pop"):
        return []
    if text.startswith("swap"):
        return [*range(m, m + n), *range(m)]
    return [*range(n or m), *range(m)]


def moved_cells(text, depth, left):
    """Cells of unlike types: each is shown where it stands afterwards. Then some of them are missing."""
    method, pushes = Method(text + ", cells", stack=24), [PUSHES[kind] for kind in MARKS[:depth][::-1]]
    for number, cell in enumerate(left):
        at = depth + 1 + number
        method.snip("; ".join([*pushes, text, *["pop"] * number, "nop", "return"]), (
            "%s: cell %d is then what was cell %d" % (text, number, cell), at, 0, "sneg", at, "Mismatch found %s wanted short" % MARKS[cell]))
    at = depth + 1 + len(left)
    method.snip("; ".join([*pushes, text, *["pop"] * len(left), "nop", "return"]), (
        text + ": %d cells are there then" % len(left), at, 0, "pop", at, "Underflow"))
    for there in range(depth):
        method.snip("; ".join([*["sconst_1"] * (depth - there), "nop", *["sconst_1"] * there, text, "return"]), (
            "%s: %d cells are there" % (text, there), depth - there, 0, "return", depth + 1, "Underflow"))
    return method.snip("return")


def split_ints(text, depth, cuts):
    """A short becomes an int, so that one of the cuts lies between its halves."""
    method = Method(text + ", ints", stack=24)
    for cut in cuts:
        method.snip("; ".join([*["sconst_1"] * depth, "sconst_1", *["sconst_1"] * (cut - 1), text, "return"]), (
            "%s: an int lies across cut %d" % (text, cut), depth, 0, "iconst_1", depth + cut, "SplitInt"))
        if cut + 1 not in cuts:     # an int right below a cut
            method.add("; ".join(["iconst_1", *["sconst_1"] * depth, "iconst_1", *["sconst_1"] * cut, text, "return"]))
    if min(cuts) > 1:
        method.add("; ".join([*["sconst_1"] * depth, "iconst_1", text, "return"]))
    return method.snip("return")


def room(text, depth, size):
    method, title = Method(text + ", room", stack=size), text + ": "
    method.snip("; ".join(["nop", *["sconst_1"] * depth, text, "return"]), (
        title + "one cell of room lacks", 0, 0, "sconst_1", depth + 1, "Overflow"))
    return method.header(title + "max_stack is one less", 1, size - 1, depth + 1, "Overflow")


# ---- objects before their constructor ran


def constructors():
    for name in ("Parent", "Object", "Thing", "Child"):
        yield Rule("invokespecial %s.init" % name, name, without=("fresh",)).method()
    yield Rule("invokespecial Parent.initS", "short Parent", without=("fresh",)).method()
    method = Method("new objects", stack=8, registers=1)
    for title, text, at, shown, fault in (
            ("a constructor makes the copy ready", "new Parent; dup; invokespecial Parent.init; nop; pop", 3, "sneg",
             "Mismatch found class Parent wanted short"),
            ("a constructor makes each copy ready", "new Parent; dup; dup; invokespecial Parent.init; pop; nop; pop", 5, "sneg",
             "Mismatch found class Parent wanted short"),
            ("an object made elsewhere stays new", "new Parent; new Parent; dup; invokespecial Parent.init; pop; nop; pop", 5, "sneg",
             "Mismatch found fresh @0 class Parent wanted short"),
            ("a constructor with an argument makes the copy ready", "new Parent; dup; sconst_1; invokespecial Parent.initS; nop; pop", 4, "sneg",
             "Mismatch found class Parent wanted short"),
            ("a constructor takes its receiver", "new Parent; invokespecial Parent.init; nop", 2, "pop", "Underflow")):
        method.snip(text, (title, at, 0, shown, at, fault))
    for name, other in (("Child", "Parent"), ("Parent", "Child"), ("Parent", "Thing")):
        method.snip("new %s; dup; invokespecial %s.init; pop" % (name, name), (
            "the constructor of %s, of a new %s" % (other, name), 2, 2, other + ".init", 2,
            "Mismatch found fresh @0 class %s wanted class %s" % (name, other)))
    method.add("getstatic_a theChild; astore_0")
    method.snip("new Child; dup; invokespecial Child.init; putstatic_a theChild", (
        "a constructor of what is ready leaves a new object", 1, 0, "aload_0", 3, "Mismatch found fresh @0 class Child wanted class Child"))
    yield method.snip("return")
    again = Method("new objects in a loop", stack=4, registers=1)
    yield again.snip("again: new Parent; dup; invokespecial Parent.init; astore_0; sconst_1; ifeq again; return", (
        "a new object at a branch", 3, 0, "nop", 5, "StackAtBranch"))


def root_package():
    """Object may have an abstract method, which no call may name; of any other class it may."""
    method = Method("abstract methods of object", stack=2)
    method.snip("aconst_null; invokevirtual Throwable.run", ("invokevirtual: an abstract method of object", 1, 2, "Object.run", 1, "BadMember"))
    method.snip("aconst_null; invokespecial super.run", ("invokespecial: an abstract method of object", 1, 2, "above.run", 1, "BadMember"))
    return Root([method.snip("return")])


def families():
    yield "decoding", [*opcodes(), *cut_codes(), *switch_codes(), *forbidden_operands(), *targets()]
    yield "members", [*member_kinds(), *other_members()]
    yield "moves", list(moves())
    yield "constructors", list(constructors())
