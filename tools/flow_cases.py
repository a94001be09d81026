"""The cases of a method as a whole: where control falls and where a target is, entries of handlers, passes until no register is raised,
and lists of branch targets."""
from instructions import BRANCHES
from rule_cases import push, rule_asks
from rule_package import Method
from rule_world import Rules, join

ENDS = ["goto back", "goto_w back", "stableswitch back 0 0 back", "itableswitch back 0 0 back", "slookupswitch back 0",
        "ilookupswitch back 1 5 back", "athrow", "return"]
BEFORE = {"s": "sconst_1; ", "i": "iconst_1; ", "a": "aconst_null; "}


def before(text):
    return BEFORE[text[0]] if "switch" in text or text == "athrow" else ""


# ---- where control falls


def endings():
    """The last instruction does not fall; one byte makes it one that does."""
    for text in ENDS:
        name = text.split()[0]
        yield Method(name + ", the last instruction", stack=4).snip("back: nop; %s%s" % (before(text), text))
        method = Method(name + ", and then", stack=4)
        yield method.snip("back: sconst_1; pop; sconst_1; return; %s%s; nop; %s" % (before(text), text, "return"), (
            name + ": nothing is left of the stack", 5 + bool(before(text)), 0, "pop", 5 + bool(before(text)), "Underflow"))
    method = Method("the last instruction falls", stack=4)
    method.add("return")
    for name in ("nop", "aconst_null", "sconst_0", "iconst_5"):
        method.change(name + ", the last instruction", 0, 0, name, "FallsOff")
    yield method.change("pop, the last instruction, is refused first", 0, 0, "pop", "Underflow")
    method = Method("a branch is the last instruction", stack=4)
    yield method.snip("back: sconst_1; pop; goto back", ("a cell is left at the last instruction", 1, 0, "nop", 2, "StackAtBranch"))
    tail = Method("cells under what does not fall", stack=6)
    for text in ("return", "aconst_null; athrow"):
        tail.snip("iconst_1; sconst_1; %s; nop" % text, (
            text.split()[-1] + ": cells under it go", 3 + text.count(";"), 0, "pop", 3 + text.count(";"), "Underflow"))
    yield tail.snip("return")


def targets():
    """A target that nothing reaches counts too, and one after an instruction that does not fall has an empty stack."""
    method = Method("targets of code that nothing reaches", stack=4)
    method.snip("nop; nop; here: nop; return; goto here", ("a target of code that nothing reaches", 0, 0, "sconst_1", 2, "StackAtTarget"))
    method.snip("nop; there: return; sconst_1; ifeq there; return", ("a target from below", 0, 0, "sconst_1", 1, "StackAtTarget"))
    method.snip("sconst_1; ifeq ahead; nop; ahead: return", ("a target from above", 2, 0, "sconst_1", 3, "StackAtTarget"))
    yield method.snip("sconst_1; return; after: nop; goto after; sconst_1; return; sconst_1; ifeq after; return")
    free = Method("a stack where no target is", stack=4)
    yield free.snip("sconst_1; nop; nop; pop; sconst_1; ifeq near; nop; near: return", (
        "a branch leads where a cell stands", 5, 1, -3, 2, "StackAtTarget"), ("a branch leads to itself", 5, 1, 0, 5, "StackAtTarget"))
    first = Method("place 0 is a target", stack=4)
    yield first.snip("back: sconst_1; sconst_1; pop; ifeq back; return")
    yield from rules_first()
    yield from distances()


def rules_first():
    """What is asked first at one instruction."""
    method = Method("the target before the rule", stack=4)
    method.snip("aconst_null; pop; at: sconst_1; pop; return; goto at", ("StackAtTarget before the rule", 1, 0, "nop", 2, "StackAtTarget"))
    yield method
    method = Method("the rule before the branch", stack=4)
    yield method.snip("sconst_1; nop; ifeq next; return", ("the rule before StackAtBranch", 1, 0, "aconst_null", 2, "Mismatch found null wanted short"),
                      ("StackAtBranch after the rule", 1, 0, "sconst_1", 2, "StackAtBranch"))


def distances():
    """Branches over more than 127 and more than 255 bytes, back and forth."""
    for name in ("goto_w", "ifeq_w", "if_acmpeq_w"):
        pushes = [] if name == "goto_w" else [push(one) for one in rule_asks(name)]
        method = Method(name + ", far", stack=4)
        method.snip("; ".join([*pushes, name + " far", "back: return", *["nop"] * 300, "nop; far: nop", *pushes, name + " back", "return"]), (
            name + ": far ahead", len(pushes) + 302, 0, "sconst_1", len(pushes) + 303, "StackAtTarget"))
        yield method
    method = Method("near branches", stack=4)
    yield method.snip("; ".join(["goto far", "back: return", *["nop"] * 118, "nop; far: nop", "goto back", "return"]), (
        "goto: as far ahead as a byte leads", 120, 0, "sconst_1", 121, "StackAtTarget"))
    deep = Method("255 cells", stack=255)
    deep.add("; ".join(["sconst_1"] * 255 + ["return"]))
    yield deep.header("max_stack 254 of 255", 1, 254, 254, "Overflow").header("max_stack 128 of 255", 1, 128, 128, "Overflow")
    for size in (15, 1):
        small = Method("a short header", stack=size, registers=size, is_compact=True)
        small.add("; ".join(["sconst_1"] * size + ["return", "aload %d" % (size - 1), "return"]))
        small.header("a short header: max_stack %d" % (size - 1), 0, size - 1, size - 1, "Overflow")
        yield small.header("a short header: %d registers" % (size - 1), 1, size - 1, size + 1, "NoLocal %d" % (size - 1))


# ---- handlers


def guarded(name, caught, text="", **more):
    """A method with an empty range and a handler, whose code begins with the instruction of number 3."""
    method = Method(name, **{"stack": 4, **more})
    method.add("begin: nop; nop; end: return; entry: " + (text or "nop; pop; nop; return"))
    method.handlers = [("begin", "end", "entry", one) for one in caught]
    return method


def caught():
    names = {None: "all", "Throwable": "Throwable", "Alarm": "Alarm", "Siren": "Siren", "Bell": "Bell", "NullPointer": "NullPointer"}
    for group in ([None], ["Throwable"], ["Alarm"], ["NullPointer"], ["Siren", "Bell"], ["Siren", "Alarm"], ["Alarm", "Siren"], ["Siren", "NullPointer"],
                  ["Siren", None], [None, "Bell"], ["Siren", "Siren"], ["Bell", "Siren", "Siren"], ["Siren", "Siren", "NullPointer"]):
        kinds = ["class " + (name or "Throwable") for name in group]
        found = kinds[0]
        for kind in kinds[1:]:
            found = join(found, kind)
        title = "a handler of " + " and ".join(names[name] for name in group)
        method = guarded(title, group)
        method.change(title + ": what it takes", 3, 0, "sneg", "Mismatch found %s wanted short" % found)
        method.change(title + ": it takes one object", 5, 0, "pop", "Underflow")
        yield method


def entries():
    method = guarded("where a handler is entered", [None], "nop; return; sconst_1; ifeq over; nop; over: return")
    title = "a handler's entry: "
    for told, moved, refused in (("place 0", "-3", 0), ("an instruction that is fallen into", "-1", 2), ("the next instruction", "+1", 4),
                                 ("after a branch", "+5", 7), ("a target", "+6", 8)):
        method.handler(title + told, 0, 5, moved, refused, "HandlerEntered")
    method.handler(title + "inside an instruction", 0, 5, "+4", 0, "place @6+1 BadHandler 0")
    method.handler(title + "after a return", 0, 5, "+2", 6, "StackAtBranch")
    method.change("a branch leads to a handler's entry", 6, 1, -3, "HandlerEntered", 3)
    method.change("what does not fall before a handler's entry falls", 2, 0, "nop", "HandlerEntered", 3)
    method.header("a handler, and max_stack is 0", 1, 0, 3, "Overflow")
    yield method
    yield from ranges()
    yield from entered_after()
    yield from two_faults()


def ranges():
    method = Method("the range of a handler", stack=4)
    method.add("sspush 5; pop; sspush 5; pop; return; entry: pop; return")
    method.labels.update(begin=0, end=4)
    method.handlers = [("begin", "end", "entry", None)]
    title = "a handler's range: "
    method.handler(title + "empty", 0, 3, 0, 0, "place @5 BadHandler 0").handler(title + "ends inside an instruction", 0, 3, "-2", 0, "place @5 BadHandler 0")
    method.handler(title + "begins inside an instruction", 0, 1, "+1", 0, "place @5 BadHandler 0")
    method.handler(title + "to the end of the code", 0, 3, "+3", 0, None)
    method.handler(title + "its own entry too", 0, 3, "+2", 0, None)
    yield method
    two = Method("two handlers", stack=4)
    two.add("begin: sspush 5; pop; middle: nop; end: return; first: pop; return; second: nop; return")
    two.handlers = [("begin", "end", "first", None), ("begin", "middle", "second", "Alarm")]
    two.handler("the second handler is bad", 1, 3, "-2", 0, "place @6 BadHandler 1").handler("the first handler is bad", 0, 3, "-3", 0, "place @4 BadHandler 0")
    two.handler("two handlers with one entry", 1, 5, "-2", 0, None)
    yield two.change("a bad target before a bad handler", 2, 0, "goto", "BadTarget")


def two_faults():
    """One byte makes two faults, of which one comes first."""
    for text in ("stableswitch last 0 0 first", "slookupswitch last 1 0 first"):
        method = Method(text.split()[0] + ", two bad targets", stack=4)
        yield method.snip("sconst_1; %s; nop; first: nop; last: nop; return" % text, (
            text.split()[0] + ": the default comes before the cases", 2, 0, "sspush", 1, "BadTarget @4"))
    method = Method("a branch over what is not decoded", stack=4)
    yield method.snip("sconst_1; ifeq over; nop; over: return", (
        "a target beyond what is not decoded", 2, 0, 113, 1, "BadTarget @3"), ("what is not decoded, at the target", 3, 0, 113, 1, "BadTarget @3"))
    method = Method("two handlers that end together", stack=4)
    method.add("begin: nop; nop; end: nop; return; first: nop; return; second: nop; return")
    method.handlers = [("begin", "end", "first", None), ("begin", "end", "second", "Alarm")]
    yield method.change("the first handler of two that are bad", 1, 0, "bspush", "place @4 BadHandler 0")
    method = Method("a handler's entry after a cell that is left", stack=4)
    method.add("begin: nop; end: sconst_1; return; entry: pop; nop; return")
    method.handlers = [("begin", "end", "entry", None)]
    yield method.change("a handler's entry has one object alone", 4, 0, "pop", "Underflow")


def entered_after():
    """A handler is entered after an instruction that does not fall; then after each one that does."""
    for text in [*ENDS, *("%s back" % name for name in (*BRANCHES, *(name + "_w" for name in BRANCHES)))]:
        name = text.split()[0]
        falls = name.startswith("if")
        pushes = "".join(push(one) + "; " for one in rule_asks(name)) if falls else before(text)
        method = Method("a handler's entry after " + name, stack=4)
        method.add("back: nop; end: %s%s; %s" % (pushes, text, "nop; return; entry: pop; return" if falls else "entry: pop; return"))
        method.handlers = [("back", "end", "entry", None)]
        if falls:
            method.handler(method.name, 0, 5, "-2", pushes.count(";") + 2, "HandlerEntered")
        yield method


# ---- passes


def passes():
    """What comes to a register later in the code is met in the next pass."""
    for count in (1, 2, 3, 4, 7, 20):
        method = Method("%d passes until a type arrives" % (count + 1), registers=count + 1, stack=2)
        method.add("aload 0; putstatic_a theParent")
        for number in range(count):
            method.add("aload %d; astore %d" % (number + 1, number))
        at = method.add("getstatic_a theParent; astore %d; return" % count)
        method.change(method.name, at, 2, "theObject", "Mismatch found class Object wanted class Parent", 1)
        yield method.change(method.name + ", an array", at, 2, "theBytes", "Mismatch found array byte wanted class Parent", 1)
    method = Method("a type from a loop", registers=2, stack=2)
    yield method.snip("again: sload 0; pop; sconst_1; sstore 0; sconst_1; sstore 1; sconst_1; ifeq again; return", (
        "a number becomes a reference in a loop", 4, 0, "aconst_null", 5, "Mismatch found null wanted short"),
        ("an int comes to a short's register", 5, 1, 0, 5, None))
    yield from halves()
    late = Method("the first refusal as the code is walked", registers=1, stack=2)
    yield late.snip("aload 0; putstatic_a theParent; getstatic_a theParent; astore 0; aload 0; putstatic_a theParent; return", (
        "a later place in the first pass", 2, 2, "theThing", 5, "Mismatch found class Thing wanted class Parent"))
    climb = Method("a register that climbs", registers=5, stack=2)
    climb.add("aload 0; putstatic_a theThrowable; aload 1; astore 0; aload 2; astore 1; aload 3; astore 2")
    climb.add("getstatic_a theSiren; astore 0; getstatic_a theBell; astore 1; getstatic_a theThrowable; astore 2")
    yield climb.snip("getstatic_a theThrowable; astore 3; return", (
        "a register that climbs to class Object", 0, 2, "theOwn", -13, "Mismatch found class Object wanted class Throwable"))


def halves():
    """The halves of an int, and what another value makes of one."""
    method = Method("halves of an int", registers=4, stack=2)
    method.snip("iload 0; pop2; iconst_1; istore 0; sconst_1; sstore 2", (
        "a short in the low half of an int", 5, 1, 1, 0, "Mismatch found top wanted intlow"),
        ("a short in the high half of an int", 5, 1, 0, 0, "Mismatch found top wanted inthigh"))
    method.snip("return")
    yield method
    method = Method("two ints beside one another", registers=4, stack=2)
    yield method.snip("iload 0; pop2; iconst_1; istore 0; iconst_1; istore 2; return", (
        "an int half over another", 5, 1, 1, 0, "Mismatch found top wanted intlow"))


# ---- lists of branch targets


def listed():
    """Methods with two targets each: what a list says of them changes no answer."""
    for _ in range(2):
        method = Method("over a list", stack=4)
        yield method.snip("nop; back: nop; return; sconst_1; ifeq ahead; nop; sconst_1; nop; pop; sconst_1; ifeq back; nop; ahead: return", (
            "a target is fallen into with a cell, over a list", 0, 0, "sconst_1", 1, "StackAtTarget"),
            ("a target that the list lacks", 10, 1, -5, 10, None), ("a branch leads to a cell, over a list", 10, 1, -3, 7, "StackAtTarget"),
            ("a bad target, over a list", 4, 1, 1, 4, "BadTarget"))


LISTS = {       # the places that each of the two methods lists, and bytes that follow; the targets are 1 and 14
    "list_right": ([[1, 14], [1, 14]], b""),
    "list_lacks": ([[1], [14]], b""),
    "list_more": ([[0, 1, 14], [1, 8, 14]], b""),
    "list_falls": ([[14, 1], [1, 1, 14]], b""),
    "list_inside": ([[1, 5, 14], [1, 14, 200]], b""),
    "list_trailing": ([[1, 14], [1, 14]], b"\0"),
    "list_short": ([[1, 14]], b""),
}
OTHER_AID = b"\xf0other"


def families():
    yield "control", [*endings(), *targets()]
    yield "handlers", [*caught(), *entries()]
    yield "passes", [*passes()]


def packages_with_lists():
    for name, (places, rest) in LISTS.items():
        yield name, Rules(list(listed())).list_targets(places, rest)
    one = Rules(list(listed())).list_targets(*LISTS["list_inside"])
    one.list_aid = OTHER_AID
    yield "list_other", one
