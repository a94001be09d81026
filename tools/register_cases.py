"""The cases of registers: loads and stores, increments, fields of `this`, arguments and results, and types that are joined."""
from rule_cases import PUSHES, Rule, field_rules, letter, push, serves
from rule_package import CONSTRUCTOR, PRIVATE, PUBLIC, STATIC, Method
from rule_world import join, type_told

SPARE = 20          # the register that nothing reads
KINDS = {"a": ("object", "null"), "s": ("short", "short"), "i": ("int", "intlow")}


def store_of(kind):
    return {"short": "sstore", "intlow": "istore"}.get(kind, "astore")


def drop(kind):
    return "pop2" if kind == "i" else "pop"


def load_method(text, kind, number):
    """A load of a register in which nothing stands yet; one byte makes a store in another register one in this."""
    method = Method(text, registers=SPARE + 2)
    for pushed in (one for one in PUSHES if one != "fresh"):
        here = "%s; %s %d; %s; %s" % (PUSHES[pushed], store_of(pushed), SPARE, text, drop(kind))
        for shift in (-1, 0, 1):
            found = wrong_register(kind, pushed, shift)
            if found and number + shift >= 0:
                title = "%s: register %d is %s" % (text, number + max(found[0], 0), found[1])
                method.snip(here, (title, 1, 1, number + shift, 2, "Mismatch found %s wanted %s" % found[1:]))
    given = KINDS[kind][1]
    shown, wanted = ("arraylength", "array byte") if given == "short" else ("sneg", "short")
    method.snip("%s; nop; %s" % (text, drop(kind)), (text + ": gives " + given, 1, 0, shown, 1, "Mismatch found %s wanted %s" % (given, wanted)))
    method.add("return")
    return method


def wrong_register(kind, pushed, shift):
    """What a load finds where the value was stored so many registers behind its own: which register, the type, and the one wanted."""
    held = ["inthigh", "intlow"] if pushed == "intlow" else [pushed]
    for number, (wanted, demand) in enumerate([("inthigh", "int"), ("intlow", "int")] if kind == "i" else [(None, KINDS[kind][0])]):
        at = number - shift
        if 0 <= at < len(held):
            serving = held[at] == wanted if wanted else held[at] not in ("inthigh", "intlow") and serves(demand, held[at])
            if not serving:
                return number, held[at], wanted or {"object": "class Object"}.get(demand, demand)
    return None


def load_of_two(text, kind, number):
    """The register has a right type already, so what comes to it makes it top, or a type above both."""
    method = Method(text + ", of two types", registers=SPARE + 2)
    right = {"a": "class Parent", "s": "short", "i": "intlow"}[kind]
    method.add("%s; %s %d" % (PUSHES[right], store_of(right), number))
    for pushed in ("short", "intlow", "class Parent"):
        if pushed != right:
            method.snip("%s; %s %d; %s; %s" % (PUSHES[pushed], store_of(pushed), SPARE, text, drop(kind)), (
                "%s: the register had %s and %s" % (text, right.replace("low", ""), pushed.replace("low", "")), 1, 1, number, 2,
                "Mismatch found top wanted " + {"a": "class Object", "s": "short", "i": "inthigh"}[kind]))
    if text.startswith("iload "):
        at = method.add("sconst_1; sstore 10; sconst_1; sstore 11; %s; pop2" % text)
        method.change("iload: the first register comes first", at + 4, 1, 10, "Mismatch found short wanted inthigh")
    method.add("return")
    return method


def room(text, kind):
    size = 2 if kind == "i" else 1
    method = Method(text + ", room", stack=size, registers=SPARE)
    method.snip("nop; %s; %s; return" % (text, drop(kind)), (text + ": one cell of room lacks", 0, 0, "sconst_1", 1, "Overflow"))
    return method.header(text + ": max_stack is one less", 1, size - 1, 1, "Overflow")


def bounds(text, before, kind, number, is_operand):
    """The register is the last one that the method has; then it, or the second one of an int, is missing."""
    size = 2 if kind == "i" else 1
    method = Method(text + ", the last register", registers=number + size)
    method.add("; ".join(filter(None, [before, text, drop(kind) if "load" in text else "", "return"])))
    at = 1 if before else 0
    for lacking in range(size):
        method.header("%s: %d registers" % (text, number + lacking), 3, number + lacking, at, "NoLocal %d" % number)
    for x in (number + 1, 254, 255) if is_operand else ():
        method.change("%s: register %d of %d" % (text.split()[0], x, number + size), at, 1, x, "NoLocal %d" % x)
    return method


def loads():
    for kind in "asi":
        for text, number in [("%sload %d" % (kind, n), n) for n in (0, 6)] + [("%sload_%d" % (kind, n), n) for n in range(4)]:
            yield load_method(text, kind, number)
            yield load_of_two(text, kind, number)
            yield room(text, kind)
            yield bounds(text, "", kind, number, " " in text)


def stores():
    asks = {"a": "storable", "s": "short", "i": "int"}
    for kind in "asi":
        for text, number in [("%sstore %d" % (kind, n), n) for n in (0, 6)] + [("%sstore_%d" % (kind, n), n) for n in range(4)]:
            yield Rule(text, asks[kind]).method()
            yield stored(text, kind, number)
            yield bounds(text, {"a": "aconst_null", "s": "sconst_1", "i": "iconst_1"}[kind], kind, number, " " in text)


def stored(text, kind, number):
    """What a store leaves in the register, and beside it, as loads show it."""
    method = Method(text + ", then a load", registers=SPARE)
    pushed = {"a": "getstatic_a theShorts", "s": "sconst_1", "i": "iconst_1"}[kind]
    method.add("%s; %s" % (pushed, text))
    if kind == "a":
        return method.snip("aload %d; nop; pop; return" % number, (text + ": holds what it was", 1, 0, "sneg", 1, "Mismatch found array short wanted short"))
    for at, found in enumerate(["short"] if kind == "s" else ["inthigh", "intlow"]):
        method.snip("aload 15; pop", ("%s: register %d is %s" % (text, number + at, found), 0, 1, number + at, 0,
                                     "Mismatch found %s wanted class Object" % found))
    beside = number + (1 if kind == "s" else 2)
    method.add("aload %d; pop; return" % beside)
    return method


def increments():
    for text, kind in (("sinc", "s"), ("iinc", "i"), ("sinc_w", "s"), ("iinc_w", "i")):
        method, at = Method(text, registers=220), 4
        for pushed in (one for one in PUSHES if one != "fresh"):
            for shift in (-1, 0, 1):
                found = wrong_register(kind, pushed, shift)
                if found:
                    method.snip("%s; %s 215; %s %d 1" % (PUSHES[pushed], store_of(pushed), text, at), (
                        "%s: register %d is %s" % (text, at + found[0], found[1]), 1, 1, at + shift, 2, "Mismatch found %s wanted %s" % found[1:]))
                    at += 3
        at = method.add("sconst_1; sstore 210; sconst_1; sstore 211; %s; %s 0; %s 0 -1; return" % (PUSHES[KINDS[kind][1]], store_of(KINDS[kind][1]), text))
        if kind == "i":
            method.change(text + ": the first register comes first", at + 6, 1, 210, "Mismatch found short wanted inthigh")
        yield method
        held = Method(text + ", then a load", registers=SPARE)
        held.add(text + " 4 -1")
        for at, found in enumerate(["short"] if kind == "s" else ["inthigh", "intlow"]):
            held.snip("aload 15; pop", ("%s: register %d becomes %s" % (text, 4 + at, found), 0, 1, 4 + at, 0, "Mismatch found %s wanted class Object" % found))
        held.add("aload %d; pop; return" % (5 if kind == "s" else 6))
        yield held
        yield bounds(text + " 3 1", "", kind, 3, True)


def own_fields():
    """Fields of `this`: register 0 is the receiver."""
    for owner, name, field_kind in (("Parent", "a", "Parent"), ("Parent", "array", "[S"), ("Parent", "z", "Z"), ("Parent", "b", "B"), ("Parent", "s", "S"),
                                    ("Parent", "i", "I"), ("Thing", "s", "S"), ("Child", "s", "S")):
        forms = ["%s_%s_this" % (word, letter(field_kind)) for word in ("getfield", "putfield")]
        for rule in field_rules(*forms, owner + "." + name, field_kind, ""):
            yield rule.method()
            yield rule.room()
            yield lacking_register(rule)
            yield receivers(rule, owner)


def lacking_register(rule):
    """Whether there is a register 0 is asked first."""
    before = [push(one) for one in rule.asks]
    return Method(rule.title + ", one register", registers=1, stack=2).snip("; ".join([*before, rule.text, rule.drop(), "return"])).header(
        rule.title + ": there is no register 0", 3, 0, len(before), "NoLocal 0")


def receivers(rule, owner):
    method = Method(rule.title + ", receivers", registers=SPARE + 2)
    pushes = [push(one) for one in rule.asks]
    for pushed in (one for one in PUSHES if one != "fresh"):
        if not serves(owner, pushed):
            found = pushed.replace("low", "high")
            method.snip("; ".join([PUSHES[pushed], "%s %d" % (store_of(pushed), SPARE), *pushes, rule.text, rule.drop()]), (
                "%s: register 0 is %s" % (rule.title, found), 1, 1, 0, 2 + len(pushes), "Mismatch found %s wanted class %s" % (found, owner)))
    method.add("getstatic_a the%s; astore_0" % owner)
    method.add("; ".join([*pushes, rule.text, rule.drop(), "return"]))
    return method


# ---- arguments, and results of methods


def arguments():
    kinds = ["Z", "B", "S", "I", "Parent", "[Z", "[B", "[S", "[I", "[Parent", "Own", "[Own", "Object"]
    for flags, receiver in ((PUBLIC + STATIC, []), (PRIVATE, ["Tests"]), (PUBLIC + CONSTRUCTOR, ["Tests"])):
        told = {PUBLIC + STATIC: "static method", PRIVATE: "instance method"}.get(flags, "constructor")
        method = Method("arguments of a " + told, " ".join(kinds) + " -> V", flags, registers=3)
        number = 0
        for kind in [*receiver, *kinds]:
            title, found = "argument %s of a %s" % (kind, told), type_told(kind)
            if kind == "I":
                method.snip("iload %d; pop2" % number, (title, 0, 0, "aload", 0, "Mismatch found inthigh wanted class Object"))
                method.snip("aload 16; pop", (title + ", its second half", 0, 1, number + 1, 0, "Mismatch found intlow wanted class Object"))
                number += 1
            elif found == "short":
                method.snip("sload %d; pop" % number, (title, 0, 0, "aload", 0, "Mismatch found short wanted class Object"))
            else:
                method.snip("aload %d; nop; pop" % number, (title, 1, 0, "sneg", 1, "Mismatch found %s wanted short" % found))
            number += 1
        method.snip("aload 16; nop; pop; return", ("the first register that is no argument of a " + told, 1, 0, "sneg", 1, "Mismatch found null wanted short"))
        yield method


RETURNED = {"areturn": "class Object", "sreturn": "short", "ireturn": "inthigh", "return": "bottom"}      # as a refusal tells it
RETURNS = {"V": "return", "I": "ireturn", "Z": "sreturn", "B": "sreturn", "S": "sreturn"}


def results():
    for kind in ("V", "Z", "B", "S", "I", "Parent", "Own", "[Z", "[B", "[S", "[I", "[Parent", "[Own", "Object"):
        own = RETURNS.get(kind, "areturn")
        demand = {"I": "int", "Z": "short", "B": "short", "S": "short"}.get(kind, kind)
        rule = Rule(own, "" if kind == "V" else demand)
        method = Method("a result %s" % kind, "-> " + kind)
        before = "" if kind == "V" else push(demand) + "; "
        for other in ("areturn", "sreturn", "ireturn", "return"):
            if other != own:
                at = before.count(";")
                wanted = {"V": "bottom", "I": "inthigh"}.get(kind) or type_told(kind)
                method.snip(before + own, ("%s where the result is %s" % (other, kind), at, 0, other, at,
                                           "Mismatch found %s wanted %s" % (RETURNED[other], wanted)))
        for pushed in PUSHES if kind != "V" else ():
            if not serves(rule.asks[0], pushed):
                rule.add_refused(method, 0, pushed)
        if before:
            method.snip(before + own, ("%s of a result %s: nothing is there" % (own, kind), 0, 0, "nop", 1, "Underflow"))
        method.snip("; ".join(["sconst_1", before + own, "nop", before + own]), (
            own + ": the stack is empty then", before.count(";") + 2, 0, "pop", before.count(";") + 2, "Underflow"))
        yield method


# ---- types that are joined


JOINED = ["null", "class Object", "class Parent", "class Child", "class Sibling", "class Thing", "class Alarm", "array boolean", "array byte",
          "array short", "array int", "array class Object", "array class Parent", "array class Child", "array class Siblings"]
PUSHED = {**PUSHES, "array class Siblings": "getstatic_a theSiblings"}


def joins():
    """A register has one type, and another comes to it: the join of the two."""
    for first in JOINED:
        method = Method("a register of " + first, registers=len(JOINED))
        for number, other in enumerate(JOINED):
            kinds = [kind.replace("Siblings", "Sibling") for kind in (first, other)]
            method.snip("%s; astore %d; %s; astore %d; aload %d; nop; pop" % (PUSHED[first], number, PUSHED[other], number, number), (
                "the join of %s and %s" % tuple(kinds), 5, 0, "sneg", 5, "Mismatch found %s wanted short" % join(*kinds)))
        method.add("return")
        yield method


def families():
    for name, methods in (("loads", loads), ("stores", stores), ("increments", increments), ("this", own_fields), ("arguments", arguments),
                          ("results", results), ("joins", joins)):
        yield name, [one for one in methods() if one]
