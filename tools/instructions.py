"""The instructions of the standard (JCVM 2.2, chapter 7): their mnemonics, opcodes and operands. `docs/ON-CARD.md` has the same
table from the definitions, and its script compares the two."""

POOL_BYTE, POOL, LABEL, WIDE_LABEL = "u1 pool index", "u2 pool index", "s1 branch", "s2 branch"
REGISTER, KIND, BYTE, SHORT_NUMBER, COUNT = "u1 register", "u1 type", "s1 number", "s2 number", "u1 count"
INT_NUMBER, WORDS, PAIRS, INT_PAIRS = "s4 number", "u1 words", "u2 pairs of s2 and s2", "u2 pairs of s4 and s2"
SIZES = {POOL_BYTE: 1, POOL: 2, LABEL: 1, WIDE_LABEL: 2, REGISTER: 1, KIND: 1, BYTE: 1, SHORT_NUMBER: 2, COUNT: 1,
         INT_NUMBER: 4, WORDS: 1, PAIRS: 2, INT_PAIRS: 2}
SIGNED = {LABEL, WIDE_LABEL, BYTE, SHORT_NUMBER, INT_NUMBER}
KINDS = {"object": 0, "boolean": 10, "byte": 11, "short": 12, "int": 13, "array": 14}    # what newarray and checkcast name

LETTERS = "a", "b", "s", "i"
CONDITIONS = "eq", "ne", "lt", "ge", "gt", "le"
BRANCHES = [*("if" + c for c in CONDITIONS), "ifnull", "ifnonnull", "if_acmpeq", "if_acmpne", *("if_scmp" + c for c in CONDITIONS)]


def registers(action):
    """The loads or stores: with the register as operand, and then of each of the first four."""
    yield from ((letter + action, REGISTER) for letter in "asi")
    yield from (("%s%s_%d" % (letter, action, n),) for letter in "asi" for n in range(4))


def rows():
    """The instructions from opcode 0 on, each as its mnemonic and its operands; None where an opcode has none here."""
    yield from (("nop",), ("aconst_null",))
    yield from ((letter + "const_" + n,) for letter in "si" for n in ("m1", "0", "1", "2", "3", "4", "5"))
    yield from (("bspush", BYTE), ("sspush", SHORT_NUMBER), ("bipush", BYTE), ("sipush", SHORT_NUMBER), ("iipush", INT_NUMBER))
    yield from registers("load")
    yield from ((letter + "aload",) for letter in LETTERS)
    yield from registers("store")
    yield from ((letter + "astore",) for letter in LETTERS)
    yield from (("pop",), ("pop2",), ("dup",), ("dup2",), ("dup_x", WORDS), ("swap_x", WORDS))
    yield from ((letter + name,) for name in ("add", "sub", "mul", "div", "rem", "neg", "shl", "shr", "ushr", "and", "or", "xor")
                for letter in "si")
    yield from (("sinc", REGISTER, BYTE), ("iinc", REGISTER, BYTE), ("s2b",), ("s2i",), ("i2b",), ("i2s",), ("icmp",))
    yield from ((name, LABEL) for name in (*BRANCHES, "goto"))
    yield from (None, None)     # jsr and ret
    yield from (("stableswitch", WIDE_LABEL, SHORT_NUMBER, SHORT_NUMBER, WIDE_LABEL),      # the last operand once for each case
                ("itableswitch", WIDE_LABEL, INT_NUMBER, INT_NUMBER, WIDE_LABEL),
                ("slookupswitch", WIDE_LABEL, PAIRS), ("ilookupswitch", WIDE_LABEL, INT_PAIRS))
    yield from (("areturn",), ("sreturn",), ("ireturn",), ("return",))
    yield from (("%s_%s" % (name, letter), POOL) for name in ("getstatic", "putstatic") for letter in LETTERS)
    yield from (("%s_%s" % (name, letter), POOL_BYTE) for name in ("getfield", "putfield") for letter in LETTERS)
    yield from (("invokevirtual", POOL), ("invokespecial", POOL), ("invokestatic", POOL), ("invokeinterface", COUNT, POOL, COUNT))
    yield from (("new", POOL), ("newarray", KIND), ("anewarray", POOL), ("arraylength",), ("athrow",))
    yield from (("checkcast", KIND, POOL), ("instanceof", KIND, POOL), ("sinc_w", REGISTER, SHORT_NUMBER),
                ("iinc_w", REGISTER, SHORT_NUMBER))
    yield from ((name + "_w", WIDE_LABEL) for name in (*BRANCHES, "goto"))
    for name in ("getfield", "putfield"):
        yield from (("%s_%s_w" % (name, letter), POOL) for letter in LETTERS)
        yield from (("%s_%s_this" % (name, letter), POOL_BYTE) for letter in LETTERS)


BY_OPCODE = list(rows())
INSTRUCTIONS = {row[0]: (opcode, *row[1:]) for opcode, row in enumerate(BY_OPCODE) if row}
