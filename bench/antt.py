"""Reads definitions of specs/ and computes with them: those that are written by equations, over lists, numbers, texts and constructors.

A value is a number, a list, a text (its codes too), a Term (a constructor or an unknown word with its arguments), a record as a
dict, or a function. What is unknown stays: an equation that has to look into an unknown gives the word itself with its arguments.
"""
import re
from collections import namedtuple

Term = namedtuple("Term", "name args")
TOKEN = re.compile(r"\s*(?:(\d+)|(\[\])|(\"[^\"]*\")|([A-Za-z_]\w*(?:\.[A-Za-z_]\w*)*)|(∷|\+\+|==|&&|\|\||[-+/%λ.=(){};,→≡×]))")
LEVELS = [("∷", "++"), ("||",), ("&&",), ("==",), ("+", "-"), ("/", "%")]     # the loosest first; the first two lean right
RESERVED = {"if", "then", "else", "record"}


def tokens(text):
    found, at, text = [], 0, text.rstrip()
    while at < len(text):
        match = TOKEN.match(text, at)
        if not match:
            raise ValueError("no token in %r" % text[at:at + 30])
        found.append(match.group().strip())
        at = match.end()
    return found


class Parser:
    """Expressions as nested tuples, whose first item says what they are."""

    def __init__(self, words):
        self.words, self.at = words, 0

    def next(self):
        return self.words[self.at] if self.at < len(self.words) else None

    def take(self, wanted=None):
        word = self.next()
        if word is None or wanted is not None and word != wanted:
            raise ValueError("%s where %s is wanted" % (word, wanted))
        self.at += 1
        return word

    def expression(self):
        if self.next() == "λ":
            self.take()
            names = []
            while self.next() != ".":
                names.append(self.take())
            self.take(".")
            return "lambda", names, self.expression()
        if self.next() == "if":
            self.take()
            test = self.expression()
            self.take("then")
            yes = self.expression()
            self.take("else")
            return "if", test, yes, self.expression()
        return self.level(0)

    def level(self, n):
        if n == len(LEVELS):
            return self.application()
        left = self.level(n + 1)
        while self.next() in LEVELS[n]:
            operator = self.take()
            right = self.level(n if n == 0 else n + 1)
            left = ("operator", operator, left, right)
        return left

    def application(self):
        head, arguments = self.atom(), []
        while self.next() is not None and (self.next()[0] in '(["' or self.next() == "record" or self.is_word()):
            arguments.append(self.atom())
        return ("apply", head, arguments) if arguments else head

    def is_word(self):
        return bool(re.match(r"\w", self.next())) and self.next() not in RESERVED

    def atom(self):
        word = self.take()
        if word == "(":
            items = [self.expression()]
            while self.next() == ",":
                self.take()
                items.append(self.expression())
            self.take(")")
            return items[0] if len(items) == 1 else ("apply", ("word", "pair"), items)
        if word == "[]":
            return ("list",)
        if word == "record":
            return self.record()
        if word.startswith('"'):
            return "text", word[1:-1]
        return ("number", int(word)) if word.isdigit() else ("word", word)

    def record(self):
        self.take("{")
        fields = {}
        while self.next() != "}":
            name = self.take()
            self.take("=")
            fields[name] = self.expression()
            if self.next() == ";":
                self.take()
        self.take("}")
        return "record", fields


class Definitions:
    """The equations of files, by the words that they define."""

    def __init__(self, texts):
        self.equations = {}
        for text in texts:
            self.read(re.sub(r"--.*", "", text))

    def read(self, text):
        items = re.split(r"\n(?=\S)", text)
        defined = {match[1] for item in items for match in [re.match(r"(?:abbrev|unfoldable) (?:pub )?(\w+)", item)] if match}
        for item in items:
            head = re.match(r"\w+", item)
            if head and head[0] in defined and " = " in item.replace("\n", " "):
                self.equations.setdefault(head[0], []).append(item)

    def parsed(self, word):
        """The equations of a word, each as its patterns and its body; a word that is no function of values has none."""
        rows = self.equations.get(word, [])
        for n, item in enumerate(rows):
            if isinstance(item, str):
                left, _, right = re.sub(r"\nunfolding .*", "", item).partition("=")
                patterns = Parser(tokens(left)).application()
                rows[n] = patterns[2] if patterns[0] == "apply" else [], Parser(tokens(right)).expression()
        return rows

    # ---- computing

    def value(self, expression, names):
        kind = expression[0]
        if kind in ("number", "text"):
            return expression[1]
        if kind == "list":
            return []
        if kind == "word":
            return self.word(expression[1], names)
        if kind == "record":
            return {name: self.value(one, names) for name, one in expression[1].items()}
        if kind == "lambda":
            return lambda *given: self.value(expression[2], {**names, **dict(zip(expression[1], given))})
        if kind == "if":
            test = self.value(expression[1], names)
            if not isinstance(test, bool):
                return Term("if", [test])
            return self.value(expression[2 if test else 3], names)
        if kind == "operator":
            return self.operate(expression[1], *(self.value(one, names) for one in expression[2:]))
        return self.apply(self.value(expression[1], names), [self.value(one, names) for one in expression[2]])

    def word(self, word, names):
        head, *fields = word.split(".")
        if head in names:
            found = names[head]
            for name in fields:
                found = found[name] if isinstance(found, dict) else Term(name, [found])
            return found
        if word in self.equations:
            return self.call(word, []) if not self.parsed(word)[0][0] else Term(word, [])
        return {"true": True, "false": False}.get(word, Term(word, []))

    def apply(self, head, arguments):
        if callable(head):
            return head(*arguments)
        if not isinstance(head, Term):
            raise ValueError("%r is applied" % (head,))
        return self.call(head.name, [*head.args, *arguments])

    def call(self, name, arguments):
        if name in BUILT_IN and len(arguments) == BUILT_IN[name][0]:
            return BUILT_IN[name][1](self, *arguments)
        for patterns, body in self.parsed(name):
            if len(patterns) > len(arguments):
                return Term(name, arguments)
            found = {}
            answers = [self.matches(pattern, one, found) for pattern, one in zip(patterns, arguments)]
            if False in answers:
                continue
            if None in answers:
                return Term(name, arguments)
            result = self.value(body, found)
            rest = arguments[len(patterns):]
            return self.apply(result, rest) if rest else result
        return Term(name, arguments)

    def matches(self, pattern, value, found):
        """Whether a value is of a pattern, with what its names stand for; None where that is unknown."""
        if pattern[0] == "list":
            return value == [] if isinstance(value, list) else None
        if pattern[0] == "operator":        # x ∷ xs
            if not isinstance(value, list):
                return None
            return bool(value) and all(self.matches(p, v, found) for p, v in zip(pattern[2:], (value[0], value[1:])))
        name, arguments = (pattern[1], []) if pattern[0] == "word" else (pattern[1][1], pattern[2])
        if not arguments and name.split(".")[-1][0].islower() or name == "_":
            found[name] = value
            return True
        if not isinstance(value, Term) or value.name.split(".")[-1][0].islower():
            return None
        if value.name != name or len(value.args) != len(arguments):
            return False
        answers = [self.matches(p, v, found) for p, v in zip(arguments, value.args)]
        return False if False in answers else None if None in answers else True

    def operate(self, operator, left, right):
        if operator == "∷":
            return [left, *right] if isinstance(right, list) else Term("∷", [left, right])
        if operator == "++" and isinstance(left, list) and isinstance(right, list):
            return left + right
        if operator in ("&&", "||") and isinstance(left, bool):
            return right if left == (operator == "&&") else left
        if isinstance(left, int) and isinstance(right, int):
            return {"+": left + right, "-": max(left - right, 0), "/": left // max(right, 1), "%": left % max(right, 1),
                    "==": left == right}[operator]
        return Term(operator, [left, right])


def listed(function):
    """A built-in word over a list: it stays where the list is unknown."""
    def called(definitions, *arguments):
        return function(definitions, *arguments) if isinstance(arguments[-1], list) else Term(function.__name__, list(arguments))
    return called


@listed
def reverse(_, items):
    return items[::-1]


@listed
def length(_, items):
    return len(items)


def find(definitions, test, items):
    found = [one for one in items if definitions.apply(test, [one]) is True]
    return Term("Some", found[:1]) if found else Term("None", [])


BUILT_IN = {
    "codes": (1, lambda _, text: text),
    "find": (2, find),
    "map": (2, lambda definitions, f, items: [definitions.apply(f, [one]) for one in items]),
    "replicate": (2, lambda _, count, one: [one] * count),
    "nat_le": (2, lambda _, a, b: a <= b),
    "not": (1, lambda _, a: not a),
    "pos": (1, lambda _, n: n),
    "negsuc": (1, lambda _, n: -n - 1),
    "reverse": (1, reverse),
    "length": (1, length),
}
