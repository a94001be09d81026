"""The lines of docs/FAULTS.md: which row of its tables tells a line that capcheck printed, and with which status."""
import os
import re
from collections import namedtuple

DOCUMENT = os.path.join(os.path.dirname(os.path.dirname(os.path.realpath(__file__))), "docs", "FAULTS.md")
TYPE = (r"(?:bottom|short|inthigh|intlow|null|top|class \d+|array (?:boolean|byte|short|int)|array class \d+"
        r"|fresh \d+ class \d+)")
STATUS_OF = {"malformed package": 7, "not linked": 7, "not started": 7, "limit": 5, "refused package": 1, "refused place": 1}
STATUSES = {"usage": 2, "read fault": 3, "store fault": 4, "memory": 6}

# A line as the document has it and as a regular expression, its status, and what the document says of it and what there is to
# do, None for an ending.
Row = namedtuple("Row", "template pattern status says do")
VARIABLE = re.compile(r"C\.M|\b[A-Z]+\b")


def pattern(template):
    """A line as a regular expression with a group for each variable: what stands in capitals is a number, a type or a word."""
    def word(found):
        return "(%s)" % {"TYPE": TYPE, "KIND": r"\w+", "C.M": r"\d+\.\d+"}.get(found[0], r"-?\d+")
    return VARIABLE.sub(word, template)


def tables(text):
    """The rows of each section's tables: the section's beginning of a line, its status, and the cells."""
    for heading, body in re.findall(r"^## (.*)\n((?:(?!## ).*\n?)*)", text, re.M):
        prefix = re.match(r"After `(.*)`$", heading)
        status = next((status for begin, status in STATUS_OF.items() if prefix and prefix[1].startswith(begin)), None)
        if prefix or heading in ("How a run ends", "The other lines"):
            for line in re.findall(r"^\| (`.*) \|$", body, re.M):
                yield prefix[1] + " " if prefix else "", 0 if heading == "How a run ends" else status, line.split(" | ")


def meant_of(line):
    """What the document says of the most frequent cause of a line, and what there is to do; None where it names none."""
    with open(DOCUMENT, encoding="utf-8") as file:
        section = re.search(r"^## You see, you probably meant, do\n(.*?)^## ", file.read(), re.M | re.S)[1]
    for told in re.findall(r"^\| (`.*) \|$", section, re.M):
        cells = told.split(" | ")
        templates = re.findall(r"`([^`]*)`", cells[0])
        # the templates after the first one have its beginning
        wholes = templates[:1] + [templates[0].rpartition(" ")[0] + " " + one if one[:1].isupper() else one for one in templates[1:]]
        if any(re.fullmatch(".*".join(map(pattern, whole.split(".."))), line) for whole in wholes if " " in whole.replace(" ..", "")):
            return cells[1], cells[2]
    return None


def rows():
    """All lines of the document, in its order."""
    with open(DOCUMENT, encoding="utf-8") as file:
        text = file.read()
    for prefix, status, cells in tables(text):
        for template in re.findall(r"`([^`]*[A-Za-z][^`]*)`", cells[0]):
            whole = prefix + template
            yield Row(whole, pattern(whole), STATUSES.get(template, status), cells[1], cells[2] if len(cells) > 2 else None)


def row_of(line):
    """The row that tells a line, and the value of each variable there; None where no row does."""
    for row in rows():
        found = re.fullmatch(row.pattern, line)
        if found:
            return row, list(zip(VARIABLE.findall(row.template), found.groups()))
    return None
