"""What bindings/words.txt says: the numbers of a record and of an answer, and what kinds, codes and faults are called."""
from shared import ROOT


def sections():
    """The table's sections: lines under a word that stands alone, without comments and blank lines."""
    found, lines = {}, None
    for line in (ROOT / "bindings/words.txt").read_text().splitlines():
        if not line or line.startswith("#"):
            continue
        if line.isalpha():
            lines = found.setdefault(line, [])
        else:
            lines.append(line)
    return found


def kinds(lines):
    """Number, name and sort of each kind."""
    found = []
    for line in lines:
        first, sort, *names = line.split()
        before = names.pop(0)[:-1] + " " if names[0].endswith(":") and len(names) > 1 and names[0] != ":" else ""
        for i, name in enumerate(names):
            found.append((int(first) + i, (before + name.replace('""', "")).strip(), sort))
    return found


def numbered(lines, parts):
    """A number and so many other parts a line, the last of them with its blanks."""
    found = []
    for line in lines:
        number, *rest = line.split(maxsplit=parts)
        found.append((int(number), *rest))
    return found


def named(lines):
    """A name and its words a line."""
    return dict(line.split(maxsplit=1) for line in lines)


def ranges(lines):
    return [tuple(int(end, 16) for end in word.split("-")) for line in lines for word in line.split()]


TABLE = sections()
RECORD_NAMES, ANSWER_NAMES = (TABLE[name][0].split() for name in ("record", "answer"))
# How many numbers a record and an answer have.
STRIDE, ANSWER = len(RECORD_NAMES), len(ANSWER_NAMES)
KINDS = kinds(TABLE["kinds"])
# The number of a kind by its name, and its sort by its number.
KIND = {name: number for number, name, _ in KINDS}
SORT = {number: sort for number, _, sort in KINDS}
CODES = numbered(TABLE["codes"], 1)
FAULTS = numbered(TABLE["faults"], 2)
# The number, the name and the words of each fault of UTF-8, and what is said of another encoding that it may be.
BYTES, HINTS = numbered(TABLE["bytes"], 2), named(TABLE["hints"])
# What the bracket audit finds, by its name.
BRACKETS = named(TABLE["brackets"])
SHOWN = ranges(TABLE["shown"])
