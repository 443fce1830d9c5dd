"""What the original says of a text (oracle/build), and what the page should show for it."""
import pathlib
import sys

ROOT = pathlib.Path(__file__).resolve().parents[3]
sys.path.append(str(ROOT / "tools"))
from answers import asked, records as records_of
from words import ANSWER, KIND, SORT

NEWLINE, INDENT, DEDENT, NAME = (KIND[name] for name in ("Newline", "Indent", "Dedent", "Name"))
STEPS = {INDENT: 1, DEDENT: -1}
RECIPES = ROOT / "examples/recipes"


def recipes(size):
    """The recipes again and again, up to about so many letters."""
    files = sorted((ROOT / "examples/recipes").glob("*.py"))
    whole = "".join(file.read_text().rstrip("\n") + "\n" for file in files if file.stem not in ("broken_gold", "tabs"))
    text = (whole * (size // len(whole) + 1))[:size]
    return text[: text.rindex("\nwith ") + 1]


def recipe(name):
    return (RECIPES / f"{name}.py").read_text()


def original(questions):
    """The original's answers to (text in bytes, mode): code, count, place, detail, then the numbers of the records."""
    return [answer + [number for record in found for number in record] for answer, found in asked(questions)]


def records(answer):
    return records_of(answer[ANSWER:])


def sort_of(kind):
    return SORT[kind].replace("blank", "")


def coloured(text, answer):
    """What the page should colour: sort and letters, line by line, neighbours of one sort together."""
    data = text.encode()
    found = []
    for kind, start, end, _ in records(answer):
        for letters in data[start:end].decode().split("\n") if sort_of(kind) else []:
            found.append([sort_of(kind), letters])
    return together(found)


def together(pieces):
    found = []
    for sort, letters in pieces:
        if found and found[-1][0] == sort:
            found[-1][1] += letters
        elif letters:
            found.append([sort, letters])
    return found


def end_of_block(rows, i):
    """Where the block ends whose `with` is record i, and whether the record that closes it is among them."""
    end = next((j + 1 for j in range(i, len(rows)) if rows[j][0] == NEWLINE), None)
    if end is None or end == len(rows):
        return len(rows), False
    if rows[end][0] != INDENT:
        return end, True
    level = 0
    for j in range(end, len(rows)):
        level += STEPS.get(rows[j][0], 0)
        if level == 0:
            return j + 1, True
    return len(rows), False


def blocks(text, answer):
    """
    Each top-level with block, from the original's records in mode 0: its words, which say how often to_linear is called in it,
    and its first and last line, from 0.
    """
    data, rows = text.encode(), records(answer)
    found, i, depth, starts_line = [], 0, 0, True
    while i < len(rows):
        kind = rows[i][0]
        if kind == KIND["Keyword with"] and starts_line and depth == 0:
            end, closed = end_of_block(rows, i)
            part = rows[i:end]
            calls = sum(a[0] == NAME and b[0] == KIND["Operator ("] and data[a[1] : a[2]] == b"to_linear" for a, b in zip(part, part[1:]))
            words = ("never", "once")[calls] if calls < 2 else f"{calls} times"
            found.append(("unfinished" if not closed and answer[0] != 0 else words, part[0][3], last_line(data, part)))
            i, starts_line = end, True
            continue
        depth += STEPS.get(kind, 0)
        starts_line = kind in (NEWLINE, INDENT, DEDENT)
        i += 1
    return found


def last_line(data, part):
    """The line in which the last token of these records ends, by what stands before that; the page has LF alone."""
    return data[: max(end for kind, _, end, _ in part if kind not in (NEWLINE, DEDENT))].count(b"\n")


def by_attention(found):
    """Blocks in the order of the list."""
    rank = {"unfinished": 0, "never": 1, "once": 3}
    return sorted(found, key=lambda block: rank.get(block[0], 2))
