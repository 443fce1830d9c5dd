"""The original's answers: those of the fixed list, and those that the oracle gives when asked (oracle/build)."""
import collections
import struct
import subprocess

from shared import ROOT, Mistake, oracle
from words import ANSWER, RECORD_NAMES, STRIDE

LIST = ROOT / "crates/replay/stdin"
NUMBER = 4
ENOUGH = 2**32 - 1
# The code of a text that is not UTF-8; its detail is the fault.
ILL_FORMED = 3

Record = collections.namedtuple("Record", RECORD_NAMES)
# What was asked, the row's length in numbers; the answer's numbers, and those of the records that were written.
Frame = collections.namedtuple("Frame", "text mode start row answer records")


def frames(data, name=LIST):
    """The frames of a list; their form stands at the head of oracle/answers/src/bin/make-list.rs."""
    at = 0

    def numbers(count):
        nonlocal at
        at += NUMBER * count
        return list(struct.unpack_from(f"<{count}I", data, at - NUMBER * count))

    try:
        while at < len(data):
            mode, start, row, size, written = numbers(5)
            answer = numbers(ANSWER)
            text = data[at : at + size]
            at += size
            yield Frame(text, mode, start, row, answer, numbers(STRIDE * written))
    except struct.error:
        raise Mistake(f"{name} is no list of answers, or is cut off")


def records(numbers):
    """Records out of a row's numbers."""
    return [Record._make(record) for record in zip(*[iter(numbers)] * STRIDE)]


def lines(option, questions):
    """The oracle's lines to pairs of a text and a mode, at start 0 with room enough."""
    put = b"".join(struct.pack("<4I", mode, 0, ENOUGH, len(text)) + text for text, mode in questions)
    return subprocess.run([oracle(), option], input=put, stdout=subprocess.PIPE, check=True).stdout.splitlines()


def asked(questions):
    """The oracle's answers to pairs of a text and a mode: the answer's numbers, and the records."""
    for line in lines("--batch", questions):
        numbers = list(map(int, line.split()))
        yield numbers[:ANSWER], records(numbers[ANSWER:])


def rust_utf8(texts):
    """Where Rust's own reader of UTF-8 stops in each text, and its error_len; None where it takes the text."""
    for line in lines("--utf8", ((text, 0) for text in texts)):
        place, _, length = line.decode().partition(" ")
        yield (int(place), length) if length else None
