"""The doors of both static libraries, compiled, as Python calls them (docs/API.md)."""
import ctypes
import pathlib
import subprocess
import tempfile

from shared import ROOT, Mistake
from words import ANSWER, ANSWER_NAMES, STRIDE

LIBRARY = ROOT / "target/doors.so"
CRATES = ["exports", "list_exports"]
# The first interface whose records have a line, and how many numbers they had before: kind, start, end.
WITH_LINES, WITHOUT_LINES = 5, 3
Number, Length = ctypes.c_uint32, ctypes.c_size_t
TEXT, ROW = [ctypes.c_char_p, Length], [ctypes.POINTER(Number), Length]
Numbers = Number * ANSWER
# What each door takes, of the row and of the list; the row's doors write the answer behind that, the list's return it.
DOORS = {"read": [*TEXT, Number, Number, *ROW], "reread": [*TEXT, Number, *ROW, Number, Number], "audit": [*ROW, Number]}


class Answer(ctypes.Structure):
    _fields_ = [(name, Number) for name in ANSWER_NAMES]


class Door:
    """Calls that are given a row's numbers and return the answer's numbers and the row's afterwards; `stride` is a record's."""

    def __init__(self, library, prefix):
        self.stride = STRIDE if library.srv_version() >= WITH_LINES else WITHOUT_LINES
        self.doors = {name: getattr(library, prefix + name) for name in DOORS}
        for name, door in self.doors.items():
            self.declare(door, DOORS[name])

    def row_for(self, records):
        """A row of zeros with room for so many records."""
        return (Number * (self.stride * records))()

    def read(self, text, mode, start, numbers):
        row = (Number * len(numbers))(*numbers)
        return self.called("read", text, len(text), mode, start, row, self.length(row)), list(row)

    def reread(self, text, mode, numbers, old, a):
        row = (Number * len(numbers))(*numbers)
        return self.called("reread", text, len(text), mode, row, self.length(row), old, a), list(row)

    def audit(self, numbers, old):
        row = (Number * len(numbers))(*numbers)
        return self.called("audit", row, self.length(row), old)


class RowDoor(Door):
    name = "the row's door"
    length = staticmethod(len)

    def declare(self, door, taken):
        door.argtypes, door.restype = [*taken, ctypes.POINTER(Number)], None

    def called(self, name, *given):
        answer = Numbers()
        self.doors[name](*given, answer)
        return list(answer)


class ListDoor(Door):
    name = "the list's door"

    def length(self, row):
        return len(row) // self.stride

    def declare(self, door, taken):
        door.argtypes, door.restype = taken, Answer

    def called(self, name, *given):
        answer = self.doors[name](*given)
        return [getattr(answer, name) for name in ANSWER_NAMES]


def load(folder=None):
    """The row's doors and the list's: those of a folder's archives, or the tree's, built where they are older than the code."""
    if folder is None:
        subprocess.run([ROOT / "tools/build-library", "--shared", LIBRARY, *CRATES], check=True)
        return both(LIBRARY)
    archives = [folder / f"lib{crate}.a" for crate in CRATES]
    for archive in archives:
        if not archive.is_file():
            raise Mistake(f"{archive}: there is no such file")
    with tempfile.TemporaryDirectory() as made:
        library = pathlib.Path(made) / LIBRARY.name
        subprocess.run(["bash", "-c", '. "$0" && shared_object "$@"', ROOT / "tools/shared.sh", library, *archives], check=True)
        return both(library)


def both(path):
    library = ctypes.CDLL(str(path))
    return RowDoor(library, "srv_"), ListDoor(library, "srv_list_")
