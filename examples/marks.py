"""Prints the marks of a ship record, then what the other three calls say of it."""
import sys
from ctypes import CDLL, POINTER, Structure, c_char, c_char_p, c_size_t, create_string_buffer
from ctypes import c_int64 as i64, c_uint64 as u64
from pathlib import Path

LONGEST = 123  # bytes of a record
OVERLAP = 11  # the refusal that has one, in mm
TYPES = ("A", "B", "B-60", "B-100", "B with portable covers")  # by their number in the record
MARKS = ("s", "t", "w", "wna", "f", "tf")
TIMBER = ("ls", "lt", "lw", "lwna", "lf", "ltf")


class House(Structure):
    _fields_ = [
        ("enclosed", u64),
        ("quarterdeck", u64),
        ("aft", i64),
        ("fore", i64),
        *((name, u64) for name in ("height", "breadth", "beam")),
    ]

    def __str__(self):
        sides = f" {self.breadth}/{self.beam}" if self.beam else ""  # set in
        return f"{self.aft}..{self.fore}{sides}"


class Ship(Structure):
    _fields_ = [
        *((name, u64) for name in ("kind", "n", "timber", "length", "depth", "moulded", "block", "waterplane")),
        ("sheer", i64 * 6),
        ("displacement", u64),
        ("immersion", u64),
        ("houses", House * 8),
    ]


class Answer(Structure):
    """What every answer begins with. Refusal 0 is none; beside another, all else is 0."""
    _fields_ = [("refusal", u64), ("place", u64), ("overlap", u64)]

    def __str__(self):
        overlap = f" {self.overlap}" if self.refusal == OVERLAP else ""
        return f"refused {self.refusal} {self.place}{overlap}"


class MarksAnswer(Answer):
    _fields_ = [(name, i64) for name in (*MARKS, *TIMBER)]


class PoopAnswer(Answer):
    _fields_ = [("decimetres", u64)]


class ReadAnswer(Answer):
    _fields_ = [("ship", Ship)]


class WriteAnswer(Answer):
    _fields_ = [("bytes", u64)]


# The number is the header's: a library with other structs, calls or kinds has another.
library = CDLL(str(Path(__file__).resolve().parent.parent / "target/lib/libloadline.so.5"))
# ctypes takes what is not declared for a C int, so each call is declared.
for call, result, arguments in (
    (library.loadline_marks, MarksAnswer, [c_char_p, c_size_t]),
    (library.loadline_shortest_poop, PoopAnswer, [c_char_p, c_size_t, u64, u64]),
    (library.loadline_read, ReadAnswer, [c_char_p, c_size_t]),
    (library.loadline_write, WriteAnswer, [POINTER(c_char), c_size_t, Ship]),
):
    call.restype, call.argtypes = result, arguments


def show(record):
    read = library.loadline_read(record, len(record))
    m = library.loadline_marks(record, len(record))
    names = (*MARKS, *TIMBER) if read.ship.timber else MARKS  # zeros where there are no timber marks
    print(m if m.refusal else " ".join(f"{name.upper()} {getattr(m, name)}" for name in names))

    if read.refusal:
        print("no ship:", read)
        return
    ship = read.ship
    houses = "".join(f" {house}" for house in ship.houses[: ship.n])
    timber = " timber" if ship.timber else ""
    print(f"L {ship.length} type {TYPES[ship.kind]}{timber} houses {ship.n}{houses}")

    poop = library.loadline_shortest_poop(record, len(record), 1950, 1000)
    print("poop of 1950 mm for S 1000:", poop if poop.refusal else f"{poop.decimetres} dm")

    copy = create_string_buffer(LONGEST)
    written = library.loadline_write(copy, len(copy), ship)
    same = not written.refusal and copy.raw[: written.bytes] == record
    print("written back:", f"the same {written.bytes} bytes" if same else "not the same")


if __name__ == "__main__":
    if len(sys.argv) != 2:
        sys.exit("usage: marks.py RECORD")
    try:
        with open(sys.argv[1], "rb") as file:
            data = file.read(LONGEST + 1)  # one more: a longer file is refused, not cut to a record
    except OSError as why:
        sys.exit(f"marks: {sys.argv[1]}: {why.strerror}")
    show(data)
