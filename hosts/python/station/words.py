"""Instructions: made by functions, or read from the words that plans and the panel have (docs/PLANS.md), and written in these words."""

from dataclasses import dataclass
from typing import Iterable, List, Optional, Sequence, Tuple, Union

from .answers import Number, answer_of, taken
from .entries import call

# Numbers as the messages have them, by the places of their words.
ROWS = ("1", "2", "3")
BELTS_OF_ROW_1 = ("left-shuttle", "left", "lift", "right", "right-shuttle")
BELTS = ("left-shuttle", "middle", "right-shuttle")
WAYS = ("lower", "higher")
SIZES = ("half", "full")
SIDES = ("left", "right")
ORIENTATIONS = ("lowered", "tilted")
HEIGHTS = ("street", "rotation", "basement")
INSTRUCTIONS = ("belts", "shuttles", "tilt", "lift", "rotate")


def listed(names: Sequence[str]) -> str:
    quoted = [f"`{name}`" for name in names]
    return quoted[0] if len(quoted) == 1 else f"{', '.join(quoted[:-1])} or {quoted[-1]}"


def belts_of(row: int) -> Sequence[str]:
    return BELTS_OF_ROW_1 if row == 1 else BELTS


def place_of(word: str, names: Sequence[str]) -> int:
    if word not in names:
        raise ValueError(f"expected {listed(names)}, found `{word}`")
    return names.index(word)


def mask_of(words: Iterable[str], names: Sequence[str]) -> int:
    """A bit for each word, by its place among the names."""
    mask = 0
    for word in words:
        bit = 1 << place_of(word, names)
        if mask & bit:
            raise ValueError(f"`{word}` stands twice")
        mask |= bit
    return mask


def named(names: Sequence[str], mask: int) -> str:
    return "".join(f" {name}" for at, name in enumerate(names) if mask >> at & 1)


def well_formed(five: bytes) -> bool:
    """Whether some bytes say an instruction, allowed anywhere or not."""
    if len(five) != 5:
        return False
    op, a, b, c, d = five
    return {
        1: a in (1, 2, 3) and b < 1 << len(belts_of(a)) and c < 2 and d < 2,
        2: a < 2 and b < 8 and c < 2 and d < 2,
        3: a < 2 and b in (1, 2, 3) and c < 2 and d == 0,
        4: a < 3 and not any((b, c, d)),
        5: not any((a, b, c, d)),
    }.get(op, False)


@dataclass(frozen=True)
class Instruction:
    """A well-formed instruction, as its five bytes; `str` gives its words."""

    five: bytes

    def __post_init__(self):
        if not well_formed(self.five):
            raise ValueError(f"no instruction: {self.five.hex(' ')}")

    def __bytes__(self) -> bytes:
        return self.five

    def __str__(self) -> str:
        op, a, b, c, d = self.five
        if op == 1:
            return f"belts row {a}{named(belts_of(a), b)}, {WAYS[c]}, {SIZES[d]}"
        if op == 2:
            rows = "row" if b in (1, 2, 4) else "rows"
            return f"shuttles {SIDES[a]} {rows}{named(ROWS, b)} {ORIENTATIONS[c]} {WAYS[d]}"
        if op == 3:
            return f"tilt {SIDES[a]} row {b} {ORIENTATIONS[c]}"
        return f"lift {HEIGHTS[a]}" if op == 4 else "rotate"

    def area(self) -> int:
        """The places that it may read or write, whatever the record, a bit for each; `parts_of` lists them."""
        room = bytearray(8)
        taken("garage_area", self.five, room)
        return int.from_bytes(room, "little")

    def overlaps(self, other: "Said") -> bool:
        """Whether the two have a place in common, and so can't stand in one set."""
        answer = answer_of(call("garage_overlap", self.five, five_of(other)))
        if answer.number is Number.OVERLAP:
            return True
        answer.checked()
        return False


def row_of(row: int) -> int:
    return 1 + place_of(str(row), ROWS)


def belts(row: int, names: Iterable[str], toward: str, size: str) -> Instruction:
    """Belts of a row move toward `lower` or `higher` columns, by a `half` cell or a `full` one."""
    return Instruction(bytes([1, row_of(row), mask_of(names, belts_of(row)), place_of(toward, WAYS), place_of(size, SIZES)]))


def shuttles(side: str, rows: Iterable[int], orientation: str, toward: str) -> Instruction:
    """The `left` or `right` shuttles of some rows that are `lowered`, or `tilted`, move a row `lower` or `higher`."""
    mask = mask_of((str(row) for row in rows), ROWS)
    return Instruction(bytes([2, place_of(side, SIDES), mask, place_of(orientation, ORIENTATIONS), place_of(toward, WAYS)]))


def tilt(side: str, row: int, orientation: str) -> Instruction:
    """The shuttle there, which is now `lowered`, is tilted; or lowered, where it is now `tilted`."""
    return Instruction(bytes([3, place_of(side, SIDES), row_of(row), place_of(orientation, ORIENTATIONS), 0]))


def lift(height: str) -> Instruction:
    """The lift goes to `street`, `rotation` or `basement`."""
    return Instruction(bytes([4, place_of(height, HEIGHTS), 0, 0, 0]))


def rotate() -> Instruction:
    """The lift turns."""
    return Instruction(bytes([5, 0, 0, 0, 0]))


class Line:
    """The words of a line that are still to be read; commas stand between words as spaces do."""

    def __init__(self, line: str):
        self.words = line.replace(",", " ").split()[::-1]

    def next(self) -> Optional[str]:
        return self.words[-1] if self.words else None

    def wrong(self, names: Sequence[str]) -> ValueError:
        found = "and the line ends" if self.next() is None else f"found `{self.next()}`"
        return ValueError(f"expected {listed(names)}, {found}")

    def one_of(self, names: Sequence[str]) -> str:
        if self.next() not in names:
            raise self.wrong(names)
        return self.words.pop()

    def all_of(self, names: Sequence[str], then: Sequence[str]) -> Sequence[str]:
        """All names that come next; the words that may follow them are told too where neither comes."""
        found = []
        while self.next() in names:
            if self.next() in found:
                raise ValueError(f"`{self.next()}` stands twice")
            found.append(self.words.pop())
        if self.next() not in then:
            raise self.wrong([*names, *then])
        return found

    def end(self) -> None:
        if self.words:
            raise ValueError(f"`{self.next()}` and what follows it is more than the line can say")


def instruction(words: str) -> Instruction:
    """The instruction that a line says; where it says none, a ValueError tells what was expected."""
    line = Line(words)
    said = read(line, line.one_of(INSTRUCTIONS))
    line.end()
    return said


def read(line: Line, what: str) -> Instruction:
    if what == "belts":
        line.one_of(("row",))
        row = int(line.one_of(ROWS))
        return belts(row, line.all_of(belts_of(row), WAYS), line.one_of(WAYS), line.one_of(SIZES))
    if what == "shuttles":
        side, _ = line.one_of(SIDES), line.one_of(("rows", "row"))
        return shuttles(side, line.all_of(ROWS, ORIENTATIONS), line.one_of(ORIENTATIONS), line.one_of(WAYS))
    if what == "tilt":
        side, _ = line.one_of(SIDES), line.one_of(("row",))
        return tilt(side, int(line.one_of(ROWS)), line.one_of(ORIENTATIONS))
    return lift(line.one_of(HEIGHTS)) if what == "lift" else rotate()


Said = Union[Instruction, str, bytes]
"""An instruction, its words, or any five bytes, which the station then judges."""


def five_of(said: Said) -> bytes:
    five = bytes(instruction(said) if isinstance(said, str) else said)
    if len(five) != 5:
        raise ValueError(f"an instruction has five bytes, not {len(five)}")
    return five


def fives_of(instructions: Union[Said, Iterable[Said]]) -> List[bytes]:
    """The bytes of each instruction of a set; one by itself is a set of one."""
    if isinstance(instructions, (Instruction, str, bytes, bytearray)):
        instructions = [instructions]
    return [five_of(one) for one in instructions]


def set_of(instructions: Union[Said, Iterable[Said]]) -> Tuple[int, bytes]:
    """How many instructions there are, and their bytes."""
    fives = fives_of(instructions)
    return len(fives), b"".join(fives)
