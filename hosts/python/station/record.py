"""A record: questions on it, which need no station, and its drawing."""

from dataclasses import dataclass
from typing import List, NamedTuple, Optional, Tuple

from .answers import Number, Refused, answer_of, taken
from .entries import call
from .parts import LIFT, parts_of
from .words import Said, five_of, well_formed

RAISED = LIFT
"""The place of a car on the raised lift, and of the lift among the parts."""
CARS_SIZE, CONDITION_SIZE, CONDITIONS_MOST, DRAWING_MOST, NOT_SOUND = 31, 11, 6, 66, 255


def apart_drawing(apart: int) -> str:
    """What is set apart, the number, as six lines of text; refused with 15 where it has a bit above 52."""
    room = bytearray(DRAWING_MOST)
    return room[:taken("drawing_write_apart", apart, room)].decode("ascii")


def apart_from_drawing(text: str) -> int:
    """What a drawing shows as set apart. Refused with 41 and the first line that isn't of its form, from 0."""
    room = bytearray(8)
    taken("drawing_read_apart", text.encode(), room)
    return int.from_bytes(room, "little")


class Condition(NamedTuple):
    """A condition of an instruction: what is told where it is the first to fail, whether it holds, and the parts that decide it."""

    number: Number
    holds: bool
    parts: Tuple[int, ...]


@dataclass(frozen=True)
class Record:
    """A garage as it stands, as the number of 64 bits that docs/PROTOCOL.md explains; `str` gives its bytes in hexadecimal."""

    image: int

    def __post_init__(self):
        if not 0 <= self.image < 1 << 64:
            raise ValueError(f"a record has 64 bits, which {self.image} has not")

    def __bytes__(self) -> bytes:
        return self.image.to_bytes(8, "little")

    def __str__(self) -> str:
        return bytes(self).hex(" ").upper()

    @classmethod
    def from_bytes(cls, eight: bytes) -> "Record":
        if len(eight) != 8:
            raise ValueError(f"a record has eight bytes, not {len(eight)}")
        return cls(int.from_bytes(eight, "little"))

    @classmethod
    def from_drawing(cls, text: str) -> "Record":
        """The record of a drawing. Refused with 41 and the first line that isn't of its form, from 0, or with 15."""
        room = bytearray(8)
        taken("drawing_read", text.encode(), room)
        return cls.from_bytes(room)

    def drawing(self) -> str:
        """Six lines of text; refused with 15 where the record isn't sound."""
        room = bytearray(DRAWING_MOST)
        return room[:taken("drawing_write", self.image, room)].decode("ascii")

    def sound(self) -> bool:
        """Whether there can be such a garage."""
        return call("garage_sound", self.image)

    def cars(self) -> int:
        """How many cars there are; refused with 15 where the record isn't sound."""
        cars = call("garage_cars", self.image)
        if cars == NOT_SOUND:
            raise Refused(Number.UNSOUND)
        return cars

    def places(self) -> List[int]:
        """For each car the cell where it begins, in row 1 the lower of its two, in the order of the cells; then RAISED."""
        room = bytearray(CARS_SIZE)
        return list(room[:taken("panel_cars", self.image, room)])

    def reason(self, instruction: Said) -> Optional[Number]:
        """Why a request of that one instruction would be refused here, or None. The record is not tested for soundness."""
        answer = answer_of(call("garage_allowed", self.image, five_of(instruction)))
        return None if answer.taken else answer.number

    def allowed(self, instruction: Said) -> bool:
        return self.reason(instruction) is None

    def next(self, instruction: Said) -> "Record":
        """The record after an instruction; refused with the reason where it isn't allowed."""
        room = bytearray(8)
        try:
            taken("garage_next", self.image, five_of(instruction), room)
        except Refused as refused:
            raise Refused(refused.number, refused.place, parts=self.fault(instruction)) from None
        return Record.from_bytes(room)

    def conditions(self, instruction: Said) -> List[Condition]:
        """The instruction's conditions here, in the paper's order. They know nothing of a drive under way."""
        found = []
        for c in range(CONDITIONS_MOST):
            room = bytearray(CONDITION_SIZE)
            taken("panel_condition", self.image, five_of(instruction), c, room)
            if room[0]:
                found.append(Condition(Number(room[2]), bool(room[1]), parts_of(int.from_bytes(room[3:], "little"))))
        return found

    def fault(self, instruction: Said) -> int:
        """The parts that decide the first condition of the instruction that fails here, a bit for each; 0 where there is none."""
        if not self.sound() or not well_formed(five_of(instruction)):
            return 0
        return next((sum(1 << part for part in one.parts) for one in self.conditions(instruction) if not one.holds), 0)


START = Record(0x00091B0000000000)
"""The record that a station starts with."""
