"""Plans tried before the day (docs/PLANS.md)."""

from dataclasses import dataclass
from typing import NamedTuple, Optional, Sequence, Union

from .answers import NOWHERE, Number, Refused, answer_of
from .calls import COUNT_MOST
from .entries import call
from .record import Record
from .words import Said, set_of


def is_accepted(told: Union["Verdict", "Grounds"]) -> bool:
    """Whether the plan is accepted of which this is told."""
    return told.number is Number.TAKEN


class Verdict(NamedTuple):
    """What a plan is told: a number, and the first set that would be refused, from 0, or None."""

    number: Number
    set: Optional[int] = None

    accepted = property(is_accepted)

    def __str__(self) -> str:
        if self.accepted:
            return "accepted"
        return str(self.number) if self.set is None else f"{self.number!s}, set {self.set}"


@dataclass(frozen=True)
class Plan:
    """A garage as it stands, sets one after the other, and whether at the end the lift is to be at street with a car or without."""

    record: Record
    with_a_car: bool
    sets: Sequence[Sequence[Said]]

    def __bytes__(self) -> bytes:
        sets = [set_of(one) for one in self.sets]
        if max([len(sets), *(count for count, _ in sets)]) > COUNT_MOST:
            raise ValueError("a plan's bytes can count 255 sets, and 255 instructions in each")
        head = bytes(self.record) + bytes(8) + bytes([self.with_a_car, len(sets)])
        return head + b"".join(bytes([count]) + fives for count, fives in sets)


def judge(plan: Union[Plan, bytes]) -> Verdict:
    """What the station would say to a whole plan, or to a plan's bytes."""
    answer = answer_of(call("plan_judge", bytes(plan)))
    return Verdict(answer.number, answer.place)


class Grounds(NamedTuple):
    """On what grounds a plan is accepted or refused: its number and the first set that is refused, from 0, or None; in that set the place of
    the instruction at fault, or None; of an overlap the first earlier one; the parts that both have, or that decide the condition that fails,
    a bit for each; and the record before that set, or the last one where no set is refused, or None where none was tried."""

    number: Number
    set: Optional[int] = None
    place: Optional[int] = None
    earlier: Optional[int] = None
    parts: int = 0
    record: Optional[Record] = None

    accepted = property(is_accepted)

    def __str__(self) -> str:
        if self.accepted:
            return "accepted"
        told = str(Refused(self.number, self.place, self.parts, self.earlier))
        return told if self.set is None else f"set {self.set}: {told}"


GROUNDS_SIZE, HEAD_SIZE = 18, 18
"""The bytes that the entry writes, and those of a plan before its sets."""


def instruction_in(plan: bytes, number: int, place: int) -> bytes:
    """The five bytes of an instruction of a set, by their numbers."""
    at = HEAD_SIZE
    for _ in range(number):
        at += 1 + 5 * plan[at]
    return plan[at + 1 + 5 * place:][:5]


def explain(plan: Union[Plan, bytes]) -> Grounds:
    """What the station would say to a whole plan, or to a plan's bytes, and on what grounds."""
    plan, room = bytes(plan), bytearray(GROUNDS_SIZE)
    answer = answer_of(call("plan_explain", plan, room))
    image, parts = (int.from_bytes(room[at:at + 8], "little") for at in (0, 8))
    place, earlier = (None if one == NOWHERE else one for one in room[16:])
    record = Record(image) if image else None
    if place is not None and earlier is None and answer.number is not Number.BAD_FIELD:
        parts = record.fault(instruction_in(plan, answer.place, place))
    return Grounds(answer.number, answer.place, place, earlier, parts, record)
