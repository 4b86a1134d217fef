"""The station and the street desk, held as the bytes that the entries read and write."""

import struct
from typing import Dict, Iterable, List, NamedTuple, Optional, Tuple, Union

from .answers import NOWHERE, Event, Number, Outcome, Refused, taken
from .entries import call
from .parts import folded
from .record import RAISED, Record
from .words import Instruction, Said, fives_of

REPLY_MOST, SHOWN_SIZE, CARD_SIZE = 20, 16, 4
LINE_SIZE, LIST_SIZE, OPEN_SIZE, CHANGES_SIZE = 8, 248, 44, 496
COUNT_MOST = 255
"""What a count of one byte goes to; more are too many all the same."""
AT_LIFT, AT_DRIVE, UNDER_WAY = 40, 41, 55
"""Where a desk's room has the cards of the raised lift and of a drive-in under way, and the record's bit of the latter."""


class Calls:
    """What a station and a desk have in common; NAME is what their entries' names begin with, SIZE their bytes."""

    NAME: str
    SIZE: int

    def __init__(self):
        self.room = bytearray(self.SIZE)
        self.taken("start")

    @classmethod
    def start(cls):
        """No cars, the lift at street."""
        return cls()

    @classmethod
    def from_bytes(cls, kept: bytes):
        """Bytes that were kept; refused with 16 where they are none such."""
        if len(kept) != cls.SIZE:
            raise ValueError(f"a {cls.NAME} has {cls.SIZE} bytes, not {len(kept)}")
        one = cls()
        one.room[:] = kept
        one.ask()
        return one

    def __bytes__(self) -> bytes:
        return bytes(self.room)

    def __eq__(self, other: object) -> bool:
        return type(self) is type(other) and bytes(self) == bytes(other)

    def taken(self, entry: str, *values) -> int:
        return taken(f"{self.NAME}_{entry}", self.room, *values)

    def request(self, instructions: Union[Said, Iterable[Said]]) -> int:
        """Requests a set, or one instruction by itself; gives its issue. Refused with the place of the instruction at fault, where there is
        one, and the parts of the garage that are."""
        fives = fives_of(instructions)
        try:
            return self.taken("request", min(len(fives), COUNT_MOST), b"".join(fives))
        except Refused as refused:
            raise self.with_parts(refused, fives) from None

    def with_parts(self, refused: Refused, fives: List[bytes]) -> Refused:
        """A set's refusal with the parts that are at fault, as far as one instruction is."""
        at, number = refused.place, refused.number
        if at is None or number is Number.BAD_FIELD:
            return refused
        areas = [Instruction(five).area() for five in fives]
        if number is Number.SET_APART:
            return Refused(number, at, folded(areas[at]) & self.apart)
        if number is Number.OVERLAP:
            earlier = next(one for one in range(at) if areas[one] & areas[at])
            return Refused(number, at, areas[earlier] & areas[at], earlier)
        return Refused(number, at, self.record.fault(fives[at]))

    def result(self, issue: int, number: int, outcome: Outcome) -> None:
        """The result of an instruction, counted from 0, of the set with this issue."""
        self.taken("result", issue, number, outcome)

    def ask(self) -> Tuple[Record, int]:
        """The record, and what is set apart."""
        shown = bytearray(SHOWN_SIZE)
        self.taken("ask", shown)
        return Record.from_bytes(shown[:8]), int.from_bytes(shown[8:], "little")

    @property
    def record(self) -> Record:
        return self.ask()[0]

    @property
    def apart(self) -> int:
        """What is set apart, a bit for each part; `parts_of` lists them."""
        return self.ask()[1]


class Station(Calls):
    """A station (include/station.h). A call that isn't taken raises Refused, and changes nothing."""

    NAME, SIZE = "station", 60

    def event(self, way: Event) -> None:
        """A drive begins or ends."""
        self.taken("event", way)

    def image(self, record: Record, apart: int = 0) -> None:
        """Takes a record, as after somebody looked; what is set apart must be nothing."""
        self.taken("image", record.image, apart)

    def message(self, message: bytes) -> bytes:
        """The message that answers the first of some bytes, a refusal too, as bytes; `messages.read` says what they mean."""
        reply = bytearray(REPLY_MOST)
        call("station_message", self.room, message, reply)
        return bytes(reply[: 2 + reply[0]])


class Whereabouts(NamedTuple):
    """Where a card's car is: its cell, in row 1 the lower of two, or RAISED; whether that is only its last known place; and, of a car in
    motion, the place that it would get."""

    place: int
    last_known: bool
    moving_to: Optional[int] = None


class Desk(Calls):
    """A street desk (include/desk.h): a station whose cars have card numbers."""

    NAME, SIZE = "desk", 228

    def event(self, way: Event, card: int = 0) -> None:
        """A drive begins or ends; a begin of a drive-in brings its card."""
        self.taken("event", way, card)

    def image(self, record: Record, cards: Iterable[int], apart: int = 0) -> None:
        """Takes a record with the cards of its cars: in the order of `record.places()`, then that of a drive-in under way."""
        numbers = [card.to_bytes(CARD_SIZE, "little") for card in cards]
        self.taken("image", record.image, apart, min(len(numbers), COUNT_MOST), b"".join(numbers))

    @property
    def cards(self) -> Dict[int, int]:
        """The card at each place: a cell, in row 1 the lower of two; RAISED; or 55, a drive-in under way."""
        numbers = struct.unpack_from(f"<{AT_DRIVE + 1}I", self.room, Station.SIZE)
        places = {AT_LIFT: RAISED, AT_DRIVE: UNDER_WAY}
        return {places.get(at, at): number for at, number in enumerate(numbers) if number}

    def where(self, card: int) -> Optional[Whereabouts]:
        """Where a card's car is; None where no car in the garage has it."""
        said = call("desk_where", self.room, card)
        if said & 255:
            raise Refused(Number(said & 255))
        place = said >> 8 & 255
        moving_to = said >> 24 if said >> 17 & 1 else None
        return None if place == NOWHERE else Whereabouts(place, bool(said >> 16 & 1), moving_to)

    def leaving(self) -> Optional[int]:
        """The card that is leaving, if one is."""
        card = bytearray(CARD_SIZE)
        self.taken("leaving", card)
        return int.from_bytes(card, "little") or None

    def list(self) -> List["Line"]:
        """What is told of every car, in the order of `record.places()`, and then of the card of a drive-in under way, at 55."""
        lines = bytearray(LIST_SIZE)
        return lines_of(lines, call("desk_list", self.room, lines))

    def outstanding(self) -> Tuple[int, List[Tuple[bytes, bool]]]:
        """The issue of the last set that was accepted, and each instruction that is outstanding, five bytes, with whether it is answered."""
        told = bytearray(OPEN_SIZE)
        self.taken("outstanding", told)
        issue, count, answered = struct.unpack_from("<HBB", told)
        return issue, [(bytes(told[4 + 5 * i : 9 + 5 * i]), bool(answered >> i & 1)) for i in range(count)]

    def compare(self, record: Record, cards: Iterable[int], apart: int = 0) -> List["Line"]:
        """What an image with these cards would change; the desk stays as it is. Refused as the image would be. First the cards that would
        leave or change places, then those that would appear, at 255."""
        numbers = [card.to_bytes(CARD_SIZE, "little") for card in cards]
        lines, count = bytearray(CHANGES_SIZE), min(len(numbers), COUNT_MOST)
        return lines_of(lines, call("desk_compare", self.room, record.image, apart, count, b"".join(numbers), lines))


class Line(NamedTuple):
    """What is told of a card: its place, a flag (0 the car is there, 1 that place is the last known, 2 it is in motion), and the place that it
    would get. 255 is none, and 55 that of a drive-in under way."""

    card: int
    place: int
    flag: int
    next: int


def lines_of(lines: bytes, said: int) -> List[Line]:
    """As many lines as an answer says."""
    if said & 255:
        raise Refused(Number(said & 255))
    return [Line(*struct.unpack_from("<IBBB", lines, LINE_SIZE * i)) for i in range(said >> 8 & 255)]
