"""What the entries and the program answer with, in words: numbers, places and issues; and the words for events and results."""

from enum import IntEnum
from typing import NamedTuple, Optional

from . import entries
from .parts import parts_in_words

NOWHERE = 255


class Worded(IntEnum):
    """A number with words, which `str` gives behind it."""

    def __new__(cls, value: int, words: str):
        one = int.__new__(cls, value)
        one._value_ = value
        one.words = words
        return one

    def __str__(self) -> str:
        return f"{int(self)} ({self.words})"


class Number(Worded):
    """The table: those of the station, then those of plans, of the desk, of the report and of drawings."""

    TAKEN = 0, "taken"
    TOO_FEW_BYTES = 1, "fewer bytes than it says"
    BAD_LENGTH = 2, "a length that its kind doesn't have"
    UNKNOWN_KIND = 3, "unknown kind"
    BAD_FIELD = 4, "a field out of range"
    TOO_MANY = 5, "more than eight instructions"
    SET_OUTSTANDING = 6, "a set is outstanding"
    EMPTY_SET = 7, "empty set"
    OVERLAP = 8, "overlap"
    EVENT_IMPOSSIBLE = 10, "event impossible"
    NO_SET = 11, "no set is outstanding"
    NOT_IN_SET = 12, "not in the set"
    ALREADY_ANSWERED = 13, "already answered"
    UNSOUND = 15, "image not sound"
    UNFIT = 16, "station unfit"
    NO_ROOM = 17, "room too small"
    NOTHING_NAMED = 20, "nothing named"
    GAP = 21, "a gap between those named"
    NOT_AVAILABLE = 22, "not available"
    NOT_FREE = 23, "no free place to move to"
    ODD_COUNT = 24, "odd count: a car would be torn"
    HALF_MOVE = 25, "half move in row 2 or 3"
    SAME_HEIGHT = 26, "already at that height"
    NOT_AT_ROTATION = 27, "not at rotation height"
    CELLS_NOT_FREE = 28, "cells not free for the tilt or the rotation"
    LATE = 29, "late: of a set before the present one"
    NOT_ISSUED = 30, "of a set that was not issued"
    OUT_OF_TURN = 31, "out of turn"
    SET_APART = 32, "a part is set apart"
    KEPT_OPEN = 33, "places are kept open"
    TOO_MANY_SETS = 35, "more than 64 sets"
    WISH_NOT_MET = 36, "wish not met"
    ZERO_NUMBER = 37, "number zero"
    KNOWN_NUMBER = 38, "number already in the garage, or given twice"
    WRONG_COUNT = 39, "not that many numbers"
    FULL = 40, "a total is full"
    BAD_LINE = 41, "not a drawing"


class Event(Worded):
    """A drive begins or ends."""

    BEGIN_IN = 1, "begin in"
    BEGIN_OUT = 2, "begin out"
    END_DONE = 3, "ended and done"
    END_NOT_DONE = 4, "ended and not done"


class Outcome(Worded):
    """The result of an instruction."""

    FAILED = 0, "failed"
    DONE = 1, "done"
    STUCK = 2, "stuck"


class Refused(Exception):
    """A call that was not taken: its number, and the place of the instruction, line or total that it names, or None. Of an instruction also
    the parts of the garage that are at fault, a bit for each (`parts_of` lists them), and for an overlap the earlier one that has them."""

    def __init__(self, number: Number, place: Optional[int] = None, parts: int = 0, earlier: Optional[int] = None):
        super().__init__(number, place, parts, earlier)
        self.number, self.place, self.parts, self.earlier = number, place, parts, earlier

    def __str__(self) -> str:
        at = "" if self.place is None else f" at {self.place}"
        beside = "" if self.earlier is None else f", with {self.earlier}"
        return f"{self.number!s}{at}{beside}" + (f": {parts_in_words(self.parts)}" if self.parts else "")


class Answer(NamedTuple):
    """A number; the place of what it names, or None; and the issue of the set where a request was taken, else 0."""

    number: Number
    place: Optional[int] = None
    issue: int = 0

    @property
    def taken(self) -> bool:
        return self.number is Number.TAKEN

    def checked(self) -> int:
        """The issue, where this is taken; else raises Refused."""
        if not self.taken:
            raise Refused(self.number, self.place)
        return self.issue


def answer_of(said: int) -> Answer:
    """An entry's answer taken apart. The upper half is the issue, and of other entries a length or a count."""
    place = said >> 8 & 255
    return Answer(Number(said & 255), None if place == NOWHERE else place, said >> 16)


def taken(name: str, *values) -> int:
    """Calls an entry, and gives the upper half of what it answers; raises Refused where it isn't taken."""
    return answer_of(entries.call(name, *values)).checked()
