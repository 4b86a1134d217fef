"""Messages for a pipe (docs/PROTOCOL.md): the five kinds that a station reads are built and read, the two that it answers with are read."""

from typing import Iterable, Iterator, NamedTuple, Tuple, Union

from .answers import NOWHERE, Answer, Event, Number, Outcome
from .record import Record
from .words import Instruction, Said, set_of

SET_MOST, LENGTH_LEAST, LENGTH_MOST = 8, 2, 43
REQUEST, EVENT, RESULT, IMAGE, ASK, ANSWER, HELD = 1, 2, 3, 4, 5, 128, 129


class Request(NamedTuple):
    """A set of instructions is requested."""

    instructions: Tuple[Instruction, ...]


class CarEvent(NamedTuple):
    """A drive begins or ends."""

    way: Event


class Result(NamedTuple):
    """What became of an instruction, counted from 0, of the set with this issue."""

    issue: int
    number: int
    outcome: Outcome


class Image(NamedTuple):
    """The record that somebody saw; what is set apart must be 0 for it to be taken."""

    record: Record
    apart: int


class Ask(NamedTuple):
    """The station is asked what it holds."""


class Held(NamedTuple):
    """What a station holds: its record, and what is set apart."""

    record: Record
    apart: int


def message(kind: int, body: bytes = b"") -> bytes:
    return (2 + len(body)).to_bytes(2, "little") + kind.to_bytes(2, "little") + body


def request(instructions: Union[Said, Iterable[Said]]) -> bytes:
    count, fives = set_of(instructions)
    if count > SET_MOST:
        raise ValueError(f"no message has more than eight instructions, and these are {count}")
    return message(REQUEST, bytes([count]) + fives)


def event(way: Event) -> bytes:
    return message(EVENT, bytes([way]))


def result(issue: int, number: int, outcome: Outcome) -> bytes:
    return message(RESULT, issue.to_bytes(2, "little") + bytes([number, outcome]))


def image(record: Record, apart: int = 0) -> bytes:
    return message(IMAGE, bytes(record) + apart.to_bytes(8, "little"))


def ask() -> bytes:
    return message(ASK)


Message = Union[Request, CarEvent, Result, Image, Ask, Answer, Held]
"""What a message says, to the station or from it."""


def both(body: bytes) -> Tuple[Record, int]:
    return Record.from_bytes(body[:8]), int.from_bytes(body[8:], "little")


def read(given: bytes) -> Message:
    """What one whole message says, to the station or from it. A ValueError where its bytes are none, or say nothing that can be meant."""
    body = given[4:]
    kind = int.from_bytes(given[2:4], "little")
    if given != message(kind, body):
        raise ValueError(f"not one whole message: {given.hex(' ')}")
    if kind == REQUEST and body and len(body) == 1 + 5 * body[0] and body[0] <= SET_MOST:
        return Request(tuple(Instruction(body[at : at + 5]) for at in range(1, len(body), 5)))
    if kind == EVENT and len(body) == 1:
        return CarEvent(Event(body[0]))
    if kind == RESULT and len(body) == 4:
        return Result(int.from_bytes(body[:2], "little"), body[2], Outcome(body[3]))
    if kind == IMAGE and len(body) == 16:
        return Image(*both(body))
    if kind == ASK and not body:
        return Ask()
    if kind == ANSWER and len(body) == 4:
        return Answer(Number(body[0]), None if body[1] == NOWHERE else body[1], int.from_bytes(body[2:], "little"))
    if kind == HELD and len(body) == 16:
        return Held(*both(body))
    raise ValueError(f"no message of a station: {given.hex(' ')}")


def split(recorded: bytes) -> Iterator[bytes]:
    """The messages of a recording, one after the other: whole messages and nothing else. A ValueError names the byte where there is none."""
    at = 0
    while at < len(recorded):
        size = 2 + int.from_bytes(recorded[at : at + 2], "little")
        if not LENGTH_LEAST <= size - 2 <= LENGTH_MOST or at + size > len(recorded):
            raise ValueError(f"no whole message at byte {at}")
        yield recorded[at : at + size]
        at += size


def whole(message: bytes, most: int = LENGTH_MOST) -> bool:
    """Whether a station, or a desk with its own greatest length, answers these bytes once, without waiting for more: they are one whole
    message, or begin with a length that is out of range, which is answered before it stops."""
    length = int.from_bytes(message[:2], "little")
    return len(message) >= 2 and (len(message) == 2 + length or not LENGTH_LEAST <= length <= most)
