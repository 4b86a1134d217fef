"""The desk's program as a child with two pipes, and the messages that only a desk has (docs/DESK-MESSAGES.md)."""

import struct
from typing import Iterable, List, Optional, Tuple, Union

from . import messages
from .answers import NOWHERE, Event, Outcome, Refused
from .calls import CARD_SIZE, COUNT_MOST, LINE_SIZE, Line, Whereabouts
from .messages import Answer, Held, message
from .program import Program
from .record import Record
from .words import Said

BEGIN, CARDS, WHERE, LEAVING, LIST, OUTSTANDING, COMPARE = 6, 7, 8, 9, 10, 11, 12
PLACE, CARD, LISTED, OPEN, COMPARED = 136, 137, 138, 139, 140
LENGTH_MOST, FIVE = 143, 5
LAST_KNOWN, MOVING = 1, 2


def card_bytes(card: int) -> bytes:
    return card.to_bytes(CARD_SIZE, "little")


def begin_in(card: int) -> bytes:
    """A drive-in begins with this card."""
    return message(BEGIN, card_bytes(card)) if card else messages.event(Event.BEGIN_IN)


def image_body(record: Record, cards: Iterable[int], apart: int) -> bytes:
    numbers = [card_bytes(card) for card in cards]
    return bytes(record) + apart.to_bytes(8, "little") + bytes([min(len(numbers), COUNT_MOST)]) + b"".join(numbers)


def image(record: Record, cards: Iterable[int], apart: int = 0) -> bytes:
    """An image with the cards of its cars: in the order of `record.places()`, then that of a drive-in under way."""
    numbers = list(cards)
    return message(CARDS, image_body(record, numbers, apart)) if numbers else messages.image(record, apart)


def compare(record: Record, cards: Iterable[int], apart: int = 0) -> bytes:
    """What such an image would change is asked."""
    return message(COMPARE, image_body(record, cards, apart))


def lines_in(body: bytes) -> List[Line]:
    """The lines of an answer."""
    return [Line(*struct.unpack_from("<IBBB", body, at)) for at in range(1, len(body), LINE_SIZE)]


class Desk(Program):
    """A running desk: `Desk("bin/desk", "--new", "north.journal", "--garage", "north")`. A call that isn't taken raises Refused."""

    LONGEST = LENGTH_MOST

    def asked(self, question: bytes, kind: int) -> bytes:
        """The body of the answer of this kind; any other is a refusal."""
        answer = self.send(question)
        if int.from_bytes(answer[2:4], "little") == kind:
            return answer[4:]
        said = messages.read(answer)
        assert isinstance(said, Answer) and not said.taken, answer
        raise Refused(said.number, said.place)

    def taken(self, said: bytes) -> int:
        answer = messages.read(self.send(said))
        assert isinstance(answer, Answer), answer
        return answer.checked()

    def request(self, instructions: Union[Said, Iterable[Said]]) -> int:
        """Requests a set; gives its issue."""
        return self.taken(messages.request(instructions))

    def result(self, issue: int, number: int, outcome: Outcome) -> None:
        self.taken(messages.result(issue, number, outcome))

    def event(self, way: Event, card: int = 0) -> None:
        """A drive begins or ends; a begin of a drive-in brings its card."""
        self.taken(begin_in(card) if way is Event.BEGIN_IN else messages.event(way))

    def image(self, record: Record, cards: Iterable[int], apart: int = 0) -> None:
        self.taken(image(record, cards, apart))

    def ask(self) -> Held:
        """The record, and what is set apart."""
        held = messages.read(self.send(messages.ask()))
        assert isinstance(held, Held), held
        return held

    def where(self, card: int) -> Optional[Whereabouts]:
        """Where a card's car is; None where no car in the garage has it."""
        place, flag, onward = self.asked(message(WHERE, card_bytes(card)), PLACE)
        return None if place == NOWHERE else Whereabouts(place, flag == LAST_KNOWN, onward if flag == MOVING else None)

    def leaving(self) -> Optional[int]:
        """The card that is leaving, if one is."""
        return int.from_bytes(self.asked(message(LEAVING), CARD), "little") or None

    def list(self) -> List[Line]:
        """What is told of every car, in the order of an image's cards."""
        return lines_in(self.asked(message(LIST), LISTED))

    def outstanding(self) -> Tuple[int, List[Tuple[bytes, bool]]]:
        """The issue of the last set that was accepted, and each instruction that is outstanding, with whether it is answered."""
        body = self.asked(message(OUTSTANDING), OPEN)
        issue, answered, count = struct.unpack_from("<HBB", body)
        return issue, [(body[4 + FIVE * i : 9 + FIVE * i], bool(answered >> i & 1)) for i in range(count)]

    def compare(self, record: Record, cards: Iterable[int], apart: int = 0) -> List[Line]:
        """What an image with these cards would change: each card with its place now and its place then. It changes nothing."""
        return lines_in(self.asked(compare(record, cards, apart), COMPARED))
