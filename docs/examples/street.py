#!/usr/bin/env python3
"""street.py DESK [WORDS..]: a street desk at a terminal. It starts DESK (bin/desk) with the other words as its child, and keeps no card itself:
what it tells is what the desk tells. One line is one command:

    comes CARD          a driver comes with this card: may the car drive into the lift?
    leaves              the car on the lift wants out: whose is it? Read the card before the door is opened
    through, back       the drive has ended: the car went through, or did not
    where CARD          where is my car?
    cars                every car, with its place
    move WORDS; WORDS   moves cars: a set of instructions in words, as in plans
    done N, failed N, stuck N
                        what became of the set's instruction N, counted from 0
    open                what still waits for its result
    sheet FILE          after a jam: writes what is to be looked at, with a `?` for each card that somebody must read
    seen FILE           the sheet as somebody has filled it in: tells what would change
    yes, no             takes what was seen, or doesn't

It needs the package hosts/python/station (docs/PYTHON.md). It ends with its input; its status is the desk's.
"""

import sys
from typing import Callable, Dict, List, Optional, Tuple

from station import RAISED, Ended, Event, Instruction, Outcome, Record, Refused, desks

WAITS, NONE = 55, 255  # the place of a card whose drive-in is under way, and that of a card that is not in the garage
SURE, LAST_KNOWN, MOVING = 0, 1, 2
ROWS = [(20, "row 1, cells {0} and {1}"), (30, "row 2, cell {0}"), (40, "row 3, cell {0}")]
Seen = Tuple[Record, List[int]]


def place_in_words(place: int) -> str:
    if place == NONE:
        return "not in the garage"
    if place == RAISED:
        return "on the raised lift"
    if place == WAITS:
        return "driving in"
    return next(words.format(place, place + 1) for end, words in ROWS if place < end)


def car_in_words(place: int, flag: int, onward: int) -> str:
    words = place_in_words(place)
    if flag == LAST_KNOWN:
        return f"last known: {words}. Somebody has to look"
    return words if flag == SURE else f"in motion: {words}, to {place_in_words(onward)}"


class Street:
    """What the clerk may say, each as a method that gives the lines to show."""

    def __init__(self, desk: desks.Desk):
        self.desk = desk
        self.seen: Optional[Seen] = None

    def begins(self) -> List[str]:
        """Where it goes on from."""
        return [f"{len(self.desk.list())} cars", *self.open()]

    # ---- drivers

    def comes(self, card: str) -> List[str]:
        self.desk.event(Event.BEGIN_IN, int(card))
        return [f"card {int(card)} may drive in"]

    def leaves(self) -> List[str]:
        self.desk.event(Event.BEGIN_OUT)
        return [f"card {self.desk.leaving()} is leaving: read it before the door is opened"]

    def through(self) -> List[str]:
        self.desk.event(Event.END_DONE)
        return ["the drive has ended"]

    def back(self) -> List[str]:
        self.desk.event(Event.END_NOT_DONE)
        return ["the drive has ended, and nothing has moved"]

    def where(self, card: str) -> List[str]:
        found = self.desk.where(int(card))
        if found is None:
            return [place_in_words(NONE)]
        moving = found.moving_to is not None
        return [car_in_words(found.place, MOVING if moving else LAST_KNOWN if found.last_known else SURE, found.moving_to or 0)]

    def cars(self) -> List[str]:
        return [f"card {line.card}: {car_in_words(*line[1:])}" for line in self.desk.list()]

    # ---- motors

    def move(self, words: str) -> List[str]:
        issue = self.desk.request([one.strip() for one in words.split(";")])
        return [f"set {issue} is accepted"]

    def ended(self, number: str, outcome: Outcome) -> List[str]:
        self.desk.result(self.desk.outstanding()[0], int(number), outcome)
        return self.open()

    def done(self, number: str) -> List[str]:
        return self.ended(number, Outcome.DONE)

    def failed(self, number: str) -> List[str]:
        return self.ended(number, Outcome.FAILED)

    def stuck(self, number: str) -> List[str]:
        return self.ended(number, Outcome.STUCK)

    def open(self) -> List[str]:
        issue, of_set = self.desk.outstanding()
        waiting = [f"set {issue} waits for {i}: {Instruction(five)}" for i, (five, answered) in enumerate(of_set) if not answered]
        return waiting or ["nothing is outstanding"]

    # ---- after a jam

    def sheet(self, file: str) -> List[str]:
        """The floor as it is recorded, then each car's place and its card, or a `?` where that place is only the last known."""
        lines = self.desk.list()
        with open(file, "x", encoding="ascii") as out:
            out.write(self.desk.ask().record.drawing())
            for line in lines:
                out.write(f"{line.place} {'?' if line.flag == LAST_KNOWN else line.card}\n")
        doubtful = [line for line in lines if line.flag == LAST_KNOWN]
        return [f"{file}: mend the drawing, then write each car's place and card", *(
            f"look for card {line.card}, {car_in_words(*line[1:])}" for line in doubtful)]

    def read_sheet(self, file: str) -> Seen:
        """The record and its cards in the order that an image wants. A ValueError says which line or place is wrong."""
        with open(file, encoding="ascii") as text:
            rows = text.read().splitlines()
        record = Record.from_drawing("".join(f"{row}\n" for row in rows[:6]))
        written: Dict[int, int] = {}
        for at, row in enumerate(rows[6:], 7):
            place, _, card = row.partition(" ")
            if not place.isdigit() or not card.strip().isdigit() or int(place) in written:
                raise ValueError(f"line {at} is no place with a card, or has a place twice: {row}")
            written[int(place)] = int(card)
        places = record.places() + [WAITS] * (record.image >> WAITS & 1)
        if sorted(written) != sorted(places):
            wrong = sorted(set(written) ^ set(places))
            raise ValueError(f"the drawing and the cards don't match: {', '.join(place_in_words(place) for place in wrong)}")
        return record, [written[place] for place in sorted(places)]

    def seen_on(self, file: str) -> List[str]:
        self.seen = None
        record, cards = self.read_sheet(file)
        changes = self.desk.compare(record, cards)
        self.seen = record, cards
        told = [f"card {line.card}: {place_in_words(line.place)} -> {place_in_words(line.next)}" for line in changes]
        return [*(told or ["no card would change its place"]), "yes or no?"]

    def yes(self) -> List[str]:
        if self.seen is None:
            return ["nothing was seen"]
        record, cards = self.seen
        self.seen = None
        self.desk.image(record, cards)
        return ["taken: every place is sure again"]

    def no(self) -> List[str]:
        self.seen = None
        return ["not taken"]

    def commands(self) -> Dict[str, Callable[..., List[str]]]:
        """Each command, with as many words as its method has; `move` has the rest of the line."""
        named = [self.comes, self.leaves, self.through, self.back, self.where, self.cars, self.move, self.done, self.failed, self.stuck, self.open]
        return {method.__name__: method for method in [*named, self.sheet, self.yes, self.no]} | {"seen": self.seen_on}

    def told(self, line: str) -> List[str]:
        """What a line is answered with. What was seen is taken at once or not at all."""
        word, _, rest = line.strip().partition(" ")
        command = self.commands().get(word)
        if word not in ("yes", "seen"):
            self.seen = None
        if command is None:
            return [f"no command: {word}. Those are: {', '.join(self.commands())}"]
        try:
            return command(*([rest.strip()] if rest.strip() else []))
        except Refused as refused:
            return [f"refused, {refused}"]
        except TypeError:
            return [f"{word}: too many words, or too few"]
        except (ValueError, OverflowError, OSError) as wrong:
            return [f"{word}: {wrong}"]


def main() -> int:
    if len(sys.argv) < 2 or sys.argv[1].startswith("-"):
        print(__doc__, file=sys.stderr)
        return 2
    try:
        with desks.Desk(*sys.argv[1:]) as desk:
            street = Street(desk)
            for answer in street.begins():
                print(answer, flush=True)
            for line in sys.stdin:
                for answer in street.told(line) if line.strip() else []:
                    print(answer, flush=True)
    except Ended as ended:
        print(f"street: {ended}", file=sys.stderr)
        return ended.status or 3
    return 0


if __name__ == "__main__":
    sys.exit(main())
