"""The desk's program over two pipes: a long run held against the library's desk, the street desk of docs/PYTHON.md, and cards in a journal."""

import os
import random
import subprocess
import sys
import tempfile
import unittest

from station import Desk, Event, Number, Outcome, Record, Refused, Station, desks, journals, messages, tilt
from test_journals import grown
from test_journals import head as journal_head
from tree import ROOT, Planner, blocks, run

PROGRAM = ROOT / "bin/desk"


def answer(number: int, place=None, issue: int = 0) -> bytes:
    return messages.message(messages.ANSWER, bytes([number, 255 if place is None else place]) + issue.to_bytes(2, "little"))


def card_of(body: bytes) -> int:
    return int.from_bytes(body, "little")


class ByCalls:
    """A desk that answers messages by the library's calls: what the program is held against."""

    def __init__(self):
        self.desk = Desk()
        self.issue, self.set, self.answered = 65535, [], 0

    def line(self, place: int, card: int) -> bytes:
        found = self.desk.where(card)
        flag = 0 if found is None else 1 if found.last_known else 2 if found.moving_to is not None else 0
        onward = found.moving_to if flag == 2 else 0
        return desks.card_bytes(card) + bytes([place if found else 255, flag, onward, 0])

    def request(self, body: bytes) -> bytes:
        fives = [body[at : at + 5] for at in range(1, len(body), 5)]
        self.issue = self.desk.request(fives)
        self.set, self.answered = fives, 0
        return answer(0, issue=self.issue)

    def result(self, body: bytes) -> bytes:
        self.desk.result(card_of(body[:2]), body[2], body[3])
        self.answered |= 1 << body[2]
        if self.answered + 1 == 1 << len(self.set):
            self.set, self.answered = [], 0
        return answer(0)

    def image(self, desk: Desk, body: bytes) -> None:
        cards = [card_of(body[at : at + 4]) for at in range(17, len(body), 4)]
        desk.image(Record.from_bytes(body[:8]), cards, card_of(body[8:16]))

    def compared(self, body: bytes) -> bytes:
        then = Desk.from_bytes(bytes(self.desk))
        self.image(then, body)
        old, new = ({card: place for place, card in desk.cards.items()} for desk in (self.desk, then))
        lines = [(card, old[card], new.get(card, 255)) for card in old if old[card] != new.get(card)]
        lines += [(card, 255, new[card]) for card in new if card not in old]
        apart = self.desk.apart
        under = {place: place < 40 and (apart >> place & 1 or place < 20 and apart >> place + 1 & 1) or place == 52 and apart >> 52 & 1 for _, place, _ in lines}
        return bytes([len(lines)]) + b"".join(
            desks.card_bytes(card) + bytes([place, bool(under[place]), onward, 0]) for card, place, onward in lines)

    def respond(self, message: bytes) -> bytes:
        """The answer to one message that can be read."""
        kind, body, desk = message[2], message[4:], self.desk
        try:
            if kind == messages.REQUEST:
                return self.request(body)
            if kind == messages.RESULT:
                return self.result(body)
            if kind == messages.ASK:
                record, apart = desk.ask()
                return messages.message(messages.HELD, bytes(record) + apart.to_bytes(8, "little"))
            if kind == desks.WHERE:
                line = self.line(next((place for place, card in desk.cards.items() if card == card_of(body)), 255), card_of(body))
                return messages.message(desks.PLACE, line[4:7])
            if kind == desks.LEAVING:
                return messages.message(desks.CARD, desks.card_bytes(desk.leaving() or 0))
            if kind == desks.LIST:
                lines = [self.line(place, card) if place != 55 else desks.card_bytes(card) + bytes([55, 0, 0, 0]) for place, card in desk.cards.items()]
                return messages.message(desks.LISTED, bytes([len(lines)]) + b"".join(lines))
            if kind == desks.OUTSTANDING:
                body = self.issue.to_bytes(2, "little") + bytes([self.answered, len(self.set)]) + b"".join(self.set)
                return messages.message(desks.OPEN, body)
            if kind == desks.COMPARE:
                return messages.message(desks.COMPARED, self.compared(body))
            if kind == desks.BEGIN:
                desk.event(Event.BEGIN_IN, card_of(body))
            elif kind == messages.EVENT:
                desk.event(body[0])
            elif kind == messages.IMAGE:
                desk.image(Record.from_bytes(body[:8]), [], card_of(body[8:]))
            else:
                self.image(desk, body)
            return answer(0)
        except Refused as refused:
            return answer(refused.number, refused.place)


class Clerk(Planner):
    """A planner whose drivers have cards: some come twice, some have none, and some lists of an image are wrong."""

    def __init__(self, numbers):
        super().__init__(numbers)
        self.last = 7000

    def card(self) -> int:
        self.last += 1
        return self.pick([self.last] * 8 + [0, *self.known])

    def carded(self, message: bytes, known) -> bytes:
        """A message of the planner with its cards."""
        self.known = list(known)
        if message[2] == messages.EVENT and message[4] == Event.BEGIN_IN:
            return desks.begin_in(self.card())
        if message[2] == messages.IMAGE:
            record = Record.from_bytes(message[4:12])
            cars = len(record.places()) + (record.image >> 55 & 1) if record.sound() else 1
            cards = [self.card() or self.pick([0, self.last + 1]) for _ in range(self.pick([cars] * 9 + [min(cars + 1, 31)]))]
            made = self.pick([desks.image, desks.image, desks.compare])
            return made(record, cards, int.from_bytes(message[12:], "little")) if cards else message
        asked = [(desks.LIST, b""), (desks.OUTSTANDING, b""), (desks.LEAVING, b""), (desks.WHERE, desks.card_bytes(self.card()))]
        return messages.message(*self.pick(asked)) if self.numbers.random() < 0.3 else message


class LongRun(unittest.TestCase):
    def test_the_program_answers_as_the_library_does(self):
        came, kinds = set(), set()
        for seed in range(3):
            clerk, held = Clerk(random.Random(seed)), ByCalls()
            with desks.Desk(PROGRAM) as program:
                for plain, _ in clerk.messages(1500):
                    try:
                        messages.read(plain)
                        message = clerk.carded(plain, held.desk.cards.values())
                    except ValueError:
                        message = messages.ask()
                    expected = held.respond(message)
                    self.assertEqual(program.send(message), expected, message.hex(" "))
                    kinds.add(expected[2])
                    came.add(expected[4] if expected[2] == messages.ANSWER else None)
                    # the desk may have refused what its planner's station took, or was asked instead
                    clerk.station.room[:] = bytes(held.desk)[: Station.SIZE]
                    clerk.issue, clerk.waiting = held.issue, [i for i in range(len(held.set)) if not held.answered >> i & 1]
        self.assertEqual(kinds, {messages.ANSWER, messages.HELD, desks.PLACE, desks.CARD, desks.LISTED, desks.OPEN, desks.COMPARED})
        self.assertLessEqual({Number.ZERO_NUMBER, Number.KNOWN_NUMBER, Number.WRONG_COUNT, Number.SET_APART, Number.LATE}, came)


class Street(unittest.TestCase):
    """The street desk of docs/PYTHON.md: lines with `>` are typed, the others are shown."""

    def test_the_session(self):
        [(_, session)] = [block for block in blocks("docs/PYTHON.md") if block[0] == "street"]
        typed = "".join(line[2:] + "\n" for line in session.splitlines() if line.startswith("> "))
        with tempfile.TemporaryDirectory() as folder:
            street = [sys.executable, str(ROOT / "docs/examples/street.py"), str(PROGRAM)]
            paths = {**os.environ, "PYTHONPATH": str(ROOT / "hosts/python")}
            told = subprocess.run(street, input=typed, capture_output=True, text=True, cwd=folder, env=paths, check=False)
        self.assertEqual((told.returncode, told.stderr), (0, ""))
        self.assertEqual(told.stdout, "".join(f"{line}\n" for line in session.splitlines() if not line.startswith("> ")))


class Explained(unittest.TestCase):
    """A journal with cards, as bin/explain shows it: each append has what the station was sent and the numbers after it."""

    def test_cards_are_where_the_desk_has_them(self):
        held, journal = ByCalls(), journal_head()
        # two cars in the garage, whose cards only the first append with cards says, then one that comes in and is moved
        record = Record(0x00091B0001000600)
        held.respond(desks.image(record, [12, 13]))
        steps = [messages.image(record), messages.event(Event.BEGIN_IN), messages.event(Event.END_DONE), messages.request("lift basement")]
        for at, step in enumerate([*steps, messages.result(0, 0, Outcome.DONE)]):
            if at:
                held.respond(desks.begin_in(7001) if at == 1 else step)
            journal = grown(journal, (journals.Kind.CARDS, bytes(held.desk)[Station.SIZE :] + step))
            self.assertEqual(journals.read(journal).desk(), held.desk)
            shown = run("bin/explain", given=journal).stdout.decode()
            for card, place in ((12, "at cells 9, 10"), (13, "at cell 24"), (7001, (None, None, "on the raised lift", "on the raised lift", "at cells 11, 12")[at])):
                self.assertEqual(place is not None, f"card {card} {place}" in shown.rsplit("cars: ", 1)[-1], (at, card))
            self.assertEqual(", in motion to cells 11, 12" in shown.rsplit("cars: ", 1)[-1], at == 3)
            self.assertEqual("a drive-in is under way, card 7001" in shown, at >= 1)


class Forms(unittest.TestCase):
    def test_a_set_is_told_in_words(self):
        with desks.Desk(PROGRAM) as program:
            program.request(["lift basement", "tilt left row 3 tilted"])
            program.result(0, 1, Outcome.FAILED)
            self.assertEqual(program.outstanding(), (0, [(bytes([4, 2, 0, 0, 0]), False), (bytes(tilt("left", 3, "tilted")), True)]))
