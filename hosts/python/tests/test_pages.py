"""The examples of the project's pages, through the module: sessions, desks, plans, drawings and the report; and the module's own page."""

import doctest
import os
import re
import tempfile
import unittest

import station
from station import Desk, Event, Grounds, Number, Program, Record, Refused, Station, Totals, explain, judge, messages
from tree import HEADERS, ROOT, blocks, run, text


def of_mark(page, *marks):
    return [(mark, body) for mark, body in blocks(page) if mark in marks]


class Sessions(unittest.TestCase):
    """docs/EXAMPLES.md and tests/pages/sessions.md, through the library and through the program on a journal."""

    def lines(self):
        found = 0
        for _, session in of_mark("docs/EXAMPLES.md", "session") + of_mark("tests/pages/sessions.md", "session"):
            lines = [(line[0], bytes.fromhex(line[1:])) for line in session.splitlines()]
            # those out of step have lines that are no message, and are the program's alone
            if all(mark != ">" or len(given) == 2 + given[0] or not 2 <= given[0] <= 43 for mark, given in lines):
                found += 1
                yield lines
        self.assertGreater(found, 15)

    def test_by_the_library(self):
        for session in self.lines():
            one, answers, stopped = Station(), [], False
            for mark, given in session:
                if mark == ">" and not stopped:
                    answers.append(one.message(given))
                    stopped = not 2 <= given[0] <= 43
                elif mark == "!":
                    one = Station.from_bytes(bytes(one))
            self.assertEqual(answers, [given for mark, given in session if mark == "<"])

    def test_the_power_cut_and_the_jam_by_the_program(self):
        jammed = messages.image(Record(0x00091B0000000180))
        chosen = [session for session in self.lines() if ("!", b"") in session or session[0] == (">", jammed)]
        self.assertEqual(len(chosen), 3)
        for session in chosen:
            with tempfile.TemporaryDirectory() as folder:
                journal, answers = os.path.join(folder, "garage.journal"), []
                program = Program(ROOT / "bin/station", "--new", journal, "--garage", "north")
                for mark, given in session:
                    if mark == ">":
                        answers.append(program.send(given))
                    elif mark == "!":
                        program.end()
                        program = Program(ROOT / "bin/station", journal)
                program.end()
                self.assertEqual(answers, [given for mark, given in session if mark == "<"])


class Desks(unittest.TestCase):
    """docs/DESK.md. Names in the examples are those of the headers."""

    def setUp(self):
        all_text = "".join(text(f"include/{header.name}") for header in HEADERS)
        self.names = {name: int(number) for name, number in re.findall(r"\b([A-Z]+_[A-Z_]+) = (\d+)", all_text)}

    def value(self, word):
        return self.names[word] if word in self.names else int(word, 0)

    def answer(self, desk, call, given):
        """What a call on a desk is told, in the page's words."""
        try:
            if call == "desk_request":
                return f"0 set {desk.request([bytes(given[at : at + 5]) for at in range(0, len(given), 5)])}"
            if call == "desk_where":
                found = desk.where(given[0])
                if found is None:
                    return "0 at 255"
                moving = "" if found.moving_to is None else f" moving to {found.moving_to}"
                return f"0 at {found.place}" + (" last known" if found.last_known else moving)
            if call == "desk_leaving":
                return f"0 card {desk.leaving() or 0}"
            if call == "desk_ask":
                return f"0 image {desk.record.image} apart {desk.apart}"
            if call == "desk_image":
                desk.image(Record(given[0]), given[2:], given[1])
            elif call == "desk_event":
                desk.event(*given)
            else:
                self.assertEqual(call, "desk_result")
                desk.result(*given)
            return "0"
        except Refused as refused:
            return f"{refused.number.value}" + ("" if refused.place is None else f" at {refused.place}")

    def test_the_examples(self):
        calls = 0
        for _, session in of_mark("docs/DESK.md", "desk"):
            desk, said = Desk(), None
            for line in session.splitlines():
                words = line[1:].replace(",", " ").split()
                if line.startswith(">") and words[0] == "desk_start":
                    desk, said = Desk(), "0"
                elif line.startswith(">"):
                    said, calls = self.answer(desk, words[0], [self.value(word) for word in words[1:]]), calls + 1
                    self.assertEqual(Desk.from_bytes(bytes(desk)), desk)
                else:
                    expected = [word if word.islower() and word.isalpha() else str(self.value(word)) for word in words]
                    self.assertEqual(said, " ".join(expected), line)
        self.assertGreater(calls, 80)

    def test_the_cards_are_where_the_desk_says(self):
        desk = Desk()
        desk.image(Record(0x00191B00002003C0), [7001, 7002, 7003, 7004])
        self.assertEqual(desk.cards, {6: 7001, 8: 7002, 21: 7003, station.RAISED: 7004})
        self.assertEqual(desk.record.places(), list(desk.cards))
        for place, card in desk.cards.items():
            self.assertEqual(desk.where(card), (place, False, None))
        self.assertIsNone(desk.leaving())
        desk.event(Event.BEGIN_OUT)
        self.assertEqual(desk.leaving(), 7004)
        waiting = Desk()
        waiting.event(Event.BEGIN_IN, 0xFFFFFFFF)
        self.assertEqual(waiting.cards, {55: 0xFFFFFFFF})
        damaged = bytearray(bytes(desk))
        damaged[60 + 4 * 6 : 60 + 4 * 7] = bytes(4)
        with self.assertRaises(Refused) as caught:
            Desk.from_bytes(damaged)
        self.assertIs(caught.exception.number, Number.UNFIT)


class Plans(unittest.TestCase):
    def test_the_examples(self):
        found, tried = of_mark("docs/PLANS.md", "plan", "bytes", "verdict", "why"), 0
        explained = 0
        for at, (mark, body) in enumerate(found):
            if mark != "plan" or found[at + 1][0] == "plan":
                continue
            made = run("tools/plan-text", given=body.encode()).stdout
            if found[at + 1][0] == "bytes":
                self.assertEqual(made, bytes.fromhex(found[at + 1][1]))
            expected, *below = next(body for mark, body in found[at:] if mark in ("verdict", "why")).splitlines()
            verdict, grounds = judge(made), explain(made)
            self.assertEqual((grounds.number, grounds.set), tuple(verdict))
            if below:
                told = "\n".join(below)
                where = "at the end" if grounds.set is None else f"before set {grounds.set}"
                self.assertIn(f"{where}: image {grounds.record}\n", told)
                self.assertEqual(re.findall(r"^instruction (\d+): ", told), [] if grounds.place is None else [str(grounds.place)])
                self.assertEqual(re.findall(r"^  it overlaps (\d+): ", told, re.M)[:1], [] if grounds.earlier is None else [str(grounds.earlier)])
                explained += 1
            number, set = re.match(r"(\d+|accepted)", expected)[0], re.search(r", set (\d+)$", expected)
            self.assertEqual("accepted" if verdict.accepted else str(verdict.number.value), number)
            self.assertEqual(verdict.set, int(set[1]) if set else None)
            tried += 1
        self.assertGreater(tried, 5)
        self.assertGreater(explained, 2)

    def test_a_plan_made_here_has_the_bytes_of_its_text(self):
        given = text("docs/plans/park-and-fetch.plan")
        bare = [line for line in given.splitlines() if not line.startswith("#")]
        sets = [set.splitlines() for set in "\n".join(bare[2:]).strip().split("\n\n")]
        plan = station.Plan(Record.from_bytes(bytes.fromhex(bare[0].replace("image", ""))), True, sets)
        self.assertEqual(bytes(plan), run("tools/plan-text", given=given.encode()).stdout)
        self.assertEqual(str(judge(plan)), "accepted")
        self.assertEqual(str(judge(station.Plan(plan.record, False, plan.sets))), "36 (wish not met)")
        longer = station.Plan(plan.record, True, [*plan.sets, ["rotate"]])
        self.assertEqual(str(judge(longer)), f"27 (not at rotation height), set {len(sets)}")
        self.assertEqual(judge(bytes(plan)[:-1]).number, Number.TOO_FEW_BYTES)
        self.assertEqual(explain(bytes(plan)[:-1]), Grounds(Number.TOO_FEW_BYTES))
        self.assertEqual(str(explain(longer)), f"set {len(sets)}: 27 (not at rotation height) at 0: the lift")
        self.assertEqual((str(explain(plan)), explain(plan).record), ("accepted", explain(longer).record))
        with self.assertRaises(ValueError):
            bytes(station.Plan(plan.record, True, [["rotate"]] * 256))


class Drawings(unittest.TestCase):
    def test_the_examples(self):
        found, read, refused = of_mark("docs/DRAWING.md", "drawing", "image", "drawings", "asked", "text", "refused"), 0, 0
        for (mark, body), (then, also) in zip(found[::2], found[1::2]):
            if mark in ("drawings", "asked"):
                continue
            if then != "refused":
                drawing, image = (body, also) if mark == "drawing" else (also, body)
                record = Record.from_bytes(bytes.fromhex(image))
                self.assertEqual((record.drawing(), str(record)), (drawing, image.strip()))
                self.assertEqual(Record.from_drawing(drawing), record)
                read += 1
            elif not also.startswith("draw: not an image"):
                told = re.match(r"draw: (\d+)(?:, place (\d+))?", also)
                with self.assertRaises(Refused) as caught:
                    if mark == "image":
                        Record.from_bytes(bytes.fromhex(body)).drawing()
                    else:
                        Record.from_drawing(body if mark == "drawing" else body.strip().encode().decode("unicode_escape"))
                self.assertEqual(caught.exception.number, int(told[1]))
                self.assertEqual(caught.exception.place, int(told[2]) if told[2] else None)
                refused += 1
        self.assertGreaterEqual(read, 4)
        self.assertGreater(refused, 8)

    def test_what_is_set_apart(self):
        (_, asked), (_, drawings) = of_mark("docs/DRAWING.md", "drawings", "asked")[:2]
        both = bytes.fromhex(asked)
        record, apart = Record.from_bytes(both[:8]), int.from_bytes(both[8:], "little")
        self.assertEqual(record.drawing() + station.apart_drawing(apart), drawings)
        self.assertEqual(station.apart_from_drawing(station.apart_drawing(apart)), apart)
        with self.assertRaises(Refused) as caught:
            station.apart_from_drawing(record.drawing())
        self.assertEqual((caught.exception.number, caught.exception.place), (41, 0))
        with self.assertRaises(Refused) as caught:
            station.apart_drawing(1 << 53)
        self.assertEqual(caught.exception.number, 15)

    def test_a_record_that_is_not_sound_has_none(self):
        half = Record(1)
        self.assertFalse(half.sound())
        for ask in (half.drawing, half.cars, half.places, lambda: half.conditions("rotate")):
            with self.assertRaises(Refused) as caught:
                ask()
            self.assertIs(caught.exception.number, Number.UNSOUND)


class Reports(unittest.TestCase):
    def test_the_example(self):
        [(_, body)] = of_mark("docs/REPORT.md", "report")
        sent = [bytes.fromhex(line[1:]) for line in body.splitlines() if line.startswith(">")]
        one, totals = Station(), Totals()
        for message in sent:
            totals.message(one, message)
            one.message(message)
        self.assertEqual(totals.lines(), "".join(f"{line}\n" for line in body.splitlines() if not line.startswith(">")))
        self.assertEqual(totals.named()["answer-29"], 1)
        self.assertEqual(Totals.from_bytes(bytes(totals)).lines(), totals.lines())

    def test_a_full_one_says_so(self):
        totals = Totals.from_bytes(bytes(16) + b"\xff" * 4 + bytes(188))
        for ask in (lambda: totals.message(Station(), messages.ask()), totals.named):
            with self.assertRaises(Refused) as caught:
                ask()
            self.assertEqual((caught.exception.number, caught.exception.place), (Number.FULL, 4))
        self.assertEqual(totals.lines(), "full kind-5\n")


class OwnPage(unittest.TestCase):
    def test_the_examples(self):
        page = "".join(body for _, body in of_mark("docs/PYTHON.md", "python"))
        test = doctest.DocTestParser().get_doctest(page, {}, "docs/PYTHON.md", None, 0)
        self.assertGreater(len(test.examples), 20)
        before = os.getcwd()
        os.chdir(ROOT)
        try:
            told = []
            result = doctest.DocTestRunner().run(test, out=told.append)
        finally:
            os.chdir(before)
        self.assertEqual(result.failed, 0, "".join(told))
