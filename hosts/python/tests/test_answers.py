"""The table of numbers against the headers and the one table; every number that can come, and what a refusal leaves."""

import re
import unittest

from station import (START, Answer, Desk, Event, Held, Instruction, Number, Outcome, Plan, Record, Refused, Station, Totals, entries, judge,
                     messages, parts_of)
from tree import ALL, HEADERS, drawn, text

ROW_1, ROW = "....................", ".........."
HALF_OFF = drawn("..........##........", ROW, ROW, "LLT", "LLT", "basement")
ALL_LOWERED = drawn(ROW_1, "#.........", ROW, "LLL", "LLL", "street")
# with 27 cars
FULL_GARAGE = Record(0x00003FFFBFFFC3FF)


def enumerators():
    """The names that the headers give to numbers, without what they begin with."""
    all_text = "".join(text(f"include/{header.name}") for header in HEADERS)
    return {name: int(number) for name, number in re.findall(r"\b((?:STATION|PLAN|DESK|REPORT|DRAWING)_\w+) = (\d+)", all_text)}


class Table(unittest.TestCase):
    def test_the_numbers_are_those_of_the_headers(self):
        table = text("include/station.h").split("/* What the numbers mean")[1].split("};")[0]
        theirs = {name: int(number) for name, number in re.findall(r"STATION_(\w+) = (\d+)", table)}
        named = enumerators()
        for name in ("PLAN_TOO_MANY_SETS", "PLAN_WISH_NOT_MET", "DESK_ZERO_NUMBER", "DESK_KNOWN_NUMBER", "DESK_WRONG_COUNT", "REPORT_FULL",
                     "DRAWING_BAD_LINE"):
            theirs[name.split("_", 1)[1]] = named[name]
        self.assertEqual(theirs, {one.name: one.value for one in Number})

    def test_the_words_are_those_of_the_crate_for_rust(self):
        words = {int(number): said for number, said in re.findall(r'= (\d+) "([^"]*)",', text("hosts/rust/src/numbers.rs"))}
        self.assertEqual(words, {one.value: one.words for one in Number})
        self.assertEqual(len({one.words for one in Number}), len(Number))

    def test_events_and_results_are_those_of_the_headers(self):
        named = enumerators()
        for one in [*Event, *Outcome]:
            self.assertEqual(named[f"STATION_{one.name}"], one.value)
        self.assertEqual([one.words for one in Outcome], ["failed", "done", "stuck"])

    def test_a_refusal_is_words(self):
        self.assertEqual(str(Refused(Number.OVERLAP, 1)), "8 (overlap) at 1")
        self.assertEqual(str(Refused(Number.NO_SET)), "11 (no set is outstanding)")
        self.assertEqual(str(Event.BEGIN_IN), "1 (begin in)")


def begun(*calls) -> Station:
    """A station after some calls."""
    one = Station()
    for call in calls:
        call(one)
    return one


def asked(*words):
    return lambda one: one.request(words)


def told(way):
    return lambda one: one.event(way)


def reported(issue, number, outcome):
    return lambda one: one.result(issue, number, outcome)


def shown(record):
    return lambda one: one.image(record)


# for each number of the station's calls: what comes before, the call that is refused, and the place that is told
REFUSED_CALLS = {
    Number.BAD_FIELD: ([], asked("lift basement", bytes([4, 3, 0, 0, 0])), 1),
    Number.TOO_MANY: ([], asked(*["rotate"] * 9), None),
    Number.SET_OUTSTANDING: ([asked("lift basement")], asked("rotate"), None),
    Number.EMPTY_SET: ([], asked(), None),
    Number.OVERLAP: ([], asked("lift basement", "tilt left row 3 tilted", "rotate"), 2),
    Number.EVENT_IMPOSSIBLE: ([], told(Event.BEGIN_OUT), None),
    Number.NO_SET: ([], reported(0, 0, Outcome.DONE), None),
    Number.NOT_IN_SET: ([asked("lift basement")], reported(0, 1, Outcome.DONE), None),
    Number.ALREADY_ANSWERED: (
        [asked("lift basement", "tilt left row 3 tilted"), reported(0, 0, Outcome.FAILED)], reported(0, 0, Outcome.DONE), None),
    Number.UNSOUND: ([], shown(Record(1)), None),
    Number.NOTHING_NAMED: ([], asked("belts row 1, higher, full"), 0),
    Number.GAP: ([], asked("belts row 3 left-shuttle right-shuttle, higher, full"), 0),
    Number.NOT_AVAILABLE: ([], asked("belts row 3 left-shuttle, higher, full"), 0),
    Number.NOT_FREE: ([], asked("lift basement", "shuttles left row 2 lowered lower"), 1),
    Number.ODD_COUNT: ([shown(HALF_OFF)], asked("lift street"), 0),
    Number.HALF_MOVE: ([], asked("belts row 2 middle, higher, half"), 0),
    Number.SAME_HEIGHT: ([], asked("lift street"), 0),
    Number.NOT_AT_ROTATION: ([], asked("rotate"), 0),
    Number.CELLS_NOT_FREE: ([shown(ALL_LOWERED)], asked("tilt left row 2 lowered"), 0),
    Number.LATE: ([asked("lift basement"), reported(0, 0, Outcome.DONE), asked("lift street")], reported(0, 0, Outcome.DONE), None),
    Number.NOT_ISSUED: ([asked("lift basement")], reported(1, 0, Outcome.DONE), None),
    Number.OUT_OF_TURN: ([], told(Event.END_DONE), None),
    Number.SET_APART: ([asked("lift basement"), reported(0, 0, Outcome.STUCK)], asked("tilt left row 3 tilted", "rotate"), 1),
    Number.KEPT_OPEN: ([shown(FULL_GARAGE)], told(Event.BEGIN_IN), None),
}


def full_totals():
    """Totals of which that of the asks can't grow any more."""
    totals = Totals.from_bytes(bytes(16) + b"\xff" * 4 + bytes(188))
    totals.message(Station(), messages.ask())


# the others: those of messages and of lent bytes, and of plans, the desk, the report and drawings
OTHER_CALLS = {
    Number.TOO_FEW_BYTES: (lambda: messages.read(Station().message(b"\x02\x00\x05")).checked(), None),
    Number.BAD_LENGTH: (lambda: messages.read(Station().message(messages.message(5, b"\x00"))).checked(), None),
    Number.UNKNOWN_KIND: (lambda: messages.read(Station().message(messages.message(6))).checked(), None),
    Number.UNFIT: (lambda: Station.from_bytes(bytes(60)), None),
    Number.NO_ROOM: (lambda: Answer(Number(entries.call("station_start", bytearray(59)) & 255)).checked(), None),
    Number.TOO_MANY_SETS: (lambda: Answer(*judge(Plan(START, False, [["rotate"]] * 65))).checked(), None),
    Number.WISH_NOT_MET: (lambda: Answer(*judge(Plan(START, True, []))).checked(), None),
    Number.ZERO_NUMBER: (lambda: Desk().event(Event.BEGIN_IN, 0), None),
    Number.KNOWN_NUMBER: (lambda: Desk().image(Record(0x00091B0003000000), [7001, 7001]), None),
    Number.WRONG_COUNT: (lambda: Desk().image(START, [7001]), None),
    Number.FULL: (full_totals, 4),
    Number.BAD_LINE: (lambda: Record.from_drawing(START.drawing() + "\n"), 6),
}


class EveryNumber(unittest.TestCase):
    def test_every_number_comes(self):
        self.assertEqual({Number.TAKEN, *REFUSED_CALLS, *OTHER_CALLS}, set(Number))
        for number, (before, call, place) in REFUSED_CALLS.items():
            one = begun(*before)
            kept = bytes(one)
            with self.assertRaises(Refused, msg=str(number)) as caught:
                call(one)
            self.assertEqual((caught.exception.number, caught.exception.place), (number, place), str(number))
            self.assertEqual(bytes(one), kept, "a call that is refused changes nothing")
        for number, (call, place) in OTHER_CALLS.items():
            with self.assertRaises(Refused, msg=str(number)) as caught:
                call()
            self.assertEqual((caught.exception.number, caught.exception.place), (number, place), str(number))

    def test_the_questions_on_a_record_tell_the_reasons(self):
        self.assertEqual(START.reason("lift street"), Number.SAME_HEIGHT)
        self.assertIsNone(START.reason("lift basement"))
        self.assertTrue(START.allowed("lift basement"))
        self.assertFalse(HALF_OFF.allowed("lift street"))
        with self.assertRaises(Refused) as caught:
            HALF_OFF.next("lift street")
        self.assertIs(caught.exception.number, Number.ODD_COUNT)
        held = [(one.number.value, one.holds) for one in HALF_OFF.conditions("lift street")]
        self.assertEqual(held, [(26, True), (24, False)])
        for record in (START, HALF_OFF, ALL_LOWERED, FULL_GARAGE):
            for one in ALL:
                failed = [condition.number for condition in record.conditions(one) if not condition.holds]
                self.assertEqual(record.reason(one), failed[0] if failed else None)


class Parts(unittest.TestCase):
    """A refusal says which parts of the garage are at fault."""

    def refused(self, one, instructions) -> Refused:
        with self.assertRaises(Refused) as caught:
            one.request(instructions)
        return caught.exception

    def test_the_parts_of_a_failing_condition(self):
        one = begun(lambda it: it.image(HALF_OFF))
        why = self.refused(one, ["tilt left row 3 tilted", "lift street"])
        failed = [condition for condition in HALF_OFF.conditions("lift street") if not condition.holds]
        self.assertEqual(parts_of(why.parts), failed[0].parts)
        self.assertEqual(str(why), "24 (odd count: a car would be torn) at 1: cells 0 to 19, the lift")
        with self.assertRaises(Refused) as caught:
            HALF_OFF.next("lift street")
        self.assertEqual(caught.exception.parts, why.parts)

    def test_every_reason_has_the_parts_of_its_first_failing_condition(self):
        for record in (START, HALF_OFF, ALL_LOWERED):
            one = begun(lambda it: it.image(record))
            for said in ALL:
                if record.reason(said):
                    failed = next(condition for condition in record.conditions(said) if not condition.holds)
                    why = self.refused(one, said)
                    self.assertEqual((why.number, parts_of(why.parts)), (failed.number, failed.parts))

    def test_an_overlap_names_the_earlier_one_and_what_both_have(self):
        why = self.refused(Station(), ["lift basement", "tilt left row 3 tilted", "tilt left row 3 tilted"])
        self.assertEqual((why.earlier, str(why)), (1, "8 (overlap) at 2, with 1: cell 30, left row 3 lowered, left row 3 tilted"))

    def test_what_is_set_apart_and_touched(self):
        one = Station()
        one.result(one.request("lift basement"), 0, Outcome.STUCK)
        why = self.refused(one, ["tilt left row 3 tilted", "belts row 1 left lift, lower, full"])
        self.assertEqual((parts_of(why.parts), str(why)), ((11, 12, 52), "32 (a part is set apart) at 1: cells 11 to 12, the lift"))

    def test_one_instruction_by_itself_is_a_set(self):
        for said in ("lift basement", Instruction(bytes([4, 2, 0, 0, 0])), bytes([4, 2, 0, 0, 0])):
            self.assertEqual(Station().request(said), 0)
            self.assertEqual(messages.request(said), messages.request(["lift basement"]))


class Messages(unittest.TestCase):
    def test_they_are_those_of_the_page(self):
        self.assertEqual(messages.request(["lift basement"]).hex(" "), "08 00 01 00 01 04 02 00 00 00")
        self.assertEqual(messages.event(Event.BEGIN_IN).hex(" "), "03 00 02 00 01")
        self.assertEqual(messages.result(513, 3, Outcome.STUCK).hex(" "), "06 00 03 00 01 02 03 02")
        self.assertEqual(messages.image(START).hex(" "), "12 00 04 00 00 00 00 00 00 1b 09 00 00 00 00 00 00 00 00 00")
        self.assertEqual(messages.ask().hex(" "), "02 00 05 00")

    def test_answers_are_read(self):
        self.assertEqual(messages.read(bytes.fromhex("06 00 80 00 00 FF 01 02")), Answer(Number.TAKEN, None, 513))
        self.assertEqual(messages.read(bytes.fromhex("06 00 80 00 18 01 00 00")), Answer(Number.ODD_COUNT, 1))
        shown = bytes.fromhex("12 00 81 00 00 00 00 00 00 1B 09 00 00 18 00 00 00 00 10 00")
        self.assertEqual(messages.read(shown), Held(START, 0x0010000000001800))
        for wrong in (b"", shown[:-1], shown + b"\x00", messages.message(6), bytes.fromhex("06 00 80 00 09 FF 00 00")):
            with self.assertRaises(ValueError):
                messages.read(wrong)

    def test_what_is_sent_reads_back(self):
        sets = [ALL[at : at + 8] for at in range(0, 272, 8)]
        for one in sets:
            self.assertEqual(messages.read(messages.request(one)), messages.Request(tuple(one)))
        for way in Event:
            self.assertEqual(messages.read(messages.event(way)), messages.CarEvent(way))
        for outcome in Outcome:
            self.assertEqual(messages.read(messages.result(513, 7, outcome)), messages.Result(513, 7, outcome))
        self.assertEqual(messages.read(messages.image(HALF_OFF, 5)), messages.Image(HALF_OFF, 5))
        self.assertEqual(messages.read(messages.ask()), messages.Ask())
        for wrong in ("03 00 01 00 01", "08 00 01 00 01 09 00 00 00 00", "03 00 02 00 05", "06 00 03 00 00 00 00 03", "03 00 05 00 00"):
            with self.assertRaises(ValueError):
                messages.read(bytes.fromhex(wrong))

    def test_what_no_message_can_say(self):
        for wrong in (lambda: messages.request(["rotate"] * 9), lambda: messages.event(256), lambda: messages.result(0, 256, 0)):
            with self.assertRaises(ValueError):
                wrong()
        with self.assertRaises(OverflowError):
            messages.result(65536, 0, Outcome.DONE)
