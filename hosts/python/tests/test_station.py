"""A car parked and fetched by the module's own words, a jam, kept bytes."""

import unittest

from station import Desk, Event, Number, Outcome, Record, Refused, Station, belts, lift, parts_of, shuttles
from tree import drawn

ROW_1, ROW = "....................", ".........."


class Planner(unittest.TestCase):
    def done(self, one: Station, *instructions):
        """A set, of which each instruction is done, the last first."""
        issue = one.request(instructions)
        for number in reversed(range(len(instructions))):
            one.result(issue, number, Outcome.DONE)

    def test_a_car_is_parked_and_fetched(self):
        one = Station.start()
        one.event(Event.BEGIN_IN)
        self.assertEqual(one.record.cars(), 0)
        one.event(Event.END_DONE)
        self.assertEqual(one.record, drawn(ROW_1, ROW, ROW, "LLT", "LLT", "street car"))
        self.done(one, lift("basement"))
        self.done(one, belts(1, ["lift", "right", "right-shuttle"], "higher", "full"))
        self.done(one, belts(1, ["right", "right-shuttle"], "higher", "full"), lift("street"))
        self.done(one, "belts row 1 right right-shuttle, higher, full")
        self.done(one, "belts row 1 right right-shuttle, higher, half")
        self.assertEqual(one.record, drawn("..................##", ROW, ROW, "LLT", "LLT", "street"))
        self.done(one, shuttles("right", [1, 2], "lowered", "higher"))
        self.done(one, "belts row 2 middle right-shuttle, lower, full")
        parked = one.record
        self.assertEqual((parked.cars(), parked.places()), (1, [28]))
        self.assertEqual(parked, drawn(ROW_1, "........#.", ROW, "LLT", "-LB", "street"))
        for words in ("belts row 2 middle right-shuttle, higher, full", "shuttles right rows 2 3 lowered lower",
                      "belts row 1 right right-shuttle, lower, half", "lift basement", "belts row 1 right right-shuttle, lower, full",
                      "belts row 1 right right-shuttle, lower, full", "belts row 1 lift right, lower, full", "lift street"):
            after = one.record.next(words)
            self.done(one, words)
            self.assertEqual(one.record, after)
        one.event(Event.BEGIN_OUT)
        one.event(Event.END_DONE)
        self.assertEqual(one.record.cars(), 0)

    def test_issues_count_the_sets_that_were_taken(self):
        one = Station()
        self.assertEqual(one.request(["lift basement"]), 0)
        one.result(0, 0, Outcome.FAILED)
        with self.assertRaises(Refused):
            one.request(["rotate"])
        self.assertEqual(one.request(["lift basement"]), 1)

    def test_a_jam_is_set_apart_until_somebody_has_looked(self):
        one = Station()
        one.image(drawn(".......##..##.......", ROW, ROW, "LLT", "LLT", "basement"))
        issue = one.request(["belts row 1 left lift, lower, full"])
        one.result(issue, 0, Outcome.STUCK)
        self.assertEqual(parts_of(one.apart), (*range(2, 13), 52))
        with self.assertRaises(Refused) as caught:
            one.request(["tilt right row 3 tilted", "belts row 1 left, higher, full"])
        self.assertEqual((caught.exception.number, caught.exception.place), (Number.SET_APART, 1))
        self.assertTrue(one.record.allowed("belts row 1 left, higher, full"), "a record knows nothing of it")
        for record, apart in ((one.record, one.apart), (Record(1), 0)):
            with self.assertRaises(Refused) as caught:
                one.image(record, apart)
            self.assertIs(caught.exception.number, Number.UNSOUND)
        one.image(one.record)
        self.assertEqual(one.apart, 0)
        self.done(one, "tilt right row 3 tilted", "belts row 1 left, higher, full")
        self.assertEqual(one.record, drawn(".........####.......", ROW, ROW, "LLT", "LLL", "basement"))

    def test_kept_bytes_are_the_station(self):
        one = Station()
        one.request(["lift basement", "tilt left row 3 tilted"])
        one.result(0, 1, Outcome.DONE)
        again = Station.from_bytes(bytes(one))
        self.assertEqual(again, one)
        again.result(0, 0, Outcome.DONE)
        self.assertNotEqual(again, one)
        with self.assertRaisesRegex(ValueError, "60 bytes, not 59"):
            Station.from_bytes(bytes(59))


class StreetDesk(unittest.TestCase):
    def test_all_cars_what_is_outstanding_and_what_an_image_would_change(self):
        desk = Desk()
        desk.event(Event.BEGIN_IN, 7001)
        self.assertEqual(desk.list(), [(7001, 55, 0, 0)], "a card that waits is at 55")
        desk.event(Event.END_DONE)
        issue = desk.request(lift("basement"))
        self.assertEqual(desk.list(), [(7001, 52, 2, 11)], "in motion")
        self.assertEqual(desk.outstanding(), (issue, [(bytes([4, 2, 0, 0, 0]), False)]))
        with self.assertRaises(Refused) as refused:
            desk.compare(desk.record, [7002])
        self.assertEqual(refused.exception.number, Number.SET_OUTSTANDING)
        desk.result(issue, 0, Outcome.FAILED)
        kept = bytes(desk.room)
        self.assertEqual(desk.outstanding(), (issue, []))
        self.assertEqual(desk.compare(desk.record, [line.card for line in desk.list()]), [], "its own cards change nothing")
        self.assertEqual(desk.compare(desk.record, [7002]), [(7001, 52, 0, 255), (7002, 255, 0, 52)], "one leaves, one appears")
        self.assertEqual(bytes(desk.room), kept, "the desk is as it was")
