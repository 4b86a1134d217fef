"""Areas and overlaps against what a station answers: 8 to a set of two, and what it sets apart; and the library's version."""

import itertools
import random
import re
import unittest
from collections import Counter

from station import Number, Outcome, Refused, Station, messages, version
from tree import ALL, Planner, text


class Areas(unittest.TestCase):
    def test_two_overlap_exactly_if_no_set_can_have_both(self):
        areas, station, told = {one: one.area() for one in ALL}, Station(), Counter()
        for one, other in itertools.combinations_with_replacement(ALL, 2):
            said = messages.read(station.message(messages.request([one, other])))
            overlap = said.number is Number.OVERLAP
            if (one.overlaps(other), other.overlaps(one), areas[one] & areas[other] != 0) != (overlap, overlap, overlap):
                self.fail(f"{one} and {other}: {said}")
            if said.taken:
                for number in range(2):
                    station.result(said.issue, number, Outcome.FAILED)
            told[overlap] += 1
        self.assertGreater(min(told.values()), 1000)

    def test_the_area_is_what_is_set_apart(self):
        planner, stuck = Planner(random.Random(5)), {}
        for _ in planner.messages(500):
            record = planner.station.record
            for one in ALL:
                if one not in stuck and record.allowed(one):
                    station = Station()
                    station.image(record)
                    station.result(station.request([one]), 0, Outcome.STUCK)
                    stuck[one] = station.apart
        self.assertGreater(len(stuck), 100)
        # what is set apart has one bit for the lift, an area all three
        self.assertEqual({one: one.area() & ~(0b11 << 53) for one in stuck}, stuck)

    def test_bytes_that_are_no_instruction(self):
        with self.assertRaises(Refused) as caught:
            ALL[0].overlaps(bytes(5))
        self.assertEqual((caught.exception.number, caught.exception.place), (Number.BAD_FIELD, 1))


class Version(unittest.TestCase):
    def test_it_is_the_source(self):
        numbers = re.findall(r"^pub const (?:FIRST|SECOND|THIRD): u32 = (\d+);", text("crates/version/src/lib.rt"), re.MULTILINE)
        self.assertEqual(version(), tuple(map(int, numbers)))
