"""Instructions and their words, held against the project's own reader of them, tools/plan-text."""

import itertools
import unittest

import station
from station import Instruction, Number, belts, entries, instruction, lift, rotate, shuttles, tilt
from station.words import INSTRUCTIONS, five_of, well_formed
from tree import ALL, run, text

HEAD = "image start\nwish without a car\n"


class Words(unittest.TestCase):
    def test_all_instructions_there_and_back(self):
        self.assertEqual(len(set(ALL)), 272)
        for one in ALL:
            self.assertEqual(instruction(str(one)), one)
            self.assertEqual(Instruction(bytes(one)), one)
        self.assertEqual(len({str(one) for one in ALL}), 272)

    def test_the_words_are_those_of_plans(self):
        sets = [ALL[at : at + 8] for at in range(0, 272, 8)]
        plan = station.Plan(station.START, False, sets)
        made = run("tools/plan-text", given=(HEAD + "\n".join("\n".join(map(str, set)) + "\n" for set in sets)).encode())
        self.assertEqual((made.returncode, made.stdout), (0, bytes(plan)))

    def test_wrong_words_are_told_as_in_plans(self):
        wrong = [
            "lift cellar", "lift", "belts row 2 left, higher, full", "belts row 4 left, higher, full",
            "belts row 1 left left, higher, full", "belts row 1 left lift, higher, full now", "belts row 1 left", "rotate twice", "turn",
            "shuttles left rows 1 2 lowered",
            "shuttles up rows 1 lowered lower", "shuttles left row 2 2 lowered lower", "tilt left row 3", "tilt left rows 3 lowered",
            "belts column 1", "belts row 1 lift, lower, whole",
        ]
        told = run("tools/plan-text", given=(HEAD + "\n".join(wrong)).encode()).stderr.decode().splitlines()
        ours = []
        for at, words in enumerate(wrong, 3):
            with self.assertRaises(ValueError) as caught:
                instruction(words)
            ours.append(f"plan-text: line {at}: {caught.exception}")
        self.assertEqual(ours, told)

    def test_nothing_is_said_by_an_empty_line(self):
        with self.assertRaisesRegex(ValueError, "expected `belts`.* and the line ends"):
            instruction("")

    def test_the_functions_say_the_same(self):
        self.assertEqual(str(belts(1, ["left", "lift"], "higher", "full")), "belts row 1 left lift, higher, full")
        self.assertEqual(str(belts(3, ["middle"], "lower", "half")), "belts row 3 middle, lower, half")
        self.assertEqual(str(shuttles("left", [1, 2], "lowered", "higher")), "shuttles left rows 1 2 lowered higher")
        self.assertEqual(str(shuttles("right", [3], "tilted", "lower")), "shuttles right row 3 tilted lower")
        self.assertEqual(str(tilt("left", 3, "tilted")), "tilt left row 3 tilted")
        for height in ("street", "rotation", "basement"):
            self.assertEqual(str(lift(height)), f"lift {height}")
        self.assertEqual(str(rotate()), "rotate")
        for wrong, expected in (
            (lambda: belts(2, ["lift"], "higher", "full"), "expected `left-shuttle`, `middle` or `right-shuttle`, found `lift`"),
            (lambda: belts(0, [], "higher", "full"), "expected `1`, `2` or `3`, found `0`"),
            (lambda: shuttles("left", [1, 1], "lowered", "lower"), "`1` stands twice"),
            (lambda: lift("cellar"), "expected `street`, `rotation` or `basement`, found `cellar`"),
        ):
            with self.assertRaises(ValueError) as caught:
                wrong()
            self.assertEqual(str(caught.exception), expected)


class Bytes(unittest.TestCase):
    def test_what_is_well_formed_is_what_the_library_reads(self):
        small = (0, 1, 2, 3, 4, 7, 8, 31, 32, 255)
        for five in map(bytes, itertools.product((0, 1, 2, 3, 4, 5, 6), small, small, (0, 1, 2, 255), (0, 1, 2, 255))):
            read = entries.call("garage_allowed", station.START.image, five) & 255 != Number.BAD_FIELD
            self.assertEqual(well_formed(five), read, five)

    def test_other_bytes_are_no_instruction(self):
        for wrong in (b"", bytes(5), bytes([1, 1, 32, 0, 0]), bytes([4, 3, 0, 0, 0]), bytes([5, 0, 0, 0, 0, 0])):
            with self.assertRaises(ValueError):
                Instruction(wrong)
        with self.assertRaisesRegex(ValueError, "five bytes, not 4"):
            five_of(bytes(4))

    def test_the_instructions_are_named_as_in_the_sources(self):
        names = ", ".join(f'"{name}"' for name in INSTRUCTIONS)
        self.assertIn(f"[{names}]", text("hosts/rust/src/words.rs"))
