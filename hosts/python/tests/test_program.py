"""The program over two pipes: a journal and a restart, how it ends; and a long run held against the library."""

import os
import random
import tempfile
import unittest

from station import Answer, Ended, Event, Held, Number, Outcome, Program, Record, Station, Totals, journals, messages
from tree import ROOT, Planner, run

STATION = ROOT / "bin/station"


class Pipe(unittest.TestCase):
    def setUp(self):
        folder = tempfile.TemporaryDirectory()
        self.addCleanup(folder.cleanup)
        self.journal = os.path.join(folder.name, "garage.journal")

    def test_a_journal_and_a_restart(self):
        with Program(STATION, "--new", self.journal, "--garage", "north") as program:
            down = messages.request(["lift basement", "tilt left row 3 tilted"])
            for message in (messages.event(Event.BEGIN_IN), messages.event(Event.END_DONE), down):
                self.assertTrue(messages.read(program.send(message)).taken)
            self.assertTrue(messages.read(program.send(messages.result(0, 1, Outcome.DONE))).taken)
        with Program(STATION, "--garage", "north", self.journal) as program:
            self.assertEqual(messages.read(program.send(messages.ask())), Held(Record(0x00181F0000000000), 0))
            again = messages.read(program.send(messages.result(0, 1, Outcome.DONE)))
            self.assertEqual(again, Answer(Number.ALREADY_ANSWERED))
            self.assertTrue(messages.read(program.send(messages.result(0, 0, Outcome.STUCK))).taken)
            self.assertEqual(messages.read(program.send(messages.event(Event.BEGIN_IN))).number, Number.SET_APART)
        read = journals.read(self.journal)
        self.assertEqual((read.name, read.torn, read.closed, len(list(read.messages()))), ("north", 0, False, 8))
        follows = self.journal + ".next"
        self.assertEqual(run("bin/station", "--follow", self.journal, follows).returncode, 0)
        self.assertTrue(journals.read(self.journal).closed)
        self.assertEqual(journals.read(follows).station(), read.station())

    def test_its_end_is_told_with_its_status_and_its_line(self):
        program = Program(STATION, self.journal)
        with self.assertRaises(Ended) as caught:
            program.send(messages.ask())
        ended = caught.exception
        self.assertEqual((ended.status, ended.line), (1, "station: the journal can't be opened: No such file or directory"))
        self.assertEqual(str(ended), f"the station has ended with status 1: {ended.line}")
        for call in (lambda: program.send(messages.ask()), program.end):
            with self.assertRaises(Ended):
                call()
        with self.assertRaises(Ended) as caught:
            with Program(STATION, "--other", self.journal):
                pass
        self.assertEqual(caught.exception.status, 2)
        with self.assertRaises(FileNotFoundError):
            Program(ROOT / "bin/no-station")

    def test_after_a_length_out_of_range_it_has_ended(self):
        program = Program(STATION)
        self.assertEqual(messages.read(program.send(b"\x2c\x00\x05\x00")).number, Number.BAD_LENGTH)
        with self.assertRaises(Ended) as caught:
            program.send(messages.ask())
        self.assertEqual((caught.exception.status, caught.exception.line), (0, ""))

    def test_what_would_wait_is_not_sent(self):
        with Program(STATION) as program:
            for wrong in (b"", b"\x02", messages.ask()[:-1], messages.ask() * 2):
                with self.assertRaisesRegex(ValueError, "not one whole message"):
                    program.send(wrong)
            self.assertEqual(messages.read(program.send(messages.ask())).record, Station().record)

    def test_an_exception_inside_is_not_hidden(self):
        with self.assertRaises(KeyError):
            with Program(STATION, self.journal):
                raise KeyError


class LongRun(unittest.TestCase):
    def test_the_library_and_the_program_answer_the_same(self):
        came, taken = set(), 0
        for seed, (count, ending) in enumerate([(3000, b""), (2000, b"\x00\x00"), (500, b"\x08\x00\x01")]):
            planner, totals = Planner(random.Random(seed)), Totals()
            sent, answers = [], []
            for message, answer in planner.messages(count):
                sent.append(message)
                answers.append(answer)
                said = messages.read(answer)
                came.add(said[0] if isinstance(said, Answer) else Held)
                taken += isinstance(said, Answer) and said.taken
            if ending:
                sent.append(ending)
                answers.append(planner.station.message(ending))
                came.add(messages.read(answers[-1]).number)
            stream = b"".join(sent)
            program = run("bin/station", given=stream)
            self.assertEqual((program.returncode, program.stderr), (0, b""))
            self.assertEqual(program.stdout, b"".join(answers), f"seed {seed}")
            counted = Station()
            for message in sent:
                totals.message(counted, message)
                counted.message(message)
            self.assertEqual(totals.lines().encode(), run("bin/report", given=stream).stdout, f"seed {seed}")
            self.assertEqual(totals.named()[f"answer-{Number.TAKEN.value}"], sum(answer[2:5] == b"\x80\x00\x00" for answer in answers))
        # from the program 16 and 17 never come
        never = {Number.UNFIT, Number.NO_ROOM, *(one for one in Number if one > Number.KEPT_OPEN)}
        self.assertEqual(came, {Held, *Number} - never)
        self.assertGreater(taken, 2500)

    def test_one_by_one(self):
        with Program(STATION) as program:
            for message, answer in Planner(random.Random(7)).messages(1500):
                self.assertEqual(program.send(message), answer)


class Drawings(unittest.TestCase):
    def test_every_record_of_a_run_is_drawn_and_read(self):
        planner, records = Planner(random.Random(11)), set()
        for _ in planner.messages(1000):
            records.add(planner.station.record)
        self.assertGreater(len(records), 150)
        for record in records:
            self.assertTrue(record.sound())
            self.assertEqual(Record.from_drawing(record.drawing()), record)
            self.assertEqual(Record.from_bytes(bytes.fromhex(str(record))), record)
            self.assertEqual(record.cars(), len(record.places()))
        one = max(records, key=lambda record: record.cars())
        self.assertEqual(run("bin/draw", given=str(one).encode()).stdout.decode(), one.drawing())
