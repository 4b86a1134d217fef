"""tools/add-reports: the sum of reports against what the stations of all of them answered, and against Python's own numbers."""

import random
import tempfile
import unittest
from collections import Counter
from pathlib import Path

from station import Totals, messages
from tree import Planner, blocks, run

EMPTY = Totals().lines()


def named(report: str):
    return {name: int(value) for name, value in (line.split() for line in report.splitlines())}


class Added(unittest.TestCase):
    def setUp(self):
        folder = tempfile.TemporaryDirectory()
        self.addCleanup(folder.cleanup)
        self.folder, self.files = Path(folder.name), 0

    def file(self, text: str) -> str:
        self.files += 1
        path = self.folder / f"garage {self.files}=report"
        path.write_bytes(text.encode())
        return str(path)

    def added(self, *reports: str) -> str:
        done = run("tools/add-reports", *map(self.file, reports))
        self.assertEqual((done.returncode, done.stderr), (0, b""))
        return done.stdout.decode()

    def refused(self, *reports: str) -> str:
        done = run("tools/add-reports", *map(self.file, reports))
        self.assertEqual((done.returncode, done.stdout), (1, b""), reports)
        return done.stderr.decode()

    def test_a_fleet(self):
        """Of some stations the lines of kinds and answers are counted in what they were sent and what they answered."""
        reports, kinds, answers, most = [], Counter(), Counter(), 0
        for seed in range(4):
            planner, sent, answered = Planner(random.Random(100 + seed)), [], []
            for message, answer in planner.messages(700):
                sent.append(message)
                answered.append(answer)
                most = max(most, planner.station.record.cars())
            self.assertEqual(run("bin/station", given=b"".join(sent)).stdout, b"".join(answered))
            reports.append(run("bin/report", given=b"".join(sent)).stdout.decode())
            kinds.update(int.from_bytes(message[2:4], "little") for message in sent)
            answers.update(answer[4] for answer in answered if answer[2] == messages.ANSWER)
        total = self.added(*reports)
        lines = named(total)
        self.assertEqual([lines[f"kind-{kind}"] for kind in range(1, 6)], [kinds[kind] for kind in range(1, 6)])
        self.assertEqual({int(name[7:]): value for name, value in lines.items() if name.startswith("answer-") and value}, dict(answers))
        self.assertEqual(lines["most-cars"], most)
        for name in list(lines)[:-1]:
            self.assertEqual(lines[name], sum(named(report)[name] for report in reports), name)
        # in any order, and sums of sums too
        self.assertEqual(self.added(*reversed(reports)), total)
        self.assertEqual(self.added(self.added(*reports[:2]), self.added(*reports[2:])), total)

    def test_one_alone_is_given_back(self):
        [example] = [body for mark, body in blocks("docs/REPORT.md") if mark == "report"]
        example = "".join(f"{line}\n" for line in example.splitlines() if not line.startswith(">"))
        for report in (EMPTY, example, run("bin/report").stdout.decode()):
            self.assertEqual(self.added(report), report)
            self.assertEqual(self.added(report, EMPTY), report)

    def test_the_most_cars_are_the_largest(self):
        for most in ((9, 30), (30, 9), (0, 7), (30, 30)):
            reports = [EMPTY.replace("most-cars 0", f"most-cars {cars}") for cars in most]
            self.assertEqual(self.added(*reports), EMPTY.replace("most-cars 0", f"most-cars {max(most)}"))

    def test_sums_pass_what_a_report_can_count(self):
        full = "".join(f"{name} 4294967295\n" for name in named(EMPTY))
        lines = named(self.added(full, full, full))
        self.assertEqual(lines, {**{name: 3 * 4294967295 for name in lines}, "most-cars": 4294967295})
        great = EMPTY.replace("kind-1 0", "kind-1 999999999999999")
        self.assertEqual(named(self.added(*[great] * 9))["kind-1"], 9 * 999999999999999)
        self.assertIn("too large", self.refused(*[great] * 10))
        self.assertIn("too large", self.refused(EMPTY.replace("kind-1 0", "kind-1 1000000000000000")))

    def test_a_text_that_is_no_report_is_told_by_its_name(self):
        for length in range(len(EMPTY)):
            if length % 25 == 0 or length > len(EMPTY) - 3:
                self.assertIn("=report: not a report", self.refused(EMPTY[:length]))
        self.assertIn("its last line has no end", self.refused(EMPTY[:-1]))
        lines = EMPTY.splitlines(keepends=True)
        wrong = [
            "".join(lines[:7] + lines[8:]), "".join([lines[1], lines[0], *lines[2:]]), EMPTY + "kind-1 0\n", EMPTY + "\n", EMPTY + EMPTY,
            "\n" + EMPTY,
            EMPTY.replace("kind-3 0", "kind-3 -1"), EMPTY.replace("kind-3 0", "kind-3 0x1"), EMPTY.replace("kind-3 0", "kind-3 01"),
            EMPTY.replace("kind-3 0", "kind-3  0"), EMPTY.replace("kind-3 0", "kind-3"), EMPTY.replace("kind-3 0", "kind-3 0 "),
            EMPTY.replace("\n", "\r\n"), EMPTY + "\x01", EMPTY + "\x02", EMPTY + "\x01\x02", "the week was good\n",
        ]
        for text in wrong:
            self.assertIn("=report: not a report", self.refused(text))
            self.assertEqual(len(self.refused(EMPTY, text, EMPTY, text).splitlines()), 2)

    def test_a_full_one_and_one_that_is_not_there_are_told(self):
        told = self.refused(EMPTY, "full answer-11\n")
        self.assertIn("garage 2=report: it is full, and says no numbers: answer-11\n", told)
        missing = run("tools/add-reports", str(self.folder / "none"))
        self.assertEqual((missing.returncode, missing.stdout), (1, b""))
        self.assertIn(b"none: it can not be read", missing.stderr)
        self.assertEqual(run("tools/add-reports").returncode, 2)
