"""The declarations against the headers, wrong ones too; where the library is looked for."""

import ast
import copy
import ctypes
import os
import re
import shutil
import subprocess
import sys
import tempfile
import unittest
from pathlib import Path
from unittest import mock

import station
from station import calls, entries, messages, plans, record, report
from tree import HEADERS, ROOT, text

TYPES = {
    "uint8_t": ctypes.c_uint8, "uint16_t": ctypes.c_uint16, "uint32_t": ctypes.c_uint32, "uint64_t": ctypes.c_uint64, "bool": ctypes.c_bool,
    "size_t": ctypes.c_size_t, "uint8_t *": ctypes.POINTER(ctypes.c_uint8), "const uint8_t *": ctypes.c_char_p,
}
# the plain station, which answers the same and is slower, and what it says of a record
NOT_DECLARED = {"plain_request", "plain_event", "plain_result", "panel_next"}


def declared_in_headers():
    """What each entry gives, and its parameters by name, as the headers have them."""
    found = {}
    for header in HEADERS:
        bare = re.sub(r"/\*.*?\*/", "", header.read_text(), flags=re.DOTALL)
        for returns, name, parameters in re.findall(r"^(\w+) (\w+)\(([^)]*)\);", bare, re.MULTILINE):
            parts = [re.fullmatch(r"\s*((?:const )?\w+ \*?)\s*(\w+)\s*", part) for part in parameters.split(",") if part.strip() != "void"]
            found[name] = TYPES[returns], [(part[2], TYPES[part[1].strip()]) for part in parts]
    return found


def crossed(declared):
    """The same of the module's declarations: each run of bytes as its two parameters."""
    found = {}
    for name, (returns, parameters) in declared.items():
        flat = []
        for at, kind in parameters.items():
            flat += [(at, kind[0]), (f"{at}_length", kind[1])] if isinstance(kind, tuple) else [(at, kind)]
        found[name] = returns, flat
    return found


def differences(declared):
    """The names of entries that are declared otherwise than in the headers, or on one side only."""
    headers, ours = declared_in_headers(), crossed(declared)
    return sorted(name for name in headers.keys() | ours.keys() if headers.get(name) != ours.get(name) and name not in NOT_DECLARED)


class Declarations(unittest.TestCase):
    def test_they_are_the_headers(self):
        self.assertEqual(differences(entries.ENTRIES), [])
        self.assertLessEqual(NOT_DECLARED, declared_in_headers().keys())

    def test_the_functions_have_them(self):
        headers = declared_in_headers()
        for name in entries.ENTRIES:
            returns, parameters = headers[name]
            found = entries.entry(name)
            self.assertIs(found.restype, returns, name)
            self.assertEqual(found.argtypes, [kind for _, kind in parameters], name)

    def test_wrong_ones_are_found_out(self):
        kinds, tried = [entries.U8, entries.U16, entries.U32, entries.U64, entries.BOOL, entries.ROOM, entries.BYTES], 0
        for name, (returns, parameters) in entries.ENTRIES.items():
            wrong = [(other, parameters) for other in kinds[:5] if other is not returns]
            for at, kind in parameters.items():
                wrong += [(returns, {**parameters, at: other}) for other in kinds if other is not kind]
                wrong.append((returns, {one: its for one, its in parameters.items() if one != at}))
            names = list(parameters)
            wrong += [(returns, {**{one: parameters[one] for one in names[:i]}, names[i + 1]: parameters[names[i + 1]], **parameters})
                      for i in range(len(names) - 1)]
            wrong.append((returns, {**parameters, "more": entries.U8}))
            for one in wrong:
                self.assertEqual(differences({**entries.ENTRIES, name: one}), [name], one)
                tried += 1
        self.assertGreater(tried, 500)
        self.assertEqual(differences({**entries.ENTRIES, "station_more": (entries.U32, {})}), ["station_more"])
        less = copy.copy(entries.ENTRIES)
        del less["desk_where"]
        self.assertEqual(differences(less), ["desk_where"])

    def test_the_sizes_are_the_headers(self):
        all_text = "".join(text(f"include/{header.name}") for header in HEADERS)
        sizes = {name: int(value) for name, value in re.findall(r"\b([A-Z]+_[A-Z_]+) = (\d+)", all_text)}
        ours = {
            "STATION_SIZE": calls.Station.SIZE, "DESK_SIZE": calls.Desk.SIZE, "STATION_REPLY_MOST": calls.REPLY_MOST,
            "STATION_SHOWN_SIZE": calls.SHOWN_SIZE, "DESK_CARD_SIZE": calls.CARD_SIZE, "DESK_AT_LIFT": calls.AT_LIFT,
            "DESK_AT_DRIVE": calls.AT_DRIVE, "DESK_PLACES": calls.AT_DRIVE + 1, "DESK_RAISED": record.RAISED, "PANEL_RAISED": record.RAISED,
            "PANEL_LIFT": record.RAISED, "PANEL_CARS_SIZE": record.CARS_SIZE, "PANEL_CONDITION_SIZE": record.CONDITION_SIZE,
            "PANEL_CONDITIONS_MOST": record.CONDITIONS_MOST, "DRAWING_MOST": record.DRAWING_MOST, "REPORT_TOTALS": report.TOTALS,
            "REPORT_TEXT_MOST": report.TEXT_MOST, "STATION_NOWHERE": station.answers.NOWHERE, "REPORT_NONE": station.answers.NOWHERE,
            "DESK_NOT_HERE": station.answers.NOWHERE, "PLAN_NO_SET": station.answers.NOWHERE, "PLAN_NO_INSTRUCTION": station.answers.NOWHERE, "PLAN_GROUNDS": plans.GROUNDS_SIZE, "STATION_MOST": messages.SET_MOST,
            "STATION_MESSAGE_MOST": 2 + messages.LENGTH_MOST, "STATION_KIND_ANSWER": messages.ANSWER, "STATION_KIND_HELD": messages.HELD,
        }
        self.assertEqual({name: sizes[name] for name in ours}, ours)
        self.assertIn(f"STATION_START_IMAGE UINT64_C(0x{station.START.image:016X})", all_text)


class Crossing(unittest.TestCase):
    def test_numbers_that_are_too_large_are_not_cut(self):
        one = station.Station()
        for wrong in (256 + station.Event.BEGIN_IN, -1):
            with self.assertRaisesRegex(ValueError, "goes from 0 to 255"):
                one.event(wrong)
        with self.assertRaisesRegex(ValueError, "goes from 0 to 65535"):
            one.result(65536, 0, station.Outcome.DONE)
        with self.assertRaises(TypeError):
            one.event(1.0)
        self.assertEqual(one, station.Station())

    def test_what_is_only_read_can_not_be_lent_for_writing(self):
        with self.assertRaises(TypeError):
            entries.call("station_start", bytes(60))
        with self.assertRaises(TypeError):
            entries.call("station_start")

    def test_room_that_is_too_short_is_told(self):
        for name, values in (("station_start", [bytearray(59)]), ("station_ask", [bytes(station.Station()), bytearray(15)])):
            self.assertEqual(entries.call(name, *values) & 255, station.Number.NO_ROOM)


class Sources(unittest.TestCase):
    def test_they_are_python_3_9(self):
        sources = sorted((ROOT / "hosts/python/station").glob("*.py"))
        self.assertGreater(len(sources), 8)
        for source in sources:
            ast.parse(source.read_text(), source.name, feature_version=(3, 9))


class Library(unittest.TestCase):
    def tried(self, shelf: Path, **environment: str) -> subprocess.CompletedProcess:
        words = [sys.executable, "-B", "-c", "import station; print(station.Station().record)"]
        with mock.patch.dict(os.environ):
            os.environ.pop("STATION_LIBRARY", None)
            os.environ.update(environment, PYTHONPATH=str(shelf))
            return subprocess.run(words, capture_output=True, text=True, check=False)

    def test_it_is_found_where_it_is_said_to_be(self):
        built, begun = ROOT / "target/library/libstation.so", "00 00 00 00 00 1B 09 00\n"
        with tempfile.TemporaryDirectory() as prefix:
            shelf = Path(prefix) / "share/station"
            shutil.copytree(ROOT / "hosts/python/station", shelf / "station", ignore=shutil.ignore_patterns("__pycache__"))
            missing = self.tried(shelf)
            self.assertNotEqual(missing.returncode, 0)
            self.assertIn("tools/library target/library", missing.stderr)
            self.assertIn(str((Path(prefix) / "lib/libstation.so").resolve()), missing.stderr)
            self.assertEqual(self.tried(shelf, STATION_LIBRARY=str(built)).stdout, begun)
            self.assertNotEqual(self.tried(shelf, STATION_LIBRARY=str(shelf / "none.so")).returncode, 0)
            (Path(prefix) / "lib").mkdir()
            shutil.copy(built, Path(prefix) / "lib/libstation.so")
            self.assertEqual(self.tried(shelf).stdout, begun)
        self.assertEqual(self.tried(ROOT / "hosts/python").stdout, begun)

    def test_an_entry_that_it_has_not_is_told(self):
        with mock.patch.dict(entries.ENTRIES, {"station_nothing": (entries.U32, {})}):
            with self.assertRaisesRegex(LookupError, "no entry station_nothing"):
                entries.call("station_nothing")
