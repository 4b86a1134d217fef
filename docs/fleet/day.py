#!/usr/bin/env python3
"""day.py FOLDER: a made-up morning of three garages, for trying docs/FLEET.md: FOLDER/NAME.log for each, as owner.py prints it.

Each planner parks on the left belt of row 1 and fetches from there, last in, first out. The station's answers are those of the proved
entries (hosts/python has to be on PYTHONPATH). The same logs come out every time. Planner 2.1 makes more mistakes than 2.2, which each
garage has from the time in deployed.csv on; a belt of south is worn, and east is nearly full.
"""

import sys
from datetime import datetime, timedelta, timezone
from pathlib import Path

from station import Event, Outcome, Record, Station, instruction, messages

BEGIN = datetime(2026, 11, 16, 6, 0, tzinfo=timezone.utc)
END = BEGIN + timedelta(hours=5)
# cars that stay where they are, the seconds between two drivers on average, and when planner 2.2 came
GARAGES = {"north": (4, 600, "2026-11-16 08:00+00"), "south": (12, 420, "2026-11-16 09:30+00"), "east": (23, 300, "2026-11-16 07:15+00")}
# where they stand: rows 2 and 3, then row 1 right of the lift
CELLS = [(cell,) for cell in [*range(20, 30), *range(30, 40)]] + [(18, 19), (15, 16), (13, 14)]
# all shuttles lowered, the lift at street
LOWERED = 0x3F << 40
PARK, FETCH, DOWN, UP = "belts row 1 left lift, lower, full", "belts row 1 left lift, higher, full", "lift basement", "lift street"
MISTAKES = ["rotate", "lift street", "tilt left row 3 tilted", "belts row 2 left-shuttle right-shuttle, lower, full"]


class Chance:
    """Numbers that are the same on every machine."""

    def __init__(self, seed: int):
        self.state = seed

    def below(self, limit: int) -> int:
        self.state = (self.state * 6364136223846793005 + 1442695040888963407) % 2**64
        return (self.state >> 33) % limit


class Day:
    """A garage's morning: its station, its log and its clock."""

    def __init__(self, name: str, seed: int):
        self.still, self.every, since = GARAGES[name]
        self.chance, self.station, self.lines, self.now = Chance(seed), Station.start(), [], BEGIN
        self.worn, self.newer = name == "south", datetime.fromisoformat(since + ":00")
        self.parked = 0

    def wait(self, least: int, more: int) -> None:
        self.now += timedelta(seconds=least + self.chance.below(more), milliseconds=self.chance.below(1000))

    def note(self, mark: str, message: bytes) -> None:
        self.lines.append(f"{self.now.isoformat(timespec='milliseconds')} {mark} {message.hex(' ').upper()}")

    def send(self, message: bytes) -> messages.Message:
        self.note(">", message)
        reply = self.station.message(message)
        self.now += timedelta(milliseconds=8)
        self.note("<", reply)
        return messages.read(reply)

    def move(self, words: str) -> None:
        """One instruction, again until it is done; what is stuck is looked at, and nothing had moved."""
        while True:
            self.mistake()
            answer = self.send(messages.request([instruction(words)]))
            self.wait(12, 30)
            chance = self.chance.below(100)
            often = 12 if self.worn and words in (PARK, FETCH) else 1
            outcome = Outcome.DONE if chance >= often else Outcome.STUCK if chance % 4 == 0 else Outcome.FAILED
            self.send(messages.result(answer.issue, 0, outcome))
            if outcome is Outcome.DONE:
                return
            if outcome is Outcome.STUCK:
                self.wait(300, 600)
                self.send(messages.image(self.station.record))

    def mistake(self) -> None:
        """A request that this garage does not allow."""
        words = MISTAKES[self.chance.below(len(MISTAKES))]
        if self.chance.below(100) < (2 if self.now >= self.newer else 12) and not self.station.record.allowed(words):
            self.send(messages.request([instruction(words)]))

    def drive(self, begin: Event) -> bool:
        if not self.send(messages.event(begin)).taken:
            return False
        self.wait(25, 60)
        done = self.chance.below(12) > 0
        self.send(messages.event(Event.END_DONE if done else Event.END_NOT_DONE))
        return done

    def come(self) -> None:
        if not self.drive(Event.BEGIN_IN):
            return
        for words in (DOWN, PARK, UP):
            self.move(words)
        self.parked += 1

    def leave(self) -> None:
        for words in (DOWN, FETCH, UP):
            self.move(words)
        while not self.drive(Event.BEGIN_OUT):
            self.wait(20, 40)
        self.parked -= 1

    def lines_of_day(self) -> list:
        cells = sum(1 << cell for cells in CELLS[: self.still] for cell in cells)
        self.send(messages.image(Record(LOWERED | cells)))
        while self.now < END:
            self.wait(self.every // 2, self.every)
            # with all its places taken, a driver is turned away now and then
            if self.parked == 0 or (self.parked < 4 and self.chance.below(100) < 60) or (self.still > 20 and self.chance.below(100) < 30):
                self.come()
            else:
                self.leave()
        return self.lines


def main(folder: Path) -> None:
    folder.mkdir(parents=True, exist_ok=True)
    for seed, name in enumerate(GARAGES):
        (folder / f"{name}.log").write_text("\n".join(Day(name, seed + 1).lines_of_day()) + "\n")
    deployed = [f"{name},{since},{version}" for name, (_, _, newer) in GARAGES.items() for since, version in (("-infinity", "2.1"), (newer, "2.2"))]
    (folder / "deployed.csv").write_text("\n".join(["garage,since,version", *deployed]) + "\n")


if __name__ == "__main__":
    if len(sys.argv) != 2:
        sys.exit("usage: day.py FOLDER")
    main(Path(sys.argv[1]))
