"""fleet.py LOGS: the five answers of docs/FLEET.md, worked out from the logs alone through the package for Python, beside what psql answers.

Nothing of explain, JSON or SQL is in what is worked out here: the logs' lines are read, a station is followed, and seconds are added up.
"""

import subprocess
import sys
from collections import defaultdict
from datetime import datetime, timedelta, timezone
from decimal import ROUND_HALF_UP, Decimal
from pathlib import Path
from statistics import median

from station import Event, Number, Outcome, Station, messages

ROOT = Path(__file__).resolve().parents[2]
BELTS = {1: ["left-shuttle", "left", "lift", "right", "right-shuttle"], 2: ["left-shuttle", "middle", "right-shuttle"]}
SIDES = ["left", "right"]


def rounded(value, places):
    return str(Decimal(value).quantize(Decimal(1).scaleb(-places), ROUND_HALF_UP))


def sent_of(log):
    """Each message that was sent: its time, the message, its answer's number (None of an ask), and the cars after it."""
    station = Station.start()
    for line in log.read_text().splitlines():
        time, mark, digits = line.split(" ", 2)
        if mark != ">":
            continue
        reply = messages.read(station.message(bytes.fromhex(digits)))
        yield datetime.fromisoformat(time), messages.read(bytes.fromhex(digits)), getattr(reply, "number", None), station.record.cars()


def motors(five):
    op, a, b = bytes(five)[:3]
    if op == 1:
        return [f"belt row {a} {name}" for at, name in enumerate(BELTS[min(a, 2)]) if b >> at & 1]
    if op == 2:
        return [f"shuttle {SIDES[a]} row {row}" for row in (1, 2, 3) if b >> row - 1 & 1]
    return [{3: f"tilt {SIDES[a]} row {b}" if op == 3 else "", 4: "lift", 5: "rotation"}[op]]


def utilisation(days):
    for garage, day in sorted(days.items()):
        seconds, weighted, most = defaultdict(Decimal), defaultdict(Decimal), defaultdict(int)
        for (since, _, _, cars), (until, *_) in zip(day, day[1:]):
            while since < until:
                hour = since.replace(minute=0, second=0, microsecond=0)
                end = min(until, hour + timedelta(hours=1))
                span = Decimal((end - since) // timedelta(microseconds=1)) / 1000000
                seconds[hour] += span
                weighted[hour] += span * cars
                most[hour] = max(most[hour], cars)
                since = end
        for hour in sorted(seconds):
            mean = weighted[hour] / seconds[hour]
            if seconds[hour] > 60:
                yield garage, hour.astimezone(timezone.utc).strftime("%H:%M"), rounded(mean, 1), str(most[hour]), rounded(100 * mean / 27, 0)


def failing(days):
    runs, failed = defaultdict(int), defaultdict(int)
    for garage, day in days.items():
        sets, issue = {}, 0
        for _, message, number, _ in day:
            if isinstance(message, messages.Request) and number is Number.TAKEN:
                sets[issue], issue = message.instructions, issue + 1
            if isinstance(message, messages.Result) and number is Number.TAKEN:
                for motor in motors(sets[message.issue][message.number]):
                    runs[garage, motor] += 1
                    failed[garage, motor] += message.outcome != Outcome.DONE
    rows = [(garage, motor, runs[garage, motor], count) for (garage, motor), count in failed.items() if count]
    rows.sort(key=lambda row: (-row[3], -Decimal(rounded(Decimal(100) * row[3] / row[2], 1)), row[0], row[1]))
    for garage, motor, all_runs, count in rows:
        yield garage, motor, str(all_runs), str(count), rounded(Decimal(100) * count / all_runs, 1)


def drives(days):
    words = {Event.BEGIN_IN: "begin in", Event.BEGIN_OUT: "begin out"}
    for garage, day in sorted(days.items()):
        took, given_up, begun = defaultdict(list), defaultdict(int), None
        for time, message, number, _ in day:
            if not isinstance(message, messages.CarEvent) or number is not Number.TAKEN:
                continue
            if message.way in words:
                begun = message.way, time
            else:
                took[begun[0]].append(Decimal((time - begun[1]) // timedelta(microseconds=1)) / 1000000)
                given_up[begun[0]] += message.way == Event.END_NOT_DONE
        for way in sorted(took):
            yield garage, words[way], str(len(took[way])), rounded(median(took[way]), 1), rounded(max(took[way]), 1), str(given_up[way])


def versions(days, deployed):
    sent, rejected = defaultdict(int), defaultdict(list)
    for garage, day in days.items():
        for time, _, number, _ in day:
            version = [version for name, since, version in deployed if name == garage and (since is None or since <= time)][-1]
            sent[version] += 1
            if number not in (None, Number.TAKEN):
                rejected[version].append(int(number))
    for version in sorted(sent):
        numbers = " ".join(sorted({str(number) for number in rejected[version]}))
        count = len(rejected[version])
        yield version, str(sent[version]), str(count), rounded(Decimal(1000) * count / sent[version], 1), numbers


def nearly_full(days):
    rows = []
    for garage, day in days.items():
        cars, most = day[-1][3], max(one[3] for one in day)
        if most >= 24:
            rows.append((garage, cars, 27 - cars, most, sum(one[2] == Number.KEPT_OPEN for one in day)))
    for row in sorted(rows, key=lambda row: (row[2], row[0])):
        yield tuple(map(str, row))


def main(folder):
    days = {log.stem: list(sent_of(log)) for log in folder.glob("*.log")}
    since = lambda word: None if word == "-infinity" else datetime.fromisoformat(word + ":00")
    deployed = [(name, since(when), version) for name, when, version in
                (line.split(",") for line in (folder / "deployed.csv").read_text().splitlines()[1:])]
    answers = [utilisation(days), failing(days), drives(days), versions(days, deployed), nearly_full(days)]
    rows = 0
    for file, answer in zip(sorted((ROOT / "docs/fleet").glob("[1-5]-*.sql")), answers):
        told = subprocess.run(["psql", "-X", "-q", "-A", "-t", "-F", "|", "-f", str(file)], capture_output=True, text=True, check=True).stdout
        found, wanted = [tuple(line.split("|")) for line in told.splitlines()], list(answer)
        if found != wanted or not wanted:
            differ = [pair for pair in zip(found, wanted) if pair[0] != pair[1]]
            sys.exit(f"fleet: {file.name}: psql answers {len(found)} rows, worked out are {len(wanted)}; the first that differ: {differ[:3]}")
        rows += len(wanted)
    print(f"fleet: five questions, {rows} rows as worked out from the logs")


if __name__ == "__main__":
    main(Path(sys.argv[1]))
