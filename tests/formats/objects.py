"""objects.py INPUT..: what explain --json and report --json write of inputs, held against the schemas, against what both write as text, and
against the station followed here through the package for Python. An input is a recording (.bin), a journal (.journal) or a text (.hex).
"""

import copy
import json
import re
import subprocess
import sys
from pathlib import Path

import jsonschema
from station import Number, Station, journals, messages

ROOT = Path(__file__).resolve().parents[2]
KINDS = ["request", "event", "result", "image", "ask"]
OPS = ["belts", "shuttles", "tilt", "lift", "rotate"]


def validator(name):
    schema = json.loads((ROOT / "docs/formats" / name).read_text())
    jsonschema.Draft202012Validator.check_schema(schema)
    return jsonschema.Draft202012Validator(schema)


MESSAGE, REPORT = validator("message-1.schema.json"), validator("report-1.schema.json")


def run(program, *words, given):
    done = subprocess.run([str(ROOT / "bin" / program), *words], input=given, capture_output=True)
    return done.stdout.decode(), done.stderr.decode(), done.returncode


def same(what, wanted, found):
    if wanted != found:
        sys.exit(f"objects: {what}: wanted {wanted!r}, found {found!r}")


def follow(name, objects, start=None):
    """Each message's answer and floors are those of a station that is followed here."""
    station = Station.from_bytes(bytes(start)) if start is not None else Station.start()
    for one in objects:
        where, given = f"{name}, message {one['message']}", bytes.fromhex(one["bytes"])
        if one["way"] == "answered":
            continue
        for when in ("before", "after"):
            if when == "after":
                reply = station.message(given)
                same(f"{where}: the answer", reply.hex(" ").upper(), one["answer"]["bytes"])
                told = messages.read(reply)
                number = getattr(told, "number", None)
                same(f"{where}: its number", None if number is None else int(number), one["answer"].get("number"))
                same(f"{where}: whether it is accepted", number is None or number is Number.TAKEN, one["accepted"])
            floor = one[when]
            same(f"{where}: the record {when}", bytes(station.record).hex().upper(), floor["record"])
            same(f"{where}: what is apart {when}", station.apart.to_bytes(8, "little").hex().upper(), floor["apart"])
            same(f"{where}: the cars {when}", station.record.cars(), floor["cars"])
    return station


def in_text(name, objects, text):
    """The paragraphs of the text have the same places, bytes and words, in the same order."""
    heads = re.findall(r"^message (\d+), (byte|line) (\d+)(?: \((.*)\))?, (to the station|answered)$", text, re.MULTILINE)
    wanted = [
        (str(one["message"]), *(("byte", str(one["byte"])) if "byte" in one else ("line", str(one["line"]))), one.get("time", ""),
         "answered" if one["way"] == "answered" else "to the station")
        for one in objects
    ]
    same(f"{name}: the heads", heads, wanted)
    paragraphs = re.split(r"^message \d+, .*$", text, flags=re.MULTILINE)[1:]
    for one, paragraph in zip(objects, paragraphs):
        lines = [line.strip() for line in paragraph.splitlines()]
        same(f"{name}, message {one['message']}: words not in the text", [], [line for line in one["words"] if line.strip() not in lines])
        same(f"{name}, message {one['message']}: its bytes", True, one["bytes"] in " ".join(lines))


def counted(name, form, objects):
    """The totals of a report's object are those of its lines, and of the messages."""
    lines, _, status = run("report", given=form) if isinstance(form, bytes) else run("report", str(form), given=b"")
    same(f"{name}: the report's status", 0, status)
    totals = dict(line.split() for line in lines.splitlines())
    written, _, status = run("report", "--json", given=form) if isinstance(form, bytes) else run("report", "--json", str(form), given=b"")
    same(f"{name}: the object's status", 0, status)
    week = json.loads(written)
    REPORT.validate(week)
    found = {f"kind-{at + 1}": week["kinds"][kind] for at, kind in enumerate(KINDS)}
    found |= {f"answer-{number}": count for number, count in week["answers"].items()}
    found |= {f"done-{at + 1}": week["done"][op] for at, op in enumerate(OPS)}
    found |= {f"failed-{at + 1}": week["failed"][op] for at, op in enumerate(OPS)}
    found |= {"cars-in": week["cars_in"], "cars-out": week["cars_out"], "most-cars": week["most_cars"]}
    same(f"{name}: the totals", [[line, int(value)] for line, value in totals.items()], [list(pair) for pair in found.items()])
    metrics, _, _ = run("report", "--prometheus", given=form) if isinstance(form, bytes) else run("report", "--prometheus", str(form), given=b"")
    samples = dict(line.rsplit(" ", 1) for line in metrics.splitlines() if not line.startswith("#"))
    garage = f'garage="{week["garage"]}",' if week["garage"] else ""
    for kind in KINDS:
        same(f"{name}: the metric of {kind}", week["kinds"][kind], int(samples[f'garage_messages_total{{{garage}kind="{kind}"}}']))
    for number, count in week["answers"].items():
        label = f'{garage}answer="{number}",words="{Number(int(number)).words}"'
        same(f"{name}: the metric of answer {number}", count, int(samples[f"garage_answers_total{{{label}}}"]))
    for op in OPS:
        for outcome in ("done", "failed"):
            label = f'{garage}instruction="{op}",outcome="{outcome}"'
            same(f"{name}: the metric of {op}", week[outcome][op], int(samples[f"garage_results_total{{{label}}}"]))
    plain = f"{{{garage[:-1]}}}" if garage else ""
    for metric, field in [("cars_in_total", "cars_in"), ("cars_out_total", "cars_out"), ("cars", "cars"), ("cars_most", "most_cars"),
                          ("parts_set_apart", "parts_set_apart")]:
        same(f"{name}: the metric {metric}", week[field], int(samples[f"garage_{metric}{plain}"]))
    same(f"{name}: as many samples as numbers", len(totals) + 2, len(samples))
    if objects:
        same(f"{name}: the cars now", objects[-1]["after"]["cars"], week["cars"])
        same(f"{name}: what is apart now", bin(int(objects[-1]["after"]["apart"], 16)).count("1"), week["parts_set_apart"])
        for number, count in week["answers"].items():
            same(f"{name}: answers {number}", count, sum(one["answer"].get("number") == int(number) for one in objects))


def refused(objects):
    """Wrong objects: each is found out by the schema."""
    sent = next(one for one in objects if one["way"] == "sent" and one["name"] == "request" and one["fields"]["instructions"])
    wrong = []
    for name in ("format", "message", "way", "bytes", "kind", "name", "fields", "words", "accepted", "answer", "before", "after", "cards", "stops"):
        wrong.append({key: value for key, value in sent.items() if key != name})
    for name, value in [("format", "vargsnida-message-2"), ("way", "lost"), ("kind", 2), ("bytes", "0a"), ("accepted", 1), ("agrees", True), ("more", 1),
                        ("byte", 3 if "line" in sent else -1)]:
        wrong.append({**sent, name: value})
    for path, value in [(("fields", "instructions", 0, "op"), "fly"), (("before", "cars"), 31), (("after", "record"), "00"), (("after", "height"), "roof")]:
        one = copy.deepcopy(sent)
        at = one
        for step in path[:-1]:
            at = at[step]
        at[path[-1]] = value
        wrong.append(one)
    for one in wrong:
        same(f"whether the schema takes {str(one)[:80]}", False, MESSAGE.is_valid(one))
    return len(wrong)


def main(inputs):
    count, found_out, names, numbers = 0, 0, set(), set()
    for file in map(Path, inputs):
        name, given = file.name, file.read_bytes()
        written, told, _ = run("explain", "--json", given=given)
        text, told_too, _ = run("explain", given=given)
        same(f"{name}: what is told", told_too, told)
        objects = [json.loads(line) for line in written.splitlines()]
        for one in objects:
            error = jsonschema.exceptions.best_match(MESSAGE.iter_errors(one))
            same(f"{name}, message {one['message']}", None, error and error.message)
        in_text(name, objects, text)
        quiet, _, _ = run("explain", "--json", "--quiet", given=given)
        sent = [one for one in objects if one["way"] == "sent"]
        if sent:
            kept = [one for one in objects if one["way"] == "sent" and not one["accepted"] or one["way"] == "answered" and not one["agrees"]]
            same(f"{name}: refusals alone", kept, [json.loads(line) for line in quiet.splitlines()])
            journal = file.suffix == ".journal"
            follow(name, objects, journals.read(file).begins if journal else None)
            if file.suffix != ".hex":
                counted(name, file if journal else given, sent)
        if any(one["name"] == "request" and one["fields"]["instructions"] for one in sent):
            found_out += refused(objects)
        count += len(objects)
        names |= {one["name"] for one in objects}
        numbers |= {one["answer"]["number"] for one in sent if "number" in one["answer"]}
    same("the kinds that came", {"request", "event", "result", "image", "ask", "answer", "held", None}, names)
    same("answers that did not come", {16, 17}, {int(number) for number in Number if int(number) <= 33} - numbers)
    print(f"objects: {count} messages as the schema, the text and the station have them, {len(numbers)} answers; {found_out} wrong objects found out")


if __name__ == "__main__":
    main(sys.argv[1:])
