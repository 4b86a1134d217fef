#!/usr/bin/env python3
"""owner.py [--image RECORD | --result SET NUMBER OUTCOME] STATION [--garage NAME] JOURNAL: the smallest planner that owns its station.

It starts STATION with the other words as its child and holds both ends of its pipes, so that nobody else can write into the middle of a message. It
asks for the image first. Then it passes on each line of hexadecimal from its standard input, one message a line, waits for the answer, and
prints both with the time. What is no whole message is told on standard error and not sent: so the two never come out of step.

With --image it sends one image instead, whose RECORD is eight bytes in hexadecimal as draw writes them; with --result one result, whose
OUTCOME is failed, done or stuck. The answer is then told in words too, behind a `#`, and the status is 4 where it is a rejection. So a
technician can send what somebody has seen while the planner is stopped (docs/JAM.md).

It ends when its input does, or on SIGTERM or SIGINT: it closes the station's input, waits for its end, and has its status. Where the
station ends by itself, that is told: the status is the station's, or 3 where that is 0, since then the two were out of step.
"""

import signal
import subprocess
import sys
from datetime import datetime, timezone

ASK = bytes([2, 0, 5, 0])
OUT_OF_STEP, REJECTED = 3, 4
OUTCOMES = ["failed", "done", "stuck"]
USAGE = "usage: owner.py [--image RECORD | --result SET NUMBER OUTCOME] STATION [--garage NAME] JOURNAL"
WORDS = {
    0: "accepted",
    6: "rejected, 6: a set is outstanding: send its results first",
    11: "rejected, 11: no set is outstanding: it is closed already",
    12: "rejected, 12: the set has no instruction with this number",
    13: "rejected, 13: this instruction has its result already",
    15: "rejected, 15: there is no such garage: mend the drawing",
    29: "rejected, 29: late, another set is outstanding now",
    30: "rejected, 30: there was no such set: mend its number",
}


class Asked(Exception):
    """Somebody asks this program to end."""


def asked(signal_number, frame):
    raise Asked


def note(mark, message):
    now = datetime.now(timezone.utc).isoformat(timespec="milliseconds")
    print(now, mark, message.hex(" ").upper(), flush=True)


def read_message(stream):
    """One whole message, or None where the stream has ended before."""
    head = stream.read(2)
    if len(head) < 2:
        return None
    body = stream.read(int.from_bytes(head, "little"))
    return head + body if len(body) == int.from_bytes(head, "little") else None


def whole(message):
    """Whether these bytes are as many as their own length says, and that is one that a station goes on from."""
    return len(message) >= 4 and int.from_bytes(message[:2], "little") == len(message) - 2 <= 43


def image(record):
    """The message with a record's image, which sets nothing apart."""
    eight = bytes.fromhex(record)
    if len(eight) != 8:
        raise ValueError
    return bytes([18, 0, 4, 0]) + eight + bytes(8)


def result(issue, number, outcome):
    """The message with the result of an instruction of a set."""
    return bytes([6, 0, 3, 0]) + int(issue).to_bytes(2, "little") + bytes([int(number), OUTCOMES.index(outcome)])


def one_message(words):
    """The message that the first words ask for, if they do, and the words behind them."""
    if words[:1] == ["--image"] and len(words) > 1:
        return image(words[1]), words[2:]
    if words[:1] == ["--result"] and len(words) > 3:
        return result(*words[1:4]), words[4:]
    return None, words


def exchanged(station, message):
    """Sends a message and notes its answer, which it gives; nothing where there is none."""
    note(">", message)
    try:
        station.stdin.write(message)
        station.stdin.flush()
    except BrokenPipeError:
        return None
    answer = read_message(station.stdout)
    if answer is not None:
        note("<", answer)
    return answer


def told(station, lines):
    """Passes the lines on until they end or the station does; says whether the station was still there."""
    if exchanged(station, ASK) is None:
        return False
    for line in lines:
        try:
            message = bytes.fromhex(line.decode("ascii"))
        except ValueError:
            message = b""
        if not whole(message):
            print(f"owner: not sent, since it is no whole message: {line.strip()!r}", file=sys.stderr, flush=True)
        elif exchanged(station, message) is None:
            return False
    return True


def told_one(station, message):
    """Sends one message and tells its answer in words; gives the status, or nothing where the station was not there any more."""
    answer = exchanged(station, ASK) and exchanged(station, message)
    if answer is None:
        return None
    number = answer[4]
    print("#", WORDS.get(number, f"rejected, {number}"), flush=True)
    return REJECTED if number else 0


def main():
    try:
        message, command = one_message(sys.argv[1:])
    except (ValueError, OverflowError):
        command = []
    if len(command) < 2 or command[0].startswith("-"):
        print(USAGE, file=sys.stderr)
        return 2
    try:
        station = subprocess.Popen(command, stdin=subprocess.PIPE, stdout=subprocess.PIPE)
    except OSError as why:
        print(f"owner: the station can't be started: {why}", file=sys.stderr)
        return 2
    for ending in (signal.SIGTERM, signal.SIGINT):
        signal.signal(ending, asked)
    own = 0
    try:
        if message is None:
            there = told(station, sys.stdin.buffer)
        else:
            own = told_one(station, message)
            there = own is not None
    except Asked:
        there = True
    try:
        station.stdin.close()
    except BrokenPipeError:
        pass
    status = station.wait()
    status = 128 - status if status < 0 else status
    if there:
        return status or own
    print(f"owner: the station has ended by itself, with status {status}", file=sys.stderr)
    return status or OUT_OF_STEP


sys.exit(main())
