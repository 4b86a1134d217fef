"""What the tests share: the tree, the pages' blocks, all instructions, and messages as a planner would send them."""

import re
import subprocess
from pathlib import Path
from typing import Iterator, List, Tuple

from station import Instruction, Number, Record, Station, messages
from station.words import well_formed

ROOT = Path(__file__).resolve().parent.parent.parent.parent
HEADERS = sorted((ROOT / "include").glob("*.h"))


def text(name: str) -> str:
    return (ROOT / name).read_text()


def run(*words: str, given: bytes = b"") -> subprocess.CompletedProcess:
    """A program of the tree on some input."""
    return subprocess.run([str(ROOT / words[0]), *words[1:]], input=given, capture_output=True, check=False)


def blocks(page: str) -> List[Tuple[str, str]]:
    """The marked blocks of a page, each with its mark."""
    return re.findall(r"^```(\S+)\n(.*?)^```$", text(page), re.MULTILINE | re.DOTALL)


def drawn(*lines: str) -> Record:
    return Record.from_drawing("".join(f"{line}\n" for line in lines))


def all_instructions() -> List[Instruction]:
    """Every five bytes that are an instruction."""
    fields = [(op, a, b, c, d) for op in range(1, 6) for a in range(4) for b in range(32) for c in range(2) for d in range(2)]
    return [Instruction(bytes(five)) for five in fields if well_formed(bytes(five))]


ALL = all_instructions()


class Planner:
    """Makes messages by chance, mostly such as fit the station that it sends them to; damaged ones among them."""

    def __init__(self, numbers):
        self.numbers, self.station = numbers, Station()
        self.issue, self.waiting, self.seen = 0, [], [Record(0x00091B0000000000), Record(0x00003FFFBFFFC3FF)]

    def pick(self, many):
        return self.numbers.choice(many)

    def any(self, count: int) -> List[Instruction]:
        """Some instructions, of each kind as many."""
        return [self.pick([one for one in ALL if bytes(one)[0] == op]) for op in self.numbers.choices(range(1, 6), k=count)]

    def request(self) -> bytes:
        record, wanted = self.station.record, self.pick([1, 1, 2, 3, 8])
        if self.numbers.random() < 0.1:
            return messages.request(self.any(self.pick([0, 1, 1, 2])))
        allowed = [one for one in ALL if record.allowed(one)]
        fit = []
        for one in self.numbers.sample(allowed, min(len(allowed), 4 * wanted)):
            tried = Station.from_bytes(bytes(self.station))
            if len(fit) < wanted and messages.read(tried.message(messages.request([*fit, one]))).taken:
                fit.append(one)
        return messages.request(fit + self.any(1 if len(fit) < 8 and self.numbers.random() < 0.1 else 0))

    def event(self) -> bytes:
        under_way = self.station.record.image >> 55 & 3
        fitting = [3, 3, 4] if under_way else [1, 2]
        return messages.event(self.pick(fitting if self.numbers.random() < 0.8 else range(6)))

    def result(self) -> bytes:
        number = self.pick(self.waiting) if self.waiting and self.numbers.random() < 0.9 else self.numbers.randrange(9)
        issue = self.issue if self.numbers.random() < 0.9 else (self.issue - self.pick([1, 32767, 32768, 65535])) & 65535
        return messages.result(issue, number, self.pick([1] * 12 + [0, 0, 2, 3]))

    def image(self) -> bytes:
        record = self.pick(self.seen) if self.numbers.random() < 0.9 else Record(self.numbers.getrandbits(64))
        return messages.image(record, self.pick([0] * 9 + [1 << 63]))

    def damaged(self) -> bytes:
        kind = self.pick([1, 2, 3, 4, 5, 6, 128, 256])
        body = self.numbers.getrandbits(8 * 41).to_bytes(41, "little")[: self.pick([0, 1, 4, 6, 16, 41])]
        return self.pick([messages.message(kind, body), messages.message(1, b"\x09" + bytes(40))])

    def messages(self, count: int) -> Iterator[Tuple[bytes, bytes]]:
        """Messages, each with what the station in this process answers to it."""
        for _ in range(count):
            record, apart = self.station.ask()
            makers = [self.result] * 12 + [self.event] if self.waiting else [self.request] * 6 + [self.event] * 3
            makers = makers * 3 + [self.image] * (6 if apart else 1) + [self.damaged, self.result, self.request, self.event, messages.ask]
            message = self.pick(makers)()
            answer = self.station.message(message)
            said = messages.read(answer)
            kind = message[2]
            if kind == 1 and said[0] is Number.TAKEN:
                self.issue, self.waiting = said.issue, list(range(message[4]))
            if kind == 3 and said[0] is Number.TAKEN:
                self.waiting.remove(message[6])
            if self.station.record != record and self.numbers.random() < 0.05:
                self.seen.append(self.station.record)
            yield message, answer
