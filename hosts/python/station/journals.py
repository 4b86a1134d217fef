"""Journals and recordings, read as files (docs/OPERATING.md): whose garage it is, the station that it begins with, and what was sent.

Nothing here changes a file or takes a lock: it may be read while a station runs on it. Then the last append may be there in part only, and is
told as torn.
"""

import enum
import os
from pathlib import Path
from typing import Iterator, List, NamedTuple, Optional, Tuple, Union

from . import messages
from .calls import Desk, Station

MAGIC = b"Vargsnida, journal.\n"
FORMAT, HEAD, NAME_AT, STATION_AT, SUM_AT = 2, 128, 24, 64, 124
TITLED, AROUND, CARRIED_MOST, LEFT_MOST, SECTOR, END_MARK = 8, 13, 65536, 44, 512, 10
CARDS, NUMBERS = 42, 168


def table() -> List[int]:
    """What each byte does to a CRC-32C (Castagnoli), its bits taken from the lowest."""
    made = []
    for one in range(256):
        for _ in range(8):
            one = one >> 1 ^ (0x82F63B78 if one & 1 else 0)
        made.append(one)
    return made


TABLE = table()


def crc_over(before: int, data: bytes) -> int:
    """The checksum of some bytes, which goes on from that of what comes before; 0 for nothing."""
    crc = before ^ 0xFFFFFFFF
    for byte in data:
        crc = TABLE[(crc ^ byte) & 255] ^ crc >> 8
    return crc ^ 0xFFFFFFFF


def number(data: bytes) -> int:
    return int.from_bytes(data, "little")


class NoJournal(ValueError):
    """The file is no journal of this form: why not."""


class Damaged(ValueError):
    """The file was changed: the byte where it shows, and how many appends and messages before it are good."""

    def __init__(self, at: int, appends: int, sent: int):
        super().__init__(f"damaged at byte {at}, in append {appends}, behind {sent} messages")
        self.at, self.appends, self.sent = at, appends, sent


class Kind(enum.IntEnum):
    """What an append is: the messages of one read; what was left when a session ended by answer 1, or by 2; the closing mark; the numbers of a
    desk's cards, and behind them the messages of one read or none."""

    MESSAGES = 1
    CUT_SHORT = 2
    BAD_LENGTH = 3
    CLOSED = 4
    CARDS = 5


class Append(NamedTuple):
    """An append: the byte at which it begins, its kind, and what it carries."""

    at: int
    kind: Kind
    carried: bytes

    @property
    def sent(self) -> bytes:
        """The messages that it carries, one behind the other."""
        return messages_of(self.kind, self.carried)


class Journal(NamedTuple):
    """A journal that is whole: the garage's name, the version that made it, the station that it begins with, its appends, and how many bytes
    at its end were cut off by a lost power supply and so never answered."""

    name: str
    version: Tuple[int, int, int]
    begins: Station
    appends: Tuple[Append, ...]
    torn: int

    @property
    def closed(self) -> bool:
        """Whether another journal follows this one, which then no longer starts."""
        return bool(self.appends) and self.appends[-1].kind is Kind.CLOSED

    def messages(self) -> Iterator[bytes]:
        """The messages that were answered, in their order."""
        for append in self.appends:
            yield from messages.split(append.sent)

    @property
    def numbers(self) -> Tuple[int, ...]:
        """The numbers of a desk's 42 cards, as its last append that has cards says them; zeros where none has."""
        kept = [append.carried for append in self.appends if append.kind is Kind.CARDS]
        given = kept[-1] if kept else bytes(NUMBERS)
        return tuple(number(given[4 * at : 4 * at + 4]) for at in range(CARDS))

    def station(self) -> Station:
        """The station that it makes: every message answered again, from the one that it begins with."""
        garage = Station.from_bytes(bytes(self.begins))
        for message in self.messages():
            garage.message(message)
        return garage

    def desk(self) -> Desk:
        """The desk that it makes, where a desk has kept it: the station with these numbers. Refused with 16 where they are not the cars'."""
        return Desk.from_bytes(bytes(self.station()) + b"".join(number.to_bytes(4, "little") for number in self.numbers))


def messages_of(kind: int, carried: bytes) -> bytes:
    """What of the bytes that an append of this kind carries are messages."""
    return carried if kind == Kind.MESSAGES else carried[NUMBERS:] if kind == Kind.CARDS else b""


def messages_of(kind: int, carried: bytes) -> bytes:
    """What of the bytes that an append of this kind carries are messages."""
    return carried if kind == Kind.MESSAGES else carried[NUMBERS:] if kind == Kind.CARDS else b""


def fits(kind: int, carried: bytes) -> bool:
    """Whether an append of this kind can carry these bytes."""
    if kind in (Kind.MESSAGES, Kind.CARDS):
        try:
            count = len(list(messages.split(messages_of(kind, carried))))
        except ValueError:
            return False
        return count > 0 if kind == Kind.MESSAGES else len(carried) >= NUMBERS
    return kind == Kind.CLOSED and not carried or kind in (Kind.CUT_SHORT, Kind.BAD_LENGTH) and len(carried) <= LEFT_MOST


def titled(before: int, rest: bytes) -> bool:
    return number(rest[4:8]) == crc_over(before, rest[:4]) and number(rest[1:4]) <= CARRIED_MOST


def zeroed(before: int, at: int, rest: bytes) -> bool:
    """Whether zeros from its first byte on, or from a sector on, show that a lost power supply kept an append from the disk."""
    written = len(rest.rstrip(b"\0"))
    lost = written + -(at + written) % SECTOR if written else 0
    if len(rest) > CARRIED_MOST + AROUND or len(rest) <= lost:
        return False
    return lost < TITLED or titled(before, rest) and len(rest) == number(rest[1:4]) + AROUND


def front(before: int, at: int, rest: bytes) -> Optional[bool]:
    """Whether some bytes, up to the file's end, begin with a whole append: True, False where they are torn, and None where they are wrong."""
    if len(rest) < TITLED:
        return False
    if titled(before, rest):
        end = number(rest[1:4]) + AROUND
        if len(rest) < end:
            return False
        if number(rest[end - 5 : end - 1]) == crc_over(number(rest[4:8]), rest[TITLED : end - 5]) and rest[end - 1] == END_MARK:
            return True
    return False if zeroed(before, at, rest) else None


def read(file: Union[bytes, str, "os.PathLike[str]"]) -> Journal:
    """The journal in a file, or in bytes. NoJournal where it is none, Damaged where it was changed."""
    data = file if isinstance(file, bytes) else Path(file).read_bytes()
    head = data[:HEAD]
    if len(data) < HEAD or not data.startswith(MAGIC):
        raise NoJournal("no journal of a station: it does not begin with a head")
    if head[len(MAGIC)] != FORMAT:
        raise NoJournal(f"a journal of format {head[len(MAGIC)]}: this reads format {FORMAT}")
    if number(head[SUM_AT:]) != crc_over(0, head[:SUM_AT]):
        raise Damaged(0, 0, 0)
    begins = Station.from_bytes(head[STATION_AT:SUM_AT])
    at, before, appends, sent = HEAD, number(head[SUM_AT:]), [], 0
    while at < len(data):
        rest = data[at : at + CARRIED_MOST + AROUND + 1]
        whole = front(before, at, rest)
        closed = bool(appends) and appends[-1].kind is Kind.CLOSED
        if whole is False:
            break
        carried = rest[TITLED : TITLED + number(rest[1:4])]
        if not whole or closed or not fits(rest[0], carried):
            raise Damaged(at, len(appends), sent)
        appends.append(Append(at, Kind(rest[0]), carried))
        sent += len(list(messages.split(appends[-1].sent)))
        at += len(carried) + AROUND
        before = number(rest[len(carried) + TITLED : len(carried) + TITLED + 4])
    version = number(head[21:24])
    name = head[NAME_AT:STATION_AT].rstrip(b"\0").decode(errors="replace")
    return Journal(name, (version >> 16, version >> 8 & 255, version & 255), begins, tuple(appends), len(data) - at)


def sent(file: Union[bytes, str, "os.PathLike[str]"]) -> List[bytes]:
    """The messages that a station was sent: those of a journal, or of a recording, which is whole messages and nothing else."""
    data = file if isinstance(file, bytes) else Path(file).read_bytes()
    return list(read(data).messages() if data.startswith(MAGIC) else messages.split(data))
