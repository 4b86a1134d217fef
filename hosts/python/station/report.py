"""The week in numbers (docs/REPORT.md): the report's totals, kept beside a station."""

from typing import Dict

from .answers import NOWHERE, Number, Refused, taken
from .calls import Station

TOTALS, TEXT_MOST = 208, 1092


class Totals:
    """The report's totals, all 0 at the start."""

    def __init__(self):
        self.room, self.full = bytearray(TOTALS), NOWHERE
        taken("report_start", self.room)

    @classmethod
    def from_bytes(cls, kept: bytes) -> "Totals":
        if len(kept) != TOTALS:
            raise ValueError(f"totals have {TOTALS} bytes, not {len(kept)}")
        one = cls()
        one.room[:] = kept
        return one

    def __bytes__(self) -> bytes:
        return bytes(self.room)

    def message(self, station: Station, message: bytes) -> None:
        """Counts a message, before the station is given it. Refused with 40 and the total's place where it would be too large; from then
        on the report says that it is full."""
        try:
            taken("report_message", self.room, bytes(station), message)
        except Refused as refused:
            self.full = refused.place
            raise

    def lines(self) -> str:
        """The report's text, as `bin/report` prints it."""
        text = bytearray(TEXT_MOST)
        return text[: taken("report_lines", self.room, self.full, text)].decode("ascii")

    def named(self) -> Dict[str, int]:
        """The numbers by the names of their lines; refused with 40 where the report is full."""
        if self.full != NOWHERE:
            raise Refused(Number.FULL, self.full)
        return {name: int(value) for name, value in (line.split() for line in self.lines().splitlines())}
