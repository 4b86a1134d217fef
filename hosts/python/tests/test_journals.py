"""Journals and recordings: what is written reads back; what a lost power supply leaves is told from damage; every changed byte is found."""

import unittest

from station import Event, Station, journals, messages
from station.journals import AROUND, HEAD, Damaged, Kind, NoJournal, crc_over

SENT = [messages.event(Event.BEGIN_IN), messages.event(Event.END_DONE), messages.request("lift basement"), messages.ask()]


def four(value: int) -> bytes:
    return value.to_bytes(4, "little")


def head(name: bytes = b"north", form: int = 2, station: bytes = bytes(Station())) -> bytes:
    made = journals.MAGIC + bytes([form, 0, 0, 1]) + name.ljust(40, b"\0") + station
    return made + four(crc_over(0, made))


def behind(journal: bytes, kind: int, carried: bytes, before: int) -> bytes:
    """A journal with one append more, which goes on from this checksum."""
    title = bytes([kind]) + len(carried).to_bytes(3, "little")
    first = crc_over(before, title)
    return journal + title + four(first) + carried + four(crc_over(first, carried)) + b"\n"


def last(journal: bytes) -> int:
    """The checksum that the next append goes on from."""
    return int.from_bytes(journal[-4:] if len(journal) == HEAD else journal[-5:-1], "little")


def grown(journal: bytes, *appends) -> bytes:
    for kind, carried in appends:
        journal = behind(journal, kind, carried, last(journal))
    return journal


THREE = grown(head(), (Kind.MESSAGES, b"".join(SENT[:2])), (Kind.CUT_SHORT, b"\x03\x00\x02"), (Kind.MESSAGES, b"".join(SENT[2:])))


class Reading(unittest.TestCase):
    def test_what_is_written_reads_back(self):
        read = journals.read(THREE)
        self.assertEqual((read.name, read.version, read.torn, read.closed), ("north", (1, 0, 0), 0, False))
        self.assertEqual([one.kind for one in read.appends], [Kind.MESSAGES, Kind.CUT_SHORT, Kind.MESSAGES])
        self.assertEqual(list(read.messages()), SENT)
        garage = Station()
        for message in SENT:
            garage.message(message)
        self.assertEqual(read.station(), garage)
        self.assertEqual(journals.sent(THREE), SENT)
        self.assertEqual(journals.sent(b"".join(SENT)), SENT)

    def test_cards_stand_before_messages_and_the_last_say_them(self):
        numbers = [number + 256 * number for number in range(journals.CARDS)]
        given = b"".join(four(number) for number in numbers)
        cards = grown(head(), (Kind.CARDS, bytes(journals.NUMBERS)), (Kind.CARDS, given + b"".join(SENT[:2])), (Kind.MESSAGES, b"".join(SENT[2:])))
        read = journals.read(cards)
        self.assertEqual(list(read.messages()), SENT)
        self.assertEqual(read.station(), journals.read(THREE).station())
        self.assertEqual(read.numbers, tuple(numbers))
        self.assertEqual(journals.read(THREE).numbers, (0,) * journals.CARDS)
        for carried in (given[:-1], given + b"\x02\x00\x05"):
            with self.assertRaises(Damaged):
                journals.read(grown(head(), (Kind.CARDS, carried)))

    def test_it_goes_on_from_the_station_that_it_begins_with(self):
        garage = journals.read(THREE).station()
        self.assertEqual(journals.read(head(station=bytes(garage))).station(), garage)

    def test_a_closed_one_is_told_and_nothing_may_follow(self):
        closed = grown(THREE, (Kind.CLOSED, b""))
        self.assertTrue(journals.read(closed).closed)
        with self.assertRaises(Damaged):
            journals.read(grown(closed, (Kind.MESSAGES, SENT[3])))

    def test_what_is_none_is_told(self):
        for wrong, why in ((b"", "does not begin"), (b"notes\n" * 40, "does not begin"), (head()[:127], "does not begin"), (head(form=3), "format 3")):
            with self.assertRaisesRegex(NoJournal, why):
                journals.read(wrong)
        with self.assertRaisesRegex(ValueError, "at byte 5"):
            journals.sent(SENT[0] + b"\x00\x00")

    def test_every_cut_is_torn_and_keeps_what_is_whole(self):
        starts = [one.at for one in journals.read(THREE).appends] + [len(THREE)]
        for size in range(HEAD, len(THREE)):
            read = journals.read(THREE[:size])
            self.assertEqual(read.torn, size - max(at for at in starts if at <= size))
        zeros = THREE + bytes(AROUND + 20)
        self.assertEqual(journals.read(zeros).torn, AROUND + 20)

    def test_every_changed_byte_is_found(self):
        for at in range(len(THREE)):
            for flip in (1, 128):
                changed = THREE[:at] + bytes([THREE[at] ^ flip]) + THREE[at + 1 :]
                with self.assertRaises(ValueError, msg=f"byte {at}"):
                    journals.read(changed)

    def test_an_append_out_of_place_is_found(self):
        first, second, third = (one.at for one in journals.read(THREE).appends)
        for wrong in (THREE[:first] + THREE[second:], THREE[:third] + THREE[second:third] + THREE[third:], head(b"south") + THREE[HEAD:]):
            with self.assertRaises(Damaged):
                journals.read(wrong)
        with self.assertRaises(Damaged) as caught:
            journals.read(THREE[:second] + THREE[third:])
        self.assertEqual((caught.exception.at, caught.exception.appends, caught.exception.sent), (second, 1, 2))

    def test_an_append_that_carries_what_it_cannot_is_found(self):
        for kind, carried in ((Kind.MESSAGES, b""), (Kind.MESSAGES, b"\x03\x00\x02"), (Kind.CUT_SHORT, bytes(45)), (Kind.CLOSED, b"\0"), (9, b"")):
            with self.assertRaises(Damaged):
                journals.read(grown(head(), (kind, carried)))

    def test_the_checksum_is_the_published_one(self):
        self.assertEqual(crc_over(0, b"123456789"), 0xE3069283)
        self.assertEqual(crc_over(crc_over(0, b"1234"), b"56789"), 0xE3069283)
