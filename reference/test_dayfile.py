"""Tests of the day's file, its listing, its calls and its generated files: bytes worked out by hand from the paper."""

import io
import unittest
from collections import Counter
from contextlib import redirect_stdout
from dataclasses import replace
from functools import cache
from itertools import product
from typing import Any
from unittest import mock

from reference import dayfile as f, files, measure as m, scripts, sheet as s, sheetlist, survey
from reference.measure import B, H, R, S, U
from reference.scripts import (
    a_thousand, deducted, divided, enter, hatchway, machinery, mark, move, room, whole_sheet, withdraw, write,
)
from reference.sheet import BALLAST, CLOSED, DEDUCTED, EXEMPT, MACHINERY, PLAIN, Sheet, Space
from reference.test_sheet import OfCalls, Step, standard_steps, steps, steps_at_random

# The paper's whole sheet, byte by byte. A record: id, enclosing id, kind, standing, zero, tonnage, length.
EXAMPLE = bytes.fromhex(
    "0100 0000 01 00 0000 012d0000 c0120000"  # 1 within 0, U, plain, 11521 = 2d01, 4800 = 12c0
    "0200 0000 03 00 0000 00050000 40060000"  # 2 within 0, S, plain, 1280 = 500, 1600 = 640
    "0300 0100 05 02 0000 90010000 e8030000"  # 3 within 1, R, ballast, 400 = 190, 1000 = 3e8
    "0400 0200 05 03 0000 40010000 20030000"  # 4 within 2, R, deducted, 320 = 140, 800 = 320
    "0500 0000 04 00 0000 64000000 f4010000"  # 5 within 0, H, plain, 100 = 64, 500 = 1f4
    # distance 108 = 6c, count 5, mark 0, zero, tonnage length 4800, gross 12439 = 3097, net 12119 = 2f57
    "6c000000 0500 00 00 c0120000 9730000000000000 572f000000000000"
)
LISTING = """\
LENGTH 48.00
1 0 U 0 115.21
2 0 S 0 12.80
3 1 R 2 4.00
4 2 R 3 3.20
5 0 H 0 1.00
GROSS 124.39
NET 121.19
"""
SPACES = (
    Space(1, 0, U, PLAIN, 11_521, 4800), Space(2, 0, S, PLAIN, 1_280, 1600), Space(3, 1, R, BALLAST, 400, 1000),
    Space(4, 2, R, DEDUCTED, 320, 800), Space(5, 0, H, PLAIN, 100, 500),
)
DISTANCE, COUNT, MARK, ZERO, LENGTH, GROSS, NET = 80, 84, 86, 87, 88, 92, 100  # where the example's trailer has them

# The same sheet in form 2, with decks and a vessel number: 'the old 16 and then deck 2, zero 2'.
NUMBERED = bytes.fromhex(
    "0100 0000 01 00 0000 012d0000 c0120000 0100 0000"  # deck 1
    "0200 0000 03 00 0000 00050000 40060000 6300 0000"  # deck 99 = 63
    "0300 0100 05 02 0000 90010000 e8030000 0000 0000"  # none
    "0400 0200 05 03 0000 40010000 20030000 0a00 0000"  # deck 10 = a
    "0500 0000 04 00 0000 64000000 f4010000 0700 0000"  # deck 7
    "12040000"  # vessel 1042 = 412
    # distance 132 = 84, count 5, mark 0, the byte that tells form 2, and the others as they were
    "84000000 0500 00 02 c0120000 9730000000000000 572f000000000000"
)
DECKS, VESSEL = (1, 99, 0, 10, 7), 1042
NUMBERED_SPACES = tuple(replace(space, deck=deck) for space, deck in zip(SPACES, DECKS))
# 'Moving a form 1 sheet up gives zeros': four bytes more a record, and four between the last one and the trailer.
MOVED_UP = bytes.fromhex(
    "0100 0000 01 00 0000 012d0000 c0120000 00000000 0200 0000 03 00 0000 00050000 40060000 00000000"
    "0300 0100 05 02 0000 90010000 e8030000 00000000 0400 0200 05 03 0000 40010000 20030000 00000000"
    "0500 0000 04 00 0000 64000000 f4010000 00000000 00000000"
    "84000000 0500 00 02 c0120000 9730000000000000 572f000000000000"
)


def with_bytes(file: bytes, *changes: tuple[int, int]) -> bytes:
    """The file with another byte at each of these places."""
    damaged = bytearray(file)
    for place, byte in changes:
        damaged[place] = byte
    return bytes(damaged)


def little(value: int, width: int) -> bytes:
    """'Numbers are little-endian.'"""
    return bytes(value // 256**place % 256 for place in range(width))


def size_of(form: int, count: int) -> int:
    """'16 x count + 28', in form 2 '20 x count + 32'."""
    return 16 * count + 28 if form == 1 else 20 * count + 32


def a_record(id: int, within: int, kind: int, standing: int, tonnage: int, length: int, zero: int = 0) -> bytes:
    """A record's 16 bytes."""
    widths = (2, 2, 1, 1, 2, 4, 4)
    return b"".join(map(little, (id, within, kind, standing, zero, tonnage, length), widths))


def a_sheet(length: int, gross: int, net: int, *records: bytes, justified: int = 0, **wrong: int) -> bytes:
    """Records and their trailer, but for what is said of it."""
    count = len(records)
    fields = {"distance": size_of(1, count), "count": count, "justified": justified, "zero": 0} | wrong
    values = (*fields.values(), length, gross, net)
    return b"".join(records) + b"".join(map(little, values, (4, 2, 1, 1, 4, 8, 8)))


def refusal(number: int, position: int = 0) -> f.ReadAnswer:
    """'A refused open or read hands back a sheet not open, mark 0, start 0', and form 0."""
    return number, position, 0, 0, 0, CLOSED


class OfFiles(unittest.TestCase):
    """Files and what they must be read as."""

    def refused(self, file: bytes, number: int, position: int = 0, name: str = "") -> None:
        """A file that must be refused with a number and a position."""
        self.assertEqual(f.read(file), refusal(number, position), msg=name or file.hex())

    def accepted(
        self, file: bytes, length: int, *spaces: Space, justified: int = 0, start: int = 0, form: int = 1,
        vessel: int = 0,
    ) -> None:
        """A file that must be read as this sheet, in this form."""
        sheet = Sheet(True, length, tuple(spaces), vessel=vessel)
        self.assertEqual(f.read(file), (0, 0, justified, start, form, sheet), msg=file.hex())


class FileOfThePaper(OfFiles):
    """'The file has 108 bytes', and the program's listing of it."""

    def test_bytes(self) -> None:
        self.assertEqual(len(EXAMPLE), 108)
        self.assertEqual(EXAMPLE, a_sheet(4800, 12_439, 12_119, *(
            a_record(one.id, one.within, one.kind, one.standing, one.tonnage, one.length) for one in SPACES
        )))

    def test_read(self) -> None:
        self.accepted(EXAMPLE, 4800, *SPACES)

    def test_written_by_calls(self) -> None:
        session = survey.Session()
        self.assertEqual(
            [session.answer(line) for line in whole_sheet()],
            ["0", "0 6 0,0,0,0,0,0,0 0", "0 2 - 0", "0 0 - 1", "0 0 - 1", "0 0 - 0"],
        )
        self.assertEqual(f.write(session.sheet, 0, bytes(108), 0, 1), (0, 108, EXAMPLE, session.sheet))
        self.assertEqual(session.answer("write 0 0 108"), f"0 108 {EXAMPLE.hex()}")
        self.assertEqual(session.answer(f"read {EXAMPLE.hex()}"), "0 0 0 0 1")

    def test_generated(self) -> None:
        self.assertEqual(files.of_the_paper(), EXAMPLE)

    def test_listing(self) -> None:
        self.assertEqual(f.listing(EXAMPLE), LISTING)
        self.assertEqual(f.listing(b"anything" + EXAMPLE), LISTING)

    def test_command_line(self) -> None:
        for file, expected in ((EXAMPLE, LISTING), (EXAMPLE[1:], "REFUSED 16 0\n"), (b"", "REFUSED 16 0\n")):
            given = mock.Mock(buffer=io.BytesIO(file))
            with mock.patch("sys.stdin", given), redirect_stdout(io.StringIO()) as printed:
                self.assertEqual(sheetlist.main(), 0)
            self.assertEqual(printed.getvalue(), expected)


class Layout(OfFiles):
    """Every field at its place, in all its bytes."""

    def test_every_byte_of_a_record(self) -> None:
        """Ids 9998 = 270e and 4660 = 1234; 100,000,000 = 5f5e100; 150,000 = 249f0."""
        sheet = Sheet(True, 150_000, (
            Space(4660, 0, U, PLAIN, 100_000_000, 150_000), Space(9998, 4660, R, DEDUCTED, 99_999_999, 66_051),
        ))
        written = bytes.fromhex(
            "3412 0000 01 00 0000 00e1f505 f0490200"
            "0e27 3412 05 03 0000 ffe0f505 03020100"
            "3c000000 0200 01 00 f0490200 00e1f50500000000 0100000000000000"  # distance 60, gross 100,000,000, net 1
        )
        self.assertEqual(f.write(sheet, 1, bytes(60), 0, 1), (0, 60, written, sheet))
        self.assertEqual(f.read(written), (0, 0, 1, 0, 1, sheet))

    def test_greatest_gross(self) -> None:
        """200 U of 100,000,000: 20,000,000,000 = 4a817c800; the distance is 3228 = c9c, the count c8."""
        sheet = Sheet(True, 150_000, tuple(Space(id, 0, U, PLAIN, 100_000_000, 750) for id in range(1, 201)))
        trailer = bytes.fromhex("9c0c0000 c800 00 00 f0490200 00c817a804000000 00c817a804000000")
        number, written, buffer, _ = f.write(sheet, 0, bytes(3228), 0, 1)
        self.assertEqual((number, written, buffer[-28:]), (0, 3228, trailer))
        self.assertEqual(buffer[-44:-28], bytes.fromhex("c800 0000 01 00 0000 00e1f505 ee020000"))
        self.assertEqual(f.read(buffer), (0, 0, 0, 0, 1, sheet))

    def test_distance(self) -> None:
        """'16 x count + 28', and '20 x count + 32' in form 2."""
        self.assertEqual([f.distance(1, count) for count in (0, 1, 5, 200)], [28, 44, 108, 3228])
        self.assertEqual([f.distance(2, count) for count in (0, 1, 5, 200)], [32, 52, 132, 4032])


class Writing(OfCalls):
    """Where a write writes, and when it is refused."""

    SIZE = 76  # of the thousand's three spaces

    def setUp(self) -> None:
        super().setUp()
        self.accepted(*a_thousand())
        self.sheet = self.session.sheet
        self.bytes = a_sheet(
            1200, 1000, 1000, a_record(1, 0, U, 0, 360, 600), a_record(2, 0, U, 0, 360, 600),
            a_record(3, 0, S, 0, 280, 300),
        )

    def test_bytes(self) -> None:
        self.assertEqual(f.write(self.sheet, 0, bytes(self.SIZE), 0, 1), (0, self.SIZE, self.bytes, self.sheet))

    def test_no_byte_before_or_after_is_touched(self) -> None:
        buffer = bytes(range(100, 200))
        for at in (0, 1, 23, 24):
            expected = buffer[:at] + self.bytes + buffer[at + 76:]
            self.assertEqual(f.write(self.sheet, 0, buffer, at, 1), (0, 76, expected, self.sheet))
            self.assertEqual(len(expected), 100)

    def test_room(self) -> None:
        buffer = bytes(range(100, 200))
        for at in (25, 26, 99, 100, 101, 176, 2**16, 2**32, 2**64 - 76, 2**64 - 1, 2**70):
            self.assertEqual(f.write(self.sheet, 0, buffer, at, 1), (15, 0, buffer, self.sheet), msg=at)
        for size, at in ((75, 0), (0, 0), (76, 1), (28, 0), (0, 1)):
            self.assertEqual(f.write(self.sheet, 0, bytes(size), at, 1), (15, 0, bytes(size), self.sheet))

    def test_mark_that_is_not_needed(self) -> None:
        expected = self.bytes[:-22] + b"\1" + self.bytes[-21:]
        self.assertEqual(f.write(self.sheet, 1, bytes(76), 0, 1), (0, 76, expected, self.sheet))
        self.assertEqual(f.read(expected)[:3], (0, 0, 1))

    def test_numbers(self) -> None:
        """1, 2, 13, 14 and 15, the lowest first; the buffer stays as it was."""
        short = s.withdraw(self.sheet, 2)[1]
        over = s.resume(1200, (*self.sheet.spaces, Space(4, 1, R, BALLAST, 301, 1)))[1]
        both = s.resume(1200, (Space(1, 0, U, PLAIN, 360, 600), Space(4, 1, R, BALLAST, 301, 1)))[1]
        for number, sheet, justified, room_left in (
            (1, CLOSED, 0, True), (1, CLOSED, 2, True), (1, CLOSED, 0, False), (1, CLOSED, 2, False),
            (2, self.sheet, 2, True), (2, self.sheet, 255, False), (2, short, 2, True), (2, over, 2, False),
            (13, short, 0, True), (13, short, 1, True), (13, short, 0, False), (13, both, 0, True),
            (13, both, 0, False), (14, over, 0, True), (14, over, 0, False), (0, over, 1, True), (15, over, 1, False),
            (0, self.sheet, 0, True), (15, self.sheet, 0, False),
        ):
            buffer = b"\xa5" * (100 if room_left else 27)
            answer = f.write(sheet, justified, buffer, 0, 1)
            self.assertEqual((answer[0], answer[3]), (number, sheet))
            if number:
                self.assertEqual(answer[1:3], (0, buffer))

    def test_numbers_that_apply_together(self) -> None:
        both = s.resume(1200, (Space(1, 0, U, PLAIN, 360, 600), Space(4, 1, R, BALLAST, 301, 1)))[1]
        self.assertEqual(f.numbers_of_write(both, 0, b"", 0, 1), {13, 14, 15})
        self.assertEqual(f.numbers_of_write(both, 2, b"", 0, 1), {2, 13, 15})
        self.assertEqual(f.numbers_of_write(both, 0, b"", 0, 3), {2, 13, 14})
        self.assertEqual(f.numbers_of_write(self.sheet, 0, bytes(76), 0, 1), set())
        self.assertEqual(f.numbers_of_write(self.sheet, 0, bytes(76), 0, 2), {15})
        self.assertEqual(f.numbers_of_write(CLOSED, 0, bytes(28), 0, 1), {1})

    def test_a_write_changes_nothing(self) -> None:
        self.accepted(hatchway(4, 20), "undo")
        before = self.session.sheet
        for line in ("write 0 0 76", "write 0 0 75", "write 2 0 76", "writef 1 3 90 7"):
            self.given(line)
            self.assertEqual(self.session.sheet, before)
        self.accepted("redo")

    def test_spaces_in_order_of_entry(self) -> None:
        self.accepted(hatchway(9, 1), hatchway(8, 1), withdraw(9), "undo", withdraw(3))
        _, _, buffer, _ = f.write(self.session.sheet, 0, bytes(92), 0, 1)
        self.assertEqual([buffer[16 * place] for place in range(4)], [1, 2, 9, 8])


class WrongFiles(OfFiles):
    """16: the size of the file, and the trailer."""

    def test_shorter_than_28_bytes(self) -> None:
        for size in range(28):
            self.refused(EXAMPLE[108 - size:], 16)
            self.refused(bytes(size), 16)
            self.refused(b"\xff" * size, 16)

    def test_shorter_than_its_distance(self) -> None:
        for missing in range(1, 81):
            self.refused(EXAMPLE[missing:], 16)

    def test_distance(self) -> None:
        for file in (EXAMPLE, bytes(500) + EXAMPLE):
            for distance in (0x6b, 0x6d, 0x5c, 0x7c, 0, 28, 0xff):
                self.refused(with_bytes(file, (DISTANCE - 108 + len(file), distance)), 16)
            for byte in (1, 2, 3):
                self.refused(with_bytes(file, (DISTANCE - 108 + byte + len(file), 1)), 16)

    def test_count(self) -> None:
        for count in (0, 4, 6, 200, 201, 255):
            self.refused(with_bytes(EXAMPLE, (COUNT, count)), 16)
        self.refused(with_bytes(EXAMPLE, (COUNT + 1, 1)), 16)

    def test_count_over_200(self) -> None:
        """Whether those records are there or not; 200 are not over."""
        records = [a_record(1, 0, U, 0, 5, 100), *(a_record(id, 0, H, 0, 0, 1) for id in range(2, 202))]
        self.refused(a_sheet(100, 5, 5, *records), 16)
        self.refused(bytes(100) + a_sheet(100, 5, 5, *records), 16)
        self.refused(a_sheet(100, 5, 5, *records[:3], count=201, distance=3244), 16)
        self.refused(a_sheet(100, 5, 5, *records[:3], count=65_535, distance=1_048_588), 16)
        self.assertEqual(f.read(a_sheet(100, 5, 5, *records[:200]))[:2], (0, 0))

    def test_zero_byte(self) -> None:
        """2 tells form 2, in which the distance would be another."""
        for byte in (1, 2, 128, 255):
            self.refused(with_bytes(EXAMPLE, (ZERO, byte)), 16)

    def test_mark(self) -> None:
        for byte in (2, 3, 128, 255):
            self.refused(with_bytes(EXAMPLE, (MARK, byte)), 16)
        self.accepted(with_bytes(EXAMPLE, (MARK, 1)), 4800, *SPACES, justified=1)

    def test_tonnage_length(self) -> None:
        for length in (0, 1, 99, 150_001, 2**32 - 1):
            self.refused(a_sheet(length, 5, 5, a_record(1, 0, U, 0, 5, length)), 16)
            self.refused(a_sheet(length, 0, 0), 16)
        for length in (100, 150_000):
            self.accepted(a_sheet(length, 5, 5, a_record(1, 0, U, 0, 5, length)), length, Space(1, 0, U, 0, 5, length))

    def test_records_that_another_trailer_leaves_out(self) -> None:
        """Count 4 and distance 92 leave out the U of which 3 is a room: its record is the second then."""
        self.refused(with_bytes(EXAMPLE, (COUNT, 4), (DISTANCE, 92)), 17, 2)


class WrongRecords(OfFiles):
    """17: each cause, with the position of the first such record. Record n has its bytes from 16 n - 16 on."""

    def one(self, position: int, place: int, byte: int) -> None:
        """The example with another byte at a place of the record must be refused at the position."""
        self.refused(with_bytes(EXAMPLE, (16 * position - 16 + place, byte)), 17, position)

    def test_zero_field(self) -> None:
        for position in range(1, 6):
            for byte in (1, 128, 255):
                self.one(position, 6, byte)
                self.one(position, 7, byte)

    def test_kind(self) -> None:
        for position in range(1, 6):
            for kind in (0, 6, 7, 128, 255):
                self.one(position, 4, kind)

    def test_standing(self) -> None:
        """Over 4 outside its range; a U or H but plain, an S but plain or exempt can't be."""
        for position in range(1, 6):
            for standing in (5, 128, 255):
                self.one(position, 5, standing)
        for position, standings in ((1, (1, 2, 3, 4)), (2, (2, 3, 4)), (5, (1, 2, 3, 4))):
            for standing in standings:
                self.one(position, 5, standing)

    def test_id(self) -> None:
        """0, 10,000 = 2710 and 65,535; and one that stands already."""
        for position in range(1, 6):
            self.one(position, 0, 0)
            for high, low in ((0x27, 0x10), (0xff, 0xff)):
                at = 16 * position - 16
                self.refused(with_bytes(EXAMPLE, (at, low), (at + 1, high)), 17, position)
        for position in range(2, 6):
            self.one(position, 0, 1)
        at_end = with_bytes(EXAMPLE, (64, 0x0f), (65, 0x27))
        self.accepted(at_end, 4800, *SPACES[:4], replace(SPACES[4], id=9_999))

    def test_enclosing_id_outside_a_room(self) -> None:
        for position in (1, 2, 5):
            for byte in (1, 2, 5, 200):
                self.one(position, 2, byte)
                self.one(position, 3, byte)

    def test_enclosing_id_of_a_room(self) -> None:
        """0, its own, one that nobody has, one that stands only later, and a hatchway's."""
        for within in (0, 3, 9, 4, 5):
            self.one(3, 2, within)
        for within in (0, 4, 9, 5, 3):  # 3 is not plain, nor is 4
            self.one(4, 2, within)
        self.one(3, 3, 1)
        u, h = a_record(1, 0, U, 0, 5, 100), a_record(2, 0, H, 0, 5, 1)
        self.refused(a_sheet(100, 10, 10, u, h, a_record(3, 2, R, 0, 0, 1)), 17, 3)
        self.refused(a_sheet(100, 5, 5, a_record(3, 1, R, 0, 0, 1), u), 17, 1)
        self.accepted(with_bytes(EXAMPLE, (34, 2)), 4800, *SPACES[:2], replace(SPACES[2], within=2), *SPACES[3:])

    def test_tonnage(self) -> None:
        """At most 100,000,000, of every kind; it is not judged against the length."""
        for kind in (U, B, S, H):
            for tonnage, number in ((100_000_001, 17), (2**31, 17), (2**32 - 1, 17), (100_000_000, 13)):
                file = a_sheet(4800, tonnage, tonnage, a_record(1, 0, kind, 0, tonnage, 100))
                self.refused(file, number, 1 if number == 17 else 0)
        full = [a_record(1, 0, U, 0, 100_000_000, 100), a_record(2, 1, R, 0, 100_000_000, 1)]
        self.assertEqual(f.read(a_sheet(100, 100_000_000, 100_000_000, *full))[0], 0)
        self.refused(a_sheet(100, 0, 0, full[0], a_record(2, 1, R, 0, 100_000_001, 1)), 17, 2)

    def test_length(self) -> None:
        """From 100 for U and B, from 1 for the others, up to 150,000; 13 is what is left to say of those let in."""
        for kind in (U, B, S, H):
            for length in (0, 1, 99, 100, 150_000, 150_001, 2**32 - 1):
                let_in = (1 if kind in (S, H) else 100) <= length <= 150_000
                file = a_sheet(149_999 if length < 200 else 150_000, 0, 0, a_record(1, 0, kind, 0, 0, length))
                expected = (0 if kind == U and length == 150_000 else 13) if let_in else 17
                self.assertEqual(f.read(file)[:2], (expected, 0 if let_in else 1))
        u = a_record(1, 0, U, 0, 0, 100)
        for length, number in ((0, 17), (1, 0), (150_000, 0), (150_001, 17), (2**32 - 1, 17)):
            file = a_sheet(100, 0, 0, u, a_record(2, 1, R, 0, 0, length))
            self.assertEqual(f.read(file)[:2], (number, 2 if number else 0))

    def test_level(self) -> None:
        rooms = [a_record(id, id - 1, R, 0, 5, 1) for id in range(2, 10)]
        u = a_record(1, 0, U, 0, 5, 100)
        self.assertEqual(f.read(a_sheet(100, 5, 5, u, *rooms[:7]))[:2], (0, 0))
        self.refused(a_sheet(100, 5, 5, u, *rooms), 17, 9)

    def test_not_plain_twice(self) -> None:
        """An exempt 2 has the deducted 4 in it."""
        self.refused(with_bytes(EXAMPLE, (21, 1)), 17, 4)
        u = a_record(1, 0, U, 0, 5, 100)
        for upper in (1, 2, 3, 4):
            for lower in (1, 2, 3, 4):
                rooms = [a_record(2, 1, R, upper, 0, 1), a_record(3, 2, R, 0, 0, 1), a_record(4, 3, R, lower, 0, 1)]
                self.refused(a_sheet(100, 5, 5, u, *rooms), 17, 4)

    def test_rooms_too_large(self) -> None:
        """11521 in 1 and 1280 in 2; two rooms together."""
        self.refused(with_bytes(EXAMPLE, (40, 0x02), (41, 0x2d)), 17, 3)
        self.refused(with_bytes(EXAMPLE, (56, 0x01), (57, 0x05)), 17, 4)
        u, first = a_record(1, 0, U, 0, 5, 100), a_record(2, 1, R, 0, 3, 1)
        self.assertEqual(f.read(a_sheet(100, 5, 5, u, first, a_record(3, 1, R, 0, 2, 1)))[:2], (0, 0))
        self.refused(a_sheet(100, 5, 5, u, first, a_record(3, 1, R, 0, 3, 1)), 17, 3)

    def test_under_deck_too_long(self) -> None:
        """One hundredth more than the tonnage length is 17, one less 13."""
        self.refused(with_bytes(EXAMPLE, (LENGTH, 0xbf)), 17, 1)
        self.refused(with_bytes(EXAMPLE, (LENGTH, 0xc1)), 13)
        u = a_record(1, 0, U, 0, 5, 600)
        self.refused(a_sheet(1200, 10, 10, u, a_record(2, 0, U, 0, 5, 601)), 17, 2)
        self.refused(a_sheet(1200, 10, 10, u, a_record(2, 0, U, 0, 5, 599)), 13)
        self.assertEqual(f.read(a_sheet(1200, 10, 10, u, a_record(2, 0, U, 0, 5, 600)))[0], 0)

    def test_the_first_of_two(self) -> None:
        self.refused(with_bytes(EXAMPLE, (22, 1), (68, 9)), 17, 2)
        self.refused(with_bytes(EXAMPLE, (34, 9), (22, 1)), 17, 2)
        self.refused(with_bytes(EXAMPLE, (34, 9), (70, 1)), 17, 3)

    def test_at_the_200th(self) -> None:
        records = [a_record(1, 0, U, 0, 5, 100), *(a_record(id, 1, R, 0, 0, 1) for id in range(2, 200))]
        for last in (
            a_record(200, 1, R, 0, 0, 1, zero=256), a_record(200, 1, 6, 0, 0, 1), a_record(7, 1, R, 0, 0, 1),
            a_record(200, 200, R, 0, 0, 1), a_record(200, 1, R, 0, 6, 1), a_record(200, 0, R, 0, 0, 1),
        ):
            self.refused(a_sheet(100, 5, 5, *records, last), 17, 200)
        self.assertEqual(f.read(a_sheet(100, 5, 5, *records, a_record(200, 1, R, 0, 0, 1)))[:2], (0, 0))


class OtherRefusals(OfFiles):
    """13, 14 and 18, and the order 16, 17, 13, 14, 18; 21 between the last two is in `MachineryInFiles`."""

    U_700, U_300 = a_record(1, 0, U, 0, 700, 600), a_record(2, 0, U, 0, 300, 600)

    def ballast(self, tonnage: int, *more: bytes, gross: int, justified: int = 0, **wrong: int) -> bytes:
        """T of 1000 with a room of ballast; nothing is deducted."""
        rooms = (a_record(3, 1, R, BALLAST, tonnage, 1), *more)
        return a_sheet(1200, gross, gross, self.U_700, self.U_300, *rooms, justified=justified, **wrong)

    def test_13(self) -> None:
        self.refused(with_bytes(EXAMPLE, (LENGTH, 0xc1)), 13)
        self.refused(with_bytes(EXAMPLE, (LENGTH, 0xc1), (MARK, 1)), 13)
        self.refused(a_sheet(4800, 115, 115, a_record(1, 0, H, 0, 115, 4800)), 13)

    def test_no_records(self) -> None:
        """28 bytes are always 13, whatever else they say."""
        for gross, net, justified in ((0, 0, 0), (0, 0, 1), (5, 4, 0), (2**64 - 1, 2**64 - 1, 1)):
            self.refused(a_sheet(100, gross, net, justified=justified), 13)

    def test_14(self) -> None:
        """30% of 1000 is 300; with hatchways of 15 or 18, less an allowance of 5, of 1010 or 1013 it is 303."""
        self.assertEqual(f.read(self.ballast(300, gross=700))[:3], (0, 0, 0))
        self.refused(self.ballast(301, gross=699), 14)
        self.assertEqual(f.read(self.ballast(301, gross=699, justified=1))[:3], (0, 0, 1))
        for tonnage in (15, 18):  # the allowance of 697 and of 696 is 3
            box = a_record(4, 0, H, 0, tonnage, 1)
            self.assertEqual(f.read(self.ballast(303, box, gross=697 + tonnage - 3))[:3], (0, 0, 0))
            self.refused(self.ballast(304, box, gross=696 + tonnage - 3), 14)

    def test_18(self) -> None:
        for place, bytes_of_it in ((GROSS, (0x96, 0x98)), (NET, (0x56, 0x58))):
            for byte in bytes_of_it:
                self.refused(with_bytes(EXAMPLE, (place, byte)), 18)
            for by in range(2, 8):
                for byte in (1, 128, 255):
                    self.refused(with_bytes(EXAMPLE, (place + by, byte)), 18)
        self.refused(with_bytes(EXAMPLE, (GROSS, 0x98), (NET, 0x58)), 18)

    def test_18_by_a_record(self) -> None:
        """401 of ballast: G is 12400, the allowance 62, gross 12438 and net 12118."""
        damaged = with_bytes(EXAMPLE, (40, 0x91))
        self.refused(damaged, 18)
        self.assertEqual(f.read(with_bytes(damaged, (GROSS, 0x96), (NET, 0x56)))[0], 0)

    def test_order(self) -> None:
        """Each fault taken away shows the next: 16, 17, 13, 14, 18."""
        wrong_room = a_record(4, 1, R, 5, 0, 1)
        sound_room = a_record(4, 1, R, 0, 0, 1)
        for room_4, zero, length, justified, gross, expected in (
            (wrong_room, 1, 1201, 0, 600, (16, 0)), (wrong_room, 0, 1201, 0, 600, (17, 4)),
            (sound_room, 0, 1201, 0, 600, (13, 0)), (sound_room, 0, 1200, 0, 600, (14, 0)),
            (sound_room, 0, 1200, 1, 600, (18, 0)), (sound_room, 0, 1200, 1, 699, (0, 0)),
            (sound_room, 1, 1200, 1, 699, (16, 0)), (wrong_room, 0, 1200, 1, 699, (17, 4)),
            (sound_room, 0, 1201, 1, 699, (13, 0)), (sound_room, 0, 1200, 0, 699, (14, 0)),
        ):
            records = (self.U_700, self.U_300, a_record(3, 1, R, BALLAST, 301, 1), room_4)
            file = a_sheet(length, gross, gross, *records, justified=justified, zero=zero)
            self.assertEqual(f.read(file)[:2], expected)


class DaysFiles(OfFiles):
    """'Sheets follow one another; the last ends at the end of the file.'"""

    SMALL = a_sheet(100, 5, 5, a_record(7, 0, U, 0, 5, 100), justified=1)  # 44 bytes

    def test_only_the_last_is_judged(self) -> None:
        for ahead in (b"\0", b"\xff" * 27, bytes(28), EXAMPLE[:-1], EXAMPLE, EXAMPLE[-28:], self.SMALL * 3):
            self.accepted(ahead + EXAMPLE, 4800, *SPACES, start=len(ahead))
        self.refused(EXAMPLE + b"\0", 16)
        self.refused(EXAMPLE + with_bytes(EXAMPLE, (ZERO, 1)), 16)

    def test_more_than_a_program_takes(self) -> None:
        self.accepted(bytes(100_000) + EXAMPLE, 4800, *SPACES, start=100_000)

    def test_sheets(self) -> None:
        day = EXAMPLE + self.SMALL + EXAMPLE + self.SMALL  # 108, 152, 260, 304 bytes so far
        found = list(f.sheets(day))
        self.assertEqual([start for _, _, _, start, _, _ in found], [260, 152, 108, 0])
        self.assertEqual([justified for _, _, justified, *_ in found], [1, 0, 1, 0])
        self.assertEqual([len(sheet.spaces) for *_, sheet in found], [1, 5, 1, 5])
        self.assertEqual({(number, form) for number, _, _, _, form, _ in found}, {(0, 1)})

    def test_sheets_behind_other_bytes(self) -> None:
        for ahead in (b"\0", bytes(28), with_bytes(EXAMPLE, (6, 1))):
            found = list(f.sheets(ahead + self.SMALL + EXAMPLE))
            self.assertEqual([answer[3] for answer in found[:2]], [len(ahead) + 44, len(ahead)])
            self.assertEqual(found[2:], [f.read(ahead)])
            self.assertNotEqual(found[2][0], 0)

    def test_no_sheets(self) -> None:
        self.assertEqual(list(f.sheets(b"")), [])
        self.assertEqual(list(f.sheets(b"\0")), [refusal(16)])


def in_form_2(length: int, gross: int, net: int, *records: bytes, vessel: int = 0, **wrong: int) -> bytes:
    """Records of 20 bytes, a vessel number and their trailer, but for what is said of it."""
    count = len(records)
    fields = {"distance": size_of(2, count), "count": count, "justified": 0, "telling": 2} | wrong
    trailer = b"".join(map(little, (*fields.values(), length, gross, net), (4, 2, 1, 1, 4, 8, 8)))
    return b"".join(records) + little(vessel, 4) + trailer


def with_deck(record: bytes, deck: int = 0, second_zero: int = 0) -> bytes:
    """A record of form 2: 'the old 16 and then deck 2, zero 2'."""
    return record + little(deck, 2) + little(second_zero, 2)


class FormTwo(OfFiles):
    """The paper's whole sheet in form 2, moved up and with numbers of its own."""

    NUMBERED_SHEET = (
        "open 4800 1042", divided(1, U, 4800, 4800, 1200, 2000, deck=1), divided(2, S, 4800, 1600, 800, 1000, deck=99),
        enter(3, 1, R, BALLAST, 1000, [400], [1000]), enter(4, 2, R, DEDUCTED, 800, [800], [500], deck=10),
        enter(5, 0, H, PLAIN, 500, [500], [400], deck=7),
    )

    def test_bytes(self) -> None:
        """As the tests' own helpers have them and as the reference does, field by field."""
        records = [EXAMPLE[16 * place:16 * place + 16] for place in range(5)]
        trailer = f.Trailer(132, 5, 0, 2, 4800, 12_439, 12_119)
        for file, decks, vessel in ((MOVED_UP, (0,) * 5, 0), (NUMBERED, DECKS, VESSEL)):
            self.assertEqual(len(file), 132)
            self.assertEqual(file, in_form_2(4800, 12_439, 12_119, *map(with_deck, records, decks), vessel=vessel))
            fields = [
                f.Record(one.id, one.within, one.kind, one.standing, 0, one.tonnage, one.length, deck, 0)
                for one, deck in zip(SPACES, decks)
            ]
            self.assertEqual(f.as_bytes(2, fields, f.Between(vessel), trailer), file)

    def test_read(self) -> None:
        self.accepted(MOVED_UP, 4800, *SPACES, form=2)
        self.accepted(NUMBERED, 4800, *NUMBERED_SPACES, form=2, vessel=VESSEL)
        self.accepted(with_bytes(NUMBERED, (110, 1)), 4800, *NUMBERED_SPACES, form=2, vessel=VESSEL, justified=1)
        self.accepted(b"ahead" + NUMBERED, 4800, *NUMBERED_SPACES, form=2, vessel=VESSEL, start=5)

    def test_written_by_calls(self) -> None:
        session = survey.Session()
        self.assertEqual({session.answer(line)[0] for line in self.NUMBERED_SHEET}, {"0"})
        self.assertEqual(f.write(session.sheet, 0, bytes(132), 0, 2), (0, 132, NUMBERED, session.sheet))
        self.assertEqual(session.answer("write 0 0 132 2"), f"0 132 {NUMBERED.hex()}")
        for line in whole_sheet():
            session.answer(line)
        self.assertEqual(session.answer("writef 0 1 134 255 2"), f"0 132 ff{MOVED_UP.hex()}ff")

    def test_moved_up_and_back(self) -> None:
        self.assertEqual(f.move(EXAMPLE, 2, bytes(132), 0), (0, 132, 0, MOVED_UP))
        self.assertEqual(f.move(MOVED_UP, 1, bytes(108), 0), (0, 108, 0, EXAMPLE))

    def test_moved_in_its_own_form(self) -> None:
        """'A move in the form it has is a copy of the last sheet's bytes.'"""
        self.assertEqual(f.move(EXAMPLE, 1, bytes(108), 0), (0, 108, 0, EXAMPLE))
        self.assertEqual(f.move(NUMBERED, 2, bytes(132), 0), (0, 132, 0, NUMBERED))
        self.assertEqual(f.move(EXAMPLE + NUMBERED, 2, bytes(132), 0), (0, 132, 0, NUMBERED))

    def test_generated(self) -> None:
        self.assertEqual(files.of_the_paper(form=2), MOVED_UP)

    def test_listing(self) -> None:
        """`sheetlist` lists either form as before."""
        self.assertEqual(f.listing(MOVED_UP), LISTING)
        self.assertEqual(f.listing(EXAMPLE + NUMBERED), LISTING)
        self.assertEqual(f.listing(with_bytes(NUMBERED, (36, 100))), "REFUSED 17 2\n")
        self.assertEqual(f.listing(NUMBERED[1:]), "REFUSED 16 0\n")

    def test_every_byte(self) -> None:
        """Deck 99, the greatest, and every byte of a vessel number."""
        u = with_deck(a_record(1, 0, U, 0, 5, 100), 99)
        for vessel in (0, 1, 255, 256, 0x0102_0304, 2**31, 2**32 - 1):
            file = in_form_2(100, 5, 5, u, vessel=vessel)
            sheet = Sheet(True, 100, (Space(1, 0, U, 0, 5, 100, deck=99),), vessel=vessel)
            self.assertEqual(f.write(sheet, 0, bytes(52), 0, 2), (0, 52, file, sheet))
            self.assertEqual(f.read(file), (0, 0, 0, 0, 2, sheet))

    def test_200_spaces(self) -> None:
        """4032 bytes = fc0."""
        spaces = tuple(Space(id, 0, U, PLAIN, 5, 750, deck=id % 100) for id in range(1, 201))
        sheet = Sheet(True, 150_000, spaces, vessel=7)
        number, written, buffer, _ = f.write(sheet, 0, bytes(4033), 1, 2)
        self.assertEqual((number, written), (0, 4032))
        last = bytes.fromhex("c800 0000 01 00 0000 05000000 ee020000 0000 0000")
        self.assertEqual(buffer[-52:-24], last + bytes.fromhex("07000000 c00f0000"))
        self.assertEqual(f.read(buffer), (0, 0, 0, 1, 2, sheet))


class TellingTheForm(OfFiles):
    """'Readers take either form': 0 in the trailer's byte is form 1, 2 is form 2, any other 16."""

    def test_telling_byte(self) -> None:
        """Of the trailer of form 2, which stands 24 bytes later; each form has its own distance."""
        for byte in (0, 1, 3, 128, 255):
            self.refused(with_bytes(NUMBERED, (ZERO + 24, byte)), 16)
            self.refused(EXAMPLE + with_bytes(NUMBERED, (ZERO + 24, byte)), 16)
        for byte in (1, 2, 3, 128, 255):
            self.refused(MOVED_UP + with_bytes(EXAMPLE, (ZERO, byte)), 16)

    def test_distance_of_the_other_form(self) -> None:
        for ahead in (b"", bytes(100)):
            self.refused(ahead + with_bytes(EXAMPLE, (DISTANCE, 132)), 16)
            self.refused(ahead + with_bytes(NUMBERED, (DISTANCE + 24, 108)), 16)
        for distance in (0, 28, 32, 112, 128, 131, 133, 136, 152):
            self.refused(bytes(100) + with_bytes(NUMBERED, (DISTANCE + 24, distance)), 16)

    def test_form_and_distance_of_the_other(self) -> None:
        """Then the bytes are cut as the other form's: with 24 zeros ahead the first record is one of 20 zeros."""
        self.refused(bytes(24) + with_bytes(EXAMPLE, (ZERO, 2), (DISTANCE, 132)), 17, 1)
        self.refused(with_bytes(EXAMPLE, (ZERO, 2), (DISTANCE, 132)), 16)

    def test_shorter_than_28_bytes_or_than_its_distance(self) -> None:
        for missing in range(1, 133):
            self.refused(NUMBERED[missing:], 16)
        self.refused(NUMBERED[:100] + NUMBERED[104:], 16)  # without the vessel number

    def test_counts(self) -> None:
        """Without a record 32 bytes are 13; 201 are 16, whether they are there or not."""
        for vessel in (0, 1, 2**32 - 1):
            self.refused(in_form_2(100, 0, 0, vessel=vessel), 13)
            self.refused(in_form_2(100, 5, 4, vessel=vessel, justified=1), 13)
            self.refused(in_form_2(100, 0, 0, vessel=vessel)[1:], 16)
        self.refused(in_form_2(100, 0, 0, distance=28)[4:], 16)
        self.refused(in_form_2(100, 0, 0)[4:], 16)
        records = [a_record(1, 0, U, 0, 5, 100), *(a_record(id, 0, H, 0, 0, 1) for id in range(2, 202))]
        self.refused(in_form_2(100, 5, 5, *map(with_deck, records)), 16)
        self.refused(in_form_2(100, 5, 5, *map(with_deck, records[:3]), count=201, distance=4052), 16)
        self.assertEqual(f.read(in_form_2(100, 5, 5, *map(with_deck, records[:200])))[:5], (0, 0, 0, 0, 2))

    def test_other_fields_of_the_trailer(self) -> None:
        for place, byte, number in (
            (COUNT, 4, 16), (COUNT, 6, 16), (COUNT + 1, 1, 16), (MARK, 2, 16), (MARK, 255, 16), (LENGTH + 3, 1, 16),
            (LENGTH, 0xc1, 13), (GROSS, 0x98, 18), (GROSS + 7, 1, 18), (NET, 0, 18), (NET + 7, 128, 18),
        ):
            self.refused(with_bytes(NUMBERED, (place + 24, byte)), number)
        self.refused(with_bytes(NUMBERED, (LENGTH + 24, 0xbf)), 17, 1)


class DecksInFiles(OfFiles):
    """17 in form 2, in which record n has its bytes from 20 n - 20 on."""

    def test_deck(self) -> None:
        """'17 for such a deck in a file': above 99, in either byte."""
        for position in range(1, 6):
            at = 20 * position - 20
            for low, high in ((100, 0), (101, 0), (128, 0), (255, 0), (0, 1), (99, 1), (0, 128), (255, 255)):
                self.refused(with_bytes(NUMBERED, (at + 16, low), (at + 17, high)), 17, position)
            for deck in (0, 1, 98, 99):
                spaces = [replace(one, deck=deck) if one.id == position else one for one in NUMBERED_SPACES]
                self.accepted(with_bytes(NUMBERED, (at + 16, deck)), 4800, *spaces, form=2, vessel=VESSEL)

    def test_second_zero_field(self) -> None:
        for position in range(1, 6):
            for place in (18, 19):
                for byte in (1, 128, 255):
                    self.refused(with_bytes(NUMBERED, (20 * position - 20 + place, byte)), 17, position)

    def test_the_old_16(self) -> None:
        """Id, enclosing id, kind, standing, zero field, tonnage and length are where they were."""
        for position in range(1, 6):
            for place, byte in ((0, 0), (1, 0x30), (3, 7), (4, 0), (4, 6), (5, 5), (6, 1), (7, 1), (11, 7), (15, 1)):
                self.refused(with_bytes(NUMBERED, (20 * position - 20 + place, byte)), 17, position)

    def test_any_vessel_number(self) -> None:
        for vessel in (0, 1, 99, 100, 2**16, 2**31, 2**32 - 1):
            file = NUMBERED[:100] + little(vessel, 4) + NUMBERED[104:]
            self.accepted(file, 4800, *NUMBERED_SPACES, form=2, vessel=vessel)

    def test_the_first_of_two(self) -> None:
        """Wrong in itself, or one that entry would refuse: 3 within 9, and the id 2 once more."""
        self.refused(with_bytes(NUMBERED, (16, 100), (36, 100)), 17, 1)
        self.refused(with_bytes(NUMBERED, (36, 100), (42, 9)), 17, 2)
        self.refused(with_bytes(NUMBERED, (42, 9), (76, 100)), 17, 3)
        self.refused(with_bytes(NUMBERED, (60, 2), (78, 1)), 17, 4)

    def test_order(self) -> None:
        """Each fault taken away shows the next: 16, 17, 13, 14, 18."""
        u = with_deck(a_record(1, 0, U, 0, 1000, 1200), 3)
        for deck, telling, length, justified, gross, expected in (
            (100, 1, 1201, 0, 600, (16, 0)), (100, 2, 1201, 0, 600, (17, 2)), (99, 2, 1201, 0, 600, (13, 0)),
            (99, 2, 1200, 0, 600, (14, 0)), (99, 2, 1200, 1, 600, (18, 0)), (99, 2, 1200, 1, 699, (0, 0)),
            (100, 2, 1200, 1, 699, (17, 2)),
        ):
            room_2 = with_deck(a_record(2, 1, R, BALLAST, 301, 1), deck)
            file = in_form_2(length, gross, gross, u, room_2, vessel=9, justified=justified, telling=telling)
            self.assertEqual(f.read(file)[:2], expected)


class WritesInForms(OfCalls):
    """'A write names the form it wants': 1, 2, 13, 14, 20, 15 in that order; 21 behind them is in `MachineryInFiles`."""

    def setUp(self) -> None:
        super().setUp()
        self.buffer = bytes(range(100, 220))

    def written(self, sheet: Sheet, form: int, justified: int = 0, at: int = 0, size: int = 120) -> int:
        """The number of a write, which must leave the sheet, and where it is refused the buffer, as they came."""
        number, count, after, same = f.write(sheet, justified, self.buffer[:size], at, form)
        self.assertEqual(same, sheet)
        if number:
            self.assertEqual((count, after), (0, self.buffer[:size]))
        else:
            self.assertEqual((after[:at], after[at + count:]), (self.buffer[:at], self.buffer[at + count:size]))
            self.assertEqual(after[at:at + count], f.bytes_of(form, sheet, justified))
        return number

    def of_lines(self, *lines: str) -> Sheet:
        """The sheet that accepted lines make."""
        self.accepted(*lines)
        return self.session.sheet

    def test_a_form_that_is_neither(self) -> None:
        """2, whatever else applies but 1."""
        in_order, short = self.of_lines(*a_thousand()), self.of_lines("open 1200 7")
        for form in (0, 3, 4, 255):
            self.assertEqual({self.written(sheet, form) for sheet in (in_order, short)}, {2})
            self.assertEqual(self.written(in_order, form, justified=2, size=0), 2)
            self.assertEqual(self.written(CLOSED, form), 1)

    def test_rooms(self) -> None:
        """Three spaces have 76 bytes in form 1 and 92 in form 2."""
        sheet = self.of_lines(*a_thousand())
        for form, size in ((1, 76), (2, 92)):
            for at in (0, 1, 28):
                self.assertEqual(self.written(sheet, form, at=at, size=at + size), 0)
                self.assertEqual(self.written(sheet, form, at=at, size=at + size - 1), 15)
            for at in (120, 121, 2**32, 2**64 - size, 2**64 - 1):
                self.assertEqual(self.written(sheet, form, at=at), 15)

    def test_numbers_that_form_1_would_lose(self) -> None:
        """A deck of any space, or the vessel number; form 2 loses none."""
        first, last = divided(1, U, 1200, 1200, 1200, 500), hatchway(2, 5)
        for lines, number in (
            (("open 1200", first, last), 0), (("open 1200 0", f"{first} 0", f"{last} 0"), 0),
            (("open 1200 1", first, last), 20), (("open 1200 4294967295", first, last), 20),
            (("open 1200", f"{first} 1", last), 20), (("open 1200", first, f"{last} 99"), 20),
            (("open 1200 1", f"{first} 1", f"{last} 1"), 20),
        ):
            sheet = self.of_lines(*lines)
            self.assertEqual((self.written(sheet, 1), self.written(sheet, 2)), (number, 0))
            self.assertEqual(self.written(sheet, 1, size=59), number or 15)  # 20 stands before 15
            self.assertEqual(self.written(sheet, 2, size=71), 15)

    def test_only_what_stands_is_lost(self) -> None:
        self.accepted(*a_thousand(), hatchway(4, 20, 5))
        for line, number in ((withdraw(4), 0), ("undo", 20), ("redo", 0), ("undo", 20), ("undo", 0), ("redo", 20)):
            self.accepted(line)
            self.assertEqual(self.written(self.session.sheet, 1), number)
        self.accepted(withdraw(4), hatchway(4, 20))
        self.assertEqual(self.written(self.session.sheet, 1), 0)

    def test_a_sheet_of_form_2_without_numbers(self) -> None:
        """'A form 2 sheet whose numbers are all 0 may go to form 1.'"""
        self.asks(f"read {MOVED_UP.hex()}", "0 0 0 0 2")
        self.asks("write 0 0 108 1", f"0 108 {EXAMPLE.hex()}")
        self.asks(f"read {NUMBERED.hex()}", "0 0 0 0 2")
        self.asks("write 0 0 3 1", "20 0 000000")
        self.asks("write 0 0 132 2", f"0 132 {NUMBERED.hex()}")

    def test_order(self) -> None:
        """Each number beside all those behind it."""
        lost = ("open 1200 7", divided(1, U, 1200, 600, 1200, 500, deck=3))
        whole = (divided(2, U, 1200, 600, 1200, 500),)
        over = (room(3, 1, 300, BALLAST),)  # of 720
        for lines, justified, form, size, number in (
            (("open 99 7",), 2, 3, 0, 1), ((*lost, *over), 2, 1, 0, 2), ((*lost, *over), 0, 3, 0, 2),
            ((*lost, *over), 0, 1, 0, 13), ((*lost, *whole, *over), 0, 1, 0, 14), ((*lost, *whole), 0, 1, 0, 20),
            ((*lost, *whole, *over), 1, 1, 0, 20), ((*lost, *whole), 0, 2, 71, 15), ((*lost, *whole), 0, 2, 72, 0),
            ((*lost, *over), 0, 2, 0, 13), ((*lost, *whole, *over), 0, 2, 0, 14),
        ):
            self.given(*lines)
            self.assertEqual(self.written(self.session.sheet, form, justified, size=size), number)

    def test_numbers_that_apply_together(self) -> None:
        sheet = self.of_lines("open 1200 7", divided(1, U, 1200, 600, 1200, 500), room(2, 1, 300, BALLAST))
        self.assertEqual(f.numbers_of_write(sheet, 0, b"", 0, 1), {13, 14, 20, 15})
        self.assertEqual(f.numbers_of_write(sheet, 0, b"", 0, 2), {13, 14, 15})
        self.assertEqual(f.numbers_of_write(sheet, 2, bytes(60), 0, 1), {2, 13, 20})
        self.assertEqual(f.numbers_of_write(sheet, 0, b"", 0, 0), {2, 13, 14})


class Moves(OfFiles):
    """'A move reads the last sheet of one buffer and writes it at a named place in another.'"""

    BUFFER = bytes(range(100, 250))

    def test_no_byte_before_or_after_is_touched(self) -> None:
        for file, form, moved in ((EXAMPLE, 2, MOVED_UP), (MOVED_UP, 1, EXAMPLE), (NUMBERED, 2, NUMBERED)):
            for at in (0, 1, 150 - len(moved)):
                expected = self.BUFFER[:at] + moved + self.BUFFER[at + len(moved):]
                self.assertEqual(f.move(file, form, self.BUFFER, at), (0, len(moved), 0, expected))
            for at in (151 - len(moved), 149, 150, 151, 2**32, 2**63, 2**64 - len(moved), 2**64 - 1):
                self.assertEqual(f.move(file, form, self.BUFFER, at), (15, 0, 0, self.BUFFER))

    def test_the_last_sheet_with_its_mark(self) -> None:
        marked, marked_up = with_bytes(EXAMPLE, (MARK, 1)), with_bytes(MOVED_UP, (MARK + 24, 1))
        self.assertEqual(f.move(NUMBERED + marked, 2, bytes(132), 0), (0, 132, 0, marked_up))
        self.assertEqual(f.move(EXAMPLE + marked_up, 1, bytes(108), 0), (0, 108, 0, marked))
        self.assertEqual(f.move(b"any bytes" + EXAMPLE, 2, bytes(132), 0), (0, 132, 0, MOVED_UP))

    def test_readings_numbers(self) -> None:
        """With 17's position; 13, 14 and 18 before 20 and 15."""
        over = in_form_2(1200, 699, 699, *map(with_deck, (
            a_record(1, 0, U, 0, 1000, 1200), a_record(2, 1, R, BALLAST, 301, 1)
        )), vessel=5)
        for file, number, position in (
            (b"", 16, 0), (NUMBERED[1:], 16, 0), (with_bytes(NUMBERED, (111, 1)), 16, 0), (NUMBERED + b"\0", 16, 0),
            (with_bytes(EXAMPLE, (70, 1)), 17, 5), (with_bytes(NUMBERED, (16, 100)), 17, 1),
            (with_bytes(NUMBERED, (98, 1)), 17, 5), (with_bytes(NUMBERED, (42, 9)), 17, 3),
            (with_bytes(NUMBERED, (LENGTH + 24, 0xc1)), 13, 0), (over, 14, 0),
            (with_bytes(NUMBERED, (NET + 24, 0)), 18, 0),
        ):
            for form in (1, 2):
                for buffer in (self.BUFFER, b""):
                    self.assertEqual(f.move(file, form, buffer, 0), (number, 0, position, buffer))
            for form in (0, 3, 255):
                self.assertEqual(f.move(file, form, self.BUFFER, 0), (2, 0, 0, self.BUFFER))

    def test_a_form_that_is_neither(self) -> None:
        for form in (0, 3, 4, 128, 255):
            for file, buffer in ((EXAMPLE, self.BUFFER), (NUMBERED, b""), (b"", b"")):
                self.assertEqual(f.move(file, form, buffer, 0), (2, 0, 0, buffer))

    def test_numbers_that_form_1_would_lose(self) -> None:
        """20 before 15; a deck or a vessel number alone is enough."""
        one_deck, vessel_alone = with_bytes(MOVED_UP, (96, 1)), with_bytes(MOVED_UP, (103, 128))
        for file in (NUMBERED, one_deck, vessel_alone):
            for buffer, at in ((self.BUFFER, 0), (b"", 0), (self.BUFFER, 2**64 - 1), (self.BUFFER[:107], 0)):
                self.assertEqual(f.move(file, 1, buffer, at), (20, 0, 0, buffer))
            self.assertEqual(f.move(file, 2, bytes(132), 0), (0, 132, 0, file))
            self.assertEqual(f.move(file, 2, bytes(131), 0), (15, 0, 0, bytes(131)))

    def test_rooms(self) -> None:
        """15 is by the size in the form asked for."""
        self.assertEqual(f.move(EXAMPLE, 2, bytes(131), 0), (15, 0, 0, bytes(131)))
        self.assertEqual(f.move(MOVED_UP, 1, bytes(107), 0), (15, 0, 0, bytes(107)))
        self.assertEqual(f.move(MOVED_UP, 1, bytes(108), 0)[0], 0)

    def test_over_a_days_file(self) -> None:
        """Each sheet of a day in form 1 moved up, one behind the other, and back: the day's bytes are there again."""
        small = a_sheet(100, 5, 5, a_record(7, 0, U, 0, 5, 100), justified=1)
        day, up, at = EXAMPLE + small, bytes(132 + 52), 0
        for end in (108, 152):
            number, written, _, up = f.move(day[:end], 2, up, at)
            self.assertEqual(number, 0)
            at += written
        self.assertEqual(up, MOVED_UP + in_form_2(100, 5, 5, with_deck(small[:16]), justified=1))
        back = f.move(up[:132], 1, bytes(152), 0)[3]
        self.assertEqual(f.move(up, 1, back, 108), (0, 44, 0, day))


class DaysOfBothForms(OfFiles):
    """A day's file may hold both forms, one after the other."""

    SMALL = in_form_2(100, 5, 5, with_deck(a_record(7, 0, U, 0, 5, 100), 12), vessel=3, justified=1)  # 52 bytes

    def test_sheets(self) -> None:
        day = EXAMPLE + NUMBERED + self.SMALL + EXAMPLE + MOVED_UP  # 108, 240, 292, 400, 532 bytes so far
        found = list(f.sheets(day))
        self.assertEqual([(start, form) for _, _, _, start, form, _ in found], [
            (400, 2), (292, 1), (240, 2), (108, 2), (0, 1)
        ])
        self.assertEqual([sheet.vessel for *_, sheet in found], [0, 0, 3, VESSEL, 0])
        self.assertEqual([sheet.spaces[0].deck for *_, sheet in found], [0, 0, 12, 1, 0])
        self.assertEqual({number for number, *_ in found}, {0})

    def test_read_before(self) -> None:
        day = NUMBERED + EXAMPLE
        self.assertEqual(f.read_before(day, 132), f.read(NUMBERED))
        self.assertEqual(f.read_before(day, 240), (0, 0, 0, 132, 1, Sheet(True, 4800, SPACES)))

    def test_only_the_last_is_judged(self) -> None:
        for ahead in (EXAMPLE[:-1], NUMBERED[:-1], EXAMPLE, NUMBERED, with_bytes(NUMBERED, (16, 100))):
            self.accepted(ahead + EXAMPLE, 4800, *SPACES, start=len(ahead))
            self.accepted(ahead + MOVED_UP, 4800, *SPACES, start=len(ahead), form=2)
        self.refused(EXAMPLE + with_bytes(NUMBERED, (16, 100)), 17, 1)
        self.refused(NUMBERED + with_bytes(EXAMPLE, (ZERO, 2)), 16)


class MachineryInFiles(OfFiles):
    """A U of 1000 with a machinery room and a deducted one, by nets worked out by hand; 21 in each call's order."""

    def sheet(self, form: int, tonnage: int, others: int, net: int, justified: int = 0) -> bytes:
        """The file of those three, the machinery's tonnage first; it is in order where the net is right."""
        rooms = a_record(2, 1, R, 4, tonnage, 10), a_record(3, 1, R, 3, others, 10)
        records = a_record(1, 0, U, 0, 1000, 1200), *rooms
        if form == 1:
            return a_sheet(1200, 1000, net, *records, justified=justified)
        return in_form_2(1200, 1000, net, *map(with_deck, records), justified=justified)

    def spaces(self, tonnage: int, others: int) -> tuple[Space, ...]:
        """The same three as they stand."""
        rooms = Space(2, 1, R, MACHINERY, tonnage, 10), Space(3, 1, R, DEDUCTED, others, 10)
        return Space(1, 0, U, PLAIN, 1000, 1200), *rooms

    def test_both_round_trips(self) -> None:
        """At 13%, a hundredth over, a hundredth under 20%, at 20%, a half, and where nothing is left.

        18 by a hundredth, and where nothing or just the room is deducted for the machinery.
        """
        for tonnage, others, net in (
            (0, 0, 1000), (130, 0, 680), (130, 5, 675), (131, 0, 680), (199, 0, 680), (200, 0, 650), (202, 0, 646),
            (571, 0, 1), (571, 1, 0), (130, 680, 0), (150, 680, 0),
        ):
            for form, size in ((1, 76), (2, 92)):
                file, sheet = self.sheet(form, tonnage, others, net), Sheet(True, 1200, self.spaces(tonnage, others))
                self.accepted(file, 1200, *sheet.spaces, form=form)
                self.assertEqual(f.write(sheet, 0, bytes(size), 0, form), (0, size, file, sheet))
                self.assertEqual(f.move(file, form, bytes(size), 0), (0, size, 0, file))
                for wrong in {net + 1, abs(net - 1), 1000 - others, 1000 - tonnage - others} - {net}:
                    self.refused(self.sheet(form, tonnage, others, wrong), 18)

    def test_moved_up_and_back(self) -> None:
        of_form_1, of_form_2 = (self.sheet(form, 200, 7, 643) for form in (1, 2))
        self.assertEqual(f.move(of_form_1, 2, bytes(92), 0), (0, 92, 0, of_form_2))
        self.assertEqual(f.move(of_form_2, 1, bytes(76), 0), (0, 76, 0, of_form_1))

    def test_deductions_pass_gross(self) -> None:
        """Whatever the net: 0, one below it as 8 bytes would have that, or any; a report of it would be refused too."""
        for tonnage, others in ((571, 2), (572, 0), (130, 681), (150, 681), (100, 755), (1000, 0)):
            for form, net, justified in product((1, 2), (0, 1, 2**64 - 1), (0, 1)):
                file = self.sheet(form, tonnage, others, net, justified=justified)
                self.refused(file, 21)
                self.assertEqual(f.listing(file), "REFUSED 21 0\n")
            sheet = Sheet(True, 1200, self.spaces(tonnage, others))
            self.assertEqual(s.report(sheet, 0), (21, 0, 0, sheet))

    def test_listing(self) -> None:
        self.assertEqual(f.listing(self.sheet(2, 200, 7, 643)), (
            "LENGTH 12.00\n1 0 U 0 10.00\n2 1 R 4 2.00\n3 1 R 3 0.07\nGROSS 10.00\nNET 6.43\n"
        ))

    def test_the_greatest(self) -> None:
        """1.75 times 57,142,857 is 99,999,999.75, which is rounded to all of 100,000,000; with one more it is over."""
        hull = a_record(1, 0, U, 0, 100_000_000, 100)
        for tonnage, number in ((57_142_857, 0), (57_142_858, 21)):
            file = a_sheet(100, 100_000_000, 0, hull, a_record(2, 1, R, 4, tonnage, 10))
            self.assertEqual(f.read(file)[0], number)

    def test_standings(self) -> None:
        """17 for machinery of another kind than a room, and over 4 for every kind."""
        hull = a_record(1, 0, U, 0, 1000, 1200)
        for kind, standing in ((B, 4), (S, 4), (H, 4), (B, 5), (S, 5), (H, 5), (R, 5), (R, 255)):
            own = a_record(2, 1 if kind == R else 0, kind, standing, 0, 100)
            self.refused(a_sheet(1200, 1000, 1000, hull, own), 17, 2)
            self.refused(in_form_2(1200, 1000, 1000, *map(with_deck, (hull, own))), 17, 2)
        for standing in (4, 5):
            self.refused(a_sheet(1200, 1000, 1000, a_record(1, 0, U, standing, 1000, 1200)), 17, 1)

    def test_order_of_reading(self) -> None:
        """Each fault taken away shows the next: 16, 17, 13, 14, 21, 18. 475 or 476 of ballast leave 525 or 524."""
        hull, own = a_record(1, 0, U, 0, 1000, 1200), a_record(2, 1, R, 4, 300, 10)  # 525 deducted
        for telling, standing, length, justified, ballast, net, expected in (
            (1, 5, 1201, 0, 476, 1, 16), (0, 5, 1201, 0, 476, 1, 17), (0, 0, 1201, 0, 476, 1, 13),
            (0, 0, 1200, 0, 476, 1, 14), (0, 0, 1200, 1, 476, 1, 21), (0, 0, 1200, 1, 475, 1, 18),
            (0, 0, 1200, 1, 475, 0, 0), (1, 0, 1200, 1, 476, 0, 16), (0, 5, 1200, 1, 476, 0, 17),
            (0, 0, 1201, 1, 476, 0, 13), (0, 0, 1200, 1, 476, 0, 21),
        ):
            records = hull, own, a_record(3, 1, R, 2, ballast, 10), a_record(4, 1, R, standing, 0, 10)
            position = 4 if expected == 17 else 0
            file = a_sheet(length, 1000 - ballast, net, *records, justified=justified, zero=telling)
            of_form_2 = in_form_2(
                length, 1000 - ballast, net, *map(with_deck, records), vessel=9, justified=justified,
                telling=telling or 2,
            )
            self.assertEqual([f.read(one)[:2] for one in (file, of_form_2)], [(expected, position)] * 2)
            for form in (1, 2):  # of what is read, 20 is for form 1 alone, and 15 for both
                number = expected or (20 if form == 1 else 15)
                self.assertEqual(f.move(of_form_2, form, b"", 0), (number, 0, position, b""))
            self.assertEqual(f.move(of_form_2, 3, b"", 0), (2, 0, 0, b""))

    def test_order_of_writing(self) -> None:
        """1, 2, 13, 14, 20, 15, 21: it is given only where there is room and nothing is lost."""
        over = Sheet(True, 1200, self.spaces(571, 2))
        numbered = replace(over, vessel=7)
        short = replace(over, length=1201)
        ballast = replace(over, spaces=(*self.spaces(300, 0), Space(4, 1, R, BALLAST, 476, 10)))
        buffer = bytes(range(100, 200))
        for sheet, justified, form, size, number in (
            (over, 0, 1, 76, 21), (over, 0, 2, 92, 21), (over, 0, 1, 75, 15), (over, 0, 2, 91, 15),
            (numbered, 0, 1, 76, 20), (numbered, 0, 1, 0, 20), (numbered, 0, 2, 92, 21), (numbered, 0, 2, 0, 15),
            (ballast, 0, 1, 92, 14), (ballast, 1, 1, 92, 21), (ballast, 1, 1, 91, 15), (short, 0, 1, 76, 13),
            (short, 1, 1, 0, 13), (over, 2, 1, 76, 2), (over, 0, 3, 76, 2), (over, 0, 0, 0, 2), (CLOSED, 0, 1, 76, 1),
        ):
            self.assertEqual(f.write(sheet, justified, buffer[:size], 0, form), (number, 0, buffer[:size], sheet))
        self.assertEqual(f.numbers_of_write(numbered, 0, b"", 0, 1), {20, 15, 21})
        self.assertEqual(f.numbers_of_write(ballast, 0, b"", 0, 2), {14, 15, 21})
        self.assertEqual(f.numbers_of_write(over, 0, bytes(76), 0, 1), {21})


class MachineryInCalls(OfCalls):
    """The same by the lines of the program `survey`."""

    def test_written_and_read_back(self) -> None:
        """131 of 1000 have 320 deducted; marked as exempt after the read, they are out of the gross."""
        for form, size in ((1, 108), (2, 132)):
            self.accepted(*a_thousand(), *machinery(131), *deducted(20))
            written = self.session.answer(write(0, 0, size, form)).split(" ")
            self.assertEqual(written[:2], ["0", str(size)])
            self.asks(f"read {written[2]}", f"0 0 0 0 {form}")
            self.asks("report 0", "0 1000 660")
            self.accepted(mark(4, EXEMPT))
            self.asks("report 0", "0 869 849")
            self.accepted("undo")
            self.asks(write(0, 0, size, form), f"0 {size} {written[2]}")

    def test_refused(self) -> None:
        """A refused write leaves the buffer, a refused read no sheet, a refused move the sheet and the buffer."""
        over = a_sheet(1200, 1000, 0, a_record(1, 0, U, 0, 1000, 1200), a_record(2, 1, R, 4, 572, 10))
        self.accepted(*a_thousand(), *machinery(572))
        self.asks("writef 0 2 111 171", "21 0 " + "ab" * 111)
        self.asks("writef 0 0 3 171", "15 0 ababab")
        before = self.session.sheet
        self.asks(move(over, 2, 0, 72, 1), "21 0 0 " + "01" * 72)
        self.asks(move(over, 1, 0, 1, 1), "21 0 0 01")
        self.assertEqual(self.session.sheet, before)
        self.asks(f"before 60 {over.hex()}00", "21 0 0 0 0")
        self.assertEqual(self.session.sheet, CLOSED)
        self.accepted(*a_thousand())
        self.asks(f"read {over.hex()}", "21 0 0 0 0")
        self.assertEqual(self.session.sheet, CLOSED)


class Listing(unittest.TestCase):
    """The form of the lines that `sheetlist` prints."""

    def test_decimals(self) -> None:
        """Two always; 0.05, 0.50, and the greatest numbers in full."""
        records = (
            a_record(9_999, 0, U, 0, 100_000_000, 150_000), a_record(2, 9_999, R, 1, 5, 1),
            a_record(3, 9_999, R, 3, 50, 1), a_record(4, 0, B, 1, 0, 100),
        )
        file = a_sheet(150_000, 99_999_995, 99_999_945, *records)
        self.assertEqual(f.listing(file), (
            "LENGTH 1500.00\n9999 0 U 0 1000000.00\n2 9999 R 1 0.05\n3 9999 R 3 0.50\n4 0 B 1 0.00\n"
            "GROSS 999999.95\nNET 999999.45\n"
        ))

    def test_refused(self) -> None:
        for file, line in (
            (b"", "REFUSED 16 0\n"), (with_bytes(EXAMPLE, (ZERO, 1)), "REFUSED 16 0\n"),
            (with_bytes(EXAMPLE, (70, 1)), "REFUSED 17 5\n"), (with_bytes(EXAMPLE, (LENGTH, 0xc1)), "REFUSED 13 0\n"),
            (with_bytes(EXAMPLE, (NET, 0)), "REFUSED 18 0\n"),
        ):
            self.assertEqual(f.listing(file), line)
            self.assertEqual(f.listing(EXAMPLE + file), LISTING if not file else line)

    def test_longest_input(self) -> None:
        for size in (65_535, 65_536):
            self.assertEqual(f.listing(bytes(size - 108) + EXAMPLE), LISTING)
        for size in (65_537, 100_000):
            self.assertEqual(f.listing(bytes(size - 108) + EXAMPLE), "REFUSED 16 0\n")
        self.assertEqual(f.listing(EXAMPLE + bytes(65_429)), "REFUSED 16 0\n")


class RoundTrips(OfFiles):
    """Written and read, read and written, moved up and back, over the sheets of scripts at random."""

    def test_read_of_written(self) -> None:
        """'The same spaces, decks and vessel number (form 2), or is refused 20.'"""
        walked = [step for seed in range(3) for step in steps(scripts.script(seed, 200))]
        sheets = {
            (step.after.length, step.after.spaces, step.after.vessel): step.after
            for step in [*walked, *standard_steps()[::15]]
        }
        written = Counter()
        for sheet, justified, form in product(sheets.values(), (0, 1), (1, 2)):
            buffer = b"\xa5" * (size_of(form, len(sheet.spaces)) + 9)
            number, count, after, same = f.write(sheet, justified, buffer, 4, form)
            loses = form == 1 and (sheet.vessel != 0 or any(space.deck != 0 for space in sheet.spaces))
            refused = s.report(sheet, justified)[0]
            self.assertEqual((number, same), (20 if loses and refused in (0, 21) else refused, sheet))
            written[form, number] += 1
            if number:
                self.assertEqual((count, after), (0, buffer))
                continue
            self.assertEqual((len(after), after[:4], after[4 + count:]), (len(buffer), buffer[:4], buffer[:5]))
            resumed = Sheet(True, sheet.length, s.recorded(sheet.spaces), vessel=sheet.vessel)
            self.assertEqual(f.read(after[:4 + count]), (0, 0, justified, 4, form, resumed))
        self.assertGreater(min(written[1, 0], written[2, 0], written[1, 20]), 150)

    def test_write_of_read(self) -> None:
        """'Where demand 2 has a sheet written again, that is in the form it was read in.'"""
        accepted = Counter()
        for case in files.standard():
            number, position, justified, start, form, sheet = read_of(case.file)
            if number:
                self.assertEqual((justified, start, form, sheet), (0, 0, 0, CLOSED))
                self.assertEqual(position > 0, number == 17)
                continue
            accepted[form] += 1
            self.assertEqual((sheet.earlier, sheet.later), ((), ()))
            buffer = bytes(len(case.file) - start)
            self.assertEqual(f.write(sheet, justified, buffer, 0, form)[:3], (0, len(buffer), case.file[start:]))
        self.assertGreater(accepted[1], 700)
        self.assertGreater(accepted[2], 400)

    def test_up_and_back(self) -> None:
        """'Moving a form 1 sheet up gives zeros, and up and back gives the bytes again.'"""
        moved, counts = Counter(), set()
        for case in files.standard():
            number, _, _, start, form, sheet = read_of(case.file)
            if number:
                continue
            own = case.file[start:]
            self.assertEqual(f.move(case.file, form, bytes(len(own)), 0), (0, len(own), 0, own))
            size = size_of(3 - form, len(sheet.spaces))
            answer = f.move(case.file, 3 - form, bytes(size), 0)
            moved[form, answer[0]] += 1
            counts.add((form, len(sheet.spaces)))
            if answer[0]:
                self.assertEqual(answer, (20, 0, 0, bytes(size)))
                continue
            number, written, position, other = answer
            self.assertEqual((number, written, position), (0, size, 0))
            self.assertEqual(f.move(other, form, bytes(len(own)), 0), (0, len(own), 0, own))
        self.assertGreater(moved[1, 0], 700)
        self.assertGreater(moved[2, 0], 10)
        self.assertGreater(moved[2, 20], 100)
        self.assertEqual(moved[1, 20], 0)
        self.assertLessEqual(set(product((1, 2), (1, 199, 200))), counts)


@cache
def read_of(file: bytes) -> f.ReadAnswer:
    """The read of a generated file, made once."""
    return f.read(file)


class GeneratedFiles(unittest.TestCase):
    """Every cause of every number, where it is made."""

    @classmethod
    def setUpClass(cls) -> None:
        cls.cases = files.standard()
        cls.made = [case for case in cls.cases if case.made_for is not None]

    def test_numbers_and_positions(self) -> None:
        for case in self.made:
            self.assertEqual(read_of(case.file)[:2], case.made_for, msg=case.name)

    def test_names(self) -> None:
        names = [case.name for case in (*self.cases, *files.long_inputs())]
        self.assertEqual(len(set(names)), len(names))
        self.assertGreater(len(names), 4_000)

    def test_reproducible(self) -> None:
        self.assertEqual(files.standard.__wrapped__(), self.cases)

    def test_every_number(self) -> None:
        made = Counter(case.made_for[0] for case in self.made)
        chance = Counter(read_of(case.file)[0] for case in self.cases if case.made_for is None)
        self.assertEqual(set(made), {0, 13, 14, 16, 17, 18, 21})
        self.assertEqual(set(chance), {0, 13, 14, 16, 17, 18, 21})
        self.assertGreater(min(made[number] for number in (0, 16, 17, 18)), 50)
        self.assertGreater(min(chance[number] for number in (0, 13, 16, 17, 18, 21)), 50)

    def test_sizes(self) -> None:
        """From 1 to 200 spaces, several sheets, bytes ahead, and as long as an input may be."""
        accepted = [(case, read_of(case.file)) for case in self.cases if read_of(case.file)[0] == 0]
        counts = {form: {len(answer[5].spaces) for _, answer in accepted if answer[4] == form} for form in (1, 2)}
        self.assertLessEqual({*range(1, 41), 64, 100, 199, 200}, counts[1])
        self.assertLessEqual({1, 2, 3, 4, 5, 14, 199, 200}, counts[2])
        self.assertGreater(sum(answer[3] > 0 for _, answer in accepted), 50)
        days = [list(f.sheets(case.file)) for case, answer in accepted if answer[3] > 0]
        self.assertLessEqual({2, 3, 4, 7, 12}, {len(day) for day in days if day[-1][0] == 0})
        self.assertEqual({(answer[2], answer[4]) for _, answer in accepted}, {(0, 1), (1, 1), (0, 2), (1, 2)})
        self.assertEqual(max(len(case.file) for case in self.cases), 28 + 16 * 4094)
        self.assertEqual([len(case.file) for case in files.long_inputs()], [65_535, 65_536, 65_537, 131_072])

    def test_positions(self) -> None:
        positions = Counter(read_of(case.file)[1] for case in self.cases)
        self.assertLessEqual({1, 2, 3, 7, 13, 14, 100, 200}, set(positions))
        self.assertGreater(positions[200], 60)

    def test_causes_in_a_record(self) -> None:
        """Every number that entry would give, and each cause in the record itself, alone and at the 200th place too."""
        found: dict[int, set[Any]] = {}
        for case in self.made:
            number, position = case.made_for
            if number != 17:
                continue
            trailer, records = f.last_trailer(case.file), f.last_records(case.file)
            own = records[position - 1]
            before = s.resume(trailer.length, map(f.space_of, records[:position - 1]))[1]
            numbers = s.numbers_of_new(before, f.space_of(own)) if own.kind in m.KINDS else set()
            causes = {cause for cause, judged in (
                ("zero", own.zero != 0), ("second zero", own.second_zero != 0), ("kind", own.kind not in m.KINDS),
                ("deck", own.kind in m.KINDS and own.deck > 99 and not f.out_of_range(own._replace(deck=0))),
                ("range", own.kind in m.KINDS and f.out_of_range(own._replace(deck=0))),
                ("within", own.kind in m.KINDS and f.enclosed_outside_a_room(own)),
            ) if judged} | numbers
            self.assertTrue(causes, msg=case.name)
            if len(causes) == 1:
                found.setdefault(position, set()).update(causes)
        everywhere = {"zero", "kind", "range", "within", 5, 6, 9}
        of_form_2 = {"deck", "second zero"}
        for position, causes in (
            (1, everywhere | of_form_2), (2, of_form_2), (3, of_form_2), (13, everywhere | {4, 7, 8}),
            (200, everywhere | of_form_2 | {4, 7, 8}),
        ):
            self.assertLessEqual(causes, found[position])

    def test_faults_at_once(self) -> None:
        """Every set of the six numbers in each form; the first in the order of reading is given."""
        at_once = [case for case in self.cases if "at once" in case.name]
        self.assertEqual(len(at_once), 2 * 3 * 64)
        for form in (1, 2):
            of_form = {case.made_for[0] for case in at_once if f"in form {form}" in case.name}
            self.assertEqual(of_form, {0, 16, 17, 13, 14, 21, 18})

    def test_flips(self) -> None:
        """Every one of the 864 bits of the example."""
        found = {case.file for case in self.cases}
        for bit in range(864):
            self.assertIn(with_bytes(EXAMPLE, (bit // 8, EXAMPLE[bit // 8] ^ 2**(bit % 8))), found)

    def test_listings(self) -> None:
        listed = {name: (file, text) for name, file, text in files.listings()}
        self.assertEqual(listed["the paper's whole sheet"], (EXAMPLE, LISTING))
        self.assertEqual(listed["an input of 65536 bytes"], (bytes(65_428) + EXAMPLE, LISTING))
        self.assertEqual(listed["an input of 65537 bytes"], (bytes(65_429) + EXAMPLE, "REFUSED 16 0\n"))
        for case in self.made:
            number, position = case.made_for
            text = listed[case.name][1]
            self.assertEqual(text.startswith("REFUSED"), number != 0)
            self.assertTrue(number == 0 or text == f"REFUSED {number} {position}\n")


class Protocol(OfCalls):
    """`write`, `writef` and `read` in the program `survey`."""

    def test_write(self) -> None:
        self.accepted(*whole_sheet())
        self.asks("write 0 0 108", f"0 108 {EXAMPLE.hex()}")
        self.asks("write 0 2 111", f"0 108 0000{EXAMPLE.hex()}00")
        self.asks("writef 0 2 111 255", f"0 108 ffff{EXAMPLE.hex()}ff")
        self.asks("writef 0 0 108 1", f"0 108 {EXAMPLE.hex()}")
        self.asks("write 1 0 108", f"0 108 {with_bytes(EXAMPLE, (MARK, 1)).hex()}")

    def test_refused_write(self) -> None:
        self.accepted(*whole_sheet())
        self.asks("write 0 0 3", "15 0 000000")
        self.asks("writef 0 0 3 171", "15 0 ababab")
        self.asks("write 0 0 0", "15 0 -")
        self.asks("writef 0 0 0 9", "15 0 -")
        self.asks("write 0 1 108", "15 0 " + "00" * 108)
        self.asks("write 2 0 3", "2 0 000000")
        self.asks("write 256 0 3", "2 0 000000")
        for at in (4, 2**32, 2**64 - 108, 2**64 - 1):
            self.asks(f"write 0 {at} 3", "15 0 000000")
        self.given("open 99")
        self.asks("write 0 0 3", "1 0 000000")
        self.given("open 100")
        self.asks("writef 0 0 3 16", "13 0 101010")
        self.accepted(*a_thousand(), room(4, 1, 301, BALLAST))
        self.asks("write 0 0 0", "14 0 -")
        self.asks("write 1 0 0", "15 0 -")

    def test_largest_buffer(self) -> None:
        self.accepted(*whole_sheet())
        self.asks("write 0 65428 65536", "0 108 " + "00" * 65_428 + EXAMPLE.hex())
        self.asks("write 0 0 65537", "? buffer too large")

    def test_read(self) -> None:
        self.asks(f"read {EXAMPLE.hex()}", "0 0 0 0 1")
        self.asks("spaces", "0 1 4800 5 0 1:0:1:0:11521:4800:0:0 2:0:3:0:1280:1600:0:0 3:1:5:2:400:1000:0:0 "
                            "4:2:5:3:320:800:0:0 5:0:4:0:100:500:0:0")
        self.asks("counts", "0 0 0")
        self.asks("report 0", "0 12439 12119")
        self.asks(f"read abcdef{with_bytes(EXAMPLE, (MARK, 1)).hex()}", "0 0 1 3 1")

    def test_no_open_changes_after_a_read(self) -> None:
        self.accepted(*whole_sheet(), withdraw(5), "undo", f"read {EXAMPLE.hex()}")
        self.refused(12, "undo", "redo")
        self.accepted(withdraw(5), "undo")
        self.refused(12, "undo")
        self.accepted("redo")

    def test_refused_read(self) -> None:
        """The current sheet is replaced by one not open."""
        for file, answer in (
            ("-", "16 0 0 0 0"), ("00", "16 0 0 0 0"), (with_bytes(EXAMPLE, (38, 1)).hex(), "17 3 0 0 0"),
            (with_bytes(EXAMPLE, (LENGTH, 0xc1)).hex(), "13 0 0 0 0"),
            (with_bytes(EXAMPLE, (NET, 0)).hex(), "18 0 0 0 0"),
        ):
            self.accepted(*a_thousand())
            self.asks(f"read {file}", answer)
            self.assertEqual(self.session.sheet, CLOSED)
            self.refused(1, "undo", "report 0", "write 0 0 28", hatchway(1, 1))

    def test_remarks(self) -> None:
        """From left to right; a file's length is looked at before its digits."""
        large = 2**64
        self.accepted(*a_thousand())
        before = self.session.sheet
        for line, remark in (
            ("write 0 0", "? wrong number of words"), ("write 0 0 0 1 1", "? wrong number of words"),
            ("writef 0 0 0", "? wrong number of words"), ("writef 0 0 0 0 1 1", "? wrong number of words"),
            ("read", "? wrong number of words"),
            ("read 00 00", "? wrong number of words"), ("write x 0 99999", "? not a number"),
            ("write 0 - 99999", "? not a number"), (f"write 0 {large} 99999", "? number too large"),
            (f"write 0 0 {large}", "? number too large"), ("write 0 0 x", "? not a number"),
            ("write 0 0 65537", "? buffer too large"), (f"write 0 0 {large - 1}", "? buffer too large"),
            ("writef 0 0 65537 x", "? buffer too large"), ("writef 0 0 65537 256", "? buffer too large"),
            ("writef 0 0 x 256", "? not a number"), ("writef 0 0 0 x", "? not a number"),
            ("writef 0 0 0 256", "? not a byte"), (f"writef 0 0 0 {large - 1}", "? not a byte"),
            (f"writef 0 0 0 {large}", "? number too large"), ("read ", "? not hex"), ("read 0", "? not hex"),
            ("read 0g", "? not hex"), ("read 0A", "? not hex"), ("read 0x00", "? not hex"), ("read --", "? not hex"),
            ("read 00\r", "? not hex"), ("read 0\xb2", "? not hex"), ("read -0", "? not hex"),
            ("read " + "0" * 131_071, "? not hex"), ("read " + "g" * 131_072, "? not hex"),
            ("read " + "0" * 131_073, "? file too long"), ("read " + "0" * 131_074, "? file too long"),
            ("read " + "g" * 131_073, "? file too long"),
        ):
            self.asks(line, remark)
            self.assertEqual(self.session.sheet, before)
        self.asks("read " + "0" * 131_072, "16 0 0 0 0")

    def test_zeros_in_front(self) -> None:
        self.accepted(*whole_sheet())
        self.asks("writef 00 001 00110 0255", f"0 108 ff{EXAMPLE.hex()}ff")
        self.asks("write 0 0 0132 002", f"0 132 {MOVED_UP.hex()}")
        self.asks(f"move {EXAMPLE.hex()} 002 001 00134 0255", f"0 132 0 ff{MOVED_UP.hex()}ff")

    def test_forms(self) -> None:
        """Left out: 1. A form above its type is none."""
        self.accepted("open 1200 7", divided(1, U, 1200, 1200, 1200, 500))
        for line in ("write 0 0 3", "write 0 0 3 1", "writef 0 0 3 0", "writef 0 0 3 0 1"):
            self.asks(line, "20 0 000000")
        for form in (0, 3, 255, 256, 257, 258, 2**32 + 2, 2**64 - 1):
            self.asks(f"write 0 0 3 {form}", "2 0 000000")
            self.asks(f"writef 0 0 1 171 {form}", "2 0 ab")
            self.asks(f"move {EXAMPLE.hex()} {form} 0 0 0", "2 0 0 -")
        self.asks("write 0 0 3 2", "15 0 000000")
        self.asks("writef 0 0 1 171 2", "15 0 ab")

    def test_read_in_form_2(self) -> None:
        self.asks(f"read {NUMBERED.hex()}", "0 0 0 0 2")
        self.asks("spaces", "0 1 4800 5 1042 1:0:1:0:11521:4800:0:1 2:0:3:0:1280:1600:0:99 3:1:5:2:400:1000:0:0 "
                            "4:2:5:3:320:800:0:10 5:0:4:0:100:500:0:7")
        self.asks(f"before 134 abcd{NUMBERED.hex()}{EXAMPLE.hex()}", "0 0 0 2 2")
        self.asks(f"before 240 {NUMBERED.hex()}{EXAMPLE.hex()}", "0 0 0 132 1")
        self.asks(f"before 131 {NUMBERED.hex()}", "16 0 0 0 0")
        self.asks(f"read {with_bytes(NUMBERED, (58, 1)).hex()}", "17 3 0 0 0")
        self.asks("spaces", "0 0 0 0 0")

    def test_move(self) -> None:
        """The current sheet stays, open or not, and a move never gives 1."""
        for lines in (("open 99 7",), (*a_thousand(), hatchway(4, 20, 6), "undo"), ("open 100 5",)):
            self.given(*lines)
            before = self.session.sheet
            for line, answer in (
                (move(EXAMPLE, 2, 1, 134, 255), f"0 132 0 ff{MOVED_UP.hex()}ff"),
                (move(MOVED_UP, 1, 0, 108), f"0 108 0 {EXAMPLE.hex()}"), (move(NUMBERED, 1, 0, 2, 16), "20 0 0 1010"),
                (move(NUMBERED, 2, 0, 2, 16), "15 0 0 1010"), (move(NUMBERED, 3, 0, 2, 16), "2 0 0 1010"),
                (move(with_bytes(NUMBERED, (78, 1)), 2, 0, 1), "17 0 4 00"), (move(b"", 1, 0, 0), "16 0 0 -"),
                (move(EXAMPLE, 1, 2**64 - 108, 1, 9), "15 0 0 09"), (move(EXAMPLE, 256, 2**64 - 1, 1, 9), "2 0 0 09"),
            ):
                self.asks(line, answer)
                self.assertEqual(self.session.sheet, before)

    def test_remarks_on_moves(self) -> None:
        """SIZE, FILL and HEX judged as in `writef` and `read`, from left to right."""
        large = 2**64
        self.accepted("open 1200 7")
        before = self.session.sheet
        for line, remark in (
            ("move", "? wrong number of words"), ("move 00 1 0 0", "? wrong number of words"),
            ("move 00 1 0 0 0 0", "? wrong number of words"), ("move  1 0 0 0", "? not hex"),
            ("move 0 1 0 0 0", "? not hex"), ("move 0G 1 0 0 0", "? not hex"), ("move -- 1 0 0 0", "? not hex"),
            ("move " + "g" * 131_073 + " x 0 0 0", "? file too long"), ("move 0g x 0 0 0", "? not hex"),
            ("move 00 x 0 0 0", "? not a number"), (f"move 00 {large} x 0 0", "? number too large"),
            ("move 00 1 - 99999 0", "? not a number"), (f"move 00 1 {large} x 0", "? number too large"),
            ("move 00 1 0 65537 x", "? buffer too large"), ("move 00 1 0 x 256", "? not a number"),
            (f"move 00 1 0 {large} 256", "? number too large"), ("move 00 1 0 0 256", "? not a byte"),
            ("move 00 1 0 65536 256", "? not a byte"), ("move 00 1 0 0 x", "? not a number"),
            (f"move 00 1 0 0 {large}", "? number too large"),
        ):
            self.asks(line, remark)
            self.assertEqual(self.session.sheet, before)
        self.asks("move " + "0" * 131_072 + " 1 0 1 255", "16 0 0 ff")


class FilesInTheStandardScript(unittest.TestCase):
    """The standard script's writes and reads hit each edge they promise."""

    @classmethod
    def setUpClass(cls) -> None:
        cls.writes = [step for step in standard_steps() if step.call in ("write", "writef") and step.number is not None]
        cls.reads = [step for step in standard_steps() if step.call == "read" and step.number is not None]

    def room_of(self, step: Step) -> int:
        """By how many bytes there is more room than the sheet needs in the form asked for."""
        at, size = step.arguments[1:3]
        return size - at - size_of(step.further.get("form", 1), len(step.before.spaces))

    def test_rooms_and_places(self) -> None:
        for call in ("write", "writef"):
            judged = [step for step in self.writes if step.call == call and step.number in (0, 15)]
            self.assertLessEqual({(0, 0), (15, -1)}, {(step.number, self.room_of(step)) for step in judged})
            places = {step.arguments[1] - step.arguments[2] for step in judged if step.number == 15}
            self.assertLessEqual({0, 1}, places)
            self.assertIn(2**64 - 1, {step.arguments[1] for step in judged})
        wrapped = {(step.arguments[1] + 76) % 2**64 for step in self.writes if step.arguments[1] > 2**63}
        self.assertLessEqual({0, 1}, wrapped)
        self.assertLessEqual({0, 65_536}, {step.arguments[2] for step in self.writes})

    def test_fillings(self) -> None:
        for refused in (False, True):
            found = [step for step in self.writes if step.call == "writef" and bool(step.number) == refused]
            self.assertLessEqual({0, 1, 127, 128, 255}, {step.arguments[3] for step in found})

    def test_numbers_that_apply_together(self) -> None:
        found = set()
        for step in self.writes:
            justified, at, size = step.arguments[:3]
            form = step.further.get("form", 1)
            found.add(frozenset(f.numbers_of_write(step.before, justified, bytes(size), at, form)))
        self.assertLessEqual({frozenset(numbers) for numbers in (
            (), (15,), (14,), (13,), (2,), (14, 15), (13, 15), (2, 15), (13, 14), (13, 14, 15), (2, 13), (2, 13, 15),
            (1, 2), (20,), (20, 15), (14, 20), (14, 20, 15), (13, 20), (13, 20, 15), (13, 14, 20), (13, 14, 20, 15),
            (2, 20), (2, 20, 15), (2, 13, 20), (2, 13, 20, 15), (21,), (2, 21), (13, 21), (14, 21), (20, 21), (15, 21),
            (2, 15, 21), (13, 15, 21), (13, 14, 21), (14, 15, 21), (14, 20, 21), (20, 15, 21), (14, 20, 15, 21),
            (13, 14, 20, 15, 21), (2, 13, 20, 15, 21),
        )}, found)

    def test_reads(self) -> None:
        numbers = Counter(step.number for step in self.reads)
        self.assertGreater(sum(numbers.values()), 600)
        self.assertGreater(min(numbers.values()), 10)
        starts = [int(step.answer.split(" ")[3]) for step in self.reads]
        self.assertGreater(sum(start > 0 for start in starts), 20)
        marks = {(step.number, step.answer.split(" ")[2]) for step in self.reads if step.number == 0}
        self.assertEqual(marks, {(0, "0"), (0, "1")})
        positions = {int(step.answer.split(" ")[1]) for step in self.reads if step.number == 17}
        self.assertLessEqual({1, 2, 3, 4, 7, 13, 14, 200}, positions)
        sizes = {len(step.arguments[0]) for step in self.reads}
        self.assertLessEqual({0, 27, 28, 32, 44, 52, 92, 108, 132, 3228, 4032, 65_536}, sizes)

    def test_what_is_written_is_read(self) -> None:
        written = {step.answer.split(" ")[2] for step in self.writes if step.number == 0}
        read = {step.words[1] for step in self.reads if step.number == 0}
        self.assertGreater(len(written & read), 5)

    def test_undo_and_redo_after_a_read(self) -> None:
        after = Counter()
        for first, *later in zip(standard_steps(), standard_steps()[1:], standard_steps()[2:], standard_steps()[3:]):
            if first.call == "read" and first.number is not None:
                after.update((step.call, step.number) for step in later)
        for call in ("undo", "redo"):
            self.assertGreater(after[call, 12], 3)


def fitted(file: bytes) -> bytes:
    """A file with the telling byte, the count and the distance that its size asks for, where there are such."""
    for form, telling in ((2, 2), (1, 0)):
        for count in range(201):
            if len(file) == size_of(form, count):
                trailer = f.last_trailer(file)._replace(distance=len(file), count=count, telling=telling)
                return file[:-28] + f.TRAILER.pack(*trailer)
    return file


class FormsInTheStandardScript(unittest.TestCase):
    """The standard script's writes, reads and moves in both forms hit each edge they promise."""

    @classmethod
    def setUpClass(cls) -> None:
        cls.steps = [step for step in standard_steps() if step.number is not None]
        cls.writes = [step for step in cls.steps if step.call in ("write", "writef")]
        cls.reads = [step for step in cls.steps if step.call in ("read", "before")]
        cls.moves = [step for step in cls.steps if step.call == "move"]

    def numbers_of_move(self, step: Step) -> list[int]:
        """Those that apply, in their order, each judged by itself; beside 16 those of the file with one that fits."""
        file, form, at, size, _ = step.arguments
        judged = {2: form not in (1, 2), 16: f.wrong_file(file)}
        file = fitted(file) if judged[16] else file
        if not f.wrong_file(file):
            trailer, records, vessel = f.last_trailer(file), f.last_records(file), f.last_between(file).vessel
            sheet = Sheet(True, trailer.length, tuple(map(f.space_of, records)), vessel=vessel)
            judged |= {
                17: f.resumed(trailer.length, records, vessel)[0] > 0, 13: s.lengths_short(sheet),
                14: s.not_justified(sheet, trailer.justified), 21: s.deductions_pass(sheet),
                18: f.wrong_sums(sheet, trailer),
                20: form == 1 and (vessel > 0 or any(record.deck for record in records)),
                15: not judged[2] and size - at < size_of(form, len(records)),
            }
        return [number for number, applies in judged.items() if applies]

    def test_writes(self) -> None:
        """Each number in each form, left out or named; of a form that is none only 1 and 2, above its type too."""
        found = Counter((step.further.get("form"), step.number) for step in self.writes)
        for form, numbers in (
            (None, {0, 1, 2, 13, 14, 15, 20, 21}), (1, {0, 2, 13, 14, 15, 20, 21}), (2, {0, 2, 13, 14, 15, 21})
        ):
            self.assertLessEqual({(form, number) for number in numbers}, set(found))
            self.assertGreater(min(found[form, number] for number in numbers), 2)
        self.assertNotIn((2, 20), found)
        for form in (0, 3, 255):
            self.assertEqual({number for asked, number in found if asked == form}, {1, 2})
        words = {step.words[-1] for step in self.writes if "form" in step.further}
        self.assertLessEqual({"256", "257", "258", str(2**64 - 1)}, words)

    def test_rooms_of_writes(self) -> None:
        """Just enough and a byte less, in each form, also where form 1 would lose a number."""
        found = set()
        for step in self.writes:
            form = step.further.get("form", 1)
            if form in (1, 2) and step.number in (0, 15, 20):
                needed = size_of(form, len(step.before.spaces))
                found.add((form, step.number, step.arguments[2] - step.arguments[1] - needed))
        self.assertLessEqual({(1, 0, 0), (1, 15, -1), (1, 20, 0), (1, 20, -1), (2, 0, 0), (2, 15, -1)}, found)

    def test_numbers_lost(self) -> None:
        """By a deck alone at the first, a middle and the last space, of 200 too; by each byte of a vessel number."""
        found, vessels = set(), set()
        for step in self.writes:
            if step.number == 20:
                decks = [bool(space.deck) for space in step.before.spaces]
                if sum(decks) == 1:
                    found.add((bool(step.before.vessel), len(decks), decks.index(True)))
                if not any(decks):
                    vessels.add(step.before.vessel)
        self.assertLessEqual(set(product((False, True), (3,), (0, 1, 2))), found)
        self.assertLessEqual({(False, 200, 99), (False, 200, 199)}, found)
        self.assertLessEqual({1, 256, 2**16, 2**24, 2**31, 2**32 - 1}, vessels)
        gone = {
            (earlier.call, earlier.number) for earlier, step in zip(standard_steps(), standard_steps()[1:])
            if step.call == "write" and step.number in (0, 15) and step.further.get("form", 1) == 1
            and any(space.deck for space in earlier.before.spaces)
        }
        self.assertLessEqual({("withdraw", 0), ("undo", 0)}, gone)

    def test_reads(self) -> None:
        """Both forms accepted, of sheets with and without numbers; each number in files that tell either form."""
        found, told = set(), Counter()
        for step in self.reads:
            file = step.arguments[-1]
            if step.call == "read" and len(file) >= 28:
                told[file[-21], step.number] += 1
            if step.number == 0:
                decks = any(space.deck for space in step.after.spaces)
                found.add((int(step.answer.split(" ")[4]), decks, bool(step.after.vessel)))
        self.assertEqual(found, {(1, False, False), *product((2,), (False, True), (False, True))})
        self.assertLessEqual(set(product((0, 2), (0, 13, 14, 16, 17, 18, 21))), set(told))
        self.assertLessEqual({(1, 16), (3, 16), (255, 16)}, set(told))

    def test_fields(self) -> None:
        """17 by every field of a record alone, next to its range, in the first, a middle and the last, in each form."""
        found = set()
        for file in (step.arguments[0] for step in self.reads if step.call == "read" and step.number == 17):
            form, records = f.last_form(file), f.last_records(file)
            if len(records) == 3:
                sound = f.last_records(files.of_three(form))
                wrong = [
                    (field, value, place) for place in range(3)
                    for field, value, own in zip(f.Record._fields, records[place], sound[place]) if value != own
                ]
                found |= {(form, *one) for one in wrong if len(wrong) == 1}
        edges = (
            ("id", 0), ("id", 10_000), ("within", 9), ("kind", 0), ("kind", 6), ("standing", 5), ("zero", 1),
            ("zero", 256), ("tonnage", 100_000_001), ("length", 0), ("length", 150_001),
        )
        of_form_2 = (*edges, ("deck", 100), ("second_zero", 1), ("second_zero", 256))
        for form, of_form in ((1, edges), (2, of_form_2)):
            self.assertLessEqual({(form, *edge, place) for edge, place in product(of_form, range(3))}, found)
            self.assertIn((form, "length", 99, 0), found)

    def test_fields_of_trailers(self) -> None:
        """16 or 18 by every field of a trailer alone, next to what it may say, in both forms."""
        found, sound = set(), {form: files.of_three(form) for form in (1, 2)}
        for step in self.reads:
            for form, three in sound.items():
                file = step.arguments[-1]
                if step.call == "read" and len(file) == len(three) and file[:-28] == three[:-28]:
                    fields = zip(f.Trailer._fields, f.last_trailer(file), f.last_trailer(three))
                    wrong = [(field, value) for field, value, own in fields if value != own]
                    found |= {(form, step.number, *one) for one in wrong if len(wrong) == 1}
        gross, net = 307, 257  # 300 and a hatchway of 9 less an allowance of 2; a room of 50 is deducted
        for form, size, other in ((1, 76, 2), (2, 92, 0)):
            edges = {
                "distance": (size - 1, size + 1), "count": (2, 4), "telling": (1, 3, 255, other), "justified": (2,),
                "length": (99, 150_001),
            }
            for field, values in edges.items():
                self.assertLessEqual({(form, 16, field, value) for value in values}, found)
            self.assertLessEqual({(form, 18, "gross", gross + 1), (form, 18, "net", net + 1)}, found)

    def test_counts(self) -> None:
        """No record, 200 and 201, all there and the trailer otherwise right, in both forms; of moves too."""
        found = set()
        for step in (*self.reads, *self.moves):
            file = step.arguments[0] if step.call in ("read", "move") else b""
            trailer = f.last_trailer(file) if len(file) >= 28 else None
            if trailer and trailer.telling in (0, 2):
                form = 1 + trailer.telling // 2
                if len(file) == trailer.distance == size_of(form, trailer.count):
                    found.add((step.call, form, trailer.count, step.number))
        for form in (1, 2):
            self.assertLessEqual({("read", form, *one) for one in ((0, 13), (200, 0), (201, 16))}, found)
            self.assertLessEqual({("move", form, *one) for one in ((0, 13), (200, 0))}, found)
        self.assertIn(("move", 1, 201, 16), found)

    def test_records_that_entry_would_refuse(self) -> None:
        """17 by each number from 4 to 9 alone, in both forms."""
        found = set()
        for file in (step.arguments[0] for step in self.reads if step.call == "read" and step.number == 17):
            trailer, records, position = f.last_trailer(file), f.last_records(file), f.read(file)[1]
            own, ahead = records[position - 1], map(f.space_of, records[:position - 1])
            if not f.wrong_in_itself(own):
                numbers = s.numbers_of_new(s.resume(trailer.length, ahead)[1], f.space_of(own))
                found |= {(f.last_form(file), *numbers)} if len(numbers) == 1 else set()
        self.assertEqual(found, set(product((1, 2), (4, 5, 6, 7, 8, 9))))

    def test_reads_of_machinery(self) -> None:
        """Each class in both forms; all of the gross deducted and one over; 21 beside each of the others."""
        found, beside = set(), set()
        for step in self.reads:
            file = step.arguments[-1] if step.call == "read" else step.arguments[1][:step.arguments[0]]
            if f.wrong_file(file):
                continue
            trailer, spaces = f.last_trailer(file), tuple(map(f.space_of, f.last_records(file)))
            own, gross, net = s.machinery(spaces), s.gross(spaces), s.net(spaces)
            if own and step.number in (0, 18, 21):
                found.add((step.number, f.last_form(file), m.class_of_machinery(own, gross)))
                found |= {(step.number, f.last_form(file), net)} if net in (0, -1) else set()
                found |= {(step.number, trailer.net)} if net == -1 else set()
            if net < 0:
                beside.add(step.number)
        for form, numbers in ((1, (0, 18, 21)), (2, (0, 21))):
            self.assertLessEqual(set(product(numbers, (form,), (m.SMALL, m.MIDDLE, m.LARGE))), found)
            self.assertLessEqual({(0, form, 0), (21, form, -1)}, found)
        self.assertLessEqual({(21, 0), (21, 2**64 - 1)}, found)
        self.assertEqual(beside, {17, 13, 14, 21})

    def test_days(self) -> None:
        """Days that go back from each form to each; of those read at once the last one refused with each number too."""
        found = {"read": set(), "before": set()}
        for step in self.reads:
            file = step.arguments[0] if step.call == "read" else step.arguments[1][:step.arguments[0]]
            if step.number == 0:
                forms = [form for number, _, _, _, form, _ in f.sheets(file) if number == 0]
                found[step.call] |= set(zip(forms, forms[1:]))
        self.assertEqual(found, dict.fromkeys(found, set(product((1, 2), repeat=2))))
        refused = set()
        for step in self.reads:
            for form in (1, 2):
                ahead, last = step.arguments[-1][:size_of(form, 1)], step.arguments[-1][size_of(form, 1):]
                if step.call == "read" and len(last) >= 28 and f.read(ahead)[4] == form:
                    refused.add((form, last[-21], step.number))
        for form, telling, other in ((1, 2, 0), (2, 0, 2)):
            self.assertLessEqual({(form, telling, number) for number in (13, 14, 17, 18, 21)}, refused)
            self.assertLessEqual({(form, 1, 16), (form, other, 16)}, refused)

    def test_moves(self) -> None:
        """Up, back and in the own form, and each number; 17 at several positions."""
        accepted, counts = Counter(), set()
        for step in self.moves:
            if step.number == 0:
                file, asked = step.arguments[:2]
                accepted[f.last_form(file), asked] += 1
                counts.add((f.last_form(file), asked, f.last_trailer(file).count))
        self.assertEqual(set(accepted), set(product((1, 2), repeat=2)))
        self.assertGreater(min(accepted.values()), 8)
        self.assertLessEqual({(1, 2, 1), (1, 2, 200), (2, 1, 1), (2, 1, 200)}, counts)
        numbers = Counter(step.number for step in self.moves)
        self.assertEqual(set(numbers), {0, 2, 13, 14, 15, 16, 17, 18, 20, 21})
        self.assertGreater(min(numbers.values()), 3)
        self.assertLessEqual({1, 2, 3}, {int(step.answer.split(" ")[2]) for step in self.moves if step.number == 17})
        self.assertLessEqual({0, 3, 255}, {step.arguments[1] for step in self.moves if step.number == 2})

    def test_numbers_of_moves_that_apply_together(self) -> None:
        """2 and 20 with each of reading's numbers, and each two next to each other; the first in the order is given."""
        found, neighbours = set(), set()
        for step in self.moves:
            numbers = self.numbers_of_move(step)
            self.assertEqual(step.number, numbers[0] if numbers else 0, msg=step.line)
            found.add(tuple(numbers))
            neighbours |= set(zip(numbers, numbers[1:]))
        of_reading = ((16,), (17,), (13,), (14,), (21, 18), (18,))  # no net is right where deductions pass gross
        self.assertLessEqual({(), (2,), *of_reading, (20,), (15,)}, found)
        self.assertLessEqual({(2, *numbers) for numbers in of_reading}, found)
        self.assertLessEqual({(*numbers, 20, 15) for numbers in of_reading}, found)
        order = (16, 17, 13, 14, 21, 18, 20, 15)
        self.assertLessEqual(set(zip(order, order[1:])), neighbours)

    def test_places_of_moves(self) -> None:
        """A byte short and just enough in each form; at the end of a buffer, past it and far behind."""
        found, places = set(), set()
        for step in self.moves:
            file, form, at, size, _ = step.arguments
            if step.number in (0, 15):
                needed = size_of(form, f.last_trailer(file).count)
                found.add((form, step.number, size - at - needed))
                places |= {(form, at), (form, (at + needed) % 2**64)} if step.number == 15 else set()
        self.assertLessEqual({(form, *one) for form in (1, 2) for one in ((0, 0), (15, -1))}, found)
        for place in (0, 1, 2**32 - 1, 2**32, 2**63 - 1, 2**63, 2**64 - 1):
            self.assertLessEqual({(1, place), (2, place)}, places)

    def test_sheets_beside_moves(self) -> None:
        """Moves on a sheet not open and on one with open changes, with a look behind them."""
        found = {
            (step.before.is_open, bool(step.before.later), after.call)
            for step, after in zip(self.steps, self.steps[1:]) if step.call == "move"
        }
        self.assertLessEqual({(False, False, "counts"), (True, True, "spaces"), (True, True, "counts")}, found)

    def test_random_sessions(self) -> None:
        """What is played at random reaches decks, vessel numbers, both forms and moves too."""
        walked = [step for step in steps_at_random() if step.number is not None]
        writes = Counter(
            (step.further.get("form", 1), step.number) for step in walked if step.call in ("write", "writef")
        )
        self.assertLessEqual({(1, 0), (2, 0), (1, 20), (2, 15), (1, 15), (2, 13), (1, 13)}, set(writes))
        self.assertTrue({form for form, number in writes if number == 2} - {1, 2})
        moves = Counter(step.number for step in walked if step.call == "move")
        self.assertLessEqual({0, 2, 15, 16, 17, 18, 20, 21}, set(moves))
        pairs = {(f.read(step.arguments[0])[4], step.arguments[1]) for step in walked if step.call == "move"}
        self.assertLessEqual(set(product((1, 2), repeat=2)), pairs)
        reads = {(step.number, step.answer.split(" ")[4]) for step in walked if step.call in ("read", "before")}
        self.assertLessEqual({(0, "1"), (0, "2"), (17, "0")}, reads)
        for call in ("enter", "tank"):
            decks = {(step.number, step.further.get("deck")) for step in walked if step.call == call}
            self.assertLessEqual({(0, None), (0, 0), (0, 1), (0, 99), (2, 100), (2, 255)}, decks)
        self.assertLessEqual({0, 1, 2**32 - 1}, {step.further.get("vessel") for step in walked if step.call == "open"})


if __name__ == "__main__":
    unittest.main()
