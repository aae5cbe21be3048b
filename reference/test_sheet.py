"""Tests of the sheet, its protocol and its scripts: the paper's figures, the readings, invariants, edges visited."""

import io
import unittest
from contextlib import redirect_stderr, redirect_stdout
from dataclasses import FrozenInstanceError, dataclass, replace
from fractions import Fraction
from functools import cache, cached_property
from itertools import combinations, product
from random import Random
from typing import Any, Iterator, Sequence
from unittest import mock

from reference import dayfile, measure as m, scripts, sheet as s, survey
from reference.measure import B, H, R, S, U
from reference.scripts import (
    a_thousand, by_stations, chain, deducted, divided, enter, even_tank, half, hatchway, machinery, mark,
    read_and_entered_anew, room, tank, tank_of_a_thousand, twenty_thousand, withdraw, zones,
)
from reference.sheet import BALLAST, DEDUCTED, EXEMPT, INNER, MACHINERY, PLAIN, POINTED, UPRIGHT, Sheet, Space
from reference.survey import Session
from reference.test_measure import in_whole_numbers

BEGINNINGS = ("open", "read", "before")  # they 'take no sheet and answer a new one'
ENTRIES = ("enter", "tank")
CHANGES = (*ENTRIES, "withdraw", "mark")
LOOKS = ("counts", "spaces", "report")
WHERE = ("zones",)
WRITES = ("write", "writef")
MOVES = ("move",)  # it 'takes no sheet', and the current one stays


@dataclass(frozen=True)
class Step:
    """A line of a script that has an answer."""

    before: Sheet
    line: str
    answer: str
    after: Sheet

    @cached_property
    def words(self) -> list[str]:
        """The words of the line."""
        return self.line.split(" ")

    @property
    def call(self) -> str:
        """The first word of the line."""
        return self.words[0]

    @cached_property
    def number(self) -> int | None:
        """The number answered, None for a remark."""
        return None if self.answer.startswith("?") else int(self.answer.split(" ")[0])

    @cached_property
    def arguments(self) -> list[Any]:
        """The arguments of a call as the library gets them, but for those that may be left out."""
        return survey.handed_on(self.words)[0]

    @cached_property
    def further(self) -> dict[str, int]:
        """Those that may be left out, by their names, where they aren't."""
        return survey.handed_on(self.words)[1]

    @cached_property
    def new(self) -> Space:
        """The space that an entry or a tank hands in; nothing of what an entry says of its ends is in it."""
        made = s.new_tank if self.call == "tank" else s.new_space
        return made(self.before, *self.arguments, self.further.get("deck", 0))

    @property
    def ends(self) -> tuple[int, ...]:
        """What an entry says of its ends, nothing where they are left out."""
        return tuple(self.further[end] for end in ("fore", "aft") if end in self.further)

    @cached_property
    def rounding(self) -> int:
        """What an entry passes on of its length."""
        return int(self.answer.split(" ")[1])

    @cached_property
    def roundings_of_depths(self) -> list[int]:
        """What an entry passes on of its stations' depths."""
        depths = self.answer.split(" ")[2]
        return [] if depths == "-" else [int(depth) for depth in depths.split(",")]

    @cached_property
    def visited(self) -> int:
        """The enclosing spaces that an entry or a tank visited."""
        return int(self.answer.split(" ")[-1])

    @cached_property
    def numbers(self) -> set[int]:
        """All that apply to an entry or a tank."""
        if self.call == "tank":
            return s.numbers_of_tank(self.before, self.new, *self.arguments[4:])
        return s.numbers_of_entry(self.before, self.new, *self.arguments[5:], *self.ends)


def steps(text: str) -> list[Step]:
    """A script, line by line."""
    session, found = Session(), []
    for line in text.split("\n"):
        before = session.sheet
        answer = session.answer(line)
        if answer is not None:
            found.append(Step(before, line, answer, session.sheet))
    return found


def steps_from(sheet: Sheet, line: str) -> Step:
    """One line on a sheet."""
    session = Session()
    session.sheet = sheet
    return Step(sheet, line, session.answer(line), session.sheet)


def walked(walk: scripts.Section, seed: int) -> list[Step]:
    """A walk of one sort, line by line."""
    session = Session()
    return steps("\n".join(scripts.lines_of(walk(Random(seed), session), session)))


@cache
def steps_at_random() -> list[Step]:
    """Twelve scripts of calls at random, line by line."""
    return [step for seed in range(12) for step in steps(scripts.script(seed, 1000))]


@cache
def standard_steps() -> list[Step]:
    """The standard script, line by line."""
    return steps(scripts.standard())


class OfCalls(unittest.TestCase):
    """Lines and their answers, on one session a test."""

    def setUp(self) -> None:
        self.session = Session()

    def given(self, *lines: str) -> list[str]:
        """The answers to the lines."""
        return [self.session.answer(line) for line in lines]

    def asks(self, line: str, answer: str) -> None:
        """One line and the answer it must have."""
        self.assertEqual(self.session.answer(line), answer, msg=line)

    def accepted(self, *lines: str) -> None:
        """Lines that must be accepted."""
        for line, answer in zip(lines, self.given(*lines)):
            self.assertEqual(answer.split(" ")[0], "0", msg=line)

    def refused(self, number: int, *lines: str) -> None:
        """Lines that must be refused with a number and leave the sheet as it came."""
        before = self.session.sheet
        for line, answer in zip(lines, self.given(*lines)):
            self.assertEqual(answer.split(" ")[0], str(number), msg=line)
        self.assertEqual(self.session.sheet, before)

    def numbers(self, line: str) -> set[int]:
        """All that apply to an entry or a tank."""
        return steps_from(self.session.sheet, line).numbers

    def ids(self) -> list[int]:
        """The ids of the standing spaces in order of entry."""
        return [space.id for space in self.session.sheet.spaces]


class FiguresOfThePaper(OfCalls):
    """'Figures to meet' and 'Errors a good surveyor has made', as far as they speak of a sheet."""

    WHOLE = (
        "open 4800", divided(1, U, 4800, 4800, 1200, 2000), divided(2, S, 4800, 1600, 800, 1000),
        enter(3, 1, R, 2, 1000, [400], [1000]), enter(4, 2, R, 3, 800, [800], [500]),
        enter(5, 0, H, 0, 500, [500], [400]),
    )

    def test_whole_sheet(self) -> None:
        self.accepted(*self.WHOLE)
        self.asks("report 0", "0 12439 12119")
        self.asks("report 1", "0 12439 12119")
        self.asks("spaces", "0 1 4800 5 0 1:0:1:0:11521:4800:4:0 2:0:3:0:1280:1600:0:0 3:1:5:2:400:1000:0:0 "
                            "4:2:5:3:320:800:0:0 5:0:4:0:100:500:0:0")
        self.asks("counts", "0 5 0")

    def test_whole_sheet_by_calls(self) -> None:
        number, sheet = s.open_sheet(4800)
        for id, within, kind, standing, length, height, breadth in (
            (1, 0, U, 0, 4800, 1200, 2000), (2, 0, S, 0, 1600, 800, 1000), (3, 1, R, 2, 1000, 400, 1000),
            (4, 2, R, 3, 800, 800, 500), (5, 0, H, 0, 500, 500, 400),
        ):
            count = {U: (7, 35), S: (3, 3)}.get(kind, (1, 1))
            ends = (UPRIGHT, UPRIGHT) if kind == U else ()
            *answer, sheet = s.enter(
                sheet, id, within, kind, standing, length, [height] * count[0], [breadth] * count[1], *ends
            )
            expected = {U: [0, 6, (0,) * 7, 0], S: [0, 2, (), 0], R: [0, 0, (), 1], H: [0, 0, (), 0]}
            self.assertEqual(answer, expected[kind])
        self.assertEqual(s.report(sheet, 0), (0, 12439, 12119, sheet))
        self.assertEqual((s.t(sheet.spaces), s.e(sheet.spaces), s.d(sheet.spaces)), (12801, 400, 320))
        self.assertEqual(s.counts(sheet), (0, 5, 0, sheet))

    def test_excess(self) -> None:
        self.accepted(*twenty_thousand(), hatchway(4, 100))
        self.assertEqual(s.t(self.session.sheet.spaces), 20000)
        self.asks("report 0", "0 20000 20000")
        self.accepted(hatchway(5, 1))
        self.asks("report 0", "0 20001 20001")

    def test_ballast(self) -> None:
        self.accepted(*a_thousand(), room(4, 1, 300, BALLAST))
        self.assertEqual(s.gross_for_ballast(self.session.sheet.spaces), 1000)
        self.asks("report 0", "0 700 700")
        self.accepted(room(5, 1, 1, BALLAST))
        self.asks("report 0", "14 0 0")
        self.asks("report 1", "0 699 699")

    def test_levels(self) -> None:
        for outer in (divided(1, U, 1200, 600, 1200, 500), divided(1, B, 1200, 900, 500, 500),
                      divided(1, S, 1200, 300, 933, 1000)):
            for tonnage in (0, 100):
                self.accepted("open 1200", outer, *chain(1, 2, 7, tonnage))
                spaces = self.session.sheet.spaces
                self.assertEqual([s.level(spaces, space) for space in spaces], [1, 2, 3, 4, 5, 6, 7, 8])
                self.refused(7, room(9, 8, tonnage), room(9, 8, 0, EXEMPT), room(9, 8, 101))
                self.accepted(room(9, 7))

    def test_65_changes_then_65_undos(self) -> None:
        self.accepted("open 1200", *(hatchway(id, id) for id in range(1, 66)))
        self.asks("counts", "0 64 0")
        self.assertEqual(self.given(*["undo"] * 65), ["0"] * 64 + ["12"])
        self.asks("spaces", "0 1 1200 1 0 1:0:4:0:1:1:0:0")
        self.asks("counts", "0 0 64")
        self.assertEqual(self.given(*["redo"] * 65), ["0"] * 64 + ["12"])
        self.assertEqual(self.ids(), list(range(1, 66)))

    def test_error_of_the_order(self) -> None:
        """Undoing a withdrawal by entering the space again at the end of the order."""
        self.accepted("open 1200", *(hatchway(id, id) for id in (7, 3, 9, 1)))
        before = self.session.sheet
        self.accepted(withdraw(3))
        self.assertEqual(self.ids(), [7, 9, 1])
        self.accepted("undo")
        self.assertEqual(self.session.sheet.spaces, before.spaces)
        self.accepted(withdraw(3), hatchway(3, 3))
        self.assertEqual(self.ids(), [7, 9, 1, 3])

    def test_error_of_the_half_percent(self) -> None:
        """The half percent isn't taken from a gross that already has the hatchways in it."""
        self.accepted(*twenty_thousand(), hatchway(4, 200))
        self.asks("report 0", "0 20100 20100")


class ReadingsOfEntries(OfCalls):
    """How the open points are read that speak of opening and of entries."""

    def test_every_measure_is_judged(self) -> None:
        self.accepted("open 1200", divided(1, U, 1200, 600, 1200, 500))
        for kind, count in ((U, (3, 15)), (B, (7, 7)), (S, (3, 3)), (H, (1, 1)), (R, (1, 1))):
            heights, breadths = [50] * count[0], [50] * count[1]
            self.refused(2, enter(9, 1, kind, 0, 300, heights, [*breadths, 30_001]))
            self.refused(2, enter(9, 1, kind, 0, 300, [*heights, 20_001], breadths))
            self.refused(2, enter(9, 1, kind, 0, 300, [], [30_001]), enter(9, 1, kind, 0, 300, [20_001], []))
            self.refused(3, enter(9, 1, kind, 0, 300, heights, [*breadths, 30_000]))
            self.refused(3, enter(9, 1, kind, 0, 300, [*heights, 20_000], breadths))
            self.refused(2 if kind in (H, R) else 3, enter(9, 1, kind, 0, 300, [*heights, 0], breadths))
            self.refused(2 if kind in (H, R) else 3, enter(9, 1, kind, 0, 300, heights, [*breadths, 0]))

    def test_greatest_measures_of_hatchways_and_rooms(self) -> None:
        self.accepted("open 1200", enter(1, 0, H, 0, 150_000, [20_000], [30_000]))
        self.asks("spaces", "0 1 1200 1 0 1:0:4:0:90000000:150000:0:0")
        self.refused(2, enter(2, 0, H, 0, 1, [20_001], [1]), enter(2, 0, H, 0, 1, [1], [30_001]))
        self.refused(2, enter(2, 0, H, 0, 1, [0], [1]), enter(2, 0, H, 0, 1, [1], [0]), enter(2, 0, H, 0, 0, [1], [1]))

    def test_enclosing_id_is_read_only_for_a_room(self) -> None:
        self.accepted("open 1200", divided(1, U, 1200, 600, 1200, 500), hatchway(2, 5))
        for kind, count in ((U, (3, 15)), (B, (7, 7)), (S, (3, 3)), (H, (1, 1))):
            for within in (1, 2, 3, 77, 10_000, 2**64 - 1):
                self.accepted(enter(3, within, kind, 0, 300, [50] * count[0], [50] * count[1]))
                self.assertEqual(self.session.sheet.spaces[-1].within, 0)
                self.accepted("undo")

    def test_ids_out_of_range(self) -> None:
        """A new id is 4; an enclosing id and one to withdraw or mark is 5."""
        self.accepted("open 1200", divided(1, U, 1200, 600, 1200, 500))
        for id in (0, 10_000, 65_535, 65_536, 65_537, 2**64 - 1):
            self.refused(4, hatchway(id, 5))
            self.refused(5, room(2, id, 5), withdraw(id), mark(id, 0))
        self.accepted(hatchway(9_999, 5))

    def test_own_id_as_enclosing_id(self) -> None:
        self.accepted("open 1200", divided(1, U, 1200, 600, 1200, 500))
        self.refused(5, room(2, 2, 5))
        self.refused(4, room(1, 1, 5))

    def test_under_deck_longer_than_the_tonnage_length(self) -> None:
        self.accepted("open 3000")
        self.refused(3, scripts.under_deck(1, 3001, 7), scripts.under_deck(1, 3000, 5))
        self.refused(9, scripts.under_deck(1, 3001, 5))
        self.accepted(scripts.under_deck(1, 100, 3))
        self.refused(9, scripts.under_deck(2, 3000, 7))
        self.refused(3, scripts.under_deck(2, 3000, 5))

    def test_short_tonnage_length(self) -> None:
        self.accepted("open 1200")
        self.refused(3, scripts.under_deck(1, 1200, 3))
        self.accepted(scripts.under_deck(1, 1200, 7), "report 0")

    def test_superstructure_whatever_under_deck_stands(self) -> None:
        for first in ("open 1200", scripts.under_deck(1, 600, 3), scripts.under_deck(2, 600, 3)):
            self.accepted(first, divided(3, S, 1200, 1200, 500, 500), "undo")
            self.refused(3, enter(3, 0, S, 0, 1200, [500] * 3, [500] * 3))

    def test_entry_looks_only_above(self) -> None:
        self.accepted(*a_thousand(), room(4, 1, 50, EXEMPT))
        self.refused(8, *(room(5, 4, 1, standing) for standing in (EXEMPT, BALLAST, DEDUCTED, MACHINERY)))
        self.accepted(room(5, 4, 1), room(6, 1, 50, BALLAST), room(7, 2, 50, DEDUCTED))
        self.refused(8, room(8, 5, 1, EXEMPT))

    def test_numbers_that_cannot_be_judged(self) -> None:
        """They count as not applying; a lower number applies where they can't be judged."""
        self.accepted(*a_thousand(), hatchway(4, 5))
        self.refused(2, enter(9, 0, 7, 0, 100, [], []), enter(9, 4, R, 7, 1, [1], [1]), enter(9, 3, S, 5, 9, [], []))
        self.refused(3, enter(9, 1, R, 0, 150_000, [20_000] * 2, [30_000]))
        self.refused(5, room(9, 77, 150_000, EXEMPT))
        self.refused(2, mark(77, 5), mark(4, 5), "report 2")
        judged = s.numbers_of_entry(self.session.sheet, Space(9, 77, R, 1, 0, 1), [1, 1], [1])
        self.assertEqual(judged, {3, 5})
        self.assertEqual(s.numbers_of_entry(self.session.sheet, Space(9, 4, 9, 9, 0, 1), [], []), {2})
        self.assertEqual(s.numbers_of_mark(self.session.sheet, 77, 9), {2, 5})
        self.assertEqual(s.numbers_of_report(self.session.sheet, 2), {2})

    def test_a_full_sheet_gives_10_last(self) -> None:
        self.accepted(*a_thousand(), *chain(1, 4, 7, 50), mark(9, EXEMPT), hatchway(11, 5))
        self.accepted(*(room(id, 2) for id in range(1000, 1000 + s.PLACES - 11)))
        self.assertEqual(len(self.session.sheet.spaces), 200)
        self.refused(10, room(999, 2), hatchway(999, 1), divided(999, S, 1200, 300, 933, 1000))
        for number, line in (
            (2, enter(999, 2, R, 0, 0, [1], [1])), (3, enter(999, 2, R, 0, 1, [], [1])), (4, room(4, 2)),
            (5, room(999, 77)), (6, room(999, 11)), (7, room(999, 10)), (8, room(999, 9, 0, EXEMPT)),
            (9, room(999, 2, 361)),
        ):
            self.refused(number, line)

    def test_rooms_of_nothing(self) -> None:
        self.accepted("open 1200", divided(1, U, 1200, 600, 0, 500), divided(2, U, 1200, 600, 1200, 500))
        self.accepted(room(3, 2, 360), room(4, 2), room(5, 1), room(6, 5))
        self.refused(9, room(7, 2, 1), room(7, 1, 1), room(7, 6, 1))
        self.refused(11, withdraw(5))
        self.accepted(*chain(6, 10, 5, 0), mark(6, EXEMPT))
        self.refused(7, room(15, 14))
        self.refused(8, mark(5, EXEMPT), mark(12, BALLAST), room(15, 13, 0, DEDUCTED))

    def test_sums_are_of_rooms_directly_inside(self) -> None:
        self.accepted(*a_thousand(), room(4, 1, 360), room(5, 4, 360, EXEMPT), room(6, 5, 300), room(7, 5, 60))
        self.refused(9, room(8, 1, 1), room(8, 4, 1), room(8, 5, 1))
        self.accepted(room(8, 6, 300), withdraw(7), room(9, 5, 60))

    def test_sums_of_all_standings(self) -> None:
        self.accepted(*a_thousand(), room(4, 1, 100), room(5, 1, 100, EXEMPT), room(6, 1, 100, DEDUCTED))
        self.refused(9, room(7, 1, 61), room(7, 1, 61, BALLAST))
        self.accepted(room(7, 1, 60, BALLAST))

    def test_lengths_of_under_deck_parts(self) -> None:
        self.accepted("open 1200", scripts.under_deck(1, 600, 3))
        self.refused(9, scripts.under_deck(2, 601, 3))
        self.accepted(scripts.under_deck(2, 600, 3))
        self.refused(9, scripts.under_deck(3, 100, 3))
        self.accepted(divided(3, B, 1200, 150_000, 1, 1), divided(4, S, 1200, 1300, 1, 1), hatchway(5, 1300))

    def test_kinds_by_standings(self) -> None:
        takes = {U: (0,), B: (0, 1), S: (0, 1), H: (0,), R: (0, 1, 2, 3, 4)}
        count = {U: (3, 15), B: (7, 7), S: (3, 3), H: (1, 1), R: (1, 1)}
        self.accepted("open 1200", divided(1, U, 1200, 600, 1200, 500))
        for kind in m.KINDS:
            for standing in range(5):
                line = enter(9, 1, kind, standing, 100, [50] * count[kind][0], [50] * count[kind][1])
                if standing in takes[kind]:
                    self.accepted(line, withdraw(9))
                else:
                    self.refused(6, line)
            for standing in (5, 255, 256, 260):
                self.refused(2, enter(9, 1, kind, standing, 100, [50] * count[kind][0], [50] * count[kind][1]))
            self.accepted(enter(9, 1, kind, 0, 100, [50] * count[kind][0], [50] * count[kind][1]))
            for standing in range(5):
                if standing in takes[kind]:
                    self.accepted(mark(9, standing))
                else:
                    self.refused(6, mark(9, standing))
            self.refused(2, mark(9, 5), mark(9, 255), mark(9, 256), mark(9, 260))
            self.accepted(withdraw(9))

    def test_hatchway_encloses_nothing(self) -> None:
        self.accepted("open 1200", hatchway(1, 50))
        self.refused(6, room(2, 1), room(2, 1, 50), room(2, 1, 51), room(2, 1, 0, EXEMPT))

    def test_opening(self) -> None:
        for length in (0, 99, 150_001, 2**32 - 1, 2**32 + 1200, 2**64 - 1):
            self.accepted("open 1200", hatchway(1, 5))
            self.asks(f"open {length}", "2")
            self.assertEqual(self.given("spaces", "counts", "report 0"), ["0 0 0 0 0", "0 0 0", "1 0 0"])
        for length in (100, 150_000):
            self.asks(f"open {length}", "0")
            self.asks("spaces", f"0 1 {length} 0 0")

    def test_a_sheet_not_open(self) -> None:
        for first in ("", "open 99"):
            self.given(first)
            self.refused(
                1, hatchway(1, 5), enter(0, 0, 9, 9, 0, [], []), withdraw(1), withdraw(0), mark(1, 0), mark(1, 5),
                "undo", "redo", "report 0", "report 1", "report 2",
            )
            self.assertEqual(self.given("spaces", "counts"), ["0 0 0 0 0", "0 0 0"])
        self.assertEqual(self.session.sheet, s.CLOSED)

    def test_several_under_deck_parts_and_levels(self) -> None:
        """Several U of one length and several B; a B, S, H or R may be longer than the tonnage length."""
        self.accepted("open 1200", *(scripts.under_deck(id, 400, 3) for id in (1, 2, 3)))
        self.accepted(*(divided(id, B, 1200, 1300, 50, 50) for id in (4, 5)), divided(6, S, 1200, 1300, 50, 50))
        self.accepted(hatchway(7, 1300), enter(8, 4, R, 0, 1300, [1], [1]), "report 0")


class ReadingsOfChanges(OfCalls):
    """How the open points are read that speak of changes, undo and redo."""

    def test_mark_of_the_same_standing(self) -> None:
        self.accepted(*a_thousand(), hatchway(4, 5), "undo")
        self.asks("counts", "0 3 1")
        before = self.session.sheet.spaces
        self.accepted(mark(1, PLAIN))
        self.assertEqual(self.session.sheet.spaces, before)
        self.asks("counts", "0 4 0")
        self.refused(12, "redo")
        self.accepted(hatchway(4, 5), mark(4, PLAIN), "undo", "undo", "undo")
        self.asks("counts", "0 3 3")

    def test_one_not_plain_standing_for_another(self) -> None:
        self.accepted(*a_thousand(), room(4, 1, 50, EXEMPT), room(5, 4, 10))
        self.accepted(*(mark(4, standing) for standing in (2, 3, 1, 4, 4, 1, 1, 3, 4, 3, 2, 4, 2)), mark(5, PLAIN))
        self.refused(8, mark(5, EXEMPT))
        self.accepted(mark(4, PLAIN), mark(5, EXEMPT), mark(4, PLAIN))
        self.refused(8, mark(4, EXEMPT))

    def test_not_plain_at_all_levels(self) -> None:
        self.accepted("open 1200", divided(1, S, 1200, 300, 933, 1000), *chain(1, 2, 7, 40), room(9, 3, 0))
        for upper, lower in combinations(range(1, 9), 2):
            self.accepted(mark(upper, EXEMPT))
            self.refused(8, *(mark(lower, standing) for standing in (1, 2, 3, 4)))
            self.accepted(mark(lower, PLAIN), mark(upper, PLAIN), mark(lower, DEDUCTED))
            self.refused(8, mark(upper, EXEMPT))
            self.accepted(mark(upper, PLAIN), mark(lower, PLAIN))
        self.accepted(mark(9, EXEMPT), mark(4, BALLAST))  # beside one another
        self.refused(8, mark(3, DEDUCTED))
        self.refused(6, mark(1, BALLAST))  # 8 applies too

    def test_redo_after_calls_that_change_nothing(self) -> None:
        self.accepted(*a_thousand(), room(4, 1, 50), "undo")
        for line in (
            "report 0", "report 2", "counts", "spaces", "redo 1", "nothing", room(1, 1, 1), withdraw(77), mark(1, 1),
            room(5, 1, 361),
        ):
            self.given(line)
            self.accepted("redo", "undo")
        self.accepted("undo", "undo", "undo")
        self.refused(12, "undo")
        self.accepted("redo", "redo", "redo", "redo")
        self.refused(12, "redo")
        self.assertEqual(self.ids(), [1, 2, 3, 4])

    def test_64_changes_10_undos_one_change(self) -> None:
        self.accepted("open 1200", *(hatchway(id, id) for id in range(1, 65)), *["undo"] * 10)
        self.asks("counts", "0 54 10")
        self.accepted(hatchway(100, 5))
        self.asks("counts", "0 55 0")
        self.refused(12, "redo")
        self.assertEqual(self.ids(), [*range(1, 55), 100])
        self.accepted(*["undo"] * 55)
        self.refused(12, "undo")
        self.assertEqual(self.ids(), [])

    def test_changes_pushed_out_stay_made(self) -> None:
        self.accepted("open 1200", *(hatchway(id, id) for id in range(1, 71)), *["undo"] * 64)
        self.refused(12, "undo")
        self.assertEqual(self.ids(), [1, 2, 3, 4, 5, 6])
        self.accepted(*["redo"] * 64)
        self.asks("counts", "0 64 0")
        self.accepted(withdraw(1), *["undo"] * 64)
        self.assertEqual(self.ids(), [1, 2, 3, 4, 5, 6, 7])

    def test_freed_places_and_order(self) -> None:
        self.accepted("open 1200", *(hatchway(id, 1) for id in range(1, 201)))
        self.refused(10, hatchway(201, 1))
        self.accepted(withdraw(50), hatchway(201, 1))
        self.refused(10, hatchway(50, 1))
        self.assertEqual(self.ids(), [*range(1, 50), *range(51, 202)])
        self.accepted("undo", "undo", "redo", "redo")
        self.assertEqual(self.ids(), [*range(1, 50), *range(51, 202)])

    def test_ids_again(self) -> None:
        """After a withdrawal and after an undone entry, of another kind too; it comes last in order."""
        self.accepted(*a_thousand(), hatchway(4, 5), hatchway(5, 5), withdraw(4), room(4, 1, 20, EXEMPT))
        self.assertEqual(self.ids(), [1, 2, 3, 5, 4])
        self.refused(4, hatchway(4, 5))
        self.accepted("undo", "undo")
        self.assertEqual([space.kind for space in self.session.sheet.spaces], [U, U, S, H, H])
        self.accepted("redo", "redo", "undo", divided(4, B, 1200, 1200, 50, 50))
        self.refused(12, "redo")
        self.assertEqual(self.session.sheet.spaces[-1].kind, B)

    def test_withdrawal_of_a_space_that_encloses(self) -> None:
        self.accepted(*a_thousand(), room(4, 1), room(5, 4))
        self.refused(11, withdraw(1), withdraw(4))
        self.accepted(withdraw(5), withdraw(4), withdraw(1))
        self.refused(5, withdraw(1), mark(1, 0), room(4, 1))

    def test_undo_of_withdrawals_in_the_middle(self) -> None:
        self.accepted("open 1200", *(hatchway(id, id) for id in range(1, 8)))
        states = [self.session.sheet.spaces]
        for id in (3, 5, 1, 7):
            self.accepted(withdraw(id))
            states.append(self.session.sheet.spaces)
        for state in states[-2::-1]:
            self.accepted("undo")
            self.assertEqual(self.session.sheet.spaces, state)
        for state in states[1:]:
            self.accepted("redo")
            self.assertEqual(self.session.sheet.spaces, state)

    def test_undo_of_a_mark(self) -> None:
        self.accepted(*a_thousand(), room(4, 1, 50), mark(4, EXEMPT), mark(4, BALLAST), "undo")
        self.assertEqual(self.session.sheet.spaces[-1].standing, EXEMPT)
        self.accepted("undo")
        self.assertEqual(self.session.sheet.spaces[-1].standing, PLAIN)
        self.accepted("redo", "redo")
        self.assertEqual(self.session.sheet.spaces[-1].standing, BALLAST)

    def test_sheets_are_values(self) -> None:
        """A call leaves the sheet it takes as it was."""
        self.accepted(*a_thousand())
        before = self.session.sheet
        copy = replace(before)
        _, after = s.withdraw(before, 2)
        self.assertEqual(before, copy)
        self.assertNotEqual(after, before)
        with self.assertRaises(FrozenInstanceError):
            before.length = 1
        with self.assertRaises(FrozenInstanceError):
            before.spaces[0].standing = 1


class ReadingsOfTanks(OfCalls):
    """Tanks that follow the hull: the request's figures, each refusal alone and beside others, and where m goes."""

    RIGHT = ([9] * 3, [9] * 15)  # of a tank 300 long from 0 on in a U of 600, which is in two parts

    def on_a_read_sheet(self) -> None:
        """U 1 with m, U 2 without, S 3 exempt, hatchway 4, rooms 5 and 6 of 10, B 7, rooms 11 to 17 down to level 8."""
        self.accepted(*read_and_entered_anew(), mark(3, EXEMPT), hatchway(4, 50), room(5, 1, 10), room(6, 2, 10))
        self.accepted(divided(7, B, 1200, 1200, 50, 50), *chain(1, 11, 7, 1))

    def test_the_whole_box(self) -> None:
        self.accepted("open 4800", divided(1, U, 4800, 4800, 1200, 2000))
        self.accepted(tank(2, 1, BALLAST, 4800, 0, [1200] * 7, [2000] * 35))
        self.asks("spaces", "0 1 4800 2 0 1:0:1:0:11521:4800:4:0 2:1:5:2:11521:4800:0:0")
        self.refused(9, room(3, 1, 1))
        self.accepted(room(3, 1))
        self.refused(14, "report 0")
        self.asks("report 1", "0 0 0")

    def test_between_two_zones_and_a_hundredth_off(self) -> None:
        """Zones of a U of 1800 end at 100, 500, 700, 1100, 1300, 1700; a tank of 600 is in 2 parts."""
        self.accepted("open 1800", divided(1, U, 1800, 1800, 1200, 1000))
        for fore, sections in ((99, 3), (100, 5), (101, 3)):
            for count in (2, 3, 4, 5, 6):
                line = tank(2, 1, 0, 600, fore, [1200] * count, [1000] * (5 * count))
                if count == sections:
                    self.accepted(line)
                    self.assertEqual(self.session.sheet.spaces[-1], Space(2, 1, R, 0, 720, 600))
                    self.accepted("undo")
                else:
                    self.refused(3, line)

    def test_the_larger_of_two(self) -> None:
        self.accepted("open 1800", divided(1, U, 1800, 1800, 1200, 1000))
        for depths, tonnage in (
            ([1200, 600, 1200, 600, 1200], 720), ([600, 1200, 1200, 1200, 600], 720), ([600, 600, 1200, 600, 600], 600),
            ([1200, 0, 0, 0, 0], 120), ([0, 1200, 0, 0, 0], 120), ([0, 0, 1200, 0, 0], 480), ([0, 0, 0, 1200, 0], 120),
            ([0, 0, 0, 0, 1200], 120), ([600, 1200, 0, 0, 0], 120), ([0] * 5, 0),
        ):
            self.accepted(tank(2, 1, 0, 600, 100, depths, [1000] * 25))
            self.assertEqual(self.session.sheet.spaces[-1].tonnage, tonnage)
            self.accepted("undo")

    def test_the_m_of_its_under_deck(self) -> None:
        """Whatever the tank's own depths are; the middle station's depth alone fixes the U's."""
        self.accepted("open 1200", enter(1, 0, U, 0, 600, [9, 1601, 9], [900] * 21))
        self.accepted(enter(2, 0, U, 0, 600, [20_000, 1600, 20_000], [900] * 15))
        self.assertEqual([space.m for space in self.session.sheet.spaces], [6, 4])
        for within, row in ((1, 7), (2, 5)):
            for depth in (0, 1600, 1601, 20_000):
                self.refused(3, tank(3, within, 0, 100, 0, [depth] * 4, [5] * (4 * (12 - row))))
                self.accepted(tank(3, within, 0, 100, 0, [depth] * 4, [5] * (4 * row)), "undo")

    def test_ends(self) -> None:
        """Fore 0 and ends flush, and a hundredth too long."""
        self.accepted("open 1200", divided(1, U, 1200, 600, 1200, 500))
        for length, fore in ((600, 0), (1, 0), (1, 599), (599, 1), (300, 300)):
            self.accepted(even_tank(self.session.sheet, 2, 1, length, fore), "undo")
        for length, fore in ((601, 0), (600, 1), (1, 600), (301, 300), (300, 301), (150_000, 0), (1, 150_000)):
            self.refused(9, tank(2, 1, 0, length, fore, *self.RIGHT), tank(2, 1, 0, length, fore, [], []))

    def test_refused_alone(self) -> None:
        self.asks(tank(500, 1, 0, 300, 0, *self.RIGHT), "1 0")
        self.on_a_read_sheet()
        depths, breadths = self.RIGHT
        for number, line in (
            (2, tank(500, 1, 5, 300, 0, depths, breadths)), (2, tank(500, 1, 255, 300, 0, depths, breadths)),
            (2, tank(500, 1, 0, 300, 0, [9, 9, 20_001], breadths)), (2, tank(500, 1, 0, 300, 0, depths, [30_001] * 15)),
            (3, tank(500, 1, 0, 300, 0, [9] * 4, breadths)), (3, tank(500, 1, 0, 300, 0, [9] * 2, breadths)),
            (3, tank(500, 1, 0, 300, 0, depths, [9] * 14)), (3, tank(500, 1, 0, 300, 0, depths, [9] * 16)),
            (3, tank(500, 1, 0, 300, 0, [9] * 4, [9] * 20)), (3, tank(500, 1, 0, 300, 0, [9] * 2, [9] * 10)),
            (4, tank(0, 1, 0, 300, 0, depths, breadths)), (4, tank(10_000, 1, 0, 300, 0, depths, breadths)),
            (4, tank(2, 1, 0, 300, 0, depths, breadths)), (5, tank(500, 77, 0, 300, 0, depths, breadths)),
            (5, tank(500, 0, 0, 300, 0, depths, breadths)), (5, tank(500, 500, 0, 300, 0, depths, breadths)),
            *((6, tank(500, within, 0, 300, 0, depths, breadths)) for within in (3, 4, 5, 7, 12)),
            (9, tank(500, 1, 0, 300, 301, depths, breadths)), (9, tank(500, 1, 0, 600, 0, [1200] * 3, [500] * 15)),
            (29, tank(500, 2, 0, 300, 0, depths, breadths)),
        ):
            self.assertEqual(self.numbers(line), {number}, msg=line)
            self.refused(number, line)
        self.refused(2, tank(500, 1, 0, 300, 150_001, depths, breadths), tank(500, 1, 0, 150_001, 0, depths, breadths))
        self.refused(2, tank(500, 1, 0, 0, 0, depths, breadths), tank(500, 1, 0, 0, 0, [9] * 17, [9] * 85))
        self.accepted(tank(500, 1, 3, 300, 0, depths, breadths))

    def test_refused_beside_others(self) -> None:
        """The lowest number, of those that are judged."""
        self.on_a_read_sheet()
        depths, breadths = self.RIGHT
        over = ([1200] * 3, [500] * 15)
        for numbers, line in (
            ({2, 9}, tank(500, 1, 0, 300, 150_001, depths, breadths)), ({2, 9}, tank(500, 1, 0, 150_001, 0, [], [])),
            ({2, 3}, tank(500, 1, 0, 300, 0, [9] * 3 + [20_001], breadths)),
            ({2, 3}, tank(500, 1, 0, 300, 0, depths, [*breadths, 30_001])), ({2, 3}, tank(500, 1, 5, 300, 0, [], [])),
            ({2, 5}, tank(500, 77, 0, 300, 0, depths, [*breadths, 30_001])), ({2, 6}, tank(500, 4, 5, 300, 0, [], [])),
            ({2, 4}, tank(0, 1, 5, 300, 0, depths, breadths)), ({2, 29}, tank(500, 2, 5, 300, 0, [], [])),
            ({3, 4}, tank(2, 1, 0, 300, 0, [], [])), ({3}, tank(500, 1, 0, 600, 0, [1200] * 4, [500] * 15)),
            ({4}, tank(65_536, 1, 0, 300, 0, *self.RIGHT)), ({4, 5}, tank(0, 77, 0, 300, 0, [], [])),
            ({4, 6}, tank(1, 3, 0, 300, 0, [], [])), ({4, 9}, tank(1, 1, 0, 601, 0, [], [])),
            ({4, 9}, tank(2, 1, 0, 600, 0, *over)), ({4, 29}, tank(2, 2, 0, 300, 0, [], [])),
            ({5}, tank(500, 77, 0, 601, 0, [], [])),
            ({6}, tank(500, 4, 0, 601, 150_000, [], [])), ({6}, tank(500, 5, 0, 600, 0, *over)),
            ({6, 7}, tank(500, 17, 0, 601, 0, [], [])), ({6, 8}, tank(500, 3, EXEMPT, 601, 0, [], [])),
            ({9}, tank(500, 1, 0, 601, 0, [], [])), ({9, 29}, tank(500, 2, 0, 601, 0, [], [])),
            ({29}, tank(500, 2, 0, 300, 0, [], [])), ({29}, tank(500, 2, 0, 600, 0, [20_000] * 3, [30_000] * 15)),
        ):
            self.assertEqual(self.numbers(line), numbers, msg=line)
            self.refused(min(numbers), line)

    def test_200_spaces(self) -> None:
        """10 before 29, and behind all the others."""
        self.on_a_read_sheet()
        self.accepted(*(room(id, 5) for id in range(1000, 1000 + s.PLACES - len(self.session.sheet.spaces))))
        right, over = self.RIGHT, ([1200] * 3, [500] * 15)
        for numbers, line in (
            ({10}, tank(500, 1, 0, 300, 0, *right)), ({10, 29}, tank(500, 2, 0, 300, 0, *right)),
            ({10, 29}, tank(500, 2, 0, 300, 0, [], [])), ({9, 10, 29}, tank(500, 2, 0, 601, 0, *right)),
            ({9, 10}, tank(500, 1, 0, 601, 0, [], [])), ({9, 10}, tank(500, 1, 0, 600, 0, *over)),
            ({3, 10}, tank(500, 1, 0, 300, 0, [], [])), ({6, 10}, tank(500, 3, 0, 601, 0, [], [])),
            ({5, 10}, tank(500, 500, 0, 601, 0, [], [])), ({4, 10}, tank(1, 1, 0, 300, 0, *right)),
            ({2, 10}, tank(500, 1, 5, 300, 0, *right)),
        ):
            self.assertEqual(self.numbers(line), numbers, msg=line)
            self.refused(min(numbers), line)
        self.accepted(withdraw(1000))
        self.refused(29, tank(500, 2, 0, 300, 0, *right))
        self.accepted(tank(500, 1, 0, 300, 0, *right))
        self.refused(10, tank(501, 1, 0, 300, 0, *right), tank(501, 2, 0, 300, 0, *right))

    def test_own_id_as_enclosing_id(self) -> None:
        self.on_a_read_sheet()
        self.refused(5, tank(500, 500, 0, 300, 0, *self.RIGHT), tank(500, 500, 0, 300, 0, [], []))
        self.refused(4, *(tank(id, id, 0, 300, 0, *self.RIGHT) for id in (1, 2, 3, 4, 5, 0, 10_000)))

    def test_numbers_are_totals(self) -> None:
        """'3 judges the totals of the flat lists'; 0 is in a station's ranges."""
        self.accepted("open 1200", divided(1, U, 1200, 600, 1200, 500))
        for one in (2, 3, 4):
            self.refused(3, *(tank(2, 1, 0, 300, 0, [0] * one, [0] * other) for other in (10, 14, 16, 20)))
        self.refused(3, tank(2, 1, 0, 300, 0, [0] * 15, [0] * 3))
        self.accepted(tank(2, 1, 0, 300, 0, [0] * 3, [0] * 15), "undo", tank(2, 1, 0, 300, 0, [20_000] * 3, [0] * 15))

    def test_greatest_measures(self) -> None:
        self.accepted("open 150000", divided(1, U, 150_000, 150_000, 20_000, 30_000))
        self.refused(3, tank(2, 1, 0, 150_000, 0, [20_000] * 17, [30_000] * 85))
        self.accepted(tank(2, 1, 0, 150_000, 0, [20_000] * 17, [30_000] * 119))
        whole, own = self.session.sheet.spaces
        self.assertEqual((whole.tonnage, own.tonnage), (89_991_000, 89_991_000))
        self.refused(9, tank(3, 1, 0, 150_000, 0, [9_999] * 17, [9_999] * 119))

    def test_a_room_in_every_way(self) -> None:
        """Rooms inside and beside it, marks, withdrawals, levels and sums."""
        self.accepted(*a_thousand(), tank_of_a_thousand(4, 1, 300, 0, 1200, 500))
        self.assertEqual(self.session.sheet.spaces[-1], Space(4, 1, R, 0, 180, 300))
        self.refused(9, room(5, 4, 181), room(5, 1, 181), tank_of_a_thousand(5, 1, 302, 0, 1200, 500))
        self.accepted(room(5, 4, 180), room(6, 1, 180, DEDUCTED))
        self.refused(9, room(7, 1, 1), room(7, 5, 181), tank_of_a_thousand(7, 1, 300, 0, 100, 500))
        self.accepted(tank_of_a_thousand(7, 1, 300, 0, 0, 500), mark(4, EXEMPT))
        self.refused(8, mark(5, EXEMPT), room(8, 5, 1, BALLAST))
        self.refused(11, withdraw(1), withdraw(4))
        self.accepted(withdraw(5), mark(4, BALLAST), withdraw(4), "undo", "undo", "undo", *chain(5, 11, 5, 1))
        self.refused(7, room(16, 15, 1))
        self.refused(6, tank(16, 4, 0, 9, 0, [1] * 3, [1] * 15))
        self.accepted("report 0", *["undo"] * 5, "redo")
        self.assertEqual(self.ids(), [1, 2, 3, 4, 5, 6, 7, 11])

    def test_changes_carry_m(self) -> None:
        """A mark, an undone withdrawal and an entry made again keep it."""
        self.accepted(*a_thousand())
        for lines in (
            [mark(1, PLAIN)], [withdraw(1), "undo"], [mark(1, PLAIN), withdraw(1), "undo"],
            [mark(1, PLAIN), "undo"], [mark(1, PLAIN), "undo", "redo"], ["undo"] * 4 + ["redo"] * 4,
        ):
            self.accepted(*lines, tank(4, 1, 0, 300, 0, *self.RIGHT), withdraw(4))
            self.assertEqual(s.find(self.session.sheet.spaces, 1).m, 4)
        self.accepted(withdraw(1), divided(1, U, 1200, 600, 1601, 500))
        self.assertEqual([space.m for space in self.session.sheet.spaces], [4, 0, 6])
        self.refused(3, tank(4, 1, 0, 300, 0, *self.RIGHT))
        self.accepted("undo", "undo", tank(4, 1, 0, 300, 0, *self.RIGHT))

    def test_a_file_holds_no_m(self) -> None:
        self.accepted(*a_thousand(), tank(4, 1, BALLAST, 300, 0, [600] * 3, [300] * 15))
        file = dayfile.bytes_of(1, self.session.sheet, 0)
        own = tank(5, 1, 0, 300, 300, *self.RIGHT)
        self.accepted(own, "undo", scripts.read(file))
        self.assertEqual(dayfile.bytes_of(1, self.session.sheet, 0), file)
        self.assertEqual([space.m for space in self.session.sheet.spaces], [0, 0, 0, 0])
        self.refused(29, own)
        self.accepted(withdraw(4), withdraw(1))
        self.refused(5, own)
        self.accepted("undo")  # 'brings it back without'
        self.refused(29, own)
        self.accepted(mark(1, PLAIN))
        self.refused(29, own)
        self.accepted(withdraw(1), divided(1, U, 1200, 600, 1200, 500), own, "undo", "undo", "undo")
        self.refused(29, own)
        self.accepted("redo", "redo", own)

    def test_an_m_that_is_none(self) -> None:
        """'On a sheet that no call handed back, an m that is neither 4 nor 6 is none.'"""
        self.accepted(*a_thousand())
        for own_m, number in ((0, 29), (1, 29), (3, 29), (5, 29), (7, 29), (255, 29), (6, 3), (4, 0)):
            first, *others = self.session.sheet.spaces
            sheet = replace(self.session.sheet, spaces=(replace(first, m=own_m), *others))
            self.assertEqual(s.enter_tank(sheet, 4, 1, 0, 300, 0, *self.RIGHT)[0], number)

    def test_zones(self) -> None:
        """It needs no sheet and leaves one as it is; a U longer than the tonnage length is a step part."""
        for first in ("open 99", "open 1200", divided(1, U, 1200, 600, 1200, 500)):
            self.given(first)
            for line, answer in (
                (zones(4800, 4800, 4800, 0), "0 6 1,2,3,4,5,6,7"), (zones(1800, 1800, 600, 100), "0 2 1,2,2,3,4"),
                (zones(1200, 1200, 1000, 0), "0 6 1,2,2,3,4,4,5,6"), (zones(1200, 600, 300, 0), "0 2 1,2,2"),
                (zones(500, 600, 400, 100), "0 2 1,2,2,2,3"), (zones(600, 600, 600, 0), "0 6 1,2,3,4,5,6,7"),
                (zones(4800, 4800, 4801, 0), "9 0 -"), (zones(4800, 4800, 1, 4800), "9 0 -"),
                (zones(4800, 4800, 0, 0), "2 0 -"), (zones(99, 4800, 1, 0), "2 0 -"), (zones(4800, 99, 1, 0), "2 0 -"),
                (zones(4800, 4800, 1, 150_001), "2 0 -"), (zones(4800, 4800, 2**64 - 1, 2**64 - 1), "2 0 -"),
            ):
                before = self.session.sheet
                self.asks(line, answer)
                self.assertEqual(self.session.sheet, before)

    def test_values_above_their_types_never_wrap(self) -> None:
        self.accepted("open 1200", divided(1, U, 1200, 600, 1200, 500))
        rest = "9,9,9 9,9,9,9,9,9,9,9,9,9,9,9,9,9,9"
        for of_type, number, form in (
            (2**16, 4, "tank {} 1 0 300 0 " + rest), (2**16, 5, "tank 2 {} 0 300 0 " + rest),
            (2**8, 2, "tank 2 1 {} 300 0 " + rest), (2**32, 2, "tank 2 1 0 {} 0 " + rest),
            (2**32, 2, "tank 2 1 0 300 {} " + rest), (2**32, 2, "tank 2 1 0 300 0 9,{},9 9,9"),
            (2**32, 2, "tank 2 1 0 300 0 - {}"), (2**32, 2, "zones {} 600 300 0"), (2**32, 2, "zones 600 {} 300 0"),
            (2**32, 2, "zones 600 600 {} 0"), (2**32, 2, "zones 600 600 300 {}"),
        ):
            for value in (of_type - 1, of_type, of_type + 1, of_type + 300, 2**63, 2**64 - 1):
                self.refused(number, form.format(value))


class ReadingsOfEnds(OfCalls):
    """Pointed bows: what a U says of its ends, 2 and 19, by figures worked out by hand.

    `half` is a U of 600 in two parts: each of its stations of a depth of 12 ft has 12 times 5 ft times 1 ft, 60 square
    feet, and the third interval of its length is 1 ft. So its ends give 60 each, in hundredths of a ton, and its middle
    station, counted four times, 240.
    """

    WITH_AREA, WITHOUT_AREA = ([99] * 3, [9] * 15), ([0, 99, 0], [9] * 15)  # at the ends of a U of 600
    OTHERS = (
        (B, 1200, [500] * 7, [500] * 7), (S, 300, [500] * 3, [500] * 3), (H, 100, [500], [500]), (R, 10, [500], [500])
    )

    def tonnage(self, line: str) -> int:
        """Of an entry that must be accepted, which is undone then."""
        self.accepted(line)
        own = self.session.sheet.spaces[-1].tonnage
        self.accepted("undo")
        return own

    def judged(self, has_area: bool, line: str) -> None:
        """An entry that is refused with 19 alone where a pointed end has area, and else accepted."""
        self.assertEqual(self.numbers(line), {19} if has_area else set(), msg=line)
        if has_area:
            self.refused(19, line)
        else:
            self.accepted(line, "undo")

    def box(self, fore: tuple[int, int], aft: tuple[int, int], ends: tuple[int, int]) -> str:
        """The paper's box with another depth and breadth at its ends."""
        stations = (fore, *[(1200, 2000)] * 5, aft)
        return by_stations(1, 4800, [(depth, [breadth] * 5) for depth, breadth in stations], ends)

    def test_the_box_is_upright(self) -> None:
        """'Document 01's box is upright at both ends; its figure stands.'"""
        self.accepted("open 4800")
        section = (1200, 2000)
        self.assertEqual(self.tonnage(self.box(section, section, (UPRIGHT, UPRIGHT))), 11521)
        self.assertEqual(self.box(section, section, (UPRIGHT, UPRIGHT)), divided(1, U, 4800, 4800, 1200, 2000))
        self.assertEqual(self.tonnage(self.box(section, section, (INNER, INNER))), 11521)
        for ends in ((POINTED, UPRIGHT), (UPRIGHT, POINTED), (POINTED, POINTED)):
            self.refused(19, self.box(section, section, ends))

    def test_tonnage_is_that_of_the_other_sections(self) -> None:
        """240 square feet a section, times 2.667 ft: 17 times with one pointed end, 10881.36, 16 with two, 10241.28."""
        self.accepted("open 4800")
        section, ends = (1200, 2000), ((0, 2000), (1200, 0), (5, 2000), (0, 0))
        for end in ends:
            self.assertEqual(self.tonnage(self.box(end, section, (POINTED, UPRIGHT))), 10881)
            self.assertEqual(self.tonnage(self.box(section, end, (UPRIGHT, POINTED))), 10881)
            self.assertEqual(self.tonnage(self.box(end, section, (UPRIGHT, UPRIGHT))), 10881)
        for fore, aft in product(ends, repeat=2):
            self.assertEqual(self.tonnage(self.box(fore, aft, (POINTED, POINTED))), 10241)

    def test_inner_upright_and_pointed(self) -> None:
        """In all pairs; 19 where an end that is said to be pointed has area, whatever the other one has."""
        self.accepted("open 1200")
        for fore, aft in product((1, 2, 3), repeat=2):
            for fore_depth, aft_depth in product((0, 1200), repeat=2):
                line = half(1, fore_depth, aft_depth, (fore, aft))
                has_area = fore == 3 and fore_depth > 0 or aft == 3 and aft_depth > 0
                self.judged(has_area, line)
                if not has_area:
                    self.assertEqual(self.tonnage(line), 240 + 60 * (fore_depth > 0) + 60 * (aft_depth > 0))

    def test_the_fore_end_is_the_first_station(self) -> None:
        """And the aft end is the last, of two parts, of six and of sixteen."""
        for length, number in ((600, 2), (1200, 6), (25_001, 16)):
            self.accepted(f"open {max(length, 1200)}")
            for place in range(number + 1):
                stations = [(9, [9 if other == place else 0] * 5) for other in range(number + 1)]
                self.judged(place == 0, by_stations(1, length, stations, (POINTED, UPRIGHT)))
                self.judged(place == number, by_stations(1, length, stations, (INNER, POINTED)))
                self.judged(place in (0, number), by_stations(1, length, stations, (POINTED, POINTED)))

    def test_no_area(self) -> None:
        """Depth 0, breadths all 0, or a third interval of depth that rounds to 0: below 6 in 4 parts, below 9 in 6."""
        self.accepted("open 1200")
        for middle, row, least in ((1600, 5, 6), (1601, 7, 9)):
            full, broad, none = (middle, [9] * row), [30_000] * row, [0] * row
            ends = [(depth, breadths) for depth in (0, 1, 5, 6, 8, 9, 20_000) for breadths in (broad, none)]
            for depth, breadths in ends:
                end, has_area = (depth, breadths), depth >= least and breadths == broad
                self.judged(has_area, by_stations(1, 600, [end, full, full], (POINTED, UPRIGHT)))
                self.judged(has_area, by_stations(1, 600, [full, full, end], (INNER, POINTED)))
                self.judged(has_area, by_stations(1, 600, [end, full, end], (POINTED, POINTED)))

    def test_one_breadth_among_zeros(self) -> None:
        self.accepted("open 1200")
        for middle, row, least in ((1600, 5, 6), (1601, 7, 9)):
            full = (middle, [9] * row)
            for place, depth in product(range(row), (least - 1, least)):
                end = (depth, [int(place == other) for other in range(row)])
                self.judged(depth == least, by_stations(1, 600, [end, full, full], (POINTED, UPRIGHT)))
                self.judged(depth == least, by_stations(1, 600, [full, full, end], (INNER, POINTED)))

    def test_numbers_that_are_no_ends(self) -> None:
        """2, at each end and at both, with area and without; 0 is none."""
        self.accepted("open 1200")
        for one in (0, 4, 5, 254, 255, 256, 257, 258, 259, 2**16 + 3, 2**64 - 1):
            for ends in ((one, 1), (2, one), (one, 3), (3, one), (one, one)):
                self.refused(2, enter(1, 0, U, 0, 600, *self.WITHOUT_AREA, ends))
                self.refused(2, enter(1, 0, U, 0, 600, *self.WITH_AREA, ends))

    def test_left_out(self) -> None:
        """Then both are 0, so a U must say and others needn't; one word alone is a deck, four are no call."""
        self.accepted("open 1200", half(1, 1200, 1200, (UPRIGHT, INNER)))
        self.refused(2, half(2, 0, 0, ()), half(2, 1200, 1200, ()), half(2, 0, 0, (0, 0)))
        for kind, *measures in self.OTHERS:
            said = self.tonnage(enter(7, 1, kind, 0, *measures, ()))
            self.assertEqual(self.tonnage(enter(7, 1, kind, 0, *measures, (UPRIGHT,))), said)
            self.asks(enter(7, 1, kind, 0, *measures, (UPRIGHT,) * 4), "? wrong number of words")
        self.refused(2, *(half(2, 0, 0, (deck,)) for deck in (0, UPRIGHT, POINTED)))
        self.asks(half(2, 0, 0, (UPRIGHT,) * 4), "? wrong number of words")
        self.assertEqual(self.ids(), [1])
        self.accepted(half(2, 0, 0, (UPRIGHT, UPRIGHT)))

    def test_looked_at_only_of_an_under_deck_part(self) -> None:
        """Any number is right for others, a pointed end too where they have breadth and height."""
        self.accepted("open 1200", half(1, 1200, 1200, (UPRIGHT, INNER)))
        for kind, *measures in self.OTHERS:
            said = self.tonnage(enter(7, 1, kind, 0, *measures, ()))
            for ends in ((0, 0), (1, 2), (3, 3), (0, 3), (4, 255), (256, 259), (2**64 - 1, 2**64 - 1)):
                self.assertEqual(self.tonnage(enter(7, 1, kind, 0, *measures, ends)), said)
        for kind, ends in product((0, 6, 255, 257), ((), (2, 2), (3, 3), (4, 4))):
            self.assertEqual(self.numbers(enter(7, 1, kind, 0, 600, *self.WITH_AREA, ends)), {2})

    def test_after_all_the_others(self) -> None:
        """19 is given alone; beside any other number that one is given. Where 3 applies it isn't judged."""
        pointed = (POINTED, POINTED)
        self.asks(enter(1, 0, U, 0, 600, *self.WITH_AREA, pointed), "1 0 - 0")
        self.accepted("open 1200", half(1, 1200, 1200, (UPRIGHT, INNER)))
        depths, breadths = self.WITH_AREA

        def entry(id: int = 2, standing: int = PLAIN, length: int = 600, ends: tuple[int, int] = pointed) -> str:
            return enter(id, 0, U, standing, length, depths, breadths, ends)

        for numbers, line in (
            ({19}, entry()), ({19}, entry(ends=(POINTED, UPRIGHT))), ({19}, entry(ends=(INNER, POINTED))),
            (set(), entry(ends=(INNER, UPRIGHT))),
            ({2, 19}, entry(standing=5)), ({2, 19}, entry(ends=(POINTED, 0))), ({2, 19}, entry(ends=(4, POINTED))),
            ({2}, entry(ends=(INNER, 4))), ({2}, entry(length=99)),
            ({2}, enter(2, 0, U, 0, 600, depths, [*breadths[1:], 30_001], pointed)),
            ({2, 3, 9}, entry(length=150_001)), ({3}, enter(2, 0, U, 0, 600, depths, breadths[1:], pointed)),
            ({3}, enter(2, 0, U, 0, 600, depths[1:], breadths, pointed)),
            ({3}, enter(2, 0, U, 0, 600, [], [], pointed)),
            ({2, 3}, enter(2, 0, U, 0, 600, depths, [9, *breadths], (POINTED, 4))),
            ({4, 19}, entry(id=1)), ({4, 19}, entry(id=0)), ({4, 19}, entry(id=10_000)),
            ({6, 19}, entry(standing=EXEMPT)), ({9, 19}, entry(length=601)),
            ({4, 6, 9, 19}, entry(id=1, standing=DEDUCTED, length=601)),
            ({2, 4, 9, 19}, entry(id=1, standing=5, length=601)), ({2, 4, 6, 9}, entry(1, 1, 601, (0, 0))),
        ):
            self.assertEqual(self.numbers(line), numbers, msg=line)
            if numbers:
                self.refused(min(numbers), line)
        self.accepted(*(room(id, 1) for id in range(1000, 1000 + s.PLACES - 1)))
        for numbers, line in (
            ({10, 19}, entry()), ({10}, entry(ends=(INNER, UPRIGHT))), ({9, 10, 19}, entry(length=601)),
            ({6, 10, 19}, entry(standing=EXEMPT)), ({4, 10, 19}, entry(id=1)), ({2, 10, 19}, entry(ends=(POINTED, 0))),
        ):
            self.assertEqual(self.numbers(line), numbers, msg=line)
            self.refused(min(numbers), line)
        self.accepted(withdraw(1000))
        self.refused(19, entry())
        self.accepted(enter(2, 0, U, 0, 600, *self.WITHOUT_AREA, pointed))

    def test_a_refused_one_changes_nothing(self) -> None:
        """What could be undone and made again still can."""
        refused = half(2, 1200, 0, (POINTED, POINTED))
        self.accepted("open 1200", half(1, 0, 1200, (POINTED, INNER)), hatchway(5, 20), mark(5, PLAIN), "undo")
        for counts, after in (
            ("0 2 1", "redo"), ("0 3 0", "undo"), ("0 2 1", "undo"), ("0 1 2", "undo"), ("0 0 3", "redo")
        ):
            self.asks("counts", counts)
            self.refused(19, refused)
            self.asks("counts", counts)
            self.accepted(after)
        self.assertEqual(self.session.sheet.spaces, (Space(1, 0, U, 0, 300, 600, 4),))

    def test_a_change_like_any(self) -> None:
        """Undone and made again, withdrawn and put back, with its m and rooms inside it."""
        accepted = half(2, 5, 0, (POINTED, POINTED))
        own = Space(2, 0, U, 0, 240, 600, 4)
        self.accepted("open 1200", half(1, 0, 1200, (POINTED, INNER)), accepted)
        self.assertEqual(self.session.sheet.spaces, (Space(1, 0, U, 0, 300, 600, 4), own))
        self.accepted("undo")
        self.assertEqual(self.ids(), [1])
        self.accepted("redo", withdraw(2), "undo", mark(2, PLAIN))
        self.assertEqual(self.session.sheet.spaces[-1], own)
        self.refused(9, room(3, 2, 241))
        self.accepted(room(3, 2, 60, DEDUCTED), tank_of_a_thousand(4, 2, 600, 0, 600, 500))
        self.assertEqual(self.session.sheet.spaces[-1].tonnage, 180)
        self.asks("report 0", "0 540 480")

    def test_nothing_is_recorded(self) -> None:
        """The file is as it was, so reading gives no 19; a tank has no ends to say."""
        files = set()
        spaces = Space(1, 0, U, 0, 240, 600, 4), Space(2, 0, U, 0, 300, 600, 4)
        for ends in product((1, 2, 3), repeat=2):
            self.accepted("open 1200", half(1, 0, 5, ends), half(2, 0, 1200, (POINTED, UPRIGHT)))
            self.assertEqual(self.session.sheet.spaces, spaces)
            files.add(dayfile.bytes_of(1, self.session.sheet, 0))
        [file] = files
        self.assertEqual(len(file), 60)
        self.asks(scripts.read(file), "0 0 0 0 1")
        self.asks("report 0", "0 540 540")
        self.assertEqual(dayfile.bytes_of(1, self.session.sheet, 0), file)
        self.accepted(withdraw(1))
        self.refused(19, half(1, 1200, 0, (POINTED, POINTED)))
        self.accepted(half(1, 0, 0, (POINTED, POINTED)))
        own = tank_of_a_thousand(3, 1, 300, 0)
        self.asks(f"{own} 2 2", "? wrong number of words")  # one alone is a deck
        self.accepted(own)


class ReadingsOfRoundings(OfCalls):
    """Say what the rounding did: what an entry passes on, by figures worked out by hand.

    Of 601 in two parts, 6 times 1002 is 6012, two more than 6010; of the depths with m 4, 12 times 101 is 1212, one
    more than 1211, 12 times 133 is 1596, two less than 1598, and 12 times 100 is five less than 1205.
    """

    UNDER_DECK = (U, 601, [1211, 1598, 1205], [9] * 15)
    LEVELS = ((B, 1300, [9] * 7, [9] * 7), (S, 301, [9] * 3, [9] * 3))
    BOXES = ((H, 601, [7], [7]), (R, 601, [7], [7]))
    ALL = (UNDER_DECK, *LEVELS, *BOXES)

    def entry(self, kind: int, *measures: Any, id: int = 9, within: int = 1, standing: int = PLAIN) -> str:
        """An entry of these measures; a U is upright at both ends."""
        return enter(id, within, kind, standing, *measures)

    def under_deck(self, length: int, depths: Sequence[int], breadths: int = 5) -> str:
        """The entry of a U with these depths and as many breadths at each."""
        return enter(9, 0, U, PLAIN, length, depths, [9] * (breadths * len(depths)))

    def passes_on(self, line: str, answer: str) -> None:
        """An entry and what it must answer, but for the spaces visited."""
        self.assertEqual(self.session.answer(line).rpartition(" ")[0], answer, msg=line)

    def test_whole_sheet(self) -> None:
        """Up by 6/18 of a thousandth of a foot, the depths of the box exact; 6 times 2667 is 16002, of 16.00 ft."""
        self.accepted(FiguresOfThePaper.WHOLE[0])
        for line, answer in zip(
            FiguresOfThePaper.WHOLE[1:], ("0 6 0,0,0,0,0,0,0", "0 2 -", "0 0 -", "0 0 -", "0 0 -")
        ):
            self.passes_on(line, answer)
        self.asks("report 0", "0 12439 12119")

    def test_every_kind(self) -> None:
        """18 times 722 is 12996, four less than 13000; 6 times 502 is 3012. Hatchways and rooms have none."""
        self.accepted("open 1300", divided(1, U, 1300, 600, 1200, 500))
        for measures, answer in zip(self.ALL, ("0 2 1,-2,-5", "0 -4 -", "0 2 -", "0 0 -", "0 0 -")):
            self.passes_on(self.entry(*measures), answer)
            self.accepted("undo")

    def test_every_station_from_the_bow(self) -> None:
        """Of three stations and of seventeen, with m 4 and 6 by the middle one; the last one's is the last."""
        self.accepted("open 30001")
        self.passes_on(self.under_deck(600, [0, 1, 6]), "0 0 0,-1,6")
        self.accepted("undo")
        self.passes_on(self.under_deck(600, [6, 1, 0]), "0 0 6,-1,0")
        self.accepted("undo")
        self.passes_on(self.under_deck(30_001, range(17)), "0 -10 0,-1,-2,-3,-4,-5,6,5,4,3,2,1,0,-1,-2,-3,-4")
        self.accepted("undo")
        self.passes_on(self.under_deck(30_001, range(1593, 1610), 7), "0 -10 9,8,7,6,5,4,3,2,1,0,-1,-2,-3,-4,-5,-6,-7")
        self.accepted("open 30000")
        self.passes_on(self.under_deck(30_000, [*range(16), 20_000]), "0 0 0,-1,-2,-3,-4,-5,6,5,4,3,2,1,0,-1,-2,-3,4")

    def test_the_middle_depth(self) -> None:
        """1600 with m 4 is four over, 1601 with m 6 one under; the other stations' depths go by that m."""
        self.accepted("open 1200")
        self.passes_on(self.under_deck(600, [1601, 1600, 1602]), "0 0 -5,-4,6")
        self.accepted("undo")
        self.passes_on(self.under_deck(600, [1600, 1601, 1602], 7), "0 0 2,1,0")

    def test_the_parts_of_its_own_division(self) -> None:
        """A whole U of 20.01 ft in 6 parts, a step part in 4; a B by the tonnage length; an S at a tie in 4."""
        self.accepted("open 2001")
        self.passes_on(self.under_deck(2001, [12] * 7), "0 6 0,0,0,0,0,0,0")  # 18 times 1112 is 20016
        self.accepted("open 4500")
        self.passes_on(self.under_deck(2001, [12] * 5), "0 6 0,0,0,0,0")  # 12 times 1668 is 20016
        self.passes_on(enter(2, 0, B, 0, 2001, [9] * 7, [9] * 7), "0 6 -")
        self.passes_on(enter(3, 0, S, 0, 2000, [9] * 5, [9] * 5), "0 4 -")  # 12 times 1667 is 20004
        self.accepted("open 20000")
        self.passes_on(enter(1, 0, B, 0, 150_000, [9] * 13, [9] * 13), "0 12 -")

    def test_refused(self) -> None:
        """0 and none with every number that an entry can be refused with; accepted, none of the measures is exact."""
        for measures in self.ALL:
            self.passes_on(self.entry(*measures), "1 0 -")
        self.accepted("open 1300", divided(1, U, 1300, 600, 1200, 500), hatchway(2, 20), *chain(1, 11, 7, 1))
        self.accepted(mark(16, EXEMPT))
        for kind, length, heights, breadths in self.ALL:
            self.passes_on(self.entry(kind, length, heights, breadths, standing=5), "2 0 -")
            self.passes_on(self.entry(kind, length, heights, [*breadths, 9]), "3 0 -")
            self.passes_on(self.entry(kind, length, [*heights, 9], breadths), "3 0 -")
            self.passes_on(self.entry(kind, length, heights, breadths, id=1), "4 0 -")
            self.passes_on(self.entry(kind, length, heights, breadths, within=2, standing=DEDUCTED), "6 0 -")
        _, length, depths, breadths = self.UNDER_DECK
        self.passes_on(enter(9, 0, U, 0, length, depths, breadths, ()), "2 0 -")
        self.passes_on(enter(9, 0, U, 0, 701, depths, breadths), "9 0 -")
        self.passes_on(enter(9, 0, U, 0, length, depths, breadths, (POINTED, UPRIGHT)), "19 0 -")
        for within, standing, height, number in (
            (77, PLAIN, 7, 5), (17, PLAIN, 7, 7), (16, BALLAST, 7, 8), (1, PLAIN, 20_000, 9)
        ):
            breadth = 30_000 if number == 9 else 7
            self.passes_on(enter(9, within, R, standing, 601, [height], [breadth]), f"{number} 0 -")
        self.accepted(*(room(id, 11) for id in range(20, 20 + s.PLACES - len(self.session.sheet.spaces))))
        for measures in self.ALL:
            self.passes_on(self.entry(*measures), "10 0 -")

    def test_other_calls_answer_as_before(self) -> None:
        """A tank in a U whose thirds aren't exact, with such measures itself; undo, redo, withdraw and mark.

        The U has 1.08 ft times 1.01, four times 1.33 and 1.00 ft, times 1.002 ft: 7.93 cubic feet.
        """
        self.accepted("open 1300")
        for line, answer in (
            (self.entry(*self.UNDER_DECK), "0 2 1,-2,-5 0"),
            (tank(2, 9, 0, 301, 1, [1211, 1598, 1205], [1] * 15), "0 1"),
            (tank(3, 9, 0, 301, 301, [1211, 1598, 1205], [1] * 15), "9 1"), ("undo", "0"), ("undo", "0"), ("redo", "0"),
            ("redo", "0"), (withdraw(2), "0"), (withdraw(9), "0"), ("undo", "0"), (mark(9, 0), "0"),
            (mark(9, 1), "6"), ("counts", "0 4 0"), ("spaces", "0 1 1300 1 0 9:0:1:0:8:601:4:0"),
        ):
            self.asks(line, answer)

    def test_a_pointed_end(self) -> None:
        """Its depth's third interval may be rounded to 0, which is below."""
        self.accepted("open 1200")
        self.passes_on(half(1, 5, 0, (POINTED, POINTED)), "0 0 -5,0,0")
        self.passes_on(half(2, 0, 11, (POINTED, INNER)), "0 0 0,0,1")

    def test_a_sheet_that_was_read(self) -> None:
        """Nothing of a rounding is kept; a space entered anew passes on its own."""
        self.accepted("open 1300", divided(1, U, 1300, 699, 1200, 500), self.entry(*self.UNDER_DECK))
        self.asks(scripts.read(dayfile.bytes_of(1, self.session.sheet, 0)), "0 0 0 0 1")
        self.asks(withdraw(9), "0")
        self.passes_on(self.entry(*self.UNDER_DECK), "0 2 1,-2,-5")


class ReadingsOfDecks(OfCalls):
    """'A deck number on each space (0 to 99, 0 for none)': 'undo and redo carry the deck number'."""

    RIGHT = ([9] * 3, [9] * 15)  # of a tank of 300 in U 1
    OTHERS = (
        (B, 1200, [50] * 7, [50] * 7), (S, 300, [50] * 3, [50] * 3), (H, 10, [500], [500]), (R, 10, [500], [500])
    )

    def decks(self) -> list[int]:
        """The decks of the standing spaces in order of entry."""
        return [space.deck for space in self.session.sheet.spaces]

    def of_every_kind(self, deck: int) -> list[str]:
        """An entry of each kind and a tank, with the id 2 and this deck."""
        entries = [enter(2, 1, kind, 0, *measures, deck=deck) for kind, *measures in self.OTHERS]
        return [half(2, 0, 0, (POINTED, POINTED)) + f" {deck}", *entries, tank(2, 1, 0, 300, 0, *self.RIGHT, deck)]

    def test_ranges(self) -> None:
        """Of every kind and of a tank; above its type it never wraps."""
        self.accepted("open 1200", divided(1, U, 1200, 600, 1200, 500))
        for deck in (0, 1, 98, 99):
            for line in self.of_every_kind(deck):
                self.accepted(line)
                self.assertEqual(self.decks(), [0, deck])
                self.accepted("undo")
        for deck in (100, 101, 255, 256, 257, 256 + 99, 2**16, 2**32 + 1, 2**64 - 1):
            self.refused(2, *self.of_every_kind(deck))

    def test_left_out(self) -> None:
        """Then 0; with the ends left out one word is the deck, with them the third."""
        self.accepted("open 1200", divided(1, U, 1200, 600, 1200, 500), tank(2, 1, 0, 300, 0, *self.RIGHT))
        self.accepted(*(enter(10 + kind, 1, kind, 0, *measures, ()) for kind, *measures in self.OTHERS))
        self.accepted(*(enter(20 + kind, 1, kind, 0, *measures, (), 7) for kind, *measures in self.OTHERS))
        self.accepted(*(enter(30 + kind, 1, kind, 0, *measures, (9, 0)) for kind, *measures in self.OTHERS))
        self.accepted(*(enter(40 + kind, 1, kind, 0, *measures, (9, 0), 8) for kind, *measures in self.OTHERS))
        self.assertEqual(self.decks(), [0, 0, *[0] * 4, *[7] * 4, *[0] * 4, *[8] * 4])
        self.refused(2, half(9, 0, 0, (7,)), half(9, 0, 0, (2, 0, 7)), half(9, 0, 0, (2, 2, 100)))
        self.accepted(half(9, 0, 0, (2, 2, 7)))
        self.assertEqual(self.decks()[-1], 7)

    def test_beside_every_other_number(self) -> None:
        """1 goes before it, 3 to 10, 19 and 29 come behind; a deck in range leaves them as they are."""
        self.refused(1, *self.of_every_kind(100), *self.of_every_kind(99))
        self.accepted(*read_and_entered_anew(), hatchway(4, 50), *chain(1, 11, 7, 1), mark(14, DEDUCTED))
        lines = {
            3: enter(500, 0, S, 0, 300, [9] * 3, [9] * 4), 4: room(4, 1, 1), 5: room(500, 77, 1), 6: room(500, 4, 1),
            7: room(500, 17), 8: room(500, 14, 0, EXEMPT), 9: room(500, 1, 9999),
            29: tank(500, 2, 0, 300, 0, *self.RIGHT),
        }
        of_tanks = {
            3: tank(500, 1, 0, 300, 0, [9] * 3, [9] * 14), 4: tank(4, 1, 0, 300, 0, *self.RIGHT),
            5: tank(500, 77, 0, 300, 0, *self.RIGHT), 6: tank(500, 3, 0, 300, 0, *self.RIGHT),
            9: tank(500, 1, 0, 300, 301, *self.RIGHT),
        }
        for number, line in (*lines.items(), *of_tanks.items()):
            self.refused(number, line, f"{line} 0", f"{line} 99")
            self.refused(2, f"{line} 100", f"{line} 256")
            self.assertEqual((self.numbers(f"{line} 99"), self.numbers(f"{line} 100")), ({number}, {2, number}))
        self.refused(2, room(500, 1, 1, 5, 99), room(500, 1, 1, 5, 100))
        self.accepted(*(room(id, 11) for id in range(1000, 1000 + s.PLACES - len(self.session.sheet.spaces))))
        self.refused(10, room(500, 1, 1, PLAIN, 99))
        self.refused(2, room(500, 1, 1, PLAIN, 100))
        self.accepted("open 1200")
        pointed = by_stations(1, 600, [(99, [9] * 5)] * 3, (POINTED, POINTED))
        self.refused(19, pointed, f"{pointed} 99")
        self.refused(2, f"{pointed} 100")

    def test_a_refused_one_changes_nothing(self) -> None:
        self.accepted(*a_thousand(), hatchway(4, 5, 3), "undo")
        self.refused(2, *self.of_every_kind(100), hatchway(4, 5, 100))
        self.accepted("redo")
        self.assertEqual(self.decks(), [0, 0, 0, 3])

    def test_changes_carry_the_deck(self) -> None:
        """A mark, a withdrawal undone, an entry made again; a tank's too."""
        self.accepted("open 1200", divided(1, U, 1200, 600, 1200, 500, deck=1), room(2, 1, 20, PLAIN, 99))
        self.accepted(tank(3, 1, 0, 300, 0, *self.RIGHT, 42), hatchway(4, 20, 7))
        for lines in (
            [mark(2, BALLAST)], [mark(3, DEDUCTED), "undo"], [withdraw(2), "undo"], [withdraw(3), "undo"],
            [mark(1, PLAIN), "undo", "redo"], ["undo"] * 4 + ["redo"] * 4,
        ):
            self.accepted(*lines)
            self.assertEqual(self.decks(), [1, 99, 42, 7])
        self.accepted(withdraw(2), withdraw(4), hatchway(4, 20, 8), room(2, 1, 20))
        self.assertEqual(self.decks(), [1, 42, 8, 0])
        self.accepted(*["undo"] * 4)
        self.assertEqual(self.decks(), [1, 99, 42, 7])
        self.accepted(*["redo"] * 4)
        self.assertEqual(self.decks(), [1, 42, 8, 0])

    def test_nothing_else_looks_at_it(self) -> None:
        """Tonnages, roundings and reports are as without."""
        for deck in (None, 0, 99):
            self.accepted("open 4800")
            self.asks(divided(1, U, 4800, 4800, 1200, 2000, deck=deck), "0 6 0,0,0,0,0,0,0 0")
            self.asks(divided(2, S, 4800, 1600, 800, 1000, deck=deck), "0 2 - 0")
            self.accepted(enter(3, 1, R, BALLAST, 1000, [400], [1000], deck=deck))
            self.accepted(enter(4, 2, R, DEDUCTED, 800, [800], [500], deck=deck))
            self.accepted(enter(5, 0, H, PLAIN, 500, [500], [400], deck=deck))
            self.asks("report 0", "0 12439 12119")

    def test_spaces(self) -> None:
        self.accepted("open 1200", divided(1, U, 1200, 600, 1200, 500, deck=12), hatchway(2, 5, 99), hatchway(3, 5))
        self.asks("spaces", "0 1 1200 3 0 1:0:1:0:360:600:4:12 2:0:4:0:5:5:0:99 3:0:4:0:5:5:0:0")


class ReadingsOfVessels(OfCalls):
    """'A vessel number on each sheet (0 to 4,294,967,295, 0 for none)', 'given at opening'."""

    def test_given_at_opening(self) -> None:
        """Left out: 0. Any number is one; over 4,294,967,295 the line is no call and the sheet stays."""
        for vessel in (0, 1, 255, 2**31, 2**32 - 1):
            self.asks(f"open 1200 {vessel}", "0")
            self.asks("spaces", f"0 1 1200 0 {vessel}")
            for beyond in (2**32, 2**32 + 1, 2**64 - 1, 2**64):
                self.asks(f"open 100 {beyond}", "? number too large")
                self.asks("spaces", f"0 1 1200 0 {vessel}")
        self.asks("open 1200", "0")
        self.asks("spaces", "0 1 1200 0 0")

    def test_refused(self) -> None:
        """'A sheet not open has vessel number 0.'"""
        for length in (0, 99, 150_001, 2**64 - 1):
            self.accepted("open 1200 7")
            self.asks(f"open {length} 8", "2")
            self.asks("spaces", "0 0 0 0 0")
            self.assertEqual(self.session.sheet, s.CLOSED)

    def test_no_call_changes_it(self) -> None:
        self.accepted(f"open 1200 {2**32 - 1}")
        for line in (
            divided(1, U, 1200, 600, 1200, 500), room(2, 1, 5), tank_of_a_thousand(3, 1, 300, 0), mark(2, EXEMPT),
            withdraw(3), "undo", "undo", "redo", "report 0", "write 0 0 9 2", "counts", "spaces", "report 2",
            room(0, 0), "undo", "undo", "undo", "undo", "redo", "open 1200 4294967296",
        ):
            self.given(line)
            self.assertEqual(self.session.sheet.vessel, 2**32 - 1, msg=line)

    def test_in_a_file(self) -> None:
        """Form 2 holds it, form 1 doesn't; a refused read leaves a sheet not open."""
        self.accepted("open 1200 7", divided(1, U, 1200, 1200, 1200, 500))
        file = dayfile.bytes_of(2, self.session.sheet, 0)
        self.accepted("open 100 9", scripts.read(file))
        self.asks("spaces", "0 1 1200 1 7 1:0:1:0:720:1200:0:0")
        self.accepted(withdraw(1), "undo")
        self.assertEqual(self.session.sheet.vessel, 7)
        self.asks(scripts.read(file[1:]), "16 0 0 0 0")
        self.asks("spaces", "0 0 0 0 0")
        self.accepted("open 1200", divided(1, U, 1200, 1200, 1200, 500))
        of_form_1 = dayfile.bytes_of(1, self.session.sheet, 0)
        self.accepted("open 1200 7", scripts.read(of_form_1))
        self.asks("spaces", "0 1 1200 1 0 1:0:1:0:720:1200:0:0")

    def test_open_and_resume(self) -> None:
        self.assertEqual(s.open_sheet(1200), (0, Sheet(True, 1200)))
        self.assertEqual(s.open_sheet(1200, 7), (0, Sheet(True, 1200, vessel=7)))
        self.assertEqual(s.open_sheet(99, 7), (2, s.CLOSED))
        spaces = (Space(1, 0, U, 0, 5, 100, deck=99),)
        self.assertEqual(s.resume(100, spaces, 7), (0, Sheet(True, 100, spaces, vessel=7)))
        self.assertEqual(s.resume(99, spaces, 7), (1, s.CLOSED))


class ReadingsOfReports(OfCalls):
    """How the open points are read that speak of gross, net and ballast."""

    def test_what_counts_where(self) -> None:
        """T: U, B and S of any standing. E: B, S and R. D: R. Plain rooms count nowhere."""
        self.accepted(*a_thousand(), divided(4, B, 1200, 1200, 500, 500), "report 0")
        self.asks("report 0", "0 1300 1300")
        self.accepted(room(5, 1, 100))
        self.asks("report 0", "0 1300 1300")
        self.accepted(mark(5, DEDUCTED))
        self.asks("report 0", "0 1300 1200")
        self.accepted(mark(5, EXEMPT))
        self.asks("report 0", "0 1200 1200")
        self.accepted(mark(3, EXEMPT))
        self.asks("report 0", "0 920 920")
        self.accepted(mark(4, EXEMPT), room(6, 5, 100), room(7, 3, 280))
        self.asks("report 0", "0 620 620")

    def test_allowance_after_all_exemptions(self) -> None:
        """Half a percent of 1000 is 5, of 900 five too (4.5), of 899 four."""
        self.accepted(*a_thousand(), hatchway(4, 5), room(5, 1, 100, EXEMPT))
        self.asks("report 0", "0 900 900")
        self.accepted(room(6, 1, 1, BALLAST))
        self.asks("report 0", "0 900 900")
        self.accepted(mark(6, DEDUCTED))
        self.asks("report 0", "0 900 899")

    def test_no_gross_no_allowance(self) -> None:
        self.accepted("open 1200", divided(1, U, 1200, 600, 0, 9), divided(2, U, 1200, 600, 9, 0))
        self.asks("report 0", "0 0 0")
        self.accepted(hatchway(3, 77), divided(4, S, 1200, 300, 933, 1000, EXEMPT))
        self.asks("report 0", "0 77 77")

    def test_thirty_percent_of_nothing(self) -> None:
        self.accepted("open 1200", divided(1, U, 1200, 600, 0, 9), divided(2, U, 1200, 600, 9, 0))
        self.accepted(room(3, 1, 0, BALLAST), "report 0")

    def test_thirty_percent_exactly(self) -> None:
        """Of 1000 + hatchways - 5, the allowance being that of T less standing 1 and not of G."""
        for hatchways, most in ((15, 303), (18, 303), (6, 300), (9, 301)):
            self.accepted(*a_thousand(), hatchway(4, hatchways), room(5, 1, most, BALLAST))
            self.assertEqual(s.gross_for_ballast(self.session.sheet.spaces), 995 + hatchways)
            self.accepted("report 0", room(6, 1, 1, BALLAST), "report 1")
            self.refused(14, "report 0")

    def test_only_standing_1_is_taken_off_for_ballast(self) -> None:
        self.accepted(*a_thousand(), mark(3, EXEMPT), room(4, 1, 216, BALLAST))
        self.assertEqual(s.gross_for_ballast(self.session.sheet.spaces), 720)
        self.asks("report 0", "0 504 504")
        self.accepted(room(5, 2, 1, BALLAST))
        self.refused(14, "report 0")
        self.accepted(mark(5, DEDUCTED))
        self.asks("report 0", "0 504 503")

    def test_mark_that_is_not_needed(self) -> None:
        self.accepted(*a_thousand())
        self.asks("report 1", "0 1000 1000")

    def test_marks_out_of_range(self) -> None:
        self.accepted(*a_thousand(), room(4, 1, 301, BALLAST))
        self.refused(2, "report 2", "report 255", "report 256", "report 257", f"report {2**64 - 1}")
        self.refused(14, "report 0")
        self.accepted(withdraw(2))
        self.refused(2, "report 2")

    def test_13_before_14(self) -> None:
        self.accepted("open 1200", divided(1, U, 1200, 600, 1200, 500), room(2, 1, 300, BALLAST))
        self.assertEqual(s.numbers_of_report(self.session.sheet, 0), {13, 14})
        self.refused(13, "report 0", "report 1")

    def test_no_under_deck(self) -> None:
        self.accepted("open 100")
        self.refused(13, "report 0", "report 1")


class ReadingsOfMachinery(OfCalls):
    """Vessels with screws: nets worked out by hand from 69.121(e)(2), and when deductions pass gross."""

    def reports(self, *lines: str, gross: int = 1000, net: int) -> None:
        """What the thousand must be reported as with these changes, marked or not; they are undone."""
        self.accepted(*lines)
        for report in ("report 0", "report 1"):
            self.asks(report, f"0 {gross} {net}")
        self.accepted(*["undo"] * len(lines))

    def over(self, *lines: str) -> None:
        """Changes on the thousand with which a report must be refused with 21; they are undone."""
        self.accepted(*lines)
        before = self.session.sheet
        for report in ("report 0", "report 1"):
            self.asks(report, "21 0 0")
        self.assertEqual(self.session.sheet, before)
        self.accepted(*["undo"] * len(lines))

    def test_classes(self) -> None:
        """Of 1000, 13% is 130, 20% is 200 and 32% is 320; 12 have 29.54 deducted, 202 have 353.5, which is a half."""
        self.accepted(*a_thousand())
        for tonnage, net in (
            (0, 1000), (1, 998), (12, 970), (13, 968), (129, 682), (130, 680), (131, 680), (182, 680), (183, 680),
            (199, 680), (200, 650), (201, 648), (202, 646), (203, 645), (204, 643), (570, 2), (571, 1),
        ):
            self.reports(*machinery(tonnage), net=net)

    def test_all_rooms_are_added_up(self) -> None:
        """131 have 320 deducted, room by room it would be 246, 74 and 2; 40 have 98.46, however deep they stand."""
        self.accepted(*a_thousand())
        self.reports(room(4, 1, 100, MACHINERY), room(5, 3, 30, MACHINERY), room(6, 2, 1, MACHINERY), net=680)
        self.reports(room(4, 2, 50), room(5, 4, 50), room(6, 5, 40, MACHINERY), net=902)

    def test_the_excess_of_hatchways_counts(self) -> None:
        """Hatchways of 105 less an allowance of 5: of 1100, 13% is 143, 20% is 220 and 32% is 352."""
        self.accepted(*a_thousand(), hatchway(9, 105))
        for tonnage, net in ((131, 778), (143, 748), (144, 748), (219, 748), (220, 715)):
            self.reports(*machinery(tonnage), gross=1100, net=net)

    def test_of_what_is_left_of_the_gross(self) -> None:
        """Of 720, where 280 are exempt, 13% is 93.6, 20% is 144 and 32% is 230.4; 93 has 228.92 deducted."""
        for lines in ([mark(3, EXEMPT)], [room(9, 3, 280, EXEMPT)], [room(9, 3, 280, BALLAST)]):
            self.accepted(*a_thousand(), *lines)
            for tonnage, net in ((93, 491), (94, 490), (143, 490), (144, 468)):
                self.reports(*machinery(tonnage), gross=720, net=net)

    def test_in_neither_e_nor_d(self) -> None:
        """80 of 970 have 196.92 deducted, and 40 beside that."""
        self.accepted(*a_thousand(), room(4, 1, 10, EXEMPT), room(5, 1, 20, BALLAST), room(6, 2, 40, DEDUCTED))
        self.reports(room(7, 2, 80, MACHINERY), gross=970, net=733)
        self.accepted(room(7, 2, 80, MACHINERY))
        spaces = self.session.sheet.spaces
        self.assertEqual([of(spaces) for of in (s.t, s.e, s.d, s.machinery)], [1000, 30, 40, 80])

    def test_ballast_is_as_it_was(self) -> None:
        """30% of 1000 is 300, whatever the machinery: of 700 and 699, 200 is more than 20%, and 350 is deducted."""
        self.accepted(*a_thousand(), room(4, 1, 300, BALLAST), room(5, 2, 200, MACHINERY))
        self.assertEqual(s.gross_for_ballast(self.session.sheet.spaces), 1000)
        self.asks("report 0", "0 700 350")
        self.accepted(room(6, 3, 1, BALLAST))
        self.asks("report 0", "14 0 0")
        self.asks("report 1", "0 699 349")

    def test_a_sheet_without_machinery(self) -> None:
        """It has the figures it had: nothing is deducted but D."""
        self.accepted(*FiguresOfThePaper.WHOLE)
        self.asks("report 0", "0 12439 12119")
        self.assertEqual(s.deductions(self.session.sheet.spaces), 320)

    def test_no_gross(self) -> None:
        self.accepted("open 1200", divided(1, U, 1200, 1200, 0, 9), room(2, 1, 0, MACHINERY))
        self.asks("report 0", "0 0 0")
        self.accepted(hatchway(3, 77))
        self.asks("report 0", "0 77 77")

    def test_a_small_gross(self) -> None:
        """Of 5, 1.6 and 1.75 are both 2; of 15, 4.8 and 5.25 are both 5; of 10, 3.2 and 3.5 are 3 and 4."""
        for gross, tonnage, report in (
            (5, 1, (0, 5, 3)), (15, 3, (0, 15, 10)), (10, 2, (0, 10, 6)), (5, 0, (0, 5, 5)), (15, 2, (0, 15, 10)),
            (4, 1, (0, 4, 2)), (5, 3, (0, 5, 0)), (7, 4, (0, 7, 0)), (1, 1, (21, 0, 0)), (5, 4, (21, 0, 0)),
        ):
            sheet = s.resume(1200, (Space(1, 0, U, 0, gross, 1200), Space(2, 1, R, MACHINERY, tonnage, 1)))[1]
            self.assertEqual(s.report(sheet, 0), (*report, sheet))

    def test_all_of_the_gross_and_one_over(self) -> None:
        """246.15, 320, 320, 350, 700 and 999.25 deducted for the machinery, in each class."""
        self.accepted(*a_thousand())
        for tonnage, others in ((100, 754), (130, 680), (150, 680), (200, 650), (400, 300), (571, 1)):
            self.reports(*machinery(tonnage), *deducted(others - 1), net=1)
            self.reports(*machinery(tonnage), *deducted(others), net=0)
            self.over(*machinery(tonnage), *deducted(others + 1))
        self.over(*machinery(572))
        self.over(*machinery(720), room(6, 3, 280, MACHINERY))

    def test_numbers_of_a_report(self) -> None:
        """21 behind 2, 13 and 14: 361 of 360, 1001 of 1000, and 700 of 699 with ballast of 301."""
        short = "open 1200", divided(1, U, 1200, 600, 1200, 500), room(4, 1, 206, MACHINERY)
        ballast = *a_thousand(), *machinery(280), room(5, 2, 301, BALLAST), *deducted(210)
        for lines, numbers in (
            ((*a_thousand(), *machinery(572)), {21}), (short, {13, 21}), (ballast, {14, 21}),
            ((*short, room(5, 1, 109, BALLAST)), {13, 14, 21}), ((*ballast, withdraw(6)), {14}),
        ):
            self.accepted(*lines)
            sheet = self.session.sheet
            self.assertEqual(s.numbers_of_report(sheet, 0), numbers)
            self.assertEqual(s.numbers_of_report(sheet, 1), numbers - {14})
            self.assertEqual(s.numbers_of_report(sheet, 2), numbers - {14} | {2})
            self.asks("report 0", f"{min(numbers)} 0 0")
            self.refused(2, "report 2")
        self.accepted(*ballast, withdraw(6), room(6, 3, 209, DEDUCTED))
        self.asks("report 1", "0 699 0")

    def test_marks(self) -> None:
        """200 deducted leave 800; as machinery, 350 are deducted."""
        self.accepted(*a_thousand(), room(4, 1, 200, DEDUCTED))
        for line, net in (
            (mark(4, MACHINERY), 650), ("undo", 800), ("redo", 650), (mark(4, DEDUCTED), 800), ("undo", 650),
            ("redo", 800), ("undo", 650), ("undo", 800), (mark(4, PLAIN), 1000), (mark(4, MACHINERY), 650),
            (mark(4, MACHINERY), 650), ("undo", 650), (withdraw(4), 1000), ("undo", 650),
        ):
            self.accepted(line)
            self.asks("report 0", f"0 1000 {net}")
        self.refused(2, mark(4, 5))
        self.asks("counts", "0 6 1")

    def test_above_and_below(self) -> None:
        """Machinery rooms count as not plain: beside every standing that isn't, from above and from below."""
        self.accepted(*a_thousand(), *chain(1, 4, 3, 100))
        for other in (EXEMPT, BALLAST, DEDUCTED, MACHINERY):
            for upper, lower in ((other, MACHINERY), (MACHINERY, other)):
                self.accepted(mark(4, upper))
                self.refused(8, mark(5, lower), mark(6, lower), room(7, 6, 1, lower), room(7, 4, 0, lower))
                self.accepted(mark(4, PLAIN), mark(6, lower))
                self.refused(8, mark(4, upper), mark(5, upper))
                self.accepted(room(7, 5, 0, upper), withdraw(7), mark(6, PLAIN))
        self.accepted(room(7, 3, 1, MACHINERY))
        self.refused(8, mark(3, EXEMPT))

    def test_a_tank(self) -> None:
        """Half of a U of 360: 180 of 1000 have 320 deducted."""
        self.accepted(*a_thousand())
        own = tank_of_a_thousand(4, 1, 300, 0, 1200, 500, MACHINERY)
        self.reports(own, net=680)
        self.accepted(own)
        self.assertEqual(self.session.sheet.spaces[-1], Space(4, 1, R, MACHINERY, 180, 300))
        self.refused(2, tank_of_a_thousand(5, 1, 300, 300, 9, 9, 5), tank_of_a_thousand(5, 1, 300, 300, 9, 9, 260))
        self.refused(8, room(5, 4, 1, MACHINERY))

    def test_a_refused_report_changes_nothing(self) -> None:
        self.accepted(*a_thousand(), *machinery(571), *deducted(2), hatchway(9, 5), "undo")
        self.refused(21, "report 0", "report 1", "write 0 0 124")
        self.asks("counts", "0 6 1")
        self.accepted("redo", hatchway(10, 1))  # 6 less an allowance of 5
        self.asks("report 0", "0 1001 0")


class ReadingsOfVisited(OfCalls):
    """How far up did it look: 'one for the named space and one for each step above it to level 1'."""

    IN_UNDER_DECK, IN_EXEMPT = scripts.IN_UNDER_DECK, scripts.IN_EXEMPT
    RIGHT = ([9] * 3, [9] * 15)  # of a tank 300 long from 0 on in a U of 600

    def on_two_chains(self) -> None:
        """Rooms of 40 inside one another in U 1 and in an exempt S 3, down to level 8; U 2 and hatchway 4."""
        self.accepted(*a_thousand(), mark(3, EXEMPT), hatchway(4, 50), *chain(1, 11, 7, 40), *chain(3, 21, 7, 40))

    def fill(self) -> None:
        """Rooms in U 2, so many that 200 spaces stand."""
        self.accepted(*(room(id, 2) for id in range(100, 100 + s.PLACES - len(self.session.sheet.spaces))))

    def visits(self, visited: int, number: int, *lines: str) -> None:
        """Entries and tanks that must answer so; what is accepted is undone."""
        for line in lines:
            before = self.session.sheet
            answer = [int(word) for word in self.session.answer(line).split(" ") if word.isdigit()]
            self.assertEqual((answer[0], answer[-1]), (number, visited), msg=line)
            if number:
                self.assertEqual(self.session.sheet, before)
            else:
                self.accepted("undo")

    def visits_beside(self, visited: int, numbers: set[int], line: str) -> None:
        """An entry or a tank to which just these numbers apply."""
        self.assertEqual(self.numbers(line), numbers, msg=line)
        self.visits(visited, min(numbers, default=0), line)

    def test_whole_sheet(self) -> None:
        answers = "0 6 0,0,0,0,0,0,0 0", "0 2 - 0", "0 0 - 1", "0 0 - 1", "0 0 - 0"
        for line, answer in zip(FiguresOfThePaper.WHOLE, ("0", *answers)):
            self.asks(line, answer)

    def test_levels(self) -> None:
        """In a U, a B and an S, whatever the tonnage; the eighth is visited only where 7 refuses."""
        for outer in (divided(1, U, 1200, 600, 1200, 500), divided(1, B, 1200, 900, 500, 500),
                      divided(1, S, 1200, 300, 933, 1000)):
            for tonnage in (0, 20):
                self.accepted("open 1200", outer)
                for id in range(2, 9):
                    self.asks(room(id, id - 1, tonnage), f"0 0 - {id - 1}")
                self.asks(room(9, 8, tonnage), "7 0 - 8")
                for id in range(1, 8):
                    self.visits(id, 0, room(9, id))

    def test_no_room(self) -> None:
        """None by other kinds, nor by what is no kind, whatever space they name."""
        self.on_two_chains()
        for within in (0, 1, 4, 17, 77):
            for kind, *measures in ((B, 1200, [9] * 7, [9] * 7), (S, 300, [9] * 3, [9] * 3), (H, 9, [9], [9])):
                self.visits(0, 0, enter(50, within, kind, PLAIN, *measures))
                self.visits(0, 2, enter(50, within, kind, 5, *measures), enter(50, within, kind, 0, *measures, (), 100))
                self.visits(0, 4, enter(2, within, kind, PLAIN, *measures))
                self.visits(0, 6, enter(50, within, kind, DEDUCTED, *measures))
            self.visits(0, 9, enter(50, within, U, PLAIN, 600, *self.RIGHT))
            self.visits(0, 3, enter(50, within, U, PLAIN, 600, [9], [9]))
            for kind in (0, 6, 9, 255, 256, 261, 2**64 - 1):
                self.visits(0, 2, enter(50, within, kind, PLAIN, 1, [1], [1]))

    def test_a_sheet_not_open(self) -> None:
        """None, even where a sheet stood before."""
        for first in ("undo", "open 99", "read 00"):
            self.given(first)
            for within in (0, 1, 17, 77):
                self.visits(0, 1, room(50, within), room(0, within, 9999, 5), tank(50, within, 0, 300, 0, *self.RIGHT))
            self.on_two_chains()

    def test_enclosing_id_not_standing(self) -> None:
        """None, with 5 or a lower number."""
        self.on_two_chains()
        for within in (0, 50, 77, 10_000, 65_535, 65_536, 65_537, 2**16 + 17, 2**64 - 1):
            self.visits_beside(0, {5}, room(50, within, 9999, EXEMPT))
            self.visits_beside(0, {4, 5}, room(2, within))
            self.visits_beside(0, {3, 5}, enter(50, within, R, PLAIN, 1, [], [1]))
            self.visits_beside(0, {2, 5}, room(50, within, 1, 5))
            self.visits_beside(0, {5}, tank(50, within, 0, 601, 0, [], []))
            self.visits_beside(0, {2, 4, 5}, tank(2, within, 5, 300, 0, *self.RIGHT))

    def test_refused_with_each_number(self) -> None:
        """Alone, by each cause, in a space of each level; in one at level 8, 7 goes with it."""
        self.on_two_chains()
        for level, (plain, exempt) in enumerate(zip(self.IN_UNDER_DECK, self.IN_EXEMPT), start=1):
            with_it = {7} if level == 8 else set()
            for number, *lines in (
                (2, room(50, plain, 0, 5), room(50, plain, 0, 255), room(50, plain, deck=100)),
                (2, enter(50, plain, R, 0, 0, [1], [1]), enter(50, plain, R, 0, 150_001, [1], [1])),
                (2, enter(50, plain, R, 0, 1, [0], [1]), enter(50, plain, R, 0, 1, [20_001], [1])),
                (2, enter(50, plain, R, 0, 1, [1], [0]), enter(50, plain, R, 0, 1, [1], [30_001])),
                (3, enter(50, plain, R, 0, 1, [], [1]), enter(50, plain, R, 0, 1, [1], [1, 1])),
                (4, room(0, plain), room(10_000, plain), room(2, plain), room(plain, plain), room(17, plain)),
                (8, *(room(50, exempt, 0, standing) for standing in s.NOT_PLAIN)),
                (9, room(50, plain, 361), room(50, exempt, 281)),
            ):
                for line in lines:
                    self.visits_beside(level, {number} | with_it, line)
            self.visits_beside(level, with_it, room(50, plain))
        self.fill()
        for level, plain in enumerate(self.IN_UNDER_DECK, start=1):
            self.visits_beside(level, {7, 10} if level == 8 else {10}, room(50, plain))

    def test_refused_with_the_lowest_of_several(self) -> None:
        self.on_two_chains()
        for full in (set(), {10}):
            if full:
                self.fill()
            for level, (plain, exempt) in enumerate(zip(self.IN_UNDER_DECK, self.IN_EXEMPT), start=1):
                with_them = full | ({7} if level == 8 else set())
                for numbers, line in (
                    ({2, 3}, enter(50, plain, R, 5, 1, [], [])), ({2, 4}, room(2, plain, 0, 5)),
                    ({2, 3, 4}, enter(0, plain, R, 0, 0, [1] * 2, [])), ({3, 4}, enter(2, plain, R, 0, 1, [], [1])),
                    ({3, 8}, enter(50, exempt, R, EXEMPT, 1, [1], [])), ({4, 9}, room(2, plain, 361)),
                    ({4, 8}, room(exempt, exempt, 0, BALLAST)), ({8, 9}, room(50, exempt, 281, MACHINERY)),
                    ({4, 8, 9}, room(2, exempt, 281, DEDUCTED)), ({2, 8}, room(50, exempt, 0, EXEMPT, 100)),
                ):
                    self.visits_beside(level, numbers | with_them, line)

    def test_in_a_hatchway(self) -> None:
        """It is visited, though it encloses nothing."""
        self.on_two_chains()
        for full in (set(), {10}):
            if full:
                self.fill()
            for numbers, line in (
                ({6}, room(50, 4)), ({6, 9}, room(50, 4, 51, EXEMPT)), ({4, 6}, room(4, 4)), ({4, 6}, room(0, 4)),
                ({3, 6}, enter(50, 4, R, PLAIN, 1, [], [1])), ({2, 6}, room(50, 4, 0, 5)),
                ({6}, tank(50, 4, PLAIN, 9, 0, [], [])), ({2, 4, 6}, tank(4, 4, 5, 9, 0, [], [])),
            ):
                self.visits_beside(1, numbers | full, line)

    def test_own_id(self) -> None:
        """The room's own id as enclosing id: from the space that stands with it."""
        self.on_two_chains()
        for level, own in enumerate(self.IN_UNDER_DECK, start=1):
            self.visits(level, 4, room(own, own), tank(own, own, PLAIN, 300, 0, *self.RIGHT))
        self.visits(0, 5, room(50, 50), tank(50, 50, PLAIN, 9, 0, [], []))
        self.visits(0, 4, room(0, 0), tank(0, 0, PLAIN, 9, 0, [], []))

    def test_tanks(self) -> None:
        """One in a space at level 1; in a room, which is no U, its level."""
        self.accepted(*read_and_entered_anew(), hatchway(4, 50), divided(5, B, 1200, 1200, 50, 50))
        self.accepted(*chain(1, 11, 7, 40))
        self.asks(tank(50, 1, PLAIN, 300, 0, *self.RIGHT), "0 1")
        self.accepted("undo")
        for numbers, line in (
            ({2}, tank(50, 1, 5, 300, 0, *self.RIGHT)), ({2}, tank(50, 1, 0, 300, 0, *self.RIGHT, 100)),
            ({2, 9}, tank(50, 1, 0, 300, 150_001, *self.RIGHT)), ({3}, tank(50, 1, 0, 300, 0, [], [])),
            ({4}, tank(0, 1, 0, 300, 0, *self.RIGHT)), ({4}, tank(1, 1, 0, 300, 0, *self.RIGHT)),
            ({9}, tank(50, 1, 0, 601, 0, [], [])), ({9}, tank(50, 1, 0, 600, 0, [1200] * 3, [500] * 15)),
            ({29}, tank(50, 2, 0, 300, 0, [], [])), ({9, 29}, tank(50, 2, 0, 601, 0, [], [])),
            ({6}, tank(50, 3, 0, 9, 0, [], [])), ({6}, tank(50, 4, 0, 9, 0, [], [])),
            ({6}, tank(50, 5, 0, 9, 0, [], [])),
        ):
            self.visits_beside(1, numbers, line)
        for level, within in enumerate(self.IN_UNDER_DECK[1:], start=2):
            with_them = {6, 7} if level == 8 else {6}
            for numbers, line in (
                (set(), tank(50, within, PLAIN, 9, 0, [], [])), (set(), tank(50, within, PLAIN, 601, 0, *self.RIGHT)),
                ({2}, tank(50, within, 5, 9, 0, [], [])), ({2}, tank(50, within, 0, 9, 0, [20_001], [])),
                ({2}, tank(50, within, 0, 9, 0, [], [], 100)), ({4}, tank(0, within, 0, 9, 0, [], [])),
                ({2, 4}, tank(2, within, 5, 9, 0, [], [])),
            ):
                self.visits_beside(level, numbers | with_them, line)
        self.fill()
        self.visits_beside(1, {10}, tank(50, 1, 0, 300, 0, *self.RIGHT))
        self.visits_beside(1, {10, 29}, tank(50, 2, 0, 300, 0, *self.RIGHT))
        self.visits_beside(5, {6, 10}, tank(50, 14, 0, 300, 0, *self.RIGHT))

    def test_below_a_tank(self) -> None:
        self.accepted(*a_thousand())
        self.asks(tank_of_a_thousand(11, 1, 300, 0, 1200, 500), "0 1")
        for id in range(12, 18):
            self.asks(room(id, id - 1, 10), f"0 0 - {id - 10}")
        self.asks(room(18, 17), "7 0 - 8")

    def test_what_stands_counts(self) -> None:
        """Withdrawals, undo and redo take spaces away and bring them back; an id entered again has its new level."""
        self.accepted(*a_thousand(), *chain(1, 11, 7, 40))
        for id in range(17, 10, -1):
            self.visits(id - 9, 4, room(0, id))
            self.accepted("undo")
            self.visits(0, 5, room(50, id))
        for id in range(11, 18):
            self.visits(0, 4, room(0, id))
            self.accepted("redo")
            self.visits(id - 9, 4, room(0, id))
        self.accepted(withdraw(17))
        self.visits(0, 5, room(50, 17), tank(50, 17, PLAIN, 9, 0, [], []))
        self.accepted(room(17, 12))
        self.visits(4, 0, room(50, 17))
        self.accepted("undo", "undo")
        self.visits(8, 7, room(50, 17))
        self.accepted(mark(14, EXEMPT))
        self.visits(8, 7, room(50, 17))
        self.visits(7, 8, room(50, 16, 0, EXEMPT))
        self.visits(7, 0, room(50, 16))

    def test_a_sheet_that_was_read(self) -> None:
        """In either form; a U that came from a file has no m."""
        for form in dayfile.FORMS:
            self.on_two_chains()
            self.accepted(scripts.read(dayfile.bytes_of(form, self.session.sheet, 0)))
            for level, (plain, exempt) in enumerate(zip(self.IN_UNDER_DECK, self.IN_EXEMPT), start=1):
                self.visits(level, 7 if level == 8 else 0, room(50, plain))
                self.visits(level, 7 if level == 8 else 8, room(50, exempt, 0, DEDUCTED))
                self.visits(level, 4, room(0, plain), tank(0, plain, PLAIN, 9, 0, [], []))
                self.visits(level, 29 if level == 1 else 6, tank(50, plain, PLAIN, 9, 0, [], []))
            self.visits(0, 5, room(50, 77), tank(50, 77, PLAIN, 9, 0, [], []))


class Recorded(OfCalls):
    """Recorded spaces, judged as entries with their recorded tonnage and length."""

    def of_lines(self, *lines: str) -> Sheet:
        """The sheet that accepted lines make."""
        self.accepted(*lines)
        return self.session.sheet

    def test_resume(self) -> None:
        sheet = self.of_lines(*FiguresOfThePaper.WHOLE)
        position, resumed = s.resume(4800, sheet.spaces)
        self.assertEqual((position, resumed), (0, Sheet(True, 4800, s.recorded(sheet.spaces))))
        self.assertEqual(s.report(resumed, 0)[:3], (0, 12439, 12119))
        self.assertEqual(s.undo(resumed), (12, resumed))
        self.assertEqual(s.redo(resumed), (12, resumed))
        self.assertEqual(s.counts(resumed), (0, 0, 0, resumed))

    def test_no_spaces(self) -> None:
        self.assertEqual(s.resume(100, []), (0, Sheet(True, 100)))

    def test_first_refused(self) -> None:
        """4 to 10, with the position of the first; a room before its enclosing space is refused."""
        u, h = Space(1, 0, U, 0, 360, 1200), Space(2, 0, H, 0, 5, 1)
        rooms = [Space(10, 1, R, 0, 9, 1)] + [Space(id, id - 1, R, 0, 9, 1) for id in range(11, 18)]
        for number, position, spaces in (
            (4, 2, [u, u]), (4, 1, [replace(u, id=0)]), (4, 1, [replace(u, id=10_000)]), (5, 1, [rooms[0], u]),
            (5, 2, [u, replace(rooms[0], within=10)]), (6, 1, [replace(u, standing=1)]),
            (6, 2, [h, replace(rooms[0], within=2)]), (7, 9, [u, *rooms]),
            (8, 3, [u, replace(rooms[0], standing=1), replace(rooms[1], standing=3)]),
            (9, 2, [u, replace(rooms[0], tonnage=361)]), (9, 2, [u, replace(u, id=2, length=1)]),
            (9, 1, [replace(u, length=1201)]), (10, 201, [replace(h, id=id) for id in range(1, 202)]),
        ):
            self.assertEqual(s.resume(1200, spaces), (position, s.CLOSED))
            _, before = s.resume(1200, spaces[:position - 1])
            self.assertEqual(s.enter_recorded(before, spaces[position - 1]), (number, before))

    def test_tonnage_is_not_judged_against_length(self) -> None:
        spaces = (Space(1, 0, H, 0, 100_000_000, 1), Space(2, 0, S, 0, 0, 150_000), Space(3, 2, R, 2, 0, 1))
        self.assertEqual(s.resume(100, spaces), (0, Sheet(True, 100, spaces)))

    def test_changes_after_resuming(self) -> None:
        sheet = self.of_lines(*FiguresOfThePaper.WHOLE)
        _, self.session.sheet = s.resume(4800, sheet.spaces)
        self.accepted(withdraw(3), "undo", mark(3, DEDUCTED), room(6, 3, 400))
        self.refused(9, room(7, 3, 1))
        self.asks("counts", "0 2 0")


class Protocol(OfCalls):
    """The lines and answers of the program `survey`."""

    def test_example(self) -> None:
        lines = (
            "open 4800", "enter 2 0 3 0 1600 800,800,800 1000,1000,1000", "enter 5 9 4 0 500 500 400",
            "enter 4 2 5 3 800 800 500", "withdraw 2", "spaces", "counts", "report 0", "write 0 0 4",
        )
        answers = [
            "0", "0 2 - 0", "0 0 - 0", "0 0 - 1", "11",
            "0 1 4800 3 0 2:0:3:0:1280:1600:0:0 5:0:4:0:100:500:0:0 4:2:5:3:320:800:0:0", "0 3 0", "13 0 0",
            "13 0 00000000",
        ]
        self.assertEqual(survey.answers("".join(line + "\n" for line in lines)).split("\n"), [*answers, ""])

    def test_lines_without_an_answer(self) -> None:
        self.assertEqual(survey.answers("\n#\n# open 1200\n#undo\ncounts\n\n"), "0 0 0\n")
        self.assertEqual(survey.answers(""), "")
        self.assertEqual(survey.answers("counts"), "0 0 0\n")  # the last line may end with the script

    def test_remarks(self) -> None:
        long, longest = ",".join("5" * 1025), ",".join("5" * 1024)
        large = 2**64
        for line, remark in (
            ("close", "? unknown call"), (" undo", "? unknown call"), (" ", "? unknown call"),
            ("Undo", "? unknown call"), ("undo\r", "? unknown call"), ("undo\t", "? unknown call"),
            (" # note", "? unknown call"), ("\xb2", "? unknown call"), ("close x", "? unknown call"),
            ("open", "? wrong number of words"), ("undo ", "? wrong number of words"),
            ("open  1200", "? not a number"), ("open 1200 ", "? not a number"),
            ("open 1 2 3", "? wrong number of words"), ("open 1200 1 ", "? wrong number of words"),
            ("open x y z", "? wrong number of words"), ("open 1200 x", "? not a number"),
            ("open 1200 -", "? not a number"), ("open x 4294967296", "? not a number"),
            ("open 1200 4294967296", "? number too large"), ("open 1200 04294967297", "? number too large"),
            (f"open 1200 {large - 1}", "? number too large"), (f"open 1200 {large}", "? number too large"),
            (f"open {large} x", "? number too large"), ("open 99 4294967296", "? number too large"),
            ("enter 1 0 4 0 10 5", "? wrong number of words"),
            ("enter 1 0 4 0 9 5 5 2 2 2 2", "? wrong number of words"),
            ("enter 1 0 1 0 9 5 5 2 2 2 2", "? wrong number of words"), ("enter 1 0 4 0 9 5 5 x", "? not a number"),
            ("enter 1 0 4 0 9 5 5 ", "? not a number"), ("enter 1 0 4 0 9 5 5 -", "? not a number"),
            (f"enter 1 0 4 0 9 5 5 {large}", "? number too large"), ("enter 1 0 4 0 9 5 5 2 2 x", "? not a number"),
            (f"enter 1 0 4 0 9 5 5 2 2 {large}", "? number too large"), ("enter 1 0 4 0 9 5 5 2 2 ", "? not a number"),
            (f"enter 1 0 4 0 9 5 5 x 2 {large}", "? not a number"), ("enter 1 0 4 0 10 5 5 x 2", "? not a number"),
            ("tank 1 1 0 9 0 5 5 2 2", "? wrong number of words"), ("tank 1 1 0 9 0 5", "? wrong number of words"),
            ("tank 1 1 0 9 0 5 5 x", "? not a number"), (f"tank 1 1 0 9 0 5 5 {large}", "? number too large"),
            ("enter 1 0 4 0 10 5 5 2 x", "? not a number"), ("enter 1 0 4 0 10 5 5 2 -", "? not a number"),
            ("enter 1 0 4 0 10 5 5  2", "? not a number"), ("enter 1 0 4 0 10 5 5 2 ", "? not a number"),
            ("enter 1 0 4 0 10 5 5 2,2 2", "? not a number"), (f"enter 1 0 4 0 10 5 5 {large} x", "? number too large"),
            (f"enter 1 0 4 0 10 5 5 2 {large}", "? number too large"),
            (f"enter 1 0 4 0 9 5 5 x {large}", "? not a number"), (f"enter 1 0 4 0 9 5 x {large} 2", "? not a number"),
            ("open x", "? not a number"), ("open ", "? not a number"), ("open -1", "? not a number"),
            ("open +1", "? not a number"), ("open 1.0", "? not a number"), ("open 1_0", "? not a number"),
            ("open \xb2", "? not a number"), ("open 1200\r", "? not a number"), ("open -", "? not a number"),
            ("open 1,2", "? not a number"), ("enter 1 x 4 0 10 5 5", "? not a number"),
            ("enter 1 0 4 0 10 5, 5", "? not a number"), ("enter 1 0 4 0 10 , 5", "? not a number"),
            ("enter 1 0 4 0 10 -,5 5", "? not a number"), ("enter 1 0 4 0 10  5", "? not a number"),
            (f"open {large}", "? number too large"), ("open 1" + "0" * 9000, "? number too large"),
            (f"open 000{large}", "? number too large"), (f"enter 1 {large} 4 0 10 5 5", "? number too large"),
            (f"enter 1 0 4 0 10 5 5,{large}", "? number too large"),
            (f"enter 1 0 4 0 10 {long} 5", "? list too long"), (f"enter 1 0 4 0 10 5 {long}", "? list too long"),
            ("enter 1 0 4 0 10 5 " + "," * 1024, "? list too long"), (f"enter 1 0 4 0 10 x {long}", "? not a number"),
            ("enter 1 0 4 0 10 5 " + "," * 1023, "? not a number"), (f"mark {large} x", "? number too large"),
            (f"mark x {large}", "? not a number"),
        ):
            for first in ("open 99", "open 1200"):
                self.given(first)
                before = self.session.sheet
                self.asks(line, remark)
                self.assertEqual(self.session.sheet, before)
        self.asks(f"enter 1 0 4 0 10 {longest} 5", "3 0 - 0")
        self.asks(f"enter 1 0 4 0 10 5 {longest}", "3 0 - 0")
        self.asks("enter 1 0 4 0 10 - -", "3 0 - 0")

    def test_script_too_long(self) -> None:
        self.assertEqual(survey.answers("counts\n" + "#" * (2**20 - 7)), "0 0 0\n")
        self.assertEqual(survey.answers("counts\n" + "#" * (2**20 - 6)), "? script too long\n")
        self.session.answers("open 1200\n" + "\n" * 2**20)
        self.assertEqual(self.session.sheet, s.CLOSED)

    def test_values_above_their_types_never_wrap(self) -> None:
        self.accepted("open 1200", divided(1, U, 1200, 600, 1200, 500))
        for of_type, number, form in (
            (2**32, 2, "enter 2 1 5 0 {} 500 500"), (2**32, 2, "enter 2 1 5 0 5 {} 500"),
            (2**32, 2, "enter 2 1 5 0 5 500 {}"), (2**16, 4, "enter {} 1 5 0 5 500 500"),
            (2**16, 5, "enter 2 {} 5 0 5 500 500"), (2**8, 2, "enter 2 1 {} 0 5 500 500"),
            (2**8, 2, "enter 2 1 5 {} 5 500 500"), (2**16, 5, "withdraw {}"), (2**16, 5, "mark {} 0"),
            (2**8, 2, "enter 2 0 1 0 600 0,9,0 9,9,9,9,9,9,9,9,9,9,9,9,9,9,9 {} 3"),
            (2**8, 2, "enter 2 0 1 0 600 0,9,0 9,9,9,9,9,9,9,9,9,9,9,9,9,9,9 3 {}"),
            (2**8, 2, "mark 1 {}"), (2**8, 2, "report {}"), (2**8, 2, "write 0 0 99 {}"),
            (2**8, 2, "writef 0 0 9 0 {}"),
            (2**8, 2, "enter 2 1 5 0 5 500 500 {}"), (2**8, 2, "enter 2 1 5 0 5 500 500 0 0 {}"),
            (2**8, 2, "tank 2 1 0 300 0 9,9,9 9,9,9,9,9,9,9,9,9,9,9,9,9,9,9 {}"), (2**8, 2, "move - {} 0 9 0"),
        ):
            for value in (of_type - 1, of_type, of_type + 1, of_type + 5, 2**63, 2**64 - 1):
                self.refused(number, form.format(value))
        for value in (2**32 - 1, 2**32, 2**32 + 1200, 2**64 - 1):
            self.asks(f"open {value}", "2")

    def test_zeros_in_front(self) -> None:
        self.accepted("open 0001200", "enter 0001 00 04 00 0005 01000 001000")
        self.asks("report 00", "13 0 0")
        self.asks("spaces", "0 1 1200 1 0 1:0:4:0:5:5:0:0")
        self.asks("withdraw " + "0" * 9000 + "1", "0")

    def test_every_call_takes_as_many_words_as_told(self) -> None:
        """An entry from seven to ten, by whether it says something of its ends and of its deck."""
        told = {
            "open": {1, 2}, "enter": {7, 8, 9, 10}, "tank": {7, 8}, "zones": {4}, "withdraw": {1}, "mark": {2},
            "undo": {0}, "redo": {0}, "counts": {0}, "report": {1}, "write": {3, 4}, "writef": {4, 5}, "read": {1},
            "before": {2}, "move": {5}, "spaces": {0},
        }
        self.assertEqual(set(told), set(survey.CALLS))
        for name, counts in told.items():
            for count in range(13):
                answer = self.given(" ".join([name, *["x"] * count]))[0]
                self.assertEqual(answer != "? wrong number of words", count in counts, msg=(name, count))

    def test_command_line(self) -> None:
        given = mock.Mock(buffer=io.BytesIO(b"# \xff\nopen 1200\nspaces\n\xb2\n"))
        with mock.patch("sys.stdin", given), redirect_stdout(io.StringIO()) as printed:
            self.assertEqual(survey.main(), 0)
        self.assertEqual(printed.getvalue(), "0\n0 1 1200 0 0\n? unknown call\n")


class Invariants(unittest.TestCase):
    """What holds on every sheet that calls reach, over scripts at random."""

    @classmethod
    def setUpClass(cls) -> None:
        cls.walks = [steps(scripts.script(seed, 300)) for seed in range(8)]
        cls.walks += [walked(scripts.deep_walk, seed) for seed in range(8)]
        cls.walks.append(standard_steps())
        cls.steps = [step for walk in cls.walks for step in walk]
        of_sheets = ((step.after.length, step.after.spaces, step.after.vessel) for step in cls.steps)
        cls.states = list(dict(zip(of_sheets, (step.after for step in cls.steps))).values())

    def test_spaces(self) -> None:
        for sheet in self.states:
            spaces = sheet.spaces
            self.assertLessEqual(len(spaces), 200)
            self.assertEqual(len({space.id for space in spaces}), len(spaces))
            self.assertTrue(all(space.id in range(1, 10_000) for space in spaces))
            self.assertLessEqual(sum(space.length for space in spaces if space.kind == U), sheet.length)
            self.assertTrue(all(s.MAY_HAVE[space.kind][space.standing] for space in spaces))
            self.assertTrue(all((space.within == 0) == (space.kind != R) for space in spaces))

    def test_enclosure(self) -> None:
        """Levels and standings above, in one pass by order: a room stands behind its enclosing space."""
        for sheet in self.states:
            above: dict[int, list[Space]] = {}
            inside: dict[int, int] = {}
            for space in sheet.spaces:
                above[space.id] = []
                if space.kind == R:
                    outer = next(other for other in sheet.spaces if other.id == space.within)
                    self.assertNotEqual(outer.kind, H)
                    above[space.id] = [*above[outer.id], outer]
                    inside[outer.id] = inside.get(outer.id, 0) + space.tonnage
                self.assertLessEqual(len(above[space.id]) + 1, 8)
                if space.standing != PLAIN:
                    self.assertTrue(all(other.standing == PLAIN for other in above[space.id]))
            for space in sheet.spaces:
                self.assertLessEqual(inside.get(space.id, 0), space.tonnage)

    def test_nothing_is_taken_off_twice(self) -> None:
        for sheet in self.states:
            of = {(kind, standing): 0 for kind in m.KINDS for standing in range(5)}
            for space in sheet.spaces:
                of[space.kind, space.standing] += space.tonnage
            total = sum(of[kind, standing] for kind in (U, B, S) for standing in range(5))
            exempt = sum(of[kind, standing] for kind in m.KINDS for standing in (1, 2))
            as_deducted, as_machinery = (sum(of[kind, standing] for kind in m.KINDS) for standing in (3, 4))
            sums = total, exempt, as_deducted, as_machinery
            self.assertLessEqual(exempt + as_deducted + as_machinery, total)
            self.assertEqual(sums, tuple(of_paper(sheet.spaces) for of_paper in (s.t, s.e, s.d, s.machinery)))
            allowance = (total - exempt + 100) // 200
            gross = total - exempt + max(of[H, 0] - allowance, 0)
            net = gross - as_deducted - in_whole_numbers(as_machinery, gross)
            self.assertEqual((s.gross(sheet.spaces), s.net(sheet.spaces)), (gross, net))
            self.assertTrue(0 <= gross - as_deducted <= gross)
            self.assertEqual(s.deductions_pass(sheet), net < 0)

    def test_reports(self) -> None:
        given = [step for step in self.steps if step.call == "report" and step.number is not None]
        self.assertGreater(sum(step.number == 0 for step in given), 300)
        self.assertGreater(sum(step.number == 21 for step in given), 50)
        for step in given:
            number, gross, net = map(int, step.answer.split(" "))
            self.assertTrue(0 <= net <= gross)
            self.assertTrue(number == 0 or gross == net == 0)

    def test_refused_calls_change_nothing(self) -> None:
        for step in self.steps:
            if step.number != 0 or step.call in LOOKS + WRITES + WHERE + MOVES:
                expected = s.CLOSED if step.call in BEGINNINGS and step.number is not None else step.before
                self.assertEqual(step.after, expected)

    def test_counts(self) -> None:
        for step in self.steps:
            undoable, redoable = len(step.after.earlier), len(step.after.later)
            before = len(step.before.earlier), len(step.before.later)
            self.assertLessEqual(undoable + redoable, 64)
            if step.number == 0:
                expected = {
                    "undo": (before[0] - 1, before[1] + 1), "redo": (before[0] + 1, before[1] - 1),
                    **{call: (0, 0) for call in BEGINNINGS},
                    **{call: (min(before[0] + 1, 64), 0) for call in CHANGES},
                }.get(step.call, before)
                self.assertEqual((undoable, redoable), expected)

    def test_undo_and_redo_are_opposite(self) -> None:
        for step in self.steps[::7]:
            if step.after.earlier:
                self.assertEqual(s.redo(s.undo(step.after)[1]), (0, step.after))
            if step.after.later:
                self.assertEqual(s.undo(s.redo(step.after)[1]), (0, step.after))

    def replayed(self, beginning: str, changes: list[str]) -> tuple[tuple[Space, ...], int]:
        """The spaces and the vessel that the changes make of the sheet opened or read at first; each is accepted."""
        session = Session()
        self.assertEqual(session.answer(beginning).split(" ")[0], "0")
        self.assertEqual({session.answer(line).split(" ")[0] for line in changes} | {"0"}, {"0"})
        return session.sheet.spaces, session.sheet.vessel

    def test_accepted_changes_not_undone_give_the_standing_spaces(self) -> None:
        for walk in self.walks:
            beginning = ""
            done: list[str] = []
            undone: list[str] = []
            for place, step in enumerate(walk):
                if step.call in BEGINNINGS and step.number == 0:
                    if step.before.is_open:
                        self.assertEqual(self.replayed(beginning, done), (step.before.spaces, step.before.vessel))
                    beginning, done, undone = step.line, [], []
                elif step.call in CHANGES and step.number == 0:
                    done, undone = [*done, step.line], []
                elif step.call == "undo" and step.number == 0:
                    undone.append(done.pop())
                elif step.call == "redo" and step.number == 0:
                    done.append(undone.pop())
                if place % 100 == 0 and step.after.is_open:
                    self.assertEqual(self.replayed(beginning, done), (step.after.spaces, step.after.vessel))

    def test_every_sheet_can_be_resumed(self) -> None:
        for sheet in self.states[::5]:
            if sheet.is_open:
                resumed = Sheet(True, sheet.length, s.recorded(sheet.spaces), vessel=sheet.vessel)
                self.assertEqual(s.resume(sheet.length, sheet.spaces, sheet.vessel), (0, resumed))

    def test_m(self) -> None:
        """4 or 6 for a U or none, none for every other space; whatever is done, a space of an entry keeps its m."""
        for sheet in self.states:
            for space in sheet.spaces:
                self.assertIn(space.m, (0, 4, 6) if space.kind == U else (0,))
        for step in self.steps:
            if step.number == 0 and step.call in ("withdraw", "mark", *ENTRIES):
                before = {space.id: space.m for space in step.before.spaces}
                kept = {space.id: space.m for space in step.after.spaces if space.id in before}
                self.assertLessEqual(kept.items(), before.items())
            if step.number == 0 and step.call in ("read", "before"):
                self.assertEqual({space.m for space in step.after.spaces} | {0}, {0})

    def test_decks(self) -> None:
        """From 0 to 99; whatever is done, a space keeps the deck it was entered with."""
        self.assertLessEqual({0, 1, 99}, {space.deck for sheet in self.states for space in sheet.spaces})
        for sheet in self.states:
            self.assertTrue(all(0 <= space.deck <= 99 for space in sheet.spaces))
        for step in self.steps:
            if step.number == 0 and step.call in (*CHANGES, "undo", "redo"):
                before = {space.id: space.deck for space in step.before.spaces}
                kept = {space.id: space.deck for space in step.after.spaces if space.id in before}
                self.assertLessEqual(kept.items(), before.items())
            if step.number == 0 and step.call in ENTRIES:
                self.assertEqual(step.after.spaces[-1].deck, step.further.get("deck", 0))

    def test_vessels(self) -> None:
        """Given at opening, held by form 2 alone, never changed by any other call; 0 on a sheet not open."""
        self.assertLessEqual({0, 1, 2**32 - 1}, {sheet.vessel for sheet in self.states})
        for step in self.steps:
            if step.call not in BEGINNINGS or step.number is None:
                self.assertEqual(step.after.vessel, step.before.vessel)
            elif step.call == "open":
                self.assertEqual(step.after.vessel, 0 if step.number else step.further.get("vessel", 0))
            elif step.answer.split(" ")[4] != "2":
                self.assertEqual(step.after.vessel, 0)
            self.assertTrue(step.after.is_open or step.after == s.CLOSED)

    def test_tanks_are_never_too_deep_nor_not_plain_twice(self) -> None:
        """'On a sheet that calls reach, 7 and 8 never come from a tank, since a U is at level 1 and plain.'"""
        for step in self.steps:
            if step.call == "tank" and step.number is not None:
                self.assertNotIn(step.number, (7, 8))
                self.assertTrue(not step.numbers & {7, 8} or 6 in step.numbers)

    def test_pointed_ends_have_no_area(self) -> None:
        """An accepted U with a pointed end has no area there, and its tonnage is that of its other sections."""
        accepted = [step for step in self.steps if step.call == "enter" and step.number == 0 and step.new.kind == U]
        pointed = [step for step in accepted if POINTED in step.ends]
        self.assertGreater(len(pointed), 200)
        for step in pointed:
            length, depths, breadths = step.arguments[4:7]
            row = len(breadths) // len(depths)
            for end, station in zip(step.ends, (0, len(depths) - 1)):
                if end == POINTED:
                    own = breadths[station * row:][:row]
                    self.assertTrue(2 * depths[station] < 3 * (row - 1) or not any(own))
                    depths = [0 if place == station else depth for place, depth in enumerate(depths)]
            self.assertEqual(m.tonnage(m.volume_of_under_deck(length, depths, breadths)), step.new.tonnage)
        for step in accepted:
            self.assertLessEqual(set(step.ends), {1, 2, 3})
            self.assertEqual(len(step.ends), 2)

    def test_roundings(self) -> None:
        """In whole numbers: 3n times the third interval less 10L, 3m times it less D; nothing of what is refused."""

        def rounding(divided: int, divisor: int) -> int:
            return divisor * ((2 * divided + divisor) // (2 * divisor)) - divided

        for step in self.steps:
            if step.call == "enter" and step.number is not None:
                length, heights = step.arguments[4:6]
                of_length, of_depths = 0, []
                if step.number == 0 and step.new.kind in (U, B, S):
                    of_length = rounding(10 * length, 3 * (len(heights) - 1))
                if step.number == 0 and step.new.kind == U:
                    of_depths = [rounding(depth, 3 * step.new.m) for depth in heights]
                self.assertEqual((step.rounding, step.roundings_of_depths), (of_length, of_depths))
                self.assertEqual(step.answer.split(" ")[2] == "-", not of_depths)

    def test_tanks_pass_on_nothing(self) -> None:
        """They answer their number and what they visited, and no rounding."""
        for step in self.steps:
            if step.call == "tank" and step.number is not None:
                self.assertEqual(step.answer, f"{step.number} {step.visited}")

    def test_visited(self) -> None:
        """'At most 8, is 8 only where 7 or a lower number refuses the entry', 0 where no standing space is named."""
        for step in self.steps:
            if step.call in ENTRIES and step.number is not None:
                by_id = {space.id: space for space in step.before.spaces}
                named = by_id.get(step.arguments[1]) if step.new.kind == R else None
                self.assertEqual(step.visited, 0 if named is None else s.level(step.before.spaces, named))
                self.assertLessEqual(step.visited, 8)
                self.assertTrue(step.visited < 8 or 1 <= step.number <= 7)
                steps_up = 0
                while named is not None:
                    steps_up, named = steps_up + 1, by_id.get(named.within)
                self.assertEqual(step.visited, steps_up)
                if step.number == 0:
                    self.assertEqual(step.visited + 1, s.level(step.after.spaces, step.after.spaces[-1]))

    def test_new_spaces_come_last(self) -> None:
        for step in self.steps:
            if step.call in ENTRIES and step.number == 0:
                self.assertEqual(step.after.spaces, (*step.before.spaces, step.new))


class StandardScript(unittest.TestCase):
    """The standard script hits each number of each call, and each edge it promises."""

    @classmethod
    def setUpClass(cls) -> None:
        cls.text = scripts.standard()
        cls.steps = standard_steps()
        cls.entries = [step for step in cls.steps if step.call == "enter" and step.number is not None]
        cls.marks = [step for step in cls.steps if step.call == "mark" and step.number is not None]

    def of(self, call: str, *numbers: int) -> list[Step]:
        """The steps of a call, with these numbers or with any."""
        return [
            step for step in self.steps
            if step.call == call and step.number is not None and (not numbers or step.number in numbers)
        ]

    def runs(self, *calls: str) -> Iterator[list[Step]]:
        """As many steps one after another as there are calls, with these calls."""
        for place in range(len(self.steps) - len(calls) + 1):
            if all(self.steps[place + by].call == call for by, call in enumerate(calls)):
                yield self.steps[place:place + len(calls)]

    def test_form(self) -> None:
        self.assertTrue(self.text.isascii())
        self.assertTrue(self.text.startswith("#"))
        self.assertTrue(self.text.endswith("\n"))
        self.assertLessEqual(len(self.text), 1_040_000)
        self.assertTrue(5_000 <= len(self.steps) <= 22_000, msg=len(self.steps))
        self.assertEqual(survey.answers(self.text), "".join(step.answer + "\n" for step in self.steps))

    def test_reproducible(self) -> None:
        self.assertEqual(scripts.standard(), self.text)
        self.assertEqual(scripts.script(7, 50), scripts.script(7, 50))
        self.assertNotEqual(scripts.script(7, 50), scripts.script(8, 50))

    def test_calls_at_random_are_as_many_as_asked(self) -> None:
        for calls in (0, 1, 17, 300):
            self.assertEqual(len(steps(scripts.script(3, calls))), calls)

    def test_every_number_of_every_call(self) -> None:
        numbers = {
            "open": {0, 2}, "enter": {0, 1, 2, 3, 4, 5, 6, 7, 8, 9, 10, 19}, "tank": {0, 1, 2, 3, 4, 5, 6, 9, 10, 29},
            "zones": {0, 2, 9}, "withdraw": {0, 1, 5, 11},
            "mark": {0, 1, 2, 5, 6, 8}, "undo": {0, 1, 12}, "redo": {0, 1, 12}, "counts": {0},
            "report": {0, 1, 2, 13, 14, 21}, "write": {0, 1, 2, 13, 14, 15, 20, 21},
            "writef": {0, 1, 2, 13, 14, 15, 20, 21}, "read": {0, 13, 14, 16, 17, 18, 21},
            "before": {0, 13, 14, 16, 17, 18, 21}, "move": {0, 2, 13, 14, 15, 16, 17, 18, 20, 21}, "spaces": {0},
        }
        for call, expected in numbers.items():
            self.assertEqual({step.number for step in self.of(call)}, expected, msg=call)
        self.assertEqual(set(numbers), set(survey.CALLS))

    def test_every_remark(self) -> None:
        """On a sheet not open and on one that is; a file too long is so long that one must do."""
        expected = set(survey.REMARKS) - {survey.SCRIPT_TOO_LONG}
        for is_open in (False, True):
            found = {step.answer for step in self.steps if step.number is None and step.before.is_open == is_open}
            self.assertEqual(found, expected if is_open else expected - {survey.FILE_TOO_LONG})

    def test_numbers_that_apply_together(self) -> None:
        """Every pair of numbers that can apply to one entry, tank, mark or report does so somewhere."""
        found: dict[str, set[tuple[int, int]]] = {"enter": set(), "tank": set(), "mark": set(), "report": set()}
        for call, pairs in found.items():
            for step in self.of(call):
                if call in ENTRIES:
                    numbers = step.numbers
                else:
                    of_call = s.numbers_of_mark if call == "mark" else s.numbers_of_report
                    numbers = of_call(step.before, *step.arguments)
                self.assertEqual(min(numbers, default=0), step.number)
                if step.before.is_open:
                    pairs |= set(combinations(sorted(numbers), 2))
        above = {  # 19 only of a U that can be measured: never with 3, nor with what is judged of a room
            2: [*range(3, 11), 19], 3: range(4, 11), 4: [*range(5, 11), 19], 5: [10], 6: [9, 10, 19], 7: [8, 9, 10],
            8: [9, 10], 9: [10, 19], 10: [19],
        }
        self.assertEqual(found["enter"], {(low, high) for low, highs in above.items() for high in highs})
        above = {  # 3 only where 9 by an end and 29 aren't; 7 and 8 only in a space that is no U
            2: [3, 4, 5, 6, 7, 9, 10, 29], 3: [4, 10], 4: [5, 6, 8, 9, 10, 29], 5: [10], 6: [7, 8, 10], 7: [10],
            8: [10], 9: [10, 29], 10: [29],
        }
        self.assertLessEqual({(low, high) for low, highs in above.items() for high in highs}, found["tank"])
        self.assertFalse(found["tank"] & {(3, 5), (3, 6), (3, 9), (3, 29), (5, 6), (5, 9), (5, 29), (6, 9), (6, 29)})
        self.assertEqual(found["mark"], {(2, 5), (6, 8)})
        self.assertEqual(found["report"], {(2, 13), (2, 21), (13, 14), (13, 21), (14, 21)})

    def test_levels(self) -> None:
        entered = {s.level(step.before.spaces, step.new) for step in self.entries if step.number == 0}
        refused = {s.level(step.before.spaces, step.new) for step in self.entries if step.number == 7}
        self.assertEqual((entered, refused), (set(range(1, 9)), {9}))
        kinds = {s.above(step.before.spaces, step.new)[-1].kind for step in self.entries if step.number == 7}
        self.assertEqual(kinds, {U, B, S})

    def test_two_hundred_spaces(self) -> None:
        self.assertIn(199, {len(step.before.spaces) for step in self.entries if step.number == 0})
        tenth = [step for step in self.entries if step.number == 10]
        self.assertEqual({len(step.before.spaces) for step in tenth}, {200})
        self.assertLessEqual({B, H, R}, {step.new.kind for step in tenth})
        for call in ("undo", "redo", "withdraw", "mark", "report"):
            self.assertTrue(any(len(step.before.spaces) == 200 for step in self.of(call, 0)), msg=call)
        for call in ("undo", "redo"):
            self.assertTrue(any(len(step.after.spaces) == 200 for step in self.of(call, 0)), msg=call)

    def test_sums_of_rooms(self) -> None:
        """Exactly filled and passed by one, in every kind that encloses; rooms of nothing in a full space."""
        filled, passed, nothing = set(), set(), set()
        for step in self.entries:
            outer = s.enclosing(step.before.spaces, step.new)
            if outer is None or step.number not in (0, 9):
                continue
            by = s.tons(s.rooms(step.before.spaces, outer.id)) + step.new.tonnage - outer.tonnage
            if step.number == 0 and by == 0:
                (filled if step.new.tonnage else nothing).add((outer.kind, outer.tonnage > 0))
            if step.number == 9 and by == 1:
                passed.add(outer.kind)
        self.assertEqual({kind for kind, _ in filled}, {U, B, S, R})
        self.assertEqual(passed, {U, B, S, R})
        self.assertLessEqual({(U, True), (U, False), (R, True), (R, False), (S, True), (B, True)}, nothing)

    def test_sums_of_lengths(self) -> None:
        found = set()
        for step in self.entries:
            if step.new.kind == U and step.number in (0, 9):
                rest = step.before.length - s.under_deck_length(step.before.spaces)
                by = step.new.length - rest
                found.add((step.number, "exactly" if by == 0 else by if -1 <= by <= 1 else "other"))
                if step.number == 9 and step.new.length == step.before.length:
                    found.add("whole where others stand")
                if step.number == 9 and step.new.length > step.before.length and not step.before.spaces:
                    found.add("longer than the whole")
        self.assertEqual(found, {
            (0, "exactly"), (0, -1), (0, "other"), (9, 1), (9, "other"), "whole where others stand",
            "longer than the whole",
        })

    def test_sixty_four_changes(self) -> None:
        numbers = [(step.call, step.number) for step in self.steps if step.call not in LOOKS]
        entered, undone = [("enter", 0)] * 65, [("undo", 0)] * 64 + [("undo", 12)]
        redone = [("redo", 0)] * 64 + [("redo", 12)]
        self.assertTrue(any(numbers[place:place + 195] == entered + undone + redone for place in range(len(numbers))))
        for call in CHANGES:
            self.assertIn(63, {len(step.before.earlier) for step in self.of(call, 0)})
            self.assertIn(64, {len(step.before.earlier) for step in self.of(call, 0)})

    def test_64_changes_10_undos_one_change(self) -> None:
        found = [
            run for run in self.runs("enter", "counts", "spaces", "redo")
            if (len(run[0].before.earlier), len(run[0].before.later)) == (54, 10) and run[0].number == 0
        ]
        self.assertTrue(found)
        self.assertEqual({(run[1].answer, run[3].answer) for run in found}, {("0 55 0", "12")})

    def test_ids_entered_again(self) -> None:
        """After a withdrawal and after an undone entry, of the same kind and of another."""
        freed: dict[tuple[str, int], int] = {}
        found = set()
        for step in self.steps:
            if step.number != 0:
                continue
            before, after = step.before.spaces, step.after.spaces
            if step.call in BEGINNINGS:
                freed = {}
            elif step.call in ("withdraw", "undo"):
                freed |= {(step.call, one.id): one.kind for one in before if s.find(after, one.id) is None}
            elif step.call == "enter":
                found |= {(how, kind == step.new.kind) for (how, id), kind in freed.items() if id == step.new.id}
        self.assertEqual(found, {(how, same) for how in ("withdraw", "undo") for same in (False, True)})

    def test_undone_withdrawals(self) -> None:
        """At the first place, in the middle and at the last; made again too."""
        places = set()
        for first, second in zip(self.steps, self.steps[1:]):
            if (first.call, first.number, second.call, second.number) == ("withdraw", 0, "undo", 0):
                id = first.arguments[0]
                place = [space.id for space in second.after.spaces].index(id)
                last = len(second.after.spaces) - 1
                places.add("first" if place == 0 else "last" if place == last else "middle")
        self.assertLessEqual({"middle", "last"}, places)

    def test_redo_after_calls_that_change_nothing(self) -> None:
        between: set[tuple[str, int | None]] = set()
        found: set[tuple[str, int | None]] = set()
        for step in self.steps:
            if step.call == "redo" and step.number == 0:
                found |= between
            elif step.after == step.before:
                name = step.call if step.number is not None else "?"
                between = between | {(name, step.number)}
                continue
            between = set()
        self.assertLessEqual({
            ("report", 0), ("report", 2), ("counts", 0), ("spaces", 0), ("enter", 2), ("enter", 3), ("enter", 4),
            ("enter", 5), ("enter", 6), ("enter", 9), ("enter", 10), ("enter", 19), ("withdraw", 5), ("mark", 2),
            ("mark", 5),
            ("mark", 6), ("report", 13), ("?", None), ("undo", 12), ("write", 0), ("write", 2), ("write", 15),
        }, found)

    def test_marks_of_the_same_standing(self) -> None:
        same = [step for step in self.marks if step.number == 0 and step.before.spaces == step.after.spaces]
        kinds = {(s.find(step.before.spaces, step.arguments[0]).kind, step.arguments[1]) for step in same}
        self.assertLessEqual({(U, 0), (B, 0), (S, 0), (H, 0), (R, 0), (R, 1), (R, 2), (R, 3), (R, 4)}, kinds)
        self.assertTrue(any(step.before.later and not step.after.later for step in same))

    def test_not_plain_above_and_below(self) -> None:
        """Marks refused with 8 at every pair of levels, from above and from below; entries below every level."""
        marked, entered = set(), set()
        for step in self.marks:
            if step.number == 8:
                spaces, space = step.before.spaces, s.find(step.before.spaces, step.arguments[0])
                own = s.level(spaces, space)
                marked |= {
                    (own, s.level(spaces, other)) for other in s.above(spaces, space) + s.below(spaces, space)
                    if other.standing != PLAIN
                }
        for step in self.entries:
            if step.number == 8:
                spaces, own = step.before.spaces, s.level(step.before.spaces, step.new)
                entered |= {
                    (own, s.level(spaces, other)) for other in s.above(spaces, step.new) if other.standing != PLAIN
                }
        pairs = set(combinations(range(1, 9), 2))
        self.assertEqual(marked, pairs | {(lower, upper) for upper, lower in pairs})
        self.assertLessEqual({(8, upper) for upper in range(1, 8)}, entered)
        self.assertLessEqual({(upper + 1, upper) for upper in range(1, 8)}, entered)

    def test_one_not_plain_standing_for_another(self) -> None:
        found = {
            (s.find(step.before.spaces, step.arguments[0]).standing, step.arguments[1])
            for step in self.marks if step.number == 0
        }
        self.assertEqual(found, {(one, other) for one in range(5) for other in range(5)})

    def test_ballast(self) -> None:
        """Exactly 30% and a little over, not justified and justified; hatchways and exempt spaces in the gross."""
        exactly, over = [], []
        for step in self.of("report", 0, 14):
            ballast = s.tons(step.before.spaces, standings=(BALLAST,))
            by = 10 * ballast - 3 * s.gross_for_ballast(step.before.spaces)
            if ballast and by == 0:
                exactly.append(step)
            if 0 < by <= 10:
                over.append(step)
        for found, number in ((exactly, 0), (over, 14)):
            self.assertEqual({step.number for step in found if step.arguments == [0]}, {number})
            self.assertEqual({step.number for step in found if step.arguments == [1]}, {0})
            self.assertTrue(any(s.tons(step.before.spaces, kinds=(H,)) for step in found))
            self.assertTrue(any(s.tons(step.before.spaces, standings=(EXEMPT,)) for step in found))

    def share_of_machinery(self, step: Step) -> tuple[int, int, int]:
        """Machinery, gross and what is left of it, of the sheet that is reported."""
        spaces = step.before.spaces
        return s.machinery(spaces), s.gross(spaces), s.net(spaces)

    def test_classes_of_machinery(self) -> None:
        """At exactly 13% and 20% and a hundredth off; of a gross with an excess, with something exempt or deducted."""
        found, beside = set(), set()
        for step in self.of("report", 0):
            own, gross, _ = self.share_of_machinery(step)
            if own:
                found |= {("13%", 100 * own - 13 * gross), ("20%", 5 * own - gross)}
                others = gross > s.t(step.before.spaces), s.e(step.before.spaces) > 0, s.d(step.before.spaces) > 0
                beside.add((m.class_of_machinery(own, gross), *others))
        self.assertLessEqual({("13%", by) for by in (-100, -13, 0, 100)}, found)
        self.assertLessEqual({("20%", by) for by in (-5, -1, 0, 5)}, found)
        for of_class in (m.SMALL, m.MIDDLE, m.LARGE):
            for place in (1, 2, 3):
                self.assertEqual({one[place] for one in beside if one[0] == of_class}, {False, True})

    def test_roundings_of_deductions(self) -> None:
        """In each class up, down and exact, and next to a half; of 1.75 times the machinery the half too."""
        found = set()
        for step in self.of("report", 0):
            own, gross, _ = self.share_of_machinery(step)
            of_class = m.class_of_machinery(own, gross)
            of_gross, of_large = Fraction(32 * gross, 100), Fraction(7 * own, 4)
            exact = {m.SMALL: Fraction(32 * own, 13), m.MIDDLE: of_gross, m.LARGE: of_large}[of_class]
            found |= {(of_class, exact % 1)} if own else set()
            found |= {"one figure"} if of_class == m.LARGE and m.nearest(of_gross) == m.nearest(of_large) else set()
            found |= {"1.75 times under 20%"} if of_class == m.MIDDLE and of_gross < of_large else set()
        self.assertLessEqual({(m.SMALL, Fraction(part, 13)) for part in (0, 6, 7)}, found)
        self.assertLessEqual({(m.MIDDLE, Fraction(part, 25)) for part in (0, 12, 13)}, found)
        self.assertLessEqual({(m.LARGE, Fraction(part, 4)) for part in (0, 1, 2, 3)}, found)
        self.assertLessEqual({"one figure", "1.75 times under 20%"}, found)

    def test_no_machinery(self) -> None:
        """Of a gross and of none, with a room of nothing and without."""
        found = set()
        for step in self.of("report", 0):
            own, gross, _ = self.share_of_machinery(step)
            rooms = any(space.standing == MACHINERY for space in step.before.spaces)
            found |= {(rooms, bool(gross))} if not own else set()
        self.assertEqual(found, set(product((False, True), repeat=2)))

    def test_deductions_and_gross(self) -> None:
        """All of it deducted and one over, in each class; by machinery alone one under and one over."""
        found = set()
        for step in self.of("report", 0, 21):
            own, gross, net = self.share_of_machinery(step)
            alone = not s.d(step.before.spaces)
            found.add((step.number, m.class_of_machinery(own, gross), net, alone))
            self.assertEqual(step.number == 21, net < 0)
        for of_class in (m.SMALL, m.MIDDLE, m.LARGE):
            self.assertLessEqual({(0, of_class, 1, False), (0, of_class, 0, False), (21, of_class, -1, False)}, found)
        self.assertLessEqual({(0, m.LARGE, 1, True), (21, m.LARGE, -1, True)}, found)

    def test_machinery_of_every_kind(self) -> None:
        """Entered and marked: 6 for every kind but a room, and a tank of it; 5 and what would wrap to 4 are refused."""
        entered = {(step.number, step.new.kind) for step in self.entries if step.new.standing == MACHINERY}
        marked = set()
        for step in self.marks:
            own = s.find(step.before.spaces, step.arguments[0])
            marked |= {(step.number, own.kind)} if own and step.arguments[1] == MACHINERY else set()
        for found in (entered, marked):
            self.assertLessEqual({(0, R), (8, R), *((6, kind) for kind in (U, B, S, H))}, found)
        self.assertIn(MACHINERY, {step.new.standing for step in self.of("tank", 0)})
        places = {"enter": 4, "tank": 3, "mark": 2}
        for call, place in places.items():
            self.assertLessEqual({"5", "260"}, {step.words[place] for step in self.of(call, 2)})

    def test_machinery_above_and_below(self) -> None:
        """8 with machinery above and below every standing that isn't plain, by marks of both and by entries."""
        found = set()
        for step in self.entries:
            if step.number == 8:
                above = s.above(step.before.spaces, step.new)
                found |= {("entered below", other.standing, step.new.standing) for other in above}
        for step in self.marks:
            if step.number == 8:
                spaces, standing = step.before.spaces, step.arguments[1]
                own = s.find(spaces, step.arguments[0])
                found |= {("marked below", other.standing, standing) for other in s.above(spaces, own)}
                found |= {("marked above", standing, other.standing) for other in s.below(spaces, own)}
        for how, upper, lower in product(("entered below", "marked below", "marked above"), range(1, 5), range(1, 5)):
            if MACHINERY in (upper, lower):
                self.assertIn((how, upper, lower), found)

    def test_machinery_marked_and_undone(self) -> None:
        """From deducted and back, each reported, undone, reported, made again and reported."""
        found = set()
        for first, *later in self.runs("mark", "report", "undo", "report", "redo", "report"):
            own = s.find(first.before.spaces, first.arguments[0])
            if {step.number for step in (first, *later)} == {0}:
                found.add((own.standing, first.arguments[1]))
        self.assertLessEqual({(DEDUCTED, MACHINERY), (MACHINERY, DEDUCTED)}, found)

    def test_excess(self) -> None:
        found = set()
        for step in self.of("report", 0):
            g = s.t(step.before.spaces) - s.e(step.before.spaces)
            by = s.tons(step.before.spaces, kinds=(H,)) - m.hatchway_allowance(g)
            found.add(by)
        self.assertLessEqual({-1, 0, 1}, found)

    def test_justified_marks(self) -> None:
        for number, marks in (
            (0, {0, 1}), (13, {0, 1}), (14, {0}), (21, {0, 1}), (1, {0, 1, 2, 3, 255}), (2, {2, 3, 5, 255})
        ):
            self.assertEqual({step.arguments[0] for step in self.of("report", number)} & {0, 1, 2, 3, 5, 255}, marks)

    def test_enclosing_ids(self) -> None:
        found = set()
        for step in self.entries:
            id, within, kind = step.arguments[:3]
            if kind == R:
                outer = s.find(step.before.spaces, within)
                found |= {(step.number, "own id")} if within == id else set()
                found |= {(step.number, "hatchway")} if outer is not None and outer.kind == H else set()
            elif step.number == 0 and within:
                found.add((kind, "standing" if s.find(step.before.spaces, within) else "not standing"))
                self.assertEqual(step.after.spaces[-1].within, 0)
        self.assertLessEqual({(5, "own id"), (4, "own id"), (6, "hatchway")}, found)
        ignored = {(kind, how) for kind in (U, B, S, H) for how in ("standing", "not standing")}
        self.assertLessEqual(ignored, found)

    def test_unknown_kinds_and_standings(self) -> None:
        refused = [step.arguments for step in self.entries if step.number == 2]
        self.assertLessEqual({0, 6, 255}, {arguments[2] for arguments in refused})
        for kind in m.KINDS:
            self.assertLessEqual({5, 255}, {arguments[3] for arguments in refused if arguments[2] == kind})
        self.assertLessEqual({5, 255}, {step.arguments[1] for step in self.marks if step.number == 2})
        self.assertLessEqual({5, 255}, {step.arguments[2] for step in self.of("tank", 2)})

    def test_numbers_above_their_types(self) -> None:
        """At every place of every call, the greatest number and one that would wrap into its range."""
        greatest = {survey.an_id: 2**16, survey.a_code: 2**8, survey.a_measure: 2**32, survey.measures: 2**32}
        for call, (readers, _) in survey.CALLS.items():
            for place, reader in enumerate(readers, start=1):
                if reader not in greatest:
                    continue
                words = {word for step in self.of(call) for one in step.words[place:][:1] for word in one.split(",")}
                values = {survey.number(word) for word in words - {"-"}}
                self.assertIn(2**64 - 1, values)
                self.assertTrue(any(greatest[reader] < value < greatest[reader] + 10**4 for value in values))
                self.assertIn(greatest[reader], values | ({2**8} if reader is survey.a_code else set()))

    def test_tanks(self) -> None:
        """Accepted with m 4 and 6, in as many parts as the U and in others, at both ends, stations between zones."""
        found, between, tonnages = set(), set(), set()
        for step in self.of("tank", 0):
            id, within, standing, length, fore = step.arguments[:5]
            own = s.find(step.before.spaces, within)
            of_stations = m.zones_of_stations(step.before.length, own.length, length, fore)
            parts = m.parts_of_under_deck(step.before.length, own.length)
            found |= {own.m, standing + 100, "as many" if len(of_stations) - 1 == parts else "others", f"{parts} parts"}
            found |= {"fore"} if fore == 0 else set()
            found |= {"aft"} if fore + length == own.length else set()
            twice = [place for place, zones in enumerate(of_stations) if len(zones) == 2]
            between.add(len(twice))
            found |= {"first"} if 0 in twice else set()
            found |= {"last"} if len(of_stations) - 1 in twice else set()
            found |= {"inside"} if any(0 < place < len(of_stations) - 1 for place in twice) else set()
            tonnages.add(step.new.tonnage)
        self.assertLessEqual({4, 6, 100, 101, 102, 103, 104, "as many", "others", "fore", "aft"}, found)
        self.assertLessEqual({"first", "last", "inside"}, found)
        self.assertLessEqual({f"{parts} parts" for parts in (2, 4, 6, 8, 10, 16)}, found)
        self.assertLessEqual({0, 1, 2, 3, 4}, between)
        self.assertGreater(len(tonnages), 80)

    def test_tanks_at_the_ends_of_their_under_deck(self) -> None:
        """Flush and a hundredth too long, in a U with m and in one without; in one that is no U, 6."""
        found = set()
        for step in self.of("tank"):
            own = s.find(step.before.spaces, step.arguments[1])
            if own is not None and -1 <= (by := step.arguments[3] + step.arguments[4] - own.length) <= 1:
                found.add((step.number, own.kind, bool(own.m), by))
        self.assertLessEqual({(0, U, True, -1), (0, U, True, 0), (9, U, True, 1), (9, U, False, 1)}, found)

    def test_tanks_filling_their_under_deck(self) -> None:
        """Exactly, and passed by one or two; rooms beside a tank likewise."""
        found = set()
        for step in [*self.of("tank", 0, 9), *self.of("enter", 0, 9)]:
            own = s.enclosing(step.before.spaces, step.new)
            if own is not None and own.kind == U and step.new.tonnage:
                by = s.tons(s.rooms(step.before.spaces, own.id)) + step.new.tonnage - own.tonnage
                found.add((step.call, step.number, by))
        self.assertLessEqual({("tank", 0, 0), ("enter", 0, 0), ("enter", 9, 1)}, found)
        self.assertTrue({("tank", 9, 1), ("tank", 9, 2)} & found)

    def test_m_in_the_script(self) -> None:
        """Tanks by how their U last came to stand as it does, and with what m it did."""
        how: dict[int, str] = {}
        found = set()
        for step in self.steps:
            if step.call == "tank" and step.number in (0, 29):
                found.add((how[step.arguments[1]], step.number))
            before = {space.id for space in step.before.spaces} if step.call not in BEGINNINGS else set()
            new = {space.id for space in step.after.spaces if space.kind == U} - before
            how |= {id: step.call for id in new}
            if step.call == "mark" and step.number == 0:
                how[step.arguments[0]] = "mark"
        calls = {"enter": (0,), "read": (29,), "mark": (0, 29), "undo": (0, 29), "redo": (0,)}
        self.assertLessEqual({(call, number) for call, numbers in calls.items() for number in numbers}, found)

    def test_zones_in_the_script(self) -> None:
        """Every number of parts of a U and of a tank, many stations between two zones, and 2 with 9."""
        of_under_deck, of_tank, between = set(), set(), 0
        for step in self.of("zones", 0):
            of_under_deck.add(m.parts_of_under_deck(*step.arguments[:2]))
            of_tank.add(int(step.answer.split(" ")[1]))
            between += any(len(zones) == 2 for zones in m.zones_of_stations(*step.arguments))
        self.assertEqual((of_under_deck, of_tank), (set(m.EVEN_NUMBERS), set(m.EVEN_NUMBERS)))
        self.assertGreater(between, 100)
        self.assertTrue(any(sum(step.arguments[2:]) > step.arguments[1] for step in self.of("zones", 2)))
        self.assertTrue(any(step.arguments[0] < step.arguments[1] for step in self.of("zones", 0)))

    def areas(self, step: Step) -> list[bool]:
        """Whether the U of an entry that can be measured has area at its fore and at its aft end."""
        return [area != 0 for area in m.areas_of_ends(*step.arguments[5:7])]

    def test_pairs_of_ends_in_the_script(self) -> None:
        """Every pair, with area at each end and without, accepted or refused by that; with m 4 and 6, in many parts."""
        found = set()
        for step in self.of("enter", 0, 19):
            if step.new.kind == U:
                found.add((*step.ends, *self.areas(step)))
                has_area = any(end == POINTED and area for end, area in zip(step.ends, self.areas(step)))
                self.assertEqual(step.number, 19 if has_area else 0)
        self.assertEqual(found, set(product((1, 2, 3), (1, 2, 3), (False, True), (False, True))))
        self.assertGreater(len(self.of("enter", 19)), 100)
        pointed = [step for step in self.of("enter", 0) if step.new.kind == U and POINTED in step.ends]
        self.assertGreater(len(pointed), 150)
        for steps_of_number in (self.of("enter", 19), pointed):
            self.assertEqual({step.new.m for step in steps_of_number}, {4, 6})
            parts = {len(step.arguments[5]) - 1 for step in steps_of_number}
            self.assertLessEqual({2, 4, 6, 16}, parts)

    def test_edges_of_pointed_ends_in_the_script(self) -> None:
        """The last depth that gives no area and the first that does, and one breadth alone at every place of an end."""
        depths, places = set(), set()
        for step in self.of("enter", 0, 19):
            if step.new.kind == U:
                row = step.new.m + 1
                for end, station, name in zip(step.ends, (0, -1), ("fore", "aft")):
                    own = step.arguments[6][:row] if name == "fore" else step.arguments[6][-row:]
                    depth = step.arguments[5][station]
                    if end == POINTED and all(own):
                        depths.add((step.number, name, step.new.m, depth))
                    if end == POINTED and sum(own) == 1:
                        places.add((step.number, name, step.new.m, own.index(1)))
        for name in ("fore", "aft"):
            self.assertLessEqual({(0, name, 4, 0), (0, name, 4, 5), (0, name, 6, 6), (0, name, 6, 8)}, depths)
            self.assertLessEqual({(19, name, 4, 6), (19, name, 4, 8), (19, name, 6, 9)}, depths)
            for number, own_m in product((0, 19), (4, 6)):
                self.assertLessEqual({(number, name, own_m, place) for place in range(own_m + 1)}, places)

    def test_ends_of_every_kind_in_the_script(self) -> None:
        """Left out, no end's number and pointed: of a U refused with 2, of every other kind accepted."""
        found: dict[int, set[str]] = {kind: set() for kind in m.KINDS}
        for step in self.of("enter"):
            if step.number == 0 or step.number == 2 and self.only_ends_are_amiss(step):
                ends = step.ends or ("left out",)
                found[step.new.kind] |= {f"{step.number} {end}" for end in ends}
        amiss = {"left out", "0", "4", "255"}
        self.assertEqual(found[U], {"0 1", "0 2", "0 3"} | {f"2 {end}" for end in amiss | {"1", "2", "3"}})
        for kind in (B, S, H, R):
            self.assertEqual(found[kind], {f"0 {end}" for end in amiss | {"1", "2", "3"}})

    def only_ends_are_amiss(self, step: Step) -> bool:
        """Whether nothing but a number for an end is outside its range."""
        return 2 not in s.numbers_of_entry(step.before, step.new, *step.arguments[5:7], INNER, INNER)

    def test_pointed_ones_undone_made_again_and_read_back(self) -> None:
        """Undo and redo behind an accepted and a refused one; one read back; one entered on a sheet that was read."""
        found, pointed, was_read = set(), set(), False
        for step, after in zip(self.steps, self.steps[1:]):
            if step.call in BEGINNINGS:
                if step.call == "read" and step.number == 0 and len(pointed & set(step.after.spaces)) > 0:
                    found.add("read back")
                was_read = step.call == "read"
            if step.call == "enter" and step.number in (0, 19) and POINTED in step.ends and step.new.kind == U:
                found.add((step.number, after.call, after.number))
                found |= {(step.number, "on a sheet that was read")} if was_read else set()
                pointed |= {replace(step.new, m=s.NO_M)} if step.number == 0 else set()
        expected = {"read back", (0, "undo", 0), (19, "undo", 0), (19, "redo", 0), (19, "undo", 12)}
        expected |= {(number, "on a sheet that was read") for number in (0, 19)}
        self.assertLessEqual(expected | {(0, "spaces", 0), (19, "counts", 0)}, found)

    def test_roundings_of_lengths_in_the_script(self) -> None:
        """Every kind in every number of parts: the least, those beside 0, 0 and the two greatest, up to a half."""
        edges = {
            2: {-2, 0, 2}, 4: {-4, -2, 0, 2, 4, 6}, 6: {-8, -2, 0, 2, 6, 8}, 8: {-10, -2, 0, 2, 10, 12},
            10: {-10, 0, 10}, 12: {-16, -2, 0, 2, 16, 18}, 14: {-20, -2, 0, 2, 18, 20}, 16: {-22, -2, 0, 2, 22, 24},
        }
        found: dict[tuple[int, int, bool], set[int]] = {}
        for step in self.of("enter", 0):
            if step.new.kind in (U, B, S):
                of_kind = step.new.kind, len(step.arguments[5]) - 1, step.new.length == step.before.length
                found.setdefault(of_kind, set()).add(step.rounding)
        for parts, wanted in edges.items():
            step_part, whole = found.get((U, parts, False), set()), found.get((U, parts, True), set())
            of_superstructure = found[S, parts, False]
            self.assertLessEqual(wanted, of_superstructure)
            self.assertLessEqual({max(wanted)} if parts > 4 else wanted, step_part)
            if parts > 4:
                self.assertLessEqual(wanted, whole)
                self.assertLessEqual(wanted, found[B, parts, False])
        self.assertEqual({parts for kind, parts, whole in found if kind == U and whole}, {6, 8, 10, 12, 14, 16})
        of_lengths = {
            (step.new.length, len(step.arguments[5]) - 1): step.rounding
            for step in self.of("enter", 0) if step.new.kind == U
        }
        self.assertLessEqual({
            (100, 6): 8, (3999, 4): 6, (4000, 6): -4, (30_000, 16): 0, (30_001, 16): -10, (149_999, 16): 10,
            (150_000, 16): 0,
        }.items(), of_lengths.items())

    def test_roundings_of_depths_in_the_script(self) -> None:
        """Every one with m 4 and 6, at each of three stations; up to 17 stations, neighbours rounded differently."""
        found, alike, middles = set(), set(), set()
        for step in self.of("enter", 0):
            if step.new.kind == U:
                of_depths, own_m = step.roundings_of_depths, step.new.m
                if len(of_depths) == 3:
                    found |= {(own_m, station, rounding) for station, rounding in enumerate(of_depths)}
                pairs = zip(of_depths, of_depths[1:])
                alike.add((len(of_depths), own_m, any(one == other for one, other in pairs)))
                middles.add((own_m, m.middle_depth(step.arguments[5]), step.arguments[5][-1] > 1600))
        for own_m, roundings in ((4, range(-5, 7)), (6, range(-8, 10))):
            self.assertEqual({of for of in found if of[0] == own_m}, set(product((own_m,), range(3), roundings)))
            self.assertLessEqual({(stations, own_m, False) for stations in range(3, 18, 2)}, alike)
        self.assertLessEqual({(4, 1600, True), (6, 1601, True), (6, 1601, False)}, middles)

    def would_pass_on(self, step: Step) -> tuple[bool, bool]:
        """Whether a refused entry has a length and a depth of a U that aren't exact, if they can be judged."""
        kind, length, heights, breadths = step.arguments[2], *step.arguments[4:7]
        parts = m.parts(kind, step.before.length, length)
        depth_parts = len(breadths) // max(len(heights), 1) - 1
        inexact = kind == U and depth_parts > 0 and any(depth % (3 * depth_parts) for depth in heights)
        return parts > 0 and 10 * length % (3 * parts) > 0, inexact

    def test_refused_roundings_in_the_script(self) -> None:
        """With every number that a U, B or S can have one whose length isn't exact, of a U some depth neither."""
        found = {(step.number, step.new.kind, *self.would_pass_on(step)) for step in self.of("enter") if step.number}
        for number in (1, 2, 3, 4, 6, 9, 10, 19):
            self.assertIn((number, U, True, True), found)
        for number, kind in product((1, 2, 3, 4, 6, 10), (B, S)):
            self.assertIn((number, kind, True, False), found)
        self.assertLessEqual({(number, R, False, False) for number in range(1, 11)}, found)
        self.assertLessEqual({(number, H, False, False) for number in (1, 2, 3, 4, 6, 10)}, found)

    def test_rounded_ones_undone_and_made_again_in_the_script(self) -> None:
        """A U, B and S with a rounding; a tank in a U with a rounding at each of its stations."""
        changes = [step for step in self.steps if step.call not in LOOKS]
        found = set()
        for entered, after, behind in zip(changes, changes[1:], changes[2:]):
            if entered.call == "enter" and entered.number == 0 and entered.rounding:
                found.add((entered.new.kind, f"{after.call} {after.answer}", f"{behind.call} {behind.answer}"))
                if after.call == "tank" and all(entered.roundings_of_depths):
                    found.add(f"tank {after.number}")
        self.assertLessEqual({(kind, "undo 0", "redo 0") for kind in (U, B, S)}, found)
        self.assertIn("tank 0", found)

    def test_decks_in_the_script(self) -> None:
        """Each kind and a tank: in range accepted, beyond refused, above its type; beside every number it can meet."""
        named: dict[Any, set[tuple[int, int]]] = {}
        for step in [*self.of("enter"), *self.of("tank")]:
            if "deck" in step.further:
                kind = "tank" if step.call == "tank" else step.new.kind
                named.setdefault(kind, set()).add((step.number, step.further["deck"]))
        for kind in (*m.KINDS, "tank"):
            self.assertLessEqual({(0, 0), (0, 1), (0, 99), (2, 100), (2, 255), (1, 99), (1, 100)}, named[kind])
        words = {step.words[-1] for step in self.of("enter", 2) if "deck" in step.further}
        self.assertLessEqual({"256", "355", str(2**16 + 1), str(2**64 - 1)}, words)
        for call, others in (("enter", {3, 4, 5, 6, 7, 8, 9, 10, 19}), ("tank", {3, 4, 5, 6, 9, 10, 29})):
            beside = [step for step in self.of(call) if step.before.is_open and step.further.get("deck", 0) > 99]
            self.assertLessEqual(others, set().union(*(step.numbers for step in beside)))
            alone = [step for step in self.of(call) if step.further.get("deck") == 99]
            self.assertLessEqual(others | {0, 1, 2}, {step.number for step in alone})

    def test_words_behind_an_entry_in_the_script(self) -> None:
        """A deck alone, ends alone, both and neither, of every kind; of a U without ends 2."""
        found = {(step.arguments[2], len(step.words) - 8, step.number == 0) for step in self.of("enter", 0, 2)}
        for kind in m.KINDS:
            self.assertLessEqual({(kind, count, kind != U or count in (2, 3)) for count in range(4)}, found)

    def test_decks_carried_in_the_script(self) -> None:
        """Undo and redo of an entry, a tank, a withdrawal and a mark of a space with a deck, and a look behind each."""
        found, lines = set(), [step for step in self.steps if step.number is not None]
        for first, *later in zip(*(lines[by:] for by in range(6))):
            if first.number == 0 and first.call in CHANGES:
                id = first.arguments[0]
                own = s.find(first.before.spaces, id) or s.find(first.after.spaces, id)
                calls = tuple(step.call for step in later if step.number == 0)
                found |= {(first.call, calls)} if own.deck else set()
        self.assertLessEqual(set(product(CHANGES, [("spaces", "undo", "spaces", "redo", "spaces")])), found)

    def test_vessels_in_the_script(self) -> None:
        """At the ends of their range, on openings accepted and refused, over a sheet that has one; beyond, no call."""
        opened = {(step.number, step.further.get("vessel")) for step in self.of("open")}
        self.assertLessEqual(set(product((0, 2), (None, 0, 1, 2**32 - 1))), opened)
        again = {(bool(step.before.vessel), bool(step.after.vessel), step.call) for step in self.steps}
        for call in ("open", "read", "before"):
            self.assertLessEqual({(True, True, call), (True, False, call), (False, True, call)}, again)
        beyond = {step.words[2] for step in self.steps if step.call == "open" and len(step.words) == 3
                  and step.answer == "? number too large"}
        self.assertLessEqual({str(2**32), str(2**32 + 1), str(2**64 - 1), str(2**64)}, beyond)

    def test_visited_in_the_script(self) -> None:
        """By rooms and by tanks, all that can be visited with each number, which is all that there is."""
        levels = range(1, 9)
        found = {
            call: {(step.number, step.visited) for step in self.of(call) if step.new.kind == R} for call in ENTRIES
        }
        self.assertEqual(found["enter"], {
            (1, 0), (5, 0), (6, 1), (7, 8), *product((2, 3, 4), (0, *levels)), *product((0, 8, 9, 10), levels[:7])
        })
        self.assertEqual(found["tank"], {
            (1, 0), (5, 0), *product((0, 3, 9, 10, 29), (1,)), *product((2, 4), (0, *levels)), *product((6,), levels)
        })
        self.assertEqual({step.visited for step in self.entries if step.new.kind != R}, {0})

    def test_visited_beside_other_numbers_in_the_script(self) -> None:
        """Rooms in a space of each level to which two numbers apply, in a hatchway and where none stands."""
        found = {
            (*pair, step.visited) for step in self.entries if step.new.kind == R and step.before.is_open
            for pair in combinations(sorted(step.numbers), 2)
        }
        pairs = {(2, 3), (2, 4), (3, 4), (3, 8), (4, 8), (4, 9), (8, 9), (2, 10), (3, 10), (4, 10), (8, 10), (9, 10)}
        self.assertLessEqual({(*pair, level) for pair in pairs for level in range(1, 8)}, found)
        self.assertLessEqual({(2, 7, 8), (3, 7, 8), (4, 7, 8), (7, 8, 8), (7, 9, 8), (7, 10, 8)}, found)
        self.assertLessEqual({(2, 6, 1), (3, 6, 1), (4, 6, 1), (6, 9, 1), (6, 10, 1)}, found)
        self.assertLessEqual({(2, 5, 0), (3, 5, 0), (4, 5, 0), (5, 10, 0)}, found)

    def test_visited_after_changes_in_the_script(self) -> None:
        """By how the named space last came to stand where it does, and by the change behind which none stands."""
        how: dict[int, str] = {}
        found, last = set(), ""
        for step in self.steps:
            if step.call in ENTRIES and step.number is not None and step.new.kind == R:
                found.add((how[step.arguments[1]] if step.visited else last, step.visited))
            if step.number == 0 and step.call in (*BEGINNINGS, *CHANGES, "undo", "redo"):
                before = {space.id for space in step.before.spaces} if step.call not in BEGINNINGS else set()
                how |= {space.id: step.call for space in step.after.spaces if space.id not in before}
                last = step.call
        self.assertLessEqual(set(product(("enter", "read", "undo", "redo"), range(1, 9))), found)
        self.assertLessEqual({("tank", 2), *product(("undo", "redo", "withdraw", "mark", "read", "open"), (0,))}, found)

    def test_random_visited(self) -> None:
        """Calls at random visit from 0 to 8 spaces, accepted and refused; tanks that name rooms do so too."""
        found = [(step.call, step.number, step.visited) for step in steps_at_random()
                 if step.call in ENTRIES and step.number is not None]
        self.assertLessEqual(set(product(("enter",), (2, 4), range(9))), set(found))
        self.assertLessEqual(set(product(("enter",), (0, 8, 9), range(1, 8))), set(found))
        self.assertLessEqual(set(product(("tank",), (6,), range(1, 9))), set(found))
        for visited in (7, 8):
            self.assertGreater(sum(visited == last for *_, last in found), 40)

    def test_lines_that_are_no_calls(self) -> None:
        """Whatever the sheet."""
        session = Session()
        for first in ("open 99", "open 1200 7"):
            session.answer(first)
            for line in scripts.MALFORMED:
                self.assertIn((session.answer(line) or "?")[0], "?", msg=line)

    def test_random_machinery(self) -> None:
        """Calls at random have machinery of each class, in tanks too, a standing over 4, and 21 by report and write."""
        found = set()
        for step in steps_at_random():
            if step.call in ("report", *WRITES) and step.number in (0, 21):
                own, gross, _ = self.share_of_machinery(step)
                found.add((step.call, step.number, m.class_of_machinery(own, gross) if own else "none"))
            elif step.call in (*ENTRIES, "mark") and step.number in (0, 2, 8):
                standing = step.arguments[1] if step.call == "mark" else step.new.standing
                found.add((step.call, step.number, standing))
        for call in ("report", "writef"):
            of_classes = {(call, 0, of_class) for of_class in (m.SMALL, m.MIDDLE, m.LARGE)}
            self.assertLessEqual(of_classes | {(call, 21, m.LARGE)}, found)
        for call in (*ENTRIES, "mark"):
            self.assertLessEqual({(call, 0, MACHINERY), (call, 2, scripts.NO_STANDING)}, found)
        self.assertLessEqual({("enter", 8, MACHINERY), ("mark", 8, MACHINERY)}, found)

    def test_random_roundings(self) -> None:
        """Calls at random have U, B and S in every number of parts, rounded up, down and not, and all of depths."""
        found, depths = set(), set()
        for step in steps_at_random():
            if step.call == "enter" and step.number == 0 and step.new.kind in (U, B, S):
                sign = (step.rounding > 0) - (step.rounding < 0)
                found |= {(step.new.kind, len(step.arguments[5]) - 1), (step.new.kind, f"sign {sign}")}
                depths |= {(step.new.m, rounding) for rounding in step.roundings_of_depths}
        parts = {(U, number) for number in range(2, 17, 2)} | {(B, number) for number in range(6, 17, 2)}
        parts |= {(S, number) for number in range(2, 17, 2)}
        self.assertEqual(found, parts | set(product((U, B, S), ("sign -1", "sign 0", "sign 1"))))
        self.assertEqual(depths, set(product((4,), range(-5, 7))) | set(product((6,), range(-8, 10))))

    def test_sheets_opened_again(self) -> None:
        opened = {(step.before.is_open, bool(step.before.spaces), step.number) for step in self.of("open")}
        self.assertLessEqual({(False, False, 0), (True, True, 0), (True, True, 2), (False, False, 2)}, opened)
        calls = {step.call for step in self.steps if not step.before.is_open and step.number == 1}
        self.assertEqual(calls, {"enter", "tank", "withdraw", "mark", "undo", "redo", "report", "write", "writef"})

    def test_looks(self) -> None:
        """Counts, spaces and reports are frequent; the spaces of a large sheet are seldom asked for."""
        places = [place for place, step in enumerate(self.steps) if step.call in LOOKS and step.number is not None]
        self.assertGreater(len(places), len(self.steps) // 5)
        unseen = max(after - before for before, after in zip(places, places[1:]))
        self.assertLessEqual(unseen, 2 * scripts.MOST_UNSEEN + 1)  # where a walk was cut off just before its look
        large = [step for step in self.of("spaces") if len(step.before.spaces) > 100]
        self.assertTrue(2 <= len(large) <= 20, msg=len(large))
        self.assertLess(sum(len(step.answer) for step in self.steps), 1_000_000)

    def test_command_line(self) -> None:
        for arguments, status, expected in (
            ([], 0, "# one\n"), (["7", "50"], 0, scripts.script(7, 50)), (["7"], 2, ""), (["x", "50"], 2, ""),
        ):
            with mock.patch("sys.argv", ["scripts", *arguments]), redirect_stderr(io.StringIO()):
                with mock.patch.object(scripts, "standard", lambda: "# one\n"):
                    with redirect_stdout(io.StringIO()) as printed:
                        self.assertEqual(scripts.main(), status)
            self.assertEqual(printed.getvalue(), expected)


if __name__ == "__main__":
    unittest.main()
