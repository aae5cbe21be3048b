"""Seeded scripts of calls in the protocol of survey.py, steered by the sheet that the calls so far have made.

    python3 -m reference.scripts                    prints the standard script, which visits every edge of the rules
    python3 -m reference.scripts SEED CALLS         prints a script of that many calls at random

Every section is a generator of lines: each line is answered before the next is asked for, so a section sees the sheet
after its last line.
"""

import sys
from fractions import Fraction
from itertools import combinations, cycle, islice, product
from random import Random
from typing import Callable, Iterable, Iterator, Sequence

from reference import command_line, dayfile, figures, files, measure as m, sheet as s
from reference.dayfile import FORM_1, FORM_2, FORMS
from reference.figures import one_of, some, word
from reference.measure import B, H, R, S, U
from reference.sheet import BALLAST, DEDUCTED, EXEMPT, INNER, MACHINERY, NOT_SAID, PLAIN, POINTED, UPRIGHT, Sheet
from reference.survey import GREATEST_SIZE, GREATEST_VESSEL, MOST_DIGITS, MOST_NUMBERS, Session, in_hex

Lines = Iterator[str]
Section = Callable[[Random, Session], Lines]
Ends = tuple[int, ...]  # words behind an entry's measures: two on its ends; none, or others, where a section tries that

LOOK = ("counts", "spaces")
LOOK_AND_REPORT = ("counts", "spaces", "report 0", "report 1")
BEYOND_16 = (65_535, 65_536, 65_537, 2**64 - 1)  # ids above their type, one that would wrap to 1
NO_STANDING = 5  # the least outside its range
BEYOND_8 = (5, 255, 256, 257, 260, 2**16, 2**64 - 1)  # codes above their range or type, some that would wrap into it
BEYOND_ENDS = (4, 255, 256, 257, 258, 259, 2**16 + 2, 2**64 - 1)  # ends likewise
BEYOND_DECKS = (100, 101, 255, 256, 256 + 99, 2**16 + 1, 2**64 - 1)  # decks likewise
BEYOND_FORMS = (0, 3, 4, 255, 256, 257, 258, 2**16 + 2, 2**32 + 1, 2**64 - 1)  # forms likewise
BEYOND_32 = (2**32 - 1, 2**32, 2**32 + 600, 2**64 - 1)  # measures likewise
FAR = (2**63 - 1, 2**63, 2**64 - 1)  # places far behind the end of a buffer


# Lines

def call(name: str, *arguments: int | Sequence[int]) -> str:
    """The line of a call."""
    return " ".join([name, *map(word, arguments)])


def unless_left_out(argument: int | None) -> tuple[int, ...]:
    """What a line has at its end of a word that may be left out."""
    return () if argument is None else (argument,)


def opening(length: int, vessel: int | None = None) -> str:
    """The line of an opening."""
    return call("open", length, *unless_left_out(vessel))


def enter(
    id: int, within: int, kind: int, standing: int, length: int, heights: Sequence[int], breadths: Sequence[int],
    ends: Ends | None = None, deck: int | None = None,
) -> str:
    """The line of an entry; where ends aren't given, a U is upright at both, and of another they are left out."""
    if ends is None:
        ends = (UPRIGHT, UPRIGHT) if kind == U else ()
    return call("enter", id, within, kind, standing, length, heights, breadths, *ends, *unless_left_out(deck))


def box_measures(tonnage: int) -> tuple[int, list[int], list[int]]:
    """Length, height and breadth of an H or R of exactly this tonnage: ten feet by ten feet, or next to nothing."""
    return (tonnage, [1000], [1000]) if tonnage else (1, [1], [1])


def room(id: int, within: int, tonnage: int = 0, standing: int = PLAIN, deck: int | None = None) -> str:
    """The entry of a room of this tonnage."""
    return enter(id, within, R, standing, *box_measures(tonnage), deck=deck)


def hatchway(id: int, tonnage: int, deck: int | None = None) -> str:
    """The entry of a hatchway of this tonnage."""
    return enter(id, 0, H, PLAIN, *box_measures(tonnage), deck=deck)


def divided(
    id: int, kind: int, tonnage_length: int, length: int, height: int, breadth: int, standing: int = PLAIN,
    deck: int | None = None,
) -> str:
    """The entry of a U, B or S with one height and one breadth throughout."""
    space = figures.uniform(kind, tonnage_length, length, height, breadth)
    return enter(id, 0, kind, standing, length, space.heights, space.breadths, deck=deck)


def tank(
    id: int, within: int, standing: int, length: int, fore: int, depths: Sequence[int], breadths: Sequence[int],
    deck: int | None = None,
) -> str:
    """The line of a tank."""
    return call("tank", id, within, standing, length, fore, depths, breadths, *unless_left_out(deck))


def zones(tonnage_length: int, under_deck_length: int, length: int, fore: int) -> str:
    """The line that asks where to measure a tank."""
    return call("zones", tonnage_length, under_deck_length, length, fore)


def mark(id: int, standing: int) -> str:
    """The line of a mark."""
    return call("mark", id, standing)


def withdraw(id: int) -> str:
    """The line of a withdrawal."""
    return call("withdraw", id)


def write(justified: int, at: int, size: int, form: int | None = None) -> str:
    """The line of a write."""
    return call("write", justified, at, size, *unless_left_out(form))


def writef(justified: int, at: int, size: int, fill: int, form: int | None = None) -> str:
    """The line of a write into a buffer with a filling."""
    return call("writef", justified, at, size, fill, *unless_left_out(form))


def read(file: bytes) -> str:
    """The line of a read."""
    return f"read {in_hex(file)}"


def before(start: int, file: bytes) -> str:
    """The line of a read of the sheet before a start."""
    return f"before {start} {in_hex(file)}"


def move(file: bytes, form: int, at: int, size: int, fill: int = 0) -> str:
    """The line of a move."""
    return f"move {in_hex(file)} {form} {at} {size} {fill}"


# Sheets that sections begin with

def a_thousand() -> Lines:
    """U 1 and 2 of 360 each and S 3 of 280, on a tonnage length of 1200: T is 1000."""
    yield "open 1200"
    yield divided(1, U, 1200, 600, 1200, 500)
    yield divided(2, U, 1200, 600, 1200, 500)
    yield divided(3, S, 1200, 300, 933, 1000)


OF_THE_THOUSAND = {1: 360, 2: 360, 3: 280}  # the tonnages of its spaces


def twenty_thousand() -> Lines:
    """U 1 and 2 of 9000 each and S 3 of 2000, on a tonnage length of 3000: T is 20000."""
    yield "open 3000"
    yield divided(1, U, 3000, 1500, 1200, 5000)
    yield divided(2, U, 3000, 1500, 1200, 5000)
    yield divided(3, S, 3000, 900, 1111, 2000)


def chain(outer: int, first: int, levels: int, tonnage: int) -> Lines:
    """Rooms of one tonnage, each inside the one before, with ids from the first on; the outermost is inside `outer`."""
    yield room(first, outer, tonnage)
    yield from (room(id, id - 1, tonnage) for id in range(first + 1, first + levels))


def rooms_in(spaces: Sequence[int], tonnage: int, standing: int, first: int) -> tuple[str, ...]:
    """The entries of rooms that have this tonnage together, in spaces of the thousand, each filled before the next."""
    lines, left = [], tonnage
    for id, within in enumerate(spaces, start=first):
        own = min(left, OF_THE_THOUSAND[within])
        lines, left = [*lines, room(id, within, own, standing)], left - own
        if not left:
            break
    return tuple(lines)


def machinery(tonnage: int) -> tuple[str, ...]:
    """The entries of machinery rooms of this tonnage on the thousand: 4 in U 1 and, if it is more, 5 in U 2."""
    return rooms_in((1, 2), tonnage, MACHINERY, 4)


def deducted(tonnage: int) -> tuple[str, ...]:
    """The entries of deducted rooms of this tonnage on the thousand: 6 in S 3 and, if it is more, in U 2 and U 1."""
    return rooms_in((3, 2, 1), tonnage, DEDUCTED, 6)


def conditions() -> Iterator[tuple[str, ...]]:
    """Lines that leave a sheet in every condition of a report: not open, and with every set of 13, 14 and 21."""
    half = divided(1, U, 1200, 600, 1200, 500)
    yield ("open 99",)
    yield ("open 1200",)
    yield ("open 1200", half)
    yield ("open 1200", half, room(4, 1, 300, BALLAST))
    yield (*a_thousand(), room(4, 1, 301, BALLAST))
    yield tuple(a_thousand())
    # deductions that pass the gross by one: 1001 of 1000, 361 of 360, 252 of 251 and 700 of 699
    yield (*a_thousand(), *machinery(572))
    yield ("open 1200", half, room(4, 1, 206, MACHINERY))
    yield ("open 1200", half, room(4, 1, 144, MACHINERY), room(5, 1, 109, BALLAST))
    yield (*a_thousand(), *machinery(280), room(5, 2, 301, BALLAST), *deducted(210))


def whole_sheet() -> Lines:
    """The paper's whole sheet."""
    yield "open 4800"
    yield divided(1, U, 4800, 4800, 1200, 2000)
    yield divided(2, S, 4800, 1600, 800, 1000)
    yield enter(3, 1, R, BALLAST, 1000, [400], [1000])
    yield enter(4, 2, R, DEDUCTED, 800, [800], [500])
    yield enter(5, 0, H, PLAIN, 500, [500], [400])


def read_and_entered_anew() -> Lines:
    """The thousand read from its file, so that its U have no m, and U 1 entered anew: it has m 4."""
    session = Session()
    session.answers("".join(line + "\n" for line in a_thousand()))
    yield read(dayfile.bytes_of(FORM_1, session.sheet, s.NOT_MARKED))
    yield from (withdraw(1), divided(1, U, 1200, 600, 1200, 500))


def tried(session: Session, line: str) -> Lines:
    """A change, looked at and undone where it is accepted."""
    before = session.sheet
    yield line
    if session.sheet != before:
        yield from ("spaces", "undo")


# Sections of edges

def not_open(rng: Random, session: Session) -> Lines:
    """Every call on a sheet not open, with arguments that would be accepted and with others."""
    yield "# Calls on a sheet not open"
    yield from ("counts", "spaces", "undo", "redo", "report 0", "report 1", "report 2", "report 256")
    yield from (divided(1, U, 1200, 600, 1200, 500), hatchway(2, 10), room(3, 1, 5), room(0, 0, 5, NO_STANDING))
    yield from (enter(1, 0, 9, 0, 0, [], []), enter(10_000, 0, H, 1, 2**32, [0], []))
    yield from (withdraw(1), withdraw(0), mark(1, 0), mark(1, NO_STANDING), mark(65_536, 256))
    yield from (tank(2, 1, PLAIN, 300, 0, [9] * 3, [9] * 15), tank(0, 0, NO_STANDING, 0, 2**32, [20_001], []))
    yield from (zones(4800, 4800, 4800, 0), zones(4800, 4800, 4800, 1), zones(99, 4800, 4800, 0))
    yield from LOOK
    yield "# A move takes no sheet"
    alone = files.of_one(FORM_1)
    yield from (move(alone, FORM_2, 0, 52), move(alone, FORM_1, 0, 43), move(alone, 0, 0, 0), move(b"", FORM_1, 0, 0))
    yield from (*LOOK, *(write(0, 0, 9, form) for form in (FORM_1, FORM_2, 3)), *LOOK)


def openings(rng: Random, session: Session) -> Lines:
    """Openings refused and accepted; a refused one leaves no sheet, an accepted one an empty sheet."""
    yield "# Opening and opening again"
    for length in (0, 1, 99, 100, 101, 150_000, 150_001, *BEYOND_32, 2**32 + 4800):
        yield f"open {length}"
        yield from LOOK
        yield hatchway(1, 10)
        yield from ("undo", "counts", "spaces")
    for again in ("open 4800", "open 1200", "open 99", "open 1200"):
        yield from a_thousand()
        yield from (hatchway(9, 20), "undo", *LOOK_AND_REPORT, again, *LOOK_AND_REPORT)
        yield from ("redo", "undo", hatchway(9, 20), mark(1, 0), withdraw(1), *LOOK)


def paper_sheet(rng: Random, session: Session) -> Lines:
    """The paper's whole sheet."""
    yield "# The paper's whole sheet"
    yield from whole_sheet()
    yield from LOOK_AND_REPORT
    yield from (withdraw(3), "report 0", "undo", withdraw(5), "report 0", "undo", *LOOK_AND_REPORT)


def hatchways(rng: Random, session: Session) -> Lines:
    """The hatchways at the allowance and over it, the allowance taken of G after all that is exempt."""
    yield "# Excess of the hatchways"
    yield from twenty_thousand()
    yield from ("report 0", hatchway(4, 99), "report 0", hatchway(5, 1), "report 0", hatchway(6, 1), "report 0")
    yield from (room(7, 1, 99, EXEMPT), "report 0", room(8, 1, 1, BALLAST), "report 0")
    yield from (room(9, 1, 1, DEDUCTED), "report 0", mark(3, EXEMPT), *LOOK_AND_REPORT)
    yield from (hatchway(10, 5000), *LOOK_AND_REPORT, withdraw(4), withdraw(5), withdraw(6), *LOOK_AND_REPORT)
    yield "# Nothing but hatchways in the gross"
    yield from ("open 1200", divided(1, U, 1200, 600, 0, 500), divided(2, U, 1200, 600, 500, 0), "report 0")
    yield from (hatchway(3, 77), "report 0", divided(4, S, 1200, 300, 933, 1000), "report 0", mark(4, EXEMPT))
    yield from LOOK_AND_REPORT


def ballast(rng: Random, session: Session) -> Lines:
    """Ballast at 30% exactly and over it, with exempt spaces and with hatchways."""
    yield "# Water ballast"
    yield from a_thousand()
    yield from (room(4, 1, 300, BALLAST), "report 0", room(5, 1, 1, BALLAST))
    yield from ("report 0", "report 1", "report 2", mark(5, EXEMPT), "report 0", mark(5, DEDUCTED), "report 0")
    yield from (mark(5, BALLAST), "report 0", withdraw(5), "report 0", "undo", "report 0", "redo", "report 0")
    yield "# 720, the superstructure being exempt: 216 is 30%"
    yield from a_thousand()
    yield from (mark(3, EXEMPT), room(4, 1, 200, BALLAST), room(5, 2, 16, BALLAST), "report 0")
    yield from (room(6, 2, 1, BALLAST), "report 0", "report 1", mark(3, PLAIN), "report 0", *LOOK)
    yield "# 1010 with hatchways of 15: 303 is 30%; 1013 with 18; 1001 with 6"
    for of_hatchways, within_share in ((15, 303), (18, 303), (6, 300), (0, 300), (5, 300), (7, 300), (9, 301)):
        yield from a_thousand()
        yield from [hatchway(4, of_hatchways)] if of_hatchways else []
        yield from (room(5, 1, within_share, BALLAST), "report 0", "report 1")
        yield from (room(6, 1, 1, BALLAST), "report 0", "report 1")
    yield "# 30% of nothing"
    yield from ("open 1200", divided(1, U, 1200, 600, 0, 500), divided(2, U, 1200, 600, 500, 0))
    yield from (room(3, 1, 0, BALLAST), "report 0", "report 1", *LOOK)


def reports(rng: Random, session: Session) -> Lines:
    """Every justified mark on a sheet in every condition."""
    yield "# Justified marks"
    for condition in conditions():
        yield from condition
        yield from (f"report {one}" for one in (0, 1, 2, 3, 255, 256, 257, 2**64 - 1))
        yield from LOOK


def kinds_by_standings(rng: Random, session: Session) -> Lines:
    """Every kind entered with every standing, and marked with every standing; unknown ones too."""
    yield "# Kinds by standings"
    measures = {
        U: (100, [500] * 3, [500] * 15), B: (1200, [500] * 7, [500] * 7), S: (300, [500] * 3, [500] * 3),
        H: (100, [500], [500]), R: (10, [500], [500]),
    }
    yield "open 1200"
    yield divided(1, U, 1200, 600, 1200, 500)
    for kind in (0, 1, 2, 3, 4, 5, 6, 255, 256, 261, 2**64 - 1):
        for standing in (*s.STANDINGS, *BEYOND_8) if kind in m.KINDS else (0, 1, MACHINERY, NO_STANDING):
            yield from tried(session, enter(10, 1, kind, standing, *measures.get(kind, measures[R])))
    for kind in m.KINDS:
        yield enter(kind * 10, 1, kind, PLAIN, *measures[kind])
        for standing in (*s.STANDINGS, *BEYOND_8, PLAIN):
            yield mark(kind * 10, standing)
        yield from LOOK


def all_at_once(rng: Random, session: Session) -> Lines:
    """Entries to which several numbers apply, in all ways they can meet, on a sheet with places; some on a full one."""
    yield "# Several numbers at once"
    yield "open 1200"
    yield divided(1, U, 1200, 600, 1200, 500)
    yield divided(2, S, 1200, 300, 933, 1000, EXEMPT)
    yield hatchway(3, 50)
    yield from chain(1, 11, 7, 100)
    yield from (mark(14, DEDUCTED), room(21, 1, 10), *LOOK)
    step = ([1200] * 3, [500] * 15)
    entries = (  # within, kind, standing and measures
        (21, R, PLAIN, *box_measures(1)), (9_999, R, PLAIN, *box_measures(1)), (500, R, EXEMPT, *box_measures(1)),
        (0, R, EXEMPT, *box_measures(1)), (3, R, PLAIN, *box_measures(0)), (3, R, DEDUCTED, *box_measures(51)),
        (1, H, EXEMPT, *box_measures(1)), (1, U, EXEMPT, 601, *step), (1, U, PLAIN, 601, *step),
        (17, R, PLAIN, *box_measures(0)), (17, R, PLAIN, *box_measures(101)), (17, R, EXEMPT, *box_measures(100)),
        (17, R, BALLAST, *box_measures(101)), (2, R, EXEMPT, *box_measures(1)), (2, R, DEDUCTED, *box_measures(281)),
        (16, R, DEDUCTED, *box_measures(0)), (14, R, EXEMPT, *box_measures(1)), (13, R, PLAIN, *box_measures(1)),
        (21, R, EXEMPT, *box_measures(11)),
    )
    for full in (False, True):
        if full:
            yield from (room(id, 21) for id in range(1000, 1000 + s.PLACES - len(session.sheet.spaces)))
        for within, kind, standing, length, heights, breadths in entries:
            for id, wide, more in product((500, 21), (False, True), ([],) if full else ([], [7])):
                wrong = [*breadths[:-1], 30_001] if wide else breadths
                yield from tried(session, enter(id, within, kind, standing, length, [*heights, *more], wrong))
            if not full:
                yield enter(500, within, kind, NO_STANDING, length, heights, breadths)
        yield from ("counts", "report 0")
    yield from (mark(id, standing) for id in (1, 2, 3, 11, 14, 17, 21, 500, 0, 65_550) for standing in range(6))
    yield from LOOK


def ranges(rng: Random, session: Session) -> Lines:
    """One argument of an entry at an end of its range or beyond, or above its type; measures too few and too many."""
    yield "# Ranges and numbers of measures"
    yield from ("open 1200", divided(1, U, 1200, 600, 1200, 500))
    examples = (
        (U, 600, [1200] * 3, [500] * 15), (B, 1200, [500] * 7, [500] * 7), (S, 300, [500] * 3, [500] * 3),
        (H, 100, [500], [500]), (R, 10, [500], [500]),
    )
    for kind, length, heights, breadths in examples:
        entries = [enter(id, 1, kind, 0, length, heights, breadths) for id in (0, 1, 9_999, 10_000, *BEYOND_16)]
        entries += [enter(7, 1, kind, 0, other, heights, breadths) for other in (0, 1, 99, 100, 150_001, *BEYOND_32)]
        for one in (0, 20_000, 20_001, *BEYOND_32):
            entries.append(enter(7, 1, kind, 0, length, [one, *heights[1:]], breadths))
            entries.append(enter(7, 1, kind, 0, length, [*heights, one], breadths))
        for one in (0, 30_000, 30_001, *BEYOND_32):
            entries.append(enter(7, 1, kind, 0, length, heights, [*breadths[1:], one]))
            entries.append(enter(7, 1, kind, 0, length, heights, [one, *breadths]))
        for others in ([], heights * 2):
            entries += [enter(7, 1, kind, 0, length, others, breadths), enter(7, 1, kind, 0, length, heights, others)]
        for entry in entries:
            yield from tried(session, entry)
    yield "# Enclosing ids and ids to withdraw and mark"
    for id in (0, 1, 2, 7, 9_999, 10_000, *BEYOND_16):
        for line in (room(7, id, 1), withdraw(id), mark(id, 0)):
            yield from tried(session, line)
    for one in BEYOND_8:
        yield from (room(7, 1, 1, one), mark(1, one), f"report {one}")
        yield from tried(session, enter(7, 1, one, 0, 10, [500], [500]))  # 5 is the code of a room
    yield "# An enclosing id given for a U, B, S or H isn't read"
    for kind, length, heights, breadths in examples[:4]:
        for within in (1, 7, 9_998, 65_537, 2**64 - 1):
            yield from tried(session, enter(7, within, kind, 0, length, heights, breadths))
    yield "# Zeros in front, and lists as long as they may be"
    yield from ("open 0001200", "enter 007 0 04 00 0010 0001000 01000", "report 00", "withdraw " + "0" * 500 + "7")
    yield enter(7, 7, U, 0, 600, [9] * MOST_NUMBERS, [9])
    yield enter(7, 7, H, 0, 600, [9], [9] * MOST_NUMBERS)
    yield from LOOK


def levels(rng: Random, session: Session) -> Lines:
    """Rooms down to the eighth level and one below, in a U, a B and an S; rooms of nothing have a level too."""
    yield "# Levels"
    outers = (
        divided(1, U, 1200, 600, 1200, 500), divided(1, B, 1200, 1200, 500, 500), divided(1, S, 1200, 300, 933, 1000)
    )
    for outer, tonnage in product(outers, (0, 20)):
        yield from ("open 1200", outer)
        yield from chain(1, 2, 6, tonnage)
        yield from ("spaces", room(8, 7, tonnage), "spaces", room(9, 8, tonnage), room(9, 8), room(9, 8, 21, EXEMPT))
        yield from (room(9, 7), room(10, 7), room(11, 9), withdraw(8), room(11, 9), withdraw(7), withdraw(9))
        yield from (room(8, 7, 0, EXEMPT), mark(8, DEDUCTED), room(12, 8), *LOOK_AND_REPORT)


def sums_of_rooms(rng: Random, session: Session) -> Lines:
    """Rooms that fill their enclosing space exactly or pass it by one; those farther down don't count again."""
    yield "# Rooms against the enclosing tonnage"
    for outer in (1, 3, 4, 5):
        yield from a_thousand()
        yield from (room(4, 2, 111), divided(5, B, 1200, 1200, 650, 450))
        before = len(session.sheet.spaces)
        rest = s.find(session.sheet.spaces, outer).tonnage
        yield from (room(6, outer, rest + 1), room(6, outer, rest), room(7, outer, 1), room(7, outer, 0))
        yield from ("spaces", "undo", "undo")
        yield from (room(6, outer, 100, EXEMPT), room(7, outer, rest - 99), room(7, outer, rest - 100, DEDUCTED))
        yield from (room(8, outer, 1), room(8, outer, 0), room(9, 7, rest - 99), room(9, 7, rest - 100), "spaces")
        yield from (withdraw(6), room(10, outer, 101), room(10, outer, 99), room(11, outer, 2), room(11, outer, 1))
        yield from LOOK_AND_REPORT
        yield from ["undo"] * (len(session.sheet.spaces) - before)
        yield from ("spaces", room(12, outer, 1), "redo", *LOOK_AND_REPORT)
    yield "# Rooms of nothing, in a full space and in one of nothing"
    yield from ("open 1200", divided(1, U, 1200, 600, 0, 500), divided(2, U, 1200, 600, 600, 0))
    yield from (room(3, 1, 1), room(3, 1), room(4, 1), room(5, 3), withdraw(3), room(6, 5, 1), mark(5, EXEMPT))
    yield from (mark(3, EXEMPT), room(6, 5, 0, BALLAST), room(6, 5), *LOOK_AND_REPORT, withdraw(5), withdraw(6))
    yield from (withdraw(5), withdraw(3), *LOOK_AND_REPORT)


def under_deck(id: int, length: int, stations: int) -> str:
    """The entry of a U with that number of stations, each with five breadths."""
    return enter(id, 0, U, PLAIN, length, [1200] * stations, [5] * (5 * stations))


def sums_of_lengths(rng: Random, session: Session) -> Lines:
    """U lengths that add up exactly, that pass by one and that stay short; the whole and its step parts."""
    yield "# U lengths against the tonnage length"
    yield from ("open 1200", "report 0", under_deck(1, 600, 3), "report 0", under_deck(2, 601, 3))
    yield from (under_deck(2, 599, 3), "report 0", under_deck(3, 1, 3), under_deck(3, 99, 3), under_deck(3, 100, 3))
    yield from (withdraw(2), under_deck(3, 500, 3), "report 0", under_deck(4, 101, 3), under_deck(4, 100, 3))
    yield from ("report 0", under_deck(5, 100, 3), "spaces", "undo", "report 0", "redo", "report 0")
    yield from (withdraw(1), "report 0", "report 1", under_deck(1, 601, 3), under_deck(1, 600, 3), *LOOK_AND_REPORT)
    yield "# Lengths of other kinds don't count"
    yield from (hatchway(6, 1300), divided(7, B, 1200, 1300, 500, 500), divided(8, S, 1200, 1300, 500, 500), "report 0")
    for tonnage_length, stations_of_whole in ((1200, 7), (3000, 7), (5001, 9)):
        yield f"# The whole of {tonnage_length} by the table, others as step parts"
        yield f"open {tonnage_length}"
        step = m.parts_of_step_part(tonnage_length + 1) + 1
        for id, length in ((2, tonnage_length + 1), (1, tonnage_length), (2, tonnage_length + 1)):
            for stations in sorted({step, stations_of_whole}):
                yield from (under_deck(id, length, stations), "report 0")
        yield from (*LOOK, under_deck(2, 100, 3), "undo", under_deck(2, 100, 3), "report 0")
        for stations in sorted({step, stations_of_whole}):
            yield under_deck(3, tonnage_length, stations)
        yield from (under_deck(3, tonnage_length - 100, m.parts_of_step_part(tonnage_length - 100) + 1), *LOOK)
        yield "report 0"
    yield from ("open 100", under_deck(1, 100, 3), under_deck(1, 100, 7), under_deck(2, 100, 7), *LOOK_AND_REPORT)


def two_hundred(rng: Random, session: Session) -> Lines:
    """The 200th space and the 201st; places freed by withdrawal and by undo; undo and redo where 200 stand."""
    yield "# Two hundred spaces"
    yield from a_thousand()
    yield from (room(id, 1, 1) for id in range(1004, 1000 + s.PLACES))
    yield from ("counts", "report 0", room(9_000, 2, 5), "counts", "spaces")
    yield from (hatchway(9_001, 5), room(9_001, 2, 1), room(9_000, 2, 1), under_deck(9_001, 100, 3), room(9_001, 77, 1))
    yield from (divided(9_001, B, 1200, 1200, 50, 50), enter(9_001, 1, 9, 0, 1, [], []), mark(9_000, EXEMPT))
    yield from ("undo", "undo", "counts", room(9_001, 2, 1), room(9_002, 2, 1), "redo", "counts", "report 0")
    yield from (withdraw(1100), room(9_002, 2, 1), room(9_003, 2, 1), "spaces", "undo", "undo", room(9_003, 2, 1))
    yield from ("counts", "redo", "redo", "redo", "counts", "report 0", room(9_003, 2, 1), "spaces")
    yield from (withdraw(1150), hatchway(1150, 20), hatchway(9_003, 20), "report 0", "counts")
    yield from ["undo"] * 65
    yield from ("counts", "report 0", room(9_003, 2, 1), withdraw(9_003))
    yield from (room(id, 3) for id in range(9_100, 9_100 + s.PLACES + 1 - len(session.sheet.spaces)))
    yield from ("counts", "report 0", "spaces")
    yield from (withdraw(id) for id in range(9_159, 9_119, -1))
    yield from (room(9_999, 2, 7), "report 0", *["undo"] * 41, "counts", room(9_998, 2, 7), "redo", "spaces")


def sixty_four(rng: Random, session: Session) -> Lines:
    """The 64th and the 65th change, undone and made again; an older change pushed out stays made for good."""
    for changes in (64, 65):
        yield f"# {changes} changes, undone and made again"
        yield "open 1200"
        yield from (hatchway(id, id) for id in range(1, changes + 1))
        yield "counts"
        for undone in range(changes):
            yield from ("undo", "counts", "spaces") if undone > changes - 8 else ("undo",)
        yield from LOOK
        yield from ["redo"] * changes
        yield from ("counts", "redo", *LOOK, "undo", hatchway(100, 7), "redo", "counts")
    yield "# 64 changes, 10 undos, one change"
    yield from ("open 1200", divided(1, U, 1200, 600, 1200, 500))
    yield from (mark(1, PLAIN) for _ in range(10))
    yield from (room(id, 1, id) for id in range(2, 22))
    yield from (withdraw(id) for id in range(20, 4, -2))
    yield from (mark(id, id % 5) for id in (*range(3, 22, 2), 2, 4, *range(3, 16, 2)))
    yield from [mark(1, PLAIN)] * (64 - len(session.sheet.earlier))
    yield from ("counts", *["undo"] * 10, *LOOK, room(99, 1, 1), *LOOK, "redo", "counts")
    for _ in range(56):
        yield from ("undo", "spaces")
    yield "counts"
    yield from ["redo"] * 30
    yield from (*LOOK, mark(99, EXEMPT), room(98, 1, 1), "counts", "redo", *["undo"] * 40, *LOOK)
    yield "# 65 marks of the same standing"
    yield from ("open 1200", hatchway(1, 10), *[mark(1, PLAIN)] * 65, "counts", *["undo"] * 65, *LOOK)


def redo_after(rng: Random, session: Session) -> Lines:
    """What was undone can be made again after reports, refused calls and malformed lines, but not after a change."""
    yield "# Redo after calls that change nothing"
    between = (
        "report 0", "report 1", "report 2", *LOOK, room(3, 1, 1), room(0, 1, 1), room(9, 8, 1),
        enter(9, 0, H, 0, 10, [0], [9]), enter(9, 0, H, 0, 10, [], []), enter(9, 0, H, 1, 10, [9], [9]),
        room(9, 1, 9999), withdraw(77), mark(77, 0), mark(1, 1), mark(1, NO_STANDING), "redo 1", "rdo", "enter 1",
        "open", "open x",
    )
    yield from a_thousand()
    for one in between:
        yield from (room(4, 1, 50), mark(4, EXEMPT), "undo", "undo", one, "counts", "redo", one, "redo", "redo", *LOOK)
        yield from ["undo"] * 2
    yield from ["undo"] * 4
    yield from (*LOOK, "redo", "redo", "redo", "redo", *LOOK)
    yield "# Not after a change, even one that shows nothing"
    for one in (mark(1, PLAIN), mark(3, PLAIN), mark(3, EXEMPT), withdraw(2), hatchway(9, 1)):
        yield from a_thousand()
        yield from (room(4, 1, 50), "undo", one, "redo", *LOOK, "undo", "redo", "redo", *LOOK)


def order_of_entry(rng: Random, session: Session) -> Lines:
    """A space whose withdrawal is undone stands at its former place; one entered again stands last."""
    yield "# Order of entry"
    yield from a_thousand()
    yield from (*(room(id, 1, id) for id in range(4, 9)), hatchway(9, 5), room(10, 4, 1), "spaces")
    for id in (6, 2, 3, 9, 10, 5):
        yield from (withdraw(id), "spaces", "undo", "spaces", "redo", "spaces", "undo")
    yield from (withdraw(4), withdraw(10), withdraw(4), withdraw(7), withdraw(5), "spaces", "undo", "spaces", "undo")
    yield from ("spaces", "undo", "spaces", "undo", "spaces", "redo", "redo", "spaces", room(4, 2, 4), "spaces", "redo")
    yield from ("undo", "undo", "undo", *LOOK_AND_REPORT)


def ids_again(rng: Random, session: Session) -> Lines:
    """Ids freed by withdrawal and by an undone entry, entered again, of the same and of another kind."""
    yield "# Ids entered again"
    entries = (
        divided(5, S, 1200, 300, 500, 500, EXEMPT), hatchway(5, 30), room(5, 1, 20, DEDUCTED),
        divided(5, B, 1200, 1200, 50, 500), room(5, 3, 20, BALLAST),
    )
    for one, other in (
        *zip(entries, entries[1:] + entries[:1]), *zip(entries, entries[2:] + entries[:2]), (entries[1], entries[1])
    ):
        yield from (*a_thousand(), one, room(6, 2, 9), withdraw(5), other, *LOOK, "undo", "undo", "spaces", "redo")
        yield from ("redo", "redo", *LOOK_AND_REPORT, other, withdraw(5), "undo", "undo", one, "spaces")
        yield from (*a_thousand(), one, "undo", other, *LOOK, "redo", "undo", "redo", one, *LOOK_AND_REPORT)
    yield "# Own id as enclosing id"
    yield from (*a_thousand(), room(5, 5, 1), room(1, 1, 1), room(5, 1, 1), room(5, 5, 1), "undo", room(5, 5, 1), *LOOK)
    yield "# The U of a freed id, with room for another length"
    yield from (*a_thousand(), withdraw(2), divided(2, U, 1200, 500, 900, 500), "report 0", "undo", "undo", "report 0")


def not_plain(rng: Random, session: Session) -> Lines:
    """Of two spaces that aren't plain neither is above the other: by marks and entries at every pair of levels."""
    yield "# Not plain above and below"
    yield from ("open 1200", divided(1, S, 1200, 300, 933, 1000))
    yield from chain(1, 2, 7, 40)
    yield from (room(20, 4, 0), room(21, 20, 0), room(22, 1, 40))
    for upper, lower in combinations(range(1, 9), 2):
        of_upper = EXEMPT if upper == 1 else one_of(rng, s.NOT_PLAIN)
        of_lower = one_of(rng, s.NOT_PLAIN)
        yield from (mark(upper, of_upper), mark(lower, of_lower), mark(lower, PLAIN), mark(upper, PLAIN))
        yield from (mark(lower, of_lower), mark(upper, of_upper), mark(upper, PLAIN), "counts", mark(lower, PLAIN))
    yield from ("spaces", "undo", "undo", "redo")
    yield "# One not plain standing for another, and spaces beside one another"
    for id in (2, 5, 8, 20, 22):
        yield from (mark(id, standing) for standing in (1, 1, 2, 2, 3, 3, 4, 4, 1, 3, 1, 4, 2, 4, 3, 2, 1))
        yield from (*LOOK, mark(1, EXEMPT), mark(21, 3), mark(id, PLAIN), "report 0")
    yield from (mark(21, PLAIN), mark(20, PLAIN), mark(22, BALLAST), mark(5, EXEMPT), mark(21, DEDUCTED), *LOOK)
    yield from (mark(id, standing) for id in (1, 2, 3, 4, 20, 6, 8) for standing in (1, 2, 3, 4, 0))
    yield "# Entries below a space that isn't plain"
    for depth in range(1, 8):
        yield from ("open 1200", divided(1, S, 1200, 300, 933, 1000), *chain(1, 2, 6, 40))
        yield from (mark(depth, EXEMPT), room(30, 7, 1, one_of(rng, s.NOT_PLAIN)), room(30, depth, 1, DEDUCTED))
        yield from (room(30, depth), room(31, 30, 0, BALLAST), mark(30, EXEMPT), mark(depth, PLAIN))
        yield from (mark(30, EXEMPT), room(31, 30, 0, BALLAST), room(31, depth, 0, BALLAST), *LOOK)


# Sections of files

def writes(rng: Random, session: Session) -> Lines:
    """Every justified mark on a sheet in every condition, into buffers with room, with too little and with none."""
    yield "# Writing"
    for condition in conditions():
        yield from condition
        size = dayfile.distance(FORM_1, len(session.sheet.spaces))
        for justified in (0, 1, 2, 255, 257, 2**64 - 1):
            yield from (write(justified, 0, size), write(justified, 2, size + 1), write(justified, 1, 0))
        yield from LOOK_AND_REPORT
    yield "# Changes and undone changes are as they were after a write"
    yield from (*a_thousand(), hatchway(4, 20), mark(3, EXEMPT), "undo", write(0, 0, 92), write(0, 0, 91), "counts")
    yield from ("redo", write(0, 0, 92), "redo", "undo", "undo", write(1, 3, 79), write(2, 0, 0), "redo", *LOOK)


def places_in_a_buffer(rng: Random, session: Session) -> Lines:
    """Room that is just enough and a byte less, at places from the beginning to far behind the end; every filling."""
    yield "# Places in a buffer"
    yield from a_thousand()
    size = dayfile.distance(FORM_1, len(session.sheet.spaces))
    for at in (0, 1, 2, 3, 16, 27, 28, 44, 100):
        yield from (write(0, at, at + size + more) for more in (-1, 0, 1, 50))
        yield from (write(1, at, at + 1), write(1, at, at), write(1, at + 1, at))
    for at in (size - 1, size, size + 1, 2**16 - 1, 2**16, 2**32 - size, 2**32 - 1, 2**32, 2**32 + 1, *FAR):
        yield from (write(0, at, buffer) for buffer in (0, size, 2 * size))
    for short in range(-2, 2):  # the end of what is written would be about 2^64
        yield from (write(0, 2**64 - size + short, buffer) for buffer in (0, 1, size))
    yield "# Fillings"
    for fill in (0, 1, 127, 128, 254, 255):
        yield from (writef(0, 0, size, fill), writef(0, 5, size + 9, fill))
        yield from (writef(1, 6, size + 5, fill), writef(2, 5, 3, fill), writef(0, 0, 0, fill))
    yield from (writef(justified, 2, 90, 85) for justified in BEYOND_8)
    yield from (writef(0, at, 80, 85) for at in (4, 5, 80, 81, 2**32 + 4, *FAR))
    for condition in conditions():
        yield from (*condition, writef(0, 1, 110, 170), writef(1, 1, 110, 170))
        yield writef(0, 100, 110, 170)
    yield "# The largest buffer"
    yield writef(1, GREATEST_SIZE - size, GREATEST_SIZE, 165)


def read_and_looked_at(session: Session, file: bytes) -> Lines:
    """A read and what it leaves: no open changes, and the bytes themselves where it is written again."""
    yield from (read(file), *LOOK, "undo", "redo", "report 0")
    if session.sheet.is_open:
        _, _, justified, start, form, _ = dayfile.read(file)
        yield write(justified, 0, len(file) - start, None if form == FORM_1 else form)


def walked_back(day: bytes) -> Lines:
    """The sheets of a day's file by the starts of those behind them, until one is refused."""
    yield "# A day's file, sheet before sheet"
    for file in (day, b"\0" * 40 + day, day[:-1], b""):
        start, number = len(file), 0
        while not number:
            yield from (before(start, file), *LOOK, "undo", "report 1")
            number, _, _, start, _, _ = dayfile.read_before(file, start)


def from_other_starts(day: bytes) -> Lines:
    """Starts in a day's file that are none, and such as lie past its end, where its last sheet is read."""
    yield "# A day's file, before starts that are none"
    last = dayfile.read(day)[3]
    for start in (
        0, 1, 27, 28, 29, last - 1, last, last + 1, len(day) - 1, len(day), len(day) + 1, 2**32, 2**63, 2**64 - 1
    ):
        yield from (before(start, day), *LOOK)


def written_and_read(rng: Random, session: Session) -> Lines:
    """What a write gives is read back, each sheet alone and all of them as a day's file, from its end."""
    yield "# Written and read back"
    for lines, justified in (
        (a_thousand(), 1), (twenty_thousand(), 0),
        ((*a_thousand(), *chain(1, 11, 7, 40), mark(14, DEDUCTED), withdraw(3), hatchway(9_999, 70)), 0),
    ):
        yield from lines
        file = dayfile.bytes_of(FORM_1, session.sheet, justified)
        yield from (write(justified, 0, len(file)), *read_and_looked_at(session, file))
    yield "# A day's file, written sheet behind sheet"
    day = b""
    for lines, justified in (
        (whole_sheet(), 0), ((*a_thousand(), room(4, 1, 301, BALLAST)), 1), (("open 100", under_deck(9, 100, 7)), 1)
    ):
        yield from lines
        file = dayfile.bytes_of(FORM_1, session.sheet, justified)
        yield writef(justified, len(day), len(day) + len(file) + 2, 255)
        yield from read_and_looked_at(session, file)
        day += file
    yield from walked_back(day)
    yield "# A day's file, from its end"
    while day:
        yield from read_and_looked_at(session, day)
        day = day[:dayfile.read(day)[3]]
    yield "# 200 spaces"
    yield from (*a_thousand(), *(room(id, 1 + id % 3, id % 2) for id in range(9_999, 9_999 - s.PLACES + 3, -1)))
    file = dayfile.bytes_of(FORM_1, session.sheet, 0)
    yield from (write(0, 0, len(file) - 1), write(0, 0, len(file)), read(file), *LOOK, room(4, 1, 1), withdraw(9_990))
    yield from (room(4, 1, 1), room(5, 1, 1), "undo", "undo", "undo", "counts", write(1, 0, len(file)))


def changes_after_a_read(rng: Random, session: Session) -> Lines:
    """A sheet that was read has no open changes, and changes like any other; a refused read leaves one not open."""
    yield "# Changes after a read"
    yield from (*a_thousand(), hatchway(4, 20), mark(3, EXEMPT), "undo", "counts")
    file = dayfile.bytes_of(FORM_1, session.sheet, 0)
    yield from (read(file), "counts", "undo", "redo", hatchway(4, 1), withdraw(1), room(5, 1, 360), room(6, 1, 1))
    yield from (withdraw(1), mark(5, EXEMPT), room(6, 5, 1, EXEMPT), withdraw(4), "spaces", *["undo"] * 4, *LOOK)
    yield from ("redo", "redo", "counts", read(file), "counts", "redo", *LOOK_AND_REPORT)
    yield from (under_deck(7, 100, 3), withdraw(2), under_deck(7, 601, 3), under_deck(7, 600, 3), "report 0", "spaces")
    yield "# A refused read"
    for wrong in (b"", file[1:], file[:-1], file + b"\0", file[16:], files.of_the_paper(net=1)):
        yield from (*a_thousand(), hatchway(4, 20), "undo", read(wrong), *LOOK_AND_REPORT, "undo", "redo")
        yield from (hatchway(4, 20), withdraw(1), mark(1, 0), write(0, 0, 30), write(2, 9, 0))
    yield "# Lines that are no calls leave the sheet that was read"
    yield from (read(file), "read", "read 0", "read 0x", "write 0 0 65537", "writef 0 0 9 256", *LOOK_AND_REPORT)


ALWAYS_READ = (  # of the larger ones
    "R with id 3, 200 of 200", "deck 99 at the 200th", "7 by entry in form 1", "7 by entry in form 2",
    "201 records in form 1", "201 records in form 2",
)


def one_in(case: files.Case) -> int:
    """Of so many generated files like this one is read: of the small ones made for a number each, if unlike others."""
    of_size = 1 if len(case.file) <= SMALL_FILE else 48 if len(case.file) <= LARGER_FILE else 1000
    return of_size * (50 if case.again else 1) * (100 if case.made_for is None else 1)


def generated_files(rng: Random, session: Session) -> Lines:
    """Files in order and damaged: the small ones made for a number, unlike others; of all others some."""
    yield "# Generated files"
    for case in files.standard():
        name, file = case.name, case.file
        if name in ALWAYS_READ or rng.randrange(one_in(case)) == 0:
            yield from (f"# {name}", read(file))
            if len(file) <= LARGER_FILE and rng.randrange(8) == 0:
                yield before(len(file), file + rng.randbytes(rng.randrange(40)))
            if session.sheet.is_open:
                yield from ("spaces", *["undo", "redo", write(1, 0, 44)] * (rng.randrange(8) == 0))
    yield "# The longest file"
    whole = files.of_the_paper()
    yield from (read(rng.randbytes(GREATEST_SIZE - len(whole)) + whole), *LOOK_AND_REPORT)


# Sections of tanks

def sections(sheet: Sheet, within: int, length: int, fore: int) -> tuple[int, int]:
    """How many sections a tank has in a standing U, and how many breadths each; as with m 4 where the U has no m."""
    under_deck = s.find(sheet.spaces, within)
    return m.sections_of_tank(sheet.length, under_deck.length, length, fore), (under_deck.m or 4) + 1


def even_tank(
    sheet: Sheet, id: int, within: int, length: int, fore: int, depth: int = 9, breadth: int = 9, standing: int = PLAIN
) -> str:
    """A tank with as many sections as asked, all with one depth and one breadth."""
    count, row = sections(sheet, within, length, fore)
    return tank(id, within, standing, length, fore, [depth] * count, [breadth] * (count * row))


def tank_of_a_thousand(
    id: int, within: int, length: int, fore: int, depth: int = 9, breadth: int = 9, standing: int = PLAIN
) -> str:
    """The same in U 1 or 2 of the thousand, which are 600 long on a tonnage length of 1200 and have m 4."""
    count = m.sections_of_tank(1200, 600, length, fore)
    return tank(id, within, standing, length, fore, [depth] * count, [breadth] * (5 * count))


def uneven_tank(rng: Random, sheet: Sheet, id: int, within: int, length: int, fore: int) -> str:
    """A tank with as many sections as asked, of any depths, all of them narrow."""
    count, row = sections(sheet, within, length, fore)
    return tank(id, within, PLAIN, length, fore, some(rng, count, 0, 9999), some(rng, count * row, 0, 99))


def misjudged(session: Session, id: int, within: int, length: int, fore: int) -> Lines:
    """A tank with one section for each of its stations, one with one more, and one with two for each."""
    _, row = sections(session.sheet, within, length, fore)
    stations = m.parts_of_tank(session.sheet.length, s.find(session.sheet.spaces, within).length, length) + 1
    for count in (stations, stations + 1, 2 * stations):
        yield from tried(session, tank(id, within, PLAIN, length, fore, [9] * count, [9] * (count * row)))


def tank_figures(rng: Random, session: Session) -> Lines:
    """The request's figures: the box that is its whole U, a station just between two zones and one hundredth off it."""
    yield "# Tanks: the whole box, which has the U's tonnage"
    yield from ("open 4800", divided(1, U, 4800, 4800, 1200, 2000), zones(4800, 4800, 4800, 0))
    yield from (tank(2, 1, BALLAST, 4800, 0, [1200] * 7, [2000] * 35), *LOOK_AND_REPORT, room(3, 1, 1), room(3, 1))
    yield from (withdraw(2), "undo", mark(2, DEDUCTED), *LOOK_AND_REPORT)
    yield "# Zones of 6 parts that end at 100, 500, 700, 1100, 1300, 1700 and 1800"
    yield from ("open 1800", divided(1, U, 1800, 1800, 1200, 1000))
    for end in (100, 500, 700, 1100, 1300, 1700, 1800):
        for fore in (end - 2, end - 1, end, end + 1):
            yield zones(1800, 1800, 2, fore)
    for fore in (99, 100, 101):
        yield zones(1800, 1800, 600, fore)
        yield from misjudged(session, 2, 1, 600, fore)
        yield from tried(session, even_tank(session.sheet, 2, 1, 600, fore, 1200, 1000))
    yield "# The larger of two sections: the fore one, the aft one, both alike, the broader, the deeper"
    breadths = [1000] * 25
    for depths in ([1200, 600, 1200, 600, 1200], [600, 1200, 1200, 1200, 600], [1200] * 5, [0, 1200, 1200, 1200, 0]):
        yield from tried(session, tank(2, 1, PLAIN, 600, 100, depths, breadths))
    narrow, broad = [10, 20, 30, 20, 10], [500, 10, 10, 10, 10]
    for rows in product((narrow, broad), repeat=4):
        yield from tried(session, tank(2, 1, PLAIN, 600, 100, [1200, 1200, 900, 1100, 1200], sum(
            (rows[0], rows[1], broad, rows[2], rows[3]), []
        )))


def tank_refusals(rng: Random, session: Session) -> Lines:
    """Tanks to which several numbers apply, in every enclosing space, on a sheet with places; in some on a full one."""
    yield "# Tanks: several numbers at once"
    yield from read_and_entered_anew()
    yield from (mark(3, EXEMPT), hatchway(4, 50), room(5, 1, 10), room(6, 2, 10), divided(7, B, 1200, 1200, 50, 50))
    yield from (*chain(1, 11, 7, 1), *LOOK)
    right, wrong, over = ([9] * 3, [9] * 15), ([9] * 2, [9] * 15), ([1200] * 3, [500] * 15)
    measures = (  # standing, length, fore, depths and breadths: accepted; 3; 9 by an end; 3 and that; 9 by tonnage; 2
        (PLAIN, 300, 0, *right), (EXEMPT, 300, 0, *wrong), (DEDUCTED, 300, 301, *right), (PLAIN, 601, 0, [], []),
        (EXEMPT, 600, 0, *over), (NO_STANDING, 300, 0, *right), (PLAIN, 300, 0, [9] * 3, [9] * 14 + [30_001]),
        (PLAIN, 300, 150_001, [9, 20_001], [9]),
    )
    for full in (False, True):
        if full:
            yield from (room(id, 5) for id in range(1000, 1000 + s.PLACES - len(session.sheet.spaces)))
        enclosing = (1, 2, 3, 17, 77) if full else (1, 2, 3, 4, 5, 7, 17, 77, 500)
        refused_ids = ((5, 1), (5, 2)) if full else ((5, 1), (5, 2), (5, 3), (5, 77), (0, 1))
        for id, within in (*((500, one) for one in enclosing), *refused_ids):
            for standing, length, fore, depths, breadths in measures:
                yield from tried(session, tank(id, within, standing, length, fore, depths, breadths))
        yield from ("counts", "report 0", tank(5, 5, PLAIN, 300, 0, *right), tank(2, 2, PLAIN, 601, 0, *right))
    yield "# A place again: 29 alone, and accepted"
    yield from (withdraw(1000), tank(500, 2, PLAIN, 300, 0, *right), tank(500, 1, PLAIN, 300, 0, *right), "counts")
    yield from (tank(501, 1, PLAIN, 300, 0, *right), tank(501, 2, PLAIN, 300, 0, *right), "undo", "undo")
    yield from (tank(500, 2, PLAIN, 300, 0, [], []), tank(500, 2, PLAIN, 601, 0, *wrong), "counts", "report 0")


def tank_ranges(rng: Random, session: Session) -> Lines:
    """One argument of a tank at an end of its range or beyond, or above its type; measures too few and too many."""
    yield "# Tanks: ranges and numbers of measures"
    yield from ("open 1800", divided(1, U, 1800, 900, 1200, 500), divided(2, U, 1800, 900, 1601, 500), *LOOK)
    length, fore, depths, breadths = 300, 150, [9] * 4, [9] * 20
    tanks = [tank(id, 1, 0, length, fore, depths, breadths) for id in (0, 1, 7, 9_999, 10_000, *BEYOND_16)]
    tanks += [tank(7, id, 0, length, fore, depths, breadths) for id in (0, 2, 7, 9_999, 10_000, *BEYOND_16)]
    tanks += [tank(7, 1, one, length, fore, depths, breadths) for one in (*s.STANDINGS, *BEYOND_8)]
    tanks += [tank(7, 1, 0, one, fore, depths, breadths) for one in (0, 751, 150_000, 150_001, *BEYOND_32)]
    tanks += [tank(7, 1, 0, length, one, depths, breadths) for one in (601, 150_000, 150_001, *BEYOND_32)]
    tanks += [tank(7, 1, 0, one, other, depths, breadths) for one, other in (
        (2**32 - 1, 2**32 - 1), (2**32 - 150, 150), (150, 2**32 - 150), (150_001, 0), (150_000, 150_000), (0, 901),
        (0, 900), (1, 900), (900, 1), (901, 0),
    )]
    tanks += [even_tank(session.sheet, 7, 1, *ends) for ends in (
        (1, 0), (1, 149), (1, 150), (1, 899), (2, 898), (750, 150), (749, 150), (749, 151), (900, 0), (899, 0),
        (899, 1),
    )]
    for one in (0, 20_000, 20_001, *BEYOND_32):
        tanks.append(tank(7, 1, 0, length, fore, [one, *depths[1:]], breadths))
        tanks.append(tank(7, 1, 0, length, fore, [*depths, one], breadths))
    for one in (0, 30_000, 30_001, *BEYOND_32):
        tanks.append(tank(7, 1, 0, length, fore, depths, [*breadths[1:], one]))
        tanks.append(tank(7, 1, 0, length, fore, depths, [one, *breadths]))
    for others in ([], depths * 2):
        tanks += [tank(7, 1, 0, length, fore, others, breadths), tank(7, 1, 0, length, fore, depths, others)]
    for more, less in product((3, 4, 5), (15, 16, 19, 20, 21, 24, 25)):
        tanks.append(tank(7, 1, 0, length, fore, [8] * more, [8] * less))
    tanks += [tank(7, 2, 0, length, fore, [8] * 4, [8] * count) for count in (20, 27, 28, 29)]
    tanks += [tank(7, 1, 0, length, fore, [0] * 4, [0] * 20), tank(7, 1, 0, length, fore, [1], [9] * MOST_NUMBERS)]
    for line in tanks:
        yield from tried(session, line)
    yield from LOOK


def in_thirds(thirds: int, under_deck_length: int, number: int) -> int:
    """That many thirds of the interval of a U in that number of parts, of which they are a whole number."""
    return thirds * under_deck_length // (m.THIRDS * number)


# Tonnage length and length of a U, both of whose third intervals are exact, and tanks in it: the thirds of the interval
# from its fore end and in length. Zones end at 1, 5, 7, 11, 13, .. thirds. A length of 8 is a tie of 2 and 4 parts.
TANKS_IN_THIRDS: dict[tuple[int, int], tuple[tuple[int, int], ...]] = {
    (3600, 900): ((0, 6), (1, 4), (0, 2), (1, 5), (1, 2), (3, 2), (4, 2), (0, 1), (5, 1)),
    (7200, 3600): ((0, 12), (1, 10), (1, 8), (3, 8), (1, 6), (5, 6), (5, 2), (7, 4), (11, 1), (1, 4), (4, 8)),
    (1800, 1800): (
        (0, 18), (1, 12), (1, 6), (5, 8), (3, 8), (5, 12), (5, 2), (7, 4), (1, 16), (5, 13), (2, 15), (1, 15),
    ),
    (7200, 7200): ((1, 18), (5, 18), (0, 23), (1, 22)),
    (12000, 12000): ((1, 24),),
    (48000, 48000): ((5, 42),),
}


def tank_sections(rng: Random, session: Session) -> Lines:
    """Stations between two zones at one and at several places of a tank, and a hundredth off, with m 4 and with m 6."""
    for (tonnage_length, length), tanks in TANKS_IN_THIRDS.items():
        number = m.parts_of_under_deck(tonnage_length, length)
        for depth, some_tanks in ((1600, tanks), (1601, tanks[::2])) if number < 8 else ((1601, tanks),):
            yield f"# Tanks: a U of {length} in {number} parts with m {m.parts_of_depth(depth)}"
            yield from (f"open {tonnage_length}", divided(1, U, tonnage_length, length, depth, 2000))
            for fore, own_length in some_tanks:
                fore, own_length = (in_thirds(thirds, length, number) for thirds in (fore, own_length))
                for off in (-1, 0, 1) if number < 8 else (0,):
                    if 0 <= fore + off and (off == 0 or rng.randrange(3) == 0) and fore + off + own_length <= length:
                        yield zones(tonnage_length, length, own_length, fore + off)
                        yield from tried(session, uneven_tank(rng, session.sheet, 2, 1, own_length, fore + off))
                if number < 8 and rng.randrange(3) == 0:
                    yield from misjudged(session, 2, 1, own_length, fore)
    yield "# Tanks: ends of zones that are no whole hundredths, where stations are none either"
    yield from ("open 1200", divided(1, U, 1200, 1200, 1200, 500))
    for own_length, fore in (
        (1000, 0), (1000, 1), (1000, 200), (999, 0), (1001, 0), (700, 100), (400, 133), (400, 134)
    ):
        yield zones(1200, 1200, own_length, fore)
        yield from tried(session, uneven_tank(rng, session.sheet, 2, 1, own_length, fore))
    yield "# Tanks: the U's m and not one by their own depths; the U's own interval and not that of the tonnage length"
    yield from ("open 4800", enter(1, 0, U, PLAIN, 2000, [9, 1601, 9], [900] * 21))
    yield from (enter(2, 0, U, PLAIN, 2800, [20_000, 9, 1600, 9, 20_000], [900] * 25), "spaces")
    for within, depth, row in product((1, 2), (1600, 1601), (5, 7)):
        yield from tried(session, tank(3, within, PLAIN, 100, 0, [depth] * 3, [5] * (3 * row)))
    for within, own_length in product((1, 2), (1300, 1400, 1866, 1867, 2000, 2800)):
        if own_length <= s.find(session.sheet.spaces, within).length:
            yield zones(4800, s.find(session.sheet.spaces, within).length, own_length, 0)
            yield from tried(session, even_tank(session.sheet, 3, within, own_length, 0))
    yield from LOOK


def tanks_and_files(rng: Random, session: Session) -> Lines:
    """A U read from a file has no m until it is entered anew; marks, undo and redo bring m along, or none."""
    right = ([600] * 3, [300] * 15)
    one, other = tank(8, 1, BALLAST, 300, 0, *right), tank(9, 2, PLAIN, 300, 300, *right)
    yield "# Tanks: a U that came from a file, and the same entered anew"
    yield from (*a_thousand(), one, other, mark(1, PLAIN), room(10, 8, 20), *LOOK_AND_REPORT)
    file = dayfile.bytes_of(FORM_1, session.sheet, 0)
    yield from (*read_and_looked_at(session, file), withdraw(8), withdraw(10), withdraw(8), one, mark(1, PLAIN), one)
    yield from ("spaces", withdraw(1), one, "undo", one, "redo", divided(1, U, 1200, 600, 1200, 500), one)
    yield from LOOK_AND_REPORT
    yield from (withdraw(9), withdraw(2), "undo", other, "redo", divided(2, U, 1200, 600, 1601, 500), other, "spaces")
    yield from (tank(9, 2, PLAIN, 300, 300, [600] * 3, [300] * 21), *LOOK_AND_REPORT, *["undo"] * 9, *LOOK, one, other)
    yield from (*["redo"] * 4, "spaces", *["redo"] * 5, *LOOK_AND_REPORT, "redo")
    yield from read_and_looked_at(session, dayfile.bytes_of(FORM_1, session.sheet, 0))
    yield "# Tanks: a withdrawal undone, a mark, a mark undone and an entry made again keep m"
    yield from (*a_thousand(), withdraw(1), one, "undo", one, "spaces", "undo")
    yield from (mark(1, PLAIN), one, "undo", "undo", one)
    yield from ("undo", mark(1, PLAIN), "undo", "redo", one, "spaces", *["undo"] * 6, "spaces", "redo", one, *LOOK)


def tanks_as_rooms(rng: Random, session: Session) -> Lines:
    """A tank is a room in every way: rooms inside and beside it, marks, withdrawals, undo, redo and reports."""
    yield "# Tanks as rooms"
    yield from (*a_thousand(), tank_of_a_thousand(4, 1, 300, 100, 1200, 500), "spaces")
    own, whole = session.sheet.spaces[-1].tonnage, s.find(session.sheet.spaces, 1).tonnage
    yield from (room(5, 4, own + 1), room(5, 4, own), room(6, 4, 1))
    yield from (room(6, 1, whole - own + 1), room(6, 1, whole - own))
    for depth, breadth in ((0, 0), (9, 500), (20, 500), (1200, 500)):
        yield from tried(session, tank_of_a_thousand(7, 1, 300, 300, depth, breadth))
    yield from ("undo", *LOOK, room(6, 1, whole - own - 1))
    for length in (166, 167, 300, 500, 501):  # of 0, 1, 1, 1 and 2, where 1 is left
        yield from tried(session, tank_of_a_thousand(7, 1, length, 0, 60, 50))
    yield from (tank_of_a_thousand(7, 2, 600, 0, 1200, 500), room(8, 2, 1), tank_of_a_thousand(8, 2, 1, 0))
    yield from (*LOOK_AND_REPORT, "undo", "undo", tank_of_a_thousand(8, 2, 300, 0, 1200, 500, EXEMPT))
    yield from (tank_of_a_thousand(9, 2, 300, 300, 1200, 500, BALLAST), *LOOK_AND_REPORT)
    yield "# Tanks: marked, withdrawn, undone and made again"
    yield from (withdraw(4), withdraw(2), mark(4, EXEMPT), mark(5, DEDUCTED), mark(4, PLAIN), mark(5, DEDUCTED))
    yield from (mark(4, BALLAST), room(10, 8, 5, EXEMPT), room(10, 8, 5), mark(10, BALLAST), *LOOK_AND_REPORT)
    yield from (withdraw(9), "spaces", "undo", "spaces", "redo", "undo", "undo", "undo", withdraw(8))
    yield from (*["undo"] * 4, *LOOK)
    yield from (*["redo"] * 9, *LOOK_AND_REPORT, tank_of_a_thousand(8, 2, 20, 580), "redo", "counts")
    yield "# Tanks: an id freed and entered again, and the eighth level below a tank"
    yield from (*a_thousand(), tank_of_a_thousand(4, 1, 300, 0, 600, 300), withdraw(4), room(4, 1, 5), "undo")
    yield from (tank_of_a_thousand(4, 1, 300, 300, 600, 300), *LOOK, "undo", "undo", "spaces", *["redo"] * 3)
    yield from (*chain(4, 11, 6, 1), room(17, 16), *LOOK, mark(16, EXEMPT), mark(4, EXEMPT), mark(16, PLAIN))
    yield from (mark(4, EXEMPT), room(18, 15, 0, DEDUCTED), tank_of_a_thousand(18, 1, 9, 0, 9, 9, EXEMPT), *LOOK)
    yield "# Tanks: the 64th change and the 65th"
    yield from (*a_thousand(), *[mark(1, PLAIN)] * 60, tank_of_a_thousand(4, 1, 300, 0, 600, 300), "counts")
    yield from (tank_of_a_thousand(5, 2, 300, 0, 600, 300), "counts", *["undo"] * 2, *LOOK, *["redo"] * 3, *LOOK)
    yield from (*["undo"] * 65, *LOOK, *["redo"] * 64, *LOOK)


def a_meeting(rng: Random, tonnage_length: int, under_deck_length: int) -> tuple[int, int]:
    """A tank's length and fore end with which a station falls between two zones, if chance finds them; else any two.

    The fore end is the end of a zone less a station's distance from it, where that is a whole number in the U.
    """
    ends = m.zone_ends(under_deck_length, m.parts_of_under_deck(tonnage_length, under_deck_length))[:-1]
    for _ in range(40):
        length = rng.randint(1, one_of(rng, (under_deck_length, under_deck_length // 2, under_deck_length // 4)))
        number = m.parts_of_tank(tonnage_length, under_deck_length, length)
        fore = ends[rng.randrange(len(ends))] - rng.randint(0, number) * Fraction(length, number)
        if fore.denominator == 1 and 0 <= fore <= under_deck_length - length:
            return length, int(fore)
    return length, rng.randint(0, under_deck_length - length)


def off_by(tonnage_length: int, under_deck_length: int, length: int, fore: int) -> Fraction:
    """How far the station of a tank that lies nearest to the end of a zone, but not just there, lies from it."""
    ends = m.zone_ends(under_deck_length, m.parts_of_under_deck(tonnage_length, under_deck_length))[:-1]
    stations = m.stations_of_tank(fore, length, m.parts_of_tank(tonnage_length, under_deck_length, length))
    return min(abs(station - end) for station in stations for end in ends if station != end)


def a_near_miss(rng: Random, tonnage_length: int, under_deck_length: int) -> tuple[int, int]:
    """A tank's length and fore end, of some at random, with which a station lies nearest to the end of a zone."""
    lengths = [rng.randint(under_deck_length // 4, under_deck_length) for _ in range(40)]
    tanks = [(length, rng.randint(0, under_deck_length - length)) for length in lengths]
    return min(tanks, key=lambda ends: off_by(tonnage_length, under_deck_length, *ends))


EDGES_OF_PARTS = (
    100, 2000, 2001, 3999, 4000, 4001, 5000, 5001, 10_000, 10_001, 15_000, 15_001, 20_000, 20_001, 25_000, 25_001,
    150_000,
)


def where_to_measure(rng: Random, session: Session) -> Lines:
    """Zones asked for at each end of each range, alone and together, and many whose stations fall between two zones."""
    yield "# Zones: ranges, and a tank that passes an end"
    for one in (0, 1, 99, 100, 101, 149_999, 150_000, 150_001, *BEYOND_32):
        yield from (zones(one, 4800, 800, 0), zones(4800, one, 1, 0), zones(4800, one, 100, 0), zones(one, one, 1, 99))
        yield from (zones(150_000, 150_000, one, 0), zones(150_000, 150_000, 1, one))
        yield from (zones(4800, 4800, one, one), zones(one, 100, one, one))
    for length, fore in (
        (4800, 0), (4800, 1), (4801, 0), (4799, 1), (1, 4799), (1, 4800), (1, 4801), (0, 4800), (0, 4801)
    ):
        yield from (zones(4800, 4800, length, fore), zones(4801, 4800, length, fore), zones(99, 4800, length, fore))
    yield from (zones(4800, 4800, 2**32 - 1, 2**32 - 1), zones(4800, 4800, 2**32 - 1, 1))
    yield zones(4800, 4800, 1, 2**32 - 1)
    yield from (zones(4800, 4800, 2**32 + 1, 0), zones(4800, 2**32 + 4800, 1, 0), zones(2**32 + 4800, 4800, 1, 0))
    yield from (zones(4800, 4800, 1, 2**32), zones(4800, 4800, 150_000, 150_000), zones(4800, 4800, 150_001, 150_000))
    yield "# Zones: every number of parts, of the whole and of step parts, also of one longer than the tonnage length"
    for length in EDGES_OF_PARTS:
        for tonnage_length in (length, 150_000 - length, 100):
            yield zones(tonnage_length, length, length, 0)
        for tonnage_length in (length, 101):
            yield zones(tonnage_length, length, *a_meeting(rng, tonnage_length, length))
    yield "# Zones: stations between two zones"
    for number in range(60):
        length = one_of(rng, (rng.randint(100, 6000), 36 * rng.randint(3, 300), 48 * rng.randint(3, 700)))
        tonnage_length = one_of(rng, (length, length, length + 100, 4800))
        own_length, fore = a_meeting(rng, tonnage_length, length)
        yield zones(tonnage_length, length, own_length, fore)
        if number % 3 == 0:
            yield zones(tonnage_length, length, own_length, fore + 1)
    yield "# Zones: stations a fraction of a hundredth off"
    for length in (599, 1199, 3001, 4799, 9_998, 24_999, 149_999):
        yield zones(length, length, *a_near_miss(rng, length, length))
        yield zones(100, length, *a_near_miss(rng, 100, length))
    yield "counts"


# Sections of ends

NEXT_TO_NO_DEPTH = {4: 5, 6: 8}  # by m, the greatest depth whose third interval rounds to 0: of 5/12 and of 8/18
EVERY_PAIR_OF_ENDS: tuple[Ends, ...] = tuple(product(s.ENDS, repeat=2))
Station = tuple[int, list[int]]  # its depth and its breadths
# Depths and breadths of a U of 600 on a tonnage length of 1200, with m 4: with area at its ends, and without
WITH_AREA, WITHOUT_AREA = ([99] * 3, [9] * 15), ([0, 99, 0], [9] * 15)


def with_station(
    heights: list[int], breadths: list[int], station: int, depth: int, own: list[int]
) -> tuple[list[int], list[int]]:
    """The measures of a U with another depth and other breadths at a station."""
    first = station * len(own)
    return figures.changed(heights, station, depth), [*breadths[:first], *own, *breadths[first + len(own):]]


def by_stations(id: int, length: int, stations: Sequence[Station], ends: Ends) -> str:
    """The entry of a U, station by station from the bow, with what is said of its ends."""
    breadths = [breadth for _, of_station in stations for breadth in of_station]
    return enter(id, 0, U, PLAIN, length, [depth for depth, _ in stations], breadths, ends)


def half(id: int, fore_depth: int, aft_depth: int, ends: Ends) -> str:
    """The entry of a U of half the tonnage length of 1200, with these depths at its ends; its middle gives 240."""
    return by_stations(id, 600, [(fore_depth, [500] * 5), (1200, [500] * 5), (aft_depth, [500] * 5)], ends)


def pointed_figures(rng: Random, session: Session) -> Lines:
    """The paper's box, upright at both ends; with pointed ones its tonnage is that of its other sections."""
    yield "# Ends: the paper's box, upright and pointed"
    yield "open 4800"
    section, least, no_depth, no_breadths = (1200, [2000] * 5), (5, [2000] * 5), (0, [2000] * 5), (1200, [0] * 5)
    for fore, aft in (
        (section, section), (no_depth, section), (section, no_depth), (least, section), (section, no_breadths),
        (no_breadths, no_depth), (no_depth, least),
    ):
        for ends in ((UPRIGHT, UPRIGHT), (POINTED, UPRIGHT), (UPRIGHT, POINTED), (POINTED, POINTED)):
            yield from tried(session, by_stations(1, 4800, [fore, *[section] * 5, aft], ends))
    yield from (by_stations(1, 4800, [no_depth, *[section] * 6], (POINTED, UPRIGHT)), *LOOK_AND_REPORT)


def pointed_ends(rng: Random, session: Session) -> Lines:
    """Pointed ends with no depth, with a third interval that rounds to 0 or just to 1, and with no breadths.

    The U's m, which the depth at its middle station fixes, is that of its ends.
    """
    for parts, of_middle in ((4, 1600), (6, 1601)):
        yield f"# Ends: a pointed one with m {parts}"
        yield "open 1200"
        nothing, narrow, broad = ([breadth] * (parts + 1) for breadth in (0, 9, 30_000))
        middle, other = (of_middle, [90] * (parts + 1)), (of_middle, narrow)
        for end in (
            *((depth, narrow) for depth in (0, 1, 5, 6, 8, 9, 20_000)), *((depth, broad) for depth in (0, 5, 20_000)),
            *((depth, nothing) for depth in (0, 9, 1600, 20_000)),
        ):
            yield from tried(session, by_stations(1, 600, [end, middle, other], (POINTED, UPRIGHT)))
            yield from tried(session, by_stations(1, 600, [other, middle, end], (INNER, POINTED)))
            yield from tried(session, by_stations(1, 600, [end, middle, end], (POINTED, POINTED)))
        yield f"# Ends: one breadth of a hundredth at a pointed one with m {parts}"
        for place, more in product(range(parts + 1), (0, 1)):
            end = NEXT_TO_NO_DEPTH[parts] + more, figures.changed(nothing, place, 1)
            yield from tried(session, by_stations(1, 600, [end, middle, other], (POINTED, INNER)))
            yield from tried(session, by_stations(1, 600, [other, middle, end], (UPRIGHT, POINTED)))
    yield "# Ends: area at a pointed one alone, beside it alone, and nowhere"
    for tonnage_length, length, number, depth, row in (
        (1200, 600, 2, 9, 5), (4800, 2001, 4, 9, 5), (1200, 1200, 6, 1601, 7), (25_001, 25_001, 16, 9, 5)
    ):
        yield f"open {tonnage_length}"
        for places in ((0,), (number,), (1, number - 1), ()):
            stations = [(depth, [9 if place in places else 0] * row) for place in range(number + 1)]
            for ends in ((POINTED, UPRIGHT), (INNER, POINTED), (POINTED, POINTED)):
                yield from tried(session, by_stations(1, length, stations, ends))
    yield from LOOK


def pairs_of_ends(rng: Random, session: Session) -> Lines:
    """Each end inner, upright and pointed, in all nine pairs, with area at each end and without."""
    yield "# Ends: inner, upright and pointed, with area and without"
    yield "open 1200"
    for fore_depth, aft_depth, ends in product((0, 1200), (0, 1200), EVERY_PAIR_OF_ENDS):
        yield from tried(session, half(1, fore_depth, aft_depth, ends))
    yield from LOOK


def ends_said(rng: Random, session: Session) -> Lines:
    """Numbers that are no end's, of a U and of every other kind, where they aren't read; ends left out; words amiss."""
    yield "# Ends: numbers that are none, of a U"
    yield "open 1200"
    for one in (NOT_SAID, *BEYOND_ENDS):
        for ends in ((one, UPRIGHT), (INNER, one), (one, one), (POINTED, one), (one, POINTED)):
            yield enter(1, 0, U, PLAIN, 600, *WITH_AREA, ends)
        yield enter(1, 0, U, PLAIN, 600, *WITHOUT_AREA, (POINTED, one))
    yield "# Ends: of every other kind they aren't read, nor of one that is none"
    yield half(1, 0, 1200, (POINTED, INNER))
    others = (
        (B, 1200, [500] * 7, [500] * 7), (S, 300, [500] * 3, [500] * 3), (H, 100, [500], [500]), (R, 10, [500], [500])
    )
    unread = ((), (0, 0), (1, 2), (3, 3), (4, 3), (255, 256), (259, 0), (2**64 - 1, 2**64 - 1))
    for (kind, *measures), ends in product(others, unread):
        yield from tried(session, enter(7, 1, kind, PLAIN, *measures, ends))
    for kind, ends in product((0, 6, 255, 257, 2**64 - 1), ((), (2, 2), (3, 3))):
        yield enter(7, 1, kind, PLAIN, 600, *WITH_AREA, ends)
    yield "# Ends: left out, one word alone, which is a deck, three and four, words that are no numbers, zeros in front"
    for measures, ends in product((WITH_AREA, WITHOUT_AREA), ((), (UPRIGHT,), (UPRIGHT,) * 3, (UPRIGHT,) * 4)):
        yield from tried(session, enter(2, 0, U, PLAIN, 600, *measures, ends))
    left_out = [enter(7, 1, kind, PLAIN, *measures, ()) for kind, *measures in ((U, 600, *WITHOUT_AREA), *others)]
    for line, ends in product(left_out, ("3 3 3 3", "3 x", "- 3", "3 3,3", "3 18446744073709551616", "3 ", "")):
        yield f"{line} {ends}"
    for line, ends in product(left_out, ("3", "3 3 3", "002 0000003")):
        yield from tried(session, f"{line} {ends}")
    yield from LOOK


def pointed_refusals(rng: Random, session: Session) -> Lines:
    """A pointed end with area beside every other number that a U can have, which goes before it; and alone."""
    yield "# Ends: 19 after all the others"
    both = (POINTED, POINTED)
    yield from ("open 99", *(enter(1, 0, U, 0, 600, *measures, both) for measures in (WITH_AREA, WITHOUT_AREA)))
    yield from ("open 1200", divided(1, U, 1200, 600, 1200, 500), room(21, 1, 10))
    wrong, beyond = ([99] * 3, [9] * 14), ([99] * 3, [9] * 14 + [30_001])
    of_ends = ((POINTED, INNER), (UPRIGHT, POINTED), (INNER, UPRIGHT), (POINTED, NOT_SAID), (4, POINTED))
    for full in (False, True):
        if full:
            yield from (room(id, 21) for id in range(1000, 1000 + s.PLACES - len(session.sheet.spaces)))
        of_measures = (WITH_AREA, WITHOUT_AREA) if full else (WITH_AREA, WITHOUT_AREA, wrong, beyond)
        for id, standing, length, measures in product(
            (500, 21), (PLAIN, EXEMPT, NO_STANDING), (600, 601), of_measures
        ):
            yield from tried(session, enter(id, 0, U, standing, length, *measures, both))
        for length, measures, ends in product((600,) if full else (600, 601), (WITH_AREA, WITHOUT_AREA), of_ends):
            yield from tried(session, enter(500, 0, U, PLAIN, length, *measures, ends))
        yield from (enter(0, 0, U, PLAIN, 600, *WITH_AREA, both), "counts", "report 0")
    yield "# Ends: a place again, 19 alone, and accepted"
    yield from (withdraw(1000), enter(500, 0, U, PLAIN, 600, *WITH_AREA, both), "counts", "report 0")
    yield from (enter(500, 0, U, PLAIN, 600, *WITHOUT_AREA, both), "counts", "report 0")
    yield from (enter(501, 0, U, PLAIN, 600, *WITH_AREA, both), "undo", "counts")


def pointed_and_changed(rng: Random, session: Session) -> Lines:
    """A pointed end refused changes nothing, and what was undone can be made again; accepted, it is a change as any."""
    refused, accepted = half(2, 1200, 1200, (UPRIGHT, POINTED)), half(2, 0, 0, (POINTED, POINTED))
    yield "# Ends: a refused one changes nothing"
    yield from ("open 1200", refused, *LOOK, half(1, 0, 1200, (POINTED, INNER)), hatchway(5, 20), mark(5, PLAIN))
    yield from ("undo", "undo", *LOOK, refused, *LOOK, "redo", refused, "counts", "redo", "redo", *LOOK)
    yield from ("undo", refused, "undo", refused, "undo", refused, "undo", *LOOK, *["redo"] * 3, refused, *LOOK)
    yield "# Ends: an accepted one undone, made again and withdrawn"
    yield from (accepted, "undo", refused, *LOOK, "redo", *LOOK_AND_REPORT, refused, "undo", "undo", "spaces", "redo")
    yield from ("redo", *LOOK, withdraw(2), refused, "undo", *LOOK, withdraw(2), refused, accepted)
    yield from (*LOOK_AND_REPORT, "undo", "undo", *LOOK, room(6, 2, 240, BALLAST), room(7, 2, 1), *LOOK_AND_REPORT)
    yield from (mark(2, PLAIN), withdraw(1), half(1, 6, 1200, (POINTED, UPRIGHT)), half(1, 5, 1200, (POINTED, UPRIGHT)))
    yield from (*LOOK_AND_REPORT, *["undo"] * 4, *LOOK, "redo", *LOOK)
    yield "# Ends: 64 changes, a refused one and the 65th"
    yield from ("open 1200", half(1, 0, 0, (POINTED, POINTED)), *[mark(1, PLAIN)] * 63, refused, *LOOK, accepted, *LOOK)
    yield from (*["undo"] * 2, refused, "counts", *["redo"] * 2, *LOOK, *["undo"] * 64, refused, *LOOK, "undo")


def pointed_and_files(rng: Random, session: Session) -> Lines:
    """A pointed U written, read back and reported; after the read one entered anew, and tanks in it."""
    refused, accepted = half(1, 1200, 0, (POINTED, POINTED)), half(1, 0, 5, (POINTED, POINTED))
    yield "# Ends: nothing of them is in the file"
    for ends in ((POINTED, POINTED), (UPRIGHT, INNER)):
        yield from ("open 1200", half(1, 0, 5, ends), half(2, 0, 1200, (POINTED, UPRIGHT)), hatchway(3, 20))
        yield from (*LOOK_AND_REPORT, write(0, 0, 76))
        yield from read_and_looked_at(session, dayfile.bytes_of(FORM_1, session.sheet, 0))
    yield "# Ends: a pointed one after a read"
    yield from (refused, withdraw(1), refused, *LOOK, accepted, *LOOK_AND_REPORT, "undo", refused, "redo", "counts")
    yield from (tank_of_a_thousand(4, 2, 600, 0, 20, 20), tank_of_a_thousand(4, 1, 600, 0, 1200, 500))
    yield from (tank_of_a_thousand(4, 1, 600, 0, 600, 500, BALLAST), room(5, 1, 60), room(6, 1, 1), *LOOK_AND_REPORT)
    yield from (*read_and_looked_at(session, dayfile.bytes_of(FORM_1, session.sheet, 1)), refused, "counts")


# Sections of roundings

DEPTHS_APART = 5  # from station to station: prime to 12 and 18, so that a rounding comes again behind all the others
MIDDLES = (1600, 1601, 1593, 1610)  # depths, with m 4 and m 6 in turn
# A U in two parts with m 4, none of its third intervals exact: they are had from 6010/6, 1211/12, 1598/12 and 1205/12
NEVER_EXACT = (601, [1211, 1598, 1205], [9] * 15)


def at_edges(roundings: Iterable[int]) -> list[int]:
    """Of all the roundings that there are: the least, the two beside 0, 0 itself and the two greatest.

    The least lies just over minus a half of the divisor; the greatest is its half, where there is such a one.
    """
    below, above = (sorted(one for one in roundings if one * sign > 0) for sign in (-1, 1))
    return sorted({below[0], below[-1], 0, above[0], *above[-2:]})


def lengths_at_edges(number: int, first: int) -> list[int]:
    """In that number of parts a length for each of these roundings, of those from the first on."""
    lengths = range(first, first + m.exact_divisor(number))  # so many have all the roundings that there are
    by_rounding = {m.rounding_of_length(length, number): length for length in lengths}
    return [by_rounding[rounding] for rounding in at_edges(by_rounding)]


def depths_apart(number: int, middle: int) -> list[int]:
    """Depths of a U in that number of parts, about that of its middle station: neighbours are rounded differently."""
    return [middle + DEPTHS_APART * (station - number // 2) for station in range(number + 1)]


def narrow(id: int, length: int, depths: Sequence[int]) -> str:
    """The entry of a U with these depths, narrow all through."""
    return enter(id, 0, U, PLAIN, length, depths, [9] * m.breadths_asked(U, depths))


def rounded_under_decks(rng: Random, session: Session) -> Lines:
    """Lengths of U at the edges of rounding in every number of parts, whole and step parts, at m 4 and 6."""
    middles = cycle(MIDDLES)
    yield "# Roundings: a U that is the whole of its tonnage length; as a step part the shortest would be in 4 parts"
    for number, first in ((6, 2100), (8, 9_900), (10, 14_900), (12, 19_900), (14, 24_900), (16, 29_950)):
        for length in lengths_at_edges(number, first):
            yield from (f"open {length}", narrow(1, length, depths_apart(number, next(middles))))
    for length in (100, 30_000, 30_001, 149_999, 150_000):
        number = m.parts_by_table(length)
        yield from (f"open {length}", narrow(1, length, depths_apart(number, next(middles))))
    yield "# Roundings: step parts, those in 2 and 4 parts at all the edges, those by the table at the greatest rounding"
    by_table = ((6, 4000), (8, 5001), (10, 10_001), (12, 15_001), (14, 20_001), (16, 25_001))
    lengths = [*lengths_at_edges(2, 1990), *lengths_at_edges(4, 2001), 3999, 4000]
    lengths += [lengths_at_edges(number, first)[-1] for number, first in by_table]
    yield "open 150000"
    for id, length in enumerate(lengths, start=1):
        yield narrow(id, length, depths_apart(m.parts_of_step_part(length), next(middles)))
    yield from LOOK


def rounded_levels(rng: Random, session: Session) -> Lines:
    """Lengths of B and S at the edges of rounding, in every number of parts; they have no station's depth."""
    yield "# Roundings: B of another length than the tonnage length, which gives the parts; the paper's long one too"
    for number, tonnage_length in ((6, 5000), (8, 5001), (10, 10_001), (12, 20_000), (14, 25_000), (16, 25_001)):
        yield f"open {tonnage_length}"
        for id, length in enumerate([*lengths_at_edges(number, 700), 150_000], start=1):
            yield divided(id, B, tonnage_length, length, 9, 9)
    yield "# Roundings: S, in the parts that are nearest to an interval of 800; the shortest one, and the paper's tie"
    yield "open 4800"
    lengths = [length for number in m.EVEN_NUMBERS for length in lengths_at_edges(number, 800 * number - 20)]
    yield from (divided(id, S, 4800, length, 9, 9) for id, length in enumerate([*lengths, 1], start=1))
    yield from ("open 4500", divided(1, S, 4500, 2000, 9, 9), *LOOK)


def rounded_depths(rng: Random, session: Session) -> Lines:
    """Every rounding of a depth at each of three stations, with m 4 and 6; depths of 0, next to it and the greatest."""
    yield "# Roundings: depths, with m 4 up to a middle one of 1600 and with m 6 from 1601 on"
    yield "open 1200"
    for middle in range(1600 - 11, 1601 + 18):
        yield from (narrow(1, 600, depths_apart(2, middle)), "undo")
    yield "# Roundings: depths about those whose third interval is 0, 1 and 2, and the greatest; the middle one fixes m"
    for depths in (
        [0, 5, 6, 12, 18, 17, 19], [7, 11, 13, 1, 19_998, 20_000, 19_997], [20_000, 1601, 1600, 1599, 1601, 0, 1602],
        [0, 8, 9, 1800, 27, 26, 28], [10, 17, 19, 1601, 19_989, 20_000, 19_988], [20_000, 1600, 1601, 1602, 9, 18, 1],
    ):
        yield from (narrow(1, 1200, depths), "undo")
    yield from LOOK


def not_rounded(rng: Random, session: Session) -> Lines:
    """Nothing is passed on by what is refused, with every number, nor by hatchways, rooms and tanks, undo and redo.

    All have measures that would not be exact.
    """
    _, depths, breadths = NEVER_EXACT
    entries = (
        (U, *NEVER_EXACT), (B, 1300, [9] * 7, [9] * 7), (S, 301, [9] * 3, [9] * 3), (H, 601, [7], [7]),
        (R, 601, [7], [7]),
    )
    yield "# Roundings: none where 1, 2, 3, 4 or 6 is given, of any kind"
    for first in ("open 99", "open 1300"):
        yield from (first, divided(1, U, 1300, 600, 1200, 500), hatchway(2, 20))
        for kind, length, heights, own in entries:
            yield enter(9, 1, kind, NO_STANDING, length, heights, own)
            yield from (enter(9, 1, kind, 0, length, heights, [*own, 7]), enter(1, 1, kind, 0, length, heights, own))
            yield enter(9, 2, kind, DEDUCTED, length, heights, own)
    yield "# Roundings: none where 2 is given by an end, or 19, 9, 5, 7 or 8"
    yield from (enter(9, 0, U, PLAIN, *NEVER_EXACT, ends) for ends in ((), (POINTED, INNER), (UPRIGHT, POINTED)))
    yield from (enter(9, 0, U, PLAIN, 701, depths, breadths), enter(9, 77, R, PLAIN, 601, [7], [7]))
    yield from (*chain(1, 11, 7, 1), enter(9, 17, R, PLAIN, 601, [7], [7]), enter(9, 16, R, PLAIN, 601, [700], [700]))
    yield from (mark(16, EXEMPT), enter(9, 16, R, DEDUCTED, 601, [7], [7]))
    yield "# Roundings: of what is accepted, but not where it is undone, made again or marked, nor of a tank in it"
    for kind, *measures in entries:
        yield from (enter(9, 1, kind, PLAIN, *measures), "undo", "redo", withdraw(9), "undo", mark(9, PLAIN))
        yield from ["undo"] * 2
    yield from (enter(9, 0, U, PLAIN, *NEVER_EXACT), tank(10, 9, PLAIN, 301, 1, depths, [1] * 15), "undo", "redo")
    yield from (tank(20, 9, PLAIN, 301, 301, depths, [1] * 15), tank(20, 1, PLAIN, 299, 1, depths, [1] * 15), *LOOK)
    yield from (*["undo"] * 3, *LOOK)
    yield "# Roundings: none where 10 is given, and those of what finds a place again"
    yield from (room(id, 11) for id in range(20, 20 + s.PLACES - len(session.sheet.spaces)))
    for line in [enter(9, 1, kind, PLAIN, *measures) for kind, *measures in entries]:
        yield from (line, withdraw(20), line, "undo", "undo")
    yield from ("counts", "report 0")


# Sections of decks, vessel numbers and forms

SOME_DECKS = (0, 1, 98, 99, *BEYOND_DECKS)
SOME_FORMS = (FORM_1, FORM_2, *BEYOND_FORMS)


def of_every_kind(id: int, within: int) -> tuple[str, ...]:
    """An entry of each kind and a tank, where a U of 600 is wanted of a tonnage length of 1200; a deck may follow."""
    return (
        enter(id, 0, U, PLAIN, 600, [99] * 3, [9] * 15), enter(id, 0, B, PLAIN, 1200, [500] * 7, [50] * 7),
        enter(id, 0, S, PLAIN, 300, [500] * 3, [500] * 3), hatchway(id, 20), room(id, within, 20, BALLAST),
        tank(id, within, BALLAST, 300, 0, [9] * 3, [9] * 15),
    )


def decks(rng: Random, session: Session) -> Lines:
    """Decks at the ends of their range and beyond, or above their type, of every kind and of a tank."""
    yield "# Decks of every kind and of a tank"
    yield from ("open 1200", divided(1, U, 1200, 600, 1200, 500))
    for line, deck in product(of_every_kind(2, 1), SOME_DECKS):
        yield from tried(session, f"{line} {deck}")
    yield "# Decks behind ends and without them, zeros in front, of a kind that is none"
    others = ((B, 1200, [500] * 7, [50] * 7), (S, 300, [500] * 3, [500] * 3), (H, 10, [9], [9]), (R, 10, [9], [9]))
    for (kind, *measures), ends in product(((U, 600, *WITH_AREA), *others), ((), (2, 1), (3, 3), (0, 0), (256, 4))):
        for deck in (99, 100):
            yield from tried(session, enter(2, 1, kind, PLAIN, *measures, ends, deck))
    yield from (enter(2, 1, kind, PLAIN, 10, [9], [9], (), deck) for kind in (0, 6, 255, 260) for deck in (1, 100))
    for zeros in ("099", "0" * 30 + "1", "00", "00100"):
        yield from tried(session, f"{hatchway(2, 20)} {zeros}")
        yield from tried(session, f"{tank(2, 1, PLAIN, 300, 0, [9] * 3, [9] * 15)} {zeros}")
    yield from LOOK


def of_every_number() -> tuple[str, ...]:
    """Entries and tanks on the sheet of deck_refusals, while it has places: accepted, and refused with each number.

    Those are 2 to 9, and 29; a deck may follow.
    """
    three, fifteen = [9] * 3, [9] * 15
    return (
        room(500, 1, 1),
        # 2 by other causes, 3 and 4
        room(500, 1, 1, NO_STANDING), enter(500, 1, R, PLAIN, 0, [9], [9]), enter(500, 0, H, PLAIN, 9, [20_001], [9]),
        enter(500, 0, U, PLAIN, 600, *WITH_AREA, (UPRIGHT, NOT_SAID)), enter(500, 0, S, PLAIN, 300, three, [9] * 4),
        room(4, 1, 1), room(0, 1, 1),
        # 5, 6, 7, 8 and 9
        room(500, 77, 1), room(500, 4, 1), enter(500, 0, H, EXEMPT, 9, [9], [9]), room(500, 17),
        room(500, 14, 0, EXEMPT), room(500, 1, 9999), enter(500, 0, U, PLAIN, 600, *WITH_AREA, (UPRIGHT, INNER)),
        # tanks: accepted, 2, 3, 4, 5, 6, 9 and 29
        tank(500, 1, PLAIN, 300, 0, three, fifteen), tank(500, 1, NO_STANDING, 300, 0, three, fifteen),
        tank(500, 1, PLAIN, 300, 150_001, three, fifteen), tank(500, 1, PLAIN, 300, 0, three, [9] * 14),
        tank(4, 1, PLAIN, 300, 0, three, fifteen), tank(500, 77, PLAIN, 300, 0, three, fifteen),
        tank(500, 3, PLAIN, 300, 0, three, fifteen), tank(500, 1, PLAIN, 300, 301, three, fifteen),
        tank(500, 2, PLAIN, 300, 0, three, fifteen),
    )


def deck_refusals(rng: Random, session: Session) -> Lines:
    """A deck above 99 beside every other number: only 1 goes before it; a deck in range beside the same."""
    yield "# Decks: on a sheet not open"
    yield "open 99 7"
    yield from (f"{line} {deck}" for line in of_every_kind(2, 1) for deck in (99, 100))
    yield "# Decks: beside every other number, on a sheet with places and on a full one"
    yield from read_and_entered_anew()
    yield from (hatchway(4, 50), *chain(1, 11, 7, 1), mark(14, DEDUCTED), room(21, 1, 10), *LOOK)
    for full in (False, True):
        if full:
            yield from (room(id, 21) for id in range(1000, 1000 + s.PLACES - len(session.sheet.spaces)))
        for line, deck in product(of_every_number(), (99, 100) if full else (0, 99, 100, 256)):
            yield from tried(session, f"{line} {deck}")
        yield from ("counts", "report 0")
    yield "# Decks: beside a pointed end with area"
    yield from ("open 1200", hatchway(1, 5))
    for measures, deck in product((WITH_AREA, WITHOUT_AREA), SOME_DECKS):
        yield from tried(session, enter(2, 0, U, PLAIN, 600, *measures, (POINTED, POINTED), deck))
    yield from LOOK


def decks_carried(rng: Random, session: Session) -> Lines:
    """Marks, withdrawals, undo and redo carry the deck of a space, a tank's too; one entered again has its own."""
    yield "# Decks: carried by marks, withdrawals, undo and redo"
    yield from ("open 1200", divided(1, U, 1200, 600, 1200, 500, deck=1), room(2, 1, 20, PLAIN, 99))
    yield from (tank(3, 1, BALLAST, 300, 0, [600] * 3, [300] * 15, 42), hatchway(4, 20), hatchway(5, 20, 7), *LOOK)
    for line in (
        room(6, 1, 20, PLAIN, 33), tank(6, 1, PLAIN, 300, 300, [9] * 3, [9] * 15, 44), mark(2, DEDUCTED),
        mark(3, EXEMPT), mark(1, PLAIN), mark(5, PLAIN), withdraw(2), withdraw(3), withdraw(4), withdraw(5),
        mark(5, EXEMPT), withdraw(1), room(6, 2, 1, PLAIN, 100),
    ):
        yield from (line, "spaces", "undo", "spaces", "redo", "spaces", "undo")
    yield from (*["undo"] * 5, "spaces", *["redo"] * 5, *LOOK)
    yield "# Decks: an id freed and entered again with another deck, or with none"
    for one, other in combinations((None, 1, 2, 99), 2):
        for first, second in ((one, other), (other, one)):
            yield from (withdraw(5), hatchway(5, 20, first), withdraw(2), room(2, 1, 20, EXEMPT, second), "spaces")
            yield from ("undo", "undo", "spaces", "undo", "undo", "spaces", *["redo"] * 4, "spaces")
    yield "# Decks: the 64th change and the 65th"
    yield from ("open 1200 9", divided(1, U, 1200, 600, 1200, 500, deck=98), *[mark(1, PLAIN)] * 62)
    yield from (room(2, 1, 20, PLAIN, 3), *LOOK, tank(3, 1, PLAIN, 300, 0, [9] * 3, [9] * 15, 4), *LOOK)
    yield from (*["undo"] * 3, "spaces", *["redo"] * 3, *LOOK, *["undo"] * 64, *LOOK, *["redo"] * 64, *LOOK)


def vessels(rng: Random, session: Session) -> Lines:
    """Vessel numbers given at opening and never changed; those that are none; 0 where no sheet is open."""
    yield "# Vessel numbers"
    for vessel in files.VESSELS:
        yield from (opening(1200, vessel), *LOOK, divided(1, U, 1200, 600, 1200, 500), mark(1, PLAIN), "spaces")
        yield from ("undo", "undo", "spaces", "undo", "redo", withdraw(1), "spaces", withdraw(1), "undo", "report 0")
        yield from (write(0, 0, 9), write(0, 0, 9, FORM_2), room(0, 0, 1), *LOOK)
        for beyond in (2**32, 2**32 + vessel, 2**64 - 1, 2**64):
            yield from (opening(1200, beyond), "spaces")
        for length in (99, 150_001, 2**64 - 1):
            yield from (opening(length, vessel), *LOOK)
        yield from (opening(100, vessel), "spaces", "open 1200", "spaces", hatchway(1, 5))
    yield from ("open 1200 007", "spaces", "open 1200 " + "0" * 40 + "4294967295", "spaces", "open 1200", "spaces")
    yield "# Vessel numbers: read from either form, and gone where a read is refused"
    of_form_1 = files.of_one(FORM_1)
    for vessel in files.VESSELS:
        file = files.of_one(FORM_2, vessel=vessel)
        yield from ("open 1200 8", read(file), "spaces", mark(1, PLAIN), "undo", "spaces", write(0, 0, 52, FORM_2))
        yield from (before(len(of_form_1), of_form_1 + file), "spaces", opening(1200, vessel), read(file[1:]), "spaces")
        yield from (opening(1200, vessel), read(of_form_1), "spaces")


def numbered(lines: Iterable[str], vessel: int) -> Lines:
    """The lines, with a vessel number where they open a sheet."""
    yield from (f"{line} {vessel}" if line.startswith("open ") else line for line in lines)


def sizes_of_both(session: Session) -> tuple[int, int]:
    """The bytes that the current sheet needs, in each form."""
    of_form_1, of_form_2 = (dayfile.distance(form, len(session.sheet.spaces)) for form in FORMS)
    return of_form_1, of_form_2


def forms_of_writes(rng: Random, session: Session) -> Lines:
    """Every form on a sheet in every condition, with a vessel number and without, into buffers that fit and that don't.

    The order is 1, 2, 13, 14, 20, 15, 21.
    """
    yield "# Forms of writes"
    for condition, vessel in product(conditions(), (0, 7)):
        yield from (*numbered(condition, vessel), "spaces")
        of_form_1, of_form_2 = sizes_of_both(session)
        for justified in (0, 1, 2):
            yield from (write(justified, 0, size, FORM_1) for size in (0, of_form_1 - 1, of_form_1))
            yield from (write(justified, 0, size, FORM_2) for size in (of_form_1, of_form_2 - 1, of_form_2))
        for form in BEYOND_FORMS[:5]:
            yield from (write(0, 0, of_form_2, form), write(2, 1, 0, form))
    yield "# Forms above their type, and zeros in front"
    for vessel in (0, 7):
        yield from (*numbered(a_thousand(), vessel), *(write(0, 0, 92, form) for form in SOME_FORMS))
        yield from (*(writef(0, 1, 95, 170, form) for form in SOME_FORMS), "write 0 0 92 002", "writef 0 0 92 9 0001")
    yield "# Places and fillings, in form 2"
    yield from numbered(a_thousand(), 7)
    size = dayfile.distance(FORM_2, len(session.sheet.spaces))
    for at in (0, 1, 2, 16, 28):
        yield from (writef(0, at, at + size + more, 255, FORM_2) for more in (-1, 0, 1))
        yield from (write(1, at, at, FORM_2), write(1, at + 1, at, FORM_2))
    for at in (size, size + 1, 2**16, 2**32 - size, 2**32, 2**63, 2**64 - size, 2**64 - size + 1, 2**64 - 1):
        yield from (write(0, at, size, FORM_2), write(0, at, size, FORM_1))
    yield from (writef(0, 3, size + 5, fill, FORM_2) for fill in (0, 1, 127, 128, 255))
    yield from ("counts", "spaces")


def numbers_lost(rng: Random, session: Session) -> Lines:
    """20 by a deck at any place, by the vessel number and by both, beside 15; and gone again with the number."""
    yield "# Numbers that form 1 would lose: a deck, the vessel number, both"
    whole = divided(1, U, 1200, 1200, 1200, 500)
    entries = (whole, room(2, 1, 20, BALLAST), tank(3, 1, PLAIN, 200, 0, [9] * 3, [9] * 15))
    for vessel, decked in product((None, 7), (None, 1, 2, 3)):
        yield opening(1200, vessel)
        yield from (f"{line} 99" if id == decked else line for id, line in enumerate(entries, start=1))
        of_form_1, of_form_2 = sizes_of_both(session)
        for form, size in ((FORM_1, of_form_1), (FORM_2, of_form_2)):
            yield from (write(0, 0, size, form), write(0, 0, size - 1, form), write(0, 0, 0, form))
            yield from (write(2, 0, size, form), writef(1, 2, size + 3, 7, form), write(0, 2**64 - 1, size, form))
        if decked in (2, 3):
            yield from (withdraw(decked), write(0, 0, 60), write(0, 0, 59), "undo", write(0, 0, 76), "redo", "undo")
            yield from (mark(decked, DEDUCTED), write(0, 0, 76), withdraw(decked), write(0, 0, 60), "spaces")
    yield "# Numbers that form 1 would lose: a vessel number in any of its bytes"
    for vessel in files.VESSELS:
        yield from (opening(1200, vessel), whole, write(0, 0, 44), write(0, 0, 43), write(0, 0, 52, FORM_2))
    yield "# Numbers that form 1 would lose: a deck of one of 200 spaces, in the middle and at the end"
    yield from ("open 1200", whole, *(f"{room(id, 1)}{' 1' if id == 100 else ''}" for id in range(2, s.PLACES + 1)))
    yield from (write(0, 0, 0), withdraw(100), write(0, 0, 0), room(100, 1), write(0, 0, 0), withdraw(100))
    yield from (room(100, 1, 0, PLAIN, 99), write(0, 0, 0), "undo", write(0, 0, 0), "redo", write(0, 0, 0), "counts")
    yield "# Numbers that form 1 would lose: only what stands counts, not what was undone or can be"
    yield from (*a_thousand(), write(0, 0, 76), hatchway(4, 20, 5), write(0, 0, 92), "undo", write(0, 0, 76), "redo")
    yield from (write(0, 0, 92), withdraw(4), write(0, 0, 76), hatchway(4, 20, 0), write(0, 0, 92), *LOOK)
    yield "# A sheet of form 2 whose numbers are all 0 goes to form 1"
    for vessel in (0, 7):
        file = files.file_of(100, files.filled(2), form=FORM_2, vessel=vessel)
        yield from (*read_and_looked_at(session, file), write(0, 0, 60, FORM_1), write(0, 0, 59, FORM_1))
        yield from (hatchway(3, 1, 4), write(0, 0, 92, FORM_1), write(0, 0, 92, FORM_2))
        yield from ("undo", write(0, 0, 60, FORM_1))


def in_both_forms(rng: Random, session: Session) -> Lines:
    """Sheets with decks and a vessel number written, read back and written again, and changed after the read."""
    yield "# Written in form 2 and read back"
    for lines, vessel, justified in (
        (whole_sheet(), 0, 0), (a_thousand(), 1042, 1),
        ((*a_thousand(), room(4, 1, 301, BALLAST, 12), hatchway(5, 70, 99)), GREATEST_VESSEL, 1),
    ):
        yield from numbered(lines, vessel)
        file = dayfile.bytes_of(FORM_2, session.sheet, justified)
        yield from (writef(justified, 3, len(file) + 4, 255, FORM_2), *read_and_looked_at(session, file))
        yield from (withdraw(3), "undo", mark(1, PLAIN), "spaces", write(justified, 0, len(file), FORM_2))
        yield write(justified, 0, len(file), FORM_1)
    yield "# 200 spaces in form 2"
    yield from (*numbered(a_thousand(), 5), *(room(id, 1 + id % 3, 0, PLAIN, id % 100) for id in range(101, 298)))
    size = dayfile.distance(FORM_2, s.PLACES)
    yield from (write(0, 0, size - 1, FORM_2), write(0, 0, size, FORM_2), write(0, 0, size, FORM_1), room(9, 1, 1))


def days_of_both_forms(rng: Random, session: Session) -> Lines:
    """A day's file of sheets in both forms, walked back, and each of its sheets moved."""
    sheets = (
        files.of_one(FORM_1), files.of_one(FORM_2, deck=42, vessel=5), files.of_one(FORM_2, vessel=6),
        files.of_one(FORM_1, justified=1), files.of_one(FORM_2, deck=42),
    )
    yield from walked_back(b"".join(sheets))
    yield from (*from_other_starts(sheets[3] + sheets[4]), *from_other_starts(sheets[4] + sheets[3]))
    yield "# An earlier sheet that is refused, with each number"
    for file in unreadable(FORM_2):
        yield from (before(len(file), file + sheets[0]), "spaces")
    yield "# Each sheet of a day in both forms moved"
    yield from numbered(a_thousand(), 3)
    for end in range(1, len(sheets) + 1):
        yield from (move(b"".join(sheets[:end]), (FORM_1, FORM_2)[end % 2], 5, 60, 255), "spaces")


# Sections of moves

def moved_both_ways(file: bytes, at: int, more: int, fill: int) -> Lines:
    """A file moved in its own form, and up and back, or back and up, if it can be."""
    count, own = dayfile.last_trailer(file).count, dayfile.last_form(file)
    for form in FORMS:
        size = dayfile.distance(form, count)
        yield move(file, form, at, at + size + more, fill)
        number, _, _, after = dayfile.move(file, form, bytes(size), 0)
        if form != own and not number:
            yield from (move(after, other, 0, dayfile.distance(other, count), fill) for other in FORMS)


def moves(rng: Random, session: Session) -> Lines:
    """Sheets moved up, back and in the form they have, which is a copy; the current sheet stays as it is."""
    yield "# Moves up, back and in the own form"
    yield from (*numbered(a_thousand(), 77), hatchway(4, 20, 6), "undo", *LOOK)
    plain = files.PLAIN_THREE
    for number, file in enumerate((
        files.of_the_paper(), files.of_the_paper(form=FORM_2), files.of_the_paper(form=FORM_2, vessel=9),
        files.file_of(1200, plain, justified=1), files.of_three(FORM_2), files.three_with(FORM_2, 2, deck=0),
        files.file_of(1200, plain, form=FORM_2, vessel=1), files.of_one(FORM_2),
        files.file_of(1200, [*plain[:2], plain[2]._replace(deck=99)], form=FORM_2, justified=1),
        files.file_of(1200, files.a_thousand(301)), files.file_of(1200, files.a_thousand(301), form=FORM_2, vessel=4),
        b"anything" + files.of_one(FORM_1), b"\2" * 40 + files.of_one(FORM_2),
    )):
        yield from moved_both_ways(file, number % 3, number % 4, (0, 255, 170)[number % 3])
        yield from ("counts", "spaces")
    yield from ("redo", *LOOK_AND_REPORT)
    yield "# Moves of 200 records, up and back, of 201 and of none"
    for form, asked in ((FORM_1, FORM_2), (FORM_2, FORM_1)):
        yield move(files.file_of(100, files.filled(s.PLACES), form=form), asked, 0, dayfile.distance(asked, s.PLACES))
        yield from (move(files.file_of(100, [], form=form), one, 0, 32) for one in FORMS)
    yield from (move(files.file_of(100, files.filled(s.PLACES + 1)), FORM_1, 0, 1), *LOOK)


def unreadable(form: int) -> tuple[bytes, ...]:
    """Files of a form that are refused with each of reading's numbers, 17 at several positions."""
    wrong_records = {
        FORM_1: ((1, "zero", 1), (3, "id", 1)),
        FORM_2: ((1, "zero", 1), (2, "deck", 100), (3, "second_zero", 256), (3, "id", 1)),
    }
    return (
        files.of_three(form)[1:], files.of_three(form, telling=1),
        *(files.three_with(form, position, **{field: value}) for position, field, value in wrong_records[form]),
        files.of_three(form, length=1201), files.file_of(1200, files.a_thousand(301), form=form, justified=0),
        files.with_machinery(form, 572), files.of_three(form, net=0),
    )


def refused_moves(rng: Random, session: Session) -> Lines:
    """Moves refused with 2, with each of reading's numbers, with 20 and with 15, alone and together, in that order."""
    yield "# Moves refused with reading's numbers, with room and without, and with 2"
    yield from (*numbered(a_thousand(), 77), hatchway(4, 20, 6), "undo", *LOOK)
    for file in (b"", *unreadable(FORM_1)):
        yield from (move(file, FORM_1, 0, 0, 5), move(file, FORM_2, 1, 95, 170), "spaces")
        yield from (move(file, one_of(rng, BEYOND_FORMS), 0, 3, 1), "spaces")
    for file in unreadable(FORM_2):
        yield from (move(file, FORM_1, 1, 95, 170), move(file, FORM_2, 0, 0, 5), "spaces")
    yield "# Moves to which each of reading's numbers applies, or two that stand next to each other, and 20 and 15"
    neighbours = zip(files.ORDER, files.ORDER[1:])
    for numbers in (*((number,) for number in files.ORDER), *neighbours):
        yield move(files.with_faults(rng, numbers, FORM_2, vessel=9)[0], FORM_1, 0, 0)
    yield "spaces"
    yield "# Moves refused with 2, whatever the form of the file and the room"
    alone = {form: files.of_one(form) for form in FORMS}
    with_vessel = files.of_one(FORM_2, vessel=9)
    for form in BEYOND_FORMS:
        yield from (move(alone[FORM_1], form, 0, 60, 3), move(alone[FORM_2], form, 0, 9, 3), move(b"", form, 1, 0))
        yield move(with_vessel, form, 2**64 - 1, 2)
    yield "# Moves refused with 20 and 15: a byte short in each form, and both together"
    for file in (
        *alone.values(), with_vessel, files.of_one(FORM_2, deck=1),
        files.of_one(FORM_2, deck=99, vessel=GREATEST_VESSEL),
    ):
        for asked, size in product(FORMS, (44, 52)):
            yield from (move(file, asked, at, room_left, 8) for at, room_left in ((0, size), (0, size - 1), (1, size)))
        yield "spaces"
    yield "# Moves refused with 15: places at the end of a buffer, past it and far behind"
    for asked, size in ((FORM_1, 44), (FORM_2, 52)):
        for at in (
            size, size + 1, 2**16, 2**32 - size, 2**32 - 1, 2**32, 2**32 + 1, 2**63 - 1, 2**63, 2**64 - size - 1,
            2**64 - size, 2**64 - size + 1, 2**64 - 1,
        ):
            yield from (move(alone[FORM_1], asked, at, size, 6), move(with_vessel, asked, at, size))
        yield from (move(alone[FORM_2], asked, at, at, 6) for at in (0, 1, size - 1, size))
    yield from ("redo", *LOOK_AND_REPORT)
    yield "# A move in the largest buffer, and zeros in front"
    yield move(alone[FORM_1], FORM_2, GREATEST_SIZE - 52, GREATEST_SIZE, 1)
    yield f"move {alone[FORM_2].hex()} 001 0001 00046 0255"


# Sections of machinery

def reported(lines: Sequence[str]) -> Lines:
    """Changes that are accepted, a report of what they make, and all of them undone."""
    yield from (*lines, "report 0", *["undo"] * len(lines))


def machinery_figures(rng: Random, session: Session) -> Lines:
    """Machinery at the edges of its classes, and where each rounding goes up, goes down, is exact or has a half."""
    yield "# Machinery: of a gross of 1000"
    yield from (*a_thousand(), "report 0")
    for tonnage in (0, 1, 12, 13, 129, *files.edges_of_classes(1000), 182, 183, 201, 202, 203, 204, 570, 571):
        yield from reported(machinery(tonnage))
    yield "# Machinery: of a gross with hatchways, whose excess counts in it"
    for of_hatchways in (5, 6, 16, 19, 105):  # the allowance is 5
        yield hatchway(9, of_hatchways)
        for tonnage in files.edges_of_classes(995 + of_hatchways):
            yield from reported(machinery(tonnage))
        yield "undo"
    yield "# Machinery: of a gross from which something is exempt, and with something deducted, which stays in it"
    for line, gross in ((mark(3, EXEMPT), 720), (room(9, 3, 280, BALLAST), 720), (room(9, 3, 100, DEDUCTED), 1000)):
        yield line
        for tonnage in files.edges_of_classes(gross):
            yield from reported(machinery(tonnage))
        yield "undo"
    yield "# Machinery: of a small gross, of which 32% and 1.75 times the machinery can be rounded to one figure"
    for breadth in (7, 14, 21, 28, 1, 0):
        yield from ("open 1200", divided(1, U, 1200, 1200, 600, breadth))
        gross = session.sheet.spaces[0].tonnage  # 5, 10, 15, 20, 1 and 0
        for tonnage in sorted({0, *range(max(gross // 5 - 1, 0), min(gross // 5 + 3, gross + 1))}):
            yield from reported([room(2, 1, tonnage, MACHINERY)])
        yield from (hatchway(3, 1), *reported([room(2, 1, 0, MACHINERY)]))


def machinery_and_ballast(rng: Random, session: Session) -> Lines:
    """Ballast at 30% and over it beside machinery of each class; the one room marked as the other, and as deducted."""
    yield "# Machinery beside ballast of 300 and 301, 30% of 1000 being 300"
    both = "report 0", "report 1"
    yield from a_thousand()
    for tonnage, of_ballast in product((0, 91, 92, 139, 140, 342), (300, 301)):
        yield from (room(8, 2, of_ballast, BALLAST), *machinery(tonnage), *both, mark(4, BALLAST), *both)
        yield from (mark(4, DEDUCTED), *both, mark(8, MACHINERY), *both, *["undo"] * 5)


def deductions_over(rng: Random, session: Session) -> Lines:
    """Deductions one under the gross, just as large and one over, in each class, by machinery alone and with others."""
    yield "# Deductions up to the gross, and over it: 21"
    yield from a_thousand()
    for tonnage, others in files.ALL_DEDUCTED:
        for by in (-1, 0, 1):
            yield from reported((*machinery(tonnage), *deducted(others + by)))
    for tonnage in (571, 572, 573, 640):
        yield from reported(machinery(tonnage))
    yield "# 21 is gone with what is over, and comes again with it; what was undone can still be made again"
    yield from (*machinery(571), *deducted(2), "report 0", "undo", "report 0", "redo", "report 0", mark(6, PLAIN))
    yield from ("report 0", "undo", "report 0", write(0, 0, 124), "counts", "redo", "report 0", write(0, 0, 124))
    yield from (mark(6, DEDUCTED), "report 0", hatchway(9, 6), "report 0", withdraw(9), "report 0", "undo", *LOOK)
    yield from (withdraw(5), "report 0", "undo", mark(5, DEDUCTED), *LOOK_AND_REPORT, "undo", "report 1", "redo")


def machinery_changed(rng: Random, session: Session) -> Lines:
    """A room and a tank marked from every standing to machinery and back, undone and made again, each time reported."""
    yield "# Machinery: marked from deducted and back, and from every other standing"
    yield from (*a_thousand(), room(4, 1, 200, DEDUCTED), tank_of_a_thousand(5, 2, 300, 0, 600, 500, MACHINERY), *LOOK)
    for id, standing in product((4, 5), (DEDUCTED, MACHINERY, PLAIN, MACHINERY, EXEMPT, MACHINERY, BALLAST)):
        yield from (mark(id, standing), "report 0", "undo", "report 0", "redo", "report 0")
    yield from (*LOOK, *["undo"] * 14, *LOOK_AND_REPORT, *["redo"] * 14, *LOOK_AND_REPORT)
    yield "# Machinery: withdrawn, entered again, and tanks of it beside one another"
    yield from (withdraw(5), "report 0", "undo", "report 0", "redo", room(5, 3, 200, MACHINERY), "report 0", *LOOK)
    for id, length, standing in ((10, 300, MACHINERY), (11, 150, NO_STANDING), (11, 150, MACHINERY)):
        yield from (tank_of_a_thousand(id, 2, length, 0, 1200, 500, standing), *LOOK_AND_REPORT)
    yield from (*["undo"] * 3, *LOOK_AND_REPORT, *["redo"] * 3, *LOOK_AND_REPORT)


def machinery_above_and_below(rng: Random, session: Session) -> Lines:
    """8 by machinery above and below every standing that isn't plain, by marks and by entries, also in an exempt S."""
    yield "# Machinery above and below what isn't plain"
    yield from (*a_thousand(), *chain(3, 4, 3, 100), *LOOK)
    for upper, lower in product(s.NOT_PLAIN, repeat=2):
        if MACHINERY in (upper, lower):
            yield from (mark(4, upper), mark(6, lower), mark(5, lower), room(7, 6, 1, lower), room(7, 4, 0, lower))
            yield from (mark(4, PLAIN), mark(6, lower), mark(4, upper), mark(5, upper), "report 0", mark(6, PLAIN))
    yield from (mark(6, MACHINERY), mark(3, EXEMPT), mark(6, PLAIN), mark(3, EXEMPT), mark(6, MACHINERY))
    yield from (room(7, 3, 1, MACHINERY), room(7, 5, 1, MACHINERY), room(7, 3, 1), mark(7, MACHINERY), *LOOK_AND_REPORT)


def machinery_and_files(rng: Random, session: Session) -> Lines:
    """Machinery of each class written and read back, and moved, in both forms; reads and moves refused with 21."""
    yield "# Machinery written, read back and changed"
    for (tonnage, others), form in product(((130, 680), (131, 0), (571, 1)), FORMS):
        yield from (*a_thousand(), *machinery(tonnage), *deducted(others), "report 0")
        file = dayfile.bytes_of(form, session.sheet, s.NOT_MARKED)
        yield from (write(0, 0, len(file), form), *read_and_looked_at(session, file))
        yield from (mark(4, DEDUCTED), "report 0", "undo", "report 0", room(9, 3), write(0, 0, len(file), form))
    yield "# Machinery moved both ways"
    for form in FORMS:
        yield from moved_both_ways(files.with_machinery(form, 200), 1, 2, 255)
    yield "# Reads refused with 21 leave no sheet; moves refused with it leave the sheet and the buffer"
    over = {form: files.with_machinery(form, 571, 2, net=net) for form, net in ((FORM_1, 0), (FORM_2, 2**64 - 1))}
    for form, file in over.items():
        yield from (*a_thousand(), move(file, form, 1, 99, 5), *LOOK, read(file), *LOOK_AND_REPORT, write(0, 0, 9))
        yield from (before(len(file), file + over[FORM_1]), *LOOK, hatchway(1, 5), before(len(file) - 1, file), *LOOK)


# Sections of spaces visited

IN_UNDER_DECK, IN_EXEMPT = (1, *range(11, 18)), (3, *range(21, 28))  # a space of each level, from 1 to 8


def two_chains() -> Lines:
    """Rooms inside one another in U 1 and in an exempt S 3, down to level 8; U 2, which has no m, and hatchway 4."""
    yield from (*read_and_entered_anew(), mark(3, EXEMPT), hatchway(4, 50))
    yield from (*chain(1, 11, 7, 40), *chain(3, 21, 7, 40))


def rooms_of_each_number(plain: int, exempt: int) -> tuple[str, ...]:
    """Rooms in a space and in one that is exempt or below it: accepted if it can be, and refused with 2, 3, 4, 8 and 9.

    With 6 in place of 0, 8 and 9 where it is a hatchway, with 7 where it is at level 8; with 10 on a full sheet.
    """
    return (
        room(50, plain), room(50, plain, 0, NO_STANDING), enter(50, plain, R, PLAIN, 1, [], [1]), room(2, plain),
        room(50, exempt, 0, DEDUCTED), room(50, plain, 9999),
    )


def rooms_of_other_causes(plain: int, exempt: int) -> tuple[str, ...]:
    """The same refused by other causes, and with the lowest of several numbers."""
    return (
        # 2 by the deck, the length, the height and the breadth; 3; 4 by ids outside the range and by the enclosing id
        room(50, plain, deck=100), enter(50, plain, R, PLAIN, 0, [1], [1]),
        enter(50, plain, R, PLAIN, 1, [20_001], [1]), enter(50, plain, R, PLAIN, 1, [1], [0]),
        enter(50, plain, R, PLAIN, 1, [1], [1, 1]), room(0, plain), room(10_000, plain), room(plain, plain),
        # 2 and 3; 2 and 4; 3 and 4; 3 and 8; 4 and 9; 4, 8 and 9; 8 and 9
        enter(50, plain, R, NO_STANDING, 1, [], []), room(2, plain, 0, NO_STANDING),
        enter(0, plain, R, PLAIN, 1, [1] * 2, [1]), enter(50, exempt, R, EXEMPT, 1, [1], []), room(2, plain, 9999),
        room(exempt, exempt, 9999, BALLAST), room(50, exempt, 9999, MACHINERY),
    )


def tanks_in_no_under_deck(within: int) -> tuple[str, ...]:
    """Tanks that name a space other than a U: 6, and before it 2, by the standing, the fore end and the deck, and 4."""
    return (
        tank(50, within, PLAIN, 9, 0, [], []), tank(50, within, NO_STANDING, 9, 0, [], []),
        tank(50, within, PLAIN, 9, 150_001, [], []), tank(50, within, EXEMPT, 9, 0, [], [], 100),
        tank(0, within, EXEMPT, 9, 0, [], []), tank(within, within, PLAIN, 9, 0, [], []),
    )


def tanks_in_under_decks() -> tuple[str, ...]:
    """Tanks that name U 1: accepted, 2, 3, 4, 9; and U 2, which has no m: 29, and 9 before it."""
    right = ([9] * 3, [9] * 15)
    return (
        tank(50, 1, PLAIN, 300, 0, *right), tank(50, 1, NO_STANDING, 300, 0, *right),
        tank(50, 1, PLAIN, 300, 0, [], []), tank(1, 1, PLAIN, 300, 0, *right), tank(50, 1, PLAIN, 601, 0, [], []),
        tank(50, 2, PLAIN, 300, 0, [], []), tank(50, 2, PLAIN, 601, 0, [], []),
    )


def visited_refusals(rng: Random, session: Session) -> Lines:
    """Rooms and tanks that name a space of each level, accepted and refused with each number, on a full sheet too."""
    yield "# Visited: by rooms and tanks that are accepted and refused with each number, in a space of each level"
    yield from (*two_chains(), *LOOK)
    pairs = (*zip(IN_UNDER_DECK, IN_EXEMPT), (4, 4))
    for plain, exempt in pairs:
        yield from rooms_of_other_causes(plain, exempt)
    for within in (*IN_UNDER_DECK[1:], 3, 4):
        yield from tanks_in_no_under_deck(within)
    for full in (False, True):
        if full:
            yield from (room(id, 1) for id in range(100, 100 + s.PLACES - len(session.sheet.spaces)))
        for line in (*(line for pair in pairs for line in rooms_of_each_number(*pair)), *tanks_in_under_decks()):
            yield from tried(session, line)
        yield from ("counts", "report 0")


def visited_none(rng: Random, session: Session) -> Lines:
    """None where the enclosing id isn't standing, by other kinds that name a space of level 8, on a sheet not open."""
    yield "# Visited: none, where the enclosing id isn't standing"
    yield from two_chains()
    for within in (0, 18, 50, 10_000, 65_537, 65_552):  # the last two would wrap to 1 and 16
        yield from (room(50, within), room(2, within, 1, NO_STANDING), enter(50, within, R, EXEMPT, 1, [], [1]))
        yield from (room(2, within), tank(50, within, PLAIN, 9, 0, [], []), tank(2, within, PLAIN, 9, 0, [], []))
    yield "# Visited: none by other kinds, and by what is none"
    others = ((U, 600, *WITH_AREA), (B, 1200, [9] * 7, [9] * 7), (S, 300, [9] * 3, [9] * 3), (H, 9, [9], [9]))
    for kind, length, heights, breadths in others:
        for id, standing, more in ((50, PLAIN, []), (50, PLAIN, [9]), (2, PLAIN, []), (50, DEDUCTED, [])):
            yield from tried(session, enter(id, 17, kind, standing, length, heights, [*breadths, *more]))
    yield from (enter(50, 17, kind, PLAIN, 1, [1], [1]) for kind in (0, 6, 255, 261, 2**64 - 1))
    yield "# Visited: none on a sheet not open, whatever stood on the one before"
    yield from ("open 99", *(room(50, within) for within in IN_UNDER_DECK), room(0, 0, 0, NO_STANDING))
    yield from (*tanks_in_under_decks(), *tanks_in_no_under_deck(17), *LOOK)


def visited_and_changed(rng: Random, session: Session) -> Lines:
    """Undo, redo, marks and withdrawals: what stands counts, with refused rooms in between that change nothing."""
    yield "# Visited: rooms inside one another undone and made again, one by one"
    yield from (*a_thousand(), *chain(1, 11, 7, 40))
    for id in range(17, 11, -1):
        yield from ("undo", room(0, id), room(0, id - 1), tank(0, id - 1, PLAIN, 9, 0, [], []))
    for id in range(12, 18):
        yield from ("redo", room(0, id), tank(0, id, PLAIN, 9, 0, [], []))
    yield from (room(0, 1), *LOOK, room(18, 17), "redo", *(withdraw(id) for id in range(17, 10, -1)))
    for id in range(11, 18):
        yield from ("undo", room(0, id))
    yield "# Visited: after marks and withdrawals, and where an id is entered again at another level"
    yield from (mark(14, EXEMPT), room(0, 17), room(50, 17), room(50, 16, 0, EXEMPT))
    yield from tried(session, room(50, 16))
    for within in (2, 12, 14, 15):
        yield from (withdraw(17), room(50, 17), "undo", room(50, 17), withdraw(17), room(17, within), room(0, 17))
        yield from ("undo", room(0, 17), "undo", room(0, 17), "redo", "redo", room(0, 17), "undo", "undo")
    yield "# Visited: below a tank"
    yield from (tank_of_a_thousand(31, 2, 300, 0, 1200, 500), *chain(31, 32, 6, 10), room(38, 37), room(0, 37), *LOOK)
    yield from (*(tank(50, id, PLAIN, 9, 0, [], []) for id in range(31, 38)), withdraw(37), room(0, 37), room(0, 36))


def visited_and_files(rng: Random, session: Session) -> Lines:
    """On a sheet that was read, in either form: rooms and tanks in a space of each level, accepted and refused."""
    for form in FORMS:
        yield f"# Visited: on a sheet read in form {form}"
        yield from (*a_thousand(), *chain(1, 11, 7, 40))
        yield from (read(dayfile.bytes_of(form, session.sheet, s.NOT_MARKED)), *LOOK, room(50, 77), room(50, 17))
        for within in IN_UNDER_DECK:
            yield from tried(session, room(50, within))
            yield from (room(0, within), room(50, within, 9999), tank(50, within, PLAIN, 9, 0, [], []))
        yield from (withdraw(17), room(50, 17), room(50, 16), room(51, 50), "undo", "undo", room(50, 17), *LOOK)


# Lines that are no calls, for each remark
MALFORMED = (
    "", "#", "# open 1200", " ", " undo", "Undo", "UNDO", "undo\t", "undo\r", "open\t1200", "close", "reports 0", "0",
    "?", "-", "enter,1", " # open 1200", "\topen 1200", "counts#",
    "open", "open 1200 12 12", "open  1200", "open 1200 ", "undo ", "undo 1", "redo 0", "counts 0", "counts ",
    "spaces 1", "report", "report 0 0", "report  ", "withdraw", "withdraw 1 2", "mark 1", "mark 1 0 0", "mark 1 0 ",
    "mark", "enter 9 0 4 0 10 5", "enter 9 0 4 0 10 5 5 2 2 5 5", "enter", "enter 9 0 4 0 10  5 5",
    "enter 9 0 4 0 10 5 ,5 ", "enter ",
    "open x", "open ", "open -1", "open +1200", "open 1200.0", "open 1e3", "open 0x4b0", "open 1_200", "open 12,00",
    "open -", "report -", "report ", "report 0x0", "withdraw a", "withdraw -1", "mark x 0", "mark 1 y", "mark 1 -",
    "mark  0", "enter x 0 4 0 10 5 5", "enter 9 x 4 0 10 5 5", "enter 9 - 4 0 10 5 5", "enter 9 0 H 0 10 5 5",
    "enter 9 0 4 plain 10 5 5", "enter 9 0 4 0 ten 5 5", "enter 9 0 4 0 10 x 5", "enter 9 0 4 0 10 5 x",
    "enter 9 0 4 0 10 5, 5", "enter 9 0 4 0 10 ,5 5", "enter 9 0 4 0 10 5 5,,5", "enter 9 0 4 0 10 , 5",
    "enter 9 0 4 0 10 -- 5", "enter 9 0 4 0 10 5 -,5", "enter 9 0 4 0 10 5 5,-", "enter 9 0 4 0 10  5",
    "open 18446744073709551616", "open 99999999999999999999", "open 100000000000000000000", "open 1" + "0" * 500,
    "report 18446744073709551616", "withdraw 018446744073709551616", "mark 18446744073709551616 0",
    "mark 1 18446744073709551616", "enter 18446744073709551616 0 4 0 10 5 5", "enter 9 18446744073709551616 4 0 10 5 5",
    "enter 9 0 18446744073709551616 0 10 5 5", "enter 9 0 4 18446744073709551616 10 5 5",
    "enter 9 0 4 0 18446744073709551616 5 5", "enter 9 0 4 0 10 18446744073709551616 5",
    "enter 9 0 4 0 10 5 5,18446744073709551616",
    enter(9, 0, H, 0, 10, [5] * (MOST_NUMBERS + 1), [5]), enter(9, 0, H, 0, 10, [5], [5] * (MOST_NUMBERS + 1)),
    "enter 9 0 4 0 10 5 5 ", "enter 9 0 4 0 10 5 5 x",
    "enter 9 0 4 0 10 5 5 x 2", "enter 9 0 4 0 10 5 5 2 x", "enter 9 0 4 0 10 5 5 - 2", "enter 9 0 4 0 10 5 5 2 -",
    "enter 9 0 4 0 10 5 5 2,2 2", "enter 9 0 4 0 10 5 5  2", "enter 9 0 4 0 10 5 5 2 ", "enter 9 0 4 0 10 5 5  ",
    "enter 9 0 4 0 10 5 5 -1 2", "enter 9 0 4 0 10 5 5 18446744073709551616 2",
    "enter 9 0 4 0 10 5 5 2 18446744073709551616",
    # the first remark that fits, from left to right
    "opne", "opne x", "open x x", "open 18446744073709551616 x", "mark x 18446744073709551616",
    "mark 18446744073709551616 x", "enter 9 0 4 0 10 18446744073709551616,x 5",
    "enter 9 0 4 0 10 x,18446744073709551616 5",
    "enter 9 0 4 0 10 5 x 18446744073709551616 2", "enter 9 0 4 0 10 5 18446744073709551616 x 2",
    "enter 9 0 4 0 10 5 5 x 18446744073709551616", "enter 9 0 4 0 10 5 5 18446744073709551616 x",
    "enter 9 0 4 0 10 x " + word([5] * (MOST_NUMBERS + 1)), "enter 9 0 4 0 10 5" + ",x" * MOST_NUMBERS + " 5",
    "enter 9 0 4 0 10 5 " + "," * MOST_NUMBERS, "enter 9 0 4 0 10 5 " + "," * (MOST_NUMBERS - 1),
    # the calls on files
    "write", "write 0 0", "write 0 0 0 1 1", "write 0 0 0 ", "writef 0 0 0", "writef 0 0 0 0 1 1", "read", "read 00 00",
    "read 00 ", "write x 0 0", "write 0 x 0", "write 0 - 0", "write 0 0 x", "write 0 0 ", "write 0 0 -", "write 0 -1 0",
    "write 0 0 0x4", "writef x 0 0 0", "writef 0 x 0 0", "writef 0 0 x 0", "writef 0 0 0 x", "writef 0 0 0 ff",
    "writef 0 0 0 -", "write 18446744073709551616 0 0", "write 0 18446744073709551616 0",
    "write 0 0 18446744073709551616", "writef 18446744073709551616 0 0 0", "writef 0 18446744073709551616 0 0",
    "writef 0 0 18446744073709551616 0", "writef 0 0 0 18446744073709551616", "write 0 0 65537", "write 9 9 65537",
    "write 0 0 4294967296", "write 0 0 18446744073709551615", "writef 0 0 65537 0", "writef 0 0 0 256",
    "writef 0 0 0 257", "writef 0 0 0 18446744073709551615", "writef 0 0 65537 256", "writef 0 0 65537 x",
    "writef 0 0 x 256", "writef 0 x 65537 256", "writef 0 0 4 00256", "write 0 0 0065537", "read ", "read 0",
    "read 000", "read 0g", "read g0", "read 0A", "read FF", "read 0x", "read 0x00", "read --", "read -0", "read 0-",
    "before", "before 0", "before 00", "before 0 00 00", "before 0 00 ", "before  00", "before x 00", "before - 00",
    "before 00 ",
    "before 0 0", "before 0 0g", "before 0 --", "before 18446744073709551616 00", "before 18446744073709551616 0g",
    # tanks and zones
    "tank", "tank 9 1 0 10 0 5", "tank 9 1 0 10 0 5 5 5 5", "tank 9 1 0 10 0 5 5 ", "Tank 9 1 0 10 0 5 5",
    "tank x 1 0 10 0 5 5", "tank 9 - 0 10 0 5 5", "tank 9 1 x 10 0 5 5", "tank 9 1 0 x 0 5 5", "tank 9 1 0 10 -1 5 5",
    "tank 9 1 0 10 - 5 5", "tank 9 1 0 10 0 5, 5", "tank 9 1 0 10 0 5 x", "tank 9 1 0 10  5 5",
    "tank 9 1 0 10 18446744073709551616 5 5", "tank 9 1 0 10 0 18446744073709551616 5",
    "tank 9 1 0 10 0 5 18446744073709551616",
    "tank 9 1 0 10 0 5 " + "," * MOST_NUMBERS,
    "zones", "zones 4800 4800 800", "zones 4800 4800 800 0 0", "zones 4800 4800 800 0 ", "zone 4800 4800 800 0",
    "zones x 4800 800 0", "zones 4800 - 800 0", "zones 4800 4800 8,0 0", "zones 4800 4800 800 -",
    "zones 4800 4800 800 -1",
    "zones 18446744073709551616 4800 800 0", "zones 4800 4800 800 18446744073709551616",
    # decks, vessel numbers, forms and moves
    "open 1200 4294967296", "open 1200 04294967296", "open 99 4294967297", "open 1200 18446744073709551615",
    "open 1200 18446744073709551616", "open 1200 x", "open 1200 -", "open 1200 -1", "open 1200 1,2", "open 1200 1 ",
    "open 1200  1", "open x 4294967296", "open 18446744073709551616 4294967296", "open 4294967296 4294967296",
    "open 1200 x x", "open  7",
    "enter 9 0 4 0 10 5 5 -", "enter 9 0 4 0 10 5 5 -1", "enter 9 0 4 0 10 5 5 1,2",
    "enter 9 0 4 0 10 5 5 18446744073709551616", "enter 9 0 4 0 10 5 5 2 2 x", "enter 9 0 4 0 10 5 5 2 2 ",
    "enter 9 0 4 0 10 5 5 2 2 -", "enter 9 0 4 0 10 5 5 2 2 18446744073709551616", "enter 9 0 4 0 10 5 5 2 x 2",
    "enter 9 0 4 0 10 5 5 x 2 18446744073709551616", "enter 9 0 4 0 10 5 5 2 2 2 ", "enter 9 0 4 0 10 5 5 2 2 2 x",
    "enter 9 0 4 0 10 5 x 18446744073709551616", "enter 9 0 1 0 10 5 5 2 2 2 2",
    "tank 9 1 0 10 0 5 5 x", "tank 9 1 0 10 0 5 5 -", "tank 9 1 0 10 0 5 5 18446744073709551616",
    "tank 9 1 0 10 0 5 5 1 ", "tank 9 1 0 10 0 5 5 2 2", "tank 9 1 0 10 0 5 x 18446744073709551616",
    "write 0 0 0 x", "write 0 0 0 -", "write 0 0 0 2,2", "write 0 0 0 18446744073709551616", "write 0 0 65537 x",
    "write 0 0 65537 2", "write 0 0 x 18446744073709551616", "write 0 0 0 1 ", "write 0 0 0 2 2",
    "writef 0 0 0 0 x", "writef 0 0 0 0 ", "writef 0 0 0 0 -", "writef 0 0 0 0 18446744073709551616",
    "writef 0 0 0 256 x", "writef 0 0 0 256 2", "writef 0 0 65537 256 2", "writef 0 0 0 x 2", "writef 0 0 0 0 2 2",
    "move", "move 00", "move 00 1", "move 00 1 0", "move 00 1 0 0", "move 00 1 0 0 0 0", "move 00 1 0 0 0 ",
    "Move 00 1 0 0 0", "moves 00 1 0 0 0", "move  1 0 0 0", "move 0 1 0 0 0", "move 0g 1 0 0 0", "move 0A 1 0 0 0",
    "move -- 1 0 0 0",
    "move 0x00 1 0 0 0", "move 00 x 0 0 0", "move 00 - 0 0 0", "move 00  0 0 0", "move 00 1 x 0 0", "move 00 1 - 0 0",
    "move 00 1 0 x 0", "move 00 1 0 - 0", "move 00 1 0 0 x", "move 00 1 0 0 -", "move 00 1 0 0 ff",
    "move 00 18446744073709551616 0 0 0", "move 00 1 18446744073709551616 0 0", "move 00 1 0 18446744073709551616 0",
    "move 00 1 0 0 18446744073709551616", "move 00 1 0 65537 0", "move - 3 0 65537 0", "move 00 1 0 0 256",
    "move 00 1 0 65537 256", "move 00 1 0 65537 x", "move 00 1 0 x 256", "move 00 1 x 65537 256",
    "move 00 x 0 65537 256", "move 0g x 0 65537 256", "move 0 18446744073709551616 0 0 0", "move 0g 1 0 0 0 0",
    "move - 1 0 0 00256",
    # characters beside those of hex
    "before x 0", "read ,", "read 00,00", "read +0", "read 0.", "read 00\r", "read 0\t", "read 0:", "read `0",
    "read /0", "read @a",
)


def malformed(rng: Random, session: Session) -> Lines:
    """Lines that are no calls, on a sheet not open some of the shorter, and on one that stands; they change nothing."""
    yield "# Lines that are no calls"
    yield from ("open 99", *(line for line in MALFORMED[::3] if len(line) < 1_100), *LOOK)
    yield from (*a_thousand(), hatchway(5, 5), "undo", *MALFORMED, *LOOK_AND_REPORT, "redo", *LOOK)
    yield from ("read " + "x" * (MOST_DIGITS + 1), *LOOK)


# Calls at random

TONNAGE_LENGTHS = (1200, 1200, 1200, 600, 2000, 3000, 4800, 100, 1999, 5001, 1800, 3600, 7200)
OFF_IDS = (0, 10_000, 65_535, 65_536, 65_537, 2**64 - 1)
SIDES = ((1000, 1000), (500, 2000), (100, 10_000), (2500, 400), (20_000, 50))  # a length of n between them has n


def new_id(rng: Random, sheet: Sheet, most: int) -> int:
    """Mostly a free id up to the most, else one that stands or one out of range."""
    ids = [space.id for space in sheet.spaces]
    choice = rng.randrange(20)
    if choice == 0:
        return one_of(rng, OFF_IDS)
    if choice == 1 and ids:
        return one_of(rng, ids)
    id = rng.randint(1, most)
    while id in ids:
        id = rng.randint(1, most + len(ids))
    return id


def an_id(rng: Random, sheet: Sheet, most: int) -> int:
    """Mostly an id that stands."""
    if sheet.spaces and rng.randrange(12):
        return one_of(rng, [space.id for space in sheet.spaces])
    return one_of(rng, (rng.randint(1, most), one_of(rng, OFF_IDS)))


def a_standing(rng: Random, kind: int) -> int:
    """Mostly one that the kind can take, often not plain where it can."""
    if rng.randrange(40) == 0:
        return one_of(rng, BEYOND_8)
    if rng.randrange(12) == 0:
        return one_of(rng, s.STANDINGS)
    of_room = one_of(rng, (0, 0, 0, 1, 2, 2, 3, 4, 4))
    return {B: one_of(rng, (0, 0, 1)), S: one_of(rng, (0, 0, 1)), R: of_room}.get(kind, 0)


def outer_of(rng: Random, sheet: Sheet) -> s.Space | None:
    """A space for a room, often one of the deepest, now and then a hatchway."""
    outers = [space for space in sheet.spaces if space.kind != H or rng.randrange(8) == 0]
    if not outers:
        return None
    if rng.randrange(3) == 0:
        deepest = max(s.level(sheet.spaces, space) for space in outers)
        outers = [space for space in outers if s.level(sheet.spaces, space) == deepest]
    return one_of(rng, outers)


def left_in(sheet: Sheet, outer: s.Space) -> int:
    """What rooms can still take of a space's tonnage."""
    return outer.tonnage - s.tons(s.rooms(sheet.spaces, outer.id))


def of_tonnage(rng: Random, tonnage: int) -> tuple[int, list[int], list[int]]:
    """Length, height and breadth of an H or R of this tonnage."""
    if not 0 < tonnage <= m.GREATEST_LENGTH:
        return rng.randint(1, 9), [rng.randint(1, 99)], [rng.randint(1, 99)]
    height, breadth = SIDES[rng.randrange(len(SIDES))]
    return tonnage, [height], [breadth]


def a_room(rng: Random, sheet: Sheet, id: int, most: int) -> tuple[int, int, list[int], list[int]]:
    """An enclosing id, and measures that fill it, pass it by one or leave something."""
    outer = outer_of(rng, sheet)
    if outer is None or rng.randrange(12) == 0:
        return one_of(rng, (id, 0, an_id(rng, sheet, most), one_of(rng, OFF_IDS))), *of_tonnage(rng, 1)
    rest = left_in(sheet, outer)
    tonnage = one_of(rng, (0, rest, rest, rest + 1, rest // 2, rest * 2 // 3, rest // 3, rest // 3, 1))
    return outer.id, *of_tonnage(rng, tonnage)


def a_length(rng: Random, sheet: Sheet, kind: int) -> int:
    """A length in range, for a U about what is left of the tonnage length, for an S mostly one in two parts."""
    whole = sheet.length or 1200
    if kind == B:
        return one_of(rng, (whole, rng.randint(100, 6000)))
    if kind == S:
        return rng.randint(1, one_of(rng, (whole // 3, whole // 3, whole)))
    rest = whole - s.under_deck_length(sheet.spaces)
    lengths = [length for length in (rest, rest, rest + 1, rest - 100, 600, 100) if length >= 100]
    if rest > 300:
        lengths += [rng.randint(100, min(rest - 100, 2000))] * 2
        lengths += [36 * rng.randint(3, (rest - 100) // 36)] * 4  # its thirds of the interval are whole hundredths
    return one_of(rng, lengths)


def with_fault(rng: Random, values: list[int], beyond: int) -> list[int]:
    """The values with one too many, one too few or one out of range."""
    faulty = ([*values, values[0]], values[:-1], [*values[:-1], beyond], [*values, one_of(rng, BEYOND_32)])
    return faulty[rng.randrange(len(faulty))]


def with_end(rng: Random, heights: list[int], breadths: list[int], station: int) -> tuple[list[int], list[int]]:
    """The measures of a U with no area at a station, by its depth or its breadths; now and then the least there is."""
    row = len(breadths) // len(heights)
    own, nothing = breadths[station * row:][:row], [0] * row
    next_to_none = NEXT_TO_NO_DEPTH[row - 1]
    ends = (
        (0, own), (0, own), (next_to_none, own), (rng.randint(0, next_to_none), own), (heights[station], nothing),
        (heights[station], nothing), (rng.randint(0, 9), nothing), (next_to_none + 1, own),
        (heights[station], figures.changed(nothing, rng.randrange(row), 1)),
    )
    return with_station(heights, breadths, station, *ends[rng.randrange(len(ends))])


def with_ends(rng: Random, heights: list[int], breadths: list[int]) -> tuple[list[int], list[int], Ends]:
    """A U and what is said of its ends: mostly what it may be, else a pointed end that has area or no end's number."""
    ends = [one_of(rng, (INNER, UPRIGHT, UPRIGHT, POINTED, POINTED)) for _ in range(2)]
    for end, station in zip(ends, (0, len(heights) - 1)):
        if end == POINTED and rng.randrange(5):
            heights, breadths = with_end(rng, heights, breadths, station)
    fault = rng.randrange(30)
    if fault == 0:
        return heights, breadths, ()
    if fault < 3:
        ends[rng.randrange(2)] = one_of(rng, (NOT_SAID, *BEYOND_ENDS))
    return heights, breadths, tuple(ends)


def unread_ends(rng: Random) -> Ends | None:
    """Any two numbers or none, where they aren't read."""
    return tuple(one_of(rng, (NOT_SAID, *s.ENDS, *BEYOND_ENDS)) for _ in range(2)) if rng.randrange(3) == 0 else None


def a_vessel(rng: Random) -> int | None:
    """A vessel number, half of the time none or left out."""
    return one_of(rng, (None, None, 0, 1, GREATEST_VESSEL, rng.randrange(2**32)))


def a_deck(rng: Random, sheet: Sheet) -> int | None:
    """A deck, mostly in its range, now and then beyond; on a sheet without a vessel number mostly left out."""
    if rng.randrange(30) == 0:
        return one_of(rng, BEYOND_DECKS)
    if rng.randrange(2 if sheet.vessel else 20):
        return one_of(rng, (None, None, s.NO_DECK))
    return one_of(rng, (1, 99, rng.randrange(100)))


def a_form(rng: Random) -> int | None:
    """A form, now and then left out or none."""
    return one_of(rng, (None, FORM_1, FORM_1, FORM_2, FORM_2, FORM_2, one_of(rng, BEYOND_FORMS)))


def entering(rng: Random, sheet: Sheet, most: int) -> Lines:
    """An entry of any kind, a U more likely while one is wanted."""
    short = s.under_deck_length(sheet.spaces) < sheet.length
    kind = U if short and rng.randrange(3) == 0 else one_of(rng, (U, B, S, S, H, H, *[R] * 12))
    yield an_entry(rng, sheet, most, kind)


def under_decking(rng: Random, sheet: Sheet, most: int) -> Lines:
    """An entry of a U; where no length is left for it, one that encloses nothing is mostly withdrawn before."""
    free = [space.id for space in sheet.spaces if space.kind == U and not s.rooms(sheet.spaces, space.id)]
    left = sheet.length - s.under_deck_length(sheet.spaces)
    if left < m.LEAST_LENGTH[U] and free and rng.randrange(6):
        yield withdraw(one_of(rng, free))
    else:
        yield an_entry(rng, sheet, most, U)


def an_entry(rng: Random, sheet: Sheet, most: int, kind: int) -> str:
    """An entry of a kind, with a fault now and then."""
    id = new_id(rng, sheet, most)
    within = one_of(rng, (0, an_id(rng, sheet, most)))
    if kind == R:
        within, length, heights, breadths = a_room(rng, sheet, id, most)
    elif kind == H:
        length, heights, breadths = of_tonnage(rng, rng.randint(0, 30))
    else:
        length = a_length(rng, sheet, kind)
        middle = one_of(rng, (1600, 1601, 1900)) if kind == U and rng.randrange(3) == 0 else None
        space = figures.asked(rng, kind, sheet.length or 1200, length, one_of(rng, (99, 999, 1999)), middle)
        heights, breadths = list(space.heights), list(space.breadths)
    ends = unread_ends(rng)
    if kind == U:
        heights, breadths, ends = with_ends(rng, heights, breadths)
    fault = rng.randrange(60)
    if fault == 0:
        heights = with_fault(rng, heights, 20_001)
    elif fault == 1:
        breadths = with_fault(rng, breadths, 30_001)
    elif fault == 2:
        length = one_of(rng, (0, 150_001, *BEYOND_32))
    elif fault == 3:
        kind = one_of(rng, (0, 6, *BEYOND_8))
    return enter(id, within, kind, a_standing(rng, kind), length, heights, breadths, ends, a_deck(rng, sheet))


def installing(rng: Random, sheet: Sheet, most: int) -> Lines:
    """A room with which machinery is at an edge of its classes, or deductions are about the gross; and a report."""
    gross, others, own = s.gross(sheet.spaces), s.d(sheet.spaces), s.machinery(sheet.spaces)
    standing, tonnage = one_of(rng, (
        (MACHINERY, one_of(rng, files.edges_of_classes(gross)) - own),
        (MACHINERY, 4 * (gross - others) // 7 - own + rng.randint(-1, 2)),
        (DEDUCTED, s.net(sheet.spaces) + rng.randint(-1, 1)),
    ))
    outers = [space for space in sheet.spaces if space.kind != H and left_in(sheet, space) >= tonnage]
    if outers:
        measures, deck = of_tonnage(rng, max(tonnage, 0)), a_deck(rng, sheet)
        yield enter(new_id(rng, sheet, most), one_of(rng, outers).id, R, standing, *measures, deck=deck)
        yield "report 1"


def ends_of_tank(rng: Random, tonnage_length: int, under_deck_length: int) -> tuple[int, int]:
    """A tank's length and fore end in a U, often with stations between two zones or a hundredth off that."""
    length = rng.randint(1, under_deck_length)
    thirds = m.THIRDS * m.parts_of_under_deck(tonnage_length, under_deck_length)
    choice = rng.randrange(9)
    if choice == 0:
        return under_deck_length, 0
    if choice == 1:
        return length, one_of(rng, (0, under_deck_length - length))
    if choice == 2:
        return length, rng.randint(0, under_deck_length - length)
    if choice < 6 and under_deck_length % thirds == 0:  # in whole thirds of the interval, for several at once
        own = one_of(rng, [one for one in (2, 4, 6, 8, *range(12, thirds, 6)) if one <= thirds])
        fore = one_of(rng, [one for one in range(thirds - own + 1) if one % 6 in (1, 5)] or [0])
        third = under_deck_length // thirds
        return own * third, fore * third
    length, fore = a_meeting(rng, tonnage_length, under_deck_length)
    return length, min(max(fore + one_of(rng, (0, 0, 0, 0, -1, 1)), 0), under_deck_length - length)


def sections_that_fit(rng: Random, sheet: Sheet, within: int, length: int, fore: int) -> tuple[list[int], list[int]]:
    """Depths and breadths as asked, as large as the U has tonnage left for them; now and then larger."""
    under_deck = s.find(sheet.spaces, within)
    rest = left_in(sheet, under_deck)
    count, row = sections(sheet, within, length, fore)
    for most in (1999, 499, 99, 9):
        depths, breadths = some(rng, count, 0, most), some(rng, count * row, 0, most)
        volume = m.volume_of_tank(sheet.length, under_deck.length, row - 1, length, fore, depths, breadths)
        if m.tonnage(volume) <= rest or rng.randrange(12) == 0:
            break
    return depths, breadths


def entered_anew(rng: Random, sheet: Sheet) -> Lines:
    """A U without m in which no room stands, withdrawn and entered anew."""
    for space in sheet.spaces:
        if space.kind == U and space.m == s.NO_M and not s.rooms(sheet.spaces, space.id):
            new = figures.asked(rng, U, sheet.length, space.length, 999, one_of(rng, (900, 1900)))
            measures = with_ends(rng, list(new.heights), list(new.breadths))
            deck = one_of(rng, (None, space.deck))
            yield from (withdraw(space.id), enter(space.id, 0, U, PLAIN, new.length, *measures, deck))
            return


def tank_elsewhere(rng: Random, sheet: Sheet, most: int) -> Lines:
    """A tank in any space or in none that stands."""
    id = new_id(rng, sheet, most)
    within = one_of(rng, (id, 0, an_id(rng, sheet, most), an_id(rng, sheet, most), one_of(rng, OFF_IDS)))
    depths, breadths = some(rng, 3, 0, 99), some(rng, 15, 0, 99)
    length, deck = rng.randint(1, 600), a_deck(rng, sheet)
    yield tank(id, within, a_standing(rng, R), length, rng.randint(0, 9), depths, breadths, deck)


def tanking(rng: Random, sheet: Sheet, most: int) -> Lines:
    """A tank, mostly as it should be in a U with m; where there is no such U, one without may be entered anew."""
    with_m = [space for space in sheet.spaces if space.m]
    without_m = [space for space in sheet.spaces if space.kind == U and not space.m]
    if rng.randrange(25 if with_m or without_m else 3) == 0:
        yield from tank_elsewhere(rng, sheet, most)
    elif with_m and not (without_m and rng.randrange(5) == 0):
        yield from tank_within(rng, sheet, most, with_m[rng.randrange(len(with_m))])
    elif without_m and rng.randrange(3) == 0:
        yield from tank_within(rng, sheet, most, without_m[rng.randrange(len(without_m))])
    elif rng.randrange(3):
        yield from entered_anew(rng, sheet)


def tank_within(rng: Random, sheet: Sheet, most: int, own: s.Space) -> Lines:
    """A tank in this U, with a fault now and then."""
    id, standing = new_id(rng, sheet, most), a_standing(rng, R)
    length, fore = ends_of_tank(rng, sheet.length, own.length)
    depths, breadths = sections_that_fit(rng, sheet, own.id, length, fore)
    fault = rng.randrange(40)
    if fault == 0:
        depths = with_fault(rng, depths, 20_001)
    elif fault == 1:
        breadths = with_fault(rng, breadths, 30_001)
    elif fault == 2:
        length = one_of(rng, (0, 150_001, own.length - fore + 1, own.length + 1, *BEYOND_32))
    elif fault == 3:
        fore = one_of(rng, (150_001, own.length - length + 1, own.length, fore + 1, *BEYOND_32))
    elif fault == 4:
        depths, breadths = [*depths, 9], [*breadths, *breadths[:len(breadths) // len(depths)]]
    yield tank(id, own.id, standing, length, fore, depths, breadths, a_deck(rng, sheet))


def zoning(rng: Random, sheet: Sheet, most: int) -> Lines:
    """Where to measure a tank, in a U of any length, in range nearly always."""
    length = rng.randint(100, one_of(rng, (2000, 6000, 30_000, 150_000)))
    tonnage_length = one_of(rng, (length, length, length + 1, 100, rng.randint(100, 150_000)))
    asked = [tonnage_length, length, *ends_of_tank(rng, tonnage_length, length)]
    if rng.randrange(8) == 0:
        asked[rng.randrange(4)] += one_of(rng, (1, 100, 150_000, *BEYOND_32))
    yield call("zones", *(min(one, 2**64 - 1) for one in asked))


def withdrawing(rng: Random, sheet: Sheet, most: int) -> Lines:
    """A withdrawal, half of the time of a space that encloses no room; now and then undone at once."""
    free = [space.id for space in sheet.spaces if not s.rooms(sheet.spaces, space.id)]
    yield withdraw(one_of(rng, free) if free and rng.randrange(2) else an_id(rng, sheet, most))
    if rng.randrange(4) == 0:
        yield from ("undo", "counts")


def marking(rng: Random, sheet: Sheet, most: int) -> Lines:
    """A mark, mostly of a room or another that can be other than plain."""
    able = [space for space in sheet.spaces if space.kind in (B, S, R)]
    if able and rng.randrange(6):
        space = able[rng.randrange(len(able))]
        yield mark(space.id, a_standing(rng, space.kind))
    else:
        yield mark(an_id(rng, sheet, most), one_of(rng, (0, 0, *s.NOT_PLAIN, NO_STANDING)))


def undoing(rng: Random, sheet: Sheet, most: int) -> Lines:
    """Undos, now and then all that can be and one more; half of the time some of them made again at once."""
    times = one_of(rng, (1, 1, 1, 2, 2, 3, 5, 8, 20, len(sheet.earlier) + 1))
    yield from ["undo"] * times
    if rng.randrange(2) == 0:
        yield from ("spaces", *["redo"] * rng.randint(1, times), "counts")


def redoing(rng: Random, sheet: Sheet, most: int) -> Lines:
    """Redos, all that can be and one more now and then."""
    yield from ["redo"] * one_of(rng, (1, min(len(sheet.later), 3), len(sheet.later), len(sheet.later) + 1))
    if rng.randrange(3) == 0:
        yield "spaces"


def reporting(rng: Random, sheet: Sheet, most: int) -> Lines:
    """A report, mostly not justified, or both ways."""
    yield from (("report 0",), ("report 0", "report 1"), ("report 1",), ("report 0",))[rng.randrange(4)]
    if rng.randrange(20) == 0:
        yield f"report {one_of(rng, (2, *BEYOND_8))}"


def writing(rng: Random, sheet: Sheet, most: int) -> Lines:
    """A write into a buffer of about the size that it needs in its form, where the sheet is small."""
    if len(sheet.spaces) <= FEW_SPACES:
        at, more, form = one_of(rng, (0, 0, 1, 5, 29)), one_of(rng, (0, 0, 1, 7, -1, -1)), a_form(rng)
        size = at + dayfile.distance(form if form in FORMS else FORM_1, len(sheet.spaces)) + more
        yield writef(one_of(rng, (0, 0, 1, 2)), at, size, one_of(rng, (0, 255)), form)


def can_be_written(sheet: Sheet, form: int, most: int) -> bool:
    """Whether a marked write in this form is accepted where there is room, and the sheet has no more spaces than so."""
    few = len(sheet.spaces) <= most
    return few and not s.numbers_of_report(sheet, s.JUSTIFIED) and not dayfile.would_lose(sheet, form)


def rereading(rng: Random, sheet: Sheet, most: int) -> Lines:
    """A small sheet that can be written is read back, which ends its open changes."""
    form = one_of(rng, tuple(FORMS))
    if can_be_written(sheet, form, FEW_SPACES):
        file = dayfile.bytes_of(form, sheet, s.JUSTIFIED)
        yield from (one_of(rng, (read(file), before(len(file), file + b"\0" * rng.randrange(3)))), *LOOK)


def a_file_to_move(rng: Random, sheet: Sheet) -> bytes:
    """A file in either form: mostly the current sheet's, where that is small and can be written, else any small one.

    Of those every third has machinery, perhaps with deductions over its gross.
    """
    form = one_of(rng, tuple(FORMS))
    if can_be_written(sheet, form, MOVED_SPACES) and rng.randrange(4):
        return dayfile.bytes_of(form, sheet, s.JUSTIFIED)
    return one_of(rng, (files.a_small_file, files.a_small_file, files.any_machinery))(rng, form)


def damaged(rng: Random, file: bytes) -> bytes:
    """A file with a bit the other way, often near its end or that of its mark, with a byte less or with a byte more."""
    place = rng.randrange(len(file))
    bit = 8 * one_of(rng, (place, max(place, len(file) - 32))) + rng.randrange(8)
    of_mark = 8 * (len(file) - dayfile.TRAILER.size + MARK_IN_A_TRAILER)
    return one_of(rng, (
        files.flipped(file, bit), files.flipped(file, bit), files.flipped(file, of_mark),
        file[:place] + file[place + 1:], file[:place] + b"\2" + file[place:],
    ))


def moving(rng: Random, sheet: Sheet, most: int) -> Lines:
    """A move of a file, in order or damaged, into a buffer of about the size that it needs; or a read of that file."""
    file = a_file_to_move(rng, sheet)
    count, form = dayfile.last_trailer(file).count, a_form(rng)
    form = FORM_2 if form is None else form
    if rng.randrange(3) == 0:
        file = damaged(rng, file)
    if rng.randrange(5) == 0:
        file = a_file_to_move(rng, sheet) + file
    at, more = one_of(rng, (0, 0, 0, 1, 5, 29)), one_of(rng, (0, 0, 1, 7, -1, -1))
    size = at + dayfile.distance(form if form in FORMS else FORM_2, count) + more
    yield move(file, form, at if rng.randrange(12) else one_of(rng, FAR), size, one_of(rng, (0, 255)))
    if rng.randrange(8) == 0:
        yield from (read(file), "spaces")


def looking(rng: Random, sheet: Sheet, most: int) -> Lines:
    """The counts, and the spaces where they aren't many."""
    yield "counts"
    if len(sheet.spaces) <= 40 or rng.randrange(25) == 0:
        yield "spaces"


def saying_nothing(rng: Random, sheet: Sheet, most: int) -> Lines:
    """A short line that is no call."""
    short = [line for line in MALFORMED if line and line[0] != "#" and len(line) < 60]
    yield short[rng.randrange(len(short))]


ACTIONS: tuple[Callable[[Random, Sheet, int], Lines], ...] = (
    (entering,) * 16 + (tanking,) * 5 + (installing,) * 2 + (withdrawing,) * 3 + (marking,) * 6 + (undoing,) * 2
    + (redoing,) + (reporting,) * 3 + (writing,) * 2 + (rereading,) + (moving,) + (looking,) * 4 + (zoning,)
    + (saying_nothing,)
)
BURST = (entering,) * 8 + (tanking,) * 2 + (marking, looking)


def walk(rng: Random, session: Session, most: int, actions: int) -> Lines:
    """That many actions at random; ids are mostly up to the most. Stretches of entries let the sheet grow."""
    for number in range(actions):
        choices = BURST if number % 40 < 15 else ACTIONS
        yield from choices[rng.randrange(len(choices))](rng, session.sheet, most)


TANKS = (tanking,) * 10 + (entering, marking, withdrawing, undoing, redoing, reporting, looking, zoning)


def a_large_one(rng: Random, id: int, tonnage_length: int, length: int, deck: int | None) -> str:
    """The entry of a U of one depth and one breadth, but for the depth at its pointed ends, if it has some."""
    depth = one_of(rng, (1600, 1601))
    space = figures.uniform(U, tonnage_length, length, depth, 2000)
    heights, ends = list(space.heights), tuple(one_of(rng, (INNER, UPRIGHT, UPRIGHT, POINTED)) for _ in range(2))
    for end, station in zip(ends, (0, -1)):
        if end == POINTED:
            heights[station] = rng.randint(0, NEXT_TO_NO_DEPTH[m.parts_of_depth(depth)])
    return enter(id, 0, U, PLAIN, length, heights, space.breadths, ends, deck)


def tank_walk(rng: Random, session: Session) -> Lines:
    """Mostly tanks, on a sheet of large U whose thirds of the interval are mostly whole hundredths."""
    lengths = [36 * rng.randint(3, one_of(rng, (30, 120, 240))) for _ in range(one_of(rng, (1, 1, 2, 3)))]
    yield opening(sum(lengths), a_vessel(rng))
    for id, length in enumerate(lengths, start=1):
        yield a_large_one(rng, id, sum(lengths), length, one_of(rng, (None, None, rng.randrange(100))))
    for _ in range(rng.randint(15, 40)):
        yield from TANKS[rng.randrange(len(TANKS))](rng, session.sheet, 30)
    yield from LOOK_AND_REPORT


def of_any_class(rng: Random) -> int:
    """A length of a class of the table or over 300 ft, each as likely."""
    shortest = one_of(rng, (100, 5001, 10_001, 15_001, 20_001, 25_001, 30_001))
    return rng.randint(shortest, shortest + 4899)


def dividing(rng: Random, sheet: Sheet, most: int) -> Lines:
    """An entry of a U, B or S of any length and any depths, narrow all through; a U where a length is left for it."""
    left = sheet.length - s.under_deck_length(sheet.spaces)
    kind = one_of(rng, (U, U, B, S) if left >= m.LEAST_LENGTH[U] else (B, S))
    length = of_any_class(rng)
    if kind == U:
        short = rng.randint(m.LEAST_LENGTH[U], min(left, m.FOUR_PARTS_UNDER))
        length = one_of(rng, (left, left, min(length, left), short))
    heights = some(rng, m.heights_asked(kind, sheet.length, length), 0, one_of(rng, (1600, 3200)))
    breadths = some(rng, m.breadths_asked(kind, heights), 0, 9)
    measures = with_ends(rng, heights, breadths) if kind == U else (heights, breadths)
    id, standing, deck = new_id(rng, sheet, most), a_standing(rng, kind), a_deck(rng, sheet)
    yield enter(id, 0, kind, standing, length, *measures, deck=deck)


DIVISIONS = (dividing,) * 10 + (withdrawing, undoing, redoing)


def dividing_walk(rng: Random, session: Session) -> Lines:
    """Mostly U, B and S, on sheets of all classes: roundings of all sorts, in every number of parts."""
    for _ in range(rng.randint(1, 4)):
        yield opening(of_any_class(rng), a_vessel(rng))
        for _ in range(rng.randint(2, 8)):
            yield from DIVISIONS[rng.randrange(len(DIVISIONS))](rng, session.sheet, 30)
        yield from LOOK_AND_REPORT


UNDER_DECKS = (under_decking,) * 10 + (entering, tanking, withdrawing, undoing, redoing, reporting, looking)


def under_deck_walk(rng: Random, session: Session) -> Lines:
    """Mostly U, with what is said of their ends."""
    yield opening(one_of(rng, (1200, 1200, 2000, 3000, 4800)), a_vessel(rng))
    for _ in range(rng.randint(15, 40)):
        yield from UNDER_DECKS[rng.randrange(len(UNDER_DECKS))](rng, session.sheet, 30)
    yield from LOOK_AND_REPORT


FILES = (writing,) * 4 + (moving,) * 4 + (rereading,) * 2
FILES += (entering, installing, marking, withdrawing, undoing, redoing, looking)


def file_walk(rng: Random, session: Session) -> Lines:
    """Mostly writes, moves and reads, of a sheet of a few spaces that can be written."""
    length = one_of(rng, (100, 1200, 2000, 4800))
    yield opening(length, a_vessel(rng))
    yield a_large_one(rng, 1, length, length, one_of(rng, (None, None, rng.randrange(100))))
    for id in range(2, rng.randint(2, 6)):
        deck = a_deck(rng, session.sheet)
        yield one_of(rng, (room(id, 1, 1, BALLAST, deck), hatchway(id, 20, deck)))
    for _ in range(rng.randint(10, 30)):
        yield from FILES[rng.randrange(len(FILES))](rng, session.sheet, 9)
    yield from LOOK_AND_REPORT


def deepening(rng: Random, sheet: Sheet, most: int) -> Lines:
    """A room, or now and then a tank, that names a space of any level, mostly one of the deepest; a fault now and then.

    Mostly it is plain, and leaves a tonnage for rooms inside it.
    """
    levels = {space.id: s.level(sheet.spaces, space) for space in sheet.spaces if space.kind != H}
    deepest = max(levels.values(), default=0)
    if deepest == 0:
        yield an_entry(rng, sheet, most, U)
        return
    own_level = one_of(rng, (deepest, deepest, rng.randint(1, deepest)))
    within = one_of(rng, [id for id, level in levels.items() if level == own_level])
    id, deck = new_id(rng, sheet, most), a_deck(rng, sheet)
    standing = a_standing(rng, R) if rng.randrange(3) == 0 else PLAIN
    if rng.randrange(8) == 0:
        yield tank(id, within, standing, rng.randint(1, 99), 0, some(rng, 3, 0, 99), some(rng, 15, 0, 99), deck)
        return
    rest = left_in(sheet, s.find(sheet.spaces, within))
    length, heights, breadths = of_tonnage(rng, one_of(rng, (0, rest, rest - 1, rest // 2, rest // 2, rest + 1)))
    if rng.randrange(20) == 0:
        heights = with_fault(rng, heights, 20_001)
    yield enter(id, within, R, standing, length, heights, breadths, unread_ends(rng), deck)


DEEP_ROOMS = (deepening,) * 14 + (installing, withdrawing, marking, undoing, redoing, rereading, looking)


def deep_walk(rng: Random, session: Session) -> Lines:
    """Mostly rooms inside one another, down to level 8 and refused below it."""
    length = one_of(rng, (100, 1200, 4800))
    yield opening(length, a_vessel(rng))
    yield a_large_one(rng, 1, length, length, one_of(rng, (None, None, rng.randrange(100))))
    for _ in range(rng.randint(20, 50)):
        yield from DEEP_ROOMS[rng.randrange(len(DEEP_ROOMS))](rng, session.sheet, 30)
    yield from LOOK_AND_REPORT


def walks(rng: Random, session: Session) -> Lines:
    """Walks without end, each on a sheet of its own, now and then with calls on a sheet not open before it."""
    while True:
        if rng.randrange(4) == 0:
            yield opening(one_of(rng, (99, 150_001, *BEYOND_32)), a_vessel(rng))
            yield from walk(rng, session, 9, 8)
        if rng.randrange(2) == 0:
            yield from tank_walk(rng, session)
        if rng.randrange(2) == 0:
            yield from under_deck_walk(rng, session)
        if rng.randrange(2) == 0:
            yield from file_walk(rng, session)
        yield from dividing_walk(rng, session)
        yield opening(one_of(rng, TONNAGE_LENGTHS), a_vessel(rng))
        yield from walk(rng, session, one_of(rng, (8, 30, 30, 300, 9_999)), rng.randint(60, 260))
        yield from LOOK_AND_REPORT
        yield from deep_walk(rng, session)


def crowded(rng: Random, session: Session) -> Lines:
    """A walk about the two hundredth space."""
    yield "# Calls at random on a crowded sheet"
    yield from twenty_thousand()
    for id in range(11, 11 + s.PLACES - 13):
        yield room(id, one_of(rng, (1, 2, 3, 3, max(id - 7, 1))) if id > 20 else 1, 0 if id % 3 else 20 - id % 20)
    yield from walk(rng, session, 400, 200)
    yield from LOOK_AND_REPORT


# Scripts

SECTIONS: tuple[Section, ...] = (
    not_open, openings, paper_sheet, hatchways, ballast, reports, kinds_by_standings, all_at_once, ranges, levels,
    sums_of_rooms, sums_of_lengths, two_hundred, sixty_four, redo_after, order_of_entry, ids_again, not_plain,
    writes, places_in_a_buffer, written_and_read, changes_after_a_read, generated_files, tank_figures, tank_refusals,
    tank_ranges, tank_sections, tanks_and_files, tanks_as_rooms, where_to_measure, pointed_figures, pointed_ends,
    pairs_of_ends, ends_said, pointed_refusals, pointed_and_changed, pointed_and_files, rounded_under_decks,
    rounded_levels, rounded_depths, not_rounded, decks, deck_refusals, decks_carried, vessels, forms_of_writes,
    numbers_lost, in_both_forms, days_of_both_forms, moves, refused_moves, machinery_figures, machinery_and_ballast,
    deductions_over, machinery_changed, machinery_above_and_below, machinery_and_files, visited_refusals, visited_none,
    visited_and_changed, visited_and_files, malformed, crowded,
)
SEEDS = range(69_107, 69_117)  # of the walks behind the sections
CALLS_OF_A_WALK = 110
MOST_UNSEEN = 10  # lines without a look at what they did
FEW_SPACES = 30  # so many that they are looked at then, written and read back
MOVED_SPACES = 8  # so many that they are moved
MARK_IN_A_TRAILER = 6  # the place of its byte, behind distance 4 and count 2
SMALL_FILE, LARGER_FILE = 120, 300  # bytes of a generated file; the larger it is, the fewer of them are read


def lines_of(section: Lines, session: Session) -> Lines:
    """The section's lines, each answered before the next is made; a look where there was none for a while."""
    unseen = 0
    for line in section:
        answer = session.answer(line)
        yield line
        looked = line.startswith(("counts", "spaces", "report ")) and answer[0] != "?"
        unseen = 0 if looked else unseen + (answer is not None)
        if unseen == MOST_UNSEEN:
            yield from ("counts", "report 0", *["spaces"] * (len(session.sheet.spaces) <= FEW_SPACES))
            unseen = 0


def script(seed: int, calls: int) -> str:
    """A script of that many calls at random, the same for the same seed."""
    session = Session()
    lines = [f"# {calls} calls at random, seed {seed}", *islice(lines_of(walks(Random(seed), session), session), calls)]
    return "".join(line + "\n" for line in lines)


def standard() -> str:
    """Every section of edges and some walks, the same every time."""
    rng, session = Random(69), Session()
    edges = (line + "\n" for section in SECTIONS for line in lines_of(section(rng, session), session))
    return "".join(edges) + "".join(script(seed, CALLS_OF_A_WALK) for seed in SEEDS)


def asked_for(arguments: list[str]) -> str | None:
    """The standard script, or one at random."""
    if not arguments:
        return standard()
    if len(arguments) == 2 and all(argument.isascii() and argument.isdigit() for argument in arguments):
        seed, calls = map(int, arguments)
        return script(seed, calls)
    return None


def main() -> int:
    """Prints what the arguments ask for."""
    return command_line.run("reference.scripts [SEED CALLS]", asked_for)


if __name__ == "__main__":
    sys.exit(main())
