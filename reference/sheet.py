"""The sheet of a survey and its changes, and gross and net, after the paper.

A sheet is a value that never changes: every call answers its number, its values and the sheet after it. What can be
undone and redone is kept as whole copies of the standing spaces, one for each open change.
Quoted sentences are the paper's, those on tanks the request T-01's, those on ends of a U T-02's, those on roundings
T-04's, those on deck and vessel numbers T-05's, those on machinery T-06's, those on spaces visited T-07's. Of all the
numbers of refusal that apply to a call the lowest is given; one that can't be judged (a level in an enclosing space
that doesn't stand, say) counts as not applying.
"""

from dataclasses import dataclass, replace
from typing import Iterable, Sequence

from reference import measure as m
from reference.measure import ACCEPTED, B, H, KINDS, OUT_OF_RANGE, R, S, U, WRONG_NUMBER

# Numbers of refusal (2 and 3 stand in measure.py).
SHEET_NOT_OPEN = 1
NEW_ID = 4  # new id outside its range or already standing
NOT_STANDING = 5  # id to withdraw or mark, or enclosing id, isn't standing
CANNOT_TAKE = 6  # kind can't take this standing, or the enclosing space is a hatchway
TOO_DEEP = 7  # level would pass 8
NOT_PLAIN_TWICE = 8  # not plain, and a space above or below isn't plain
WOULD_PASS = 9  # rooms would pass the enclosing tonnage, or U lengths the tonnage length
NO_PLACE = 10  # entry where 200 spaces stand
ENCLOSES = 11  # withdrawal of a space that encloses a room
NOTHING_OPEN = 12  # nothing undoable, or nothing redoable
LENGTHS_SHORT = 13  # U lengths don't add up to the tonnage length
NOT_JUSTIFIED = 14  # ballast over 30%, not justified
POINTED_WITH_AREA = 19  # U with a pointed end that has area; 'after all the others'
DEDUCTIONS_PASS = 21  # deductions pass gross
WITHOUT_M = 29  # tank in a U that has no m; 'after all the others'

# Standings, and 'which kind may have which standing is a table of five rows by four columns', of five with 'standing 4,
# machinery, for rooms'. 'Machinery rooms count as not plain.'
PLAIN, EXEMPT, BALLAST, DEDUCTED, MACHINERY = 0, 1, 2, 3, 4
STANDINGS = (PLAIN, EXEMPT, BALLAST, DEDUCTED, MACHINERY)
NOT_PLAIN = (EXEMPT, BALLAST, DEDUCTED, MACHINERY)
MAY_HAVE = {
    # plain, exempt, ballast, deducted, machinery
    U: (True, False, False, False, False),
    B: (True, True, False, False, False),
    S: (True, True, False, False, False),
    H: (True, False, False, False, False),
    R: (True, True, True, True, True),
}

# What an entry says of an end: 'inner (at a step), upright or pointed'. Nothing of it is recorded.
NOT_SAID = 0
INNER, UPRIGHT, POINTED = 1, 2, 3
ENDS = (INNER, UPRIGHT, POINTED)

NOT_ENCLOSED = 0  # the enclosing id of a U, B, S or H
NO_M = 0  # of every space but a U entered from offsets
NO_DECK, NO_VESSEL = 0, 0  # '0 for none'
DECKS = range(100)  # 'a deck number on each space (0 to 99 ...)'
IDS = range(1, 10_000)
NOT_MARKED, JUSTIFIED = 0, 1
MARKS = (NOT_MARKED, JUSTIFIED)
GREATEST_LEVEL = 8
PLACES = 200
MOST_UNDOABLE = 64


@dataclass(frozen=True)
class Space:
    """A standing space, or a new one that is judged: what its record holds, and m, which 'the file doesn't hold'.

    'Offices ask for a deck number on each space', which a record of form 2 holds.
    """

    id: int
    within: int
    kind: int
    standing: int
    tonnage: int
    length: int
    m: int = NO_M
    deck: int = NO_DECK


State = tuple[Space, ...]  # the standing spaces in order of entry


@dataclass(frozen=True)
class Sheet:
    """The standing spaces; those before each undoable change, the latest last; those that redo brings back likewise.

    'The vessel number is given at opening', and no call changes it; that of a sheet not open is 0.
    """

    is_open: bool = False
    length: int = 0
    spaces: State = ()
    earlier: tuple[State, ...] = ()
    later: tuple[State, ...] = ()
    vessel: int = NO_VESSEL


CLOSED = Sheet()  # 'a sheet not open'


# Enclosure

def find(spaces: State, id: int) -> Space | None:
    """The standing space with this id."""
    return next((space for space in spaces if space.id == id), None)


def enclosing(spaces: State, space: Space) -> Space | None:
    """'Only a room has an enclosing space.'"""
    return find(spaces, space.within) if space.kind == R else None


def above(spaces: State, space: Space) -> list[Space]:
    """The enclosing space, the one that encloses that, and so on up to level 1."""
    chain: list[Space] = []
    upper = enclosing(spaces, space)
    while upper is not None:
        chain.append(upper)
        upper = enclosing(spaces, upper)
    return chain


def below(spaces: State, space: Space) -> list[Space]:
    """All rooms inside a standing space, however deep."""
    return [other for other in spaces if space in above(spaces, other)]


def level(spaces: State, space: Space) -> int:
    """'A U, B, S or H is at level 1, a room one below its enclosing space.'"""
    return len(above(spaces, space)) + 1


def visited(spaces: State, new: Space) -> int:
    """'The number of enclosing spaces visited: one for the named space and one for each step above it to level 1.'

    It 'is 0 if the enclosing id isn't standing', as none is on a sheet not open, and of a kind that is no room.
    """
    return len(above(spaces, new))


def rooms(spaces: State, id: int) -> list[Space]:
    """The rooms directly inside a space."""
    return [space for space in spaces if space.kind == R and space.within == id]


# Gross and net

def tons(spaces: State, kinds: Iterable[int] = KINDS, standings: Iterable[int] = STANDINGS) -> int:
    """The tonnages of the spaces of these kinds and standings, added up."""
    return sum(space.tonnage for space in spaces if space.kind in kinds and space.standing in standings)


def t(spaces: State) -> int:
    """'T: all U, B and S.'"""
    return tons(spaces, kinds=(U, B, S))


def e(spaces: State) -> int:
    """'E: all with standing 1 or 2.'"""
    return tons(spaces, standings=(EXEMPT, BALLAST))


def d(spaces: State) -> int:
    """'D: all with standing 3.'"""
    return tons(spaces, standings=(DEDUCTED,))


def machinery(spaces: State) -> int:
    """'Let M be the sum of all such rooms': all with standing 4."""
    return tons(spaces, standings=(MACHINERY,))


def with_excess(spaces: State, g: int) -> int:
    """'Gross = G + excess', the excess being that of all H."""
    return g + m.hatchway_excess(g, tons(spaces, kinds=(H,)))


def gross(spaces: State) -> int:
    """'Let G = T - E ... Gross = G + excess.'"""
    return with_excess(spaces, t(spaces) - e(spaces))


def deductions(spaces: State) -> int:
    """D and the engine room deduction, which M and the gross give."""
    return d(spaces) + m.engine_room_deduction(machinery(spaces), gross(spaces))


def net(spaces: State) -> int:
    """'Net is gross less D less this deduction.'"""
    return gross(spaces) - deductions(spaces)


def gross_for_ballast(spaces: State) -> int:
    """'Gross as above with only standing 1 taken off.'"""
    return with_excess(spaces, t(spaces) - tons(spaces, standings=(EXEMPT,)))


def ballast_over(spaces: State) -> bool:
    """'Standing 2 adds up to more than 30% of it.'"""
    return m.ballast_over(tons(spaces, standings=(BALLAST,)), gross_for_ballast(spaces))


def under_deck_length(spaces: State) -> int:
    """The lengths of all U, added up."""
    return sum(space.length for space in spaces if space.kind == U)


# The U of a tank

def named_under_deck(spaces: State, within: int) -> Space | None:
    """'The tank names its U': the standing space with the enclosing id, where it is a U."""
    upper = find(spaces, within)
    return upper if upper is not None and upper.kind == U else None


def has_m(under_deck: Space) -> bool:
    """4 or 6; on a sheet that no call handed back, any other is none."""
    return under_deck.m in m.PARTS_OF_DEPTH


def measuring_under_deck(spaces: State, within: int, length: int, fore: int) -> Space | None:
    """The U that a tank can be measured in: 'a standing U with m whose ends the tank doesn't pass'."""
    under_deck = named_under_deck(spaces, within)
    if under_deck is None or not has_m(under_deck) or m.passes_an_end(under_deck.length, length, fore):
        return None
    return under_deck


# What each number says, in the order of the table

def out_of_range(
    sheet: Sheet, kind: int, standing: int, length: int, heights: Sequence[int], breadths: Sequence[int]
) -> bool:
    """2: 'a kind, measure, standing ... outside its range'."""
    return standing not in STANDINGS or m.out_of_range(kind, sheet.length, length, heights, breadths)


def deck_out_of_range(deck: int) -> bool:
    """2: 'for a deck above 99 on entry', of whatever kind; '17 for such a deck in a file'."""
    return deck not in DECKS


def end_not_said(kind: int, fore: int, aft: int) -> bool:
    """2: 'a U now says of each end whether it is inner (at a step), upright or pointed'; of others it isn't read."""
    return kind == U and (fore not in ENDS or aft not in ENDS)


def wrong_number(sheet: Sheet, kind: int, length: int, heights: Sequence[int], breadths: Sequence[int]) -> bool:
    """3: 'stations, depths, heights or breadths not the number the rules ask'; they ask none of an unknown kind."""
    return kind in KINDS and m.wrong_number(kind, sheet.length, length, heights, breadths)


def new_id_refused(spaces: State, id: int) -> bool:
    """4: 'new id outside its range or already standing'."""
    return id not in IDS or find(spaces, id) is not None


def enclosing_not_standing(spaces: State, new: Space) -> bool:
    """5: 'enclosing id isn't standing', of a room."""
    return new.kind == R and enclosing(spaces, new) is None


def cannot_take(kind: int, standing: int) -> bool:
    """6: 'kind can't take this standing', by the table."""
    return kind in MAY_HAVE and standing in STANDINGS and not MAY_HAVE[kind][standing]


def in_hatchway(spaces: State, new: Space) -> bool:
    """6: 'the enclosing space is a hatchway'."""
    upper = enclosing(spaces, new)
    return upper is not None and upper.kind == H


def too_deep(spaces: State, new: Space) -> bool:
    """7: 'level would pass 8'."""
    return level(spaces, new) > GREATEST_LEVEL


def not_plain_twice(space: Space, above_or_below: Iterable[Space]) -> bool:
    """8: 'not plain, and a space above or below isn't plain'."""
    return space.standing in NOT_PLAIN and any(other.standing in NOT_PLAIN for other in above_or_below)


def rooms_would_pass(spaces: State, new: Space) -> bool:
    """9: 'rooms would pass the enclosing tonnage'."""
    upper = enclosing(spaces, new)
    return upper is not None and tons((*rooms(spaces, upper.id), new)) > upper.tonnage


def lengths_would_pass(sheet: Sheet, new: Space) -> bool:
    """9: 'or U lengths the tonnage length'."""
    return new.kind == U and under_deck_length(sheet.spaces) + new.length > sheet.length


def tank_wrong_number(
    sheet: Sheet, within: int, length: int, fore: int, depths: Sequence[int], breadths: Sequence[int]
) -> bool:
    """3 for a tank: 'judged only in a standing U with m whose ends the tank doesn't pass'."""
    under_deck = measuring_under_deck(sheet.spaces, within, length, fore)
    return under_deck is not None and m.tank_wrong_number(
        sheet.length, under_deck.length, under_deck.m, length, fore, depths, breadths
    )


def in_other_than_under_deck(spaces: State, within: int) -> bool:
    """6 for a tank: 'also if the enclosing space isn't a U'."""
    return find(spaces, within) is not None and named_under_deck(spaces, within) is None


def tank_would_pass(spaces: State, new: Space, fore: int) -> bool:
    """9 for a tank: 'also if the tank passes an end of its U'; 'by the tank's tonnage' only where 3 is judged."""
    under_deck = named_under_deck(spaces, new.within)
    if under_deck is None:
        return False
    if m.passes_an_end(under_deck.length, new.length, fore):
        return True
    return measuring_under_deck(spaces, new.within, new.length, fore) is not None and rooms_would_pass(spaces, new)


def without_m(spaces: State, within: int) -> bool:
    """29: 'if that U has no m'."""
    under_deck = named_under_deck(spaces, within)
    return under_deck is not None and not has_m(under_deck)


def no_place(spaces: State) -> bool:
    """10: 'entry where 200 spaces stand'."""
    return len(spaces) >= PLACES


def pointed_with_area(
    sheet: Sheet, new: Space, heights: Sequence[int], breadths: Sequence[int], fore: int, aft: int
) -> bool:
    """19: 'where a pointed end has area', of a U that can be measured; 'a pointed end must have area 0'."""
    if new.kind != U or m.measure(U, sheet.length, new.length, heights, breadths)[0]:
        return False
    return any(end == POINTED and area for end, area in zip((fore, aft), m.areas_of_ends(heights, breadths)))


def encloses(spaces: State, id: int) -> bool:
    """11: 'withdrawal of a space that encloses a room'."""
    return bool(rooms(spaces, id))


def lengths_short(sheet: Sheet) -> bool:
    """13: 'U lengths don't add up to the tonnage length'."""
    return under_deck_length(sheet.spaces) != sheet.length


def not_justified(sheet: Sheet, justified: int) -> bool:
    """14: 'ballast over 30%, not justified'."""
    return justified == NOT_MARKED and ballast_over(sheet.spaces)


def deductions_pass(sheet: Sheet) -> bool:
    """21: 'when deductions pass gross'."""
    return deductions(sheet.spaces) > gross(sheet.spaces)


# All the numbers that apply to a call

def applying(judged: dict[int, bool]) -> set[int]:
    """The numbers that apply."""
    return {number for number, applies in judged.items() if applies}


def lowest(numbers: set[int]) -> int:
    """'The lowest number that applies is given', 0 where none does."""
    return min(numbers, default=ACCEPTED)


def numbers_of_new(sheet: Sheet, new: Space) -> set[int]:
    """Those from 4 to 10, for a new space with its tonnage and length."""
    spaces = sheet.spaces
    return applying({
        NEW_ID: new_id_refused(spaces, new.id),
        NOT_STANDING: enclosing_not_standing(spaces, new),
        CANNOT_TAKE: cannot_take(new.kind, new.standing) or in_hatchway(spaces, new),
        TOO_DEEP: too_deep(spaces, new),
        NOT_PLAIN_TWICE: not_plain_twice(new, above(spaces, new)),  # it has nothing below it
        WOULD_PASS: rooms_would_pass(spaces, new) or lengths_would_pass(sheet, new),
        NO_PLACE: no_place(spaces),
    })


def numbers_of_entry(
    sheet: Sheet, new: Space, heights: Sequence[int], breadths: Sequence[int], fore: int = NOT_SAID,
    aft: int = NOT_SAID,
) -> set[int]:
    """Those from 1 to 10, and 19, for a new space with all its measures and what is said of its ends."""
    return numbers_of_new(sheet, new) | applying({
        SHEET_NOT_OPEN: not sheet.is_open,
        OUT_OF_RANGE: (
            out_of_range(sheet, new.kind, new.standing, new.length, heights, breadths)
            or end_not_said(new.kind, fore, aft)
            or deck_out_of_range(new.deck)
        ),
        WRONG_NUMBER: wrong_number(sheet, new.kind, new.length, heights, breadths),
        POINTED_WITH_AREA: pointed_with_area(sheet, new, heights, breadths, fore, aft),
    })


def numbers_of_tank(
    sheet: Sheet, new: Space, fore: int, depths: Sequence[int], breadths: Sequence[int]
) -> set[int]:
    """Those from 1 to 10, and 29, for a tank with all its measures: a room directly inside the U that it names."""
    spaces = sheet.spaces
    return applying({
        SHEET_NOT_OPEN: not sheet.is_open,
        OUT_OF_RANGE: (
            new.standing not in STANDINGS
            or m.tank_out_of_range(new.length, fore, depths, breadths)
            or deck_out_of_range(new.deck)
        ),
        WRONG_NUMBER: tank_wrong_number(sheet, new.within, new.length, fore, depths, breadths),
        NEW_ID: new_id_refused(spaces, new.id),
        NOT_STANDING: enclosing_not_standing(spaces, new),
        CANNOT_TAKE: in_other_than_under_deck(spaces, new.within),  # a room can take every standing
        TOO_DEEP: too_deep(spaces, new),
        NOT_PLAIN_TWICE: not_plain_twice(new, above(spaces, new)),
        WOULD_PASS: tank_would_pass(spaces, new, fore),
        NO_PLACE: no_place(spaces),
        WITHOUT_M: without_m(spaces, new.within),
    })


def numbers_of_withdrawal(sheet: Sheet, id: int) -> set[int]:
    """Those for the withdrawal of the space with this id."""
    return applying({
        SHEET_NOT_OPEN: not sheet.is_open,
        NOT_STANDING: find(sheet.spaces, id) is None,
        ENCLOSES: encloses(sheet.spaces, id),
    })


def numbers_of_mark(sheet: Sheet, id: int, standing: int) -> set[int]:
    """Those for giving the space with this id another standing, or the same one."""
    numbers = applying({SHEET_NOT_OPEN: not sheet.is_open, OUT_OF_RANGE: standing not in STANDINGS})
    space = find(sheet.spaces, id)
    if space is None:
        return numbers | {NOT_STANDING}
    others = above(sheet.spaces, space) + below(sheet.spaces, space)
    return numbers | applying({
        CANNOT_TAKE: cannot_take(space.kind, standing),
        NOT_PLAIN_TWICE: not_plain_twice(replace(space, standing=standing), others),
    })


def numbers_of_undo(sheet: Sheet) -> set[int]:
    """Those for an undo."""
    return applying({SHEET_NOT_OPEN: not sheet.is_open, NOTHING_OPEN: not sheet.earlier})


def numbers_of_redo(sheet: Sheet) -> set[int]:
    """Those for a redo."""
    return applying({SHEET_NOT_OPEN: not sheet.is_open, NOTHING_OPEN: not sheet.later})


def numbers_of_report(sheet: Sheet, justified: int) -> set[int]:
    """Those from 1 to 14, and 21, for a report; a write has them too."""
    return applying({
        SHEET_NOT_OPEN: not sheet.is_open,
        OUT_OF_RANGE: justified not in MARKS,
        LENGTHS_SHORT: lengths_short(sheet),
        NOT_JUSTIFIED: not_justified(sheet, justified),
        DEDUCTIONS_PASS: deductions_pass(sheet),
    })


# The calls

def open_sheet(length: int, vessel: int = NO_VESSEL) -> tuple[int, Sheet]:
    """'A sheet is opened with the tonnage length'; 'a refused open ... hands back a sheet not open'.

    'The vessel number is given at opening'; any that can be given is one.
    """
    if length not in m.TONNAGE_LENGTHS:
        return OUT_OF_RANGE, CLOSED
    return ACCEPTED, Sheet(is_open=True, length=length, vessel=vessel)


def changed(sheet: Sheet, spaces: State) -> Sheet:
    """'A change makes undoable one more, never above 64, and redoable 0.'"""
    return replace(sheet, spaces=spaces, earlier=(*sheet.earlier, sheet.spaces)[-MOST_UNDOABLE:], later=())


def new_space(
    sheet: Sheet, id: int, within: int, kind: int, standing: int, length: int, heights: Sequence[int],
    breadths: Sequence[int], deck: int = NO_DECK,
) -> Space:
    """A space as it would stand. One that can't be measured has tonnage 0, with which rooms pass nothing, and no m."""
    number, tonnage = m.measure(kind, sheet.length, length, heights, breadths)
    own_m = m.parts_of_depth(m.middle_depth(heights)) if kind == U and not number else NO_M
    return Space(id, within if kind == R else NOT_ENCLOSED, kind, standing, tonnage, length, own_m, deck)


def enter(
    sheet: Sheet, id: int, within: int, kind: int, standing: int, length: int, heights: Sequence[int],
    breadths: Sequence[int], fore: int = NOT_SAID, aft: int = NOT_SAID, deck: int = NO_DECK,
) -> tuple[int, int, tuple[int, ...], int, Sheet]:
    """A new space comes last in order, whatever stood before.

    The enclosing id is read only for a room, what is said of the ends only for a U, the deck for every kind. 'Each U, B
    and S passes on the rounding of its length, a U also that of every station's depth'; one that is refused passes on
    nothing. 'Entry of a room, accepted or refused, answers the number of enclosing spaces visited.'
    """
    new = new_space(sheet, id, within, kind, standing, length, heights, breadths, deck)
    number = lowest(numbers_of_entry(sheet, new, heights, breadths, fore, aft))
    seen = visited(sheet.spaces, new)
    if number:
        return number, *m.NOTHING_ROUNDED, seen, sheet
    return ACCEPTED, *m.roundings(kind, sheet.length, length, heights), seen, changed(sheet, (*sheet.spaces, new))


def new_tank(
    sheet: Sheet, id: int, within: int, standing: int, length: int, fore: int, depths: Sequence[int],
    breadths: Sequence[int], deck: int = NO_DECK,
) -> Space:
    """'The result is a room directly inside that U.' One that can't be measured has tonnage 0."""
    under_deck = measuring_under_deck(sheet.spaces, within, length, fore)
    tonnage = 0
    if not (
        under_deck is None
        or m.tank_out_of_range(length, fore, depths, breadths)
        or tank_wrong_number(sheet, within, length, fore, depths, breadths)
    ):
        tonnage = m.tonnage(m.volume_of_tank(
            sheet.length, under_deck.length, under_deck.m, length, fore, depths, breadths
        ))
    return Space(id, within, R, standing, tonnage, length, deck=deck)


def enter_tank(
    sheet: Sheet, id: int, within: int, standing: int, length: int, fore: int, depths: Sequence[int],
    breadths: Sequence[int], deck: int = NO_DECK,
) -> tuple[int, int, Sheet]:
    """A tank that follows the hull, entered as any room is; it passes on no rounding, but answers what it visited."""
    new = new_tank(sheet, id, within, standing, length, fore, depths, breadths, deck)
    number = lowest(numbers_of_tank(sheet, new, fore, depths, breadths))
    return number, visited(sheet.spaces, new), sheet if number else changed(sheet, (*sheet.spaces, new))


def withdraw(sheet: Sheet, id: int) -> tuple[int, Sheet]:
    """Takes a standing space away; the others keep their order."""
    number = lowest(numbers_of_withdrawal(sheet, id))
    return number, sheet if number else changed(sheet, tuple(space for space in sheet.spaces if space.id != id))


def mark(sheet: Sheet, id: int, standing: int) -> tuple[int, Sheet]:
    """'Give a new standing, even the same one', which is a change too."""
    number = lowest(numbers_of_mark(sheet, id, standing))
    if number:
        return number, sheet
    marked = (replace(space, standing=standing) if space.id == id else space for space in sheet.spaces)
    return ACCEPTED, changed(sheet, tuple(marked))


def undo(sheet: Sheet) -> tuple[int, Sheet]:
    """'Takes back the latest accepted change not undone.'"""
    number = lowest(numbers_of_undo(sheet))
    if number:
        return number, sheet
    *earlier, spaces = sheet.earlier
    return ACCEPTED, replace(sheet, spaces=spaces, earlier=tuple(earlier), later=(*sheet.later, sheet.spaces))


def redo(sheet: Sheet) -> tuple[int, Sheet]:
    """'Makes again the change last undone.'"""
    number = lowest(numbers_of_redo(sheet))
    if number:
        return number, sheet
    *later, spaces = sheet.later
    return ACCEPTED, replace(sheet, spaces=spaces, earlier=(*sheet.earlier, sheet.spaces), later=tuple(later))


def counts(sheet: Sheet) -> tuple[int, int, int, Sheet]:
    """Undoable and redoable: 'both counts can be asked for and are 0 on a sheet not open'."""
    return ACCEPTED, len(sheet.earlier), len(sheet.later), sheet


def report(sheet: Sheet, justified: int) -> tuple[int, int, int, Sheet]:
    """Gross and net; 'a refused report gives 0 and 0'."""
    number = lowest(numbers_of_report(sheet, justified))
    return (number, 0, 0, sheet) if number else (ACCEPTED, gross(sheet.spaces), net(sheet.spaces), sheet)


# Recorded spaces

def recorded(spaces: Iterable[Space]) -> State:
    """'All that their records hold', a deck too: m is gone.

    'A U that came from a file takes no tank until it is entered anew.'
    """
    return tuple(replace(space, m=NO_M) for space in spaces)


def enter_recorded(sheet: Sheet, space: Space) -> tuple[int, Sheet]:
    """A recorded space judged as an entry with its recorded tonnage and length: 4 to 10; it is no open change.

    That its numbers are in range and that a U, B, S or H has no enclosing id is for the reader to judge.
    """
    number = lowest(numbers_of_new(sheet, space))
    return number, sheet if number else replace(sheet, spaces=(*sheet.spaces, *recorded([space])))


def resume(length: int, spaces: Iterable[Space], vessel: int = NO_VESSEL) -> tuple[int, Sheet]:
    """The sheet of recorded spaces, and 0; or the position, from 1, of the first refused, and a sheet not open."""
    sheet = Sheet(is_open=True, length=length, vessel=vessel)
    for position, space in enumerate(spaces, start=1):
        number, sheet = enter_recorded(sheet, space)
        if number:
            return position, CLOSED
    return 0, sheet
