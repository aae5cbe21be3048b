"""The day's file, after the paper: sheets as records and trailers, written into a buffer and read back from any bytes.

Quoted sentences are the paper's, those on the two forms and on moves the request T-05's. 'Sheets follow one another;
the last ends at the end of the file', so that a file is read from its end: the trailer says in which form the sheet is
and where it starts, and the bytes ahead of that start are a file again, in whatever forms.
Of the numbers that apply the lowest is given, 'except in reading: there 16, 17, 13, 14, 18 in that order'. In a write
20 stands 'just before 15', and 'a move gives 2, then those of reading, then 20, then 15'. 21, the request T-06's, 'in
reading ... stands after 14, in the other calls after 15'.
"""

from itertools import takewhile
from struct import Struct
from typing import Iterator, NamedTuple, Sequence

from reference import measure as m, sheet as s
from reference.measure import ACCEPTED, B, H, KINDS, OUT_OF_RANGE, R, S, U
from reference.sheet import (
    DEDUCTIONS_PASS, LENGTHS_SHORT, NO_DECK, NO_VESSEL, NOT_ENCLOSED, NOT_JUSTIFIED, SHEET_NOT_OPEN, Sheet, Space,
)

# Numbers of refusal (1 to 14, and 21, stand in measure.py and sheet.py).
TOO_LITTLE_ROOM = 15  # buffer has too little room from the named place
WRONG_FILE = 16  # the file's size, or its trailer's distance, count, mark, zero byte or tonnage length
WRONG_RECORD = 17  # with the position, from 1, of the first such record
WRONG_SUMS = 18  # gross or net isn't what the records give
WOULD_LOSE = 20  # a move or write in form 1 would lose a number
ORDER_OF_WRITE = (
    SHEET_NOT_OPEN, OUT_OF_RANGE, LENGTHS_SHORT, NOT_JUSTIFIED, WOULD_LOSE, TOO_LITTLE_ROOM, DEDUCTIONS_PASS,
)

GREATEST_TONNAGE = 100_000_000  # 'which no entry from offsets in range can pass'
ZERO = 0  # what a zero field holds
MOST_BYTES = 65_536  # of the input of `sheetlist`
LETTERS = {U: "U", B: "B", S: "S", H: "H", R: "R"}


class Record(NamedTuple):
    """'Id 2, enclosing id 2 (0 for U, B, S, H), kind 1, standing 1, zero 2, tonnage 4, length 4', and in form 2 'then
    deck 2, zero 2'.
    """

    id: int
    within: int
    kind: int
    standing: int
    zero: int
    tonnage: int
    length: int
    deck: int = NO_DECK
    second_zero: int = ZERO


class Between(NamedTuple):
    """'Four bytes of vessel number stand between the last record and the old trailer', in form 2."""

    vessel: int = NO_VESSEL


class Trailer(NamedTuple):
    """'Distance from the end back to the first record 4 ..., count 2, justified 1, zero 1, tonnage length 4, gross 8,
    net 8.' The byte called zero tells the form.
    """

    distance: int
    count: int
    justified: int
    telling: int
    length: int
    gross: int
    net: int


# The forms. 'Numbers are little-endian': H has 2 bytes, B 1, I 4 and Q 8.

class Form(NamedTuple):
    """How a form lays out the fields of a record and what stands between, and the trailer's byte that tells the form.

    A layout has the fields from the first on, as many as it has; one that it lacks reads as 0 and holds only 0.
    """

    record: Struct
    between: Struct
    telling: int


TRAILER = Struct("<IHBBIQQ")
FORM_1, FORM_2 = 1, 2  # as a write or a move names them
NO_FORM = 0  # what a refused read answers
FORMS = {
    FORM_1: Form(record=Struct("<HHBBHII"), between=Struct("<"), telling=0),
    FORM_2: Form(record=Struct("<HHBBHIIHH"), between=Struct("<I"), telling=2),
}
TOLD_BY = {layout.telling: form for form, layout in FORMS.items()}

ReadAnswer = tuple[int, int, int, int, int, Sheet]  # number, position, mark, start, form and sheet


def fields_of(layout: Struct) -> int:
    """How many fields a layout has."""
    return len(layout.unpack(bytes(layout.size)))


def packed(layout: Struct, numbers: Sequence[int]) -> bytes:
    """The bytes of the numbers that a layout has fields for."""
    return layout.pack(*numbers[:fields_of(layout)])


def lost(layout: Struct, numbers: Sequence[int]) -> bool:
    """Whether a number that the layout has no field for isn't 0."""
    return any(numbers[fields_of(layout):])


# A sheet as bytes

def distance(form: int, count: int) -> int:
    """'From the end back to the first record (16 x count + 28)', in form 2 '20 x count + 32': the bytes of a sheet."""
    layout = FORMS[form]
    return layout.record.size * count + layout.between.size + TRAILER.size


def record_of(space: Space) -> Record:
    """The record of a standing space."""
    return Record(space.id, space.within, space.kind, space.standing, ZERO, space.tonnage, space.length, space.deck)


def space_of(record: Record) -> Space:
    """The space that a record speaks of."""
    return Space(
        record.id, record.within, record.kind, record.standing, record.tonnage, record.length, deck=record.deck
    )


def trailer_of(form: int, sheet: Sheet, justified: int) -> Trailer:
    """The trailer of a sheet that can be reported."""
    count, spaces = len(sheet.spaces), sheet.spaces
    return Trailer(
        distance(form, count), count, justified, FORMS[form].telling, sheet.length, s.gross(spaces), s.net(spaces)
    )


def as_bytes(form: int, records: Sequence[Record], between: Between, trailer: Trailer) -> bytes:
    """'One ... record per standing space in order of entry, then a 28-byte trailer', and what stands between."""
    layout = FORMS[form]
    of_records = b"".join(packed(layout.record, record) for record in records)
    return of_records + packed(layout.between, between) + TRAILER.pack(*trailer)


def bytes_of(form: int, sheet: Sheet, justified: int) -> bytes:
    """What a write of this sheet writes."""
    records = [record_of(space) for space in sheet.spaces]
    return as_bytes(form, records, Between(sheet.vessel), trailer_of(form, sheet, justified))


# Writing

def would_lose(sheet: Sheet, form: int) -> bool:
    """20: 'where a move or write in form 1 would lose a number': the vessel's, or the deck of a standing space."""
    layout = FORMS[form]
    records = map(record_of, sheet.spaces)
    return lost(layout.between, Between(sheet.vessel)) or any(lost(layout.record, record) for record in records)


def too_little_room(sheet: Sheet, form: int, buffer: bytes, at: int) -> bool:
    """15: 'buffer has too little room from the named place'; at its end or past it there is none."""
    return len(buffer) - at < distance(form, len(sheet.spaces))


def numbers_of_write(sheet: Sheet, justified: int, buffer: bytes, at: int, form: int) -> set[int]:
    """Those of a report, 2 for 'a form that is neither', and 20 and 15, which can be judged only in one of the two."""
    numbers = s.numbers_of_report(sheet, justified)
    if form not in FORMS:
        return numbers | {OUT_OF_RANGE}
    return numbers | s.applying({
        WOULD_LOSE: would_lose(sheet, form),
        TOO_LITTLE_ROOM: too_little_room(sheet, form, buffer, at),
    })


def first_of(order: Sequence[int], numbers: set[int]) -> int:
    """The first in this order of the numbers that apply, 0 where none does."""
    return next((number for number in order if number in numbers), ACCEPTED)


def write(sheet: Sheet, justified: int, buffer: bytes, at: int, form: int) -> tuple[int, int, bytes, Sheet]:
    """The number, the bytes written, the buffer afterwards and the sheet; 'a write names the form it wants'.

    'Writing starts at a place in the buffer that the caller names and answers the bytes written; no byte before or
    after is touched'; refused, '0 bytes and an untouched buffer'.
    """
    number = first_of(ORDER_OF_WRITE, numbers_of_write(sheet, justified, buffer, at, form))
    if number:
        return number, 0, buffer, sheet
    written = bytes_of(form, sheet, justified)
    return ACCEPTED, len(written), buffer[:at] + written + buffer[at + len(written):], sheet


# The last sheet of a file

def last_trailer(file: bytes) -> Trailer:
    """The trailer at the end of a file that is long enough for one."""
    return Trailer(*TRAILER.unpack(file[-TRAILER.size:]))


def last_start(file: bytes) -> int:
    """Where the last sheet starts, in a file that is long enough for it."""
    return len(file) - last_trailer(file).distance


def last_form(file: bytes) -> int:
    """The form of the last sheet, in a file whose trailer isn't wrong."""
    return TOLD_BY[last_trailer(file).telling]


def last_between(file: bytes) -> Between:
    """What stands between the records and the trailer of the last sheet, in a file whose trailer isn't wrong."""
    layout = FORMS[last_form(file)].between
    return Between(*layout.unpack_from(file, len(file) - TRAILER.size - layout.size))


def last_records(file: bytes) -> list[Record]:
    """The records of the last sheet, in a file whose trailer isn't wrong."""
    layout = FORMS[last_form(file)]
    behind = layout.between.size + TRAILER.size
    return [Record(*fields) for fields in layout.record.iter_unpack(file[last_start(file):-behind])]


# 16: the file and its trailer

def no_form(trailer: Trailer) -> bool:
    """'Zero byte ... wrong': it tells neither form."""
    return trailer.telling not in TOLD_BY


def wrong_distance(trailer: Trailer) -> bool:
    """'Distance ... wrong': it is 16 x count + 28, 'and the distance is 20 x count + 32' in form 2."""
    return trailer.distance != distance(TOLD_BY[trailer.telling], trailer.count)


def wrong_mark(trailer: Trailer) -> bool:
    """'Mark ... wrong': it is 0 or 1."""
    return trailer.justified not in s.MARKS


def wrong_length(trailer: Trailer) -> bool:
    """'Tonnage length wrong': it is out of its range."""
    return trailer.length not in m.TONNAGE_LENGTHS


def wrong_trailer(trailer: Trailer) -> bool:
    """'Count over 200; distance, zero byte, mark or tonnage length wrong.'"""
    return (
        trailer.count > s.PLACES
        or no_form(trailer)
        or wrong_distance(trailer)
        or wrong_mark(trailer)
        or wrong_length(trailer)
    )


def wrong_file(file: bytes) -> bool:
    """16: 'file shorter than 28 bytes or than its distance', or one with a wrong trailer."""
    if len(file) < TRAILER.size:
        return True
    trailer = last_trailer(file)
    return len(file) < trailer.distance or wrong_trailer(trailer)


# 17: the records

def out_of_range(record: Record) -> bool:
    """'A number outside its range', of a known kind; '17 for such a deck in a file'."""
    return (
        record.id not in s.IDS
        or record.standing not in s.STANDINGS
        or record.tonnage > GREATEST_TONNAGE
        or record.length not in m.LENGTHS[record.kind]
        or s.deck_out_of_range(record.deck)
    )


def enclosed_outside_a_room(record: Record) -> bool:
    """'A U, B, S or H with an enclosing id.'"""
    return record.kind != R and record.within != NOT_ENCLOSED


def wrong_in_itself(record: Record) -> bool:
    """'A record with a nonzero zero field, a wrong kind, ...', or one of the two above."""
    return (
        record.zero != ZERO
        or record.second_zero != ZERO
        or record.kind not in KINDS
        or out_of_range(record)
        or enclosed_outside_a_room(record)
    )


def resumed(length: int, records: Sequence[Record], vessel: int) -> tuple[int, Sheet]:
    """The sheet of the records, and 0; or the position of the first wrong one, and a sheet not open.

    'It checks records in file order as entries with the recorded tonnage and length': those ahead of the first that is
    wrong in itself are entered, and one of them 'that entry would refuse' comes first.
    """
    entered = [space_of(record) for record in takewhile(lambda record: not wrong_in_itself(record), records)]
    position, sheet = s.resume(length, entered, vessel)
    if not position and len(entered) < len(records):
        return len(entered) + 1, s.CLOSED
    return position, sheet


# Reading

def wrong_sums(sheet: Sheet, trailer: Trailer) -> bool:
    """18: 'gross or net isn't what the records give'."""
    return (trailer.gross, trailer.net) != (s.gross(sheet.spaces), s.net(sheet.spaces))


def refused(number: int, position: int = 0) -> ReadAnswer:
    """'A refused open or read hands back a sheet not open, mark 0, start 0'; the position is of 17 alone."""
    return number, position, 0, 0, NO_FORM, s.CLOSED


def read(file: bytes) -> ReadAnswer:
    """The number, the position, the justified mark, where the last sheet starts, its form, and the sheet.

    'Reading judges the last sheet only; bytes before it don't matter.' 'The sheet read is open, with no open changes.'
    'Readers take either form and answer it.'
    """
    if wrong_file(file):
        return refused(WRONG_FILE)
    trailer = last_trailer(file)
    position, sheet = resumed(trailer.length, last_records(file), last_between(file).vessel)
    if position:
        return refused(WRONG_RECORD, position)
    if s.lengths_short(sheet):
        return refused(LENGTHS_SHORT)
    if s.not_justified(sheet, trailer.justified):
        return refused(NOT_JUSTIFIED)
    if s.deductions_pass(sheet):
        return refused(DEDUCTIONS_PASS)
    if wrong_sums(sheet, trailer):
        return refused(WRONG_SUMS)
    return ACCEPTED, 0, trailer.justified, last_start(file), last_form(file), sheet


def read_before(file: bytes, start: int) -> ReadAnswer:
    """'The bytes ahead of that start are the earlier sheets, read the same way.'"""
    return read(file[:start])


def sheets(file: bytes) -> Iterator[ReadAnswer]:
    """The answers to reading a day's file sheet by sheet, the last first, to its beginning or to the first refused."""
    while file:
        number, position, mark, start, form, sheet = read(file)
        yield number, position, mark, start, form, sheet
        if number:
            return
        file = file[:start]


# Moving

def move(file: bytes, form: int, buffer: bytes, at: int) -> tuple[int, int, int, bytes]:
    """The number, the bytes written, 17's position and the buffer afterwards.

    'A move reads the last sheet of one buffer and writes it at a named place in another, answering as a write does':
    with the mark that it has, in the form named. 'A move gives 2, then those of reading, then 20, then 15.'
    """
    if form not in FORMS:
        return OUT_OF_RANGE, 0, 0, buffer
    number, position, mark, _, _, sheet = read(file)
    if number:
        return number, 0, position, buffer
    number, written, after, _ = write(sheet, mark, buffer, at, form)
    return number, written, 0, after


# The listing

def with_point(hundredths: int) -> str:
    """Feet or tons, with two decimals always."""
    whole, rest = divmod(hundredths, m.HUNDREDTHS)
    return f"{whole}.{rest:02}"


def line_of(space: Space) -> str:
    """'Id, enclosing id or 0, kind, standing, tons.'"""
    return f"{space.id} {space.within} {LETTERS[space.kind]} {space.standing} {with_point(space.tonnage)}"


def lines_of(sheet: Sheet) -> list[str]:
    """'The tonnage length in feet; then one line a space in order of entry ...; then gross and net in tons.'"""
    return [
        f"LENGTH {with_point(sheet.length)}",
        *map(line_of, sheet.spaces),
        f"GROSS {with_point(s.gross(sheet.spaces))}",
        f"NET {with_point(s.net(sheet.spaces))}",
    ]


def listing(file: bytes) -> str:
    """What the program `sheetlist` prints: the last sheet, or 'one line: REFUSED, the number and the position'.

    'The input is at most 65,536 bytes': a longer one is no day's file.
    """
    number, position, _, _, _, sheet = refused(WRONG_FILE) if len(file) > MOST_BYTES else read(file)
    lines = [f"REFUSED {number} {position}"] if number else lines_of(sheet)
    return "".join(line + "\n" for line in lines)
