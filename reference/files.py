"""Day's files in order and damaged in every way, made from a seed, to hold readers of them against one another.

Every section is a generator of cases. A case that is made for a number says which one, and at which position; one that
chance makes says nothing and is only compared.
"""

from functools import cache
from itertools import combinations, product
from random import Random
from typing import Callable, Iterable, Iterator, NamedTuple, Sequence

from reference import dayfile, measure as m, sheet as s
from reference.dayfile import (
    FORM_1, FORM_2, FORMS, GREATEST_TONNAGE, LETTERS, MOST_BYTES, TRAILER, WRONG_FILE, WRONG_RECORD, WRONG_SUMS,
    Between, Record, as_bytes, distance, space_of,
)
from reference.figures import one_of
from reference.measure import ACCEPTED, B, H, KINDS, R, S, U
from reference.sheet import (
    BALLAST, DEDUCTED, DEDUCTIONS_PASS, EXEMPT, JUSTIFIED, LENGTHS_SHORT, MACHINERY, NO_DECK, NO_VESSEL, NOT_JUSTIFIED,
    NOT_MARKED, NOT_PLAIN, PLAIN, PLACES, STANDINGS, Sheet, Space,
)


class Case(NamedTuple):
    """A file with a name, and the number and position that it is made for: None where chance decides."""

    name: str
    file: bytes
    made_for: tuple[int, int] | None = None
    again: bool = False  # one much like it went before


Cases = Iterator[Case]
Section = Callable[[Random], Cases]
IN_ORDER = (ACCEPTED, 0)
BYTES_OF = {
    "id": 2, "within": 2, "kind": 1, "standing": 1, "zero": 2, "tonnage": 4, "length": 4, "deck": 2, "second_zero": 2
}
RECORD = FORMS[FORM_1].record
OTHER = {FORM_1: FORM_2, FORM_2: FORM_1}


def fields_in(form: int) -> tuple[str, ...]:
    """The fields that a record has in a form."""
    return Record._fields[:dayfile.fields_of(FORMS[form].record)]


# Files of one sheet

def said(fields: dict[str, int]) -> str:
    """Fields with their values, for a name."""
    return ", ".join(f"{field} {value}" for field, value in fields.items())


def record(
    id: int, within: int, kind: int, standing: int, tonnage: int, length: int, deck: int = NO_DECK
) -> Record:
    """A record whose zero fields are zero."""
    return dayfile.record_of(Space(id, within, kind, standing, tonnage, length, deck=deck))


def file_of(
    length: int, records: Sequence[Record], /, form: int = FORM_1, vessel: int = NO_VESSEL, **wrong: int
) -> bytes:
    """A sheet of these records, and the trailer that fits them, marked where it must be; but for what is said."""
    spaces = tuple(map(space_of, records))
    trailer = dayfile.trailer_of(form, Sheet(True, length, spaces), int(s.ballast_over(spaces)))
    not_below_0 = trailer._replace(gross=max(trailer.gross, 0), net=max(trailer.net, 0))
    return as_bytes(form, records, Between(vessel), not_below_0._replace(**wrong))


# The paper's whole sheet, one of three spaces and one of a single space. The three have a deck each, and their vessel a
# number, where the form has fields for them.
PAPERS_LENGTH = 4800
PAPERS_RECORDS = (
    record(1, 0, U, PLAIN, 11_521, 4800), record(2, 0, S, PLAIN, 1_280, 1600), record(3, 1, R, BALLAST, 400, 1000),
    record(4, 2, R, DEDUCTED, 320, 800), record(5, 0, H, PLAIN, 100, 500),
)
THREES_LENGTH, THREES_VESSEL = 1200, 0x0a0b0c0d
THREE = (
    record(1, 0, U, PLAIN, 300, 1200, deck=1), record(2, 1, R, DEDUCTED, 50, 10, deck=99),
    record(3, 0, H, PLAIN, 9, 9, deck=7),
)
PLAIN_THREE = tuple(own._replace(deck=NO_DECK) for own in THREE)
ONES_LENGTH = 100
VESSELS = (NO_VESSEL, 1, 255, 256, 2**16, 2**24, 2**31, 2**32 - 1)


def of_the_paper(**wrong: int) -> bytes:
    """The file of the paper's whole sheet, but for what is said of its form, its vessel or its trailer."""
    return file_of(PAPERS_LENGTH, PAPERS_RECORDS, **wrong)


def of_three(form: int, **wrong: int) -> bytes:
    """The file of the three spaces, but for what is said of its trailer."""
    return file_of(THREES_LENGTH, THREE, form=form, vessel=THREES_VESSEL, **wrong)


def three_with(form: int, position: int, **fields: int) -> bytes:
    """The file of the three spaces, but for these fields of the record at a position."""
    records = [*THREE]
    records[position - 1] = records[position - 1]._replace(**fields)
    return file_of(THREES_LENGTH, records, form=form, vessel=THREES_VESSEL)


def filled(count: int) -> list[Record]:
    """A U of 100 and hatchways, so many in all."""
    boxes = (record(id, 0, H, PLAIN, 1, 1) for id in range(2, count + 1))
    return [record(1, 0, U, PLAIN, 5, ONES_LENGTH), *boxes]


def of_one(form: int, deck: int = NO_DECK, **wrong: int) -> bytes:
    """The file of a U alone, 44 bytes in form 1 and 52 in form 2, but for what is said of its vessel or its trailer."""
    return file_of(ONES_LENGTH, [own._replace(deck=deck) for own in filled(1)], form=form, **wrong)


# Sheets at random

class Outer(NamedTuple):
    """A space that a room can stand in."""

    id: int
    level: int
    all_plain: bool  # the space and all above it
    left: int  # of its tonnage


def cut(rng: Random, whole: int, parts: int) -> list[int]:
    """The lengths of U that add up to the whole."""
    left = whole - m.LEAST_LENGTH[U] * parts
    marks = sorted(rng.randint(0, left) for _ in range(parts - 1))
    return [m.LEAST_LENGTH[U] + after - before for before, after in zip([0, *marks], [*marks, left])]


def a_tonnage(rng: Random) -> int:
    """Mostly a few tons, now and then nothing, the greatest, or any."""
    return one_of(rng, (0, 1, GREATEST_TONNAGE, rng.randint(0, GREATEST_TONNAGE), *[rng.randint(1, 9_999)] * 8))


def a_length(rng: Random, kind: int) -> int:
    """A length in the range of its kind, now and then at an end."""
    ends = m.LEAST_LENGTH[kind], m.GREATEST_LENGTH
    return one_of(rng, (*ends, rng.randint(*ends), *[rng.randint(m.LEAST_LENGTH[kind], 2000)] * 5))


def a_room(rng: Random, id: int, outers: list[Outer]) -> Record:
    """A room in one of these, often the deepest; what it takes of the tonnage is no longer left there."""
    deepest = max(outers, key=lambda outer: outer.level)
    place = outers.index(deepest) if rng.randrange(3) == 0 else rng.randrange(len(outers))
    outer = outers[place]
    tonnage = one_of(rng, (0, outer.left, outer.left // 2, outer.left // 3, min(outer.left, 1)))
    outers[place] = outer._replace(left=outer.left - tonnage)
    standing = one_of(rng, (PLAIN, PLAIN, PLAIN, *NOT_PLAIN)) if outer.all_plain else PLAIN
    if outer.level + 1 < s.GREATEST_LEVEL:
        outers.append(Outer(id, outer.level + 1, outer.all_plain and standing == PLAIN, tonnage))
    return record(id, outer.id, R, standing, tonnage, a_length(rng, R))


def some_records(rng: Random, count: int, length: int) -> list[Record]:
    """That many records of a sheet in order: U that add up to the length, and all other kinds between them."""
    under_deck = cut(rng, length, rng.randint(1, min(count, length // m.LEAST_LENGTH[U], 6)))
    kinds = [U] * len(under_deck)
    kinds += [one_of(rng, (B, S, S, H, R, R, R, R, R, R)) for _ in range(count - len(under_deck))]
    rng.shuffle(kinds)
    records: list[Record] = []
    outers: list[Outer] = []
    for id, kind in zip(rng.sample(s.IDS, count), kinds):
        if kind == R and outers:
            records.append(a_room(rng, id, outers))
            continue
        kind = H if kind == R else kind
        standing = EXEMPT if kind in (B, S) and rng.randrange(4) == 0 else PLAIN
        own_length = under_deck.pop() if kind == U else a_length(rng, kind)
        records.append(record(id, 0, kind, standing, a_tonnage(rng), own_length))
        if kind != H:
            outers.append(Outer(id, 1, standing == PLAIN, records[-1].tonnage))
    return records


def within_gross(records: Sequence[Record]) -> list[Record]:
    """The records, but for as many machinery rooms that are plain as let deductions not pass gross."""
    fitting = list(records)
    for place, own in enumerate(records):
        if own.standing == MACHINERY and s.deductions_pass(Sheet(spaces=tuple(map(space_of, fitting)))):
            fitting[place] = own._replace(standing=PLAIN)
    return fitting


def decked(rng: Random, records: Iterable[Record]) -> list[Record]:
    """The records with decks by chance, often the greatest."""
    return [own._replace(deck=one_of(rng, (NO_DECK, 1, 99, 99, rng.randrange(100)))) for own in records]


def a_file(rng: Random, count: int, form: int = FORM_1) -> bytes:
    """A file of one sheet of that many spaces, now and then marked where it needn't be.

    In form 2 it has decks, a vessel number, both or neither.
    """
    length = one_of(rng, (100, 150_000, 1200, 4800, rng.randint(100, 150_000)))
    records, vessel = within_gross(some_records(rng, count, length)), NO_VESSEL
    not_needed = {"justified": JUSTIFIED} if rng.randrange(3) == 0 else {}
    if form == FORM_2:
        records = decked(rng, records) if rng.randrange(2) else records
        vessel = one_of(rng, (NO_VESSEL, one_of(rng, VESSELS), rng.randrange(2**32)))
    return file_of(length, records, form=form, vessel=vessel, **not_needed)


def a_small_file(rng: Random, form: int = FORM_1) -> bytes:
    """A file of one sheet of a few spaces."""
    return a_file(rng, rng.randint(1, 7), form)


# Sections of files in order

COUNTS = (*range(1, 41), 50, 63, 64, 65, 100, 127, 128, 129, 199, 200)


def sheets_in_order(rng: Random) -> Cases:
    """Sheets of 1 to 200 spaces; those with the least and the greatest numbers that there are."""
    yield Case("the paper's whole sheet", of_the_paper(), IN_ORDER)
    yield Case("the paper's whole sheet, marked", of_the_paper(justified=JUSTIFIED), IN_ORDER)
    for count in COUNTS:
        yield Case(f"a sheet of {count}", a_file(rng, count), IN_ORDER)
    for number in range(100):
        yield Case(f"small sheet {number}", a_small_file(rng), IN_ORDER, again=number > 0)
    for length in (100, 101, 149_999, 150_000):
        yield Case(f"a U of {length} alone", file_of(length, [record(1, 0, U, PLAIN, 0, length)]), IN_ORDER)
    greatest = [record(10_000 - id, 0, U, PLAIN, GREATEST_TONNAGE, 750) for id in range(1, PLACES + 1)]
    yield Case("200 U of the greatest tonnage", file_of(150_000, greatest), IN_ORDER)
    boxes = [record(id, 0, H, PLAIN, GREATEST_TONNAGE, 1) for id in range(2, PLACES + 1)]
    yield Case("199 hatchways of it", file_of(100, [record(1, 0, U, PLAIN, 0, 100), *boxes]), IN_ORDER)
    for standing in (PLAIN, EXEMPT, BALLAST, DEDUCTED):
        rooms = [record(id, 1, R, standing, GREATEST_TONNAGE // 40, 150_000) for id in range(2, 42)]
        file = file_of(100, [record(1, 0, U, PLAIN, GREATEST_TONNAGE, 100), *rooms])
        yield Case(f"40 rooms of standing {standing} that fill it", file, IN_ORDER)


def days(rng: Random) -> Cases:
    """Several sheets one behind another: only the last is judged."""
    for count in (2, 3, 4, 7, 12):
        file = b"".join(a_small_file(rng) for _ in range(count))
        yield Case(f"a day of {count} sheets", file, IN_ORDER)
    last = a_small_file(rng)
    yield Case("the same sheet twice", last + last, IN_ORDER)
    for earlier in wrong_files(rng):
        if len(earlier.file) <= distance(FORM_1, 6):
            yield Case(f"in order behind: {earlier.name}", earlier.file + last, IN_ORDER, again=True)
    for name, damaged, made_for in (
        ("16", of_the_paper(telling=1), (WRONG_FILE, 0)), ("18", of_the_paper(net=0), (WRONG_SUMS, 0)),
        ("13", of_the_paper(length=4801), (LENGTHS_SHORT, 0)),
        ("17", file_of(PAPERS_LENGTH, PAPERS_RECORDS[1:]), (WRONG_RECORD, 2)),
    ):
        yield Case(f"{name} behind sheets in order", last + of_the_paper() + damaged, made_for)


def bytes_ahead(rng: Random) -> Cases:
    """Bytes of any kind before the last sheet, which don't matter."""
    for count in (1, 2, 3, 15, 16, 17, 27, 28, 29, 44, 100, 300):
        yield Case(f"{count} bytes ahead", rng.randbytes(count) + a_small_file(rng), IN_ORDER)
    for name, ahead in (
        ("zeros", bytes(28)), ("ones", b"\xff" * 28), ("a trailer", of_the_paper()[-TRAILER.size:]),
        ("a record", of_the_paper()[:RECORD.size]),
    ):
        yield Case(f"{name} ahead", ahead + of_the_paper(), IN_ORDER)


# 16

class Faults(NamedTuple):
    """Values that a field can't have: those next to what it can, and others."""

    edges: tuple[int, ...]
    far: tuple[int, ...] = ()

    def told_apart(self) -> Iterator[tuple[int, bool]]:
        """Each value, and whether it is far."""
        yield from product(self.edges, (False,))
        yield from product(self.far, (True,))


def faults_of_trailer(form: int, count: int) -> dict[str, Faults]:
    """By the field: what a trailer alone must not say in a form, over so many records."""
    size = distance(form, count)
    return {
        "distance": Faults((size - 1, size + 1), (
            0, 1, 28, 32, size - 28, size - 16, size + 16, size + 2**8, size + 2**16, size + 2**24, 2**32 - size,
            2**32 - 1,
        )),
        "count": Faults((count - 1, count + 1), (0, count + 2**8, 200, 201, 2**16 - 1)),
        "telling": Faults((1, 3, 255, FORMS[OTHER[form]].telling), (128,)),
        "justified": Faults((2,), (3, 128, 255)),
        "length": Faults((99, 150_001), (0, 1, 2**24 + 1200, 2**32 - 1)),
    }


def wrong_files(rng: Random) -> Cases:
    """16: 'file shorter than 28 bytes or than its distance; count over 200', and each field of the trailer wrong."""
    whole, refused = of_the_paper(), (WRONG_FILE, 0)
    for size in range(TRAILER.size):
        yield Case(f"the last {size} bytes of a file", whole[len(whole) - size:], refused)
    for size in (1, 27, 28, 44):
        yield Case(f"{size} zeros", bytes(size), refused)
    for missing in (1, 2, 15, 16, 17, 32, 79, 80):
        yield Case(f"a file without its first {missing} bytes", whole[missing:], refused)
    for field, faults in faults_of_trailer(FORM_1, len(PAPERS_RECORDS)).items():
        for value, far in faults.told_apart():
            wrong = of_the_paper(**{field: value})
            yield Case(f"{field} {value}", wrong, refused, again=far)
            yield Case(f"{field} {value}, bytes ahead", rng.randbytes(300) + wrong, refused)
    for count in (6, 20, 200, 201, 202, 261, 2**16 - 1):
        wrong = of_the_paper(count=count, distance=distance(FORM_1, count))
        yield Case(f"count and distance of {count}, the records not there", wrong, refused)


def counts_over_200(rng: Random) -> Cases:
    """16: 'count over 200', where all those records are there; and 200, which are not over."""
    for count in (201, 202, 256, 261, 400):
        yield Case(f"{count} records", file_of(100, filled(count)), (WRONG_FILE, 0))
    yield Case("201 records, count 200", file_of(100, filled(201), count=200), (WRONG_FILE, 0))
    yield Case("201 records, the last 200 counted", file_of(
        100, filled(201), count=200, distance=distance(FORM_1, 200)
    ), (LENGTHS_SHORT, 0))
    yield Case("200 records, 201 counted", file_of(100, filled(200), count=201), (WRONG_FILE, 0))
    most = (MOST_BYTES - TRAILER.size) // RECORD.size
    yield Case(f"{most} records", file_of(100, filled(most)), (WRONG_FILE, 0))
    yield Case("200 records", file_of(100, filled(200)), IN_ORDER)


def tonnage_lengths(rng: Random) -> Cases:
    """A tonnage length in its range isn't wrong in itself: what the records say of it is judged after them."""
    yield Case("tonnage length 100, U 4800", of_the_paper(length=100), (WRONG_RECORD, 1))
    yield Case("tonnage length 4799, U 4800", of_the_paper(length=4799), (WRONG_RECORD, 1))
    yield Case("tonnage length 150000, U 4800", of_the_paper(length=150_000), (LENGTHS_SHORT, 0))


# 17. A record that is tried has the id 500, and has beside it what the rules of entry look at, on a tonnage length of
# 1200: something is left of 1, 2 and 21, nothing of 11 to 16; 17 is at level 8; 2 and 14 aren't plain, 3 is a hatchway;
# a U of 100 is wanted yet.

FAULTS_LENGTH = 1200
BESIDE = (
    record(1, 0, U, PLAIN, 1_000, 600), record(2, 0, S, EXEMPT, 500, 300), record(3, 0, H, PLAIN, 50, 100),
    record(11, 1, R, PLAIN, 100, 10),
    *(record(id, id - 1, R, DEDUCTED if id == 14 else PLAIN, 100, 10) for id in range(12, 18)),
    record(21, 1, R, PLAIN, 10, 10), record(4, 0, U, PLAIN, 500, 500),
)
LEFT = {1: 890, 2: 500, 12: 0, 21: 10}
LAST_UNDER_DECK = record(6000, 0, U, PLAIN, 100, 100)
SOUND = {
    U: record(500, 0, U, PLAIN, 10, 100), B: record(500, 0, B, EXEMPT, 10, 1200), S: record(500, 0, S, PLAIN, 10, 30),
    H: record(500, 0, H, PLAIN, 10, 30), R: record(500, 1, R, DEDUCTED, 10, 30),
}


class Tried(NamedTuple):
    """A record made from a sound one of a kind, and how it differs."""

    kind: int
    own: Record
    how: str


def changed(kind: int, /, **fields: int) -> Tried:
    """A sound record of a kind, but for these fields."""
    return Tried(kind, SOUND[kind]._replace(**fields), said(fields))


def beside(kind: int, count: int) -> list[Record]:
    """That many records beside one of this kind, with which the U lengths add up."""
    boxes = (record(id, 0, H, PLAIN, 1, 1) for id in range(7000, 7000 + count))
    return [*BESIDE, *[LAST_UNDER_DECK] * (kind != U), *boxes][:count]


def with_record(tried: Tried, position: int, count: int, form: int = FORM_1) -> bytes:
    """A sheet of that many, in which the record that is tried stands at the position."""
    others = beside(tried.kind, count - 1)
    return file_of(FAULTS_LENGTH, [*others[:position - 1], tried.own, *others[position - 1:]], form=form)


def at_places(records: Iterable[Tried], number: int, *places: tuple[int, int]) -> Cases:
    """Each of the records at each of the places, a position and a count, where it is made for the number."""
    for tried in records:
        for position, count in places:
            name = f"{LETTERS[tried.kind]} with {tried.how}, {position} of {count}"
            yield Case(name, with_record(tried, position, count), (number, position) if number else IN_ORDER)


def wrong_in_itself(kind: int) -> Iterator[Tried]:
    """'A nonzero zero field, a wrong kind, a number outside its range, a U, B, S or H with an enclosing id.'"""
    wrong = {
        "zero": (1, 128, 256, 2**15, 257, 2**16 - 1), "kind": (0, 6, 7, 128, 255), "standing": (5, 128, 255),
        "tonnage": (GREATEST_TONNAGE + 1, 2**31, 2**32 - 1), "length": (0, 150_001, 2**32 - 1),
        "id": (0, 10_000, 2**16 - 1),
    }
    if kind in (U, B):
        wrong["length"] = (0, 1, 99, 150_001, 2**32 - 1)
    if kind != R:
        wrong["within"] = (1, 2, 3, 500, 9_998, 10_000, 256, 2**16 - 1)
    yield from (changed(kind, **{field: value}) for field, values in wrong.items() for value in values)


def cannot_take(kind: int) -> Iterator[Tried]:
    """Entry would refuse it with 6: 'kind can't take this standing'."""
    yield from (changed(kind, standing=standing) for standing in STANDINGS if not s.MAY_HAVE[kind][standing])


def wrong_of_every_kind() -> list[Tried]:
    """Records with a wrong number in them."""
    return [tried for kind in KINDS for tried in (*wrong_in_itself(kind), *cannot_take(kind))]


def wrong_beside_any() -> Iterator[Tried]:
    """Records that entry would refuse whatever stands before them."""
    yield from (changed(R, within=within) for within in (0, 500, 9_998, 10_000, 2**16 - 1))  # enclosing id not standing
    yield from (changed(U, length=length) for length in (1201, 150_000))  # longer than the tonnage length


def wrong_behind_others() -> Iterator[Tried]:
    """Records that entry would refuse for what stands before them."""
    yield from (changed(kind, id=id) for kind in KINDS for id in (1, 3, 17, 4))  # an id twice
    yield from (changed(R, within=3, standing=standing) for standing in STANDINGS)  # in a hatchway
    yield from (changed(R, within=17, tonnage=tonnage, standing=PLAIN) for tonnage in (0, 100))  # level 9
    for within in (2, 14, 15, 16):  # not plain twice
        yield from (changed(R, within=within, tonnage=0, standing=standing) for standing in NOT_PLAIN)
    for within, left in LEFT.items():  # rooms too large
        yield changed(R, within=within, tonnage=left + 1, standing=PLAIN)
    yield from (changed(U, length=length) for length in (101, 600))  # U lengths too long


def let_in() -> Iterator[Tried]:
    """Records at the ends of their ranges, and such as entry just accepts with what stands before them."""
    for kind in KINDS:
        yield from (changed(kind, id=9_999), changed(kind, tonnage=0))
        if kind != R:
            yield changed(kind, tonnage=GREATEST_TONNAGE)
        if kind != U:
            yield from (changed(kind, length=length) for length in (m.LEAST_LENGTH[kind], m.GREATEST_LENGTH))
    for within, left in LEFT.items():
        yield changed(R, within=within, tonnage=left, standing=PLAIN)
    yield changed(R, within=16, tonnage=0, standing=PLAIN)  # level 8, below 14
    yield from (changed(R, within=21, standing=standing) for standing in STANDINGS)


def wrong_records(rng: Random) -> Cases:
    """17 by every cause and kind, at the first, a middle and the last record of small sheets."""
    anywhere = (*wrong_of_every_kind(), *wrong_beside_any())
    yield from at_places(anywhere, WRONG_RECORD, (1, 13), (7, 14), (13, 14), (14, 14))
    yield from at_places(wrong_behind_others(), WRONG_RECORD, (13, 14), (14, 14))


def records_let_in(rng: Random) -> Cases:
    """No 17 at the edges of what it says."""
    yield from at_places(let_in(), ACCEPTED, (13, 14), (15, 15), (PLACES, PLACES))


def one_of_each(records: Iterable[Tried]) -> list[Tried]:
    """One record for each way to differ, of one of the kinds that can."""
    return list({tried.how: tried for tried in records}.values())


def wrong_records_of_200(rng: Random) -> Cases:
    """17 by every cause at the first, a middle and the 200th record."""
    anywhere = (*one_of_each(wrong_of_every_kind()), *wrong_beside_any())
    yield from at_places(anywhere, WRONG_RECORD, (1, PLACES), (100, PLACES), (PLACES, PLACES))
    yield from at_places(one_of_each(wrong_behind_others()), WRONG_RECORD, (100, PLACES), (PLACES, PLACES))


def enclosed_later(rng: Random) -> Cases:
    """17: a room whose enclosing space stands only behind it, at the first and at other places."""
    for position in (1, 2, 5, 13):
        file = with_record(changed(R, within=LAST_UNDER_DECK.id, standing=PLAIN), position, 14)
        yield Case(f"enclosed by a later one, {position} of 14", file, (WRONG_RECORD, position))
    yield Case("the paper's sheet backwards", file_of(PAPERS_LENGTH, PAPERS_RECORDS[::-1]), (WRONG_RECORD, 2))


def wrong_twice(rng: Random) -> Cases:
    """17 has the position of the first such record, by whatever causes."""
    wrong = (*wrong_of_every_kind(), *wrong_beside_any(), *wrong_behind_others())
    faults = [tried for tried in wrong if tried.kind != U]
    for number in range(60):
        records = beside(R, 16)
        places = sorted(rng.sample(range(len(BESIDE), 16), 2))
        for place in places:
            records[place] = rng.choice(faults).own
        yield Case(f"wrong twice {number}", file_of(FAULTS_LENGTH, records), (WRONG_RECORD, places[0] + 1))


# 13, 14 and 18

def a_thousand(ballast: int, *more: Record) -> list[Record]:
    """U of 700 and 300 on a tonnage length of 1200, with a room of ballast in the first."""
    return [
        record(1, 0, U, PLAIN, 700, 600), record(2, 0, U, PLAIN, 300, 600), record(3, 1, R, BALLAST, ballast, 10),
        *more,
    ]


def short_lengths(rng: Random) -> Cases:
    """13: 'U lengths don't add up to the tonnage length', marked or not; without any record too."""
    refused = (LENGTHS_SHORT, 0)
    for justified in (NOT_MARKED, JUSTIFIED):
        for length in (4801, 4900, 150_000):
            file = of_the_paper(length=length, justified=justified)
            yield Case(f"tonnage length {length}, mark {justified}", file, refused)
        for length, gross, net in ((100, 0, 0), (150_000, 0, 0), (100, 5, 4), (4800, 2**64 - 1, 2**64 - 1)):
            file = file_of(length, [], justified=justified, gross=gross, net=net)
            yield Case(f"no record, length {length}, {gross} and {net}, mark {justified}", file, refused)
    for kind in (B, S, H):
        file = file_of(1200, [record(1, 0, kind, PLAIN, 5, 1200)])
        yield Case(f"{LETTERS[kind]} alone as long as the tonnage length", file, refused)
    for length in (100, 599):
        records = [record(1, 0, U, PLAIN, 5, 600), record(2, 0, U, PLAIN, 5, length)]
        yield Case(f"U 600 and {length} of 1200", file_of(1200, records), refused)


def ballasts(rng: Random) -> Cases:
    """14: 'ballast over 30%, not justified': at 30% exactly and over it, marked and not."""
    exempt, hatchway, larger = (
        record(4, 2, R, EXEMPT, 100, 10), record(4, 0, H, PLAIN, 15, 10), record(4, 0, H, PLAIN, 18, 10)
    )
    for name, more, share in (
        ("1000", (), 300), ("900", (exempt,), 270), ("1010", (hatchway,), 303), ("1013", (larger,), 303)
    ):
        for ballast in (0, 1, share - 1, share, share + 1, 700):
            for justified in (NOT_MARKED, JUSTIFIED):
                file = file_of(FAULTS_LENGTH, a_thousand(ballast, *more), justified=justified)
                over = ballast > share and not justified
                made_for = (NOT_JUSTIFIED, 0) if over else IN_ORDER
                again = not over and ballast not in (share, share + 1)
                yield Case(f"ballast {ballast} of {name}, mark {justified}", file, made_for, again)
    nothing = [record(1, 0, U, PLAIN, 0, 1200), record(2, 1, R, BALLAST, 0, 10)]
    yield Case("ballast of nothing", file_of(FAULTS_LENGTH, nothing, justified=NOT_MARKED), IN_ORDER)


def wrong_sums(rng: Random) -> Cases:
    """18: 'gross or net isn't what the records give', by one either way and in every byte."""
    gross, net = 12_439, 12_119  # the paper's
    wrong = [{"gross": gross + by} for by in (-1, 1, 100, -gross)] + [{"net": net + by} for by in (-1, 1, 320, -net)]
    wrong += [{"gross": gross + by, "net": net + by} for by in (-1, 1)] + [{"gross": net, "net": gross}]
    for byte in range(1, 8):
        wrong += [{"gross": gross + 256**byte}, {"net": net + 256**byte}]
    wrong += [{"gross": 2**64 - 1}, {"net": 2**64 - 1}, {"gross": gross + 255 * 256**7, "net": net + 255 * 256**7}]
    for number, fields in enumerate(wrong):
        yield Case(said(fields), of_the_paper(**fields), (WRONG_SUMS, 0), again=number > 12)
        yield Case(f"{said(fields)}, marked", of_the_paper(justified=JUSTIFIED, **fields), (WRONG_SUMS, 0), again=True)
    for number in range(20):
        field, by = rng.choice(("gross", "net")), one_of(rng, (-1, 1))
        file = a_small_file(rng)
        trailer = dayfile.last_trailer(file)
        trailer = trailer._replace(**{field: (getattr(trailer, field) + by) % 2**64})
        off = file[:-TRAILER.size] + TRAILER.pack(*trailer)
        yield Case(f"sums off by one {number}", off, (WRONG_SUMS, 0), again=number > 0)


# Several at once

ORDER = (WRONG_FILE, WRONG_RECORD, LENGTHS_SHORT, NOT_JUSTIFIED, DEDUCTIONS_PASS, WRONG_SUMS)

FAULTS_OF_RECORD = {  # by the field, in a U, a room and a hatchway alike
    "id": Faults((0, 10_000)), "within": Faults((9,), (256,)), "kind": Faults((0, 6)), "standing": Faults((5,), (255,)),
    "zero": Faults((1, 256)), "tonnage": Faults((GREATEST_TONNAGE + 1,), (2**31,)), "length": Faults((0, 150_001)),
    "deck": Faults((100,), (256, 2**16 - 1)), "second_zero": Faults((1, 256), (2**16 - 1,)),
}


def a_wrong_trailer(rng: Random, form: int, count: int) -> dict[str, int]:
    """What makes a trailer over so many records wrong, whatever it says of mark and tonnage length."""
    return rng.choice((
        {"telling": 1}, {"distance": distance(form, count) + 1}, {"count": count + 1},
        {"count": count + 1, "distance": distance(form, count + 1)},
    ))


def with_faults(rng: Random, numbers: Sequence[int], form: int, vessel: int) -> tuple[bytes, int]:
    """A sheet with a fault for each of these numbers, and the position of a wrong record.

    Its machinery of 300 has 525 deducted, which is all the gross with a ballast of 475, and one over with 476.
    """
    ballast, position = 476 if DEDUCTIONS_PASS in numbers else 475, 0
    records, wrong = a_thousand(ballast, record(4, 2, R, MACHINERY, 300, 9)), {"justified": JUSTIFIED}
    if WRONG_RECORD in numbers:
        position, field = rng.randint(1, 4), rng.choice(fields_in(form))
        value = rng.choice(FAULTS_OF_RECORD[field].edges)
        records[position - 1] = records[position - 1]._replace(**{field: value})
    if LENGTHS_SHORT in numbers:
        wrong["length"] = FAULTS_LENGTH + one_of(rng, (1, 100, 1200))
    if NOT_JUSTIFIED in numbers:
        wrong["justified"] = NOT_MARKED
    if WRONG_SUMS in numbers:
        wrong[rng.choice(("gross", "net"))] = one_of(rng, (1, 12_345, 2**64 - 1))
    if WRONG_FILE in numbers:
        wrong |= a_wrong_trailer(rng, form, len(records))
    return file_of(FAULTS_LENGTH, records, form=form, vessel=vessel, **wrong), position


def several_at_once(rng: Random) -> Cases:
    """Every set of 16, 17, 13, 14, 21 and 18 in one file of each form: the first of them in that order is given."""
    for form, number, size in product(FORMS, range(3), range(len(ORDER) + 1)):
        for numbers in combinations(ORDER, size):
            file, position = with_faults(rng, numbers, form, one_of(rng, VESSELS))
            first = numbers[0] if numbers else ACCEPTED
            made_for = (first, position if first == WRONG_RECORD else 0)
            yield Case(f"{numbers} at once in form {form}, {number}", file, made_for, again=number > 0 or size > 2)


# Machinery

# Of a gross of 1000: machinery at the edges of its classes and of their roundings; and in each class some, with what is
# deducted beside it where nothing is left of the gross.
SOME_MACHINERY = (0, 1, 12, 130, 131, 199, 200, 202, 571)
ALL_DEDUCTED = ((100, 754), (130, 680), (150, 680), (200, 650), (400, 300), (571, 1))


def with_machinery(form: int, machinery: int, deducted: int = 0, **wrong: int) -> bytes:
    """The file of a U of 1000 with a machinery room and a deducted one, but for what is said of its trailer."""
    records = [
        record(1, 0, U, PLAIN, 1_000, FAULTS_LENGTH), record(2, 1, R, MACHINERY, machinery, 10),
        record(3, 1, R, DEDUCTED, deducted, 10),
    ]
    return file_of(FAULTS_LENGTH, records, form=form, **wrong)


def edges_of_classes(gross: int) -> tuple[int, ...]:
    """The greatest machinery that is 13% of the gross or less, the greatest under 20%, and the one behind each."""
    of_small, of_middle = 13 * gross // 100, -(-gross // 5) - 1
    return of_small, of_small + 1, of_middle, of_middle + 1


def any_machinery(rng: Random, form: int) -> bytes:
    """A sheet whose machinery is any part of the gross, often at an edge of its classes or so that nothing is left.

    What is deducted beside it is any part of the rest, often just all of the gross or one over.
    """
    tonnage, hatchways = rng.randint(1, one_of(rng, (40, 400, 9_999))), one_of(rng, (0, rng.randrange(99)))
    gross = tonnage + m.hatchway_excess(tonnage, hatchways)
    edges = *edges_of_classes(gross), gross * 4 // 7, gross * 4 // 7 + 1, rng.randint(0, tonnage)
    machinery = min(max(one_of(rng, edges), 0), tonnage)
    left = max(gross - m.engine_room_deduction(machinery, gross), 0)
    deducted = min(one_of(rng, (0, left, left + 1, rng.randint(0, tonnage))), tonnage - machinery)
    return file_of(FAULTS_LENGTH, [
        record(1, 0, U, PLAIN, tonnage, FAULTS_LENGTH), record(2, 0, H, PLAIN, hatchways, 10),
        record(3, 1, R, MACHINERY, machinery, 10), record(4, 1, R, DEDUCTED, deducted, 10),
    ], form=form)


def wrong_nets(machinery: int) -> list[int]:
    """What would be left of a gross of 1000 by the rules of other classes, with nothing or the room itself deducted."""
    deductions = m.deduction_of_small(machinery), m.deduction_of_middle(1_000), machinery * 7 // 4, 0, machinery
    right = m.engine_room_deduction(machinery, 1_000)
    return list(dict.fromkeys(1_000 - deduction for deduction in deductions if right != deduction <= 1_000))


def machinery_in_files(rng: Random) -> Cases:
    """Machinery at the edges of its classes, in each form; 18 by the net that another rule than its own would give."""
    for form, machinery in product(FORMS, SOME_MACHINERY):
        name = f"machinery {machinery} of 1000 in form {form}"
        yield Case(name, with_machinery(form, machinery), IN_ORDER)
        for number, net in enumerate(wrong_nets(machinery)):
            file = with_machinery(form, machinery, net=net)
            yield Case(f"{name}, net {net}", file, (WRONG_SUMS, 0), again=form == FORM_2 or number > 1)


def deductions_over_gross(rng: Random) -> Cases:
    """21: 'when deductions pass gross', by one, in each class and form; just all of it deducted is in order.

    A net of 0 and one that is below it, as 8 bytes would have that, don't matter.
    """
    for form, (machinery, deducted) in product(FORMS, ALL_DEDUCTED):
        name, over = f"{machinery} and {deducted} of 1000 in form {form}", (DEDUCTIONS_PASS, 0)
        yield Case(f"{name}, all deducted", with_machinery(form, machinery, deducted), IN_ORDER)
        yield Case(f"{name}, one over", with_machinery(form, machinery, deducted + 1), over)
        wrapped = with_machinery(form, machinery, deducted + 1, net=2**64 - 1)
        yield Case(f"{name}, one over and a net below 0", wrapped, over, again=machinery != 150)
    for tonnage, made_for in ((57_142_857, IN_ORDER), (57_142_858, (DEDUCTIONS_PASS, 0))):
        hull = [record(id, 0, U, PLAIN, GREATEST_TONNAGE, 1500) for id in range(1, 101)]
        rooms = [record(100 + id, id, R, MACHINERY, tonnage, 10) for id in range(1, 101)]
        yield Case(f"100 rooms of machinery of {tonnage}", file_of(150_000, [*hull, *rooms]), made_for)


def machinery_twice(rng: Random) -> Cases:
    """17: machinery in a room that isn't plain, or the other way round, with a plain one between them or none."""
    for form, (upper, lower), between in product(FORMS, product(NOT_PLAIN, repeat=2), (0, 1)):
        if MACHINERY in (upper, lower):
            records = [
                *filled(1), record(2, 1, R, upper, 5, 9), *[record(3, 2, R, PLAIN, 5, 9)] * between,
                record(9, 2 + between, R, lower, 5, 9),
            ]
            name = f"{lower} in {upper}, {between} between, in form {form}"
            again = form == FORM_2 or between > 0
            yield Case(name, file_of(ONES_LENGTH, records, form=form), (WRONG_RECORD, len(records)), again)


# Sections of chance

def taken_out(rng: Random, file: bytes) -> bytes:
    """A file without a byte, a vessel number or a record of either form somewhere."""
    place, size = rng.randrange(len(file)), one_of(rng, (1, 4, 16, 20))
    return file[:place] + file[place + size:]


def put_in(rng: Random, file: bytes) -> bytes:
    """A file with so many bytes more somewhere."""
    place = rng.randrange(len(file))
    return file[:place] + rng.randbytes(one_of(rng, (1, 4, 16, 20))) + file[place:]


def cuts(rng: Random) -> Cases:
    """A file of each form without some of its first, of its last or of other bytes; with bytes more."""
    for form in FORMS:
        whole = of_the_paper(form=form, vessel=THREES_VESSEL)
        for size in range(len(whole)):
            yield Case(f"the first {size} bytes of the paper's file in form {form}", whole[:size])
        for byte in (*range(16), *range(16, 256, 24), 255):
            yield Case(f"byte {byte} behind the paper's file in form {form}", whole + bytes([byte]))
        for number in range(50):
            file, of_form = a_small_file(rng, form), f"in form {form}, {number}"
            yield Case(f"cut file {of_form}", file[:rng.randrange(len(file))])
            yield Case(f"file cut ahead {of_form}", file[rng.randint(1, len(file)):])
            yield Case(f"file with a byte behind {of_form}", file + rng.randbytes(1))
            yield Case(f"bytes taken out {of_form}", taken_out(rng, a_small_file(rng) + file))
            yield Case(f"bytes put in {of_form}", put_in(rng, file))


def flipped(file: bytes, bit: int) -> bytes:
    """A file with one bit the other way."""
    return file[:bit // 8] + bytes([file[bit // 8] ^ 1 << bit % 8]) + file[bit // 8 + 1:]


def flips(rng: Random) -> Cases:
    """Every single bit of a file the other way, of the paper's in form 1, of the three's in form 2; some of others."""
    for form, whole, others in ((FORM_1, of_the_paper(), 300), (FORM_2, of_three(FORM_2), 100)):
        for bit in range(8 * len(whole)):
            yield Case(f"bit {bit} of a file of form {form} the other way", flipped(whole, bit))
        for number in range(others):
            file = a_small_file(rng, form)
            flip = flipped(file, rng.randrange(8 * len(file)))
            yield Case(f"another file of form {form} with a bit the other way {number}", flip)


def an_edge(rng: Random, records: Sequence[Record], field: str) -> int:
    """A number for a field of a record: one at an edge, or one that the other records know."""
    edges = {
        "id": (0, 1, 9_999, 10_000), "within": (0, 1, 9_999), "kind": range(7), "standing": range(6),
        "zero": (0, 1, 256), "tonnage": (0, 1, GREATEST_TONNAGE, GREATEST_TONNAGE + 1),
        "length": (0, 1, 99, 100, 150_000, 150_001), "deck": (0, 1, 99, 100, 256), "second_zero": (0, 0, 0, 1, 256),
    }
    known = [getattr(one, "id" if field == "within" else field) for one in records]
    any_number = rng.randrange(256**BYTES_OF[field])
    return one_of(rng, (*edges[field], *known, one_of(rng, known), any_number))


def touched(rng: Random) -> Cases:
    """Sheets in order but for a field or two of a record, the trailer fitting the records as they are."""
    for form, sheets in ((FORM_1, 900), (FORM_2, 300)):
        for number in range(sheets):
            length = one_of(rng, (100, 1200, 150_000))
            records = decked(rng, some_records(rng, rng.randint(1, 9), length))
            for _ in range(rng.randint(1, 2)):
                place, field = rng.randrange(len(records)), rng.choice(fields_in(form))
                records[place] = records[place]._replace(**{field: an_edge(rng, records, field)})
            file = file_of(length, records, form=form, vessel=one_of(rng, VESSELS))
            yield Case(f"touched sheet of form {form}, {number}", file)


def machinery_by_chance(rng: Random) -> Cases:
    """Sheets with any machinery, a hatchway and any deducted room."""
    for form, number in product(FORMS, range(150)):
        yield Case(f"any machinery in form {form}, {number}", any_machinery(rng, form))


def moved(rng: Random) -> Cases:
    """Sheets of which a record stands elsewhere, twice or not at all, marked or not whatever they need."""
    for number in range(300):
        length = one_of(rng, (100, 1200, 150_000))
        records = some_records(rng, rng.randint(2, 9), length)
        place = rng.randrange(len(records))
        one = records.pop(place)
        for _ in range(one_of(rng, (0, 1, 1, 1, 2))):
            records.insert(rng.randint(0, len(records)), one)
        yield Case(f"moved record {number}", file_of(length, records, justified=rng.randrange(2)))


def noise(rng: Random) -> Cases:
    """Bytes at random; records at random or of edges, with a trailer that fits them, mostly."""
    for size in (*range(0, 64, 3), 28, 44, 100, 500, 5000):
        yield Case(f"{size} bytes at random", rng.randbytes(size))
    for form, number in product(FORMS, range(100)):
        layout = FORMS[form].record
        records = [Record(*fields) for fields in layout.iter_unpack(rng.randbytes(layout.size * rng.randrange(5)))]
        trailer = {"justified": rng.randrange(3)} | one_of(rng, ({}, {}, {}, {"telling": 1}))
        file = file_of(rng.randint(90, 150_010), records, form=form, vessel=rng.randrange(2**32), **trailer)
        yield Case(f"records of noise in form {form}, {number}", file)
    for form, number in product(FORMS, range(170)):
        edges = ([an_edge(rng, PAPERS_RECORDS, field) for field in fields_in(form)] for _ in range(rng.randint(1, 5)))
        file = file_of(rng.choice((100, 4800)), [Record(*fields) for fields in edges], form=form)
        yield Case(f"records of edges in form {form}, {number}", file)


# The two forms

def forms_in_order(rng: Random) -> Cases:
    """Both forms in order: with decks and vessel numbers at the ends of their ranges, with none, and with both."""
    for form in FORMS:
        yield Case(f"three in form {form}", of_three(form), IN_ORDER)
        yield Case(f"three in form {form}, marked", of_three(form, justified=JUSTIFIED), IN_ORDER)
    yield Case("the paper's whole sheet in form 2", of_the_paper(form=FORM_2), IN_ORDER)
    for vessel in VESSELS:
        file = file_of(THREES_LENGTH, PLAIN_THREE, form=FORM_2, vessel=vessel)
        yield Case(f"vessel {vessel} and no deck", file, IN_ORDER)
    for position in range(1, len(THREE) + 1):
        for deck in (NO_DECK, 1, 98, 99):
            yield Case(f"deck {deck} at {position}", three_with(FORM_2, position, deck=deck), IN_ORDER)
    for kind in KINDS:
        file = with_record(changed(kind, deck=99), 14, 14, FORM_2)
        yield Case(f"{LETTERS[kind]} with deck 99", file, IN_ORDER)
    for number in range(40):
        yield Case(f"small sheet of form 2 {number}", a_small_file(rng, FORM_2), IN_ORDER, again=number > 0)


def telling_bytes(rng: Random) -> Cases:
    """16: 'distance, zero byte ... wrong': any telling byte with the distance of the other form."""
    refused = (WRONG_FILE, 0)
    for form in FORMS:
        for telling in (0, 1, 2, 3, 255):
            name = f"telling byte {telling} and the other distance in form {form}"
            wrong = of_three(form, telling=telling, distance=distance(OTHER[form], len(THREE)))
            if telling == FORMS[OTHER[form]].telling:  # read as the other form, if the file is long enough for that
                yield from (Case(f"{name}, {ahead} bytes ahead", bytes(ahead) + wrong) for ahead in (0, 16, 40))
            else:
                yield Case(name, wrong, refused)
                yield Case(f"{name}, 40 bytes ahead", bytes(40) + wrong, refused, again=True)
        for count in (0, 1, 2, 4, 5):
            wrong = of_three(form, count=count, distance=distance(OTHER[form], count))
            name = f"count {count} and its distance in the other form, form {form}"
            yield Case(name, wrong, refused, again=count > 2)


def sizes_of_forms(rng: Random) -> Cases:
    """16: 'file shorter than 28 bytes or than its distance', in each form by one byte and by more; and a byte over."""
    refused = (WRONG_FILE, 0)
    for form in FORMS:
        whole = of_three(form)
        for size in (27, 28, 29, 31, 32, 33, len(whole) - 20, len(whole) - 16, len(whole) - 4, len(whole) - 1):
            yield Case(f"the last {size} bytes in form {form}", whole[-size:], refused)
        for ahead in (1, 4, 16, 20, 24):
            yield Case(f"{ahead} bytes ahead of form {form}", rng.randbytes(ahead) + whole, IN_ORDER)
        yield Case(f"form {form} without its last byte", whole[:-1], refused)
        for missing in (4, 28, 32):
            yield Case(f"form {form} without its last {missing} bytes", whole[:-missing])
        for byte in (0, 1, 2, 255):
            yield Case(f"byte {byte} behind form {form}", whole + bytes([byte]), refused, again=byte > 0)
    of_form_2 = of_three(FORM_2)
    without = of_form_2[:-TRAILER.size - 4] + of_form_2[-TRAILER.size:]
    yield Case("form 2 without its vessel number", without, refused)
    of_form_1 = of_three(FORM_1)
    more = of_form_1[:-TRAILER.size] + bytes(4) + of_form_1[-TRAILER.size:]
    yield Case("form 1 with a vessel number", more)


def counts_of_forms(rng: Random) -> Cases:
    """No record, one, 200 and 201, in each form: 'count over 200' is 16, and without a U 13 is left to say."""
    for form in FORMS:
        for justified in (NOT_MARKED, JUSTIFIED):
            none = file_of(100, [], form=form, vessel=7, justified=justified)
            yield Case(f"no record in form {form}, mark {justified}", none, (LENGTHS_SHORT, 0))
            yield Case(f"no record in form {form}, mark {justified}, a byte short", none[1:], (WRONG_FILE, 0))
        yield Case(f"one record in form {form}", of_one(form, vessel=7), IN_ORDER)
        for count in (199, 200):
            file = file_of(100, decked(rng, filled(count)), form=form, vessel=7)
            yield Case(f"{count} records in form {form}", file, IN_ORDER)
        for count in (201, 202):
            yield Case(f"{count} records in form {form}", file_of(100, filled(count), form=form), (WRONG_FILE, 0))
        for count in (200, 201):
            wrong = of_three(form, count=count, distance=distance(form, count))
            yield Case(f"{count} records in form {form}, not there", wrong, (WRONG_FILE, 0))


def fields_of_forms(rng: Random) -> Cases:
    """Every field of both forms damaged alone, those of a record in the first, a middle and the last."""
    for form in FORMS:
        for field, position in product(fields_in(form), range(1, len(THREE) + 1)):
            for value, far in FAULTS_OF_RECORD[field].told_apart():
                file = three_with(form, position, **{field: value})
                yield Case(f"{field} {value} at {position} in form {form}", file, (WRONG_RECORD, position), again=far)
        for position, made_for in ((1, (WRONG_RECORD, 1)), (2, IN_ORDER), (3, (WRONG_RECORD, 3))):
            file = three_with(form, position, standing=MACHINERY)
            yield Case(f"machinery at {position} in form {form}", file, made_for)
        yield Case(f"U of 99 in form {form}", three_with(form, 1, length=99), (WRONG_RECORD, 1))
        for length, made_for in ((99, (WRONG_RECORD, 3)), (100, IN_ORDER)):
            yield Case(f"B of {length} in form {form}", three_with(form, 3, kind=B, length=length), made_for)
        for field, faults in faults_of_trailer(form, len(THREE)).items():
            for value, far in faults.told_apart():
                file = of_three(form, **{field: value})
                yield Case(f"{field} {value} in form {form}", file, (WRONG_FILE, 0), again=far)
        trailer = dayfile.last_trailer(of_three(form))
        for field, by in product(("gross", "net"), (1, -1, 2**32, 2**63)):
            wrong = {field: getattr(trailer, field) + by}
            yield Case(f"{field} off by {by} in form {form}", of_three(form, **wrong), (WRONG_SUMS, 0), again=by != 1)
        yield Case(f"tonnage length 1199 in form {form}", of_three(form, length=1199), (WRONG_RECORD, 1))
        yield Case(f"tonnage length 1201 in form {form}", of_three(form, length=1201), (LENGTHS_SHORT, 0))


REFUSED_BY_ENTRY = {  # by the number that entry would give, records behind a U of 100 with a tonnage of 5
    4: (record(1, 0, H, PLAIN, 5, 9, deck=9),), 5: (record(2, 9, R, PLAIN, 5, 9, deck=9),),
    6: (record(2, 0, H, PLAIN, 5, 9), record(3, 2, R, PLAIN, 5, 9, deck=9)),
    7: tuple(record(id, id - 1, R, PLAIN, 5, 9, deck=9) for id in range(2, 10)),
    8: (record(2, 1, R, EXEMPT, 5, 9), record(3, 2, R, DEDUCTED, 5, 9, deck=9)),
    9: (record(2, 1, R, PLAIN, 3, 9), record(3, 1, R, PLAIN, 3, 9, deck=9)),
}


def refused_by_entry(rng: Random) -> Cases:
    """17: 'one that entry would refuse', with each number, in each form; without that record the sheet is in order."""
    for form, (number, records) in product(FORMS, REFUSED_BY_ENTRY.items()):
        wrong = [*filled(1), *records]
        file = file_of(100, wrong, form=form, vessel=7)
        yield Case(f"{number} by entry in form {form}", file, (WRONG_RECORD, len(wrong)))
        file = file_of(100, wrong[:-1], form=form, vessel=7)
        yield Case(f"{number} by entry taken out in form {form}", file, IN_ORDER, again=True)


def decks_in_files(rng: Random) -> Cases:
    """17: 'for such a deck in a file', beside other causes in the same record and in others; at the 200th too."""
    for deck in (100, 101, 127, 128, 255, 257, 355, 2**15, 2**16 - 256):
        yield Case(f"deck {deck}", three_with(FORM_2, 2, deck=deck), (WRONG_RECORD, 2))
    for field, value in (("id", 1), ("kind", 0), ("zero", 1), ("second_zero", 1), ("standing", 5), ("within", 3)):
        file = three_with(FORM_2, 2, deck=100, **{field: value})
        yield Case(f"deck 100 with {field} {value}", file, (WRONG_RECORD, 2))
    for first, second in combinations(range(3), 2):
        for one, other in product(({"deck": 100}, {"second_zero": 1}, {"id": 0}, {"standing": 5}), repeat=2):
            records = [*THREE]
            for place, fields in ((first, one), (second, other)):
                records[place] = records[place]._replace(**fields)
            file = file_of(THREES_LENGTH, records, form=FORM_2, vessel=THREES_VESSEL)
            name = f"{said(one)} at {first + 1} and {said(other)} at {second + 1}"
            yield Case(name, file, (WRONG_RECORD, first + 1), again=True)
    for field, value in (("deck", 100), ("second_zero", 256)):
        records = filled(PLACES)
        records[-1] = records[-1]._replace(**{field: value})
        yield Case(f"{field} {value} at the 200th", file_of(100, records, form=FORM_2), (WRONG_RECORD, PLACES))
    records = filled(PLACES)
    records[-1] = records[-1]._replace(deck=99)
    yield Case("deck 99 at the 200th", file_of(100, records, form=FORM_2), IN_ORDER)


def refused_alone(form: int) -> Iterator[tuple[bytes, tuple[int, int]]]:
    """A sheet of a U alone, refused with each of reading's numbers, 16 also by the other form's telling byte.

    For 14 it has a room of ballast, for 21 one of machinery.
    """
    [own] = filled(1)
    yield from ((of_one(form, telling=one), (WRONG_FILE, 0)) for one in (1, FORMS[OTHER[form]].telling))
    yield file_of(ONES_LENGTH, [own._replace(zero=1)], form=form), (WRONG_RECORD, 1)
    yield of_one(form, length=ONES_LENGTH + 1), (LENGTHS_SHORT, 0)
    for standing, number in ((BALLAST, NOT_JUSTIFIED), (MACHINERY, DEDUCTIONS_PASS)):
        filling = record(2, own.id, R, standing, own.tonnage, 9)
        yield file_of(ONES_LENGTH, [own, filling], form=form, justified=NOT_MARKED), (number, 0)
    yield of_one(form, net=0), (WRONG_SUMS, 0)


def days_of_forms(rng: Random) -> Cases:
    """Sheets of both forms one behind another: only the last is judged, in its own form."""
    for forms in product(FORMS, repeat=2):
        yield Case(f"forms {forms}", b"".join(of_one(form, deck=9, vessel=7) for form in forms), IN_ORDER)
    for forms in product(FORMS, repeat=3):
        yield Case(f"forms {forms}", b"".join(a_small_file(rng, form) for form in forms), IN_ORDER)
    for form in FORMS:
        other = of_one(OTHER[form], deck=9, vessel=7)
        yield Case(f"form {form} behind a damaged one", other[:-1] + of_one(form, vessel=8), IN_ORDER)
        for number, (wrong, made_for) in enumerate(refused_alone(form)):
            name = f"{made_for[0]} in form {form} behind the other form {number}"
            yield Case(name, other + wrong, made_for)


def up(rng: Random, file: bytes) -> bytes:
    """The last sheet of a file of form 1 in form 2, wrong records as they are, with decks and a vessel by chance."""
    trailer, records = dayfile.last_trailer(file), decked(rng, dayfile.last_records(file))
    of_form_2 = trailer._replace(distance=distance(FORM_2, trailer.count), telling=FORMS[FORM_2].telling)
    return as_bytes(FORM_2, records, Between(one_of(rng, VESSELS)), of_form_2)


AGAIN = (wrong_records, records_let_in, enclosed_later, wrong_twice, short_lengths, ballasts, wrong_sums, moved)


def the_same_in_form_2(rng: Random) -> Cases:
    """Sheets of sections of form 1 once more, judged alike; of the larger ones and of those that chance makes some."""
    for section in AGAIN:
        for name, file, made_for, _ in section(rng):
            small = made_for is not None and len(file) <= distance(FORM_1, 5)
            if len(file) <= distance(FORM_1, 16) and (small or rng.randrange(3) == 0):
                yield Case(f"in form 2: {name}", up(rng, file), made_for, again=True)


# All of them

SECTIONS: tuple[Section, ...] = (
    sheets_in_order, days, bytes_ahead, wrong_files, counts_over_200, tonnage_lengths, wrong_records, records_let_in,
    wrong_records_of_200, enclosed_later, wrong_twice, short_lengths, ballasts, wrong_sums, several_at_once,
    machinery_in_files, deductions_over_gross, machinery_twice, cuts, flips, touched, machinery_by_chance, moved, noise,
    forms_in_order, telling_bytes, sizes_of_forms, counts_of_forms, fields_of_forms, refused_by_entry, decks_in_files,
    days_of_forms, the_same_in_form_2,
)
SEED = 69_117


@cache
def standard() -> tuple[Case, ...]:
    """The cases of every section, the same every time."""
    rng = Random(SEED)
    return tuple(case for section in SECTIONS for case in section(rng))


def long_inputs() -> Cases:
    """A sheet at the end of the longest input that `sheetlist` takes, and at the end of a longer one."""
    whole = of_the_paper()
    for size in (MOST_BYTES - 1, MOST_BYTES, MOST_BYTES + 1, 2 * MOST_BYTES):
        yield Case(f"an input of {size} bytes", bytes(size - len(whole)) + whole)


def listings() -> Iterator[tuple[str, bytes, str]]:
    """Each case by its name, with the input of the program `sheetlist` and what it prints."""
    for case in (*standard(), *long_inputs()):
        yield case.name, case.file, dayfile.listing(case.file)
