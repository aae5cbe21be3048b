"""The text protocol of the program `figures`, and a seeded script of lines that visits every edge of the rules.

A line and its answer. Words, numbers and lists are those of reference/survey.py, and so are what a value above its type is
handed on as, the lines that have no answer, and the remarks on a line or a script that is none of these:
    space KIND TONNAGE_LENGTH LENGTH HEIGHTS BREADTHS           NUMBER TONNAGE PARTS THIRD
    hatchways G SUM                                             ALLOWANCE EXCESS
    ballast BALLAST GROSS                                       1 where ballast is over 30% of gross, else 0

    python3 -m reference.figures script             prints the script
    python3 -m reference.figures answers < script   prints the answers
"""

import sys
from fractions import Fraction
from math import gcd
from random import Random
from typing import Any, Callable, Iterator, NamedTuple, Sequence, TypeVar

from reference import command_line, measure as m
from reference.measure import B, H, R, S, U
from reference.survey import (
    GREATEST_MEASURE, GREATEST_NUMBER, MOST_NUMBERS, Reader, a_code, a_measure, answer_to, answers_to, arguments, in_a_list,
    measures, number,
)

Item = TypeVar("Item")


# The protocol

def word(argument: int | Sequence[int]) -> str:
    """A number, or numbers joined by commas, '-' for none."""
    if isinstance(argument, int):
        return str(argument)
    return in_a_list(argument)


class Space(NamedTuple):
    """What a `space` line hands in."""

    kind: int
    tonnage_length: int
    length: int
    heights: Sequence[int]
    breadths: Sequence[int]

    def line(self) -> str:
        """The line that hands in this space."""
        return " ".join(["space", *map(word, self)])


def answer_space(*measured: Any) -> str:
    """NUMBER TONNAGE PARTS THIRD."""
    space = Space(*measured)
    return "%d %d %d %d" % (m.measure(*space) + m.division(space.kind, space.tonnage_length, space.length))


def answer_hatchways(g: int, hatchways: int) -> str:
    """ALLOWANCE EXCESS."""
    return f"{m.hatchway_allowance(g)} {m.hatchway_excess(g, hatchways)}"


def answer_ballast(ballast: int, gross: int) -> str:
    """1 where ballast is over 30% of gross, else 0."""
    return "1" if m.ballast_over(ballast, gross) else "0"


READERS: dict[str, tuple[Reader, ...]] = {
    "space": (a_code, a_measure, a_measure, measures, measures),
    "hatchways": (number, number),
    "ballast": (number, number),
}
ANSWERS: dict[str, Callable[..., str]] = {
    "space": answer_space,
    "hatchways": answer_hatchways,
    "ballast": answer_ballast,
}


def space_of(line: str) -> Space:
    """What a `space` line hands in."""
    return Space(*arguments(READERS, line.split(" ")))


def call(words: list[str]) -> str:
    """The answer to the words of a line; where they are no call, NoCall is raised."""
    given = arguments(READERS, words)
    return ANSWERS[words[0]](*given)


def answer(line: str) -> str | None:
    """The answer to one line, None where it has none."""
    return answer_to(line, call)


def answers(text: str) -> str:
    """The answers to all lines of a script, each on its line."""
    return answers_to(text, answer)


# The script: what its sections are made from

SEED = 69_109
EDGE_LENGTHS = (
    0, 1, 99, 100, 101, 2000, 2001, 3999, 4000, 4001, 5000, 5001, 10000, 10001, 15000, 15001, 20000, 20001,
    25000, 25001, 149999, 150000, 150001,
)
DIVIDED = (U, B, S)
UNDIVIDED = (H, R)
NUMBERS_OF_PARTS = {U: tuple(m.EVEN_NUMBERS), B: tuple(range(6, 17, 2)), S: tuple(m.EVEN_NUMBERS)}


def one_of(rng: Random, items: Sequence[Item]) -> Item:
    """One of the items, each as likely."""
    return items[rng.randrange(len(items))]


def some(rng: Random, count: int, least: int, most: int) -> list[int]:
    """That many numbers from the least to the most."""
    return [rng.randint(least, most) for _ in range(count)]


def asked(
    rng: Random, kind: int, tonnage_length: int, length: int, most: int = 999, middle: int | None = None
) -> Space:
    """A space with as many heights and breadths as the rules ask, small unless said; the middle height by choice."""
    least = 1 if kind in UNDIVIDED else 0
    heights = some(rng, m.heights_asked(kind, tonnage_length, length), least, min(most, m.GREATEST_HEIGHT))
    if middle is not None:
        heights[len(heights) // 2] = middle
    breadths = some(rng, m.breadths_asked(kind, heights), least, min(most, m.GREATEST_BREADTH))
    return Space(kind, tonnage_length, length, heights, breadths)


def uniform(kind: int, tonnage_length: int, length: int, height: int, breadth: int) -> Space:
    """A space as the rules ask with one height and one breadth throughout."""
    heights = [height] * m.heights_asked(kind, tonnage_length, length)
    return Space(kind, tonnage_length, length, heights, [breadth] * m.breadths_asked(kind, heights))


def bare(kind: int, tonnage_length: int, length: int) -> Space:
    """A space without any height or breadth: only its division is of interest."""
    return Space(kind, tonnage_length, length, [], [])


def changed(values: Sequence[int], place: int, value: int) -> list[int]:
    """The values with another one at a place."""
    return [*values[:place], value, *values[place:][1:]]


def places(values: Sequence[int]) -> list[int]:
    """The first, the middle and the last place, each once."""
    return sorted({0, len(values) // 2, len(values) - 1})


def outermost(greatest: int) -> tuple[int, ...]:
    """The greatest measure in range, one more, the greatest that its type holds, and two that it doesn't."""
    return greatest, greatest + 1, GREATEST_MEASURE, GREATEST_MEASURE + 2, GREATEST_NUMBER


def a_length(rng: Random) -> int:
    """A length in range, the short ones as likely as the long ones."""
    return rng.randint(100, one_of(rng, (1000, 5000, 10000, 20000, 30000, 150000)))


def lengths_with(rng: Random, kind: int, number_of_parts: int) -> tuple[int, int]:
    """A tonnage length and a length, both in range, where the kind has that number of parts."""
    while True:
        tonnage_length, length = a_length(rng), a_length(rng)
        if kind == U and rng.randrange(2):
            length = tonnage_length
        if m.parts(kind, tonnage_length, length) == number_of_parts:
            return tonnage_length, length


def length_of_tie(tonnage_length: int, lesser: int) -> int | None:
    """The length that an S would have as near to `lesser` parts as to two more, if it is a whole number.

    Half of L/lesser + L/(lesser+2) is the tonnage length divided by its number.
    """
    mean = (Fraction(1, lesser) + Fraction(1, lesser + 2)) / 2
    length = Fraction(tonnage_length, m.parts_by_table(tonnage_length)) / mean
    return int(length) if length.denominator == 1 else None


def is_tie(tonnage_length: int, length: int) -> bool:
    """Whether two of the even numbers have the nearest interval."""
    interval = Fraction(tonnage_length, m.parts_by_table(tonnage_length))
    distances = [abs(Fraction(length, number_of_parts) - interval) for number_of_parts in m.EVEN_NUMBERS]
    return distances.count(min(distances)) > 1


def is_half(x: Fraction) -> bool:
    """Whether the nearest whole number is settled only by 'a half goes up'."""
    return x.denominator == 2


# The script: its sections, each beginning with a comment line

def figures_of_the_paper(rng: Random) -> Iterator[str]:
    """The figures to meet that speak of one space, of hatchways or of ballast: first the unstarred one."""
    yield "# Figures of the paper"
    yield uniform(B, 20000, 150000, 20000, 30000).line()
    yield uniform(U, 4800, 4800, 1200, 2000).line()
    yield uniform(B, 4800, 4800, 700, 2000).line()
    yield uniform(S, 4800, 1600, 800, 1000).line()
    yield uniform(R, 4800, 1000, 400, 1000).line()
    yield uniform(R, 4800, 800, 800, 500).line()
    yield uniform(H, 4800, 500, 500, 400).line()
    yield from ("hatchways 20000 100", "hatchways 20000 101", "ballast 300 1000", "ballast 301 1000")
    yield "# The paper's lengths, step parts, tie and middle depths"
    yield from (bare(U, length, length).line() for length in (5000, 5001, 25000, 25001))
    yield from (bare(U, 4800, length).line() for length in (2000, 2001, 3999, 4000))
    yield uniform(S, 4500, 2000, 800, 1000).line()
    yield from (uniform(U, 4800, 2000, depth, 1000).line() for depth in (1600, 1601))


def edges_of_lengths(rng: Random) -> Iterator[str]:
    """Every edge as tonnage length and as length, in range or not; of an S every pair, which has its own division."""
    yield "# Edges of tonnage length and length"
    for place, tonnage_length in enumerate(EDGE_LENGTHS):
        for length in EDGE_LENGTHS:
            yield asked(rng, S, tonnage_length, length).line()
        for length in (500, *EDGE_LENGTHS[max(place - 1, 0):place + 2]):
            yield asked(rng, U, tonnage_length, length).line()
        yield asked(rng, U, 9000, tonnage_length).line()
        for length in (99, 100, tonnage_length, 150000, 150001):
            yield asked(rng, B, tonnage_length, length).line()
        for kind in UNDIVIDED:
            yield asked(rng, kind, tonnage_length, 1000).line()
            yield asked(rng, kind, 1000, tonnage_length).line()
    yield "# Lengths far out of range"
    for kind in (0, *m.KINDS):
        for tonnage_length in (0, 1000, GREATEST_MEASURE):
            yield bare(kind, tonnage_length, GREATEST_MEASURE).line()
            yield bare(kind, GREATEST_MEASURE, tonnage_length).line()


def whole_and_step(rng: Random) -> Iterator[str]:
    """A U as long as the tonnage length, one shorter and one longer, at every edge and about it."""
    yield "# U equal to, shorter and longer than the tonnage length"
    for tonnage_length in sorted({min(edge + by, 150000) for edge in EDGE_LENGTHS[3:-1] for by in (0, 7)}):
        for length in (tonnage_length - 1, tonnage_length, tonnage_length + 1):
            yield bare(U, tonnage_length, length).line()
    for length in (100, 101, 500, 1999, 2000, 2001, 3998, 3999):  # the whole of a short tonnage length has 6 parts
        yield asked(rng, U, length, length).line()
        yield asked(rng, U, length + 1, length).line()
        yield asked(rng, U, max(length - 1, 100), length).line()
        step = asked(rng, U, 9000, length)
        yield step._replace(tonnage_length=length).line()
        whole = asked(rng, U, length, length)
        yield whole._replace(tonnage_length=9000).line()


def every_number_of_parts(rng: Random) -> Iterator[str]:
    """Every number of parts of U, B and S, a U also with four and with six depth parts."""
    yield "# Every number of parts"
    for kind in DIVIDED:
        for number_of_parts in NUMBERS_OF_PARTS[kind]:
            for depth in (one_of(rng, (0, 1200, 1600)), one_of(rng, (1601, 2400, 20000))):
                lengths = lengths_with(rng, kind, number_of_parts)
                yield asked(rng, kind, *lengths, 999, depth).line()
                yield asked(rng, kind, *lengths, m.GREATEST_BREADTH, depth).line()


def middle_depths(rng: Random) -> Iterator[str]:
    """Middle depths about 16 ft, where the other stations are deeper or shallower, also with the other m's breadths."""
    yield "# Middle depths"
    for length in (100, 2000, 2001, 3999, 4000, 5000):
        stations = m.heights_asked(U, 9000, length)
        for middle in (0, 1599, 1600, 1601, 1602, 20000):
            for other in (0, 1600, 1601, 20000):
                depths = changed([other] * stations, stations // 2, middle)
                right = m.breadths_asked(U, depths)
                yield Space(U, 9000, length, depths, some(rng, right, 0, 999)).line()
                if other in (0, 20000) and stations == 3:
                    wrong = stations * (5 if middle > 1600 else 7)
                    yield Space(U, 9000, length, depths, some(rng, wrong, 0, 999)).line()


def halves_of_thirds_of_length(rng: Random) -> Iterator[str]:
    """Lengths whose 10L/(3n) is a half: there are some for 4, 8, 12 and 16 parts only."""
    yield "# Halves of third intervals of length, and one off"
    for kind in DIVIDED:
        for number_of_parts in (4, 8, 12, 16):
            if number_of_parts not in NUMBERS_OF_PARTS[kind]:
                continue
            found = 0
            while found < 5:
                tonnage_length, length = lengths_with(rng, kind, number_of_parts)
                if is_half(Fraction(10 * length, 3 * number_of_parts)):
                    found += 1
                    yield asked(rng, kind, tonnage_length, length, 999 if found > 1 else 20000).line()
                    yield bare(kind, tonnage_length, length - 1).line()
                    yield bare(kind, tonnage_length, length + 1).line()


def halves_of_thirds_of_depth(rng: Random) -> Iterator[str]:
    """Depths whose D/(3m) is a half, and one off; among them those whose third interval is 0."""
    yield "# Halves of third intervals of depth, and one off"
    for middle, row, halves in ((1200, 5, (6, 18, 30, 1590, 1602, 19998)), (1800, 7, (9, 27, 45, 1611, 1629, 19989))):
        for half in halves:
            for depth in (half - 1, half, half + 1):
                breadths = some(rng, 3 * row, 20000, 30000)
                yield Space(U, 9000, 2000, [depth, middle, depth], breadths).line()
                if (depth <= 1600) == (middle <= 1600):  # the middle station's own third interval
                    yield Space(U, 9000, 2000, [0, depth, middle], breadths).line()
    for middle, row, greatest in ((12, 5, 7), (1800, 7, 10)):
        for depth in range(greatest):
            yield Space(U, 9000, 2000, [0, depth if row == 5 else middle, depth], [30000] * (3 * row)).line()


def halves_of_boxes(rng: Random) -> Iterator[str]:
    """Hatchways and rooms with l*b*h = k*1000000 + 500000, and one off."""
    yield "# Halves of the tonnage of H and R, and one off"
    for _ in range(40):
        while True:
            length, breadth = 25 * rng.randint(1, 800), 20 * rng.randint(1, 500)
            height = 500_000 // gcd(500_000, length * breadth) * (2 * rng.randrange(20) + 1)
            if length * breadth * height % 1_000_000 == 500_000 and height <= m.GREATEST_HEIGHT:
                break
        kind = one_of(rng, UNDIVIDED)
        for one in (height - 1, height, height + 1):
            if one <= m.GREATEST_HEIGHT:
                yield Space(kind, 9000, length, [one], [breadth]).line()


def odd_third(rng: Random, kind: int, number_of_parts: int, of: tuple[int, ...] = (1, 3, 5, 7, 9)) -> tuple[int, int]:
    """Lengths where the kind has that number of parts and a third interval with such a last digit."""
    while True:
        lengths = lengths_with(rng, kind, number_of_parts)
        if m.third_of_length(lengths[1], number_of_parts) % 10 in of:
            return lengths


def half_of_level(rng: Random, kind: int, number_of_parts: int) -> Space:
    """A B or S whose volume in cubic feet is a half.

    The volume is sum of breadths * third * sum of heights / (stations * 10000000). An odd third, heights adding up to
    an odd thousand and breadths adding up to stations times an odd five thousand leave a half.
    """
    lengths, stations = odd_third(rng, kind, number_of_parts), number_of_parts + 1
    heights = some(rng, stations, 100, 300)
    heights[0] += (1000 - sum(heights)) % 2000
    breadths = [0, 0] + some(rng, stations - 2, 100, 999)
    times = m.multipliers(stations)
    entered = sum(one * breadth for one, breadth in zip(times, breadths))
    missing = (stations * 5000 - entered) % (stations * 10000)
    breadths[0], breadths[1] = missing % 4, missing // 4  # their multipliers are 1 and 4
    return Space(kind, *lengths, heights, breadths)


def half_of_under_deck(rng: Random) -> Space:
    """A U of two parts and four depth parts whose volume in cubic feet is a half.

    The volume is the sum of breadths * thirds of depth, doubly multiplied, * third / 10000000. A third interval of
    length without 2 and 5 as factors and a sum that leaves 5000000 leave a half.
    """
    lengths = odd_third(rng, U, 2, (1, 3, 7, 9))
    depths = [rng.randint(6, 17), 1600, rng.randint(100, 20000)]  # the first has the third interval 0.01
    thirds = [m.third_of_depth(depth, 4) for depth in depths]
    coefficients = [
        along * third * down for along, third in zip(m.multipliers(3), thirds) for down in m.multipliers(5)
    ]
    breadths = some(rng, 15, 1, 999)
    fine, coarse = 0, 6  # the first station's upper breadth and the middle station's second: 1 and 4 * 4 * 133
    breadths[fine] = breadths[coarse] = 0
    entered = sum(one * breadth for one, breadth in zip(coefficients, breadths))
    missing = (5_000_000 - entered) % 10_000_000
    breadths[coarse], breadths[fine] = divmod(missing, coefficients[coarse])
    return Space(U, *lengths, depths, breadths)


def halves_of_others(rng: Random) -> Iterator[str]:
    """U, B and S whose tonnage is settled only by 'a half goes up', and the same with one breadth a little less."""
    yield "# Halves of the tonnage of U, B and S, and one off"
    wanted = [(U, 2)] * 24 + [(B, 6)] * 8 + [(B, 8)] * 8 + [(S, 2)] * 8 + [(S, 4)] * 8 + [(S, 6)] * 8
    for kind, number_of_parts in wanted:
        while True:
            space = half_of_under_deck(rng) if kind == U else half_of_level(rng, kind, number_of_parts)
            if not m.out_of_range(*space) and is_half(m.volume(kind, *space[2:])):
                break
        yield space.line()
        last = len(space.breadths) - 1
        yield space._replace(breadths=changed(space.breadths, last, space.breadths[last] - 1)).line()
        yield space._replace(breadths=changed(space.breadths, last, space.breadths[last] + 1)).line()


def ties(rng: Random) -> Iterator[str]:
    """Ties of the S rule for every pair of neighbours and every class of the table, and pairs one off a tie."""
    yield "# Ties of the superstructure rule, and one off"
    classes = ((100, 5000), (5001, 10000), (10001, 15000), (15001, 20000), (20001, 25000), (25001, 150000))
    for first, last in classes:
        for lesser in m.EVEN_NUMBERS[:-1]:
            while True:
                tonnage_length = rng.randint(first, last)
                length = length_of_tie(tonnage_length, lesser)
                if length is not None and length <= m.GREATEST_LENGTH:
                    break
            yield asked(rng, S, tonnage_length, length).line()
            yield from (bare(S, tonnage_length, length + by).line() for by in (-1, 1))
            yield from (bare(S, tonnage_length + by, length).line() for by in (-1, 1))


def zeros(rng: Random) -> Iterator[str]:
    """Depths, heights and breadths of 0, all or some; end sections without area."""
    yield "# Zero depths, heights and breadths"
    for kind, lengths in ((U, (9000, 2000)), (U, (9000, 3000)), (B, (4800, 4800)), (S, (4800, 1600)), (S, (4800, 1))):
        for height, breadth in ((0, 0), (0, 500), (500, 0)):
            yield uniform(kind, *lengths, height, breadth).line()
        for _ in range(6):
            space = asked(rng, kind, *lengths)
            yield space._replace(heights=changed(space.heights, rng.randrange(len(space.heights)), 0)).line()
            yield space._replace(breadths=changed(space.breadths, rng.randrange(len(space.breadths)), 0)).line()
        space = asked(rng, kind, *lengths)
        ends = changed(changed(space.heights, 0, 0), len(space.heights) - 1, 0)
        yield space._replace(heights=ends).line()


def greatest_measures(rng: Random) -> Iterator[str]:
    """The greatest heights and breadths everywhere, for every number of parts and for the greatest length."""
    yield "# Greatest measures"
    for kind in DIVIDED:
        for number_of_parts in NUMBERS_OF_PARTS[kind]:
            lengths = lengths_with(rng, kind, number_of_parts)
            yield uniform(kind, *lengths, m.GREATEST_HEIGHT, m.GREATEST_BREADTH).line()
    for tonnage_length in (100, 5000, 10000, 15000, 20000, 25000, 150000):
        for length in (149999, 150000):
            yield uniform(B, tonnage_length, length, m.GREATEST_HEIGHT, m.GREATEST_BREADTH).line()
        yield uniform(S, tonnage_length, 150000, m.GREATEST_HEIGHT, m.GREATEST_BREADTH).line()
    for lengths in ((150000, 150000), (149999, 150000), (149999, 149999)):
        yield uniform(U, *lengths, m.GREATEST_HEIGHT, m.GREATEST_BREADTH).line()
        space = uniform(U, *lengths, m.GREATEST_HEIGHT, m.GREATEST_BREADTH)
        depths = changed(space.heights, 8, 1600)  # four depth parts: the other third intervals are rounded up
        yield space._replace(heights=depths, breadths=[m.GREATEST_BREADTH] * 85).line()
    for kind in UNDIVIDED:
        yield uniform(kind, 150000, 150000, m.GREATEST_HEIGHT, m.GREATEST_BREADTH).line()
        yield uniform(kind, 100, 1, 1, 1).line()


def examples(rng: Random) -> list[Space]:
    """One short accepted space of each kind."""
    lengths = {U: (9000, 1500), B: (4800, 4800), S: (4800, 1600), H: (4800, 500), R: (4800, 800)}
    return [asked(rng, kind, *lengths[kind]) for kind in m.KINDS]


def wrong_numbers(rng: Random) -> Iterator[str]:
    """Heights or breadths one too few, one too many, none at all, many; a number of parts that another rule gives."""
    yield "# Wrong numbers of heights and breadths"
    more = [asked(rng, U, 4000, 4000), asked(rng, U, 9000, 2001, 999, 1601), asked(rng, S, 5000, 2400)]
    for space in examples(rng) + more:
        heights, breadths = space.heights, space.breadths
        one = rng.randint(1, 999)
        for other in (heights[:-1], [*heights, one], [], heights * 2, [one] * MOST_NUMBERS):
            yield space._replace(heights=other).line()
        for other in (breadths[:-1], [*breadths, one], [], breadths * 2, [one] * MOST_NUMBERS):
            yield space._replace(breadths=other).line()
        yield space._replace(heights=heights[:-1], breadths=breadths[:-1]).line()
        yield space._replace(heights=[*heights, one], breadths=[*breadths, one]).line()
        yield space._replace(heights=[*heights, one, one], breadths=[*breadths, one, one]).line()
        yield space._replace(heights=heights[:-1], breadths=[*breadths, one]).line()
        yield space._replace(heights=[], breadths=[]).line()
        yield space._replace(heights=breadths, breadths=heights).line()
    yield asked(rng, B, 4800, 4800)._replace(length=12000).line()  # accepted: the tonnage length gives the number
    yield asked(rng, B, 12000, 12000)._replace(tonnage_length=4800).line()
    yield asked(rng, S, 4800, 4800)._replace(length=1600).line()
    yield asked(rng, S, 4800, 1600)._replace(length=4800).line()


def out_of_ranges(rng: Random) -> Iterator[str]:
    """One measure at its least, its greatest or outside, at the first, middle and last place, all else as asked."""
    yield "# One measure at an end of its range or outside"
    for space in examples(rng):
        kind = space.kind
        least_length, least = m.LEAST_LENGTH[kind], m.LEAST_HEIGHT[kind]
        for length in sorted({0, least_length - 1, least_length, *outermost(m.GREATEST_LENGTH)}):
            yield asked(rng, kind, 4800, length).line()
        for tonnage_length in (0, 99, 100, *outermost(m.GREATEST_LENGTH)):
            yield asked(rng, kind, tonnage_length, 500).line()
        for place in places(space.heights):
            for value in sorted({0, least, *outermost(m.GREATEST_HEIGHT)}):
                heights = changed(space.heights, place, value)
                asks = m.breadths_asked(kind, heights)
                breadths = space.breadths if asks == len(space.breadths) else some(rng, asks, 1, 999)
                yield space._replace(heights=heights, breadths=breadths).line()
        for place in places(space.breadths):
            for value in sorted({0, least, *outermost(m.GREATEST_BREADTH)}):
                yield space._replace(breadths=changed(space.breadths, place, value)).line()


def surplus_out_of_range(rng: Random) -> Iterator[str]:
    """A surplus measure out of range, and one out of range among too few: 2 comes before 3."""
    yield "# Out of range where the number is wrong too"
    for space in examples(rng):
        heights, breadths = space.heights, space.breadths
        for value in (0, m.GREATEST_HEIGHT, m.GREATEST_HEIGHT + 1):
            yield space._replace(heights=[*heights, value]).line()
            yield space._replace(heights=[value, *heights]).line()
            yield space._replace(heights=[value]).line()
            yield space._replace(heights=[*heights, value], breadths=[]).line()
            yield space._replace(heights=[value], breadths=[]).line()
        for value in (0, m.GREATEST_BREADTH, m.GREATEST_BREADTH + 1):
            yield space._replace(breadths=[*breadths, value]).line()
            yield space._replace(breadths=[value, *breadths]).line()
            yield space._replace(breadths=[value]).line()
            yield space._replace(heights=[], breadths=[*breadths, value]).line()
            yield space._replace(heights=[], breadths=[value]).line()
        for length in (m.LEAST_LENGTH[space.kind] - 1, m.GREATEST_LENGTH + 1):
            yield bare(space.kind, 4800, length).line()
            yield bare(space.kind, length, 500).line()


def unknown_kinds(rng: Random) -> Iterator[str]:
    """Kinds that aren't in the table, whatever is handed in with them."""
    yield "# Unknown kinds"
    for kind in (0, 6, 7, 100, 254, 255, 256, 257, GREATEST_NUMBER):
        for space in examples(rng):
            yield space._replace(kind=kind).line()
        yield bare(kind, 4800, 4800).line()
        yield bare(kind, 0, 0).line()
        yield Space(kind, GREATEST_MEASURE, GREATEST_MEASURE, [GREATEST_MEASURE], [GREATEST_MEASURE]).line()


def any_spaces(rng: Random) -> Iterator[str]:
    """Spaces of all kinds at random, most as the rules ask, others with one fault."""
    yield "# Spaces at random"
    for _ in range(400):
        kind = one_of(rng, (U, B, S, S, H, R))
        tonnage_length = a_length(rng)
        length = one_of(rng, (a_length(rng), a_length(rng), tonnage_length, rng.randint(1, 2500)))
        most = one_of(rng, (9, 999, 999, 30000))
        middle = one_of(rng, (800, 1600, 1601, 5000)) if kind == U else None
        space = asked(rng, kind, tonnage_length, length, most, middle)
        fault = rng.randrange(12)
        place = rng.randrange(len(space.breadths))
        if fault == 0:
            space = space._replace(breadths=space.breadths[1:])
        elif fault == 1:
            space = space._replace(heights=space.heights[1:])
        elif fault == 2:
            space = space._replace(breadths=changed(space.breadths, place, m.GREATEST_BREADTH + 1))
        elif fault == 3:
            space = space._replace(length=a_length(rng))
        yield space.line()


def hatchways(rng: Random) -> Iterator[str]:
    """G about the halves of G/200, with sums about the allowance."""
    yield "# Hatchways"
    edges = [0, 1, 98, 99, 100, 101, 102, 199, 200, 299, 300, 301, 12401, 20000]
    edges += [200 * rng.randrange(10**power) + by for power in (2, 4, 6, 8, 12, 15) for by in (99, 100, 101)]
    edges += [GREATEST_NUMBER - by for by in (99, 100, 98, 1, 0)]
    for g in edges:
        allowance = m.hatchway_allowance(g)
        for total in (0, allowance - 1, allowance, allowance + 1, allowance + rng.randrange(10**6)):
            if total >= 0:
                yield f"hatchways {g} {total}"
        yield f"hatchways {g} {GREATEST_NUMBER}"


def ballasts(rng: Random) -> Iterator[str]:
    """Ballast at 30% of gross exactly, one more and one less, and at gross that has no whole 30%."""
    yield "# Water ballast"
    grosses = [0, 1, 2, 3, 4, 7, 9, 10, 11, 20, 100, 999, 1000, 1001, 12401, GREATEST_NUMBER - 9, GREATEST_NUMBER]
    grosses += [10 * rng.randrange(10**power) + by for power in (2, 5, 8, 11, 14, 17) for by in (0, 1, 3, 9)]
    for gross in grosses:
        share = gross * 3 // 10
        for ballast in sorted({0, max(share - 1, 0), share, share + 1, gross, GREATEST_NUMBER}):
            yield f"ballast {ballast} {gross}"


MANY = ",".join("5" * (MOST_NUMBERS + 1))  # a list too long
OUTSIDE = (  # no call of this program
    "", "#", "# space", " ", "Space 1 2 3 - -", "spaces", "open 1200", "hatchway 1 1", "ballast,1", "?", "-", " ballast 1 1", "ballast\t1 1",
    # another number of words
    "space", "space 1 4800 4800 -", "space 1 4800 4800 - - -", "space 1 4800 4800 - - ", "space  1 4800 4800 - -", "hatchways",
    "hatchways 1", "hatchways 1 2 3", "hatchways 1 2 ", "ballast", "ballast 1", "ballast 1 1 1", "ballast  1 1", "ballast x",
    # words that aren't what they are to be
    "space x 4800 4800 - -", "space 1 - 4800 - -", "space 1 4800 -1 - -", "space  4800 4800 - -", "space 1 4800 4800 x -",
    "space 1 4800 4800 - 5,", "space 1 4800 4800 ,5 -", "space 1 4800 4800 -,5 -", "space 1 4800 4800  -", "hatchways - 1",
    "hatchways 1 -", "hatchways 1,2 1", "hatchways 1_0 1", "ballast 1 1.0", "ballast 1 +1", "ballast 1 ", "ballast 1 1\t",
    "space 18446744073709551616 4800 4800 - -", "space 1 18446744073709551616 4800 - -", "space 1 4800 18446744073709551616 - -",
    "space 1 4800 4800 18446744073709551616 -", "space 1 4800 4800 - 5,18446744073709551616", "hatchways 18446744073709551616 1",
    "hatchways 1 18446744073709551616", "ballast 99999999999999999999 1", "ballast 1 1" + "0" * 500, f"space 1 4800 4800 {MANY} -",
    f"space 1 4800 4800 - {MANY}", "space 1 4800 4800 - 5" + ",x" * MOST_NUMBERS, "space 1 4800 4800 - 5" + ",x" * (MOST_NUMBERS - 1),
    # the first remark that fits, from left to right
    "spaces x", "ballast x x x", "ballast 18446744073709551616 x", "ballast x 18446744073709551616", f"space x 4800 4800 {MANY} -",
    f"space 1 4800 4800 x {MANY}", f"space 1 4800 4800 {MANY} x", "space 1 4800 4800 18446744073709551616,x -",
    "space 1 4800 4800 x,18446744073709551616 -",
)


def outside(rng: Random) -> Iterator[str]:
    """Lines outside the protocol, for each remark, and lines without an answer."""
    yield "# Lines outside the protocol"
    yield from OUTSIDE


SECTIONS: tuple[Callable[[Random], Iterator[str]], ...] = (
    figures_of_the_paper, edges_of_lengths, whole_and_step, every_number_of_parts, middle_depths,
    halves_of_thirds_of_length, halves_of_thirds_of_depth, halves_of_boxes, halves_of_others, ties, zeros,
    greatest_measures, wrong_numbers, out_of_ranges, surplus_out_of_range, unknown_kinds, any_spaces, hatchways,
    ballasts, outside,
)


def script() -> str:
    """The whole script, the same every time."""
    rng = Random(SEED)
    return "".join(line + "\n" for section in SECTIONS for line in section(rng))


def asked_for(arguments: list[str]) -> str | None:
    """The script, or the answers to the script on standard input."""
    if arguments == ["script"]:
        return script()
    if arguments == ["answers"]:
        return answers(sys.stdin.buffer.read().decode("latin-1"))
    return None


def main() -> int:
    """Prints what the arguments ask for."""
    return command_line.run("reference.figures script | answers", asked_for)


if __name__ == "__main__":
    sys.exit(main())
