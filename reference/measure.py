"""The measuring rules of one space, the hatchways and water ballast in the gross, and the engine room deduction, with
exact fractions.

Lengths, breadths, depths and heights are handed in as hundredths of a foot and tonnages as hundredths of a ton.
Volumes are worked out in cubic feet, as exact fractions, and rounded once at the end.
Paragraph numbers are those of 46 CFR part 69; where one reads "the paper", the rule stands only there. "The request" is
T-01, tanks that follow the hull, or T-02, pointed bows, where it speaks of the ends of a U, or T-04, say what the
rounding did, where it speaks of roundings, or T-06, vessels with screws, where it speaks of machinery.
"""

from fractions import Fraction
from itertools import accumulate
from math import floor
from typing import Sequence

# Kinds of space, by code (the paper, "Spaces").
U = 1  # under-deck part, 69.109
B = 2  # between-deck level, 69.111
S = 3  # superstructure, 69.113
H = 4  # hatchway, 69.115
R = 5  # room, 69.117 and 69.119
KINDS = (U, B, S, H, R)

# Numbers of an answer (the paper, "Numbers of refusal").
ACCEPTED = 0
OUT_OF_RANGE = 2  # a kind or measure outside its range
WRONG_NUMBER = 3  # stations, depths, heights or breadths not the number the rules ask
PASSES_AN_END = 9  # of a tank, an end of its U

# Units (the paper, "Units and roundings").
HUNDREDTHS = 100  # in a foot and in a ton
THOUSANDTHS = 1000  # in a foot: a longitudinal third interval, 69.109(g)(2)
CUBIC_FEET_IN_A_TON = 100  # 69.109(l)(4)

# The table of 69.109(g)(1): the greatest length of each class, in hundredths of a foot, and its divisions.
TABLE = ((5000, 6), (10000, 8), (15000, 10), (20000, 12), (25000, 14))
DIVISIONS_OF_THE_LAST_CLASS = 16  # over 250 feet

TWO_PARTS_UP_TO = 2000  # 69.109(m)(1)(i), 20 feet or under
FOUR_PARTS_UNDER = 4000  # 69.109(m)(1)(ii), over 20 feet and under 40 feet
EVEN_NUMBERS = range(2, 17, 2)  # for a superstructure, 69.113(b)(2) and the paper; for a tank, the request
FOUR_DEPTH_PARTS_UP_TO = 1600  # 69.109(h)(4)(i), 16 feet or less
PARTS_OF_DEPTH = (4, 6)  # the m that there are
THIRDS = 3  # in an interval
NOTHING_ROUNDED = (0, ())  # what an entry passes on where it is refused: of its length, and of no station's depth

HATCHWAY_SHARE = Fraction(1, 200)  # 69.115(c), one-half of one percent
BALLAST_SHARE = Fraction(30, 100)  # 69.117(f)(4), 30%

# The classes of 69.121(e)(2), vessels propelled by screw: by what share of the gross the machinery is, and what each
# deducts.
SMALL, MIDDLE, LARGE = "13 percent or less", "more than 13 but less than 20 percent", "20 percent or more"
MOST_OF_SMALL, LEAST_OF_LARGE = Fraction(13, 100), Fraction(20, 100)
TIMES_SMALL, SHARE_OF_GROSS, TIMES_LARGE = Fraction(32, 13), Fraction(32, 100), Fraction(175, 100)

# Ranges (the paper, "Ranges"), all in hundredths of a foot. Hatchways and rooms have the same greatest measures.
GREATEST_LENGTH, GREATEST_BREADTH, GREATEST_HEIGHT = 150_000, 30_000, 20_000
TONNAGE_LENGTHS = range(100, GREATEST_LENGTH + 1)
LEAST_LENGTH = {U: 100, B: 100, S: 1, H: 1, R: 1}
LEAST_BREADTH = LEAST_HEIGHT = {U: 0, B: 0, S: 0, H: 1, R: 1}
LENGTHS = {kind: range(LEAST_LENGTH[kind], GREATEST_LENGTH + 1) for kind in KINDS}
BREADTHS = {kind: range(LEAST_BREADTH[kind], GREATEST_BREADTH + 1) for kind in KINDS}
HEIGHTS = {kind: range(LEAST_HEIGHT[kind], GREATEST_HEIGHT + 1) for kind in KINDS}
FORE_ENDS = range(0, GREATEST_LENGTH + 1)  # of a tank, the request: '2 for a fore end over 150,000'


# Units and roundings

def nearest(x: Fraction) -> int:
    """'"Nearest" means a half goes up.'"""
    return floor(x + Fraction(1, 2))


def feet(hundredths: int) -> Fraction:
    """Lengths, breadths, depths and heights are in hundredths of a foot."""
    return Fraction(hundredths, HUNDREDTHS)


def exact_divisor(parts: int) -> int:
    """What a third interval is divided by: 3n of a length in n parts, 3m of a depth in m parts."""
    return THIRDS * parts


def exact_third_of_length(length: int, parts: int) -> Fraction:
    """'Third interval of a length L in n parts: 10L/(3n)', in thousandths of a foot, not rounded yet."""
    return feet(length) / exact_divisor(parts) * THOUSANDTHS


def exact_third_of_depth(depth: int, parts: int) -> Fraction:
    """'Of a depth D in m parts: D/(3m)', in hundredths of a foot, not rounded yet."""
    return feet(depth) / exact_divisor(parts) * HUNDREDTHS


def third_of_length(length: int, parts: int) -> int:
    """'10L/(3n), nearest', in thousandths of a foot."""
    return nearest(exact_third_of_length(length, parts))


def third_of_depth(depth: int, parts: int) -> int:
    """'D/(3m), nearest', in hundredths of a foot."""
    return nearest(exact_third_of_depth(depth, parts))


def rounding(exact: Fraction, divisor: int) -> int:
    """'A signed number of parts of its exact divisor: above zero when rounded up, zero when exact, else below.'

    A thousandth or hundredth of a foot has as many parts as the divisor says, and the exact third interval is a whole
    number of them. The rounded one lies so many parts above it; where the number is below zero, so many below it.
    """
    part = Fraction(1, divisor)
    return int((nearest(exact) - exact) / part)


def rounding_of_length(length: int, parts: int) -> int:
    """'Each third interval now also gives its rounding': of a length, in parts of a thousandth of a foot."""
    return rounding(exact_third_of_length(length, parts), exact_divisor(parts))


def rounding_of_depth(depth: int, parts: int) -> int:
    """The same of a depth, in parts of a hundredth of a foot."""
    return rounding(exact_third_of_depth(depth, parts), exact_divisor(parts))


def tonnage(volume: Fraction) -> int:
    """'A space's tonnage is rounded once': hundredths of a ton of 100 cubic feet from a volume in cubic feet."""
    return nearest(volume / CUBIC_FEET_IN_A_TON * HUNDREDTHS)


# Parts of a length

def parts_by_table(length: int) -> int:
    """'Up to 50 ft 6 parts; over 50 to 100, 8; to 150, 10; to 200, 12; to 250, 14; over 250, 16.'"""
    for greatest, divisions in TABLE:
        if length <= greatest:
            return divisions
    return DIVISIONS_OF_THE_LAST_CLASS


def parts_of_step_part(length: int) -> int:
    """'20 ft or under, two parts; over 20 and under 40, four; 40 or over, the table.'"""
    if length <= TWO_PARTS_UP_TO:
        return 2
    if length < FOUR_PARTS_UNDER:
        return 4
    return parts_by_table(length)


def parts_of_under_deck(tonnage_length: int, length: int) -> int:
    """'A U whose length is the tonnage length uses [the table]. Any other U is a part made by a step.'"""
    return parts_by_table(length) if length == tonnage_length else parts_of_step_part(length)


def parts_nearest(length: int, interval: Fraction) -> int:
    """'The even number from 2 to 16 whose interval is nearest, as exact fractions ... on a tie, the greater number.'"""
    return min(EVEN_NUMBERS, key=lambda number: (abs(Fraction(length, number) - interval), -number))


def parts_of_superstructure(tonnage_length: int, length: int) -> int:
    """The reference is 'the tonnage length divided by its number'."""
    return parts_nearest(length, Fraction(tonnage_length, parts_by_table(tonnage_length)))


def parts_of_tank(tonnage_length: int, under_deck_length: int, length: int) -> int:
    """'Its length is divided as an S is, with that U's interval as the reference.'"""
    interval = Fraction(under_deck_length, parts_of_under_deck(tonnage_length, under_deck_length))
    return parts_nearest(length, interval)


def parts(kind: int, tonnage_length: int, length: int) -> int:
    """The number of parts of a space's length; 0 for a kind that isn't divided."""
    if kind == U:
        return parts_of_under_deck(tonnage_length, length)
    if kind == B:  # "the number that the table gives the tonnage length"
        return parts_by_table(tonnage_length)
    if kind == S:
        return parts_of_superstructure(tonnage_length, length)
    return 0


def division(kind: int, tonnage_length: int, length: int) -> tuple[int, int]:
    """The number of parts and the third interval in thousandths, for any lengths; (0, 0) where nothing is divided."""
    number = parts(kind, tonnage_length, length)
    return (number, third_of_length(length, number)) if number else (0, 0)


# U, B and S, H and R

def parts_of_depth(middle_depth: int) -> int:
    """'The depth at the middle station fixes m for all stations: 4 if 16 ft or less, else 6.'"""
    return 4 if middle_depth <= FOUR_DEPTH_PARTS_UP_TO else 6


def multipliers(count: int) -> list[int]:
    """'First and last breadth once, even-numbered four times, other odd-numbered twice.'"""
    return [1 if number in (1, count) else 4 if number % 2 == 0 else 2 for number in range(1, count + 1)]


def multiplied_sum(values: Sequence[Fraction]) -> Fraction:
    """The values times their multipliers, added together."""
    return sum((times * value for times, value in zip(multipliers(len(values)), values)), Fraction(0))


def middle_depth(depths: Sequence[int]) -> int:
    """The depth at the middle one of an odd number of stations."""
    return depths[len(depths) // 2]


def area_of_station(depth: int, breadths: Sequence[int]) -> Fraction:
    """'The sum times that station's third interval of depth', in square feet."""
    third = Fraction(third_of_depth(depth, len(breadths) - 1), HUNDREDTHS)
    return multiplied_sum([feet(breadth) for breadth in breadths]) * third


def over_length(length: int, values: Sequence[Fraction]) -> Fraction:
    """'The same multipliers over the areas, times the third interval of length': one value a station."""
    third = Fraction(third_of_length(length, len(values) - 1), THOUSANDTHS)
    return multiplied_sum(values) * third


def areas_of_sections(m: int, depths: Sequence[int], breadths: Sequence[int]) -> list[Fraction]:
    """'Each station has m+1 breadths, from above': the area at each; of a tank, that of each of its sections."""
    row = m + 1
    rows = [breadths[first:first + row] for first in range(0, len(breadths), row)]
    return [area_of_station(depth, of_section) for depth, of_section in zip(depths, rows)]


def areas_of_under_deck(depths: Sequence[int], breadths: Sequence[int]) -> list[Fraction]:
    """The area at each station of a U; 'every end section counts as entered'."""
    return areas_of_sections(parts_of_depth(middle_depth(depths)), depths, breadths)


def areas_of_ends(depths: Sequence[int], breadths: Sequence[int]) -> tuple[Fraction, Fraction]:
    """What the transverse sections at the fore and the aft end of a U yield, 69.109(k)(1); the first is at the bow."""
    fore, *_, aft = areas_of_under_deck(depths, breadths)
    return fore, aft


def volume_of_under_deck(length: int, depths: Sequence[int], breadths: Sequence[int]) -> Fraction:
    """The cubic feet of a U."""
    return over_length(length, areas_of_under_deck(depths, breadths))


def volume_of_level(length: int, heights: Sequence[int], breadths: Sequence[int]) -> Fraction:
    """The cubic feet of a B or S: an area 'times the plain mean of the heights gives the volume'."""
    area = over_length(length, [feet(breadth) for breadth in breadths])
    return area * sum(feet(height) for height in heights) / len(heights)


def volume_of_box(length: int, height: int, breadth: int) -> Fraction:
    """The cubic feet of an H or R: 'length times breadth times height'."""
    return feet(length) * feet(breadth) * feet(height)


def volume(kind: int, length: int, heights: Sequence[int], breadths: Sequence[int]) -> Fraction:
    """The cubic feet of a space that has the measures its kind asks for."""
    if kind == U:
        return volume_of_under_deck(length, heights, breadths)
    if kind in (B, S):
        return volume_of_level(length, heights, breadths)
    return volume_of_box(length, heights[0], breadths[0])


# Tanks that follow the hull: 69.117(g)(3) and the request. A point along the U is an exact fraction of hundredths of a
# foot from its fore end; a rounded third interval has no part in where zones end and stations lie.

def zone_ends(under_deck_length: int, number: int) -> list[Fraction]:
    """Where the zones of a U in that number of parts end, from the bow; the last ends where the U does.

    'Each under-deck station has a zone of as many thirds of the interval as its multiplier, and the zones fill the
    length with no gap.'
    """
    third = Fraction(under_deck_length, number) / THIRDS
    return list(accumulate(times * third for times in multipliers(number + 1)))


def zones_at(ends: Sequence[Fraction], point: Fraction) -> list[int]:
    """The number, from 1, of the zone that a point falls in; 'exactly between two zones', of both, fore zone first."""
    fore_ends = [Fraction(0), *ends[:-1]]
    return [number for number, (fore, aft) in enumerate(zip(fore_ends, ends), start=1) if fore <= point <= aft]


def stations_of_tank(fore: int, length: int, number: int) -> list[Fraction]:
    """Where the stations of a tank in that number of parts lie along its U: 'its fore end as a distance along it'."""
    return [fore + station * Fraction(length, number) for station in range(number + 1)]


def zones_of_stations(tonnage_length: int, under_deck_length: int, length: int, fore: int) -> list[list[int]]:
    """For each station of a tank that passes no end of its U, the under-deck stations in whose zones it falls."""
    ends = zone_ends(under_deck_length, parts_of_under_deck(tonnage_length, under_deck_length))
    number = parts_of_tank(tonnage_length, under_deck_length, length)
    return [zones_at(ends, point) for point in stations_of_tank(fore, length, number)]


def sections_of_tank(tonnage_length: int, under_deck_length: int, length: int, fore: int) -> int:
    """How many sections the surveyor gives: one a station, and 'both' where it falls between two zones."""
    return sum(len(zones) for zones in zones_of_stations(tonnage_length, under_deck_length, length, fore))


def areas_of_tank(zones: Sequence[Sequence[int]], of_sections: Sequence[Fraction]) -> list[Fraction]:
    """The area at each station: of 'both sections ... the larger area is taken'."""
    left = iter(of_sections)
    return [max(next(left) for _ in of_station) for of_station in zones]


def volume_of_tank(
    tonnage_length: int, under_deck_length: int, m: int, length: int, fore: int, depths: Sequence[int],
    breadths: Sequence[int],
) -> Fraction:
    """The cubic feet of a tank that has the sections asked for, 'with that U's m': as of a U, over its areas."""
    zones = zones_of_stations(tonnage_length, under_deck_length, length, fore)
    return over_length(length, areas_of_tank(zones, areas_of_sections(m, depths, breadths)))


def passes_an_end(under_deck_length: int, length: int, fore: int) -> bool:
    """9: 'if the tank passes an end of its U'."""
    return fore + length > under_deck_length


def tank_out_of_range(length: int, fore: int, depths: Sequence[int], breadths: Sequence[int]) -> bool:
    """2: a room's length, 'a fore end over 150,000', 'depth and breadths in a station's ranges', surplus ones too."""
    return (
        length not in LENGTHS[R]
        or fore not in FORE_ENDS
        or any(depth not in HEIGHTS[U] for depth in depths)
        or any(breadth not in BREADTHS[U] for breadth in breadths)
    )


def tank_wrong_number(
    tonnage_length: int, under_deck_length: int, m: int, length: int, fore: int, depths: Sequence[int],
    breadths: Sequence[int],
) -> bool:
    """3: 'if a section or breadth is missing or extra', by the totals; the tank passes no end of its U."""
    sections = sections_of_tank(tonnage_length, under_deck_length, length, fore)
    return len(depths) != sections or len(breadths) != sections * (m + 1)


def zones(tonnage_length: int, under_deck_length: int, length: int, fore: int) -> tuple[int, int, list[int]]:
    """Where to measure a tank: 0, its parts, and for each section the under-deck station in whose zone it falls.

    2 where a length or the fore end is outside its range, 9 where the tank passes an end; then 0 parts and nothing.
    """
    if (
        tonnage_length not in TONNAGE_LENGTHS
        or under_deck_length not in LENGTHS[U]
        or tank_out_of_range(length, fore, [], [])
    ):
        return OUT_OF_RANGE, 0, []
    if passes_an_end(under_deck_length, length, fore):
        return PASSES_AN_END, 0, []
    of_stations = zones_of_stations(tonnage_length, under_deck_length, length, fore)
    return ACCEPTED, len(of_stations) - 1, [number for of_station in of_stations for number in of_station]


# Refusals 2 and 3

def out_of_range(kind: int, tonnage_length: int, length: int, heights: Sequence[int], breadths: Sequence[int]) -> bool:
    """2: 'a kind, measure ... outside its range'; every measure handed in is judged, surplus ones too."""
    return (
        kind not in KINDS
        or tonnage_length not in TONNAGE_LENGTHS
        or length not in LENGTHS[kind]
        or any(height not in HEIGHTS[kind] for height in heights)
        or any(breadth not in BREADTHS[kind] for breadth in breadths)
    )


def heights_asked(kind: int, tonnage_length: int, length: int) -> int:
    """'One station more than parts', with one depth or height each; an undivided H or R has one height."""
    return parts(kind, tonnage_length, length) + 1


def breadths_asked(kind: int, heights: Sequence[int]) -> int:
    """For a U m+1 breadths a station, for B and S one a station, for H and R one; the heights are as many as asked."""
    return len(heights) * (parts_of_depth(middle_depth(heights)) + 1) if kind == U else len(heights)


def wrong_number(kind: int, tonnage_length: int, length: int, heights: Sequence[int], breadths: Sequence[int]) -> bool:
    """3: 'stations, depths, heights or breadths not the number the rules ask', of a known kind."""
    return len(heights) != heights_asked(kind, tonnage_length, length) or len(breadths) != breadths_asked(kind, heights)


def measure(
    kind: int, tonnage_length: int, length: int, heights: Sequence[int], breadths: Sequence[int]
) -> tuple[int, int]:
    """'The lowest number that applies is given': 0, 2 or 3, and the tonnage, which is 0 where the space is refused."""
    if out_of_range(kind, tonnage_length, length, heights, breadths):
        return OUT_OF_RANGE, 0
    if wrong_number(kind, tonnage_length, length, heights, breadths):
        return WRONG_NUMBER, 0
    return ACCEPTED, tonnage(volume(kind, length, heights, breadths))


# What a measured space passes on

def roundings_of_depths(depths: Sequence[int]) -> tuple[int, ...]:
    """'A U also that of every station's depth', from the bow, with the m that the middle station fixes for all."""
    m = parts_of_depth(middle_depth(depths))
    return tuple(rounding_of_depth(depth, m) for depth in depths)


def roundings(kind: int, tonnage_length: int, length: int, heights: Sequence[int]) -> tuple[int, tuple[int, ...]]:
    """'Each U, B and S passes on the rounding of its length, a U also that of every station's depth.'

    Of a space that has the measures its kind asks for. An H or R isn't divided and has no third interval: 0 and none.
    """
    number = parts(kind, tonnage_length, length)
    of_length = rounding_of_length(length, number) if number else 0
    return of_length, roundings_of_depths(heights) if kind == U else ()


# Gross

def hatchway_allowance(g: int) -> int:
    """'The hatchway allowance is G/200, nearest, taken without the hatchways.'"""
    return nearest(g * HATCHWAY_SHARE)


def hatchway_excess(g: int, hatchways: int) -> int:
    """'The excess is the sum of all H less the allowance, or 0.'"""
    return max(hatchways - hatchway_allowance(g), 0)


def ballast_over(ballast: int, gross: int) -> bool:
    """'If standing 2 adds up to more than 30% of it', compared exactly; gross has only standing 1 taken off."""
    return ballast > BALLAST_SHARE * gross


# The engine room deduction: 69.121(e)(2) and the request. M is the machinery's tonnage.

def class_of_machinery(machinery: int, gross: int) -> str:
    """'13% of gross or less', 'over 13% and under 20%', or 'at 20% or more'; 'comparisons are exact'."""
    if machinery <= MOST_OF_SMALL * gross:
        return SMALL
    return MIDDLE if machinery < LEAST_OF_LARGE * gross else LARGE


def deduction_of_small(machinery: int) -> int:
    """'32/13 of M', 'to the nearest hundredth'."""
    return nearest(TIMES_SMALL * machinery)


def deduction_of_middle(gross: int) -> int:
    """'32% of gross', 'to the nearest hundredth'."""
    return nearest(SHARE_OF_GROSS * gross)


def deduction_of_large(machinery: int, gross: int) -> int:
    """'The greater of 32% of gross and 1.75 times M', where 69.121(e)(2)(iii) lets the owner elect."""
    return max(deduction_of_middle(gross), nearest(TIMES_LARGE * machinery))


def engine_room_deduction(machinery: int, gross: int) -> int:
    """What a vessel with a screw has deducted for its machinery, by its class."""
    of_class = class_of_machinery(machinery, gross)
    if of_class == SMALL:
        return deduction_of_small(machinery)
    return deduction_of_middle(gross) if of_class == MIDDLE else deduction_of_large(machinery, gross)
