"""Tests of the second program: the paper's figures, the readings, properties, and what the script visits."""

import io
import unittest
from contextlib import redirect_stderr, redirect_stdout
from fractions import Fraction
from math import floor
from random import Random
from unittest import mock

from reference import figures, measure as m
from reference.figures import Space, uniform
from reference.measure import B, H, R, S, U


class FiguresOfThePaper(unittest.TestCase):
    """'Figures to meet' and 'Errors a good surveyor has made', as far as they speak of one space or of gross."""

    def test_lengths_by_the_table(self) -> None:
        for length, parts, third in ((5000, 6, 2778), (5001, 8, 2084), (25000, 14, 5952), (25001, 16, 5209)):
            self.assertEqual(m.parts_by_table(length), parts)
            self.assertEqual(m.third_of_length(length, parts), third)
            self.assertEqual(m.division(U, length, length), (parts, third))

    def test_every_class_of_the_table(self) -> None:
        edges = ((5000, 6, 8), (10000, 8, 10), (15000, 10, 12), (20000, 12, 14), (25000, 14, 16))
        for length, parts, next_parts in edges:
            self.assertEqual((m.parts_by_table(length), m.parts_by_table(length + 1)), (parts, next_parts))

    def test_step_parts(self) -> None:
        for length, parts, third in ((2000, 2, 3333), (2001, 4, 1668), (3999, 4, 3333), (4000, 6, 2222)):
            self.assertEqual(m.parts_of_step_part(length), parts)
            self.assertEqual(m.third_of_length(length, parts), third)
            self.assertEqual(m.division(U, 9000, length), (parts, third))

    def test_2001_is_a_half(self) -> None:
        self.assertEqual(Fraction(10 * 2001, 3 * 4), Fraction(3335, 2))

    def test_middle_depth(self) -> None:
        for depth, parts, third in ((1600, 4, 133), (1601, 6, 89)):
            self.assertEqual(m.parts_of_depth(depth), parts)
            self.assertEqual(m.third_of_depth(depth, parts), third)

    def test_under_deck(self) -> None:
        self.assertEqual(m.measure(*uniform(U, 4800, 4800, 1200, 2000)), (0, 11521))

    def test_between_deck(self) -> None:
        self.assertEqual(m.measure(*uniform(B, 4800, 4800, 700, 2000)), (0, 6721))

    def test_tie(self) -> None:
        self.assertEqual(m.parts_of_superstructure(4500, 2000), 4)
        self.assertTrue(figures.is_tie(4500, 2000))

    def test_superstructure(self) -> None:
        self.assertEqual(m.parts_of_superstructure(4800, 1600), 2)
        self.assertEqual(m.measure(S, 4800, 1600, [800] * 3, [1000] * 3), (0, 1280))

    def test_long_between_deck(self) -> None:
        self.assertEqual(m.division(B, 20000, 150000), (12, 41667))
        self.assertEqual(m.measure(B, 20000, 150000, [20000] * 13, [30000] * 13), (0, 90000720))

    def test_excess(self) -> None:
        self.assertEqual((m.hatchway_excess(20000, 100), m.hatchway_excess(20000, 101)), (0, 1))

    def test_ballast(self) -> None:
        self.assertEqual((m.ballast_over(300, 1000), m.ballast_over(301, 1000)), (False, True))

    def whole_sheet(self) -> tuple[int, int, int, int, int]:
        """The tonnages of the whole sheet's five spaces."""
        spaces = (
            uniform(U, 4800, 4800, 1200, 2000), uniform(S, 4800, 1600, 800, 1000), uniform(R, 4800, 1000, 400, 1000),
            uniform(R, 4800, 800, 800, 500), uniform(H, 4800, 500, 500, 400),
        )
        return tuple(m.measure(*space)[1] for space in spaces)

    def test_whole_sheet(self) -> None:
        under_deck, superstructure, exempt, deducted, hatchway = self.whole_sheet()
        self.assertEqual((under_deck, superstructure, exempt, deducted, hatchway), (11521, 1280, 400, 320, 100))
        g = under_deck + superstructure - exempt
        gross = g + m.hatchway_excess(g, hatchway)
        self.assertEqual((gross, gross - deducted), (12439, 12119))

    def test_error_of_the_box(self) -> None:
        """115.20 is true of the box, but the third interval is 2.667 ft."""
        self.assertEqual(m.tonnage(m.feet(4800) * m.feet(1200) * m.feet(2000)), 11520)
        self.assertEqual(m.third_of_length(4800, 6), 2667)
        self.assertEqual(m.tonnage(18 * Fraction(2667, 1000) * 12 * 20), 11521)
        self.assertEqual(m.measure(*uniform(U, 4800, 4800, 1200, 2000))[1], 11521)

    def test_error_of_the_half_percent(self) -> None:
        """Half a percent of a gross that already has the hatchways in it is another one."""
        under_deck, superstructure, exempt, _, hatchway = self.whole_sheet()
        g = under_deck + superstructure - exempt
        self.assertEqual((m.hatchway_allowance(g), m.hatchway_allowance(g + hatchway)), (62, 63))


class Readings(unittest.TestCase):
    """How the open points of the paper are read."""

    def test_every_measure_is_judged(self) -> None:
        """2 comes before 3 even where only a surplus measure is out of range."""
        for kind, least_height, least_breadth in ((U, 0, 0), (B, 0, 0), (S, 0, 0), (H, 1, 1), (R, 1, 1)):
            space = uniform(kind, 4800, 4800, 500, 500)
            for heights, breadths, number in (
                ([*space.heights, 20000], space.breadths, 3), ([*space.heights, 20001], space.breadths, 2),
                (space.heights, [*space.breadths, 30000], 3), (space.heights, [*space.breadths, 30001], 2),
                ([20001], [], 2), ([], [30001], 2), ([], [], 3),
                ([*space.heights, 0], space.breadths, 2 if least_height else 3),
                (space.heights, [*space.breadths, 0], 2 if least_breadth else 3),
            ):
                self.assertEqual(m.measure(kind, 4800, 4800, heights, breadths), (number, 0))

    def test_hatchways_and_rooms_have_greatest_measures(self) -> None:
        for kind in (H, R):
            self.assertEqual(m.measure(kind, 100, 150000, [20000], [30000]), (0, 90_000_000))
            for length, height, breadth in (
                (0, 1, 1), (1, 0, 1), (1, 1, 0), (150001, 1, 1), (1, 20001, 1), (1, 1, 30001)
            ):
                self.assertEqual(m.measure(kind, 100, length, [height], [breadth]), (2, 0))
            self.assertEqual(m.measure(kind, 100, 1, [1], [1]), (0, 0))
            self.assertEqual(m.measure(kind, 100, 1, [], [1]), (3, 0))
            self.assertEqual(m.measure(kind, 100, 1, [1, 1], [1]), (3, 0))

    def test_ends_of_the_ranges_of_lengths(self) -> None:
        for kind, least in ((U, 100), (B, 100), (S, 1), (H, 1), (R, 1)):
            for length, number in ((least - 1, 2), (least, 0), (150000, 0), (150001, 2)):
                self.assertEqual(m.measure(*uniform(kind, 9000, length, 100, 100))[0], number)
            for tonnage_length, number in ((99, 2), (100, 0), (150000, 0), (150001, 2)):
                self.assertEqual(m.measure(*uniform(kind, tonnage_length, 9000, 100, 100))[0], number)

    def test_unknown_kinds(self) -> None:
        for kind in (0, 6, 255):
            self.assertEqual(m.measure(kind, 4800, 4800, [], []), (2, 0))
            self.assertEqual(m.division(kind, 4800, 4800), (0, 0))
        self.assertEqual([m.parts(kind, 4800, 4800) for kind in (H, R)], [0, 0])

    def test_longer_than_the_tonnage_length_is_a_step_part(self) -> None:
        self.assertEqual(m.parts_of_under_deck(1500, 1600), 2)
        self.assertEqual(m.parts_of_under_deck(1500, 2001), 4)
        self.assertEqual(m.parts_of_under_deck(1500, 5001), 8)

    def test_short_tonnage_length_uses_the_table(self) -> None:
        for length in (100, 2000, 2001, 3999):
            self.assertEqual(m.parts_of_under_deck(length, length), 6)
            self.assertNotEqual(m.parts_of_under_deck(length + 1, length), 6)
            self.assertEqual(m.measure(U, length, length, [100] * 3, [100] * 15), (3, 0))

    def test_superstructure_as_long_as_the_tonnage_length(self) -> None:
        for length in (100, 5000, 5001, 10000, 15000, 20000, 25000, 25001, 150000):
            self.assertEqual(m.parts_of_superstructure(length, length), m.parts_by_table(length))

    def test_differences_and_not_ratios(self) -> None:
        """1000 and 500 against 750 are a tie only as differences."""
        self.assertEqual(abs(Fraction(2000, 2) - 750), abs(Fraction(2000, 4) - 750))

    def test_mean_over_all_stations(self) -> None:
        self.assertEqual(m.volume_of_level(1500, [0, 900, 0], [1000] * 3), 15 * 10 * 3)
        self.assertEqual(m.volume_of_level(1500, [900, 0, 900], [1000] * 3), 15 * 10 * 6)

    def test_ballast_is_compared_exactly(self) -> None:
        self.assertFalse(m.ballast_over(0, 0))
        self.assertTrue(m.ballast_over(1, 0))
        self.assertTrue(m.ballast_over(1, 3))
        self.assertFalse(m.ballast_over(3, 11))
        self.assertTrue(m.ballast_over(4, 11))

    def test_order_of_stations(self) -> None:
        """The tonnage is the same from aft."""
        rng = Random(39)
        for _ in range(50):
            depths = [rng.randrange(1600) for _ in range(5)]
            breadths = [rng.randrange(3000) for _ in range(25)]
            rows = [breadths[place:place + 5] for place in (20, 15, 10, 5, 0)]
            from_aft = m.measure(U, 9000, 3001, depths[::-1], [breadth for row in rows for breadth in row])
            self.assertEqual(m.measure(U, 9000, 3001, depths, breadths), from_aft)
            self.assertEqual(from_aft[0], 0)

    def test_third_interval_of_depth_that_rounds_to_0(self) -> None:
        self.assertEqual([m.third_of_depth(depth, 4) for depth in (0, 1, 5, 6, 17, 18)], [0, 0, 0, 1, 1, 2])
        self.assertEqual([m.third_of_depth(depth, 6) for depth in (0, 1, 8, 9, 26, 27)], [0, 0, 0, 1, 1, 2])
        self.assertEqual(m.measure(*uniform(U, 9000, 2000, 5, 30000)), (0, 0))

    def test_the_middle_station_alone_fixes_m(self) -> None:
        self.assertEqual(m.measure(U, 9000, 2000, [1700, 1600, 1700], [10] * 15)[0], 0)
        self.assertEqual(m.measure(U, 9000, 2000, [1600, 1601, 1600], [10] * 21)[0], 0)
        self.assertEqual(m.measure(U, 9000, 2000, [1600, 1601, 1600], [10] * 15)[0], 3)
        self.assertEqual(m.middle_depth([1, 2, 3, 4, 5, 6, 7]), 4)

    def test_a_station_of_depth_0_has_its_breadths(self) -> None:
        self.assertEqual(m.measure(U, 9000, 2000, [0, 1200, 0], [10] * 15)[0], 0)
        self.assertEqual(m.measure(U, 9000, 2000, [0, 1200, 0], [10] * 5)[0], 3)

    def test_end_sections_count_as_entered(self) -> None:
        whole = m.volume_of_under_deck(1500, [1200] * 3, [1000] * 15)
        without_ends = m.volume_of_under_deck(1500, [1200] * 3, [0] * 5 + [1000] * 5 + [0] * 5)
        self.assertEqual((whole, without_ends), (1800, 1200))

    def test_areas_of_ends(self) -> None:
        """Of a depth of 12 ft with breadths of 10 ft: a third interval of 1 ft, 12 breadths, 120 square feet."""
        broad, none = [1000] * 5, [0] * 5
        for depths, breadths, areas in (
            ([1200] * 3, broad * 3, (120, 120)), ([0, 1200, 1200], broad * 3, (0, 120)),
            ([1200, 1200, 0], broad * 3, (120, 0)), ([1200] * 3, none + broad * 2, (0, 120)),
            ([1200] * 3, broad * 2 + none, (120, 0)), ([600, 1200, 2400], broad * 3, (60, 240)),
            ([1200] * 7, none + broad * 6, (0, 120)), ([1200] * 7, none + broad * 5 + none, (0, 0)),
        ):
            self.assertEqual(m.areas_of_ends(depths, breadths), areas)

    def test_an_end_has_area_by_its_rounded_third_interval(self) -> None:
        """5/12 and 8/18 round to 0; 6/12 and 9/18 are halves and go up, to a hundredth of a foot."""
        for depth, middle, row, third in (
            (5, 1600, 5, 0), (6, 1600, 5, 1), (8, 1601, 7, 0), (9, 1601, 7, 1), (8, 1600, 5, 1), (6, 1601, 7, 0),
        ):
            area = 3 * (row - 1) * 10 * Fraction(third, 100)
            self.assertEqual(m.areas_of_ends([depth, middle, depth], [1000] * (3 * row)), (area, area))

    def test_one_breadth_gives_an_end_area(self) -> None:
        """Once, four times, twice, four times and once, of a hundredth of a foot, times a foot."""
        for place, times in enumerate((1, 4, 2, 4, 1)):
            one = [int(place == other) for other in range(5)]
            self.assertEqual(m.areas_of_ends([1200] * 3, one + [0] * 10), (Fraction(times, 100), 0))
            self.assertEqual(m.areas_of_ends([1200] * 3, [0] * 10 + one), (0, Fraction(times, 100)))

    def test_the_volume_of_a_pointed_one_is_that_of_its_other_sections(self) -> None:
        """The paper's box has 240 square feet at each station, times 2.667 ft: 18 of them, 17 and 16 count."""
        for depths, sections in (
            ([1200] * 7, 18), ([0] + [1200] * 6, 17), ([5] + [1200] * 6, 17), ([1200] * 6 + [0], 17),
            ([0] + [1200] * 5 + [5], 16),
        ):
            volume = m.volume_of_under_deck(4800, depths, [2000] * 35)
            self.assertEqual(volume, sections * 240 * Fraction(2667, 1000))
            self.assertEqual(m.areas_of_under_deck(depths, [2000] * 35)[1:-1], [240] * 5)

    def test_breadths_go_station_by_station(self) -> None:
        """The second station's first breadth is the sixth of the list."""
        breadths = [0] * 15
        breadths[5] = 1000
        self.assertEqual(m.volume_of_under_deck(1500, [1200] * 3, breadths), Fraction(25, 10) * 4 * 1 * 10)

    def test_no_gross_no_allowance(self) -> None:
        self.assertEqual((m.hatchway_allowance(0), m.hatchway_excess(0, 100)), (0, 100))

    def test_a_between_deck_may_be_longer_than_the_tonnage_length(self) -> None:
        self.assertEqual(m.measure(*uniform(B, 4800, 12000, 700, 2000))[0], 0)
        self.assertEqual(m.parts(B, 4800, 12000), 6)


class Roundings(unittest.TestCase):
    """'Each third interval now also gives its rounding', by figures worked out by hand and by whole numbers."""

    LENGTHS = (*range(1, 2000), *range(29_900, 30_101), *range(149_900, 150_001))
    DEPTHS = (*range(2000), *range(19_900, 20_001))

    def by_remainder(self, divided: int, divisor: int) -> int:
        """The remainder is lost where it is under a half of the divisor; else what it lacks is gained."""
        remainder = divided % divisor
        return divisor - remainder if 2 * remainder >= divisor else -remainder

    def judged(self, divided: int, divisor: int, third: int, rounding: int) -> None:
        """All that must hold of a third interval and its rounding; what is divided is 10L or D, by 3n or 3m."""
        self.assertEqual(rounding, divisor * third - divided)
        self.assertEqual(rounding, self.by_remainder(divided, divisor))
        self.assertTrue(-divisor < 2 * rounding <= divisor)
        exact = Fraction(divided, divisor)
        self.assertEqual(third - Fraction(rounding, divisor), exact)
        self.assertEqual((rounding > 0, rounding == 0, rounding < 0), (third > exact, third == exact, third < exact))
        self.assertEqual(rounding == 0, divided % divisor == 0)
        self.assertEqual(2 * rounding == divisor, exact.denominator == 2)  # a half goes up

    def test_the_box(self) -> None:
        """18 times 2667 is 48006, six more than 48000: up by 6/18 of a thousandth. 12 times 100 is 1200."""
        self.assertEqual((m.third_of_length(4800, 6), m.rounding_of_length(4800, 6)), (2667, 6))
        self.assertEqual((m.third_of_depth(1200, 4), m.rounding_of_depth(1200, 4)), (100, 0))
        self.assertEqual(m.roundings(U, 4800, 4800, [1200] * 7), (6, (0, 0, 0, 0, 0, 0, 0)))

    def test_figures_of_the_paper(self) -> None:
        """The paper's third intervals, times 3n or 3m: 18 times 2778 is 50004, and so on."""
        for length, parts, third, product, rounding in (
            (5000, 6, 2778, 50_004, 4), (5001, 8, 2084, 50_016, 6), (25_000, 14, 5952, 249_984, -16),
            (25_001, 16, 5209, 250_032, 22), (2000, 2, 3333, 19_998, -2), (2001, 4, 1668, 20_016, 6),
            (3999, 4, 3333, 39_996, 6), (4000, 6, 2222, 39_996, -4), (150_000, 12, 41_667, 1_500_012, 12),
        ):
            self.assertEqual((3 * parts * third, product - 10 * length), (product, rounding))
            self.assertEqual((m.third_of_length(length, parts), m.rounding_of_length(length, parts)), (third, rounding))
        for depth, parts, third, product, rounding in ((1600, 4, 133, 1596, -4), (1601, 6, 89, 1602, 1)):
            self.assertEqual((3 * parts * third, product - depth), (product, rounding))
            self.assertEqual((m.third_of_depth(depth, parts), m.rounding_of_depth(depth, parts)), (third, rounding))

    def test_laws_of_lengths(self) -> None:
        for parts in range(2, 17, 2):
            for length in self.LENGTHS:
                third, rounding = m.third_of_length(length, parts), m.rounding_of_length(length, parts)
                self.judged(10 * length, 3 * parts, third, rounding)

    def test_laws_of_depths(self) -> None:
        for parts in (4, 6):
            for depth in self.DEPTHS:
                third, rounding = m.third_of_depth(depth, parts), m.rounding_of_depth(depth, parts)
                self.judged(depth, 3 * parts, third, rounding)

    def test_all_that_there_are(self) -> None:
        """Of a length even ones, since 10L and 3n are even; of 30 parts only tens. A half in 4, 8, 12 and 16 parts."""
        of_lengths = {
            2: {-2, 0, 2}, 4: {-4, -2, 0, 2, 4, 6}, 6: set(range(-8, 9, 2)), 8: set(range(-10, 13, 2)),
            10: {-10, 0, 10}, 12: set(range(-16, 19, 2)), 14: set(range(-20, 21, 2)), 16: set(range(-22, 25, 2)),
        }
        for parts, expected in of_lengths.items():
            self.assertEqual({m.rounding_of_length(length, parts) for length in self.LENGTHS}, expected)
        for parts, expected in ((4, set(range(-5, 7))), (6, set(range(-8, 10)))):
            self.assertEqual({m.rounding_of_depth(depth, parts) for depth in self.DEPTHS}, expected)

    def test_beside_exact_ones_and_beside_halves(self) -> None:
        """Of a length a hundredth more or less is ten parts, of a depth one; a half is rounded up, all of it."""
        for parts, lengths, roundings in (
            (16, (4800, 4801, 4799), (0, -10, 10)), (16, (12, 11, 13), (24, -14, 14)), (8, (6, 5, 7), (12, -2, 2)),
            (4, (2001, 2000, 2002), (6, 4, -4)), (10, (3, 2, 4), (0, 10, -10)),
        ):
            self.assertEqual(tuple(m.rounding_of_length(length, parts) for length in lengths), roundings)
        for parts, depths, roundings in (
            (4, (0, 1, 5, 6, 7, 11, 12, 13), (0, -1, -5, 6, 5, 1, 0, -1)),
            (6, (0, 1, 8, 9, 10, 17, 18, 19), (0, -1, -8, 9, 8, 1, 0, -1)),
        ):
            self.assertEqual(tuple(m.rounding_of_depth(depth, parts) for depth in depths), roundings)

    def test_what_each_kind_passes_on(self) -> None:
        """18 times 667 is 12006, 6 times 1002 is 6012 and 6 times 502 is 3012. An H or R has no third interval."""
        self.assertEqual(m.roundings(U, 1200, 1200, [1200] * 7), (6, (0,) * 7))
        self.assertEqual(m.roundings(U, 1200, 601, [7, 12, 13]), (2, (5, 0, -1)))
        self.assertEqual(m.roundings(B, 1200, 1201, [7] * 7), (-4, ()))
        self.assertEqual(m.roundings(S, 1200, 301, [7] * 3), (2, ()))
        for kind in (H, R):
            self.assertEqual(m.roundings(kind, 1200, 601, [7]), (0, ()))

    def test_the_middle_station_fixes_m_for_all(self) -> None:
        """1601 is 12 times 133 and 5, and 18 times 89 less 1; 1600 is 12 times 133 and 4, and 18 times 89 less 2."""
        self.assertEqual(m.roundings_of_depths([1601, 1600, 1600]), (-5, -4, -4))
        self.assertEqual(m.roundings_of_depths([1600, 1601, 1601]), (2, 1, 1))

    def test_every_station_from_the_bow(self) -> None:
        for depths, roundings in (
            (range(17), (0, -1, -2, -3, -4, -5, 6, 5, 4, 3, 2, 1, 0, -1, -2, -3, -4)),
            (range(1593, 1610), (9, 8, 7, 6, 5, 4, 3, 2, 1, 0, -1, -2, -3, -4, -5, -6, -7)),
        ):
            self.assertEqual(m.roundings_of_depths(depths), roundings)
            self.assertEqual(m.roundings_of_depths(depths[2:]), roundings[2:])

    def test_tonnages_do_not_change(self) -> None:
        """A volume is had with the rounded third intervals: the exact ones and their roundings."""
        rng = Random(4)
        for _ in range(40):
            space = figures.asked(rng, U, *figures.lengths_with(rng, U, 2 * rng.randint(1, 8)), 1999)
            of_length, of_depths = m.roundings(U, *space[1:4])
            parts, depth_parts = len(space.heights) - 1, len(space.breadths) // len(space.heights) - 1
            areas = []
            for station, (depth, rounding) in enumerate(zip(space.heights, of_depths)):
                own = space.breadths[station * (depth_parts + 1):][:depth_parts + 1]
                total = sum(times * breadth for times, breadth in zip(m.multipliers(depth_parts + 1), own))
                areas.append(total * Fraction(depth + rounding, 3 * depth_parts))
            total = sum(times * area for times, area in zip(m.multipliers(parts + 1), areas))
            volume = total * Fraction(10 * space.length + of_length, 3 * parts) / 10**7
            self.assertEqual(m.measure(*space), (0, floor(volume + Fraction(1, 2))))


class Tanks(unittest.TestCase):
    """Tanks that follow the hull: zones, stations between two zones, sections and the volume."""

    def thirds(self, parts: int) -> list[Fraction]:
        """Where the zones of a U end, in thirds of its interval."""
        return [end / Fraction(4800, 3 * parts) for end in m.zone_ends(4800, parts)]

    def test_zone_ends(self) -> None:
        """Multipliers 1 4 2 4 2 4 1 for 6 parts, added up."""
        self.assertEqual(self.thirds(2), [1, 5, 6])
        self.assertEqual(self.thirds(4), [1, 5, 7, 11, 12])
        self.assertEqual(self.thirds(6), [1, 5, 7, 11, 13, 17, 18])
        self.assertEqual(self.thirds(8), [1, 5, 7, 11, 13, 17, 19, 23, 24])
        self.assertEqual(m.zone_ends(1800, 6), [100, 500, 700, 1100, 1300, 1700, 1800])
        self.assertEqual(m.zone_ends(1200, 6)[:3], [Fraction(200, 3), Fraction(1000, 3), Fraction(1400, 3)])

    def test_zones_at(self) -> None:
        ends = m.zone_ends(1800, 6)
        for point, numbers in (
            (0, [1]), (99, [1]), (100, [1, 2]), (Fraction(301, 3), [2]), (101, [2]), (300, [2]), (500, [2, 3]),
            (Fraction(2099, 3), [3]), (700, [3, 4]), (1699, [6]), (1700, [6, 7]), (1701, [7]), (1799, [7]), (1800, [7]),
        ):
            self.assertEqual(m.zones_at(ends, Fraction(point)), numbers)

    def test_zones_fill_the_length(self) -> None:
        """'The zones fill the length with no gap'; a station lies in the zone of its number, any point in one or two."""
        rng = Random(1)
        for number in m.EVEN_NUMBERS:
            for length in (100, 101, 4800, rng.randint(100, 150_000)):
                ends = m.zone_ends(length, number)
                self.assertEqual((len(ends), ends[-1]), (number + 1, length))
                self.assertEqual(ends, sorted(set(ends)))
                for station in range(number + 1):
                    self.assertEqual(m.zones_at(ends, station * Fraction(length, number)), [station + 1])
                for _ in range(20):
                    point = Fraction(rng.randint(0, 48 * length), 48)
                    found = m.zones_at(ends, point)
                    self.assertEqual(found, [found[0], found[0] + 1] if point in ends[:-1] else [found[0]])

    def test_parts(self) -> None:
        """The S rule with the U's interval: 300 in a U of 1800, 150 in a step part of 300, 750 in one of 3000."""
        for tonnage_length, under_deck, length, parts in (
            (1800, 1800, 1800, 6), (1800, 1800, 600, 2), (1800, 1800, 799, 2), (1800, 1800, 800, 4), (1800, 1800, 1, 2),
            (1800, 1800, 1439, 4), (1800, 1800, 1440, 6), (1800, 300, 300, 2), (1800, 300, 100, 2),
            (4800, 3000, 3000, 4), (4800, 3000, 2000, 4), (4800, 3000, 1999, 2), (4800, 2000, 2000, 2),
            (2000, 2000, 2000, 6),
        ):
            self.assertEqual(m.parts_of_tank(tonnage_length, under_deck, length), parts, msg=(under_deck, length))
        self.assertEqual(m.parts_of_superstructure(4500, 2000), m.parts_of_tank(4500, 4500, 2000))

    def test_the_whole_has_the_parts_of_its_under_deck(self) -> None:
        for length in (100, 2000, 2001, 3999, 4000, 5001, 10_001, 25_001, 150_000):
            for tonnage_length in (length, 150_000, 101):
                parts = m.parts_of_under_deck(tonnage_length, length)
                self.assertEqual(m.zones(tonnage_length, length, length, 0), (0, parts, list(range(1, parts + 2))))

    def test_just_between_two_zones_and_a_hundredth_off(self) -> None:
        """A U of 1800, a tank of 600 in two parts: stations at 100, 400, 700."""
        self.assertEqual(m.stations_of_tank(100, 600, 2), [100, 400, 700])
        self.assertEqual(m.zones_of_stations(1800, 1800, 600, 100), [[1, 2], [2], [3, 4]])
        self.assertEqual(m.zones(1800, 1800, 600, 100), (0, 2, [1, 2, 2, 3, 4]))
        self.assertEqual(m.zones(1800, 1800, 600, 99), (0, 2, [1, 2, 3]))
        self.assertEqual(m.zones(1800, 1800, 600, 101), (0, 2, [2, 2, 4]))
        self.assertEqual([m.sections_of_tank(1800, 1800, 600, fore) for fore in (99, 100, 101)], [3, 5, 3])

    def test_several_boundaries(self) -> None:
        """A tie of 2 and 4 parts takes 4: stations at 500, 700, 900, 1100, 1300, of which four are between zones."""
        self.assertEqual(m.zones(1800, 1800, 800, 500), (0, 4, [2, 3, 3, 4, 4, 4, 5, 5, 6]))
        self.assertEqual(m.zones(1800, 1800, 800, 501), (0, 4, [3, 4, 4, 5, 6]))
        self.assertEqual(m.zones(48_000, 48_000, 42_000, 5000)[1], 14)
        self.assertEqual(m.sections_of_tank(48_000, 48_000, 42_000, 5000), 15 + 8)

    def test_ends_that_are_no_whole_hundredths(self) -> None:
        """A U of 1200 has thirds of 66 2/3; a tank of 1000 in six parts has a station at 333 1/3, just five thirds."""
        self.assertEqual(m.zones(1200, 1200, 1000, 0), (0, 6, [1, 2, 2, 3, 4, 4, 5, 6]))
        self.assertEqual(m.zones(1200, 1200, 1000, 1), (0, 6, [1, 2, 3, 4, 4, 5, 6]))
        self.assertEqual(m.zones(1200, 1200, 999, 0), (0, 6, [1, 2, 2, 4, 4, 5, 6]))
        self.assertEqual(m.zones(1200, 1200, 1001, 0), (0, 6, [1, 2, 3, 4, 4, 5, 6]))

    def test_volume(self) -> None:
        """Thirds of 1 ft in length and depth; sections of 120 and 60 square feet. 720 is 120 + 4 x 120 + 120."""
        full, half = [1000] * 5, [500] * 5
        for depths, rows, tonnage in (
            ([1200] * 5, [full] * 5, 720), ([1200, 600, 1200, 600, 1200], [full] * 5, 720),
            ([600, 1200, 1200, 1200, 600], [full] * 5, 720), ([1200] * 5, [half, full, half, full, half], 480),
            ([1200] * 5, [half, half, full, half, half], 600), ([0, 0, 1200, 600, 0], [full] * 5, 540),
        ):
            volume = m.volume_of_tank(1800, 1800, 4, 600, 100, depths, sum(rows, []))
            self.assertEqual(m.tonnage(volume), tonnage)

    def test_the_larger_area_and_not_the_deeper_or_broader(self) -> None:
        """2 ft by 10 ft is less than 1 ft by 21 ft, and breadths have their multipliers."""
        breadths = [1000] * 5 + [2100] * 5 + [9, 0, 0, 0, 9] + [0, 9, 0, 0, 0]
        areas = m.areas_of_sections(4, [2400, 1200, 1200, 1200], breadths)
        self.assertEqual(areas, [240, 252, Fraction(18, 100), Fraction(36, 100)])
        self.assertEqual(m.areas_of_tank([[1, 2], [2, 3]], areas), [252, Fraction(36, 100)])
        self.assertEqual(m.areas_of_tank([[1], [2], [3, 4]], areas), [240, 252, Fraction(36, 100)])
        self.assertEqual(m.areas_of_tank([[1, 2]], [Fraction(7), Fraction(7)]), [7])

    def test_the_whole_box(self) -> None:
        space = uniform(U, 4800, 4800, 1200, 2000)
        volume = m.volume_of_tank(4800, 4800, 4, 4800, 0, space.heights, space.breadths)
        self.assertEqual((m.tonnage(volume), m.measure(*space)), (11521, (0, 11521)))

    def test_the_whole_is_its_under_deck(self) -> None:
        """A tank with its U's ends and offsets has its tonnage, whatever they are."""
        rng = Random(2)
        for _ in range(60):
            tonnage_length, length = figures.lengths_with(rng, U, rng.choice(list(m.EVEN_NUMBERS)))
            space = figures.asked(rng, U, tonnage_length, length, 2500)
            own_m = m.parts_of_depth(m.middle_depth(space.heights))
            tank = (tonnage_length, length, own_m, length, 0, space.heights, space.breadths)
            self.assertFalse(m.tank_wrong_number(*tank))
            self.assertEqual((0, m.tonnage(m.volume_of_tank(*tank))), m.measure(*space))

    def test_ranges_and_ends_of_zones(self) -> None:
        for number, asked in (
            (0, (100, 100, 1, 0)), (0, (150_000, 150_000, 150_000, 0)), (0, (100, 150_000, 1, 149_999)),
            (2, (99, 100, 1, 0)),
            (2, (100, 99, 1, 0)), (2, (150_001, 100, 1, 0)), (2, (100, 150_001, 1, 0)), (2, (100, 100, 0, 0)),
            (2, (150_000, 150_000, 150_001, 0)), (2, (100, 100, 1, 150_001)), (2, (100, 100, 150_001, 150_000)),
            (9, (100, 100, 101, 0)), (9, (100, 100, 1, 100)), (9, (100, 100, 100, 1)),
            (9, (100, 100, 150_000, 150_000)),
            (2, (100, 100, 0, 150_000)), (2, (99, 100, 101, 0)), (2, (100, 99, 100, 0)),
        ):
            self.assertEqual(m.zones(*asked)[0], number, msg=asked)
            if number:
                self.assertEqual(m.zones(*asked), (number, 0, []))

    def test_wrong_number(self) -> None:
        """Of 3 sections with m 4 and m 6, and of 5."""
        for own_m, fore, sections in ((4, 99, 3), (6, 99, 3), (4, 100, 5), (6, 100, 5)):
            for depths in range(8):
                for breadths in range(50):
                    wrong = m.tank_wrong_number(1800, 1800, own_m, 600, fore, [9] * depths, [9] * breadths)
                    self.assertEqual(wrong, (depths, breadths) != (sections, sections * (own_m + 1)))

    def test_zones_by_whole_numbers(self) -> None:
        """The same without fractions: everything multiplied by 3 times both numbers of parts."""
        rng = Random(3)
        between = 0
        for _ in range(800):
            length = rng.choice((rng.randint(100, 5000), 36 * rng.randint(3, 12), rng.randint(100, 150_000)))
            tonnage_length = rng.choice((length, 150_000))
            own = rng.randint(1, length)
            fore = rng.randint(0, length - own)
            parts = m.parts_of_under_deck(tonnage_length, length)
            number, own_parts, found = m.zones(tonnage_length, length, own, fore)
            expected = []
            for station in range(own_parts + 1):
                place, aft = (fore * own_parts + station * own) * 3 * parts, 0
                for zone, times in enumerate([1] + [4, 2] * (parts // 2 - 1) + [4, 1], start=1):
                    before, aft = aft, aft + times * length * own_parts
                    expected += [zone] if before <= place <= aft else []
            self.assertEqual((number, found), (0, expected))
            between += len(expected) > own_parts + 1
        self.assertGreater(between, 5)


# 69.121(e)(2), worked out by hand: machinery and gross in hundredths of a ton, the class and what is deducted.
DEDUCTIONS = (
    (0, 0, m.SMALL, 0), (0, 1000, m.SMALL, 0), (0, 1, m.SMALL, 0),
    (1, 1000, m.SMALL, 2),  # 32/13 is 2.46
    (12, 1000, m.SMALL, 30),  # 384/13 is 29.54
    (13, 1000, m.SMALL, 32),
    (130, 1000, m.SMALL, 320),  # exactly 13%
    (131, 1000, m.MIDDLE, 320),  # 4192/13 would be 322.46
    (131, 1010, m.SMALL, 322),  # 12.97%
    (131, 1007, m.MIDDLE, 322),  # 13.01%, and 32% is 322.24
    (132, 1011, m.MIDDLE, 324),  # 32% is 323.52
    (132, 1014, m.MIDDLE, 324),  # 32% is 324.48
    (128, 700, m.MIDDLE, 224),  # 32% and 1.75 times 128 are both 224, under 20%
    (129, 700, m.MIDDLE, 224),  # 1.75 times would be 225.75
    (127, 700, m.MIDDLE, 224),  # 1.75 times would be 222.25
    (139, 700, m.MIDDLE, 224), (140, 700, m.LARGE, 245),  # exactly 20%
    (199, 1000, m.MIDDLE, 320), (200, 1000, m.LARGE, 350),
    (200, 1001, m.MIDDLE, 320),  # 19.98%, and 32% is 320.32
    (201, 1000, m.LARGE, 352),  # 351.75
    (202, 1000, m.LARGE, 354),  # 353.5, a half
    (203, 1000, m.LARGE, 355),  # 355.25
    (1, 5, m.LARGE, 2), (3, 15, m.LARGE, 5),  # 1.6 and 1.75, 4.8 and 5.25: both are rounded to one figure
    (2, 10, m.LARGE, 4), (1, 4, m.LARGE, 2), (2, 15, m.MIDDLE, 5), (1, 1, m.LARGE, 2),
    (570, 1000, m.LARGE, 998), (571, 1000, m.LARGE, 999), (572, 1000, m.LARGE, 1001),  # 997.5, 999.25 and 1001
    (57_142_857, 100_000_000, m.LARGE, 100_000_000),  # 99,999,999.75
    (2_600_000_000, 20_000_000_000, m.SMALL, 6_400_000_000), (2_600_000_001, 20_000_000_000, m.MIDDLE, 6_400_000_000),
    (3_999_999_999, 20_000_000_000, m.MIDDLE, 6_400_000_000), (4_000_000_000, 20_000_000_000, m.LARGE, 7_000_000_000),
)


def in_whole_numbers(machinery: int, gross: int) -> int:
    """The deduction once more: of 32 M / 13, of 32 gross / 100 and of 7 M / 4, where a half goes up."""
    if 100 * machinery <= 13 * gross:
        return (64 * machinery + 13) // 26
    of_gross = (64 * gross + 100) // 200
    return of_gross if 5 * machinery < gross else max(of_gross, (14 * machinery + 4) // 8)


class EngineRoom(unittest.TestCase):
    """The engine room deduction of vessels propelled by screw."""

    def test_by_hand(self) -> None:
        for machinery, gross, of_class, deduction in DEDUCTIONS:
            self.assertEqual(m.class_of_machinery(machinery, gross), of_class, msg=(machinery, gross))
            self.assertEqual(m.engine_room_deduction(machinery, gross), deduction, msg=(machinery, gross))

    def test_in_whole_numbers(self) -> None:
        """Each two up to 300, and the classes: they are disjoint and cover."""
        for gross in range(301):
            for machinery in range(gross + 1):
                of_class = m.class_of_machinery(machinery, gross)
                self.assertEqual(of_class == m.SMALL, 100 * machinery <= 13 * gross)
                self.assertEqual(of_class == m.MIDDLE, 13 * gross < 100 * machinery < 20 * gross)
                self.assertEqual(of_class == m.LARGE, 100 * machinery > 13 * gross and 100 * machinery >= 20 * gross)
                self.assertEqual(m.engine_room_deduction(machinery, gross), in_whole_numbers(machinery, gross))
        for machinery, gross, _, deduction in DEDUCTIONS:
            self.assertEqual(in_whole_numbers(machinery, gross), deduction)

    def test_at_13_percent_two_classes_give_one_figure(self) -> None:
        for hundreds in range(200):
            self.assertEqual(m.deduction_of_small(13 * hundreds), m.deduction_of_middle(100 * hundreds))

    def test_from_20_percent_on_32_percent_are_never_the_greater(self) -> None:
        """They are rounded to the same figure only where the machinery is 1 of 5 or 3 of 15."""
        alike = set()
        for gross in range(1, 301):
            for machinery in range(-(-gross // 5), gross + 1):
                self.assertLessEqual(m.deduction_of_middle(gross), m.nearest(Fraction(7 * machinery, 4)))
                if m.deduction_of_middle(gross) == m.nearest(Fraction(7 * machinery, 4)):
                    alike.add((machinery, gross))
        self.assertEqual(alike, {(1, 5), (3, 15)})

    def test_halves(self) -> None:
        """13 and 25 are odd, so that only 7 M / 4 has any: where M is 2 more than a number of fours."""
        for number in range(200):
            for exact in (Fraction(32 * number, 13), Fraction(32 * number, 100)):
                self.assertNotEqual(exact % 1, Fraction(1, 2))
            self.assertEqual(Fraction(7 * number, 4) % 1 == Fraction(1, 2), number % 4 == 2)
            self.assertEqual(m.deduction_of_large(4 * number + 2, 0), 7 * number + 4)

    def test_more_machinery_never_has_less_deducted(self) -> None:
        for gross in (0, 1, 5, 99, 100, 1000):
            deductions = [m.engine_room_deduction(machinery, gross) for machinery in range(gross + 1)]
            self.assertEqual(deductions, sorted(deductions))


class Properties(unittest.TestCase):
    """What follows from the rules."""

    def test_nearest_is_within_a_half_and_a_half_goes_up(self) -> None:
        for denominator in range(1, 25):
            for numerator in range(4 * denominator + 1):
                x = Fraction(numerator, denominator)
                self.assertTrue(-Fraction(1, 2) < m.nearest(x) - x <= Fraction(1, 2))
        self.assertEqual([m.nearest(Fraction(x, 2)) for x in range(6)], [0, 1, 1, 2, 2, 3])

    def test_multipliers(self) -> None:
        self.assertEqual(m.multipliers(3), [1, 4, 1])
        self.assertEqual(m.multipliers(5), [1, 4, 2, 4, 1])
        self.assertEqual(m.multipliers(7), [1, 4, 2, 4, 2, 4, 1])
        for parts in range(2, 17, 2):
            self.assertEqual(sum(m.multipliers(parts + 1)), 3 * parts)

    def test_thirds_as_the_paper_writes_them(self) -> None:
        """10L/(3n) and D/(3m), in whole numbers with a half going up."""
        for length in range(0, 150001, 37):
            for parts in range(2, 17, 2):
                self.assertEqual(m.third_of_length(length, parts), (20 * length + 3 * parts) // (6 * parts))
        for depth in range(0, 20001, 7):
            for parts in (4, 6):
                self.assertEqual(m.third_of_depth(depth, parts), (2 * depth + 3 * parts) // (6 * parts))

    def test_the_table_counts_the_fifties_begun(self) -> None:
        """T-03's rule, over every length in range: a fifty begins at 0, 50, 100, .. feet; 6 is the least, 16 the most."""
        for length in range(151_000):
            begun = len(range(0, length, 5000))
            self.assertEqual(m.parts_by_table(length), max(6, min(16, 2 * begun + 4)))

    def test_superstructure_by_brute_force(self) -> None:
        """No even number from 2 to 16 has a nearer interval, and no greater one an interval as near."""
        rng = Random(113)
        pairs = [(rng.randint(100, 30000), rng.randint(1, 40000)) for _ in range(1500)]
        pairs += [(one, other) for one in figures.EDGE_LENGTHS[3:-1] for other in figures.EDGE_LENGTHS[1:-1]]
        for tonnage_length, length in pairs:
            number, chosen = m.parts_by_table(tonnage_length), m.parts_of_superstructure(tonnage_length, length)
            self.assertIn(chosen, (2, 4, 6, 8, 10, 12, 14, 16))
            for other in (2, 4, 6, 8, 10, 12, 14, 16):
                # |L/n - T/N| for both, times the number N and both denominators
                nearness = abs(length * number - tonnage_length * chosen) * other
                of_other = abs(length * number - tonnage_length * other) * chosen
                self.assertTrue(nearness < of_other or (nearness == of_other and chosen >= other))

    def test_ties_are_of_two_neighbours(self) -> None:
        for tonnage_length in range(100, 30000, 61):
            for lesser in range(2, 15, 2):
                length = figures.length_of_tie(tonnage_length, lesser)
                if length is not None:
                    self.assertTrue(figures.is_tie(tonnage_length, length))
                    self.assertEqual(m.parts_of_superstructure(tonnage_length, length), lesser + 2)

    def test_greatest_measures_stay_below_100000000(self) -> None:
        greatest = 0
        for tonnage_length in (100, 5000, 10000, 15000, 20000, 25000, 149999, 150000):
            for length in range(149900, 150001):
                for parts in {m.parts(kind, tonnage_length, length) for kind in (U, B, S)}:
                    third = Fraction(m.third_of_length(length, parts), 1000)
                    # 12 times the third of a depth of 200 ft in four parts is more than the height itself
                    greatest = max(greatest, m.tonnage(3 * parts * third * 300 * 12 * Fraction(1667, 100)))
        self.assertLess(greatest, 100_000_000)
        for kind in m.KINDS:
            for tonnage_length in (20000, 150000):
                number, tonnage = m.measure(*uniform(kind, tonnage_length, 150000, 20000, 30000))
                self.assertEqual(number, 0)
                self.assertLess(tonnage, 100_000_000)

    def test_boxes_with_exact_thirds(self) -> None:
        """Where no third interval is rounded, U, B and S of one height and breadth are boxes."""
        for length, height, breadth in ((1800, 1200, 777), (3600, 1600 - 16, 1000), (9600, 1800, 25), (28800, 3600, 9)):
            box = m.volume_of_box(length, height, breadth)
            for kind, tonnage_length in ((U, 28801), (U, length), (B, length), (S, length)):
                space = uniform(kind, tonnage_length, length, height, breadth)
                self.assertEqual(m.volume(kind, *space[2:]), box)

    def test_tonnage_is_rounded_once(self) -> None:
        """Each area or a tonnage rounded on the way would be another answer."""
        self.assertEqual(m.measure(S, 4800, 1500, [10, 10, 10], [100, 100, 100]), (0, 2))  # 1.5 cubic feet
        self.assertEqual(m.measure(S, 4800, 1500, [10, 10, 9], [100, 100, 100]), (0, 1))
        self.assertEqual(m.measure(H, 4800, 100, [50], [100]), (0, 1))
        self.assertEqual(m.measure(H, 4800, 100, [49], [100]), (0, 0))

    def test_allowance_and_ballast_in_whole_numbers(self) -> None:
        for g in [*range(1000), 2**64 - 1, 2**64 - 100]:
            self.assertEqual(m.hatchway_allowance(g), (g + 100) // 200)
        for gross in [*range(60), 2**64 - 1]:
            for ballast in (floor(gross * Fraction(3, 10)) + by for by in (-1, 0, 1)):
                self.assertEqual(m.ballast_over(ballast, gross), 10 * ballast > 3 * gross)


class Protocol(unittest.TestCase):
    """The lines and their answers."""

    def test_answers(self) -> None:
        self.assertEqual(figures.answer("space 3 4800 1600 800,800,800 1000,1000,1000"), "0 1280 2 2667")
        self.assertEqual(figures.answer("space 3 4800 1600 - -"), "3 0 2 2667")
        self.assertEqual(figures.answer("space 255 4800 1600 - -"), "2 0 0 0")
        self.assertEqual(figures.answer("space 259 4800 1600 - -"), "2 0 0 0")
        self.assertEqual(figures.answer("space 4 4800 500 500 400"), "0 100 0 0")
        self.assertEqual(figures.answer("space 4 4800 500 4294967796 400"), "2 0 0 0")
        self.assertEqual(figures.answer("hatchways 20000 101"), "100 1")
        self.assertEqual(figures.answer("ballast 301 1000"), "1")
        self.assertEqual(figures.answer("ballast 300 1000"), "0")

    def test_lines_without_an_answer(self) -> None:
        self.assertIsNone(figures.answer(""))
        self.assertIsNone(figures.answer("# space"))
        self.assertEqual(figures.answers("# one\n\nballast 1 1\nballast 0 1\n"), "1\n0\n")

    def test_lines_outside_the_protocol(self) -> None:
        for line, remark in (
            ("spaces 1", "unknown call"), (" ballast 1 1", "unknown call"), ("open 1200", "unknown call"),
            ("space", "wrong number of words"), ("space 3 4800 1600 -", "wrong number of words"),
            ("space 3 4800 1600 - - -", "wrong number of words"), ("ballast 1", "wrong number of words"),
            ("ballast 1 2 3", "wrong number of words"), ("ballast 1 1 ", "wrong number of words"),
            ("space 3 -1 1600 - -", "not a number"), ("space 3  1600 - -", "not a number"),
            ("space 3 4800 1600 1, 1", "not a number"), ("space 3 4800 1600 1,- -", "not a number"),
            ("hatchways 1_0 1", "not a number"), ("ballast 1 1\r", "not a number"), ("ballast - 1", "not a number"),
            ("ballast 1 18446744073709551616", "number too large"), ("space 3 4800 1600 - 18446744073709551616", "number too large"),
            ("space 3 4800 1600 1" + ",1" * 1024 + " -", "list too long"),
        ):
            self.assertEqual(figures.answer(line), f"? {remark}", msg=line)

    def test_script_too_long(self) -> None:
        self.assertEqual(figures.answers("ballast 1 1\n" + "#" * (2**20 - 12)), "1\n")
        self.assertEqual(figures.answers("ballast 1 1\n" + "#" * (2**20 - 11)), "? script too long\n")

    def test_a_line_hands_in_its_space(self) -> None:
        space = Space(1, 2, 3, [4, 5], [6, 7, 8])
        self.assertEqual(space.line(), "space 1 2 3 4,5 6,7,8")
        self.assertEqual(figures.space_of(space.line()), space)

    def run_main(self, arguments: list[str], text: str = "") -> tuple[int, str]:
        """The exit status and what is printed."""
        given = mock.Mock(buffer=io.BytesIO(text.encode("ascii")))
        with mock.patch("sys.argv", ["figures", *arguments]), mock.patch("sys.stdin", given):
            with redirect_stdout(io.StringIO()) as printed, redirect_stderr(io.StringIO()):
                return figures.main(), printed.getvalue()

    def test_command_line(self) -> None:
        self.assertEqual(self.run_main(["answers"], "# one\nballast 1 1\n"), (0, "1\n"))
        self.assertEqual(self.run_main(["script"]), (0, figures.script()))
        self.assertEqual(self.run_main([]), (2, ""))


class Script(unittest.TestCase):
    """The generator hits each edge it promises."""

    @classmethod
    def setUpClass(cls) -> None:
        cls.text = figures.script()
        lines = [line for line in cls.text.split("\n") if figures.answer(line) is not None]
        cls.answered = list(zip(lines, figures.answers(cls.text).split("\n")))
        cls.spaces = [
            (figures.space_of(line), *map(int, given.split(" ")))
            for line, given in cls.answered if line.startswith("space ") and not given.startswith("?")
        ]
        cls.accepted = [(space, tonnage, parts) for space, number, tonnage, parts, _ in cls.spaces if number == 0]

    def amounts(self, first: str) -> list[tuple[int, int]]:
        """The amounts of all `hatchways` or all `ballast` lines."""
        found = (line.split(" ") for line, given in self.answered if not given.startswith("?"))
        return [(int(words[1]), int(words[2])) for words in found if words[0] == first]

    def test_form(self) -> None:
        self.assertTrue(self.text.isascii())
        self.assertTrue(self.text.endswith("\n"))
        self.assertTrue(self.text.startswith("#"))
        self.assertLessEqual(len(self.text), 900_000)
        self.assertGreaterEqual(len(self.answered), 2500)
        self.assertNotIn("\r", self.text)

    def test_reproducible(self) -> None:
        self.assertEqual(figures.script(), self.text)

    def test_every_remark_that_a_line_can_get(self) -> None:
        found = {given for _, given in self.answered if given.startswith("?")}
        self.assertEqual(found, {
            "? unknown call", "? wrong number of words", "? not a number", "? number too large", "? list too long",
        })

    def test_begins_with_the_figures_of_the_paper(self) -> None:
        self.assertEqual([given for _, given in self.answered[:11]], [
            "0 90000720 12 41667", "0 11521 6 2667", "0 6721 6 2667", "0 1280 2 2667", "0 400 0 0", "0 320 0 0",
            "0 100 0 0", "100 0", "100 1", "0", "1",
        ])

    def test_every_number_of_answer_for_every_kind(self) -> None:
        for kind in m.KINDS:
            self.assertEqual({number for space, number, *_ in self.spaces if space.kind == kind}, {0, 2, 3})
        for kind in (0, 6, 255):
            self.assertEqual({tuple(given) for space, *given in self.spaces if space.kind == kind}, {(2, 0, 0, 0)})

    def test_every_number_of_parts(self) -> None:
        found = {(space.kind, parts) for space, _, parts in self.accepted}
        for kind, numbers in ((U, range(2, 17, 2)), (B, range(6, 17, 2)), (S, range(2, 17, 2))):
            self.assertEqual({parts for of, parts in found if of == kind}, set(numbers))
        depths = {
            (parts, m.parts_of_depth(m.middle_depth(space.heights)))
            for space, _, parts in self.accepted if space.kind == U
        }
        self.assertEqual(depths, {(parts, of_depth) for parts in range(2, 17, 2) for of_depth in (4, 6)})

    def test_step_parts(self) -> None:
        """Two, four and six parts of a step part, each with four and with six depth parts."""
        found = {
            (parts, m.parts_of_depth(m.middle_depth(space.heights)))
            for space, _, parts in self.accepted if space.kind == U and space.length != space.tonnage_length
        }
        self.assertLessEqual({(parts, of_depth) for parts in (2, 4, 6) for of_depth in (4, 6)}, found)

    def test_edges_of_lengths(self) -> None:
        edges = {
            0, 1, 99, 100, 101, 2000, 2001, 3999, 4000, 4001, 5000, 5001, 10000, 10001, 15000, 15001, 20000, 20001,
            25000, 25001, 149999, 150000, 150001,
        }
        for kind in m.KINDS:
            self.assertLessEqual(edges, {space.tonnage_length for space, *_ in self.spaces if space.kind == kind})
            self.assertLessEqual(edges, {space.length for space, *_ in self.spaces if space.kind == kind})
            inside = {edge for edge in edges if edge in m.LENGTHS[kind]}
            self.assertLessEqual(inside, {space.length for space, *_ in self.accepted if space.kind == kind})

    def test_under_deck_against_the_tonnage_length(self) -> None:
        """Equal, shorter and longer, by one too, under and over 40 ft."""
        found = {
            (space.length >= 4000, space.length - space.tonnage_length)
            for space, *_ in self.accepted if space.kind == U
        }
        bare = {
            (space.length >= 4000, space.length - space.tonnage_length)
            for space, number, *_ in self.spaces if space.kind == U and number == 3
        }
        for over in (False, True):
            signs = {(by > 0) - (by < 0) for of, by in found if of == over}
            self.assertEqual(signs, {-1, 0, 1})
            self.assertLessEqual({(over, by) for by in (-1, 0, 1)}, found | bare)

    def test_middle_depths(self) -> None:
        """16 ft and a hundredth more, with the other stations deeper and shallower."""
        for middle in (1600, 1601):
            others = [
                [depth for depth in space.heights if depth != middle]
                for space, *_ in self.accepted if space.kind == U and m.middle_depth(space.heights) == middle
            ]
            self.assertTrue(any(depths and min(depths) > 1601 for depths in others))
            self.assertTrue(any(depths and max(depths) < 1600 for depths in others))

    def test_halves_of_third_intervals_of_length(self) -> None:
        halves = {
            (space.kind, parts) for space, _, parts in self.accepted
            if parts and figures.is_half(Fraction(10 * space.length, 3 * parts))
        }
        wanted = {(kind, parts) for kind in (U, S) for parts in (4, 8, 12, 16)} | {(B, 8), (B, 12), (B, 16)}
        self.assertLessEqual(wanted, halves)

    def test_halves_exist_only_for_these_parts(self) -> None:
        halves = {
            parts for parts in range(2, 17, 2) for length in range(1, 1000)
            if figures.is_half(Fraction(10 * length, 3 * parts))
        }
        self.assertEqual(halves, {4, 8, 12, 16})

    def test_halves_of_third_intervals_of_depth(self) -> None:
        found = set()
        for space, *_ in self.accepted:
            if space.kind == U:
                parts = m.parts_of_depth(m.middle_depth(space.heights))
                found |= {(parts, depth) for depth in space.heights if figures.is_half(Fraction(depth, 3 * parts))}
        self.assertLessEqual({(4, 6), (4, 18), (4, 1590), (6, 9), (6, 27), (6, 1611)}, found)

    def test_halves_of_tonnage(self) -> None:
        counts = {kind: 0 for kind in m.KINDS}
        for space, tonnage, _ in self.accepted:
            volume = m.volume(space.kind, *space[2:])
            if figures.is_half(volume):
                counts[space.kind] += 1
                self.assertEqual(tonnage, floor(volume) + 1)
        for kind, count in counts.items():
            self.assertGreaterEqual(count, 10, msg=f"kind {kind}")

    def test_ties(self) -> None:
        """At least 20 ties: of every pair of neighbours, in every class of the table; and pairs one off a tie."""
        pairs = {(space.tonnage_length, space.length) for space, number, *_ in self.spaces if space.kind == S}
        tied = {pair for pair in pairs if min(pair) >= 1 and figures.is_tie(*pair)}
        self.assertGreaterEqual(len(tied), 20)
        self.assertEqual(
            {(m.parts_by_table(pair[0]), m.parts_of_superstructure(*pair)) for pair in tied},
            {(number, greater) for number in range(6, 17, 2) for greater in range(4, 17, 2)},
        )
        beside = [pair for pair in tied if (pair[0], pair[1] + 1) in pairs and (pair[0], pair[1] - 1) in pairs]
        self.assertGreaterEqual(len(beside), 20)
        self.assertTrue(any((one + 1, other) in pairs and (one - 1, other) in pairs for one, other in tied))

    def test_zeros(self) -> None:
        for kind in (U, B, S):
            of_kind = [space for space, *_ in self.accepted if space.kind == kind]
            for values in ([space.heights for space in of_kind], [space.breadths for space in of_kind]):
                self.assertTrue(any(not any(one) for one in values))
                self.assertTrue(any(any(one) and 0 in one for one in values))

    def test_greatest_measures(self) -> None:
        for kind, numbers in ((U, range(2, 17, 2)), (B, range(6, 17, 2)), (S, range(2, 17, 2)), (H, [0]), (R, [0])):
            found = {
                parts for space, _, parts in self.accepted
                if space.kind == kind and set(space.heights) == {20000} and set(space.breadths) == {30000}
            }
            self.assertEqual(found, set(numbers))
        self.assertLess(max(tonnage for _, tonnage, _ in self.accepted), 100_000_000)
        self.assertGreaterEqual(max(tonnage for _, tonnage, _ in self.accepted), 90_000_720)

    def test_wrong_numbers(self) -> None:
        """Heights one too few, one too many and none; breadths likewise, where the heights are as many as asked."""
        for kind in m.KINDS:
            refused = [space for space, number, *_ in self.spaces if space.kind == kind and number == 3]
            heights_off = {len(space.heights) - m.heights_asked(*space[:3]) for space in refused}
            right = [space for space in refused if len(space.heights) == m.heights_asked(*space[:3])]
            breadths_off = {len(space.breadths) - m.breadths_asked(kind, space.heights) for space in right}
            self.assertLessEqual({-1, 1}, heights_off)
            self.assertLessEqual({-1, 1}, breadths_off)
            self.assertTrue(any(not space.heights and space.breadths for space in refused))
            self.assertTrue(any(not space.breadths for space in right))

    def test_hatchways_and_rooms_without_and_with_two_measures(self) -> None:
        for kind in (H, R):
            counts = {
                (len(space.heights), len(space.breadths))
                for space, number, *_ in self.spaces if space.kind == kind and number == 3
            }
            self.assertLessEqual({(0, 0), (0, 1), (1, 0), (2, 1), (1, 2), (2, 2)}, counts)

    def test_one_measure_out_of_range(self) -> None:
        """By one, at the first, the middle and the last place, the number of measures being right."""
        for kind in m.KINDS:
            found = set()
            for space, number, *_ in self.spaces:
                if space.kind != kind or number != 2 or m.wrong_number(*space):
                    continue
                if space.tonnage_length not in m.TONNAGE_LENGTHS or space.length not in m.LENGTHS[kind]:
                    continue
                high = [("height", place) for place, one in enumerate(space.heights) if one == 20001]
                wide = [("breadth", place) for place, one in enumerate(space.breadths) if one == 30001]
                if len(high + wide) == 1:
                    of_list, place = (high + wide)[0]
                    count = len(space.heights if of_list == "height" else space.breadths)
                    found |= {(of_list, name) for name, at in (
                        ("first", 0), ("middle", count // 2), ("last", count - 1)
                    ) if at == place}
            self.assertEqual(
                found, {(of_list, name) for of_list in ("height", "breadth") for name in ("first", "middle", "last")}
            )

    def test_least_measures_of_hatchways_and_rooms(self) -> None:
        for kind in (H, R):
            refused = [space for space, number, *_ in self.spaces if space.kind == kind and number == 2]
            self.assertTrue(any(list(space.heights) == [0] and 0 not in space.breadths for space in refused))
            self.assertTrue(any(list(space.breadths) == [0] and 0 not in space.heights for space in refused))
            self.assertTrue(any(len(space.heights) == 2 and space.heights[1] == 0 for space in refused))

    def test_surplus_measure_out_of_range(self) -> None:
        """2 before 3: all as asked but for one surplus measure behind the others, and that one out of range."""
        for kind in m.KINDS:
            found = set()
            for space, number, *_ in self.spaces:
                if space.kind == kind and number == 2:
                    without_height = space._replace(heights=space.heights[:-1])
                    without_breadth = space._replace(breadths=space.breadths[:-1])
                    if space.heights and space.heights[-1] == 20001 and m.measure(*without_height)[0] == 0:
                        found.add("height")
                    if space.breadths and space.breadths[-1] == 30001 and m.measure(*without_breadth)[0] == 0:
                        found.add("breadth")
            self.assertEqual(found, {"height", "breadth"}, msg=f"kind {kind}")

    def test_greatest_numbers_of_the_protocol(self) -> None:
        greatest = 4_294_967_295
        for kind in m.KINDS:
            of_kind = [space for space, *_ in self.spaces if space.kind == kind]
            self.assertTrue(any(space.tonnage_length == greatest for space in of_kind))
            self.assertTrue(any(space.length == greatest for space in of_kind))
            self.assertTrue(any(greatest in space.heights for space in of_kind))
            self.assertTrue(any(greatest in space.breadths for space in of_kind))
        self.assertEqual(max(len(space.heights) for space, *_ in self.spaces), 1024)
        self.assertEqual(max(len(space.breadths) for space, *_ in self.spaces), 1024)

    def test_hatchways(self) -> None:
        found = self.amounts("hatchways")
        self.assertGreaterEqual(len(found), 200)
        self.assertLessEqual({0, 99, 100, 101}, {g for g, _ in found})
        for rest in (99, 100, 101):
            self.assertGreaterEqual(len({g for g, _ in found if g % 200 == rest}), 6)
        for by in (-1, 0, 1):
            self.assertGreaterEqual(sum(total - m.hatchway_allowance(g) == by for g, total in found), 20)
        self.assertIn((2**64 - 1, 2**64 - 1), found)

    def test_ballast(self) -> None:
        found = self.amounts("ballast")
        self.assertGreaterEqual(len(found), 200)
        self.assertIn((0, 0), found)
        self.assertIn((1, 0), found)
        self.assertIn((2**64 - 1, 2**64 - 1), found)
        whole = [(ballast - gross * 3 // 10, gross) for ballast, gross in found if gross % 10 == 0 and gross > 0]
        for by in (-1, 0, 1):
            self.assertGreaterEqual(sum(one == by for one, _ in whole), 6)


if __name__ == "__main__":
    unittest.main()
