//! One space's tonnage from its offsets ("Spaces", "Units and roundings", "Ranges"). Measures are in hundredths of a foot,
//! tonnages in hundredths of a ton.
use super::Refusal;
use std::ops::RangeInclusive;

/// The kinds of space; `as u8` gives the code.
#[derive(Clone, Copy, PartialEq, Eq)]
#[repr(u8)]
pub enum Kind {
    UnderDeck = 1,
    BetweenDeck,
    Superstructure,
    Hatchway,
    Room,
}

/// What the fore or the aft end of a U is ("Pointed bows", T-02 of document 02): inner where it is at a step.
#[derive(Clone, Copy, PartialEq, Eq)]
pub enum End {
    Inner,
    Upright,
    Pointed,
}

/// A space measured: its tonnage and roundings, and of a U the parts of depth and the areas at its fore and aft end; 0 of any other.
#[derive(Default)]
pub struct Measured {
    pub tonnage: u32,
    pub roundings: Roundings,
    pub m: u8,
    pub end_areas: [u64; 2],
}

/// What the rounding of third intervals did (T-04 of document 02), in parts of each one's divisor: of a U's, B's or S's length, and of the
/// depth at each station of a U; 0 where there is none.
#[derive(Clone, Copy, Default)]
pub struct Roundings {
    pub length: i8,
    pub depths: [i8; MOST_STATIONS],
}

const SHORTEST: u32 = 100;
pub const LONGEST: u32 = 150_000;
const DEEPEST: u32 = 20_000;
const BROADEST: u32 = 30_000;

/// One station more than the most parts.
pub const MOST_STATIONS: usize = 17;

/// A cubic foot, which is a hundredth of a ton, in products of three measures.
const CUBIC_FOOT: u64 = 1_000_000;
/// The same in products of two measures and a third interval of length, which is in thousandths of a foot.
const CUBIC_FOOT_BY_THIRDS: u64 = 10_000_000;

impl Kind {
    pub fn of_code(code: u8) -> Option<Kind> {
        match code {
            1 => Some(Kind::UnderDeck),
            2 => Some(Kind::BetweenDeck),
            3 => Some(Kind::Superstructure),
            4 => Some(Kind::Hatchway),
            5 => Some(Kind::Room),
            _ => None,
        }
    }

    /// Whether a length is in the range of this kind.
    pub fn takes_length(self, length: u32) -> bool {
        match self {
            Kind::UnderDeck | Kind::BetweenDeck => is_tonnage_length(length),
            Kind::Superstructure | Kind::Hatchway | Kind::Room => (1..=LONGEST).contains(&length),
        }
    }
}

impl End {
    pub fn of_code(code: u8) -> Option<End> {
        match code {
            1 => Some(End::Inner),
            2 => Some(End::Upright),
            3 => Some(End::Pointed),
            _ => None,
        }
    }
}

/// Whether a tonnage length is in its range.
pub fn is_tonnage_length(length: u32) -> bool {
    (SHORTEST..=LONGEST).contains(&length)
}

/// A space measured on a sheet with a tonnage length, or refusal 2 or 3.
pub fn measured(
    kind: Kind,
    tonnage_length: u32,
    length: u32,
    heights: &[u32],
    breadths: &[u32],
) -> Result<Measured, Refusal> {
    if !kind.takes_length(length) || !offsets_in_range(kind, heights, breadths) {
        return Err(Refusal::OutsideItsRange);
    }
    if heights.len() != stations(kind, tonnage_length, length) {
        return Err(Refusal::NotTheNumberAsked);
    }
    let at_station = breadths_at_station(kind, heights[heights.len() / 2]);
    if breadths.len() != at_station * heights.len() {
        return Err(Refusal::NotTheNumberAsked);
    }
    Ok(match kind {
        Kind::UnderDeck => under_deck(length, heights, breadths, at_station),
        Kind::BetweenDeck | Kind::Superstructure => level(length, heights, breadths),
        Kind::Hatchway | Kind::Room => hatchway_or_room(length, heights[0], breadths[0]),
    })
}

/// Every height and breadth is in its range, surplus ones too; the least of a hatchway or a room is 1.
pub fn offsets_in_range(kind: Kind, heights: &[u32], breadths: &[u32]) -> bool {
    let least = matches!(kind, Kind::Hatchway | Kind::Room) as u32;
    all_within(heights, least..=DEEPEST) && all_within(breadths, least..=BROADEST)
}

/// None ends the look early, so that several are compared at a time.
fn all_within(measures: &[u32], range: RangeInclusive<u32>) -> bool {
    measures.iter().fold(true, |fit, measure| fit & range.contains(measure))
}

/// One station more than parts; a hatchway or a room, which isn't divided, has one.
fn stations(kind: Kind, tonnage_length: u32, length: u32) -> usize {
    let parts = match kind {
        Kind::UnderDeck => parts_of_under_deck(tonnage_length, length),
        Kind::BetweenDeck => parts_by_table(tonnage_length),
        Kind::Superstructure => parts_nearest(tonnage_length, parts_by_table(tonnage_length), length),
        Kind::Hatchway | Kind::Room => 0,
    };
    parts as usize + 1
}

pub fn parts_of_under_deck(tonnage_length: u32, length: u32) -> u32 {
    if length == tonnage_length {
        parts_by_table(length)
    } else {
        parts_of_step_part(length)
    }
}

/// The table of 69.109(g).
fn parts_by_table(length: u32) -> u32 {
    match length {
        0..=5_000 => 6,
        5_001..=10_000 => 8,
        10_001..=15_000 => 10,
        15_001..=20_000 => 12,
        20_001..=25_000 => 14,
        _ => 16,
    }
}

fn parts_of_step_part(length: u32) -> u32 {
    match length {
        0..=2_000 => 2,
        2_001..=3_999 => 4,
        _ => parts_by_table(length),
    }
}

/// The even number whose interval of a length is nearest to that of a whole, the reference, in so many parts; on a tie, the greater.
pub fn parts_nearest(whole: u32, parts_of_whole: u32, length: u32) -> u32 {
    // how far length / parts is from the reference, times both numbers of parts
    let distance = |parts: u32| (length * parts_of_whole).abs_diff(whole * parts);
    let nearer = |first: u32, second: u32| {
        if distance(second) * first <= distance(first) * second {
            second
        } else {
            first
        }
    };
    (4..=16).step_by(2).fold(2, nearer)
}

/// For a U m + 1 breadths, m by the depth at its middle station; else one.
fn breadths_at_station(kind: Kind, middle_depth: u32) -> usize {
    match kind {
        Kind::UnderDeck if middle_depth <= 1_600 => 5,
        Kind::UnderDeck => 7,
        _ => 1,
    }
}

/// First and last once, even-numbered four times, other odd-numbered twice: that is, of every two parts the ends once and the middle
/// four times.
fn with_multipliers<T: Copy + Into<u64>>(values: &[T]) -> u64 {
    let of_two_parts = |three: &[T]| three[0].into() + 4 * three[1].into() + three[2].into();
    values.windows(3).step_by(2).map(of_two_parts).sum()
}

/// A third interval to the nearest whole number, and its rounding: how many parts of the divisor were added to the exact fraction for
/// that; below 0 where they were taken off.
pub struct Third {
    nearest: u64,
    rounding: i8,
}

impl Third {
    /// Of a length with so many stations, in thousandths of a foot.
    pub fn of_length(length: u32, stations: usize) -> Third {
        Third::divided(10 * length, 3 * (stations as u32 - 1))
    }

    /// Of a depth in so many parts, in hundredths of a foot.
    fn of_depth(depth: u32, parts: usize) -> Third {
        Third::divided(depth, 3 * parts as u32)
    }

    fn divided(dividend: u32, divisor: u32) -> Third {
        let nearest = nearest(dividend.into(), divisor.into());
        let rounding = nearest as i64 * i64::from(divisor) - i64::from(dividend);
        // at the most half the divisor, up or down: 24 parts
        Third { nearest, rounding: rounding as i8 }
    }
}

/// The section at a station of a U or a tank.
pub struct Section {
    pub area: u64,
    /// Of its depth.
    rounding: i8,
}

fn under_deck(length: u32, depths: &[u32], breadths: &[u32], at_station: usize) -> Measured {
    let third = Third::of_length(length, depths.len());
    let mut roundings = Roundings { length: third.rounding, ..Roundings::default() };
    let mut areas = [0; MOST_STATIONS];
    let stations = areas.iter_mut().zip(&mut roundings.depths);
    for ((area, rounding), section) in stations.zip(sections(depths, breadths, at_station)) {
        *area = section.area;
        *rounding = section.rounding;
    }
    let aft = depths.len() - 1;
    let end_areas = [areas[0], areas[aft]];
    Measured { tonnage: tons_over(third, &areas[..=aft]), roundings, m: at_station as u8 - 1, end_areas }
}

/// Each section with its depth and breadths.
pub fn sections<'a>(depths: &'a [u32], breadths: &'a [u32], at_section: usize) -> impl Iterator<Item = Section> + 'a {
    let section = move |(&depth, of_section): (&u32, &[u32])| {
        let third = Third::of_depth(depth, at_section - 1);
        Section { area: with_multipliers(of_section) * third.nearest, rounding: third.rounding }
    };
    depths.iter().zip(breadths.chunks_exact(at_section)).map(section)
}

/// The tonnage of a length with this third interval and these areas at its stations.
pub fn tons_over(third: Third, areas: &[u64]) -> u32 {
    nearest(with_multipliers(areas) * third.nearest, CUBIC_FOOT_BY_THIRDS) as u32
}

/// A between-deck level or a superstructure: an area, times the plain mean of the heights.
fn level(length: u32, heights: &[u32], breadths: &[u32]) -> Measured {
    let third = Third::of_length(length, breadths.len());
    let area = with_multipliers(breadths) * third.nearest;
    let sum_of_heights: u32 = heights.iter().sum();
    let tonnage = nearest(area * u64::from(sum_of_heights), CUBIC_FOOT_BY_THIRDS * heights.len() as u64) as u32;
    let roundings = Roundings { length: third.rounding, ..Roundings::default() };
    Measured { tonnage, roundings, ..Measured::default() }
}

/// It isn't divided: there is no third interval.
fn hatchway_or_room(length: u32, height: u32, breadth: u32) -> Measured {
    let volume = u64::from(length) * u64::from(breadth) * u64::from(height);
    Measured { tonnage: nearest(volume, CUBIC_FOOT) as u32, ..Measured::default() }
}

/// a / b to the nearest whole number; a half goes up.
pub fn nearest(a: u64, b: u64) -> u64 {
    (a + b / 2) / b
}
