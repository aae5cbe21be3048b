//! Tanks that follow the hull (69.117(g)(3); T-01 of document 02): where a tank is measured, and its tonnage from its sections.
use super::measure::{
    offsets_in_range, parts_nearest, parts_of_under_deck, sections, tons_over, Kind, Third, LONGEST, MOST_STATIONS,
};
use super::rules::Space;
use super::Refusal;

/// A tank to be entered; `within` is the id of its U, `fore` the distance of its fore end along that.
#[derive(Clone, Copy)]
pub struct Tank {
    pub id: u16,
    pub within: u16,
    pub standing: u8,
    pub deck: u8,
    pub length: u32,
    pub fore: u32,
}

/// The parts of a tank, and how many sections it asks.
#[derive(Clone, Copy)]
pub struct LaidOut {
    pub parts: usize,
    pub sections: usize,
}

/// The length and the fore end of a tank, and its depths and breadths, surplus ones too.
pub fn in_range(length: u32, fore: u32, depths: &[u32], breadths: &[u32]) -> bool {
    Kind::Room.takes_length(length) && fore <= LONGEST && offsets_in_range(Kind::UnderDeck, depths, breadths)
}

/// Whether a tank in range ends behind its U.
pub fn passes_end(under_deck: u32, length: u32, fore: u32) -> bool {
    fore + length > under_deck
}

/// The tonnage of a tank in range that passes no end of its U, which has m; or refusal 3.
pub fn tonnage(
    tonnage_length: u32,
    under_deck: &Space,
    tank: Tank,
    depths: &[u32],
    breadths: &[u32],
) -> Result<u32, Refusal> {
    let layout = Layout::of(tonnage_length, under_deck.length, tank.length, tank.fore);
    let at_section = usize::from(under_deck.m()) + 1;
    let mut areas = [0; MOST_STATIONS];
    let mut asked = 0;
    let mut areas_of_sections = sections(depths, breadths, at_section).map(|section| section.area);
    for (station, area) in areas[..=layout.parts as usize].iter_mut().enumerate() {
        // missing sections have no area, and are counted all the same
        let mut next = || {
            asked += 1;
            areas_of_sections.next().unwrap_or(0)
        };
        *area = next();
        if layout.zone_of(station as u32).between {
            *area = next().max(*area);
        }
    }
    if depths.len() != asked || breadths.len() != asked * at_section {
        return Err(Refusal::NotTheNumberAsked);
    }
    let areas = &areas[..=layout.parts as usize];
    Ok(tons_over(Third::of_length(tank.length, areas.len()), areas))
}

/// Where a tank is measured, or refusal 2 or 9.
#[inline(never)]
pub fn lay_out(tonnage_length: u32, under_deck: u32, length: u32, fore: u32) -> Result<LaidOut, Refusal> {
    let layout = Layout::judged(tonnage_length, under_deck, length, fore)?;
    let parts = layout.parts as usize;
    let between = (0..=layout.parts).filter(|&station| layout.zone_of(station).between).count();
    Ok(LaidOut { parts, sections: parts + 1 + between })
}

/// The number, from 1, of the under-deck station in whose zone a section, from 0, falls; 0 where there is no such section.
#[inline(never)]
pub fn section_station(tonnage_length: u32, under_deck: u32, length: u32, fore: u32, section: usize) -> usize {
    let Ok(layout) = Layout::judged(tonnage_length, under_deck, length, fore) else { return 0 };
    let mut left = section;
    for Zoned { zone, between } in (0..=layout.parts).map(|station| layout.zone_of(station)) {
        if left <= usize::from(between) {
            return zone as usize + left;
        }
        left -= 1 + usize::from(between);
    }
    0
}

/// How a tank lies along its U. A point of the U is told in thirds of its interval, times the U's length and the tank's parts, so that it
/// is a whole number, and under 2^28.
struct Layout {
    /// Of the tank.
    parts: u32,
    /// The fore end, and the interval of the tank.
    fore: u32,
    interval: u32,
    /// A third of the U's interval.
    third: u32,
}

/// The zone, from 1, that a tank station falls in, of two the fore one, and whether it falls exactly between two.
struct Zoned {
    zone: u32,
    between: bool,
}

impl Layout {
    /// A tank is divided as a superstructure is, with the U's interval as the reference.
    fn of(tonnage_length: u32, under_deck: u32, length: u32, fore: u32) -> Layout {
        let whole = parts_of_under_deck(tonnage_length, under_deck);
        let parts = parts_nearest(under_deck, whole, length);
        Layout { parts, fore: fore * parts * 3 * whole, interval: length * 3 * whole, third: under_deck * parts }
    }

    /// The same of lengths that may be any, or refusal 2 or 9.
    fn judged(tonnage_length: u32, under_deck: u32, length: u32, fore: u32) -> Result<Layout, Refusal> {
        let hull = [tonnage_length, under_deck];
        if !hull.into_iter().all(|length| Kind::UnderDeck.takes_length(length)) || !in_range(length, fore, &[], &[]) {
            return Err(Refusal::OutsideItsRange);
        }
        if passes_end(under_deck, length, fore) {
            return Err(Refusal::WouldPass);
        }
        Ok(Layout::of(tonnage_length, under_deck, length, fore))
    }

    /// The zones have 1, 4, 2, 4, .., 4, 1 thirds, so that they end at 1, 5, 7, 11, 13, ..: the numbers that neither 2 nor 3 divides.
    fn zone_of(&self, station: u32) -> Zoned {
        let point = self.fore + station * self.interval;
        let thirds = point / self.third;
        let ended = (thirds + 1) / 6 + (thirds + 5) / 6;
        let between = point % self.third == 0 && matches!(thirds % 6, 1 | 5);
        Zoned { zone: ended + 1 - u32::from(between), between }
    }
}
