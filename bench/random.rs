//! Calls at random, made on each desk: so many that every call gives each of its numbers, machinery of each class is reported, third
//! intervals are rounded both ways, and entries visit none to eight enclosing spaces.
use crate::answers::Seen;
use crate::calls;
use crate::cases::{sheet_of, size_of_sheet, PLACES};
use crate::desk::{Call, Desks};
use crate::fummidrake::{breadths_at_station, lay_out, stations, Entry, Tank};
use crate::occurred::Occurred;
use crate::plain::Space;

const RUNS: usize = 600;
const CALLS_A_RUN: usize = 100;

const UNDER_DECK: u8 = 1;
const ROOM: u8 = 5;
const MACHINERY: u8 = 4;
/// Two bytes of the trailer, counted from the last one, from 0.
const MARK: usize = 21;
const BYTE_OF_FORM: usize = 20;

/// Numbers at random, the same ones every time (xorshift64).
struct Dice(u64);

impl Dice {
    fn below(&mut self, bound: u64) -> u64 {
        self.0 ^= self.0 << 13;
        self.0 ^= self.0 >> 7;
        self.0 ^= self.0 << 17;
        self.0 % bound
    }

    fn one_in(&mut self, chances: u64) -> bool {
        self.below(chances) == 0
    }

    fn one_of<T: Copy>(&mut self, choices: &[T]) -> T {
        choices[self.below(choices.len() as u64) as usize]
    }
}

/// A run of calls at random.
struct Survey<'a> {
    dice: &'a mut Dice,
    desks: Desks,
    occurred: &'a mut Occurred,
}

/// Makes calls at random; an error where answers differ, or where something that has to occur didn't.
pub fn check() -> Result<(), String> {
    let sheets = [1, 2].into_iter().flat_map(|form| [0, 2, 30, PLACES].map(|count| sheet_of(count, form)));
    let starts: Vec<Desks> = sheets.collect::<Result<_, _>>()?;
    let mut dice = Dice(88_172_645_463_325_252);
    let mut occurred = Occurred::default();
    for _ in 0..RUNS {
        let desks = starts[dice.below(starts.len() as u64) as usize].clone();
        let mut survey = Survey { dice: &mut dice, desks, occurred: &mut occurred };
        (0..CALLS_A_RUN).try_for_each(|_| survey.step())?;
    }
    occurred.all()
}

impl Survey<'_> {
    fn step(&mut self) -> Result<(), String> {
        if self.dice.one_in(5) {
            return self.write_and_read();
        }
        let call = match self.dice.below(100) {
            0 => self.opening(),
            1..=41 => self.entry(),
            42..=47 => self.part_of_gross(),
            48..=57 => self.tank(),
            58..=59 => self.question(),
            60..=74 => calls::mark(self.id(), self.dice.below(6) as u8),
            75..=84 => calls::withdraw(self.id()),
            85..=90 => calls::undo(),
            91..=95 => calls::redo(),
            _ => return self.report(),
        };
        self.make(&*call).map(drop)
    }

    fn make(&mut self, call: &dyn Call) -> Result<Seen, String> {
        let seen = call.make(&mut self.desks)?;
        self.occurred.note(call.name(), &seen);
        Ok(seen)
    }

    fn opening(&mut self) -> Box<dyn Call> {
        let length = self.dice.one_of(&[99, 100, 100, 4_500, 150_000]);
        calls::open(length, self.dice.one_of(&[0, 0, 1, 1_042, u32::MAX]))
    }

    /// Reports, and notes the class of the machinery if there is any.
    fn report(&mut self) -> Result<(), String> {
        let report = calls::report(self.dice.below(3) as u8);
        let Seen { number, values: [gross, ..], .. } = self.make(&*report)?;
        let machinery = self.machinery();
        if number == 0 && machinery != 0 {
            self.occurred.note_class(machinery, gross);
        }
        Ok(())
    }

    /// The tonnage of all machinery rooms.
    fn machinery(&self) -> u64 {
        let rooms = self.desks.in_place.sheet.standing().iter().filter(|space| space.standing as u8 == MACHINERY);
        rooms.map(|room| u64::from(room.tonnage)).sum()
    }

    /// Writes the sheet at some place, and reads it back from there or from where it was moved, mostly with a bit of it changed. The sheet
    /// read is taken if it is open. Where the write was refused, what lies there is seldom read.
    fn write_and_read(&mut self) -> Result<(), String> {
        let form = self.form();
        let at = self.dice.below(4_000) as usize;
        let end = at + self.size(form);
        let place = if self.dice.one_in(10) { usize::MAX - at } else { at };
        let justified = self.dice.one_of(&[0, 0, 1, 1, 1, 1, 1, 2]);
        let written = self.make(&*calls::write(justified, form, place))?.number == 0;
        if !written && !self.dice.one_in(10) {
            return Ok(());
        }
        let before = self.desks.clone();
        if !self.dice.one_in(4) {
            self.change_a_bit(end, form);
        }
        let end = if self.dice.one_in(2) { self.moved(end)? } else { end };
        self.make(&*calls::read(end))?;
        if !self.desks.in_place.sheet.is_open() {
            self.desks = before;
        }
        Ok(())
    }

    /// Of the last sheet before an end, in a form: half the time the mark, what tells the two forms apart, or what makes the greatest room
    /// machinery if it is plain; else often in its trailer.
    fn change_a_bit(&mut self, end: usize, form: u8) {
        let standing = self.standing_of_greatest(form);
        let (from_end, bit) = match self.dice.below(4) {
            0 | 1 => self.dice.one_of(&[(MARK, 0), (BYTE_OF_FORM, 1), (standing, 2)]),
            2 => (self.dice.below(28) as usize, self.dice.below(8)),
            _ => (self.dice.below(self.size(form) as u64) as usize, self.dice.below(8)),
        };
        self.desks.buffers().into_iter().for_each(|buffer| buffer[end - 1 - from_end] ^= 1 << bit);
    }

    /// The standing of the greatest room, the sixth byte of its record in a form, counted from the sheet's last byte, from 0; where there
    /// is no room, the mark.
    fn standing_of_greatest(&self, form: u8) -> usize {
        let from_last = self.desks.in_place.sheet.standing().iter().rev().zip(1..);
        let greatest = from_last.filter(|(space, _)| space.kind as u8 == ROOM).max_by_key(|(room, _)| room.tonnage);
        greatest.map_or(MARK, |(_, count)| size_of_sheet(count, form) - 6)
    }

    /// Moves the last sheet before an end behind that, and says where it ends now: refused, there still. The place is mostly near; or the
    /// last with room enough, or the next; or past the buffer.
    fn moved(&mut self, end: usize) -> Result<usize, String> {
        let form = self.form();
        let last_place = self.desks.in_place.buffer.len() - end - self.size(form);
        let at = match self.dice.below(10) {
            0 => usize::MAX - self.dice.below(4_000) as usize,
            1 => last_place + self.dice.below(2) as usize,
            _ => self.dice.below(100) as usize,
        };
        let seen = self.make(&*calls::move_last(end, form, at))?;
        Ok(if seen.number == 0 { end + at + seen.values[0] as usize } else { end })
    }

    /// Of the sheet as it stands.
    fn size(&self, form: u8) -> usize {
        size_of_sheet(self.desks.in_place.sheet.standing().len() as u16, form)
    }

    /// One of the two, and now and then neither.
    fn form(&mut self) -> u8 {
        match self.dice.below(20) {
            0 => self.dice.one_of(&[0, 3]),
            _ => self.dice.one_of(&[1, 2]),
        }
    }

    /// An id, mostly of a space that stands, and among those often the last.
    fn id(&mut self) -> u16 {
        let standing = self.desks.in_place.sheet.standing();
        match (self.dice.below(8), standing.last()) {
            (0..=2, Some(last)) => last.id,
            (3..=6, Some(_)) => standing[self.dice.below(standing.len() as u64) as usize].id,
            _ => self.dice.one_of(&[0, 1, 2, 3, 300, 9_999, 10_000, 65_535]),
        }
    }

    /// One to enter, mostly one that doesn't stand.
    fn new_id(&mut self) -> u16 {
        match self.dice.below(20) {
            0 => self.id(),
            _ => 1 + self.dice.below(9_999) as u16,
        }
    }

    /// An entry, mostly of a kind and with measures that the rules take.
    fn entry(&mut self) -> Box<dyn Call> {
        let tonnage_length = self.desks.in_place.sheet.tonnage_length();
        let entry = Entry {
            id: self.new_id(),
            within: self.id(),
            kind: self.dice.one_of(&[0, 1, 1, 2, 3, 4, 5, 5, 5, 5, 5, 5, 5, 6]),
            standing: self.dice.one_of(&[0, 0, 0, 0, 0, 1, 1, 2, 2, 3, 4, 5]),
            fore_end: self.end_of_under_deck(),
            aft_end: self.end_of_under_deck(),
            deck: self.deck(),
            length: self.length(tonnage_length),
        };
        let most = self.dice.one_of(&[100, 100, 1_600, 20_000]);
        let mut heights = self.measures(stations(entry.kind, tonnage_length, entry.length), most);
        let at_station = breadths_at_station(entry.kind, heights[heights.len() / 2]);
        let mut breadths = self.measures(heights.len() * at_station, most);
        if entry.kind == UNDER_DECK {
            for station in [0, heights.len() - 1] {
                self.point(&mut heights[station], &mut breadths[station * at_station..][..at_station]);
            }
        }
        match self.dice.below(40) {
            0 => heights.push(1),
            1 => breadths.push(30_001),
            2 => heights[0] = 20_001,
            3 => breadths[0] = 0,
            4 => heights.clear(),
            _ => {}
        }
        calls::enter(entry, heights, breadths)
    }

    /// A room in the first U: any part of the gross, or one at which the rules turn, 13%, 20% or four sevenths, of which 1.75 times are all
    /// the gross; half the time a hundredth more. It is 10 ft broad and high, so that it has a hundredth of a ton for each of a foot.
    fn part_of_gross(&mut self) -> Box<dyn Call> {
        let percents = self.dice.below(101);
        let (part, parts) = self.dice.one_of(&[(percents, 100), (13, 100), (20, 100), (4, 7)]);
        let gross = self.desks.in_place.sheet.report(1).map_or(100, |report| report.gross);
        let room = Entry {
            id: self.new_id(),
            within: self.under_deck().map_or(1, |space| space.id),
            kind: ROOM,
            standing: self.dice.one_of(&[0, 2, 3, 4]),
            deck: self.deck(),
            length: (part * gross / parts + self.dice.below(2)) as u32,
            ..Entry::default()
        };
        calls::enter(room, vec![1_000], vec![1_000])
    }

    /// One at which the rules turn, or any up to 50 ft, since round ones are seldom rounded up.
    fn length(&mut self, tonnage_length: u32) -> u32 {
        match self.dice.below(4) {
            0 => 1 + self.dice.below(5_000) as u32,
            _ => self.dice.one_of(&[tonnage_length, tonnage_length / 2, 4_000, 2_000, 300, 100, 99, 0, 150_001]),
        }
    }

    /// Inner, upright or pointed, and now and then none of these.
    fn end_of_under_deck(&mut self) -> u8 {
        match self.dice.below(20) {
            0 => self.dice.one_of(&[0, 4, 255]),
            _ => self.dice.one_of(&[1, 2, 3]),
        }
    }

    /// Mostly none, since form 1 holds none; and now and then 100.
    fn deck(&mut self) -> u8 {
        match self.dice.below(8) {
            0 => self.dice.below(101) as u8,
            _ => 0,
        }
    }

    /// Half the time a section without area, or nearly so: a depth's third interval is 0 up to a depth of 5 in 4 parts, of 8 in 6.
    fn point(&mut self, depth: &mut u32, breadths: &mut [u32]) {
        match self.dice.below(4) {
            0 => *depth = self.dice.below(11) as u32,
            1 => breadths.fill(0),
            _ => {}
        }
    }

    /// The first U that stands.
    fn under_deck(&self) -> Option<&Space> {
        self.desks.in_place.sheet.standing().iter().find(|space| space.kind as u8 == UNDER_DECK)
    }

    /// A tank, mostly in a U that stands, and with the sections that the rules ask.
    fn tank(&mut self) -> Box<dyn Call> {
        let tonnage_length = self.desks.in_place.sheet.tonnage_length();
        let under_deck = self.under_deck();
        let (within, whole, m) = under_deck.map_or((1, 4_000, 4), |space| (space.id, space.length, space.m()));
        let [length, fore] = self.ends(tonnage_length, whole);
        let tank = Tank {
            id: self.new_id(),
            within: if self.dice.one_in(10) { self.id() } else { within },
            standing: self.dice.one_of(&[0, 0, 0, 1, 2, 3, 4, 5]),
            deck: self.deck(),
            length,
            fore,
        };
        let most = self.dice.one_of(&[10, 100, 100, 1_600, 20_000]);
        let mut depths = self.measures(lay_out(tonnage_length, whole, length, fore).sections, most);
        let mut breadths = self.measures(depths.len() * (usize::from(m) + 1), most);
        match self.dice.below(40) {
            0 => depths.push(1),
            1 => breadths.push(30_001),
            2 => depths.push(20_001),
            3 => breadths.fill(0),
            4 => depths.clear(),
            5 => drop(breadths.pop()),
            _ => {}
        }
        calls::enter_tank(tank, depths, breadths)
    }

    /// Where a tank is measured, or one of its sections; lengths now and then out of their ranges.
    fn question(&mut self) -> Box<dyn Call> {
        let tonnage_length = self.dice.one_of(&[99, 100, 2_000, 3_600, 4_800, 9_600, 30_000, 150_000, 150_001]);
        let whole = match self.dice.below(3) {
            0 => tonnage_length,
            1 => self.dice.one_of(&[100, 1_800, 3_600, 28_800]),
            _ => 100 + self.dice.below(149_901) as u32,
        };
        let [length, fore] = self.ends(tonnage_length, whole);
        let asked = [tonnage_length, whole, length, fore];
        match self.dice.below(2) {
            0 => calls::lay_out(asked),
            _ => calls::section_station(asked, self.dice.below(25) as usize),
        }
    }

    /// The length and the fore end of a tank in a U: mostly so many thirds of its interval, so that stations fall between zones or, where
    /// a third is no whole number, near that.
    fn ends(&mut self, tonnage_length: u32, under_deck: u32) -> [u32; 2] {
        let thirds = 3 * (stations(UNDER_DECK, tonnage_length, under_deck) as u64 - 1);
        let own = 1 + self.dice.below(thirds);
        let of_thirds = |thirds_of_it: u64| (thirds_of_it * u64::from(under_deck) / thirds) as u32;
        let [length, fore] = [own, self.dice.below(thirds - own + 1)].map(of_thirds);
        match self.dice.below(30) {
            0 => [length, under_deck],
            1 => [under_deck + 1 - fore, fore],
            2 => [length + 1, fore],
            3 => [length, fore + 1],
            4 => [0, fore],
            5 => [length, self.dice.one_of(&[150_000, 150_001, u32::MAX])],
            6 => [self.dice.one_of(&[150_000, 150_001, u32::MAX]), fore],
            _ => [length, fore],
        }
    }

    /// From 1 to the most, and often the most.
    fn measures(&mut self, count: usize, most: u64) -> Vec<u32> {
        let mut measure = || if self.dice.one_in(4) { most } else { 1 + self.dice.below(most) };
        (0..count).map(|_| measure() as u32).collect()
    }
}
