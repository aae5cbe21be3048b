//! The sheet and its changes, made in place ("The sheet and its changes").
use super::gross::{self, Reckoning, Report};
use super::history::{Change, History};
use super::measure::{is_tonnage_length, measured, End, Kind, Measured, Roundings};
use super::rules::{
    is_deck, judge_tank, level_of_entry, place_to_mark, place_to_withdraw, Row, Space, Standing, PLACES,
};
use super::tanks::{self, Tank};
use super::Refusal;

/// What is entered; `within` is looked at only of a room, the ends only of a U.
#[derive(Clone, Copy)]
pub struct Entry {
    pub id: u16,
    pub within: u16,
    pub kind: u8,
    pub standing: u8,
    pub fore_end: u8,
    pub aft_end: u8,
    pub deck: u8,
    pub length: u32,
}

#[derive(Clone, Copy)]
pub struct Sheet {
    pub(super) open: bool,
    /// How many of the places are used: the first ones, in order of entry.
    pub(super) count: u8,
    /// The tonnage length.
    pub(super) length: u32,
    /// The vessel number, 0 for none.
    pub(super) vessel: u32,
    pub(super) spaces: [Space; PLACES],
    history: History,
}

/// What an entry is answered with, refused or not, and how many enclosing spaces were visited for it: none but for a room (T-07 of document
/// 02).
pub struct Visiting<A> {
    pub answer: A,
    pub visited: u8,
}

/// How many changes are undoable and redoable.
#[derive(Clone, Copy)]
pub struct Counts {
    pub undoable: u8,
    pub redoable: u8,
}

impl<A> Visiting<A> {
    /// The named space, if it stands, and those above it to level 1: as many as its own level, which it keeps.
    fn up_from(named: Option<Space>, answer: A) -> Visiting<A> {
        Visiting { answer, visited: named.map_or(0, |space| space.level()) }
    }
}

impl Sheet {
    /// A sheet not open.
    pub const CLOSED: Sheet =
        Sheet { open: false, count: 0, length: 0, vessel: 0, spaces: [Space::NONE; PLACES], history: History::EMPTY };

    /// Opens this one anew with a tonnage length and a vessel number, or closes it.
    pub fn open(&mut self, length: u32, vessel: u32) -> Result<(), Refusal> {
        self.close();
        if !is_tonnage_length(length) {
            return Err(Refusal::OutsideItsRange);
        }
        self.open = true;
        self.length = length;
        self.vessel = vessel;
        Ok(())
    }

    pub(super) fn close(&mut self) {
        self.open = false;
        self.count = 0;
        self.length = 0;
        self.vessel = 0;
        self.history.clear();
    }

    /// Enters a space from its offsets, and says what the rounding of its third intervals did; 1 to 10, 19.
    pub fn enter(&mut self, entry: Entry, heights: &[u32], breadths: &[u32]) -> Visiting<Result<Roundings, Refusal>> {
        let enclosing = match Kind::of_code(entry.kind) {
            Some(Kind::Room) => self.space_with(entry.within),
            _ => None,
        };
        Visiting::up_from(enclosing, self.entered(entry, enclosing.as_ref(), heights, breadths))
    }

    fn entered(
        &mut self,
        entry: Entry,
        enclosing: Option<&Space>,
        heights: &[u32],
        breadths: &[u32],
    ) -> Result<Roundings, Refusal> {
        self.opened()?;
        let standing = Standing::of_code(entry.standing).ok_or(Refusal::OutsideItsRange)?;
        let kind = Kind::of_code(entry.kind).ok_or(Refusal::OutsideItsRange)?;
        let ends = [entry.fore_end, entry.aft_end].map(End::of_code);
        if kind == Kind::UnderDeck && ends.contains(&None) || !is_deck(entry.deck.into()) {
            return Err(Refusal::OutsideItsRange);
        }
        let Measured { tonnage, roundings, m, end_areas } =
            measured(kind, self.length, entry.length, heights, breadths)?;
        let within = if kind == Kind::Room { entry.within } else { 0 };
        let Entry { id, deck, length, .. } = entry;
        let new = Space { id, within, kind, standing, level_or_m: m, deck, tonnage, length };
        let space = new.at_level(level_of_entry(self.standing(), self.length, &new, enclosing)?);
        if ends.into_iter().zip(end_areas).any(|(end, area)| end == Some(End::Pointed) && area != 0) {
            return Err(Refusal::PointedWithArea);
        }
        self.put_last(space);
        self.history.note(Change::Entered(space));
        Ok(roundings)
    }

    /// Enters a tank that follows the hull from its sections; 1 to 6, 9, 10, 29.
    pub fn enter_tank(&mut self, tank: Tank, depths: &[u32], breadths: &[u32]) -> Visiting<Result<(), Refusal>> {
        let enclosing = self.space_with(tank.within);
        Visiting::up_from(enclosing, self.tank_entered(tank, enclosing.as_ref(), depths, breadths))
    }

    fn tank_entered(
        &mut self,
        tank: Tank,
        enclosing: Option<&Space>,
        depths: &[u32],
        breadths: &[u32],
    ) -> Result<(), Refusal> {
        self.opened()?;
        let standing = Standing::of_code(tank.standing).ok_or(Refusal::OutsideItsRange)?;
        if !is_deck(tank.deck.into()) || !tanks::in_range(tank.length, tank.fore, depths, breadths) {
            return Err(Refusal::OutsideItsRange);
        }
        let measuring = |space: &&Space| space.m() != 0 && !tanks::passes_end(space.length, tank.length, tank.fore);
        let tonnage = match enclosing.filter(measuring) {
            Some(under_deck) => tanks::tonnage(self.length, under_deck, tank, depths, breadths)?,
            None => 0,
        };
        let Tank { id, within, deck, length, .. } = tank;
        let space = Space { id, within, kind: Kind::Room, standing, level_or_m: 2, deck, tonnage, length };
        judge_tank(self.standing(), &space, tank.fore, enclosing)?;
        self.put_last(space);
        self.history.note(Change::Entered(space));
        Ok(())
    }

    /// Strikes out the space with an id; 1, 5, 11.
    pub fn withdraw(&mut self, id: u16) -> Result<(), Refusal> {
        self.opened()?;
        let place = place_to_withdraw(self.standing(), id)?;
        let space = self.spaces[place];
        self.take_out(place);
        self.history.note(Change::Withdrawn { place: place as u8, space });
        Ok(())
    }

    /// Gives the space with an id a new standing, even the same one; 1, 2, 5, 6, 8.
    pub fn mark(&mut self, id: u16, standing: u8) -> Result<(), Refusal> {
        self.opened()?;
        let after = Standing::of_code(standing).ok_or(Refusal::OutsideItsRange)?;
        let place = place_to_mark(self.standing(), id, after)?;
        let before = self.spaces[place].standing;
        self.spaces[place].standing = after;
        self.history.note(Change::Marked { place: place as u8, before, after });
        Ok(())
    }

    /// Takes back the latest accepted change not undone; 1, 12.
    pub fn undo(&mut self) -> Result<(), Refusal> {
        self.opened()?;
        match self.history.undone().ok_or(Refusal::NothingOpen)? {
            Change::Entered(_) => self.count -= 1,
            Change::Withdrawn { place, space } => self.put_in(place.into(), space),
            Change::Marked { place, before, .. } => self.spaces[usize::from(place)].standing = before,
        }
        Ok(())
    }

    /// Makes again the change last undone; 1, 12.
    pub fn redo(&mut self) -> Result<(), Refusal> {
        self.opened()?;
        match self.history.redone().ok_or(Refusal::NothingOpen)? {
            Change::Entered(space) => self.put_last(space),
            Change::Withdrawn { place, .. } => self.take_out(place.into()),
            Change::Marked { place, after, .. } => self.spaces[usize::from(place)].standing = after,
        }
        Ok(())
    }

    /// 0 and 0 on a sheet not open.
    pub fn counts(&self) -> Counts {
        Counts { undoable: self.history.undoable, redoable: self.history.redoable }
    }

    /// Gross and net; `justified` is 1 where the surveyor justifies the water ballast, else 0; 1, 2, 13, 14, 21.
    pub fn report(&self, justified: u8) -> Result<Report, Refusal> {
        self.opened()?;
        self.reckon(justified)?.report()
    }

    pub fn is_open(&self) -> bool {
        self.open
    }

    /// The tonnage length; 0 on a sheet not open.
    pub fn tonnage_length(&self) -> u32 {
        self.length
    }

    /// 0 on a sheet not open.
    pub fn vessel(&self) -> u32 {
        self.vessel
    }

    /// The spaces that stand, in order of entry.
    pub fn standing(&self) -> &[Space] {
        &self.spaces[..usize::from(self.count)]
    }

    /// None on a sheet not open.
    fn space_with(&self, id: u16) -> Option<Space> {
        self.standing().find(id).copied()
    }

    pub(super) fn opened(&self) -> Result<(), Refusal> {
        if self.open {
            Ok(())
        } else {
            Err(Refusal::NotOpen)
        }
    }

    /// What a report works out of an open sheet, or refusal 2, 13 or 14.
    pub(super) fn reckon(&self, justified: u8) -> Result<Reckoning, Refusal> {
        if justified > 1 {
            return Err(Refusal::OutsideItsRange);
        }
        gross::reckon(self.standing(), self.length, justified == 1)
    }

    fn put_last(&mut self, space: Space) {
        self.spaces[usize::from(self.count)] = space;
        self.count += 1;
    }

    /// Takes a place out; those after it come one place nearer.
    fn take_out(&mut self, place: usize) {
        self.spaces.copy_within(place + 1..usize::from(self.count), place);
        self.count -= 1;
    }

    /// Puts a space in at a place; those from it on go one place further.
    fn put_in(&mut self, place: usize, space: Space) {
        self.spaces.copy_within(place..usize::from(self.count), place + 1);
        self.spaces[place] = space;
        self.count += 1;
    }
}
