//! A space and its enclosure, and the rules of entering, withdrawing and marking ("Spaces", "Numbers of refusal" 4 to 11).
use super::measure::Kind;
use super::tanks::passes_end;
use super::Refusal;
use std::iter::successors;

/// The standings; `as u8` gives the code.
#[derive(Clone, Copy, PartialEq, Eq)]
#[repr(u8)]
pub enum Standing {
    Plain,
    Exempt,
    Ballast,
    Deducted,
    Machinery,
}

/// A space as it stands: 16 bytes, since a sheet is 200 of them, and copied often.
#[derive(Clone, Copy)]
pub struct Space {
    pub id: u16,
    /// The enclosing id, 0 for a U, B, S or H.
    pub within: u16,
    pub kind: Kind,
    pub standing: Standing,
    /// A room's level, worked out at entry: it can't change, since a space that encloses a room isn't withdrawn. A U's parts of depth, 4 or
    /// 6, where it was entered from offsets. Else 0.
    pub level_or_m: u8,
    pub deck: u8,
    pub tonnage: u32,
    pub length: u32,
}

const _: () = assert!(size_of::<Space>() == 16);

/// Places for spaces on a sheet.
pub const PLACES: usize = 200;
pub const GREATEST_ID: u16 = 9_999;
const GREATEST_LEVEL: u8 = 8;
const GREATEST_DECK: u32 = 99;

impl Standing {
    pub fn of_code(code: u8) -> Option<Standing> {
        match code {
            0 => Some(Standing::Plain),
            1 => Some(Standing::Exempt),
            2 => Some(Standing::Ballast),
            3 => Some(Standing::Deducted),
            4 => Some(Standing::Machinery),
            _ => None,
        }
    }
}

impl Space {
    /// What lies in a place that was never used.
    pub const NONE: Space = Space {
        id: 0,
        within: 0,
        kind: Kind::Room,
        standing: Standing::Plain,
        level_or_m: 0,
        deck: 0,
        tonnage: 0,
        length: 0,
    };

    pub fn is_plain(&self) -> bool {
        self.standing == Standing::Plain
    }

    /// A U, B, S or H is at level 1.
    pub fn level(&self) -> u8 {
        match self.kind {
            Kind::Room => self.level_or_m,
            _ => 1,
        }
    }

    /// The same space, where it stands at a level.
    pub fn at_level(self, level: u8) -> Space {
        match self.kind {
            Kind::Room => Space { level_or_m: level, ..self },
            _ => self,
        }
    }

    /// A U's parts of depth, 4 or 6, where it was entered from offsets; else 0.
    pub fn m(&self) -> u8 {
        match self.kind {
            Kind::UnderDeck => self.level_or_m,
            _ => 0,
        }
    }
}

/// Whether a deck number is in its range; 0 is none.
pub fn is_deck(deck: u32) -> bool {
    deck <= GREATEST_DECK
}

/// Which kind may have which standing.
fn may_take(kind: Kind, standing: Standing) -> bool {
    match kind {
        Kind::UnderDeck | Kind::Hatchway => standing == Standing::Plain,
        Kind::BetweenDeck | Kind::Superstructure => matches!(standing, Standing::Plain | Standing::Exempt),
        Kind::Room => true,
    }
}

/// What entering asks of the spaces that stand. A sheet searches its row; reading, which enters many, keeps a table of ids.
pub trait Row {
    fn count(&self) -> usize;
    fn find(&self, id: u16) -> Option<&Space>;
    /// Whether a standing space and all above it are plain.
    fn plain_upward(&self, space: &Space) -> bool;
    /// The tonnages of the rooms directly inside a standing space.
    fn tonnage_inside(&self, space: &Space) -> u32;
    fn under_deck_lengths(&self) -> u32;
}

impl Row for [Space] {
    fn count(&self) -> usize {
        self.len()
    }

    fn find(&self, id: u16) -> Option<&Space> {
        self.iter().find(|space| space.id == id)
    }

    fn plain_upward(&self, space: &Space) -> bool {
        space.is_plain() && above(self, space).all(Space::is_plain)
    }

    fn tonnage_inside(&self, space: &Space) -> u32 {
        self.iter().filter(|room| room.within == space.id).map(|room| room.tonnage).sum()
    }

    fn under_deck_lengths(&self) -> u32 {
        self.iter().filter(|space| space.kind == Kind::UnderDeck).map(|space| space.length).sum()
    }
}

/// The place of the space with an id, or refusal 5.
pub fn place_of(spaces: &[Space], id: u16) -> Result<usize, Refusal> {
    spaces.iter().position(|space| space.id == id).ok_or(Refusal::NotStanding)
}

/// The spaces above one, up to level 1.
fn above<'a>(spaces: &'a [Space], space: &Space) -> impl Iterator<Item = &'a Space> {
    let enclosing = |space: &Space| if space.within == 0 { None } else { spaces.find(space.within) };
    successors(enclosing(space), move |&upper| enclosing(upper))
}

/// The level at which a new space stands, or the refusal of its entry, 4 to 10. `enclosing` is the space that a room names, if that stands.
pub fn level_of_entry(
    row: &(impl Row + ?Sized),
    tonnage_length: u32,
    new: &Space,
    enclosing: Option<&Space>,
) -> Result<u8, Refusal> {
    judge_id(row, new.id)?;
    let level = match new.kind {
        Kind::Room => level_of_room(row, new, enclosing.ok_or(Refusal::NotStanding)?)?,
        _ => level_of_unenclosed(row, tonnage_length, new)?,
    };
    if row.count() == PLACES {
        return Err(Refusal::NoPlace);
    }
    Ok(level)
}

/// 4: a new id is in its range, and not standing.
fn judge_id(row: &(impl Row + ?Sized), id: u16) -> Result<(), Refusal> {
    if id == 0 || id > GREATEST_ID || row.find(id).is_some() {
        return Err(Refusal::NewId);
    }
    Ok(())
}

/// The refusal of a tank's entry, 4 to 10 and 29, by the space that it names, if that stands. Its U is at level 1 and plain, so that 7 and 8
/// don't come from it; its tonnage is judged where it has one, in a U with m.
pub fn judge_tank(
    row: &(impl Row + ?Sized),
    tank: &Space,
    fore: u32,
    enclosing: Option<&Space>,
) -> Result<(), Refusal> {
    judge_id(row, tank.id)?;
    let under_deck = enclosing.ok_or(Refusal::NotStanding)?;
    if under_deck.kind != Kind::UnderDeck {
        return Err(Refusal::CannotTake);
    }
    let has_m = under_deck.m() != 0;
    let overfull = || row.tonnage_inside(under_deck) + tank.tonnage > under_deck.tonnage;
    if passes_end(under_deck.length, tank.length, fore) || has_m && overfull() {
        return Err(Refusal::WouldPass);
    }
    if row.count() == PLACES {
        return Err(Refusal::NoPlace);
    }
    if !has_m {
        return Err(Refusal::NoM);
    }
    Ok(())
}

/// 6 to 9 of a room, which takes every standing.
fn level_of_room(row: &(impl Row + ?Sized), room: &Space, enclosing: &Space) -> Result<u8, Refusal> {
    if enclosing.kind == Kind::Hatchway {
        return Err(Refusal::CannotTake);
    }
    if enclosing.level() == GREATEST_LEVEL {
        return Err(Refusal::TooDeep);
    }
    if !room.is_plain() && !row.plain_upward(enclosing) {
        return Err(Refusal::NotPlainTwice);
    }
    if row.tonnage_inside(enclosing) + room.tonnage > enclosing.tonnage {
        return Err(Refusal::WouldPass);
    }
    Ok(enclosing.level() + 1)
}

/// 6 and 9 of a U, B, S or H.
fn level_of_unenclosed(row: &(impl Row + ?Sized), tonnage_length: u32, space: &Space) -> Result<u8, Refusal> {
    if !may_take(space.kind, space.standing) {
        return Err(Refusal::CannotTake);
    }
    if space.kind == Kind::UnderDeck && row.under_deck_lengths() + space.length > tonnage_length {
        return Err(Refusal::WouldPass);
    }
    Ok(1)
}

/// The place of a space that may be withdrawn, or refusal 5 or 11.
pub fn place_to_withdraw(spaces: &[Space], id: u16) -> Result<usize, Refusal> {
    let place = place_of(spaces, id)?;
    if behind(spaces, place).iter().any(|room| room.within == id) {
        return Err(Refusal::EnclosesRoom);
    }
    Ok(place)
}

/// The place of a space that may be marked so, or refusal 5, 6 or 8.
pub fn place_to_mark(spaces: &[Space], id: u16, standing: Standing) -> Result<usize, Refusal> {
    let place = place_of(spaces, id)?;
    let space = &spaces[place];
    if !may_take(space.kind, standing) {
        return Err(Refusal::CannotTake);
    }
    if standing != Standing::Plain && !(above(spaces, space).all(Space::is_plain) && plain_below(spaces, place)) {
        return Err(Refusal::NotPlainTwice);
    }
    Ok(place)
}

/// Those that come later in the order than the space at a place: all rooms inside it are among them.
fn behind(spaces: &[Space], place: usize) -> &[Space] {
    &spaces[place + 1..]
}

/// Whether all below the space at a place are plain. One way along the row finds them, since each comes behind its enclosing space.
fn plain_below(spaces: &[Space], place: usize) -> bool {
    let mut enclosing = Ids::NONE;
    enclosing.add(spaces[place].id);
    for room in behind(spaces, place) {
        if enclosing.has(room.within) {
            if !room.is_plain() {
                return false;
            }
            enclosing.add(room.id);
        }
    }
    true
}

/// A set of ids, a bit for each.
struct Ids([u64; GREATEST_ID as usize / 64 + 1]);

impl Ids {
    const NONE: Ids = Ids([0; GREATEST_ID as usize / 64 + 1]);

    fn add(&mut self, id: u16) {
        self.0[usize::from(id / 64)] |= 1 << (id % 64);
    }

    fn has(&self, id: u16) -> bool {
        self.0[usize::from(id / 64)] >> (id % 64) & 1 == 1
    }
}
