//! The day's file, written, read and moved ("The file"), in the forms that there are (T-05 of document 02).
use super::gross::{self, Report};
use super::measure::{is_tonnage_length, Kind};
use super::rules::{is_deck, level_of_entry, Row, Space, Standing, GREATEST_ID, PLACES};
use super::sheet::Sheet;
use super::Refusal;

/// The justified mark of a sheet that was read, the byte at which it starts, and its form.
#[derive(Clone, Copy)]
pub struct Read {
    pub justified: u8,
    pub start: usize,
    pub form: u8,
}

/// Why a file wasn't read or moved; the position, from 1, is that of the record where the refusal is 17, else 0.
#[derive(Clone, Copy)]
pub struct Unread {
    pub refusal: Refusal,
    pub position: usize,
}

impl From<Refusal> for Unread {
    fn from(refusal: Refusal) -> Unread {
        Unread { refusal, position: 0 }
    }
}

/// id 2, enclosing id 2, kind 1, standing 1, zero 2, tonnage 4, length 4: what a record begins with in every form
type Record = [u8; 16];
/// distance 4, count 2, justified 1, the byte that tells the form 1, tonnage length 4, gross 8, net 8
type Trailer = [u8; 28];

/// A form, as data. Two numbers have either all their bytes or none; one that a form lacks reads as 0, and fits if it is 0.
struct Form {
    number: u8,
    told_by: u8,
    /// The bytes of the deck, which end a record: deck 2, zero 2.
    deck_size: usize,
    /// The bytes of the vessel number, between the last record and the trailer.
    vessel_size: usize,
}

static FORMS: [Form; 2] = [
    Form { number: 1, told_by: 0, deck_size: 0, vessel_size: 0 },
    Form { number: 2, told_by: 2, deck_size: 4, vessel_size: 4 },
];

const GREATEST_TONNAGE: u32 = 100_000_000;

impl Sheet {
    /// Writes the sheet with its justified mark in a form, from a place of the buffer on, and answers the bytes written; 1, 2, 13, 14, 20,
    /// 15, 21, in that order.
    pub fn write(&self, justified: u8, form: u8, buffer: &mut [u8], at: usize) -> Result<usize, Refusal> {
        self.opened()?;
        let form = Form::numbered(form)?;
        let reckoning = self.reckon(justified)?;
        let room = form.room(self.standing(), self.vessel, buffer, at)?;
        let foot = Foot { vessel: self.vessel, justified, length: self.length, report: reckoning.report()? };
        Ok(form.write(self.standing(), foot, room))
    }

    /// Reads the last sheet of a file into this one, which is open then, with no open changes; refused, it is closed: 16, 17, 13, 14,
    /// 21, 18, in that order.
    pub fn read(&mut self, file: &[u8]) -> Result<Read, Unread> {
        self.close();
        let Last { form, start, count, foot, .. } = Last::judged(file, &mut self.spaces)?;
        self.open = true;
        self.count = count as u8;
        self.length = foot.length;
        self.vessel = foot.vessel;
        Ok(Read { justified: foot.justified, start, form: form.number })
    }
}

/// Moves the last sheet of a file, with its mark, into a buffer in a form, from a place of it on, and answers the bytes written: 2, then
/// those of reading, 20, 15, in that order.
#[inline(never)]
pub fn move_last(from: &[u8], form: u8, to: &mut [u8], at: usize) -> Result<usize, Unread> {
    let form = Form::numbered(form)?;
    let mut spaces = [Space::NONE; PLACES];
    let last = Last::judged(from, &mut spaces)?;
    let spaces = &spaces[..last.count];
    let room = form.room(spaces, last.foot.vessel, to, at)?;
    Ok(form.write(spaces, last.foot, room))
}

/// What stands behind the records of a sheet.
#[derive(Clone, Copy)]
struct Foot {
    vessel: u32,
    justified: u8,
    length: u32,
    report: Report,
}

impl Form {
    /// 2 where there is none.
    fn numbered(number: u8) -> Result<&'static Form, Refusal> {
        FORMS.iter().find(|form| form.number == number).ok_or(Refusal::OutsideItsRange)
    }

    fn told_by(byte: u8) -> Option<&'static Form> {
        FORMS.iter().find(|form| form.told_by == byte)
    }

    fn record_size(&self) -> usize {
        size_of::<Record>() + self.deck_size
    }

    /// The bytes of a sheet of so many spaces, which is its trailer's distance.
    fn size_of_sheet(&self, count: usize) -> usize {
        self.record_size() * count + self.vessel_size + size_of::<Trailer>()
    }

    /// Whether it loses no number. No deck ends the look early, so that several are looked at at a time.
    fn fits(&self, spaces: &[Space], vessel: u32) -> bool {
        let no_deck = || spaces.iter().fold(true, |none, space| none & (space.deck == 0));
        (self.vessel_size != 0 || vessel == 0) && (self.deck_size != 0 || no_deck())
    }

    /// The room that a sheet takes from a place of the buffer on; 20, 15.
    fn room<'a>(
        &self,
        spaces: &[Space],
        vessel: u32,
        buffer: &'a mut [u8],
        at: usize,
    ) -> Result<&'a mut [u8], Refusal> {
        if !self.fits(spaces, vessel) {
            return Err(Refusal::NumberLost);
        }
        let size = self.size_of_sheet(spaces.len());
        let room = buffer.get_mut(at..).and_then(|from_there| from_there.get_mut(..size));
        room.ok_or(Refusal::TooLittleRoom)
    }

    /// Writes a sheet into the room that it takes, and answers the bytes written.
    fn write(&self, spaces: &[Space], foot: Foot, room: &mut [u8]) -> usize {
        let (records, behind) = room.split_at_mut(self.record_size() * spaces.len());
        for (record, space) in records.chunks_exact_mut(self.record_size()).zip(spaces) {
            let (first, deck) = record.split_at_mut(size_of::<Record>());
            first.copy_from_slice(&record_of(space));
            put(deck, space.deck.into());
        }
        let (vessel, trailer) = behind.split_at_mut(self.vessel_size);
        put(vessel, foot.vessel);
        trailer.copy_from_slice(&self.trailer_of(spaces.len(), foot));
        room.len()
    }

    fn trailer_of(&self, count: usize, foot: Foot) -> Trailer {
        let mut trailer = [0; size_of::<Trailer>()];
        trailer[0..4].copy_from_slice(&(self.size_of_sheet(count) as u32).to_le_bytes());
        trailer[4..6].copy_from_slice(&(count as u16).to_le_bytes());
        trailer[6] = foot.justified;
        trailer[7] = self.told_by;
        trailer[8..12].copy_from_slice(&foot.length.to_le_bytes());
        trailer[12..20].copy_from_slice(&foot.report.gross.to_le_bytes());
        trailer[20..28].copy_from_slice(&foot.report.net.to_le_bytes());
        trailer
    }
}

/// The last sheet of a file, as its trailer has it.
struct Last<'a> {
    form: &'static Form,
    start: usize,
    count: usize,
    records: &'a [u8],
    foot: Foot,
}

impl Last<'_> {
    /// The last sheet, judged, and its spaces in their places; 16, 17, 13, 14, 21, 18.
    fn judged<'a>(file: &'a [u8], spaces: &mut [Space; PLACES]) -> Result<Last<'a>, Unread> {
        let last = Last::of(file).ok_or(Refusal::NoSheet)?;
        let Foot { justified, length, report, .. } = last.foot;
        last.enter_records(spaces)?;
        if gross::reckon(&spaces[..last.count], length, justified == 1)?.report()? != report {
            return Err(Refusal::WrongSums.into());
        }
        Ok(last)
    }

    /// None where the file ends in no sheet, 16.
    fn of(file: &[u8]) -> Option<Last<'_>> {
        let (ahead, trailer) = file.split_last_chunk::<{ size_of::<Trailer>() }>()?;
        let count = usize::from(u16::from_le_bytes(field(trailer, 4)));
        let [justified, byte] = field(trailer, 6);
        let form = Form::told_by(byte)?;
        let length = u32::from_le_bytes(field(trailer, 8));
        let right = u32::from_le_bytes(field(trailer, 0)) as usize == form.size_of_sheet(count)
            && count <= PLACES
            && justified <= 1
            && is_tonnage_length(length);
        if !right {
            return None;
        }
        let start = file.len().checked_sub(form.size_of_sheet(count))?;
        let (records, vessel) = ahead[start..].split_at(form.record_size() * count);
        let [gross, net] = [12, 20].map(|at| u64::from_le_bytes(field(trailer, at)));
        let foot = Foot { vessel: taken(vessel), justified, length, report: Report { gross, net } };
        Some(Last { form, start, count, records, foot })
    }

    /// Enters the recorded spaces, judged in file order as entries.
    fn enter_records(&self, spaces: &mut [Space; PLACES]) -> Result<(), Unread> {
        let mut table = Table::over(spaces);
        for (place, record) in self.records.chunks_exact(self.form.record_size()).enumerate() {
            let wrong = Unread { refusal: Refusal::WrongRecord, position: place + 1 };
            let space = space_of(record).ok_or(wrong)?;
            let enclosing = table.find(space.within);
            let level = level_of_entry(&table, self.foot.length, &space, enclosing).map_err(|_| wrong)?;
            table.enter(space.at_level(level));
        }
        Ok(())
    }
}

/// The spaces read so far, and what the next record is judged by: where an id stands, and of each space what is inside and above it.
struct Table<'a> {
    spaces: &'a mut [Space; PLACES],
    count: usize,
    /// For each id its place from 1, or 0.
    places: [u8; GREATEST_ID as usize + 1],
    tonnage_inside: [u32; PLACES],
    plain_upward: [bool; PLACES],
    under_deck_lengths: u32,
}

impl<'a> Table<'a> {
    fn over(spaces: &'a mut [Space; PLACES]) -> Table<'a> {
        Table {
            spaces,
            count: 0,
            places: [0; GREATEST_ID as usize + 1],
            tonnage_inside: [0; PLACES],
            plain_upward: [false; PLACES],
            under_deck_lengths: 0,
        }
    }

    fn place_of(&self, id: u16) -> Option<usize> {
        usize::from(*self.places.get(usize::from(id))?).checked_sub(1)
    }

    /// Puts a space that was accepted in the next place.
    fn enter(&mut self, space: Space) {
        let enclosing = self.place_of(space.within);
        if let Some(place) = enclosing {
            self.tonnage_inside[place] += space.tonnage;
        }
        if space.kind == Kind::UnderDeck {
            self.under_deck_lengths += space.length;
        }
        self.plain_upward[self.count] = space.is_plain() && enclosing.is_none_or(|place| self.plain_upward[place]);
        self.spaces[self.count] = space;
        self.count += 1;
        self.places[usize::from(space.id)] = self.count as u8;
    }
}

impl Row for Table<'_> {
    fn count(&self) -> usize {
        self.count
    }

    fn find(&self, id: u16) -> Option<&Space> {
        self.place_of(id).map(|place| &self.spaces[place])
    }

    fn plain_upward(&self, space: &Space) -> bool {
        self.place_of(space.id).is_some_and(|place| self.plain_upward[place])
    }

    fn tonnage_inside(&self, space: &Space) -> u32 {
        self.place_of(space.id).map_or(0, |place| self.tonnage_inside[place])
    }

    fn under_deck_lengths(&self) -> u32 {
        self.under_deck_lengths
    }
}

/// The bytes of a field, which begins at a byte.
fn field<const N: usize>(bytes: &[u8], at: usize) -> [u8; N] {
    *bytes[at..].first_chunk().expect("a field lies inside its record")
}

/// Writes a number where its form has it.
fn put(room: &mut [u8], number: u32) {
    if let Some(room) = room.first_chunk_mut() {
        *room = number.to_le_bytes();
    }
}

/// Reads a number that its form may lack.
fn taken(bytes: &[u8]) -> u32 {
    bytes.first_chunk().map_or(0, |&bytes| u32::from_le_bytes(bytes))
}

fn record_of(space: &Space) -> Record {
    let mut record = [0; size_of::<Record>()];
    record[0..2].copy_from_slice(&space.id.to_le_bytes());
    record[2..4].copy_from_slice(&space.within.to_le_bytes());
    record[4] = space.kind as u8;
    record[5] = space.standing as u8;
    record[8..12].copy_from_slice(&space.tonnage.to_le_bytes());
    record[12..16].copy_from_slice(&space.length.to_le_bytes());
    record
}

/// The space of a record, at no level yet and without m; none where one of its own numbers is wrong. Its id is judged as an entry's.
fn space_of(record: &[u8]) -> Option<Space> {
    let (record, deck) = record.split_first_chunk::<{ size_of::<Record>() }>()?;
    // with the zero behind it
    let deck = taken(deck);
    let space = Space {
        id: u16::from_le_bytes(field(record, 0)),
        within: u16::from_le_bytes(field(record, 2)),
        kind: Kind::of_code(record[4])?,
        standing: Standing::of_code(record[5])?,
        level_or_m: 0,
        deck: deck as u8,
        tonnage: u32::from_le_bytes(field(record, 8)),
        length: u32::from_le_bytes(field(record, 12)),
    };
    let right = record[6..8] == [0, 0]
        && space.tonnage <= GREATEST_TONNAGE
        && space.kind.takes_length(space.length)
        && (space.kind == Kind::Room || space.within == 0)
        && is_deck(deck);
    right.then_some(space)
}
