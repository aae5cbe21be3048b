//! What is timed, and on which sheets.
use crate::calls;
use crate::desk::{Call, Desks};
use crate::fummidrake::{breadths_at_station, lay_out, stations, Entry, Tank};
use crate::timing::Side;

/// A call, the desks on which it is made, and the number that it gives there.
pub struct Case {
    pub name: String,
    pub desks: Desks,
    pub call: Box<dyn Call>,
    pub number: u8,
}

const UNDER_DECK: u8 = 1;
const SUPERSTRUCTURE: u8 = 3;
const HATCHWAY: u8 = 4;
const ROOM: u8 = 5;
const PLAIN: u8 = 0;
const EXEMPT: u8 = 1;
const NO_STANDING: u8 = 5;
const UPRIGHT: u8 = 2;
const POINTED: u8 = 3;

/// Places for spaces on a sheet.
pub const PLACES: u16 = 200;
/// The bytes of a full day's file.
const DAY: usize = 65_536;
/// The number of the vessel, where its sheet has one.
const VESSEL: u32 = 1_042;

/// The tonnage length of the sheets, and the greatest there is. A U of either has 17 stations.
const LENGTH: u32 = 30_000;
const LONGEST: u32 = 150_000;
const DEEPEST: u32 = 20_000;
const BROADEST: u32 = 30_000;

// Sheets

/// A sheet of so many spaces, eight deep from ten on, with its last 64 entries undoable, that can be written in a form: for form 2 it has
/// a vessel number, and each space a deck.
pub fn sheet_of(count: u16, form: u8) -> Result<Desks, String> {
    let mut desks = Desks::new(DAY);
    set_up(&mut desks, count, form)?;
    Ok(desks)
}

/// Opens that sheet and enters its spaces.
fn set_up(desks: &mut Desks, count: u16, form: u8) -> Result<(), String> {
    calls::open(LENGTH, if form == 1 { 0 } else { VESSEL }).accept(desks)?;
    let deck_of = |id: u16| if form == 1 { 0 } else { 1 + (id % 99) as u8 };
    (1..=count).try_for_each(|id| space(id, deck_of(id)).accept(desks))
}

/// The space with an id: a superstructure with nothing in it, the U, and another superstructure with a chain of rooms, the lowest of
/// which, 9, encloses all the others. Those are exempt, so that a mark has to look at each of them.
fn space(id: u16, deck: u8) -> Box<dyn Call> {
    let entry = Entry { id, deck, ..Entry::default() };
    match id {
        1 | 3 => divided(Entry { kind: SUPERSTRUCTURE, length: 300, ..entry }, LENGTH, 933, 1_000),
        2 => divided(Entry { kind: UNDER_DECK, length: LENGTH, ..entry }, LENGTH, 1_700, 500),
        4..=9 => undivided(Entry { within: id - 1, kind: ROOM, length: 500, ..entry }, 500, 1_000),
        _ => undivided(Entry { within: 9, kind: ROOM, standing: EXEMPT, length: 100, ..entry }, 100, 100),
    }
}

/// Enters a U, upright at both ends, or an S, that is as high and as broad at every station.
fn divided(entry: Entry, tonnage_length: u32, height: u32, breadth: u32) -> Box<dyn Call> {
    let heights = vec![height; stations(entry.kind, tonnage_length, entry.length)];
    let breadths = vec![breadth; heights.len() * breadths_at_station(entry.kind, height)];
    calls::enter(Entry { fore_end: UPRIGHT, aft_end: UPRIGHT, ..entry }, heights, breadths)
}

/// Enters the U with both ends pointed: it has no breadth there.
fn pointed(id: u16) -> Box<dyn Call> {
    let depths = vec![1_700; stations(UNDER_DECK, LENGTH, LENGTH)];
    let at_station = breadths_at_station(UNDER_DECK, 1_700);
    let between = vec![500; (depths.len() - 2) * at_station];
    let end = vec![0; at_station];
    let ends = Entry { fore_end: POINTED, aft_end: POINTED, ..Entry::default() };
    calls::enter(Entry { id, kind: UNDER_DECK, length: LENGTH, ..ends }, depths, [end.clone(), between, end].concat())
}

/// Enters a tank in the U that is as deep and as broad at every section: 16 parts, the most, and two sections at three of its stations.
/// In thirds of the U's interval it is 44.8 long, from 2.2 on, so that its stations 1, 6 and 16, from 0, lie at 5, 19 and 47.
fn tank(id: u16) -> Box<dyn Call> {
    let tank = Tank { id, within: 2, standing: PLAIN, deck: 0, length: 28_000, fore: 1_375 };
    let asked = lay_out(LENGTH, LENGTH, tank.length, tank.fore);
    assert_eq!((asked.parts, asked.sections), (16, 17 + 3));
    let depths = vec![1_500; asked.sections];
    let breadths = vec![400; depths.len() * breadths_at_station(UNDER_DECK, 1_700)];
    calls::enter_tank(tank, depths, breadths)
}

fn undivided(entry: Entry, height: u32, breadth: u32) -> Box<dyn Call> {
    calls::enter(entry, vec![height], vec![breadth])
}

/// The bytes of a sheet of so many spaces in a form.
pub fn size_of_sheet(count: u16, form: u8) -> usize {
    match form {
        2 => 20 * usize::from(count) + 32,
        _ => 16 * usize::from(count) + 28,
    }
}

// Cases

impl Case {
    /// Makes the call once, on copies of the desks.
    pub fn compare(&self) -> Result<(), String> {
        self.call.expect(self.number, &mut self.desks.clone())
    }

    pub fn sides(&mut self) -> [Side<'_>; 3] {
        self.call.sides(&mut self.desks)
    }

    fn new(name: impl Into<String>, desks: Desks, call: Box<dyn Call>) -> Case {
        Case { name: name.into(), desks, call, number: 0 }
    }

    /// A call on a sheet of so many spaces.
    fn on(name: impl Into<String>, count: u16, call: Box<dyn Call>) -> Result<Case, String> {
        Ok(Case::new(name, sheet_of(count, 1)?, call))
    }

    /// The same, after other calls.
    fn after(mut self, earlier: &[Box<dyn Call>]) -> Result<Case, String> {
        earlier.iter().try_for_each(|call| call.accept(&mut self.desks))?;
        Ok(self)
    }

    /// The same, refused with a number.
    fn refused(self, number: u8) -> Case {
        Case { number, ..self }
    }
}

fn enter_hatchway(count: u16) -> Result<Case, String> {
    let hatchway = Entry { id: 9_999, kind: HATCHWAY, length: 500, ..Entry::default() };
    Case::on(format!("enter a hatchway on {count} spaces"), count, undivided(hatchway, 500, 400))
}

fn enter_last(count: u16) -> Result<Case, String> {
    Case::on(format!("enter the last of {count}, at level 8"), count - 1, space(count, 0))
}

/// A room that is refused with a number: in 9 it would stand at level 8, in 10 at level 9.
fn refuse_last(within: u16, standing: u8, number: u8) -> Result<Case, String> {
    let name = format!("refuse the last of {PLACES} with {number}, at level {}", within - 1);
    let room = Entry { id: PLACES, within, kind: ROOM, standing, length: 100, ..Entry::default() };
    Ok(Case::on(name, PLACES - 1, undivided(room, 100, 100))?.refused(number))
}

/// A U where the one that stood was withdrawn.
fn enter_under_deck(which: &str, under_deck: Box<dyn Call>) -> Result<Case, String> {
    let name = format!("enter a {which} of 16 parts on {} spaces", PLACES - 1);
    Case::on(name, PLACES, under_deck)?.after(&[calls::withdraw(2)])
}

fn enter_tank() -> Result<Case, String> {
    Case::on(format!("enter a tank of 16 parts on {} spaces", PLACES - 1), PLACES - 1, tank(PLACES))
}

fn mark_plain(id: u16) -> Result<Case, String> {
    Case::on(format!("mark the {} of {PLACES} plain", end(id, PLACES)), PLACES, calls::mark(id, PLAIN))
}

fn mark_exempt(id: u16, count: u16) -> Result<Case, String> {
    Case::on(format!("mark the {} of {count} exempt", end(id, count)), count, calls::mark(id, EXEMPT))
}

fn withdraw(id: u16, count: u16) -> Result<Case, String> {
    Case::on(format!("withdraw the {} of {count}", end(id, count)), count, calls::withdraw(id))
}

fn undo(id: u16) -> Result<Case, String> {
    let name = format!("undo a withdrawal of the {} of {PLACES}", end(id, PLACES));
    Case::on(name, PLACES, calls::undo())?.after(&[calls::withdraw(id)])
}

fn redo(id: u16) -> Result<Case, String> {
    let name = format!("redo a withdrawal of the {} of {PLACES}", end(id, PLACES));
    Case::on(name, PLACES, calls::redo())?.after(&[calls::withdraw(id), calls::undo()])
}

fn report(count: u16) -> Result<Case, String> {
    Case::on(format!("report {count} spaces"), count, calls::report(0))
}

fn write(count: u16, form: u8) -> Result<Case, String> {
    let name = format!("write {count} spaces{}", in_form(form));
    Ok(Case::new(name, sheet_of(count, form)?, calls::write(0, form, 0)))
}

fn read(count: u16, form: u8) -> Result<Case, String> {
    let name = format!("read {count} spaces{}", in_form(form));
    let read = calls::read(size_of_sheet(count, form));
    Case::new(name, sheet_of(count, form)?, read).after(&[calls::write(0, form, 0)])
}

/// From form 1 to form 2.
fn move_up(count: u16) -> Result<Case, String> {
    let moved = calls::move_last(size_of_sheet(count, 1), 2, 0);
    Case::on(format!("move {count} spaces up to form 2"), count, moved)?.after(&[calls::write(0, 1, 0)])
}

/// Form 1 isn't named: it is that of every row that doesn't name one.
fn in_form(form: u8) -> String {
    match form {
        1 => String::new(),
        _ => format!(" in form {form}"),
    }
}

/// The largest U that the rules allow, on a sheet just opened.
fn largest_under_deck() -> Result<Case, String> {
    let under_deck = Entry { id: 1, kind: UNDER_DECK, length: LONGEST, ..Entry::default() };
    let largest = divided(under_deck, LONGEST, DEEPEST, BROADEST);
    Case::on("tonnage of the largest U", 0, largest)?.after(&[calls::open(LONGEST, 0)])
}

/// 20 full sheets; four small ones ahead of them make the bytes exactly a full day's.
fn full_day() -> Result<Case, String> {
    let mut day = Case::new("read back a full day's file", Desks::new(DAY), calls::read_day());
    let mut at = 0;
    for count in [13, 13, 14, 14].into_iter().chain([PLACES; 20]) {
        set_up(&mut day.desks, count, 1)?;
        calls::write(0, 1, at).accept(&mut day.desks)?;
        at += size_of_sheet(count, 1);
    }
    assert_eq!(at, DAY);
    Ok(day)
}

/// Which end of the order an id stands at.
fn end(id: u16, count: u16) -> &'static str {
    if id == count {
        "last"
    } else {
        "first"
    }
}

/// The calls that are timed.
pub fn cases() -> Result<Vec<Case>, String> {
    [
        enter_hatchway(0),
        enter_hatchway(100),
        enter_hatchway(PLACES - 1),
        enter_last(PLACES),
        refuse_last(10, PLAIN, 7),
        refuse_last(9, NO_STANDING, 2),
        enter_under_deck("U", space(2, 0)),
        enter_under_deck("pointed U", pointed(2)),
        enter_tank(),
        mark_plain(1),
        mark_plain(PLACES),
        mark_exempt(1, PLACES),
        mark_exempt(PLACES, PLACES),
        withdraw(1, PLACES),
        withdraw(PLACES, PLACES),
        undo(1),
        undo(PLACES),
        redo(1),
        redo(PLACES),
        Case::on("counts", PLACES, calls::counts()),
        report(20),
        report(PLACES),
        write(20, 1),
        write(PLACES, 1),
        write(PLACES, 2),
        read(20, 1),
        read(PLACES, 1),
        read(PLACES, 2),
        move_up(PLACES),
        largest_under_deck(),
        full_day(),
    ]
    .into_iter()
    .collect()
}

/// A call whose cost depends on how many spaces stand.
pub struct Growing {
    pub name: &'static str,
    pub with: fn(u16) -> Result<Case, String>,
}

pub const GROWING: [Growing; 6] = [
    Growing { name: "enter the last", with: enter_last },
    Growing { name: "mark the last exempt", with: |count| mark_exempt(count, count) },
    Growing { name: "withdraw the first", with: |count| withdraw(1, count) },
    Growing { name: "report", with: report },
    Growing { name: "write", with: |count| write(count, 1) },
    Growing { name: "read", with: |count| read(count, 1) },
];
