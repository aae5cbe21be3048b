//! The calls, each three times: proved, in plain Rust by value, and in plain Rust in place.
use crate::desk::{on_each, Call};
use crate::fummidrake::{self as proved, Entry, Tank};
use crate::plain::{self, by_value};
use std::hint::black_box;
use std::rc::Rc;

pub fn open(length: u32, vessel: u32) -> Box<dyn Call> {
    on_each(
        format!("open {length} {vessel}"),
        move |_, _| proved::Sheet::open(length, vessel),
        move |_, _| by_value::open(length, vessel),
        move |sheet, _| sheet.open(length, vessel),
    )
}

pub fn enter(entry: Entry, heights: Vec<u32>, breadths: Vec<u32>) -> Box<dyn Call> {
    let Entry { id, within, kind, standing, fore_end, aft_end, deck, length } = entry;
    let offsets = format!("{heights:?} {breadths:?}");
    let name = format!("enter {id} {within} {kind} {standing} {length} {offsets} {fore_end} {aft_end} {deck}");
    let same = plain::Entry { id, within, kind, standing, fore_end, aft_end, deck, length };
    let offsets = Rc::new((heights, breadths));
    let [first, second, third] = [(); 3].map(|()| offsets.clone());
    on_each(
        name,
        move |sheet, _| sheet.clone().enter(entry, &first.0, &first.1),
        move |sheet, _| by_value::enter(*sheet, same, &second.0, &second.1),
        move |sheet, _| sheet.enter(same, &third.0, &third.1),
    )
}

pub fn enter_tank(tank: Tank, depths: Vec<u32>, breadths: Vec<u32>) -> Box<dyn Call> {
    let Tank { id, within, standing, deck, length, fore } = tank;
    let name = format!("tank {id} {within} {standing} {length} {fore} {depths:?} {breadths:?} {deck}");
    let same = plain::Tank { id, within, standing, deck, length, fore };
    let sections = Rc::new((depths, breadths));
    let [first, second, third] = [(); 3].map(|()| sections.clone());
    on_each(
        name,
        move |sheet, _| sheet.clone().enter_tank(tank, &first.0, &first.1),
        move |sheet, _| by_value::enter_tank(*sheet, same, &second.0, &second.1),
        move |sheet, _| sheet.enter_tank(same, &third.0, &third.1),
    )
}

/// Asks where a tank is measured: of a tonnage length, a U's length, and the tank's length and fore end.
pub fn lay_out([whole, under_deck, length, fore]: [u32; 4]) -> Box<dyn Call> {
    on_each(
        format!("lay out {whole} {under_deck} {length} {fore}"),
        move |_, _| proved::lay_out(whole, under_deck, length, fore),
        move |_, _| plain::lay_out(whole, under_deck, length, fore),
        move |_, _| plain::lay_out(whole, under_deck, length, fore),
    )
}

/// Asks, of the same, for the under-deck station of a section.
pub fn section_station([whole, under_deck, length, fore]: [u32; 4], section: usize) -> Box<dyn Call> {
    on_each(
        format!("section {section} of {whole} {under_deck} {length} {fore}"),
        move |_, _| proved::section_station(whole, under_deck, length, fore, section),
        move |_, _| plain::section_station(whole, under_deck, length, fore, section),
        move |_, _| plain::section_station(whole, under_deck, length, fore, section),
    )
}

pub fn withdraw(id: u16) -> Box<dyn Call> {
    on_each(
        format!("withdraw {id}"),
        move |sheet, _| sheet.clone().withdraw(id),
        move |sheet, _| by_value::withdraw(*sheet, id),
        move |sheet, _| sheet.withdraw(id),
    )
}

pub fn mark(id: u16, standing: u8) -> Box<dyn Call> {
    on_each(
        format!("mark {id} {standing}"),
        move |sheet, _| sheet.clone().mark(id, standing),
        move |sheet, _| by_value::mark(*sheet, id, standing),
        move |sheet, _| sheet.mark(id, standing),
    )
}

pub fn undo() -> Box<dyn Call> {
    on_each(
        "undo".into(),
        |sheet, _| sheet.clone().undo(),
        |sheet, _| by_value::undo(*sheet),
        |sheet, _| sheet.undo(),
    )
}

pub fn redo() -> Box<dyn Call> {
    on_each(
        "redo".into(),
        |sheet, _| sheet.clone().redo(),
        |sheet, _| by_value::redo(*sheet),
        |sheet, _| sheet.redo(),
    )
}

pub fn counts() -> Box<dyn Call> {
    on_each(
        "counts".into(),
        |sheet, _| sheet.clone().counts(),
        |sheet, _| by_value::counts(*sheet),
        |sheet, _| sheet.counts(),
    )
}

pub fn report(justified: u8) -> Box<dyn Call> {
    on_each(
        format!("report {justified}"),
        move |sheet, _| sheet.clone().report(justified),
        move |sheet, _| by_value::report(*sheet, justified),
        move |sheet, _| sheet.report(justified),
    )
}

/// Writes the sheet into the buffer in a form, from a byte on.
pub fn write(justified: u8, form: u8, at: usize) -> Box<dyn Call> {
    on_each(
        format!("write {justified} {at} in form {form}"),
        move |sheet, buffer| sheet.clone().write(justified, form, buffer, at),
        move |sheet, buffer| by_value::write(*sheet, justified, form, buffer, at),
        move |sheet, buffer| sheet.write(justified, form, buffer, at),
    )
}

/// Reads the last sheet of the first `size` bytes of the buffer.
pub fn read(size: usize) -> Box<dyn Call> {
    on_each(
        format!("read the first {size} bytes"),
        move |_, buffer| proved::read(&buffer[..size]),
        move |_, buffer| by_value::read(&buffer[..size]),
        move |sheet, buffer| sheet.read(&buffer[..size]),
    )
}

/// Moves the last sheet of the first `size` bytes of the buffer into the bytes behind these, in a form, from a byte of them on.
pub fn move_last(size: usize, form: u8, at: usize) -> Box<dyn Call> {
    let moved = move |buffer: &mut [u8]| {
        let (from, to) = buffer.split_at_mut(size);
        plain::move_last(from, form, to, at)
    };
    on_each(
        format!("move the first {size} bytes in form {form} {at}"),
        move |_, buffer| {
            let (from, to) = buffer.split_at_mut(size);
            proved::move_last(from, form, to, at)
        },
        move |_, buffer| moved(buffer),
        move |_, buffer| moved(buffer),
    )
}

/// Reads the buffer sheet by sheet, the last first, and answers what the last reading did.
pub fn read_day() -> Box<dyn Call> {
    on_each(
        "read sheet by sheet".into(),
        |_, buffer| sheet_by_sheet(buffer, proved::read, |reading| reading.start),
        |_, buffer| sheet_by_sheet(buffer, by_value::read, |after| start_of(&after.answer)),
        |sheet, buffer| sheet_by_sheet(buffer, |file| sheet.read(file), start_of),
    )
}

/// To the sheet with which the file begins, or to the first that is refused, since a refused read's start is 0.
fn sheet_by_sheet<A>(mut file: &[u8], mut read: impl FnMut(&[u8]) -> A, start_of: impl Fn(&A) -> usize) -> A {
    loop {
        let answer = read(file);
        match start_of(black_box(&answer)) {
            0 => return answer,
            start => file = &file[..start],
        }
    }
}

fn start_of(answer: &Result<plain::Read, plain::Unread>) -> usize {
    answer.map_or(0, |read| read.start)
}
