//! The same calls as the proved ones: a sheet goes in by value, and comes back with the answer. None is inlined, as none of theirs
//! can be.
use super::{Counts, Entry, Read, Refusal, Report, Roundings, Sheet, Tank, Unread, Visiting};

/// What a call answers, and the sheet after it.
pub struct After<A> {
    pub answer: A,
    pub sheet: Sheet,
}

type Changed = After<Result<(), Refusal>>;
type Entering<A> = After<Visiting<Result<A, Refusal>>>;

#[inline(never)]
pub fn open(length: u32, vessel: u32) -> Changed {
    let mut sheet = Sheet::CLOSED;
    After { answer: sheet.open(length, vessel), sheet }
}

#[inline(never)]
pub fn enter(mut sheet: Sheet, entry: Entry, heights: &[u32], breadths: &[u32]) -> Entering<Roundings> {
    After { answer: sheet.enter(entry, heights, breadths), sheet }
}

#[inline(never)]
pub fn enter_tank(mut sheet: Sheet, tank: Tank, depths: &[u32], breadths: &[u32]) -> Entering<()> {
    After { answer: sheet.enter_tank(tank, depths, breadths), sheet }
}

#[inline(never)]
pub fn withdraw(mut sheet: Sheet, id: u16) -> Changed {
    After { answer: sheet.withdraw(id), sheet }
}

#[inline(never)]
pub fn mark(mut sheet: Sheet, id: u16, standing: u8) -> Changed {
    After { answer: sheet.mark(id, standing), sheet }
}

#[inline(never)]
pub fn undo(mut sheet: Sheet) -> Changed {
    After { answer: sheet.undo(), sheet }
}

#[inline(never)]
pub fn redo(mut sheet: Sheet) -> Changed {
    After { answer: sheet.redo(), sheet }
}

#[inline(never)]
pub fn counts(sheet: Sheet) -> After<Counts> {
    After { answer: sheet.counts(), sheet }
}

#[inline(never)]
pub fn report(sheet: Sheet, justified: u8) -> After<Result<Report, Refusal>> {
    After { answer: sheet.report(justified), sheet }
}

#[inline(never)]
pub fn write(sheet: Sheet, justified: u8, form: u8, buffer: &mut [u8], at: usize) -> After<Result<usize, Refusal>> {
    After { answer: sheet.write(justified, form, buffer, at), sheet }
}

#[inline(never)]
pub fn read(file: &[u8]) -> After<Result<Read, Unread>> {
    let mut sheet = Sheet::CLOSED;
    After { answer: sheet.read(file), sheet }
}
