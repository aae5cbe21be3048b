//! What the calls answer on each side, made comparable.
use crate::fummidrake as proved;
use crate::plain::{self, by_value::After};

/// What is seen of an answer: the paper's number, the values, 0 where there are fewer than four, what the rounding did, and how many
/// enclosing spaces were visited.
#[derive(Debug, PartialEq)]
pub struct Seen {
    pub number: u8,
    pub values: [u64; 4],
    pub roundings: proved::Roundings,
    pub visited: u8,
}

/// An answer to a call on a sheet.
pub trait Answer<S> {
    /// Leaves the sheet after the call, and says what was answered.
    fn settle(self, sheet: &mut S) -> Seen;
}

impl Seen {
    /// An answer that says nothing of roundings and spaces visited.
    fn new<const N: usize>(number: u8, answered: [u64; N]) -> Seen {
        let mut values = [0; 4];
        values[..N].copy_from_slice(&answered);
        Seen { number, values, roundings: proved::Roundings { length: 0, depths: [0; 17] }, visited: 0 }
    }

    fn accepted<const N: usize>(answered: [u64; N]) -> Seen {
        Seen::new(0, answered)
    }

    fn refused(refusal: plain::Refusal) -> Seen {
        Seen::new(refusal as u8, [])
    }
}

/// A count, which is never refused.
impl<S> Answer<S> for usize {
    fn settle(self, _: &mut S) -> Seen {
        Seen::accepted([self as u64])
    }
}

// What the proved calls answer

impl Answer<proved::Sheet> for proved::Changed {
    fn settle(self, sheet: &mut proved::Sheet) -> Seen {
        *sheet = self.sheet;
        Seen::new(self.number, [])
    }
}

impl Answer<proved::Sheet> for proved::Entering {
    fn settle(self, sheet: &mut proved::Sheet) -> Seen {
        *sheet = self.sheet;
        Seen { roundings: self.roundings, visited: self.visited, ..Seen::new(self.number, []) }
    }
}

impl Answer<proved::Sheet> for proved::TankEntering {
    fn settle(self, sheet: &mut proved::Sheet) -> Seen {
        *sheet = self.sheet;
        Seen { visited: self.visited, ..Seen::new(self.number, []) }
    }
}

impl Answer<proved::Sheet> for proved::Counted {
    fn settle(self, sheet: &mut proved::Sheet) -> Seen {
        *sheet = self.sheet;
        Seen::accepted([self.undoable as u64, self.redoable as u64])
    }
}

impl Answer<proved::Sheet> for proved::Reported {
    fn settle(self, sheet: &mut proved::Sheet) -> Seen {
        *sheet = self.sheet;
        Seen::new(self.number, [self.gross, self.net])
    }
}

impl Answer<proved::Sheet> for proved::LaidOut {
    fn settle(self, _: &mut proved::Sheet) -> Seen {
        Seen::new(self.number, [self.parts as u64, self.sections as u64])
    }
}

impl Answer<proved::Sheet> for proved::Written {
    fn settle(self, sheet: &mut proved::Sheet) -> Seen {
        *sheet = self.sheet;
        Seen::new(self.number, [self.bytes as u64])
    }
}

impl Answer<proved::Sheet> for proved::Reading {
    fn settle(self, sheet: &mut proved::Sheet) -> Seen {
        *sheet = self.sheet;
        let proved::Reading { number, position, justified, start, form, .. } = self;
        Seen::new(number, [position as u64, justified.into(), start as u64, form.into()])
    }
}

impl Answer<proved::Sheet> for proved::Moved {
    fn settle(self, _: &mut proved::Sheet) -> Seen {
        Seen::new(self.number, [self.bytes as u64, self.position as u64])
    }
}

// What the plain ones answer

impl<A: Answer<plain::Sheet>> Answer<plain::Sheet> for After<A> {
    fn settle(self, sheet: &mut plain::Sheet) -> Seen {
        *sheet = self.sheet;
        self.answer.settle(sheet)
    }
}

impl<A: Answer<plain::Sheet>> Answer<plain::Sheet> for plain::Visiting<A> {
    fn settle(self, sheet: &mut plain::Sheet) -> Seen {
        Seen { visited: self.visited, ..self.answer.settle(sheet) }
    }
}

impl Answer<plain::Sheet> for Result<(), plain::Refusal> {
    fn settle(self, _: &mut plain::Sheet) -> Seen {
        self.map_or_else(Seen::refused, |()| Seen::accepted([]))
    }
}

impl Answer<plain::Sheet> for Result<plain::Roundings, plain::Refusal> {
    fn settle(self, _: &mut plain::Sheet) -> Seen {
        self.map_or_else(Seen::refused, |plain::Roundings { length, depths }| Seen {
            roundings: proved::Roundings { length, depths },
            ..Seen::accepted([])
        })
    }
}

impl Answer<plain::Sheet> for plain::Counts {
    fn settle(self, _: &mut plain::Sheet) -> Seen {
        Seen::accepted([self.undoable.into(), self.redoable.into()])
    }
}

impl Answer<plain::Sheet> for Result<plain::Report, plain::Refusal> {
    fn settle(self, _: &mut plain::Sheet) -> Seen {
        self.map_or_else(Seen::refused, |report| Seen::accepted([report.gross, report.net]))
    }
}

impl Answer<plain::Sheet> for Result<plain::LaidOut, plain::Refusal> {
    fn settle(self, _: &mut plain::Sheet) -> Seen {
        self.map_or_else(Seen::refused, |laid_out| Seen::accepted([laid_out.parts as u64, laid_out.sections as u64]))
    }
}

impl Answer<plain::Sheet> for Result<usize, plain::Refusal> {
    fn settle(self, _: &mut plain::Sheet) -> Seen {
        self.map_or_else(Seen::refused, |bytes| Seen::accepted([bytes as u64]))
    }
}

impl Answer<plain::Sheet> for Result<plain::Read, plain::Unread> {
    fn settle(self, _: &mut plain::Sheet) -> Seen {
        match self {
            Ok(read) => Seen::accepted([0, read.justified.into(), read.start as u64, read.form.into()]),
            Err(unread) => Seen::new(unread.refusal as u8, [unread.position as u64]),
        }
    }
}

impl Answer<plain::Sheet> for Result<usize, plain::Unread> {
    fn settle(self, _: &mut plain::Sheet) -> Seen {
        match self {
            Ok(bytes) => Seen::accepted([bytes as u64]),
            Err(unmoved) => Seen::new(unmoved.refusal as u8, [0, unmoved.position as u64]),
        }
    }
}
