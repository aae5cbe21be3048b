//! Three surveyors' desks, on which every call is made three times: proved, in plain Rust by value, and in plain Rust in place.
use crate::answers::{Answer, Seen};
use crate::fummidrake as proved;
use crate::plain;
use crate::timing::{self, Side};
use std::fmt::Debug;

/// A sheet, and a buffer for the day's file.
#[derive(Clone)]
pub struct Desk<S> {
    pub sheet: S,
    pub buffer: Vec<u8>,
}

#[derive(Clone)]
pub struct Desks {
    pub proved: Desk<proved::Sheet>,
    pub by_value: Desk<plain::Sheet>,
    pub in_place: Desk<plain::Sheet>,
}

/// A call, whatever it answers.
pub trait Call {
    /// As a script of calls would have it.
    fn name(&self) -> &str;

    /// Makes it on each desk, and says what was answered. An error says where the desks differ then.
    fn make(&self, desks: &mut Desks) -> Result<Seen, String>;

    /// What makes it again and again for the clock, on the sheets as they lie there: proved, by value and in place.
    fn sides<'a>(&'a self, desks: &'a mut Desks) -> [Side<'a>; 3];

    /// Makes it where it has to give a number.
    fn expect(&self, expected: u8, desks: &mut Desks) -> Result<(), String> {
        match self.make(desks)?.number {
            number if number == expected => Ok(()),
            number => Err(format!("{}: answered with {number}, not {expected}", self.name())),
        }
    }

    /// Makes it where it has to be accepted.
    fn accept(&self, desks: &mut Desks) -> Result<(), String> {
        self.expect(0, desks)
    }
}

/// A call on each desk's sheet and buffer: by value it takes a copy of the sheet, in place it changes it.
struct OnEach<P, V, I> {
    name: String,
    proved: P,
    by_value: V,
    in_place: I,
}

pub fn on_each<PA, VA, IA>(
    name: String,
    proved: impl Fn(&proved::Sheet, &mut [u8]) -> PA + 'static,
    by_value: impl Fn(&plain::Sheet, &mut [u8]) -> VA + 'static,
    in_place: impl Fn(&mut plain::Sheet, &mut [u8]) -> IA + 'static,
) -> Box<dyn Call>
where
    PA: Answer<proved::Sheet>,
    VA: Answer<plain::Sheet>,
    IA: Answer<plain::Sheet>,
{
    Box::new(OnEach { name, proved, by_value, in_place })
}

/// A sheet that can be looked into.
trait Sheet {
    fn outline(&self) -> Outline;

    /// Of the space at a place: id, enclosing id, kind, standing, m, deck, tonnage and length.
    fn space(&self, place: usize) -> [u32; 8];
}

/// What can be asked of a sheet, beside its spaces.
#[derive(Debug, PartialEq)]
struct Outline {
    open: bool,
    length: u32,
    vessel: u32,
    standing: usize,
    undoable: usize,
    redoable: usize,
}

impl Desks {
    /// Sheets not open, and buffers of zeros.
    pub fn new(buffer_size: usize) -> Desks {
        let by_value = Desk { sheet: plain::Sheet::CLOSED, buffer: vec![0; buffer_size] };
        let proved = Desk { sheet: proved::Sheet::open(0, 0).sheet, buffer: by_value.buffer.clone() };
        Desks { proved, in_place: by_value.clone(), by_value }
    }

    /// The buffers, to be changed alike.
    pub fn buffers(&mut self) -> [&mut Vec<u8>; 3] {
        [&mut self.proved.buffer, &mut self.by_value.buffer, &mut self.in_place.buffer]
    }

    /// Whether the sheets and the buffers are the same on each desk.
    fn compare(&self) -> Result<(), String> {
        let Desks { proved, by_value, in_place } = self;
        let outline = same("sheet", [proved.sheet.outline(), by_value.sheet.outline(), in_place.sheet.outline()])?;
        for place in 0..outline.standing {
            same("space", [proved.sheet.space(place), by_value.sheet.space(place), in_place.sheet.space(place)])?;
        }
        if proved.buffer != by_value.buffer || proved.buffer != in_place.buffer {
            return Err("the buffers differ".into());
        }
        Ok(())
    }
}

impl<P, V, I, PA, VA, IA> Call for OnEach<P, V, I>
where
    P: Fn(&proved::Sheet, &mut [u8]) -> PA,
    V: Fn(&plain::Sheet, &mut [u8]) -> VA,
    I: Fn(&mut plain::Sheet, &mut [u8]) -> IA,
    PA: Answer<proved::Sheet>,
    VA: Answer<plain::Sheet>,
    IA: Answer<plain::Sheet>,
{
    fn name(&self) -> &str {
        &self.name
    }

    fn make(&self, desks: &mut Desks) -> Result<Seen, String> {
        let Desks { proved, by_value, in_place } = desks;
        let seen = [
            (self.proved)(&proved.sheet, &mut proved.buffer).settle(&mut proved.sheet),
            (self.by_value)(&by_value.sheet, &mut by_value.buffer).settle(&mut by_value.sheet),
            (self.in_place)(&mut in_place.sheet, &mut in_place.buffer).settle(&mut in_place.sheet),
        ];
        let answered = same("answer", seen).and_then(|seen| desks.compare().map(|()| seen));
        answered.map_err(|difference| format!("{}: {difference}", self.name))
    }

    fn sides<'a>(&'a self, desks: &'a mut Desks) -> [Side<'a>; 3] {
        let Desks { proved, by_value, in_place } = desks;
        [
            timing::by_value(&proved.sheet, |sheet| (self.proved)(sheet, &mut proved.buffer)),
            timing::by_value(&by_value.sheet, |sheet| (self.by_value)(sheet, &mut by_value.buffer)),
            timing::in_place(&in_place.sheet, |sheet| (self.in_place)(sheet, &mut in_place.buffer)),
        ]
    }
}

/// What the three are, if they are the same.
fn same<T: PartialEq + Debug>(what: &str, [proved, by_value, in_place]: [T; 3]) -> Result<T, String> {
    if proved == by_value && proved == in_place {
        return Ok(proved);
    }
    Err(format!("{what}: proved {proved:?}, plain by value {by_value:?}, plain in place {in_place:?}"))
}

impl Sheet for proved::Sheet {
    fn outline(&self) -> Outline {
        let proved::Counted { undoable, redoable, .. } = self.clone().counts();
        let (length, vessel, standing) = (self.tonnage_length(), self.vessel(), self.standing_count());
        Outline { open: self.is_open(), length, vessel, standing, undoable, redoable }
    }

    fn space(&self, place: usize) -> [u32; 8] {
        let proved::Space { id, within, kind, standing, m, deck, tonnage, length } = self.space_at(place);
        [id.into(), within.into(), kind.into(), standing.into(), m.into(), deck.into(), tonnage, length]
    }
}

impl Sheet for plain::Sheet {
    fn outline(&self) -> Outline {
        let plain::Counts { undoable, redoable } = self.counts();
        let (length, vessel, standing) = (self.tonnage_length(), self.vessel(), self.standing().len());
        let (undoable, redoable) = (undoable.into(), redoable.into());
        Outline { open: self.is_open(), length, vessel, standing, undoable, redoable }
    }

    fn space(&self, place: usize) -> [u32; 8] {
        let space = &self.standing()[place];
        let &plain::Space { id, within, kind, standing, deck, tonnage, length, .. } = space;
        [id.into(), within.into(), kind as u32, standing as u32, space.m().into(), deck.into(), tonnage, length]
    }
}
