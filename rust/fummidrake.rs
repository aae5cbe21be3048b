//! Fummidrake 0.1.0 for Rust: safe calls over the declarations of `include/fummidrake.h`, which says what each answers.
//!
//! To take it: lay this one file among your own, say `mod fummidrake;`, and link the archive, for x86-64 of level v2 or later, by
//! `rustc -L target/staticlib -l static=fummidrake` or a `build.rs` that prints `cargo::rustc-link-search=` with the archive's folder and
//! `cargo::rustc-link-lib=static=fummidrake`. It needs Rust 1.88 or later, and no crate.
//!
//! A call can't be made wrongly: a pointer and its length come from one slice, a sheet only from `Sheet::open`, `read` or a call,
//! and every number may be passed. A call's number is 0 where it was accepted. A call on a sheet takes it, and hands the sheet after it
//! back with the answer: the earlier one is gone unless it was cloned, and the compiler warns where an answer is dropped.

/// A space as it stands; `within` is the enclosing id, 0 for a U, B, S or H. `m` is a U's parts of depth, 4 or 6, where it was entered from
/// offsets; else 0, and 0 for all that was read from a file. `deck` is 0 to 99, 0 for none.
#[repr(C)]
#[derive(Clone, Copy, Debug, PartialEq, Eq)]
pub struct Space {
    pub id: u16,
    pub within: u16,
    pub kind: u8,
    pub standing: u8,
    pub m: u8,
    pub deck: u8,
    pub tonnage: u32,
    pub length: u32,
}

/// What is entered; `within` is looked at only of a room, `fore_end` and `aft_end` only of a U: each is 1 inner (at a step), 2 upright or
/// 3 pointed. `deck` is 0 to 99, 0 for none.
#[repr(C)]
#[derive(Clone, Copy, Debug, Default)]
pub struct Entry {
    pub id: u16,
    pub within: u16,
    pub kind: u8,
    pub standing: u8,
    pub fore_end: u8,
    pub aft_end: u8,
    pub deck: u8,
    pub length: u32,
}

/// A tank to be entered; `within` is the id of its U, `fore` the distance of its fore end along that.
#[repr(C)]
#[derive(Clone, Copy, Debug, Default)]
pub struct Tank {
    pub id: u16,
    pub within: u16,
    pub standing: u8,
    pub deck: u8,
    pub length: u32,
    pub fore: u32,
}

/// A change as a sheet keeps it.
#[repr(C)]
#[derive(Clone, Copy)]
struct OpenChange {
    made: u8,
    before: u8,
    after: u8,
    place: usize,
    space: Space,
}

/// A sheet: it goes into a call by value, and comes back.
#[repr(C)]
#[derive(Clone)]
#[must_use = "a sheet that is not kept is lost"]
pub struct Sheet {
    opened: u8,
    length: u32,
    spaces: [Space; 200],
    count: usize,
    changes: [OpenChange; 64],
    undoable: usize,
    redoable: usize,
    vessel: u32,
}

/// The number, and the sheet after the call: where refused, as it came.
#[repr(C)]
#[must_use = "the sheet after the call is in it, and whether it was refused"]
pub struct Changed {
    pub number: u8,
    pub sheet: Sheet,
}

/// What the rounding of third intervals did: above zero where it was up, zero where the third interval is exact, else below. That of a
/// length L in n parts is 3n x third - 10 L, in parts of 1/(3n) of a thousandth of a foot; of a depth D in m parts 3m x third - D, in parts
/// of 1/(3m) of a hundredth. `length` is a U's, B's or S's, 0 for an H or R; `depths` are those at a U's stations, from the bow, and 0 in
/// every other place. Where the entry was refused all are 0; a tank hands on none.
#[repr(C)]
#[derive(Clone, Copy, Debug, PartialEq, Eq)]
pub struct Roundings {
    pub length: i8,
    pub depths: [i8; 17],
}

/// The number, what the rounding did, how many enclosing spaces were visited, and the sheet after the call: where refused, as it came.
/// `visited` is a room's, refused or not: one for the named space and one for each step above it to level 1. It is at most 8, and 8 only
/// where 7 or a lower number refuses the entry; 0 where the enclosing id isn't standing, of any other kind, and on a sheet not open.
#[repr(C)]
#[must_use = "the sheet after the call is in it, and whether it was refused"]
pub struct Entering {
    pub number: u8,
    pub roundings: Roundings,
    pub visited: u8,
    pub sheet: Sheet,
}

/// The same of a tank, which is a room, but for what the rounding did: `visited` is 1 where its enclosing id names a space at level 1, and so
/// in a U.
#[repr(C)]
#[must_use = "the sheet after the call is in it, and whether it was refused"]
pub struct TankEntering {
    pub number: u8,
    pub visited: u8,
    pub sheet: Sheet,
}

/// How many changes are open, and the sheet as it came.
#[repr(C)]
#[must_use = "the sheet is in it"]
pub struct Counted {
    pub undoable: usize,
    pub redoable: usize,
    pub sheet: Sheet,
}

/// The number, gross and net (0 and 0 where refused), and the sheet as it came.
#[repr(C)]
#[must_use = "the sheet is in it, and whether the report was refused"]
pub struct Reported {
    pub number: u8,
    pub gross: u64,
    pub net: u64,
    pub sheet: Sheet,
}

/// Where a tank is measured: the number, its parts, and how many sections it asks (0 and 0 where refused).
#[repr(C)]
#[derive(Clone, Copy, Debug, PartialEq, Eq)]
#[must_use = "the parts and sections are in it, and whether the tank was refused"]
pub struct LaidOut {
    pub number: u8,
    pub parts: usize,
    pub sections: usize,
}

/// The number, the bytes written (0 where refused), and the sheet as it came.
#[repr(C)]
#[must_use = "the sheet is in it, and whether the write was refused"]
pub struct Written {
    pub number: u8,
    pub bytes: usize,
    pub sheet: Sheet,
}

/// The number, the position of the record where it is 17, the sheet, its justified mark, the byte at which it starts and the form in which
/// it was read.
#[repr(C)]
#[must_use = "the sheet that was read is in it, and whether the file was refused"]
pub struct Reading {
    pub number: u8,
    pub position: usize,
    pub sheet: Sheet,
    pub justified: u8,
    pub start: usize,
    pub form: u8,
}

/// The number, the bytes written (0 where refused), and the position of the record where the number is 17.
#[repr(C)]
#[derive(Clone, Copy, Debug, PartialEq, Eq)]
#[must_use = "the bytes written are in it, and whether the move was refused"]
pub struct Moved {
    pub number: u8,
    pub bytes: usize,
    pub position: usize,
}

/// A text: the first `size` bytes; zeros follow.
#[repr(C)]
#[must_use = "the text is in it"]
pub struct Listing {
    text: [u8; 8192],
    size: usize,
}

// The structs have the sizes that the calls hand over.
const _: () = {
    assert!(size_of::<Space>() == 16);
    assert!(size_of::<Entry>() == 16);
    assert!(size_of::<Tank>() == 16);
    assert!(size_of::<OpenChange>() == 32);
    assert!(size_of::<Sheet>() == 5288);
    assert!(size_of::<Changed>() == 5296);
    assert!(size_of::<Roundings>() == 18);
    assert!(size_of::<Entering>() == 5312);
    assert!(size_of::<TankEntering>() == 5296);
    assert!(size_of::<Counted>() == 5304);
    assert!(size_of::<Reported>() == 5312);
    assert!(size_of::<LaidOut>() == 24);
    assert!(size_of::<Written>() == 5304);
    assert!(size_of::<Reading>() == 5328);
    assert!(size_of::<Moved>() == 24);
    assert!(size_of::<Listing>() == 8200);
};

mod calls {
    use super::*;

    unsafe extern "C" {
        pub safe fn fummidrake_open(length: u32, vessel: u32) -> Changed;
        pub fn fummidrake_enter(
            sheet: Sheet,
            entry: Entry,
            heights: *const u32,
            heights_count: usize,
            breadths: *const u32,
            breadths_count: usize,
        ) -> Entering;
        pub fn fummidrake_enter_tank(
            sheet: Sheet,
            tank: Tank,
            depths: *const u32,
            depths_count: usize,
            breadths: *const u32,
            breadths_count: usize,
        ) -> TankEntering;
        pub safe fn fummidrake_withdraw(sheet: Sheet, id: u16) -> Changed;
        pub safe fn fummidrake_mark(sheet: Sheet, id: u16, standing: u8) -> Changed;
        pub safe fn fummidrake_undo(sheet: Sheet) -> Changed;
        pub safe fn fummidrake_redo(sheet: Sheet) -> Changed;
        pub safe fn fummidrake_counts(sheet: Sheet) -> Counted;
        pub safe fn fummidrake_report(sheet: Sheet, justified: u8) -> Reported;
        pub safe fn fummidrake_is_open(sheet: Sheet) -> bool;
        pub safe fn fummidrake_tonnage_length(sheet: Sheet) -> u32;
        pub safe fn fummidrake_vessel(sheet: Sheet) -> u32;
        pub safe fn fummidrake_standing_count(sheet: Sheet) -> usize;
        pub safe fn fummidrake_space_at(sheet: Sheet, place: usize) -> Space;
        pub safe fn fummidrake_stations(kind: u8, tonnage_length: u32, length: u32) -> usize;
        pub safe fn fummidrake_breadths_at_station(kind: u8, middle: u32) -> usize;
        pub safe fn fummidrake_lay_out(tonnage_length: u32, under_deck: u32, length: u32, fore: u32) -> LaidOut;
        pub safe fn fummidrake_section_station(
            tonnage_length: u32,
            under_deck: u32,
            length: u32,
            fore: u32,
            section: usize,
        ) -> usize;
        pub fn fummidrake_write(
            sheet: Sheet,
            justified: u8,
            form: u8,
            buf: *mut u8,
            buf_bytes: usize,
            at: usize,
        ) -> Written;
        pub fn fummidrake_read(file: *const u8, file_bytes: usize) -> Reading;
        pub fn fummidrake_read_before(file: *const u8, file_bytes: usize, start: usize) -> Reading;
        pub fn fummidrake_move_last(
            from: *const u8,
            from_bytes: usize,
            form: u8,
            to: *mut u8,
            to_bytes: usize,
            at: usize,
        ) -> Moved;
        pub fn fummidrake_list(file: *const u8, file_bytes: usize) -> Listing;
    }
}

/// The calls. Those that hand no sheet back only look at it.
impl Sheet {
    /// Opens a new sheet with a tonnage length and a vessel number, any, 0 for none; refused with 2, and a sheet not open, where the length is
    /// outside its range. The vessel number stays with the sheet.
    pub fn open(length: u32, vessel: u32) -> Changed {
        calls::fummidrake_open(length, vessel)
    }

    /// Enters a space from its offsets: for a U the depths at the stations, and the breadths station by station from the bow, at each
    /// from above; for a B or S one height and one breadth a station; for an H or R one of each. A pointed end of a U has no area: its
    /// depth or all its breadths are 0, or its third interval of depth rounds to 0. The answer says too what the rounding of its third
    /// intervals did and, refused or not, how many enclosing spaces were visited. Refused with 1 to 10, 19.
    pub fn enter(self, entry: Entry, heights: &[u32], breadths: &[u32]) -> Entering {
        // SAFETY: each pointer and its count are one slice's.
        unsafe {
            calls::fummidrake_enter(self, entry, heights.as_ptr(), heights.len(), breadths.as_ptr(), breadths.len())
        }
    }

    /// Enters a tank that follows the hull, a room directly inside its U, from its sections, as `lay_out` counts them: a depth a section, and
    /// the breadths section by section from the bow, at each m + 1 from above, with that U's m. Where a tank station falls exactly between two
    /// zones there are two sections, the fore zone's first, and the larger area is taken. The answer says too, refused or not, how many
    /// enclosing spaces were visited. Refused with 1 to 6, 9, 10, 29: 3, and 9 by the tank's tonnage, only in a U with m whose ends the tank
    /// doesn't pass.
    pub fn enter_tank(self, tank: Tank, depths: &[u32], breadths: &[u32]) -> TankEntering {
        // SAFETY: each pointer and its count are one slice's.
        unsafe {
            calls::fummidrake_enter_tank(self, tank, depths.as_ptr(), depths.len(), breadths.as_ptr(), breadths.len())
        }
    }

    /// Strikes out the space with an id. Refused with 1, 5, 11.
    pub fn withdraw(self, id: u16) -> Changed {
        calls::fummidrake_withdraw(self, id)
    }

    /// Gives the space with an id a new standing, even the same one. Refused with 1, 2, 5, 6, 8.
    pub fn mark(self, id: u16, standing: u8) -> Changed {
        calls::fummidrake_mark(self, id, standing)
    }

    /// Takes back the latest accepted change not undone. Refused with 1, 12.
    pub fn undo(self) -> Changed {
        calls::fummidrake_undo(self)
    }

    /// Makes again the change last undone. Refused with 1, 12.
    pub fn redo(self) -> Changed {
        calls::fummidrake_redo(self)
    }

    /// Says how many changes are undoable and redoable: 0 and 0 on a sheet not open.
    pub fn counts(self) -> Counted {
        calls::fummidrake_counts(self)
    }

    /// Gives gross and net; `justified` is 1 where the surveyor justifies the water ballast, else 0. Refused with 1, 2, 13, 14, 21.
    pub fn report(self, justified: u8) -> Reported {
        calls::fummidrake_report(self, justified)
    }

    /// Says whether the sheet is open.
    #[must_use]
    pub fn is_open(&self) -> bool {
        calls::fummidrake_is_open(self.clone())
    }

    /// Gives the tonnage length; 0 on a sheet not open.
    #[must_use]
    pub fn tonnage_length(&self) -> u32 {
        calls::fummidrake_tonnage_length(self.clone())
    }

    /// Gives the vessel number; 0 on a sheet not open.
    #[must_use]
    pub fn vessel(&self) -> u32 {
        calls::fummidrake_vessel(self.clone())
    }

    /// Says how many spaces stand; none on a sheet not open.
    #[must_use]
    pub fn standing_count(&self) -> usize {
        calls::fummidrake_standing_count(self.clone())
    }

    /// Gives the space at a place of the order of entry, from 0; all zeros where none stands there.
    #[must_use]
    pub fn space_at(&self, place: usize) -> Space {
        calls::fummidrake_space_at(self.clone(), place)
    }

    /// The spaces that stand, in order of entry.
    pub fn spaces(&self) -> impl Iterator<Item = Space> + '_ {
        (0..self.standing_count()).map(|place| self.space_at(place))
    }

    /// Writes the sheet with its justified mark into a buffer, from the byte `at` on, in a form: in form 1 16 bytes a space and 28 behind
    /// them, in form 2 20 and 32, with the decks and the vessel number. No byte before or after is touched, and none where refused, with 1, 2,
    /// 13, 14, 20, 15, 21.
    pub fn write(self, justified: u8, form: u8, buf: &mut [u8], at: usize) -> Written {
        // SAFETY: the pointer and its bytes are one slice's, lent for the call alone.
        unsafe { calls::fummidrake_write(self, justified, form, buf.as_mut_ptr(), buf.len(), at) }
    }
}

/// How many stations the rules ask of a space of a kind and length: one for an H or R.
#[must_use]
pub fn stations(kind: u8, tonnage_length: u32, length: u32) -> usize {
    calls::fummidrake_stations(kind, tonnage_length, length)
}

/// How many breadths the rules ask at each station; for a U that depends on the depth at its middle station.
#[must_use]
pub fn breadths_at_station(kind: u8, middle: u32) -> usize {
    calls::fummidrake_breadths_at_station(kind, middle)
}

/// Where a tank is measured, in a U of the length `under_deck`, before it is entered: its parts, and how many sections it asks. Refused with
/// 2, 9. A U longer than the tonnage length is a part made by a step.
pub fn lay_out(tonnage_length: u32, under_deck: u32, length: u32, fore: u32) -> LaidOut {
    calls::fummidrake_lay_out(tonnage_length, under_deck, length, fore)
}

/// The number, from 1, of the under-deck station inside whose section the tank's section, counted from 0, is measured; 0 past the last
/// section, and where `lay_out` refuses.
#[must_use]
pub fn section_station(tonnage_length: u32, under_deck: u32, length: u32, fore: u32, section: usize) -> usize {
    calls::fummidrake_section_station(tonnage_length, under_deck, length, fore, section)
}

/// Reads the last sheet of a file, which may be any bytes; the bytes ahead of its start are the earlier sheets, read the same way. Either form
/// is read, and answered; a sheet in form 1 has no decks and no vessel number. Refused, with a sheet not open, mark 0, start 0 and form 0, with
/// 16, 17, 13, 14, 21, 18.
pub fn read(file: &[u8]) -> Reading {
    // SAFETY: the pointer and its bytes are one slice's.
    unsafe { calls::fummidrake_read(file.as_ptr(), file.len()) }
}

/// Reads the sheet before the start of another in the same file, by the same rules; its own start counts from the file's first byte.
pub fn read_before(file: &[u8], start: usize) -> Reading {
    // SAFETY: the pointer and its bytes are one slice's.
    unsafe { calls::fummidrake_read_before(file.as_ptr(), file.len(), start) }
}

/// Moves the last sheet of the file `from`, with its mark, into the buffer `to`, from the byte `at` on, in a form, which may be the one it has.
/// No byte before or after is touched, and none where refused, with 2, 16, 17, 13, 14, 21, 18, 20, 15.
pub fn move_last(from: &[u8], form: u8, to: &mut [u8], at: usize) -> Moved {
    // SAFETY: each pointer and its bytes are one slice's, `to` lent for the call alone.
    unsafe { calls::fummidrake_move_last(from.as_ptr(), from.len(), form, to.as_mut_ptr(), to.len(), at) }
}

/// Lists the last sheet of a file, in either form: its tonnage length, a line a space, gross and net; or REFUSED, the number and the position.
/// A file has at most 65,536 bytes here: a longer one is listed as REFUSED 16 0, whatever it holds.
pub fn list(file: &[u8]) -> Listing {
    // SAFETY: the pointer and its bytes are one slice's.
    unsafe { calls::fummidrake_list(file.as_ptr(), file.len()) }
}

impl Listing {
    #[must_use]
    pub fn text(&self) -> &[u8] {
        &self.text[..self.size]
    }
}
