//! The paper's numbers of refusal.

/// Why a call was refused; `as u8` gives the paper's number.
#[derive(Clone, Copy)]
#[repr(u8)]
pub enum Refusal {
    NotOpen = 1,
    OutsideItsRange,
    NotTheNumberAsked,
    NewId,
    NotStanding,
    CannotTake,
    TooDeep,
    NotPlainTwice,
    WouldPass,
    NoPlace,
    EnclosesRoom,
    NothingOpen,
    LengthsDiffer,
    NotJustified,
    TooLittleRoom,
    NoSheet,
    WrongRecord,
    WrongSums,
    PointedWithArea,
    NumberLost,
    DeductionsPass,
    NoM = 29,
}
