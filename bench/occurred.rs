//! What has occurred in the answers to calls at random, and what has to.
use crate::answers::Seen;
use std::collections::BTreeSet;

/// The numbers that each call gives, in their order; a call is told by the first word of its name.
const NUMBERS: [(&str, &[u8]); 13] = [
    ("open", &[0, 2]),
    ("enter", &[0, 1, 2, 3, 4, 5, 6, 7, 8, 9, 10, 19]),
    ("tank", &[0, 1, 2, 3, 4, 5, 6, 9, 10, 29]),
    ("lay", &[0, 2, 9]),
    ("section", &[0]),
    ("withdraw", &[0, 1, 5, 11]),
    ("mark", &[0, 1, 2, 5, 6, 8]),
    ("undo", &[0, 1, 12]),
    ("redo", &[0, 1, 12]),
    ("report", &[0, 1, 2, 13, 14, 21]),
    ("write", &[0, 1, 2, 13, 14, 20, 15, 21]),
    ("read", &[0, 16, 17, 13, 14, 21, 18]),
    ("move", &[0, 2, 16, 17, 13, 14, 21, 18, 20, 15]),
];

/// How many enclosing spaces have to be visited by each call; a tank seldom names a room, so that not all are asked of it.
const VISITED: [(&str, &[u8]); 2] = [("enter", &[0, 1, 2, 3, 4, 5, 6, 7, 8]), ("tank", &[0, 1, 2, 8])];

/// The classes of machinery, by what part of the gross it is (69.121(e)(2)).
const CLASSES: [&str; 3] = ["13% or less", "more than 13% but less than 20%", "20% or more"];

#[derive(Default)]
pub struct Occurred {
    /// Calls, by the first words of their names, each with a number that it gave.
    answers: BTreeSet<(String, u8)>,
    /// The same, each with how many enclosing spaces it visited.
    visited: BTreeSet<(String, u8)>,
    classes: [bool; CLASSES.len()],
    lengths: Rounded,
    depths: Rounded,
}

/// Whether one of the third intervals was rounded up, and whether one was rounded down.
#[derive(Default)]
struct Rounded {
    up: bool,
    down: bool,
}

impl Rounded {
    fn note(&mut self, roundings: &[i8]) {
        self.up |= roundings.iter().any(|&rounding| rounding > 0);
        self.down |= roundings.iter().any(|&rounding| rounding < 0);
    }
}

impl Occurred {
    /// Notes the answer to a call with a name.
    pub fn note(&mut self, name: &str, seen: &Seen) {
        let call = name.split(' ').next().unwrap_or(name);
        self.answers.insert((call.to_string(), seen.number));
        self.visited.insert((call.to_string(), seen.visited));
        self.lengths.note(&[seen.roundings.length]);
        self.depths.note(&seen.roundings.depths);
    }

    /// Notes the class of the machinery in a gross that was reported.
    pub fn note_class(&mut self, machinery: u64, gross: u64) {
        let class = usize::from(100 * machinery > 13 * gross) + usize::from(100 * machinery >= 20 * gross);
        self.classes[class] = true;
    }

    /// An error says what hasn't occurred.
    pub fn all(&self) -> Result<(), String> {
        for (call, numbers) in NUMBERS {
            let missing = |number: &&u8| !self.answers.contains(&(call.to_string(), **number));
            if let Some(number) = numbers.iter().find(missing) {
                return Err(format!("no {call} at random was answered with {number}"));
            }
        }
        for (call, counts) in VISITED {
            let missing = |count: &&u8| !self.visited.contains(&(call.to_string(), **count));
            if let Some(count) = counts.iter().find(missing) {
                return Err(format!("no {call} at random visited {count} enclosing spaces"));
            }
        }
        if let Some((class, _)) = CLASSES.iter().zip(self.classes).find(|(_, occurred)| !occurred) {
            return Err(format!("no report at random had machinery of {class}"));
        }
        for (what, rounded) in [("length", &self.lengths), ("depth", &self.depths)] {
            if !(rounded.up && rounded.down) {
                return Err(format!("at random no third interval of {what} was rounded up, or none down"));
            }
        }
        Ok(())
    }
}
