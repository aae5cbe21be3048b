//! The barge's morning of `../barge.txt` in Rust: the whole sheet of the paper is made, reported, written, read back, moved to form 2 and
//! back and listed, and another with a deck and a vessel number is written. A line for each call: its name and its answer.
#[allow(dead_code)]
#[path = "../../rust/fummidrake.rs"]
mod fummidrake;

use fummidrake::{
    breadths_at_station, list, move_last, read, stations, Changed, Entering, Entry, Reading, Reported, Sheet,
};
use std::io::Write;

/// An end where bow or stern is upright, as this barge's are: its section counts with the area it has.
const UPRIGHT: u8 = 2;

/// Prints the answer to a change, an undo or a redo, and hands on the sheet after it.
fn answered(call: &str, answer: Changed) -> Sheet {
    println!("{call} {}", answer.number);
    answer.sheet
}

/// The same of an entry: beside the number what the rounding of the length did, of a U that of the depth at each station, and how many
/// enclosing spaces were visited.
fn entered(answer: Entering, stations_of_u: usize) -> Sheet {
    let Entering { number, roundings, visited, sheet } = answer;
    let depths = if number == 0 { &roundings.depths[..stations_of_u] } else { &[] };
    let depths: Vec<String> = depths.iter().map(|depth| depth.to_string()).collect();
    let list = if depths.is_empty() { "-".to_string() } else { depths.join(",") };
    println!("enter {number} {} {list} {visited}", roundings.length);
    sheet
}

/// Prints what stands: open or not, the tonnage length, how many, the vessel number, and each space.
fn print_spaces(sheet: &Sheet) {
    let (open, length, count) = (sheet.is_open() as u8, sheet.tonnage_length(), sheet.standing_count());
    print!("spaces 0 {open} {length} {count} {}", sheet.vessel());
    for x in sheet.spaces() {
        print!(" {}:{}:{}:{}:{}:{}:{}:{}", x.id, x.within, x.kind, x.standing, x.tonnage, x.length, x.m, x.deck);
    }
    println!();
}

fn print_report(answer: &Reported) {
    println!("report {} {} {}", answer.number, answer.gross, answer.net);
}

fn hex(bytes: &[u8]) -> String {
    bytes.iter().map(|byte| format!("{byte:02x}")).collect()
}

/// Writes the sheet in a form into a buffer, from its beginning on, and prints that.
fn written(sheet: Sheet, form: u8, buffer: &mut [u8]) -> Sheet {
    let answer = sheet.write(0, form, buffer, 0);
    println!("write {} {} {}", answer.number, answer.bytes, hex(buffer));
    answer.sheet
}

fn read_from(file: &[u8]) -> Reading {
    let answer = read(file);
    let Reading { number, position, justified, start, form, .. } = answer;
    println!("read {number} {position} {justified} {start} {form}");
    answer
}

/// Moves the last sheet of a file into a buffer, from its beginning on, in a form.
fn move_into(to: &mut [u8], form: u8, from: &[u8]) {
    let answer = move_last(from, form, to, 0);
    println!("move {} {} {} {}", answer.number, answer.bytes, answer.position, hex(to));
}

/// Enters the under-deck part: as many depths and breadths as the rules ask.
fn under_deck_entered(sheet: Sheet, deck: u8) -> Sheet {
    let ends = Entry { fore_end: UPRIGHT, aft_end: UPRIGHT, ..Entry::default() };
    let depths = vec![1200; stations(1, 4800, 4800)];
    let breadths = vec![2000; depths.len() * breadths_at_station(1, 1200)];
    entered(sheet.enter(Entry { id: 1, kind: 1, deck, length: 4800, ..ends }, &depths, &breadths), depths.len())
}

/// Opens the sheet and enters its five spaces.
fn whole_sheet() -> Sheet {
    let superstructure = Entry { id: 2, kind: 3, length: 1600, ..Entry::default() };
    let ballast = Entry { id: 3, within: 1, kind: 5, standing: 2, length: 1000, ..Entry::default() };
    let deducted = Entry { id: 4, within: 2, kind: 5, standing: 3, length: 800, ..Entry::default() };
    let hatchway = Entry { id: 5, kind: 4, length: 500, ..Entry::default() };
    let mut sheet = under_deck_entered(answered("open", Sheet::open(4800, 0)), 0);
    sheet = entered(sheet.enter(superstructure, &[800; 3], &[1000; 3]), 0);
    sheet = entered(sheet.enter(ballast, &[400], &[1000]), 0);
    sheet = entered(sheet.enter(deducted, &[800], &[500]), 0);
    entered(sheet.enter(hatchway, &[500], &[400]), 0)
}

/// The room 4 is struck out and put back, twice; two changes are refused.
fn changed_and_undone(mut sheet: Sheet) -> Sheet {
    sheet = answered("withdraw", sheet.withdraw(4));
    sheet = answered("undo", sheet.undo());
    sheet = answered("redo", sheet.redo());
    sheet = answered("undo", sheet.undo());
    sheet = answered("withdraw", sheet.withdraw(2));
    answered("mark", sheet.mark(5, 1))
}

/// Moves the file up to form 2, and back; read in form 2 it is the same sheet.
fn move_up_and_back(file: &[u8; 108]) {
    let (mut up, mut back) = ([0; 132], [0; 108]);
    move_into(&mut up, 2, file);
    move_into(&mut back, 1, &up);
    let _ = read_from(&up);
}

/// A sheet with a deck and a vessel number: form 1 would lose them, and form 2 has them.
fn write_with_numbers() {
    let mut sheet = under_deck_entered(answered("open", Sheet::open(4800, 1042)), 1);
    print_spaces(&sheet);
    sheet = written(sheet, 1, &mut [0; 44]);
    let _ = written(sheet, 2, &mut [0; 52]);
}

fn main() -> std::io::Result<()> {
    let sheet = changed_and_undone(whole_sheet());
    print_spaces(&sheet);
    let counted = sheet.counts();
    println!("counts 0 {} {}", counted.undoable, counted.redoable);
    let reported = counted.sheet.report(0);
    print_report(&reported);

    let mut file = [0; 108];
    let _ = written(reported.sheet, 1, &mut file);
    let reading = read_from(&file);
    print_spaces(&reading.sheet);
    let sheet = answered("undo", reading.sheet.undo());
    print_report(&sheet.report(reading.justified));
    move_up_and_back(&file);
    write_with_numbers();

    std::io::stdout().write_all(list(&file).text())
}
