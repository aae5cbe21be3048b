//! The tank of `../tank.txt` in Rust: an under-deck part with curved sides, and a tank in it that follows them. A line for each call: its
//! name and its answer.
#[allow(dead_code)]
#[path = "../../rust/fummidrake.rs"]
mod fummidrake;

use fummidrake::{lay_out, read, section_station, Changed, Entering, Entry, Reading, Sheet, Tank, TankEntering};

const LENGTH: u32 = 3600;
/// An end where bow or stern is upright, as this barge's are: its section counts with the area it has.
const UPRIGHT: u8 = 2;
const TANK: Tank = Tank { id: 2, within: 1, standing: 2, deck: 0, length: 1200, fore: 800 };

/// The breadths of the under-deck part at each station, from above.
const STATIONS: [[u32; 5]; 7] = [
    [400, 300, 200, 100, 0],
    [1400, 1200, 1000, 600, 200],
    [1800, 1600, 1400, 1000, 400],
    [2000, 2000, 1800, 1400, 600],
    [2000, 1800, 1600, 1200, 400],
    [1600, 1400, 1200, 800, 200],
    [1000, 800, 600, 300, 0],
];

/// Those of the tank at each section: at 8 ft inside station 2, at 14 ft inside 3 and inside 4, at 20 ft inside 4.
const SECTIONS: [[u32; 5]; 4] = [
    [1000, 800, 600, 400, 200],
    [1400, 1200, 1000, 700, 400],
    [1800, 1600, 1400, 1000, 600],
    [1800, 1600, 1400, 1000, 600],
];

/// Prints the answer to a change, and hands on the sheet after it.
fn answered(call: &str, answer: Changed) -> Sheet {
    println!("{call} {}", answer.number);
    answer.sheet
}

/// The same of an entry: beside the number what the rounding of the length did, of a U that of the depth at each station, and how many
/// enclosing spaces were visited.
fn entered(answer: Entering) -> Sheet {
    let Entering { number, roundings, visited, sheet } = answer;
    let depths = if number == 0 { &roundings.depths[..STATIONS.len()] } else { &[] };
    println!("enter {number} {} {} {visited}", roundings.length, joined(depths));
    sheet
}

/// Numbers joined by commas; `-` where there are none.
fn joined<T: ToString>(numbers: &[T]) -> String {
    let words: Vec<String> = numbers.iter().map(T::to_string).collect();
    if words.is_empty() {
        "-".to_string()
    } else {
        words.join(",")
    }
}

/// Prints where a tank is measured: the number, its parts, and for each section the under-deck station.
fn print_zones(length: u32, fore: u32) {
    let laid_out = lay_out(LENGTH, LENGTH, length, fore);
    let station = |section| section_station(LENGTH, LENGTH, length, fore, section);
    let stations: Vec<usize> = (0..laid_out.sections).map(station).collect();
    println!("zones {} {} {}", laid_out.number, laid_out.parts, joined(&stations));
}

/// Prints what stands: open or not, the tonnage length, how many, the vessel number, and each space.
fn print_spaces(sheet: &Sheet) {
    let (open, length, count) = (sheet.is_open() as u8, sheet.tonnage_length(), sheet.standing_count());
    print!("spaces 0 {open} {length} {count} {}", sheet.vessel());
    for x in sheet.spaces() {
        print!(" {}:{}:{}:{}:{}:{}:{}:{}", x.id, x.within, x.kind, x.standing, x.tonnage, x.length, x.m, x.deck);
    }
    println!();
}

fn print_report(sheet: Sheet) -> Sheet {
    let answer = sheet.report(0);
    println!("report {} {} {}", answer.number, answer.gross, answer.net);
    answer.sheet
}

fn under_deck_entered(sheet: Sheet) -> Sheet {
    let under_deck = Entry { id: 1, kind: 1, fore_end: UPRIGHT, aft_end: UPRIGHT, length: LENGTH, ..Entry::default() };
    entered(sheet.enter(under_deck, &[1200; 7], STATIONS.as_flattened()))
}

/// Enters a tank, and prints the number and how many enclosing spaces were visited.
fn tank_entered(sheet: Sheet, tank: Tank, breadths: &[u32]) -> Sheet {
    let TankEntering { number, visited, sheet } = sheet.enter_tank(tank, &[600; 4], breadths);
    println!("tank {number} {visited}");
    sheet
}

/// The tank is measured, entered and reported; another with a breadth missing, and one too long, are refused.
fn measured(mut sheet: Sheet) -> Sheet {
    sheet = under_deck_entered(sheet);
    print_zones(TANK.length, TANK.fore);
    let breadths = SECTIONS.as_flattened();
    sheet = tank_entered(sheet, TANK, breadths);
    sheet = tank_entered(sheet, Tank { id: 3, ..TANK }, &breadths[1..]);
    print_zones(3000, TANK.fore);
    print_spaces(&sheet);
    print_report(sheet)
}

/// On a sheet that came from a file the tank is struck out and entered again, which takes the under-deck part entered anew.
fn measured_again(mut sheet: Sheet) -> Sheet {
    print_spaces(&sheet);
    sheet = answered("withdraw", sheet.withdraw(2));
    sheet = tank_entered(sheet, TANK, SECTIONS.as_flattened());
    sheet = answered("withdraw", sheet.withdraw(1));
    sheet = under_deck_entered(sheet);
    sheet = tank_entered(sheet, TANK, SECTIONS.as_flattened());
    print_spaces(&sheet);
    print_report(sheet)
}

fn main() {
    let sheet = measured(answered("open", Sheet::open(LENGTH, 0)));
    let mut file = [0; 60];
    let written = sheet.write(0, 1, &mut file, 0);
    let hex: String = file.iter().map(|byte| format!("{byte:02x}")).collect();
    println!("write {} {} {hex}", written.number, written.bytes);
    let reading = read(&file);
    let Reading { number, position, justified, start, form, sheet } = reading;
    println!("read {number} {position} {justified} {start} {form}");
    let _ = measured_again(sheet);
}
