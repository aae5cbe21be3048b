//! Times the proved calls beside the same calls in plain Rust, in one process, on the same inputs; docs/PERFORMANCE.md says how, and
//! what was found. Before a call is timed its answers are compared.
//!
//! `bench` prints the tables, `bench --check` only compares answers, over the cases and over calls at random, and prints nothing
//! where all agree. See `make bench`.
mod answers;
mod calls;
mod cases;
mod desk;
#[allow(dead_code)]
#[path = "../rust/fummidrake.rs"]
mod fummidrake;
mod occurred;
mod plain;
mod random;
mod timing;

use cases::{cases, Case, GROWING};
use std::process::ExitCode;
use timing::{times, Times};

/// How many spaces stand in the second table.
const COUNTS: [u16; 4] = [25, 50, 100, 200];

fn print_cases() -> Result<(), String> {
    println!("{:44}{:>10}{:>10}{:>8}{:>10}", "nanoseconds a call", "proved", "plain", "ratio", "in place");
    for mut case in cases()? {
        case.compare()?;
        let times = times(vec![case.sides()]).remove(0);
        let Times { proved, by_value, in_place } = times;
        println!("{:44}{proved:10.0}{by_value:10.0}{:8.2}{in_place:10.0}", case.name, times.ratio());
    }
    Ok(())
}

fn print_growth() -> Result<(), String> {
    print!("{:34}", "how it grows with the spaces");
    COUNTS.iter().for_each(|count| print!("{count:10}"));
    println!("{:>10}", "growth");
    for call in GROWING {
        let mut cases: Vec<Case> = COUNTS.into_iter().map(call.with).collect::<Result<_, _>>()?;
        cases.iter().try_for_each(Case::compare)?;
        let times = times(cases.iter_mut().map(Case::sides).collect());
        print_row(call.name, "proved", times.iter().map(|times| times.proved));
        print_row("", "plain", times.iter().map(|times| times.by_value));
        print_row("", "in place", times.iter().map(|times| times.in_place));
    }
    Ok(())
}

/// The times of one side, and how many times the first the last is.
fn print_row(name: &str, side: &str, times: impl Iterator<Item = f64>) {
    let times: Vec<f64> = times.collect();
    print!("{name:24}{side:10}");
    times.iter().for_each(|time| print!("{time:10.0}"));
    println!("{:10.2}", times[times.len() - 1] / times[0]);
}

fn check() -> Result<(), String> {
    cases()?.iter().try_for_each(Case::compare)?;
    for call in GROWING {
        COUNTS.iter().try_for_each(|&count| (call.with)(count)?.compare())?;
    }
    random::check()
}

fn tables() -> Result<(), String> {
    print_cases()?;
    println!();
    print_growth()
}

fn main() -> ExitCode {
    let done = match std::env::args().nth(1).as_deref() {
        None => tables(),
        Some("--check") => check(),
        Some(_) => Err("usage: bench [--check]".to_string()),
    };
    match done {
        Ok(()) => ExitCode::SUCCESS,
        Err(message) => {
            eprintln!("{message}");
            ExitCode::FAILURE
        }
    }
}
