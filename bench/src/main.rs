//! The comparison: our planner as a static library beside one in plain Rust.

mod bytes;
mod compare;
mod measures;
mod ours;
mod plain;
mod random;
mod rounds;
mod script;
mod table;
mod tasks;

use measures::{Rounds, Side};
use std::process::ExitCode;

/// `compare`: that both answer the same. `table`: the measured rounds. `rounds`: some rounds of one side, for callgrind.
fn main() -> ExitCode {
    let words: Vec<String> = std::env::args().skip(1).collect();
    let done = match words.first().map(String::as_str) {
        Some("compare") => compare::compare(800),
        Some("table") => {
            table::print();
            Ok(())
        }
        Some("rounds") => make_rounds(&words[1..]),
        _ => Err("usage: bench compare | table | rounds SIDE KIND ROUND SIZE TURNS".to_string()),
    };
    match done {
        Ok(()) => ExitCode::SUCCESS,
        Err(why) => {
            eprintln!("bench: {why}");
            ExitCode::FAILURE
        }
    }
}

/// Makes rounds as five numbers tell: 0 for our side or 1 for plain Rust, kind, round, size and turns.
fn make_rounds(words: &[String]) -> Result<(), String> {
    let numbers: Result<Vec<usize>, _> = words.iter().map(|word| word.parse()).collect();
    let Ok([side, kind, round, size, turns]) = numbers.as_deref() else {
        return Err("rounds takes five numbers".to_string());
    };
    let side = if *side == 0 { Side::Ours } else { Side::Plain };
    let rounds = Rounds {
        kind: *kind as u8,
        round: *round as u8,
        size: *size,
    };
    println!("{}", rounds.run(side, *turns, &tasks::cases(*size)));
    Ok(())
}
