//! The table of what was measured.

use crate::measures::{Rounds, Side};

/// The rounds by their numbers.
const ROUNDS: [&str; 4] = ["A, change and load", "B, packing", "C, trial", "D, load"];

/// The kinds by their numbers.
const KINDS: [&str; 2] = ["two graphs", "sequence pair"];

/// Prints a table for each size, the greatest first.
pub fn print() {
    for size in [64, 32, 16, 8] {
        println!("\nAt {size} modules:\n");
        println!("| Round | Representation | Instructions, ours | plain | ratio | Time in ns, ours | plain | ratio |");
        println!("|---|---|---:|---:|---:|---:|---:|---:|");
        for round in 0..4 {
            for kind in 0..2 {
                print_row(Rounds { kind, round, size });
            }
        }
    }
}

fn print_row(rounds: Rounds) {
    let instructions = [Side::Ours, Side::Plain].map(|side| rounds.instructions(side) as f64);
    println!(
        "| {} | {} | {} | {} |",
        ROUNDS[rounds.round as usize],
        KINDS[rounds.kind as usize],
        compared(instructions),
        compared(rounds.times()),
    );
}

/// Ours, plain, and how often plain goes into ours.
fn compared([ours, plain]: [f64; 2]) -> String {
    format!(
        "{} | {} | {:.1}",
        grouped(ours as u64),
        grouped(plain as u64),
        ours / plain
    )
}

/// A number with commas between its thousands.
fn grouped(number: u64) -> String {
    if number < 1000 {
        number.to_string()
    } else {
        format!("{},{:03}", grouped(number / 1000), number % 1000)
    }
}
