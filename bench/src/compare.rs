//! That both programs answer the same.

use crate::tasks::{CASES, CHANGES};
use crate::{ours, rounds, script, tasks};
use std::collections::BTreeMap;

/// Ours: the layer over two graphs answers as two graphs do.
const KINDS: [&str; 3] = ["two graphs", "a sequence pair", "the layer over two graphs"];

/// Every refusal that a plan has.
const REFUSALS: [u64; 19] = [
    10, 11, 12, 13, 14, 15, 16, 20, 21, 22, 23, 24, 30, 40, 41, 42, 43, 44, 45,
];

/// How many modules the plans of the scripts have, in turn.
const SIZES: [usize; 16] = [0, 1, 2, 3, 5, 8, 8, 16, 16, 32, 32, 64, 64, 64, 64, 63];

/// How many random calls a script has.
const CALLS: usize = 100;

/// As many turns as bring every change once.
const TURNS: usize = CHANGES;

/// Runs scripts at both, and some rounds; prints what was run, and fails at the first difference.
pub fn compare(scripts: u64) -> Result<(), String> {
    let mut met = BTreeMap::new();
    let mut calls = 0;
    for number in 0..scripts {
        let size = SIZES[number as usize % SIZES.len()];
        let script = tasks::script(number, size, CALLS);
        for kind in 0..3 {
            let plain = script::answers(kind, &script);
            let ours = ours::answers(kind, &script, plain.len() + 1);
            if ours != plain {
                let at = ours.iter().zip(&plain).take_while(|(a, b)| a == b).count();
                return Err(format!(
                    "script {number} of {size} modules, {}: word {at} differs",
                    KINDS[kind as usize]
                ));
            }
        }
        calls += script::count(&script, &mut met);
    }
    if let Some(number) = REFUSALS.iter().find(|number| !met.contains_key(number)) {
        return Err(format!("no script is refused by {number}"));
    }
    println!(
        "{scripts} scripts, {calls} calls, over {}: the same answers.",
        KINDS.join(", ")
    );
    let told: Vec<String> = met
        .iter()
        .map(|(number, times)| format!("{number}: {times}"))
        .collect();
    println!("Refusals met, 0 for none: {}.", told.join(", "));
    compare_rounds()
}

/// Makes rounds at both. A and D answer how many were accepted: all, since a round that is refused measures nothing.
fn compare_rounds() -> Result<(), String> {
    for size in [8, 16, 32, 64] {
        let task = tasks::cases(size);
        for (kind, name) in KINDS[..2].iter().enumerate() {
            for round in 0..4 {
                let ours = ours::rounds(kind as u8, round, TURNS, &task);
                let plain = rounds::rounds(kind as u8, round, TURNS, &task);
                let why = if ours != plain {
                    "sums differ"
                } else if matches!(round, 0 | 3) && ours != (TURNS * CASES) as u64 {
                    "some are refused"
                } else {
                    continue;
                };
                return Err(format!("round {round} of {size} modules, {name}: {why}"));
            }
        }
    }
    println!(
        "Rounds at 8, 16, 32 and 64 modules: the same sums, and each change and load is accepted."
    );
    Ok(())
}
