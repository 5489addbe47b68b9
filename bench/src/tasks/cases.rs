//! The cases that rounds go over.

use super::scripts::push_sides;
use crate::random::{Given, Random};

/// The floorplans of a task, with each of which a turn makes a round.
pub const CASES: usize = 64;

/// The changes of a case, one for each turn in order, and then from the first on.
pub const CHANGES: usize = 16;

/// Floorplans of so many modules, each with sides, and with reverses and moves that it accepts.
pub fn cases(size: usize) -> Vec<u8> {
    let mut random = Random::new(size as u64);
    let mut task = vec![size as u8];
    for _ in 0..CASES {
        let given = Given::random(&mut random, size);
        let edges = given.reduction_edges();
        task.extend(&given.codes);
        task.extend(given.sequence.iter().map(|&module| module as u8));
        push_sides(&mut task, &mut random, size);
        for _ in 0..CHANGES {
            let (a, b) = edges[random.below(edges.len())];
            task.extend([3 + random.below(2) as u8, a as u8, b as u8]);
        }
    }
    task
}
