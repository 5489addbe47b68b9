//! Loads that are refused, of every kind.

use crate::random::{Given, Random};

/// A floorplan made wrong in one way or another; where it is no longer refused, it is another floorplan.
pub fn wrong_load(random: &mut Random, size: usize) -> Given {
    let mut given = Given::random(random, size);
    // sometimes in two ways, to see which is told
    for _ in 0..1 + random.below(2) {
        make_wrong(random, &mut given);
    }
    match random.below(24) {
        0 => given.codes.push(0),
        1 => given.codes.truncate(size),
        _ => {}
    }
    given
}

fn make_wrong(random: &mut Random, given: &mut Given) {
    let size = given.sequence.len();
    if size < 2 {
        return;
    }
    let (i, j) = two(random, size);
    let codes = &mut given.codes;
    match random.below(10) {
        0 => {
            let place = random.below(codes.len());
            codes[place] = 3 + random.below(253) as u8;
        }
        1 => codes[i * (size + 1)] = 1 + random.below(2) as u8,
        // twice, or not at all
        2 => codes[i * size + j] = 1 + random.below(2) as u8,
        3 => codes[i * size + j] = 0,
        // in the other graph, or turned round
        4 | 5 => {
            let place = i * size + j;
            codes[place] = [0, 2, 1][codes[place] as usize % 3];
        }
        6 => codes.swap(i * size + j, j * size + i),
        7 => given.sequence[i] = given.sequence[j],
        8 => given.sequence[i] = size + random.below(256 - size),
        _ => given.sequence.swap(i, j),
    }
}

/// Two different modules.
fn two(random: &mut Random, size: usize) -> (usize, usize) {
    let i = random.below(size);
    (i, (i + 1 + random.below(size - 1)) % size)
}
