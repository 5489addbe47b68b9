//! The tests of a load, each over the whole table before the next.

use super::refusals::LoadRefusal;
use super::rows::{members, Rows};
use super::MODULES;

/// The graphs of a table that passes every test, or the first refusal.
pub fn tested_rows(codes: &[u8], sequence: &[usize]) -> Result<Rows, LoadRefusal> {
    let size = sequence.len();
    if size > MODULES || codes.len() != size * size {
        return Err(LoadRefusal::WrongShape);
    }
    if let Some(k) = codes.iter().position(|&code| code > 2) {
        return Err(LoadRefusal::WrongCode(k / size, k % size));
    }
    if let Some(i) = (0..size).find(|&i| codes[i * size + i] != 0) {
        return Err(LoadRefusal::SelfRelated(i, i));
    }
    let rows = rows_of(codes, size);
    if let Some((i, j)) = first_not_one(&rows, size) {
        return Err(LoadRefusal::NotOneEdge(i, j));
    }
    for i in 0..size {
        let missing = missing_from(&rows.right, i) | missing_from(&rows.above, i);
        if missing != 0 {
            return Err(LoadRefusal::NotClosed(i, missing.trailing_zeros() as usize));
        }
    }
    test_sequence(&rows, sequence)?;
    Ok(rows)
}

/// The first two modules, the lower number first, that have no edge or two.
fn first_not_one(rows: &Rows, size: usize) -> Option<(usize, usize)> {
    let mut before = [0u64; MODULES];
    for i in 0..size {
        for j in members(rows.both(i)) {
            before[j] |= 1 << i;
        }
    }
    (0..size).find_map(|i| {
        let one = rows.both(i) ^ before[i];
        let wrong = !one & later(i) & all(size);
        (wrong != 0).then(|| (i, wrong.trailing_zeros() as usize))
    })
}

/// The modules below a number.
fn all(size: usize) -> u64 {
    u64::MAX
        .checked_shl(size as u32)
        .map_or(u64::MAX, |above| !above)
}

/// The modules above one.
fn later(i: usize) -> u64 {
    u64::MAX << i << 1
}

/// The graphs of a table of codes.
fn rows_of(codes: &[u8], size: usize) -> Rows {
    let mut rows = Rows::new();
    for i in 0..size {
        let row = &codes[i * size..(i + 1) * size];
        rows.right[i] = row_of(row, 1);
        rows.above[i] = row_of(row, 2);
    }
    rows
}

/// The modules at which a row has a code.
fn row_of(row: &[u8], code: u8) -> u64 {
    // from the end, so that each bit comes in at the lowest place
    row.iter()
        .rev()
        .fold(0, |bits, &found| bits << 1 | u64::from(found == code))
}

/// The modules that i reaches by two edges and by none.
fn missing_from(graph: &[u64; MODULES], i: usize) -> u64 {
    members(graph[i]).fold(0, |reached, j| reached | graph[j]) & !graph[i]
}

/// That a sequence names each module once, and no edge leads back in it.
fn test_sequence(rows: &Rows, sequence: &[usize]) -> Result<(), LoadRefusal> {
    let size = sequence.len();
    // for each module those that stand before it
    let mut before = [0u64; MODULES];
    let mut met = 0u64;
    for (place, &module) in sequence.iter().enumerate() {
        if module >= size || met >> module & 1 == 1 {
            return Err(LoadRefusal::WrongPlace(place));
        }
        before[module] = met;
        met |= 1 << module;
    }
    for (i, before) in before[..size].iter().enumerate() {
        let backwards = rows.both(i) & before;
        if backwards != 0 {
            return Err(LoadRefusal::Backwards(
                i,
                backwards.trailing_zeros() as usize,
            ));
        }
    }
    Ok(())
}
