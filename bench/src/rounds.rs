//! Rounds over the cases of a task in turn, over the plain program.

use crate::bytes::Bytes;
use crate::plain::{Change, Floorplan, Graphs, Pair, Placed, Plan, Sides, MODULES};
use crate::tasks::{CASES, CHANGES};

/// A floorplan as a load takes it, the sides of its modules, and some changes.
struct Case<'a> {
    codes: &'a [u8],
    sequence: Vec<usize>,
    sides: Vec<Sides>,
    changes: Vec<Change>,
}

/// The cases of a task, which begins with the number of modules that each has.
fn read_cases(task: &[u8]) -> Option<Vec<Case<'_>>> {
    let mut bytes = Bytes(task);
    let size = bytes.count()?;
    (0..CASES).map(|_| read_case(&mut bytes, size)).collect()
}

/// The next case: codes, sequence, width and height of each module, changes.
fn read_case<'a>(bytes: &mut Bytes<'a>, size: usize) -> Option<Case<'a>> {
    Some(Case {
        codes: bytes.several(size * size)?,
        sequence: bytes.sequence(size)?,
        sides: bytes.sides(size)?,
        changes: (0..CHANGES)
            .map(|_| {
                let word = bytes.byte()?;
                bytes.change(word)
            })
            .collect::<Option<_>>()?,
    })
}

/// Whether the load of a case is done.
fn is_loaded<F: Floorplan>(floorplan: &mut F, case: &Case<'_>) -> bool {
    floorplan.load(case.codes, &case.sequence).is_ok()
}

/// Whether the change of a turn and the load after it are done.
fn is_changed<F: Floorplan>(floorplan: &mut F, case: &Case<'_>, turn: usize) -> bool {
    let changed = match case.changes[turn % CHANGES] {
        Change::Reverse(a, b) => floorplan.reverse(a, b),
        Change::MoveEdge(a, b) => floorplan.move_edge(a, b),
        _ => Ok(()),
    };
    changed.is_ok() && is_loaded(floorplan, case)
}

/// The area of the chip that a packing answers.
fn packed_area<F: Floorplan>(floorplan: &F, case: &Case<'_>, results: &mut [Placed]) -> u64 {
    crate::plain::pack(floorplan, 0, &case.sides, results).map_or(0, |chip| chip.area)
}

/// The area of the chip with the change of a turn, which is undone.
fn tried_area<F: Floorplan>(
    plan: &mut Plan<F>,
    case: &Case<'_>,
    turn: usize,
    results: &mut [Placed],
) -> u64 {
    if plan.change(case.changes[turn % CHANGES]).is_err() {
        return 0;
    }
    let area = plan.pack(&case.sides, results).map_or(0, |chip| chip.area);
    if plan.undo() {
        area
    } else {
        0
    }
}

/// Rounds over bare floorplans.
fn bare_rounds<F: Floorplan>(round: u8, cases: &[Case<'_>], turns: usize) -> u64 {
    let mut all = vec![F::new(); cases.len()];
    for (floorplan, case) in all.iter_mut().zip(cases) {
        is_loaded(floorplan, case);
    }
    let mut results = [Placed::default(); MODULES];
    let mut sum = 0u64;
    for turn in 0..turns {
        for (floorplan, case) in all.iter_mut().zip(cases) {
            sum = sum.wrapping_add(match round {
                0 => is_changed(floorplan, case, turn).into(),
                1 => packed_area(floorplan, case, &mut results),
                _ => is_loaded(floorplan, case).into(),
            });
        }
    }
    sum
}

/// Rounds of trials over plans.
fn trial_rounds<F: Floorplan>(cases: &[Case<'_>], turns: usize) -> u64 {
    let mut all: Vec<Plan<F>> = cases.iter().map(|_| Plan::new()).collect();
    for (plan, case) in all.iter_mut().zip(cases) {
        let _ = plan.load(case.codes, &case.sequence);
    }
    let mut results = [Placed::default(); MODULES];
    let mut sum = 0u64;
    for turn in 0..turns {
        for (plan, case) in all.iter_mut().zip(cases) {
            sum = sum.wrapping_add(tried_area(plan, case, turn, &mut results));
        }
    }
    sum
}

/// Rounds 0 to 3, which are A to D, over both kinds.
pub fn rounds(kind: u8, round: u8, turns: usize, task: &[u8]) -> u64 {
    let cases = read_cases(task).expect("a task that can be read");
    match (kind, round) {
        (0, 2) => trial_rounds::<Graphs>(&cases, turns),
        (0, _) => bare_rounds::<Graphs>(round, &cases, turns),
        (_, 2) => trial_rounds::<Pair>(&cases, turns),
        _ => bare_rounds::<Pair>(round, &cases, turns),
    }
}
