//! Running a script at a plan of the plain program, call by call.

use crate::bytes::Bytes;
use crate::plain::{
    ChangeRefusal, Chip, Floorplan, Graphs, LoadRefusal, PackRefusal, Pair, Placed, Plan, Sides,
    MODULES,
};
use std::collections::BTreeMap;

/// One more than there can be modules, so that lists can be too long and questions be asked of no module.
const ROOM: usize = MODULES + 1;

/// A plan under a script, with what its packings are given and what it answered.
struct Desk<F> {
    plan: Plan<F>,
    sides: Vec<Sides>,
    results: [Placed; ROOM],
    answers: Vec<u64>,
}

/// As `surymoa_answers`; there is no layer here.
pub fn answers(kind: u8, script: &[u8]) -> Vec<u64> {
    match kind {
        1 => run::<Pair>(script),
        _ => run::<Graphs>(script),
    }
}

/// How many calls a script has; adds each number that they are answered, and how often, to those that were met.
pub fn count(script: &[u8], met: &mut BTreeMap<u64, usize>) -> usize {
    let mut desk = Desk::<Graphs>::new();
    let mut bytes = Bytes(script);
    let mut calls = 0;
    loop {
        let is_call = !matches!(bytes.0.first(), Some(7 | 11));
        let answered = desk.answers.len();
        if desk.perform(&mut bytes).is_none() {
            return calls;
        }
        calls += 1;
        if is_call {
            *met.entry(desk.answers[answered]).or_default() += 1;
        }
    }
}

/// The answers of a script at a fresh plan over a floorplan.
fn run<F: Floorplan>(script: &[u8]) -> Vec<u64> {
    let mut desk = Desk::<F>::new();
    let mut bytes = Bytes(script);
    while desk.perform(&mut bytes).is_some() {}
    desk.answers
}

impl<F: Floorplan> Desk<F> {
    /// A fresh plan, with no sides and no answers.
    fn new() -> Desk<F> {
        Desk {
            plan: Plan::new(),
            sides: Vec::new(),
            results: [Placed::default(); ROOM],
            answers: Vec::new(),
        }
    }

    /// Reads the next call and makes it; none at the end.
    fn perform(&mut self, bytes: &mut Bytes<'_>) -> Option<()> {
        match bytes.byte()? {
            0 => {
                let (size, codes) = (bytes.count()?, bytes.long_count()?);
                let (codes, sequence) = (bytes.several(codes)?, bytes.sequence(size)?);
                let answer = self.plan.load(codes, &sequence);
                self.put(answer.map_or_else(LoadRefusal::told, |()| [0; 3]));
            }
            word @ 1..=4 => {
                let answer = self.plan.change(bytes.change(word)?);
                self.put(answer.map_or_else(ChangeRefusal::told, |()| [0; 3]));
            }
            5 => {
                let is_done = self.plan.keep();
                self.put([if is_done { 0 } else { 30 }, 0, 0]);
            }
            6 => {
                let is_done = self.plan.undo();
                self.put([if is_done { 0 } else { 30 }, 0, 0]);
            }
            7 => {
                let count = bytes.count()?;
                self.sides = bytes.sides(count)?;
            }
            word @ 8..=10 => self.pack(bytes, word)?,
            11 => self.show(),
            _ => return None,
        }
        Some(())
    }

    /// Writes words after those that are there.
    fn put<const N: usize>(&mut self, words: [u64; N]) {
        self.answers.extend(words);
    }

    /// Reads what the packing of a word is given, and makes it into so many places of the result list.
    fn pack(&mut self, bytes: &mut Bytes<'_>, word: u8) -> Option<()> {
        let places = bytes.count()?.min(ROOM);
        let (sides, results) = (&self.sides, &mut self.results[..places]);
        let answer = match word {
            8 => self.plan.pack(sides, results),
            9 => self.plan.pack_pinned(sides, results, bytes.pin()?),
            _ => self.plan.pack_with_rotation(sides, results, bytes.count()?),
        };
        self.put_packed(answer, places);
        Some(())
    }

    /// The answer of a packing and the result list.
    fn put_packed(&mut self, answer: Result<Chip, PackRefusal>, places: usize) {
        match answer {
            Ok(chip) => self.put([0, 0, 0, chip.width.into(), chip.height.into(), chip.area]),
            Err(refusal) => self.put(refusal.told()),
        }
        for place in 0..places {
            let placed = self.results[place];
            self.put([placed.left, placed.bottom, placed.right, placed.top].map(u64::from));
        }
    }

    /// Asks all questions, of one module and one place more than there can be too.
    fn show(&mut self) {
        let floorplan = *self.plan.floorplan();
        self.put([floorplan.modules() as u64, self.plan.is_on_trial().into()]);
        for i in 0..ROOM {
            for j in 0..ROOM {
                self.put([floorplan.code(i, j).into()]);
            }
            self.put([
                floorplan
                    .module_at(i)
                    .map_or(u64::MAX, |module| module as u64),
                self.plan.is_rotated(i).into(),
            ]);
        }
    }
}
