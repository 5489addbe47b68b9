//! Scripts of calls of a plan.

use super::wrong_loads::wrong_load;
use crate::plain::{Floorplan, Graphs, MODULES};
use crate::random::{Given, Random};

/// A script of so many calls at plans of so many modules, told by its number. A model of the floorplan goes along, so that
/// it knows which edges there are.
pub fn script(number: u64, size: usize, calls: usize) -> Vec<u8> {
    let random = Random::new(number);
    let mut script = Script {
        bytes: Vec::new(),
        random,
        size,
        model: Graphs::new(),
    };
    script.load();
    script.sides();
    for _ in 0..calls {
        script.call();
    }
    script.bytes.extend([6, 11]);
    script.bytes
}

/// A script that is being made.
struct Script {
    bytes: Vec<u8>,
    random: Random,
    size: usize,
    model: Graphs,
}

impl Script {
    fn call(&mut self) {
        match self.random.below(32) {
            0 => self.load(),
            1..=3 => self.wrong_load(),
            4..=12 => self.trial(),
            13 | 14 => self.any_change(),
            15 => self.bytes.push(5),
            16 => self.bytes.push(6),
            17 => self.sides(),
            18 => self.wrong_sides(),
            19..=21 => self.pack(),
            22..=26 => self.pack_pinned(),
            27 | 28 => self.pack_with_rotation(),
            29 => self.bytes.push(11),
            _ => self.too_many(),
        }
    }

    fn load(&mut self) {
        let given = Given::random(&mut self.random, self.size);
        self.push_load(&given);
    }

    fn wrong_load(&mut self) {
        let given = wrong_load(&mut self.random, self.size);
        self.push_load(&given);
    }

    /// A load, after an undo, which is refused where there is no trial.
    fn push_load(&mut self, given: &Given) {
        if self.random.below(8) != 0 {
            self.bytes.push(6);
        }
        let _ = self.model.load(&given.codes, &given.sequence);
        push_load(&mut self.bytes, given);
    }

    /// A load of a floorplan of one module too many, with which nothing else is wrong.
    fn too_many(&mut self) {
        if self.random.below(20) == 0 {
            let given = Given::random(&mut self.random, MODULES + 1);
            push_load(&mut self.bytes, &given);
        }
    }

    /// A change that is mostly accepted, a packing, and mostly an end.
    fn trial(&mut self) {
        let word = 3 + self.random.below(2) as u8;
        if let Some((a, b)) = self.some_edge() {
            self.bytes.extend([word, a as u8, b as u8]);
            self.pack();
            let end = 5 + self.random.below(3) as u8;
            if end == 5 {
                let _ = match word {
                    3 => self.model.reverse(a, b),
                    _ => self.model.move_edge(a, b),
                };
            }
            if end < 7 {
                self.bytes.push(end);
            }
        }
    }

    /// An edge of the model, by chance one between neighbours in the sequence, which is a reduction edge.
    fn some_edge(&mut self) -> Option<(usize, usize)> {
        if self.size < 2 {
            return None;
        }
        let place = self.random.below(self.size - 1);
        let reach = 1 + self.random.below(2) * self.random.below(self.size - place - 1).min(3);
        let (a, b) = (
            self.model.module_at(place)?,
            self.model.module_at(place + reach)?,
        );
        Some((a, b))
    }

    /// Any change of any modules.
    fn any_change(&mut self) {
        let below = self.size + 2;
        let (a, b) = (
            self.random.below(below) as u8,
            self.random.below(below) as u8,
        );
        match 1 + self.random.below(4) as u8 {
            1 => self.bytes.extend([1, a]),
            word => self.bytes.extend([word, a, b]),
        }
    }

    fn sides(&mut self) {
        self.bytes.extend([7, self.size as u8]);
        push_sides(&mut self.bytes, &mut self.random, self.size);
    }

    /// One side too many or too few, or one that is too long or nothing.
    fn wrong_sides(&mut self) {
        let count = (self.size + self.random.below(3)).saturating_sub(1);
        self.bytes.extend([7, count as u8]);
        push_sides(&mut self.bytes, &mut self.random, count);
        if count > 0 {
            let wrong = [0u32, 100_000, 100_001][self.random.below(3)];
            let at = self.bytes.len() - 4 * (1 + self.random.below(2 * count));
            self.bytes[at..at + 4].copy_from_slice(&wrong.to_le_bytes());
        }
        self.pack();
        self.pack_pinned();
        self.sides();
    }

    /// How many places the result list has: mostly enough.
    fn places(&mut self) -> u8 {
        let fewer = usize::from(self.random.below(16) == 0);
        (self.size + self.random.below(2)).saturating_sub(fewer) as u8
    }

    fn pack(&mut self) {
        let places = self.places();
        self.bytes.extend([8, places]);
    }

    fn pack_pinned(&mut self) {
        let places = self.places();
        let module = self.random.below(self.size + 1) as u8;
        self.bytes.extend([9, places, module]);
        for _ in 0..2 {
            let limit = [100_000, 1_000_000, 3_600_001, 3_610_000][self.random.below(4)];
            let at = [self.random.below(limit), limit][usize::from(self.random.below(8) == 0)];
            self.bytes.extend((at as u32).to_le_bytes());
        }
    }

    fn pack_with_rotation(&mut self) {
        let places = self.places();
        let module = self.random.below(self.size + 1) as u8;
        self.bytes.extend([10, places, module]);
    }
}

fn push_load(bytes: &mut Vec<u8>, given: &Given) {
    bytes.extend([0, given.sequence.len() as u8]);
    bytes.extend((given.codes.len() as u16).to_le_bytes());
    bytes.extend(&given.codes);
    bytes.extend(given.sequence.iter().map(|&module| module as u8));
}

/// Width and height of so many modules.
pub fn push_sides(bytes: &mut Vec<u8>, random: &mut Random, count: usize) {
    for _ in 0..2 * count {
        bytes.extend((1 + random.below(100_000) as u32).to_le_bytes());
    }
}
