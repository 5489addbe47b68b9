//! Two closure graphs with their sequence.

use super::loading::tested_rows;
use super::pack::{Pin, Placed, Sides};
use super::refusals::{ChangeRefusal, LoadRefusal};
use super::rows::{members, two_modules, Rows};
use super::{Floorplan, MODULES};

/// The rows of both graphs, and the packing sequence.
#[derive(Clone, Copy)]
pub struct Graphs {
    size: usize,
    rows: Rows,
    sequence: [u8; MODULES],
}

impl Floorplan for Graphs {
    fn new() -> Graphs {
        Graphs {
            size: 0,
            rows: Rows::new(),
            sequence: [0; MODULES],
        }
    }

    fn modules(&self) -> usize {
        self.size
    }

    fn code(&self, i: usize, j: usize) -> u8 {
        if i < self.size && j < self.size {
            self.rows.code(i, j)
        } else {
            0
        }
    }

    fn module_at(&self, place: usize) -> Option<usize> {
        self.sequence[..self.size]
            .get(place)
            .map(|&module| module.into())
    }

    fn load(&mut self, codes: &[u8], sequence: &[usize]) -> Result<(), LoadRefusal> {
        self.rows = tested_rows(codes, sequence)?;
        self.size = sequence.len();
        for (place, &module) in self.sequence.iter_mut().zip(sequence) {
            *place = module as u8;
        }
        Ok(())
    }

    fn swap(&mut self, a: usize, b: usize) -> Result<(), ChangeRefusal> {
        two_modules(self.size, a, b)?;
        self.rows.swap(self.size, a, b);
        for module in &mut self.sequence[..self.size] {
            if usize::from(*module) == a {
                *module = b as u8;
            } else if usize::from(*module) == b {
                *module = a as u8;
            }
        }
        Ok(())
    }

    fn reverse(&mut self, a: usize, b: usize) -> Result<(), ChangeRefusal> {
        self.rows.reverse(self.size, a, b)?;
        for module in 0..self.size {
            self.sequence[self.size - 1 - self.rows.after(module)] = module as u8;
        }
        Ok(())
    }

    fn move_edge(&mut self, a: usize, b: usize) -> Result<(), ChangeRefusal> {
        self.rows.move_edge(self.size, a, b)
    }

    fn place(
        &self,
        rotated: u64,
        sides: &[Sides],
        pin: Option<Pin>,
        results: &mut [Placed],
    ) -> bool {
        let mut free = [(0, 0); MODULES];
        let mut fits = true;
        for &module in &self.sequence[..self.size] {
            let i = usize::from(module);
            let placed = Placed::at(pin, i, free[i], sides[i].turned(rotated >> i & 1 == 1));
            fits &= free[i].0 <= placed.left && free[i].1 <= placed.bottom;
            for j in members(self.rows.right[i]) {
                free[j].0 = free[j].0.max(placed.right);
            }
            for j in members(self.rows.above[i]) {
                free[j].1 = free[j].1.max(placed.top);
            }
            results[i] = placed;
        }
        fits
    }
}
