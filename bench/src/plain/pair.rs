//! A sequence pair: two orders of the same modules.

use super::loading::tested_rows;
use super::pack::{Pin, Placed, Sides};
use super::refusals::{ChangeRefusal, LoadRefusal};
use super::rows::{members, two_modules, Rows};
use super::{Floorplan, MODULES};

/// Modules in their order, with the place of each.
#[derive(Clone, Copy)]
struct Order {
    modules: [u8; MODULES],
    places: [u8; MODULES],
}

impl Order {
    /// Gives a place to a module.
    fn put(&mut self, place: usize, module: usize) {
        self.modules[place] = module as u8;
        self.places[module] = place as u8;
    }

    /// Lets two modules change places.
    fn swap(&mut self, a: usize, b: usize) {
        let (at, other) = (self.places[a].into(), self.places[b].into());
        self.put(at, b);
        self.put(other, a);
    }
}

/// The packing sequence and the other order.
#[derive(Clone, Copy)]
pub struct Pair {
    size: usize,
    packing: Order,
    other: Order,
}

impl Pair {
    /// The graphs: i is left of what stands after it in both orders, and below what stands after it in the packing
    /// sequence alone.
    fn rows(&self) -> Rows {
        let mut after_other = [0u64; MODULES];
        let mut met = 0u64;
        for &module in self.other.modules[..self.size].iter().rev() {
            after_other[usize::from(module)] = met;
            met |= 1 << module;
        }
        let mut rows = Rows::new();
        let mut met = 0u64;
        for &module in self.packing.modules[..self.size].iter().rev() {
            let i = usize::from(module);
            rows.right[i] = met & after_other[i];
            rows.above[i] = met & !after_other[i];
            met |= 1 << module;
        }
        rows
    }

    /// Both orders by counting: before a module stand those with an edge to it, and in the other order those left of it
    /// and those above it.
    fn count(&mut self, rows: &Rows) {
        let mut left = [0; MODULES];
        for &row in &rows.right[..self.size] {
            for j in members(row) {
                left[j] += 1;
            }
        }
        for (module, left) in left[..self.size].iter().enumerate() {
            self.packing.put(self.size - 1 - rows.after(module), module);
            let above = rows.above[module].count_ones() as usize;
            self.other.put(left + above, module);
        }
    }
}

impl Floorplan for Pair {
    fn new() -> Pair {
        let none = Order {
            modules: [0; MODULES],
            places: [0; MODULES],
        };
        Pair {
            size: 0,
            packing: none,
            other: none,
        }
    }

    fn modules(&self) -> usize {
        self.size
    }

    fn code(&self, i: usize, j: usize) -> u8 {
        let is_inside = i < self.size && j < self.size;
        if !is_inside || self.packing.places[i] >= self.packing.places[j] {
            0
        } else if self.other.places[i] < self.other.places[j] {
            1
        } else {
            2
        }
    }

    fn module_at(&self, place: usize) -> Option<usize> {
        self.packing.modules[..self.size]
            .get(place)
            .map(|&module| module.into())
    }

    fn load(&mut self, codes: &[u8], sequence: &[usize]) -> Result<(), LoadRefusal> {
        let rows = tested_rows(codes, sequence)?;
        self.size = sequence.len();
        self.count(&rows);
        Ok(())
    }

    fn swap(&mut self, a: usize, b: usize) -> Result<(), ChangeRefusal> {
        two_modules(self.size, a, b)?;
        self.packing.swap(a, b);
        self.other.swap(a, b);
        Ok(())
    }

    fn reverse(&mut self, a: usize, b: usize) -> Result<(), ChangeRefusal> {
        let mut rows = self.rows();
        rows.reverse(self.size, a, b)?;
        self.count(&rows);
        Ok(())
    }

    fn move_edge(&mut self, a: usize, b: usize) -> Result<(), ChangeRefusal> {
        let mut rows = self.rows();
        rows.move_edge(self.size, a, b)?;
        self.count(&rows);
        Ok(())
    }

    fn place(
        &self,
        rotated: u64,
        sides: &[Sides],
        pin: Option<Pin>,
        results: &mut [Placed],
    ) -> bool {
        let sequence = &self.packing.modules[..self.size];
        let mut far = [(0, 0); MODULES];
        let mut fits = true;
        for (place, &module) in sequence.iter().enumerate() {
            let i = usize::from(module);
            let at = self.other.places[i];
            let mut free = (0, 0);
            for &earlier in &sequence[..place] {
                let j = usize::from(earlier);
                if self.other.places[j] < at {
                    free.0 = free.0.max(far[j].0);
                } else {
                    free.1 = free.1.max(far[j].1);
                }
            }
            let placed = Placed::at(pin, i, free, sides[i].turned(rotated >> i & 1 == 1));
            fits &= free.0 <= placed.left && free.1 <= placed.bottom;
            far[i] = (placed.right, placed.top);
            results[i] = placed;
        }
        fits
    }
}
