//! A plan: changes on trial, undone by a copy.

use super::pack::{pack, pack_pinned, pack_with_rotation, Chip, Pin, Placed, Sides};
use super::refusals::{ChangeRefusal, LoadRefusal, PackRefusal};
use super::Floorplan;

/// A change by the module or the two modules that it names.
#[derive(Clone, Copy)]
pub enum Change {
    Rotate(usize),
    Swap(usize, usize),
    Reverse(usize, usize),
    MoveEdge(usize, usize),
}

/// What a change changes: the floorplan, and a bit for each rotated module.
#[derive(Clone, Copy)]
struct Current<F> {
    floorplan: F,
    rotated: u64,
}

/// A plan, with a copy of what was current before the change on trial.
pub struct Plan<F> {
    current: Current<F>,
    before: Option<Current<F>>,
}

impl<F: Floorplan> Plan<F> {
    /// The plan of no modules.
    pub fn new() -> Plan<F> {
        Plan {
            current: Current {
                floorplan: F::new(),
                rotated: 0,
            },
            before: None,
        }
    }

    /// The current floorplan, that of a trial too.
    pub fn floorplan(&self) -> &F {
        &self.current.floorplan
    }

    /// Whether a module is rotated; outside the plan none is.
    pub fn is_rotated(&self, module: usize) -> bool {
        module < self.floorplan().modules() && self.current.rotated >> module & 1 == 1
    }

    /// Whether a change waits for a keep or an undo.
    pub fn is_on_trial(&self) -> bool {
        self.before.is_some()
    }

    /// Takes another floorplan, none of it rotated; a refusal leaves the old one.
    pub fn load(&mut self, codes: &[u8], sequence: &[usize]) -> Result<(), LoadRefusal> {
        if self.is_on_trial() {
            return Err(LoadRefusal::TrialOpen);
        }
        self.current.floorplan.load(codes, sequence)?;
        self.current.rotated = 0;
        Ok(())
    }

    /// Makes a change on trial; a refusal leaves all as it is.
    pub fn change(&mut self, change: Change) -> Result<(), ChangeRefusal> {
        if self.is_on_trial() {
            return Err(ChangeRefusal::TrialOpen);
        }
        let before = self.current;
        let floorplan = &mut self.current.floorplan;
        match change {
            Change::Rotate(module) if module >= floorplan.modules() => {
                return Err(ChangeRefusal::NoModule);
            }
            Change::Rotate(module) => self.current.rotated ^= 1 << module,
            Change::Swap(a, b) => floorplan.swap(a, b)?,
            Change::Reverse(a, b) => floorplan.reverse(a, b)?,
            Change::MoveEdge(a, b) => floorplan.move_edge(a, b)?,
        }
        self.before = Some(before);
        Ok(())
    }

    /// Whether there was a trial to keep.
    pub fn keep(&mut self) -> bool {
        self.before.take().is_some()
    }

    /// Whether there was a trial to undo.
    pub fn undo(&mut self) -> bool {
        match self.before.take() {
            Some(before) => {
                self.current = before;
                true
            }
            None => false,
        }
    }

    /// A packing of the current floorplan.
    pub fn pack(&self, sides: &[Sides], results: &mut [Placed]) -> Result<Chip, PackRefusal> {
        pack(self.floorplan(), self.current.rotated, sides, results)
    }

    /// A packing with one module at its pin.
    pub fn pack_pinned(
        &self,
        sides: &[Sides],
        results: &mut [Placed],
        pin: Pin,
    ) -> Result<Chip, PackRefusal> {
        pack_pinned(self.floorplan(), self.current.rotated, sides, results, pin)
    }

    /// A packing as if one module were rotated the other way.
    pub fn pack_with_rotation(
        &self,
        sides: &[Sides],
        results: &mut [Placed],
        module: usize,
    ) -> Result<Chip, PackRefusal> {
        pack_with_rotation(
            self.floorplan(),
            self.current.rotated,
            sides,
            results,
            module,
        )
    }
}
