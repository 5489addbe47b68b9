//! The same floorplanner in plain Rust: what a programmer writes who proves nothing.

mod graphs;
mod loading;
mod pack;
mod pair;
mod plan;
mod refusals;
mod rows;

pub use graphs::Graphs;
pub use pack::{pack, Chip, Pin, Placed, Sides};
pub use pair::Pair;
pub use plan::{Change, Plan};
pub use refusals::{ChangeRefusal, LoadRefusal, PackRefusal};

/// The most modules that a floorplan has: a set of them is one word of 64 bits.
pub const MODULES: usize = 64;

/// What stands for one feasible floorplan.
pub trait Floorplan: Copy {
    /// The floorplan of no modules.
    fn new() -> Self;
    /// How many modules there are.
    fn modules(&self) -> usize;
    /// 1 where j is right of i, 2 where it is above, 0 where there is no edge, and outside the plan.
    fn code(&self, i: usize, j: usize) -> u8;
    /// The module at a place of the packing sequence.
    fn module_at(&self, place: usize) -> Option<usize>;
    /// Takes another floorplan; a refusal leaves the old one.
    fn load(&mut self, codes: &[u8], sequence: &[usize]) -> Result<(), LoadRefusal>;
    /// Lets two modules change places.
    fn swap(&mut self, a: usize, b: usize) -> Result<(), ChangeRefusal>;
    /// Turns a reduction edge round, with what that closes.
    fn reverse(&mut self, a: usize, b: usize) -> Result<(), ChangeRefusal>;
    /// Moves a reduction edge to the other graph, with what that closes there.
    fn move_edge(&mut self, a: usize, b: usize) -> Result<(), ChangeRefusal>;

    /// Writes a record of each module; whether none is pushed past its pin.
    fn place(
        &self,
        rotated: u64,
        sides: &[Sides],
        pin: Option<Pin>,
        results: &mut [Placed],
    ) -> bool;
}
