//! Tasks as bytes, made at random.

mod cases;
mod scripts;
mod wrong_loads;

pub use cases::{cases, CASES, CHANGES};
pub use scripts::script;
