//! Packings: what is refused, the records and the chip.

use super::refusals::PackRefusal;
use super::Floorplan;

/// The longest side of a module.
const LONGEST_SIDE: u32 = 100_000;
/// The farthest that a pin lies across or up.
const FARTHEST: u32 = 3_600_000;

/// Width and height of a module before it is rotated.
#[derive(Clone, Copy)]
pub struct Sides {
    pub width: u32,
    pub height: u32,
}

/// The borders of a module that is placed.
#[derive(Clone, Copy, Default)]
pub struct Placed {
    pub left: u32,
    pub bottom: u32,
    pub right: u32,
    pub top: u32,
}

/// The least rectangle around all modules, from the origin.
pub struct Chip {
    pub width: u32,
    pub height: u32,
    pub area: u64,
}

/// Where one module has to stand: its left border and its bottom.
#[derive(Clone, Copy)]
pub struct Pin {
    pub module: usize,
    pub across: u32,
    pub up: u32,
}

impl Sides {
    /// The sides as they lie, changed for each other where the module is rotated.
    pub fn turned(self, is_rotated: bool) -> Sides {
        if is_rotated {
            Sides {
                width: self.height,
                height: self.width,
            }
        } else {
            self
        }
    }
}

impl Placed {
    /// The record of a module at its pin, or else where it is free to begin.
    pub fn at(pin: Option<Pin>, module: usize, free: (u32, u32), sides: Sides) -> Placed {
        let (left, bottom) = match pin {
            Some(pin) if pin.module == module => (pin.across, pin.up),
            _ => free,
        };
        Placed {
            left,
            bottom,
            right: left + sides.width,
            top: bottom + sides.height,
        }
    }
}

/// The chip of the modules that are placed.
fn chip_around(results: &[Placed]) -> Chip {
    let width = results.iter().map(|placed| placed.right).max().unwrap_or(0);
    let height = results.iter().map(|placed| placed.top).max().unwrap_or(0);
    Chip {
        width,
        height,
        area: u64::from(width) * u64::from(height),
    }
}

/// What is wrong with the sides and the room for records, before all else.
fn check(size: usize, sides: &[Sides], results: &[Placed]) -> Result<(), PackRefusal> {
    if sides.len() != size {
        return Err(PackRefusal::WrongSides);
    }
    if results.len() < size {
        return Err(PackRefusal::ShortResults);
    }
    let possible = 1..=LONGEST_SIDE;
    match sides
        .iter()
        .position(|it| !possible.contains(&it.width) || !possible.contains(&it.height))
    {
        Some(module) => Err(PackRefusal::WrongSide(module)),
        None => Ok(()),
    }
}

/// Packs to the left and down; results beyond the modules stay as they are.
pub fn pack<F: Floorplan>(
    plan: &F,
    rotated: u64,
    sides: &[Sides],
    results: &mut [Placed],
) -> Result<Chip, PackRefusal> {
    let size = plan.modules();
    check(size, sides, results)?;
    plan.place(rotated, sides, None, results);
    Ok(chip_around(&results[..size]))
}

/// The same with one module at its pin; where it is pushed past that, the records are those without a pin.
pub fn pack_pinned<F: Floorplan>(
    plan: &F,
    rotated: u64,
    sides: &[Sides],
    results: &mut [Placed],
    pin: Pin,
) -> Result<Chip, PackRefusal> {
    let size = plan.modules();
    check(size, sides, results)?;
    if pin.module >= size {
        return Err(PackRefusal::NoModule);
    }
    if pin.across > FARTHEST || pin.up > FARTHEST {
        return Err(PackRefusal::FarPin);
    }
    if !plan.place(rotated, sides, Some(pin), results) {
        plan.place(rotated, sides, None, results);
        return Err(PackRefusal::NoPlace);
    }
    Ok(chip_around(&results[..size]))
}

/// The same as if one module were rotated the other way.
pub fn pack_with_rotation<F: Floorplan>(
    plan: &F,
    rotated: u64,
    sides: &[Sides],
    results: &mut [Placed],
    module: usize,
) -> Result<Chip, PackRefusal> {
    check(plan.modules(), sides, results)?;
    if module >= plan.modules() {
        return Err(PackRefusal::NoModule);
    }
    pack(plan, rotated ^ 1 << module, sides, results)
}
