//! Two closure graphs as rows of bits, and the changes of an edge.

use super::refusals::ChangeRefusal;
use super::MODULES;

/// The modules right of each module and above each, a bit for each.
#[derive(Clone, Copy)]
pub struct Rows {
    pub right: [u64; MODULES],
    pub above: [u64; MODULES],
}

/// The members of a set, the least first.
pub fn members(set: u64) -> impl Iterator<Item = usize> {
    let mut rest = set;
    std::iter::from_fn(move || {
        if rest == 0 {
            return None;
        }
        let least = rest.trailing_zeros() as usize;
        rest &= rest - 1;
        Some(least)
    })
}

/// Whether a module is in a set.
fn has(set: u64, module: usize) -> bool {
    set >> module & 1 == 1
}

/// The modules with an edge to one.
fn predecessors(graph: &[u64], module: usize) -> u64 {
    let mut set = 0;
    for (i, &row) in graph.iter().enumerate() {
        set |= (row >> module & 1) << i;
    }
    set
}

/// That a and b are two modules of the plan, or why not.
pub fn two_modules(size: usize, a: usize, b: usize) -> Result<(), ChangeRefusal> {
    if a >= size || b >= size {
        return Err(ChangeRefusal::NoModule);
    }
    if a == b {
        return Err(ChangeRefusal::SameModule);
    }
    Ok(())
}

/// A set with a and b exchanged.
fn exchange(set: u64, a: usize, b: usize) -> u64 {
    let differs = (set >> a ^ set >> b) & 1;
    set ^ (differs << a | differs << b)
}

impl Rows {
    /// Graphs without edges.
    pub fn new() -> Rows {
        Rows {
            right: [0; MODULES],
            above: [0; MODULES],
        }
    }

    /// 1 for an edge to the right, 2 for one up, 0 for none.
    pub fn code(&self, i: usize, j: usize) -> u8 {
        if has(self.right[i], j) {
            1
        } else if has(self.above[i], j) {
            2
        } else {
            0
        }
    }

    /// The modules to which one has an edge of either graph.
    pub fn both(&self, module: usize) -> u64 {
        self.right[module] | self.above[module]
    }

    /// How many these are.
    pub fn after(&self, module: usize) -> usize {
        self.both(module).count_ones() as usize
    }

    /// Lets two modules change places.
    pub fn swap(&mut self, size: usize, a: usize, b: usize) {
        for graph in [&mut self.right, &mut self.above] {
            graph.swap(a, b);
            for row in &mut graph[..size] {
                *row = exchange(*row, a, b);
            }
        }
    }

    /// The graph of a reduction edge and the other graph, or why (a, b) is none.
    fn facing(
        &mut self,
        size: usize,
        a: usize,
        b: usize,
    ) -> Result<(&mut [u64], &mut [u64]), ChangeRefusal> {
        two_modules(size, a, b)?;
        let (own, other) = match self.code(a, b) {
            1 => (&mut self.right[..size], &mut self.above[..size]),
            2 => (&mut self.above[..size], &mut self.right[..size]),
            _ => return Err(ChangeRefusal::NoEdge),
        };
        if members(own[a]).any(|k| has(own[k], b)) {
            return Err(ChangeRefusal::NoReductionEdge);
        }
        Ok((own, other))
    }

    /// Turns a reduction edge round, with what that closes.
    pub fn reverse(&mut self, size: usize, a: usize, b: usize) -> Result<(), ChangeRefusal> {
        let (own, other) = self.facing(size, a, b)?;
        own[a] &= !(1 << b);
        let from = predecessors(own, b) | 1 << b;
        let to = own[a] | 1 << a;
        for k in members(from) {
            own[k] |= to;
            other[k] &= !to;
        }
        for l in members(to) {
            other[l] &= !from;
        }
        Ok(())
    }

    /// Moves a reduction edge to the other graph, with what that closes there.
    pub fn move_edge(&mut self, size: usize, a: usize, b: usize) -> Result<(), ChangeRefusal> {
        let (own, other) = self.facing(size, a, b)?;
        let from = predecessors(other, a) | 1 << a;
        let to = other[b] | 1 << b;
        for k in members(from) {
            other[k] |= to;
            own[k] &= !to;
        }
        Ok(())
    }
}
