//! What is refused, each case with its number and what it tells.

/// Of a load.
#[derive(Clone, Copy)]
pub enum LoadRefusal {
    WrongShape,
    WrongCode(usize, usize),
    SelfRelated(usize, usize),
    NotOneEdge(usize, usize),
    NotClosed(usize, usize),
    WrongPlace(usize),
    Backwards(usize, usize),
    TrialOpen,
}

/// Of a change.
#[derive(Clone, Copy)]
pub enum ChangeRefusal {
    TrialOpen,
    NoModule,
    SameModule,
    NoEdge,
    NoReductionEdge,
}

/// Of a packing.
#[derive(Clone, Copy)]
pub enum PackRefusal {
    WrongSides,
    ShortResults,
    WrongSide(usize),
    NoModule,
    FarPin,
    NoPlace,
}

impl LoadRefusal {
    /// The number, and the two values that go with it, zero where there is none.
    pub fn told(self) -> [u64; 3] {
        let (number, a, b) = match self {
            LoadRefusal::WrongShape => (10, 0, 0),
            LoadRefusal::WrongCode(i, j) => (11, i, j),
            LoadRefusal::SelfRelated(i, j) => (12, i, j),
            LoadRefusal::NotOneEdge(i, j) => (13, i, j),
            LoadRefusal::NotClosed(i, k) => (14, i, k),
            LoadRefusal::WrongPlace(place) => (15, place, 0),
            LoadRefusal::Backwards(i, j) => (16, i, j),
            LoadRefusal::TrialOpen => (20, 0, 0),
        };
        [number, a as u64, b as u64]
    }
}

impl ChangeRefusal {
    /// The number, with zeros for the values.
    pub fn told(self) -> [u64; 3] {
        let number = match self {
            ChangeRefusal::TrialOpen => 20,
            ChangeRefusal::NoModule => 21,
            ChangeRefusal::SameModule => 22,
            ChangeRefusal::NoEdge => 23,
            ChangeRefusal::NoReductionEdge => 24,
        };
        [number, 0, 0]
    }
}

impl PackRefusal {
    /// The number, and the module that goes with it, zero where there is none.
    pub fn told(self) -> [u64; 3] {
        let (number, module) = match self {
            PackRefusal::WrongSides => (40, 0),
            PackRefusal::ShortResults => (41, 0),
            PackRefusal::WrongSide(module) => (42, module),
            PackRefusal::NoModule => (43, 0),
            PackRefusal::FarPin => (44, 0),
            PackRefusal::NoPlace => (45, 0),
        };
        [number, module as u64, 0]
    }
}
