//! Reading the bytes of a task one after another.

use crate::plain::{Change, Pin, Sides};

/// What is still to be read.
pub struct Bytes<'a>(pub &'a [u8]);

impl<'a> Bytes<'a> {
    /// The next bytes, as many as are asked for.
    pub fn several(&mut self, count: usize) -> Option<&'a [u8]> {
        let (several, rest) = self.0.split_at_checked(count)?;
        self.0 = rest;
        Some(several)
    }

    /// The next byte.
    pub fn byte(&mut self) -> Option<u8> {
        let (&byte, rest) = self.0.split_first()?;
        self.0 = rest;
        Some(byte)
    }

    /// The number of a module, or how many there are of something: one byte.
    pub fn count(&mut self) -> Option<usize> {
        self.byte().map(usize::from)
    }

    /// How many codes there are: two bytes, the lowest first.
    pub fn long_count(&mut self) -> Option<usize> {
        let (&two, rest) = self.0.split_first_chunk()?;
        self.0 = rest;
        Some(u16::from_le_bytes(two).into())
    }

    /// A length: four bytes, the lowest first.
    pub fn length(&mut self) -> Option<u32> {
        let (&four, rest) = self.0.split_first_chunk()?;
        self.0 = rest;
        Some(u32::from_le_bytes(four))
    }

    /// The modules of a sequence, a byte each.
    pub fn sequence(&mut self, count: usize) -> Option<Vec<usize>> {
        Some(
            self.several(count)?
                .iter()
                .map(|&module| module.into())
                .collect(),
        )
    }

    /// Width and height of so many modules.
    pub fn sides(&mut self, count: usize) -> Option<Vec<Sides>> {
        (0..count)
            .map(|_| {
                Some(Sides {
                    width: self.length()?,
                    height: self.length()?,
                })
            })
            .collect()
    }

    /// A module, and where its pin stands.
    pub fn pin(&mut self) -> Option<Pin> {
        Some(Pin {
            module: self.count()?,
            across: self.length()?,
            up: self.length()?,
        })
    }

    /// A change as its word and one or two modules.
    pub fn change(&mut self, word: u8) -> Option<Change> {
        let a = self.count()?;
        if word == 1 {
            return Some(Change::Rotate(a));
        }
        let b = self.count()?;
        match word {
            2 => Some(Change::Swap(a, b)),
            3 => Some(Change::Reverse(a, b)),
            4 => Some(Change::MoveEdge(a, b)),
            _ => None,
        }
    }
}
