//! A change as a journal has it.

use crate::bounds::Bounds;

/// A change as it is recorded, without what is lent for it. One with a note or a report has the entry of the one
/// without.
#[derive(Clone, Debug, PartialEq, Eq)]
pub enum Entry {
    Load { rule: u32, cage: Vec<u8> },
    Refine { triangle: u32 },
    WholeStep,
    List { list: Vec<u32> },
    Box { bounds: Bounds, below: u32 },
    SetLock { triangle: u32, on: bool },
    TakeBack { note: Vec<u32> },
}

impl Entry {
    /// The numbers that a replay has to read into a table for it.
    pub fn numbers(&self) -> usize {
        match self {
            Entry::List { list: numbers } | Entry::TakeBack { note: numbers } => numbers.len(),
            _ => 0,
        }
    }
}
