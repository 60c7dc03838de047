//! What a log must answer.

use crate::tree::{Cell, Part};

#[derive(Clone, Copy, Debug, PartialEq, Eq)]
pub struct Counts {
    pub events: usize,
    pub changes: usize,
}

#[derive(Clone, Copy, Debug, PartialEq, Eq)]
pub struct Refusal {
    pub number: u32,
    pub place: usize,
}

/// What a change is.
#[derive(Clone, Debug, PartialEq, Eq)]
pub struct Head {
    /// Event type, event, table map, before image or 0, after image or 0.
    pub listing: [u32; 5],
    pub table_id: u64,
    pub columns: usize,
    pub database: Part,
    pub table: Part,
}

/// A row change with everything that can be asked of it.
#[derive(Clone, Debug, PartialEq, Eq)]
pub struct Change {
    pub head: Head,
    /// The cells of each side that the change has: before, after.
    pub sides: [Option<Vec<Cell>>; 2],
}

/// What an accepted log holds.
#[derive(Clone, Debug, PartialEq, Eq)]
pub struct Truth {
    pub counts: Counts,
    pub changes: Vec<Change>,
}
