//! Test logs made from a seed, with what they hold known by construction.
//!
//! A log is made as a tree and then printed by the layouts of the scope paper
//! (01); nothing here reads a log. So what a test log holds, where each part
//! stands and what a damaged one must be refused for is known before any
//! reader has seen it.
#![forbid(unsafe_code)]

mod bytes;
mod crc;
mod damage;
mod longer;
mod print;
mod rng;
mod tree;
mod truth;
mod valid;
mod values;

pub use bytes::{changed_bytes, cuts, repaired, touched, Cut};
pub use damage::{damage, unmarked, Damaged};
pub use longer::{longer, Longer};
pub use print::{made, Made};
pub use rng::Rng;
pub use tree::{
    Bits, Body, Cell, Column, Description, Event, Form, Image, Log, Map, Part, Rows, Value, READ,
};
pub use truth::{Change, Counts, Head, Refusal, Truth};
pub use valid::{valid, Shape, STEPPED};
pub use values::KINDS;
