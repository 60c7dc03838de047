//! The readers against each other and against what is known of a log. A made
//! log comes from a seed, which a failure names. TEGMEADOW_ROUNDS=N makes
//! every run over seeds N times as long.

mod longer;
mod random;
mod real;
mod sweeps;

use crate::ask::{Asker, Known};
use logs::{valid, Made, Shape};

/// How many times a thing that is done `count` times is done now.
fn rounds(count: u64) -> u64 {
    let factor = std::env::var("TEGMEADOW_ROUNDS")
        .ok()
        .and_then(|it| it.parse().ok());
    count * factor.unwrap_or(1)
}

/// Asks both readers everything, and fails with `what` if one is wrong.
fn ask(asker: &mut Asker, what: &dyn Fn() -> String, log: &[u8], known: Option<&Known>) -> Known {
    asker
        .compare(log, known)
        .unwrap_or_else(|why| panic!("{}: {why}", what()))
}

/// Bytes walked by single questions, for made logs: all values of most.
const WALKED: usize = 4_000_000;

/// For the many neighbours of one log.
const WALKED_BRIEFLY: usize = 20_000;

/// Logs of every shape: `each` gets the seed and the log.
fn every_shape(count: u64, first: u64, mut each: impl FnMut(u64, &Made)) {
    let shapes = Shape::ALL.len() as u64;
    for seed in first * shapes..(first + rounds(count)) * shapes {
        each(seed, &valid(seed, Shape::ALL[(seed % shapes) as usize]));
    }
}
