//! Refusals, with the scope paper's meaning of each number.

use std::error::Error;
use std::fmt;

/// Why an answer is refused, and where: the first fault of the log, or 19 or
/// 20 where the question is at fault.
#[derive(Clone, Copy, Debug, PartialEq, Eq, Hash)]
pub struct Refusal {
    /// The refusal's number, 1 to 20.
    pub number: u32,
    /// Its place, counted from the log's first byte.
    pub place: usize,
}

/// What each refusal says, from number 1 (01, Refusal numbers).
const MEANINGS: [&str; 20] = [
    "log longer than 1,073,741,824 bytes",
    "not a binlog: the first four bytes aren't fe 62 69 6e, or are missing",
    "nothing follows the first four bytes, or the first event isn't a description",
    "event cut short by the log's end",
    "event length below header plus checksum",
    "description malformed",
    "server version unreadable or below 5.6.1",
    "checksum wrong",
    "next position isn't event place plus length",
    "a second description",
    "event type not supported",
    "table map malformed",
    "column type or its metadata not supported",
    "a 17th live table id",
    "rows event without a live map",
    "rows event head malformed",
    "a row image runs past the rows",
    "stored value not allowed",
    "no such change, side or column",
    "listing buffer shorter than five times the changes",
];

impl Refusal {
    /// What the number says, in words.
    pub fn meaning(&self) -> &'static str {
        let index = (self.number as usize).wrapping_sub(1);
        MEANINGS.get(index).copied().unwrap_or("unknown refusal")
    }
}

impl fmt::Display for Refusal {
    fn fmt(&self, f: &mut fmt::Formatter<'_>) -> fmt::Result {
        write!(
            f,
            "refused {} at {}: {}",
            self.number,
            self.place,
            self.meaning()
        )
    }
}

impl Error for Refusal {}
