//! The readers behind one set of questions and answers.

mod second;
mod verified;

use logs::{Cell, Counts, Head, Part, Refusal, Truth};

pub use second::Second;
pub use verified::Verified;

/// The four questions of 01, and the linear way through a log.
pub trait Reader {
    fn name(&self) -> &'static str;
    fn check(&self, log: &[u8]) -> Result<Counts, Refusal>;
    fn list(&self, log: &[u8], out: &mut [u32]) -> Result<Counts, Refusal>;
    fn change(&self, log: &[u8], k: usize) -> Result<Head, Refusal>;
    /// `None` where the reader has no way to ask for such a side.
    fn value(
        &self,
        log: &[u8],
        k: usize,
        side: usize,
        column: usize,
    ) -> Option<Result<Cell, Refusal>>;
    /// Everything, by one walk.
    fn all(&self, log: &[u8]) -> Result<Truth, Refusal>;
    /// Questions that only this reader has; a difference in words.
    fn own(&self, _log: &[u8], _truth: &Result<Truth, Refusal>) -> Result<(), String> {
        Ok(())
    }
}

/// Both readers.
pub fn readers() -> [&'static dyn Reader; 2] {
    [&Second, &Verified]
}

/// A part of the log by its bytes and its place. A slice that isn't of the
/// log has a place far off, which no expected part has.
fn part(log: &[u8], slice: &[u8]) -> Part {
    let place = (slice.as_ptr() as usize).wrapping_sub(log.as_ptr() as usize);
    Part {
        place,
        bytes: slice.to_vec(),
    }
}
