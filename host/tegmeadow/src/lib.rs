//! A verified reader of MySQL binlog version 4 files (row logging, server
//! 5.6.1 or later).
//!
//! A [`Log`] is bytes that are lent; nothing is copied. The questions are
//! answered by a static library that is proved, for every input, to meet its
//! contract; this crate is a safe, thin layer over it.
//!
//! ```
//! use tegmeadow::{Cell, Log, Refusal, Value};
//!
//! /// Counts the rows that an integer first column puts below zero.
//! fn below_zero(bytes: &[u8]) -> Result<usize, Refusal> {
//!     let mut count = 0;
//!     for change in Log::new(bytes).changes()? {
//!         let Some(after) = change.after() else { continue };
//!         if let Some(Cell::Stored(_, Value::Integer(i64::MIN..=-1))) = after.cell(0) {
//!             count += 1;
//!         }
//!     }
//!     Ok(count)
//! }
//!
//! let refused = below_zero(b"\xfebinlog of something else").unwrap_err();
//! assert_eq!(refused.to_string(), "refused 3 at 4: nothing follows the first four bytes, \
//!     or the first event isn't a description");
//! ```
//!
//! [`Log::changes`] is the linear way through a whole log: it walks the log
//! once. [`Log::change`], [`Log::value`] and the questions beside them ask for
//! one thing and walk the log anew each time.

mod cell;
mod changes;
mod ffi;
mod log;
mod refusal;

pub use cell::{Cell, ColumnType, Date, Datetime, Time, Timestamp, Value};
pub use changes::{Cells, Change, Changes, Image, Kind};
pub use log::{ChangeInfo, Counts, Entry, Listing, ListingError, Log, Side};
pub use refusal::Refusal;
