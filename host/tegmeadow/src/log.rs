//! A log and the questions of it.

use crate::cell::{part, Cell};
use crate::changes::Changes;
use crate::ffi::{self, Answer, EntryNumbers, Walked};
use crate::refusal::Refusal;
use memory::zeros;
use std::fmt;
use std::ops::Range;

/// Bytes that are lent to be read as a log.
#[derive(Clone, Copy)]
pub struct Log<'a> {
    bytes: &'a [u8],
}

/// What an accepted log has.
#[derive(Clone, Copy, Debug, PartialEq, Eq, Hash)]
pub struct Counts {
    /// Events, the description among them.
    pub events: usize,
    /// Row changes.
    pub changes: usize,
}

/// The two images that a change can have.
#[derive(Clone, Copy, Debug, PartialEq, Eq, Hash)]
pub enum Side {
    Before = 0,
    After = 1,
}

/// The five numbers of a listing entry.
#[derive(Clone, Copy, Debug, PartialEq, Eq, Hash)]
pub struct Entry(pub [u32; 5]);

impl Entry {
    /// 30 write, 31 update, 32 delete.
    pub fn event_type(&self) -> u32 {
        self.0[0]
    }

    /// The place of the rows event.
    pub fn event(&self) -> usize {
        self.0[1] as usize
    }

    /// The place of its table map.
    pub fn map(&self) -> usize {
        self.0[2] as usize
    }

    /// The place of the before image.
    pub fn before(&self) -> Option<usize> {
        Some(self.0[3] as usize).filter(|place| *place != 0)
    }

    /// The place of the after image.
    pub fn after(&self) -> Option<usize> {
        Some(self.0[4] as usize).filter(|place| *place != 0)
    }
}

/// Which rows changed, in log order.
#[derive(Clone, Debug, PartialEq, Eq)]
pub struct Listing {
    numbers: Vec<u32>,
    counts: Counts,
}

impl Listing {
    /// How many events and changes the log has.
    pub fn counts(&self) -> Counts {
        self.counts
    }

    /// All numbers, five for each change.
    pub fn numbers(&self) -> &[u32] {
        &self.numbers
    }

    /// The entry of change `k`, counted from 0.
    pub fn entry(&self, k: usize) -> Option<Entry> {
        let numbers = self.numbers.get(k.checked_mul(5)?..)?;
        numbers.first_chunk().copied().map(Entry)
    }

    /// The entries, one for each change.
    pub fn entries(&self) -> impl ExactSizeIterator<Item = Entry> + '_ {
        // the chunks have five numbers each, so none is replaced by zeros
        let entry = |numbers: &[u32]| Entry(numbers.try_into().unwrap_or_default());
        self.numbers.chunks_exact(5).map(entry)
    }
}

/// Why there is no listing.
#[derive(Clone, Copy, Debug, PartialEq, Eq)]
pub enum ListingError {
    Refused(Refusal),
    /// There is no memory for the numbers of this many changes.
    NoMemory {
        changes: usize,
    },
}

impl fmt::Display for ListingError {
    fn fmt(&self, f: &mut fmt::Formatter<'_>) -> fmt::Result {
        match self {
            ListingError::Refused(refusal) => refusal.fmt(f),
            ListingError::NoMemory { changes } => {
                write!(f, "no memory for a listing of {changes} changes")
            }
        }
    }
}

impl std::error::Error for ListingError {}

impl From<Refusal> for ListingError {
    fn from(refusal: Refusal) -> Self {
        ListingError::Refused(refusal)
    }
}

/// What a change is.
#[derive(Clone, Copy, Debug, PartialEq, Eq)]
pub struct ChangeInfo {
    pub entry: Entry,
    pub table_id: u64,
    pub columns: usize,
}

/// Refusal 20: the listing buffer is too short.
const BUFFER_TOO_SHORT: u32 = 20;

impl<'a> Log<'a> {
    /// Any bytes may be handed in; nothing is read yet.
    pub const fn new(bytes: &'a [u8]) -> Log<'a> {
        Log { bytes }
    }

    /// The bytes that the log is.
    pub const fn bytes(&self) -> &'a [u8] {
        self.bytes
    }

    /// Is the log sound?
    pub fn check(&self) -> Result<Counts, Refusal> {
        counts(ffi::check(self.bytes))
    }

    /// Which rows changed? Five numbers for each change go into `out`; those
    /// past them stay as they were, and all where refused. A buffer of zeros
    /// is filled in one walk of the log, any other in two.
    pub fn list(&self, out: &mut [u32]) -> Result<Counts, Refusal> {
        counts(ffi::list(self.bytes, out))
    }

    /// The listing on the heap. Aborts where there is no memory for it;
    /// [`Log::try_listing`] answers that instead.
    pub fn listing(&self) -> Result<Listing, Refusal> {
        match self.try_listing() {
            Ok(listing) => Ok(listing),
            Err(ListingError::Refused(refusal)) => Err(refusal),
            Err(ListingError::NoMemory { changes }) => {
                let numbers = vec![0; changes.saturating_mul(5)];
                self.listing_in(numbers)
            }
        }
    }

    /// The listing on the heap, or why there is none.
    pub fn try_listing(&self) -> Result<Listing, ListingError> {
        // A walk is saved where a guess is large enough. A row of less than
        // four bytes is rare, and memory that is not written costs nothing.
        if let Some(numbers) = zeros(self.bytes.len() / 4 * 5) {
            match self.listing_in(numbers) {
                Err(Refusal {
                    number: BUFFER_TOO_SHORT,
                    ..
                }) => {}
                Err(refusal) => return Err(refusal.into()),
                Ok(listing) => return Ok(listing),
            }
        }
        let changes = self.check()?.changes;
        let numbers = zeros(changes.saturating_mul(5));
        let numbers = numbers.ok_or(ListingError::NoMemory { changes })?;
        Ok(self.listing_in(numbers)?)
    }

    fn listing_in(&self, mut numbers: Vec<u32>) -> Result<Listing, Refusal> {
        let counts = self.list(&mut numbers)?;
        numbers.truncate(counts.changes.saturating_mul(5));
        numbers.shrink_to_fit();
        Ok(Listing { numbers, counts })
    }

    /// Every change, in log order, by one walk.
    pub fn changes(&self) -> Result<Changes<'a>, Refusal> {
        let listing = self.listing()?;
        Ok(Changes::new(
            self.bytes,
            listing.counts,
            listing.numbers.into(),
        ))
    }

    /// Some changes of a listing of this log, by their numbers from 0; those
    /// that it has not are left out. A listing of another log is read as far
    /// as its entries can be read here.
    pub fn changes_in(&self, listing: &'a Listing, some: Range<usize>) -> Changes<'a> {
        let count = listing.numbers.len() / 5;
        let (start, end) = (some.start.min(count), some.end.min(count));
        let numbers = listing.numbers.get(5 * start..5 * end).unwrap_or_default();
        Changes::new(self.bytes, listing.counts, numbers.into())
    }

    /// Change `k`, counted from 0.
    pub fn change(&self, k: usize) -> Result<ChangeInfo, Refusal> {
        let (answer, entry, table) = ffi::change(self.bytes, k);
        accepted(answer)?;
        Ok(ChangeInfo {
            entry: Entry(entry),
            table_id: table.id,
            columns: table.columns,
        })
    }

    /// What a column of change `k` holds on a side.
    pub fn value(&self, k: usize, side: Side, column: usize) -> Result<Cell<'a>, Refusal> {
        let (answer, cell) = ffi::value(self.bytes, k, side as usize, column);
        accepted(answer)?;
        Ok(Cell::of(self.bytes, &cell))
    }

    /// The name of change `k`'s database; empty where refused.
    pub fn database_name(&self, k: usize) -> &'a [u8] {
        part(self.bytes, ffi::database_name(self.bytes, k))
    }

    /// The name of change `k`'s table; empty where refused.
    pub fn table_name(&self, k: usize) -> &'a [u8] {
        part(self.bytes, ffi::table_name(self.bytes, k))
    }

    /// The text or blob of a column of change `k`; empty where the value is
    /// refused, or is neither.
    pub fn text(&self, k: usize, side: Side, column: usize) -> &'a [u8] {
        part(self.bytes, ffi::text(self.bytes, k, side as usize, column))
    }
}

/// The questions at a listing entry: no walk, no checksum. At an entry of this
/// log's listing they answer as the questions above do; at any other five
/// numbers by what can be read there, or nothing.
impl<'a> Log<'a> {
    /// The change at an entry.
    pub fn change_at(&self, entry: &Entry) -> Option<ChangeInfo> {
        let table = ffi::change_at(self.bytes, &entry.0)?;
        Some(ChangeInfo {
            entry: *entry,
            table_id: table.id,
            columns: table.columns,
        })
    }

    /// What a column holds on a side.
    pub fn value_at(&self, entry: &Entry, side: Side, column: usize) -> Option<Cell<'a>> {
        let mut cell = [0; 8];
        let there = ffi::value_at(self.bytes, &entry.0, side as usize, column, &mut cell);
        there.then(|| Cell::of(self.bytes, &cell))
    }

    /// The database's name.
    pub fn database_name_at(&self, entry: &Entry) -> &'a [u8] {
        part(self.bytes, ffi::database_name_at(self.bytes, &entry.0))
    }

    /// The table's name.
    pub fn table_name_at(&self, entry: &Entry) -> &'a [u8] {
        part(self.bytes, ffi::table_name_at(self.bytes, &entry.0))
    }

    /// The text or blob of a column.
    pub fn text_at(&self, entry: &Entry, side: Side, column: usize) -> &'a [u8] {
        part(
            self.bytes,
            ffi::text_at(self.bytes, &entry.0, side as usize, column),
        )
    }
}

impl From<EntryNumbers> for Entry {
    fn from(numbers: EntryNumbers) -> Self {
        Entry(numbers)
    }
}

fn accepted(answer: Answer) -> Result<(), Refusal> {
    match answer.number {
        0 => Ok(()),
        number => Err(Refusal {
            number,
            place: answer.place,
        }),
    }
}

fn counts(walked: Walked) -> Result<Counts, Refusal> {
    accepted(Answer {
        number: walked.answer,
        place: walked.place,
    })?;
    Ok(Counts {
        events: walked.events,
        changes: walked.changes,
    })
}
