//! `show`: every change with its values.

use crate::input::Source;
use crate::json;
use crate::layout::{self, Partition};
use crate::list;
use crate::output::Output;
use crate::parallel;
use crate::progress::Progress;
use crate::signs::Signs;
use crate::sql::{self, Start};
use crate::Status;
use std::hint::black_box;
use std::io;
use std::ops::Range;
use tegmeadow::{Change, Listing, Log};

/// How many bytes of the log are shown as one piece of work.
const SPAN: usize = 1 << 17;

/// What changes of one table map have in common, kept from one to the next.
pub struct Table<'a> {
    /// The map's place; 0 before the first.
    map: usize,
    pub database: &'a [u8],
    pub name: &'a [u8],
    /// Its columns, and perhaps more of a wider table before it.
    columns: Vec<Column>,
    /// Kept for its memory.
    digits: Vec<u8>,
}

/// What lines about a column have in common.
pub struct Column {
    pub start: Start,
    /// The fraction digits of its times.
    pub digits: u8,
}

impl<'a> Table<'a> {
    fn none() -> Table<'a> {
        Table {
            map: 0,
            database: &[],
            name: &[],
            columns: Vec::new(),
            digits: Vec::new(),
        }
    }

    /// Makes this the table of the change.
    #[inline]
    fn turn_to(&mut self, log: &[u8], change: &Change<'a>) {
        if change.entry().map() != self.map {
            self.turn(log, change);
        }
    }

    fn turn(&mut self, log: &[u8], change: &Change<'a>) {
        self.map = change.entry().map();
        self.database = change.database();
        self.name = change.table();
        // an accepted log's map can be read; six digits show all there is
        if layout::fraction_digits(log, self.map, &mut self.digits).is_none() {
            self.digits.clear();
        }
        self.digits.resize(change.columns(), 6);
        while self.columns.len() < change.columns() {
            let start = Start::of(self.columns.len());
            self.columns.push(Column { start, digits: 0 });
        }
        for (column, digits) in self.columns.iter_mut().zip(&self.digits) {
            column.digits = *digits;
        }
    }

    #[inline]
    pub fn columns(&self) -> &[Column] {
        &self.columns
    }
}

pub fn run(
    source: &Source,
    bytes: &[u8],
    as_json: bool,
    out: &mut Output,
    progress: Progress,
) -> io::Result<Status> {
    let (listing, progress) = match list::listed(source, bytes, progress) {
        Ok(both) => both,
        Err(status) => return Ok(status),
    };
    let work = |span: Range<usize>, out: &mut Output| some(bytes, &listing, span, as_json, out);
    parallel::in_order(&spans(&listing), out, &work, |done| progress.has_done(done))?;
    Ok(Status::Accepted)
}

/// The changes in spans of about as many bytes of the log each.
fn spans(listing: &Listing) -> Vec<Range<usize>> {
    let mut spans = Vec::new();
    let (mut first, mut place) = (0, 0);
    for (k, entry) in listing.entries().enumerate() {
        let image = entry.before().or(entry.after()).unwrap_or_default();
        if image >= place + SPAN {
            if k > first {
                spans.push(first..k);
            }
            (first, place) = (k, image);
        }
    }
    spans.push(first..listing.counts().changes);
    spans
}

/// Shows the changes of a span.
fn some(
    bytes: &[u8],
    listing: &Listing,
    span: Range<usize>,
    as_json: bool,
    out: &mut Output,
) -> io::Result<()> {
    let before = span
        .start
        .checked_sub(1)
        .and_then(|last| listing.entry(last));
    let mut event = before.map_or(0, |entry| entry.event());
    let mut table = Table::none();
    fetch(bytes, listing, span.clone());
    for (k, change) in span.clone().zip(Log::new(bytes).changes_in(listing, span)) {
        table.turn_to(bytes, &change);
        if as_json {
            json::change(k, &change, &table, out);
        } else {
            if change.entry().event() != event {
                event = change.entry().event();
                partition(bytes, &change, out);
            }
            sql::change(&change, &table, out);
        }
        out.settle()?;
    }
    Ok(())
}

/// Looks at the start of every row of a span. Rows that stand far apart come
/// from memory at once then; each would be waited for when its turn comes.
fn fetch(bytes: &[u8], listing: &Listing, span: Range<usize>) {
    const FAR: usize = 256;
    const LINE: usize = 64;
    let byte = |place| bytes.get(place).copied().unwrap_or_default();
    let (mut sum, mut last) = (0, 0);
    for entry in span.map_while(|k| listing.entry(k)) {
        let image = entry.before().or(entry.after()).unwrap_or_default();
        if image > last + FAR {
            sum ^= byte(image) ^ byte(image + LINE);
        }
        last = image;
    }
    black_box(sum);
}

/// The line that comes once before the changes of an event of a partitioned table.
fn partition(bytes: &[u8], change: &Change<'_>, out: &mut Output) {
    let entry = change.entry();
    let kind = entry.event_type() as u8;
    let Some(partition) = layout::partition(bytes, entry.event(), kind) else {
        return;
    };
    out.signs(b"### Extra row info for partitioning: ");
    match partition {
        Partition::One(number) => {
            out.signs(b"partition: ");
            out.unsigned(number);
        }
        Partition::Move { source, target } => {
            out.signs(b"source_partition: ");
            out.unsigned(source);
            out.signs(b" target_partition: ");
            out.unsigned(target);
        }
    }
    out.byte(b'\n');
}
