//! The verified library through its safe crate.

use super::{part, Reader};
use logs::{Cell, Change, Counts, Head, Part, Refusal, Truth, Value};
use tegmeadow::{Log, Side};

pub struct Verified;

impl Reader for Verified {
    fn name(&self) -> &'static str {
        "tegmeadow"
    }

    fn check(&self, log: &[u8]) -> Result<Counts, Refusal> {
        Log::new(log).check().map(counts).map_err(refusal)
    }

    fn list(&self, log: &[u8], out: &mut [u32]) -> Result<Counts, Refusal> {
        Log::new(log).list(out).map(counts).map_err(refusal)
    }

    fn change(&self, log: &[u8], k: usize) -> Result<Head, Refusal> {
        let of = Log::new(log);
        let info = of.change(k).map_err(refusal)?;
        Ok(Head {
            listing: info.entry.0,
            table_id: info.table_id,
            columns: info.columns,
            database: part(log, of.database_name(k)),
            table: part(log, of.table_name(k)),
        })
    }

    fn value(
        &self,
        log: &[u8],
        k: usize,
        side: usize,
        column: usize,
    ) -> Option<Result<Cell, Refusal>> {
        let side = match side {
            0 => Side::Before,
            1 => Side::After,
            _ => return None,
        };
        Some(
            Log::new(log)
                .value(k, side, column)
                .map(|it| cell(log, it))
                .map_err(refusal),
        )
    }

    fn all(&self, log: &[u8]) -> Result<Truth, Refusal> {
        let changes = Log::new(log).changes().map_err(refusal)?;
        let counts = counts(changes.counts());
        let changes = changes.map(|change| Change {
            head: Head {
                listing: change.entry().0,
                table_id: change.table_id(),
                columns: change.columns(),
                database: part(log, change.database()),
                table: part(log, change.table()),
            },
            sides: [change.before(), change.after()]
                .map(|side| side.map(|image| image.cells().map(|it| cell(log, it)).collect())),
        });
        Ok(Truth {
            counts,
            changes: changes.collect(),
        })
    }

    /// Names and texts by their own questions, and what stands at an entry.
    fn own(&self, log: &[u8], truth: &Result<Truth, Refusal>) -> Result<(), String> {
        let of = Log::new(log);
        let beyond = truth.as_ref().map_or(0, |it| it.changes.len());
        let empty = [
            of.database_name(beyond),
            of.table_name(beyond),
            of.text(beyond, Side::Before, 0),
            of.text(beyond, Side::After, 0),
        ];
        if empty.iter().any(|part| !part.is_empty()) {
            return Err(format!(
                "a part of change {beyond}, which is refused, isn't empty"
            ));
        }
        for change in truth.iter().flat_map(|it| &it.changes) {
            at_entry(log, change)?;
        }
        // each is a walk: a few are enough, the linear way has seen all
        for (k, change) in truth.iter().flat_map(|it| &it.changes).enumerate().take(4) {
            for (side, column, expected) in texts(change) {
                let found = of.text(k, side, column);
                let right = match expected {
                    Some(expected) => part(log, found) == *expected,
                    None => found.is_empty(),
                };
                if !right {
                    return Err(format!("text of change {k}, {side:?}, column {column}"));
                }
            }
        }
        Ok(())
    }
}

/// The first cells' texts, where they are text.
fn texts(change: &Change) -> Vec<(Side, usize, Option<&Part>)> {
    let mut all = Vec::new();
    for (side, cells) in [Side::Before, Side::After].into_iter().zip(&change.sides) {
        for (column, cell) in cells.iter().flatten().enumerate().take(40) {
            let text = match cell {
                Cell::Stored(_, Value::Text(part)) => Some(part),
                _ => None,
            };
            all.push((side, column, text));
        }
    }
    all
}

fn at_entry(log: &[u8], change: &Change) -> Result<(), String> {
    let of = Log::new(log);
    let entry = tegmeadow::Entry(change.head.listing);
    let head = of.change_at(&entry).map(|info| Head {
        listing: info.entry.0,
        table_id: info.table_id,
        columns: info.columns,
        database: part(log, of.database_name_at(&entry)),
        table: part(log, of.table_name_at(&entry)),
    });
    if head.as_ref() != Some(&change.head) {
        return Err(format!(
            "at entry {entry:?}: {head:?}, expected {:?}",
            change.head
        ));
    }
    for (side, cells) in [Side::Before, Side::After].into_iter().zip(&change.sides) {
        for (column, expected) in cells.iter().flatten().enumerate() {
            let found = of.value_at(&entry, side, column).map(|it| cell(log, it));
            if found.as_ref() != Some(expected) {
                return Err(format!(
                    "at entry {entry:?}, {side:?}, column {column}: {found:?}, expected {expected:?}"
                ));
            }
        }
        let beyond = cells.as_ref().map_or(0, Vec::len);
        if of.value_at(&entry, side, beyond).is_some() {
            return Err(format!(
                "at entry {entry:?}, {side:?}: column {beyond} is there"
            ));
        }
    }
    Ok(())
}

fn counts(it: tegmeadow::Counts) -> Counts {
    Counts {
        events: it.events,
        changes: it.changes,
    }
}

fn refusal(it: tegmeadow::Refusal) -> Refusal {
    Refusal {
        number: it.number,
        place: it.place,
    }
}

fn cell(log: &[u8], it: tegmeadow::Cell) -> Cell {
    match it {
        tegmeadow::Cell::Absent => Cell::Absent,
        tegmeadow::Cell::Null => Cell::Null,
        tegmeadow::Cell::Stored(kind, it) => Cell::Stored(kind.number(), value(log, it)),
    }
}

fn value(log: &[u8], it: tegmeadow::Value) -> Value {
    use tegmeadow::Value as V;
    match it {
        V::Integer(number) => Value::Integer(number),
        V::Float(it) => Value::Float(it.to_bits()),
        V::Double(it) => Value::Double(it.to_bits()),
        V::Date(it) => Value::Date {
            year: it.year,
            month: it.month.into(),
            day: it.day.into(),
        },
        V::Year(year) => Value::Year(year),
        V::Timestamp(it) => Value::Timestamp {
            seconds: it.seconds,
            micros: it.microseconds,
        },
        V::Datetime(it) => Value::DateTime {
            year: it.date.year,
            month: it.date.month.into(),
            day: it.date.day.into(),
            hour: it.hour.into(),
            minute: it.minute.into(),
            second: it.second.into(),
            micros: it.microseconds,
        },
        V::Time(it) => Value::Time {
            negative: it.negative,
            hour: it.hour,
            minute: it.minute.into(),
            second: it.second.into(),
            micros: it.microseconds,
        },
        V::Text(bytes) => Value::Text(part(log, bytes)),
    }
}
