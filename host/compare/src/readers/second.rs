//! The independent second reader.

use super::{part, Reader};
use logs::{Cell, Change, Counts, Head, Refusal, Truth, Value};

pub struct Second;

impl Reader for Second {
    fn name(&self) -> &'static str {
        "second"
    }

    fn check(&self, log: &[u8]) -> Result<Counts, Refusal> {
        second::check(log).map(counts).map_err(refusal)
    }

    fn list(&self, log: &[u8], out: &mut [u32]) -> Result<Counts, Refusal> {
        second::list(log, out).map(counts).map_err(refusal)
    }

    fn change(&self, log: &[u8], k: usize) -> Result<Head, Refusal> {
        second::change(log, k)
            .map(|it| head(log, &it))
            .map_err(refusal)
    }

    fn value(
        &self,
        log: &[u8],
        k: usize,
        side: usize,
        column: usize,
    ) -> Option<Result<Cell, Refusal>> {
        Some(
            second::value(log, k, side, column)
                .map(|it| cell(log, it))
                .map_err(refusal),
        )
    }

    fn all(&self, log: &[u8]) -> Result<Truth, Refusal> {
        let reading = second::read(log).map_err(refusal)?;
        let changes = reading.changes().map(|change| Change {
            head: head(log, &change),
            sides: [change.before(), change.after()]
                .map(|side| side.map(|image| image.map(|it| cell(log, it)).collect())),
        });
        Ok(Truth {
            counts: counts(reading.counts()),
            changes: changes.collect(),
        })
    }
}

fn counts(it: second::Counts) -> Counts {
    Counts {
        events: it.events,
        changes: it.changes,
    }
}

fn refusal(it: second::Refusal) -> Refusal {
    Refusal {
        number: u32::from(it.number),
        place: it.place,
    }
}

fn head(log: &[u8], it: &second::Change) -> Head {
    Head {
        listing: it.entry,
        table_id: it.table_id,
        columns: it.columns,
        database: part(log, it.database),
        table: part(log, it.table),
    }
}

fn cell(log: &[u8], it: second::Cell) -> Cell {
    match it {
        second::Cell::Absent => Cell::Absent,
        second::Cell::Null => Cell::Null,
        second::Cell::Stored(kind, it) => Cell::Stored(kind, value(log, it)),
    }
}

fn value(log: &[u8], it: second::Value) -> Value {
    use second::Value as V;
    match it {
        V::Integer(number) => Value::Integer(number),
        V::Float(bits) => Value::Float(bits),
        V::Double(bits) => Value::Double(bits),
        V::Date { year, month, day } => Value::Date {
            year: year.into(),
            month: month.into(),
            day: day.into(),
        },
        V::Year(year) => Value::Year(year.into()),
        V::Timestamp { seconds, micros } => Value::Timestamp { seconds, micros },
        V::Datetime {
            year,
            month,
            day,
            hour,
            minute,
            second,
            micros,
        } => Value::DateTime {
            year: year.into(),
            month: month.into(),
            day: day.into(),
            hour: hour.into(),
            minute: minute.into(),
            second: second.into(),
            micros,
        },
        V::Time {
            negative,
            hour,
            minute,
            second,
            micros,
        } => Value::Time {
            negative,
            hour: hour.into(),
            minute: minute.into(),
            second: second.into(),
            micros,
        },
        V::Text(bytes) => Value::Text(part(log, bytes)),
    }
}
