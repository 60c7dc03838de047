//! A change in the `###` form of `mysqlbinlog -v` (MySQL 9.7), sign for sign.

use crate::float;
use crate::output::{Output, Room};
use crate::quoted::quoted;
use crate::show::{Column, Table};
use crate::signs::{pair, Signs};
use tegmeadow::{Cell, Change, ColumnType, Image, Kind, Value};

pub fn change(change: &Change<'_>, table: &Table<'_>, out: &mut Output) {
    match change.kind() {
        Kind::Write => out.signs(b"### INSERT INTO "),
        Kind::Update => out.signs(b"### UPDATE "),
        Kind::Delete => out.signs(b"### DELETE FROM "),
    }
    name(table.database, out);
    out.byte(b'.');
    name(table.name, out);
    if let Some(before) = change.before() {
        out.signs(b"\n### WHERE");
        image(before, table, out);
    }
    if let Some(after) = change.after() {
        out.signs(b"\n### SET");
        image(after, table, out);
    }
    out.byte(b'\n');
}

/// A name in backticks, those in it doubled.
fn name(bytes: &[u8], out: &mut Output) {
    out.byte(b'`');
    if bytes.contains(&b'`') {
        for &byte in bytes {
            if byte == b'`' {
                out.byte(b'`');
            }
            out.byte(byte);
        }
    } else {
        out.bytes(bytes);
    }
    out.byte(b'`');
}

/// How a line of a column starts, with the end of the line before it.
#[derive(Clone, Copy)]
pub struct Start {
    signs: [u8; 16],
    length: u8,
}

impl Start {
    /// Columns count from 1.
    pub fn of(column: usize) -> Start {
        let mut signs = *b"\n###   @        ";
        let number = (column + 1).to_string();
        let tail = number.bytes().chain([b'=']);
        let mut length = 8;
        for (room, sign) in signs.iter_mut().skip(8).zip(tail) {
            *room = sign;
            length += 1;
        }
        Start { signs, length }
    }

    #[inline(always)]
    fn write(&self, line: &mut Room) {
        line.some(&self.signs, usize::from(self.length));
    }
}

/// A line for each column that the image has.
fn image(image: Image<'_, '_>, table: &Table<'_>, out: &mut Output) {
    let mut columns = table.columns().iter();
    image.cells().for_each(|cell| {
        let Some(Column { start, digits }) = columns.next() else {
            return;
        };
        match cell {
            Cell::Absent => {}
            Cell::Null => out.room(|line| {
                start.write(line);
                line.signs(b"NULL");
            }),
            Cell::Stored(_, Value::Text(bytes)) => {
                out.room(|line| start.write(line));
                quoted::<b'\''>(bytes, control, out);
            }
            Cell::Stored(kind, value) => out.room(|line| {
                start.write(line);
                stored(kind, value, *digits, line);
            }),
        }
    });
}

/// A value that is no text.
#[inline(always)]
fn stored(kind: ColumnType, value: Value<'_>, digits: u8, out: &mut Room) {
    match value {
        Value::Integer(n) => integer(kind, n, out),
        Value::Float(n) => float(n, out),
        Value::Double(n) => {
            float::general(n, 20, out);
        }
        Value::Date(d) => {
            out.byte(b'\'');
            date(d, b':', out);
            out.byte(b'\'');
        }
        // the program adds 1900 to a year 0 too
        Value::Year(0) => out.signs(b"1900"),
        Value::Year(year) => out.unsigned(year.into()),
        Value::Timestamp(t) => {
            out.unsigned(t.seconds.into());
            out.fraction(t.microseconds, digits);
        }
        Value::Datetime(t) => {
            out.byte(b'\'');
            datetime(t, digits, out);
            out.byte(b'\'');
        }
        Value::Time(t) => {
            out.byte(b'\'');
            time(t, digits, out);
            out.byte(b'\'');
        }
        Value::Text(_) => {}
    }
}

/// A negative number is followed by what its bytes are without a sign.
#[inline(always)]
fn integer(kind: ColumnType, n: i64, out: &mut Room) {
    out.signed(n);
    if n < 0 {
        let bits = match kind {
            ColumnType::Tiny => 8,
            ColumnType::Short => 16,
            ColumnType::Int24 => 24,
            ColumnType::Long => 32,
            _ => 64,
        };
        out.signs(b" (");
        out.unsigned(n as u64 & (u64::MAX >> (64 - bits)));
        out.byte(b')');
    }
}

/// Year, month and day with a sign between them. A year above 9999, which no
/// server writes, has five digits.
#[inline]
pub fn date(date: tegmeadow::Date, between: u8, out: &mut impl Signs) {
    let [a, b] = pair(date.year / 100);
    let [c, d] = pair(date.year);
    let [e, f] = pair(date.month.into());
    let [g, h] = pair(date.day.into());
    if date.year > 9999 {
        out.unsigned((date.year / 10_000).into());
    }
    out.signs(&[a, b, c, d, between, e, f, between, g, h]);
}

#[inline]
pub fn datetime(t: tegmeadow::Datetime, digits: u8, out: &mut impl Signs) {
    date(t.date, b'-', out);
    out.byte(b' ');
    clock(t.hour.into(), t.minute, t.second, out);
    out.fraction(t.microseconds, digits);
}

#[inline]
pub fn time(t: tegmeadow::Time, digits: u8, out: &mut impl Signs) {
    if t.negative {
        out.byte(b'-');
    }
    clock(t.hour, t.minute, t.second, out);
    out.fraction(t.microseconds, digits);
}

#[inline]
fn clock(hour: u32, minute: u8, second: u8, out: &mut impl Signs) {
    if hour > 99 {
        out.unsigned((hour / 100).into());
    }
    let ([a, b], [c, d], [e, f]) = (pair(hour), pair(minute.into()), pair(second.into()));
    out.signs(&[a, b, b':', c, d, b':', e, f]);
}

#[cold]
fn control(byte: u8, out: &mut Room) {
    match byte {
        0x08 => out.signs(b"\\b"),
        b'\t' => out.signs(b"\\t"),
        b'\n' => out.signs(b"\\n"),
        0x0c => out.signs(b"\\f"),
        b'\r' => out.signs(b"\\r"),
        _ => {
            out.signs(b"\\x");
            out.hex(&[byte]);
        }
    }
}

/// As C's `%-20g`: six digits, padded to 20 signs.
fn float(n: f32, out: &mut Room) {
    const WIDTH: usize = 20;
    let length = float::general(widened(n), 6, out);
    out.some(&[b' '; WIDTH], WIDTH - length.min(WIDTH));
}

/// The same number as a double. The sign of a NaN is kept, as the machine does.
fn widened(n: f32) -> f64 {
    match n.is_nan() {
        true => f64::NAN.copysign(if n.is_sign_negative() { -1.0 } else { 1.0 }),
        false => n.into(),
    }
}
