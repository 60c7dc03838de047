//! Changes as JSON objects, one a line.

use crate::output::{Output, Room};
use crate::quoted::quoted;
use crate::show::Table;
use crate::signs::Signs;
use crate::sql;
use std::fmt::Write;
use tegmeadow::{Cell, Change, ColumnType, Image, Kind, Value};

/// All fractions have six digits here.
const DIGITS: u8 = 6;

pub fn change(k: usize, change: &Change<'_>, table: &Table<'_>, out: &mut Output) {
    out.signs(b"{\"change\":");
    out.unsigned(k as u64);
    out.bytes(match change.kind() {
        Kind::Write => b",\"kind\":\"write\"",
        Kind::Update => b",\"kind\":\"update\"",
        Kind::Delete => b",\"kind\":\"delete\"",
    });
    let entry = change.entry();
    out.signs(b",\"event\":");
    out.unsigned(entry.event() as u64);
    out.signs(b",\"map\":");
    out.unsigned(entry.map() as u64);
    out.signs(b",\"table_id\":");
    out.unsigned(change.table_id());
    bytes(
        table.database,
        b",\"database\":",
        b",\"database_hex\":\"",
        out,
    );
    bytes(table.name, b",\"table\":", b",\"table_hex\":\"", out);
    out.signs(b",\"columns\":");
    out.unsigned(change.columns() as u64);
    if let Some(before) = change.before() {
        image(b",\"before\":[", before, out);
    }
    if let Some(after) = change.after() {
        image(b",\"after\":[", after, out);
    }
    out.signs(b"}\n");
}

/// The columns that the image has.
fn image(key: &[u8], image: Image<'_, '_>, out: &mut Output) {
    out.bytes(key);
    let mut first = true;
    for (column, cell) in image.cells().enumerate() {
        if cell == Cell::Absent {
            continue;
        }
        out.bytes(if first {
            b"{\"column\":"
        } else {
            b",{\"column\":"
        });
        first = false;
        out.unsigned(column as u64 + 1);
        if let Cell::Stored(kind, value) = cell {
            out.signs(b",\"type\":\"");
            out.bytes(type_name(kind));
            out.byte(b'"');
            stored(value, out);
        } else {
            out.signs(b",\"value\":null");
        }
        out.byte(b'}');
    }
    out.byte(b']');
}

fn type_name(kind: ColumnType) -> &'static [u8] {
    match kind {
        ColumnType::Tiny => b"TINYINT",
        ColumnType::Short => b"SMALLINT",
        ColumnType::Int24 => b"MEDIUMINT",
        ColumnType::Long => b"INT",
        ColumnType::LongLong => b"BIGINT",
        ColumnType::Float => b"FLOAT",
        ColumnType::Double => b"DOUBLE",
        ColumnType::Date => b"DATE",
        ColumnType::Year => b"YEAR",
        ColumnType::Varchar => b"VARCHAR",
        ColumnType::Timestamp => b"TIMESTAMP",
        ColumnType::Datetime => b"DATETIME",
        ColumnType::Time => b"TIME",
        ColumnType::Blob => b"BLOB",
    }
}

fn stored(value: Value<'_>, out: &mut Output) {
    match value {
        Value::Integer(n) => {
            out.signs(b",\"value\":");
            out.signed(n);
        }
        Value::Float(n) => float(n.is_finite(), n, n.to_bits().into(), out),
        Value::Double(n) => float(n.is_finite(), n, n.to_bits(), out),
        Value::Date(date) => in_quotes(out, |out| sql::date(date, b'-', out)),
        Value::Year(year) => {
            out.signs(b",\"value\":");
            out.unsigned(year.into());
        }
        Value::Timestamp(t) => {
            out.signs(b",\"value\":");
            out.unsigned(t.seconds.into());
            out.fraction(t.microseconds, DIGITS);
        }
        Value::Datetime(t) => in_quotes(out, |out| sql::datetime(t, DIGITS, out)),
        Value::Time(t) => in_quotes(out, |out| sql::time(t, DIGITS, out)),
        Value::Text(text) => bytes(text, b",\"value\":", b",\"hex\":\"", out),
    }
}

/// The shortest digits that give the same float; its bits where it is no number.
fn float(finite: bool, n: impl std::fmt::Debug, bits: u64, out: &mut Output) {
    let _ = match finite {
        true => write!(out, ",\"value\":{n:?}"),
        false => write!(out, ",\"bits\":{bits}"),
    };
}

fn in_quotes(out: &mut Output, write: impl FnOnce(&mut Output)) {
    out.signs(b",\"value\":\"");
    write(out);
    out.byte(b'"');
}

/// Bytes as a string under one key, or in hex under another where they are not UTF-8.
fn bytes(bytes: &[u8], key: &[u8], hex_key: &[u8], out: &mut Output) {
    match std::str::from_utf8(bytes) {
        Ok(text) => {
            out.bytes(key);
            string(out, text);
        }
        Err(_) => {
            out.bytes(hex_key);
            out.hex(bytes);
            out.byte(b'"');
        }
    }
}

/// A JSON string.
pub fn string(out: &mut Output, text: &str) {
    quoted::<b'"'>(text.as_bytes(), control, out);
}

fn control(byte: u8, out: &mut Room) {
    out.signs(b"\\u00");
    out.hex(&[byte]);
}
