//! What a column holds.

use crate::ffi::CellNumbers;

/// The column types that are read (01, Columns).
#[derive(Clone, Copy, Debug, PartialEq, Eq, Hash)]
#[repr(u8)]
pub enum ColumnType {
    /// TINYINT, 1 byte.
    Tiny = 1,
    /// SMALLINT, 2 bytes.
    Short = 2,
    /// INT, 4 bytes.
    Long = 3,
    /// FLOAT.
    Float = 4,
    /// DOUBLE.
    Double = 5,
    /// BIGINT, 8 bytes.
    LongLong = 8,
    /// MEDIUMINT, 3 bytes.
    Int24 = 9,
    /// DATE.
    Date = 10,
    /// YEAR.
    Year = 13,
    /// VARCHAR and VARBINARY.
    Varchar = 15,
    /// TIMESTAMP with its fraction.
    Timestamp = 17,
    /// DATETIME with its fraction.
    Datetime = 18,
    /// TIME with its fraction.
    Time = 19,
    /// BLOB and TEXT of every size.
    Blob = 252,
}

impl ColumnType {
    /// The type's number in the log.
    pub fn number(self) -> u8 {
        self as u8
    }
}

/// A day; month and day may be 0.
#[derive(Clone, Copy, Debug, PartialEq, Eq, PartialOrd, Ord, Hash)]
#[repr(align(8))]
pub struct Date {
    pub year: u32,
    pub month: u8,
    pub day: u8,
}

/// Seconds since 1970 began, in UTC.
#[derive(Clone, Copy, Debug, PartialEq, Eq, PartialOrd, Ord, Hash)]
#[repr(align(8))]
pub struct Timestamp {
    pub seconds: u32,
    pub microseconds: u32,
}

/// A day and a time of it, in no time zone.
#[derive(Clone, Copy, Debug, PartialEq, Eq, PartialOrd, Ord, Hash)]
#[repr(align(8))]
pub struct Datetime {
    pub date: Date,
    pub hour: u8,
    pub minute: u8,
    pub second: u8,
    pub microseconds: u32,
}

/// A span of time, up to 838 hours to either side.
#[derive(Clone, Copy, Debug, PartialEq, Eq, Hash)]
#[repr(align(8))]
pub struct Time {
    pub negative: bool,
    pub hour: u32,
    pub minute: u8,
    pub second: u8,
    pub microseconds: u32,
}

/// A stored value. Texts and blobs are parts of the log.
#[derive(Clone, Copy, Debug, PartialEq)]
pub enum Value<'a> {
    Integer(i64),
    /// Exactly the stored bits, of a NaN too.
    Float(f32),
    /// Exactly the stored bits, of a NaN too.
    Double(f64),
    Date(Date),
    /// 0, or 1901 to 2155.
    Year(u32),
    Timestamp(Timestamp),
    Datetime(Datetime),
    Time(Time),
    /// A VARCHAR's or a BLOB's bytes, in the column's own character set.
    Text(&'a [u8]),
}

/// What an image holds of a column.
#[derive(Clone, Copy, Debug, PartialEq)]
pub enum Cell<'a> {
    /// The image has not this column.
    Absent,
    Null,
    Stored(ColumnType, Value<'a>),
}

impl<'a> Cell<'a> {
    /// The cell of the library's eight numbers.
    #[inline(always)]
    pub(crate) fn of(log: &'a [u8], numbers: &CellNumbers) -> Cell<'a> {
        use ColumnType as T;
        let [kind, a, b, c, ..] = *numbers;
        let integer = |t| Cell::Stored(t, Value::Integer(a as i64));
        let text = |t| Cell::Stored(t, Value::Text(part(log, (a as usize, b as usize))));
        match kind {
            0 => Cell::Absent,
            256 => Cell::Null,
            1 => integer(T::Tiny),
            2 => integer(T::Short),
            3 => integer(T::Long),
            8 => integer(T::LongLong),
            9 => integer(T::Int24),
            4 => Cell::Stored(T::Float, Value::Float(f32::from_bits(a as u32))),
            5 => Cell::Stored(T::Double, Value::Double(f64::from_bits(a))),
            10 => Cell::Stored(T::Date, Value::Date(date(a, b, c))),
            13 => Cell::Stored(T::Year, Value::Year(a as u32)),
            15 => text(T::Varchar),
            17 => Cell::Stored(T::Timestamp, Value::Timestamp(timestamp(a, b))),
            18 => Cell::Stored(T::Datetime, Value::Datetime(datetime(numbers))),
            19 => Cell::Stored(T::Time, Value::Time(time(numbers))),
            252 => text(T::Blob),
            // the library answers no other kind
            _ => Cell::Absent,
        }
    }

    /// The text or blob, if it is one.
    pub fn text(&self) -> Option<&'a [u8]> {
        match *self {
            Cell::Stored(_, Value::Text(bytes)) => Some(bytes),
            _ => None,
        }
    }
}

/// A part of the log; empty where it is not there.
#[inline(always)]
pub(crate) fn part(log: &[u8], (place, length): (usize, usize)) -> &[u8] {
    let end = place.wrapping_add(length);
    log.get(place..end).unwrap_or_default()
}

fn date(year: u64, month: u64, day: u64) -> Date {
    Date {
        year: year as u32,
        month: month as u8,
        day: day as u8,
    }
}

fn timestamp(seconds: u64, microseconds: u64) -> Timestamp {
    Timestamp {
        seconds: seconds as u32,
        microseconds: microseconds as u32,
    }
}

#[inline(always)]
fn datetime(numbers: &CellNumbers) -> Datetime {
    let [_, year, month, day, hour, minute, second, microseconds] = *numbers;
    Datetime {
        date: date(year, month, day),
        hour: hour as u8,
        minute: minute as u8,
        second: second as u8,
        microseconds: microseconds as u32,
    }
}

#[inline(always)]
fn time(numbers: &CellNumbers) -> Time {
    let [_, negative, hour, minute, second, microseconds, ..] = *numbers;
    Time {
        negative: negative != 0,
        hour: hour as u32,
        minute: minute as u8,
        second: second as u8,
        microseconds: microseconds as u32,
    }
}
