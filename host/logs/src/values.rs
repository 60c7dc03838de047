//! Columns and stored values (01, Columns): the bytes of a value, and random
//! values that are allowed.

use crate::rng::Rng;
use crate::tree::{Column, Part, Value};

/// Every column type that is read.
pub const KINDS: [u8; 14] = [1, 2, 9, 3, 8, 4, 5, 10, 13, 15, 17, 18, 19, 252];

impl Column {
    /// The metadata bytes of this column.
    pub fn metadata(self) -> Vec<u8> {
        match self.kind {
            15 => self.meta.to_le_bytes().to_vec(),
            4 | 5 | 17..=19 | 252 => vec![self.meta as u8],
            _ => Vec::new(),
        }
    }

    /// Fraction bytes of types 17, 18, 19.
    pub fn fraction_bytes(self) -> usize {
        usize::from(self.meta).div_ceil(2)
    }

    /// Bytes of a text's or blob's length.
    pub fn length_bytes(self) -> usize {
        match (self.kind, self.meta) {
            (252, k) => usize::from(k),
            (_, longest) if longest < 256 => 1,
            _ => 2,
        }
    }

    /// The longest text that a length can say and the column allows.
    fn longest(self) -> usize {
        if self.kind == 15 {
            return usize::from(self.meta);
        }
        (1usize << (8 * self.length_bytes())) - 1
    }

    pub fn random(rng: &mut Rng) -> Column {
        let kind = rng.pick(&KINDS);
        let meta = match kind {
            4 => 4,
            5 => 8,
            15 => {
                let free = rng.number() as u16;
                rng.pick(&[0, 1, 20, 254, 255, 256, 257, 1000, 65535, free])
            }
            17..=19 => rng.range(0, 6) as u16,
            252 => rng.range(1, 4) as u16,
            _ => 0,
        };
        Column { kind, meta }
    }

    /// An allowed value; a text has at most `longest` bytes.
    pub fn value(self, rng: &mut Rng, longest: usize) -> Value {
        match self.kind {
            1 => Value::Integer(i64::from(integer(rng) as i8)),
            2 => Value::Integer(i64::from(integer(rng) as i16)),
            9 => Value::Integer(i64::from((integer(rng) as i32) << 8 >> 8)),
            3 => Value::Integer(i64::from(integer(rng) as i32)),
            4 => Value::Float(float(rng)),
            5 => Value::Double(double(rng)),
            10 => Value::Date {
                year: edge(rng, 32767),
                month: edge(rng, 12),
                day: edge(rng, 31),
            },
            13 => Value::Year(match edge(rng, 255) {
                0 => 0,
                byte => 1900 + byte,
            }),
            17 => Value::Timestamp {
                seconds: integer(rng) as u32,
                micros: self.micros(rng),
            },
            18 => self.date_time(rng),
            19 => self.time(rng),
            15 | 252 => {
                let length = rng.length(self.longest().min(longest));
                Value::Text(Part {
                    place: 0,
                    bytes: rng.bytes(length),
                })
            }
            _ => Value::Integer(integer(rng)),
        }
    }

    /// A fraction that this column's fraction bytes can say.
    fn micros(self, rng: &mut Rng) -> u32 {
        match self.fraction_bytes() {
            0 => 0,
            1 => edge(rng, 99) * 10_000,
            2 => edge(rng, 9_999) * 100,
            _ => edge(rng, 999_999),
        }
    }

    fn date_time(self, rng: &mut Rng) -> Value {
        // the 17 bits below the offset's bit hold year times 13 plus month
        let months = edge(rng, 131_071);
        Value::DateTime {
            year: months / 13,
            month: months % 13,
            day: edge(rng, 31),
            hour: edge(rng, 23),
            minute: edge(rng, 59),
            second: edge(rng, 59),
            micros: self.micros(rng),
        }
    }

    fn time(self, rng: &mut Rng) -> Value {
        let (hour, minute) = (edge(rng, 838), edge(rng, 59));
        let (second, micros) = (edge(rng, 59), self.micros(rng));
        let zero = hour == 0 && minute == 0 && second == 0 && micros == 0;
        // nothing has no sign: the difference is 0
        let negative = !zero && rng.once_in(2);
        Value::Time {
            negative,
            hour,
            minute,
            second,
            micros,
        }
    }

    /// Bytes of a stored integer.
    fn width(self) -> usize {
        match self.kind {
            1 => 1,
            2 => 2,
            9 => 3,
            3 => 4,
            _ => 8,
        }
    }

    /// A text's length as it is stored.
    fn length(self, length: usize) -> Vec<u8> {
        (length as u64).to_le_bytes()[..self.length_bytes()].to_vec()
    }

    /// The stored bytes of a value of this column.
    pub fn store(self, value: &Value) -> Vec<u8> {
        match value {
            Value::Integer(number) => number.to_le_bytes()[..self.width()].to_vec(),
            Value::Float(bits) => bits.to_le_bytes().to_vec(),
            Value::Double(bits) => bits.to_le_bytes().to_vec(),
            Value::Date { year, month, day } => date(*year, *month, *day),
            Value::Year(0) => vec![0],
            Value::Year(year) => vec![(year - 1900) as u8],
            Value::Timestamp { seconds, micros } => {
                [big((*seconds).into(), 4), self.fraction(*micros)].concat()
            }
            Value::DateTime {
                year,
                month,
                day,
                hour,
                minute,
                second,
                micros,
            } => {
                let days = u64::from((year * 13 + month) << 5 | day);
                let packed = days << 17 | clock(*hour, *minute, *second);
                [big(packed + 0x80_0000_0000, 5), self.fraction(*micros)].concat()
            }
            Value::Time {
                negative,
                hour,
                minute,
                second,
                micros,
            } => self.store_time(*negative, clock(*hour, *minute, *second), *micros),
            Value::Text(part) => [self.length(part.bytes.len()), part.bytes.clone()].concat(),
        }
    }

    /// TIME2: the whole number, fraction bytes included, added to its offset
    /// or taken from it.
    fn store_time(self, negative: bool, clock: u64, micros: u32) -> Vec<u8> {
        let below = self.fraction_bytes();
        let fraction = self
            .fraction(micros)
            .iter()
            .fold(0, |sum, byte| sum << 8 | u64::from(*byte));
        let number = clock << (8 * below) | fraction;
        let offset = 0x80u64 << (8 * (below + 2));
        big(
            if negative {
                offset - number
            } else {
                offset + number
            },
            3 + below,
        )
    }

    /// The fraction bytes, in their unit.
    fn fraction(self, micros: u32) -> Vec<u8> {
        let bytes = self.fraction_bytes();
        let unit = [1, 10_000, 100, 1][bytes.min(3)];
        big(u64::from(micros / unit), bytes)
    }

    /// Stored bytes of a value that this column refuses (18), if it can.
    pub fn store_bad(self, rng: &mut Rng) -> Option<Vec<u8>> {
        let with_fraction = |mut whole: Vec<u8>, rng: &mut Rng| {
            whole.extend(rng.bytes(self.fraction_bytes()));
            whole
        };
        match self.kind {
            10 => {
                let month = rng.range(13, 15) as u32;
                Some(date(edge(rng, 32767), month, edge(rng, 31)))
            }
            15 => self.too_long(rng),
            17 => Some([rng.bytes(4), self.whole_second(rng)?].concat()),
            18 if rng.once_in(3) => {
                let packed = rng.number() & 0x7f_ffff_ffff;
                let packed = rng.pick(&[0, 0x7f_ffff_ffff, packed]);
                Some(with_fraction(big(packed, 5), rng))
            }
            18 if self.fraction_bytes() > 0 && rng.once_in(2) => {
                let good = self.store(&self.value(rng, 0));
                Some([good[..5].to_vec(), self.whole_second(rng)?].concat())
            }
            18 => {
                let clock = bad_clock(rng, 24, 31);
                let packed = (rng.number() & 0x3f_ffff) << 17 | clock;
                Some(with_fraction(big(packed + 0x80_0000_0000, 5), rng))
            }
            19 => Some(self.bad_time(rng)),
            _ => None,
        }
    }

    /// A VARCHAR whose length is above M, with as many bytes as it says.
    fn too_long(self, rng: &mut Rng) -> Option<Vec<u8>> {
        let most = if self.meta < 256 { 255 } else { 65535 };
        if self.meta >= most {
            return None;
        }
        let length = usize::from(self.meta) + 1;
        let length = rng.pick(&[length, usize::from(most)]);
        Some([self.length(length), rng.bytes(length)].concat())
    }

    /// Fraction bytes of a whole second or more.
    fn whole_second(self, rng: &mut Rng) -> Option<Vec<u8>> {
        let bytes = self.fraction_bytes();
        let second = [0u64, 100, 10_000, 1_000_000][bytes.min(3)];
        let most = (1u64 << (8 * bytes)) - 1;
        let any = second + rng.number() % (most - second + 1).max(1);
        (bytes > 0).then(|| big(rng.pick(&[second, most, any]), bytes))
    }

    /// TIME2 with a part too large, or the offset's own bytes all taken.
    fn bad_time(self, rng: &mut Rng) -> Vec<u8> {
        let below = self.fraction_bytes();
        if rng.once_in(5) {
            return vec![0; 3 + below];
        }
        let (clock, fraction) = match self.whole_second(rng) {
            Some(fraction) if rng.once_in(2) => {
                (clock(edge(rng, 838), edge(rng, 59), 59), fraction)
            }
            _ => (bad_clock(rng, 839, 2047), rng.bytes(below)),
        };
        let number = fraction
            .iter()
            .fold(clock, |sum, byte| sum << 8 | u64::from(*byte));
        let offset = 0x80u64 << (8 * (below + 2));
        big(
            if rng.once_in(2) {
                offset - number
            } else {
                offset + number
            },
            3 + below,
        )
    }
}

/// Hour, 6 bits of minute, 6 bits of second.
fn clock(hour: u32, minute: u32, second: u32) -> u64 {
    u64::from(hour) << 12 | u64::from(minute) << 6 | u64::from(second)
}

/// A clock with one part too large; hours from `over` up to `most`.
fn bad_clock(rng: &mut Rng, over: u32, most: u32) -> u64 {
    let any = rng.range(over as usize, most as usize) as u32;
    let hour = rng.pick(&[over, most, any]);
    match rng.below(3) {
        0 => clock(hour, edge(rng, 59), edge(rng, 59)),
        1 => clock(edge(rng, over - 1), 60 + edge(rng, 3), edge(rng, 59)),
        _ => clock(edge(rng, over - 1), edge(rng, 59), 60 + edge(rng, 3)),
    }
}

fn date(year: u32, month: u32, day: u32) -> Vec<u8> {
    (year << 9 | month << 5 | day).to_le_bytes()[..3].to_vec()
}

/// The lowest `count` bytes, highest first.
fn big(number: u64, count: usize) -> Vec<u8> {
    number.to_be_bytes()[8 - count.min(8)..].to_vec()
}

/// A number from 0 to `most` that likes its ends.
fn edge(rng: &mut Rng, most: u32) -> u32 {
    match rng.below(6) {
        0 => 0,
        1 => most,
        2 => most.min(1),
        _ => rng.range(0, most as usize) as u32,
    }
}

fn integer(rng: &mut Rng) -> i64 {
    let any = rng.number() as i64;
    let bit = 1i64 << rng.below(64);
    rng.pick(&[
        0,
        1,
        -1,
        any,
        any,
        any >> 32,
        any >> 48,
        bit,
        bit.wrapping_sub(1),
        i64::MIN,
    ])
}

/// Zeros, infinities, quiet and signalling NaNs, and any other bits.
fn float(rng: &mut Rng) -> u32 {
    let any = rng.number() as u32;
    rng.pick(&[
        0,
        1 << 31,
        0x7f80_0000,
        0xff80_0000,
        0x7f80_0001,
        0xffc0_1234,
        0x3f80_0000,
        1,
        any,
    ])
}

fn double(rng: &mut Rng) -> u64 {
    let any = rng.number();
    let nan = 0x7ff0_0000_0000_0001;
    rng.pick(&[
        0,
        1 << 63,
        0x7ff0 << 48,
        0xfff0 << 48,
        nan,
        0xfff8_0000_0000_1234,
        1,
        any,
        any,
    ])
}
