//! Every value of the small fields, one log for each, with what 01 says.

use super::{ask, WALKED_BRIEFLY};
use crate::ask::{Asker, Known};
use logs::{
    made, Body, Cell, Column, Description, Event, Image, Log, Made, Map, Part, Refusal, Rows,
    Value, KINDS, READ, STEPPED,
};

/// Asks of a made log, which is refused by `number` at `place` if that is so.
fn judge(what: &dyn Fn() -> String, made: &Made, refused: Option<(u32, usize)>) {
    let known: Known = match refused {
        Some((number, place)) => Err(Refusal { number, place }),
        None => Ok(made.truth.clone()),
    };
    let _ = ask(
        &mut Asker::new(WALKED_BRIEFLY),
        what,
        &made.bytes,
        Some(&known),
    );
}

fn log_of(events: Vec<Event>) -> Made {
    made(Log {
        description: Description::plain(),
        events,
    })
}

fn description(what: &str, sound: bool, description: Description) {
    let made = made(Log {
        description,
        events: Vec::new(),
    });
    judge(&|| what.to_string(), &made, (!sound).then_some((6, 4)));
}

#[test]
fn event_types() {
    for kind in 0..=255 {
        for flags in [0, 0x80, 0xff7f, 0xffff] {
            let made = log_of(vec![Event::plain(kind, flags, Body::Free(Vec::new()))]);
            let number = match kind {
                15 => Some(10),
                19 => Some(12),
                30..=32 => Some(16),
                20..=25 | 39 | 40 => Some(11),
                _ if STEPPED.contains(&kind) || flags & 0x80 != 0 => None,
                _ => Some(11),
            };
            let refused = number.map(|number| (number, made.starts[1]));
            judge(
                &|| format!("event type {kind}, flags {flags:#x}"),
                &made,
                refused,
            );
        }
    }
}

#[test]
fn description_bytes() {
    let plain = Description::plain;
    for byte in 0..=255u8 {
        description(
            &format!("H {byte}"),
            byte >= 19,
            Description {
                header: byte,
                ..plain()
            },
        );
        description(
            &format!("kind {byte}"),
            byte < 2,
            Description {
                kind: byte,
                ..plain()
            },
        );
        for (kind, least) in READ {
            let mut it = plain();
            it.entries[usize::from(kind) - 1] = byte;
            description(&format!("entry of {kind}: {byte}"), byte >= least, it);
        }
    }
    for count in 0..300 {
        let entries = vec![10; count];
        let sound = (32..=255).contains(&count);
        description(
            &format!("{count} entries"),
            sound,
            Description { entries, ..plain() },
        );
    }
}

#[test]
fn server_versions() {
    let runs = [
        0u16, 1, 4, 5, 6, 7, 9, 10, 55, 56, 99, 100, 255, 256, 300, 999,
    ];
    for a in runs {
        for b in runs {
            for c in runs {
                let readable = a.max(b).max(c) <= 255;
                let refused = !readable || (a, b, c) < (5, 6, 1);
                for text in [format!("{a}.{b}.{c}"), format!("{a:03}.{b:02}.{c:03}-log")] {
                    let mut version = text.clone().into_bytes();
                    version.resize(50, 0);
                    let description = Description {
                        version,
                        ..Description::plain()
                    };
                    let made = made(Log {
                        description,
                        events: Vec::new(),
                    });
                    judge(&|| text.clone(), &made, refused.then_some((7, 4)));
                }
            }
        }
    }
}

fn map_of(id: u64, columns: Vec<Column>) -> Event {
    Event::plain(19, 0, Body::Map(Map::plain(id, columns)))
}

#[test]
fn column_types_and_metadata() {
    for kind in 0..=255 {
        for meta in 0..=255 {
            let sound = match kind {
                4 => meta == 4,
                5 => meta == 8,
                17..=19 => meta <= 6,
                252 => (1..=4).contains(&meta),
                _ => KINDS.contains(&kind),
            };
            let column = Column { kind, meta };
            let made = log_of(vec![map_of(1, vec![column])]);
            let refused = (!sound).then_some((13, made.starts[1]));
            judge(
                &|| format!("column type {kind}, metadata {meta}"),
                &made,
                refused,
            );
            if column.metadata().is_empty() {
                break;
            }
        }
    }
}

/// A write of one row.
fn write_of(columns: Vec<Column>, cells: Vec<Cell>) -> Made {
    let rows = Rows::plain(1, columns.clone(), vec![vec![Image { cells, spare: 0xff }]]);
    log_of(vec![
        map_of(1, columns),
        Event::plain(30, 0, Body::Rows(rows)),
    ])
}

#[test]
fn column_counts() {
    for count in (1..=520).chain([600, 65_536]) {
        let columns = vec![Column { kind: 1, meta: 0 }; count];
        let number = |at: usize| Cell::Stored(1, Value::Integer((at % 100) as i64));
        let made = write_of(columns, (0..count).map(number).collect());
        let refused = (count > 512).then_some((12, made.starts[1]));
        judge(&|| format!("{count} columns"), &made, refused);
    }
}

#[test]
fn live_ids() {
    for count in 1..=20 {
        let column = Column { kind: 3, meta: 0 };
        let made = log_of(
            (0..count)
                .map(|id| map_of(id << 40 | 5, vec![column]))
                .collect(),
        );
        let refused = made.starts.get(17).map(|place| (14, *place));
        judge(&|| format!("{count} live ids"), &made, refused);
    }
}

/// A log with one value, which is refused as 18 at its first byte or read.
fn value(kind: u8, meta: u16, value: Value, allowed: bool) {
    let what = format!("type {kind}, metadata {meta}, {value:?}");
    let made = write_of(vec![Column { kind, meta }], vec![Cell::Stored(kind, value)]);
    // after one byte of null bits
    let place = made.truth.changes[0].head.listing[4] as usize + 1;
    judge(&|| what.clone(), &made, (!allowed).then_some((18, place)));
}

#[test]
fn integers_and_years() {
    for byte in 0..=255u8 {
        value(1, 0, Value::Integer(i64::from(byte as i8)), true);
        value(
            13,
            0,
            Value::Year(if byte == 0 { 0 } else { 1900 + u32::from(byte) }),
            true,
        );
    }
    for (kind, width) in [(1, 8), (2, 16), (9, 24), (3, 32), (8, 64)] {
        for bit in 0..width {
            // the highest bit is the sign
            let one = (1i64 << bit) << (64 - width) >> (64 - width);
            value(kind, 0, Value::Integer(one), true);
            value(kind, 0, Value::Integer(!one), true);
        }
    }
}

#[test]
fn dates() {
    for month in 0..=15 {
        for day in 0..=31 {
            for year in [0, 1, 2017, 9999, 32767] {
                value(10, 0, Value::Date { year, month, day }, month <= 12);
            }
        }
    }
}

#[test]
fn clocks() {
    for minute in 0..=63 {
        for second in [0, 1, 59, 60, 63, minute] {
            let sound = minute <= 59 && second <= 59;
            for hour in [0, 23, 24, 31] {
                let (year, month, day) = (2017, 12, 14);
                let stored = Value::DateTime {
                    year,
                    month,
                    day,
                    hour,
                    minute,
                    second,
                    micros: 0,
                };
                value(18, 0, stored, sound && hour <= 23);
            }
            for hour in [1, 837, 838, 839, 2047] {
                for negative in [false, true] {
                    let stored = Value::Time {
                        negative,
                        hour,
                        minute,
                        second,
                        micros: 0,
                    };
                    value(19, 0, stored, sound && hour <= 838);
                }
            }
        }
    }
}

#[test]
fn fractions() {
    for digits in 1..=6u16 {
        let (unit, most) =
            [(10_000, 255), (100, 65_535), (1, 16_777_215)][usize::from(digits - 1) / 2];
        let second = 1_000_000 / unit;
        let near = [0, 1, second / 10, second - 1, second, second + 1, most];
        let all = (0..=255.min(most)).chain(near);
        for micros in all.map(|count| count * unit) {
            let sound = micros < 1_000_000;
            value(
                17,
                digits,
                Value::Timestamp {
                    seconds: u32::MAX,
                    micros,
                },
                sound,
            );
            let (year, month, day, hour, minute, second) = (10_082, 5, 31, 23, 59, 59);
            let stored = Value::DateTime {
                year,
                month,
                day,
                hour,
                minute,
                second,
                micros,
            };
            value(18, digits, stored, sound);
            for negative in [false, true] {
                let stored = Value::Time {
                    negative,
                    hour: 838,
                    minute,
                    second,
                    micros,
                };
                value(19, digits, stored, sound);
            }
        }
    }
}

#[test]
fn text_lengths() {
    for longest in [0u16, 1, 2, 254, 255, 256, 257, 65_534, 65_535] {
        let said = if longest < 256 { 255 } else { 65_535 };
        let around = [0, 1, usize::from(longest).saturating_sub(1), longest.into()];
        for length in around.into_iter().chain([usize::from(longest) + 1, said]) {
            if length <= said {
                let text = Value::Text(Part {
                    place: 0,
                    bytes: vec![b'x'; length],
                });
                value(15, longest, text, length <= longest.into());
            }
        }
    }
    for k in 1..=4 {
        for length in [0, 1, 255, 256, 65_535, 65_536]
            .into_iter()
            .filter(|it| *it >> (8 * k) == 0)
        {
            let text = Value::Text(Part {
                place: 0,
                bytes: vec![b'x'; length],
            });
            value(252, k, text, true);
        }
    }
}
