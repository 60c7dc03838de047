//! The made logs reach what 01's rules tell apart. A feature that no log has
//! fails the test.

use std::collections::BTreeMap;

use logs::{longer, valid, Body, Cell, Event, Log, Made, Map, Rows, Shape, Value};

#[derive(Default)]
struct Seen(BTreeMap<String, u64>);

impl Seen {
    fn add(&mut self, what: impl Into<String>) {
        *self.0.entry(what.into()).or_default() += 1;
    }

    fn if_so(&mut self, so: bool, what: &str) {
        let count = self.0.entry(what.to_string()).or_default();
        *count += u64::from(so);
    }
}

fn log(seen: &mut Seen, made: &Made) {
    let Log {
        description,
        events,
    } = &made.tree;
    seen.if_so(events.is_empty(), "description alone");
    seen.if_so(description.header > 19, "H above 19");
    seen.if_so(description.header == 19, "H 19");
    seen.if_so(description.entries.len() == 32, "32 entries");
    seen.if_so(description.entries.len() == 255, "255 entries");
    for kind in [19, 30, 31, 32] {
        seen.if_so(
            description.entry(kind) > 10,
            &format!("longer post-header of {kind}"),
        );
    }
    seen.add(format!("checksum kind {}", description.kind));
    let mut live = Vec::new();
    for event in events {
        event_seen(seen, event, description.header);
        match &event.body {
            Body::Map(map) => {
                let again = live.contains(&map.id);
                seen.if_so(again, "id mapped again");
                seen.if_so(again && live.len() == 16, "id mapped again with 16 live");
                live.retain(|id| *id != map.id);
                live.push(map.id);
                seen.if_so(live.len() == 16, "16 live ids");
                map_seen(seen, map);
            }
            Body::Rows(rows) => {
                seen.if_so(live.len() > 1 && rows.ends_statement(), "many maps dropped");
                if rows.ends_statement() {
                    live.clear();
                }
                rows_seen(seen, event.kind, rows, events);
            }
            Body::Free(_) => {}
        }
    }
}

fn event_seen(seen: &mut Seen, event: &Event, header: u8) {
    let named = [2, 3, 4, 16, 28, 29, 33, 34, 35, 19, 30, 31, 32].contains(&event.kind);
    if named {
        seen.add(format!("event type {}", event.kind));
    } else {
        seen.add("unknown ignorable event");
        assert_eq!(event.flags & 0x80, 0x80);
    }
    seen.if_so(event.kind == 4 && header > 19, "type 4 under a longer H");
    seen.if_so(event.kind == 0, "event type 0");
    seen.if_so(event.kind == 255, "event type 255");
}

fn map_seen(seen: &mut Seen, map: &Map) {
    for column in &map.columns {
        seen.add(format!("column type {}", column.kind));
        if matches!(column.kind, 17..=19 | 252) {
            seen.add(format!("column type {} with {}", column.kind, column.meta));
        }
        if column.kind == 15 && matches!(column.meta, 0 | 255 | 256 | 65535) {
            seen.add(format!("VARCHAR of {}", column.meta));
        }
    }
    for count in [1, 8, 9, 511, 512] {
        seen.if_so(map.columns.len() == count, &format!("{count} columns"));
    }
    seen.if_so(map.database.is_empty(), "empty name");
    seen.if_so(map.table.contains(&0), "name with a zero byte");
    seen.if_so(map.table.len() == 255, "name of 255 bytes");
    seen.if_so(!map.tail.is_empty(), "bytes after the nullable bits");
    let spare = map.nullable.spare != 0 && !map.columns.len().is_multiple_of(8);
    seen.if_so(spare, "spare nullable bits");
    for form in [map.count_form, map.metadata_form] {
        seen.add(format!("packed {form:?}"));
    }
}

fn rows_seen(seen: &mut Seen, kind: u8, rows: &Rows, events: &[Event]) {
    seen.if_so(rows.rows.is_empty(), "no rows");
    seen.if_so(
        rows.rows.is_empty() && rows.ends_statement(),
        "no rows, statement end",
    );
    seen.if_so(rows.rows.len() > 1, "many rows");
    seen.if_so(!rows.extra.is_empty(), "extra block");
    for used in &rows.used {
        seen.if_so(used.set.iter().any(|bit| !bit), "partial used set");
        seen.if_so(
            !used.set.len().is_multiple_of(8) && used.spare != 0,
            "spare used bits",
        );
    }
    let differ = rows.used.len() == 2 && rows.used[0].set != rows.used[1].set;
    seen.if_so(kind == 31 && differ, "used sets of an update differ");
    let nullable = events.iter().rev().find_map(|event| match &event.body {
        Body::Map(map) if map.id == rows.id => Some(&map.nullable.set),
        _ => None,
    });
    for image in rows.rows.iter().flatten() {
        seen.if_so(image.spare != 0, "spare null bits");
        for (at, cell) in image.cells.iter().enumerate() {
            let not = nullable.is_some_and(|set| set.get(at) == Some(&false));
            seen.if_so(*cell == Cell::Null && not, "null where it isn't nullable");
            cell_seen(seen, cell);
        }
    }
}

fn cell_seen(seen: &mut Seen, cell: &Cell) {
    let Cell::Stored(kind, value) = cell else {
        return seen.add(format!("{cell:?}"));
    };
    seen.add(format!("stored {kind}"));
    match value {
        Value::Integer(number) => seen.if_so(*number < 0, &format!("negative {kind}")),
        Value::Float(bits) => seen.if_so(f32::from_bits(*bits).is_nan(), "NaN, 4 bytes"),
        Value::Double(bits) => seen.if_so(f64::from_bits(*bits).is_nan(), "NaN, 8 bytes"),
        Value::Date { month, day, .. } => seen.if_so(*month == 0 || *day == 0, "month or day 0"),
        Value::Year(year) => seen.if_so(*year == 0, "year 0"),
        Value::Time {
            negative, micros, ..
        } => {
            seen.if_so(*negative && *micros > 0, "negative time with a fraction");
        }
        Value::Text(part) => {
            seen.if_so(part.bytes.is_empty(), "empty text");
            seen.if_so(part.bytes.len() > 65_535, "text above 65,535 bytes");
            seen.if_so(part.bytes.len() == 65_535, "text of 65,535 bytes");
        }
        Value::Timestamp { .. } => {}
        Value::DateTime { year, .. } => seen.if_so(*year > 9999, "year above 9999"),
    }
}

#[test]
fn every_feature() {
    let mut seen = Seen::default();
    for seed in 0..300 {
        for (at, shape) in Shape::ALL.into_iter().enumerate() {
            let made = valid(seed * 6 + at as u64, shape);
            log(&mut seen, &made);
            let new = longer(seed, &made);
            seen.if_so(new.added > 0, "longer: events added");
            let (was, is) = (&made.tree.description, &new.made.tree.description);
            seen.if_so(is.header > was.header, "longer: H");
            seen.if_so(is.entry(19) > was.entry(19), "longer: post-header");
            seen.if_so(is.entries.len() > was.entries.len(), "longer: entries");
            seen.if_so(new.made.bytes == made.bytes, "longer: nothing added");
        }
    }
    let kinds = |front| seen.0.keys().filter(|it| it.starts_with(front)).count();
    // 9 that are stepped over, 4 that are read, and 0 and 255
    assert_eq!(kinds("event type"), 15);
    // F 0 to 6 for three types, k 1 to 4 for one
    assert_eq!(kinds("column type"), 14 + 21 + 4);
    assert_eq!(kinds("stored"), 14);
    assert_eq!(kinds("packed"), 4);
    assert_eq!(kinds("checksum kind"), 2);
    assert_eq!(kinds("VARCHAR"), 4);
    let missed: Vec<&String> = seen
        .0
        .iter()
        .filter(|(_, count)| **count == 0)
        .map(|(what, _)| what)
        .collect();
    assert!(missed.is_empty(), "no log has: {missed:?}");
}
