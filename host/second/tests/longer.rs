//! Demand 3: a real log made longer as a newer server may make it answers as
//! the log itself does.

mod making;

use making::*;
use second::*;

const LOGS: [&[u8]; 2] = [
    include_bytes!("../../../crates/evidence/data/real/mysql-base-crc32-minimal.binlog"),
    include_bytes!("../../../crates/evidence/data/real/mysql-part-crc32.binlog"),
];

/// By how much a log grows.
struct Growth {
    header: usize,
    map_post: usize,
    rows_post: [usize; 3],
    extra: usize,
    after_map: usize,
    entries: usize,
    /// An ignorable event of an unknown type after every so many.
    every: usize,
}

/// A log's events after the description: type, flags and body.
fn events(log: &[u8]) -> Vec<(u8, u16, &[u8])> {
    let mut rest = &log[4..];
    let mut events = Vec::new();
    while !rest.is_empty() {
        let length = u32::from_le_bytes(rest[9..13].try_into().unwrap()) as usize;
        let flags = u16::from_le_bytes([rest[17], rest[18]]);
        events.push((rest[4], flags, &rest[19..length - 4]));
        rest = &rest[length..];
    }
    events
}

/// The longer log, and how many events were added.
fn longer(log: &[u8], by: &Growth) -> (Vec<u8>, usize) {
    let old = events(log);
    let mut first = old[0].2.to_vec();
    let kind = first.pop().unwrap();
    first[56] += by.header as u8;
    first[57 + 18] += by.map_post as u8;
    for (entry, more) in first[57 + 29..].iter_mut().zip(by.rows_post) {
        *entry += more as u8;
    }
    first.resize(first.len() + by.entries, 0xee);
    first.push(kind);
    let mut new = Log::opened();
    new.event(15, 0, &first);
    new.header += by.header;
    let mut added = 0;
    for (number, (kind, flags, body)) in old[1..].iter().enumerate() {
        let mut body = body.to_vec();
        match *kind {
            TABLE_MAP => {
                body.splice(8..8, vec![0xcc; by.map_post]);
                body.resize(body.len() + by.after_map, 0xdd);
            }
            WRITE..=DELETE => {
                let length = u16::from_le_bytes([body[8], body[9]]) as usize + by.extra;
                body[8..10].copy_from_slice(&(length as u16).to_le_bytes());
                let post = by.rows_post[usize::from(kind - WRITE)];
                body.splice(10..10, vec![0xbb; post + by.extra]);
            }
            _ => {}
        }
        new.event(*kind, *flags, &body);
        if by.every > 0 && number % by.every == 0 {
            new.event([0, 14, 38, 200][number % 4], 0x80, &vec![1; number % 9]);
            added += 1;
        }
    }
    (new.bytes, added)
}

type Told<'a> = (u32, &'a [u8], &'a [u8], u64, [Option<Vec<Cell<'a>>>; 2]);

fn told<'a>(reading: &Reading<'a>) -> Vec<Told<'a>> {
    let sides = |c: &Change<'a>| [c.before(), c.after()].map(|image| image.map(Iterator::collect));
    reading
        .changes()
        .map(|c| (c.entry[0], c.database, c.table, c.table_id, sides(&c)))
        .collect()
}

#[test]
fn longer_logs_answer_alike() {
    let none = Growth {
        header: 0,
        map_post: 0,
        rows_post: [0; 3],
        extra: 0,
        after_map: 0,
        entries: 0,
        every: 0,
    };
    for log in LOGS {
        // The making itself changes nothing but server ids and times.
        let (same, _) = longer(log, &none);
        assert_eq!(same.len(), log.len());
        let reading = read(log).unwrap();
        for growth in [
            Growth {
                header: 236,
                ..none
            },
            Growth {
                map_post: 247,
                ..none
            },
            Growth {
                rows_post: [1, 2, 245],
                ..none
            },
            Growth { extra: 300, ..none },
            Growth {
                after_map: 9,
                ..none
            },
            Growth {
                entries: 213,
                ..none
            },
            Growth { every: 1, ..none },
            Growth {
                header: 1,
                map_post: 2,
                rows_post: [3, 4, 5],
                extra: 6,
                after_map: 7,
                entries: 8,
                every: 9,
            },
        ] {
            let (bytes, added) = longer(log, &growth);
            let other = read(&bytes).unwrap();
            assert_eq!(other.counts().events, reading.counts().events + added);
            assert_eq!(told(&other), told(&reading));
        }
    }
}
