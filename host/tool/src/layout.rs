//! What `show` needs and no question answers: the fraction digits of a
//! table's columns, and the partition of a rows event. Read of accepted logs;
//! of any other bytes the answer may be wrong, but there is one.

/// A little-endian number of up to 8 bytes.
pub fn number(log: &[u8], place: usize, size: usize) -> Option<u64> {
    let bytes = log.get(place..place.checked_add(size)?)?;
    Some(
        bytes
            .iter()
            .rev()
            .fold(0, |n, byte| n << 8 | u64::from(*byte)),
    )
}

/// The place after an event's header and post-header (01, Framing): the
/// description, at 4, has the header's length at 75, then one post-header
/// length for each type from 1.
fn body(log: &[u8], event: usize, kind: u8) -> Option<usize> {
    let header = number(log, 4 + 75, 1)? as usize;
    let post_header = number(log, 4 + 75 + usize::from(kind), 1)? as usize;
    event.checked_add(header + post_header)
}

/// A packed number, and the place after it (01, Table maps).
fn packed(log: &[u8], place: usize) -> Option<(usize, usize)> {
    let size = match log.get(place)? {
        252 => 2,
        253 => 3,
        254 => 8,
        first => return Some((usize::from(*first), place + 1)),
    };
    let n = usize::try_from(number(log, place + 1, size)?).ok()?;
    Some((n, place + 1 + size))
}

/// The fraction digits F of each column of a table map, into `digits`; 0 for
/// columns that have none.
pub fn fraction_digits(log: &[u8], map: usize, digits: &mut Vec<u8>) -> Option<()> {
    digits.clear();
    let mut place = body(log, map, 19)?;
    for _name in 0..2 {
        place += usize::from(*log.get(place)?) + 2;
    }
    let (columns, place) = packed(log, place)?;
    let types = log.get(place..place.checked_add(columns)?)?;
    let (_size, mut place) = packed(log, place + columns)?;
    for kind in types {
        let fraction = match kind {
            17..=19 => *log.get(place)?,
            _ => 0,
        };
        digits.push(fraction);
        place += match kind {
            4 | 5 | 17..=19 | 252 => 1,
            15 => 2,
            _ => 0,
        };
    }
    Some(())
}

/// The partitions that a rows event is of.
#[derive(Clone, Copy, PartialEq, Eq)]
pub enum Partition {
    One(u64),
    Move { source: u64, target: u64 },
}

/// The partition in the extra block of a rows event, if it has one: a block
/// of tag 1 (MySQL 8.0.16 and later), after any of tag 0, whose next byte is
/// its length.
pub fn partition(log: &[u8], event: usize, kind: u8) -> Option<Partition> {
    let header = number(log, 4 + 75, 1)? as usize;
    let extra = number(log, event.checked_add(header + 8)?, 2)? as usize;
    let start = body(log, event, kind)?;
    let mut rest = log.get(start..start.checked_add(extra.checked_sub(2)?)?)?;
    while let [0, length, ..] = *rest {
        rest = rest.get(1 + usize::from(length).max(1)..)?;
    }
    match (*rest.first()?, kind) {
        (1, 31) => Some(Partition::Move {
            target: number(rest, 1, 2)?,
            source: number(rest, 3, 2)?,
        }),
        (1, _) => Some(Partition::One(number(rest, 1, 2)?)),
        _ => None,
    }
}
