//! Cuts, single changed bytes, and bytes changed with the rest repaired.

use crate::print::{Made, Marks};
use crate::rng::Rng;
use crate::truth::{Change, Counts, Refusal};

/// A log's first `length` bytes and what they must answer.
pub struct Cut {
    pub length: usize,
    pub expected: Result<Counts, Refusal>,
}

/// Every cut of a log, the uncut log last.
pub fn cuts(made: &Made) -> Vec<Cut> {
    (0..=made.bytes.len())
        .map(|length| Cut {
            length,
            expected: cut(made, length),
        })
        .collect()
}

fn cut(made: &Made, length: usize) -> Result<Counts, Refusal> {
    let refused = |number, place| Err(Refusal { number, place });
    match length {
        0..=3 => return refused(2, 0),
        4 => return refused(3, 4),
        _ => {}
    }
    if length < made.bytes.len() && !made.starts.contains(&length) {
        let event = made.starts.iter().rev().find(|start| **start < length);
        return refused(4, event.copied().unwrap_or(4));
    }
    let before = |start: &&usize| **start < length;
    let change = |it: &&Change| (it.head.listing[1] as usize) < length;
    Ok(Counts {
        events: made.starts.iter().filter(before).count(),
        changes: made.truth.changes.iter().filter(change).count(),
    })
}

/// What a log must answer if its byte `at` is any other: the places and
/// numbers that are possible, or `None` where that hangs on the byte. A
/// checksum catches every single byte, at the latest.
pub fn changed_bytes(made: &Made, at: usize) -> Option<(usize, &'static [u32])> {
    let event = made.starts.iter().rev().find(|start| **start <= at);
    match event {
        None => Some((0, &[2])),
        Some(4) => Some((4, &[3, 4, 6, 7, 8, 9])),
        Some(start) if made.tree.description.kind == 1 => Some((*start, &[4, 5, 8, 9, 10])),
        Some(_) => None,
    }
}

/// The log with byte `at` changed and its event's checksum repaired; `None`
/// for a byte of a length, a next position or a checksum.
pub fn repaired(made: &Made, at: usize, new: u8) -> Option<Vec<u8>> {
    let which = made.starts.iter().rposition(|start| *start <= at)?;
    let offset = at - made.starts[which];
    let sheet = made.draft.sheets.get(which)?;
    if (9..17).contains(&offset) || offset >= sheet.bytes.len() {
        return None;
    }
    let mut draft = made.draft.clone();
    draft.sheets[which].bytes[offset] = new;
    Some(draft.assemble().0)
}

/// The log with a few bytes of one event changed, put in or left out, mostly
/// near the borders of its parts; lengths, positions and checksums agree.
pub fn touched(rng: &mut Rng, made: &Made) -> Vec<u8> {
    let mut draft = made.draft.clone();
    for _ in 0..rng.range(1, 2) {
        let which = rng.below(draft.sheets.len());
        let sheet = &mut draft.sheets[which];
        let borders = borders(&sheet.marks);
        let at = if borders.is_empty() || rng.once_in(4) {
            rng.below(sheet.bytes.len())
        } else {
            (rng.pick(&borders) + rng.below(4)).saturating_sub(1)
        };
        let at = at.min(sheet.bytes.len());
        match rng.below(5) {
            0 => {
                let count = rng.range(1, 3);
                let new = rng.bytes(count);
                sheet.bytes.splice(at..at, new);
            }
            1 => {
                let end = (at + rng.range(1, 3)).min(sheet.bytes.len());
                // the 19 header bytes stay whole
                if at >= 19 {
                    sheet.bytes.drain(at..end);
                }
            }
            _ => {
                let any = rng.byte();
                let new = rng.pick(&[0, 1, 2, 0x7f, 0x80, 250, 251, 252, 253, 254, 255, any, any]);
                crate::print::put(&mut sheet.bytes, at, &[new]);
            }
        }
    }
    draft.assemble().0
}

/// Where the parts of an event begin and end.
fn borders(marks: &Marks) -> Vec<usize> {
    match marks {
        Marks::Free => Vec::new(),
        Marks::Map(map) => {
            let ranges = [
                &map.count,
                &map.metadata_length,
                &map.metadata,
                &map.nullable,
            ];
            let mut all = vec![
                map.body,
                map.names[0],
                map.names[1],
                map.zeros[0],
                map.zeros[1],
            ];
            all.extend(ranges.iter().flat_map(|range| [range.start, range.end]));
            all
        }
        Marks::Rows(rows) => {
            let mut all = vec![rows.body, rows.body + 6, rows.body + 8, rows.post_end];
            all.extend([rows.count.start, rows.count.end]);
            all.extend(rows.used.iter().map(|range| range.end));
            for image in &rows.images {
                all.push(image.whole.start);
                all.extend(
                    image
                        .values
                        .iter()
                        .flat_map(|(_, range)| [range.start, range.end]),
                );
            }
            all
        }
    }
}
