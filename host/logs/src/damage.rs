//! Damaged logs that must be refused by a known number at a known place.
//! Whatever the fault doesn't touch, and what is judged before it, is sound.

use std::ops::Range;

use crate::print::{put, sheet, Draft, Made, MapMarks, Marks, RowsMarks, Sheet};
use crate::rng::Rng;
use crate::tree::{Body, Column, Event, Form, READ};
use crate::truth::Refusal;
use crate::valid::{event, fresh_id, map, unknown_type};

pub struct Damaged {
    pub bytes: Vec<u8>,
    pub expected: Refusal,
}

/// Where the fault is: an event (0 is the description) and a place in it.
struct Fault {
    sheet: usize,
    offset: usize,
}

impl Fault {
    fn event(sheet: usize) -> Option<Fault> {
        Some(Fault { sheet, offset: 0 })
    }
}

/// A log refused by `number`, 2 to 18, or `None` if this log or this throw
/// of the dice has nothing that could be.
pub fn damage(rng: &mut Rng, made: &Made, number: u32) -> Option<Damaged> {
    if number == 2 {
        return Some(opening(rng, made));
    }
    if number == 4 && rng.once_in(2) {
        return Some(cut(rng, made));
    }
    let mut draft = made.draft.clone();
    let any = rng.below(draft.sheets.len());
    let later = rng.range(1, draft.sheets.len().max(2) - 1);
    let has_later = draft.sheets.len() > 1;
    let fault = match number {
        3 => first_event(rng, &mut draft),
        4 if has_later => past_end(rng, &mut draft, made, later),
        5 if has_later => too_short(rng, &mut draft, made, later),
        6 => description(rng, &mut draft),
        7 => version(rng, &mut draft),
        8 => wrong_sum(rng, &mut draft, any),
        9 => next_position(rng, &mut draft, made, any),
        10 => second_description(rng, &mut draft, made),
        11 => unsupported(rng, &mut draft, made),
        12 if rng.once_in(6) => bad_seventeenth(rng, &mut draft, made),
        12 | 13 => table_map(rng, &mut draft, number),
        14 => too_many_live(rng, &mut draft, made),
        15 if rng.once_in(2) => stray_rows(rng, &mut draft, made),
        15..=18 => rows(rng, &mut draft, made, number),
        _ => None,
    }?;
    // the first fault wins, so what follows it is free
    if rng.once_in(3) && fault.sheet + 1 < draft.sheets.len() {
        spoil(rng, &mut draft, fault.sheet + 1);
    }
    let (bytes, starts) = draft.assemble();
    let place = starts.get(fault.sheet)? + fault.offset;
    Some(Damaged {
        bytes,
        expected: Refusal { number, place },
    })
}

/// A valid log with an unknown event that isn't marked ignorable put in, and
/// anything behind it (demand 3).
pub fn unmarked(rng: &mut Rng, made: &Made) -> Damaged {
    let mut draft = made.draft.clone();
    let at = rng.range(1, draft.sheets.len());
    let kind = unknown_type(rng);
    draft.sheets.insert(at, free(rng, made, kind, 0));
    let (mut bytes, starts) = draft.assemble();
    let start = starts.get(at).copied().unwrap_or(0);
    if rng.once_in(2) {
        bytes.truncate(starts.get(at + 1).copied().unwrap_or(bytes.len()));
        let junk = rng.length(60);
        bytes.extend(rng.bytes(junk));
    }
    Damaged {
        bytes,
        expected: Refusal {
            number: 11,
            place: start,
        },
    }
}

/// An event with a random body.
fn free(rng: &mut Rng, made: &Made, kind: u8, mark: u16) -> Sheet {
    let length = rng.length(30);
    let body = Body::Free(rng.bytes(length));
    sheet(
        &made.tree.description,
        &event(rng, &made.tree.description, kind, mark, body),
    )
}

fn spoil(rng: &mut Rng, draft: &mut Draft, from: usize) {
    let at = rng.range(from, draft.sheets.len() - 1);
    let sheet = &mut draft.sheets[at];
    let offset = rng.below(sheet.bytes.len());
    let new = rng.byte();
    put(&mut sheet.bytes, offset, &[new]);
    sheet.sum_flip = rng.number() as u32;
}

fn opening(rng: &mut Rng, made: &Made) -> Damaged {
    let mut bytes = made.bytes.clone();
    if rng.once_in(3) {
        bytes.truncate(rng.below(4));
    } else {
        let flip = rng.range(1, 255) as u8;
        let at = rng.below(4);
        bytes[at] ^= flip;
    }
    Damaged {
        bytes,
        expected: Refusal {
            number: 2,
            place: 0,
        },
    }
}

fn cut(rng: &mut Rng, made: &Made) -> Damaged {
    let which = rng.below(made.starts.len());
    let start = made.starts[which];
    let end = made
        .starts
        .get(which + 1)
        .copied()
        .unwrap_or(made.bytes.len());
    let whole = end - start;
    let any = rng.range(1, whole - 1);
    let keep = rng.pick(&[1, 18, 19, whole - 1, any]).min(whole - 1);
    let bytes = made.bytes[..start + keep].to_vec();
    Damaged {
        bytes,
        expected: Refusal {
            number: 4,
            place: start,
        },
    }
}

fn first_event(rng: &mut Rng, draft: &mut Draft) -> Option<Fault> {
    if rng.once_in(4) {
        draft.sheets.clear();
        // nothing follows the opening bytes: the place is theirs all the same
        draft
            .sheets
            .push(Sheet::new(Vec::new(), Marks::Free, false));
    } else {
        let flip = rng.range(1, 255) as u8;
        draft.sheets[0].bytes[4] ^= flip;
        draft.sheets[0].sum_flip = rng.number() as u32;
    }
    Fault::event(0)
}

fn past_end(rng: &mut Rng, draft: &mut Draft, made: &Made, at: usize) -> Option<Fault> {
    let left = (made.bytes.len() - made.starts[at]) as u32;
    let far = rng.number() as u32 | 1 << 31;
    draft.sheets[at].length = Some(rng.pick(&[left + 1, u32::MAX, far]));
    Fault::event(at)
}

fn too_short(rng: &mut Rng, draft: &mut Draft, made: &Made, at: usize) -> Option<Fault> {
    let description = &made.tree.description;
    let least = description.header_of(draft.sheets[at].bytes[4]) + description.sum();
    let any = rng.below(least);
    draft.sheets[at].length = Some(rng.pick(&[0, least - 1, 18, any]).min(least - 1) as u32);
    Fault::event(at)
}

fn description(rng: &mut Rng, draft: &mut Draft) -> Option<Fault> {
    let it = &mut draft.sheets[0];
    let kind_at = it.bytes.len() - 1;
    match rng.below(7) {
        0 => it.length = Some(rng.pick(&[0, 19, 112, 337, 338, u32::MAX])),
        // too few entries, or too many, really
        1 => {
            let count = rng.pick(&[0, 31, 256, 300]);
            it.bytes.splice(76..kind_at, vec![20; count]);
        }
        _ => {
            let (at, new) = bad_field(rng, kind_at);
            put(&mut it.bytes, at, &new);
        }
    }
    // 6 is judged before the server version and the checksum
    if rng.once_in(3) {
        put(&mut it.bytes, 21, b"x");
    }
    it.sum_flip = rng.pick(&[0, 0, 1 << 31]);
    Fault::event(0)
}

/// A field of the description: its place, and bytes that are refused.
fn bad_field(rng: &mut Rng, kind_at: usize) -> (usize, Vec<u8>) {
    match rng.below(5) {
        0 => {
            let version = rng.pick(&[0u16, 1, 3, 5, 0x104, 0x400, u16::MAX]);
            (19, version.to_le_bytes().to_vec())
        }
        1 => (75, vec![rng.pick(&[0, 1, 18])]),
        2 => (kind_at, vec![rng.pick(&[2, 3, 128, 255])]),
        _ => {
            let (kind, least) = rng.pick(&READ);
            (75 + usize::from(kind), vec![rng.below(least.into()) as u8])
        }
    }
}

fn version(rng: &mut Rng, draft: &mut Draft) -> Option<Fault> {
    let texts: [&str; 28] = [
        "5.6.0",
        "5.5.99",
        "5.5.255",
        "4.255.255",
        "0.0.0",
        "5.06.0",
        "3.23.58",
        "5.6",
        "5.6.",
        "5..1",
        ".5.6.1",
        "5.6.256",
        "256.0.0",
        "5.256.1",
        "5.6.1234",
        "5.6.0001",
        "0005.6.1",
        "5.0006.1",
        "a.b.c",
        "",
        " 5.6.1",
        "+5.6.1",
        "5.6.-1",
        "5,6,1",
        "5.6-1",
        "5.6.x",
        "999.6.1",
        "99999999999999999999999999999999999999999999999999",
    ];
    let mut text = rng.pick(&texts).as_bytes().to_vec();
    text.push(0);
    text.extend(rng.bytes(50));
    text.truncate(50);
    put(&mut draft.sheets[0].bytes, 21, &text);
    draft.sheets[0].sum_flip = rng.pick(&[0, 0, 1]);
    Fault::event(0)
}

fn wrong_sum(rng: &mut Rng, draft: &mut Draft, at: usize) -> Option<Fault> {
    let sheet = &mut draft.sheets[at];
    if !sheet.summed {
        return None;
    }
    sheet.sum_flip = 1 << rng.below(32);
    // the type is judged later; a type 4 stays, its header may be below H
    if at > 0 && sheet.bytes[4] != 4 && rng.once_in(3) {
        sheet.bytes[4] = 40;
    }
    Fault::event(at)
}

fn next_position(rng: &mut Rng, draft: &mut Draft, made: &Made, at: usize) -> Option<Fault> {
    let end = made.starts.get(at + 1).copied().unwrap_or(made.bytes.len()) as u32;
    let any = rng.number() as u32;
    let next = rng.pick(&[
        0,
        end - 1,
        end + 1,
        end ^ 1 << 31,
        made.starts[at] as u32,
        any,
    ]);
    if next == end {
        return None;
    }
    let sheet = &mut draft.sheets[at];
    sheet.next = Some(next);
    sheet.sum_flip = rng.pick(&[0, 1]);
    if at == 0 && rng.once_in(2) {
        // the fields are judged later
        put(&mut sheet.bytes, 19, &[9]);
    }
    Fault::event(at)
}

fn second_description(rng: &mut Rng, draft: &mut Draft, made: &Made) -> Option<Fault> {
    let at = rng.range(1, draft.sheets.len());
    let mut new = if rng.once_in(2) {
        draft.sheets[0].clone()
    } else {
        free(rng, made, 15, 0)
    };
    // whatever its length, position and checksum are
    if rng.once_in(2) {
        new.length = Some(rng.pick(&[0, 19, u32::MAX]));
    }
    if rng.once_in(2) {
        new.next = Some(0);
    }
    new.sum_flip = rng.pick(&[0, 1]);
    draft.sheets.insert(at, new);
    Fault::event(at)
}

fn unsupported(rng: &mut Rng, draft: &mut Draft, made: &Made) -> Option<Fault> {
    let (kind, mark) = if rng.once_in(2) {
        (unknown_type(rng), 0)
    } else {
        // the mark doesn't save a type that a rule names
        (
            rng.pick(&[20, 21, 22, 23, 24, 25, 39, 40]),
            rng.pick(&[0, 0x80]),
        )
    };
    let changed: Vec<usize> = (1..draft.sheets.len())
        .filter(|at| draft.sheets[*at].bytes[4] != 4)
        .collect();
    if !changed.is_empty() && rng.once_in(2) {
        let at = rng.pick(&changed);
        let bytes = &mut draft.sheets[at].bytes;
        bytes[4] = kind;
        bytes[17] = bytes[17] & !0x80 | mark as u8;
        return Fault::event(at);
    }
    let at = rng.range(1, draft.sheets.len());
    draft.sheets.insert(at, free(rng, made, kind, mark));
    Fault::event(at)
}

/// One of the sheets whose marks `of` takes.
fn pick_sheet<M: Clone>(
    rng: &mut Rng,
    draft: &Draft,
    of: impl Fn(&Marks) -> Option<M>,
) -> Option<(usize, M)> {
    let all: Vec<(usize, M)> = draft
        .sheets
        .iter()
        .enumerate()
        .filter_map(|(at, sheet)| Some((at, of(&sheet.marks)?)))
        .collect();
    (!all.is_empty()).then(|| rng.pick(&all))
}

fn table_map(rng: &mut Rng, draft: &mut Draft, number: u32) -> Option<Fault> {
    let (at, marks) = pick_sheet(rng, draft, |marks| match marks {
        Marks::Map(map) => Some(map.clone()),
        _ => None,
    })?;
    let bytes = &mut draft.sheets[at].bytes;
    if number == 12 {
        bad_map(rng, bytes, &marks);
    } else if rng.once_in(2) {
        bad_type(rng, bytes, &marks);
    } else {
        bad_metadata(rng, bytes, &marks)?;
    }
    Fault::event(at)
}

/// A packed number that is too large, or is none.
fn bad_packed(rng: &mut Rng) -> Vec<u8> {
    let any = rng.number() | 1 << 40;
    rng.pick(&[
        vec![251],
        vec![255],
        Form::Eight.pack(u64::MAX),
        Form::Eight.pack(any),
        Form::Three.pack(0xff_ffff),
    ])
}

fn bad_map(rng: &mut Rng, bytes: &mut Vec<u8>, marks: &MapMarks) {
    match rng.below(5) {
        0 | 1 => bytes.truncate(rng.range(marks.body, marks.nullable.end - 1)),
        2 => {
            let zero = rng.pick(&marks.zeros);
            let new = rng.range(1, 255) as u8;
            put(bytes, zero, &[new]);
        }
        3 => {
            let form = rng.pick(&[Form::None, Form::Two, Form::Three, Form::Eight]);
            let number = rng.pick(&[0, 0, 513, 514, 65535]);
            let bad = bad_packed(rng);
            let new = rng.pick(&[form.pack(number), bad]);
            bytes.splice(marks.count.clone(), new);
        }
        _ => {
            let length = marks.metadata.len() as u64;
            let other = if length > 0 && rng.once_in(2) {
                length - 1
            } else {
                length + 1
            };
            let bad = bad_packed(rng);
            let new = rng.pick(&[Form::None.pack(other), Form::Eight.pack(other), bad]);
            // the length is judged before the contents
            if rng.once_in(3) {
                let junk = rng.bytes(marks.metadata.len());
                put(bytes, marks.metadata.start, &junk);
            }
            bytes.splice(marks.metadata_length.clone(), new);
        }
    }
}

fn bad_type(rng: &mut Rng, bytes: &mut Vec<u8>, marks: &MapMarks) {
    let others: Vec<u8> = (0..=255)
        .filter(|kind| !crate::values::KINDS.contains(kind))
        .collect();
    let known = [
        0, 6, 7, 11, 12, 14, 16, 245, 246, 247, 248, 249, 250, 251, 253, 254, 255,
    ];
    let at = rng.range(marks.types.start, marks.types.end - 1);
    let kind = if rng.once_in(2) {
        rng.pick(&others)
    } else {
        rng.pick(&known)
    };
    put(bytes, at, &[kind]);
    // the types are judged before anything behind them
    if rng.once_in(2) {
        bytes.truncate(rng.range(marks.types.end, bytes.len()));
    }
}

fn bad_metadata(rng: &mut Rng, bytes: &mut Vec<u8>, marks: &MapMarks) -> Option<()> {
    let types = bytes[marks.types.clone()].to_vec();
    let mut place = marks.metadata.start;
    let mut found = Vec::new();
    for kind in types {
        if matches!(kind, 4 | 5 | 17..=19 | 252) {
            found.push((place, kind));
        }
        place += Column { kind, meta: 0 }.metadata().len();
    }
    if found.is_empty() {
        return None;
    }
    let (place, kind) = rng.pick(&found);
    let new = match kind {
        4 => rng.pick(&[0, 3, 5, 8, 255]),
        5 => rng.pick(&[0, 4, 7, 9, 255]),
        252 => rng.pick(&[0, 5, 8, 255]),
        _ => rng.pick(&[7, 8, 128, 255]),
    };
    put(bytes, place, &[new]);
    // the contents are judged before the nullable bits
    if rng.once_in(2) {
        bytes.truncate(rng.range(marks.metadata.end, bytes.len()));
    }
    Some(())
}

/// The ids that are live before event `at` of the tree.
fn live(events: &[Event]) -> Vec<u64> {
    let mut live = Vec::new();
    for event in events {
        match &event.body {
            Body::Map(map) if !live.contains(&map.id) => live.push(map.id),
            Body::Rows(rows) if rows.ends_statement() => live.clear(),
            _ => {}
        }
    }
    live
}

fn too_many_live(rng: &mut Rng, draft: &mut Draft, made: &Made) -> Option<Fault> {
    let description = &made.tree.description;
    let mut at = rng.range(1, draft.sheets.len());
    let mut ids = live(made.tree.events.get(..at - 1)?);
    loop {
        let id = fresh_id(rng, &ids);
        ids.push(id);
        let columns = (0..rng.range(1, 3)).map(|_| Column::random(rng)).collect();
        let body = Body::Map(map(rng, id, description.entry(19) - 8, columns));
        let event = event(rng, description, 19, 0, body);
        draft.sheets.insert(at, sheet(description, &event));
        if ids.len() == 17 {
            return Fault::event(at);
        }
        at += 1;
    }
}

/// Refusal 14 comes last: a 17th map that is malformed is 12.
fn bad_seventeenth(rng: &mut Rng, draft: &mut Draft, made: &Made) -> Option<Fault> {
    let fault = too_many_live(rng, draft, made)?;
    let sheet = &mut draft.sheets[fault.sheet];
    if let Marks::Map(marks) = sheet.marks.clone() {
        bad_map(rng, &mut sheet.bytes, &marks);
    }
    Some(fault)
}

fn rows(rng: &mut Rng, draft: &mut Draft, made: &Made, number: u32) -> Option<Fault> {
    let (at, marks) = pick_sheet(rng, draft, |marks| match marks {
        Marks::Rows(rows) => Some(rows.clone()),
        _ => None,
    })?;
    let Body::Rows(tree) = &made.tree.events.get(at - 1)?.body else {
        return None;
    };
    let bytes = &mut draft.sheets[at].bytes;
    match number {
        15 => {
            let taken = live(&made.tree.events[..at - 1]);
            no_map(rng, bytes, &marks, &taken);
        }
        16 => bad_head(rng, bytes, &marks, tree.columns.len()),
        17 => cut_rows(rng, bytes, &marks, &tree.columns)?,
        _ => {
            let offset = bad_value(rng, bytes, &marks, &tree.columns)?;
            return Some(Fault { sheet: at, offset });
        }
    }
    Fault::event(at)
}

/// A sound rows event once more where its map isn't live: before the map, or
/// after a statement end.
fn stray_rows(rng: &mut Rng, draft: &mut Draft, made: &Made) -> Option<Fault> {
    let events = &made.tree.events;
    let all = events.iter().enumerate();
    let rows: Vec<(usize, u64)> = all
        .filter_map(|(at, event)| match &event.body {
            Body::Rows(rows) => Some((at + 1, rows.id)),
            _ => None,
        })
        .collect();
    if rows.is_empty() {
        return None;
    }
    let (from, id) = rng.pick(&rows);
    let places: Vec<usize> = (0..=events.len())
        .filter(|at| !live(&events[..*at]).contains(&id))
        .collect();
    let at = rng.pick(&places) + 1;
    draft.sheets.insert(at, draft.sheets[from].clone());
    Fault::event(at)
}

fn no_map(rng: &mut Rng, bytes: &mut Vec<u8>, marks: &RowsMarks, taken: &[u64]) {
    let id = fresh_id(rng, taken);
    put(bytes, marks.body, &id.to_le_bytes()[..6]);
    match rng.below(3) {
        // the map is looked for once the post-header is there
        0 => bytes.truncate(rng.range(marks.post_end, bytes.len())),
        1 => put(bytes, marks.body + 8, &[0, 0]),
        _ => {}
    }
}

fn bad_head(rng: &mut Rng, bytes: &mut Vec<u8>, marks: &RowsMarks, columns: usize) {
    let end = marks.used.last().map_or(marks.count.end, |used| used.end);
    match rng.below(5) {
        0 => {
            bytes.truncate(rng.range(marks.body, end - 1));
            // a post-header that is cut is judged before the map
            if bytes.len() < marks.post_end {
                let there = bytes.len().min(marks.body + 6) - marks.body;
                let id = rng.bytes(there);
                put(bytes, marks.body, &id);
            }
        }
        1 => {
            let mut bad = vec![0, 1];
            if let Ok(past) = u16::try_from(bytes.len() - marks.post_end + 3) {
                bad.extend([past, u16::MAX]);
            }
            put(bytes, marks.body + 8, &rng.pick(&bad).to_le_bytes());
        }
        2 => {
            let new = other_count(rng, columns as u64);
            bytes.splice(marks.count.clone(), new);
        }
        _ => {
            let used = rng.pick(&marks.used);
            let mut none = vec![0; used.len()];
            // spare one bits are no columns
            if let (Some(last), true) = (none.last_mut(), !columns.is_multiple_of(8)) {
                *last = rng.pick(&[0, 0xff]) << (columns % 8);
            }
            put(bytes, used.start, &none);
            // also if there are no rows
            if rng.once_in(3) {
                bytes.truncate(end);
            }
        }
    }
}

/// A packed number that isn't the map's column count.
fn other_count(rng: &mut Rng, count: u64) -> Vec<u8> {
    let form = rng.pick(&[Form::None, Form::Two, Form::Three, Form::Eight]);
    let other = rng.pick(&[0, count - 1, count + 1, count + 256, count + (1 << 32)]);
    let bad = bad_packed(rng);
    rng.pick(&[form.pack(other), bad])
}

fn cut_rows(
    rng: &mut Rng,
    bytes: &mut Vec<u8>,
    marks: &RowsMarks,
    columns: &[Column],
) -> Option<()> {
    if marks.images.is_empty() || rng.once_in(5) {
        // one zero byte: no null, and every value asks for more, or more null bits
        bytes.push(0);
        return Some(());
    }
    if rng.once_in(4) {
        return run_past(rng, bytes, marks, columns);
    }
    let sides = marks.used.len();
    let which = rng.below(marks.images.len());
    let image = &marks.images[which].whole;
    // an update's rows must not end between its images
    let end = if which % sides + 1 < sides {
        image.end
    } else {
        image.end - 1
    };
    let start = if which.is_multiple_of(sides) {
        image.start + 1
    } else {
        image.start
    };
    if start > end {
        return None;
    }
    bytes.truncate(rng.range(start, end));
    Some(())
}

/// Every stored value: its column and where it stands.
fn stored(marks: &RowsMarks) -> Vec<(usize, Range<usize>)> {
    marks
        .images
        .iter()
        .flat_map(|image| image.values.clone())
        .collect()
}

/// A blob's length that runs past the rows, or a bad value that is cut.
fn run_past(
    rng: &mut Rng,
    bytes: &mut Vec<u8>,
    marks: &RowsMarks,
    columns: &[Column],
) -> Option<()> {
    let values = stored(marks);
    if values.is_empty() {
        return None;
    }
    let (column, range) = rng.pick(&values);
    let column = columns.get(column)?;
    if column.kind == 252 {
        let width = column.length_bytes();
        let left = bytes.len() - range.start - width;
        let most = (1u64 << (8 * width)) - 1;
        if most <= left as u64 {
            return None;
        }
        let length = rng.pick(&[most, left as u64 + 1]);
        put(bytes, range.start, &length.to_le_bytes()[..width]);
        return Some(());
    }
    if column.kind == 15 || range.len() < 2 {
        return None;
    }
    let bad = column.store_bad(rng)?;
    put(bytes, range.start, &bad);
    bytes.truncate(rng.range(range.start, range.end - 1));
    Some(())
}

fn bad_value(
    rng: &mut Rng,
    bytes: &mut Vec<u8>,
    marks: &RowsMarks,
    columns: &[Column],
) -> Option<usize> {
    let values = stored(marks);
    if values.is_empty() {
        return None;
    }
    let (column, range) = rng.pick(&values);
    let column = columns.get(column)?;
    let bad = column.store_bad(rng)?;
    let whole = range.start + bad.len();
    // a text's length is judged as soon as it is there
    let judged = if column.kind == 15 {
        range.start + column.length_bytes()
    } else {
        whole
    };
    bytes.splice(range.clone(), bad);
    if rng.once_in(2) {
        bytes.truncate(rng.range(judged, bytes.len()));
    }
    Some(range.start)
}
