//! A tree printed: first each event as a sheet of bytes with the places of
//! its parts, then all of them with lengths, next positions and checksums.

use std::ops::Range;

use crate::crc::crc32;
use crate::tree::{Bits, Body, Cell, Description, Event, Form, Image, Log, Map, Part, Rows, Value};
use crate::truth::{Change, Counts, Head, Truth};

/// A printed log, what it was printed from and what it holds.
#[derive(Clone)]
pub struct Made {
    pub tree: Log,
    pub bytes: Vec<u8>,
    /// Where each event starts, the description first.
    pub starts: Vec<usize>,
    pub truth: Truth,
    pub(crate) draft: Draft,
}

/// The events' bytes before lengths, positions and checksums are filled in.
#[derive(Clone)]
pub(crate) struct Draft {
    pub opening: Vec<u8>,
    /// The description first.
    pub sheets: Vec<Sheet>,
}

#[derive(Clone)]
pub(crate) struct Sheet {
    /// The event without its checksum.
    pub bytes: Vec<u8>,
    pub marks: Marks,
    /// Whether a checksum follows.
    pub summed: bool,
    /// Wrong ones, in place of those that the rules ask.
    pub length: Option<u32>,
    pub next: Option<u32>,
    /// Bits of the checksum that are turned over.
    pub sum_flip: u32,
}

/// Where the parts of an event stand, from its first byte.
#[derive(Clone)]
pub(crate) enum Marks {
    Free,
    Map(MapMarks),
    Rows(RowsMarks),
}

#[derive(Clone, Default)]
pub(crate) struct MapMarks {
    pub body: usize,
    /// The length bytes of the two names.
    pub names: [usize; 2],
    /// The zero bytes after them.
    pub zeros: [usize; 2],
    pub count: Range<usize>,
    pub types: Range<usize>,
    pub metadata_length: Range<usize>,
    pub metadata: Range<usize>,
    pub nullable: Range<usize>,
}

#[derive(Clone, Default)]
pub(crate) struct RowsMarks {
    pub body: usize,
    pub post_end: usize,
    pub count: Range<usize>,
    pub used: Vec<Range<usize>>,
    /// In the order of printing, for each row and side.
    pub images: Vec<ImageMarks>,
}

#[derive(Clone)]
pub(crate) struct ImageMarks {
    /// From its null bits to its last value's end.
    pub whole: Range<usize>,
    /// Each stored value with its column's number.
    pub values: Vec<(usize, Range<usize>)>,
}

impl Sheet {
    pub fn new(bytes: Vec<u8>, marks: Marks, summed: bool) -> Sheet {
        Sheet {
            bytes,
            marks,
            summed,
            length: None,
            next: None,
            sum_flip: 0,
        }
    }
}

impl Draft {
    /// The log's bytes and where each event starts.
    pub fn assemble(&self) -> (Vec<u8>, Vec<usize>) {
        let mut log = self.opening.clone();
        let mut starts = Vec::new();
        for sheet in &self.sheets {
            let start = log.len();
            starts.push(start);
            log.extend(&sheet.bytes);
            let sum = if sheet.summed { 4 } else { 0 };
            let length = sheet.length.unwrap_or((sheet.bytes.len() + sum) as u32);
            let next = sheet.next.unwrap_or((start as u32).wrapping_add(length));
            put(&mut log, start + 9, &length.to_le_bytes());
            put(&mut log, start + 13, &next.to_le_bytes());
            if sheet.summed {
                let sum = crc32(&log[start..]) ^ sheet.sum_flip;
                log.extend(sum.to_le_bytes());
            }
        }
        (log, starts)
    }
}

/// Writes `new` over the bytes at `at`, as far as there are any.
pub(crate) fn put(bytes: &mut [u8], at: usize, new: &[u8]) {
    for (old, new) in bytes.iter_mut().skip(at).zip(new) {
        *old = *new;
    }
}

/// Prints a tree.
pub fn made(tree: Log) -> Made {
    let mut sheets = vec![description(&tree.description)];
    sheets.extend(
        tree.events
            .iter()
            .map(|event| sheet(&tree.description, event)),
    );
    let draft = Draft {
        opening: vec![0xfe, b'b', b'i', b'n'],
        sheets,
    };
    let (bytes, starts) = draft.assemble();
    let truth = truth(&tree, &draft, &starts);
    Made {
        tree,
        bytes,
        starts,
        truth,
        draft,
    }
}

/// Time, type, server id, then length and next position still 0, flags.
fn header(time: u32, kind: u8, server: u32, flags: u16) -> Vec<u8> {
    let mut bytes = time.to_le_bytes().to_vec();
    bytes.push(kind);
    bytes.extend(server.to_le_bytes());
    bytes.extend([0; 8]);
    bytes.extend(flags.to_le_bytes());
    bytes
}

fn description(it: &Description) -> Sheet {
    let mut bytes = header(it.time, 15, it.server, it.flags);
    bytes.extend(4u16.to_le_bytes());
    bytes.extend(&it.version);
    bytes.extend(it.created.to_le_bytes());
    bytes.push(it.header);
    bytes.extend(&it.entries);
    bytes.push(it.kind);
    Sheet::new(bytes, Marks::Free, true)
}

pub(crate) fn sheet(description: &Description, event: &Event) -> Sheet {
    let mut bytes = header(event.time, event.kind, event.server, event.flags);
    bytes.extend(&event.more);
    let marks = match &event.body {
        Body::Free(body) => {
            bytes.extend(body);
            Marks::Free
        }
        Body::Map(map) => Marks::Map(print_map(&mut bytes, map)),
        Body::Rows(rows) => Marks::Rows(print_rows(&mut bytes, rows)),
    };
    Sheet::new(bytes, marks, description.sum() > 0)
}

fn extend(bytes: &mut Vec<u8>, new: &[u8]) -> Range<usize> {
    let start = bytes.len();
    bytes.extend(new);
    start..bytes.len()
}

fn print_map(bytes: &mut Vec<u8>, map: &Map) -> MapMarks {
    let mut marks = MapMarks {
        body: bytes.len(),
        ..MapMarks::default()
    };
    bytes.extend(&map.id.to_le_bytes()[..6]);
    bytes.extend(map.flags.to_le_bytes());
    bytes.extend(&map.post);
    for (i, name) in [&map.database, &map.table].into_iter().enumerate() {
        marks.names[i] = bytes.len();
        bytes.push(name.len() as u8);
        bytes.extend(name);
        marks.zeros[i] = bytes.len();
        bytes.push(0);
    }
    let types: Vec<u8> = map.columns.iter().map(|column| column.kind).collect();
    let metadata: Vec<u8> = map
        .columns
        .iter()
        .flat_map(|column| column.metadata())
        .collect();
    marks.count = extend(bytes, &map.count_form.pack(map.columns.len() as u64));
    marks.types = extend(bytes, &types);
    marks.metadata_length = extend(bytes, &map.metadata_form.pack(metadata.len() as u64));
    marks.metadata = extend(bytes, &metadata);
    marks.nullable = extend(bytes, &map.nullable.bytes());
    bytes.extend(&map.tail);
    marks
}

fn print_rows(bytes: &mut Vec<u8>, rows: &Rows) -> RowsMarks {
    let mut marks = RowsMarks {
        body: bytes.len(),
        ..RowsMarks::default()
    };
    bytes.extend(&rows.id.to_le_bytes()[..6]);
    bytes.extend(rows.flags.to_le_bytes());
    bytes.extend((rows.extra.len() as u16 + 2).to_le_bytes());
    bytes.extend(&rows.post);
    marks.post_end = bytes.len();
    bytes.extend(&rows.extra);
    marks.count = extend(bytes, &rows.count_form.pack(rows.columns.len() as u64));
    for used in &rows.used {
        marks.used.push(extend(bytes, &used.bytes()));
    }
    for image in rows.rows.iter().flatten() {
        marks.images.push(print_image(bytes, rows, image));
    }
    marks
}

fn print_image(bytes: &mut Vec<u8>, rows: &Rows, image: &Image) -> ImageMarks {
    let start = bytes.len();
    let present = image.cells.iter().filter(|cell| **cell != Cell::Absent);
    let nulls = Bits {
        set: present.map(|cell| *cell == Cell::Null).collect(),
        spare: image.spare,
    };
    bytes.extend(nulls.bytes());
    let mut values = Vec::new();
    for (at, (column, cell)) in rows.columns.iter().zip(&image.cells).enumerate() {
        if let Cell::Stored(_, value) = cell {
            values.push((at, extend(bytes, &column.store(value))));
        }
    }
    ImageMarks {
        whole: start..bytes.len(),
        values,
    }
}

impl Form {
    /// A packed number; a form too short for it becomes the next longer one.
    pub fn pack(self, number: u64) -> Vec<u8> {
        let little = number.to_le_bytes();
        match self {
            Form::None if number <= 250 => vec![number as u8],
            Form::None | Form::Two if number < 1 << 16 => [&[252], &little[..2]].concat(),
            Form::Eight => [&[254], &little[..]].concat(),
            _ if number < 1 << 24 => [&[253], &little[..3]].concat(),
            _ => [&[254], &little[..]].concat(),
        }
    }
}

impl Bits {
    /// Lowest bit first; the spare bits of the last byte come from `spare`.
    pub fn bytes(&self) -> Vec<u8> {
        let mut bytes = vec![0u8; self.set.len().div_ceil(8)];
        for (at, _) in self.set.iter().enumerate().filter(|(_, bit)| **bit) {
            bytes[at / 8] |= 1 << (at % 8);
        }
        if !self.set.len().is_multiple_of(8) {
            if let Some(last) = bytes.last_mut() {
                *last |= self.spare & (0xff << (self.set.len() % 8)) as u8;
            }
        }
        bytes
    }
}

fn truth(tree: &Log, draft: &Draft, starts: &[usize]) -> Truth {
    let mut changes = Vec::new();
    for (at, event) in tree.events.iter().enumerate() {
        if let (Body::Rows(rows), Marks::Rows(marks)) = (&event.body, &draft.sheets[at + 1].marks) {
            let Some(table) = table(tree, draft, starts, at, rows) else {
                continue;
            };
            changes.extend(rows_truth(&table, starts[at + 1], event.kind, rows, marks));
        }
    }
    let counts = Counts {
        events: starts.len(),
        changes: changes.len(),
    };
    Truth { counts, changes }
}

/// What all changes of a rows event say of their table; the listing has only
/// the map's place. The map is the last one of the id before event `at`.
fn table(tree: &Log, draft: &Draft, starts: &[usize], at: usize, rows: &Rows) -> Option<Head> {
    let earlier = tree.events[..at].iter().enumerate().rev();
    let (at, map) = earlier
        .filter_map(|(i, event)| match &event.body {
            Body::Map(map) if map.id == rows.id => Some((i + 1, map)),
            _ => None,
        })
        .next()?;
    let Marks::Map(marks) = &draft.sheets[at].marks else {
        return None;
    };
    let name = |which: usize, bytes: &[u8]| Part {
        place: starts[at] + marks.names[which] + 1,
        bytes: bytes.to_vec(),
    };
    Some(Head {
        listing: [0, 0, starts[at] as u32, 0, 0],
        table_id: rows.id,
        columns: rows.columns.len(),
        database: name(0, &map.database),
        table: name(1, &map.table),
    })
}

/// The changes of the rows event of type `kind` that starts at `start`.
fn rows_truth(table: &Head, start: usize, kind: u8, rows: &Rows, marks: &RowsMarks) -> Vec<Change> {
    let mut marks = marks.images.iter();
    let mut changes = Vec::new();
    for row in &rows.rows {
        let mut images = row.iter().zip(&mut marks).map(|(image, marks)| {
            (
                (start + marks.whole.start) as u32,
                cells(image, marks, start),
            )
        });
        let before = if kind == 30 { None } else { images.next() };
        let after = if kind == 32 { None } else { images.next() };
        let place = |side: &Option<(u32, Vec<Cell>)>| side.as_ref().map_or(0, |it| it.0);
        let mut head = table.clone();
        let map = head.listing[2];
        head.listing = [
            u32::from(kind),
            start as u32,
            map,
            place(&before),
            place(&after),
        ];
        changes.push(Change {
            head,
            sides: [before, after].map(|side| side.map(|it| it.1)),
        });
    }
    changes
}

/// An image's cells, with the places of its texts.
fn cells(image: &Image, marks: &ImageMarks, start: usize) -> Vec<Cell> {
    let mut cells = image.cells.clone();
    for (column, range) in &marks.values {
        if let Some(Cell::Stored(_, Value::Text(part))) = cells.get_mut(*column) {
            // a text's bytes are the last ones of its value
            part.place = start + range.end - part.bytes.len();
        }
    }
    cells
}
