//! Random logs that 01 accepts.

use crate::print::{made, Made};
use crate::rng::Rng;
use crate::tree::{
    Bits, Body, Cell, Column, Description, Event, Form, Image, Log, Map, Rows, READ,
};

/// How large a log is to be.
#[derive(Clone, Copy, Debug)]
pub struct Shape {
    /// Most events after the description.
    pub events: usize,
    /// Fewest and most columns of a table.
    pub columns: (usize, usize),
    /// Most rows of a rows event.
    pub rows: usize,
    /// Longest text.
    pub text: usize,
    /// Most bytes by which a header or post-header is longer.
    pub growth: usize,
    /// Table maps for each rows event.
    pub maps: usize,
}

impl Shape {
    pub const SMALL: Shape = Shape {
        events: 8,
        columns: (1, 4),
        rows: 2,
        text: 6,
        growth: 3,
        maps: 1,
    };
    pub const MIXED: Shape = Shape {
        events: 30,
        columns: (1, 20),
        rows: 4,
        text: 40,
        growth: 236,
        maps: 1,
    };
    pub const WIDE: Shape = Shape {
        events: 6,
        columns: (240, 512),
        rows: 2,
        text: 5,
        growth: 5,
        maps: 1,
    };
    pub const WIDEST: Shape = Shape {
        events: 5,
        columns: (505, 512),
        rows: 1,
        text: 2,
        growth: 2,
        maps: 1,
    };
    pub const LIVE: Shape = Shape {
        events: 70,
        columns: (1, 9),
        rows: 1,
        text: 3,
        growth: 2,
        maps: 8,
    };
    pub const LONG: Shape = Shape {
        events: 8,
        columns: (1, 3),
        rows: 2,
        text: 70_000,
        growth: 9,
        maps: 1,
    };
    pub const ALL: [Shape; 6] = [
        Shape::SMALL,
        Shape::MIXED,
        Shape::WIDE,
        Shape::WIDEST,
        Shape::LIVE,
        Shape::LONG,
    ];
}

/// Types that are stepped over by name (01, Framing).
pub const STEPPED: [u8; 9] = [2, 3, 4, 16, 28, 29, 33, 34, 35];

/// Types that no rule names (01, Framing).
pub(crate) fn unknown_type(rng: &mut Rng) -> u8 {
    const LOW: [u8; 18] = [
        0, 1, 5, 6, 7, 8, 9, 10, 11, 12, 13, 14, 17, 18, 26, 27, 36, 37,
    ];
    match rng.below(3) {
        0 => rng.pick(&[38, 41, 42, 127, 128, 160, 255]),
        1 => rng.range(41, 255) as u8,
        _ => rng.pick(&LOW),
    }
}

/// A log that 01 accepts, from a seed.
pub fn valid(seed: u64, shape: Shape) -> Made {
    let mut rng = Rng::new(seed);
    let description = description(&mut rng, shape);
    let mut maker = Maker {
        rng,
        shape,
        description,
        live: Vec::new(),
    };
    let count = maker.rng.range(0, shape.events);
    let events = (0..count).map(|_| maker.event()).collect();
    made(Log {
        description: maker.description,
        events,
    })
}

/// A length of at least `least` in a byte, often longer.
fn grown(rng: &mut Rng, least: usize, growth: usize) -> u8 {
    let more = match rng.below(4) {
        0 => rng.range(0, growth),
        1 => rng.range(0, growth.min(4)),
        _ => 0,
    };
    (least + more).min(255) as u8
}

fn description(rng: &mut Rng, shape: Shape) -> Description {
    let any = rng.range(32, 255);
    let count = rng.pick(&[32, 33, 38, 40, 42, 171, 255, any]);
    let mut entries = rng.bytes(count);
    for (kind, least) in READ {
        if let Some(entry) = entries.get_mut(usize::from(kind) - 1) {
            *entry = grown(rng, least.into(), shape.growth);
        }
    }
    Description {
        time: rng.number() as u32,
        server: rng.number() as u32,
        flags: flags(rng),
        version: version(rng),
        created: rng.number() as u32,
        header: grown(rng, 19, shape.growth),
        entries,
        kind: rng.below(2) as u8,
    }
}

fn flags(rng: &mut Rng) -> u16 {
    let any = rng.number() as u16;
    rng.pick(&[0, 0, any])
}

fn version(rng: &mut Rng) -> Vec<u8> {
    let texts: [&str; 14] = [
        "5.6.1",
        "5.6.1-m5-log",
        "5.7.13-log",
        "8.0.36",
        "8.4.0-commercial",
        "9.7.4",
        "10.11.6-MariaDB-log",
        "005.006.001",
        "5.6.255",
        "5.255.0",
        "255.255.255",
        "5.7.0.9.9",
        "6.0.0",
        "5.6.10x77",
    ];
    let mut bytes = rng.pick(&texts).as_bytes().to_vec();
    let fill = if rng.once_in(2) {
        vec![0; 50]
    } else {
        rng.bytes(50)
    };
    // a run is all the digits that stand together
    if fill[0].is_ascii_digit() {
        bytes.push(b'-');
    }
    bytes.extend(fill);
    bytes.truncate(50);
    bytes
}

struct Maker {
    rng: Rng,
    shape: Shape,
    description: Description,
    /// Table ids that are live, with their columns.
    live: Vec<(u64, Vec<Column>)>,
}

impl Maker {
    fn event(&mut self) -> Event {
        let weights = [
            2,
            2 * self.shape.maps,
            if self.live.is_empty() { 0 } else { 4 },
        ];
        let pick = self.rng.below(weights.iter().sum());
        let (kind, body) = if pick < weights[0] {
            self.stepped()
        } else if pick < weights[0] + weights[1] {
            (19, Body::Map(self.map()))
        } else {
            let kind = self.rng.range(30, 32) as u8;
            (kind, Body::Rows(self.rows(kind)))
        };
        let mark = if STEPPED.contains(&kind) || matches!(kind, 19 | 30..=32) {
            0
        } else {
            0x80
        };
        event(&mut self.rng, &self.description, kind, mark, body)
    }

    fn stepped(&mut self) -> (u8, Body) {
        let kind = if self.rng.once_in(3) {
            unknown_type(&mut self.rng)
        } else {
            self.rng.pick(&STEPPED)
        };
        let length = self.rng.length(40);
        (kind, Body::Free(self.rng.bytes(length)))
    }

    /// An id that isn't live, or one that is, to be mapped again.
    fn id(&mut self) -> u64 {
        let again = self.live.len() == 16 || (!self.live.is_empty() && self.rng.once_in(6));
        if again {
            return self.rng.pick(&self.live).0;
        }
        fresh_id(
            &mut self.rng,
            &self.live.iter().map(|it| it.0).collect::<Vec<_>>(),
        )
    }

    fn map(&mut self) -> Map {
        let id = self.id();
        let count = match self.rng.below(8) {
            0 => self.shape.columns.1,
            1 => self.shape.columns.0,
            _ => self.rng.range(self.shape.columns.0, self.shape.columns.1),
        };
        let columns: Vec<Column> = (0..count).map(|_| Column::random(&mut self.rng)).collect();
        self.live.retain(|it| it.0 != id);
        self.live.push((id, columns.clone()));
        let post = self.description.entry(19) - 8;
        map(&mut self.rng, id, post, columns)
    }

    fn rows(&mut self, kind: u8) -> Rows {
        let (id, columns) = self.rng.pick(&self.live);
        let rng = &mut self.rng;
        let sides = if kind == 31 { 2 } else { 1 };
        let used: Vec<Bits> = (0..sides).map(|_| used_set(rng, columns.len())).collect();
        let count = rng.length(self.shape.rows);
        let rows = (0..count)
            .map(|_| {
                used.iter()
                    .map(|used| image(rng, &columns, used, self.shape.text))
                    .collect()
            })
            .collect();
        let extra = if rng.once_in(2) { 0 } else { rng.length(12) };
        let ends = u16::from(rng.once_in(3));
        let made = Rows {
            id,
            flags: flags(rng) & !1 | ends,
            post: rng.bytes(self.description.entry(kind) - 10),
            extra: rng.bytes(extra),
            count_form: form(rng),
            columns,
            used,
            rows,
        };
        if made.ends_statement() {
            self.live.clear();
        }
        made
    }
}

/// An event with random free header parts; of the flags 0x80 is `mark`.
pub(crate) fn event(
    rng: &mut Rng,
    description: &Description,
    kind: u8,
    mark: u16,
    body: Body,
) -> Event {
    Event {
        time: rng.number() as u32,
        kind,
        server: rng.number() as u32,
        flags: flags(rng) & !0x80 | mark,
        more: rng.bytes(description.header_of(kind) - 19),
        body,
    }
}

/// A table id that isn't among `taken`.
pub(crate) fn fresh_id(rng: &mut Rng, taken: &[u64]) -> u64 {
    loop {
        let any = rng.number() & 0xffff_ffff_ffff;
        // ids that differ in their highest or lowest byte alone are likely
        let near = rng.below(20) as u64;
        let far = (rng.below(4) as u64) << 40 | 7;
        let id = rng.pick(&[any, near, near, far, 0xffff_ffff_ffff]);
        if !taken.contains(&id) {
            return id;
        }
    }
}

pub(crate) fn map(rng: &mut Rng, id: u64, post: usize, columns: Vec<Column>) -> Map {
    let name = |rng: &mut Rng| {
        let length = rng.pick(&[0, 1, 4, 9, 64, 255]);
        // a name may hold any byte, zero too
        rng.bytes(length)
    };
    let tail = if rng.once_in(2) { 0 } else { rng.length(20) };
    Map {
        id,
        flags: flags(rng),
        post: rng.bytes(post),
        database: name(rng),
        table: name(rng),
        count_form: form(rng),
        metadata_form: form(rng),
        nullable: Bits {
            set: columns.iter().map(|_| rng.once_in(2)).collect(),
            spare: rng.byte(),
        },
        columns,
        tail: rng.bytes(tail),
    }
}

fn form(rng: &mut Rng) -> Form {
    rng.pick(&[
        Form::None,
        Form::None,
        Form::None,
        Form::Two,
        Form::Three,
        Form::Eight,
    ])
}

/// A used set with at least one column.
fn used_set(rng: &mut Rng, count: usize) -> Bits {
    let share = rng.pick(&[1, 1, 2, 10]);
    let mut set: Vec<bool> = (0..count).map(|_| rng.once_in(share)).collect();
    if set.iter().all(|bit| !bit) {
        set[rng.below(count)] = true;
    }
    let any = rng.byte();
    Bits {
        set,
        spare: rng.pick(&[0, 0xff, any]),
    }
}

/// Nulls come in any column, also in those that aren't marked nullable.
fn image(rng: &mut Rng, columns: &[Column], used: &Bits, text: usize) -> Image {
    let share = rng.pick(&[1, 3, 3, 1000]);
    let cells = columns
        .iter()
        .zip(&used.set)
        .map(|(column, used)| match (used, rng.once_in(share)) {
            (false, _) => Cell::Absent,
            (true, true) => Cell::Null,
            (true, false) => Cell::Stored(column.kind, column.value(rng, text)),
        })
        .collect();
    let any = rng.byte();
    Image {
        cells,
        spare: rng.pick(&[0, 0xff, any]),
    }
}
