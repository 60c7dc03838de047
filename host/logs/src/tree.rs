//! A log as a tree: everything that its bytes say, before they are printed.

#[derive(Clone, Debug)]
pub struct Log {
    pub description: Description,
    pub events: Vec<Event>,
}

/// The types that are read, with their least post-header lengths.
pub const READ: [(u8, u8); 4] = [(19, 8), (30, 10), (31, 10), (32, 10)];

#[derive(Clone, Debug)]
pub struct Description {
    pub time: u32,
    pub server: u32,
    pub flags: u16,
    /// 50 bytes.
    pub version: Vec<u8>,
    pub created: u32,
    /// H: the header length of the later events but type 4.
    pub header: u8,
    /// Post-header lengths, for types from 1.
    pub entries: Vec<u8>,
    /// Checksum kind: 0 or 1 in a sound log.
    pub kind: u8,
}

impl Description {
    /// As 5.7 servers write it: H 19, 38 entries, checksums.
    pub fn plain() -> Description {
        let mut version = b"5.7.13-log".to_vec();
        version.resize(50, 0);
        let mut entries = vec![0; 38];
        for (kind, length) in READ {
            entries[usize::from(kind) - 1] = length;
        }
        Description {
            time: 0,
            server: 0,
            flags: 0,
            version,
            created: 0,
            header: 19,
            entries,
            kind: 1,
        }
    }

    /// The post-header length that the list has for a type.
    pub fn entry(&self, kind: u8) -> usize {
        usize::from(kind)
            .checked_sub(1)
            .and_then(|at| self.entries.get(at))
            .map_or(0, |entry| usize::from(*entry))
    }

    /// Type 4 keeps 19 bytes whatever H is (01, Framing).
    pub fn header_of(&self, kind: u8) -> usize {
        if kind == 4 {
            19
        } else {
            usize::from(self.header)
        }
    }

    /// Bytes of checksum at the end of a later event.
    pub fn sum(&self) -> usize {
        if self.kind == 1 {
            4
        } else {
            0
        }
    }
}

/// An event after the description.
#[derive(Clone, Debug)]
pub struct Event {
    pub time: u32,
    pub kind: u8,
    pub server: u32,
    pub flags: u16,
    /// What its header has beyond the first 19 bytes.
    pub more: Vec<u8>,
    pub body: Body,
}

impl Event {
    /// With nothing in its header beyond 19 bytes.
    pub fn plain(kind: u8, flags: u16, body: Body) -> Event {
        Event {
            time: 0,
            kind,
            server: 0,
            flags,
            more: Vec::new(),
            body,
        }
    }
}

#[derive(Clone, Debug)]
pub enum Body {
    /// Of an event that is stepped over.
    Free(Vec<u8>),
    Map(Map),
    Rows(Rows),
}

#[derive(Clone, Debug)]
pub struct Map {
    pub id: u64,
    pub flags: u16,
    /// Further post-header bytes.
    pub post: Vec<u8>,
    pub database: Vec<u8>,
    pub table: Vec<u8>,
    pub columns: Vec<Column>,
    pub count_form: Form,
    pub metadata_form: Form,
    pub nullable: Bits,
    pub tail: Vec<u8>,
}

impl Map {
    /// A map of some columns, all nullable, without names.
    pub fn plain(id: u64, columns: Vec<Column>) -> Map {
        Map {
            id,
            flags: 0,
            post: Vec::new(),
            database: Vec::new(),
            table: Vec::new(),
            nullable: Bits {
                set: columns.iter().map(|_| true).collect(),
                spare: 0,
            },
            columns,
            count_form: Form::None,
            metadata_form: Form::None,
            tail: Vec::new(),
        }
    }
}

/// A column's type and metadata: M, F, k, or 4 and 8 for the floats.
#[derive(Clone, Copy, Debug, PartialEq, Eq)]
pub struct Column {
    pub kind: u8,
    pub meta: u16,
}

/// How many bytes follow a packed number's first byte.
#[derive(Clone, Copy, Debug, PartialEq, Eq)]
pub enum Form {
    None,
    Two,
    Three,
    Eight,
}

/// Bits from each byte's lowest, and what the last byte's spare bits are.
#[derive(Clone, Debug)]
pub struct Bits {
    pub set: Vec<bool>,
    pub spare: u8,
}

#[derive(Clone, Debug)]
pub struct Rows {
    pub id: u64,
    pub flags: u16,
    pub post: Vec<u8>,
    /// The extra block after its length.
    pub extra: Vec<u8>,
    pub columns: Vec<Column>,
    pub count_form: Form,
    /// One used set, or two for an update.
    pub used: Vec<Bits>,
    /// Each row has an image for each used set.
    pub rows: Vec<Vec<Image>>,
}

impl Rows {
    /// Full images that end the statement.
    pub fn plain(id: u64, columns: Vec<Column>, rows: Vec<Vec<Image>>) -> Rows {
        let full = Bits {
            set: columns.iter().map(|_| true).collect(),
            spare: 0xff,
        };
        Rows {
            id,
            flags: 1,
            post: Vec::new(),
            extra: Vec::new(),
            columns,
            count_form: Form::None,
            used: rows
                .first()
                .map_or(1..2, |row| 0..row.len())
                .map(|_| full.clone())
                .collect(),
            rows,
        }
    }

    pub fn ends_statement(&self) -> bool {
        self.flags & 1 == 1
    }
}

/// A cell for every column of the table, and the null bits' spare bits.
#[derive(Clone, Debug)]
pub struct Image {
    pub cells: Vec<Cell>,
    pub spare: u8,
}

#[derive(Clone, Debug, PartialEq, Eq)]
pub enum Cell {
    Absent,
    Null,
    /// A column type and the value stored.
    Stored(u8, Value),
}

#[derive(Clone, Debug, PartialEq, Eq)]
pub enum Value {
    Integer(i64),
    /// The stored bits.
    Float(u32),
    /// The stored bits.
    Double(u64),
    Date {
        year: u32,
        month: u32,
        day: u32,
    },
    Year(u32),
    Timestamp {
        seconds: u32,
        micros: u32,
    },
    DateTime {
        year: u32,
        month: u32,
        day: u32,
        hour: u32,
        minute: u32,
        second: u32,
        micros: u32,
    },
    Time {
        negative: bool,
        hour: u32,
        minute: u32,
        second: u32,
        micros: u32,
    },
    Text(Part),
}

/// Bytes of the log and where they stand. In a tree that isn't printed yet
/// the place is 0.
#[derive(Clone, Debug, PartialEq, Eq)]
pub struct Part {
    pub place: usize,
    pub bytes: Vec<u8>,
}
