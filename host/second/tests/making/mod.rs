//! Logs made for the tests.
#![allow(dead_code)]

use second::crc32;

pub const TABLE_MAP: u8 = 19;
pub const WRITE: u8 = 30;
pub const UPDATE: u8 = 31;
pub const DELETE: u8 = 32;

/// A log in the making.
#[derive(Clone)]
pub struct Log {
    pub bytes: Vec<u8>,
    pub header: usize,
    pub sums: bool,
    pub server: u32,
}

/// What a description says.
#[derive(Clone)]
pub struct Description {
    pub format: u16,
    pub server: &'static str,
    pub header: u8,
    pub entries: Vec<u8>,
    pub kind: u8,
}

impl Description {
    /// As 003's server writes it: 38 entries, checksums.
    pub fn sound() -> Self {
        let mut entries = vec![0; 38];
        entries[18] = 8;
        entries[29..32].fill(10);
        Description {
            format: 4,
            server: "5.7.13-log",
            header: 19,
            entries,
            kind: 1,
        }
    }

    pub fn log(&self) -> Log {
        let mut body = self.format.to_le_bytes().to_vec();
        body.extend(self.server.bytes());
        body.resize(2 + 50 + 4, 0);
        body.push(self.header);
        body.extend(&self.entries);
        body.push(self.kind);
        let mut log = Log::opened();
        log.event(15, 0, &body);
        log.header = self.header.into();
        log.sums = self.kind == 1;
        log
    }
}

impl Log {
    /// The four opening bytes.
    pub fn opened() -> Self {
        Log {
            bytes: vec![0xfe, 0x62, 0x69, 0x6e],
            header: 19,
            sums: true,
            server: 1,
        }
    }

    pub fn sound() -> Self {
        Description::sound().log()
    }

    /// Adds an event, and gives its place.
    pub fn event(&mut self, kind: u8, flags: u16, body: &[u8]) -> usize {
        self.event_at(0, kind, flags, body)
    }

    /// The same with a time.
    pub fn event_at(&mut self, time: u32, kind: u8, flags: u16, body: &[u8]) -> usize {
        let place = self.bytes.len();
        let header = if kind == 4 { 19 } else { self.header };
        let length = header + body.len() + if self.sums { 4 } else { 0 };
        let log = &mut self.bytes;
        log.extend(time.to_le_bytes());
        log.push(kind);
        log.extend(self.server.to_le_bytes());
        log.extend((length as u32).to_le_bytes());
        log.extend(((place + length) as u32).to_le_bytes());
        log.extend(flags.to_le_bytes());
        log.resize(place + header, 0x55);
        log.extend(body);
        if self.sums {
            let sum = crc32(&log[place..]);
            log.extend(sum.to_le_bytes());
        }
        place
    }

    /// Adds an event that is stepped over, so that the next place is `place`.
    pub fn fill_to(&mut self, place: usize) {
        let frame = self.header + if self.sums { 4 } else { 0 };
        let body = vec![0xa5; place - self.bytes.len() - frame];
        self.event(2, 0, &body);
    }

    pub fn map(&mut self, id: u64, types: &[u8], metadata: &[u8]) -> usize {
        self.event(TABLE_MAP, 0, &map_body(id, types, metadata))
    }

    pub fn rows(&mut self, kind: u8, id: u64, flags: u16, rest: &[u8]) -> usize {
        self.event(kind, 0, &rows_body(id, flags, rest))
    }

    /// A map of these columns and a write of one row, all bits of null bytes
    /// and columns given.
    pub fn one_write(types: &[u8], metadata: &[u8], row: &[u8]) -> Log {
        let mut log = Log::sound();
        log.map(7, types, metadata);
        let mut rest = packed(types.len());
        rest.resize(rest.len() + types.len().div_ceil(8), 0xff);
        rest.extend(row);
        log.rows(WRITE, 7, 1, &rest);
        log
    }
}

pub fn packed(n: usize) -> Vec<u8> {
    match n {
        0..=250 => vec![n as u8],
        _ => [&[252], &(n as u16).to_le_bytes()[..]].concat(),
    }
}

pub fn map_body(id: u64, types: &[u8], metadata: &[u8]) -> Vec<u8> {
    let mut body = id.to_le_bytes()[..6].to_vec();
    body.extend([1, 0]);
    body.extend(b"\x04test\0\x09testnull2\0");
    body.extend(packed(types.len()));
    body.extend(types);
    body.extend(packed(metadata.len()));
    body.extend(metadata);
    body.resize(body.len() + types.len().div_ceil(8), 0);
    body
}

pub fn rows_body(id: u64, flags: u16, rest: &[u8]) -> Vec<u8> {
    let mut body = id.to_le_bytes()[..6].to_vec();
    body.extend(flags.to_le_bytes());
    body.extend([2, 0]);
    body.extend(rest);
    body
}

/// Hexadecimal digits, parted by spaces.
pub fn hex(text: &str) -> Vec<u8> {
    text.split_whitespace()
        .map(|byte| u8::from_str_radix(byte, 16).unwrap())
        .collect()
}
