//! Logs to measure on, made from a seed: the layouts of 01, Framing, Table maps and Rows events, with nothing unusual in them.

/// A column: its type and its metadata (01, Columns).
type Column = (u8, &'static [u8]);

/// What a log is filled with.
pub struct Shape {
    pub name: &'static str,
    /// the log ends with the first event past this many bytes
    pub bytes: usize,
    /// a rows event ends with the first row past this many bytes
    pub event: usize,
    /// rows events to a table map; the last of them ends the statement
    pub rows_events: usize,
    pub checksums: bool,
    pub columns: Vec<Column>,
}

const NARROW: [Column; 4] = [(8, &[]), (15, &[32, 0]), (15, &[255, 0]), (17, &[0])];
const TEXT: [Column; 3] = [(8, &[]), (15, &[255, 0]), (252, &[2])];
const MIXED: [Column; 4] = [(3, &[]), (15, &[40, 0]), (8, &[]), (18, &[0])];
const MIB: usize = 1 << 20;

fn narrow(name: &'static str, bytes: usize) -> Shape {
    Shape { name, bytes, event: 8000, rows_events: 16, checksums: true, columns: NARROW.to_vec() }
}

/// The logs of the table in bench/README.md.
pub fn shapes() -> Vec<Shape> {
    vec![
        narrow("8 KiB events", 256 * MIB),
        Shape { event: 60, rows_events: 1, ..narrow("100-byte events", 64 * MIB) },
        Shape { checksums: false, ..narrow("no checksums", 64 * MIB) },
        Shape { columns: MIXED.repeat(100), ..narrow("400 columns", 64 * MIB) },
        Shape { columns: TEXT.to_vec(), ..narrow("texts", 64 * MIB) },
    ]
}

/// The same shape in two sizes, to see that cost is linear.
pub fn two_sizes() -> [Shape; 2] {
    [narrow("8 MiB", 8 * MIB), narrow("64 MiB", 64 * MIB)]
}

/// splitmix64
pub struct Random(pub u64);

impl Random {
    fn next(&mut self) -> u64 {
        self.0 = self.0.wrapping_add(0x9e37_79b9_7f4a_7c15);
        let mut z = self.0;
        z = (z ^ (z >> 30)).wrapping_mul(0xbf58_476d_1ce4_e5b9);
        z = (z ^ (z >> 27)).wrapping_mul(0x94d0_49bb_1331_11eb);
        z ^ (z >> 31)
    }

    fn below(&mut self, n: usize) -> usize {
        (self.next() % n as u64) as usize
    }
}

struct Writer<'a> {
    log: Vec<u8>,
    checksums: bool,
    crc: &'a dyn Fn(&[u8]) -> u32,
}

impl Writer<'_> {
    fn event(&mut self, kind: u8, body: &[u8], sum: bool) {
        let at = self.log.len();
        let size = 19 + body.len() + if sum { 4 } else { 0 };
        self.log.extend_from_slice(&[0; 4]);
        self.log.push(kind);
        self.log.extend_from_slice(&1u32.to_le_bytes());
        self.log.extend_from_slice(&(size as u32).to_le_bytes());
        self.log.extend_from_slice(&((at + size) as u32).to_le_bytes());
        self.log.extend_from_slice(&[0; 2]);
        self.log.extend_from_slice(body);
        if sum {
            let stored = (self.crc)(&self.log[at..]);
            self.log.extend_from_slice(&stored.to_le_bytes());
        }
    }

    fn description(&mut self) {
        let mut body = vec![4, 0];
        let mut version = [0; 50];
        version[..6].copy_from_slice(b"5.7.13");
        body.extend_from_slice(&version);
        body.extend_from_slice(&[0, 0, 0, 0, 19]);
        let mut lengths = [0u8; 38];
        lengths[18] = 8;
        lengths[29..32].fill(10);
        body.extend_from_slice(&lengths);
        body.push(self.checksums as u8);
        self.event(15, &body, true);
    }
}

fn packed(n: usize) -> Vec<u8> {
    if n < 251 {
        vec![n as u8]
    } else {
        vec![252, n as u8, (n >> 8) as u8]
    }
}

fn table_map(columns: &[Column]) -> Vec<u8> {
    let mut body = vec![7, 0, 0, 0, 0, 0, 1, 0];
    body.extend_from_slice(b"\x04test\0\x01t\0");
    body.extend_from_slice(&packed(columns.len()));
    body.extend(columns.iter().map(|c| c.0));
    let metadata: Vec<u8> = columns.iter().flat_map(|c| c.1.iter().copied()).collect();
    body.extend_from_slice(&packed(metadata.len()));
    body.extend_from_slice(&metadata);
    body.resize(body.len() + columns.len().div_ceil(8), 0xff);
    body
}

fn text(random: &mut Random, row: &mut Vec<u8>, length_bytes: usize, size: usize) {
    row.extend_from_slice(&(size as u32).to_le_bytes()[..length_bytes]);
    for _ in 0..size {
        row.push(b'!' + random.below(90) as u8);
    }
}

fn value(random: &mut Random, row: &mut Vec<u8>, column: Column) {
    match column {
        (3, _) => row.extend_from_slice(&random.next().to_le_bytes()[..4]),
        (8, _) => row.extend_from_slice(&random.next().to_le_bytes()),
        (15, &[255, _]) => text(random, row, 1, 64),
        (15, _) => {
            let size = 8 + random.below(8);
            text(random, row, 1, size)
        }
        (252, _) => {
            let size = 500 + random.below(1000);
            text(random, row, 2, size)
        }
        (17, _) => row.extend_from_slice(&(random.next() as u32 & 0x7fff_ffff).to_be_bytes()),
        _ => row.extend_from_slice(&[0x99, 0x9e, 0x5c, 0x9d, 0x80]),
    }
}

/// A rows event's body of type 30 for all columns; the flag ends the statement.
fn rows(random: &mut Random, shape: &Shape, ends: bool) -> Vec<u8> {
    let n = shape.columns.len();
    let mut body = vec![7, 0, 0, 0, 0, 0, ends as u8, 0, 2, 0];
    body.extend_from_slice(&packed(n));
    body.resize(body.len() + n.div_ceil(8), 0xff);
    while body.len() < shape.event {
        body.resize(body.len() + n.div_ceil(8), 0);
        for &column in &shape.columns {
            value(random, &mut body, column);
        }
    }
    body
}

/// A log of a shape; `crc` is the checksum to write.
pub fn make(shape: &Shape, seed: u64, crc: &dyn Fn(&[u8]) -> u32) -> Vec<u8> {
    let mut random = Random(seed);
    let map = table_map(&shape.columns);
    let bodies: Vec<[Vec<u8>; 2]> =
        (0..64).map(|_| [false, true].map(|ends| rows(&mut random, shape, ends))).collect();
    let mut writer = Writer { log: b"\xfebin".to_vec(), checksums: shape.checksums, crc };
    writer.description();
    while writer.log.len() < shape.bytes {
        writer.event(19, &map, shape.checksums);
        for i in 1..=shape.rows_events {
            let body = &bodies[random.below(64)][(i == shape.rows_events) as usize];
            writer.event(30, body, shape.checksums);
        }
    }
    writer.log
}
