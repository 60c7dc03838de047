//! The printer against bytes that others printed: 004's events and the
//! values of 01's table.

use logs::{
    made, Body, Cell, Column, Description, Event, Form, Image, Log, Map, Part, Rows, Value,
};

fn text(bytes: &[u8]) -> Value {
    Value::Text(Part {
        place: 0,
        bytes: bytes.to_vec(),
    })
}

fn event(time: u32, kind: u8, body: Body) -> Event {
    Event {
        time,
        server: 93157,
        ..Event::plain(kind, 0, body)
    }
}

/// An event of `length` bytes that is stepped over.
fn filler(kind: u8, length: usize) -> Event {
    event(0, kind, Body::Free(vec![0; length - 23]))
}

fn columns() -> Vec<Column> {
    [(3, 0), (15, 60), (15, 60)]
        .map(|(kind, meta)| Column { kind, meta })
        .to_vec()
}

fn map() -> Event {
    let (database, table) = (b"test".to_vec(), b"testnull2".to_vec());
    event(
        0,
        19,
        Body::Map(Map {
            flags: 1,
            database,
            table,
            ..Map::plain(210, columns())
        }),
    )
}

fn rows(time: u32, kind: u8, row: Vec<Image>) -> Event {
    event(
        time,
        kind,
        Body::Rows(Rows::plain(210, columns(), vec![row])),
    )
}

fn log_of_004() -> Log {
    let cells = vec![Cell::Null, Cell::Stored(15, text(b"test")), Cell::Null];
    let before = Image { cells, spare: 0xff };
    let after = Image {
        cells: vec![
            Cell::Stored(3, Value::Integer(2)),
            Cell::Null,
            Cell::Stored(15, text(b"test")),
        ],
        spare: 0xff,
    };
    let events = vec![
        filler(35, 71),
        filler(33, 65),
        filler(2, 72),
        map(),
        rows(0x58a1_0e24, 31, vec![before, after.clone()]),
        filler(16, 31),
        filler(33, 65),
        filler(2, 72),
        map(),
        rows(0x58a1_0e2a, 32, vec![after]),
        filler(16, 31),
    ];
    Log {
        description: Description {
            server: 93157,
            ..Description::plain()
        },
        events,
    }
}

/// As mysqlbinlog's hexdump in 004 has them, checksums included.
const UPDATE: &str = "24 0e a1 58 1f e5 6b 01 00 34 00 00 00 b9 01 00 00 00 00 \
    d2 00 00 00 00 00 01 00 02 00 03 ff ff fd 04 74 65 73 74 fa 02 00 00 00 04 74 65 73 74 \
    1d 59 c0 21";
const DELETE: &str = "2a 0e a1 58 20 e5 6b 01 00 2d 00 00 00 c8 02 00 00 00 00 \
    d2 00 00 00 00 00 01 00 02 00 03 ff fa 02 00 00 00 04 74 65 73 74 c1 41 57 05";

fn hex(text: &str) -> Vec<u8> {
    text.split_whitespace()
        .map(|byte| u8::from_str_radix(byte, 16).expect("hex"))
        .collect()
}

#[test]
fn events_of_004() {
    let made = made(log_of_004());
    assert_eq!(made.bytes[389..441], hex(UPDATE));
    assert_eq!(made.bytes[667..712], hex(DELETE));
    let listing: Vec<[u32; 5]> = made
        .truth
        .changes
        .iter()
        .map(|it| it.head.listing)
        .collect();
    assert_eq!(listing, [[31, 389, 331, 421, 427], [32, 667, 609, 698, 0]]);
}

/// 01's table P1 to P8 and P12.
#[test]
fn tabled_values() {
    let date_time = |micros| Value::DateTime {
        year: 2017,
        month: 12,
        day: 14,
        hour: 9,
        minute: 54,
        second: 0,
        micros,
    };
    let time = |negative, hour, minute, second, micros| Value::Time {
        negative,
        hour,
        minute,
        second,
        micros,
    };
    let table = [
        (
            10,
            0,
            Value::Date {
                year: 2017,
                month: 12,
                day: 14,
            },
            "8e c3 0f",
        ),
        (18, 0, date_time(0), "99 9e 5c 9d 80"),
        (18, 3, date_time(112_000), "99 9e 5c 9d 80 04 60"),
        (
            17,
            0,
            Value::Timestamp {
                seconds: 1_513_216_440,
                micros: 0,
            },
            "5a 31 d9 b8",
        ),
        (
            17,
            4,
            Value::Timestamp {
                seconds: 1_513_216_440,
                micros: 111_300,
            },
            "5a 31 d9 b8 04 59",
        ),
        (19, 0, time(false, 9, 54, 0, 0), "80 9d 80"),
        (19, 5, time(false, 9, 54, 0, 0), "80 9d 80 00 00 00"),
        (19, 2, time(true, 0, 0, 1, 100_000), "7f ff fe f6"),
        (13, 0, Value::Year(2017), "75"),
        (8, 0, Value::Integer(11_111), "67 2b 00 00 00 00 00 00"),
        (1, 0, Value::Integer(-1), "ff"),
    ];
    for (kind, meta, value, bytes) in table {
        assert_eq!(
            Column { kind, meta }.store(&value),
            hex(bytes),
            "type {kind}"
        );
    }
}

/// 01's P9 and P10, and longer forms than needed.
#[test]
fn packed_numbers() {
    assert_eq!(Form::None.pack(250), hex("fa"));
    assert_eq!(Form::None.pack(251), hex("fc fb 00"));
    assert_eq!(Form::Three.pack(1), hex("fd 01 00 00"));
    assert_eq!(Form::Eight.pack(513), hex("fe 01 02 00 00 00 00 00 00"));
}
