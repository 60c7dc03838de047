//! 01's evidence: the sources' own bytes and the boundaries.

mod making;

use making::*;
use second::*;

fn refused(log: &Log, number: u8, place: usize) {
    refused_bytes(&log.bytes, number, place);
}

/// Every question is refused alike, and nothing is written.
#[track_caller]
fn refused_bytes(log: &[u8], number: u8, place: usize) {
    let refusal = Refusal { number, place };
    assert_eq!(check(log), Err(refusal));
    let mut out = [77; 50];
    assert_eq!(list(log, &mut out), Err(refusal));
    assert_eq!(out, [77; 50]);
    assert_eq!(change(log, 9).err(), Some(refusal));
    assert_eq!(value(log, 0, 2, 0), Err(refusal));
    assert_eq!(read(log).err(), Some(refusal));
}

#[track_caller]
fn accepted(log: &Log, events: usize, changes: usize) {
    assert_eq!(check(&log.bytes), Ok(Counts { events, changes }));
}

/// 004's log; its two table maps are not printed, but follow from what is.
fn log_of_004() -> Log {
    let mut log = Log::sound();
    log.server = 93157;
    let columns = (&[3, 15, 15][..], &[60, 0, 60, 0][..]);
    for (place, bytes) in [
        (
            331,
            "24 0e a1 58 1f e5 6b 01 00 34 00 00 00 b9 01 00 00 00 00
               d2 00 00 00 00 00 01 00 02 00 03 ff ff fd 04 74
               65 73 74 fa 02 00 00 00 04 74 65 73 74 1d 59 c0 21",
        ),
        (
            609,
            "2a 0e a1 58 20 e5 6b 01 00 2d 00 00 00 c8 02 00 00 00 00
               d2 00 00 00 00 00 01 00 02 00 03 ff fa 02 00 00
               00 04 74 65 73 74 c1 41 57 05",
        ),
    ] {
        log.fill_to(place);
        log.map(210, columns.0, columns.1);
        log.bytes.extend(hex(bytes));
    }
    log.event(16, 0, &[0; 8]);
    log
}

#[test]
fn update_and_delete_of_004() {
    let log = log_of_004();
    assert_eq!(log.bytes.len(), 743);
    accepted(&log, 8, 2);
    let mut out = [9; 12];
    assert_eq!(
        list(&log.bytes, &mut out),
        Ok(Counts {
            events: 8,
            changes: 2
        })
    );
    assert_eq!(out, [31, 389, 331, 421, 427, 32, 667, 609, 698, 0, 9, 9]);
    let test = Cell::Stored(15, Value::Text(b"test"));
    let two = Cell::Stored(3, Value::Integer(2));
    let reading = read(&log.bytes).unwrap();
    let changes: Vec<_> = reading.changes().collect();
    assert_eq!(changes.len(), 2);
    assert_eq!(
        changes[0].before().unwrap().collect::<Vec<_>>(),
        [Cell::Null, test, Cell::Null]
    );
    assert_eq!(
        changes[0].after().unwrap().collect::<Vec<_>>(),
        [two, Cell::Null, test]
    );
    assert_eq!(
        changes[1].before().unwrap().collect::<Vec<_>>(),
        [two, Cell::Null, test]
    );
    assert!(changes[1].after().is_none());
    assert_eq!(value(&log.bytes, 0, 1, 2), Ok(test));
    let asked = change(&log.bytes, 1).unwrap();
    assert_eq!((asked.table_id, asked.columns), (210, 3));
    assert_eq!(
        (asked.database, asked.table),
        (&b"test"[..], &b"testnull2"[..])
    );
    // The names are the parts of the log after that map's post-header.
    assert_eq!(
        asked.database.as_ptr(),
        log.bytes[609 + 19 + 8 + 1..].as_ptr()
    );
    let no_such = Err(Refusal {
        number: 19,
        place: 0,
    });
    for (k, side, column) in [
        (2, 0, 0),
        (0, 2, 0),
        (0, 0, 3),
        (1, 1, 0),
        (usize::MAX, 0, 0),
    ] {
        assert_eq!(value(&log.bytes, k, side, column), no_such);
    }
}

#[test]
fn a_short_listing_buffer() {
    let log = log_of_004();
    for length in 0..10 {
        let mut out = vec![9; length];
        assert_eq!(
            list(&log.bytes, &mut out),
            Err(Refusal {
                number: 20,
                place: 0
            })
        );
        assert_eq!(out, vec![9; length]);
    }
    assert!(list(&Log::sound().bytes, &mut []).is_ok());
}

#[test]
fn write_and_delete_of_000() {
    let types = [1, 2, 9, 3, 8, 1];
    let post = "64 00 00 00 00 00 01 00 02 00 06 ff c0";
    let rest = "57 04 00 00 67 2b 00 00 00 00 00 00 01";
    // The printed times are local, five hours behind.
    for (time, kind, place, changed, sum) in [
        (
            1_514_992_880,
            WRITE,
            340,
            "01 0b 00 6f 00 00",
            0x5017_7e10u32,
        ),
        (1_515_007_494, DELETE, 320, "01 16 00 de 00 00", 0xce48_18b2),
    ] {
        let mut log = Log::sound();
        log.server = 330_619;
        let map = map_body(100, &types, &[]).len() + 23;
        log.fill_to(place - map);
        log.map(100, &types, &[]);
        log.event_at(time, kind, 0, &hex(&[post, changed, rest].join(" ")));
        assert_eq!(log.bytes[log.bytes.len() - 4..], sum.to_le_bytes());
        accepted(&log, 4, 1);
        let change = change(&log.bytes, 0).unwrap();
        assert_eq!(change.entry[..2], [kind.into(), place as u32]);
        let image = change.before().or(change.after()).unwrap();
        let numbers: Vec<_> = image
            .map(|cell| match cell {
                Cell::Stored(_, Value::Integer(n)) => n,
                _ => panic!("{cell:?}"),
            })
            .collect();
        let (second, third) = if kind == WRITE { (11, 111) } else { (22, 222) };
        assert_eq!(numbers, [1, second, third, 1111, 11111, 1]);
    }
}

#[test]
fn the_opening() {
    let log = Log::sound().bytes;
    assert_eq!(log.len(), 4 + 119);
    assert_eq!(
        check(&log),
        Ok(Counts {
            events: 1,
            changes: 0
        })
    );
    for length in 0..4 {
        refused_bytes(&log[..length], 2, 0);
    }
    refused_bytes(&log[..4], 3, 4);
    for length in 5..log.len() {
        refused_bytes(&log[..length], 4, 4);
    }
    refused_bytes(b"\xfebix", 2, 0);
    // A fault in each byte that is judged.
    for (at, byte, number) in [
        (0, 0, 2),
        (4 + 4, 14, 3),
        (4 + 9, 112, 6),
        (4 + 10, 2, 6),
        (4 + 13, 124, 9),
        (4 + 19, 3, 6),
        (4 + 20, 1, 6),
        (4 + 21, b'4', 7),
        (4 + 75, 18, 6),
        (4 + 76 + 18, 7, 6),
        (4 + 76 + 29, 9, 6),
        (4 + 76 + 30, 9, 6),
        (4 + 76 + 31, 9, 6),
        (4 + 114, 2, 6),
        (4 + 118, 0, 8),
        (4 + 71, 1, 8),
    ] {
        let mut bad = log.clone();
        bad[at] = byte;
        refused_bytes(&bad, number, if at == 0 { 0 } else { 4 });
    }
}

#[test]
fn the_longest_log() {
    // Length is judged before the opening bytes, and those before the rest.
    let log = vec![0; (1 << 30) + 1];
    assert_eq!(
        check(&log),
        Err(Refusal {
            number: 1,
            place: 0
        })
    );
    assert_eq!(
        check(&log[1..]),
        Err(Refusal {
            number: 2,
            place: 0
        })
    );
}

#[test]
fn description_lengths() {
    for (entries, number) in [(31, 6), (32, 0), (255, 0), (256, 6)] {
        let mut description = Description::sound();
        description.entries.resize(entries, 0);
        let log = description.log();
        match number {
            0 => accepted(&log, 1, 0),
            _ => refused(&log, number, 4),
        }
    }
    // A description without later checksums still has its own.
    let mut log = Description {
        kind: 0,
        ..Description::sound()
    }
    .log();
    log.event(2, 0, &[]);
    accepted(&log, 2, 0);
    log.bytes[122] ^= 1;
    refused(&log, 8, 4);
}

#[test]
fn server_versions() {
    for (server, read) in [
        ("5.6.0", false),
        ("5.6.1", true),
        ("5.6.1234", false),
        ("05.006.001-x", true),
        ("5.5.255", false),
        ("5.6.256", false),
        ("255.0.0", true),
        ("5.6.", false),
        ("5.6", false),
        (".6.1", false),
        ("5..1", false),
        ("10.11.6-MariaDB", true),
        ("0010.0.0", false),
        ("x8.0.1", false),
        ("9.7.4.", true),
        ("", false),
    ] {
        let log = Description {
            server,
            ..Description::sound()
        }
        .log();
        match read {
            true => accepted(&log, 1, 0),
            false => refused(&log, 7, 4),
        }
    }
}

#[test]
fn header_lengths() {
    refused(
        &Description {
            header: 18,
            ..Description::sound()
        }
        .log(),
        6,
        4,
    );
    let mut log = Description {
        header: 255,
        ..Description::sound()
    }
    .log();
    log.event(2, 0, &[]);
    log.event(4, 0, &[]);
    log.map(7, &[1], &[]);
    log.rows(WRITE, 7, 1, &[1, 1, 0, 5]);
    accepted(&log, 5, 1);
    assert_eq!(
        value(&log.bytes, 0, 1, 0),
        Ok(Cell::Stored(1, Value::Integer(5)))
    );
}

#[test]
fn frames_of_later_events() {
    let place = 123;
    let mut log = Log::sound();
    log.event(2, 0, &[1, 2, 3]);
    accepted(&log, 2, 0);
    for cut in place + 1..log.bytes.len() {
        refused_bytes(&log.bytes[..cut], 4, place);
    }
    for (at, byte, number) in [
        (4, 15, 10),
        (9, 22, 5),
        (9, 27, 4),
        (13, 0, 9),
        (19, 9, 8),
        (25, 0, 8),
    ] {
        let mut bad = log.clone();
        bad.bytes[place + at] = byte;
        refused(&bad, number, place);
    }
    // Too short is found before too long a header, and before the end.
    log.bytes[place + 9] = 0;
    log.bytes.truncate(place + 19);
    refused(&log, 5, place);
}

#[test]
fn event_types() {
    let stepped = [2, 3, 4, 16, 28, 29, 33, 34, 35];
    let never = [20, 21, 22, 23, 24, 25, 39, 40];
    for kind in 0..=255 {
        if kind == 15 || kind == TABLE_MAP || (WRITE..=DELETE).contains(&kind) {
            continue;
        }
        for flags in [0, 0x80, 0x8000, 0xff7f] {
            let mut log = Log::sound();
            log.event(kind, flags, &[]);
            let ignorable = flags & 0x80 != 0 && !never.contains(&kind);
            match stepped.contains(&kind) || ignorable {
                true => accepted(&log, 2, 0),
                false => refused(&log, 11, 123),
            }
        }
    }
}

#[test]
fn column_counts() {
    for columns in [1, 8, 9, 250, 251, 400, 512] {
        let types = vec![1; columns];
        let mut row = vec![0; columns.div_ceil(8)];
        row.extend((0..columns).map(|i| i as u8));
        let log = Log::one_write(&types, &[], &row);
        accepted(&log, 3, 1);
        let change = change(&log.bytes, 0).unwrap();
        let cells: Vec<_> = change.after().unwrap().collect();
        assert_eq!(cells.len(), columns);
        for (i, cell) in cells.iter().enumerate() {
            assert_eq!(
                *cell,
                Cell::Stored(1, Value::Integer((i as u8 as i8).into()))
            );
        }
    }
    refused(&Log::one_write(&vec![1; 513], &[], &[]), 12, 123);
    refused(&Log::one_write(&[], &[], &[]), 12, 123);
}

#[test]
fn live_ids() {
    let mut log = Log::sound();
    for id in 0..16 {
        log.map(id, &[1], &[]);
    }
    // A live id again is no 17th, nor is one after a statement end.
    log.map(3, &[1, 1], &[]);
    accepted(&log, 18, 0);
    let mut ended = log.clone();
    let place = log.map(16, &[1], &[]);
    refused(&log, 14, place);
    ended.rows(WRITE, 3, 1, &[2, 3, 0, 5, 6]);
    ended.map(16, &[1], &[]);
    ended.rows(WRITE, 16, 0x12, &[1, 1, 0, 5]);
    accepted(&ended, 21, 2);
    let place = ended.rows(WRITE, 3, 0, &[2, 3]);
    refused(&ended, 15, place);
    // A malformed 17th map is refused as malformed.
    let mut log = Log::sound();
    for id in 0..16 {
        log.map(id, &[1], &[]);
    }
    let place = log.map(16, &[16], &[]);
    refused(&log, 13, place);
}

#[test]
fn the_same_map_again() {
    // The same bytes, other columns, and the same bytes once more.
    let mut log = Log::sound();
    for types in [&[3][..], &[3], &[1, 1], &[3]] {
        log.map(7, types, &[]);
        let mut rest = packed(types.len());
        rest.extend([0xff, 0, 1, 2, 3, 4]);
        let place = log.rows(WRITE, 7, 1, &rest[..if types.len() == 1 { 7 } else { 5 }]);
        assert_eq!(
            check(&log.bytes)
                .map_err(|r| (r, place))
                .map(|c| c.events % 2),
            Ok(1)
        );
    }
    accepted(&log, 9, 4);
    let reading = read(&log.bytes).unwrap();
    let maps: Vec<_> = reading.changes().map(|c| c.entry[1] - c.entry[2]).collect();
    assert_eq!(maps, [52, 52, 53, 52]);
}

#[test]
fn rows_area_empty() {
    let mut log = Log::sound();
    log.map(7, &[1, 1, 1], &[]);
    log.rows(WRITE, 7, 0, &[3, 1]);
    accepted(&log, 3, 0);
    // The statement end is obeyed also without rows.
    log.rows(UPDATE, 7, 1, &[3, 1, 0xfa]);
    accepted(&log, 4, 0);
    let place = log.rows(WRITE, 7, 0, &[3, 1]);
    refused(&log, 15, place);
}

#[test]
fn rows_heads() {
    let map = |rest: &[u8], kind: u8| {
        let mut log = Log::sound();
        log.map(7, &[1, 1, 1], &[]);
        let place = log.event(kind, 0, rest);
        (log, place)
    };
    let head = [7, 0, 0, 0, 0, 0, 0, 0, 2, 0, 3, 0xff, 0xff];
    for (rest, kind, number) in [
        (&head[..12], WRITE, 0),
        (&head[..13], UPDATE, 0),
        (&head[..12], UPDATE, 16),
        (&head[..11], WRITE, 16),
        (&head[..10], DELETE, 16),
        (&head[..9], DELETE, 16),
        (&[8, 0, 0, 0, 0, 0, 0, 0, 2][..], DELETE, 16),
        (&[8, 0, 0, 0, 0, 0, 0, 0, 1, 0], DELETE, 15),
        (&[7, 0, 0, 0, 0, 1, 0, 0, 2, 0, 3, 1], DELETE, 15),
        (&[7, 0, 0, 0, 0, 0, 0, 0, 1, 0, 3, 1], DELETE, 16),
        (&[7, 0, 0, 0, 0, 0, 0, 0, 2, 0, 2, 1], DELETE, 16),
        (&[7, 0, 0, 0, 0, 0, 0, 0, 2, 0, 251, 1], DELETE, 16),
        (&[7, 0, 0, 0, 0, 0, 0, 0, 2, 0, 252, 3, 0, 1], DELETE, 0),
        (&[7, 0, 0, 0, 0, 0, 0, 0, 4, 0, 9, 9, 3, 1], DELETE, 0),
        (&[7, 0, 0, 0, 0, 0, 0, 0, 5, 0, 9, 9], DELETE, 16),
        (&[7, 0, 0, 0, 0, 0, 0, 0, 2, 0, 3, 0xf8], DELETE, 16),
        (&[7, 0, 0, 0, 0, 0, 0, 0, 2, 0, 3, 1, 0xf8], UPDATE, 16),
    ] {
        let (log, place) = map(rest, kind);
        match number {
            0 => accepted(&log, 3, 0),
            _ => refused(&log, number, place),
        }
    }
}

#[test]
fn post_headers_as_the_description_says() {
    let mut description = Description::sound();
    description.entries[18] = 10;
    description.entries[30] = 13;
    let mut log = description.log();
    let mut body = map_body(7, &[1], &[]);
    body.splice(8..8, [9, 9]);
    body.extend([1, 2, 3]);
    log.event(TABLE_MAP, 0, &body);
    log.event(
        UPDATE,
        0,
        &[
            7, 0, 0, 0, 0, 0, 1, 0, 3, 0, 9, 9, 9, 8, 1, 1, 1, 0, 4, 0, 5,
        ],
    );
    accepted(&log, 3, 1);
    assert_eq!(
        value(&log.bytes, 0, 0, 0),
        Ok(Cell::Stored(1, Value::Integer(4)))
    );
    assert_eq!(
        value(&log.bytes, 0, 1, 0),
        Ok(Cell::Stored(1, Value::Integer(5)))
    );
    // Without all of the post-header it is 16 before 15, and 12.
    let mut short = log.clone();
    let place = short.event(UPDATE, 0, &[7, 0, 0, 0, 0, 0, 1, 0, 3, 0, 9, 9]);
    refused(&short, 16, place);
    let place = log.event(TABLE_MAP, 0, &[7, 0, 0, 0, 0, 0, 1, 0, 3]);
    refused(&log, 12, place);
}

#[test]
fn used_columns_number_the_null_bits() {
    let mut log = Log::sound();
    log.map(7, &[1, 2, 3, 1], &[]);
    // Columns 1 and 3 before, 0 alone after; spare bits are ones.
    log.rows(
        UPDATE,
        7,
        1,
        &[4, 0xfa, 0xf1, 0xfd, 0x2a, 0xfe, 9, 0xfc, 1, 2, 3, 0xff],
    );
    accepted(&log, 3, 2);
    let (absent, null) = (Cell::Absent, Cell::Null);
    let tiny = |n| Cell::Stored(1, Value::Integer(n));
    let reading = read(&log.bytes).unwrap();
    let cells: Vec<Vec<_>> = reading
        .changes()
        .flat_map(|c| [c.before(), c.after()])
        .flatten()
        .map(Iterator::collect)
        .collect();
    assert_eq!(cells[0], [absent, null, absent, tiny(42)]);
    assert_eq!(cells[1], [tiny(9), absent, absent, absent]);
    assert_eq!(
        cells[2],
        [
            absent,
            Cell::Stored(2, Value::Integer(513)),
            absent,
            tiny(3)
        ]
    );
    assert_eq!(cells[3], [null, absent, absent, absent]);
    // Rows that end between the two images.
    let place = log.map(7, &[1], &[]);
    log.rows(UPDATE, 7, 1, &[1, 1, 1, 0, 5]);
    refused(&log, 17, place + 52);
}

#[test]
fn longest_text() {
    // M 255: one length byte; M 256: two.
    let row = |length: &[u8], n: usize| [&[0], length, &vec![b'x'; n][..]].concat();
    for (m, row, number, place) in [
        (255u16, row(&[255], 255), 0, 0),
        (255, row(&[255], 254), 17, 177),
        (256, row(&[0, 1], 256), 0, 0),
        (256, row(&[1, 1], 0), 18, 177 + 32),
        (256, row(&[1], 0), 17, 177),
        (10, row(&[11], 0), 18, 177 + 32),
        (10, row(&[10], 9), 17, 177),
        (0, row(&[0], 0), 0, 0),
        (0, row(&[1], 1), 18, 177 + 32),
    ] {
        let log = Log::one_write(&[15], &m.to_le_bytes(), &row);
        match number {
            0 => accepted(&log, 3, 1),
            _ => refused(&log, number, place),
        }
    }
}

#[test]
fn table_maps() {
    let sound = map_body(7, &[15, 4, 17, 252, 5], &[1, 0, 4, 6, 4, 8]);
    let judge = |body: &[u8], number: u8| {
        let mut log = Log::sound();
        log.event(TABLE_MAP, 0, body);
        match number {
            0 => accepted(&log, 2, 0),
            _ => refused(&log, number, 123),
        }
    };
    judge(&sound, 0);
    judge(&[&sound[..], &[1, 2, 3]].concat(), 0);
    for cut in 0..sound.len() {
        judge(&sound[..cut], 12);
    }
    // Post-header 8, names 6 and 11, the count at 25, types at 26, the
    // metadata's length at 31, its bytes at 32 and nullable bits at 38.
    for (at, byte, number) in [
        (13, 1, 12),
        (24, 1, 12),
        (25, 251, 12),
        (26, 16, 13),
        (27, 6, 13),
        (26, 1, 12),
        (31, 5, 12),
        (31, 7, 12),
        (31, 255, 12),
        (34, 5, 13),
        (35, 7, 13),
        (35, 0, 0),
        (36, 0, 13),
        (36, 5, 13),
        (37, 4, 13),
        (38, 0xff, 0),
    ] {
        let mut body = sound.clone();
        body[at] = byte;
        judge(&body, number);
        // Types before the metadata, and its contents before what follows.
        if number == 13 {
            judge(&body[..if at < 32 { 31 } else { 38 }], 13);
            judge(&body[..if at < 32 { 30 } else { 37 }], 12);
        }
    }
}

#[test]
fn values_in_reading_order() {
    let event = 123 + 53;
    // A DATE that isn't allowed comes before a cut value, and the reverse.
    let bad = [0, 0xa0, 0x01, 0x00, 9];
    refused(&Log::one_write(&[10, 2], &[], &bad), 18, event + 32);
    refused(&Log::one_write(&[10, 2], &[], &bad[..3]), 17, event);
    refused(
        &Log::one_write(&[2, 10], &[], &[0, 1, 1, 0xa0, 0x01]),
        17,
        event,
    );
    refused(
        &Log::one_write(&[2, 10], &[], &[0, 1, 1, 0xa0, 0x01, 0]),
        18,
        event + 34,
    );
    // The same with a null before it.
    refused(
        &Log::one_write(&[2, 10], &[], &[1, 0xa0, 0x01, 0]),
        18,
        event + 32,
    );
    // The second row's.
    let rows = [0, 1, 1, 0x8e, 0xc3, 0x0f, 0, 1, 1, 0xa0, 0x01, 0];
    refused(&Log::one_write(&[2, 10], &[], &rows), 18, event + 40);
    // A blob whose length passes all bounds.
    refused(
        &Log::one_write(&[252], &[4], &[0, 255, 255, 255, 255]),
        17,
        event,
    );
}
