//! All questions of the crate, of every log that the independent account
//! (crates/evidence/stdout) speaks of, held to what it says.

mod evidence;

use std::fmt::Write;
use tegmeadow::{Cell, Counts, Log, Refusal, Side, Value};

/// Logs that the account has no listing of, and those of which it has no more.
const LONGEST: usize = 65_536;
const FEW: usize = 32_768;
const MARK: u32 = 0xa5a5_a5a5;

/// The lines about a log. A side that is none can't be asked for in Rust, so
/// its lines are left out.
fn expected(lines: &[String]) -> String {
    let is_asked =
        |line: &&String| !line.starts_with("value ") || line.split(' ').nth(2) != Some("2");
    lines
        .iter()
        .filter(is_asked)
        .flat_map(|line| [line.as_str(), "\n"])
        .collect()
}

fn hex(bytes: &[u8]) -> String {
    bytes.iter().fold(String::from("x"), |text, byte| {
        text + &format!("{byte:02x}")
    })
}

fn place(log: &[u8], part: &[u8]) -> usize {
    part.as_ptr() as usize - log.as_ptr() as usize
}

fn refused(refusal: &Refusal) -> String {
    format!("refused {} at {}", refusal.number, refusal.place)
}

fn counted(answer: &Result<Counts, Refusal>) -> String {
    match answer {
        Ok(counts) => format!("accepted {} {}", counts.events, counts.changes),
        Err(refusal) => refused(refusal),
    }
}

fn spelled(log: &[u8], cell: &Cell) -> String {
    let (kind, value) = match cell {
        Cell::Absent => return "absent".into(),
        Cell::Null => return "null".into(),
        Cell::Stored(kind, value) => (kind.number(), value),
    };
    match *value {
        Value::Integer(n) => format!("{kind} {n}"),
        Value::Float(n) => format!("{kind} {}", n.to_bits()),
        Value::Double(n) => format!("{kind} {}", n.to_bits()),
        Value::Date(d) => format!("{kind} {} {} {}", d.year, d.month, d.day),
        Value::Year(year) => format!("{kind} {year}"),
        Value::Timestamp(t) => format!("{kind} {} {}", t.seconds, t.microseconds),
        Value::Datetime(t) => format!(
            "{kind} {} {} {} {} {} {} {}",
            t.date.year, t.date.month, t.date.day, t.hour, t.minute, t.second, t.microseconds
        ),
        Value::Time(t) => {
            let sign = if t.negative { '-' } else { '+' };
            format!(
                "{kind} {sign} {} {} {} {}",
                t.hour, t.minute, t.second, t.microseconds
            )
        }
        Value::Text(text) => format!("{kind} {} {} {}", place(log, text), text.len(), hex(text)),
    }
}

fn ask_list(log: &Log, room: usize, out: &mut String) {
    let mut buffer = vec![MARK; room + 64];
    let answer = log.list(&mut buffer[..room]);
    let written = answer.as_ref().map_or(0, |counts| 5 * counts.changes);
    let kept = buffer[written..].iter().all(|number| *number == MARK);
    let _ = writeln!(out, "list {room} {}", counted(&answer));
    let _ = writeln!(out, "{}", if kept { "kept" } else { "changed" });
}

fn ask_side(log: &Log, k: usize, side: Side, out: &mut String) {
    for column in 0..513 {
        let _ = write!(out, "value {k} {} {column} ", side as usize);
        match log.value(k, side, column) {
            Ok(cell) => {
                let _ = writeln!(out, "{}", spelled(log.bytes(), &cell));
                let text = log.text(k, side, column);
                assert_eq!(text, cell.text().unwrap_or_default());
            }
            Err(refusal) => {
                let _ = writeln!(out, "{}", refused(&refusal));
                return;
            }
        }
    }
}

/// Whether change `k` was answered.
fn ask_change(log: &Log, k: usize, out: &mut String) -> bool {
    let answer = log.change(k);
    let _ = match &answer {
        Err(refusal) => writeln!(out, "change {k} {}", refused(refusal)),
        Ok(info) => {
            let [kind, event, map, before, after] = info.entry.0;
            let (id, columns) = (info.table_id, info.columns);
            let names = [log.database_name(k), log.table_name(k)].map(hex).join(" ");
            let places = format!("{kind} {event} {map} {before} {after}");
            writeln!(out, "change {k} {places} {id} {columns} {names}")
        }
    };
    ask_side(log, k, Side::Before, out);
    ask_side(log, k, Side::After, out);
    answer.is_ok()
}

fn account(bytes: &[u8]) -> String {
    if bytes.len() > LONGEST {
        return "too long\n".into();
    }
    let log = Log::new(bytes);
    let mut out = counted(&log.check()) + "\n";
    let listing = log.listing();
    for entry in listing.iter().flat_map(|listing| listing.entries()) {
        let _ = writeln!(
            out,
            "{}",
            entry.0.map(|number| number.to_string()).join(" ")
        );
    }
    if bytes.len() > FEW {
        return out;
    }
    let changes = listing.map_or(0, |listing| listing.counts().changes);
    if changes > 0 {
        ask_list(&log, 5 * changes - 1, &mut out);
    }
    ask_list(&log, 5 * changes, &mut out);
    ask_list(&log, 5 * changes + 3, &mut out);
    for k in 0..=changes {
        if !ask_change(&log, k, &mut out) {
            break;
        }
    }
    out
}

#[test]
fn every_question_answers_as_the_account() {
    for (name, lines) in evidence::sections() {
        assert_eq!(account(&evidence::read(&name)), expected(&lines), "{name}");
    }
}

/// The linear way answers as the single questions do, which the account is held to.
#[test]
fn the_changes_answer_as_the_questions() {
    let mut seen = 0;
    for (name, _) in evidence::sections() {
        let bytes = evidence::read(&name);
        let log = Log::new(&bytes);
        let (Ok(counts), Ok(changes)) = (log.check(), log.changes()) else {
            continue;
        };
        assert_eq!(changes.len(), counts.changes, "{name}");
        // held, so that what was given out must last
        let held: Vec<_> = changes.collect();
        for (k, change) in held.iter().enumerate() {
            let info = log.change(k).expect("a change");
            assert_eq!(
                (change.entry(), change.table_id()),
                (info.entry, info.table_id)
            );
            assert_eq!(change.database(), log.database_name(k));
            assert_eq!(change.table(), log.table_name(k));
            for (side, image) in [
                (Side::Before, change.before()),
                (Side::After, change.after()),
            ] {
                let cells = image.map(|image| image.cells().collect::<Vec<_>>());
                let single = |column| log.value(k, side, column).ok();
                let singles: Option<Vec<_>> = (0..info.columns).map(single).collect();
                let spelled = |cells: Vec<Cell>| {
                    cells
                        .iter()
                        .map(|cell| spelled(&bytes, cell))
                        .collect::<Vec<_>>()
                };
                assert_eq!(
                    cells.map(spelled),
                    singles.map(spelled),
                    "{name} {k} {side:?}"
                );
            }
            seen += 1;
        }
    }
    assert!(seen > 300, "{seen}");
}

#[test]
fn a_refusal_speaks_the_papers_words() {
    let refusal = Refusal {
        number: 8,
        place: 389,
    };
    assert_eq!(refusal.to_string(), "refused 8 at 389: checksum wrong");
    let as_error: &dyn std::error::Error = &refusal;
    assert_eq!(as_error.to_string(), refusal.to_string());
    assert_eq!(
        Log::new(b"").check(),
        Err(Refusal {
            number: 2,
            place: 0
        })
    );
}

#[test]
fn a_part_of_a_listing_gives_its_changes() {
    let bytes = evidence::read("real/mysql-part-crc32.binlog");
    let log = Log::new(&bytes);
    let listing = log.listing().expect("a listing");
    let all: Vec<_> = listing.entries().collect();
    assert!(all.len() > 10);
    let entries = |some| -> Vec<_> {
        log.changes_in(&listing, some)
            .map(|it| it.entry())
            .collect()
    };
    assert_eq!(entries(0..all.len()), all);
    assert_eq!(entries(3..7), all[3..7]);
    assert_eq!(entries(all.len() - 1..usize::MAX), all[all.len() - 1..]);
    assert_eq!(entries(usize::MAX..usize::MAX), []);
}

/// A listing of another log gives what can be read, and nothing that was not written for it.
#[test]
fn a_listing_of_another_log_is_read_as_far_as_it_can_be() {
    let bytes = evidence::read("real/mysql-part-crc32.binlog");
    let listing = Log::new(&bytes).listing().expect("a listing");
    for length in (0..bytes.len()).step_by(7) {
        let cut = Log::new(&bytes[..length]);
        for change in cut.changes_in(&listing, 0..usize::MAX) {
            let entry = change.entry();
            for (side, image) in [
                (Side::Before, change.before()),
                (Side::After, change.after()),
            ] {
                for (column, cell) in image.iter().flat_map(|it| it.cells()).enumerate() {
                    assert_eq!(Some(cell), cut.value_at(&entry, side, column));
                }
            }
        }
    }
}
