//! Running the program.

#![allow(dead_code)] // each test uses some of it

use std::ffi::OsStr;
use std::io::Write;
use std::path::{Path, PathBuf};
use std::process::{Command, Output, Stdio};

pub fn program() -> Command {
    Command::new(env!("CARGO_BIN_EXE_tegmeadow"))
}

/// A file of the repository.
pub fn file(path: &str) -> PathBuf {
    Path::new(env!("CARGO_MANIFEST_DIR"))
        .join("../..")
        .join(path)
}

/// The log of 004, whose changes the scope paper lists.
pub fn log_004() -> PathBuf {
    file("crates/readlog/stdin")
}

/// Runs the program; no run may panic, whatever it reads.
pub fn run<S: AsRef<OsStr>>(words: impl IntoIterator<Item = S>) -> Output {
    let output = program()
        .args(words)
        .stdin(Stdio::null())
        .output()
        .expect("the program runs");
    sound(output)
}

/// Runs the program with bytes on standard input.
pub fn run_on<S: AsRef<OsStr>>(words: impl IntoIterator<Item = S>, bytes: &[u8]) -> Output {
    let mut child = program()
        .args(words)
        .stdin(Stdio::piped())
        .stdout(Stdio::piped())
        .stderr(Stdio::piped())
        .spawn()
        .expect("the program runs");
    let mut input = child.stdin.take().expect("its input");
    let output = std::thread::scope(|scope| {
        scope.spawn(move || {
            let _ = input.write_all(bytes);
        });
        child.wait_with_output()
    });
    sound(output.expect("the program ends"))
}

fn sound(output: Output) -> Output {
    let said = String::from_utf8_lossy(&output.stderr);
    assert!(!said.contains("panicked"), "{said}");
    assert!(
        matches!(output.status.code(), Some(0..=2)),
        "{:?}",
        output.status
    );
    output
}

pub fn text(bytes: &[u8]) -> String {
    String::from_utf8_lossy(bytes).into_owned()
}

/// The log of extreme values.
pub fn extremes() -> Vec<u8> {
    std::fs::read(file("host/tool/tests/data/extremes.binlog")).expect("the log")
}

/// An event's length (01, Framing).
pub fn length_at(log: &[u8], event: usize) -> usize {
    let bytes = log[event + 9..event + 13].try_into().expect("four bytes");
    u32::from_le_bytes(bytes) as usize
}

/// A log whose events after the description stand there so many times.
pub fn repeated(log: &[u8], times: usize) -> Vec<u8> {
    let first = 4 + length_at(log, 4);
    let mut long = log[..first].to_vec();
    for _ in 0..times {
        let mut event = first;
        while event < log.len() {
            let length = length_at(log, event);
            append(&mut long, log[event..event + length - 4].to_vec());
            event += length;
        }
    }
    long
}

/// Appends an event, given without its checksum, with its length, its next
/// position and its checksum made right.
pub fn append(log: &mut Vec<u8>, mut event: Vec<u8>) {
    let length = event.len() as u32 + 4;
    event[9..13].copy_from_slice(&length.to_le_bytes());
    event[13..17].copy_from_slice(&(log.len() as u32 + length).to_le_bytes());
    let sum = crc32(&event).to_le_bytes();
    log.extend(event.into_iter().chain(sum));
}

/// A log that writes texts into the one column of a table, `test`.`t`.
pub fn log_of_texts(texts: &[Vec<u8>]) -> Vec<u8> {
    let event = |kind: u8, body: Vec<u8>| {
        let mut event = vec![0; 19];
        event[4] = kind;
        event.extend(body);
        event
    };
    let first = std::fs::read(log_004()).expect("the log");
    let mut log = first[..4 + length_at(&first, 4)].to_vec();
    let id = [7, 0, 0, 0, 0, 0, 1, 0];
    // a BLOB of two length bytes, which may be null
    let table = [&id[..], b"\x04test\0\x01t\0", &[1, 252, 1, 2, 1]];
    append(&mut log, event(19, table.concat()));
    let mut rows = [&id[..], &[2, 0, 1, 1]].concat();
    for text in texts {
        rows.push(0);
        rows.extend((text.len() as u16).to_le_bytes());
        rows.extend(text);
    }
    append(&mut log, event(30, rows));
    log
}

/// Texts of all lengths up to some hundreds, of bytes that are given: some with
/// many different ones, some with one that is seldom.
pub fn texts_of(bytes: &[u8]) -> Vec<Vec<u8>> {
    let mut state = 1_u32;
    let mut next = |below: usize| {
        state = state.wrapping_mul(1_664_525).wrapping_add(1_013_904_223);
        (state >> 16) as usize % below
    };
    let mut texts = Vec::new();
    for length in 0..400 {
        texts.push((0..length).map(|_| bytes[next(bytes.len())]).collect());
        let mut plain = vec![b'x'; length];
        if let Some(byte) = plain.get_mut(next(length.max(1))) {
            *byte = bytes[length % bytes.len()];
        }
        texts.push(plain);
    }
    texts
}

fn crc32(bytes: &[u8]) -> u32 {
    let step = |crc: u32, _| {
        if crc & 1 == 1 {
            crc >> 1 ^ 0xEDB8_8320
        } else {
            crc >> 1
        }
    };
    !bytes
        .iter()
        .fold(!0, |crc, byte| (0..8).fold(crc ^ u32::from(*byte), step))
}
