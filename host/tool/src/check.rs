//! `check`: one line a file.

use crate::event::{name, Event};
use crate::input::Source;
use crate::json;
use crate::output::Output;
use crate::progress::Progress;
use crate::signs::Signs;
use crate::Status;
use std::fmt::Write;
use std::io;
use tegmeadow::{Counts, Log, Refusal};

pub fn run(
    source: &Source,
    bytes: &[u8],
    json: bool,
    out: &mut Output,
    progress: Progress,
) -> io::Result<Status> {
    let answer = Log::new(bytes).check();
    // its line must be gone before another is printed
    drop(progress);
    match (&answer, json) {
        (Ok(counts), false) => accepted(source, counts, out),
        (Err(refusal), false) => {
            out.bytes(refused(source, bytes, refusal).as_bytes());
            out.byte(b'\n');
        }
        (Ok(counts), true) => accepted_json(source, counts, out),
        (Err(refusal), true) => refused_json(source, bytes, refusal, out),
    }
    // each line as soon as it is known
    out.flush()?;
    Ok(if answer.is_ok() {
        Status::Accepted
    } else {
        Status::Refused
    })
}

fn accepted(source: &Source, counts: &Counts, out: &mut Output) {
    let Counts { events, changes } = counts;
    let _ = writeln!(
        out,
        "{}: accepted, {events} events, {changes} changes",
        source.name()
    );
}

/// What is said of a refused log.
pub fn refused(source: &Source, bytes: &[u8], refusal: &Refusal) -> String {
    let Refusal { number, place } = *refusal;
    let (name, meaning) = (source.name(), refusal.meaning());
    let mut line = format!("{name}: refused {number} ({meaning}) at {place} ({place:#x})");
    if let Some(event) = Event::of(bytes, refusal) {
        let _ = write!(line, ", in {}", event.words());
        if event.place != place {
            let _ = write!(line, " at {}", event.place);
        }
    }
    line
}

fn accepted_json(source: &Source, counts: &Counts, out: &mut Output) {
    let Counts { events, changes } = counts;
    out.signs(b"{\"file\":");
    json::string(out, &source.name());
    let _ = writeln!(
        out,
        ",\"accepted\":true,\"events\":{events},\"changes\":{changes}}}"
    );
}

fn refused_json(source: &Source, bytes: &[u8], refusal: &Refusal, out: &mut Output) {
    let Refusal { number, place } = *refusal;
    out.signs(b"{\"file\":");
    json::string(out, &source.name());
    let _ = write!(out, ",\"accepted\":false,\"refusal\":{number},\"meaning\":");
    json::string(out, refusal.meaning());
    let _ = write!(out, ",\"place\":{place}");
    if let Some(event) = Event::of(bytes, refusal) {
        let _ = write!(
            out,
            ",\"event\":{},\"event_type\":{}",
            event.place, event.kind
        );
        if let Some(name) = name(event.kind) {
            let _ = write!(out, ",\"event_name\":\"{name}\"");
        }
    }
    out.signs(b"}\n");
}
