//! `list`: a line for each change.

use crate::check;
use crate::complain;
use crate::input::Source;
use crate::output::Output;
use crate::progress::Progress;
use crate::signs::Signs;
use crate::Status;
use std::io;
use tegmeadow::{Entry, Listing, ListingError, Log};

pub fn run(
    source: &Source,
    bytes: &[u8],
    json: bool,
    out: &mut Output,
    progress: Progress,
) -> io::Result<Status> {
    let (listing, progress) = match listed(source, bytes, progress) {
        Ok(both) => both,
        Err(status) => return Ok(status),
    };
    for (k, entry) in listing.entries().enumerate() {
        match json {
            false => plain(&entry, out),
            true => object(k, &entry, out),
        }
        out.settle()?;
        progress.has_done(k);
    }
    Ok(Status::Accepted)
}

/// The listing, or the status where there is none, after telling why.
pub fn listed(
    source: &Source,
    bytes: &[u8],
    progress: Progress,
) -> Result<(Listing, Progress), Status> {
    let (status, why) = match Log::new(bytes).try_listing() {
        Ok(listing) => {
            progress.has_listed(listing.counts().changes);
            return Ok((listing, progress));
        }
        Err(ListingError::Refused(refusal)) => {
            (Status::Refused, check::refused(source, bytes, &refusal))
        }
        Err(e) => (Status::Failed, format!("{}: {e}", source.name())),
    };
    // its line must be gone before another is printed
    drop(progress);
    complain(&why);
    Err(status)
}

fn plain(entry: &Entry, out: &mut Output) {
    for (index, number) in entry.0.into_iter().enumerate() {
        if index > 0 {
            out.byte(b' ');
        }
        out.unsigned(number.into());
    }
    out.byte(b'\n');
}

fn object(k: usize, entry: &Entry, out: &mut Output) {
    out.signs(b"{\"change\":");
    out.unsigned(k as u64);
    out.signs(b",\"type\":");
    out.unsigned(entry.event_type().into());
    let [_, event, map, ..] = entry.0;
    for (key, place) in [(&b"event"[..], event), (b"map", map)] {
        member(key, Some(place as usize), out);
    }
    member(b"before", entry.before(), out);
    member(b"after", entry.after(), out);
    out.signs(b"}\n");
}

fn member(key: &[u8], place: Option<usize>, out: &mut Output) {
    out.signs(b",\"");
    out.bytes(key);
    out.signs(b"\":");
    match place {
        Some(place) => out.unsigned(place as u64),
        None => out.signs(b"null"),
    }
}
