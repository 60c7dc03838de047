//! The log that a newer server would have written (01, Demand 3's longer log).

use std::collections::BTreeMap;

use crate::print::{made, Made, Marks};
use crate::rng::Rng;
use crate::tree::{Body, Event, Log};
use crate::valid::{event, unknown_type};

pub struct Longer {
    pub made: Made,
    /// Whole events that were put in.
    pub added: usize,
    /// Old places of events, maps, images and of nothing, with the new ones.
    pub places: BTreeMap<u32, u32>,
}

/// A longer log, by any mix of the additions.
pub fn longer(seed: u64, old: &Made) -> Longer {
    let mut rng = Rng::new(seed);
    let mut tree = old.tree.clone();
    if rng.once_in(2) {
        grow_header(&mut rng, &mut tree);
    }
    if rng.once_in(2) {
        grow_post_headers(&mut rng, &mut tree);
    }
    if rng.once_in(2) {
        for event in &mut tree.events {
            grow_blocks(&mut rng, event);
        }
    }
    if rng.once_in(2) {
        let room = 255 - tree.description.entries.len();
        let count = rng.length(room);
        tree.description.entries.extend(rng.bytes(count));
    }
    let kept = if rng.once_in(2) {
        add_events(&mut rng, &mut tree)
    } else {
        all(&tree)
    };
    let added = tree.events.len() - kept.len();
    let made = made(tree);
    let places = places(old, &made, &kept);
    Longer {
        made,
        added,
        places,
    }
}

fn all(tree: &Log) -> Vec<usize> {
    (0..tree.events.len()).collect()
}

/// By how much a length of `now` grows; it has a byte.
fn growth(rng: &mut Rng, now: u8) -> usize {
    let room = usize::from(255 - now);
    let few = room.min(3);
    rng.pick(&[room, few, few, few]).min(rng.range(0, room))
}

fn insert(rng: &mut Rng, bytes: &mut Vec<u8>, at: usize, count: usize) {
    let new = rng.bytes(count);
    bytes.splice(at..at, new);
}

/// Every later event but type 4 gets bytes at its header's end.
fn grow_header(rng: &mut Rng, tree: &mut Log) {
    let more = growth(rng, tree.description.header);
    tree.description.header += more as u8;
    for event in tree.events.iter_mut().filter(|event| event.kind != 4) {
        event.more.extend(rng.bytes(more));
    }
}

/// Some types' post-headers, the read ones' more often than not.
fn grow_post_headers(rng: &mut Rng, tree: &mut Log) {
    for at in 0..tree.description.entries.len() {
        let kind = at as u8 + 1;
        let read = matches!(kind, 19 | 30..=32);
        if !rng.once_in(if read { 2 } else { 5 }) {
            continue;
        }
        let more = growth(rng, tree.description.entries[at]);
        tree.description.entries[at] += more as u8;
        for event in tree.events.iter_mut().filter(|event| event.kind == kind) {
            match &mut event.body {
                Body::Map(map) => map.post.extend(rng.bytes(more)),
                Body::Rows(rows) => rows.post.extend(rng.bytes(more)),
                Body::Free(body) => scatter(rng, body, more),
            }
        }
    }
}

/// "Anywhere after its header": in two places.
fn scatter(rng: &mut Rng, body: &mut Vec<u8>, count: usize) {
    let first = rng.range(0, count);
    for part in [first, count - first] {
        let at = rng.range(0, body.len());
        insert(rng, body, at, part);
    }
}

/// Bytes after a map's nullable bits; a longer extra block.
fn grow_blocks(rng: &mut Rng, event: &mut Event) {
    match &mut event.body {
        Body::Map(map) => {
            let count = rng.pick(&[0, 1, 3, 300]);
            scatter(rng, &mut map.tail, count);
        }
        Body::Rows(rows) => {
            let room = 65_533 - rows.extra.len();
            let count = if rng.once_in(40) {
                room
            } else {
                rng.pick(&[0, 1, 5, 300])
            };
            scatter(rng, &mut rows.extra, count.min(room));
        }
        Body::Free(_) => {}
    }
}

/// Ignorable events of unknown types; answers where the old ones are now.
fn add_events(rng: &mut Rng, tree: &mut Log) -> Vec<usize> {
    let mut kept = Vec::new();
    let mut events = Vec::new();
    let old: Vec<Event> = std::mem::take(&mut tree.events);
    for next in old.into_iter().map(Some).chain([None]) {
        while rng.once_in(3) {
            let kind = unknown_type(rng);
            let length = rng.length(30);
            let body = Body::Free(rng.bytes(length));
            events.push(event(rng, &tree.description, kind, 0x80, body));
        }
        if let Some(next) = next {
            kept.push(events.len());
            events.push(next);
        }
    }
    tree.events = events;
    kept
}

fn places(old: &Made, new: &Made, kept: &[usize]) -> BTreeMap<u32, u32> {
    let mut places = BTreeMap::from([(0, 0)]);
    for (was, is) in kept.iter().enumerate().map(|(was, is)| (was + 1, is + 1)) {
        let (from, to) = (old.starts[was], new.starts[is]);
        places.insert(from as u32, to as u32);
        if let (Marks::Rows(was), Marks::Rows(is)) =
            (&old.draft.sheets[was].marks, &new.draft.sheets[is].marks)
        {
            for (was, is) in was.images.iter().zip(&is.images) {
                places.insert(
                    (from + was.whole.start) as u32,
                    (to + is.whole.start) as u32,
                );
            }
        }
    }
    places
}
