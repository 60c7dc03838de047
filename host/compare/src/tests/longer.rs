//! Demand 3: the longer log, and the unknown event without the mark.

use std::collections::BTreeMap;

use super::{ask, every_shape, WALKED, WALKED_BRIEFLY};
use crate::ask::Asker;
use crate::readers::readers;
use logs::{longer, unmarked, Cell, Change, Longer, Made, Part, Rng, Value};

/// A place of the old log in the longer one.
fn moved(places: &BTreeMap<u32, u32>, place: u32) -> u32 {
    *places.get(&place).expect("a place of the listing")
}

/// A cell without its place.
fn stay(cell: &Cell) -> Cell {
    match cell {
        Cell::Stored(kind, Value::Text(part)) => {
            let part = Part {
                place: 0,
                bytes: part.bytes.clone(),
            };
            Cell::Stored(*kind, Value::Text(part))
        }
        other => other.clone(),
    }
}

/// All but the places is the same (01, Demand 3's longer log).
fn change_alike(what: &str, old: &Change, new: &Change, places: &BTreeMap<u32, u32>) {
    let [kind, rest @ ..] = old.head.listing;
    let [a, b, c, d] = rest.map(|place| moved(places, place));
    assert_eq!(new.head.listing, [kind, a, b, c, d], "{what}: listing");
    assert_eq!(new.head.table_id, old.head.table_id, "{what}: table id");
    assert_eq!(new.head.columns, old.head.columns, "{what}: columns");
    assert_eq!(
        new.head.database.bytes, old.head.database.bytes,
        "{what}: database"
    );
    assert_eq!(new.head.table.bytes, old.head.table.bytes, "{what}: table");
    let cells = |side: &Option<Vec<Cell>>| {
        side.as_ref()
            .map(|cells| cells.iter().map(stay).collect::<Vec<_>>())
    };
    assert_eq!(
        new.sides.each_ref().map(cells),
        old.sides.each_ref().map(cells),
        "{what}: cells"
    );
}

fn alike(asker: &mut Asker, what: &str, old: &Made, new: &Longer) {
    let known = Ok(new.made.truth.clone());
    let _ = ask(asker, &|| what.to_string(), &new.made.bytes, Some(&known));
    for reader in readers() {
        let (was, is) = (reader.all(&old.bytes), reader.all(&new.made.bytes));
        let (was, is) = (was.expect(what), is.expect(what));
        assert_eq!(is.counts.changes, was.counts.changes, "{what}: changes");
        assert_eq!(
            is.counts.events,
            was.counts.events + new.added,
            "{what}: events"
        );
        assert_eq!(is.changes.len(), was.changes.len(), "{what}: changes");
        for (was, is) in was.changes.iter().zip(&is.changes) {
            change_alike(what, was, is, &new.places);
        }
    }
}

#[test]
fn longer_logs() {
    let mut asker = Asker::new(WALKED);
    every_shape(100, 1 << 33, |seed, made| {
        let once = longer(seed, made);
        alike(&mut asker, &format!("longer {seed}"), made, &once);
        let twice = longer(!seed, &once.made);
        alike(
            &mut asker,
            &format!("longer {seed}, and again"),
            &once.made,
            &twice,
        );
    });
}

#[test]
fn unknown_unmarked_events() {
    let mut asker = Asker::new(WALKED_BRIEFLY);
    every_shape(250, 1 << 34, |seed, made| {
        let mut rng = Rng::new(seed);
        for turn in 0..4 {
            let damaged = unmarked(&mut rng, made);
            let what = || format!("unmarked {seed}, {turn}");
            let _ = ask(
                &mut asker,
                &what,
                &damaged.bytes,
                Some(&Err(damaged.expected)),
            );
        }
    });
}
