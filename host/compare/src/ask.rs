//! All questions of a log, of both readers.

use crate::readers::{readers, Reader, Second};
use logs::{Cell, Change, Refusal, Rng, Truth};

/// What is known of a log: all that it holds, or its refusal.
pub type Known = Result<Truth, Refusal>;

/// Asks, and keeps how often each refusal was the answer.
pub struct Asker {
    /// Bytes that the single questions may walk; each walks the whole log.
    walked: usize,
    pub refusals: [u64; 21],
}

const NO_SUCH: Refusal = Refusal {
    number: 19,
    place: 0,
};
const NO_ROOM: Refusal = Refusal {
    number: 20,
    place: 0,
};

/// Numbers that nothing has; the first is 0 to a reader of 32 bits.
const FAR: [usize; 2] = [1 << 32, usize::MAX];

impl Asker {
    pub fn new(walked: usize) -> Asker {
        Asker {
            walked,
            refusals: [0; 21],
        }
    }

    fn count(&mut self, refusal: &Refusal) {
        if let Some(count) = self.refusals.get_mut(refusal.number as usize) {
            *count += 1;
        }
    }

    /// Asks both readers everything. What they must answer is `known`, or
    /// what the second reader answers; that is handed back, or a difference
    /// in words.
    pub fn compare(&mut self, log: &[u8], known: Option<&Known>) -> Result<Known, String> {
        let truth = known.cloned().unwrap_or_else(|| Second.all(log));
        if let Err(refusal) = &truth {
            self.count(refusal);
        }
        for reader in readers() {
            let alike = self.examine(reader, log, &truth);
            alike.map_err(|why| format!("{}: {why}", reader.name()))?;
        }
        Ok(truth)
    }
}

fn same<T: PartialEq + std::fmt::Debug>(what: &str, found: &T, expected: &T) -> Result<(), String> {
    if found == expected {
        return Ok(());
    }
    Err(format!("{what}: {found:?}, expected {expected:?}"))
}

fn linear(reader: &dyn Reader, log: &[u8], truth: &Known) -> Result<(), String> {
    let found = reader.all(log);
    let (Ok(found), Ok(expected)) = (&found, truth) else {
        return same("all", &found, truth);
    };
    same("counts of all", &found.counts, &expected.counts)?;
    for (k, (found, expected)) in found.changes.iter().zip(&expected.changes).enumerate() {
        same(&format!("change {k} of all"), found, expected)?;
    }
    same(
        "changes of all",
        &found.changes.len(),
        &expected.changes.len(),
    )
}

fn find(truth: &Known, k: usize) -> Result<&Change, Refusal> {
    truth
        .as_ref()
        .map_err(|it| *it)?
        .changes
        .get(k)
        .ok_or(NO_SUCH)
}

/// What a value is: a side that the change hasn't is no such side.
fn cell(truth: &Known, k: usize, side: usize, column: usize) -> Result<Cell, Refusal> {
    let cells = find(truth, k)?
        .sides
        .get(side)
        .and_then(Option::as_ref)
        .ok_or(NO_SUCH)?;
    cells.get(column).cloned().ok_or(NO_SUCH)
}

impl Asker {
    fn examine(&mut self, reader: &dyn Reader, log: &[u8], truth: &Known) -> Result<(), String> {
        let counts = truth.as_ref().map(|it| it.counts).map_err(|it| *it);
        same("check", &reader.check(log), &counts)?;
        self.listings(reader, log, truth)?;
        linear(reader, log, truth)?;
        self.changes(reader, log, truth)?;
        self.values(reader, log, truth)?;
        reader.own(log, truth)
    }

    /// The listing into buffers of many lengths, which hold zeros up to
    /// nowhere, to their middle or to their end, and a pattern after them.
    fn listings(&mut self, reader: &dyn Reader, log: &[u8], truth: &Known) -> Result<(), String> {
        let listing: Vec<u32> = truth
            .iter()
            .flat_map(|it| &it.changes)
            .flat_map(|it| it.head.listing)
            .collect();
        let exact = listing.len();
        for length in [0, exact.saturating_sub(1), exact, exact + 1, exact + 7] {
            for cleared in [0, length / 2, length] {
                self.listing_into(reader, log, truth, &listing, length, cleared)?;
            }
        }
        Ok(())
    }

    /// The listing into a buffer that is the front of a longer one, so that a
    /// number written past it shows.
    fn listing_into(
        &mut self,
        reader: &dyn Reader,
        log: &[u8],
        truth: &Known,
        listing: &[u32],
        length: usize,
        cleared: usize,
    ) -> Result<(), String> {
        let mut whole: Vec<u32> = (0..length as u32 + 8).map(|i| 0xdead_0000 ^ i).collect();
        whole[..cleared].fill(0);
        let mut expected = whole.clone();
        let (lent, _) = whole.split_at_mut(length);
        let answer = reader.list(log, lent);
        let expected_answer = match truth {
            Err(refusal) => Err(*refusal),
            Ok(_) if length < listing.len() => Err(NO_ROOM),
            Ok(truth) => {
                expected[..listing.len()].copy_from_slice(listing);
                Ok(truth.counts)
            }
        };
        if expected_answer == Err(NO_ROOM) {
            self.count(&NO_ROOM);
        }
        let into = format!("listing into {length}, {cleared} of them zeros");
        same(&into, &answer, &expected_answer)?;
        same(&format!("numbers of a {into}"), &whole, &expected)
    }

    /// As many of `total` numbers as may be asked for: all, or a spread of them.
    fn spread(&self, log: &[u8], total: usize) -> Vec<usize> {
        let most = (self.walked / log.len().max(1)).max(6);
        let step = total.div_ceil(most).max(1);
        let mut rng = Rng::new(total as u64);
        let mut some: Vec<usize> = (0..total)
            .step_by(step)
            .map(|from| (from + rng.below(step)).min(total - 1))
            .collect();
        if step > 1 {
            some.extend([0, total - 1]);
        }
        some
    }

    fn changes(&mut self, reader: &dyn Reader, log: &[u8], truth: &Known) -> Result<(), String> {
        let count = truth.as_ref().map_or(0, |it| it.changes.len());
        let beyond = [count, count + 1].into_iter().chain(FAR);
        for k in self.spread(log, count).into_iter().chain(beyond) {
            let expected = find(truth, k).map(|it| it.head.clone());
            if expected == Err(NO_SUCH) {
                self.count(&NO_SUCH);
            }
            same(&format!("change {k}"), &reader.change(log, k), &expected)?;
        }
        Ok(())
    }

    fn values(&mut self, reader: &dyn Reader, log: &[u8], truth: &Known) -> Result<(), String> {
        let mut all = Vec::new();
        for (k, change) in truth.iter().flat_map(|it| &it.changes).enumerate() {
            for side in 0..3 {
                all.extend((0..=change.head.columns).map(|column| (k, side, column)));
            }
        }
        let mut asked: Vec<_> = self
            .spread(log, all.len())
            .into_iter()
            .map(|at| all[at])
            .collect();
        let beyond = all.last().map_or(0, |last| last.0 + 1);
        for far in [beyond].into_iter().chain(FAR) {
            asked.extend([(far, 0, 0), (far, 1, 0), (far, 2, 0)]);
        }
        for far in FAR {
            asked.extend([(0, far, 0), (0, 0, far), (0, 1, far)]);
        }
        for (k, side, column) in asked {
            let Some(found) = reader.value(log, k, side, column) else {
                continue;
            };
            let expected = cell(truth, k, side, column);
            if expected == Err(NO_SUCH) {
                self.count(&NO_SUCH);
            }
            same(
                &format!("value of change {k}, side {side}, column {column}"),
                &found,
                &expected,
            )?;
        }
        Ok(())
    }
}
