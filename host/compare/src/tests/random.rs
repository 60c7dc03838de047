//! Made logs: valid, damaged, cut, with changed bytes.

use super::{ask, every_shape, rounds, WALKED, WALKED_BRIEFLY};
use crate::ask::Asker;
use logs::{changed_bytes, cuts, damage, repaired, touched, valid, Made, Rng, Shape};

#[test]
fn valid_logs() {
    let mut asker = Asker::new(WALKED);
    let mut changes = 0;
    every_shape(150, 0, |seed, made| {
        let known = Ok(made.truth.clone());
        let _ = ask(
            &mut asker,
            &|| format!("valid {seed}"),
            &made.bytes,
            Some(&known),
        );
        changes += made.truth.counts.changes;
    });
    assert!(changes > 0);
}

/// Every refusal of a log that this log can be damaged to.
fn damage_all(asker: &mut Asker, seed: u64, made: &Made) {
    let mut rng = Rng::new(seed);
    for number in 2..=18 {
        // not every throw of the dice finds something to damage
        for _ in 0..4 {
            let Some(damaged) = damage(&mut rng, made, number) else {
                continue;
            };
            let what = || format!("damaged {seed} by {number}");
            let _ = ask(asker, &what, &damaged.bytes, Some(&Err(damaged.expected)));
            break;
        }
    }
    for turn in 0..6 {
        let log = touched(&mut rng, made);
        let _ = ask(asker, &|| format!("touched {seed}, {turn}"), &log, None);
    }
}

#[test]
fn damaged_logs() {
    let mut asker = Asker::new(WALKED_BRIEFLY);
    every_shape(300, 1 << 32, |seed, made| {
        damage_all(&mut asker, seed, made);
        // 19 and 20 come from the questions of a log that is accepted
        let known = Ok(made.truth.clone());
        let _ = ask(
            &mut asker,
            &|| format!("whole {seed}"),
            &made.bytes,
            Some(&known),
        );
    });
    let counts: Vec<(usize, u64)> = asker.refusals.into_iter().enumerate().skip(2).collect();
    println!("refusals and how often: {counts:?}");
    let missed: Vec<_> = counts.iter().filter(|(_, count)| *count == 0).collect();
    assert!(
        missed.is_empty(),
        "refusals that were never reached: {missed:?}"
    );
}

/// Small logs that have changes.
fn small_logs(count: u64) -> Vec<(u64, Made)> {
    let mut logs = Vec::new();
    let mut seed = 0;
    while (logs.len() as u64) < rounds(count) {
        let made = valid(seed, Shape::SMALL);
        if made.truth.counts.changes > 1 {
            logs.push((seed, made));
        }
        seed += 1;
    }
    logs
}

#[test]
fn cut_logs() {
    let mut asker = Asker::new(WALKED_BRIEFLY);
    for (seed, made) in small_logs(150) {
        for cut in cuts(&made) {
            let what = || format!("small {seed} cut to {}", cut.length);
            let answer = ask(&mut asker, &what, &made.bytes[..cut.length], None);
            assert_eq!(answer.map(|it| it.counts), cut.expected, "{}", what());
        }
    }
}

/// A few other values of a byte.
pub fn others(rng: &mut Rng, byte: u8) -> [u8; 4] {
    [
        byte ^ 1,
        byte ^ 0x80,
        !byte,
        byte ^ (rng.range(1, 255) as u8),
    ]
}

#[test]
fn changed_logs() {
    let mut asker = Asker::new(WALKED_BRIEFLY);
    for (seed, made) in small_logs(30) {
        let mut rng = Rng::new(seed);
        let mut log = made.bytes.clone();
        for at in 0..log.len() {
            for new in others(&mut rng, made.bytes[at]) {
                log[at] = new;
                let what = || format!("small {seed} with {new} at {at}");
                let answer = ask(&mut asker, &what, &log, None);
                if let Some((place, numbers)) = changed_bytes(&made, at) {
                    let refused = answer.map(|it| it.counts).expect_err(&what());
                    assert_eq!(refused.place, place, "{}", what());
                    assert!(numbers.contains(&refused.number), "{}: {refused:?}", what());
                }
            }
            log[at] = made.bytes[at];
        }
    }
}

/// As above, but the checksums follow: so every field is judged.
#[test]
fn repaired_logs() {
    let mut asker = Asker::new(WALKED_BRIEFLY);
    for (seed, made) in small_logs(30) {
        let mut rng = Rng::new(seed);
        for at in 0..made.bytes.len() {
            for new in others(&mut rng, made.bytes[at]) {
                let Some(log) = repaired(&made, at, new) else {
                    continue;
                };
                let what = || format!("small {seed} repaired, with {new} at {at}");
                let _ = ask(&mut asker, &what, &log, None);
            }
        }
    }
}
