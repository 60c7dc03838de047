//! Real logs cut and changed at random: every call ends with an answer, and
//! the questions agree.

use second::*;

/// What a real MySQL server wrote, with and without checksums.
const LOGS: [&[u8]; 3] = [
    include_bytes!("../../../crates/evidence/data/real/mysql-base-crc32-minimal.binlog"),
    include_bytes!("../../compare/data/real/mysql-base-none-full.binlog"),
    include_bytes!("../../../crates/evidence/data/real/mysql-part-crc32.binlog"),
];

struct Random(u64);

impl Random {
    fn below(&mut self, n: usize) -> usize {
        self.0 = self
            .0
            .wrapping_mul(6_364_136_223_846_793_005)
            .wrapping_add(1_442_695_040_888_963_407);
        ((self.0 >> 33) as usize) % n
    }
}

/// The places of a sound log's events, and of its end.
fn places(log: &[u8]) -> Vec<usize> {
    let mut places = vec![4];
    while let Some(length) = log
        .get(places[places.len() - 1] + 9..)
        .and_then(|rest| rest.first_chunk())
    {
        places.push(places[places.len() - 1] + u32::from_le_bytes(*length) as usize);
    }
    places
}

/// All questions agree with each other.
fn agree(log: &[u8]) -> Result<Counts, Refusal> {
    let checked = check(log);
    let mut out = vec![7; 5 * 200 + 3];
    assert_eq!(list(log, &mut out), checked);
    let counts = match checked {
        Ok(counts) => counts,
        Err(refusal) => {
            assert!(out.iter().all(|n| *n == 7));
            assert!(refusal.place <= log.len());
            assert_eq!(read(log).err(), Some(refusal));
            return checked;
        }
    };
    let reading = read(log).unwrap();
    assert_eq!(reading.counts(), counts);
    assert_eq!(out[..5 * counts.changes], *reading.listing().as_flattened());
    assert_eq!(reading.changes().count(), counts.changes);
    for change in reading.changes() {
        for image in [change.before(), change.after()].into_iter().flatten() {
            assert_eq!(image.count(), change.columns);
        }
    }
    checked
}

#[test]
fn cuts() {
    for log in LOGS {
        let places = places(log);
        let events = places.len() - 1;
        assert_eq!(check(log).map(|counts| counts.events), Ok(events));
        for length in (4..log.len())
            .step_by(if log.len() < 5_000 { 1 } else { 37 })
            .chain(places)
        {
            let cut = agree(&log[..length]);
            let whole = self::places(log)
                .into_iter()
                .take_while(|place| *place <= length)
                .count()
                - 1;
            let last = self::places(log)[whole];
            match (whole, length == last) {
                (0, true) => assert_eq!(
                    cut,
                    Err(Refusal {
                        number: 3,
                        place: 4
                    })
                ),
                (_, true) => assert_eq!(cut.map(|counts| counts.events), Ok(whole)),
                _ => assert_eq!(
                    cut,
                    Err(Refusal {
                        number: 4,
                        place: last
                    })
                ),
            }
        }
    }
}

#[test]
fn changes() {
    let mut random = Random(2026);
    let mut answers = [0; 21];
    for log in LOGS {
        let places = places(log);
        let sums = log[places[1] - 5] == 1;
        for _ in 0..3_000 {
            let mut bad = log.to_vec();
            for _ in 0..1 + random.below(3) {
                let event = random.below(places.len() - 1);
                let (place, end) = (places[event], places[event + 1]);
                let at = place + if random.below(8) == 0 { 0 } else { 19 };
                let at = at + random.below(end - at);
                bad[at] = [
                    random.below(256) as u8,
                    bad[at] ^ 1 << random.below(8),
                    0,
                    0xff,
                ][random.below(4)];
                if (sums || event == 0) && random.below(16) != 0 {
                    let sum = crc32(&bad[place..end - 4]);
                    bad[end - 4..end].copy_from_slice(&sum.to_le_bytes());
                }
            }
            answers[agree(&bad).map_or_else(|refusal| refusal.number, |_| 0) as usize] += 1;
        }
    }
    // The changes get past the frames, to values and acceptance.
    for number in [0, 4, 6, 8, 9, 11, 12, 13, 15, 16, 17, 18] {
        assert!(answers[number] > 0, "{number}: {answers:?}");
    }
}
