//! Logs that real servers wrote.

use std::path::{Path, PathBuf};

use super::random::others;
use super::{ask, rounds, WALKED_BRIEFLY};
use crate::ask::Asker;
use logs::Rng;

/// The real logs, of which the evidence has some already.
fn real_logs() -> Vec<PathBuf> {
    let here = Path::new(env!("CARGO_MANIFEST_DIR"));
    let folders = [
        here.join("data/real"),
        here.join("../../crates/evidence/data/real"),
    ];
    let mut logs: Vec<PathBuf> = folders
        .iter()
        .flat_map(|folder| std::fs::read_dir(folder).expect("a folder of real logs"))
        .map(|entry| entry.expect("a real log").path())
        .filter(|path| path.extension().is_some_and(|it| it == "binlog"))
        .collect();
    logs.sort();
    logs
}

#[test]
fn real_logs_alike() {
    let logs = real_logs();
    assert_eq!(logs.len(), 31);
    let mut accepted = 0;
    for path in logs {
        let log = std::fs::read(&path).expect("a real log");
        let what = || path.display().to_string();
        let answer = ask(&mut Asker::new(crate::WALKED), &what, &log, None);
        accepted += usize::from(answer.is_ok());
    }
    assert!(accepted > 10);
}

/// Real bytes, cut and changed at places of every kind.
#[test]
fn real_logs_cut_and_changed() {
    let mut asker = Asker::new(WALKED_BRIEFLY);
    for path in real_logs() {
        let whole = std::fs::read(&path).expect("a real log");
        let mut rng = Rng::new(whole.len() as u64);
        for _ in 0..rounds(100) {
            let at = rng.below(whole.len());
            let what = || format!("{} at {at}", path.display());
            let _ = ask(&mut asker, &what, &whole[..at], None);
            let mut log = whole.clone();
            log[at] = others(&mut rng, log[at])[3];
            let _ = ask(&mut asker, &what, &log, None);
        }
    }
}
