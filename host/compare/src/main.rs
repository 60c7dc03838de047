//! Both readers asked everything about the files that are named. The tests
//! ask them about made logs and the real ones.
#![forbid(unsafe_code)]

mod ask;
mod readers;
#[cfg(test)]
mod tests;

use std::process::ExitCode;

/// So that all single questions are asked of a log of some 30,000 bytes.
const WALKED: usize = 300_000_000;

fn main() -> ExitCode {
    let files: Vec<String> = std::env::args().skip(1).collect();
    let mut code = ExitCode::SUCCESS;
    for file in files {
        let answer = std::fs::read(&file)
            .map_err(|error| error.to_string())
            .and_then(|log| ask::Asker::new(WALKED).compare(&log, None));
        match answer {
            Ok(Ok(truth)) => {
                println!(
                    "{file}: accepted {} {}",
                    truth.counts.events, truth.counts.changes
                )
            }
            Ok(Err(refusal)) => println!("{file}: refused {} at {}", refusal.number, refusal.place),
            Err(why) => {
                println!("{file}: {why}");
                code = ExitCode::FAILURE;
            }
        }
    }
    code
}
