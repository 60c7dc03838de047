//! Side by side, in one run: the verified reader, the second reader, and zlib's crc32 over the same bytes. Times are the best of some
//! rounds in which all take turns; what is printed is ratios. See README.md beside this.

mod logs;

use std::hint::black_box;
use std::path::Path;
use std::process::{Command, Stdio};
use std::time::{Duration, Instant};

const SEED: u64 = 4;
const ROUNDS: usize = 5;

extern "C" {
    /// zlib's
    fn crc32(crc: u64, bytes: *const u8, length: u32) -> u64;
}

fn zlib(bytes: &[u8]) -> u32 {
    // SAFETY: the slice's own pointer and length; logs here are far below 4 GiB
    unsafe { crc32(0, bytes.as_ptr(), bytes.len() as u32) as u32 }
}

/// A job, which may use the buffer.
type Run<'a> = Box<dyn FnMut(&mut [u32]) -> u64 + 'a>;

/// One way to do a job on a log; it answers a number, so that ways can be compared and none is left out by the compiler.
struct Way<'a> {
    /// Whether the buffer is cleared before, outside of the time taken. A listing may depend on it.
    clears: bool,
    run: Run<'a>,
}

/// A way that uses no buffer, or one as it was left.
fn way<'a>(run: impl FnMut(&mut [u32]) -> u64 + 'a) -> Way<'a> {
    Way { clears: false, run: Box::new(run) }
}

fn cleared<'a>(run: impl FnMut(&mut [u32]) -> u64 + 'a) -> Way<'a> {
    Way { clears: true, ..way(run) }
}

/// The best time of each way, and what each answered; the ways take turns, and have one buffer.
fn race<const N: usize>(mut ways: [Way; N], buffer: &mut [u32]) -> [(Duration, u64); N] {
    let mut best = [(Duration::MAX, 0); N];
    for _ in 0..ROUNDS {
        for (way, best) in ways.iter_mut().zip(&mut best) {
            if way.clears {
                buffer.fill(0);
            }
            let start = Instant::now();
            let answer = black_box((way.run)(buffer));
            *best = (best.0.min(start.elapsed()), answer);
        }
    }
    best
}

fn mix(sum: u64, number: u64) -> u64 {
    (sum ^ number).wrapping_mul(0x9e37_79b9_7f4a_7c15)
}

/// A text counts by its length and its first byte: both readers hand it out where it stands.
fn text(bytes: &[u8]) -> u64 {
    bytes.len() as u64 * 256 + bytes.first().copied().unwrap_or(0) as u64
}

/// A number for a cell of the verified reader; the same cell gets the same number by `second_cell`.
fn verified_cell(cell: tegmeadow::Cell) -> u64 {
    use tegmeadow::{Cell, Value};
    match cell {
        Cell::Absent => 1,
        Cell::Null => 2,
        Cell::Stored(_, value) => match value {
            Value::Integer(z) => z as u64,
            Value::Float(f) => f.to_bits() as u64,
            Value::Double(f) => f.to_bits(),
            Value::Date(d) => d.year as u64 * 512 + d.month as u64 * 32 + d.day as u64,
            Value::Year(y) => y as u64,
            Value::Timestamp(t) => t.seconds as u64 + t.microseconds as u64,
            Value::Datetime(t) => t.date.year as u64 + t.hour as u64 + t.microseconds as u64,
            Value::Time(t) => t.hour as u64 + t.microseconds as u64,
            Value::Text(bytes) => text(bytes),
        },
    }
}

fn second_cell(cell: second::Cell) -> u64 {
    use second::{Cell, Value};
    match cell {
        Cell::Absent => 1,
        Cell::Null => 2,
        Cell::Stored(_, value) => match value {
            Value::Integer(z) => z as u64,
            Value::Float(bits) => bits as u64,
            Value::Double(bits) => bits,
            Value::Date { year, month, day } => year as u64 * 512 + month as u64 * 32 + day as u64,
            Value::Year(y) => y as u64,
            Value::Timestamp { seconds, micros } => seconds as u64 + micros as u64,
            Value::Datetime { year, hour, micros, .. } => year as u64 + hour as u64 + micros as u64,
            Value::Time { hour, micros, .. } => hour as u64 + micros as u64,
            Value::Text(bytes) => text(bytes),
        },
    }
}

fn verified_values(log: &[u8]) -> u64 {
    let mut sum = 0;
    for change in tegmeadow::Log::new(log).changes().into_iter().flatten() {
        for image in change.before().into_iter().chain(change.after()) {
            sum = image.into_iter().fold(sum, |sum, cell| mix(sum, verified_cell(cell)));
        }
    }
    sum
}

fn second_values(log: &[u8]) -> u64 {
    let mut sum = 0;
    if let Ok(reading) = second::read(log) {
        for change in reading.changes() {
            for image in change.before().into_iter().chain(change.after()) {
                sum = image.into_iter().fold(sum, |sum, cell| mix(sum, second_cell(cell)));
            }
        }
    }
    sum
}

fn same(a: (Duration, u64), b: (Duration, u64)) -> f64 {
    assert_eq!(a.1, b.1, "the readers differ");
    a.0.as_secs_f64() / b.0.as_secs_f64()
}

/// Both readers' listing of a log that is sound must be the same.
fn compare_listings(log: &[u8], changes: usize) {
    let mut listings = [vec![0; 5 * changes], vec![0; 5 * changes]];
    let [verified, second] = &mut listings;
    tegmeadow::Log::new(log).list(verified).expect("the log is sound");
    second::list(log, second).expect("the log is sound");
    assert!(verified == second, "the listings differ");
}

/// The questions on one log: check against zlib and the second reader, listing and all values against the second reader. What it
/// answers is the ratio of a listing into a buffer that was not cleared.
fn questions(shape: &logs::Shape) -> f64 {
    let log = logs::make(shape, SEED, &zlib);
    let counts = second::check(&log).expect("the log is sound");
    compare_listings(&log, counts.changes);
    let both = |c: usize, e: usize| (c + e) as u64;
    let list = |out: &mut [u32]| tegmeadow::Log::new(&log).list(out).map_or(0, |c| both(c.changes, c.events));
    let [crc, check, second_check, listing, second_listing, not_cleared, values, second_values] = race(
        [
            way(|_| zlib(&log) as u64),
            way(|_| tegmeadow::Log::new(&log).check().map_or(0, |c| both(c.changes, c.events))),
            way(|_| second::check(&log).map_or(0, |c| both(c.changes, c.events))),
            cleared(list),
            cleared(|out| second::list(&log, out).map_or(0, |c| both(c.changes, c.events))),
            way(list),
            way(|_| verified_values(&log)),
            way(|_| second_values(&log)),
        ],
        &mut vec![0; 5 * counts.changes],
    );
    let mib = log.len() as f64 / (1 << 20) as f64;
    println!(
        "| {}, {:.0} MiB, {} changes | {:.0} MiB/s | {:.2} | {:.2} | {:.2} | {:.2} |",
        shape.name,
        mib,
        counts.changes,
        mib / check.0.as_secs_f64(),
        check.0.as_secs_f64() / crc.0.as_secs_f64(),
        same(check, second_check),
        same(listing, second_listing),
        same(values, second_values),
    );
    same(not_cleared, second_listing)
}

/// Time for 64 MiB over time for 8 MiB.
fn linear() {
    let made = logs::two_sizes().map(|shape| logs::make(&shape, SEED, &zlib));
    let [small, large] = &made;
    let [small, large] = race([way(|_| verified_values(small)), way(|_| verified_values(large))], &mut []);
    println!("\nall values, 64 MiB over 8 MiB: {:.2}", large.0.as_secs_f64() / small.0.as_secs_f64());
}

/// The time of a command, output to nowhere; none where it fails.
fn command(program: &str, words: &[&str], file: &Path) -> Option<Duration> {
    let start = Instant::now();
    let status = Command::new(program).args(words).arg(file).stdout(Stdio::null()).status().ok()?;
    status.success().then(|| start.elapsed())
}

/// `tegmeadow show` against `mariadb-binlog -v` over the same file.
fn show(tool: &str, folder: &Path) {
    for shape in logs::shapes().into_iter().filter(|s| s.bytes <= 64 << 20) {
        let file = folder.join("show.binlog");
        if let Err(e) = std::fs::write(&file, logs::make(&shape, SEED, &zlib)) {
            return println!("{}: {e}", file.display());
        }
        let best = |program: &str, words: &[&str]| (0..3).filter_map(|_| command(program, words, &file)).min();
        match (best(tool, &["show"]), best("mariadb-binlog", &["-v"])) {
            (Some(ours), Some(theirs)) => println!(
                "show, {}: mariadb-binlog takes {:.1} times as long",
                shape.name,
                theirs.as_secs_f64() / ours.as_secs_f64()
            ),
            (ours, theirs) => println!("show, {}: not run: tegmeadow {ours:?}, mariadb-binlog {theirs:?}", shape.name),
        }
        let _ = std::fs::remove_file(&file);
    }
}

fn main() {
    println!("| log | check | check / zlib crc32 | check / second | listing / second | all values / second |");
    println!("|---|---|---|---|---|---|");
    let not_cleared: Vec<String> = logs::shapes().iter().map(|shape| format!("{} {:.2}", shape.name, questions(shape))).collect();
    println!("\nlisting, not cleared / second: {}", not_cleared.join(", "));
    linear();
    let words: Vec<String> = std::env::args().collect();
    if let [_, tool, folder] = &words[..] {
        show(tool, Path::new(folder));
    }
}
