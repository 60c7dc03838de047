//! `tegmeadow`: checks, lists and shows MySQL binlog files.

mod args;
mod check;
mod event;
mod float;
mod input;
mod json;
mod layout;
mod list;
mod output;
mod parallel;
mod progress;
mod quoted;
mod show;
mod signs;
mod sql;

use args::{Command, Job};
use input::Source;
use output::Output;
use progress::Progress;
use signs::Signs;
use std::io::{self, ErrorKind};
use std::process::ExitCode;

/// What the program ends with; of several files the worst.
#[derive(Clone, Copy, PartialEq, Eq, PartialOrd, Ord)]
enum Status {
    Accepted = 0,
    Refused = 1,
    Failed = 2,
}

fn main() -> ExitCode {
    let status = match args::parse(std::env::args_os().skip(1)) {
        Ok(args::Asked::Say(text)) => say(&text),
        Ok(args::Asked::Do(job)) => run(&job),
        Err(why) => {
            complain(&format!("{why}; `tegmeadow --help` tells the use"));
            Status::Failed
        }
    };
    ExitCode::from(status as u8)
}

/// Runs the job over its files. Output that nobody reads any more ends it quietly.
fn run(job: &Job) -> Status {
    let mut out = Output::standard();
    let mut worst = Status::Accepted;
    for source in &job.sources {
        match one(job, source, &mut out) {
            Ok(status) => worst = worst.max(status),
            Err(e) => return lost(e, worst),
        }
    }
    match out.flush() {
        Ok(()) => worst,
        Err(e) => lost(e, worst),
    }
}

/// One file: read, judged, printed. An error is one of the output.
fn one(job: &Job, source: &Source, out: &mut Output) -> io::Result<Status> {
    let progress = Progress::start(job.command, source.name());
    let bytes = match source.read() {
        Ok(bytes) => bytes,
        Err(e) => {
            drop(progress);
            complain(&format!("{}: {e}", source.name()));
            return Ok(Status::Failed);
        }
    };
    progress.has_read(bytes.len());
    match job.command {
        Command::Check => check::run(source, &bytes, job.json, out, progress),
        Command::List => list::run(source, &bytes, job.json, out, progress),
        Command::Show => show::run(source, &bytes, job.json, out, progress),
    }
}

/// The output failed: a reader that has gone is no fault.
fn lost(e: io::Error, worst: Status) -> Status {
    if e.kind() == ErrorKind::BrokenPipe {
        return worst;
    }
    complain(&format!("standard output: {e}"));
    Status::Failed
}

/// A line on standard error. Where even that fails there is nobody to tell.
fn complain(text: &str) {
    use std::io::Write;
    let _ = writeln!(io::stderr(), "tegmeadow: {text}");
}

fn say(text: &str) -> Status {
    let mut out = Output::standard();
    out.bytes(text.as_bytes());
    match out.flush() {
        Ok(()) => Status::Accepted,
        Err(e) => lost(e, Status::Accepted),
    }
}
