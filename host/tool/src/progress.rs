//! A line on standard error for work that takes more than a second.

use crate::args::Command;
use std::io::{self, IsTerminal, Write};
use std::sync::atomic::{AtomicUsize, Ordering};
use std::sync::mpsc::{self, RecvTimeoutError, Sender};
use std::sync::Arc;
use std::thread::{self, JoinHandle};
use std::time::{Duration, Instant};

const FIRST: Duration = Duration::from_secs(1);
const NEXT: Duration = Duration::from_millis(200);

/// How far the work is. 0 is "not yet known".
#[derive(Default)]
struct State {
    bytes: AtomicUsize,
    changes: AtomicUsize,
    done: AtomicUsize,
}

/// While it lives the line is kept; where standard error is no terminal, or
/// the output goes to one and would be mixed with it, there is none.
pub struct Progress {
    state: Arc<State>,
    line: Option<(Sender<()>, JoinHandle<()>)>,
}

impl Progress {
    pub fn start(command: Command, name: impl Into<String>) -> Progress {
        let state = Arc::new(State::default());
        let mixed = command != Command::Check && io::stdout().is_terminal();
        if mixed || !io::stderr().is_terminal() {
            return Progress { state, line: None };
        }
        let (end, ended) = mpsc::channel();
        let (shown, name) = (state.clone(), name.into());
        // with no thread there is no line, and the work goes on
        let thread = thread::Builder::new().spawn(move || {
            let since = Instant::now();
            let mut wait = FIRST;
            while ended.recv_timeout(wait) == Err(RecvTimeoutError::Timeout) {
                wait = NEXT;
                say(&line(command, &name, &shown, since.elapsed()));
            }
            if wait == NEXT {
                say("");
            }
        });
        Progress {
            state,
            line: thread.ok().map(|thread| (end, thread)),
        }
    }

    pub fn has_read(&self, bytes: usize) {
        self.state.bytes.store(bytes, Ordering::Relaxed);
    }

    pub fn has_listed(&self, changes: usize) {
        self.state.changes.store(changes, Ordering::Relaxed);
    }

    #[inline]
    pub fn has_done(&self, changes: usize) {
        self.state.done.store(changes, Ordering::Relaxed);
    }
}

impl Drop for Progress {
    fn drop(&mut self) {
        if let Some((end, thread)) = self.line.take() {
            drop(end);
            let _ = thread.join();
        }
    }
}

fn line(command: Command, name: &str, state: &State, passed: Duration) -> String {
    let seconds = passed.as_secs();
    let doing = command.doing();
    let mebibytes = state.bytes.load(Ordering::Relaxed) >> 20;
    let changes = state.changes.load(Ordering::Relaxed);
    let done = state.done.load(Ordering::Relaxed);
    match (mebibytes, changes) {
        (0, 0) => format!("tegmeadow: reading {name}, {seconds} s"),
        (_, 0) => format!("tegmeadow: {doing} {name}, {mebibytes} MiB, {seconds} s"),
        _ => {
            let percent = done.saturating_mul(100) / changes;
            format!("tegmeadow: {doing} {name}, {percent} % of {changes} changes, {seconds} s")
        }
    }
}

/// Puts a text in the place of the line.
fn say(text: &str) {
    let mut to = io::stderr().lock();
    let _ = write!(to, "\r\x1b[K{text}").and_then(|()| to.flush());
}
