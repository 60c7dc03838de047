//! Work that is done in parts at once and printed in order.

use crate::output::{Output, Piece};
use std::collections::BTreeMap;
use std::io::{self, ErrorKind};
use std::ops::Range;
use std::sync::{Condvar, Mutex, MutexGuard, PoisonError};
use std::thread;

/// How many pieces may wait to be printed.
const WAITING: usize = 32;

/// Does the work of every span, and prints what it puts out in their order.
/// After each span `done` is told the span's end.
pub fn in_order<W>(
    spans: &[Range<usize>],
    out: &mut Output,
    work: &W,
    done: impl Fn(usize) + Sync,
) -> io::Result<()>
where
    W: Fn(Range<usize>, &mut Output) -> io::Result<()> + Sync,
{
    out.flush()?;
    let left = Mutex::new(spans.iter().cloned().enumerate());
    let next = || left.lock().ok()?.next();
    let queue = Queue::new(|number| done(spans.get(number).map_or(0, |span| span.end)));
    let some = || {
        let _leaving = Leaving(&queue);
        while let Some((number, span)) = next() {
            let mut out = Output::of_span(&queue, number);
            let ended = work(span, &mut out).and_then(|()| out.end());
            if ended.is_err() {
                return;
            }
        }
    };
    let processors = thread::available_parallelism().map_or(1, |count| count.get());
    thread::scope(|scope| {
        for _ in 1..processors.min(spans.len()) {
            // what one that can't be started would do is done by the others
            let _ = thread::Builder::new().spawn_scoped(scope, some);
        }
        some();
    });
    queue.end()
}

/// Puts the output of spans in order: the thread that does a span prints it
/// from when all before it are printed; what it has made earlier waits here.
pub struct Queue<'a> {
    state: Mutex<State>,
    changed: Condvar,
    /// Told the number of each span that is printed.
    done: Box<dyn Fn(usize) + Sync + 'a>,
}

#[derive(Default)]
struct State {
    /// The number of the span whose turn it is.
    turn: usize,
    /// What waits, by the numbers of the spans.
    made: BTreeMap<usize, Made>,
    /// How many pieces wait or are being printed.
    waiting: usize,
    /// Empty ones to be used again.
    empty: Vec<Piece>,
    /// The first error of the output. After it nothing is printed.
    lost: Option<io::Error>,
}

/// What was made of a span and not yet printed.
#[derive(Default)]
struct Made {
    pieces: Vec<Piece>,
    /// Whether nothing follows.
    is_whole: bool,
}

impl<'a> Queue<'a> {
    fn new(done: impl Fn(usize) + Sync + 'a) -> Queue<'a> {
        Queue {
            state: Mutex::default(),
            changed: Condvar::new(),
            done: Box::new(done),
        }
    }

    fn state(&self) -> MutexGuard<'_, State> {
        self.state.lock().unwrap_or_else(PoisonError::into_inner)
    }

    /// An empty piece.
    pub fn piece(&self) -> Piece {
        self.state().empty.pop().unwrap_or_default()
    }

    /// Takes the next piece of a span. An error is that more is of no use.
    pub fn put(&self, span: usize, piece: Piece, is_last: bool) -> io::Result<()> {
        let too_many = |state: &mut State| state.has_too_many(span);
        let state = self.changed.wait_while(self.state(), too_many);
        let mut state = state.unwrap_or_else(PoisonError::into_inner);
        state.add(span, piece, is_last);
        if state.turn == span {
            while let Some(made) = state.take(span) {
                drop(state);
                let lost = made.pieces.iter().try_for_each(Piece::print).err();
                state = self.state();
                self.has_printed(&mut state, made, lost);
            }
        }
        match state.lost {
            None => Ok(()),
            Some(_) => Err(ErrorKind::BrokenPipe.into()),
        }
    }

    fn has_printed(&self, state: &mut State, made: Made, lost: Option<io::Error>) {
        state.waiting -= made.pieces.len();
        state
            .empty
            .extend(made.pieces.into_iter().map(Piece::emptied));
        if lost.is_some() {
            state.lost = lost;
        } else if made.is_whole {
            (self.done)(state.turn);
            state.turn += 1;
        }
        self.changed.notify_all();
    }

    fn end(self) -> io::Result<()> {
        let state = self.state.into_inner();
        match state.unwrap_or_else(PoisonError::into_inner).lost {
            None => Ok(()),
            Some(e) => Err(e),
        }
    }
}

impl State {
    /// Whether a piece of a span must not be added yet. One of the span whose
    /// turn it is may always, and so it goes on.
    fn has_too_many(&self, span: usize) -> bool {
        self.turn != span && self.waiting >= WAITING && self.lost.is_none()
    }

    fn add(&mut self, span: usize, piece: Piece, is_last: bool) {
        let made = self.made.entry(span).or_default();
        made.pieces.push(piece);
        made.is_whole = is_last;
        self.waiting += 1;
    }

    /// What the thread that does a span is to print next: that span, and those
    /// after it that are whole, since nobody will come back to them.
    fn take(&mut self, span: usize) -> Option<Made> {
        let made = self.made.get(&self.turn)?;
        match self.lost {
            None if made.is_whole || self.turn == span => self.made.remove(&self.turn),
            _ => None,
        }
    }
}

/// Lets no other thread wait for one that has broken down.
struct Leaving<'a>(&'a Queue<'a>);

impl Drop for Leaving<'_> {
    fn drop(&mut self) {
        if thread::panicking() {
            self.0.state().lost = Some(ErrorKind::Other.into());
            self.0.changed.notify_all();
        }
    }
}
