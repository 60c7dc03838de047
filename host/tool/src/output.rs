//! Output through one large buffer.

use crate::parallel::Queue;
use crate::signs::Signs;
use std::io::{self, Write};

/// The buffer's size. It is written out when it is full.
const SIZE: usize = 1 << 16;

/// How much of it a room is. The most that is written into one are the last
/// 127 bytes of a text, six signs for each, before a block of 64 is copied.
const ROOM: usize = 1 << 10;

pub struct Output<'a> {
    piece: Piece,
    sink: Sink<'a>,
    /// The first error of the output. What is written after it is dropped.
    lost: Option<io::Error>,
}

enum Sink<'a> {
    Standard,
    /// Output of the span of a number, to be put in order.
    Span(&'a Queue<'a>, usize),
}

/// A part of the output.
pub struct Piece {
    buffer: Box<[u8; SIZE]>,
    /// How much of the buffer is filled.
    at: usize,
}

impl Default for Piece {
    fn default() -> Piece {
        let buffer = Box::new([0; SIZE]);
        Piece { buffer, at: 0 }
    }
}

impl Piece {
    /// Prints it.
    pub fn print(&self) -> io::Result<()> {
        let filled = self.buffer.get(..self.at).unwrap_or_default();
        io::stdout().lock().write_all(filled)
    }

    /// An empty one with the same buffer.
    pub fn emptied(self) -> Piece {
        Piece { at: 0, ..self }
    }
}

/// Room in the buffer for something short. What has no room is lost.
pub struct Room<'a> {
    signs: &'a mut [u8; ROOM],
    at: usize,
}

impl Signs for Room<'_> {
    #[inline(always)]
    fn some<const N: usize>(&mut self, signs: &[u8; N], used: usize) {
        let rest = self.signs.get_mut(self.at..);
        if let Some(room) = rest.and_then(<[u8]>::first_chunk_mut) {
            *room = *signs;
            self.at += used.min(N);
        }
    }

    fn bytes(&mut self, bytes: &[u8]) {
        if let Some(room) = self.signs.get_mut(self.at..self.at + bytes.len()) {
            room.copy_from_slice(bytes);
            self.at += bytes.len();
        }
    }
}

impl Signs for Output<'_> {
    #[inline]
    fn some<const N: usize>(&mut self, signs: &[u8; N], used: usize) {
        self.room(|room| room.some(signs, used));
    }

    fn bytes(&mut self, bytes: &[u8]) {
        for run in bytes.chunks(SIZE) {
            if run.len() > SIZE - self.piece.at {
                self.drain();
            }
            let Piece { buffer, at } = &mut self.piece;
            if let Some(room) = buffer.get_mut(*at..*at + run.len()) {
                room.copy_from_slice(run);
                *at += run.len();
            }
        }
    }
}

impl<'a> Output<'a> {
    pub fn standard() -> Output<'a> {
        Output {
            piece: Piece::default(),
            sink: Sink::Standard,
            lost: None,
        }
    }

    /// Output of a span, to be put in order.
    pub fn of_span(queue: &'a Queue<'a>, number: usize) -> Output<'a> {
        Output {
            piece: queue.piece(),
            sink: Sink::Span(queue, number),
            lost: None,
        }
    }

    /// Writes something short. In a room of its own it is quicker than sign by
    /// sign: only then the buffer's fill is looked at and changed.
    #[inline(always)]
    pub fn room(&mut self, write: impl FnOnce(&mut Room)) {
        if self.piece.at > SIZE - ROOM {
            self.drain();
            // said again for the compiler, which then needs no other test
            self.piece.at = 0;
        }
        let Piece { buffer, at } = &mut self.piece;
        let rest = buffer.get_mut(*at..);
        if let Some(signs) = rest.and_then(<[u8]>::first_chunk_mut) {
            let mut room = Room { signs, at: 0 };
            write(&mut room);
            *at += room.at.min(ROOM);
        }
    }

    /// Empties the buffer into the sink.
    #[cold]
    fn drain(&mut self) {
        if self.lost.is_none() {
            self.lost = match self.sink {
                Sink::Standard => self.piece.print().err(),
                Sink::Span(queue, number) => {
                    let full = std::mem::replace(&mut self.piece, queue.piece());
                    queue.put(number, full, false).err()
                }
            };
        }
        self.piece.at = 0;
    }

    /// Ends the output of a span.
    pub fn end(mut self) -> io::Result<()> {
        self.settle()?;
        match self.sink {
            Sink::Standard => self.flush(),
            Sink::Span(queue, number) => queue.put(number, self.piece, true),
        }
    }

    /// Whether all could be written so far; to be asked now and then.
    #[inline]
    pub fn settle(&mut self) -> io::Result<()> {
        match self.lost.take() {
            None => Ok(()),
            Some(e) => Err(e),
        }
    }

    /// Writes all out.
    pub fn flush(&mut self) -> io::Result<()> {
        self.drain();
        self.settle()?;
        match self.sink {
            Sink::Standard => io::stdout().flush(),
            Sink::Span(..) => Ok(()),
        }
    }
}

/// So that floats can be formatted with no string of their own.
impl std::fmt::Write for Output<'_> {
    fn write_str(&mut self, text: &str) -> std::fmt::Result {
        self.bytes(text.as_bytes());
        Ok(())
    }
}
