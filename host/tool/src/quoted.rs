//! Text in quotes, in SQL and in JSON: what is escaped are the quote, the
//! backslash and the control signs below 0x20.

use crate::output::{Output, Room};
use crate::signs::Signs;

/// How many bytes are looked at together.
const BLOCK: usize = 64;

/// What writes a control sign.
type Control = fn(u8, &mut Room);

/// Bytes between two quotes. A quote or a backslash gets a backslash before
/// it; `control` writes a control sign, by six signs at most.
#[inline]
pub fn quoted<const QUOTE: u8>(bytes: &[u8], control: Control, out: &mut Output) {
    let mut left = bytes;
    out.byte(QUOTE);
    while let Some(two) = left.first_chunk() {
        out.room(|room| block::<QUOTE>(two, BLOCK, control, room));
        left = left.get(BLOCK..).unwrap_or_default();
    }
    out.room(|room| {
        match left.len() {
            0..=15 => few::<QUOTE>(left, control, room),
            _ => rest::<QUOTE>(left, control, room),
        }
        room.byte(QUOTE);
    });
}

#[inline(always)]
fn escaped(byte: u8, control: Control, room: &mut Room) {
    match byte {
        0..=0x1f => control(byte, room),
        _ => room.signs(&[b'\\', byte]),
    }
}

/// The first bytes of two blocks, 1 to 64. Of each run with nothing to escape a
/// whole block is copied, which is quicker than to copy no more than it has; so
/// there must be a second.
#[inline(always)]
fn block<const QUOTE: u8>(two: &[u8; 2 * BLOCK], length: usize, control: Control, room: &mut Room) {
    let mut marks = marks::<QUOTE>(two) & (u64::MAX >> (BLOCK - length));
    let mut start = 0;
    while let Some(run) = two.get(start..).and_then(<[u8]>::first_chunk::<BLOCK>) {
        let end = (marks.trailing_zeros() as usize).min(length);
        room.some(run, end - start);
        if marks == 0 {
            return;
        }
        escaped(two[end], control, room);
        start = end + 1;
        marks &= marks - 1;
    }
}

/// Which bytes of a block are to be escaped, a bit for each, the first the
/// lowest.
#[inline(always)]
fn marks<const QUOTE: u8>(two: &[u8; 2 * BLOCK]) -> u64 {
    const ONES: u64 = u64::from_ne_bytes([1; 8]);
    let mut flags = [0; BLOCK];
    for (flag, byte) in flags.iter_mut().zip(two) {
        // no "or else": that the compiler does many of them at once
        let is_escaped = (*byte < 0x20) | (*byte == QUOTE) | (*byte == b'\\');
        *flag = if is_escaped { 0xff } else { 0 };
    }
    let mut marks = 0;
    for (k, eight) in flags.chunks_exact(8).enumerate() {
        let eight = eight.first_chunk().copied().unwrap_or_default();
        // of each byte another bit; their sum is the highest byte of the product
        let bits = u64::from_le_bytes(eight) & 0x8040_2010_0804_0201;
        marks |= (bits.wrapping_mul(ONES) >> 56) << (8 * k);
    }
    marks
}

/// What is left after the last block that has another after it: copied, so
/// that there are bytes after it.
#[inline(always)]
fn rest<const QUOTE: u8>(bytes: &[u8], control: Control, room: &mut Room) {
    let mut copy = [0; 3 * BLOCK];
    for (to, from) in copy.iter_mut().zip(bytes) {
        *to = *from;
    }
    let mut left = bytes.len();
    for k in 0..2 {
        let two = copy.get(k * BLOCK..).and_then(<[u8]>::first_chunk);
        if let (Some(two), 1..) = (two, left) {
            block::<QUOTE>(two, left.min(BLOCK), control, room);
        }
        left = left.saturating_sub(BLOCK);
    }
}

/// Fewer than sixteen bytes.
#[inline(always)]
fn few<const QUOTE: u8>(bytes: &[u8], control: Control, room: &mut Room) {
    let (mut left, mut length) = (number(bytes), bytes.len());
    loop {
        // the zeros after them count as to be escaped
        let plain = plain_front::<QUOTE>(left);
        room.some(&left.to_le_bytes(), plain);
        if plain >= length {
            return;
        }
        left >>= 8 * plain;
        escaped(left as u8, control, room);
        left >>= 8;
        length -= plain + 1;
    }
}

/// Fewer than sixteen bytes as a number, the first the lowest.
#[inline(always)]
fn number(bytes: &[u8]) -> u128 {
    let shifted = |number: u128, byte: &u8| number << 8 | u128::from(*byte);
    match (bytes.first_chunk(), bytes.last_chunk()) {
        (Some(front), Some(back)) => {
            let [front, back] = [front, back].map(|eight| u128::from(u64::from_le_bytes(*eight)));
            // bytes that are in both come to the same place
            front | back << (8 * (bytes.len() - 8))
        }
        _ => bytes.iter().rev().fold(0, shifted),
    }
}

/// How many of sixteen bytes, the lowest first, stand before the first that is
/// to be escaped.
#[inline(always)]
fn plain_front<const QUOTE: u8>(sixteen: u128) -> usize {
    const ONES: u128 = u128::from_ne_bytes([1; 16]);
    const HIGH: u128 = ONES << 7;
    // for n up to 0x80, the lowest bit is in the first byte below n
    let below = |x: u128, n: u128| x.wrapping_sub(ONES * n) & !x & HIGH;
    let equal = |byte: u8| below(sixteen ^ (ONES * u128::from(byte)), 1);
    let escaped = below(sixteen, 0x20) | equal(QUOTE) | equal(b'\\');
    (escaped.trailing_zeros() / 8) as usize
}
