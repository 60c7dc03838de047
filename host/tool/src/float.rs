//! Floats as C's `printf` prints them by `%g`.

use crate::signs::Signs;
use std::fmt::{self, Write};

/// The digits of a number above 0, rounded, without zeros at the end, and the
/// power of ten of the first.
struct Decimal {
    signs: [u8; 48],
    length: usize,
    exponent: i32,
}

/// As C's `%.*g` with so many digits, 1 to 20; how many signs were written.
pub fn general(n: f64, digits: u32, out: &mut impl Signs) -> usize {
    let is_negative = n.is_sign_negative();
    if is_negative {
        out.byte(b'-');
    }
    let n = n.abs();
    let length = if n.is_nan() {
        word(b"nan", out)
    } else if n.is_infinite() {
        word(b"inf", out)
    } else if n == 0.0 {
        word(b"0", out)
    } else {
        let decimal = quick(n, digits).unwrap_or_else(|| slow(n, digits));
        if decimal.exponent < -4 || decimal.exponent >= digits as i32 {
            scientific(&decimal, out)
        } else {
            positional(&decimal, out)
        }
    };
    usize::from(is_negative) + length
}

fn word<const N: usize>(word: &[u8; N], out: &mut impl Signs) -> usize {
    out.signs(word);
    N
}

const POWERS: [u64; 20] = {
    let mut powers = [1; 20];
    let mut k = 1;
    while k < 20 {
        powers[k] = 10 * powers[k - 1];
        k += 1;
    }
    powers
};

/// The digits of a number from 1 up to 2^63, by whole numbers: its whole part,
/// and as many digits of the rest as are left, rounded half to even.
fn quick(n: f64, digits: u32) -> Option<Decimal> {
    let bits = n.to_bits();
    let mantissa = (bits & (u64::MAX >> 12)) | 1 << 52;
    let shift = 1075 - (bits >> 52) as i32;
    let (whole, rest) = match shift {
        // n is below 2^53, and at least 1
        0..=52 => (mantissa >> shift, mantissa & !(u64::MAX << shift)),
        -10..=-1 => (mantissa << -shift, 0),
        _ => return None,
    };
    let after = digits.checked_sub(whole.ilog10() + 1)?;
    // the rest has at most 52 bits and the power 64, so nothing is lost
    let power = *POWERS.get(after as usize)?;
    let scaled = u128::from(rest) * u128::from(power);
    let shift = shift.max(0);
    let mut fraction = (scaled >> shift) as u64;
    let left = scaled & !(u128::MAX << shift);
    let half = (1_u128 << shift) >> 1;
    let last = if after == 0 { whole } else { fraction };
    if shift > 0 && (left > half || left == half && last % 2 == 1) {
        fraction += 1;
    }
    let carry = u64::from(fraction == power);
    Some(Decimal::of(
        whole + carry,
        if carry == 1 { 0 } else { fraction },
        after,
    ))
}

impl Decimal {
    /// A whole number, then a fraction of so many digits.
    fn of(whole: u64, fraction: u64, after: u32) -> Decimal {
        let mut signs = [b'0'; 48];
        let before = whole.ilog10() as usize + 1;
        put(&mut signs, 0, before, whole);
        put(&mut signs, before, after as usize, fraction);
        Decimal {
            signs,
            length: before + after as usize,
            exponent: before as i32 - 1,
        }
        .trimmed()
    }

    fn trimmed(mut self) -> Decimal {
        let kept = self.digits().iter().rposition(|sign| *sign != b'0');
        self.length = kept.map_or(1, |last| last + 1);
        self
    }

    fn digits(&self) -> &[u8] {
        self.signs.get(..self.length).unwrap_or_default()
    }
}

/// Puts the last digits of a number into a part of the signs.
fn put(signs: &mut [u8; 48], start: usize, length: usize, mut n: u64) {
    let part = signs.get_mut(start..start + length).unwrap_or_default();
    for sign in part.iter_mut().rev() {
        *sign = b'0' + (n % 10) as u8;
        n /= 10;
    }
}

/// The text of a number in scientific form.
struct Text {
    signs: [u8; 48],
    length: usize,
}

impl Write for Text {
    fn write_str(&mut self, text: &str) -> fmt::Result {
        let end = self.length + text.len();
        let room = self.signs.get_mut(self.length..end).ok_or(fmt::Error)?;
        room.copy_from_slice(text.as_bytes());
        self.length = end;
        Ok(())
    }
}

/// The digits of any number above 0, by the standard library's exact ones.
fn slow(n: f64, digits: u32) -> Decimal {
    let mut text = Text {
        signs: [0; 48],
        length: 0,
    };
    // "d.ddde-ddd" has room
    let _ = write!(text, "{n:.*e}", digits.saturating_sub(1) as usize);
    let text = text.signs.get(..text.length).unwrap_or_default();
    let mut decimal = Decimal {
        signs: [b'0'; 48],
        length: 0,
        exponent: 0,
    };
    let mut halves = text.split(|sign| *sign == b'e');
    for digit in halves
        .next()
        .unwrap_or_default()
        .iter()
        .filter(|sign| **sign != b'.')
    {
        if let Some(sign) = decimal.signs.get_mut(decimal.length) {
            *sign = *digit;
            decimal.length += 1;
        }
    }
    let exponent = halves
        .next()
        .and_then(|half| std::str::from_utf8(half).ok()?.parse().ok());
    decimal.exponent = exponent.unwrap_or_default();
    decimal.trimmed()
}

/// d.ddde+dd
fn scientific(decimal: &Decimal, out: &mut impl Signs) -> usize {
    let digits = decimal.digits();
    let (first, rest) = digits.split_at(digits.len().min(1));
    out.bytes(first);
    if !rest.is_empty() {
        out.byte(b'.');
        out.bytes(rest);
    }
    out.signs(if decimal.exponent < 0 { b"e-" } else { b"e+" });
    let size = decimal.exponent.unsigned_abs();
    if size < 10 {
        out.byte(b'0');
    }
    out.unsigned(size.into());
    digits.len() + usize::from(!rest.is_empty()) + if size < 100 { 4 } else { 5 }
}

/// 0.00ddd, dd.ddd or ddd000
fn positional(decimal: &Decimal, out: &mut impl Signs) -> usize {
    let digits = decimal.digits();
    let power = decimal.exponent.unsigned_abs() as usize;
    if decimal.exponent < 0 {
        // the power is at most 4
        out.some(b"0.000", 1 + power);
        out.bytes(digits);
        return 1 + power + digits.len();
    }
    let whole = power + 1;
    if digits.len() > whole {
        let (front, back) = digits.split_at(whole);
        out.bytes(front);
        out.byte(b'.');
        out.bytes(back);
        return digits.len() + 1;
    }
    // what was trimmed are zeros, and the signs past the digits are
    out.bytes(decimal.signs.get(..whole).unwrap_or_default());
    whole
}
