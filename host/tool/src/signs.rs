//! Signs and numbers, into whatever takes them.

/// Takes signs, one after the other.
pub trait Signs {
    /// Signs of which the first `used` count. Copying all of them is quicker.
    fn some<const N: usize>(&mut self, signs: &[u8; N], used: usize);

    fn bytes(&mut self, bytes: &[u8]);

    /// A few signs, as many as the type says.
    #[inline(always)]
    fn signs<const N: usize>(&mut self, signs: &[u8; N]) {
        self.some(signs, N);
    }

    #[inline(always)]
    fn byte(&mut self, byte: u8) {
        self.signs(&[byte]);
    }

    /// A number in decimal.
    #[inline]
    fn unsigned(&mut self, n: u64) {
        if n < E8 {
            return self.leading(n);
        }
        let high = n / E8;
        self.above(high);
        self.signs(&(eight(n - high * E8) | ASCII_ZEROS).to_le_bytes());
    }

    /// The digits of a number that has eight more after them.
    #[inline]
    fn above(&mut self, n: u64) {
        if n < 100 {
            let zeros = usize::from(n < 10);
            let digits = u16::from_le_bytes(pair(n as u32)) >> (8 * zeros);
            return self.some(&digits.to_le_bytes(), 2 - zeros);
        }
        let high = n / E8;
        if high == 0 {
            return self.leading(n);
        }
        self.leading(high);
        self.signs(&(eight(n - high * E8) | ASCII_ZEROS).to_le_bytes());
    }

    /// A number below 100,000,000.
    #[inline]
    fn leading(&mut self, n: u64) {
        let digits = eight(n);
        // the last digit stays, of 0 too
        let zeros = (digits.trailing_zeros() / 8).min(7);
        let signs = ((digits | ASCII_ZEROS) >> (8 * zeros)).to_le_bytes();
        self.some(&signs, 8 - zeros as usize);
    }

    #[inline]
    fn signed(&mut self, n: i64) {
        if n < 0 {
            self.byte(b'-');
        }
        self.unsigned(n.unsigned_abs());
    }

    /// A point and the first digits of six, or nothing for none.
    #[inline]
    fn fraction(&mut self, microseconds: u32, digits: u8) {
        if digits > 0 {
            let [a, b] = pair(microseconds / 10_000);
            let [c, d] = pair(microseconds / 100);
            let [e, f] = pair(microseconds);
            self.some(&[b'.', a, b, c, d, e, f], 1 + usize::from(digits));
        }
    }

    /// Bytes in hex.
    fn hex(&mut self, bytes: &[u8]) {
        const DIGITS: &[u8; 16] = b"0123456789abcdef";
        for byte in bytes {
            self.signs(&[
                DIGITS[usize::from(byte >> 4)],
                DIGITS[usize::from(byte & 15)],
            ]);
        }
    }
}

/// The numbers 00 to 99, two digits each.
const PAIRS: [[u8; 2]; 100] = {
    let mut pairs = [[b'0'; 2]; 100];
    let mut n = 0;
    while n < 100 {
        pairs[n] = [b'0' + (n / 10) as u8, b'0' + (n % 10) as u8];
        n += 1;
    }
    pairs
};

/// The last two digits of a number.
#[inline]
pub fn pair(n: u32) -> [u8; 2] {
    PAIRS[(n % 100) as usize]
}

/// The eight digits of a number below 100,000,000, each a byte, the first the
/// lowest: halves, then quarters, then digits, all of them at once.
#[inline]
fn eight(n: u64) -> u64 {
    let halves = (n / 10_000) | ((n % 10_000) << 32);
    let hundreds = ((halves * 10_486) >> 20) & 0x0000_007f_0000_007f;
    let quarters = hundreds | (halves - 100 * hundreds) << 16;
    let tens = ((quarters * 103) >> 10) & 0x000f_000f_000f_000f;
    tens | (quarters - 10 * tens) << 8
}

const ASCII_ZEROS: u64 = u64::from_ne_bytes([b'0'; 8]);
const E8: u64 = 100_000_000;
