//! CRC-32 (01, Framing): reflected 0xEDB88320, all ones at the start,
//! inverted at the end.

const TABLE: [u32; 256] = table();

const fn table() -> [u32; 256] {
    let mut table = [0u32; 256];
    let mut i = 0;
    while i < 256 {
        let mut rest = i as u32;
        let mut bit = 0;
        while bit < 8 {
            rest = if rest & 1 == 1 {
                (rest >> 1) ^ 0xedb8_8320
            } else {
                rest >> 1
            };
            bit += 1;
        }
        table[i] = rest;
        i += 1;
    }
    table
}

pub fn crc32(bytes: &[u8]) -> u32 {
    !bytes.iter().fold(!0, |sum, byte| {
        (sum >> 8) ^ TABLE[((sum ^ u32::from(*byte)) & 0xff) as usize]
    })
}

#[cfg(test)]
mod tests {
    /// The published check value, and an event printed in 004.
    #[test]
    fn published_sums() {
        assert_eq!(super::crc32(b"123456789"), 0xcbf4_3926);
        let delete: [u8; 41] = [
            0x2a, 0x0e, 0xa1, 0x58, 0x20, 0xe5, 0x6b, 0x01, 0x00, 0x2d, 0x00, 0x00, 0x00, 0xc8,
            0x02, 0x00, 0x00, 0x00, 0x00, 0xd2, 0x00, 0x00, 0x00, 0x00, 0x00, 0x01, 0x00, 0x02,
            0x00, 0x03, 0xff, 0xfa, 0x02, 0x00, 0x00, 0x00, 0x04, 0x74, 0x65, 0x73, 0x74,
        ];
        assert_eq!(super::crc32(&delete), 0x0557_41c1);
    }
}
