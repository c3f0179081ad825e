//! Reading left to right: bytes and numbers; and how a number is written.

/// The most bytes that a number takes.
pub const LONGEST_NUMBER: usize = 5;

/// How many bits of a number stand in each of its bytes, the lowest ones in the first.
const BITS_IN_A_BYTE: usize = 7;

/// Those bits.
const BITS: u8 = 0x7F;

/// The bit that says that the number goes on in the next byte.
const GOES_ON: u8 = 0x80;

/// What is still to be read. Whatever does not fit is answered by none.
#[derive(Clone, Copy, Debug)]
pub struct Reader<'a>(pub &'a [u8]);

impl Reader<'_> {
    /// The next byte.
    pub fn byte(&mut self) -> Option<u8> {
        let (first, rest) = self.0.split_first()?;
        self.0 = rest;
        Some(*first)
    }

    /// The next number, which may be padded.
    pub fn number(&mut self) -> Option<u32> {
        let mut value = 0;
        for position in 0..LONGEST_NUMBER {
            let byte = self.byte()?;
            value |= u64::from(byte & BITS) << (BITS_IN_A_BYTE * position);
            if byte & GOES_ON == 0 {
                return u32::try_from(value).ok();
            }
        }
        None
    }
}

/// A number in its fewest bytes.
pub fn number_bytes(number: u32) -> Vec<u8> {
    let mut bytes = Vec::new();
    let mut rest = number;
    while rest > u32::from(BITS) {
        bytes.push(rest as u8 | GOES_ON);
        rest >>= BITS_IN_A_BYTE;
    }
    bytes.push(rest as u8);
    bytes
}

#[cfg(test)]
mod tests {
    use super::*;

    #[test]
    fn numbers_in_their_fewest_bytes() {
        let written = |number: u32, bytes: &[u8]| {
            assert_eq!(number_bytes(number), bytes);
            assert_eq!(Reader(bytes).number(), Some(number));
        };
        written(0, &[0x00]);
        written(0x7F, &[0x7F]);
        written(0x80, &[0x80, 0x01]);
        written(624_485, &[0xE5, 0x8E, 0x26]);
        written(u32::MAX, &[0xFF, 0xFF, 0xFF, 0xFF, 0x0F]);
    }
}
