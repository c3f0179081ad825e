//! Measuring and writing by the same steps, so that what is measured is what is written.

use crate::answer::{Reason, Refusal};
use crate::number::{least_of, BITS_IN_A_BYTE, GOES_ON};

/// Takes what is to be written: counts it, or writes it.
pub(crate) trait Sink {
    /// A number in its fewest bytes.
    fn number(&mut self, value: u32);

    /// Bytes as they are.
    fn bytes(&mut self, bytes: &[u8]);

    /// A size and that many bytes. The bytes were read or listed under a 32-bit size, so theirs
    /// fits.
    fn sized(&mut self, bytes: &[u8]) {
        self.number(bytes.len() as u32);
        self.bytes(bytes);
    }
}

/// The fewest bytes that hold a number.
pub(crate) fn number_length(value: u32) -> u64 {
    const OF_TWO: u32 = least_of(2);
    const OF_THREE: u32 = least_of(3);
    const OF_FOUR: u32 = least_of(4);
    const OF_FIVE: u32 = least_of(5);
    match value {
        0..OF_TWO => 1,
        OF_TWO..OF_THREE => 2,
        OF_THREE..OF_FOUR => 3,
        OF_FOUR..OF_FIVE => 4,
        OF_FIVE.. => 5,
    }
}

/// Counts the bytes and writes none.
#[derive(Default)]
pub(crate) struct Length(pub u64);

impl Sink for Length {
    fn number(&mut self, value: u32) {
        self.0 += number_length(value);
    }

    fn bytes(&mut self, bytes: &[u8]) {
        self.0 += bytes.len() as u64;
    }
}

/// Writes at the front of an output that has been found long enough.
pub(crate) struct Writer<'a> {
    out: &'a mut [u8],
    at: usize,
}

impl<'a> Writer<'a> {
    /// Refuses an output shorter than needed, before any of it is changed.
    pub fn with_room(out: &'a mut [u8], needed: u64) -> Result<Self, Refusal> {
        if (out.len() as u64) < needed {
            return Err(Reason::OutputTooShort.with(needed));
        }
        Ok(Writer { out, at: 0 })
    }

    pub fn byte(&mut self, byte: u8) {
        self.out[self.at] = byte;
        self.at += 1;
    }

    /// How many bytes have been written.
    pub fn written(&self) -> u64 {
        self.at as u64
    }
}

impl Sink for Writer<'_> {
    fn number(&mut self, value: u32) {
        let mut rest = value;
        while rest >= u32::from(GOES_ON) {
            self.byte(rest as u8 | GOES_ON);
            rest >>= BITS_IN_A_BYTE;
        }
        self.byte(rest as u8);
    }

    fn bytes(&mut self, bytes: &[u8]) {
        let end = self.at + bytes.len();
        self.out[self.at..end].copy_from_slice(bytes);
        self.at = end;
    }
}

#[cfg(test)]
mod tests {
    use super::*;

    #[test]
    fn numbers_are_measured_as_they_are_written() {
        for bit in 0..32 {
            for value in [(1 << bit) - 1, 1 << bit, u32::MAX >> bit] {
                let mut out = [0xAA; 6];
                let mut writer = Writer::with_room(&mut out, 5).unwrap_or_else(|_| panic!("room"));
                writer.number(value);
                assert_eq!(writer.written(), number_length(value), "{value:#x}");
                assert_eq!(out[number_length(value) as usize], 0xAA, "{value:#x}");
            }
        }
    }

    #[test]
    fn fewest_bytes() {
        let mut out = [0; 5];
        let mut writer = Writer::with_room(&mut out, 5).unwrap_or_else(|_| panic!("room"));
        writer.number(0x3FFF);
        writer.number(0x4000);
        assert_eq!(out, [0xFF, 0x7F, 0x80, 0x80, 0x01]);
    }
}
