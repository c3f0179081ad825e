//! How a number is spelled: seven bits in each byte, the lowest first.

/// The most bytes that a number takes, padded or not.
pub(crate) const LONGEST: usize = 5;

/// How many bits of a number stand in each of its bytes.
pub(crate) const BITS_IN_A_BYTE: usize = 7;

/// Those bits.
pub(crate) const BITS: u8 = 0x7F;

/// The bit that says that the number goes on in the next byte. What is below it is a last byte.
pub(crate) const GOES_ON: u8 = 0x80;

/// The greatest fifth byte, which has the four bits that are left of 32.
pub(crate) const GREATEST_FIFTH: u8 = 0x0F;

/// The least number that takes so many bytes, which are two to five.
pub(crate) const fn least_of(bytes: usize) -> u32 {
    1 << (BITS_IN_A_BYTE * (bytes - 1))
}
