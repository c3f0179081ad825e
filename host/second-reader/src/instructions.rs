//! The code of a function by version 1.0 of the core specification: its locals, and one instruction
//! after the other by their immediates.
//!
//! Reading is not validation: whether a label, a local or a block is there is not asked. What version
//! 1.0 lacks, and what runs past the part that is read, gives none.

use std::mem::size_of;

use crate::number::{BITS, BITS_IN_A_BYTE, GOES_ON};
use crate::reading::Part;

/// The instructions that a hint may stand on.
pub(crate) const IF: u8 = 0x04;
pub(crate) const BR_IF: u8 = 0x0D;

/// The types of values: i32, i64, f32 and f64.
const VALUE_TYPES: [u8; 4] = [0x7F, 0x7E, 0x7D, 0x7C];
/// The type of a block without a result.
const NO_RESULT: u8 = 0x40;
/// The byte that stands where later versions have the number of a memory or of a table.
const RESERVED: u8 = 0x00;

/// Steps over the declaration of locals, of which there are fewer than 2^32.
pub(crate) fn locals(part: &mut Part<'_>) -> Option<()> {
    let mut count: u32 = 0;
    for _ in 0..number(part)? {
        count = count.checked_add(number(part)?)?;
        value_type(part)?;
    }
    Some(())
}

/// Steps over one instruction.
pub(crate) fn instruction(part: &mut Part<'_>) -> Option<()> {
    match part.byte()? {
        // unreachable, nop, else, end, return, drop, select
        0x00 | 0x01 | 0x05 | 0x0B | 0x0F | 0x1A | 0x1B => Some(()),
        // block, loop
        0x02 | 0x03 | IF => block_type(part),
        // br; call; those of a local or of a global
        0x0C | BR_IF | 0x10 | 0x20..=0x24 => number(part).map(drop),
        // br_table
        0x0E => labels(part),
        // call_indirect
        0x11 => {
            number(part)?;
            exactly(part, &[RESERVED])
        }
        // loads and stores: alignment and offset
        0x28..=0x3E => {
            number(part)?;
            number(part).map(drop)
        }
        // memory.size, memory.grow
        0x3F | 0x40 => exactly(part, &[RESERVED]),
        // i32.const, i64.const, f32.const, f64.const
        0x41 => signed(part, i32::BITS),
        0x42 => signed(part, i64::BITS),
        0x43 => bytes(part, size_of::<f32>()),
        0x44 => bytes(part, size_of::<f64>()),
        // comparisons, arithmetic and conversions
        0x45..=0xBF => Some(()),
        _ => None,
    }
}

fn number(part: &mut Part<'_>) -> Option<u32> {
    part.number().ok()
}

fn value_type(part: &mut Part<'_>) -> Option<()> {
    exactly(part, &VALUE_TYPES)
}

fn block_type(part: &mut Part<'_>) -> Option<()> {
    let [one, two, three, four] = VALUE_TYPES;
    exactly(part, &[NO_RESULT, one, two, three, four])
}

/// The labels of a `br_table`, and the one that is taken beyond them.
fn labels(part: &mut Part<'_>) -> Option<()> {
    for _ in 0..number(part)? {
        number(part)?;
    }
    number(part).map(drop)
}

/// One of these bytes.
fn exactly(part: &mut Part<'_>, allowed: &[u8]) -> Option<()> {
    allowed.contains(&part.byte()?).then_some(())
}

/// Any bytes, so many of them.
fn bytes(part: &mut Part<'_>, count: usize) -> Option<()> {
    for _ in 0..count {
        part.byte()?;
    }
    Some(())
}

/// A signed number of so many bits, in no more bytes than these bits take.
fn signed(part: &mut Part<'_>, bits: u32) -> Option<()> {
    let longest = (bits as usize).div_ceil(BITS_IN_A_BYTE);
    for _ in 1..longest {
        if part.byte()? < GOES_ON {
            return Some(());
        }
    }
    // Of the last byte some bits are left over, and they repeat the sign.
    let used = bits as usize - BITS_IN_A_BYTE * (longest - 1);
    let last = part.byte()?;
    let signs = last >> (used - 1);
    (signs == 0 || last < GOES_ON && signs == BITS >> (used - 1)).then_some(())
}

#[cfg(test)]
mod tests {
    use super::*;

    /// How many bytes are stepped over.
    fn stepped(step: fn(&mut Part<'_>) -> Option<()>, bytes: &[u8]) -> Option<usize> {
        let mut part = Part::whole(bytes);
        step(&mut part).map(|()| part.offset())
    }

    fn length(bytes: &[u8]) -> Option<usize> {
        stepped(instruction, bytes)
    }

    /// Each opcode before bytes that are 0, and so are labels, numbers, constants and what is reserved.
    #[test]
    fn every_opcode() {
        let mut of_length = [0; 11];
        for opcode in 0..=u8::MAX {
            let mut bytes = [0; 10];
            bytes[0] = opcode;
            of_length[length(&bytes).unwrap_or(0)] += 1;
        }
        // Blocks have the type 0 here, which is none.
        let unreadable = 3 + 5 + 8 + 4 + 3 + 64;
        assert_eq!(of_length[0], unreadable);
        let alone = 7 + (0xBF - 0x44);
        assert_eq!(of_length[1], alone);
        // br, br_if, call, five of locals and globals, two of memory, two constants
        assert_eq!(of_length[2], 12);
        // br_table, call_indirect, loads and stores
        assert_eq!(of_length[3], 2 + 23);
        assert_eq!((of_length[5], of_length[9]), (1, 1));
    }

    #[test]
    fn what_version_1_0_lacks() {
        let lacking = [
            0x06..=0x0A,
            0x12..=0x19,
            0x1C..=0x1F,
            0x25..=0x27,
            0xC0..=0xFF,
        ];
        for opcode in lacking.into_iter().flatten() {
            assert_eq!(length(&[opcode; 20]), None, "{opcode:02X}");
        }
    }

    #[test]
    fn types_of_blocks() {
        for opcode in [0x02, 0x03, IF] {
            for block_type in 0..=u8::MAX {
                let readable = [0x40, 0x7F, 0x7E, 0x7D, 0x7C].contains(&block_type);
                let read = length(&[opcode, block_type, 0x0B]);
                assert_eq!(read, readable.then_some(2), "{block_type:02X}");
            }
        }
    }

    #[test]
    fn labels_of_a_table() {
        assert_eq!(length(&[0x0E, 0x00, 0x05]), Some(3));
        assert_eq!(length(&[0x0E, 0x02, 0x00, 0x81, 0x00, 0x05]), Some(6));
        assert_eq!(length(&[0x0E, 0x02, 0x00, 0x01]), None);
        assert_eq!(length(&[0x0E, 0xFF, 0xFF, 0xFF, 0xFF, 0x0F, 0x00]), None);
    }

    #[test]
    fn reserved_bytes_are_one_byte_and_0() {
        assert_eq!(length(&[0x11, 0x85, 0x00, 0x00]), Some(4));
        for opcode in [&[0x11, 0x05][..], &[0x3F], &[0x40]] {
            let with = |rest: &[u8]| length(&[opcode, rest].concat());
            assert_eq!(with(&[0x00]), Some(opcode.len() + 1));
            assert_eq!(with(&[0x01]), None);
            assert_eq!(with(&[0x80, 0x80, 0x80, 0x80, 0x00]), None);
            assert_eq!(with(&[]), None);
        }
    }

    #[test]
    fn constants_of_32_bits() {
        let padded = |last: u8| length(&[0x41, 0x80, 0x80, 0x80, 0x80, last, 0x00]);
        for last in 0..=u8::MAX {
            let repeats_the_sign = matches!(last, 0x00..=0x07 | 0x78..=0x7F);
            let read = repeats_the_sign.then_some(6);
            assert_eq!(padded(last), read, "{last:02X}");
        }
        assert_eq!(length(&[0x41, 0x7F]), Some(2));
        assert_eq!(length(&[0x41, 0xFF, 0xFF, 0xFF, 0x40]), Some(5));
        assert_eq!(length(&[0x41, 0x80]), None);
    }

    #[test]
    fn constants_of_64_bits() {
        for last in 0..=u8::MAX {
            let longest = [&[0x42][..], &[0x80; 9], &[last]].concat();
            let read = [0x00, 0x7F].contains(&last).then_some(11);
            assert_eq!(length(&longest), read, "{last:02X}");
        }
        assert_eq!(
            length(&[&[0x42][..], &[0x80; 8], &[0x40]].concat()),
            Some(10)
        );
        assert_eq!(length(&[&[0x42][..], &[0xFF; 9]].concat()), None);
    }

    #[test]
    fn constants_with_a_point() {
        assert_eq!(length(&[0x43, 0xFF, 0xFF, 0xFF, 0xFF]), Some(5));
        assert_eq!(length(&[0x43, 0xFF, 0xFF, 0xFF]), None);
        assert_eq!(length(&[0x44; 9]), Some(9));
        assert_eq!(length(&[0x44; 8]), None);
    }

    #[test]
    fn loads_and_stores() {
        assert_eq!(length(&[0x28, 0x7F, 0x80, 0x00]), Some(4));
        assert_eq!(length(&[0x3E, 0xFF, 0xFF, 0xFF, 0xFF, 0x1F, 0x00]), None);
        assert_eq!(length(&[0x3E, 0x02]), None);
    }

    #[test]
    fn locals_are_fewer_than_two_to_the_32() {
        assert_eq!(stepped(locals, &[0x00, 0x0B]), Some(1));
        assert_eq!(
            stepped(locals, &[0x02, 0x81, 0x00, 0x7F, 0x00, 0x7C]),
            Some(6)
        );
        assert_eq!(stepped(locals, &[0x01, 0x01, 0x7B]), None);
        assert_eq!(stepped(locals, &[0x02, 0x01, 0x7F]), None);
        let most = [0x02, 0xFF, 0xFF, 0xFF, 0xFF, 0x0F, 0x7F, 0x00, 0x7E];
        assert_eq!(stepped(locals, &most), Some(9));
        let too_many = [0x02, 0xFF, 0xFF, 0xFF, 0xFF, 0x0F, 0x7F, 0x01, 0x7E];
        assert_eq!(stepped(locals, &too_many), None);
    }
}
