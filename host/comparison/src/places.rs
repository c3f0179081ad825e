//! Where instructions begin in the code of fixtures, as another tool found them, and hints that are put there.

use crate::held::{Entries, Groups, Held};
use crate::spelling::{custom, unpadded, PREAMBLE};
use crate::tally::HINTS;

/// The opcodes that a hint may stand on: `if` and `br_if`.
pub const BRANCHES: [u8; 2] = [0x04, 0x0D];

/// The data of a hint, whichever it is.
const LIKELY: u8 = 1;

/// An instruction as another tool found it.
pub struct Instruction {
    /// Counted from the first byte of the body.
    pub offset: u32,
    /// Its first byte.
    pub opcode: u8,
    /// Whether version 1.0 can read it.
    pub is_readable: bool,
}

/// The instructions of one body, and the function's index, by a line of a fixture's places.
pub fn instructions(module: &[u8], line: &str) -> (u32, Vec<Instruction>) {
    let words: Vec<&str> = line.split(' ').collect();
    let [function, at, locals] = [0, 1, 2].map(|word| words[word].parse().expect("a number"));
    let mut offset: u32 = locals;
    let mut found = vec![];
    for word in &words[3..] {
        let length = word.trim_end_matches('!');
        found.push(Instruction {
            offset,
            opcode: module[(at + offset) as usize],
            is_readable: length.len() == word.len(),
        });
        offset += length.parse::<u32>().expect("a length");
    }
    (function, found)
}

/// What the hints of one function are, by their offsets.
pub fn hints_at(offsets: &[u32]) -> Entries {
    Entries::from_iter(offsets.iter().map(|offset| (*offset, vec![LIKELY])))
}

/// A module with a section of hints as its first. One that it had is renamed.
pub fn with_hints(module: &[u8], hints: &Groups) -> Vec<u8> {
    let payload = hints.spelled(&mut unpadded);
    let mut rest = module[PREAMBLE.len()..].to_vec();
    let own = rest.windows(HINTS.len()).position(|bytes| bytes == HINTS);
    if let Some(at) = own {
        rest[at] = b'M';
    }
    [PREAMBLE, &custom(HINTS, &payload, &mut unpadded), &rest].concat()
}
