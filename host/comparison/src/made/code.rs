//! Modules with code and hints on it, made at random: most of them accepted, and each thing that may be wrong in some.

use std::collections::BTreeMap;

use crate::code::{Body, Coded, Import, Instruction, Piece, Seat};
use crate::random::Random;

/// The types of values, and one of a later version.
const TYPES: [u8; 4] = [0x7F, 0x7E, 0x7D, 0x7C];
const LATER_TYPE: u8 = 0x7B;

/// Opcodes without anything behind them; before a number; before an alignment and an offset; before a block's type.
const ALONE: [u8; 10] = [0x00, 0x01, 0x05, 0x0B, 0x0F, 0x1A, 0x1B, 0x45, 0x7C, 0xBF];
const BEFORE_A_NUMBER: [u8; 7] = [0x0C, 0x10, 0x20, 0x21, 0x22, 0x23, 0x24];
const BEFORE_TWO: [u8; 4] = [0x28, 0x35, 0x36, 0x3E];
const BLOCKS: [u8; 2] = [0x02, 0x03];
const IF: u8 = 0x04;
const BR_IF: u8 = 0x0D;

/// Opcodes that version 1.0 lacks.
const LATER: [u8; 8] = [0x06, 0x0A, 0x12, 0x1C, 0x25, 0xC0, 0xFC, 0xFF];

/// Constants of 32 and of 64 bits: short ones, and the longest that there are.
const OF_32_BITS: [&[u8]; 4] = [
    &[0x0D],
    &[0x84, 0x7F],
    &[0x80, 0x80, 0x80, 0x80, 0x78],
    &[0xFF, 0xFF, 0xFF, 0xFF, 0x07],
];
const OF_64_BITS: [&[u8]; 3] = [
    &[0x04],
    &[0x80, 0x80, 0x80, 0x80, 0x80, 0x80, 0x80, 0x80, 0x80, 0x7F],
    &[0x8D, 0x84, 0x8D, 0x84, 0x8D, 0x84, 0x8D, 0x84, 0x8D, 0x00],
];

/// Numbers that stand behind opcodes, among them those of branches.
const NUMBERS: [u32; 6] = [0, 1, 4, 13, 300, u32::MAX];

/// Of so many things of a kind one is of a kind that is refused: an import, a declaration of locals, an instruction, a hint,
/// a function with hints.
const ONE_WRONG_IN: usize = 40;

/// How many imports, functions, declarations of locals and instructions there may be.
const IMPORTS_BOUND: usize = 4;
const BODIES_BOUND: usize = 4;
const LOCALS_BOUND: usize = 3;
const INSTRUCTIONS_BOUND: usize = 14;

/// A module with imports, code and hints, or without some of them.
pub fn coded(r: &mut Random) -> Coded {
    let mut coded = Coded {
        imports: (!r.once_in(4)).then(|| some(r, IMPORTS_BOUND, import)),
        bodies: (!r.once_in(10)).then(|| some(r, BODIES_BOUND, body)),
        hints: None,
    };
    if !r.once_in(10) {
        coded.hints = Some(hints(r, &coded));
    }
    coded
}

fn some<T>(r: &mut Random, bound: usize, one: fn(&mut Random) -> T) -> Vec<T> {
    (0..r.below(bound)).map(|_| one(r)).collect()
}

fn import(r: &mut Random) -> Import {
    const LAST_KIND: u8 = 3;
    const LAST_FLAG: u8 = 1;
    let or_behind = |r: &mut Random, last: u8| match r.once_in(ONE_WRONG_IN) {
        true => last + 1,
        false => r.below(last as usize + 1) as u8,
    };
    Import {
        kind: or_behind(r, LAST_KIND),
        flag: or_behind(r, LAST_FLAG),
    }
}

fn body(r: &mut Random) -> Body {
    Body {
        locals: some(r, LOCALS_BOUND, locals),
        instructions: some(r, INSTRUCTIONS_BOUND, instruction),
    }
}

fn locals(r: &mut Random) -> (u32, u8) {
    let of = match r.once_in(ONE_WRONG_IN) {
        true => LATER_TYPE,
        false => r.one_of(&TYPES),
    };
    (r.one_of(&NUMBERS), of)
}

fn instruction(r: &mut Random) -> Instruction {
    if r.once_in(ONE_WRONG_IN) {
        return vec![bytes(&[r.one_of(&LATER)])];
    }
    match r.below(12) {
        0 => vec![bytes(&[r.one_of(&ALONE)])],
        1 => vec![bytes(&[r.one_of(&BEFORE_A_NUMBER)]), number(r)],
        2 => vec![bytes(&[r.one_of(&BEFORE_TWO)]), number(r), number(r)],
        3 => vec![bytes(&[r.one_of(&BLOCKS), block_type(r)])],
        4 => table(r),
        5 => vec![bytes(&[0x11]), number(r), bytes(&[0x00])],
        6 => vec![bytes(&[r.one_of(&[0x3F, 0x40]), 0x00])],
        7 => constant(r),
        8 | 9 => vec![bytes(&[IF, block_type(r)])],
        _ => vec![bytes(&[BR_IF]), number(r)],
    }
}

fn bytes(bytes: &[u8]) -> Piece {
    Piece::Bytes(bytes.to_vec())
}

fn number(r: &mut Random) -> Piece {
    Piece::Number(r.one_of(&NUMBERS))
}

fn block_type(r: &mut Random) -> u8 {
    match r.once_in(2) {
        true => 0x40,
        false => r.one_of(&TYPES),
    }
}

/// A `br_table`: its count, so many labels, and one more.
fn table(r: &mut Random) -> Instruction {
    let count = r.below(4);
    let mut pieces = vec![bytes(&[0x0E]), Piece::Number(count as u32)];
    pieces.extend((0..=count).map(|_| number(r)));
    pieces
}

fn constant(r: &mut Random) -> Instruction {
    let (opcode, value): (u8, &[u8]) = match r.below(4) {
        0 => (0x41, r.one_of(&OF_32_BITS)),
        1 => (0x42, r.one_of(&OF_64_BITS)),
        2 => (0x43, &[0x0D; 4]),
        _ => (0x44, &[0x04; 8]),
    };
    vec![bytes(&[opcode]), bytes(value)]
}

/// Hints for each function with a body, or for none of its instructions; some for a function beside them.
fn hints(r: &mut Random, coded: &Coded) -> BTreeMap<u32, Vec<Seat>> {
    let bodies = coded.bodies.as_deref().unwrap_or_default();
    let mut hints = BTreeMap::new();
    for (function, body) in (coded.imported()..).zip(bodies) {
        hints.insert(function, seats(r, body));
    }
    if r.once_in(ONE_WRONG_IN / 4) {
        let behind = coded.imported() + bodies.len() as u32;
        let beside = r.one_of(&[0, behind, behind + 1, u32::MAX]);
        let anywhere = vec![Seat::Offset(r.one_of(&NUMBERS))];
        hints.insert(beside, r.one_of(&[&[][..], &anywhere]).to_vec());
    }
    hints
}

/// Every second branch of a body; and, in some, a place that may be no branch.
fn seats(r: &mut Random, body: &Body) -> Vec<Seat> {
    let instructions = body.instructions.iter().enumerate();
    let branches = instructions.filter(|(_, it)| is_branch(it) && r.once_in(2));
    let mut seats = Vec::from_iter(branches.map(|(position, _)| Seat::Instruction(position)));
    if r.once_in(ONE_WRONG_IN / 4) {
        seats.push(match r.once_in(2) {
            true => Seat::Instruction(r.below(INSTRUCTIONS_BOUND)),
            false => Seat::Offset(r.below(40) as u32),
        });
    }
    seats
}

fn is_branch(instruction: &Instruction) -> bool {
    matches!(&instruction[0], Piece::Bytes(bytes) if [IF, BR_IF].contains(&bytes[0]))
}
