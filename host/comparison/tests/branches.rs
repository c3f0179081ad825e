//! Hints on code: of several producers, with a hint on each of its instructions; of every opcode; and made at random.

use comparison::fixtures::files;
use comparison::held::{Entries, Groups};
use comparison::library::{Told, FOUND};
use comparison::made;
use comparison::places::{hints_at, instructions, with_hints, BRANCHES};
use comparison::random::{seed, Random};
use comparison::spelling::{section, unpadded, PREAMBLE};
use comparison::tally::Tally;
use std::fs;

/// The refusals of a hint behind what version 1.0 cannot read, and of one that is on no branch.
const UNREADABLE: u32 = 20;
const NOT_ON_A_BRANCH: u32 = 21;

/// How many fixtures have their instructions listed; of these, how many have imports that version 1.0 does not know; and
/// how many branches, other instructions, and instructions behind one that it cannot read there are.
const WITH_PLACES: usize = 24;
const OF_LATER_IMPORTS: usize = 2;
const ON_BRANCHES: usize = 1_127;
const ON_OTHERS: usize = 25_712;
const BEHIND_UNREADABLE: usize = 754;

/// What hints on the instructions of a fixture are told.
#[derive(Debug, Default, PartialEq, Eq)]
struct Placed {
    on_branches: usize,
    on_others: usize,
    behind_unreadable: usize,
}

impl Placed {
    /// Puts a hint on each instruction of one body. What hints on all branches are that can be reached.
    fn put(&mut self, tally: &mut Tally, module: &[u8], line: &str) -> (u32, Entries) {
        let (function, instructions) = instructions(module, line);
        let mut branches = vec![];
        let mut readable = true;
        for instruction in instructions {
            let offset = instruction.offset;
            let hints = Groups::from([(function, hints_at(&[offset]))]);
            let told = tally.on_branches(&with_hints(module, &hints));
            let at = format_args!("{line} at {offset}");
            if !readable {
                assert_eq!(told.code, UNREADABLE, "{at}");
                self.behind_unreadable += 1;
            } else if BRANCHES.contains(&instruction.opcode) {
                assert_eq!(told.kind, FOUND, "{at}");
                branches.push(offset);
            } else {
                assert_eq!(told.code, NOT_ON_A_BRANCH, "{at}");
                self.on_others += 1;
            }
            readable &= instruction.is_readable;
        }
        self.on_branches += branches.len();
        (function, hints_at(&branches))
    }

    /// Puts hints on the bodies of a fixture, and then hints on all their branches together.
    fn put_all(&mut self, tally: &mut Tally, module: &[u8], lines: &str) {
        let bodies = lines.lines().map(|line| self.put(tally, module, line));
        let all = Groups::from_iter(bodies);
        let told = tally.on_branches(&with_hints(module, &all));
        assert_eq!(told.kind, FOUND, "{lines}");
    }
}

/// Of a module whose imports are refused, whatever the hints: the number, and the offset behind the hints.
fn assert_refused(told: Told, line: &str, inserted: usize) {
    let offset = told.offset - inserted as u64;
    let said = format!("refused {} {offset}", told.code);
    assert_eq!(said, line);
}

/// A hint on each instruction that wasm-objdump finds: on `br_if` and `if` it is accepted, and on every other refused.
#[test]
fn on_every_instruction_of_producers() {
    let mut tally = Tally::default();
    let mut placed = Placed::default();
    let mut of_later_imports = 0;
    let files = files("places");
    for path in &files {
        let module = fs::read(path.with_extension("wasm")).expect("each file has its module");
        let lines = fs::read_to_string(path).expect("places can be read");
        if lines.starts_with("refused ") {
            let hinted = with_hints(&module, &Groups::new());
            let told = tally.on_branches(&hinted);
            assert_refused(told, lines.trim_end(), hinted.len() - module.len());
            of_later_imports += 1;
        } else {
            placed.put_all(&mut tally, &module, &lines);
        }
    }
    println!("compared {} calls", tally.calls);
    assert_eq!(
        (files.len(), of_later_imports),
        (WITH_PLACES, OF_LATER_IMPORTS)
    );
    let expected = Placed {
        on_branches: ON_BRANCHES,
        on_others: ON_OTHERS,
        behind_unreadable: BEHIND_UNREADABLE,
    };
    assert_eq!(placed, expected);
}

/// What stands behind an opcode: nothing, types, numbers short, padded, greatest and too large, labels, and constants of which
/// the last byte repeats the sign or does not.
const BEHIND_AN_OPCODE: [&[u8]; 16] = [
    &[],
    &[0x00],
    &[0x40],
    &[0x7C],
    &[0x7B],
    &[0x00, 0x00],
    &[0x02, 0x0D, 0x04, 0x0D],
    &[0x80, 0x80, 0x80, 0x80, 0x00],
    &[0x00, 0x80, 0x80, 0x80, 0x80, 0x00],
    &[0xFF, 0xFF, 0xFF, 0xFF, 0x0F],
    &[0xFF, 0xFF, 0xFF, 0xFF, 0x1F],
    &[0xFF, 0xFF, 0xFF, 0xFF, 0x78],
    &[0xFF, 0xFF, 0xFF, 0xFF, 0x08],
    &[0x80, 0x80, 0x80, 0x80, 0x80, 0x80, 0x80, 0x80, 0x80, 0x7F],
    &[0x80, 0x80, 0x80, 0x80, 0x80, 0x80, 0x80, 0x80, 0x80, 0x01],
    &[0xFF; 4],
];

/// Every opcode before, at and behind a hint, which is tried at every place.
#[test]
fn every_opcode() {
    const LEAST: u64 = 2_000;
    let branches = [0x04, 0x40, 0x0B, 0x0D, 0x00, 0x0B];
    let mut tally = Tally::default();
    for opcode in 0..=u8::MAX {
        for behind in BEHIND_AN_OPCODE {
            let body = [&[0x00, opcode], behind, &branches].concat();
            let bodies = [&[1, body.len() as u8], &body[..]].concat();
            let code = section(10, &bodies, &mut unpadded);
            let module = [PREAMBLE, &code].concat();
            for offset in 0..=body.len() as u32 + 1 {
                let hints = Groups::from([(0, hints_at(&[offset]))]);
                tally.on_branches(&with_hints(&module, &hints));
            }
        }
    }
    println!("compared {} calls: {:?}", tally.calls, tally.branches_met);
    tally.assert_branches_met(&[0, UNREADABLE, NOT_ON_A_BRANCH], LEAST);
}

#[test]
fn made_at_random() {
    const ROUNDS: usize = 20_000;
    const LEAST: u64 = 300;
    let mut r = Random::new(seed());
    let mut tally = Tally::default();
    for _ in 0..ROUNDS {
        let module = made::coded_module(&mut r);
        tally.on_branches(&module);
    }
    println!("compared {} calls: {:?}", tally.calls, tally.branches_met);
    tally.assert_branches_met(&[0, 19, 20, 21, 29], LEAST);
}
