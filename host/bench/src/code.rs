//! Modules with code and hints on its branches: made ones, and those of fixtures, with a hint on every branch.

use std::fs;

use comparison::fixtures;
use comparison::held::Groups;
use comparison::places::{hints_at, instructions, with_hints, BRANCHES};
use comparison::random::Random;

use crate::bytes::{module, number, section, sized};
use crate::payload::{Kind, Payload};

/// Any number would do, but another one makes other bytes, and other counts in docs/bench.tsv.
const SEED: u64 = 0x0D04_0D04;

/// How many functions the made code has, how many branches each, and how many instructions stand before a branch.
const FUNCTIONS: usize = 1_000;
const BRANCHES_OF_A_FUNCTION: usize = 8;
const BEFORE_A_BRANCH: usize = 8;

/// The id of the section with code.
const CODE: u8 = 10;

/// Four locals of one type.
const LOCALS: &[u8] = &[0x01, 0x04, 0x7F];

/// What stands before a branch, in the mix that compilers write: gets, sets, constants, sums, loads, stores and calls.
const STEPS: [&[u8]; 14] = [
    &[0x20, 0x01],
    &[0x20, 0x02],
    &[0x20, 0x05],
    &[0x21, 0x03],
    &[0x22, 0x02],
    &[0x41, 0x0A],
    &[0x41, 0x84, 0x08],
    &[0x42, 0x80, 0x80, 0x80, 0x10],
    &[0x6A],
    &[0x71],
    &[0x45],
    &[0x28, 0x02, 0x08],
    &[0x36, 0x02, 0x84, 0x01],
    &[0x10, 0x87, 0x02],
];

const BR_IF: &[u8] = &[0x0D, 0x00];
/// An `if`, and what ends it.
const IF: &[u8] = &[0x04, 0x40];
const END: &[u8] = &[0x0B];

/// How a module is made.
struct Recipe {
    name: &'static str,
    make: fn() -> Vec<u8>,
}

const RECIPES: [Recipe; 5] = [
    Recipe {
        name: "code-made",
        make: || {
            let (code, hints) = made();
            with_hints(&code, &hints)
        },
    },
    Recipe {
        name: "code-made-last-hint",
        make: || {
            let (code, hints) = made();
            with_hints(&code, &last(&hints))
        },
    },
    Recipe {
        name: "code-go",
        make: || fixture("go-code"),
    },
    Recipe {
        name: "code-rustc",
        make: || fixture("rustc"),
    },
    Recipe {
        name: "code-wabt",
        make: || read(&fixtures::module("wabt-branches")),
    },
];

/// The names of the modules.
pub fn all() -> impl Iterator<Item = &'static str> {
    RECIPES.iter().map(|recipe| recipe.name)
}

/// The module of a name.
pub fn payload(name: &str) -> Option<Payload> {
    let recipe = RECIPES.iter().find(|recipe| recipe.name == name)?;
    Some(Payload::alone(name, Kind::Code, (recipe.make)()))
}

/// A body, and the offsets of its branches.
fn body(r: &mut Random) -> (Vec<u8>, Vec<u32>) {
    let mut body = LOCALS.to_vec();
    let mut branches = vec![];
    for _ in 0..BRANCHES_OF_A_FUNCTION {
        body.extend((0..BEFORE_A_BRANCH).flat_map(|_| r.one_of(&STEPS)));
        branches.push(body.len() as u32);
        match r.once_in(2) {
            true => body.extend(BR_IF),
            false => body.extend([IF, STEPS[0], END].concat()),
        }
    }
    body.extend(END);
    (body, branches)
}

/// A module of many functions, and hints on all their branches.
fn made() -> (Vec<u8>, Groups) {
    let mut r = Random::new(SEED);
    let mut hints = Groups::new();
    let mut bodies = number(FUNCTIONS);
    for function in 0..FUNCTIONS {
        let (body, branches) = body(&mut r);
        hints.insert(function as u32, hints_at(&branches));
        bodies.extend(sized(&body));
    }
    (module(&section(CODE, &bodies)), hints)
}

/// The last of all hints.
fn last(hints: &Groups) -> Groups {
    let (function, entries) = hints.last_key_value().expect("there are functions");
    let (offset, _) = entries.last_key_value().expect("there are hints");
    Groups::from([(*function, hints_at(&[*offset]))])
}

/// A fixture with hints on every branch that its places list.
fn fixture(name: &str) -> Vec<u8> {
    let path = fixtures::module(name);
    let code = read(&path);
    let places = fs::read_to_string(path.with_extension("places")).expect("it has places");
    let hints = |line: &str| {
        let (function, found) = instructions(&code, line);
        let branches = found.iter().filter(|it| BRANCHES.contains(&it.opcode));
        let offsets: Vec<u32> = branches.map(|branch| branch.offset).collect();
        (function, hints_at(&offsets))
    };
    with_hints(&code, &places.lines().map(hints).collect())
}

fn read(path: &std::path::Path) -> Vec<u8> {
    fs::read(path).expect("a fixture can be read")
}

#[cfg(test)]
mod tests {
    use super::*;
    use comparison::library::{hints_on_branches, FOUND};

    #[test]
    fn their_hints_stand_on_branches() {
        for name in all() {
            let bytes = payload(name).expect("there is such a module").bytes;
            let told = hints_on_branches(&bytes);
            assert_eq!(
                (told.kind, told.length),
                (FOUND, bytes.len() as u64),
                "{name}"
            );
        }
    }

    #[test]
    fn they_have_the_intended_hints() {
        let count = |hints: &Groups| hints.values().map(|entries| entries.len()).sum::<usize>();
        let (_, hints) = made();
        assert_eq!(count(&hints), FUNCTIONS * BRANCHES_OF_A_FUNCTION);
        assert_eq!(count(&last(&hints)), 1);
    }
}
