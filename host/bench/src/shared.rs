//! Payloads that are stored in a shared table already, alone or among others, and what an open of them looks at.

use comparison::random::Random;
use comparison::sharing::{CUSTOMERS, HOLDS, MOST_BLOCKS, PAYLOAD};

use crate::made::{functions, up_to};
use crate::payload::{Kind, Payload};
use crate::texts;

/// Any number would do, but another one makes other bytes, and other counts in docs/bench.tsv.
const SEED: u64 = 0x5708_ED01;

/// What stands in the store beside the payload.
#[derive(Clone, Copy, PartialEq, Eq)]
enum Beside {
    /// Nothing.
    Nothing,
    /// As many others as there may be, in all blocks that are left, none of which is as long as the payload.
    Others,
    /// As many others as there may be, which are as long as the payload and differ from it in the last byte.
    Alike,
}

struct Recipe {
    name: &'static str,
    /// How many blocks the payload takes.
    blocks: usize,
    beside: Beside,
}

const RECIPES: [Recipe; 6] = [
    recipe("shared-1", 1, Beside::Nothing),
    recipe("shared-32", 32, Beside::Nothing),
    recipe("shared-128", MOST_BLOCKS, Beside::Nothing),
    recipe("shared-1-full", 1, Beside::Others),
    recipe("shared-32-full", 32, Beside::Others),
    recipe("shared-1-alike", 1, Beside::Alike),
];

const fn recipe(name: &'static str, blocks: usize, beside: Beside) -> Recipe {
    Recipe {
        name,
        blocks,
        beside,
    }
}

const HOLDS_IN_ALL: usize = (CUSTOMERS * HOLDS) as usize;

/// How many holds are left for others where one is the payload's and one is to be opened on it.
const HOLDS_FOR_OTHERS: usize = HOLDS_IN_ALL - 2;

/// The names of the payloads.
pub fn all() -> impl Iterator<Item = &'static str> {
    RECIPES.iter().map(|recipe| recipe.name)
}

/// The payload of a name.
pub fn payload(name: &str) -> Option<Payload> {
    let recipe = named(name)?;
    let bytes = of_blocks(&mut Random::new(SEED), recipe.blocks);
    Some(Payload::alone(name, Kind::Shared, bytes))
}

/// What is stored where a payload is: the others, and last of all itself, so that it is looked for behind all of them.
pub fn stored(payload: &Payload) -> Vec<Vec<u8>> {
    let recipe = named(&payload.name).expect("it is one of these");
    let mut stored = match recipe.beside {
        Beside::Nothing => vec![],
        Beside::Others => others(&payload.bytes),
        Beside::Alike => alike(&payload.bytes),
    };
    stored.push(payload.bytes.clone());
    stored
}

/// What an open of a payload looks at that is stored already: how many blocks are used, and how many bytes are compared.
pub struct Looked {
    pub blocks: usize,
    pub bytes: usize,
}

/// The names of the payloads that are compared once, with themselves, and what an open of each looks at.
pub fn compared_once() -> impl Iterator<Item = (&'static str, Looked)> {
    let once = RECIPES
        .iter()
        .filter(|recipe| recipe.beside != Beside::Alike);
    once.filter_map(|recipe| {
        let payload = payload(recipe.name)?;
        let looked = Looked {
            blocks: stored(&payload).iter().map(|stored| blocks(stored)).sum(),
            bytes: payload.bytes.len(),
        };
        Some((recipe.name, looked))
    })
}

fn named(name: &str) -> Option<&'static Recipe> {
    RECIPES.iter().find(|recipe| recipe.name == name)
}

/// How many blocks a payload takes that is not empty.
fn blocks(payload: &[u8]) -> usize {
    payload.len().div_ceil(PAYLOAD)
}

/// Payloads of one block each, but for the first, which takes what is left.
fn others(payload: &[u8]) -> Vec<Vec<u8>> {
    let mut r = Random::new(SEED + 1);
    let left = MOST_BLOCKS - blocks(payload);
    let count = left.min(HOLDS_FOR_OTHERS);
    let first = of_blocks(&mut r, 1 + left - count);
    let more = std::iter::repeat_with(|| of_blocks(&mut r, 1));
    let more = more.filter(|other| other.len() != payload.len());
    [first].into_iter().chain(more.take(count - 1)).collect()
}

/// The payload with other letters at its end.
fn alike(payload: &[u8]) -> Vec<Vec<u8>> {
    let (last, front) = payload.split_last().expect("it has names");
    let changes = (1..).take(HOLDS_FOR_OTHERS);
    changes
        .map(|change: u8| [front, &[last ^ change]].concat())
        .collect()
}

/// A payload with the names of as many functions as so many blocks have room for.
pub fn of_blocks(r: &mut Random, blocks: usize) -> Vec<u8> {
    let room = blocks * PAYLOAD;
    let mut names = up_to(room, || texts::go(r));
    loop {
        let payload = functions(&names);
        if payload.len() <= room {
            return payload;
        }
        names.pop();
    }
}

#[cfg(test)]
mod tests {
    use super::*;
    use comparison::library::{names_is_canonical, YES};
    use std::collections::BTreeSet;

    #[test]
    fn they_are_canonical_and_take_the_intended_blocks() {
        for recipe in RECIPES {
            let name = recipe.name;
            let payload = payload(name).expect("there is such a payload");
            assert_eq!(blocks(&payload.bytes), recipe.blocks, "{name}");
            let stored = stored(&payload);
            let different: BTreeSet<&Vec<u8>> = stored.iter().collect();
            assert_eq!(different.len(), stored.len(), "{name}");
            assert!(stored.len() < HOLDS_IN_ALL, "{name}");
            assert!(stored.iter().all(|it| names_is_canonical(it) == YES));
            let as_long = |it: &&Vec<u8>| it.len() == payload.bytes.len();
            let as_long = stored.iter().filter(as_long).count();
            let used = stored.iter().map(|stored| blocks(stored)).sum();
            let (meant, meant_as_long) = match recipe.beside {
                Beside::Nothing => (recipe.blocks, 1),
                Beside::Others => (MOST_BLOCKS, 1),
                Beside::Alike => (HOLDS_IN_ALL - 1, HOLDS_IN_ALL - 1),
            };
            assert_eq!((used, as_long), (meant, meant_as_long), "{name}");
        }
    }
}
