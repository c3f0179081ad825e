//! Stores in which every second block is free, so that whatever is stored has to move where the gaps are closed.

use comparison::random::Random;
use comparison::sharing::MOST_BLOCKS;

use crate::payload::{Kind, Payload};
use crate::shared::of_blocks;

/// Any number would do, but another one makes other bytes, and other counts in docs/bench.tsv.
const SEED: u64 = 0x6A95_0D01;

struct Recipe {
    name: &'static str,
    /// How many blocks the store has.
    blocks: usize,
}

const RECIPES: [Recipe; 2] = [
    Recipe {
        name: "gaps-32",
        blocks: 32,
    },
    Recipe {
        name: "gaps-128",
        blocks: MOST_BLOCKS,
    },
];

/// The names of the stores.
pub fn all() -> impl Iterator<Item = &'static str> {
    RECIPES.iter().map(|recipe| recipe.name)
}

/// The payloads that are left of those in the store of a name, one behind the other.
pub fn payload(name: &str) -> Option<Payload> {
    let left = of_recipe(named(name)?).into_iter().skip(1).step_by(2);
    let bytes = left.collect::<Vec<Vec<u8>>>().concat();
    Some(Payload::alone(name, Kind::Gaps, bytes))
}

/// What is stored before every second payload is closed: a payload in each block.
pub fn stored(payload: &Payload) -> Vec<Vec<u8>> {
    of_recipe(named(&payload.name).expect("it is one of these"))
}

/// The names of the stores, and how many blocks are looked at and moved in each: all that are used.
pub fn moved() -> impl Iterator<Item = (&'static str, usize)> {
    RECIPES
        .iter()
        .map(|recipe| (recipe.name, recipe.blocks / 2))
}

fn named(name: &str) -> Option<&'static Recipe> {
    RECIPES.iter().find(|recipe| recipe.name == name)
}

fn of_recipe(recipe: &Recipe) -> Vec<Vec<u8>> {
    let mut r = Random::new(SEED);
    (0..recipe.blocks).map(|_| of_blocks(&mut r, 1)).collect()
}

#[cfg(test)]
mod tests {
    use super::*;
    use comparison::library::{names_is_canonical, YES};
    use comparison::sharing::PAYLOAD;
    use std::collections::BTreeSet;

    #[test]
    fn they_are_canonical_and_take_a_block_each() {
        for name in all() {
            let payload = payload(name).expect("there is such a store");
            let stored = stored(&payload);
            let different: BTreeSet<&Vec<u8>> = stored.iter().collect();
            assert_eq!(different.len(), stored.len(), "{name}");
            assert!(stored.iter().all(|it| it.len() <= PAYLOAD), "{name}");
            assert!(stored.iter().all(|it| names_is_canonical(it) == YES));
        }
    }
}
