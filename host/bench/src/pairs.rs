//! Pairs of payloads, each of made ones: a separate payload, and the module's own.

use comparison::accepted::Accepted;

use crate::bytes::{number, sized, subsection};
use crate::made::{self, LABELS, LOCALS};
use crate::payload::{Kind, Payload};

/// How a pair is made of one payload.
#[derive(Clone, Copy)]
enum Way {
    /// It is the separate one, and the module has none.
    Stripped,
    /// Its entries are dealt to the two in turn, the first to the separate one, which so lacks the last.
    Dealt,
    /// The same with the two exchanged, so that the separate one has the last.
    DealtTurned,
    /// Both are that payload.
    Twice,
}

struct Recipe {
    name: &'static str,
    kind: Kind,
    of: &'static str,
    way: Way,
}

const RECIPES: [Recipe; 10] = [
    pair("go-stripped", "go", Way::Stripped),
    pair("go-dealt", "go", Way::Dealt),
    pair("go-dealt-turned", "go", Way::DealtTurned),
    pair("go-twice", "go", Way::Twice),
    pair("one-letter-dealt", "one-letter", Way::Dealt),
    pair("one-letter-twice", "one-letter", Way::Twice),
    pair("locals-dealt", "locals", Way::Dealt),
    pair("locals-twice", "locals", Way::Twice),
    wide_pair("wide-dealt", "wide", Way::Dealt),
    wide_pair("wide-twice", "wide", Way::Twice),
];

const fn pair(name: &'static str, of: &'static str, way: Way) -> Recipe {
    Recipe {
        name,
        kind: Kind::Pair,
        of,
        way,
    }
}

const fn wide_pair(name: &'static str, of: &'static str, way: Way) -> Recipe {
    Recipe {
        kind: Kind::WidePair,
        ..pair(name, of, way)
    }
}

/// The pairs, by their names and kinds.
pub fn all() -> impl Iterator<Item = (&'static str, Kind)> {
    RECIPES.iter().map(|recipe| (recipe.name, recipe.kind))
}

/// Makes the pair of a name.
pub fn payload(name: &str) -> Option<Payload> {
    let recipe = RECIPES.iter().find(|recipe| recipe.name == name)?;
    let whole = made::payload(recipe.of)?.bytes;
    let [bytes, own] = match recipe.way {
        Way::Stripped => [whole, vec![]],
        Way::Dealt => dealt(&whole),
        Way::DealtTurned => {
            let [first, second] = dealt(&whole);
            [second, first]
        }
        Way::Twice => [whole.clone(), whole],
    };
    Some(Payload {
        name: name.to_string(),
        kind: recipe.kind,
        bytes,
        own,
    })
}

/// Two payloads with every second entry of each map.
fn dealt(payload: &[u8]) -> [Vec<u8>; 2] {
    let mut hands = [vec![], vec![]];
    let mut rest = Accepted(payload);
    while let Some((id, mut contents)) = rest.subsection() {
        let contents = match id {
            LOCALS | LABELS => dealt_groups(&mut contents),
            _ => dealt_map(&mut contents),
        };
        for (hand, contents) in hands.iter_mut().zip(contents) {
            hand.extend(subsection(id, &contents));
        }
    }
    hands
}

/// The map that each gets.
fn dealt_map(map: &mut Accepted<'_>) -> [Vec<u8>; 2] {
    let count = map.number();
    let entry = |_| (map.number(), sized(map.sized()));
    let entries: Vec<(u32, Vec<u8>)> = (0..count).map(entry).collect();
    [0, 1].map(|first| list(entries.iter().skip(first).step_by(2)))
}

/// The groups that each gets: all of them, with every second entry.
fn dealt_groups(groups: &mut Accepted<'_>) -> [Vec<u8>; 2] {
    let mut hands = [vec![], vec![]];
    for _ in 0..groups.number() {
        let primary = groups.number();
        for (hand, map) in hands.iter_mut().zip(dealt_map(groups)) {
            hand.push((primary, map));
        }
    }
    hands.map(|hand| list(hand.iter()))
}

/// A list of elements under their numbers.
fn list<'a>(elements: impl ExactSizeIterator<Item = &'a (u32, Vec<u8>)>) -> Vec<u8> {
    let mut bytes = number(elements.len());
    for (index, element) in elements {
        bytes.extend(number(*index as usize));
        bytes.extend(element);
    }
    bytes
}

#[cfg(test)]
mod tests {
    use super::*;
    use comparison::library::{self, FOUND, OWN, SEPARATE};

    fn made(name: &str) -> Payload {
        payload(name).expect("there is such a pair")
    }

    /// What is joined of a pair.
    fn joined(pair: &Payload) -> Vec<u8> {
        let join = match pair.kind {
            Kind::WidePair => library::wide_pair_join,
            _ => library::pair_join,
        };
        let mut out = vec![0; pair.bytes.len() + pair.own.len()];
        let told = join(&pair.bytes, &pair.own, &mut out);
        assert_eq!(told.kind, FOUND, "{}", pair.name);
        out.truncate(told.length as usize);
        out
    }

    #[test]
    fn they_join_to_what_they_are_made_of() {
        for recipe in RECIPES {
            let whole = made::payload(recipe.of).expect("it is made").bytes;
            assert!(joined(&made(recipe.name)) == whole, "{}", recipe.name);
        }
    }

    /// Where the last function's name is: the last one dealt is the second hand's.
    #[test]
    fn the_last_name_is_whose_it_is_meant_to_be() {
        for (name, whose) in [
            ("go-stripped", SEPARATE),
            ("go-dealt", OWN),
            ("go-dealt-turned", SEPARATE),
            ("go-twice", SEPARATE),
        ] {
            let pair = made(name);
            let told = library::pair_function_name(&pair.bytes, &pair.own, 13_999);
            assert_eq!((told.kind, told.whose), (FOUND, whose), "{name}");
        }
    }

    #[test]
    fn hands_are_dealt_in_turn() {
        let functions = b"\x01\x0A\x03\x00\x01a\x01\x01b\x02\x01c";
        let locals = b"\x02\x09\x01\x03\x02\x00\x01x\x04\x01y";
        let [separate, own] = dealt(&[&functions[..], locals].concat());
        assert_eq!(
            separate,
            b"\x01\x07\x02\x00\x01a\x02\x01c\x02\x06\x01\x03\x01\x00\x01x"
        );
        assert_eq!(own, b"\x01\x04\x01\x01\x01b\x02\x06\x01\x03\x01\x04\x01y");
    }
}
