//! Payloads made by the program itself, the same on every machine and in every run.

use comparison::random::Random;

use crate::bytes::{list, number, padded, sized, subsection};
use crate::name_map::{FUNCTIONS, GLOBALS};
use crate::old_hints;
use crate::payload::{Kind, Payload};
use crate::texts;

/// The ids of the subsections with the names of locals, of labels and of data segments.
pub const LOCALS: u8 = 2;
pub const LABELS: u8 = 3;
const DATA: u8 = 9;
/// An id that no edition knows.
const KEPT: u8 = 100;

const LABELLED_FUNCTIONS: usize = 2_000;
const NAMED_GLOBALS: usize = 10_000;
const NAMED_SEGMENTS: usize = 10_000;

const RUST_BYTES: usize = 172_000;
const CHARACTERS_BYTES: usize = 100_000;
const KEPT_BYTES: usize = 600_000;

const HINTED_FUNCTIONS: u32 = 1_000;
const BRANCHES: u32 = 10;
/// How far apart the branches of a function are.
const STRIDE: u32 = 19;

/// The branch that the hints name last: its function and its offset.
pub const LAST_BRANCH: (u32, u32) = (HINTED_FUNCTIONS - 1, BRANCHES * STRIDE);

/// Any number would do, but another one makes other bytes, and other counts in docs/bench.tsv.
const SEED: u64 = 0x57A5_4D17;

/// How a payload is made.
struct Recipe {
    name: &'static str,
    kind: Kind,
    make: fn(&mut Random) -> Vec<u8>,
}

const RECIPES: [Recipe; 21] = [
    names("go", |r| functions(&many(14_000, || texts::go(r)))),
    names("c++", |r| functions(&many(1_000, || texts::cpp(r)))),
    names("rust-v0", |r| {
        functions(&up_to(RUST_BYTES, || texts::rust_v0(r)))
    }),
    names("one-letter", |r| {
        functions(&many(150_000, || texts::letter(r)))
    }),
    names("locals", functions_with_locals),
    names("two-byte", |r| in_characters(r, '\u{80}', '\u{7FF}')),
    names("three-byte", |r| in_characters(r, '\u{800}', '\u{D7FF}')),
    names("four-byte", |r| {
        in_characters(r, '\u{1_0000}', '\u{10_FFFF}')
    }),
    names("one-letter-beyond", |r| {
        functions(&many(1_000, || texts::one_letter_beyond(r)))
    }),
    names("one-long-name", |r| functions(&[texts::ascii(r, 600_000)])),
    names("kept", one_kept_subsection),
    names("padded", |r| {
        padded_functions(&many(14_000, || texts::go(r)))
    }),
    names("padded-frame", |r| {
        let map = name_map(&many(14_000, || texts::go(r)));
        [&[FUNCTIONS], &padded(map.len())[..], &map].concat()
    }),
    Recipe {
        name: "hints",
        kind: Kind::Hints,
        make: hints,
    },
    Recipe {
        name: "wide",
        kind: Kind::WideNames,
        make: with_wide_names,
    },
    old_hints("old-hints", old_hints::in_order),
    old_hints("old-hints-shuffled", old_hints::shuffled),
    old_hints("old-hints-apart-shuffled", old_hints::apart_shuffled),
    old_hints("old-hints-falling", old_hints::falling),
    old_hints("old-hints-apart-falling", old_hints::apart_falling),
    old_hints("old-hints-nearly-rising", old_hints::nearly_rising),
];

const fn old_hints(name: &'static str, make: fn(&mut Random) -> Vec<u8>) -> Recipe {
    Recipe {
        name,
        kind: Kind::OldHints,
        make,
    }
}

const fn names(name: &'static str, make: fn(&mut Random) -> Vec<u8>) -> Recipe {
    Recipe {
        name,
        kind: Kind::Names,
        make,
    }
}

/// The names of the made payloads.
pub fn payloads() -> impl Iterator<Item = &'static str> {
    RECIPES.iter().map(|recipe| recipe.name)
}

/// Makes the payload of a name.
///
/// Each has a generator of its own, which no environment changes: its bytes stay the same whatever is added beside it,
/// and the counts of two runs are those of the same bytes.
pub fn payload(name: &str) -> Option<Payload> {
    let recipe = RECIPES.iter().find(|recipe| recipe.name == name)?;
    let bytes = (recipe.make)(&mut Random::new(SEED));
    Some(Payload::alone(name, recipe.kind, bytes))
}

/// A payload that names functions and nothing else.
pub fn functions(texts: &[String]) -> Vec<u8> {
    subsection(FUNCTIONS, &name_map(texts))
}

/// The same with the size of the subsection and every number of a row in five bytes.
fn padded_functions(texts: &[String]) -> Vec<u8> {
    let row = |(index, text): (usize, &String)| {
        [&padded(index), &padded(text.len()), text.as_bytes()].concat()
    };
    let rows = texts
        .iter()
        .enumerate()
        .map(row)
        .collect::<Vec<_>>()
        .concat();
    let map = [padded(texts.len()), rows].concat();
    [&[FUNCTIONS], &padded(map.len())[..], &map].concat()
}

/// One subsection that no edition knows.
fn one_kept_subsection(r: &mut Random) -> Vec<u8> {
    subsection(KEPT, texts::ascii(r, KEPT_BYTES).as_bytes())
}

fn name_map(texts: &[String]) -> Vec<u8> {
    list(texts.iter().map(|text| sized(text.as_bytes())))
}

fn many(count: usize, text: impl FnMut() -> String) -> Vec<String> {
    std::iter::repeat_with(text).take(count).collect()
}

/// As many texts as it takes for so many bytes of text.
pub fn up_to(bytes: usize, mut text: impl FnMut() -> String) -> Vec<String> {
    let mut texts = vec![];
    let mut length = 0;
    while length < bytes {
        let next = text();
        length += next.len();
        texts.push(next);
    }
    texts
}

/// Function names of about a hundred bytes, in characters that all take as many bytes.
fn in_characters(r: &mut Random, first: char, last: char) -> Vec<u8> {
    let count = 100 / first.len_utf8();
    functions(&up_to(CHARACTERS_BYTES, || {
        texts::characters(r, first, last, count)
    }))
}

/// 2,000 functions with their names and those of one to eight locals.
fn functions_with_locals(r: &mut Random) -> Vec<u8> {
    let names = many(2_000, || texts::identifier(r));
    let locals = indirect_map(r, names.len());
    [functions(&names), subsection(LOCALS, &locals)].concat()
}

/// So many groups, of one to eight names each.
fn indirect_map(r: &mut Random, groups: usize) -> Vec<u8> {
    list((0..groups).map(|_| {
        let count = 1 + r.below(8);
        name_map(&many(count, || texts::identifier(r)))
    }))
}

/// Functions with their names and those of their labels; globals and data segments.
fn with_wide_names(r: &mut Random) -> Vec<u8> {
    let names = functions(&many(LABELLED_FUNCTIONS, || texts::identifier(r)));
    let labels = indirect_map(r, LABELLED_FUNCTIONS);
    let globals = name_map(&many(NAMED_GLOBALS, || texts::identifier(r)));
    let segments = name_map(&many(NAMED_SEGMENTS, || texts::identifier(r)));
    [
        names,
        subsection(LABELS, &labels),
        subsection(GLOBALS, &globals),
        subsection(DATA, &segments),
    ]
    .concat()
}

fn hints(r: &mut Random) -> Vec<u8> {
    let functions = (0..HINTED_FUNCTIONS as usize).map(|_| {
        let mut branches = number(BRANCHES as usize);
        for branch in 1..=BRANCHES {
            branches.extend(number((branch * STRIDE) as usize));
            branches.extend(sized(&[r.below(2) as u8]));
        }
        branches
    });
    list(functions)
}

#[cfg(test)]
mod tests {
    use super::*;
    use crate::name_map::NameMap;
    use comparison::library::{self, Told, FOUND, NONE};
    use second_reader::Kind::{Likely, Unlikely};

    fn made() -> impl Iterator<Item = Payload> {
        payloads().map(|name| payload(name).expect("it was named"))
    }

    fn judged_by_both(payload: &Payload) -> [Told; 2] {
        let bytes = &payload.bytes;
        match payload.kind {
            Kind::Names => [
                library::names_judge(bytes),
                second_reader::names_judge(bytes).into(),
            ],
            Kind::WideNames => [
                library::wide_names_judge(bytes),
                second_reader::wide_names_judge(bytes).into(),
            ],
            Kind::Hints => [
                library::hints_judge(bytes),
                second_reader::hints_judge(bytes).into(),
            ],
            Kind::OldHints => [
                library::old_hints_judge(bytes),
                second_reader::old_hints_judge(bytes).into(),
            ],
            Kind::Pair | Kind::WidePair | Kind::Module | Kind::Code | Kind::Shared | Kind::Gaps => {
                panic!("payloads alone are made here")
            }
        }
    }

    #[test]
    fn both_readers_accept_them() {
        for payload in made() {
            let name = &payload.name;
            assert_eq!(library::walk(&payload.module()).length, 1, "{name}");
            let length = payload.bytes.len() as u64;
            for told in judged_by_both(&payload) {
                assert_eq!((told.kind, told.length), (FOUND, length), "{name}");
            }
        }
    }

    /// How many functions are named, in how many bytes of text each.
    #[test]
    fn function_names_have_the_intended_sizes() {
        let near = |is: f64, meant: usize| (is / meant as f64 - 1.0).abs() < 0.03;
        for (name, count, length) in [
            ("go", 14_000, 43),
            ("c++", 1_000, 165),
            ("rust-v0", 1_610, 107),
            ("one-letter", 150_000, 1),
            ("two-byte", 1_000, 100),
            ("three-byte", 1_011, 99),
            ("four-byte", 1_000, 100),
            ("one-letter-beyond", 1_000, 96),
            ("one-long-name", 1, 600_000),
            ("padded", 14_000, 43),
            ("padded-frame", 14_000, 43),
        ] {
            let payload = payload(name).expect("there is such a payload");
            let lists = NameMap::of(&payload.bytes, FUNCTIONS)
                .expect("functions")
                .lists;
            let named = lists.indices.len() as f64;
            let mean = lists.text.len() as f64 / named;
            assert!(near(named, count), "{name}: {named} names");
            assert!(near(mean, length), "{name}: {mean} bytes a name");
        }
    }

    #[test]
    fn wide_names_are_as_many_as_intended() {
        let bytes = payload("wide").expect("there is such a payload").bytes;
        for (id, count) in [
            (FUNCTIONS, LABELLED_FUNCTIONS),
            (GLOBALS, NAMED_GLOBALS),
            (DATA, NAMED_SEGMENTS),
        ] {
            let map = NameMap::of(&bytes, id).expect("a map");
            assert_eq!(map.lists.indices.len(), count, "id {id}");
        }
        let label = |function| library::wide_label_name(&bytes, function, 0).kind;
        let functions = LABELLED_FUNCTIONS as u32;
        assert_eq!((label(functions - 1), label(functions)), (FOUND, NONE));
    }

    #[test]
    fn the_last_branch_has_the_last_hint() {
        let hints = payload("hints").expect("there is such a payload").bytes;
        let hint = |function, offset| library::hint(&hints, function, offset).kind;
        let (function, offset) = LAST_BRANCH;
        assert!([Unlikely as u32, Likely as u32].contains(&hint(function, offset)));
        assert_eq!(hint(function, offset + STRIDE), NONE);
        assert_eq!(hint(function + 1, STRIDE), NONE);
    }
}
