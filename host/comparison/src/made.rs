//! Payloads and modules made at random: well formed, with everything that the rules allow and few writers produce.

use std::collections::BTreeMap;

use crate::held::{Contents, Edition, Entries, Groups, Held, Names, OldHints, FIRST, WIDER};
use crate::random::Random;
use crate::spelling::{self, LONGEST_NUMBER};
use crate::tally::KEYS;

mod code;

pub use code::coded;

/// Text of each length that a character can have, and none.
const TEXTS: [&str; 7] = ["", "a", "main", "é", "漢", "🦀x", "core::fmt::write"];

/// The id of the subsection with the module's name.
const MODULE_NAME: u8 = 0;

/// The id of the subsection with the names of functions.
const FUNCTIONS: u8 = 1;

/// An id that no edition knows.
const KEPT: u8 = 12;

/// The subsections that are made: every id that an edition knows, and others behind them.
const SUBSECTIONS: [u8; 15] = [0, 1, 2, 3, 4, 5, 6, 7, 8, 9, 10, 11, 12, 200, 255];

/// Of so many payloads one is made canonical; by chance only short ones are.
const ONE_CANONICAL_IN: usize = 3;

/// Of so many numbers one is padded, by no more bytes than there is room for.
const ONE_PADDED_IN: usize = 6;

/// The padding of some numbers, and of most none.
fn at_random(r: &mut Random) -> impl FnMut(usize) -> usize + '_ {
    |fewest| match r.once_in(ONE_PADDED_IN) {
        true => r.below(LONGEST_NUMBER - fewest + 1),
        false => 0,
    }
}

fn text(r: &mut Random) -> Vec<u8> {
    r.one_of(&TEXTS).into()
}

/// Fewer bytes than the bound.
fn bytes(r: &mut Random, bound: usize) -> Vec<u8> {
    (0..r.below(bound)).map(|_| r.number() as u8).collect()
}

fn keys(r: &mut Random) -> Vec<u32> {
    KEYS.into_iter().filter(|_| r.once_in(3)).collect()
}

fn entries(r: &mut Random, part: fn(&mut Random) -> Vec<u8>) -> Entries {
    keys(r).into_iter().map(|key| (key, part(r))).collect()
}

fn groups(r: &mut Random, part: fn(&mut Random) -> Vec<u8>) -> Groups {
    let keys = keys(r).into_iter();
    keys.map(|key| (key, entries(r, part))).collect()
}

fn contents(r: &mut Random, edition: &Edition, id: u8) -> Contents {
    match id {
        MODULE_NAME => Contents::Name(text(r)),
        map if edition.maps.contains(&map) => Contents::Map(entries(r, text)),
        map if edition.indirect_maps.contains(&map) => Contents::Indirect(groups(r, text)),
        _ => Contents::Kept(bytes(r, 5)),
    }
}

/// What a name payload of an edition holds.
pub fn held_names(r: &mut Random, edition: &'static Edition) -> Names {
    let ids = SUBSECTIONS.into_iter().filter(|_| r.once_in(3));
    let ids: Vec<u8> = ids.collect();
    let subsections = ids.into_iter().map(|id| (id, contents(r, edition, id)));
    Names {
        edition,
        subsections: subsections.collect(),
    }
}

/// What a payload holds with fewer function names than the bound, at indices of which some are left out. A module's name
/// may stand before them, and something kept behind them.
fn held_functions(r: &mut Random, bound: usize) -> Names {
    let mut entries = Entries::new();
    let mut index = r.below(3) as u32;
    for _ in 0..r.below(bound) {
        entries.insert(index, text(r));
        index += 1 + r.below(3) as u32;
    }
    let mut subsections = BTreeMap::from([(FUNCTIONS, Contents::Map(entries))]);
    for around in [MODULE_NAME, KEPT] {
        if r.once_in(2) {
            subsections.insert(around, contents(r, &FIRST, around));
        }
    }
    Names {
        edition: &FIRST,
        subsections,
    }
}

/// What a metadata payload holds; of branch hints, or with data of any size.
pub fn held_metadata(r: &mut Random, hints: bool) -> Groups {
    match hints {
        true => groups(r, |r| vec![r.below(2) as u8]),
        false => groups(r, |r| bytes(r, 4)),
    }
}

/// What a payload of older hints holds: few numbers, so that functions and places are met more than once.
pub fn held_old_hints(r: &mut Random) -> OldHints {
    let hints = |r: &mut Random| {
        let count = r.below(5);
        (0..count)
            .map(|_| (r.below(2) as u32, r.one_of(&KEYS)))
            .collect()
    };
    let count = r.below(6);
    let entries = (0..count).map(|_| (r.one_of(&KEYS), hints(r)));
    OldHints(entries.collect())
}

/// So many hints of the older edition in entries of up to four, for functions and offsets below these bounds, in no order
/// and with repeats.
pub fn many_old_hints(r: &mut Random, hints: usize, functions: usize, offsets: usize) -> OldHints {
    let mut entries = Vec::new();
    let mut left = hints;
    while left > 0 {
        let count = left.min(1 + r.below(4));
        let hint = |_| (r.below(2) as u32, r.below(offsets) as u32);
        let hints = (0..count).map(hint).collect();
        entries.push((r.below(functions) as u32, hints));
        left -= count;
    }
    OldHints(entries)
}

/// A canonical payload, or one with padding and empty lists.
fn payload(r: &mut Random, held: impl Held) -> Vec<u8> {
    match r.once_in(ONE_CANONICAL_IN) {
        true => held.canonical(),
        false => held.spelled(&mut at_random(r)),
    }
}

/// A name payload, made for either edition.
pub fn names(r: &mut Random) -> Vec<u8> {
    let edition = r.one_of(&[&FIRST, &WIDER]);
    let held = held_names(r, edition);
    payload(r, held)
}

/// A name payload with fewer function names than the bound.
pub fn functions(r: &mut Random, bound: usize) -> Vec<u8> {
    let held = held_functions(r, bound);
    payload(r, held)
}

/// A metadata payload; of branch hints, or with data of any size.
pub fn metadata(r: &mut Random, hints: bool) -> Vec<u8> {
    let held = held_metadata(r, hints);
    payload(r, held)
}

/// A payload of older hints.
pub fn old_hints(r: &mut Random) -> Vec<u8> {
    let held = held_old_hints(r);
    payload(r, held)
}

fn custom(r: &mut Random, name: &[u8], payload: &[u8]) -> Vec<u8> {
    spelling::custom(name, payload, &mut at_random(r))
}

/// A module with names, hints of each edition and other sections, in an order that the rules allow.
pub fn module(r: &mut Random) -> Vec<u8> {
    let mut m = spelling::PREAMBLE.to_vec();
    let with_hints = r.once_in(2);
    let with_old_hints = r.once_in(2);
    for id in [1, 2, 3, 4, 5, 13, 6, 7, 8, 9, 12, 10, 11] {
        if id == 10 && with_hints {
            let payload = metadata(r, true);
            m.extend(custom(r, b"metadata.code.branch_hint", &payload));
        }
        if id == 12 && with_old_hints {
            let payload = old_hints(r);
            m.extend(custom(r, b"branchHints", &payload));
        }
        if r.once_in(3) {
            let contents = bytes(r, 4);
            m.extend(spelling::section(id, &contents, &mut at_random(r)));
        }
        if r.once_in(5) {
            let payload = metadata(r, false);
            let called = r.one_of(&[&b"metadata.code.x"[..], b"x", b"metadata.code.", b"nam"]);
            m.extend(custom(r, called, &payload));
        }
    }
    if r.once_in(4) {
        return m;
    }
    let payload = names(r);
    m.extend(custom(r, b"name", &payload));
    m
}

/// A module with code and hints on it, of which some numbers are padded.
pub fn coded_module(r: &mut Random) -> Vec<u8> {
    let coded = coded(r);
    coded.spelled(&mut at_random(r))
}

/// Three lists that agree, or almost.
pub fn lists(r: &mut Random) -> (Vec<u32>, Vec<u32>, Vec<u8>) {
    let mut indices: Vec<u32> = KEYS.into_iter().filter(|_| r.once_in(2)).collect();
    let mut lengths = vec![];
    let mut text = vec![];
    for _ in &indices {
        let name = r.one_of(&TEXTS);
        lengths.push(name.len() as u32);
        text.extend(name.as_bytes());
    }
    match r.below(8) {
        0 => indices.push(3),
        1 => lengths.push(u32::MAX),
        2 => text.push(b'x'),
        3 if text.len() > 1 => {
            let at = r.below(text.len());
            text[at] = 0xFF;
        }
        4 if indices.len() > 1 => indices.swap(0, 1),
        5 if lengths.len() > 1 => lengths.swap(0, 1),
        _ => {}
    }
    (indices, lengths, text)
}
