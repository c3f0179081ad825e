//! Random payloads as plain lists, which can be encoded with padding or in the fewest bytes.
//!
//! The encoder here is the plainest possible and knows nothing of the crate under test.

use std::collections::BTreeMap;

use super::editions::Edition;
use super::random::Random;

/// A list of (number, sized bytes): a name map, or the items of a function.
pub type Flat = Vec<(u32, Vec<u8>)>;
/// A list of (number, flat list): an indirect map, or a metadata payload.
pub type Nested = Vec<(u32, Flat)>;

#[derive(Clone)]
pub enum Contents {
    Module(Vec<u8>),
    Map(Flat),
    Indirect(Nested),
    Kept(Vec<u8>),
}

/// The subsections of a name payload, their ids increasing.
pub type Names = Vec<(u8, Contents)>;

/// How a number is written, given the fewest bytes that hold it.
pub trait Padding {
    fn width(&mut self, fewest: usize) -> usize;
}

pub struct Fewest;

impl Padding for Fewest {
    fn width(&mut self, fewest: usize) -> usize {
        fewest
    }
}

impl Padding for &mut Random {
    fn width(&mut self, fewest: usize) -> usize {
        if self.one_in(3) {
            fewest + self.below(6 - fewest)
        } else {
            fewest
        }
    }
}

pub fn number(value: u32, padding: &mut impl Padding) -> Vec<u8> {
    let fewest = (1..5).find(|&width| value >> (7 * width) == 0).unwrap_or(5);
    let width = padding.width(fewest);
    (0..width)
        .map(|place| {
            let group = (value >> (7 * place)) as u8 & 0x7F;
            let more = if place + 1 < width { 0x80 } else { 0 };
            group | more
        })
        .collect()
}

pub fn sized(bytes: &[u8], padding: &mut impl Padding) -> Vec<u8> {
    [&number(bytes.len() as u32, padding), bytes].concat()
}

pub fn flat(list: &Flat, padding: &mut impl Padding) -> Vec<u8> {
    let mut bytes = number(list.len() as u32, padding);
    for (index, part) in list {
        bytes.extend(number(*index, padding));
        bytes.extend(sized(part, padding));
    }
    bytes
}

pub fn nested(list: &Nested, padding: &mut impl Padding) -> Vec<u8> {
    let mut bytes = number(list.len() as u32, padding);
    for (index, part) in list {
        bytes.extend(number(*index, padding));
        bytes.extend(flat(part, padding));
    }
    bytes
}

pub fn names(subsections: &Names, padding: &mut impl Padding) -> Vec<u8> {
    let mut bytes = Vec::new();
    for (id, contents) in subsections {
        let contents = match contents {
            Contents::Module(name) => sized(name, padding),
            Contents::Map(list) => flat(list, padding),
            Contents::Indirect(list) => nested(list, padding),
            Contents::Kept(contents) => contents.clone(),
        };
        bytes.push(*id);
        bytes.extend(sized(&contents, padding));
    }
    bytes
}

/// The groups that have entries.
pub fn without_empty_groups(list: &Nested) -> Nested {
    let mut left = list.clone();
    left.retain(|(_, entries)| !entries.is_empty());
    left
}

/// The canonical form by its definition: drop what is empty, then write in the fewest bytes.
pub fn canonical_names(subsections: &Names) -> Vec<u8> {
    let mut bytes = Vec::new();
    for (id, contents) in subsections {
        let contents = match contents {
            Contents::Map(list) if list.is_empty() => continue,
            Contents::Indirect(list) if without_empty_groups(list).is_empty() => continue,
            Contents::Module(name) => sized(name, &mut Fewest),
            Contents::Map(list) => flat(list, &mut Fewest),
            Contents::Indirect(list) => nested(&without_empty_groups(list), &mut Fewest),
            Contents::Kept(contents) => contents.clone(),
        };
        bytes.push(*id);
        bytes.extend(sized(&contents, &mut Fewest));
    }
    bytes
}

pub fn canonical_metadata(list: &Nested) -> Vec<u8> {
    nested(&without_empty_groups(list), &mut Fewest)
}

/// Strictly increasing numbers, mostly small, now and then up to the greatest.
pub fn ascending(random: &mut Random, most: usize) -> Vec<u32> {
    const STEPS: [u64; 8] = [1, 1, 1, 2, 5, 120, 20_000, 1 << 30];
    let mut next = random.pick(&[0, 0, 0, 1, 126, 16_382, u64::from(u32::MAX) - 2]);
    let mut numbers = Vec::new();
    for _ in 0..random.below(most + 1) {
        let Ok(number) = u32::try_from(next) else {
            break;
        };
        numbers.push(number);
        next += random.pick(&STEPS);
    }
    numbers
}

pub fn text(random: &mut Random) -> Vec<u8> {
    const PIECES: [&str; 9] = [
        "a",
        "main",
        "_ZN4core3fmt",
        "\0",
        "é",
        "\u{FEFF}",
        "\u{FFFF}",
        "\u{10FFFF}",
        "\u{D7FF}",
    ];
    let mut text = String::new();
    for _ in 0..random.below(4) {
        text += random.pick(&PIECES);
    }
    if random.one_in(20) {
        text += &"long ".repeat(30);
    }
    text.into_bytes()
}

pub fn any_bytes(random: &mut Random, most: usize) -> Vec<u8> {
    (0..random.below(most + 1)).map(|_| random.byte()).collect()
}

fn hint(random: &mut Random) -> Vec<u8> {
    vec![random.below(2) as u8]
}

pub fn random_flat(random: &mut Random, part: fn(&mut Random) -> Vec<u8>) -> Flat {
    let indices = ascending(random, 5);
    indices.into_iter().map(|i| (i, part(random))).collect()
}

pub fn random_nested(random: &mut Random, part: fn(&mut Random) -> Vec<u8>) -> Nested {
    let indices = ascending(random, 5);
    indices
        .into_iter()
        .map(|i| (i, random_flat(random, part)))
        .collect()
}

pub fn random_hints(random: &mut Random) -> Nested {
    random_nested(random, hint)
}

pub fn random_metadata(random: &mut Random) -> Nested {
    random_nested(random, |random| any_bytes(random, 3))
}

pub fn random_names(random: &mut Random, edition: &Edition) -> Names {
    const IDS: [u8; 15] = [0, 1, 2, 3, 4, 5, 6, 7, 8, 9, 10, 11, 12, 0x80, 0xFF];
    let mut subsections = Vec::new();
    for id in IDS {
        if random.one_in(2) {
            subsections.push((id, random_contents(random, edition, id)));
        }
    }
    subsections
}

fn random_contents(random: &mut Random, edition: &Edition, id: u8) -> Contents {
    if id == 0 {
        Contents::Module(text(random))
    } else if edition.maps.contains(&id) {
        Contents::Map(random_flat(random, text))
    } else if edition.indirect_maps.contains(&id) {
        Contents::Indirect(random_nested(random, text))
    } else {
        Contents::Kept(any_bytes(random, 5))
    }
}

/// The mode of an encoding picked at random: padded here and there, or in the fewest bytes.
pub fn encoded_names(subsections: &Names, random: &mut Random) -> Vec<u8> {
    if random.one_in(4) {
        names(subsections, &mut Fewest)
    } else {
        names(subsections, &mut &mut *random)
    }
}

pub fn encoded_nested(list: &Nested, random: &mut Random) -> Vec<u8> {
    if random.one_in(4) {
        nested(list, &mut Fewest)
    } else {
        nested(list, &mut &mut *random)
    }
}

/// The entries of a payload of older hints, in any order: a function, and whether the branch at an
/// offset is likely.
pub type Older = Vec<(u32, Vec<(bool, u32)>)>;

pub fn older(list: &Older, padding: &mut impl Padding) -> Vec<u8> {
    let mut bytes = number(list.len() as u32, padding);
    for (function, hints) in list {
        bytes.extend(number(*function, padding));
        bytes.push(0);
        bytes.extend(number(hints.len() as u32, padding));
        for (likely, offset) in hints {
            bytes.extend(number(u32::from(*likely), padding));
            bytes.extend(number(*offset, padding));
        }
    }
    bytes
}

/// What is said of each place for the first time.
pub fn said_first(list: &Older) -> BTreeMap<(u32, u32), bool> {
    let mut said = BTreeMap::new();
    for (function, hints) in list {
        for (likely, offset) in hints {
            said.entry((*function, *offset)).or_insert(*likely);
        }
    }
    said
}

/// The canonical form by its definition: one entry a function, both in the order of the numbers.
pub fn canonical_older(list: &Older) -> Vec<u8> {
    let mut functions: BTreeMap<u32, Vec<(bool, u32)>> = BTreeMap::new();
    for ((function, offset), likely) in said_first(list) {
        functions
            .entry(function)
            .or_default()
            .push((likely, offset));
    }
    older(&functions.into_iter().collect(), &mut Fewest)
}

/// Few numbers, so that functions and offsets are met more than once, among them the greatest.
pub fn random_older(random: &mut Random) -> Older {
    const NUMBERS: [u32; 8] = [0, 1, 2, 5, 127, 128, 16_384, u32::MAX];
    let hints = |random: &mut Random| {
        (0..random.below(5))
            .map(|_| (random.one_in(2), random.pick(&NUMBERS)))
            .collect()
    };
    (0..random.below(6))
        .map(|_| (random.pick(&NUMBERS), hints(random)))
        .collect()
}

pub fn encoded_older(list: &Older, random: &mut Random) -> Vec<u8> {
    if random.one_in(4) {
        older(list, &mut Fewest)
    } else {
        older(list, &mut &mut *random)
    }
}
