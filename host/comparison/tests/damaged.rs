//! Inputs that were well formed until something happened to them.

use comparison::code::{Body, Coded};
use comparison::held::{Contents, Entries, Groups, Held, Names, FIRST, WIDER};
use comparison::library::{
    FOUND, LIKELY, NONE, NO_ENTRY, NO_GROUP, NO_SUBSECTION, REFUSED, UNLIKELY,
};
use comparison::made;
use comparison::random::{seed, Random};
use comparison::spelling::{number, sized, unpadded, with_one_padded, LONGEST_NUMBER};
use comparison::tally::{Tally, Way, LISTING, WIDE_QUESTIONS};
use std::collections::BTreeMap;

/// The id of the subsection with the module's name.
const MODULE: u8 = 0;

/// The ids of two subsections with name maps: in each edition, and in the wider one.
const FUNCTIONS: u8 = 1;
const GLOBALS: u8 = 7;

/// The id of a subsection with an indirect map.
const LOCALS: u8 = 2;

/// The first id that no edition knows.
const KEPT: u8 = 12;

/// What a byte is changed to: ends of ranges that the rules name, and its neighbours.
fn changes(byte: u8) -> [u8; 8] {
    [
        0x00,
        0x0F,
        0x7F,
        0x80,
        0xFF,
        byte.wrapping_add(1),
        byte.wrapping_sub(1),
        byte ^ 0x80,
    ]
}

/// Cut off at every length, and every byte changed.
fn damaged(bytes: &[u8]) -> Vec<Vec<u8>> {
    let mut all: Vec<Vec<u8>> = (0..bytes.len()).map(|n| bytes[..n].to_vec()).collect();
    for at in 0..bytes.len() {
        for change in changes(bytes[at]) {
            let mut changed = bytes.to_vec();
            changed[at] = change;
            all.push(changed);
        }
        if at > 0 {
            let mut swapped = bytes.to_vec();
            swapped.swap(at - 1, at);
            all.push(swapped);
        }
    }
    all
}

/// Small, so that every place can be damaged.
fn small(make: impl Fn(&mut Random) -> Vec<u8>, r: &mut Random) -> Vec<u8> {
    loop {
        let bytes = make(r);
        if (12..60).contains(&bytes.len()) {
            return bytes;
        }
    }
}

/// How often each call that lists is answered in each of these ways at least.
const LEAST_LISTED: u64 = 100;
const WAYS: [Way; 3] = [Way::Rows, Way::Refused, Way::TooShort];

#[test]
fn name_payloads() {
    let mut r = Random::new(seed());
    let mut tally = Tally::default();
    for _ in 0..12 {
        for payload in damaged(&small(made::names, &mut r)) {
            tally.names(&payload);
        }
    }
    println!("compared {} calls", tally.calls);
    tally.assert_rows_met(&LISTING[..2], &WAYS, LEAST_LISTED);
    assert!(
        tally.calls >= 400_000,
        "only {} calls were compared",
        tally.calls
    );
}

#[test]
fn metadata_payloads() {
    let mut r = Random::new(seed());
    let mut tally = Tally::default();
    for turn in 0..12 {
        for payload in damaged(&small(|r| made::metadata(r, turn % 2 == 0), &mut r)) {
            tally.metadata(&payload);
        }
    }
    println!("compared {} calls", tally.calls);
    tally.assert_rows_met(&LISTING[2..4], &WAYS, LEAST_LISTED);
    assert!(
        tally.calls >= 100_000,
        "only {} calls were compared",
        tally.calls
    );
}

#[test]
fn old_hint_payloads() {
    const LEAST: u64 = 500;
    let mut r = Random::new(seed());
    let mut tally = Tally::default();
    for _ in 0..12 {
        let payload = small(made::old_hints, &mut r);
        for damaged in damaged(&payload) {
            tally.old_hints(&damaged);
        }
        // Behind the list of hints nothing may stand.
        tally.old_hints(&[&payload[..], &[0]].concat());
    }
    println!("compared {} calls", tally.calls);
    tally.assert_old_met(&[NONE, REFUSED, UNLIKELY, LIKELY], LEAST);
    tally.assert_rows_met(&LISTING[4..], &WAYS, LEAST_LISTED);
}

/// A module with hints of both editions, and the same hints in the one and in the other.
fn both_editions(old_hints: &[u8]) -> Vec<u8> {
    let newer = [
        &b"\x19metadata.code.branch_hint"[..],
        b"\x01\x00\x01\x03\x01\x01",
    ]
    .concat();
    let older = [b"\x0BbranchHints", old_hints].concat();
    let section = |contents: &[u8]| [&[0], &sized(contents, &mut unpadded)[..]].concat();
    [
        b"\0asm\x01\0\0\0".to_vec(),
        section(&older),
        section(&newer),
    ]
    .concat()
}

/// Older hints in a module, damaged at every place: the module around them, and the payload alone.
#[test]
fn old_hints_in_modules() {
    const LEAST: u64 = 20;
    let mut r = Random::new(seed());
    let mut tally = Tally::default();
    for _ in 0..4 {
        let payload = small(made::old_hints, &mut r);
        damaged(&both_editions(&payload))
            .iter()
            .for_each(|module| tally.module(module));
        for damaged in damaged(&payload) {
            tally.module(&both_editions(&damaged));
        }
    }
    println!("compared {} calls", tally.calls);
    tally.assert_old_met(&[NONE, REFUSED, UNLIKELY, LIKELY], LEAST);
}

#[test]
fn modules() {
    let mut r = Random::new(seed());
    let mut tally = Tally::default();
    for _ in 0..8 {
        for module in damaged(&small(made::module, &mut r)) {
            tally.module(&module);
        }
    }
    println!("compared {} calls", tally.calls);
    assert!(
        tally.calls >= 150_000,
        "only {} calls were compared",
        tally.calls
    );
}

/// Modules that arrive, each damaged at every place and cut at every place.
#[test]
fn modules_as_they_arrive() {
    const LEAST: u64 = 50;
    let mut r = Random::new(seed());
    let mut tally = Tally::default();
    for _ in 0..12 {
        for module in damaged(&small(made::module, &mut r)) {
            tally.arrives(&module);
            tally.arrives_at_random(&module, &mut r);
        }
    }
    println!("compared {} calls", tally.calls);
    tally.assert_streams_met(&[0, 1, 2, 4, 5, 6], LEAST);
}

/// Modules with hints on code: damaged at every place, and padded at every place, with hints that follow.
#[test]
fn hints_on_branches() {
    const LEAST: u64 = 20;
    const ROUNDS: usize = 20;
    let mut r = Random::new(seed());
    let mut tally = Tally::default();
    for _ in 0..ROUNDS {
        let coded = made::coded(&mut r);
        let mut others = damaged(&coded.spelled(&mut unpadded));
        // A number can only be too large where it has all its bytes.
        others.extend(damaged(
            &coded.spelled(&mut |fewest| LONGEST_NUMBER - fewest),
        ));
        others.extend(with_one_padded(|padding| coded.spelled(padding)));
        for other in others {
            tally.on_branches(&other);
        }
    }
    println!("compared {} calls: {:?}", tally.calls, tally.branches_met);
    let codes = [0, 1, 2, 3, 4, 5, 6, 10, 11, 12, 19, 20, 21, 29];
    tally.assert_branches_met(&codes, LEAST);
}

/// The same with the list of bodies one short, one longer at its front, and missing, and with that of imports one short.
fn of_other_lengths(coded: &Coded) -> [Coded; 4] {
    let changed = |change: fn(&mut Coded)| {
        let mut changed = coded.clone();
        change(&mut changed);
        changed
    };
    [
        changed(|it| it.bodies = without_last(&it.bodies)),
        changed(|it| {
            let bodies = it.bodies.iter_mut();
            bodies.for_each(|bodies| bodies.insert(0, Body::default()));
        }),
        changed(|it| it.bodies = None),
        changed(|it| it.imports = without_last(&it.imports)),
    ]
}

fn without_last<T: Clone>(list: &Option<Vec<T>>) -> Option<Vec<T>> {
    let (_, rest) = list.as_ref()?.split_last()?;
    Some(rest.to_vec())
}

/// Lists of bodies and of imports that have lost or gained one beside hints that stayed as they were.
#[test]
fn hints_beside_lists_of_other_lengths() {
    const ROUNDS: usize = 3_000;
    const LEAST: u64 = 100;
    let mut r = Random::new(seed());
    let mut tally = Tally::default();
    for _ in 0..ROUNDS {
        let coded = made::coded(&mut r);
        for other in of_other_lengths(&coded) {
            // The hints that stood on branches still stand on the same instructions.
            tally.on_branches(&other.spelled(&mut unpadded));
        }
    }
    println!("compared {} calls: {:?}", tally.calls, tally.branches_met);
    tally.assert_branches_met(&[0, 19, 20, 21, 29], LEAST);
}

/// What a subsection that the wider edition knows holds, with names under keys that are asked for.
fn with_names(id: u8) -> Contents {
    let entries = Entries::from([(0, b"a".to_vec()), (128, b"".to_vec())]);
    if WIDER.maps.contains(&id) {
        Contents::Map(entries)
    } else if WIDER.indirect_maps.contains(&id) {
        Contents::Indirect(Groups::from([(0, entries.clone()), (3, entries)]))
    } else {
        Contents::Name(b"m".to_vec())
    }
}

/// A payload of one known subsection and one that is kept.
fn one_known(id: u8) -> Vec<u8> {
    let subsections = [(id, with_names(id)), (KEPT, Contents::Kept(vec![0]))];
    let names = Names {
        edition: &WIDER,
        subsections: BTreeMap::from(subsections),
    };
    names.spelled(&mut unpadded)
}

/// A module of one section with names.
fn module_of(payload: &[u8]) -> Vec<u8> {
    let contents = [b"\x04name", payload].concat();
    let section = sized(&contents, &mut unpadded);
    [&b"\0asm\x01\0\0\0\0"[..], &section].concat()
}

/// Each id that the wider edition knows, damaged at every place, on its own and in a module.
#[test]
fn each_known_id() {
    const LEAST: u64 = 20;
    let mut tally = Tally::default();
    for payload in (0..KEPT).flat_map(|id| damaged(&one_known(id))) {
        tally.names(&payload);
        tally.module(&module_of(&payload));
    }
    println!("compared {} calls", tally.calls);
    tally.assert_wide_met(2 * WIDE_QUESTIONS, LEAST);
}

/// Names of functions, and of locals in the groups of three functions, one of which is empty.
fn functions_and_locals() -> Names {
    let entries = Entries::from([(1, b"a".to_vec()), (128, b"".to_vec())]);
    let groups = [
        (0, entries.clone()),
        (3, Entries::new()),
        (128, entries.clone()),
    ];
    let subsections = [
        (FUNCTIONS, Contents::Map(entries)),
        (LOCALS, Contents::Indirect(Groups::from(groups))),
    ];
    Names {
        edition: &FIRST,
        subsections: BTreeMap::from(subsections),
    }
}

/// The same without one of its subsections.
fn without(held: &Names, id: u8) -> Names {
    let mut rest = held.clone();
    rest.subsections.remove(&id);
    rest
}

/// Functions and locals that have names and that have none: damaged at every place, padded at every place, and with an
/// empty list at every place.
#[test]
fn reasons_for_no_name() {
    const LEAST: u64 = 400;
    let mut tally = Tally::default();
    let all = functions_and_locals();
    let with_empty = all.with_an_empty_list();
    for held in [without(&all, FUNCTIONS), without(&all, LOCALS), all] {
        for damaged in damaged(&held.spelled(&mut unpadded)) {
            tally.first_names(&damaged);
        }
        for padded in held.with_one_padded() {
            tally.first_names(&padded);
        }
    }
    for held in with_empty {
        tally.first_names(&held.spelled(&mut unpadded));
    }
    println!("compared {} calls", tally.calls);
    let told = [FOUND, REFUSED, NO_SUBSECTION, NO_GROUP, NO_ENTRY];
    tally.assert_why_met(&told, LEAST);
}

/// What the wider edition knows of each kind: a name, a map, an indirect one, and something kept.
fn of_each_kind() -> Names {
    let ids = [MODULE, FUNCTIONS, LOCALS, GLOBALS];
    let mut subsections = BTreeMap::from(ids.map(|id| (id, with_names(id))));
    subsections.insert(KEPT, Contents::Kept(vec![0]));
    Names {
        edition: &WIDER,
        subsections,
    }
}

/// Each id that the wider edition knows, damaged at every place, on either side of what it was, and of the next.
#[test]
fn pairs_of_each_known_id() {
    const LEAST: u64 = 20;
    let mut tally = Tally::default();
    for id in 0..KEPT {
        let (whole, next) = (one_known(id), one_known((id + 1) % KEPT));
        for payload in damaged(&whole) {
            tally.both_ways(&payload, &whole);
            tally.both_ways(&payload, &next);
        }
    }
    println!("compared {} calls", tally.calls);
    tally.assert_pairs_met(LEAST);
}

/// Names on either side of others: padded at every place, and with an empty list at every place.
#[test]
fn pairs_of_the_same_names() {
    let mut tally = Tally::default();
    let held = of_each_kind();
    let others = [&held, &functions_and_locals()].map(|other| other.spelled(&mut unpadded));
    let with_empty = held.with_an_empty_list().into_iter();
    let mut all = held.with_one_padded();
    all.extend(with_empty.map(|held| held.spelled(&mut unpadded)));
    for payload in &all {
        for other in &others {
            tally.both_ways(payload, other);
        }
        tally.beside_itself_and_nothing(payload);
    }
    println!("compared {} calls", tally.calls);
}

/// Both payloads are damaged, and not alike.
#[test]
fn pairs_of_damaged_payloads() {
    let mut tally = Tally::default();
    let held = of_each_kind();
    let one = damaged(&held.spelled(&mut unpadded));
    let other = damaged(&without(&held, FUNCTIONS).spelled(&mut unpadded));
    for (separate, own) in one.iter().zip(other.iter().rev()) {
        tally.both_ways(separate, own);
    }
    println!("compared {} calls", tally.calls);
}

/// So many functions, at every second index from 1 on, with names of up to two letters.
fn functions(count: u32) -> Names {
    let name = |n: u32| b"ab"[..n as usize % 3].to_vec();
    let entries = Entries::from_iter((0..count).map(|n| (2 * n + 1, name(n))));
    Names {
        edition: &FIRST,
        subsections: BTreeMap::from([(FUNCTIONS, Contents::Map(entries))]),
    }
}

/// Fewer functions than one marker has, as many, one more, and several markers.
const FUNCTION_COUNTS: [u32; 6] = [0, 1, 15, 16, 17, 40];

/// Functions at both ends of what the markers of forty reach, some that have no name, and one beyond all.
const ASKED: [u32; 9] = [0, 1, 2, 31, 32, 33, 65, 79, u32::MAX];

/// A payload that is damaged once its markers were made: they are made anew, and it is asked by the old ones too.
#[test]
fn markers_of_damaged_payloads() {
    const LEAST: u64 = 1_000;
    let mut tally = Tally::default();
    for count in FUNCTION_COUNTS {
        let held = functions(count);
        let payload = held.spelled(&mut unpadded);
        let markers = tally.own_markers(&payload, &ASKED).expect("accepted");
        let mut others = damaged(&payload);
        others.extend(held.with_one_padded());
        for other in others {
            tally.own_markers(&other, &ASKED);
            for function in ASKED {
                tally.quick(&other, &markers, function);
            }
        }
    }
    println!("compared {} calls", tally.calls);
    tally.assert_quick_met(LEAST);
}

/// Markers with one thing changed, of their own payload and of others.
#[test]
fn damaged_markers() {
    const LEAST: u64 = 300;
    let mut tally = Tally::default();
    let payloads = FUNCTION_COUNTS.map(|count| functions(count).spelled(&mut unpadded));
    for payload in &payloads {
        let markers = tally.own_markers(payload, &ASKED).expect("accepted");
        for other in &payloads {
            tally.quick_by_damaged(other, &markers, &ASKED);
        }
        // Where the functions stand elsewhere, other bytes are read as entries.
        let moved = [b"\x00\x02\x01m", &payload[..]].concat();
        tally.quick_by_damaged(&moved, &markers, &ASKED);
    }
    println!("compared {} calls", tally.calls);
    tally.assert_quick_met(LEAST);
}

/// A name payload with one name in a map.
fn one_name(id: u8, text: &[u8]) -> Vec<u8> {
    let mut contents = vec![1, 0];
    contents.extend(sized(text, &mut unpadded));
    let mut payload = vec![id];
    payload.extend(sized(&contents, &mut unpadded));
    payload
}

/// Text broken at each place, also where a reader may step over several bytes at once.
#[test]
fn broken_texts() {
    let mut tally = Tally::default();
    for character in ["a", "é", "漢", "🦀"] {
        let text = character.repeat(72 / character.len());
        for at in 0..text.len() {
            for change in [0x80, 0xC0, 0xC3, 0xE0, 0xED, 0xF4, 0xFF] {
                let mut broken = text.as_bytes().to_vec();
                broken[at] = change;
                tally.names(&one_name(FUNCTIONS, &broken));
                tally.wide_names(&one_name(GLOBALS, &broken));
            }
            tally.names(&one_name(FUNCTIONS, &text.as_bytes()[..at]));
            tally.wide_names(&one_name(GLOBALS, &text.as_bytes()[..at]));
        }
    }
    println!("compared {} calls", tally.calls);
}

/// Numbers that take one to five bytes, up to the greatest.
const NUMBERS: [u32; 10] = [
    0,
    1,
    2,
    127,
    128,
    16_384,
    1 << 21,
    1 << 28,
    u32::MAX - 1,
    u32::MAX,
];

/// What stands before a number that is a count, a length or a size.
const BEFORE: [&[u8]; 11] = [
    &[1, 8],
    &[2, 8],
    &[2, 8, 1, 0],
    &[1, 9, 1, 0],
    &[0, 9],
    &[7],
    &[7, 8],
    &[7, 9, 1, 0],
    &[3, 8],
    &[3, 8, 1, 0],
    &[1],
];

/// Counts and lengths up to the greatest, where a list or a part cannot have them.
#[test]
fn counts_and_lengths_up_to_the_greatest() {
    let mut tally = Tally::default();
    for value in NUMBERS {
        let number = number(value, &mut unpadded);
        for before in BEFORE {
            for after in [&[][..], &[0], &[0, 1, b'a'], &[0, 0, 1, 0]] {
                let bytes = [before, &number, after].concat();
                tally.names(&bytes);
                tally.metadata(&bytes);
                tally.metadata(&[&number, after].concat());
                for before in [&[][..], &[1], &[1, 0, 0], &[1, 0, 0, 1], &[1, 0, 0, 1, 1]] {
                    tally.old_hints(&[before, &number, after].concat());
                }
                let mut module = b"\0asm\x01\0\0\0\0".to_vec();
                module.extend(&number);
                module.extend(b"\x04name");
                module.extend(&bytes);
                tally.module(&module);
            }
        }
    }
    println!("compared {} calls", tally.calls);
}
