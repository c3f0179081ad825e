//! Canonical payloads, and what one padded number or one empty list makes of them.

use comparison::held::{Held, FIRST, WIDER};
use comparison::library::{
    hints_canonical, metadata_canonical, names_canonical, old_hints_canonical,
    wide_names_canonical, Told,
};
use comparison::made;
use comparison::random::{seed, Random};
use comparison::spelling::unpadded;
use comparison::tally::{Said, Tally};

/// How many canonical payloads are made of each kind; each gives many others.
const PAYLOADS: usize = 40;

/// Fewer others than these would show that some of them are no longer made.
const FEWEST_OTHERS: usize = 150;

/// What payloads hold that have no empty list.
fn held<Of: Held>(make: fn(&mut Random) -> Of) -> Vec<Of> {
    let mut r = Random::new(seed());
    let made = std::iter::repeat_with(|| make(&mut r).without_empty_lists());
    made.take(PAYLOADS).collect()
}

/// The payloads as they are, with one number padded, and with an empty list.
fn payloads(held: &[impl Held]) -> [Vec<Vec<u8>>; 3] {
    let canonical = held.iter().map(|held| held.spelled(&mut unpadded));
    let padded = held.iter().flat_map(Held::with_one_padded);
    let with_empty = held.iter().flat_map(Held::with_an_empty_list);
    let with_empty = with_empty.map(|held| held.spelled(&mut unpadded));
    [canonical.collect(), padded.collect(), with_empty.collect()]
}

/// Every call on payloads of one kind: all are accepted, and just those that were not changed are canonical.
fn compare<Of: Held>(
    make: fn(&mut Random) -> Of,
    put: fn(&mut Tally, &[u8]),
    said: fn(&Tally) -> Said,
) {
    let told = |payloads: &[Vec<u8>]| {
        let mut tally = Tally::default();
        payloads.iter().for_each(|payload| put(&mut tally, payload));
        println!("compared {} calls", tally.calls);
        let Said {
            canonical,
            not_canonical,
        } = said(&tally);
        (canonical as usize, not_canonical as usize)
    };
    let [canonical, padded, with_empty] = payloads(&held(make));
    assert_eq!(told(&canonical), (PAYLOADS, 0));
    for others in [padded, with_empty] {
        assert!(others.len() >= FEWEST_OTHERS, "only {}", others.len());
        assert_eq!(told(&others), (0, others.len()));
    }
}

/// Whatever else says the same is longer than the canonical payload, and comes to it.
fn others_are_longer<Of: Held>(make: fn(&mut Random) -> Of, rewrite: fn(&[u8], &mut [u8]) -> Told) {
    let mut others = 0;
    for held in held(make) {
        let [canonical, padded, with_empty] = payloads(&[held]);
        for other in padded.iter().chain(&with_empty) {
            let mut out = vec![0; other.len()];
            let length = rewrite(other, &mut out).length as usize;
            assert_eq!(out[..length], canonical[0], "{other:02X?}");
            assert!(length < other.len(), "{other:02X?}");
            others += 1;
        }
    }
    assert!(others >= FEWEST_OTHERS, "only {others}");
}

#[test]
fn names() {
    let make = |r: &mut Random| made::held_names(r, &FIRST);
    compare(make, Tally::first_names, |tally| tally.names_said);
    others_are_longer(make, names_canonical);
}

#[test]
fn names_of_the_wider_edition() {
    let make = |r: &mut Random| made::held_names(r, &WIDER);
    compare(make, Tally::wide_names, |tally| tally.wide_said);
    others_are_longer(make, wide_names_canonical);
}

#[test]
fn metadata() {
    let make = |r: &mut Random| made::held_metadata(r, false);
    compare(make, Tally::metadata, |tally| tally.metadata_said);
    others_are_longer(make, metadata_canonical);
}

#[test]
fn hints() {
    let make = |r: &mut Random| made::held_metadata(r, true);
    compare(make, Tally::metadata, |tally| tally.hints_said);
    others_are_longer(make, hints_canonical);
}

#[test]
fn old_hints() {
    let make = |r: &mut Random| made::held_old_hints(r).in_order();
    compare(make, Tally::old_hints, |tally| tally.old_said);
}

/// Older hints in no order, or said more than once: none is canonical, and each comes to the same canonical payload, which
/// none is shorter than, and some are as long as.
#[test]
fn old_hints_out_of_order() {
    let mut tally = Tally::default();
    let mut others = 0;
    let mut as_long = 0;
    for held in held(|r| made::held_old_hints(r).in_order()) {
        let canonical = held.spelled(&mut unpadded);
        for other in held.out_of_order() {
            let payload = other.spelled(&mut unpadded);
            tally.old_hints(&payload);
            let mut out = vec![0; payload.len()];
            let told = old_hints_canonical(&payload, &mut out);
            assert_eq!(out[..told.length as usize], canonical, "{payload:02X?}");
            assert!(canonical.len() <= payload.len(), "{payload:02X?}");
            as_long += usize::from(canonical.len() == payload.len());
            others += 1;
        }
    }
    println!("compared {} calls", tally.calls);
    assert!(others >= FEWEST_OTHERS as u64, "only {others}");
    assert!(as_long > 0, "none is as long");
    let said = tally.old_said;
    assert_eq!((said.canonical, said.not_canonical), (0, others));
}

/// The rewriting takes 2,048 hints in one pass: around that number, and several times as many, with pairs that come again
/// in another pass, of one function, of some and of many.
#[test]
fn old_hints_of_several_passes() {
    let mut r = Random::new(seed());
    let mut tally = Tally::default();
    for hints in [2_047, 2_048, 2_049, 4_096, 5_000] {
        for (functions, offsets) in [(1, 20_000), (40, 100), (5_000, 3)] {
            let held = made::many_old_hints(&mut r, hints, functions, offsets);
            tally.old_hints(&held.spelled(&mut unpadded));
        }
    }
    println!("compared {} calls", tally.calls);
    assert_eq!(tally.old_said.not_canonical, 15);
}

#[test]
fn old_hints_into_outputs_of_every_length() {
    let mut r = Random::new(seed());
    let mut tally = Tally::default();
    for _ in 0..PAYLOADS {
        let payload = made::old_hints(&mut r);
        tally.old_rewriting_of_every_length(&payload);
        // What is refused is refused whatever the output's length.
        tally.old_rewriting_of_every_length(&[&payload[..], &[0]].concat());
    }
    println!("compared {} calls", tally.calls);
}
