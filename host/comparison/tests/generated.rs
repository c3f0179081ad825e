//! Well-formed inputs made at random.

use comparison::library::{FOUND, LIKELY, NONE, NO_ENTRY, NO_GROUP, NO_SUBSECTION, UNLIKELY};
use comparison::made;
use comparison::markers::Markers;
use comparison::random::{seed, Random};
use comparison::spelling::{sized, unpadded};
use comparison::tally::{Tally, Way, LISTING, WIDE_QUESTIONS};

/// How many inputs of each kind are made.
const ROUNDS: u64 = 700;

/// How many of the accepted payloads are canonical at least, and how many are not.
const LEAST_OF_EACH: u64 = 200;

/// The same in the wider edition, which refuses more; and how often each of its questions is answered in each way.
const LEAST_WIDE: u64 = 50;

/// How many payloads, or subsections of them, have no rows at least.
const LEAST_WITHOUT_ROWS: u64 = 30;

/// How often each reason for no name is given at least. The fewest are those for maps without any index.
const LEAST_REASONS: u64 = 50;

#[test]
fn payloads_and_modules() {
    let mut r = Random::new(seed());
    let mut tally = Tally::default();
    for _ in 0..ROUNDS {
        let names = made::names(&mut r);
        tally.names(&names);
        let data = made::metadata(&mut r, false);
        tally.metadata(&data);
        let hints = made::metadata(&mut r, true);
        tally.metadata(&hints);
        let old_hints = made::old_hints(&mut r);
        tally.old_hints(&old_hints);
        let module = made::module(&mut r);
        tally.module(&module);
    }
    println!("compared {} calls", tally.calls);
    assert!(
        tally.calls >= 300_000,
        "only {} calls were compared",
        tally.calls
    );
    for said in [
        tally.names_said,
        tally.metadata_said,
        tally.hints_said,
        tally.old_said,
    ] {
        assert!(said.canonical >= LEAST_OF_EACH, "{said:?}");
        assert!(said.not_canonical >= LEAST_OF_EACH, "{said:?}");
    }
    tally.assert_old_met(&[NONE, UNLIKELY, LIKELY], LEAST_OF_EACH);
    let ways = [Way::Rows, Way::TooShort];
    tally.assert_rows_met(&LISTING, &ways, LEAST_OF_EACH);
    tally.assert_rows_met(&LISTING, &[Way::NoRows], LEAST_WITHOUT_ROWS);
    let told = [FOUND, NO_SUBSECTION, NO_GROUP, NO_ENTRY];
    tally.assert_why_met(&told, LEAST_REASONS);
    let said = tally.wide_said;
    let fewest = said.canonical.min(said.not_canonical);
    assert!(fewest >= LEAST_WIDE, "{said:?}");
    // Payloads that were made for the first edition are refused by the wider one, if they keep what is no map.
    tally.assert_wide_met(2 * WIDE_QUESTIONS, LEAST_WIDE);
}

/// Modules as they arrive: each is cut at every place, and some are damaged first.
#[test]
fn modules_as_they_arrive() {
    const LEAST: u64 = 50;
    let mut r = Random::new(seed());
    let mut tally = Tally::default();
    for _ in 0..ROUNDS {
        let mut module = made::module(&mut r);
        if r.once_in(3) {
            let at = r.below(module.len());
            module[at] = r.number() as u8;
        }
        tally.arrives_at_random(&module, &mut r);
        tally.arrives(&module);
    }
    println!("compared {} calls", tally.calls);
    tally.assert_streams_met(&[0, 1, 2, 4, 5], LEAST);
}

/// Payloads of either edition, each beside the one before, itself and nothing. Every third is damaged, so that each side is
/// refused, too.
#[test]
fn pairs() {
    const LEAST_OF_PAIRS: u64 = 20;
    let mut r = Random::new(seed());
    let mut tally = Tally::default();
    let mut before = vec![];
    for _ in 0..ROUNDS {
        let mut payload = made::names(&mut r);
        if r.once_in(3) && !payload.is_empty() {
            let at = r.below(payload.len());
            payload[at] = r.number() as u8;
        }
        tally.pair(&before, &payload);
        tally.beside_itself_and_nothing(&payload);
        before = payload;
    }
    println!("compared {} calls", tally.calls);
    tally.assert_pairs_met(LEAST_OF_PAIRS);
}

/// Many functions on each side, at indices of which some are in both.
#[test]
fn pairs_of_many_functions() {
    /// How many functions a payload has at most.
    const FUNCTIONS: usize = 80;
    let mut r = Random::new(seed());
    let mut tally = Tally::default();
    for _ in 0..ROUNDS {
        let [separate, own] = [FUNCTIONS; 2].map(|most| made::functions(&mut r, most + 1));
        tally.first_pair(&separate, &own);
    }
    println!("compared {} calls", tally.calls);
}

/// Many functions: every index is asked for by their own markers, and then by those of the payload before.
#[test]
fn markers_of_many_functions() {
    const LEAST_QUICK: u64 = 10_000;
    /// How many functions a payload has at most, and an index beyond all of them.
    const FUNCTIONS: usize = 80;
    const BEHIND_ALL: u32 = 3 * FUNCTIONS as u32 + 2;
    let mut r = Random::new(seed());
    let mut tally = Tally::default();
    let every = Vec::from_iter(0..=BEHIND_ALL);
    let mut before = Markers::new(&[], &[], 0);
    for _ in 0..ROUNDS {
        let payload = made::functions(&mut r, FUNCTIONS + 1);
        let markers = tally.own_markers(&payload, &every).expect("accepted");
        for function in (0..).take(FUNCTIONS) {
            tally.quick(&payload, &before, function);
        }
        let asked = [0, 1, r.below(FUNCTIONS) as u32, u32::MAX];
        tally.quick_by_damaged(&payload, &markers, &asked);
        before = markers;
    }
    println!("compared {} calls", tally.calls);
    tally.assert_quick_met(LEAST_QUICK);
}

#[test]
fn lists() {
    let mut r = Random::new(seed());
    let mut tally = Tally::default();
    for _ in 0..ROUNDS {
        let (indices, lengths, text) = made::lists(&mut r);
        tally.lists(&indices, &lengths, &text);
    }
    println!("compared {} calls", tally.calls);
    let said = tally.names_said;
    assert!(said.canonical >= LEAST_OF_EACH, "{said:?}");
    assert_eq!(said.not_canonical, 0, "written from lists");
}

/// A name of each length around the steps that a reader of text may take, with a fault at each place.
#[test]
fn long_texts() {
    let mut tally = Tally::default();
    for text in ["a", "é", "漢", "🦀"] {
        for count in 0..70 {
            let mut payload = vec![0];
            let name = text.repeat(count);
            let mut contents = sized(name.as_bytes(), &mut unpadded);
            payload.extend(sized(&contents, &mut unpadded));
            tally.names(&payload);
            if let Some(last) = contents.last_mut() {
                *last = 0xFF;
            }
            let mut damaged = vec![0];
            damaged.extend(sized(&contents, &mut unpadded));
            tally.names(&damaged);
        }
    }
    println!("compared {} calls", tally.calls);
}
