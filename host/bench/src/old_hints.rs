//! Payloads of the older edition of hints: the same hints in order, shuffled, falling and nearly in order, in an entry for
//! each function or each in an entry of its own.

use comparison::random::Random;

use crate::bytes::number;

const FUNCTIONS: u32 = 1_000;
const BRANCHES: u32 = 100;
/// How far apart the branches of a function are.
const STRIDE: u32 = 19;

/// The branch with the greatest function and offset, which has a hint in each of these payloads.
pub const GREATEST_BRANCH: (u32, u32) = (FUNCTIONS - 1, BRANCHES * STRIDE);

/// What stands between the function of an entry and its hints.
const ZERO: u8 = 0;

/// A kind and an offset.
type Hint = (u32, u32);

/// A function and its hints.
type Entry = (u32, Vec<Hint>);

/// The canonical payload.
pub fn in_order(r: &mut Random) -> Vec<u8> {
    payload(&entries(r))
}

/// Its entries and the hints of each in no order.
pub fn shuffled(r: &mut Random) -> Vec<u8> {
    let mut entries = entries(r);
    for (_, hints) in &mut entries {
        shuffle(r, hints);
    }
    shuffle(r, &mut entries);
    payload(&entries)
}

/// Each hint in an entry of its own, and these in no order.
pub fn apart_shuffled(r: &mut Random) -> Vec<u8> {
    let mut entries = apart(entries(r));
    shuffle(r, &mut entries);
    payload(&entries)
}

/// Its entries and the hints of each in falling order.
pub fn falling(r: &mut Random) -> Vec<u8> {
    let mut entries = entries(r);
    for (_, hints) in &mut entries {
        hints.reverse();
    }
    entries.reverse();
    payload(&entries)
}

/// Each hint in an entry of its own, and these in falling order.
pub fn apart_falling(r: &mut Random) -> Vec<u8> {
    let mut entries = apart(entries(r));
    entries.reverse();
    payload(&entries)
}

/// In order but for the first two entries, which stand the other way round. The rewriting takes the greatest hints first,
/// so that each hint of such a payload is greater than those that it holds: no order is dearer.
pub fn nearly_rising(r: &mut Random) -> Vec<u8> {
    let mut entries = entries(r);
    entries.swap(0, 1);
    payload(&entries)
}

fn entries(r: &mut Random) -> Vec<Entry> {
    let hints = |r: &mut Random| {
        let branches = 1..=BRANCHES;
        branches
            .map(|branch| (r.below(2) as u32, branch * STRIDE))
            .collect()
    };
    (0..FUNCTIONS)
        .map(|function| (function, hints(r)))
        .collect()
}

fn apart(entries: Vec<Entry>) -> Vec<Entry> {
    let alone = |(function, hints): Entry| {
        let hints = hints.into_iter();
        hints.map(move |hint| (function, vec![hint]))
    };
    entries.into_iter().flat_map(alone).collect()
}

/// Every order is as likely as any other, as far as the generator is fair.
fn shuffle<T>(r: &mut Random, items: &mut [T]) {
    for last in (1..items.len()).rev() {
        items.swap(last, r.below(last + 1));
    }
}

fn payload(entries: &[Entry]) -> Vec<u8> {
    let mut bytes = number(entries.len());
    for (function, hints) in entries {
        bytes.extend(number(*function as usize));
        bytes.push(ZERO);
        bytes.extend(number(hints.len()));
        for (kind, offset) in hints {
            bytes.extend(number(*kind as usize));
            bytes.extend(number(*offset as usize));
        }
    }
    bytes
}

#[cfg(test)]
mod tests {
    use super::*;
    use comparison::library::{self, NONE};

    const MAKE: [fn(&mut Random) -> Vec<u8>; 6] = [
        in_order,
        shuffled,
        apart_shuffled,
        falling,
        apart_falling,
        nearly_rising,
    ];

    fn canonical(payload: &[u8]) -> Vec<u8> {
        let mut out = vec![0; payload.len()];
        let told = second_reader::old_hints_canonical(payload, &mut out);
        out.truncate(told.length as usize);
        out
    }

    /// The hints of one seed are the same in all orders that take nothing from the generator before they are made.
    #[test]
    fn each_order_has_the_same_hints() {
        let whole = in_order(&mut Random::new(1));
        for make in MAKE {
            let payload = make(&mut Random::new(1));
            assert_eq!(canonical(&payload), whole);
        }
    }

    #[test]
    fn orders_differ() {
        let all = MAKE.map(|make| make(&mut Random::new(1)));
        for (at, one) in all.iter().enumerate() {
            assert!(all[at + 1..].iter().all(|other| other != one));
        }
    }

    #[test]
    fn the_greatest_branch_has_a_hint() {
        let (function, offset) = GREATEST_BRANCH;
        for make in MAKE {
            let payload = make(&mut Random::new(1));
            let hint = |function, offset| library::old_hint(&payload, function, offset).kind;
            assert_ne!(hint(function, offset), NONE);
            assert_eq!(hint(function, offset + STRIDE), NONE);
            assert_eq!(hint(function + 1, STRIDE), NONE);
        }
    }
}
