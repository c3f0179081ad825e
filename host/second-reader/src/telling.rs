//! Whether a payload is canonical, by the words of the rule: it is rewritten, and the two are
//! compared.

use crate::answer::{Answer, Kind};
use crate::canonical::{
    hints_canonical, metadata_canonical, names_canonical, wide_names_canonical,
};
use crate::older::old_hints_canonical;

/// Whether a name payload is accepted and equals its canonical rewriting.
#[must_use]
pub fn names_is_canonical(payload: &[u8]) -> bool {
    equals_its_rewriting(payload, names_canonical)
}

/// Whether a name payload is accepted by the wider edition and equals its canonical rewriting there.
#[must_use]
pub fn wide_names_is_canonical(payload: &[u8]) -> bool {
    equals_its_rewriting(payload, wide_names_canonical)
}

/// Whether a metadata payload of any format is accepted and equals its canonical rewriting.
#[must_use]
pub fn metadata_is_canonical(payload: &[u8]) -> bool {
    equals_its_rewriting(payload, metadata_canonical)
}

/// Whether a payload of branch hints is accepted and equals its canonical rewriting.
#[must_use]
pub fn hints_is_canonical(payload: &[u8]) -> bool {
    equals_its_rewriting(payload, hints_canonical)
}

/// Whether a payload of hints of the older edition is accepted and equals its canonical rewriting.
#[must_use]
pub fn old_hints_is_canonical(payload: &[u8]) -> bool {
    equals_its_rewriting(payload, old_hints_canonical)
}

/// A rewriting that does not fit into the payload's length is not equal to it, and is refused.
fn equals_its_rewriting(payload: &[u8], rewrite: fn(&[u8], &mut [u8]) -> Answer) -> bool {
    let mut rewritten = vec![0; payload.len()];
    let answer = rewrite(payload, &mut rewritten);
    rewritten.truncate(answer.length as usize);
    answer.kind == Kind::Found && rewritten == payload
}
