//! Why functions and locals have no names: each call is put with the question for the name, and held to its answer.

use super::Tally;
use crate::library::{
    self, Told, ToldWhy, FOUND, NONE, NO_ENTRY, NO_GROUP, NO_SUBSECTION, REFUSED,
};

/// The calls, as they are counted.
const CALLS: [&str; 2] = [FUNCTION, LOCAL];
const FUNCTION: &str = "why_function";
const LOCAL: &str = "why_local";

impl Tally {
    /// Why a function has no name, where the question for the name was answered so.
    pub(super) fn why_function(&mut self, p: &[u8], function: u32, name: Told) {
        let why = ask!(self, p, why_function, function);
        self.meet_why(FUNCTION, why);
        assert_fits(p, name, why);
    }

    /// Why a local has no name, where the question for the name was answered so.
    pub(super) fn why_local(&mut self, p: &[u8], function: u32, local: u32, name: Told) {
        let why = ask!(self, p, why_local, function, local);
        self.meet_why(LOCAL, why);
        assert_fits(p, name, why);
    }

    fn meet_why(&mut self, call: &'static str, why: ToldWhy) {
        *self.why_met.entry((call, why.kind)).or_default() += 1;
        if why.kind == NO_ENTRY {
            let neighbours = (why.has_below, why.has_above);
            *self.neighbours_met.entry(neighbours).or_default() += 1;
        }
    }

    /// Each call was answered in each of these ways so often at least. So often, too, a map without the index had one
    /// below it, one above it, both, and none.
    pub fn assert_why_met(&self, kinds: &[u32], least: u64) {
        for call in CALLS {
            for kind in kinds.iter().filter(|kind| is_said(call, **kind)) {
                let met = self.why_met.get(&(call, *kind)).copied();
                assert!(met >= Some(least), "{call} {kind}: {:?}", self.why_met);
            }
        }
        for neighbours in [(0, 0), (0, 1), (1, 0), (1, 1)] {
            let met = self.neighbours_met.get(&neighbours).copied();
            assert!(met >= Some(least), "{:?}", self.neighbours_met);
        }
    }
}

/// A function is in no group.
fn is_said(call: &str, kind: u32) -> bool {
    (call, kind) != (FUNCTION, NO_GROUP)
}

/// A reason is given exactly where there is no name, and a refusal is that of the question.
fn assert_fits(p: &[u8], name: Told, why: ToldWhy) {
    let fits = match name.kind {
        NONE => [NO_SUBSECTION, NO_GROUP, NO_ENTRY].contains(&why.kind),
        REFUSED => (why.kind, why.code, why.offset) == (REFUSED, name.code, name.offset),
        _ => why.kind == FOUND,
    };
    assert!(fits, "{name:?} and {why:?} of {p:02X?}");
}
