//! Every call of the older edition of hints.

use super::{assert_met, judged_in, Judged, Tally, FEW_KEYS, OLD_HINTS};
use crate::library;

/// Puts one question to both readers, and counts how it was answered.
macro_rules! meet {
    ($tally:ident, $lent:expr, $call:ident $(, $argument:expr)*) => {{
        let told = ask!($tally, $lent, $call $(, $argument)*);
        *$tally.old_met.entry(told.kind).or_default() += 1;
        told
    }};
}

impl Tally {
    fn judge_old_hints(&mut self, p: &[u8]) -> Judged {
        let told = ask!(self, p, old_hints_judge);
        let is_canonical = ask!(self, p, old_hints_is_canonical);
        self.old_said.count(told, is_canonical)
    }

    /// Every question to a payload of older hints.
    pub fn old_hints(&mut self, p: &[u8]) {
        self.judge_old_hints(p);
        for function in FEW_KEYS {
            for offset in FEW_KEYS {
                meet!(self, p, old_hint, function, offset);
            }
        }
        rewrite!(self, p, old_hints_canonical);
        self.old_hints_listed(p);
    }

    /// The rewriting of a small payload of older hints into outputs of every length, up to one more than it needs.
    pub fn old_rewriting_of_every_length(&mut self, p: &[u8]) {
        let needed = second_reader::old_hints_canonical(p, &mut vec![0; p.len()]).length as usize;
        self.rewrite_into(
            "old_hints_canonical",
            p,
            &Vec::from_iter(0..=needed + 1),
            library::old_hints_canonical,
            second_reader::old_hints_canonical,
        );
    }

    /// Every question for older hints through a module.
    pub(super) fn old_module(&mut self, m: &[u8]) {
        for function in FEW_KEYS {
            for offset in FEW_KEYS {
                meet!(self, m, old_hint_in, function, offset);
            }
        }
    }

    /// How the older hints of a module are judged, as `judgement` says it of other sections.
    pub fn old_judgement(&mut self, m: &[u8]) -> Option<Judged> {
        let place = self.place(m, OLD_HINTS)?;
        let through = meet!(self, m, old_hint_in, 0, 0);
        let alone = self.judge_old_hints(&m[place.clone()]);
        Some(judged_in(m, place.start, through, alone))
    }

    /// Each of these ways to answer a question for an older hint was met so often at least.
    pub fn assert_old_met(&self, kinds: &[u32], least: u64) {
        assert_met(&self.old_met, kinds, least);
    }
}
