//! Whether the hints of a module stand on branches.

use super::{assert_met, Tally};
use crate::library::{self, Told};

impl Tally {
    /// Whether every hint of a module stands on a branch.
    pub fn on_branches(&mut self, m: &[u8]) -> Told {
        let told = ask!(self, m, hints_on_branches);
        *self.branches_met.entry(told.code).or_default() += 1;
        told
    }

    /// Modules were accepted, which is 0 here, and refused with each of these numbers, so often at least.
    pub fn assert_branches_met(&self, codes: &[u32], least: u64) {
        assert_met(&self.branches_met, codes, least);
    }
}
