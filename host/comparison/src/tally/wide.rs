//! The wider edition of names: every call of it, and how often each question was answered in each way.

use super::{judged_in, Judged, Tally, FEW_KEYS, IDS, KEYS, NAMES};
use crate::library;
use crate::spelling::{sized, unpadded};

/// How many questions the wider edition has to a payload, and as many through a module.
pub const WIDE_QUESTIONS: usize = 13;

/// The id of the subsection with the names of globals.
const GLOBALS: u8 = 7;

/// Puts one question to both readers, and counts how it was answered.
macro_rules! meet {
    ($tally:ident, $lent:expr, $call:ident $(, $argument:expr)*) => {
        let told = ask!($tally, $lent, $call $(, $argument)*);
        $tally.wide_met.entry(stringify!($call)).or_default().count(told);
    };
}

impl Tally {
    fn judge_wide_names(&mut self, p: &[u8]) -> Judged {
        let told = ask!(self, p, wide_names_judge);
        let is_canonical = ask!(self, p, wide_names_is_canonical);
        self.wide_said.count(told, is_canonical)
    }

    /// Whether a text is one: what is said of the payload in which it is the name of a global.
    pub fn wide_text(&mut self, text: &[u8]) {
        let one_entry = [&[1, 0], &sized(text, &mut unpadded)[..]].concat();
        let payload = [&[GLOBALS], &sized(&one_entry, &mut unpadded)[..]].concat();
        self.judge_wide_names(&payload);
    }

    /// Every question of the wider edition to a name payload.
    pub fn wide_names(&mut self, p: &[u8]) {
        self.judge_wide_names(p);
        meet!(self, p, wide_module_name);
        for key in KEYS {
            meet!(self, p, wide_function_name, key);
            meet!(self, p, wide_type_name, key);
            meet!(self, p, wide_table_name, key);
            meet!(self, p, wide_memory_name, key);
            meet!(self, p, wide_global_name, key);
            meet!(self, p, wide_element_name, key);
            meet!(self, p, wide_data_name, key);
            meet!(self, p, wide_tag_name, key);
        }
        for key in FEW_KEYS {
            for inner in FEW_KEYS {
                meet!(self, p, wide_local_name, key, inner);
                meet!(self, p, wide_label_name, key, inner);
                meet!(self, p, wide_field_name, key, inner);
            }
        }
        for id in IDS {
            meet!(self, p, wide_kept, id);
        }
        rewrite!(self, p, wide_names_canonical);
        self.wide_names_listed(p);
    }

    /// Every question of the wider edition through a module.
    pub(super) fn wide_module(&mut self, m: &[u8]) {
        meet!(self, m, wide_module_name_in);
        for key in FEW_KEYS {
            meet!(self, m, wide_function_name_in, key);
            meet!(self, m, wide_type_name_in, key);
            meet!(self, m, wide_table_name_in, key);
            meet!(self, m, wide_memory_name_in, key);
            meet!(self, m, wide_global_name_in, key);
            meet!(self, m, wide_element_name_in, key);
            meet!(self, m, wide_data_name_in, key);
            meet!(self, m, wide_tag_name_in, key);
        }
        for key in [0, 3, 128] {
            for inner in [0, 1, u32::MAX] {
                meet!(self, m, wide_local_name_in, key, inner);
                meet!(self, m, wide_label_name_in, key, inner);
                meet!(self, m, wide_field_name_in, key, inner);
            }
        }
        for id in IDS {
            meet!(self, m, wide_kept_in, id);
        }
    }

    /// How the wider edition judges the names of a module, as `judgement` says it of the first.
    pub fn wide_judgement(&mut self, m: &[u8]) -> Option<Judged> {
        let place = self.place(m, NAMES)?;
        let through = ask!(self, m, wide_module_name_in);
        let alone = self.judge_wide_names(&m[place.clone()]);
        Some(judged_in(m, place.start, through, alone))
    }

    /// So many questions were put, and each found something, got none and was refused, so often at least.
    pub fn assert_wide_met(&self, questions: usize, least: u64) {
        assert_eq!(self.wide_met.len(), questions, "{:?}", self.wide_met);
        for (call, met) in &self.wide_met {
            let fewest = met.found.min(met.none).min(met.refused);
            assert!(fewest >= least, "{call}: {met:?}");
        }
    }
}
