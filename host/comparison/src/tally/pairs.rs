//! Two name payloads: every question over them, held to what each of them answers alone, and what is joined of them.

use super::{assert_left, framed, Tally, FEW_KEYS, GUARD, IDS, KEYS, SPARE, UNTOUCHED};
use crate::library::{self, Told, ToldPair, FOUND, NOBODY, NONE, OWN, REFUSED, SEPARATE, YES};
use second_reader::PairAnswer;

/// How many questions there are to two payloads, in both editions.
const PAIR_QUESTIONS: usize = 7 + 13;

/// How many calls join, in both editions.
const PAIR_JOINS: usize = 2;

/// Two payloads, and what is joined of them, where both are accepted.
struct Two<'a> {
    separate: &'a [u8],
    own: &'a [u8],
    joined: Option<&'a [u8]>,
}

/// Puts one question to two payloads to both readers, and to each payload alone.
macro_rules! ask_two {
    ($tally:ident, $two:expr, $call:ident by $alone:ident $(, $argument:expr)*) => {
        $tally.ask_two(
            stringify!($call),
            $two,
            |separate, own| library::$call(separate, own $(, $argument)*),
            |separate, own| second_reader::$call(separate, own $(, $argument)*),
            |payload| library::$alone(payload $(, $argument)*),
        )
    };
}

/// Joins two payloads by both readers.
macro_rules! join_two {
    ($tally:ident, $separate:expr, $own:expr, $call:ident) => {
        $tally.join(
            stringify!($call),
            $separate,
            $own,
            library::$call,
            second_reader::$call,
        )
    };
}

impl Tally {
    /// Every question to two payloads, and what is joined of them, in each edition.
    pub fn pair(&mut self, separate: &[u8], own: &[u8]) {
        self.first_pair(separate, own);
        self.wide_pair(separate, own);
    }

    /// A payload on each side of another.
    pub fn both_ways(&mut self, one: &[u8], other: &[u8]) {
        self.pair(one, other);
        self.pair(other, one);
    }

    /// A payload beside itself, and on each side of nothing: with nothing it is joined to its rewriting.
    pub fn beside_itself_and_nothing(&mut self, p: &[u8]) {
        self.pair(p, p);
        for (separate, own) in [(p, &[][..]), (&[], p)] {
            let joined = self.first_pair(separate, own);
            assert_eq!(joined, rewritten(p, library::names_canonical), "{p:02X?}");
            let joined = self.wide_pair(separate, own);
            assert_eq!(
                joined,
                rewritten(p, library::wide_names_canonical),
                "{p:02X?}"
            );
        }
    }

    /// In the first edition. What is joined is handed back, where both payloads are accepted.
    pub fn first_pair(&mut self, separate: &[u8], own: &[u8]) -> Option<Vec<u8>> {
        let joined = join_two!(self, separate, own, pair_join);
        let two = &Two {
            separate,
            own,
            joined: joined.as_deref(),
        };
        two.assert_canonical(library::names_judge, library::names_is_canonical);
        ask_two!(self, two, pair_module_name by module_name);
        for key in KEYS {
            ask_two!(self, two, pair_function_name by function_name, key);
            ask_two!(self, two, pair_type_name by type_name, key);
            ask_two!(self, two, pair_tag_name by tag_name, key);
        }
        for key in FEW_KEYS {
            for inner in FEW_KEYS {
                ask_two!(self, two, pair_local_name by local_name, key, inner);
                ask_two!(self, two, pair_field_name by field_name, key, inner);
            }
        }
        for id in IDS {
            ask_two!(self, two, pair_kept by kept, id);
        }
        joined
    }

    /// The same in the wider edition.
    pub fn wide_pair(&mut self, separate: &[u8], own: &[u8]) -> Option<Vec<u8>> {
        let joined = join_two!(self, separate, own, wide_pair_join);
        let two = &Two {
            separate,
            own,
            joined: joined.as_deref(),
        };
        two.assert_canonical(library::wide_names_judge, library::wide_names_is_canonical);
        ask_two!(self, two, wide_pair_module_name by wide_module_name);
        for key in KEYS {
            ask_two!(self, two, wide_pair_function_name by wide_function_name, key);
            ask_two!(self, two, wide_pair_type_name by wide_type_name, key);
            ask_two!(self, two, wide_pair_table_name by wide_table_name, key);
            ask_two!(self, two, wide_pair_memory_name by wide_memory_name, key);
            ask_two!(self, two, wide_pair_global_name by wide_global_name, key);
            ask_two!(self, two, wide_pair_element_name by wide_element_name, key);
            ask_two!(self, two, wide_pair_data_name by wide_data_name, key);
            ask_two!(self, two, wide_pair_tag_name by wide_tag_name, key);
        }
        for key in FEW_KEYS {
            for inner in FEW_KEYS {
                ask_two!(self, two, wide_pair_local_name by wide_local_name, key, inner);
                ask_two!(self, two, wide_pair_label_name by wide_label_name, key, inner);
                ask_two!(self, two, wide_pair_field_name by wide_field_name, key, inner);
            }
        }
        for id in IDS {
            ask_two!(self, two, wide_pair_kept by wide_kept, id);
        }
        joined
    }

    fn ask_two(
        &mut self,
        call: &'static str,
        two: &Two<'_>,
        library: impl Fn(&[u8], &[u8]) -> ToldPair,
        reader: impl Fn(&[u8], &[u8]) -> PairAnswer,
        alone: impl Fn(&[u8]) -> Told,
    ) {
        let Two { separate, own, .. } = *two;
        let lent = (self.lent.lend(separate), self.also_lent.lend(own));
        let told = library(lent.0, lent.1);
        assert_eq!(lent, (separate, own), "{call} changed what was lent");
        let put = format_args!("{call} of {separate:02X?} and {own:02X?}");
        assert_eq!(told, reader(separate, own).into(), "{put}");
        assert_eq!(told, by_each(alone(separate), alone(own)), "{put}");
        if let Some(joined) = two.joined {
            let said = bytes_found(joined, alone(joined));
            assert_eq!(said, two.bytes_found(told), "joined, {put}");
        }
        self.meet_pair(call, told);
    }

    /// Joins two payloads into outputs of several lengths. What is joined is handed back, where both are accepted.
    fn join(
        &mut self,
        call: &'static str,
        separate: &[u8],
        own: &[u8],
        library: impl Fn(&[u8], &[u8], &mut [u8]) -> ToldPair,
        reader: impl Fn(&[u8], &[u8], &mut [u8]) -> PairAnswer,
    ) -> Option<Vec<u8>> {
        let enough = separate.len() + own.len();
        let mut joined = vec![0; enough];
        let read = reader(separate, own, &mut joined);
        let needed = read.length as usize;
        let short = needed.saturating_sub(1);
        for room in [0, short, needed, enough, enough + SPARE] {
            let lent = (self.lent.lend(separate), self.also_lent.lend(own));
            let framed = framed(&mut self.output, room);
            let told = library(lent.0, lent.1, &mut framed[GUARD..]);
            let mut expected = vec![UNTOUCHED; room];
            let answer = ToldPair::from(reader(separate, own, &mut expected));
            let put = format_args!("{call} of {separate:02X?} and {own:02X?} into {room}");
            assert_eq!(told, answer, "{put}");
            assert_left(framed, &expected, put);
            assert_eq!(lent, (separate, own), "{call} changed what was lent");
            self.meet_pair(call, told);
        }
        joined.truncate(needed);
        (ToldPair::from(read).kind == FOUND).then_some(joined)
    }

    fn meet_pair(&mut self, call: &'static str, told: ToldPair) {
        self.calls += 1;
        let met = self.pairs_met.entry((call, told.kind, told.whose));
        *met.or_default() += 1;
    }

    /// Each question to two payloads was answered by either of them, got none, and was refused for either of them, so often
    /// at least. So often, too, they were joined, were refused that, and had too short an output for it.
    pub fn assert_pairs_met(&self, least: u64) {
        let refused = [(REFUSED, SEPARATE), (REFUSED, OWN)];
        let asked = [(FOUND, SEPARATE), (FOUND, OWN), (NONE, NOBODY)];
        let joined = [(FOUND, NOBODY), (REFUSED, NOBODY)];
        let ways = PAIR_QUESTIONS * (asked.len() + refused.len())
            + PAIR_JOINS * (joined.len() + refused.len());
        assert_eq!(self.pairs_met.len(), ways, "{:?}", self.pairs_met);
        let fewest = self.pairs_met.iter().min_by_key(|(_, met)| **met);
        assert!(fewest.is_some_and(|(_, met)| *met >= least), "{fewest:?}");
    }
}

impl<'a> Two<'a> {
    /// What is joined is accepted, and is canonical.
    fn assert_canonical(&self, judge: fn(&[u8]) -> Told, is_canonical: fn(&[u8]) -> u32) {
        let Some(joined) = self.joined else {
            return;
        };
        let said = (judge(joined).kind, is_canonical(joined));
        assert_eq!(said, (FOUND, YES), "joined: {joined:02X?}");
    }

    /// The bytes that an answer gives, in the payload that supplied them.
    fn bytes_found(&self, told: ToldPair) -> Option<&'a [u8]> {
        let lent = match told.whose {
            SEPARATE => self.separate,
            _ => self.own,
        };
        bytes_found(lent, told.alone())
    }
}

fn bytes_found(lent: &[u8], told: Told) -> Option<&[u8]> {
    (told.kind == FOUND).then(|| &lent[told.offset as usize..][..told.length as usize])
}

/// What two payloads are to answer, by what each of them answers alone: a refusal goes before all, and the separate
/// payload before the other.
fn by_each(separate: Told, own: Told) -> ToldPair {
    let each = [(separate, SEPARATE), (own, OWN)];
    let first = |wanted: u32| each.iter().find(|(told, _)| told.kind == wanted);
    let none = (separate, NOBODY);
    let (told, whose) = *first(REFUSED).or_else(|| first(FOUND)).unwrap_or(&none);
    ToldPair::of(whose, told)
}

/// The rewriting of a payload, where it is accepted.
fn rewritten(p: &[u8], rewrite: fn(&[u8], &mut [u8]) -> Told) -> Option<Vec<u8>> {
    let mut out = vec![0; p.len()];
    let told = rewrite(p, &mut out);
    out.truncate(told.length as usize);
    (told.kind == FOUND).then_some(out)
}
