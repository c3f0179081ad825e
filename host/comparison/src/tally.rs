//! One call put to both readers, what they answer and leave compared, and counted.

use std::collections::BTreeMap;
use std::fmt;
use std::ops::Range;

use crate::guarded::{Guarded, Number};
use crate::library::{self, Told, FOUND, NONE, REFUSED, YES};
use second_reader::Answer;

/// The name of the section with names.
pub const NAMES: &[u8] = b"name";

/// The name of the section with branch hints.
pub const HINTS: &[u8] = b"metadata.code.branch_hint";

/// The name of the section with hints of the older edition.
pub const OLD_HINTS: &[u8] = b"branchHints";

/// How the names of sections with code metadata start.
const METADATA: &[u8] = b"metadata.code.";

/// More than any input or output of the tests takes.
const ROOM: usize = 1 << 20;

/// Bytes before an output that must stay as they are.
pub(crate) const GUARD: usize = 32;
pub(crate) const GUARD_BYTE: u8 = 0xA5;

/// What an output holds before a call.
pub(crate) const UNTOUCHED: u8 = 0xEE;

/// By how much an output is longer than it ever needs to be.
const SPARE: usize = 7;

/// More than the index and the length of a name take, and more than is written before the first name.
const MOST_BESIDE_TEXT: usize = 16;

/// Of so many sections each is asked for; of more, the first.
const SECTIONS_ASKED: u64 = 12;

/// How many positions behind them are asked for too.
const POSITIONS_BEHIND: u64 = 2;

/// A text whose length is a number of one byte, as that of the subsection which it fills.
pub const SHORT_TEXT: usize = 126;

/// How many calls are put for one text.
pub const CALLS_OF_A_TEXT: u64 = 2;

/// Indices and offsets that are asked for; the made payloads use them too.
pub const KEYS: [u32; 8] = [0, 1, 2, 3, 127, 128, 300, u32::MAX];

/// Fewer of them, for questions with two.
pub const FEW_KEYS: [u32; 5] = [0, 1, 3, 128, u32::MAX];

/// Ids that are asked for as kept: all that an edition knows, and two more.
pub const IDS: [u8; 14] = [0, 1, 2, 3, 4, 5, 6, 7, 8, 9, 10, 11, 12, 255];

/// Counts the calls that agreed, and holds the memory that is lent.
pub struct Tally {
    /// How many calls agreed.
    pub calls: u64,
    /// What they said of name payloads, by the first edition.
    pub names_said: Said,
    /// How often each call that lists rows was answered in each way.
    pub rows_met: BTreeMap<(&'static str, Way), u64>,
    /// How often it was said why there is no name, by the names of the calls and the kinds of the answers.
    pub why_met: BTreeMap<(&'static str, u32), u64>,
    /// How often a map without the index was met, by whether it has one below and one above.
    pub neighbours_met: BTreeMap<(u32, u32), u64>,
    /// What the quick question was answered.
    pub quick_met: Met,
    /// What they said of name payloads, by the wider edition.
    pub wide_said: Said,
    /// What the questions of the wider edition were answered, by the names of the calls.
    pub wide_met: BTreeMap<&'static str, Met>,
    /// How often questions to two payloads, and joins of them, were answered in each way, by the names of the calls, the
    /// kinds of the answers and whose they are.
    pub pairs_met: BTreeMap<(&'static str, u32, u64), u64>,
    /// How often modules that arrived in parts were to be accepted, which is 0 here, or refused, by the refusal numbers.
    pub streams_met: BTreeMap<u32, u64>,
    /// How often hints of a module were to be accepted as standing on branches, which is 0 here, or refused, by the
    /// refusal numbers.
    pub branches_met: BTreeMap<u32, u64>,
    /// What they said of metadata payloads, by the rules for any format.
    pub metadata_said: Said,
    /// What they said of metadata payloads, by the rules for hints.
    pub hints_said: Said,
    /// What they said of payloads of older hints.
    pub old_said: Said,
    /// How often the questions for older hints were answered in each way, by the kinds of the answers.
    pub old_met: BTreeMap<u32, u64>,
    lent: Guarded,
    also_lent: Guarded,
    text: Guarded,
    output: Guarded,
    also_output: Guarded,
}

impl Default for Tally {
    fn default() -> Self {
        Tally {
            calls: 0,
            names_said: Said::default(),
            rows_met: BTreeMap::new(),
            why_met: BTreeMap::new(),
            neighbours_met: BTreeMap::new(),
            quick_met: Met::default(),
            wide_said: Said::default(),
            wide_met: BTreeMap::new(),
            pairs_met: BTreeMap::new(),
            streams_met: BTreeMap::new(),
            branches_met: BTreeMap::new(),
            metadata_said: Said::default(),
            hints_said: Said::default(),
            old_said: Said::default(),
            old_met: BTreeMap::new(),
            lent: Guarded::new(ROOM),
            also_lent: Guarded::new(ROOM),
            text: Guarded::new(ROOM),
            output: Guarded::new(ROOM),
            also_output: Guarded::new(ROOM),
        }
    }
}

/// How often it was said of an accepted payload that it is canonical, and how often that it is not.
#[derive(Clone, Copy, Debug, Default, PartialEq, Eq)]
pub struct Said {
    /// How many accepted payloads are canonical.
    pub canonical: u64,
    /// How many accepted payloads are not.
    pub not_canonical: u64,
}

impl Said {
    fn count(&mut self, told: Told, is_canonical: u32) -> Judged {
        let canonical = is_canonical == YES;
        match (told.kind, canonical) {
            (REFUSED, _) => {}
            (_, true) => self.canonical += 1,
            (_, false) => self.not_canonical += 1,
        }
        Judged { told, canonical }
    }
}

/// How often a question was answered in each way.
#[derive(Clone, Copy, Debug, Default)]
pub struct Met {
    /// With a name, or with what is kept.
    pub found: u64,
    /// With none.
    pub none: u64,
    /// With a refusal.
    pub refused: u64,
}

impl Met {
    fn count(&mut self, told: Told) {
        match told.kind {
            NONE => self.none += 1,
            REFUSED => self.refused += 1,
            _ => self.found += 1,
        }
    }
}

/// What both readers say of a payload.
#[derive(Clone, Copy)]
pub struct Judged {
    /// The judgement.
    pub told: Told,
    /// Whether it is canonical.
    pub canonical: bool,
}

/// Puts one question to both readers.
macro_rules! ask {
    ($tally:ident, $lent:expr, $call:ident $(, $argument:expr)*) => {
        $tally.ask(
            stringify!($call $(, $argument)*),
            $lent,
            |lent| library::$call(lent $(, $argument)*),
            |lent| second_reader::$call(lent $(, $argument)*),
        )
    };
}

/// Puts one rewriting to both readers, with outputs of several lengths.
macro_rules! rewrite {
    ($tally:ident, $lent:expr, $call:ident) => {
        $tally.rewrite(
            stringify!($call),
            $lent,
            library::$call,
            second_reader::$call,
        )
    };
}

// They stand behind the macros, which they use.
mod branches;
mod markers;
mod older;
mod pairs;
mod rows;
mod streams;
mod why;
mod wide;

pub use rows::{Way, LISTING};
pub use wide::WIDE_QUESTIONS;

impl Tally {
    fn ask<Answered: Copy + fmt::Debug + PartialEq, Read: Into<Answered>>(
        &mut self,
        call: &str,
        bytes: &[u8],
        library: impl Fn(&[u8]) -> Answered,
        reader: impl Fn(&[u8]) -> Read,
    ) -> Answered {
        let lent = self.lent.lend(bytes);
        let told = library(lent);
        assert_eq!(lent, bytes, "{call} changed what was lent");
        assert_eq!(told, reader(bytes).into(), "{call} of {bytes:02X?}");
        self.calls += 1;
        told
    }

    fn judge_names(&mut self, p: &[u8]) -> Judged {
        let told = ask!(self, p, names_judge);
        let is_canonical = ask!(self, p, names_is_canonical);
        self.names_said.count(told, is_canonical)
    }

    fn judge_metadata(&mut self, p: &[u8]) -> Judged {
        let told = ask!(self, p, metadata_judge);
        let is_canonical = ask!(self, p, metadata_is_canonical);
        self.metadata_said.count(told, is_canonical)
    }

    fn judge_hints(&mut self, p: &[u8]) -> Judged {
        let told = ask!(self, p, hints_judge);
        let is_canonical = ask!(self, p, hints_is_canonical);
        self.hints_said.count(told, is_canonical)
    }

    /// Whether a short text is one: what is said of the payload whose module name it is.
    pub fn text(&mut self, text: &[u8]) {
        let mut payload = [0; SHORT_TEXT + 3];
        let length = u8::try_from(text.len()).expect("a short text");
        payload[1] = length + 1;
        payload[2] = length;
        payload[3..text.len() + 3].copy_from_slice(text);
        self.judge_names(&payload[..text.len() + 3]);
    }

    /// Every question to a name payload, in each edition.
    pub fn names(&mut self, p: &[u8]) {
        self.first_names(p);
        self.wide_names(p);
    }

    /// Every question of the first edition to a name payload.
    pub fn first_names(&mut self, p: &[u8]) {
        self.judge_names(p);
        self.own_markers(p, &KEYS);
        ask!(self, p, module_name);
        for key in KEYS {
            let name = ask!(self, p, function_name, key);
            self.why_function(p, key, name);
            ask!(self, p, type_name, key);
            ask!(self, p, tag_name, key);
        }
        for key in FEW_KEYS {
            for inner in FEW_KEYS {
                let name = ask!(self, p, local_name, key, inner);
                self.why_local(p, key, inner, name);
                ask!(self, p, field_name, key, inner);
            }
        }
        for id in IDS {
            ask!(self, p, kept, id);
        }
        rewrite!(self, p, names_canonical);
        self.names_listed(p);
    }

    /// Every question to a metadata payload.
    pub fn metadata(&mut self, p: &[u8]) {
        self.judge_metadata(p);
        self.judge_hints(p);
        for key in FEW_KEYS {
            for inner in FEW_KEYS {
                ask!(self, p, metadata, key, inner);
                ask!(self, p, hint, key, inner);
            }
        }
        rewrite!(self, p, metadata_canonical);
        rewrite!(self, p, hints_canonical);
        self.metadata_listed(p);
    }

    /// Every question to a module.
    pub fn module(&mut self, m: &[u8]) {
        let sections = ask!(self, m, walk).length;
        for position in 0..sections.min(SECTIONS_ASKED) + POSITIONS_BEHIND {
            ask!(self, m, section, position);
        }
        ask!(self, m, section, u64::MAX);
        for name in [NAMES, HINTS, OLD_HINTS, b"metadata.code.x", b"x", b""] {
            ask!(self, m, custom, name);
        }
        ask!(self, m, module_name_in);
        for key in FEW_KEYS {
            ask!(self, m, function_name_in, key);
            ask!(self, m, type_name_in, key);
            ask!(self, m, tag_name_in, key);
        }
        for id in IDS {
            ask!(self, m, kept_in, id);
        }
        for key in [0, 3, 128] {
            for inner in [0, 1, u32::MAX] {
                ask!(self, m, local_name_in, key, inner);
                ask!(self, m, field_name_in, key, inner);
                ask!(self, m, hint_in, key, inner);
                for format in [&b"branch_hint"[..], b"x", b""] {
                    ask!(self, m, metadata_in, format, key, inner);
                }
            }
        }
        self.wide_module(m);
        self.old_module(m);
        self.on_branches(m);
    }

    /// How a custom section of a module is judged, put through the module and on its own, with the offset from the
    /// start of the module; none without the section. Names are judged by the first edition.
    pub fn judgement(&mut self, m: &[u8], section: &[u8]) -> Option<Judged> {
        let place = self.place(m, section)?;
        let payload = &m[place.clone()];
        let (through, alone) = match section {
            NAMES => (ask!(self, m, module_name_in), self.judge_names(payload)),
            HINTS => (ask!(self, m, hint_in, 0, 0), self.judge_hints(payload)),
            _ => {
                let format = section
                    .strip_prefix(METADATA)
                    .expect("a section with a judgement");
                (
                    ask!(self, m, metadata_in, format, 0, 0),
                    self.judge_metadata(payload),
                )
            }
        };
        Some(judged_in(m, place.start, through, alone))
    }

    /// Where the payload of a custom section lies in a module.
    fn place(&mut self, m: &[u8], section: &[u8]) -> Option<Range<usize>> {
        let place = ask!(self, m, custom, section);
        let (start, length) = (place.offset as usize, place.length as usize);
        (place.kind == FOUND).then(|| start..start + length)
    }

    fn rewrite(
        &mut self,
        call: &str,
        bytes: &[u8],
        library: impl Fn(&[u8], &mut [u8]) -> Told,
        reader: impl Fn(&[u8], &mut [u8]) -> Answer,
    ) {
        let needed = reader(bytes, &mut vec![0; bytes.len()]).length as usize;
        let rooms = [
            0,
            needed.saturating_sub(1),
            needed,
            bytes.len(),
            bytes.len() + SPARE,
        ];
        self.rewrite_into(call, bytes, &rooms, library, reader);
    }

    fn rewrite_into(
        &mut self,
        call: &str,
        bytes: &[u8],
        rooms: &[usize],
        library: impl Fn(&[u8], &mut [u8]) -> Told,
        reader: impl Fn(&[u8], &mut [u8]) -> Answer,
    ) {
        for &room in rooms {
            let lent = self.lent.lend(bytes);
            let framed = framed(&mut self.output, room);
            let told = library(lent, &mut framed[GUARD..]);
            let mut expected = vec![UNTOUCHED; room];
            let answer = Told::from(reader(bytes, &mut expected));
            let put = format_args!("{call} of {bytes:02X?} into {room}");
            assert_eq!(told, answer, "{put}");
            assert_left(framed, &expected, put);
            assert_eq!(lent, bytes, "{call} changed what was lent");
            self.calls += 1;
        }
    }

    /// Function names from lists, with outputs of several lengths; what was written is read back by both.
    pub fn lists(&mut self, indices: &[u32], lengths: &[u32], text: &[u8]) {
        let most = MOST_BESIDE_TEXT * (indices.len() + 1) + text.len();
        let needed = second_reader::function_names_write(indices, lengths, text, &mut vec![0; most])
            .length as usize;
        for room in [0, needed.saturating_sub(1), needed, most] {
            if let Some(written) = self.lists_into(indices, lengths, text, room) {
                self.names(&written);
            }
        }
    }

    /// Function names from lists, with one output, and what was written into it.
    fn lists_into(
        &mut self,
        indices: &[u32],
        lengths: &[u32],
        text: &[u8],
        room: usize,
    ) -> Option<Vec<u8>> {
        let lent = self.lent.lend_numbers(indices);
        let also_lent = self.also_lent.lend_numbers(lengths);
        let joined = self.text.lend(text);
        let framed = framed(&mut self.output, room);
        let told = library::function_names_write(lent, also_lent, joined, &mut framed[GUARD..]);
        let mut expected = vec![UNTOUCHED; room];
        let read = second_reader::function_names_write(indices, lengths, text, &mut expected);
        let put = format_args!("{indices:?} {lengths:?} {text:02X?} into {room}");
        assert_eq!(told, Told::from(read), "{put}");
        assert_left(framed, &expected, put);
        assert_eq!(
            (lent, also_lent, joined),
            (indices, lengths, text),
            "what was lent changed"
        );
        self.calls += 1;
        (told.kind == FOUND).then(|| expected[..told.length as usize].to_vec())
    }
}

/// What is said of a payload on its own, with the offset from the start of its module. A question through the module is
/// refused if the payload is, and alike.
fn judged_in(m: &[u8], start: usize, through: Told, alone: Judged) -> Judged {
    let mut judged = alone;
    if judged.told.kind == REFUSED {
        judged.told.offset += start as u64;
        assert_eq!(through, judged.told, "a refusal in {m:02X?}");
    } else {
        assert_ne!(through.kind, REFUSED, "only through its module: {m:02X?}");
    }
    judged
}

/// Each of these numbers was met so often at least.
fn assert_met(met: &BTreeMap<u32, u64>, wanted: &[u32], least: u64) {
    for number in wanted {
        let times = met.get(number).copied().unwrap_or_default();
        assert!(times >= least, "{number} in {met:?}");
    }
}

/// An output of a length, untouched, with guard bytes before it and nothing mapped behind it.
pub(crate) fn framed(output: &mut Guarded, room: usize) -> &mut [u8] {
    let framed = output.last(GUARD + room);
    framed.fill(UNTOUCHED);
    framed[..GUARD].fill(GUARD_BYTE);
    framed
}

/// The output holds what is expected, and the guard bytes are as they were.
fn assert_left(framed: &[u8], expected: &[u8], put: fmt::Arguments<'_>) {
    assert_eq!(guarded_output(framed, put), expected, "the output of {put}");
}

/// What a list of a length holds before a call.
fn untouched<N: Number>(room: usize) -> Vec<N> {
    vec![N::of_bytes(UNTOUCHED); room]
}

/// A list of a length, untouched, with guard numbers before it and nothing mapped behind it.
fn framed_numbers<N: Number>(output: &mut Guarded, room: usize) -> &mut [N] {
    let framed = output.last_numbers(GUARD + room);
    framed.fill(N::of_bytes(UNTOUCHED));
    framed[..GUARD].fill(N::of_bytes(GUARD_BYTE));
    framed
}

/// The list holds what is expected, and the guard numbers are as they were.
fn assert_numbers_left<N: Number>(framed: &[N], expected: &[N], put: fmt::Arguments<'_>) {
    let (guard, list) = framed.split_at(GUARD);
    assert_eq!(list, expected, "a list of {put}");
    let unchanged = guard.iter().all(|it| *it == N::of_bytes(GUARD_BYTE));
    assert!(unchanged, "written before a list of {put}");
}

/// The output, whose guard bytes are as they were.
pub(crate) fn guarded_output<'f>(framed: &'f [u8], put: fmt::Arguments<'_>) -> &'f [u8] {
    let (guard, output) = framed.split_at(GUARD);
    assert!(
        guard.iter().all(|byte| *byte == GUARD_BYTE),
        "written before the output of {put}"
    );
    output
}
