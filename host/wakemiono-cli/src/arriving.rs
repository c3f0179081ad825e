//! A module that is read in parts and not held whole: what the library says of it, and the few of its
//! bytes that are shown or judged.

use std::ffi::OsStr;
use std::io::{self, BufReader, Read, Write};
use std::ops::Range;

use wakemiono::{Place, Refusal, Stream, Walked};

use crate::edition::Edition;
use crate::excerpt::Excerpt;
use crate::heads::{Head, Section, ShownName, CODE, CUSTOM, FRONT_WITH_NAME, IMPORT};
use crate::input::Source;
use crate::json::Json;
use crate::payloads::HINTS;
use crate::refused::Refused;
use crate::report::Failure;
use crate::sparse::Sparse;

/// How many bytes are read at once: as many as a pipe holds.
const PART: usize = 1 << 16;

/// How many bytes a module has before its sections.
const PREAMBLE_LENGTH: u64 = 8;

/// How many bytes of contents that are left out are kept at each end. All that a refusal shows lies as
/// near to a head or a payload: three rows of a dump, and what a head has. At the front of custom contents
/// more are kept, for the name.
const NEAR: u64 = 64;

/// A module has no more sections than this that are not custom, since each id occurs once.
const MOST_NOT_CUSTOM: usize = 13;

/// What is kept whole, of each the first.
#[derive(Clone, Copy, Debug, PartialEq, Eq)]
pub enum Wanted {
    /// A custom section of a name.
    Custom(&'static str),
    /// The list of imports.
    Imports,
    /// The code of a module that has had hints before it. It is wanted once these have come.
    Code,
}

impl Wanted {
    /// Whether a section is this one.
    fn is(self, id: u8, name: Option<&[u8]>) -> bool {
        match self {
            Wanted::Custom(wanted) => name == Some(wanted.as_bytes()),
            Wanted::Imports => id == IMPORT,
            Wanted::Code => id == CODE,
        }
    }
}

/// A module that has been read to its end.
#[derive(Debug)]
pub struct Arrived<E: Edition> {
    source: Source<E>,
    /// What the library has found.
    pub walked: Result<Walked, Refusal>,
    /// The sections, where the module is accepted.
    pub sections: Vec<Section>,
    length: u64,
    kept: Sparse,
}

impl<E: Edition> Arrived<E> {
    /// Reads a file, or standard input for `-`, and keeps what is wanted.
    pub fn read(file: &OsStr, wanted: &[Wanted]) -> Result<Arrived<E>, Failure> {
        let source = Source::of(file);
        let arriving = source.read(|from, _| Arriving::copied(from, wanted))?;
        Arrived::of(source, arriving)
    }

    fn of(source: Source<E>, arriving: Arriving) -> Result<Arrived<E>, Failure> {
        let length = arriving.stream.total();
        let walked = arriving.stream.finish();
        // The library counts the sections, and here it is learned where they lie.
        let counted = walked.map(|walked| walked.section_count);
        if counted.is_ok_and(|count| count != arriving.sections.len() as u64) {
            return Err(Failure::Misfit);
        }
        Ok(Arrived {
            source,
            walked,
            sections: arriving.sections,
            length,
            kept: arriving.kept,
        })
    }

    /// The payload at a place that the library has found, of one of the names that are kept.
    pub fn payload(&self, place: Place) -> Result<&[u8], Failure> {
        let end = place.offset + place.length;
        self.kept.get(place.offset..end).ok_or(Failure::Misfit)
    }

    /// The sections of an accepted module, each with the place of its contents, which are the last of it.
    pub fn with_contents(&self) -> impl Iterator<Item = (&Section, Range<u64>)> {
        let starts = self.sections.iter().map(|section| section.offset);
        let ends = starts.skip(1).chain([self.length]);
        let sections = self.sections.iter().zip(ends);
        sections.map(|(section, end)| (section, end - section.length..end))
    }

    /// The name of a section of an accepted module by the place of its contents, as far as it is shown;
    /// none of a section that is not custom.
    pub fn shown_name(
        &self,
        id: u8,
        contents: &Range<u64>,
    ) -> Result<Option<ShownName<'_>>, Failure> {
        if id != CUSTOM {
            return Ok(None);
        }
        let end = contents.end.min(contents.start + FRONT_WITH_NAME as u64);
        let front = self.kept.get(contents.start..end);
        let name = front.and_then(ShownName::of).ok_or(Failure::Misfit)?;
        Ok(Some(name))
    }

    /// The sections that say whether hints stand on branches: imports, the hints, which lie at a place
    /// that the library has found, and code. They are among what is kept.
    pub fn of_branches(&self, hints: Place) -> Result<Excerpt, Failure> {
        let preamble = self.kept.get(0..PREAMBLE_LENGTH).ok_or(Failure::Misfit)?;
        let mut excerpt = Excerpt::new(preamble);
        for (section, Range { end, .. }) in self.with_contents() {
            let has_hints = section.offset < hints.offset && hints.offset <= end;
            if has_hints || [IMPORT, CODE].contains(&section.id) {
                let bytes = self.kept.get(section.offset..end);
                excerpt.take(section.offset, bytes.ok_or(Failure::Misfit)?);
            }
        }
        Ok(excerpt)
    }

    /// What scripts know the input by.
    pub fn file(&self) -> Json {
        self.source.file()
    }

    /// What JSON says first.
    pub fn members(&self) -> Vec<(&'static str, Json)> {
        self.source.members()
    }

    /// A refusal, with the bytes around the fault.
    pub fn refused(&self, refusal: Refusal) -> Refused {
        let bytes = |shown| self.kept.get(shown);
        Refused::new(&self.source, refusal, self.length, bytes)
    }
}

/// A module of which not all has been read yet.
#[derive(Debug)]
struct Arriving {
    stream: Stream,
    /// What is still to be kept whole.
    wanted: Vec<Wanted>,
    sections: Vec<Section>,
    /// How many of them are not custom.
    not_custom: usize,
    kept: Sparse,
    /// Where the next byte stands.
    at: u64,
    step: Step,
}

/// What stands where the next byte does.
#[derive(Debug)]
enum Step {
    /// The head of a section, which begins there.
    Head(u64),
    Contents(Contents),
}

/// Contents that are kept whole, or at their ends.
#[derive(Debug)]
struct Contents {
    place: Range<u64>,
    whole: bool,
    /// How many bytes are kept at the front of what is not kept whole.
    front: u64,
}

impl Contents {
    /// Whether the byte at an offset is kept, and up to where this is so of all bytes.
    fn is_kept(&self, at: u64) -> (bool, u64) {
        let Range { start, end } = self.place;
        let (left_out, again) = (start.saturating_add(self.front), end.saturating_sub(NEAR));
        if self.whole || left_out >= again || at >= again {
            (true, end)
        } else if at < left_out {
            (true, left_out)
        } else {
            (false, again)
        }
    }
}

impl Arriving {
    fn copied(from: &mut dyn Read, wanted: &[Wanted]) -> io::Result<Arriving> {
        let mut arriving = Arriving::new(wanted);
        io::copy(&mut BufReader::with_capacity(PART, from), &mut arriving)?;
        Ok(arriving)
    }

    fn new(wanted: &[Wanted]) -> Arriving {
        Arriving {
            stream: Stream::new(),
            wanted: wanted.to_vec(),
            sections: Vec::new(),
            not_custom: 0,
            kept: Sparse::default(),
            at: 0,
            step: Step::Contents(Contents {
                place: 0..PREAMBLE_LENGTH,
                whole: true,
                front: NEAR,
            }),
        }
    }

    /// Keeps what is to be kept of a part, and learns of the sections in it.
    fn follow(&mut self, mut part: &[u8]) {
        while !part.is_empty() {
            let (is_kept, until) = match &self.step {
                Step::Head(_) => (true, self.at + 1),
                Step::Contents(contents) => contents.is_kept(self.at),
            };
            let length =
                usize::try_from(until - self.at).map_or(part.len(), |it| it.min(part.len()));
            let (now, later) = part.split_at(length);
            if is_kept {
                self.kept.keep(self.at, now);
            }
            self.at += length as u64;
            part = later;
            self.go_on();
        }
    }

    /// From a head to the contents, where it is whole, and from contents to the next head, where they
    /// are over.
    fn go_on(&mut self) {
        if let Step::Head(head_at) = self.step {
            self.read_head(head_at);
        }
        if matches!(&self.step, Step::Contents(contents) if contents.place.end == self.at) {
            self.step = Step::Head(self.at);
        }
    }

    fn read_head(&mut self, head_at: u64) {
        let bytes = self.kept.get(head_at..self.at).unwrap_or_default();
        match Head::of(bytes) {
            Head::Cut => {}
            Head::Unacceptable => self.skip_all(),
            Head::Whole { id, .. } if id != CUSTOM && self.not_custom == MOST_NOT_CUSTOM => {
                self.skip_all();
            }
            Head::Whole {
                id,
                before_contents,
                length,
                name,
            } => {
                let wanted = self.wanted.iter().position(|it| it.is(id, name));
                if let Some(position) = wanted {
                    self.meet(position);
                }
                let section = Section {
                    id,
                    offset: head_at,
                    length: length.into(),
                };
                let start = head_at + before_contents as u64;
                self.begin_contents(section, start, wanted.is_some());
            }
        }
    }

    /// Of what is wanted the one at a position has come.
    fn meet(&mut self, position: usize) {
        let met = self.wanted.swap_remove(position);
        if met == Wanted::Custom(HINTS) {
            self.wanted.push(Wanted::Code);
        }
    }

    fn begin_contents(&mut self, section: Section, start: u64, whole: bool) {
        let place = start..start.saturating_add(section.length);
        let front = match section.id {
            CUSTOM => FRONT_WITH_NAME as u64,
            _ => NEAR,
        };
        self.step = Step::Contents(Contents {
            place,
            whole,
            front,
        });
        self.not_custom += usize::from(section.id != CUSTOM);
        self.sections.push(section);
    }

    /// The library will refuse what stands here or before, and no section behind it is of use.
    fn skip_all(&mut self) {
        self.step = Step::Contents(Contents {
            place: self.at..u64::MAX,
            whole: false,
            front: NEAR,
        });
    }
}

/// All that is written goes to the library's stream as well.
impl Write for Arriving {
    fn write(&mut self, part: &[u8]) -> io::Result<usize> {
        let taken = self.stream.write(part)?;
        self.follow(&part[..taken]);
        Ok(taken)
    }

    fn flush(&mut self) -> io::Result<()> {
        self.stream.flush()
    }
}

#[cfg(test)]
mod tests {
    use wakemiono::{First, Module};

    use super::*;
    use crate::dump;
    use crate::payloads::{NAMES, OLD_HINTS};

    const PAYLOADS: [&str; 3] = [NAMES, HINTS, OLD_HINTS];

    const ALL: [Wanted; 4] = [
        Wanted::Custom(NAMES),
        Wanted::Custom(HINTS),
        Wanted::Custom(OLD_HINTS),
        Wanted::Imports,
    ];

    const PREAMBLE: &[u8] = b"\0asm\x01\0\0\0";

    fn section(id: u8, contents: &[u8]) -> Vec<u8> {
        let length = contents.len();
        [&[id, length as u8 | 0x80, (length >> 7) as u8], contents].concat()
    }

    fn custom(name: &str, payload: &[u8]) -> Vec<u8> {
        section(0, &[&[name.len() as u8], name.as_bytes(), payload].concat())
    }

    /// Contents of which no two rows are alike.
    fn long(length: usize) -> Vec<u8> {
        (0..length).map(|at| (at / 3) as u8).collect()
    }

    /// One function.
    const IMPORTS: [u8; 5] = [1, 0, 0, 0, 0];

    /// Hints on each of these `br_if 0`, which are the second function.
    fn many_hints() -> Vec<u8> {
        let hints = (0..100).flat_map(|at| [(1 + 2 * at) | 0x80, (1 + 2 * at) >> 7, 1, 0]);
        [&[1, 1, 100][..], &hints.collect::<Vec<u8>>()].concat()
    }

    fn code() -> Vec<u8> {
        let body = [&[0][..], &[0x0D, 0].repeat(500)].concat();
        let length = body.len();
        [&[1, length as u8 | 0x80, (length >> 7) as u8], &body[..]].concat()
    }

    /// Each payload with long and with short contents around it, some at ends of what is kept.
    fn module() -> Vec<u8> {
        let sections = [
            custom("x", &long(500)),
            custom(OLD_HINTS, &[1, 2, 3]),
            custom("", &long(127)),
            section(1, &long(128)),
            section(2, &IMPORTS),
            section(3, &long(129)),
            custom(HINTS, &many_hints()),
            custom("y", &[]),
            section(10, &code()),
            custom(NAMES, &[]),
            custom("metadata.code.branch_hint.and.more", &long(200)),
        ];
        [PREAMBLE, &sections.concat()].concat()
    }

    fn arrived(parts: &[&[u8]]) -> Arrived<First> {
        let mut arriving = Arriving::new(&ALL);
        for part in parts {
            arriving.write_all(part).expect("it is taken");
        }
        Arrived::of(Source::of(OsStr::new("-")), arriving).expect("the counts agree")
    }

    /// What is shown around a place is what stands there.
    #[track_caller]
    fn shows(arrived: &Arrived<First>, bytes: &[u8], place: u64) {
        let shown = dump::around(bytes.len() as u64, place).expect("a place in the module");
        let [start, end] = [shown.start, shown.end].map(|at| at as usize);
        let kept = arrived.kept.get(shown);
        assert_eq!(kept, Some(&bytes[start..end]), "around {place}");
    }

    /// All that is asked of a module that arrived is what the whole of it gives.
    fn agrees(arrived: &Arrived<First>, bytes: &[u8]) {
        let module = Module::new(bytes);
        let walked = match arrived.walked {
            Ok(walked) => walked,
            Err(refusal) => {
                assert_eq!(module.section_count(), Err(refusal));
                return shows(arrived, bytes, refusal.offset());
            }
        };
        for (position, (section, contents)) in (0..).zip(arrived.with_contents()) {
            let there = module.section(position).expect("it is accepted");
            let there = there.expect("it is there");
            assert_eq!((section.id, section.offset), (there.id(), there.offset()));
            let contents_there = &bytes[contents.start as usize..contents.end as usize];
            assert_eq!(contents_there, there.contents());
            assert_eq!(contents.start, there.contents_offset());
        }
        assert_eq!(module.section_count(), Ok(arrived.sections.len() as u64));
        let places = [walked.name, walked.hints, walked.old_hints];
        for (name, place) in PAYLOADS.into_iter().zip(places) {
            let payload = place.map(|place| arrived.payload(place).expect("it was kept"));
            assert_eq!(Ok(payload), module.custom(name));
            let places = place.map(|place| place.offset..=place.offset + place.length);
            for at in places.into_iter().flatten() {
                shows(arrived, bytes, at);
            }
        }
    }

    /// Whether hints stand on branches is what the whole of it gives.
    fn agrees_on_branches(arrived: &Arrived<First>, bytes: &[u8]) {
        let Ok(Some(hints)) = arrived.walked.map(|walked| walked.hints) else {
            return;
        };
        let excerpt = arrived.of_branches(hints).expect("all was kept");
        let told = excerpt.module().hints_on_branches();
        let told = told.map_err(|refusal| excerpt.in_whole(refusal));
        assert_eq!(told, Module::new(bytes).hints_on_branches());
        if let Err(refusal) = told {
            shows(arrived, bytes, refusal.offset());
        }
    }

    #[test]
    fn however_it_is_cut() {
        let module = module();
        assert_eq!(Module::new(&module).hints_on_branches(), Ok(()));
        for at in 0..=module.len() {
            let (one, other) = module.split_at(at);
            let whole = arrived(&[one, other]);
            agrees(&whole, &module);
            agrees_on_branches(&whole, &module);
            agrees(&arrived(&[one]), one);
        }
        let bytes: Vec<&[u8]> = module.chunks(1).collect();
        agrees(&arrived(&bytes), &module);
    }

    #[test]
    fn whatever_is_wrong_with_it() {
        let module = module();
        for at in 0..module.len() {
            for change in [0x00, 0x01, 0x0B, 0x7F, 0x80, 0xFF] {
                let mut changed = module.clone();
                changed[at] = change;
                let arrived = arrived(&[&changed]);
                agrees(&arrived, &changed);
                agrees_on_branches(&arrived, &changed);
            }
        }
    }

    /// Sections that end where a number or a byte is missing: the fault is at their end, and not where the
    /// next section of the excerpt begins.
    #[test]
    fn lists_that_are_cut() {
        for imports in [&[][..], &[1], &[1, 0], &[1, 0, 0], &[1, 0, 0, 0]] {
            for bodies in [&[][..], &[1], &[0]] {
                let sections = [
                    section(2, imports),
                    section(3, &long(200)),
                    custom(HINTS, &[1, 0, 1, 1, 1, 1]),
                    section(10, bodies),
                    section(11, &long(200)),
                ];
                let module = [PREAMBLE, &sections.concat()].concat();
                agrees_on_branches(&arrived(&[&module]), &module);
            }
        }
    }

    /// Code is left out of a module without hints before it, and so is what comes a second time.
    #[test]
    fn code_without_hints_is_left_out() {
        let (code, imports) = (section(10, &long(1_000)), section(2, &long(1_000)));
        for sections in [
            [code.clone(), custom(HINTS, &[0])].concat(),
            [custom(OLD_HINTS, &[0]), code.clone()].concat(),
            [imports.clone(), imports].concat(),
            [custom(HINTS, &[0]), code.clone(), code].concat(),
        ] {
            let module = [PREAMBLE, &sections].concat();
            let arrived = arrived(&[&module]);
            assert_eq!(arrived.kept.get(0..module.len() as u64), None);
            agrees(&arrived, &module);
        }
    }

    #[test]
    fn a_second_payload_of_a_name_is_left_out() {
        let second = custom(NAMES, &long(1_000));
        let module = [PREAMBLE, &custom(NAMES, &[]), &second, &second].concat();
        let arrived = arrived(&[&module]);
        assert_eq!(arrived.walked.map_err(|refusal| refusal.number()), Err(7));
        assert_eq!(arrived.kept.get(15..module.len() as u64), None);
        agrees(&arrived, &module);
    }

    /// Sections without end that the library refuses are not listed to their end.
    #[test]
    fn what_cannot_be_accepted_is_left_out() {
        let many = 10_000;
        for sections in [
            vec![0; many],
            [1, 0].repeat(many),
            [14, 1].repeat(many),
            vec![0xFF; many],
            [0, 1, 1].repeat(many),
        ] {
            let module = [PREAMBLE, &sections].concat();
            let arrived = arrived(&[&module]);
            assert!(arrived.sections.len() <= MOST_NOT_CUSTOM);
            assert_eq!(arrived.kept.get(0..300), None);
            agrees(&arrived, &module);
        }
    }
}
