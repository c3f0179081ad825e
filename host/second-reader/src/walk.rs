//! The framing of a module: its sections, their order, and the names of the custom ones.

use crate::answer::{Answer, Reason, Refusal};
use crate::reading::Part;

const PREAMBLE: [u8; 8] = [0x00, 0x61, 0x73, 0x6D, 0x01, 0x00, 0x00, 0x00];

const CUSTOM: u8 = 0;
/// The id of the section with the list of imports.
pub(crate) const IMPORT: u8 = 2;
/// The id of the section with the bodies of functions.
pub(crate) const CODE: u8 = 10;
const DATA: u8 = 11;

/// The ids that are not custom, in the order in which their sections stand: tag (13) behind memory,
/// data count (12) before code.
const ORDER: [u8; 13] = [1, 2, 3, 4, 5, 13, 6, 7, 8, 9, 12, 10, 11];

/// The name of the section that holds names.
pub(crate) const NAMES: &[u8] = b"name";
/// The name of the section that holds branch hints.
pub(crate) const HINTS: &[u8] = b"metadata.code.branch_hint";
/// The name of the section that holds hints of the older edition.
pub(crate) const OLDER_HINTS: &[u8] = b"branchHints";

/// The walk over a whole module. Found: the count of its sections as the length.
pub fn walk(module: &[u8]) -> Answer {
    Answer::counted(count_sections(module))
}

/// The section at a position, counted from 0. Found: its id, the offset of its id byte, the length
/// of its contents.
pub fn section(module: &[u8], position: u64) -> Answer {
    Answer::of(section_at(module, position))
}

/// Where the payload of the first custom section of a name lies.
pub fn custom(module: &[u8], name: &[u8]) -> Answer {
    Answer::of(payload_of(module, |other| other == name))
}

fn count_sections(module: &[u8]) -> Result<u64, Refusal> {
    let mut count = 0;
    for section in Sections::of(module)? {
        section?;
        count += 1;
    }
    Ok(count)
}

fn section_at(module: &[u8], position: u64) -> Result<Option<Answer>, Refusal> {
    let mut found = None;
    for (here, section) in (0..).zip(Sections::of(module)?) {
        // The walk goes on after the section asked for: damage further on refuses the module all
        // the same.
        let section = section?;
        if position == here {
            let length = section.contents.bytes().len();
            found = Some(Answer::of_section(section.id, section.id_at, length));
        }
    }
    Ok(found)
}

/// The payload of the first custom section whose name is wanted, once the whole module is accepted.
pub(crate) fn payload_of(
    module: &[u8],
    wanted: impl Fn(&[u8]) -> bool,
) -> Result<Option<Part<'_>>, Refusal> {
    let mut first = None;
    for section in Sections::of(module)? {
        if let Some(custom) = section?.custom {
            if first.is_none() && wanted(custom.name) {
                first = Some(custom.payload);
            }
        }
    }
    Ok(first)
}

/// The contents of the section with an id that is not custom, of which there is at most one.
pub(crate) fn contents_of(module: &[u8], id: u8) -> Result<Option<Part<'_>>, Refusal> {
    let mut found = None;
    for section in Sections::of(module)? {
        let section = section?;
        if section.id == id {
            found = Some(section.contents);
        }
    }
    Ok(found)
}

struct Section<'a> {
    id: u8,
    id_at: usize,
    contents: Part<'a>,
    custom: Option<Custom<'a>>,
}

struct Custom<'a> {
    name: &'a [u8],
    payload: Part<'a>,
}

/// The sections in file order, each checked as it is read. Nothing is to be read after the first
/// refusal.
struct Sections<'a> {
    rest: Part<'a>,
    /// How many places of the order are behind us: what stands there may not come any more.
    passed: usize,
    seen_code: bool,
    seen_names: bool,
    seen_hints: bool,
    seen_older_hints: bool,
}

impl<'a> Sections<'a> {
    fn of(module: &'a [u8]) -> Result<Self, Refusal> {
        if !module.starts_with(&PREAMBLE) {
            return Err(Reason::Preamble.at(0));
        }
        Ok(Sections {
            rest: Part::after(module, PREAMBLE.len()),
            passed: 0,
            seen_code: false,
            seen_names: false,
            seen_hints: false,
            seen_older_hints: false,
        })
    }

    fn section(&mut self, id: u8, id_at: usize) -> Result<Section<'a>, Refusal> {
        self.check_id(id, id_at)?;
        let contents = self.rest.sized()?;
        let custom = match id {
            CUSTOM => Some(self.custom(contents, id_at)?),
            _ => None,
        };
        Ok(Section {
            id,
            id_at,
            contents,
            custom,
        })
    }

    fn check_id(&mut self, id: u8, id_at: usize) -> Result<(), Refusal> {
        if id == CUSTOM {
            return Ok(());
        }
        let Some(place) = ORDER.iter().position(|&known| known == id) else {
            return Err(Reason::UnknownSection.at(id_at));
        };
        if place < self.passed {
            return Err(Reason::SectionOrder.at(id_at));
        }
        if id == DATA && self.seen_names {
            return Err(Reason::TooLate.at(id_at));
        }
        self.passed = place + 1;
        self.seen_code |= id == CODE;
        Ok(())
    }

    fn custom(&mut self, contents: Part<'a>, id_at: usize) -> Result<Custom<'a>, Refusal> {
        let mut payload = contents;
        let name = payload.name()?.bytes();
        if name == NAMES {
            first_time(&mut self.seen_names, id_at)?;
        } else if name == HINTS {
            first_time(&mut self.seen_hints, id_at)?;
            self.before_code(id_at)?;
        } else if name == OLDER_HINTS {
            first_time(&mut self.seen_older_hints, id_at)?;
            self.before_code(id_at)?;
        }
        Ok(Custom { name, payload })
    }

    /// Hints of either edition stand before the code that they are about.
    fn before_code(&self, id_at: usize) -> Result<(), Refusal> {
        if self.seen_code {
            return Err(Reason::TooLate.at(id_at));
        }
        Ok(())
    }
}

fn first_time(seen: &mut bool, id_at: usize) -> Result<(), Refusal> {
    if *seen {
        return Err(Reason::SecondOfItsName.at(id_at));
    }
    *seen = true;
    Ok(())
}

impl<'a> Iterator for Sections<'a> {
    type Item = Result<Section<'a>, Refusal>;

    fn next(&mut self) -> Option<Self::Item> {
        let id_at = self.rest.offset();
        let id = self.rest.byte()?;
        Some(self.section(id, id_at))
    }
}
