//! Modules with code and hints on it, as what they hold, so that one thing of them can be changed before they are spelled
//! as bytes, and the hints still stand where they were put.

use std::collections::{BTreeMap, BTreeSet};

use crate::held::{Entries, Groups, Held};
use crate::spelling::{custom, number, section, sized, Padding, PREAMBLE};
use crate::tally::HINTS;

/// The ids of the sections with imports and with code.
const IMPORTS: u8 = 2;
const CODE: u8 = 10;

/// The data of a hint, whichever it is.
const LIKELY: u8 = 1;

/// Imports, bodies and hints; none where a module has no such section.
#[derive(Clone, Default)]
pub struct Coded {
    /// The list of imports.
    pub imports: Option<Vec<Import>>,
    /// The bodies of the functions that are not imported.
    pub bodies: Option<Vec<Body>>,
    /// Where hints stand, by the indices of functions.
    pub hints: Option<BTreeMap<u32, Vec<Seat>>>,
}

/// An import: a function, a table, a memory, a global, or of a kind that there is not.
#[derive(Clone, Copy)]
pub struct Import {
    /// Which of these, 0 to 3.
    pub kind: u8,
    /// The flag of its limits, if it has some.
    pub flag: u8,
}

/// The body of a function.
#[derive(Clone, Default)]
pub struct Body {
    /// How many locals of which type.
    pub locals: Vec<(u32, u8)>,
    /// Its instructions.
    pub instructions: Vec<Instruction>,
}

/// An instruction as what it is spelled of.
pub type Instruction = Vec<Piece>;

/// A piece of an instruction.
#[derive(Clone)]
pub enum Piece {
    /// Bytes as they are.
    Bytes(Vec<u8>),
    /// A number, which may be padded.
    Number(u32),
}

/// Where a hint stands.
#[derive(Clone, Copy)]
pub enum Seat {
    /// On the instruction at this position in the body; behind the body where there are not so many.
    Instruction(usize),
    /// At this offset, whatever is there.
    Offset(u32),
}

/// A body as bytes, and where each instruction begins in it and where the last ends.
struct Spelled {
    bytes: Vec<u8>,
    starts: Vec<u32>,
}

impl Coded {
    /// The module.
    pub fn spelled(&self, padding: Padding<'_>) -> Vec<u8> {
        let bodies = self.bodies.as_ref();
        let bodies =
            bodies.map(|bodies| Vec::from_iter(bodies.iter().map(|it| it.spelled(padding))));
        let mut module = PREAMBLE.to_vec();
        if let Some(imports) = &self.imports {
            let contents = list(imports, Import::spelled, padding);
            module.extend(section(IMPORTS, &contents, padding));
        }
        if let Some(hints) = &self.hints {
            let payload = self.payload(hints, bodies.as_deref().unwrap_or_default());
            module.extend(custom(HINTS, &payload.spelled(padding), padding));
        }
        if let Some(bodies) = &bodies {
            let contents = list(bodies, |body, padding| sized(&body.bytes, padding), padding);
            module.extend(section(CODE, &contents, padding));
        }
        module
    }

    /// How many functions are imported.
    pub fn imported(&self) -> u32 {
        let imports = self.imports.iter().flatten();
        imports.filter(|import| import.kind == 0).count() as u32
    }

    fn payload(&self, hints: &BTreeMap<u32, Vec<Seat>>, bodies: &[Spelled]) -> Groups {
        let imported = self.imported();
        let body_of = |function: &u32| bodies.get(function.checked_sub(imported)? as usize);
        let offsets = |function: &u32, seats: &[Seat]| {
            let offset = |seat: &Seat| seat.offset(body_of(function));
            BTreeSet::from_iter(seats.iter().map(offset))
        };
        let entries = |offsets: BTreeSet<u32>| {
            Entries::from_iter(offsets.into_iter().map(|offset| (offset, vec![LIKELY])))
        };
        let groups = hints.iter();
        groups
            .map(|(function, seats)| (*function, entries(offsets(function, seats))))
            .collect()
    }
}

impl Seat {
    fn offset(&self, body: Option<&Spelled>) -> u32 {
        match *self {
            Seat::Offset(offset) => offset,
            Seat::Instruction(position) => {
                let starts = body.map_or(&[][..], |body| &body.starts);
                let behind = starts.last().copied().unwrap_or_default();
                starts.get(position).copied().unwrap_or(behind)
            }
        }
    }
}

impl Import {
    fn spelled(&self, padding: Padding<'_>) -> Vec<u8> {
        const FUNCTION_TYPE: u32 = 5;
        let mut bytes = sized(b"m", padding);
        bytes.extend(sized("é".as_bytes(), padding));
        bytes.push(self.kind);
        match self.kind {
            0 => bytes.extend(number(FUNCTION_TYPE, padding)),
            1 => {
                bytes.push(0x70);
                bytes.extend(self.limits(padding));
            }
            2 => bytes.extend(self.limits(padding)),
            3 => bytes.extend([0x7F, 0x00]),
            _ => {}
        }
        bytes
    }

    /// The flag, the least, and the greatest where the flag says that there is one.
    fn limits(&self, padding: Padding<'_>) -> Vec<u8> {
        let mut bytes = vec![self.flag];
        bytes.extend(number(1, padding));
        if self.flag != 0 {
            bytes.extend(number(200, padding));
        }
        bytes
    }
}

impl Body {
    fn spelled(&self, padding: Padding<'_>) -> Spelled {
        let declared = |(count, of): &(u32, u8), padding: Padding<'_>| {
            [number(*count, padding), vec![*of]].concat()
        };
        let mut bytes = list(&self.locals, declared, padding);
        let mut starts = vec![bytes.len() as u32];
        for instruction in &self.instructions {
            bytes.extend(instruction.iter().flat_map(|piece| piece.spelled(padding)));
            starts.push(bytes.len() as u32);
        }
        Spelled { bytes, starts }
    }
}

impl Piece {
    fn spelled(&self, padding: Padding<'_>) -> Vec<u8> {
        match self {
            Piece::Bytes(bytes) => bytes.clone(),
            Piece::Number(value) => number(*value, padding),
        }
    }
}

/// How many elements, and each of them.
fn list<T>(
    elements: &[T],
    spelled: impl Fn(&T, Padding<'_>) -> Vec<u8>,
    padding: Padding<'_>,
) -> Vec<u8> {
    let mut bytes = number(elements.len() as u32, padding);
    for element in elements {
        bytes.extend(spelled(element, padding));
    }
    bytes
}
