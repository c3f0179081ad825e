//! The name payload: its subsections, its judgement, and the questions put to it, in each edition.
//!
//! The calls here are those of the first edition.

use crate::answer::{Answer, Reason, Refusal};
use crate::edition::{id, Edition, Form, Shape};
use crate::reading::Part;

/// Judges a name payload. Found, where it is accepted: offset 0 and the payload's length.
pub fn names_judge(payload: &[u8]) -> Answer {
    judged(payload, Edition::First)
}

/// The name of the module.
pub fn module_name(payload: &[u8]) -> Answer {
    asked(payload, Edition::First, Owner::Module)
}

/// The name of a function.
pub fn function_name(payload: &[u8], function: u32) -> Answer {
    let wanted = Owner::Entry(id::FUNCTIONS, function);
    asked(payload, Edition::First, wanted)
}

/// The name of a type.
pub fn type_name(payload: &[u8], type_index: u32) -> Answer {
    let wanted = Owner::Entry(id::TYPES, type_index);
    asked(payload, Edition::First, wanted)
}

/// The name of a tag.
pub fn tag_name(payload: &[u8], tag: u32) -> Answer {
    let wanted = Owner::Entry(id::TAGS, tag);
    asked(payload, Edition::First, wanted)
}

/// The name of a local in a function.
pub fn local_name(payload: &[u8], function: u32, local: u32) -> Answer {
    let wanted = Owner::InGroup(id::LOCALS, function, local);
    asked(payload, Edition::First, wanted)
}

/// The name of a field in a type.
pub fn field_name(payload: &[u8], type_index: u32, field: u32) -> Answer {
    let wanted = Owner::InGroup(id::FIELDS, type_index, field);
    asked(payload, Edition::First, wanted)
}

/// The contents of the kept subsection with an id. The six known ids are never kept.
pub fn kept(payload: &[u8], id: u8) -> Answer {
    asked(payload, Edition::First, Owner::Kept(id))
}

/// What a text in the payload belongs to, and so also what a question asks for.
#[derive(Clone, Copy, PartialEq, Eq)]
pub(crate) enum Owner {
    Module,
    /// The id of a subsection with a name map, and an index in it.
    Entry(u8, u32),
    /// The id of a subsection with an indirect map, a primary index, and an index in its group.
    InGroup(u8, u32, u32),
    /// Not a name: the contents of a subsection that is not looked into.
    Kept(u8),
}

pub(crate) fn judged(payload: &[u8], edition: Edition) -> Answer {
    let judged = judge(Part::whole(payload), edition);
    Answer::counted(judged.map(|()| payload.len() as u64))
}

pub(crate) fn asked(payload: &[u8], edition: Edition, wanted: Owner) -> Answer {
    Answer::of(ask(Part::whole(payload), edition, wanted))
}

pub(crate) fn judge(payload: Part<'_>, edition: Edition) -> Result<(), Refusal> {
    read(payload, edition, |_, _| {})
}

/// The text of one owner. The payload is read to its end, past the answer, so that it is judged
/// whole.
pub(crate) fn ask(
    payload: Part<'_>,
    edition: Edition,
    wanted: Owner,
) -> Result<Option<Part<'_>>, Refusal> {
    let mut found = None;
    read(payload, edition, |owner, text| {
        if owner == wanted {
            found = Some(text);
        }
    })?;
    Ok(found)
}

/// The contents of the subsection with an id, of a payload that is judged whole first.
pub(crate) fn contents(
    payload: &[u8],
    edition: Edition,
    wanted: u8,
) -> Result<Option<Part<'_>>, Refusal> {
    let payload = Part::whole(payload);
    judge(payload, edition)?;
    for subsection in Subsections::of(payload) {
        let Subsection { id, contents } = subsection?;
        if id == wanted {
            return Ok(Some(contents));
        }
    }
    Ok(None)
}

/// Reads and checks the payload to its end. Every owner is met at most once, since ids and indices
/// increase.
pub(crate) fn read<'a>(
    payload: Part<'a>,
    edition: Edition,
    mut meet: impl FnMut(Owner, Part<'a>),
) -> Result<(), Refusal> {
    for subsection in Subsections::of(payload) {
        read_contents(subsection?, edition, &mut meet)?;
    }
    Ok(())
}

fn read_contents<'a>(
    subsection: Subsection<'a>,
    edition: Edition,
    mut meet: impl FnMut(Owner, Part<'a>),
) -> Result<(), Refusal> {
    let Subsection { id, mut contents } = subsection;
    match edition.form(id) {
        Form::Name => meet(Owner::Module, contents.name()?),
        Form::List(Shape::Flat) => read_map(&mut contents, |index, text| {
            meet(Owner::Entry(id, index), text);
        })?,
        Form::List(Shape::Nested) => read_indirect_map(&mut contents, |primary, index, text| {
            meet(Owner::InGroup(id, primary, index), text);
        })?,
        Form::Kept => {
            meet(Owner::Kept(id), contents);
            return Ok(());
        }
    }
    contents.finish()
}

fn read_map<'a>(part: &mut Part<'a>, mut meet: impl FnMut(u32, Part<'a>)) -> Result<(), Refusal> {
    part.ascending_list(|part, index| {
        meet(index, part.name()?);
        Ok(())
    })
}

fn read_indirect_map<'a>(
    part: &mut Part<'a>,
    mut meet: impl FnMut(u32, u32, Part<'a>),
) -> Result<(), Refusal> {
    part.ascending_list(|part, primary| read_map(part, |index, text| meet(primary, index, text)))
}

pub(crate) struct Subsection<'a> {
    pub id: u8,
    pub contents: Part<'a>,
}

/// The subsections in order, their ids and sizes checked. Nothing is to be read after the first
/// refusal.
pub(crate) struct Subsections<'a> {
    rest: Part<'a>,
    last_id: Option<u8>,
}

impl<'a> Subsections<'a> {
    pub fn of(payload: Part<'a>) -> Self {
        Subsections {
            rest: payload,
            last_id: None,
        }
    }

    fn subsection(&mut self, id: u8, id_at: usize) -> Result<Subsection<'a>, Refusal> {
        if self.last_id.is_some_and(|last| id <= last) {
            return Err(Reason::SubsectionOrder.at(id_at));
        }
        self.last_id = Some(id);
        let contents = self.rest.sized()?;
        Ok(Subsection { id, contents })
    }
}

impl<'a> Iterator for Subsections<'a> {
    type Item = Result<Subsection<'a>, Refusal>;

    fn next(&mut self) -> Option<Self::Item> {
        let id_at = self.rest.offset();
        let id = self.rest.byte()?;
        Some(self.subsection(id, id_at))
    }
}
