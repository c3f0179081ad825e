//! A separate name payload beside the module's own: questions over the two, and one payload that is
//! joined of them, in each edition.
//!
//! The separate payload answers unless it gives none, else the module's own. Both are judged whole,
//! the separate one first.

use std::collections::BTreeMap;

use crate::answer::{Answer, Kind, PairAnswer, Reason, Refusal, Whose};
use crate::edition::{id, Edition, Form, Shape};
use crate::names::{self, Owner};
use crate::reading::Part;
use crate::writing::{number_length, Length, Sink, Writer};

/// The calls that ask, each with what it asks for.
macro_rules! questions {
    ($edition:ident: $($(#[$doc:meta])* $call:ident($($index:ident: $of:ty),*) = $wanted:expr;)*) => {$(
        $(#[$doc])*
        pub fn $call(separate: &[u8], own: &[u8] $(, $index: $of)*) -> PairAnswer {
            ask(separate, own, Edition::$edition, $wanted)
        }
    )*};
}

questions! {
    First:
    /// The name of the module.
    pair_module_name() = Owner::Module;
    /// The name of a function.
    pair_function_name(function: u32) = Owner::Entry(id::FUNCTIONS, function);
    /// The name of a local in a function.
    pair_local_name(function: u32, local: u32) = Owner::InGroup(id::LOCALS, function, local);
    /// The name of a type.
    pair_type_name(type_index: u32) = Owner::Entry(id::TYPES, type_index);
    /// The name of a field in a type.
    pair_field_name(type_index: u32, field: u32) = Owner::InGroup(id::FIELDS, type_index, field);
    /// The name of a tag.
    pair_tag_name(tag: u32) = Owner::Entry(id::TAGS, tag);
    /// The contents of the kept subsection with an id. The six known ids are never kept.
    pair_kept(id: u8) = Owner::Kept(id);
}

questions! {
    Wider:
    /// The name of the module.
    wide_pair_module_name() = Owner::Module;
    /// The name of a function.
    wide_pair_function_name(function: u32) = Owner::Entry(id::FUNCTIONS, function);
    /// The name of a local in a function.
    wide_pair_local_name(function: u32, local: u32) = Owner::InGroup(id::LOCALS, function, local);
    /// The name of a label in a function.
    wide_pair_label_name(function: u32, label: u32) = Owner::InGroup(id::LABELS, function, label);
    /// The name of a type.
    wide_pair_type_name(type_index: u32) = Owner::Entry(id::TYPES, type_index);
    /// The name of a table.
    wide_pair_table_name(table: u32) = Owner::Entry(id::TABLES, table);
    /// The name of a memory.
    wide_pair_memory_name(memory: u32) = Owner::Entry(id::MEMORIES, memory);
    /// The name of a global.
    wide_pair_global_name(global: u32) = Owner::Entry(id::GLOBALS, global);
    /// The name of an element segment.
    wide_pair_element_name(element: u32) = Owner::Entry(id::ELEMENTS, element);
    /// The name of a data segment.
    wide_pair_data_name(data: u32) = Owner::Entry(id::DATA, data);
    /// The name of a field in a type.
    wide_pair_field_name(type_index: u32, field: u32) =
        Owner::InGroup(id::FIELDS, type_index, field);
    /// The name of a tag.
    wide_pair_tag_name(tag: u32) = Owner::Entry(id::TAGS, tag);
    /// The contents of the kept subsection with an id. The twelve known ids are never kept.
    wide_pair_kept(id: u8) = Owner::Kept(id);
}

/// Writes both payloads, joined into one that is canonical and answers as the two do, at the front of
/// `out`. Found: the bytes written as the length.
pub fn pair_join(separate: &[u8], own: &[u8], out: &mut [u8]) -> PairAnswer {
    joined(separate, own, Edition::First, out)
}

/// The same by the wider edition.
pub fn wide_pair_join(separate: &[u8], own: &[u8], out: &mut [u8]) -> PairAnswer {
    joined(separate, own, Edition::Wider, out)
}

fn ask(separate: &[u8], own: &[u8], edition: Edition, wanted: Owner) -> PairAnswer {
    let asked = |payload| names::ask(Part::whole(payload), edition, wanted);
    let (answer, whose) = match (asked(separate), asked(own)) {
        (Err(refusal), _) => (refusal.into(), Whose::Separate),
        (_, Err(refusal)) => (refusal.into(), Whose::Own),
        (Ok(Some(text)), _) => (text.into(), Whose::Separate),
        (_, Ok(Some(text))) => (text.into(), Whose::Own),
        (Ok(None), Ok(None)) => (Answer::from(Kind::None), Whose::Nobody),
    };
    PairAnswer::new(answer, whose)
}

fn joined(separate: &[u8], own: &[u8], edition: Edition, out: &mut [u8]) -> PairAnswer {
    match join(separate, own, edition, out) {
        Ok(written) => PairAnswer::new(Answer::found(0, written), Whose::Nobody),
        Err((whose, refusal)) => PairAnswer::new(refusal.into(), whose),
    }
}

/// Something that answers a question, at its place in a canonical payload.
struct Entry<'a> {
    /// The id of the subsection that it stands in.
    id: u8,
    /// The primary index, 0 where there is none.
    group: u32,
    /// The index, 0 where there is none.
    index: u32,
    text: &'a [u8],
}

/// The order of canonical payloads: by id, then by the primary index, then by the index.
type Place = (u8, u32, u32);

fn place(owner: Owner) -> Place {
    match owner {
        Owner::Module => (id::MODULE, 0, 0),
        Owner::Entry(id, index) => (id, 0, index),
        Owner::InGroup(id, group, index) => (id, group, index),
        Owner::Kept(id) => (id, 0, 0),
    }
}

fn join(
    separate: &[u8],
    own: &[u8],
    edition: Edition,
    out: &mut [u8],
) -> Result<u64, (Whose, Refusal)> {
    let mut texts = BTreeMap::new();
    for (payload, whose) in [(separate, Whose::Separate), (own, Whose::Own)] {
        let read = names::read(Part::whole(payload), edition, |owner, text| {
            // Who comes first keeps the place.
            texts.entry(place(owner)).or_insert(text.bytes());
        });
        read.map_err(|refusal| (whose, refusal))?;
    }
    let entries = texts.into_iter().map(|((id, group, index), text)| Entry {
        id,
        group,
        index,
        text,
    });
    let entries: Vec<Entry<'_>> = entries.collect();
    write(&entries, edition, out).map_err(|refusal| (Whose::Nobody, refusal))
}

/// A subsection that is to be written: its entries, and the size of its contents.
struct Measured<'a> {
    entries: &'a [Entry<'a>],
    size: u32,
}

/// Writes entries in their order. All subsections are measured first, so that 15 comes before 13.
fn write(entries: &[Entry<'_>], edition: Edition, out: &mut [u8]) -> Result<u64, Refusal> {
    let mut subsections = Vec::new();
    let mut needed = 0;
    for entries in entries.chunk_by(|one, next| one.id == next.id) {
        let mut length = Length::default();
        contents(entries, edition, &mut length);
        let size = size_of(length.0)?;
        needed += 1 + number_length(size) + u64::from(size);
        subsections.push(Measured { entries, size });
    }
    let mut writer = Writer::with_room(out, needed)?;
    for Measured { entries, size } in subsections {
        writer.byte(entries[0].id);
        writer.number(size);
        contents(entries, edition, &mut writer);
    }
    Ok(writer.written())
}

/// The size of contents, or the refusal of those that no subsection can hold.
fn size_of(length: u64) -> Result<u32, Refusal> {
    u32::try_from(length).map_err(|_| Reason::SubsectionTooLarge.with(0))
}

/// Hands on the contents of the subsection with these entries.
fn contents(entries: &[Entry<'_>], edition: Edition, sink: &mut impl Sink) {
    match edition.form(entries[0].id) {
        Form::Name => sink.sized(entries[0].text),
        Form::Kept => sink.bytes(entries[0].text),
        Form::List(Shape::Flat) => map(entries, sink),
        Form::List(Shape::Nested) => {
            let groups = || entries.chunk_by(|one, next| one.group == next.group);
            sink.number(groups().count() as u32);
            for group in groups() {
                sink.number(group[0].group);
                map(group, sink);
            }
        }
    }
}

/// A name map. There are fewer entries than bytes, so that a count beyond 32 bits is not written.
fn map(entries: &[Entry<'_>], sink: &mut impl Sink) {
    sink.number(entries.len() as u32);
    for entry in entries {
        sink.number(entry.index);
        sink.sized(entry.text);
    }
}

#[cfg(test)]
mod tests {
    use super::*;

    #[test]
    fn only_what_a_subsection_cannot_hold_is_too_large() {
        assert_eq!(size_of(4_294_967_295), Ok(u32::MAX));
        let refusal = Reason::SubsectionTooLarge.with(0);
        assert_eq!(size_of(4_294_967_296), Err(refusal));
    }
}
