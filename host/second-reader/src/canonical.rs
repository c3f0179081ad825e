//! Canonical rewriting: judge the whole payload, measure what is left of it, then write that.
//!
//! The output is touched only by the third step, and the second has shown it to be long enough.
//! Each step goes over the payload once, from left to right. Texts and orders are checked in the
//! first step alone. The reads of the other two can no longer fail; they still pass a refusal on,
//! so that no step has to claim that none can come.

use crate::answer::{Answer, Refusal};
use crate::edition::{id, Edition, Form, Shape};
use crate::metadata::{self, Format};
use crate::names::{self, Subsection, Subsections};
use crate::reading::Part;
use crate::writing::{number_length, Length, Sink, Writer};

/// Writes the canonical form of a name payload at the front of `out`. Found: the bytes written as
/// the length.
pub fn names_canonical(payload: &[u8], out: &mut [u8]) -> Answer {
    let payload = Part::whole(payload);
    Answer::counted(rewrite_names(payload, Edition::First, out))
}

/// Writes the canonical form of a name payload, by the wider edition, at the front of `out`.
pub fn wide_names_canonical(payload: &[u8], out: &mut [u8]) -> Answer {
    let payload = Part::whole(payload);
    Answer::counted(rewrite_names(payload, Edition::Wider, out))
}

/// Writes the canonical form of a metadata payload of any format at the front of `out`.
pub fn metadata_canonical(payload: &[u8], out: &mut [u8]) -> Answer {
    let payload = Part::whole(payload);
    Answer::counted(rewrite_metadata(payload, Format::Any, out))
}

/// Writes the canonical form of a payload of branch hints at the front of `out`.
pub fn hints_canonical(payload: &[u8], out: &mut [u8]) -> Answer {
    let payload = Part::whole(payload);
    Answer::counted(rewrite_metadata(payload, Format::BranchHint, out))
}

pub(crate) fn rewrite_names(
    payload: Part<'_>,
    edition: Edition,
    out: &mut [u8],
) -> Result<u64, Refusal> {
    names::judge(payload, edition)?;
    let measured = MeasuredNames::of(payload, edition)?;
    let mut writer = Writer::with_room(out, measured.needed)?;
    for subsection in Subsections::of(payload) {
        measured.write(subsection?, &mut writer)?;
    }
    Ok(writer.written())
}

/// A metadata payload has the shape of an indirect map. With nothing left it is the count 0 alone.
fn rewrite_metadata(payload: Part<'_>, format: Format, out: &mut [u8]) -> Result<u64, Refusal> {
    metadata::judge(payload, format)?;
    let measured = MeasuredList::of(Shape::Nested, payload)?;
    let mut writer = Writer::with_room(out, measured.length())?;
    measured.write(payload, &mut writer)?;
    Ok(writer.written())
}

/// What is left of a name payload.
struct MeasuredNames {
    edition: Edition,
    /// By subsection id, for those that hold a list; the other places are not used.
    lists: [MeasuredList; id::TAGS as usize + 1],
    needed: u64,
}

impl MeasuredNames {
    fn of(payload: Part<'_>, edition: Edition) -> Result<Self, Refusal> {
        let mut measured = MeasuredNames {
            edition,
            lists: [MeasuredList::EMPTY; id::TAGS as usize + 1],
            needed: 0,
        };
        for subsection in Subsections::of(payload) {
            measured.add(subsection?)?;
        }
        Ok(measured)
    }

    fn add(&mut self, subsection: Subsection<'_>) -> Result<(), Refusal> {
        let Subsection { id, mut contents } = subsection;
        let size = match self.edition.form(id) {
            Form::Name => sized_length(contents.sized()?.bytes()),
            Form::Kept => contents.bytes().len() as u64,
            Form::List(shape) => {
                let list = MeasuredList::of(shape, contents)?;
                if list.elements == 0 {
                    return Ok(());
                }
                self.lists[usize::from(id)] = list;
                list.length()
            }
        };
        self.needed += 1 + number_length(size as u32) + size;
        Ok(())
    }

    /// Sizes are never above those that were read, so they fit into 32 bits as those did.
    fn write(&self, subsection: Subsection<'_>, writer: &mut Writer<'_>) -> Result<(), Refusal> {
        let Subsection { id, mut contents } = subsection;
        match self.edition.form(id) {
            Form::Name => {
                let name = contents.sized()?.bytes();
                writer.byte(id);
                writer.number(sized_length(name) as u32);
                writer.sized(name);
            }
            Form::Kept => {
                writer.byte(id);
                writer.sized(contents.bytes());
            }
            Form::List(_) => {
                let list = self.lists[usize::from(id)];
                if list.elements > 0 {
                    writer.byte(id);
                    writer.number(list.length() as u32);
                    list.write(contents, writer)?;
                }
            }
        }
        Ok(())
    }
}

/// A size in its fewest bytes and the bytes that it counts.
fn sized_length(bytes: &[u8]) -> u64 {
    number_length(bytes.len() as u32) + bytes.len() as u64
}

/// What is left of a list: elements without anything in them are gone. Names and the data of items
/// are both sized parts, and are copied alike.
#[derive(Clone, Copy)]
struct MeasuredList {
    shape: Shape,
    elements: u32,
    /// The bytes of the elements, without the count before them.
    bytes: u64,
}

impl MeasuredList {
    const EMPTY: MeasuredList = MeasuredList {
        shape: Shape::Flat,
        elements: 0,
        bytes: 0,
    };

    fn of(shape: Shape, list: Part<'_>) -> Result<Self, Refusal> {
        let mut length = Length::default();
        let elements = copy_elements(shape, list, &mut length)?;
        Ok(MeasuredList {
            shape,
            elements,
            bytes: length.0,
        })
    }

    fn length(self) -> u64 {
        number_length(self.elements) + self.bytes
    }

    fn write(self, list: Part<'_>, writer: &mut Writer<'_>) -> Result<(), Refusal> {
        writer.number(self.elements);
        copy_elements(self.shape, list, writer)?;
        Ok(())
    }
}

/// Hands on the elements that are left, without the count before them, and counts them.
fn copy_elements(shape: Shape, list: Part<'_>, sink: &mut impl Sink) -> Result<u32, Refusal> {
    let mut rest = list;
    let count = rest.number()?;
    match shape {
        Shape::Flat => copy_flat(&mut rest, count, sink).map(|()| count),
        Shape::Nested => copy_nested(&mut rest, count, sink),
    }
}

fn copy_nested(rest: &mut Part<'_>, count: u32, sink: &mut impl Sink) -> Result<u32, Refusal> {
    let mut left = 0;
    for _ in 0..count {
        let primary = rest.number()?;
        let entries = rest.number()?;
        if entries > 0 {
            left += 1;
            sink.number(primary);
            sink.number(entries);
            copy_flat(rest, entries, sink)?;
        }
    }
    Ok(left)
}

fn copy_flat(rest: &mut Part<'_>, count: u32, sink: &mut impl Sink) -> Result<(), Refusal> {
    for _ in 0..count {
        sink.number(rest.number()?);
        sink.sized(rest.sized()?.bytes());
    }
    Ok(())
}
