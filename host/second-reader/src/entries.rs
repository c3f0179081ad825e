//! Every row of a payload at once, into lent lists: the names of a subsection, the data or the hints.
//!
//! A payload is judged whole first. Then all rows go to the front of the lists, unless one of these is too short.

use crate::answer::{Answer, Kind, Reason, Refusal};
use crate::edition::{Edition, Form, Shape};
use crate::metadata::{self, Format};
use crate::names;
use crate::older;
use crate::reading::Part;

/// Every name in the subsection with an id: its index, the index within that, where it lies, and how long it is. None
/// without the subsection, and for ids that are kept.
pub fn names_list(
    payload: &[u8],
    id: u8,
    firsts: &mut [u32],
    seconds: &mut [u32],
    offsets: &mut [u64],
    lengths: &mut [u64],
) -> Answer {
    let lists = PlaceLists(firsts, seconds, offsets, lengths);
    Answer::of(list_names(payload, Edition::First, id, lists))
}

/// The same in the wider edition.
pub fn wide_names_list(
    payload: &[u8],
    id: u8,
    firsts: &mut [u32],
    seconds: &mut [u32],
    offsets: &mut [u64],
    lengths: &mut [u64],
) -> Answer {
    let lists = PlaceLists(firsts, seconds, offsets, lengths);
    Answer::of(list_names(payload, Edition::Wider, id, lists))
}

/// All data of a payload of any format: function, code offset, where the data lies, and how long it is.
pub fn metadata_list(
    payload: &[u8],
    functions: &mut [u32],
    code_offsets: &mut [u32],
    offsets: &mut [u64],
    lengths: &mut [u64],
) -> Answer {
    let mut rows = vec![];
    let read = metadata::read(Part::whole(payload), Format::Any, |function, at, data| {
        rows.push((function, at, data));
    });
    let lists = PlaceLists(functions, code_offsets, offsets, lengths);
    Answer::counted(read.and_then(|()| lists.fill(&rows)))
}

/// All branch hints: function, code offset, and 0 for unlikely or 1 for likely.
pub fn hints_list(
    payload: &[u8],
    functions: &mut [u32],
    code_offsets: &mut [u32],
    likely: &mut [u32],
) -> Answer {
    let mut rows = vec![];
    let read = metadata::read(
        Part::whole(payload),
        Format::BranchHint,
        |function, at, data| {
            let is_likely = metadata::hint_of(data) == Some(Kind::Likely);
            rows.push((function, at, is_likely));
        },
    );
    let lists = HintLists(functions, code_offsets, likely);
    Answer::counted(read.and_then(|()| lists.fill(&rows)))
}

/// The same of the older edition: every pair of function and offset once, in their order, with the first hint for it.
pub fn old_hints_list(
    payload: &[u8],
    functions: &mut [u32],
    code_offsets: &mut [u32],
    likely: &mut [u32],
) -> Answer {
    let rows = older::in_order(payload).map(|hints| {
        let row = |hint: &older::OldHint| (hint.function, hint.offset, hint.likely);
        hints.iter().map(row).collect::<Vec<HintRow>>()
    });
    let lists = HintLists(functions, code_offsets, likely);
    Answer::counted(rows.and_then(|rows| lists.fill(&rows)))
}

fn list_names(
    payload: &[u8],
    edition: Edition,
    id: u8,
    lists: PlaceLists<'_>,
) -> Result<Option<Answer>, Refusal> {
    let Some(contents) = names::contents(payload, edition, id)? else {
        return Ok(None);
    };
    let rows = match edition.form(id) {
        Form::Kept => return Ok(None),
        Form::Name => rows_of_one_name(contents)?,
        Form::List(Shape::Flat) => rows_of_map(contents)?,
        Form::List(Shape::Nested) => rows_of_indirect_map(contents)?,
    };
    let count = lists.fill(&rows)?;
    Ok(Some(Answer::found(0, count)))
}

/// Two numbers, and a part of what was lent.
type PlaceRow<'a> = (u32, u32, Part<'a>);

/// What stands for an index where there is none.
const NO_INDEX: u32 = 0;

fn rows_of_one_name(mut contents: Part<'_>) -> Result<Vec<PlaceRow<'_>>, Refusal> {
    Ok(vec![(NO_INDEX, NO_INDEX, contents.sized()?)])
}

fn rows_of_map(mut contents: Part<'_>) -> Result<Vec<PlaceRow<'_>>, Refusal> {
    let mut rows = vec![];
    contents.ascending_list(|part, index| {
        rows.push((index, NO_INDEX, part.sized()?));
        Ok(())
    })?;
    Ok(rows)
}

fn rows_of_indirect_map(mut contents: Part<'_>) -> Result<Vec<PlaceRow<'_>>, Refusal> {
    let mut rows = vec![];
    contents.ascending_list(|part, primary| {
        part.ascending_list(|part, index| {
            rows.push((primary, index, part.sized()?));
            Ok(())
        })
    })?;
    Ok(rows)
}

/// Lists for two numbers, and for offset and length of a part.
struct PlaceLists<'a>(&'a mut [u32], &'a mut [u32], &'a mut [u64], &'a mut [u64]);

impl PlaceLists<'_> {
    /// Writes all rows, and answers how many there are.
    fn fill(self, rows: &[PlaceRow<'_>]) -> Result<u64, Refusal> {
        let PlaceLists(firsts, seconds, offsets, lengths) = self;
        let rooms = [firsts.len(), seconds.len(), offsets.len(), lengths.len()];
        let count = fitting(rows.len(), &rooms)?;
        for (at, (first, second, part)) in rows.iter().enumerate() {
            firsts[at] = *first;
            seconds[at] = *second;
            offsets[at] = part.offset() as u64;
            lengths[at] = part.bytes().len() as u64;
        }
        Ok(count)
    }
}

/// Two numbers, and whether the hint is likely.
type HintRow = (u32, u32, bool);

/// Lists for them.
struct HintLists<'a>(&'a mut [u32], &'a mut [u32], &'a mut [u32]);

impl HintLists<'_> {
    /// Writes all rows, and answers how many there are.
    fn fill(self, rows: &[HintRow]) -> Result<u64, Refusal> {
        let HintLists(functions, code_offsets, likely) = self;
        let rooms = [functions.len(), code_offsets.len(), likely.len()];
        let count = fitting(rows.len(), &rooms)?;
        for (at, (function, offset, is_likely)) in rows.iter().enumerate() {
            functions[at] = *function;
            code_offsets[at] = *offset;
            likely[at] = u32::from(*is_likely);
        }
        Ok(count)
    }
}

/// How many rows there are, unless one of the lists is shorter.
fn fitting(rows: usize, rooms: &[usize]) -> Result<u64, Refusal> {
    if rooms.iter().any(|room| *room < rows) {
        return Err(Reason::OutputTooShort.at(rows));
    }
    Ok(rows as u64)
}
