//! Every operation that a payload allows, put once to each reader, and the two results compared.

mod rows;
mod shared;

use comparison::library::{self, ToldStream};
use comparison::markers::Markers;

use crate::made::LAST_BRANCH;
use crate::name_map::{Lists, NameMap, FUNCTIONS, GLOBALS};
use crate::old_hints::GREATEST_BRANCH;
use crate::operation::{region, Operation, Who};
use crate::payload::{Kind, Payload};
use crate::region::counted;

/// What an output holds before a call.
const UNTOUCHED: u8 = 0xEE;

/// How many bytes the parts of a module have, where it is given in several.
const PART: usize = 4_096;

/// The fewest bytes that a payload has for each of its markers: sixteen entries of two bytes.
const BYTES_OF_A_MARKER: usize = 32;

/// An operation, and whether the two readers agreed on it.
type Compared = (Operation, bool);

/// Counts one call of each reader in its region. They agree if they answer alike.
macro_rules! asked {
    ($operation:expr, $call:ident($($argument:expr),*) where $lent:pat_param = $input:expr) => {{
        const LIBRARY: u8 = region($operation, Who::Library);
        const READER: u8 = region($operation, Who::SecondReader);
        let told = counted::<LIBRARY, _, _>($input, |$lent| library::$call($($argument),*));
        let read = counted::<READER, _, _>($input, |$lent| second_reader::$call($($argument),*));
        ($operation, are_alike(told, read))
    }};
}

/// The same for calls that write, each into an output of its own. They agree if they leave the outputs alike, too.
macro_rules! written {
    ($operation:expr, $call:ident($($argument:expr),*) where $lent:pat_param = $input:expr, $out:ident of $room:expr) => {{
        const LIBRARY: u8 = region($operation, Who::Library);
        const READER: u8 = region($operation, Who::SecondReader);
        let (mut by_library, mut by_reader) = (vec![UNTOUCHED; $room], vec![UNTOUCHED; $room]);
        let told = counted::<LIBRARY, _, _>(($input, &mut by_library[..]), |($lent, $out)| {
            library::$call($($argument),*)
        });
        let read = counted::<READER, _, _>(($input, &mut by_reader[..]), |($lent, $out)| {
            second_reader::$call($($argument),*)
        });
        ($operation, are_alike(told, read) && by_library == by_reader)
    }};
}

fn are_alike<Told: PartialEq>(told: Told, read: impl Into<Told>) -> bool {
    told == read.into()
}

/// The operations that were measured, or the one on which the readers differ.
pub fn measure(payload: &Payload) -> Result<Vec<Operation>, String> {
    let bytes = &payload.bytes;
    let alone = |operations: Vec<Compared>| [vec![walk(&payload.module())], operations].concat();
    let compared = match payload.kind {
        Kind::Names => alone(names(bytes)),
        Kind::WideNames => alone([names(bytes), wide_names(bytes)].concat()),
        Kind::Hints => alone(hints(bytes)),
        Kind::OldHints => alone(old_hints(bytes)),
        Kind::Pair => pair(bytes, &payload.own),
        Kind::WidePair => wide_pair(bytes, &payload.own),
        Kind::Module => module(bytes),
        Kind::Code => vec![walk(bytes), on_branches(bytes)],
        Kind::Shared => shared::calls(payload),
        Kind::Gaps => vec![shared::compaction(payload)],
    };
    let agreed = |(operation, alike): Compared| match alike {
        true => Ok(operation),
        false => Err(format!(
            "The library and the second reader differ: {} of {}.",
            operation.words(),
            payload.name
        )),
    };
    compared.into_iter().map(agreed).collect()
}

fn walk(module: &[u8]) -> Compared {
    asked!(Operation::Walk, walk(lent) where lent = module)
}

fn on_branches(module: &[u8]) -> Compared {
    asked!(Operation::OnBranches, hints_on_branches(lent) where lent = module)
}

/// A module lent whole, and given in parts.
fn module(module: &[u8]) -> Vec<Compared> {
    const WHOLE: [u8; 2] = regions(Operation::StreamWhole);
    const IN_PARTS: [u8; 2] = regions(Operation::StreamInParts);
    const IN_BYTES: [u8; 2] = regions(Operation::StreamInBytes);
    vec![
        walk(module),
        (
            Operation::StreamWhole,
            are_streamed_alike::<{ WHOLE[0] }, { WHOLE[1] }>(module, module.len()),
        ),
        (
            Operation::StreamInParts,
            are_streamed_alike::<{ IN_PARTS[0] }, { IN_PARTS[1] }>(module, PART),
        ),
        (
            Operation::StreamInBytes,
            are_streamed_alike::<{ IN_BYTES[0] }, { IN_BYTES[1] }>(module, 1),
        ),
    ]
}

/// The regions of both readers.
const fn regions(operation: Operation) -> [u8; 2] {
    [
        region(operation, Who::Library),
        region(operation, Who::SecondReader),
    ]
}

/// Whether both readers say the same of a module in parts of a length: from the beginning of a stream to its finish.
fn are_streamed_alike<const LIBRARY: u8, const READER: u8>(module: &[u8], length: usize) -> bool {
    let told = counted::<LIBRARY, _, _>((module, length), |(module, length)| {
        let mut stream = library::stream_begin();
        for part in module.chunks(length) {
            library::stream_part(&mut stream, part);
        }
        library::stream_finish(&mut stream)
    });
    let read = counted::<READER, _, _>((module, length), |(module, length)| {
        let mut stream = second_reader::stream_begin();
        for part in module.chunks(length) {
            let _ = second_reader::stream_part(&mut stream, part);
        }
        second_reader::stream_finish(&mut stream)
    });
    are_alike::<ToldStream>(told, read)
}

fn names(payload: &[u8]) -> Vec<Compared> {
    let mut compared = vec![judge(payload), tell(payload)];
    let map = NameMap::of(payload, FUNCTIONS);
    let last = map.as_ref().and_then(|map| map.lists.indices.last());
    compared.extend(last.map(|&last| look_up(payload, last)));
    compared.push(markers(payload));
    compared.extend(last.map(|&last| quick(payload, last)).into_iter().flatten());
    compared.extend(last.map(|&last| why(payload, last)));
    compared.push(rewrite(payload));
    let alone = map.filter(|map| map.alone);
    compared.extend(alone.map(|map| write_from_lists(&map.lists, payload.len())));
    compared.extend(rows::of_names(payload));
    compared
}

fn judge(payload: &[u8]) -> Compared {
    asked!(Operation::Judge, names_judge(lent) where lent = payload)
}

fn tell(payload: &[u8]) -> Compared {
    asked!(Operation::Tell, names_is_canonical(lent) where lent = payload)
}

fn look_up(payload: &[u8], last: u32) -> Compared {
    asked!(Operation::LookUp, function_name(lent, last) where (lent, last) = (payload, last))
}

/// They agree if they leave both lists alike, too.
fn markers(payload: &[u8]) -> Compared {
    const LIBRARY: u8 = region(Operation::Markers, Who::Library);
    const READER: u8 = region(Operation::Markers, Who::SecondReader);
    let (mut by_library, mut by_reader) = (room_for_markers(payload), room_for_markers(payload));
    let (indices, offsets) = &mut by_library;
    let told = counted::<LIBRARY, _, _>(
        (payload, &mut indices[..], &mut offsets[..]),
        |(lent, indices, offsets)| library::markers(lent, indices, offsets),
    );
    let (indices, offsets) = &mut by_reader;
    let read = counted::<READER, _, _>(
        (payload, &mut indices[..], &mut offsets[..]),
        |(lent, indices, offsets)| second_reader::markers(lent, indices, offsets),
    );
    let alike = are_alike(told, read) && by_library == by_reader;
    (Operation::Markers, alike)
}

/// Two lists that are long enough.
fn room_for_markers(payload: &[u8]) -> (Vec<u32>, Vec<u32>) {
    let untouched = vec![u32::from(UNTOUCHED); payload.len() / BYTES_OF_A_MARKER + 1];
    (untouched.clone(), untouched)
}

/// The quick question for the first name, which is little more than the check of the lists, and for the last.
fn quick(payload: &[u8], last: u32) -> [Compared; 2] {
    let (mut indices, mut offsets) = room_for_markers(payload);
    let made = second_reader::markers(payload, &mut indices, &mut offsets);
    let count = made.length as usize;
    let markers = Markers::new(&indices[..count], &offsets[..count], made.offset);
    let first = markers.indices[0];
    [
        quick_first(payload, &markers, first),
        quick_last(payload, &markers, last),
    ]
}

fn quick_first(payload: &[u8], markers: &Markers, first: u32) -> Compared {
    let lists = (&markers.indices[..], &markers.offsets[..]);
    asked!(
        Operation::QuickFirst,
        quick_function_name(lent, indices, offsets, end, first)
        where (lent, (indices, offsets), end, first) = (payload, lists, markers.end, first)
    )
}

fn quick_last(payload: &[u8], markers: &Markers, last: u32) -> Compared {
    let lists = (&markers.indices[..], &markers.offsets[..]);
    asked!(
        Operation::QuickLast,
        quick_function_name(lent, indices, offsets, end, last)
        where (lent, (indices, offsets), end, last) = (payload, lists, markers.end, last)
    )
}

fn why(payload: &[u8], last: u32) -> Compared {
    asked!(Operation::Why, why_function(lent, last) where (lent, last) = (payload, last))
}

fn rewrite(payload: &[u8]) -> Compared {
    let room = payload.len();
    written!(Operation::Rewrite, names_canonical(lent, out) where lent = payload, out of room)
}

fn write_from_lists(lists: &Lists, room: usize) -> Compared {
    let lists = (&lists.indices[..], &lists.lengths[..], &lists.text[..]);
    written!(
        Operation::WriteFromLists,
        function_names_write(indices, lengths, text, out)
        where (indices, lengths, text) = lists, out of room
    )
}

fn wide_names(payload: &[u8]) -> Vec<Compared> {
    let globals = NameMap::of(payload, GLOBALS);
    let last = globals.and_then(|map| map.lists.indices.last().copied());
    let mut compared = vec![wide_judge(payload), wide_tell(payload)];
    compared.extend(last.map(|last| wide_look_up(payload, last)));
    compared.push(wide_rewrite(payload));
    compared.push(rows::of_wide_names(payload));
    compared
}

fn wide_judge(payload: &[u8]) -> Compared {
    asked!(Operation::WideJudge, wide_names_judge(lent) where lent = payload)
}

fn wide_tell(payload: &[u8]) -> Compared {
    asked!(Operation::WideTell, wide_names_is_canonical(lent) where lent = payload)
}

fn wide_look_up(payload: &[u8], last: u32) -> Compared {
    asked!(Operation::WideLookUp, wide_global_name(lent, last) where (lent, last) = (payload, last))
}

fn wide_rewrite(payload: &[u8]) -> Compared {
    let room = payload.len();
    written!(Operation::WideRewrite, wide_names_canonical(lent, out) where lent = payload, out of room)
}

fn hints(payload: &[u8]) -> Vec<Compared> {
    let [metadata_listed, hints_listed] = rows::of_hints(payload);
    vec![
        judge_hints(payload),
        tell_hints(payload),
        look_hint_up(payload, LAST_BRANCH),
        rewrite_hints(payload),
        hints_listed,
        metadata_listed,
    ]
}

fn judge_hints(payload: &[u8]) -> Compared {
    asked!(Operation::JudgeHints, hints_judge(lent) where lent = payload)
}

fn tell_hints(payload: &[u8]) -> Compared {
    asked!(Operation::TellHints, hints_is_canonical(lent) where lent = payload)
}

fn look_hint_up(payload: &[u8], branch: (u32, u32)) -> Compared {
    asked!(
        Operation::LookHintUp,
        hint(lent, function, offset)
        where (lent, (function, offset)) = (payload, branch)
    )
}

fn rewrite_hints(payload: &[u8]) -> Compared {
    let room = payload.len();
    written!(Operation::RewriteHints, hints_canonical(lent, out) where lent = payload, out of room)
}

fn old_hints(payload: &[u8]) -> Vec<Compared> {
    vec![
        judge_old_hints(payload),
        tell_old_hints(payload),
        look_old_hint_up(payload, GREATEST_BRANCH),
        rewrite_old_hints(payload),
        rows::of_old_hints(payload),
    ]
}

fn judge_old_hints(payload: &[u8]) -> Compared {
    asked!(Operation::JudgeOldHints, old_hints_judge(lent) where lent = payload)
}

fn tell_old_hints(payload: &[u8]) -> Compared {
    asked!(Operation::TellOldHints, old_hints_is_canonical(lent) where lent = payload)
}

fn rewrite_old_hints(payload: &[u8]) -> Compared {
    let room = payload.len();
    written!(
        Operation::RewriteOldHints,
        old_hints_canonical(lent, out) where lent = payload, out of room
    )
}

fn look_old_hint_up(payload: &[u8], branch: (u32, u32)) -> Compared {
    asked!(
        Operation::LookOldHintUp,
        old_hint(lent, function, offset)
        where (lent, (function, offset)) = (payload, branch)
    )
}

/// The greatest index that has a name in a map of either payload.
fn last_of_both(separate: &[u8], own: &[u8], map_id: u8) -> Option<u32> {
    let maps = [separate, own].map(|payload| NameMap::of(payload, map_id));
    let last = |map: NameMap| map.lists.indices.last().copied();
    maps.into_iter().flatten().filter_map(last).max()
}

fn pair(separate: &[u8], own: &[u8]) -> Vec<Compared> {
    let last = last_of_both(separate, own, FUNCTIONS);
    let mut compared = vec![
        join(separate, own),
        written!(
            Operation::SeparateRewrite,
            names_canonical(lent, out) where lent = separate, out of separate.len()
        ),
        written!(
            Operation::OwnRewrite,
            names_canonical(lent, out) where lent = own, out of own.len()
        ),
    ];
    compared.extend(
        last.into_iter()
            .flat_map(|last| look_up_in_two(separate, own, last)),
    );
    compared
}

fn join(separate: &[u8], own: &[u8]) -> Compared {
    let room = separate.len() + own.len();
    written!(
        Operation::Join,
        pair_join(separate, own, out) where (separate, own) = (separate, own), out of room
    )
}

/// A function's name in both, and in each of them.
fn look_up_in_two(separate: &[u8], own: &[u8], last: u32) -> [Compared; 3] {
    [
        asked!(
            Operation::PairLookUp,
            pair_function_name(separate, own, last)
            where (separate, own, last) = (separate, own, last)
        ),
        asked!(
            Operation::SeparateLookUp,
            function_name(lent, last) where (lent, last) = (separate, last)
        ),
        asked!(
            Operation::OwnLookUp,
            function_name(lent, last) where (lent, last) = (own, last)
        ),
    ]
}

fn wide_pair(separate: &[u8], own: &[u8]) -> Vec<Compared> {
    let last = last_of_both(separate, own, GLOBALS);
    let mut compared = vec![
        wide_join(separate, own),
        written!(
            Operation::WideSeparateRewrite,
            wide_names_canonical(lent, out) where lent = separate, out of separate.len()
        ),
        written!(
            Operation::WideOwnRewrite,
            wide_names_canonical(lent, out) where lent = own, out of own.len()
        ),
    ];
    compared.extend(
        last.into_iter()
            .flat_map(|last| look_up_widely_in_two(separate, own, last)),
    );
    compared
}

fn wide_join(separate: &[u8], own: &[u8]) -> Compared {
    let room = separate.len() + own.len();
    written!(
        Operation::WideJoin,
        wide_pair_join(separate, own, out) where (separate, own) = (separate, own), out of room
    )
}

/// A global's name in both, and in each of them.
fn look_up_widely_in_two(separate: &[u8], own: &[u8], last: u32) -> [Compared; 3] {
    [
        asked!(
            Operation::WidePairLookUp,
            wide_pair_global_name(separate, own, last)
            where (separate, own, last) = (separate, own, last)
        ),
        asked!(
            Operation::WideSeparateLookUp,
            wide_global_name(lent, last) where (lent, last) = (separate, last)
        ),
        asked!(
            Operation::WideOwnLookUp,
            wide_global_name(lent, last) where (lent, last) = (own, last)
        ),
    ]
}

#[cfg(test)]
mod tests {
    use super::*;
    use crate::payload;

    #[test]
    fn the_readers_agree_on_every_operation() {
        let mut operations = vec![];
        for name in payload::names() {
            let payload = payload::named(&name).expect("it was named");
            operations.extend(measure(&payload).expect("they agree"));
        }
        for tried in [
            Operation::Tell,
            Operation::Markers,
            Operation::QuickFirst,
            Operation::QuickLast,
            Operation::Why,
            Operation::WriteFromLists,
            Operation::ListFunctions,
            Operation::ListLocals,
            Operation::WideListGlobals,
            Operation::ListHints,
            Operation::ListMetadata,
            Operation::ListOldHints,
            Operation::TellHints,
            Operation::RewriteHints,
            Operation::WideTell,
            Operation::WideLookUp,
            Operation::WideRewrite,
            Operation::LookOldHintUp,
            Operation::TellOldHints,
            Operation::RewriteOldHints,
            Operation::PairLookUp,
            Operation::OwnRewrite,
            Operation::Join,
            Operation::WidePairLookUp,
            Operation::WideOwnRewrite,
            Operation::WideJoin,
            Operation::StreamWhole,
            Operation::StreamInParts,
            Operation::StreamInBytes,
            Operation::OnBranches,
            Operation::TableOpen,
            Operation::TableLookUp,
            Operation::TableClose,
            Operation::TableCompact,
        ] {
            assert!(operations.contains(&tried), "not tried: {}", tried.words());
        }
    }
}
