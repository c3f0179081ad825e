//! All entries of a payload: each is what the question for it gives, none is left out, and a payload that is refused has
//! none.

mod common;

use std::collections::BTreeMap;
use std::fmt::Debug;
use std::fs;
use std::path::Path;

use common::{refused, EVERY_ID, P};
use wakemiono::{
    function_names, CodeOffset, Edition, Entries, FunctionIndex, Hint, Hints, InstructionOffset,
    LocalIndex, Metadata, Module, Name, NamePayload, OldHints, Refusal, TypeIndex, Wider,
};

/// All entries are found when they are asked for, and their keys rise. Hands back how many there are.
#[track_caller]
fn found<Key: Copy + Debug + Ord, Value: Copy + Debug + PartialEq>(
    entries: Result<Entries<Key, Value>, Refusal>,
    ask: impl Fn(Key) -> Result<Option<Value>, Refusal>,
) -> usize {
    let entries: Vec<(Key, Value)> = entries.expect("it is accepted").collect();
    assert!(entries.windows(2).all(|two| two[0].0 < two[1].0));
    for (key, value) in &entries {
        assert_eq!(ask(*key), Ok(Some(*value)), "{key:?}");
    }
    entries.len()
}

/// The same of all that both editions list of an accepted payload.
fn names_found<E: Edition>(payload: NamePayload<'_, E>) -> [usize; 5] {
    [
        found(payload.function_names(), |it| payload.function_name(it)),
        found(payload.type_names(), |it| payload.type_name(it)),
        found(payload.tag_names(), |it| payload.tag_name(it)),
        found(payload.local_names(), |(function, it)| {
            payload.local_name(function, it)
        }),
        found(payload.field_names(), |(type_, it)| {
            payload.field_name(type_, it)
        }),
    ]
}

/// And of all that only the wider edition lists.
fn wide_names_found(payload: NamePayload<'_, Wider>) -> [usize; 6] {
    [
        found(payload.label_names(), |(function, it)| {
            payload.label_name(function, it)
        }),
        found(payload.table_names(), |it| payload.table_name(it)),
        found(payload.memory_names(), |it| payload.memory_name(it)),
        found(payload.global_names(), |it| payload.global_name(it)),
        found(payload.element_names(), |it| payload.element_name(it)),
        found(payload.data_names(), |it| payload.data_name(it)),
    ]
}

#[test]
fn the_payload_of_the_documents() {
    let payload = NamePayload::new(&P);
    assert_eq!(names_found(payload), [2, 0, 0, 1, 0]);
    let mut functions = payload.function_names().unwrap();
    assert_eq!(format!("{functions:?}"), "Entries(2 left)");
    let last = functions.next_back().unwrap();
    assert_eq!((last.0, last.1.as_bytes()), (FunctionIndex(3), &b"b"[..]));
    assert_eq!(functions.len(), 1);
    let by_index: BTreeMap<(FunctionIndex, LocalIndex), Name> =
        payload.local_names().unwrap().collect();
    let name = by_index[&(FunctionIndex(3), LocalIndex(0))];
    assert_eq!(name.to_str(), Ok("x"));
}

#[test]
fn one_name_for_each_id() {
    assert_eq!(names_found(NamePayload::new(&EVERY_ID)), [1; 5]);
    assert_eq!(names_found(NamePayload::wider(&EVERY_ID)), [1; 5]);
    assert_eq!(wide_names_found(NamePayload::wider(&EVERY_ID)), [1; 6]);
}

#[test]
fn nothing_is_an_empty_list() {
    for payload in [&[][..], &[0x01, 0x01, 0x00], &[0x0C, 0x01, 0xFF]] {
        assert_eq!(names_found(NamePayload::new(payload)), [0; 5]);
        assert_eq!(wide_names_found(NamePayload::wider(payload)), [0; 6]);
    }
    assert_eq!(Metadata::new(&[0x00]).items().unwrap().next(), None);
    assert_eq!(Hints::new(&[0x01, 0x02, 0x00]).items().unwrap().len(), 0);
    let old = OldHints::new(&[0x01, 0x02, 0x00, 0x00]);
    assert_eq!(old.items().unwrap().len(), 0);
}

/// Whatever is listed, a fault anywhere is found, and is the one that judging gives.
#[test]
fn what_is_refused_has_no_entries() {
    let left_over = [0x01, 0x02, 0x00, 0x00];
    let names = NamePayload::new(&left_over);
    assert_eq!(refused(names.function_names()), (10, 3));
    assert_eq!(refused(names.local_names()), (10, 3));
    let no_globals = NamePayload::wider(&[0x07, 0x01, 0xFF]);
    assert_eq!(
        refused(no_globals.type_names()),
        refused(no_globals.judge())
    );
    assert_eq!(refused(Metadata::new(&[0x00, 0x00]).items()), (10, 1));
    let no_hint = [0x01, 0x02, 0x01, 0x05, 0x01, 0x02];
    assert_eq!(refused(Hints::new(&no_hint).items()), (12, 4));
    assert_eq!(Metadata::new(&no_hint).items().unwrap().len(), 1);
    let not_zero = OldHints::new(&[0x01, 0x02, 0x80, 0x00]);
    assert_eq!(refused(not_zero.items()), (17, 2));
}

#[test]
fn older_hints_are_listed_once_and_in_order() {
    let hints = OldHints::new(&[
        0x03, 0x05, 0x00, 0x02, 0x01, 0x09, 0x80, 0x00, 0x04, 0x02, 0x00, 0x01, 0x01, 0x80, 0x01,
        0x05, 0x00, 0x02, 0x00, 0x09, 0x01, 0x03,
    ]);
    let place = |function, at| (FunctionIndex(function), InstructionOffset(at));
    let all: Vec<_> = hints.items().unwrap().collect();
    assert_eq!(
        all,
        [
            (place(2, 128), Hint::Likely),
            (place(5, 3), Hint::Likely),
            (place(5, 4), Hint::Unlikely),
            (place(5, 9), Hint::Likely),
        ]
    );
    assert_eq!(
        found(hints.items(), |(function, at)| hints.hint(function, at)),
        4
    );
}

/// Functions, written from what is listed, are the payload that has them alone.
#[test]
fn what_is_listed_can_be_written_again() {
    let written = function_names((0..500).map(|it| (FunctionIndex(3 * it), "name"))).unwrap();
    let listed = NamePayload::new(&written).function_names().unwrap();
    assert_eq!(listed.len(), 500);
    assert_eq!(function_names(listed), Ok(written));
}

/// The payloads of the fixtures that are accepted, by the second reading of them that names every function.
#[test]
fn all_names_of_fixtures() {
    let folder = Path::new(env!("CARGO_MANIFEST_DIR")).join("../fixtures");
    let mut names = 0;
    for entry in fs::read_dir(folder).unwrap() {
        let path = entry.unwrap().path();
        if path.extension().is_none_or(|kind| kind != "wasm") {
            continue;
        }
        let bytes = fs::read(&path).unwrap();
        let (first, wider) = (Module::new(&bytes), Module::wider(&bytes));
        if first.module_name().is_ok() {
            let payload = first.names().unwrap();
            names += payload.map_or(0, |payload| names_found(payload).iter().sum());
        }
        if wider.module_name().is_ok() {
            let payload = wider.names().unwrap();
            names += payload.map_or(0, |payload| wide_names_found(payload).iter().sum());
        }
        hints_found(first);
    }
    assert!(names > 1_000, "{names}");
}

fn hints_found(module: Module<'_>) {
    if module.hint(FunctionIndex(0), CodeOffset(0)).is_ok() {
        if let Some(hints) = module.hints().unwrap() {
            found(hints.items(), |(function, at)| hints.hint(function, at));
            let data = Metadata::new(hints.as_bytes());
            let count = found(data.items(), |(function, at)| data.data(function, at));
            assert_eq!(hints.items().unwrap().len(), count);
        }
    }
    if module
        .old_hint(FunctionIndex(0), InstructionOffset(0))
        .is_ok()
    {
        if let Some(hints) = module.old_hints().unwrap() {
            found(hints.items(), |(function, at)| hints.hint(function, at));
        }
    }
}

/// Types have one index, and what they list is not taken for another kind.
#[test]
fn a_kind_is_part_of_the_type() {
    let types: Entries<TypeIndex, Name> = NamePayload::new(&EVERY_ID).type_names().unwrap();
    assert_eq!(types.map(|(type_, _)| type_.0).collect::<Vec<_>>(), [3]);
}
