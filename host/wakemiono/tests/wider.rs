//! The wider edition of names: what it knows beside the first edition, and what tells them apart.

mod common;

use common::{custom, module, refused, section, text, AllQuestions, Asked, EVERY_ID, ONLY_WIDER};
use wakemiono::{
    offset_in, DataIndex, ElementIndex, FunctionIndex, GlobalIndex, LabelIndex, MemoryIndex,
    Module, NamePayload, TableIndex, TypeIndex, Wider,
};

/// The names of `EVERY_ID` and where they lie, in the order in which `AllQuestions` asks for them.
const EVERY_NAME: [(&str, usize); 12] = [
    ("m", 3),
    ("f", 9),
    ("t", 31),
    ("g", 75),
    ("l", 17),
    ("d", 69),
    ("b", 25),
    ("a", 37),
    ("y", 43),
    ("v", 49),
    ("e", 55),
    ("s", 61),
];

/// The ids of the plain maps that only the wider edition knows.
const MAPS: [u8; 5] = [5, 6, 7, 8, 9];

/// The name that the plain map with an id gives to index 3.
#[track_caller]
fn mapped(payload: NamePayload<'_, Wider>, id: u8) -> &str {
    text(match id {
        5 => payload.table_name(TableIndex(3)),
        6 => payload.memory_name(MemoryIndex(3)),
        7 => payload.global_name(GlobalIndex(3)),
        8 => payload.element_name(ElementIndex(3)),
        9 => payload.data_name(DataIndex(3)),
        other => panic!("{other} is the id of no such map"),
    })
}

/// The names that must be there, each with its offset in what was lent.
#[track_caller]
fn located<'a>(answers: Vec<Asked<'a>>, lent: &[u8]) -> Vec<(&'a str, usize)> {
    let offset = |name: &str| offset_in(lent, name.as_bytes()).expect("it lies in what was lent");
    let names = answers.into_iter().map(text);
    names.map(|name| (name, offset(name))).collect()
}

#[test]
fn each_question_has_its_own_subsection() {
    let payload = NamePayload::wider(&EVERY_ID);
    assert_eq!(located(Wider::names(payload, 3, 2), &EVERY_ID), EVERY_NAME);
    let swapped = Wider::names(payload, 2, 3);
    assert_eq!(text(swapped[0]), "m");
    assert_eq!(swapped[1..], [Ok(None); 11]);
}

#[test]
fn none_of_the_twelve_ids_is_kept() {
    let payload = NamePayload::wider(&EVERY_ID);
    for id in 0..=255 {
        let contents = match id {
            12 => Some(&[0xFF, 0xFE][..]),
            255 => Some(&[][..]),
            _ => None,
        };
        assert_eq!(payload.kept(id), Ok(contents), "{id}");
    }
}

#[test]
fn the_first_edition_keeps_six_of_them() {
    let first = NamePayload::new(&EVERY_ID);
    for id in ONLY_WIDER {
        let contents = first.kept(id).unwrap().expect("it is kept");
        let at = offset_in(&EVERY_ID, contents).unwrap();
        assert_eq!(EVERY_ID[at - 2..at], [id, contents.len() as u8]);
        assert_eq!(contents[..2], [1, 3]);
    }
    assert_eq!(first.kept(12), Ok(Some(&[0xFF, 0xFE][..])));
}

#[test]
fn an_empty_name_is_found_and_no_name_is_not() {
    for id in MAPS {
        let bytes = [id, 3, 1, 3, 0];
        let payload = NamePayload::wider(&bytes);
        let name = mapped(payload, id);
        assert_eq!((name, offset_in(&bytes, name.as_bytes())), ("", Some(5)));
        let found = Wider::names(payload, 3, 2);
        let others = found.iter().filter(|answer| **answer == Ok(None));
        assert_eq!(others.count(), 11);
    }
    let bytes = [3, 5, 1, 3, 1, 2, 0];
    let label = NamePayload::wider(&bytes).label_name(FunctionIndex(3), LabelIndex(2));
    assert_eq!(text(label), "");
    assert_eq!(
        offset_in(&bytes, label.unwrap().unwrap().as_bytes()),
        Some(7)
    );
}

#[test]
fn the_largest_index_is_asked_as_any_other() {
    let label = NamePayload::wider(&[
        0x03, 0x0E, 0x01, 0xFF, 0xFF, 0xFF, 0xFF, 0x0F, 0x01, 0xFF, 0xFF, 0xFF, 0xFF, 0x0F, 0x01,
        0x7A,
    ]);
    let largest = (FunctionIndex(u32::MAX), LabelIndex(u32::MAX));
    assert_eq!(text(label.label_name(largest.0, largest.1)), "z");
    assert_eq!(label.label_name(largest.0, LabelIndex(0)), Ok(None));
    let data = NamePayload::wider(&[0x09, 0x08, 0x01, 0xFF, 0xFF, 0xFF, 0xFF, 0x0F, 0x01, 0x7A]);
    assert_eq!(text(data.data_name(DataIndex(u32::MAX))), "z");
    assert_eq!(data.data_name(DataIndex(u32::MAX - 1)), Ok(None));
}

#[test]
fn an_empty_map_is_dropped_and_the_first_edition_keeps_it() {
    for id in ONLY_WIDER {
        let bytes = [id, 1, 0];
        let (first, wider) = (NamePayload::new(&bytes), NamePayload::wider(&bytes));
        assert_eq!(wider.to_canonical(), Ok(vec![]));
        assert!(!wider.is_canonical());
        assert_eq!(first.to_canonical(), Ok(bytes.to_vec()));
        assert!(first.is_canonical());
    }
}

#[test]
fn labels_are_rewritten_as_locals_are() {
    let group_without_labels = [0x03, 0x08, 0x02, 0x00, 0x00, 0x03, 0x01, 0x02, 0x01, 0x62];
    let without_it = vec![0x03, 0x06, 0x01, 0x03, 0x01, 0x02, 0x01, 0x62];
    let payload = NamePayload::wider(&group_without_labels);
    assert_eq!(payload.to_canonical(), Ok(without_it.clone()));
    assert!(!payload.is_canonical());
    assert!(NamePayload::wider(&without_it).is_canonical());
    let only_empty_groups = NamePayload::wider(&[0x03, 0x05, 0x02, 0x00, 0x00, 0x03, 0x00]);
    assert_eq!(only_empty_groups.to_canonical(), Ok(vec![]));
}

#[test]
fn padding_is_not_copied_and_the_first_edition_copies_contents() {
    for id in MAPS {
        let padded = [id, 0x85, 0x00, 0x01, 0x03, 0x81, 0x00, 0x61];
        let wider = NamePayload::wider(&padded);
        assert_eq!(mapped(wider, id), "a");
        let shortest = vec![id, 0x04, 0x01, 0x03, 0x01, 0x61];
        assert_eq!(wider.to_canonical(), Ok(shortest.clone()));
        assert!(!wider.is_canonical() && NamePayload::wider(&shortest).is_canonical());
        let contents_as_they_were = vec![id, 0x05, 0x01, 0x03, 0x81, 0x00, 0x61];
        let first = NamePayload::new(&padded).to_canonical();
        assert_eq!(first, Ok(contents_as_they_were));
    }
}

#[test]
fn what_is_canonical_with_every_id() {
    let payload = NamePayload::wider(&EVERY_ID);
    assert_eq!(payload.to_canonical(), Ok(EVERY_ID.to_vec()));
    assert!(payload.is_canonical());
    let with_padding_in_what_is_kept = [&EVERY_ID[..80], &[0x0D, 0x02, 0x80, 0x00]].concat();
    assert!(NamePayload::wider(&with_padding_in_what_is_kept).is_canonical());
}

/// What the wider edition refuses in a payload that the first accepts.
#[track_caller]
fn only_wider_refuses(payload: &[u8], fault: (u32, u64)) {
    assert_eq!(NamePayload::new(payload).judge(), Ok(()));
    let wider = NamePayload::wider(payload);
    assert_eq!(refused(wider.judge()), fault);
    assert_eq!(refused(wider.to_canonical()), fault);
    assert!(!wider.is_canonical());
}

#[test]
fn a_map_is_refused_as_those_of_the_known_ids_are() {
    for id in MAPS {
        only_wider_refuses(&[id, 0x00], (2, 2));
        only_wider_refuses(&[id, 0x01, 0xFF], (2, 2));
        only_wider_refuses(&[id, 0x05, 0xFF, 0xFF, 0xFF, 0xFF, 0x1F], (3, 2));
        only_wider_refuses(&[id, 0x04, 0x01, 0x03, 0x02, 0x61], (2, 4));
        only_wider_refuses(&[id, 0x04, 0x01, 0x03, 0x01, 0xFF], (4, 5));
        only_wider_refuses(&[id, 0x02, 0x00, 0x00], (10, 3));
        let not_rising = [id, 0x07, 0x02, 0x03, 0x01, 0x62, 0x03, 0x01, 0x61];
        only_wider_refuses(&not_rising, (11, 6));
    }
}

#[test]
fn labels_are_refused_as_locals_are() {
    only_wider_refuses(&[0x03, 0x01, 0xFF], (2, 2));
    let functions_fall = [
        0x03, 0x0B, 0x02, 0x03, 0x01, 0x00, 0x01, 0x61, 0x02, 0x01, 0x00, 0x01, 0x62,
    ];
    only_wider_refuses(&functions_fall, (11, 8));
    let labels_fall = [
        0x03, 0x09, 0x01, 0x03, 0x02, 0x02, 0x01, 0x61, 0x01, 0x01, 0x62,
    ];
    only_wider_refuses(&labels_fall, (11, 8));
    let not_text = [0x03, 0x06, 0x01, 0x03, 0x01, 0x02, 0x01, 0xC3];
    only_wider_refuses(&not_text, (4, 7));
    let left_over = [0x03, 0x03, 0x00, 0x03, 0x00];
    only_wider_refuses(&left_over, (10, 3));
}

#[test]
fn labels_rise_in_each_function_anew() {
    let payload = NamePayload::wider(&[
        0x03, 0x0B, 0x02, 0x02, 0x01, 0x09, 0x01, 0x61, 0x03, 0x01, 0x00, 0x01, 0x62,
    ]);
    let label = |function, label| payload.label_name(FunctionIndex(function), LabelIndex(label));
    assert_eq!((text(label(2, 9)), text(label(3, 0))), ("a", "b"));
    assert_eq!((label(2, 0), label(3, 9)), (Ok(None), Ok(None)));
}

#[test]
fn both_editions_refuse_and_not_alike() {
    let bytes = [0x07, 0x01, 0xFF, 0x07, 0x00];
    let (first, wider) = (NamePayload::new(&bytes), NamePayload::wider(&bytes));
    assert_eq!(refused(first.judge()), (9, 3));
    assert_eq!(refused(wider.judge()), (2, 2));
    assert!(!first.is_canonical() && !wider.is_canonical());
}

#[test]
fn a_payload_damaged_further_on_is_refused_whatever_is_asked() {
    let bytes = [&EVERY_ID[..], &[0x01]].concat();
    let payload = NamePayload::wider(&bytes);
    let fault = (9, 82);
    for answer in Wider::names(payload, 3, 2) {
        assert_eq!(refused(answer), fault);
    }
    assert_eq!(refused(payload.judge()), fault);
    assert_eq!(refused(payload.kept(3)), fault);
    assert_eq!(refused(payload.kept(12)), fault);
    assert_eq!(refused(payload.to_canonical()), fault);
    assert!(!payload.is_canonical());
}

#[test]
fn every_name_through_a_module() {
    let bytes = module(&[section(1, &[0]), custom("name", &EVERY_ID)]);
    let module = Module::wider(&bytes);
    let names = module.names().unwrap().expect("it has names");
    let start = 8 + 3 + 7;
    let expected = EVERY_NAME.map(|(name, at)| (name, start + at));
    assert_eq!(located(Wider::names_in(module, 3, 2), &bytes), expected);
    assert_eq!(located(Wider::names(names, 3, 2), &bytes), expected);
    assert_eq!(Wider::names_in(module, 2, 3)[1..], [Ok(None); 11]);
    for id in 0..12 {
        assert_eq!(module.kept(id), Ok(None));
    }
    assert_eq!(module.kept(12), Ok(Some(&[0xFF, 0xFE][..])));
}

#[test]
fn through_a_module_a_fault_counts_from_its_start() {
    let labels_fall = [
        0x03, 0x09, 0x01, 0x03, 0x02, 0x02, 0x01, 0x61, 0x01, 0x01, 0x62,
    ];
    let bytes = module(&[custom("name", &labels_fall)]);
    let module_ = Module::wider(&bytes);
    let start = 8 + 7;
    assert_eq!(module_.section_count(), Ok(1));
    for answer in Wider::names_in(module_, 3, 2) {
        assert_eq!(refused(answer), (11, start + 8));
    }
    assert_eq!(refused(module_.kept(12)), (11, start + 8));
    assert_eq!(Module::new(&bytes).type_name(TypeIndex(0)), Ok(None));
}

#[test]
fn a_module_that_is_damaged_or_has_no_names() {
    let bare = module(&[]);
    let bare = Module::wider(&bare);
    assert!(bare.names().unwrap().is_none());
    assert_eq!(Wider::names_in(bare, 3, 2), [Ok(None); 12]);
    assert_eq!(bare.kept(12), Ok(None));
    let damaged = module(&[custom("name", &EVERY_ID), vec![14]]);
    let damaged = Module::wider(&damaged);
    let at = 8 + 7 + 82;
    for answer in Wider::names_in(damaged, 3, 2) {
        assert_eq!(refused(answer), (5, at));
    }
    assert_eq!(refused(damaged.names()), (5, at));
}
