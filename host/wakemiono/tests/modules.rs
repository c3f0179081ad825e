//! Whole modules: the walk over their sections, custom sections, and questions through a module.

mod common;

use common::{
    custom, module, refused, section, section_sized, text, HINTS_NAME, ONE_OF_EACH, P, SMALL,
};
use wakemiono::{
    offset_in, CodeOffset, FieldIndex, FunctionIndex, Hint, LocalIndex, Module, TagIndex, TypeIndex,
};

/// The ids that are not custom, in the order of their sections.
const ORDER: [u8; 13] = [1, 2, 3, 4, 5, 13, 6, 7, 8, 9, 12, 10, 11];

fn walk_refused(sections: &[Vec<u8>]) -> (u32, u64) {
    refused(Module::new(&module(sections)).section_count())
}

#[test]
fn the_module_of_the_rules() {
    let bytes = module(&[custom("name", &P)]);
    assert_eq!(bytes.len(), 36);
    let module = Module::new(&bytes);
    assert_eq!(module.section_count(), Ok(1));
    let only = module.section(0).unwrap().unwrap();
    assert_eq!((only.id(), only.offset()), (0, 8));
    assert_eq!(
        (only.contents_offset(), only.contents()),
        (10, &bytes[10..])
    );
    assert_eq!(only.name().unwrap().to_str(), Ok("name"));
    assert_eq!(only.payload(), Some(&P[..]));
    assert_eq!(module.section(1), Ok(None));
    assert_eq!(module.section(u64::MAX), Ok(None));
    let payload = module.custom("name").unwrap().unwrap();
    assert_eq!((offset_in(&bytes, payload), payload.len()), (Some(15), 21));
    assert!(module.hints().unwrap().is_none());
}

#[test]
fn the_small_module() {
    let module = Module::new(SMALL);
    let sections: Vec<(u8, u64, usize)> = module
        .sections()
        .unwrap()
        .map(|section| (section.id(), section.offset(), section.contents().len()))
        .collect();
    let listed = [
        (1, 8, 6),
        (3, 16, 2),
        (7, 20, 8),
        (0, 30, 32),
        (10, 64, 15),
        (0, 81, 30),
    ];
    assert_eq!(sections, listed);
    let names = module.names().unwrap().unwrap().as_bytes();
    assert_eq!((offset_in(SMALL, names), names.len()), (Some(88), 25));
    let hints = module.hints().unwrap().unwrap().as_bytes();
    assert_eq!((offset_in(SMALL, hints), hints.len()), (Some(58), 6));
    assert_eq!(text(module.module_name()), "small");
    assert_eq!(text(module.function_name(FunctionIndex(0))), "sign");
    let local = module.local_name(FunctionIndex(0), LocalIndex(0));
    assert_eq!(text(local), "n");
    let hint = module.hint(FunctionIndex(0), CodeOffset(4));
    assert_eq!(hint, Ok(Some(Hint::Unlikely)));
}

#[test]
fn the_preamble() {
    let whole = module(&[]);
    assert_eq!(Module::new(&whole).section_count(), Ok(0));
    assert_eq!(Module::new(&whole).section(0), Ok(None));
    assert_eq!(Module::new(&whole).sections().unwrap().next(), None);
    for shorter in 0..whole.len() {
        let cut = Module::new(&whole[..shorter]).section_count();
        assert_eq!(refused(cut), (1, 0));
    }
}

#[test]
fn ids_and_their_order() {
    assert_eq!(walk_refused(&[vec![14]]), (5, 8));
    assert_eq!(walk_refused(&[section(3, &[0]), section(1, &[0])]), (6, 11));
    assert_eq!(walk_refused(&[section(1, &[0]), vec![1]]), (6, 11));
    assert_eq!(walk_refused(&[section(10, &[0]), vec![12]]), (6, 11));
    assert_eq!(walk_refused(&[section(6, &[0]), vec![13]]), (6, 11));
    let all: Vec<Vec<u8>> = ORDER.iter().map(|&id| section(id, &[0])).collect();
    assert_eq!(Module::new(&module(&all)).section_count(), Ok(13));
}

#[test]
fn sections_that_come_once_or_not_so_late() {
    let name = custom("name", &[]);
    let hints = custom(HINTS_NAME, &[0]);
    let code = section(10, &[0]);
    assert_eq!(walk_refused(&[name.clone(), name.clone()]), (7, 15));
    assert_eq!(walk_refused(&[name.clone(), vec![11]]), (8, 15));
    assert_eq!(walk_refused(&[code.clone(), hints.clone()]), (8, 11));
    let seven_before_eight = [hints.clone(), code.clone(), hints];
    assert_eq!(walk_refused(&seven_before_eight), (7, 40));
    let second_runs_past = [name.clone(), vec![0, 9, 4], b"name".to_vec()];
    assert_eq!(walk_refused(&second_runs_past), (2, 16));
    let older = custom("branchHints", &[7]);
    assert_eq!(walk_refused(&[code.clone(), older.clone()]), (8, 11));
    assert_eq!(walk_refused(&[older.clone(), older.clone()]), (7, 23));
    let others = [older, name, code, custom("metadata.code.x", &[7])];
    assert_eq!(Module::new(&module(&others)).section_count(), Ok(4));
}

#[test]
fn the_name_of_a_custom_section() {
    let padded = section(0, b"\x81\x00xyz");
    let bytes = module(&[section(0, b"\x00empty"), padded, custom("x", b"second")]);
    let module_ = Module::new(&bytes);
    assert_eq!(module_.custom("x"), Ok(Some(&b"yz"[..])));
    assert_eq!(module_.custom(""), Ok(Some(&b"empty"[..])));
    assert_eq!(module_.custom(b"\xFF"), Ok(None));
    let not_text = section(0, b"\x01\xFF");
    assert_eq!(walk_refused(&[not_text]), (4, 11));
    assert_eq!(walk_refused(&[section(0, b"")]), (2, 10));
}

#[test]
fn a_name_that_is_a_part_of_the_module_itself() {
    let bytes = module(&[custom("x", b"yz")]);
    assert_eq!(
        Module::new(&bytes).custom(&bytes[11..12]),
        Ok(Some(&bytes[12..]))
    );
}

#[test]
fn a_module_damaged_anywhere_is_refused_whatever_is_asked() {
    let bytes = module(&[custom("name", &P), vec![14]]);
    let module = Module::new(&bytes);
    let (function, type_, at) = (FunctionIndex(0), TypeIndex(0), CodeOffset(0));
    assert_eq!(refused(module.section_count()), (5, 36));
    assert_eq!(refused(module.section(0)), (5, 36));
    assert_eq!(refused(module.sections()), (5, 36));
    assert_eq!(refused(module.custom("name")), (5, 36));
    assert_eq!(refused(module.names()), (5, 36));
    assert_eq!(refused(module.hints()), (5, 36));
    assert_eq!(refused(module.module_name()), (5, 36));
    assert_eq!(refused(module.function_name(function)), (5, 36));
    assert_eq!(refused(module.type_name(type_)), (5, 36));
    assert_eq!(refused(module.tag_name(TagIndex(0))), (5, 36));
    assert_eq!(refused(module.local_name(function, LocalIndex(0))), (5, 36));
    assert_eq!(refused(module.field_name(type_, FieldIndex(0))), (5, 36));
    assert_eq!(refused(module.kept(3)), (5, 36));
    assert_eq!(refused(module.metadata("x", function, at)), (5, 36));
    assert_eq!(refused(module.hint(function, at)), (5, 36));
}

#[test]
fn a_module_without_the_sections_gives_none() {
    let bytes = module(&[]);
    let module = Module::new(&bytes);
    let (function, type_, at) = (FunctionIndex(0), TypeIndex(0), CodeOffset(0));
    assert!(module.names().unwrap().is_none());
    assert!(module.hints().unwrap().is_none());
    assert_eq!(module.module_name(), Ok(None));
    assert_eq!(module.function_name(function), Ok(None));
    assert_eq!(module.type_name(type_), Ok(None));
    assert_eq!(module.tag_name(TagIndex(0)), Ok(None));
    assert_eq!(module.local_name(function, LocalIndex(0)), Ok(None));
    assert_eq!(module.field_name(type_, FieldIndex(0)), Ok(None));
    assert_eq!(module.kept(3), Ok(None));
    assert_eq!(module.metadata("branch_hint", function, at), Ok(None));
    assert_eq!(module.hint(function, at), Ok(None));
}

#[test]
fn every_name_through_a_module() {
    let bytes = module(&[section(1, &[0]), custom("name", &ONE_OF_EACH)]);
    let module = Module::new(&bytes);
    assert_eq!(text(module.module_name()), "m");
    assert_eq!(text(module.function_name(FunctionIndex(5))), "f");
    assert_eq!(
        text(module.local_name(FunctionIndex(5), LocalIndex(7))),
        "l"
    );
    assert_eq!(text(module.type_name(TypeIndex(5))), "t");
    assert_eq!(text(module.field_name(TypeIndex(5), FieldIndex(7))), "d");
    assert_eq!(text(module.tag_name(TagIndex(5))), "g");
    assert_eq!(module.kept(3), Ok(Some(&[0xFF, 0xFE][..])));
    assert_eq!(module.kept(4), Ok(None));
    assert_eq!(module.local_name(FunctionIndex(7), LocalIndex(5)), Ok(None));
    assert_eq!(module.field_name(TypeIndex(7), FieldIndex(5)), Ok(None));

    let names = module.names().unwrap().unwrap();
    for index in 0..8 {
        let function = FunctionIndex(index);
        let through = module.function_name(function).unwrap();
        assert_eq!(through, names.function_name(function).unwrap());
        let place = |name: wakemiono::Name<'_>| offset_in(&bytes, name.as_bytes());
        let apart = names.function_name(function).unwrap();
        assert_eq!(through.map(place), apart.map(place));
    }
}

#[test]
fn only_the_payload_that_is_asked_is_judged_and_counts_from_the_module() {
    let left_over = [0x01, 0x02, 0x00, 0x00];
    let hint_of_2 = [0x01, 0x02, 0x01, 0x05, 0x01, 0x02];
    let (function, at) = (FunctionIndex(2), CodeOffset(5));

    let bad_names = module(&[custom(HINTS_NAME, &[0x00]), custom("name", &left_over)]);
    let module_ = Module::new(&bad_names);
    assert_eq!(module_.section_count(), Ok(2));
    assert_eq!(module_.hint(function, at), Ok(None));
    let start = 8 + 29 + 7;
    assert_eq!(refused(module_.function_name(function)), (10, start + 3));
    assert_eq!(refused(module_.kept(1)), (10, start + 3));
    assert_eq!(refused(module_.names().unwrap().unwrap().judge()), (10, 3));

    let bad_hints = module(&[custom(HINTS_NAME, &hint_of_2), custom("name", &P)]);
    let module_ = Module::new(&bad_hints);
    assert_eq!(text(module_.function_name(FunctionIndex(3))), "b");
    let start = 8 + 28;
    assert_eq!(refused(module_.hint(function, at)), (12, start + 4));
    let as_data = module_.metadata("branch_hint", function, at);
    assert_eq!(refused(as_data), (12, start + 4));
    assert_eq!(refused(module_.hints().unwrap().unwrap().judge()), (12, 4));
}

#[test]
fn metadata_of_a_format() {
    let (function, at) = (FunctionIndex(2), CodeOffset(5));
    let bytes = module(&[
        custom(
            "metadata.code.x",
            &[0x01, 0x02, 0x01, 0x05, 0x02, 0x61, 0x62],
        ),
        custom("metadata.code.x", &[0xFF]),
        custom("metadata.code.", &[0x01, 0x02, 0x01, 0x05, 0x00]),
        custom(HINTS_NAME, &[0x01, 0x02, 0x01, 0x05, 0x01, 0x01]),
    ]);
    let module = Module::new(&bytes);
    let data = |format: &str| module.metadata(format, function, at);
    assert_eq!(data("x"), Ok(Some(&b"ab"[..])));
    assert_eq!(data(""), Ok(Some(&[][..])));
    assert_eq!(data("branch_hint"), Ok(Some(&[0x01][..])));
    assert_eq!(data("xy"), Ok(None));
    assert_eq!(module.metadata(b"\xFF", function, at), Ok(None));
    assert_eq!(module.metadata("x", function, CodeOffset(4)), Ok(None));
    assert_eq!(module.metadata("x", FunctionIndex(1), at), Ok(None));
    assert_eq!(module.hint(function, at), Ok(Some(Hint::Likely)));
}

#[test]
fn sections_are_those_at_each_position() {
    for size_bytes in 1..=5 {
        let mut sections = Vec::new();
        for id in ORDER {
            sections.push(section_sized(
                id,
                size_bytes,
                &vec![id; usize::from(id) * 40],
            ));
            sections.push(custom("x", &[0xFF; 3]));
        }
        let bytes = module(&sections);
        let module = Module::new(&bytes);
        let all = module.sections().unwrap();
        assert_eq!(all.len(), 26);
        assert_eq!(Ok(26), module.section_count());
        for (position, section) in (0..).zip(all.clone()) {
            assert_eq!(module.section(position), Ok(Some(section)));
        }
        for custom in all.clone().skip(1).step_by(2) {
            assert_eq!(custom.name().unwrap().as_bytes(), b"x");
            assert_eq!(custom.payload(), Some(&[0xFF; 3][..]));
        }
        for (id, other) in ORDER.into_iter().zip(all.clone().step_by(2)) {
            assert_eq!(other.contents(), vec![id; usize::from(id) * 40]);
            assert_eq!((other.name(), other.payload()), (None, None));
        }
        let last = all.last().unwrap();
        assert_eq!(last.offset() + 7, bytes.len() as u64);
    }
}

#[test]
fn many_sections_are_listed_in_one_pass() {
    let count = 500_000;
    let bytes = module(&vec![section(0, &[0]); count]);
    let sections = Module::new(&bytes).sections().unwrap();
    assert_eq!(sections.len(), count);
    assert!(sections
        .zip(0..)
        .all(|(section, position)| section.offset() == 8 + 3 * position));
}
