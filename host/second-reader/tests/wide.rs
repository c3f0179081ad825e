//! The wider edition of names: twelve known ids, by hand from the rules, and the first edition
//! beside it.

mod support;

use second_reader::*;
use support::editions::{EDITIONS, FIRST, WIDER};
use support::*;

/// The ids that the wider edition adds: labels, which are an indirect map, and five name maps.
const ADDED: [u8; 6] = [LABELS, 5, 6, 7, 8, 9];
const ADDED_MAPS: [u8; 5] = [5, 6, 7, 8, 9];
const LABELS: u8 = 3;

/// All twelve known subsections, and two that are kept.
const ALL: &[u8] = b"\x00\x02\x01m\
    \x01\x04\x01\x00\x01f\
    \x02\x06\x01\x00\x01\x00\x01l\
    \x03\x0B\x02\x00\x01\x00\x01b\x07\x01\x02\x01e\
    \x04\x04\x01\x00\x01t\
    \x05\x04\x01\x00\x01a\
    \x06\x04\x01\x00\x01y\
    \x07\x04\x01\x00\x01g\
    \x08\x04\x01\x00\x01s\
    \x09\x04\x01\x00\x01d\
    \x0A\x06\x01\x00\x01\x00\x01i\
    \x0B\x04\x01\x00\x01x\
    \x0C\x02kk\
    \xFF\x01z";

/// Where the names in `ALL` lie, by the ids of their subsections.
const PLACES: [u64; 12] = [3, 9, 17, 25, 36, 42, 48, 54, 60, 66, 74, 80];

/// A subsection of an id, with its size.
fn subsection(id: u8, contents: &[u8]) -> Vec<u8> {
    [&[id, contents.len() as u8], contents].concat()
}

/// How both editions judge a payload: the first, then the wider.
fn judged(payload: &[u8]) -> [Answer; 2] {
    EDITIONS.map(|edition| (edition.judge)(payload))
}

/// What both editions rewrite a payload to: the first, then the wider.
fn canonical(payload: &[u8]) -> [Result<Vec<u8>, Answer>; 2] {
    EDITIONS.map(|edition| rewritten(edition.rewrite, payload))
}

/// Whether a payload is canonical: in the first edition, then in the wider.
fn is_canonical(payload: &[u8]) -> [bool; 2] {
    EDITIONS.map(|edition| (edition.is_canonical)(payload))
}

#[test]
fn every_question_has_a_subsection_of_its_own() {
    assert_eq!(judged(ALL), [found(0, ALL.len() as u64); 2]);
    let answers = [
        wide_module_name(ALL),
        wide_function_name(ALL, 0),
        wide_local_name(ALL, 0, 0),
        wide_label_name(ALL, 0, 0),
        wide_type_name(ALL, 0),
        wide_table_name(ALL, 0),
        wide_memory_name(ALL, 0),
        wide_global_name(ALL, 0),
        wide_element_name(ALL, 0),
        wide_data_name(ALL, 0),
        wide_field_name(ALL, 0, 0),
        wide_tag_name(ALL, 0),
    ];
    assert_eq!(answers, PLACES.map(|place| found(place, 1)));
}

#[test]
fn questions_through_a_module() {
    let module = module(&[plain_section(1, &[0]), custom_section(b"name", ALL)]);
    let start = 8 + 3 + 7;
    assert_eq!(custom(&module, b"name").offset, start);
    let answers = [
        wide_module_name_in(&module),
        wide_function_name_in(&module, 0),
        wide_local_name_in(&module, 0, 0),
        wide_label_name_in(&module, 0, 0),
        wide_type_name_in(&module, 0),
        wide_table_name_in(&module, 0),
        wide_memory_name_in(&module, 0),
        wide_global_name_in(&module, 0),
        wide_element_name_in(&module, 0),
        wide_data_name_in(&module, 0),
        wide_field_name_in(&module, 0, 0),
        wide_tag_name_in(&module, 0),
    ];
    assert_eq!(answers, PLACES.map(|place| found(start + place, 1)));
    assert_eq!(wide_label_name_in(&module, 7, 2), found(start + 30, 1));
    assert_eq!(wide_kept_in(&module, 12), found(start + 83, 2));
    assert_eq!(wide_kept_in(&module, 7), NONE);
    assert_eq!(kept_in(&module, 7), found(start + 51, 4));
}

#[test]
fn a_module_without_the_section_gets_none() {
    let module = module(&[plain_section(1, &[0]), custom_section(b"Name", ALL)]);
    let answers = [
        wide_module_name_in(&module),
        wide_function_name_in(&module, 0),
        wide_local_name_in(&module, 0, 0),
        wide_label_name_in(&module, 0, 0),
        wide_type_name_in(&module, 0),
        wide_table_name_in(&module, 0),
        wide_memory_name_in(&module, 0),
        wide_global_name_in(&module, 0),
        wide_element_name_in(&module, 0),
        wide_data_name_in(&module, 0),
        wide_field_name_in(&module, 0, 0),
        wide_tag_name_in(&module, 0),
        wide_kept_in(&module, 12),
    ];
    assert_eq!(answers, [NONE; 13]);
}

#[test]
fn through_a_module_the_walk_comes_first() {
    let bad_names = custom_section(b"name", b"\x07\x01\xFF");
    let names_alone = module(std::slice::from_ref(&bad_names));
    assert_eq!(wide_global_name_in(&names_alone, 0), refused(2, 15 + 2));
    assert_eq!(wide_kept_in(&names_alone, 7), refused(2, 15 + 2));
    assert_eq!(kept_in(&names_alone, 7), found(15 + 2, 1));
    let bad_walk = module(&[bad_names, vec![14]]);
    assert_eq!(wide_global_name_in(&bad_walk, 0), refused(5, 18));
}

#[test]
fn labels_are_asked_like_locals() {
    assert_eq!(wide_label_name(ALL, 0, 0), found(25, 1));
    assert_eq!(wide_label_name(ALL, 7, 2), found(30, 1));
    assert_eq!(wide_label_name(ALL, 2, 7), NONE);
    assert_eq!(wide_label_name(ALL, 7, 0), NONE);
    assert_eq!(wide_label_name(ALL, 0, 2), NONE);
    assert_eq!(wide_local_name(ALL, 7, 2), NONE);
    assert_eq!(wide_field_name(ALL, 7, 2), NONE);
}

#[test]
fn indices_that_have_no_name() {
    assert_eq!(wide_table_name(ALL, 1), NONE);
    assert_eq!(wide_memory_name(ALL, 1), NONE);
    assert_eq!(wide_global_name(ALL, 1), NONE);
    assert_eq!(wide_element_name(ALL, 1), NONE);
    assert_eq!(wide_data_name(ALL, u32::MAX), NONE);
}

/// Without its own subsection a question gets none, whatever the others hold.
#[test]
fn one_subsection_answers_one_question() {
    let globals = b"\x07\x04\x01\x00\x01g";
    assert_eq!(wide_global_name(globals, 0), found(5, 1));
    let others = [
        wide_module_name(globals),
        wide_function_name(globals, 0),
        wide_local_name(globals, 0, 0),
        wide_label_name(globals, 0, 0),
        wide_type_name(globals, 0),
        wide_table_name(globals, 0),
        wide_memory_name(globals, 0),
        wide_element_name(globals, 0),
        wide_data_name(globals, 0),
        wide_field_name(globals, 0, 0),
        wide_tag_name(globals, 0),
    ];
    assert_eq!(others, [NONE; 11]);
}

#[test]
fn the_twelve_known_ids_are_never_kept() {
    for id in 0..=u8::MAX {
        let expected = match id {
            12 => found(83, 2),
            255 => found(87, 1),
            _ => NONE,
        };
        assert_eq!(wide_kept(ALL, id), expected, "id {id}");
        if id > 11 {
            assert_eq!(wide_kept(&[id, 0], id), found(2, 0), "id {id}");
        }
    }
}

/// The first edition is unchanged: it keeps the six that the wider edition adds.
#[test]
fn the_first_edition_keeps_the_six() {
    let kept = ADDED.map(|id| kept(ALL, id));
    let expected = [
        found(20, 11),
        found(39, 4),
        found(45, 4),
        found(51, 4),
        found(57, 4),
        found(63, 4),
    ];
    assert_eq!(kept, expected);
}

#[test]
fn both_editions_give_the_six_shared_alike() {
    assert_eq!(module_name(ALL), wide_module_name(ALL));
    assert_eq!(function_name(ALL, 0), wide_function_name(ALL, 0));
    assert_eq!(local_name(ALL, 0, 0), wide_local_name(ALL, 0, 0));
    assert_eq!(type_name(ALL, 0), wide_type_name(ALL, 0));
    assert_eq!(field_name(ALL, 0, 0), wide_field_name(ALL, 0, 0));
    assert_eq!(tag_name(ALL, 0), wide_tag_name(ALL, 0));
    assert_eq!(kept(ALL, 12), wide_kept(ALL, 12));
    assert_eq!(function_name(ALL, 0), found(9, 1));
}

#[test]
fn an_empty_name_is_found() {
    assert_eq!(wide_table_name(b"\x05\x03\x01\x05\x00", 5), found(5, 0));
    assert_eq!(wide_memory_name(b"\x06\x03\x01\x05\x00", 5), found(5, 0));
    assert_eq!(wide_global_name(b"\x07\x03\x01\x05\x00", 5), found(5, 0));
    assert_eq!(wide_element_name(b"\x08\x03\x01\x05\x00", 5), found(5, 0));
    assert_eq!(wide_data_name(b"\x09\x03\x01\x05\x00", 5), found(5, 0));
    let label = b"\x03\x05\x01\x05\x01\x02\x00";
    assert_eq!(wide_label_name(label, 5, 2), found(7, 0));
}

#[test]
fn the_greatest_index() {
    let data = b"\x09\x0B\x02\x00\x01a\xFF\xFF\xFF\xFF\x0F\x01z";
    assert_eq!(wide_data_name(data, u32::MAX), found(12, 1));
    let label = b"\x03\x0E\x01\xFF\xFF\xFF\xFF\x0F\x01\xFF\xFF\xFF\xFF\x0F\x01z";
    assert_eq!(wide_label_name(label, u32::MAX, u32::MAX), found(15, 1));
}

#[test]
fn an_empty_map_is_dropped_by_the_wider_edition_alone() {
    for id in ADDED {
        let payload = vec![id, 1, 0];
        assert_eq!(judged(&payload), [found(0, 3); 2]);
        assert_eq!(canonical(&payload), [Ok(payload.clone()), Ok(vec![])]);
        assert_eq!(is_canonical(&payload), [true, false]);
    }
}

#[test]
fn the_wider_edition_may_refuse_otherwise() {
    let payload = b"\x07\x01\xFF\x07\x00";
    assert_eq!(judged(payload), [refused(9, 3), refused(2, 2)]);
    assert_eq!(canonical(payload), [Err(refused(9, 3)), Err(refused(2, 2))]);
    assert_eq!(is_canonical(payload), [false; 2]);
    assert_eq!(kept(payload, 7), refused(9, 3));
    assert_eq!(wide_kept(payload, 7), refused(2, 2));
    assert_eq!(wide_global_name(payload, 0), refused(2, 2));
}

/// Of the examples that concern names, only that of a kept id reads otherwise.
#[test]
fn the_examples() {
    assert_eq!(wide_function_name(&P, 0), found(9, 1));
    assert_eq!(wide_function_name(&P, 1), NONE);
    assert_eq!(wide_function_name(&P, 3), found(12, 1));
    assert_eq!(wide_local_name(&P, 3, 0), found(20, 1));
    assert_eq!(wide_local_name(&P, 0, 0), NONE);
    let e7 = b"\x01\x85\x00\x01\x00\x81\x00a";
    let e8 = b"\x01\x01\x00";
    let e10 = b"\x00\x01\x00";
    let written = |payload: &[u8]| rewritten(wide_names_canonical, payload);
    assert_eq!(written(e7), Ok(b"\x01\x04\x01\x00\x01a".to_vec()));
    assert_eq!(written(e8), Ok(vec![]));
    assert_eq!(written(b""), Ok(vec![]));
    assert_eq!(wide_module_name(e10), found(3, 0));
    assert_eq!(written(e10), Ok(e10.to_vec()));
    let e11 = b"\x03\x01\xFF";
    assert_eq!(judged(e11), [found(0, 3), refused(2, 2)]);
    let e12 = b"\x01\x07\x02\x03\x01b\x03\x01a";
    let e13 = b"\x02\x01\x00\x01\x01\x00";
    let e14 = b"\x01\x02\x00\x00";
    assert_eq!(judged(e12), [refused(11, 6); 2]);
    assert_eq!(judged(e13), [refused(9, 3); 2]);
    assert_eq!(judged(e14), [refused(10, 3); 2]);
}

/// Contents of a subsection, and how a map that fills it is refused, in the payload's offsets.
const BAD_MAPS: [(&[u8], Answer); 16] = [
    // Without a count, an index, a length; and a text that runs past.
    (b"", refused(2, 2)),
    (b"\x80", refused(2, 2)),
    (b"\x01", refused(2, 3)),
    (b"\x01\x00", refused(2, 4)),
    (b"\x01\x00\x01", refused(2, 4)),
    (b"\x02\x00\x01a", refused(2, 6)),
    (b"\xFF\xFF\xFF\xFF\x0F\x00\x01a", refused(2, 10)),
    // The count, the index and the length too large.
    (b"\xFF\xFF\xFF\xFF\x1F", refused(3, 2)),
    (b"\x01\xFF\xFF\xFF\xFF\x1F\x00", refused(3, 3)),
    (b"\x01\x00\xFF\xFF\xFF\xFF\x1F", refused(3, 4)),
    // An overlong form, a surrogate, and the second text of two.
    (b"\x01\x00\x02\xC0\x80", refused(4, 5)),
    (b"\x01\x00\x03\xED\xA0\x80", refused(4, 5)),
    (b"\x02\x00\x01a\x01\x02a\xFF", refused(4, 8)),
    (b"\x00\x00", refused(10, 3)),
    (b"\x01\x00\x01ab", refused(10, 6)),
    (b"\x02\x03\x01b\x03\x01a", refused(11, 6)),
];

/// The same for an indirect map.
const BAD_INDIRECT_MAPS: [(&[u8], Answer); 17] = [
    // Without a count, a function, a count of labels, an index, a length; and a text that runs past.
    (b"", refused(2, 2)),
    (b"\x01", refused(2, 3)),
    (b"\x01\x00", refused(2, 4)),
    (b"\x01\x00\x01", refused(2, 5)),
    (b"\x01\x00\x01\x00", refused(2, 6)),
    (b"\x01\x00\x01\x00\x01", refused(2, 6)),
    // Each of these numbers too large.
    (b"\xFF\xFF\xFF\xFF\x1F", refused(3, 2)),
    (b"\x01\xFF\xFF\xFF\xFF\x1F", refused(3, 3)),
    (b"\x01\x00\xFF\xFF\xFF\xFF\x1F", refused(3, 4)),
    (b"\x01\x00\x01\xFF\xFF\xFF\xFF\x1F", refused(3, 5)),
    (b"\x01\x00\x01\x00\xFF\xFF\xFF\xFF\x1F", refused(3, 6)),
    (b"\x01\x00\x01\x00\x01\xFF", refused(4, 7)),
    (b"\x00\x00", refused(10, 3)),
    (b"\x01\x00\x00\x00", refused(10, 5)),
    // A function repeated, one below, and a label repeated.
    (b"\x02\x01\x00\x01\x00", refused(11, 5)),
    (b"\x02\x01\x00\x00\x00", refused(11, 5)),
    (b"\x01\x00\x02\x01\x01a\x01\x01b", refused(11, 8)),
];

/// A payload that the wider edition refuses inside a subsection, and the first keeps.
#[track_caller]
fn refused_inside(id: u8, contents: &[u8], refusal: Answer) {
    let payload = subsection(id, contents);
    let kept_whole = found(0, payload.len() as u64);
    assert_eq!(judged(&payload), [kept_whole, refusal], "{payload:02X?}");
    assert_eq!(kept(&payload, id), found(2, contents.len() as u64));
    let answers = [
        wide_module_name(&payload),
        wide_global_name(&payload, 0),
        wide_label_name(&payload, 0, 0),
        wide_kept(&payload, 12),
    ];
    assert_eq!(answers, [refusal; 4], "{payload:02X?}");
    assert_eq!(rewritten(WIDER.rewrite, &payload), Err(refusal));
    assert_eq!(rewritten(FIRST.rewrite, &payload), Ok(payload.clone()));
    assert_eq!(is_canonical(&payload), [true, false]);
}

#[test]
fn refusals_inside_maps() {
    let rows = ADDED_MAPS.map(|id| BAD_MAPS.map(|(contents, refusal)| (id, contents, refusal)));
    for (id, contents, refusal) in rows.concat() {
        refused_inside(id, contents, refusal);
    }
}

#[test]
fn refusals_inside_labels() {
    for (contents, refusal) in BAD_INDIRECT_MAPS {
        refused_inside(LABELS, contents, refusal);
    }
}

/// Ids and sizes are judged alike by both editions.
#[test]
fn refusals_before_contents() {
    for id in ADDED {
        assert_eq!(judged(&[id]), [refused(2, 1); 2]);
        assert_eq!(judged(&[id, 2, 0]), [refused(2, 1); 2]);
        let too_large = [id, 0xFF, 0xFF, 0xFF, 0xFF, 0x1F];
        assert_eq!(judged(&too_large), [refused(3, 1); 2]);
        assert_eq!(judged(&[id, 1, 0, id, 1, 0]), [refused(9, 3); 2]);
        assert_eq!(judged(&[id, 1, 0, id - 1, 1, 0]), [refused(9, 3); 2]);
        assert_eq!(judged(&[id, 1, 0, id + 1]), [refused(2, 4); 2]);
    }
}

/// A map ends with its subsection, though the bytes behind it would make it whole.
#[test]
fn a_map_ends_with_its_subsection() {
    let second_entry_outside = b"\x07\x04\x02\x00\x01a\x08\x01b";
    assert_eq!(wide_names_judge(second_entry_outside), refused(2, 6));
    let text_outside = b"\x09\x03\x01\x00\x01\xFFa";
    assert_eq!(wide_names_judge(text_outside), refused(2, 4));
    let label_outside = b"\x03\x05\x01\x00\x01\x00\x01\x04\x00";
    assert_eq!(wide_names_judge(label_outside), refused(2, 6));
}

#[test]
fn damage_behind_an_answer_is_refused() {
    let in_the_map = b"\x07\x0A\x03\x00\x01a\x05\x01b\x05\x01c";
    assert_eq!(wide_global_name(in_the_map, 0), refused(11, 9));
    let behind = b"\x05\x04\x01\x00\x01a\x09\x00";
    assert_eq!(wide_table_name(behind, 0), refused(2, 8));
    assert_eq!(kept(behind, 5), found(2, 4));
}

#[test]
fn padded_numbers_in_maps_are_shortened() {
    for id in ADDED_MAPS {
        let plain = subsection(id, b"\x01\x00\x01a");
        let contents = b"\x81\x00\x80\x80\x00\x81\x80\x80\x80\x00a";
        let padded = [&[id, 0x80 | 11, 0x00], &contents[..]].concat();
        let size_alone = [&[id, 11], &contents[..]].concat();
        assert_eq!(canonical(&padded), [Ok(size_alone), Ok(plain.clone())]);
        assert_eq!(is_canonical(&padded), [false; 2]);
        assert_eq!(canonical(&plain), [Ok(plain.clone()), Ok(plain.clone())]);
        assert_eq!(is_canonical(&plain), [true; 2]);
    }
}

/// Each number of a map padded alone: the first edition sees that of the size, and no other.
#[test]
fn one_padded_number_in_a_map() {
    let size = b"\x07\x84\x00\x01\x00\x01a";
    assert_eq!(is_canonical(size), [false; 2]);
    let count = &b"\x07\x05\x81\x00\x00\x01a"[..];
    let index = b"\x07\x05\x01\x80\x00\x01a";
    let length = b"\x07\x05\x01\x00\x81\x00a";
    for payload in [count, index, length] {
        assert_eq!(judged(payload), [found(0, 7); 2]);
        assert_eq!(is_canonical(payload), [true, false], "{payload:02X?}");
    }
}

#[test]
fn one_padded_number_in_labels() {
    let size = b"\x03\x86\x00\x01\x03\x01\x00\x01x";
    assert_eq!(is_canonical(size), [false; 2]);
    let count = &b"\x03\x07\x81\x00\x03\x01\x00\x01x"[..];
    let function = b"\x03\x07\x01\x83\x00\x01\x00\x01x";
    let count_of_labels = b"\x03\x07\x01\x03\x81\x00\x00\x01x";
    let index = b"\x03\x07\x01\x03\x01\x80\x00\x01x";
    let length = b"\x03\x07\x01\x03\x01\x00\x81\x00x";
    let plain = b"\x03\x06\x01\x03\x01\x00\x01x".to_vec();
    assert_eq!(is_canonical(&plain), [true; 2]);
    for payload in [count, function, count_of_labels, index, length] {
        let expected = [Ok(payload.to_vec()), Ok(plain.clone())];
        assert_eq!(canonical(payload), expected);
        assert_eq!(is_canonical(payload), [true, false], "{payload:02X?}");
    }
}

#[test]
fn functions_without_labels_are_dropped() {
    let plain = b"\x03\x06\x01\x03\x01\x00\x01x".to_vec();
    let before = &b"\x03\x08\x02\x00\x00\x03\x01\x00\x01x"[..];
    let behind = b"\x03\x08\x02\x03\x01\x00\x01x\x07\x00";
    for payload in [before, behind] {
        let expected = [Ok(payload.to_vec()), Ok(plain.clone())];
        assert_eq!(canonical(payload), expected);
        assert_eq!(is_canonical(payload), [true, false], "{payload:02X?}");
    }
    let left_empty = b"\x03\x03\x01\x05\x00";
    assert_eq!(canonical(left_empty), [Ok(left_empty.to_vec()), Ok(vec![])]);
}

/// What is empty under each id, with the module name and a kept subsection, which stay.
#[test]
fn what_is_left_of_a_payload() {
    let payload = b"\x00\x01\x00\x01\x01\x00\x02\x01\x00\x03\x01\x00\x04\x01\x00\x05\x01\x00\
        \x06\x01\x00\x07\x01\x00\x08\x01\x00\x09\x01\x00\x0A\x01\x00\x0B\x01\x00\x0C\x00";
    let first = b"\x00\x01\x00\x03\x01\x00\x05\x01\x00\x06\x01\x00\x07\x01\x00\x08\x01\x00\
        \x09\x01\x00\x0C\x00";
    let wider = b"\x00\x01\x00\x0C\x00";
    let expected = [Ok(first.to_vec()), Ok(wider.to_vec())];
    assert_eq!(canonical(payload), expected);
    assert_eq!(is_canonical(first), [true, false]);
    assert_eq!(is_canonical(wider), [true; 2]);
    assert_eq!(is_canonical(ALL), [true; 2]);
}

#[test]
fn a_judged_refusal_comes_before_a_short_output() {
    let payload = b"\x07\x02\x00\x00";
    assert_eq!(wide_names_canonical(payload, &mut []), refused(10, 3));
    assert_eq!(names_canonical(payload, &mut []), refused(13, 4));
    let one_name = b"\x07\x04\x01\x00\x01g";
    assert_eq!(wide_names_canonical(one_name, &mut [0; 5]), refused(13, 6));
    assert_eq!(wide_names_canonical(b"\x07\x01\x00", &mut []), found(0, 0));
}
