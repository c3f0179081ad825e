//! How the open points of the rules are settled, one test for each point and its inputs.

mod support;

use second_reader::*;
use support::*;

// Numbers, names, parts.

#[test]
fn r01_a_count_too_great_is_no_fault_by_itself() {
    assert_eq!(
        metadata_judge(&[0xFF, 0xFF, 0xFF, 0xFF, 0x0F, 0x00]),
        refused(2, 6)
    );
    assert_eq!(
        metadata_judge(&[0xFF, 0xFF, 0xFF, 0xFF, 0x0F, 0x05, 0x00, 0x05]),
        refused(11, 7)
    );
    assert_eq!(
        names_judge(&[0x01, 0x05, 0xFF, 0xFF, 0xFF, 0xFF, 0x0F]),
        refused(2, 7)
    );
}

#[test]
fn r02_a_missing_number_is_refused_where_it_would_start() {
    assert_eq!(metadata_judge(&[]), refused(2, 0));
    assert_eq!(hints_judge(&[]), refused(2, 0));
    assert_eq!(hint(&[], 0, 0), refused(2, 0));
    assert_eq!(names_judge(&[0x01]), refused(2, 1));
    assert_eq!(walk(&module(&[vec![1]])), refused(2, 9));
}

#[test]
fn r03_bytes_outside_the_part_are_not_looked_at() {
    let payload = [0x01, 0x04, 0xFF, 0xFF, 0xFF, 0xFF, 0x1F];
    assert_eq!(names_judge(&payload), refused(2, 2));
    let in_section = module(&[plain_section(0, &[0xFF, 0xFF, 0xFF, 0xFF]), vec![0x1F]]);
    assert_eq!(walk(&in_section), refused(2, 10));
}

#[test]
fn r04_the_whole_fifth_byte_is_compared() {
    let payload = [0x80, 0x80, 0x80, 0x80, 0x80, 0x00];
    assert_eq!(metadata_judge(&payload), refused(3, 0));
}

#[test]
fn r05_a_part_too_long_is_refused_before_its_contents() {
    assert_eq!(names_judge(&[0x00, 0x03, 0x05, 0xFF, 0x61]), refused(2, 2));
    assert_eq!(
        names_judge(&[0x01, 0x09, 0x02, 0x03, 0x01, 0x62, 0x03, 0x01, 0x61]),
        refused(2, 1)
    );
}

#[test]
fn r06_bad_text_is_refused_where_it_starts() {
    assert_eq!(names_judge(&[0x00, 0x03, 0x02, 0x61, 0xFF]), refused(4, 3));
    // The text ends where its length says, so before the second byte of the character.
    assert_eq!(names_judge(&[0x00, 0x03, 0x01, 0xC3, 0xA9]), refused(4, 3));
}

#[test]
fn r06_every_character_is_text() {
    for character in ['\0', '\u{FEFF}', '\u{FFFE}', '\u{FDD0}', '\u{10FFFF}'] {
        let mut bytes = [0; 4];
        let text = character.encode_utf8(&mut bytes).as_bytes();
        let length = text.len() as u8;
        let payload = [&[0x00, length + 1, length], text].concat();
        assert_eq!(module_name(&payload), found(3, u64::from(length)));
    }
}

// The walk.

#[test]
fn r07_one_id_byte_5_then_6_then_8_then_the_size() {
    let name = custom_section(b"name", &[]);
    let data = plain_section(11, &[]);
    assert_eq!(walk(&module(&[vec![14]])), refused(5, 8));
    assert_eq!(walk(&module(&[data.clone(), vec![14]])), refused(5, 10));
    assert_eq!(walk(&module(&[data.clone(), vec![11]])), refused(6, 10));
    assert_eq!(walk(&module(&[name.clone(), vec![11]])), refused(8, 15));
    // Data that comes both twice and after names.
    assert_eq!(walk(&module(&[data, name, vec![11]])), refused(6, 17));
}

#[test]
fn r07_a_second_name_section_that_runs_past_is_2() {
    let name = custom_section(b"name", &[]);
    let past = b"\x00\x06\x04name".to_vec();
    assert_eq!(walk(&module(&[name.clone(), past])), refused(2, 16));
    assert_eq!(walk(&module(&[name.clone(), name])), refused(7, 15));
}

#[test]
fn r07_hints_code_hints_is_7_before_8() {
    let hints = custom_section(HINTS, &[0]);
    let code = plain_section(10, &[0]);
    let second = 8 + hints.len() as u64 + 3;
    let sections = [hints.clone(), code.clone(), hints.clone()];
    assert_eq!(walk(&module(&sections)), refused(7, second));
    assert_eq!(walk(&module(&[code, hints])), refused(8, 11));
}

#[test]
fn r08_only_data_is_barred_after_names_and_only_hints_after_code() {
    let name = custom_section(b"name", &[]);
    for id in (1..=13).filter(|&id| id != 11) {
        let module = module(&[name.clone(), plain_section(id, &[])]);
        assert_eq!(walk(&module), found(0, 2), "section {id}");
    }
    let code = plain_section(10, &[]);
    let other = custom_section(b"metadata.code.x", &[0]);
    assert_eq!(walk(&module(&[code.clone(), name, other])), found(0, 3));
    // Data is past the place of code, but it is not code.
    let data = plain_section(11, &[]);
    let hints = custom_section(HINTS, &[0]);
    assert_eq!(walk(&module(&[data, hints])), found(0, 2));
}

#[test]
fn r08_other_custom_sections_may_repeat_and_the_first_answers() {
    let code = plain_section(10, &[]);
    let first = custom_section(b"metadata.code.x", &[1, 0, 1, 7, 1, 9]);
    let second = custom_section(b"metadata.code.x", &[0xFF]);
    let module = module(&[code, first, second]);
    assert_eq!(walk(&module), found(0, 3));
    assert_eq!(
        bytes_of(&module, metadata_in(&module, b"x", 0, 7)),
        Some(&[9][..])
    );
}

#[test]
fn k2_older_hints_come_once_and_before_code_counted_by_themselves() {
    let older = custom_section(b"branchHints", &[0xFF]);
    let hints = custom_section(HINTS, &[0]);
    let code = plain_section(10, &[]);
    let both = module(&[hints.clone(), older.clone(), code.clone()]);
    assert_eq!(walk(&both), found(0, 3));
    assert_eq!(
        bytes_of(&both, custom(&both, b"branchHints")),
        Some(&[0xFF][..])
    );
    let twice = module(&[older.clone(), hints, older.clone()]);
    assert_eq!(walk(&twice), refused(7, 52));
    let seven_before_eight = module(&[older.clone(), code.clone(), older.clone()]);
    assert_eq!(walk(&seven_before_eight), refused(7, 25));
    assert_eq!(walk(&module(&[code, older])), refused(8, 10));
}

#[test]
fn r09_the_name_of_every_custom_section_is_judged() {
    let good = custom_section(b"name", &[]);
    assert_eq!(
        walk(&module(&[good, custom_section(b"\xC0\x80", &[])])),
        refused(4, 18)
    );
    assert_eq!(walk(&module(&[plain_section(0, &[])])), refused(2, 10));
    assert_eq!(walk(&module(&[plain_section(0, b"\x02a")])), refused(2, 10));
    assert_eq!(
        walk(&module(&[plain_section(
            0,
            &[0xFF, 0xFF, 0xFF, 0xFF, 0x1F]
        )])),
        refused(3, 10)
    );
}

#[test]
fn r09_a_name_passed_by_a_caller_is_not_judged() {
    let module = module(&[custom_section(b"a", &[])]);
    assert_eq!(custom(&module, b"\xC0\x80"), NONE);
    assert_eq!(metadata_in(&module, b"\xFF", 0, 0), NONE);
}

#[test]
fn r09_padding_of_a_names_length_does_not_matter() {
    let padded = plain_section(0, b"\x84\x80\x00name");
    let module = module(&[padded.clone(), padded]);
    assert_eq!(walk(&module), refused(7, 17));
    assert_eq!(custom(&module[..17], b"name"), found(17, 0));
}

#[test]
fn r10_the_walk_is_one_judgement() {
    let module = module(&[custom_section(b"name", &P), vec![14]]);
    let refusal = refused(5, 36);
    assert_eq!(walk(&module), refusal);
    assert_eq!(section(&module, 0), refusal);
    assert_eq!(section(&module, 9), refusal);
    assert_eq!(custom(&module, b"name"), refusal);
    assert_eq!(custom(&module, b"absent"), refusal);
    assert_eq!(function_name_in(&module, 0), refusal);
    assert_eq!(hint_in(&module, 0, 0), refusal);
}

#[test]
fn r11_a_short_preamble_is_1_at_0() {
    for length in 0..PREAMBLE.len() {
        assert_eq!(walk(&PREAMBLE[..length]), refused(1, 0));
    }
    assert_eq!(walk(b"\0asm\x02\0\0\0"), refused(1, 0));
    assert_eq!(walk(PREAMBLE), found(0, 0));
}

// Payloads.

#[test]
fn r12_11_comes_before_what_follows_the_index() {
    // The second entry's name runs past, and its index is repeated.
    assert_eq!(
        names_judge(&[0x01, 0x06, 0x02, 0x03, 0x01, 0x62, 0x03, 0x7F]),
        refused(11, 6)
    );
    // The second group's map has no count, and its index is repeated.
    assert_eq!(
        names_judge(&[0x02, 0x04, 0x02, 0x03, 0x00, 0x03]),
        refused(11, 5)
    );
}

#[test]
fn r12_9_comes_before_the_size_and_10_before_the_next_subsection() {
    assert_eq!(names_judge(&[0x01, 0x01, 0x00, 0x01]), refused(9, 3));
    assert_eq!(names_judge(&[0x01, 0x01, 0x00, 0x00, 0x7F]), refused(9, 3));
    assert_eq!(names_judge(&[0x01, 0x02, 0x00, 0x00, 0x01]), refused(10, 3));
}

#[test]
fn r13_an_empty_name_lies_where_its_text_would_start() {
    assert_eq!(module_name(&[0x00, 0x01, 0x00]), found(3, 0));
    assert_eq!(
        function_name(&[0x01, 0x03, 0x01, 0x05, 0x00], 5),
        found(5, 0)
    );
}

#[test]
fn r14_known_ids_are_never_kept() {
    let known = [0, 1, 2, 4, 10, 11];
    for id in known {
        assert_eq!(kept(&P, id), NONE);
        assert_eq!(kept(&[0x01, 0x00], id), refused(2, 2));
    }
    let maps = [
        0x00, 1, 0, 0x01, 1, 0, 0x02, 1, 0, 0x04, 1, 0, 0x0A, 1, 0, 0x0B, 1, 0,
    ];
    for id in 0..=u8::MAX {
        assert_eq!(kept(&maps, id), NONE);
        if !known.contains(&id) {
            assert_eq!(kept(&[id, 0x00], id), found(2, 0));
        }
    }
}

#[test]
fn r15_only_the_payload_that_is_asked_is_judged() {
    let module = module(&[
        custom_section(HINTS, &[0x80]),
        custom_section(b"name", &[0x01, 0x00]),
    ]);
    // The hints lie at 36 and end the section at 37; the names follow after an id, a size and
    // `name`.
    assert_eq!(function_name_in(&module, 0), refused(2, 37 + 7 + 2));
    assert_eq!(hint_in(&module, 0, 0), refused(2, 36));
    assert_eq!(metadata_in(&module, b"x", 0, 0), NONE);
    assert_eq!(walk(&module), found(0, 2));
}

#[test]
fn r16_in_an_item_offset_11_size_2_then_12() {
    // The second offset is repeated, and its size runs past.
    assert_eq!(
        hints_judge(&[0x01, 0x00, 0x02, 0x05, 0x01, 0x01, 0x05, 0x09]),
        refused(11, 6)
    );
    // Size 2 whose data runs past.
    assert_eq!(
        hints_judge(&[0x01, 0x00, 0x01, 0x05, 0x02, 0x01]),
        refused(2, 4)
    );
    // Sizes 2 and 0, and data above 1.
    assert_eq!(
        hints_judge(&[0x01, 0x00, 0x01, 0x05, 0x02, 0x01, 0x01]),
        refused(12, 4)
    );
    assert_eq!(hints_judge(&[0x01, 0x00, 0x01, 0x05, 0x00]), refused(12, 4));
    assert_eq!(
        hints_judge(&[0x01, 0x00, 0x01, 0x05, 0x01, 0xFF]),
        refused(12, 4)
    );
    // A padded size 1 is size 1.
    assert_eq!(
        hint(&[0x01, 0x00, 0x01, 0x05, 0x81, 0x00, 0x00], 0, 5),
        UNLIKELY
    );
}

#[test]
fn r17_generic_metadata_through_a_module() {
    let hints = custom_section(HINTS, &[0x01, 0x02, 0x01, 0x05, 0x01, 0x01]);
    let bad = custom_section(HINTS, &[0x01, 0x02, 0x01, 0x05, 0x01, 0x02]);
    let good = module(&[hints]);
    let bad = module(&[bad]);
    assert_eq!(metadata_in(&good, b"branch_hint", 2, 5), found(36 + 5, 1));
    assert_eq!(metadata_in(&good, b"branch_hint", 2, 4), NONE);
    assert_eq!(metadata_in(&bad, b"branch_hint", 2, 5), refused(12, 36 + 4));
    assert_eq!(hint_in(&good, 2, 5), LIKELY);
    let unnamed = module(&[custom_section(b"metadata.code.", &[1, 0, 1, 7, 2, 9, 9])]);
    assert_eq!(metadata_in(&unnamed, b"", 0, 7), found(8 + 17 + 5, 2));
    assert_eq!(metadata_in(&good, b"", 2, 5), NONE);
}

#[test]
fn r18_an_item_of_size_0_is_an_item() {
    let payload = [0x01, 0x02, 0x01, 0x05, 0x00];
    assert_eq!(metadata(&payload, 2, 5), found(5, 0));
    assert_eq!(
        rewritten(metadata_canonical, &payload),
        Ok(payload.to_vec())
    );
}

// Writing. Every rewriting in these tests is also tried with exactly enough room and with one byte
// less.

#[test]
fn r19_exactly_long_enough_is_enough() {
    assert_eq!(names_canonical(&[], &mut []), found(0, 0));
    assert_eq!(names_canonical(&[0x01, 0x01, 0x00], &mut []), found(0, 0));
    assert_eq!(function_names_write(&[], &[], &[], &mut []), found(0, 0));
    assert_eq!(metadata_canonical(&[0x00], &mut []), refused(13, 1));
    assert_eq!(names_canonical(&P, &mut [0; 21]), found(0, 21));
    assert_eq!(names_canonical(&P, &mut [0; 20]), refused(13, 21));
}

/// Reads four gigabytes that are never written to, which takes time where such room is not to be
/// had.
/// Zeros that are only read take no memory of their own.
#[test]
#[cfg(target_pointer_width = "64")]
#[cfg_attr(
    not(target_arch = "x86_64"),
    ignore = "lends four gigabytes of text, which not every other machine has"
)]
fn r20_15_is_about_the_contents() {
    let longest = u32::MAX - 7;
    let text = vec![0; longest as usize + 1];
    let fits = function_names_write(&[0], &[longest], &text[1..], &mut []);
    assert_eq!(fits, refused(13, 6 + u64::from(u32::MAX)));
    let exceeds = function_names_write(&[0], &[longest + 1], &text, &mut []);
    assert_eq!(exceeds, refused(15, 0));
}

#[test]
fn r21_sums_of_lengths_are_exact() {
    let write = |lengths: &[u32]| function_names_write(&[0, 1], lengths, b"ab", &mut [0; 32]);
    assert_eq!(write(&[u32::MAX, 3]), refused(14, 0));
    assert_eq!(write(&[1, 2]), refused(14, 0));
    assert_eq!(write(&[1, 0]), refused(14, 0));
    assert_eq!(write(&[1, 1]), found(0, 9));
}

#[test]
fn r22_in_lists_11_gives_the_position() {
    let write = |indices: &[u32]| {
        let lengths = vec![0; indices.len()];
        function_names_write(indices, &lengths, &[], &mut [0; 32])
    };
    assert_eq!(write(&[7, 7]), refused(11, 1));
    assert_eq!(write(&[1, 2, 3, 2, 1]), refused(11, 3));
    assert_eq!(write(&[0, 1, u32::MAX]), found(0, 2 + 1 + 2 + 2 + 6));
}

#[test]
fn r22_names_are_judged_one_by_one() {
    let write = |lengths: &[u32], text: &[u8]| {
        let indices: Vec<u32> = (0..lengths.len() as u32).collect();
        function_names_write(&indices, lengths, text, &mut [])
    };
    assert_eq!(write(&[1, 1], &[0xC3, 0xA9]), refused(4, 0));
    assert_eq!(write(&[1, 0, 2], &[0x61, 0x61, 0xFF]), refused(4, 1));
    assert_eq!(write(&[2, 1, 1], &[0xC3, 0xA9, 0xC3, 0xA9]), refused(4, 2));
}

#[test]
fn r22_the_order_of_refusals_from_lists() {
    // 14 before 11, 11 before 4, 4 before 13; all of 11 before all of 4.
    let write = |indices: &[u32], lengths: &[u32], text: &[u8]| {
        function_names_write(indices, lengths, text, &mut [])
    };
    assert_eq!(write(&[1, 1], &[1, 1], b"\xFF"), refused(14, 0));
    assert_eq!(write(&[1, 1], &[1], b"\xFF"), refused(14, 0));
    assert_eq!(write(&[], &[], b"a"), refused(14, 0));
    assert_eq!(write(&[1, 2, 2], &[1, 1, 1], b"\xFFaa"), refused(11, 2));
    assert_eq!(write(&[1, 2], &[1, 1], b"a\xFF"), refused(4, 1));
    assert_eq!(write(&[1, 2], &[1, 1], b"aa"), refused(13, 9));
}
