//! Every question with an answer, put to a payload and through a module, and each rewriting by
//! hand.

mod support;

use second_reader::*;
use support::*;

/// All six known subsections, a kept one between them and one behind.
const ALL: &[u8] = b"\x00\x02\x01m\
    \x01\x04\x01\x00\x01f\
    \x02\x0B\x02\x00\x01\x00\x01l\x07\x01\x02\x01p\
    \x03\x02kk\
    \x04\x04\x01\x00\x01t\
    \x0A\x06\x01\x00\x01\x00\x01d\
    \x0B\x04\x01\x00\x01g\
    \xFF\x01z";

/// Every question that `ALL` answers, with the bytes of its answer.
fn answered(lent: &[u8], answer: Answer) -> String {
    let bytes = bytes_of(lent, answer).unwrap_or(b"none");
    String::from_utf8_lossy(bytes).into_owned()
}

#[test]
fn names_are_kept_apart() {
    assert_eq!(names_judge(ALL), found(0, ALL.len() as u64));
    assert_eq!(answered(ALL, module_name(ALL)), "m");
    assert_eq!(answered(ALL, function_name(ALL, 0)), "f");
    assert_eq!(answered(ALL, type_name(ALL, 0)), "t");
    assert_eq!(answered(ALL, tag_name(ALL, 0)), "g");
    assert_eq!(answered(ALL, local_name(ALL, 0, 0)), "l");
    assert_eq!(answered(ALL, local_name(ALL, 7, 2)), "p");
    assert_eq!(answered(ALL, local_name(ALL, 2, 7)), "none");
    assert_eq!(answered(ALL, local_name(ALL, 7, 0)), "none");
    assert_eq!(answered(ALL, field_name(ALL, 0, 0)), "d");
    assert_eq!(answered(ALL, field_name(ALL, 7, 2)), "none");
    assert_eq!(answered(ALL, kept(ALL, 3)), "kk");
    assert_eq!(answered(ALL, kept(ALL, 255)), "z");
    assert_eq!(answered(ALL, kept(ALL, 4)), "none");
    assert_eq!(answered(ALL, kept(ALL, 5)), "none");
}

#[test]
fn names_through_a_module() {
    let module = module(&[plain_section(1, &[0]), custom_section(b"name", ALL)]);
    let through = [
        module_name_in(&module),
        function_name_in(&module, 0),
        type_name_in(&module, 0),
        tag_name_in(&module, 0),
        local_name_in(&module, 7, 2),
        field_name_in(&module, 0, 0),
        kept_in(&module, 255),
    ];
    let texts = through.map(|answer| answered(&module, answer));
    assert_eq!(texts, ["m", "f", "t", "g", "p", "d", "z"]);
}

#[test]
fn a_module_without_the_sections_gets_none() {
    let module = module(&[plain_section(1, &[0]), custom_section(b"Name", ALL)]);
    assert_eq!(module_name_in(&module), NONE);
    assert_eq!(function_name_in(&module, 0), NONE);
    assert_eq!(type_name_in(&module, 0), NONE);
    assert_eq!(tag_name_in(&module, 0), NONE);
    assert_eq!(local_name_in(&module, 7, 2), NONE);
    assert_eq!(field_name_in(&module, 0, 0), NONE);
    assert_eq!(kept_in(&module, 255), NONE);
    assert_eq!(metadata_in(&module, b"branch_hint", 0, 0), NONE);
    assert_eq!(hint_in(&module, 0, 0), NONE);
}

#[test]
fn sections_are_found_by_position() {
    let module = module(&[
        plain_section(1, &[0]),
        custom_section(b"a", b"xyz"),
        plain_section(12, &[]),
    ]);
    assert_eq!(walk(&module), found(0, 3));
    assert_eq!(section(&module, 0), section_found(1, 8, 1));
    assert_eq!(section(&module, 1), section_found(0, 11, 5));
    assert_eq!(section(&module, 2), section_found(12, 18, 0));
    assert_eq!(section(&module, 3), NONE);
    assert_eq!(section(&module, u64::MAX), NONE);
    assert_eq!(custom(&module, b"a"), found(15, 3));
}

#[test]
fn sections_come_in_their_order() {
    // type, import, function, table, memory, tag, global, export, start, element, data count, code,
    // data
    let order = [1, 2, 3, 4, 5, 13, 6, 7, 8, 9, 12, 10, 11];
    let all = order.map(|id| plain_section(id, &[]));
    assert_eq!(walk(&module(&all)), found(0, 13));
    for (place, id) in order.into_iter().enumerate() {
        for (next_place, next) in order.into_iter().enumerate() {
            let module = module(&[plain_section(id, &[]), plain_section(next, &[])]);
            let expected = if next_place > place {
                found(0, 2)
            } else {
                refused(6, 10)
            };
            assert_eq!(walk(&module), expected, "{id} then {next}");
        }
    }
}

#[test]
fn hints_of_both_kinds() {
    let payload = [2, 3, 2, 5, 1, 0, 9, 1, 1, 4, 1, 5, 1, 1];
    assert_eq!(hints_judge(&payload), found(0, 14));
    assert_eq!(hint(&payload, 3, 5), UNLIKELY);
    assert_eq!(hint(&payload, 3, 9), LIKELY);
    assert_eq!(hint(&payload, 4, 5), LIKELY);
    assert_eq!(hint(&payload, 4, 9), NONE);
    assert_eq!(hint(&payload, 5, 3), NONE);
}

#[test]
fn metadata_bytes_left_over() {
    assert_eq!(metadata_judge(&[0, 0]), refused(10, 1));
    assert_eq!(hints_judge(&[1, 0, 0, 7]), refused(10, 3));
}

#[test]
fn metadata_indices_increase() {
    assert_eq!(metadata_judge(&[2, 3, 0, 3, 0]), refused(11, 3));
    assert_eq!(metadata_judge(&[2, 3, 0, 2, 0]), refused(11, 3));
    assert_eq!(metadata_judge(&[1, 0, 2, 9, 0, 8, 0]), refused(11, 5));
    assert_eq!(metadata_judge(&[2, 0, 1, 9, 0, 1, 1, 0, 0]), found(0, 9));
}

#[test]
fn functions_without_items_go() {
    assert_eq!(rewritten(metadata_canonical, &[1, 5, 0]), Ok(vec![0]));
    assert_eq!(rewritten(hints_canonical, &[0x80, 0x00]), Ok(vec![0]));
    let payload = [3, 1, 0, 2, 1, 4, 1, 1, 3, 0];
    let canonical = vec![1, 2, 1, 4, 1, 1];
    assert_eq!(rewritten(hints_canonical, &payload), Ok(canonical));
}

#[test]
fn data_is_copied_and_only_hints_are_looked_into() {
    let payload = [1, 2, 1, 4, 2, 0x80, 0x00];
    assert_eq!(
        rewritten(metadata_canonical, &payload),
        Ok(payload.to_vec())
    );
    assert_eq!(rewritten(hints_canonical, &payload), Err(refused(12, 4)));
}

#[test]
fn kept_contents_and_the_module_name_stay() {
    let payload = [
        0x00, 0x82, 0x00, 0x80, 0x00, 0x03, 0x80, 0x00, 0x05, 0x02, 0x80, 0x00,
    ];
    let canonical = vec![0x00, 0x01, 0x00, 0x03, 0x00, 0x05, 0x02, 0x80, 0x00];
    assert_eq!(rewritten(names_canonical, &payload), Ok(canonical));
}

#[test]
fn a_judged_refusal_comes_before_a_short_output() {
    let payload = [0x01, 0x02, 0x00, 0x00];
    assert_eq!(names_canonical(&payload, &mut []), refused(10, 3));
    assert_eq!(hints_canonical(&[0x80], &mut []), refused(2, 0));
}

#[test]
fn names_from_lists() {
    let write = |out: &mut [u8]| function_names_write(&[2, 300], &[0, 2], "é".as_bytes(), out);
    let payload = written(write, 32);
    let expected = vec![0x01, 0x08, 0x02, 0x02, 0x00, 0xAC, 0x02, 0x02, 0xC3, 0xA9];
    assert_eq!(payload, Ok(expected.clone()));
    assert_eq!(function_name(&expected, 2), found(5, 0));
    assert_eq!(function_name(&expected, 300), found(8, 2));
    assert_eq!(function_name(&expected, 3), NONE);
}
