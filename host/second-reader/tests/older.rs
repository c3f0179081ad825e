//! The older edition of branch hints: the payload of a section `branchHints`, by hand from the
//! rules and the source, and the newer edition beside it.

mod support;

use second_reader::*;
use support::*;

/// Function 5 before function 2, its offsets falling, and function 5 once more, where it is said
/// anew of offset 9 what was said of it before.
const FREE: &[u8] = b"\x03\
    \x05\x00\x02\x01\x09\x00\x04\
    \x02\x00\x01\x01\x80\x01\
    \x05\x00\x02\x00\x09\x01\x03";

#[track_caller]
fn accepted(payload: &[u8]) {
    let length = payload.len() as u64;
    assert_eq!(old_hints_judge(payload), found(0, length), "{payload:02X?}");
}

/// Every call refuses the payload alike, and it is not canonical.
#[track_caller]
fn is_refused(payload: &[u8], code: u32, offset: u64) {
    let refusal = refused(code, offset);
    assert_eq!(old_hints_judge(payload), refusal, "{payload:02X?}");
    assert_eq!(old_hint(payload, 0, 0), refusal, "{payload:02X?}");
    assert_eq!(rewritten(old_hints_canonical, payload), Err(refusal));
    assert!(!old_hints_is_canonical(payload), "{payload:02X?}");
}

#[track_caller]
fn becomes(payload: &[u8], canonical: &[u8]) {
    let written = rewritten(old_hints_canonical, payload);
    assert_eq!(written.as_deref(), Ok(canonical), "{payload:02X?}");
    assert_eq!(old_hints_is_canonical(payload), payload == canonical);
    assert!(old_hints_is_canonical(canonical), "{canonical:02X?}");
}

#[test]
fn the_first_hint_of_a_pair_answers() {
    accepted(FREE);
    assert_eq!(old_hint(FREE, 5, 9), LIKELY);
    assert_eq!(old_hint(FREE, 5, 4), UNLIKELY);
    assert_eq!(old_hint(FREE, 5, 3), LIKELY);
    assert_eq!(old_hint(FREE, 2, 128), LIKELY);
    for (function, offset) in [(2, 9), (5, 128), (9, 5), (0, 0), (u32::MAX, u32::MAX)] {
        assert_eq!(old_hint(FREE, function, offset), NONE);
    }
    let in_one_entry = b"\x01\x07\x00\x03\x00\x05\x01\x05\x01\x05";
    assert_eq!(old_hint(in_one_entry, 7, 5), UNLIKELY);
    let over_two = b"\x02\x07\x00\x01\x01\x05\x07\x00\x01\x00\x05";
    assert_eq!(old_hint(over_two, 7, 5), LIKELY);
}

#[test]
fn a_kind_is_a_number_however_padded() {
    assert_eq!(old_hint(b"\x01\x00\x00\x01\x80\x00\x05", 0, 5), UNLIKELY);
    let longest = b"\x01\x00\x00\x01\x81\x80\x80\x80\x00\x05";
    assert_eq!(old_hint(longest, 0, 5), LIKELY);
    assert_eq!(old_hint(longest, 5, 0), NONE);
}

#[test]
fn every_number_may_be_padded() {
    let padded = b"\x81\x00\x82\x80\x00\x00\x81\x00\x80\x80\x80\x80\x00\x85\x00";
    accepted(padded);
    assert_eq!(old_hint(padded, 2, 5), UNLIKELY);
    becomes(padded, b"\x01\x02\x00\x01\x00\x05");
}

#[test]
fn numbers_are_refused_2_and_3_at_their_first_byte() {
    is_refused(b"", 2, 0);
    is_refused(b"\x80", 2, 0);
    is_refused(b"\xFF\xFF\xFF\xFF\x1F", 3, 0);
    is_refused(b"\x01", 2, 1);
    is_refused(b"\x01\x80\x80\x80\x80\x10", 3, 1);
    is_refused(b"\x01\x00\x00", 2, 3);
    is_refused(b"\x01\x00\x00\xFF\xFF\xFF\xFF\x7F", 3, 3);
    is_refused(b"\x01\x00\x00\x01", 2, 4);
    is_refused(b"\x01\x00\x00\x01\x80\x80\x80\x80\x80\x00", 3, 4);
    is_refused(b"\x01\x00\x00\x01\x01", 2, 5);
    is_refused(b"\x01\x00\x00\x01\x01\xFF", 2, 5);
    is_refused(b"\x01\x00\x00\x01\x01\xFF\xFF\xFF\xFF\x10", 3, 5);
    is_refused(b"\x01\x00\x00\x02\x01\x05", 2, 6);
    is_refused(b"\x02\x00\x00\x00", 2, 4);
}

#[test]
fn a_count_too_great_is_no_fault_by_itself() {
    is_refused(b"\xFF\xFF\xFF\xFF\x0F\x00", 2, 6);
    is_refused(b"\x01\x00\x00\xFF\xFF\xFF\xFF\x0F\x00\x05", 2, 10);
}

#[test]
fn the_zero_byte_is_one_byte() {
    is_refused(b"\x01\x05", 2, 2);
    is_refused(b"\x01\x85\x00", 2, 3);
    is_refused(b"\x01\x05\x01\x00", 17, 2);
    is_refused(b"\x01\x05\x80\x00\x00", 17, 2);
    is_refused(b"\x01\x05\xFF", 17, 2);
    is_refused(b"\x02\x05\x00\x00\x05\x01\x00", 17, 5);
}

#[test]
fn a_kind_above_1_is_refused_before_its_offset_is_read() {
    is_refused(b"\x01\x00\x00\x01\x02", 12, 4);
    is_refused(b"\x01\x00\x00\x01\x02\xFF\xFF\xFF\xFF\x1F", 12, 4);
    is_refused(b"\x01\x00\x00\x01\x82\x80\x00\x05", 12, 4);
    is_refused(b"\x01\x00\x00\x01\xFF\xFF\xFF\xFF\x0F\x05", 12, 4);
    is_refused(b"\x01\x00\x00\x02\x01\x05\x02", 12, 6);
}

#[test]
fn bytes_behind_the_list_are_left_over() {
    is_refused(b"\x00\x00", 10, 1);
    is_refused(b"\x80\x00\x07\x07", 10, 2);
    is_refused(b"\x01\x00\x00\x01\x01\x05\x00", 10, 6);
}

#[test]
fn damage_behind_the_answer_refuses_the_question() {
    let payload = b"\x02\x07\x00\x01\x01\x05\x08\x00\x01\x02";
    assert_eq!(old_hint(payload, 7, 5), refused(12, 9));
}

#[test]
fn canonical_forms() {
    becomes(
        b"\x01\x00\x00\x02\x01\x05\x01\x05",
        b"\x01\x00\x00\x01\x01\x05",
    );
    becomes(
        FREE,
        b"\x02\x02\x00\x01\x01\x80\x01\x05\x00\x03\x01\x03\x00\x04\x01\x09",
    );
    becomes(b"\x00", b"\x00");
    becomes(b"\x80\x80\x80\x80\x00", b"\x00");
    becomes(b"\x02\x05\x00\x00\x03\x00\x80\x00", b"\x00");
    becomes(
        b"\x02\x05\x00\x00\x03\x00\x01\x00\x00",
        b"\x01\x03\x00\x01\x00\x00",
    );
}

#[test]
fn the_order_is_that_of_the_numbers() {
    // By their bytes 80 01 would stand behind 7F and before FF 00, and FF FF FF FF 0F before both.
    let payload = b"\x03\xFF\xFF\xFF\xFF\x0F\x00\x01\x00\x00\
        \x80\x01\x00\x02\x01\xFF\xFF\xFF\xFF\x0F\x00\x80\x02\
        \x7F\x00\x01\x01\x01";
    let canonical = b"\x03\x7F\x00\x01\x01\x01\
        \x80\x01\x00\x02\x00\x80\x02\x01\xFF\xFF\xFF\xFF\x0F\
        \xFF\xFF\xFF\xFF\x0F\x00\x01\x00\x00";
    becomes(payload, canonical);
}

#[test]
fn a_rewriting_may_need_fewer_bytes_for_a_count() {
    let repeated = [&b"\x01\x07\x00\x80\x01"[..], &b"\x01\x05".repeat(128)].concat();
    becomes(&repeated, b"\x01\x07\x00\x01\x01\x05");
    let entries = [&b"\x80\x01"[..], &b"\x07\x00\x01\x00\x05".repeat(128)].concat();
    becomes(&entries, b"\x01\x07\x00\x01\x00\x05");
}

#[test]
fn through_a_module_the_walk_comes_first() {
    let hints = custom_section(OLD_HINTS, FREE);
    let whole = module(&[hints.clone(), plain_section(10, &[0])]);
    assert_eq!(old_hint_in(&whole, 5, 9), LIKELY);
    assert_eq!(old_hint_in(&whole, 5, 10), NONE);
    assert_eq!(old_hint_in(&module(&[]), 5, 9), NONE);
    assert_eq!(old_hint_in(b"", 5, 9), refused(1, 0));
    let twice = module(&[hints.clone(), hints.clone()]);
    assert_eq!(
        old_hint_in(&twice, 5, 9),
        refused(7, 8 + hints.len() as u64)
    );
    let late = module(&[plain_section(10, &[0]), hints]);
    assert_eq!(old_hint_in(&late, 5, 9), refused(8, 11));
}

#[test]
fn through_a_module_offsets_count_from_its_start() {
    // The payload starts behind preamble, id, size, and the name with its length.
    let start = 8 + 2 + 1 + OLD_HINTS.len() as u64;
    for (payload, code, at) in [
        (&b"\x01\x05\x01\x00"[..], 17, 2),
        (b"\x01\x05", 2, 2),
        (b"\x01\x00\x00\x01\x02", 12, 4),
        (b"\x00\x00", 10, 1),
        (b"", 2, 0),
    ] {
        // What follows the section is not looked into for a number that is cut.
        let damaged = module(&[custom_section(OLD_HINTS, payload), plain_section(1, &[0])]);
        assert_eq!(old_hint_in(&damaged, 0, 0), refused(code, start + at));
    }
}

#[test]
fn the_editions_are_asked_apart() {
    let newer = b"\x01\x02\x01\x05\x01\x01";
    let older = b"\x01\x02\x00\x01\x00\x05";
    let both = module(&[
        custom_section(HINTS, newer),
        custom_section(OLD_HINTS, older),
    ]);
    assert_eq!(
        (hint_in(&both, 2, 5), old_hint_in(&both, 2, 5)),
        (LIKELY, UNLIKELY)
    );
    let only_newer = module(&[custom_section(HINTS, newer)]);
    assert_eq!(old_hint_in(&only_newer, 2, 5), NONE);
    let only_older = module(&[custom_section(OLD_HINTS, older)]);
    assert_eq!(hint_in(&only_older, 2, 5), NONE);
    // The damage of one edition is not met by the question to the other.
    let damaged = module(&[custom_section(HINTS, b""), custom_section(OLD_HINTS, older)]);
    assert_eq!(old_hint_in(&damaged, 2, 5), UNLIKELY);
    assert_eq!(hint_in(&damaged, 2, 5).code, 2);
}
