//! Which payloads are canonical already: those that are accepted and equal their canonical
//! rewriting.

mod support;

use second_reader::*;
use support::*;

/// What accepted payloads say, so that a no is never for a refusal: `told` judges and tells one.
#[track_caller]
fn all_say(expected: bool, payloads: &[&[u8]], told: fn(&[u8]) -> (Answer, bool)) {
    for payload in payloads {
        let accepted = found(0, payload.len() as u64);
        assert_eq!(told(payload), (accepted, expected), "{payload:02X?}");
    }
}

#[track_caller]
fn names_say(expected: bool, payloads: &[&[u8]]) {
    all_say(expected, payloads, |p| {
        (names_judge(p), names_is_canonical(p))
    });
}

#[track_caller]
fn metadata_says(expected: bool, payloads: &[&[u8]]) {
    all_say(expected, payloads, |p| {
        (metadata_judge(p), metadata_is_canonical(p))
    });
}

/// What hints say, which are metadata as well.
#[track_caller]
fn hints_say(expected: bool, payloads: &[&[u8]]) {
    metadata_says(expected, payloads);
    all_say(expected, payloads, |p| {
        (hints_judge(p), hints_is_canonical(p))
    });
}

#[test]
fn examples() {
    let e7 = b"\x01\x85\x00\x01\x00\x81\x00a";
    let e8 = b"\x01\x01\x00";
    names_say(false, &[e7, e8]);
    let e9 = b"";
    let e10 = b"\x00\x01\x00";
    let e11 = b"\x03\x01\xFF";
    names_say(true, &[e9, e10, e11, &P]);
    let e15 = b"\x01\x02\x01\x05\x01\x01";
    hints_say(true, &[e15, b"\x00"]);
}

#[test]
fn one_padded_number_in_a_map() {
    names_say(true, &[b"\x01\x04\x01\x00\x01a"]);
    let size = b"\x01\x84\x00\x01\x00\x01a";
    let count = b"\x01\x05\x81\x00\x00\x01a";
    let index = b"\x01\x05\x01\x80\x00\x01a";
    let length = b"\x01\x05\x01\x00\x81\x00a";
    names_say(false, &[size, count, index, length]);
}

#[test]
fn one_padded_number_in_an_indirect_map() {
    names_say(true, &[b"\x02\x06\x01\x03\x01\x00\x01x"]);
    let size = b"\x02\x86\x00\x01\x03\x01\x00\x01x";
    let count = b"\x02\x07\x81\x00\x03\x01\x00\x01x";
    let primary = b"\x02\x07\x01\x83\x00\x01\x00\x01x";
    let inner_count = b"\x02\x07\x01\x03\x81\x00\x00\x01x";
    let index = b"\x02\x07\x01\x03\x01\x80\x00\x01x";
    let length = b"\x02\x07\x01\x03\x01\x00\x81\x00x";
    names_say(false, &[size, count, primary, inner_count, index, length]);
}

#[test]
fn one_padded_number_elsewhere_in_names() {
    names_say(true, &[b"\x00\x02\x01m", b"\x03\x02\x80\x00"]);
    let size = b"\x00\x82\x00\x01m";
    let length = b"\x00\x03\x81\x00m";
    let size_of_kept = b"\x03\x82\x80\x80\x80\x00\x80\x00";
    names_say(false, &[size, length, size_of_kept]);
}

#[test]
fn one_padded_number_in_metadata() {
    let count = b"\x81\x00\x02\x01\x05\x01\x01";
    let function = b"\x01\x82\x00\x01\x05\x01\x01";
    let items = b"\x01\x02\x81\x00\x05\x01\x01";
    let offset = b"\x01\x02\x01\x85\x00\x01\x01";
    let size = b"\x01\x02\x01\x05\x81\x00\x01";
    hints_say(false, &[count, function, items, offset, size]);
    hints_say(false, &[b"\x80\x80\x80\x80\x00"]);
    metadata_says(true, &[b"\x01\x02\x01\x05\x02\x80\x00"]);
}

#[test]
fn numbers_that_need_their_bytes() {
    names_say(
        true,
        &[b"\x01\x04\x01\x7F\x01a", b"\x01\x05\x01\x80\x01\x01a"],
    );
    names_say(false, &[b"\x01\x05\x01\xFF\x00\x01a"]);
    names_say(true, &[b"\x01\x08\x01\xFF\xFF\xFF\xFF\x0F\x01z"]);
}

#[test]
fn empty_lists() {
    for id in [1, 2, 4, 10, 11] {
        names_say(false, &[&[id, 1, 0]]);
    }
    for id in [2, 10] {
        let group_before = [&[id][..], b"\x08\x02\x00\x00\x03\x01\x00\x01x"].concat();
        let group_behind = [&[id][..], b"\x08\x02\x03\x01\x00\x01x\x07\x00"].concat();
        let left_empty = [id, 3, 1, 5, 0];
        names_say(false, &[&group_before, &group_behind, &left_empty]);
    }
    let alone = b"\x01\x02\x00";
    let before = b"\x02\x00\x00\x02\x01\x05\x01\x01";
    let behind = b"\x02\x02\x01\x05\x01\x01\x07\x00";
    hints_say(false, &[alone, before, behind]);
}

#[test]
fn what_may_be_empty() {
    let kept = b"\x03\x00";
    let name_in_a_map = b"\x01\x03\x01\x00\x00";
    let name_in_a_group = b"\x02\x05\x01\x03\x01\x00\x00";
    names_say(true, &[kept, name_in_a_map, name_in_a_group]);
    let data = b"\x01\x02\x01\x05\x00";
    metadata_says(true, &[data]);
}

#[test]
fn refused_payloads_are_not() {
    let e12 = &b"\x01\x07\x02\x03\x01b\x03\x01a"[..];
    let e13 = b"\x02\x01\x00\x01\x01\x00";
    let e14 = b"\x01\x02\x00\x00";
    let not_text = b"\x00\x03\x02\xC0\x80";
    let damaged_at_its_end = b"\x00\x02\x01m\x01\x04\x01\x00\x01a\x01";
    for payload in [e12, e13, e14, b"\x01\x00", not_text, damaged_at_its_end] {
        assert_eq!(names_judge(payload).kind, Kind::Refused);
        assert!(!names_is_canonical(payload), "{payload:02X?}");
    }
    for payload in [&b""[..], b"\x80", b"\x00\x07", b"\xFF\xFF\xFF\xFF\x0F\x00"] {
        assert_eq!(metadata_judge(payload).kind, Kind::Refused);
        assert!(!metadata_is_canonical(payload), "{payload:02X?}");
        assert!(!hints_is_canonical(payload), "{payload:02X?}");
    }
    let e16 = b"\x01\x02\x01\x05\x01\x02";
    metadata_says(true, &[e16]);
    assert!(!hints_is_canonical(e16));
}
