//! Why a function or a local has no name: each reason, by hand from the text of the request.

mod support;

use second_reader::*;
use support::*;

/// Function 3 alone.
const ONE: &[u8] = b"\x01\x04\x01\x03\x01f";

/// The functions 0, 128 and 4,294,967,295.
const THREE: &[u8] = b"\x01\x0F\x03\x00\x01a\x80\x01\x01b\xFF\xFF\xFF\xFF\x0F\x01c";

/// Function 0 with the local 5, function 2 without any, function 7 with the locals 0, 5 and 128.
const GROUPS: &[u8] = b"\x02\x14\x03\
    \x00\x01\x05\x01l\
    \x02\x00\
    \x07\x03\x00\x01x\x05\x01y\x80\x01\x01z";

#[test]
fn no_subsection() {
    for index in [0, 3, u32::MAX] {
        assert_eq!(why_function(b"", index), NO_SUBSECTION);
        assert_eq!(why_function(GROUPS, index), NO_SUBSECTION);
        assert_eq!(why_local(b"", index, 0), NO_SUBSECTION);
        assert_eq!(why_local(ONE, index, 0), NO_SUBSECTION);
    }
    // The module, types, fields and what is kept name no function and no local.
    let others = b"\x00\x02\x01m\x03\x01\xFF\x04\x04\x01\x03\x01t\x0A\x06\x01\x03\x01\x00\x01d";
    assert_eq!(why_function(others, 3), NO_SUBSECTION);
    assert_eq!(why_local(others, 3, 0), NO_SUBSECTION);
}

#[test]
fn an_empty_map_is_a_map_without_the_index() {
    for empty in [&b"\x01\x01\x00"[..], b"\x01\x05\x80\x80\x80\x80\x00"] {
        for index in [0, 3, u32::MAX] {
            assert_eq!(why_function(empty, index), between(None, None));
        }
    }
}

#[test]
fn a_map_with_one_entry() {
    assert_eq!(why_function(ONE, 3), named(1, 0));
    for below in [0, 2] {
        assert_eq!(why_function(ONE, below), between(None, Some(3)));
    }
    for above in [4, u32::MAX] {
        assert_eq!(why_function(ONE, above), between(Some(3), None));
    }
}

#[test]
fn the_nearest_of_several() {
    for (index, why) in [
        (0, named(1, 0)),
        (1, between(Some(0), Some(128))),
        (127, between(Some(0), Some(128))),
        (128, named(1, 1)),
        (129, between(Some(128), Some(u32::MAX))),
        (u32::MAX - 1, between(Some(128), Some(u32::MAX))),
        (u32::MAX, named(1, 2)),
    ] {
        assert_eq!(why_function(THREE, index), why, "function {index}");
    }
}

#[test]
fn a_subsection_without_a_group_for_the_function() {
    for function in [1, 3, 6, 8, u32::MAX] {
        assert_eq!(why_local(GROUPS, function, 5), NO_GROUP);
    }
    for without_any in [&b"\x02\x01\x00"[..], b"\x02\x02\x80\x00"] {
        for function in [0, 2, u32::MAX] {
            assert_eq!(why_local(without_any, function, 0), NO_GROUP);
        }
    }
}

#[test]
fn an_empty_group_is_a_map_without_the_index() {
    for local in [0, 5, u32::MAX] {
        assert_eq!(why_local(GROUPS, 2, local), between(None, None));
    }
}

#[test]
fn positions_and_neighbours_are_those_of_the_group() {
    for (function, local, why) in [
        (0, 5, named(2, 0)),
        (0, 0, between(None, Some(5))),
        (0, 128, between(Some(5), None)),
        (7, 0, named(2, 0)),
        (7, 1, between(Some(0), Some(5))),
        (7, 5, named(2, 1)),
        (7, 127, between(Some(5), Some(128))),
        (7, 128, named(2, 2)),
        (7, u32::MAX, between(Some(128), None)),
    ] {
        let said = why_local(GROUPS, function, local);
        assert_eq!(said, why, "local {local} of function {function}");
    }
}

#[test]
fn the_greatest_function_and_local() {
    let greatest = b"\x02\x0E\x01\xFF\xFF\xFF\xFF\x0F\x01\xFF\xFF\xFF\xFF\x0F\x01z";
    assert_eq!(why_local(greatest, u32::MAX, u32::MAX), named(2, 0));
    let before = between(None, Some(u32::MAX));
    assert_eq!(why_local(greatest, u32::MAX, 0), before);
    assert_eq!(why_local(greatest, u32::MAX - 1, u32::MAX), NO_GROUP);
}

#[test]
fn an_empty_name_is_a_name() {
    assert_eq!(why_function(b"\x01\x03\x01\x03\x00", 3), named(1, 0));
    assert_eq!(
        why_local(b"\x02\x05\x01\x03\x01\x00\x00", 3, 0),
        named(2, 0)
    );
}

#[test]
fn padding_does_not_count() {
    let padded = b"\x01\x8B\x00\x82\x00\x80\x00\x81\x00a\x83\x80\x00\x00";
    assert_eq!(why_function(padded, 0), named(1, 0));
    assert_eq!(why_function(padded, 2), between(Some(0), Some(3)));
    assert_eq!(why_function(padded, 3), named(1, 1));
}

#[test]
fn a_refused_payload_is_refused_whatever_is_asked() {
    for (payload, code, offset) in [
        (&b"\x01\x00"[..], 2, 2),
        (b"\x01\x07\x02\x03\x01b\x03\x01a", 11, 6),
        (b"\x02\x01\x00\x01\x01\x00", 9, 3),
        // damaged behind a function and a local that have names
        (b"\x01\x04\x01\x03\x01f\x0B\x02\x00\x00", 10, 9),
        (
            b"\x02\x06\x01\x03\x01\x00\x01x\x04\x04\x01\x00\x01\xFF",
            4,
            13,
        ),
    ] {
        for index in [0, 3, u32::MAX] {
            let refused = why_refused(code, offset);
            assert_eq!(why_function(payload, index), refused, "{payload:02X?}");
            assert_eq!(why_local(payload, index, 0), refused, "{payload:02X?}");
        }
    }
}

#[test]
fn the_first_edition_judges() {
    let no_map_of_globals = b"\x01\x04\x01\x03\x01f\x07\x01\xFF";
    assert_eq!(wide_names_judge(no_map_of_globals), refused(2, 8));
    assert_eq!(why_function(no_map_of_globals, 3), named(1, 0));
}
