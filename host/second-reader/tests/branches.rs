//! Hints that sit on a branch: by hand from the text of the request, and how its open points are
//! settled.

mod support;

use second_reader::*;
use support::*;

/// Where the payload of hints stands in every module here, and what numbers a payload of one function
/// with one hint has where.
const PAYLOAD_AT: u64 = 36;
const FUNCTION_AT: u64 = PAYLOAD_AT + 1;
const OFFSET_AT: u64 = PAYLOAD_AT + 3;

/// Where contents begin of a section right behind a payload of one function with one hint.
const CONTENTS_AT: u64 = PAYLOAD_AT + 6 + 2;

/// A payload of one hint.
const fn one_hint(function: u8, offset: u8) -> [u8; 6] {
    [1, function, 1, offset, 1, 0]
}

/// A module with a payload of hints, and with imports and bodies where there are such sections.
fn checked(hints: &[u8], imports: Option<&[u8]>, bodies: Option<&[u8]>) -> Answer {
    let mut sections = vec![custom_section(HINTS, hints)];
    sections.extend(imports.map(|contents| plain_section(2, contents)));
    sections.extend(bodies.map(|contents| plain_section(10, contents)));
    let module = module(&sections);
    let answer = hints_on_branches(&module);
    match answer.kind {
        Kind::Found => assert_eq!(answer, found(0, module.len() as u64)),
        _ => assert_eq!(answer, refused(answer.code, answer.offset)),
    }
    answer
}

/// The refusal of a module, or none.
fn refusal(hints: &[u8], imports: Option<&[u8]>, bodies: Option<&[u8]>) -> Option<(u32, u64)> {
    let answer = checked(hints, imports, bodies);
    (answer.kind == Kind::Refused).then_some((answer.code, answer.offset))
}

/// The number of the refusal of one hint in a module with one body, which is at the hint's offset; or
/// none.
fn of_hint(body: &[u8], offset: u8) -> Option<u32> {
    let bodies = [&[1, body.len() as u8], body].concat();
    let refusal = refusal(&one_hint(0, offset), None, Some(&bodies));
    refusal.map(|(code, at)| {
        assert_eq!(at, OFFSET_AT);
        code
    })
}

/// No locals, `i32.const 0`, `if`, `end`, `i32.const 0`, `br_if 0`, `end`.
const BODY: &[u8] = b"\x00\x41\x00\x04\x40\x0B\x41\x00\x0D\x00\x0B";

#[test]
fn only_where_an_if_or_a_br_if_begins() {
    for offset in 0..=BODY.len() as u8 + 1 {
        let expected = match offset {
            3 | 8 => None,
            _ => Some(21),
        };
        assert_eq!(of_hint(BODY, offset), expected, "{offset}");
    }
}

#[test]
fn several_hints_and_functions() {
    let bodies = [&[2, 11], BODY, &[4, 0, 0x04, 0x40, 0x0B]].concat();
    let both = |last: u8| [2, 0, 2, 3, 1, 1, 8, 1, 0, 1, 1, last, 1, 0];
    assert_eq!(refusal(&both(1), None, Some(&bodies)), None);
    let at = PAYLOAD_AT + 11;
    assert_eq!(refusal(&both(2), None, Some(&bodies)), Some((21, at)));
}

#[test]
fn without_the_section_nothing_is_read() {
    let module = module(&[plain_section(2, &[0xFF]), plain_section(10, &[0xFF])]);
    let accepted = found(0, module.len() as u64);
    assert_eq!(hints_on_branches(&module), accepted);
}

#[test]
fn k6_r15_the_walk_then_the_payload_then_imports_then_bodies_then_hints() {
    let all = |hints: &[u8], imports: &[u8], bodies: &[u8], behind: &[u8]| {
        let module = module(&[
            custom_section(HINTS, hints),
            plain_section(2, imports),
            plain_section(10, bodies),
            behind.to_vec(),
        ]);
        let answer = hints_on_branches(&module);
        assert_eq!(answer.kind, Kind::Refused);
        answer.code
    };
    let (wrong_hint, no_body) = ([1, 0, 1, 3, 1, 2], one_hint(0, 3));
    assert_eq!(all(&wrong_hint, &[], &[0, 0], &[14]), 5);
    assert_eq!(all(&wrong_hint, &[], &[0, 0], &[]), 12);
    assert_eq!(all(&no_body, &[], &[0, 0], &[]), 2);
    assert_eq!(all(&no_body, &[0], &[0, 0], &[]), 10);
    assert_eq!(all(&no_body, &[0], &[0], &[]), 19);
}

/// The refusal of a list of imports, as an offset in its contents.
fn of_imports(contents: &[u8]) -> Option<(u32, u64)> {
    let refusal = refusal(&one_hint(0, 3), Some(contents), None)?;
    (refusal != (19, FUNCTION_AT)).then(|| (refusal.0, refusal.1 - CONTENTS_AT))
}

#[test]
fn k6_r16_an_import_of_every_kind() {
    for import in [
        &b"\x01\x01a\x02\xC3\xA9\x00\x85\x00"[..],
        b"\x01\x00\x00\x01\xFF\x00\x05",
        b"\x01\x00\x00\x01\x70\x01\x05\x85\x00",
        b"\x01\x00\x00\x02\x00\x05",
        b"\x01\x00\x00\x02\x01\x05\xFF\xFF\xFF\xFF\x0F",
        b"\x01\x00\x00\x03\xFF\xFF",
        b"\x82\x00\x00\x00\x00\x05\x00\x00\x03\x7F\x01",
        b"\x00",
    ] {
        assert_eq!(of_imports(import), None, "{import:02X?}");
        let cut = &import[..import.len() - 1];
        assert_eq!(of_imports(cut).map(|(code, _)| code), Some(2), "{cut:02X?}");
        let longer = [import, &[0]].concat();
        let left_over = (10, import.len() as u64);
        assert_eq!(of_imports(&longer), Some(left_over));
    }
}

#[test]
fn k6_r16_faults_of_imports() {
    for (imports, code, at) in [
        (&b""[..], 2, 0),
        (b"\x01", 2, 1),
        (b"\x01\x02a", 2, 1),
        (b"\x01\x00\xFF\xFF\xFF\xFF\x1F", 3, 2),
        (b"\x01\x01\xFF\x01\xFF", 4, 2),
        (b"\x01\x00\x01\xFF\x04", 4, 3),
        (b"\x01\x00\x00", 2, 3),
        (b"\x01\x00\x00\x04", 29, 3),
        (b"\x01\x00\x00\x00\xFF\xFF\xFF\xFF\x1F", 3, 4),
        (b"\x01\x00\x00\x01", 2, 4),
        (b"\x01\x00\x00\x01\x70", 2, 5),
        (b"\x01\x00\x00\x01\x70\x02", 29, 5),
        (b"\x01\x00\x00\x01\x70\x01\x00", 2, 7),
        (b"\x01\x00\x00\x02\x02", 29, 4),
        (b"\x01\x00\x00\x02\xFF\x00", 29, 4),
        (b"\x01\x00\x00\x02\x00\x80", 2, 5),
        (b"\x01\x00\x00\x03", 2, 4),
        (b"\x01\x00\x00\x03\x7F", 2, 5),
    ] {
        assert_eq!(of_imports(imports), Some((code, at)), "{imports:02X?}");
    }
}

#[test]
fn faults_of_the_list_of_bodies() {
    let of_bodies = |contents: &[u8]| {
        let (code, at) = refusal(&one_hint(9, 3), None, Some(contents)).unwrap();
        (code, at - CONTENTS_AT)
    };
    assert_eq!(of_bodies(b""), (2, 0));
    assert_eq!(of_bodies(b"\x02\x01\x00"), (2, 3));
    assert_eq!(of_bodies(b"\x01\x02\x00"), (2, 1));
    assert_eq!(of_bodies(b"\x01\xFF\xFF\xFF\xFF\x1F"), (3, 1));
    assert_eq!(of_bodies(b"\x01\x00\x00"), (10, 2));
}

#[test]
fn k6_r17_a_section_without_hints_still_has_imports_and_bodies_judged() {
    for hints in [&b"\x00"[..], b"\x01\x07\x00"] {
        assert_eq!(refusal(hints, None, None), None);
        let contents_at = PAYLOAD_AT + hints.len() as u64 + 2;
        assert_eq!(refusal(hints, Some(b""), None), Some((2, contents_at)));
        assert_eq!(refusal(hints, None, Some(b"")), Some((2, contents_at)));
        assert_eq!(refusal(hints, Some(b"\x00"), Some(b"\x01\x00")), None);
    }
}

#[test]
fn k6_r18_no_body_for_a_function() {
    let no_body = Some((19, FUNCTION_AT));
    let one_function = b"\x02\x00\x00\x03\x7F\x00\x00\x00\x00\x00";
    let body = [&[1, 11], BODY].concat();
    assert_eq!(
        refusal(&one_hint(1, 3), Some(one_function), Some(&body)),
        None
    );
    for function in [0, 2] {
        let hint = one_hint(function, 3);
        assert_eq!(refusal(&hint, Some(one_function), Some(&body)), no_body);
    }
    assert_eq!(refusal(&one_hint(0, 3), None, Some(&body)), None);
    assert_eq!(refusal(&one_hint(1, 3), None, Some(&body)), no_body);
    assert_eq!(refusal(&one_hint(0, 3), None, None), no_body);
    // A function without hints is not looked for.
    let hints = [2, 0, 1, 3, 1, 0, 9, 0];
    assert_eq!(refusal(&hints, None, Some(&body)), None);
}

#[test]
fn k6_r19_locals_are_one_piece() {
    for offset in 0..6 {
        assert_eq!(of_hint(b"\x01\x01\x7B\x0B", offset), Some(20), "{offset}");
        assert_eq!(of_hint(b"", offset), Some(20), "{offset}");
    }
    // An `if` that is the type or the count of locals.
    assert_eq!(of_hint(b"\x01\x04\x7F\x0B", 1), Some(21));
    assert_eq!(of_hint(b"\x01\x01\x04\x0B", 2), Some(20));
}

#[test]
fn k6_r20_reading_stops_at_the_hinted_place() {
    assert_eq!(of_hint(b"\x00\x43\x00\x0D", 3), Some(20));
    assert_eq!(of_hint(b"\x00\x43\x00\x0D", 1), Some(21));
    assert_eq!(of_hint(b"\x00\xC0\x0D\x00\x0B", 2), Some(20));
    assert_eq!(of_hint(b"\x00\xC0\x0D\x00\x0B", 1), Some(21));
    assert_eq!(of_hint(b"\x00\x04", 1), None);
    assert_eq!(of_hint(b"\x00\x0D\xFF", 1), None);
    // Inside an instruction, at the end and behind it.
    assert_eq!(of_hint(b"\x00\x0C\x0D\x0B", 2), Some(21));
    assert_eq!(of_hint(b"\x00\x0B\x0B\x04\x40", 3), None);
    assert_eq!(of_hint(b"\x00\x0B", 2), Some(21));
    assert_eq!(of_hint(b"\x00\x0B", 0x7F), Some(21));
}

#[test]
fn k6_r20a_hints_one_by_one() {
    let body = [&[1, 11], BODY].concat();
    let hints = |of_first: u8| [2, 0, 1, of_first, 1, 0, 9, 1, 3, 1, 0];
    assert_eq!(refusal(&hints(1), None, Some(&body)), Some((21, OFFSET_AT)));
    let second = Some((19, PAYLOAD_AT + 6));
    assert_eq!(refusal(&hints(3), None, Some(&body)), second);
    // The table of `call_indirect` as newer compilers write it.
    let newer = b"\x00\x04\x40\x11\x00\x80\x80\x80\x80\x00\x0D\x00\x0B\x0B";
    assert_eq!(of_hint(newer, 1), None);
    assert_eq!(of_hint(newer, 10), Some(20));
    assert_eq!(of_hint(b"\x00\x11\x00\x00\x0D\x00\x0B", 4), None);
}

#[test]
fn k6_r20a_names_and_older_hints_take_no_part() {
    let body = [&[1, 11], BODY].concat();
    let module = module(&[
        custom_section(OLD_HINTS, &[0xFF]),
        custom_section(HINTS, &one_hint(0, 3)),
        plain_section(10, &body),
        custom_section(b"name", &[0xFF]),
    ]);
    assert_eq!(hints_on_branches(&module), found(0, module.len() as u64));
}
