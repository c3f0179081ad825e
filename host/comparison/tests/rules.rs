//! The rules' own cases.

use comparison::library::{
    self, FOUND, NOBODY, NONE, NO_ENTRY, NO_GROUP, NO_SUBSECTION, OWN, REFUSED, SEPARATE,
};
use comparison::markers::Markers;
use comparison::spelling::{custom, section, unpadded, PREAMBLE};
use comparison::tally::{Said, Tally, HINTS};

/// The payload P of the examples.
const P: [u8; 21] = [
    0x00, 0x02, 0x01, 0x6D, 0x01, 0x07, 0x02, 0x00, 0x01, 0x61, 0x03, 0x01, 0x62, 0x02, 0x06, 0x01,
    0x03, 0x01, 0x00, 0x01, 0x78,
];

fn said(canonical: u64, not_canonical: u64) -> Said {
    Said {
        canonical,
        not_canonical,
    }
}

#[test]
fn name_payloads() {
    let mut tally = Tally::default();
    for payload in [
        &P[..],
        &[0x01, 0x85, 0x00, 0x01, 0x00, 0x81, 0x00, 0x61],
        &[0x01, 0x01, 0x00],
        &[],
        &[0x00, 0x01, 0x00],
        &[0x03, 0x01, 0xFF],
        &[0x01, 0x07, 0x02, 0x03, 0x01, 0x62, 0x03, 0x01, 0x61],
        &[0x02, 0x01, 0x00, 0x01, 0x01, 0x00],
        &[0x01, 0x02, 0x00, 0x00],
        &[0x01, 0x00],
        &[0x01, 0x04, 0xFF, 0xFF, 0xFF, 0xFF, 0x1F],
        &[0x00, 0x03, 0x05, 0xFF, 0x61],
        &[0x01, 0x09, 0x02, 0x03, 0x01, 0x62, 0x03, 0x01, 0x61],
        &[0x00, 0x03, 0x02, 0x61, 0xFF],
        &[0x00, 0x03, 0x01, 0xC3, 0xA9],
        &[0x00, 0x03, 0x02, 0xC0, 0x80],
        &[0x00, 0x04, 0x03, 0xED, 0xA0, 0x80],
        &[0x02, 0x03, 0x01, 0x05, 0x00],
        &[0x02, 0x05, 0x01, 0x80, 0x80, 0x00, 0x00],
    ] {
        tally.names(payload);
    }
    println!("compared {} calls", tally.calls);
    assert_eq!(tally.names_said, said(4, 4));
    // The wider edition refuses the kept contents of E11.
    assert_eq!(tally.wide_said, said(3, 4));
}

/// The readings of why a function or a local has no name.
#[test]
fn reasons_for_no_name() {
    let mut tally = Tally::default();
    for payload in [
        // no subsection of either
        &[0x00, 0x02, 0x01, 0x6D][..],
        // of functions: an empty map, one index, and three with the least and the greatest
        &[0x01, 0x01, 0x00],
        &[0x01, 0x04, 0x01, 0x03, 0x01, 0x66],
        &[
            0x01, 0x0F, 0x03, 0x00, 0x01, 0x61, 0x80, 0x01, 0x01, 0x62, 0xFF, 0xFF, 0xFF, 0xFF,
            0x0F, 0x01, 0x63,
        ],
        // of locals: no group, an empty group, and a group behind another
        &[0x02, 0x01, 0x00],
        &[0x02, 0x03, 0x01, 0x03, 0x00],
        &[
            0x02, 0x10, 0x02, 0x00, 0x01, 0x01, 0x01, 0x61, 0x03, 0x03, 0x00, 0x00, 0x01, 0x01,
            0x62, 0x80, 0x01, 0x00,
        ],
        // refused behind both
        &[0x01, 0x01, 0x00, 0x02, 0x01, 0x00, 0x0B, 0x02, 0x00, 0x00],
    ] {
        tally.first_names(payload);
    }
    println!("compared {} calls", tally.calls);
    let told = [FOUND, REFUSED, NO_SUBSECTION, NO_GROUP, NO_ENTRY];
    tally.assert_why_met(&told, 1);
    assert_eq!(tally.names_said, said(4, 3));
}

/// So many functions, from index 0 on, with empty names.
fn functions(count: u8) -> Vec<u8> {
    let entries = (0..count).flat_map(|index| [index, 0]);
    let contents = [vec![count], entries.collect()].concat();
    [&[0x01, contents.len() as u8], &contents[..]].concat()
}

/// The readings of markers, made and asked by their own.
#[test]
fn markers() {
    let mut tally = Tally::default();
    for payload in [
        &P[..],
        // without any entry, and without the subsection
        &[0x01, 0x01, 0x00],
        &[0x00, 0x02, 0x01, 0x6D],
        &[],
        // padded in every number
        &[0x01, 0x87, 0x00, 0x81, 0x00, 0x83, 0x00, 0x81, 0x00, 0x66],
        // refused: out of order, and behind the functions
        &FALLING,
        &[0x01, 0x01, 0x00, 0x02, 0x01, 0x00, 0x0B, 0x02, 0x00, 0x00],
        // by the wider edition alone
        &[0x01, 0x04, 0x01, 0x03, 0x01, 0x66, 0x07, 0x01, 0xFF],
    ] {
        tally.own_markers(payload, &[0, 1, 2, 3, 4, u32::MAX]);
    }
    for count in [1, 15, 16, 17, 32, 33, 48] {
        let every: Vec<u32> = (0..=50).collect();
        let markers = tally.own_markers(&functions(count), &every);
        let markers = markers.expect("accepted");
        assert_eq!(markers.indices.len(), count.div_ceil(16).into());
    }
    println!("compared {} calls", tally.calls);
}

/// The functions 5 and 3, in that order.
const FALLING: [u8; 9] = [0x01, 0x07, 0x02, 0x05, 0x01, 0x61, 0x03, 0x01, 0x62];

/// Where the quick question for function 3 finds a name, by these lists and this end; or what else it says.
fn quick(
    payload: &[u8],
    indices: &[u32],
    offsets: &[u32],
    end: u64,
) -> Result<u64, (u32, u32, u64)> {
    let markers = Markers::new(indices, offsets, end);
    let told = Tally::default().quick(payload, &markers, 3);
    match told.kind {
        FOUND => Ok(told.offset),
        other => Err((other, told.code, told.offset)),
    }
}

/// The readings of the quick question, by lists that markers could be.
#[test]
fn quick_questions() {
    let none = Err((NONE, 0, 0));
    // an index out of order behind the marker, also beyond the next marker
    assert_eq!(quick(&FALLING, &[3], &[3], 9), Ok(8));
    assert_eq!(quick(&FALLING, &[3, 4], &[3, 6], 9), Ok(8));
    // asked below the first marker, and without any
    assert_eq!(quick(&FALLING, &[4], &[3], 9), none);
    assert_eq!(quick(&FALLING, &[], &[], 9), none);
    // the entry, and the one before it, run past the end
    for end in 4..9 {
        assert_eq!(quick(&FALLING, &[3], &[3], end), none, "end {end}");
    }
    // a number of refusal 3 is met first: an index, and a length
    let too_large_index = [0xFF, 0xFF, 0xFF, 0xFF, 0x1F, 0x00, 0x03, 0x00];
    assert_eq!(quick(&too_large_index, &[0], &[0], 8), none);
    let too_large_length = [0x03, 0xFF, 0xFF, 0xFF, 0xFF, 0x1F, 0x03, 0x00];
    assert_eq!(quick(&too_large_length, &[0], &[0], 8), none);
    // text that is none
    assert_eq!(quick(&[0x03, 0x01, 0xFF], &[0], &[0], 3), Ok(2));
    // the sixteenth entry, and the seventeenth
    let sixteen = [&[0; 30][..], &[0x03, 0x00]].concat();
    assert_eq!(quick(&sixteen, &[0], &[0], 32), Ok(32));
    let seventeen = [&[0, 0], &sixteen[..]].concat();
    assert_eq!(quick(&seventeen, &[0], &[0], 34), none);
}

/// The readings of refusal 22.
#[test]
fn lists_that_are_no_markers() {
    for (indices, offsets, end, at) in [
        // of unequal length, whatever else
        (&[2, 1][..], &[99][..], 99, 1),
        (&[2, 1], &[99, 1, 1], 99, 2),
        // an end one past the payload, whatever else
        (&[], &[], 13, 0),
        (&[2, 1], &[99, 1], 13, 2),
        // offsets that stand still, indices that do, and both
        (&[2, 1, 3], &[3, 4, 4], 12, 1),
        (&[1, 2, 2], &[3, 3, 4], 12, 1),
        (&[1, 2, 3], &[3, 4, 4], 12, 2),
        (&[1, 2, 2], &[3, 4, 5], 12, 2),
        // an offset not below the end: the first, and the last
        (&[1, 2], &[12, 13], 12, 0),
        (&[1, 2], &[11, 12], 12, 1),
    ] {
        let said = quick(&[0; 12], indices, offsets, end);
        assert_eq!(said, Err((REFUSED, 22, at)), "{indices:?} {offsets:?}");
    }
}

/// Payloads in which the editions differ, and their like.
#[test]
fn name_payloads_of_the_wider_edition() {
    let mut tally = Tally::default();
    for payload in [
        &[0x07, 0x01, 0x00][..],
        &[0x07, 0x01, 0xFF, 0x07, 0x00],
        &[0x07, 0x04, 0x01, 0x00, 0x01, 0x67],
        &[0x07, 0x85, 0x00, 0x01, 0x00, 0x81, 0x00, 0x67],
        &[0x09, 0x03, 0x01, 0x05, 0x00],
        &[0x03, 0x06, 0x01, 0x03, 0x01, 0x00, 0x01, 0x78],
        &[0x03, 0x03, 0x01, 0x05, 0x00],
        &[0x05, 0x00],
        &[0x06, 0x02, 0x00, 0x00],
        &[0x08, 0x07, 0x02, 0x03, 0x01, 0x62, 0x03, 0x01, 0x61],
        &[0x0C, 0x01, 0xFF],
    ] {
        tally.names(payload);
    }
    println!("compared {} calls", tally.calls);
    assert_eq!(tally.names_said, said(9, 1));
    assert_eq!(tally.wide_said, said(4, 3));
}

/// Two payloads: what the request names, and what its readings settle.
const PAIRS: [[&[u8]; 2]; 16] = [
    // a name in both, and in one
    [b"\x01\x04\x01\x03\x01f", b"\x01\x04\x01\x03\x01g"],
    [b"\x01\x04\x01\x03\x01f", b"\x01\x04\x01\x01\x01g"],
    // an empty name hides a full one, and so does an empty module name
    [b"\x01\x03\x01\x03\x00", b"\x01\x04\x01\x03\x01g"],
    [b"\x00\x01\x00", b"\x00\x02\x01m"],
    // an empty kept subsection hides a full one
    [b"\x03\x00", b"\x03\x01\xFF"],
    [b"\x0C\x00", b"\x0C\x01\xFF"],
    // an empty map and an empty group hide nothing
    [b"\x01\x01\x00", b"\x01\x04\x01\x03\x01g"],
    [b"\x02\x03\x01\x03\x00", b"\x02\x06\x01\x03\x01\x00\x01x"],
    // groups of one function in both
    [
        b"\x02\x0B\x02\x00\x01\x00\x01a\x03\x01\x01\x01b",
        b"\x02\x0E\x02\x03\x02\x00\x01c\x01\x01d\x07\x01\x05\x01e",
    ],
    // a module name in the own one alone
    [b"\x01\x04\x01\x03\x01f", b"\x00\x02\x01m"],
    // globals, which the first edition keeps
    [b"\x07\x04\x01\x03\x01g", b"\x07\x04\x01\x00\x01h"],
    [b"\x07\x01\x00", b"\x07\x04\x01\x00\x01h"],
    // both refused, each of them, and the own one while the separate one has the name
    [b"\x01\x00", b"\x01\x02\x00\x00"],
    [b"\x01\x02\x00\x00", b"\x01\x04\x01\x03\x01g"],
    [b"\x00\x02\x01a", b"\x01\x00"],
    // refused by the wider edition alone
    [b"\x01\x04\x01\x03\x01f", b"\x07\x01\xFF"],
];

#[test]
fn pairs() {
    let mut tally = Tally::default();
    for [separate, own] in PAIRS {
        tally.both_ways(separate, own);
        tally.beside_itself_and_nothing(own);
    }
    tally.beside_itself_and_nothing(&P);
    println!("compared {} calls", tally.calls);
}

/// What the readings say of whose an answer is.
#[test]
fn whose_an_answer_is() {
    let told = |separate: &[u8], own: &[u8]| {
        let told = library::pair_module_name(separate, own);
        (told.kind, told.code, told.offset, told.length, told.whose)
    };
    let (a, m, empty) = (b"\x00\x02\x01a", b"\x00\x02\x01m", b"\x00\x01\x00");
    assert_eq!(told(a, m), (FOUND, 0, 3, 1, SEPARATE));
    assert_eq!(told(empty, m), (FOUND, 0, 3, 0, SEPARATE));
    assert_eq!(told(b"", m), (FOUND, 0, 3, 1, OWN));
    assert_eq!(told(b"", b""), (NONE, 0, 0, 0, NOBODY));
    assert_eq!(told(a, b"\x01\x00"), (REFUSED, 2, 2, 0, OWN));
    assert_eq!(told(b"\x01\x00", b"\x00"), (REFUSED, 2, 2, 0, SEPARATE));
    let joined = library::pair_join(a, m, &mut [0; 4]);
    assert_eq!(
        (joined.kind, joined.length, joined.whose),
        (FOUND, 4, NOBODY)
    );
    let short = library::pair_join(a, m, &mut [0; 3]);
    assert_eq!((short.code, short.offset, short.whose), (13, 4, NOBODY));
}

#[test]
fn metadata_payloads() {
    let mut tally = Tally::default();
    for payload in [
        &[0x01, 0x02, 0x01, 0x05, 0x01, 0x01][..],
        &[0x01, 0x02, 0x01, 0x05, 0x01, 0x02],
        &[0xFF, 0xFF, 0xFF, 0xFF, 0x0F, 0x00],
        &[0xFF, 0xFF, 0xFF, 0xFF, 0x0F, 0x05, 0x00, 0x05],
        &[],
        &[0x00],
        &[0x00, 0x07],
        &[0x01, 0x02, 0x00],
        &[0x01, 0x02, 0x01, 0x05, 0x81, 0x00, 0x01],
        &[0x01, 0x02, 0x01, 0x05, 0x00],
        &[
            0x02, 0x00, 0x01, 0x05, 0x01, 0x01, 0x02, 0x01, 0x05, 0x01, 0x00,
        ],
    ] {
        tally.metadata(payload);
    }
    println!("compared {} calls", tally.calls);
    assert_eq!(tally.metadata_said, said(5, 2));
    assert_eq!(tally.hints_said, said(3, 2));
}

/// The readings of the older edition, and one case for each thing that it may be refused for.
const OLD_HINTS: [&[u8]; 22] = [
    &[],
    &[0x00],
    &[0x80, 0x80, 0x80, 0x80, 0x00],
    &[0x00, 0x00],
    // a place twice in one entry: of the same kind, and of the other
    &[0x01, 0x00, 0x00, 0x02, 0x01, 0x05, 0x01, 0x05],
    &[0x01, 0x00, 0x00, 0x02, 0x01, 0x03, 0x00, 0x03],
    // and over two entries
    &[
        0x02, 0x00, 0x00, 0x01, 0x00, 0x03, 0x00, 0x00, 0x01, 0x01, 0x03,
    ],
    // functions and offsets that fall
    &[
        0x02, 0x03, 0x00, 0x02, 0x01, 0x03, 0x00, 0x01, 0x01, 0x00, 0x01, 0x01, 0x00,
    ],
    // a padded kind, and one above 1 with no offset behind it
    &[0x01, 0x00, 0x00, 0x01, 0x80, 0x00, 0x03],
    &[0x01, 0x00, 0x00, 0x01, 0x81, 0x80, 0x80, 0x80, 0x00, 0x03],
    &[0x01, 0x00, 0x00, 0x01, 0x02],
    &[0x01, 0x00, 0x00, 0x01, 0x82, 0x80, 0x00, 0xFF],
    // in the place of the zero byte: nothing, a padded zero, another byte
    &[0x01, 0x00],
    &[0x01, 0x00, 0x80, 0x00, 0x00],
    &[0x01, 0x00, 0x01, 0x00],
    // entries without hints
    &[0x02, 0x05, 0x00, 0x00, 0x03, 0x00, 0x80, 0x00],
    &[0x02, 0x05, 0x00, 0x00, 0x03, 0x00, 0x01, 0x00, 0x00],
    // what stands behind the list
    &[0x01, 0x00, 0x00, 0x01, 0x01, 0x05, 0x00],
    // the greatest numbers, and counts of which nothing is there
    &[
        0x01, 0xFF, 0xFF, 0xFF, 0xFF, 0x0F, 0x00, 0x01, 0x01, 0xFF, 0xFF, 0xFF, 0xFF, 0x0F,
    ],
    &[0xFF, 0xFF, 0xFF, 0xFF, 0x0F],
    &[0x01, 0x00, 0x00, 0xFF, 0xFF, 0xFF, 0xFF, 0x0F],
    &[0x01, 0x00, 0x00, 0x01, 0x01, 0xFF, 0xFF, 0xFF, 0xFF, 0x1F],
];

#[test]
fn old_hint_payloads() {
    let mut tally = Tally::default();
    OLD_HINTS
        .iter()
        .for_each(|payload| tally.old_hints(payload));
    println!("compared {} calls", tally.calls);
    assert_eq!(tally.old_said, said(2, 9));
}

/// A module that begins with hints, with imports and bodies where there are such sections; and what is said of it: 0, or
/// the number of the refusal, and its offset.
fn on_branches(hints: &[u8], imports: Option<&[u8]>, bodies: Option<&[u8]>) -> (u32, u64) {
    let mut module = PREAMBLE.to_vec();
    module.extend(custom(HINTS, hints, &mut unpadded));
    for (id, contents) in [(2, imports), (10, bodies)] {
        module.extend(contents.map_or(vec![], |contents| section(id, contents, &mut unpadded)));
    }
    let told = Tally::default().on_branches(&module);
    (told.code, told.offset)
}

/// Where the payload of hints stands in such a module, the function's index in a payload of one hint, and the hint's offset.
const PAYLOAD_AT: u64 = 36;
const FUNCTION_AT: u64 = PAYLOAD_AT + 1;
const OFFSET_AT: u64 = PAYLOAD_AT + 3;

/// A payload of one hint.
fn one_hint(function: u8, offset: u8) -> [u8; 6] {
    [1, function, 1, offset, 1, 1]
}

/// Lists of imports that are refused, with the number and the offset in the list: kinds and flags, what is missing, and what
/// is left.
const IMPORTS: [(&[u8], u32, u64); 9] = [
    (&[1, 0, 0, 4], 29, 3),
    (&[1, 0, 0], 2, 3),
    (&[1, 0, 0, 1, 0x70, 2, 1], 29, 5),
    (&[1, 0, 0, 2, 2, 1], 29, 4),
    (&[1, 0, 0, 2], 2, 4),
    (&[1, 0, 0, 2, 1, 1], 2, 6),
    (&[1, 0, 0, 3, 0xFF], 2, 5),
    (&[1, 0, 1, 0xFF], 4, 3),
    (&[0, 0], 10, 1),
];

/// The readings of which hints sit on a branch: in which order lists are judged, and when.
#[test]
fn hints_behind_lists() {
    let payload = one_hint(0, 1);
    let contents_at = PAYLOAD_AT + payload.len() as u64 + 2;
    // the payload, imports, bodies, then the hint
    let wrong = [1, 0, 1, 1, 1, 2];
    assert_eq!(
        on_branches(&wrong, Some(&[]), Some(&[])),
        (12, OFFSET_AT + 1)
    );
    assert_eq!(
        on_branches(&payload, Some(&[]), Some(&[])),
        (2, contents_at)
    );
    assert_eq!(
        on_branches(&payload, Some(&[0]), Some(&[])),
        (2, contents_at + 3)
    );
    assert_eq!(
        on_branches(&payload, Some(&[0]), Some(&[0])),
        (19, FUNCTION_AT)
    );
    for (imports, code, at) in IMPORTS {
        let said = on_branches(&payload, Some(imports), Some(&[]));
        assert_eq!(said, (code, contents_at + at), "{imports:02X?}");
    }
    // a section without hints has both judged; without the section neither is
    assert_eq!(on_branches(&[0], Some(&[]), None), (2, PAYLOAD_AT + 3));
    assert_eq!(on_branches(&[0], None, Some(&[0, 0])), (10, PAYLOAD_AT + 4));
    assert_eq!(on_branches(&[0], None, None), (0, 0));
    let without = b"\0asm\x01\0\0\0\x02\x01\xFF\x0A\x01\xFF";
    assert_eq!(Tally::default().on_branches(without).code, 0);
}

/// The readings of a hint's function.
#[test]
fn hints_of_functions() {
    // imported, or no such body; a function without hints is not looked for
    let one_function = [1, 0, 0, 0, 5];
    let body = [1, 5, 0x00, 0x04, 0x40, 0x0B, 0x0B];
    let hint = |function, imports| on_branches(&one_hint(function, 1), imports, Some(&body));
    assert_eq!(hint(1, Some(&one_function)), (0, 0));
    assert_eq!(hint(0, Some(&one_function)), (19, FUNCTION_AT));
    assert_eq!(hint(1, None), (19, FUNCTION_AT));
    let without_hints = [2, 0, 1, 1, 1, 1, 9, 0];
    assert_eq!(on_branches(&without_hints, None, Some(&body)), (0, 0));
    // 21 of function 0 before 19 of function 9
    let both = [2, 0, 1, 2, 1, 1, 9, 1, 1, 1, 1];
    assert_eq!(on_branches(&both, None, Some(&body)), (21, OFFSET_AT));
}

const ACCEPTED: (u32, u64) = (0, 0);
const UNREADABLE: (u32, u64) = (20, OFFSET_AT);
const NO_BRANCH: (u32, u64) = (21, OFFSET_AT);

/// Bodies, the offset of a hint, and what is said of it.
#[rustfmt::skip]
const BODIES: [(&[u8], u8, (u32, u64)); 18] = [
    // locals that cannot be read, whatever the place
    (&[0x01, 0x01, 0x7B, 0x0B], 0, UNREADABLE),
    (&[0x01, 0x01, 0x7B, 0x0B], 9, UNREADABLE),
    (&[], 0, UNREADABLE),
    // an instruction before the place, and at it
    (&[0x00, 0x43, 0x00, 0x0D], 3, UNREADABLE),
    (&[0x00, 0xC0, 0x0D, 0x00, 0x0B], 2, UNREADABLE),
    (&[0x00, 0xC0, 0x0D, 0x00, 0x0B], 1, NO_BRANCH),
    (&[0x00, 0x04], 1, ACCEPTED),
    // inside locals, inside an instruction, at the end and behind it
    (&[0x01, 0x04, 0x7F, 0x0B], 1, NO_BRANCH),
    (&[0x00, 0x41, 0x04, 0x0B], 2, NO_BRANCH),
    (&[0x00, 0x0B], 2, NO_BRANCH),
    (&[0x00, 0x0B], 3, NO_BRANCH),
    // a table's number in five bytes, and in one
    (&[0x00, 0x11, 0x00, 0x80, 0x80, 0x80, 0x80, 0x00, 0x0D, 0x00], 8, UNREADABLE),
    (&[0x00, 0x11, 0x00, 0x00, 0x0D, 0x00], 4, ACCEPTED),
    // fifth bytes of a constant
    (&[0x00, 0x41, 0x80, 0x80, 0x80, 0x80, 0x07, 0x0D], 7, ACCEPTED),
    (&[0x00, 0x41, 0x80, 0x80, 0x80, 0x80, 0x08, 0x0D], 7, UNREADABLE),
    (&[0x00, 0x41, 0x80, 0x80, 0x80, 0x80, 0x77, 0x0D], 7, UNREADABLE),
    (&[0x00, 0x41, 0x80, 0x80, 0x80, 0x80, 0x78, 0x0D], 7, ACCEPTED),
    // an alignment of 127, `else` without `if`, code behind an `end`
    (&[0x00, 0x28, 0x7F, 0x00, 0x05, 0x0B, 0x0D, 0x00], 6, ACCEPTED),
];

/// The readings of one hint: the locals, and what stands before it.
#[test]
fn hints_on_bodies() {
    for (body, offset, said) in BODIES {
        let bodies = [&[1, body.len() as u8], body].concat();
        let hint = on_branches(&one_hint(0, offset), None, Some(&bodies));
        assert_eq!(hint, said, "{body:02X?}");
    }
}

#[test]
fn modules() {
    let mut tally = Tally::default();
    let mut module = b"\0asm\x01\0\0\0\x00\x1A\x04name".to_vec();
    module.extend(P);
    for bytes in [
        &module[..],
        b"",
        b"\0asm\x01\0\0",
        b"\0asm\x01\0\0\0",
        b"\0asm\x02\0\0\0",
        b"\0asm\x01\0\0\0\x0D\0",
        b"\0asm\x01\0\0\0\x0E\0",
        b"\0asm\x01\0\0\0\x0A\0\x0C\0",
        b"\0asm\x01\0\0\0\x0C\0\x0A\0\x0B\0",
        b"\0asm\x01\0\0\0\x06\0\x0D\0",
        b"\0asm\x01\0\0\0\x03\0\x03\0",
        b"\0asm\x01\0\0\0\0\x05\x04name\0\x05\x04name",
        b"\0asm\x01\0\0\0\0\x05\x04name\x0B\0",
        b"\0asm\x01\0\0\0\0\x05\x04name\0\x7F\x04name",
        b"\0asm\x01\0\0\0\0\x03\x01x\x01\x0E\0",
        b"\0asm\x01\0\0\0\0\x12\x0BbranchHints\x01\x00\x00\x01\x01\x03",
        b"\0asm\x01\0\0\0\0\x0C\x0BbranchHints\0\x0D\x0BbranchHints\0",
        b"\0asm\x01\0\0\0\x0A\0\0\x0D\x0BbranchHints\0",
        b"\0asm\x01\0\0\0\0\x0D\x0BbranchHint\0\0",
    ] {
        tally.module(bytes);
    }
    println!("compared {} calls", tally.calls);
}

/// Every two ids, the first two that no section has among them, with nothing, names, or hints of an edition between.
#[test]
fn orders() {
    const LAST: u8 = 15;
    let mut tally = Tally::default();
    let between = [
        &b""[..],
        b"\0\x05\x04name",
        b"\0\x1B\x19metadata.code.branch_hint\0",
        b"\0\x0D\x0BbranchHints\0",
    ];
    for id in 0..=LAST {
        for next in 0..=LAST {
            for between in between {
                let mut module = b"\0asm\x01\0\0\0".to_vec();
                // contents that are the name of a custom section, too
                module.extend([id, 2, 1, b'x']);
                module.extend(between);
                module.extend([next, 2, 1, b'x']);
                tally.module(&module);
            }
        }
    }
    println!("compared {} calls", tally.calls);
}

#[test]
fn lists() {
    let mut tally = Tally::default();
    tally.lists(&[], &[], b"");
    tally.lists(&[0, 3], &[1, 1], b"ab");
    tally.lists(&[0, 3], &[1], b"a");
    tally.lists(&[0, 3], &[u32::MAX, 3], b"ab");
    tally.lists(&[3, 3], &[1, 1], b"ab");
    tally.lists(&[3, 3], &[1, 1], b"a\xFF");
    tally.lists(&[0, 1], &[1, 1], "é".as_bytes());
    tally.lists(&[u32::MAX], &[0], b"");
    println!("compared {} calls", tally.calls);
}
