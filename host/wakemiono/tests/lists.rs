//! Function names written from lists, and read back.

mod common;

use common::{refused, text};
use wakemiono::{function_names, function_names_into, FunctionIndex, NamePayload};

#[test]
fn what_is_written_reads_back_as_the_lists() {
    let long = "x".repeat(300);
    let listed = [
        (0, "main"),
        (1, ""),
        (127, "größe"),
        (128, &long),
        (u32::MAX, "main"),
    ];
    let pairs = listed.map(|(index, name)| (FunctionIndex(index), name));
    let written = function_names(pairs).unwrap();
    let payload = NamePayload::new(&written);
    for (index, name) in listed {
        assert_eq!(text(payload.function_name(FunctionIndex(index))), name);
    }
    for other in [2, 126, 129, u32::MAX - 1] {
        assert_eq!(payload.function_name(FunctionIndex(other)), Ok(None));
    }
    assert_eq!(payload.module_name(), Ok(None));
    assert_eq!(payload.to_canonical(), Ok(written.clone()));
}

#[test]
fn no_names_are_an_empty_payload() {
    let none: [(FunctionIndex, &str); 0] = [];
    assert_eq!(function_names(none), Ok(vec![]));
    assert_eq!(function_names_into(&[], &[], &[], &mut []), Ok(0));
}

#[test]
fn names_come_from_any_iterator() {
    let expected = [0x01, 0x07, 0x02, 0x00, 0x01, 0x61, 0x01, 0x01, 0x62];
    let owned = vec![String::from("a"), String::from("b")];
    let numbered = (0..).map(FunctionIndex).zip(&owned);
    assert_eq!(function_names(numbered).unwrap(), expected);
    let copied = function_names((0..).map(FunctionIndex).zip(owned)).unwrap();
    let again = (0..2).map(|index| {
        let name = NamePayload::new(&copied).function_name(FunctionIndex(index));
        (FunctionIndex(index), name.unwrap().unwrap())
    });
    assert_eq!(function_names(again).unwrap(), expected);
}

#[test]
fn refusals_come_in_their_order() {
    let write = |indices: &[u32], lengths: &[u32], text: &[u8]| {
        let functions: Vec<FunctionIndex> = indices.iter().copied().map(FunctionIndex).collect();
        refused(function_names_into(&functions, lengths, text, &mut []))
    };
    assert_eq!(write(&[1, 1], &[1], b"\xFF"), (14, 0));
    assert_eq!(write(&[0, 1], &[u32::MAX, 3], b"ab"), (14, 0));
    assert_eq!(write(&[1, 2, 2], &[1, 1, 1], b"\xFFbc"), (11, 2));
    assert_eq!(write(&[0, 1, 2], &[1, 1, 1], b"a\xFF\xFE"), (4, 1));
    assert_eq!(write(&[0, 1], &[1, 1], "é".as_bytes()), (4, 0));
    assert_eq!(write(&[0], &[1], b"a"), (13, 6));
}

/// It lends 4 GiB; zeros that are only read take no memory of their own.
#[test]
fn a_subsection_that_would_be_too_long_is_refused() {
    let text = vec![0; usize::try_from(u32::MAX).unwrap()];
    let answer = function_names_into(&[FunctionIndex(0)], &[u32::MAX], &text, &mut []);
    assert_eq!(refused(answer), (15, 0));
}
