//! How payloads are read where two careful readers could differ.

mod common;

use common::{refused, text, ONE_OF_EACH, P};
use wakemiono::{
    CodeOffset, FieldIndex, FunctionIndex, Hint, Hints, LocalIndex, Metadata, NamePayload,
    TagIndex, TypeIndex,
};

fn names_refused(bytes: &[u8]) -> (u32, u64) {
    refused(NamePayload::new(bytes).judge())
}

fn metadata_refused(bytes: &[u8]) -> (u32, u64) {
    refused(Metadata::new(bytes).judge())
}

fn hints_refused(bytes: &[u8]) -> (u32, u64) {
    refused(Hints::new(bytes).judge())
}

#[test]
fn a_count_that_cannot_fit_is_refused_at_the_first_missing_element() {
    assert_eq!(
        metadata_refused(&[0xFF, 0xFF, 0xFF, 0xFF, 0x0F, 0x00]),
        (2, 6)
    );
    let earlier_fault = [0xFF, 0xFF, 0xFF, 0xFF, 0x0F, 0x05, 0x00, 0x05];
    assert_eq!(metadata_refused(&earlier_fault), (11, 7));
}

#[test]
fn a_missing_number_is_refused_where_it_would_start() {
    assert_eq!(metadata_refused(&[]), (2, 0));
    assert_eq!(hints_refused(&[]), (2, 0));
}

#[test]
fn bytes_outside_the_innermost_part_are_not_looked_at() {
    assert_eq!(
        names_refused(&[0x01, 0x04, 0xFF, 0xFF, 0xFF, 0xFF, 0x1F]),
        (2, 2)
    );
}

#[test]
fn the_whole_fifth_byte_is_compared() {
    assert_eq!(
        metadata_refused(&[0x80, 0x80, 0x80, 0x80, 0x80, 0x00]),
        (3, 0)
    );
}

#[test]
fn a_part_too_long_is_refused_at_its_length() {
    assert_eq!(names_refused(&[0x00, 0x03, 0x05, 0xFF, 0x61]), (2, 2));
    let map = [0x01, 0x09, 0x02, 0x03, 0x01, 0x62, 0x03, 0x01, 0x61];
    assert_eq!(names_refused(&map), (2, 1));
}

#[test]
fn text_is_refused_where_it_starts() {
    assert_eq!(names_refused(&[0x00, 0x03, 0x02, 0x61, 0xFF]), (4, 3));
    assert_eq!(names_refused(&[0x00, 0x03, 0x01, 0xC3, 0xA9]), (4, 3));
    for unusual in ["\0", "\u{FEFF}", "\u{FFFE}", "\u{10FFFF}"] {
        let length = u8::try_from(unusual.len()).unwrap();
        let payload = [&[0x00, length + 1, length], unusual.as_bytes()].concat();
        assert_eq!(text(NamePayload::new(&payload).module_name()), unusual);
    }
}

#[test]
fn what_is_left_over_comes_before_the_next_subsection() {
    assert_eq!(names_refused(&[0x01, 0x02, 0x00, 0x00, 0x01]), (10, 3));
    assert_eq!(metadata_refused(&[0x00, 0x07]), (10, 1));
}

#[test]
fn a_payload_damaged_further_on_is_refused_whatever_is_asked() {
    let payload = [&P[..], &[0x01]].concat();
    let names = NamePayload::new(&payload);
    let (function, type_) = (FunctionIndex(0), TypeIndex(0));
    assert_eq!(refused(names.judge()), (9, 21));
    assert_eq!(refused(names.module_name()), (9, 21));
    assert_eq!(refused(names.function_name(function)), (9, 21));
    assert_eq!(refused(names.type_name(type_)), (9, 21));
    assert_eq!(refused(names.tag_name(TagIndex(0))), (9, 21));
    assert_eq!(refused(names.local_name(function, LocalIndex(0))), (9, 21));
    assert_eq!(refused(names.field_name(type_, FieldIndex(0))), (9, 21));
    assert_eq!(refused(names.kept(3)), (9, 21));
    assert_eq!(refused(names.kept(1)), (9, 21));
    assert_eq!(refused(names.to_canonical()), (9, 21));
}

#[test]
fn each_question_has_its_own_subsection() {
    let payload = NamePayload::new(&ONE_OF_EACH);
    assert_eq!(text(payload.module_name()), "m");
    assert_eq!(text(payload.function_name(FunctionIndex(5))), "f");
    assert_eq!(
        text(payload.local_name(FunctionIndex(5), LocalIndex(7))),
        "l"
    );
    assert_eq!(text(payload.type_name(TypeIndex(5))), "t");
    assert_eq!(text(payload.field_name(TypeIndex(5), FieldIndex(7))), "d");
    assert_eq!(text(payload.tag_name(TagIndex(5))), "g");
    assert_eq!(
        payload.local_name(FunctionIndex(7), LocalIndex(5)),
        Ok(None)
    );
    assert_eq!(payload.field_name(TypeIndex(7), FieldIndex(5)), Ok(None));
    assert_eq!(payload.kept(3), Ok(Some(&[0xFF, 0xFE][..])));
    assert_eq!(payload.kept(255), Ok(Some(&[][..])));
    for known in [0, 1, 2, 4, 10, 11] {
        assert_eq!(payload.kept(known), Ok(None));
    }
    assert_eq!(payload.to_canonical(), Ok(payload.as_bytes().to_vec()));
}

#[test]
fn the_largest_index_is_asked_as_any_other() {
    let payload = NamePayload::new(&[0x01, 0x08, 0x01, 0xFF, 0xFF, 0xFF, 0xFF, 0x0F, 0x01, 0x7A]);
    assert_eq!(text(payload.function_name(FunctionIndex(u32::MAX))), "z");
    assert_eq!(payload.function_name(FunctionIndex(u32::MAX - 1)), Ok(None));
}

#[test]
fn a_hint_is_one_byte_however_its_size_is_padded() {
    let padded = Hints::new(&[0x01, 0x02, 0x01, 0x05, 0x81, 0x00, 0x00]);
    let hint = padded.hint(FunctionIndex(2), CodeOffset(5));
    assert_eq!(hint, Ok(Some(Hint::Unlikely)));
    let two_that_run_past = [0x01, 0x02, 0x01, 0x05, 0x02, 0x00];
    assert_eq!(hints_refused(&two_that_run_past), (2, 4));
    let two = [0x01, 0x02, 0x01, 0x05, 0x02, 0x00, 0x00];
    assert_eq!(hints_refused(&two), (12, 4));
    assert_eq!(Metadata::new(&two).judge(), Ok(()));
}

#[test]
fn code_offsets_rise_in_each_function_anew() {
    let bytes = [
        0x02, 0x00, 0x01, 0x09, 0x01, 0x00, 0x01, 0x01, 0x02, 0x01, 0x01,
    ];
    let hints = Hints::new(&bytes);
    let hint = |function, at| hints.hint(FunctionIndex(function), CodeOffset(at)).unwrap();
    assert_eq!(hint(0, 9), Some(Hint::Unlikely));
    assert_eq!(hint(1, 2), Some(Hint::Likely));
    assert_eq!((hint(0, 2), hint(1, 9)), (None, None));
}

#[test]
fn data_of_size_0_is_an_item() {
    let bytes = [0x01, 0x02, 0x01, 0x05, 0x00];
    let metadata = Metadata::new(&bytes);
    let data = metadata.data(FunctionIndex(2), CodeOffset(5));
    assert_eq!(data, Ok(Some(&[][..])));
    assert_eq!(metadata.to_canonical(), Ok(bytes.to_vec()));
}
