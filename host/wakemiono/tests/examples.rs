//! The sixteen examples of the rules, put to the calls. A number alone is read as the count of
//! a metadata payload.

mod common;

use common::{refused, text, P};
use wakemiono::{
    offset_in, CodeOffset, FunctionIndex, Hint, Hints, LocalIndex, Metadata, Name, NamePayload,
    Refusal,
};

fn offset_in_p(answer: Result<Option<Name<'_>>, Refusal>, p: &[u8]) -> Option<usize> {
    let name = answer.expect("P is accepted")?;
    Some(offset_in(p, name.as_bytes()).expect("a name lies in what was lent"))
}

#[test]
fn e1_a_padded_zero() {
    let payload = Metadata::new(&[0x80, 0x80, 0x80, 0x80, 0x00]);
    assert_eq!(payload.judge(), Ok(()));
    assert_eq!(payload.to_canonical(), Ok(vec![0x00]));
}

#[test]
fn e2_the_largest_number() {
    let bytes = [0x01, 0xFF, 0xFF, 0xFF, 0xFF, 0x0F, 0x01, 0x00, 0x01, 0x64];
    let payload = Metadata::new(&bytes);
    let data = payload.data(FunctionIndex(4_294_967_295), CodeOffset(0));
    assert_eq!(data, Ok(Some(&b"d"[..])));
    assert_eq!(payload.to_canonical(), Ok(bytes.to_vec()));
}

#[test]
fn e3_a_fifth_byte_too_large() {
    let bytes = [0xFF, 0xFF, 0xFF, 0xFF, 0x1F];
    assert_eq!(refused(Metadata::new(&bytes).judge()), (3, 0));
}

#[test]
fn e4_a_number_that_does_not_end() {
    assert_eq!(refused(Metadata::new(&[0x80]).judge()), (2, 0));
}

#[test]
fn e5_function_names() {
    let payload = NamePayload::new(&P);
    let offset = |index| offset_in_p(payload.function_name(FunctionIndex(index)), &P);
    assert_eq!((offset(0), offset(1), offset(3)), (Some(9), None, Some(12)));
    assert_eq!(text(payload.function_name(FunctionIndex(0))), "a");
    assert_eq!(text(payload.function_name(FunctionIndex(3))), "b");
}

#[test]
fn e6_local_names() {
    let payload = NamePayload::new(&P);
    let offset = |function| {
        offset_in_p(
            payload.local_name(FunctionIndex(function), LocalIndex(0)),
            &P,
        )
    };
    assert_eq!((offset(3), offset(0)), (Some(20), None));
}

#[test]
fn e7_padding_is_not_copied() {
    let payload = NamePayload::new(&[0x01, 0x85, 0x00, 0x01, 0x00, 0x81, 0x00, 0x61]);
    let canonical = vec![0x01, 0x04, 0x01, 0x00, 0x01, 0x61];
    assert_eq!(payload.to_canonical(), Ok(canonical));
}

#[test]
fn e8_an_empty_map_is_dropped() {
    assert_eq!(
        NamePayload::new(&[0x01, 0x01, 0x00]).to_canonical(),
        Ok(vec![])
    );
}

#[test]
fn e9_the_empty_name_payload() {
    assert_eq!(NamePayload::new(&[]).judge(), Ok(()));
    assert_eq!(NamePayload::new(&[]).to_canonical(), Ok(vec![]));
}

#[test]
fn e10_an_empty_module_name() {
    let bytes = [0x00, 0x01, 0x00];
    let payload = NamePayload::new(&bytes);
    assert_eq!(text(payload.module_name()), "");
    assert_eq!(offset_in_p(payload.module_name(), &bytes), Some(3));
    assert_eq!(payload.to_canonical(), Ok(bytes.to_vec()));
}

#[test]
fn e11_a_kept_subsection() {
    let bytes = [0x03, 0x01, 0xFF];
    let payload = NamePayload::new(&bytes);
    assert_eq!(payload.kept(3), Ok(Some(&[0xFF][..])));
    assert_eq!(payload.to_canonical(), Ok(bytes.to_vec()));
}

#[test]
fn e12_an_index_that_does_not_rise() {
    let bytes = [0x01, 0x07, 0x02, 0x03, 0x01, 0x62, 0x03, 0x01, 0x61];
    assert_eq!(refused(NamePayload::new(&bytes).judge()), (11, 6));
}

#[test]
fn e13_subsections_out_of_order() {
    let bytes = [0x02, 0x01, 0x00, 0x01, 0x01, 0x00];
    assert_eq!(refused(NamePayload::new(&bytes).judge()), (9, 3));
}

#[test]
fn e14_bytes_left_over() {
    let bytes = [0x01, 0x02, 0x00, 0x00];
    assert_eq!(refused(NamePayload::new(&bytes).judge()), (10, 3));
}

#[test]
fn e15_a_hint() {
    let hints = Hints::new(&[0x01, 0x02, 0x01, 0x05, 0x01, 0x01]);
    let hint = |at| hints.hint(FunctionIndex(2), CodeOffset(at));
    assert_eq!((hint(5), hint(4)), (Ok(Some(Hint::Likely)), Ok(None)));
}

#[test]
fn e16_a_hint_above_1() {
    let hints = Hints::new(&[0x01, 0x02, 0x01, 0x05, 0x01, 0x02]);
    assert_eq!(refused(hints.judge()), (12, 4));
    let asked = hints.hint(FunctionIndex(2), CodeOffset(5));
    assert_eq!(refused(asked), (12, 4));
    assert_eq!(refused(hints.to_canonical()), (12, 4));
}

#[test]
fn further_cases_of_the_rules() {
    assert_eq!(refused(NamePayload::new(&[0x01, 0x00]).judge()), (2, 2));
    let overlong = [0x00, 0x03, 0x02, 0xC0, 0x80];
    assert_eq!(refused(NamePayload::new(&overlong).judge()), (4, 3));
    let surrogate = [0x00, 0x04, 0x03, 0xED, 0xA0, 0x80];
    assert_eq!(refused(NamePayload::new(&surrogate).judge()), (4, 3));
}
