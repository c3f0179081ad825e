//! The sixteen examples of the rules, the further cases named beside them, and its listed
//! module.

mod support;

use second_reader::*;
use support::*;

/// A count alone is a metadata payload, which shows how a number is read.
#[test]
fn e1_padded_zero() {
    assert_eq!(metadata_judge(&[0x80, 0x80, 0x80, 0x80, 0x00]), found(0, 5));
}

#[test]
fn e2_the_greatest_number() {
    let payload = [0x01, 0xFF, 0xFF, 0xFF, 0xFF, 0x0F, 0x01, 0x00, 0x01, 0x07];
    assert_eq!(metadata(&payload, u32::MAX, 0), found(9, 1));
}

#[test]
fn e3_fifth_byte_above_0f() {
    let payload = [0xFF, 0xFF, 0xFF, 0xFF, 0x1F];
    assert_eq!(metadata_judge(&payload), refused(3, 0));
}

#[test]
fn e4_number_cut_short() {
    assert_eq!(metadata_judge(&[0x80]), refused(2, 0));
}

#[test]
fn e5_functions_of_p() {
    assert_eq!(function_name(&P, 0), found(9, 1));
    assert_eq!(function_name(&P, 1), NONE);
    assert_eq!(function_name(&P, 3), found(12, 1));
}

#[test]
fn e6_locals_of_p() {
    assert_eq!(local_name(&P, 3, 0), found(20, 1));
    assert_eq!(local_name(&P, 0, 0), NONE);
}

#[test]
fn e7_padding_goes() {
    let payload = [0x01, 0x85, 0x00, 0x01, 0x00, 0x81, 0x00, 0x61];
    let canonical = vec![0x01, 0x04, 0x01, 0x00, 0x01, 0x61];
    assert_eq!(rewritten(names_canonical, &payload), Ok(canonical));
}

#[test]
fn e8_an_empty_map_goes() {
    assert_eq!(
        rewritten(names_canonical, &[0x01, 0x01, 0x00]),
        Ok(Vec::new())
    );
}

#[test]
fn e9_the_empty_name_payload() {
    assert_eq!(names_judge(&[]), found(0, 0));
    assert_eq!(rewritten(names_canonical, &[]), Ok(Vec::new()));
}

#[test]
fn e10_an_empty_module_name_stays() {
    let payload = [0x00, 0x01, 0x00];
    assert_eq!(module_name(&payload), found(3, 0));
    assert_eq!(rewritten(names_canonical, &payload), Ok(payload.to_vec()));
}

#[test]
fn e11_kept() {
    let payload = [0x03, 0x01, 0xFF];
    assert_eq!(names_judge(&payload), found(0, 3));
    assert_eq!(kept(&payload, 3), found(2, 1));
    assert_eq!(rewritten(names_canonical, &payload), Ok(payload.to_vec()));
}

#[test]
fn e12_index_repeated() {
    let payload = [0x01, 0x07, 0x02, 0x03, 0x01, 0x62, 0x03, 0x01, 0x61];
    assert_eq!(names_judge(&payload), refused(11, 6));
}

#[test]
fn e13_subsections_out_of_order() {
    let payload = [0x02, 0x01, 0x00, 0x01, 0x01, 0x00];
    assert_eq!(names_judge(&payload), refused(9, 3));
}

#[test]
fn e14_bytes_left_over() {
    assert_eq!(names_judge(&[0x01, 0x02, 0x00, 0x00]), refused(10, 3));
}

#[test]
fn e15_a_likely_branch() {
    let payload = [0x01, 0x02, 0x01, 0x05, 0x01, 0x01];
    assert_eq!(hint(&payload, 2, 5), LIKELY);
    assert_eq!(hint(&payload, 2, 4), NONE);
}

#[test]
fn e16_no_such_hint() {
    let payload = [0x01, 0x02, 0x01, 0x05, 0x01, 0x02];
    assert_eq!(hint(&payload, 2, 5), refused(12, 4));
    assert_eq!(hints_judge(&payload), refused(12, 4));
}

#[test]
fn further_cases() {
    assert_eq!(names_judge(&[0x01, 0x00]), refused(2, 2));
    assert_eq!(names_judge(&[0x00, 0x03, 0x02, 0xC0, 0x80]), refused(4, 3));
    assert_eq!(
        names_judge(&[0x00, 0x04, 0x03, 0xED, 0xA0, 0x80]),
        refused(4, 3)
    );
}

#[test]
fn the_listed_module() {
    let module = module(&[custom_section(b"name", &P)]);
    assert_eq!(module.len(), 36);
    assert_eq!(walk(&module), found(0, 1));
    assert_eq!(section(&module, 0), section_found(0, 8, 26));
    assert_eq!(section(&module, 1), NONE);
    assert_eq!(custom(&module, b"name"), found(15, 21));
    assert_eq!(custom(&module, HINTS), NONE);
    assert_eq!(function_name_in(&module, 3), found(15 + 12, 1));
    assert_eq!(
        bytes_of(&module, local_name_in(&module, 3, 0)),
        Some(&b"x"[..])
    );
}

/// The numbers of kinds, of payloads and of reasons are fixed.
#[test]
fn numbers() {
    let kinds = [
        Kind::None,
        Kind::Found,
        Kind::Refused,
        Kind::Unlikely,
        Kind::Likely,
        Kind::NoSubsection,
        Kind::NoGroup,
        Kind::NoEntry,
    ];
    assert_eq!(kinds.map(|kind| kind as u32), [0, 1, 2, 3, 4, 5, 6, 7]);
    let whose = [Whose::Nobody, Whose::Separate, Whose::Own];
    assert_eq!(whose.map(|whose| whose as u64), [0, 1, 2]);
    assert_eq!(Reason::Preamble as u32, 1);
    assert_eq!(Reason::InputTooLarge as u32, 16);
    assert_eq!(Reason::AfterFinish as u32, 18);
    assert_eq!(Reason::NotOnABranch as u32, 21);
    assert_eq!(Reason::NotMarkers as u32, 22);
    assert_eq!(Reason::StreamTooLong as u32, 28);
    assert_eq!(Reason::UnknownImport as u32, 29);
}
