//! The errors that the rules name in other readers, and damage behind an answer that is
//! already known.

mod support;

use second_reader::*;
use support::*;

/// The map's second entry lies in the section, but not in the subsection.
#[test]
fn a_map_ends_with_its_subsection() {
    let payload = [0x01, 0x04, 0x02, 0x00, 0x01, 0x61, 0x01, 0x01, 0x62];
    assert_eq!(names_judge(&payload), refused(2, 6));
    // A name that would fit into the section.
    let payload = [0x01, 0x04, 0x01, 0x00, 0x02, 0x61, 0x62];
    assert_eq!(names_judge(&payload), refused(2, 4));
    // A subsection that would fit into the module, and a module name that would fit into the next
    // subsection.
    let module = module(&[custom_section(b"name", &[0x00, 0x03, 0x02]), vec![1, 0]]);
    assert_eq!(walk(&module), found(0, 2));
    assert_eq!(module_name_in(&module), refused(2, 16));
    assert_eq!(names_judge(&[0x00, 0x01, 0x02, 0x03, 0x00]), refused(2, 2));
}

#[test]
fn no_room_is_reserved_by_a_count() {
    let payload = [0xFF, 0xFF, 0xFF, 0xFF, 0x0F, 0x00];
    let refusal = refused(2, 6);
    assert_eq!(metadata_judge(&payload), refusal);
    assert_eq!(hints_judge(&payload), refusal);
    assert_eq!(metadata(&payload, 0, 0), refusal);
    assert_eq!(hint(&payload, 0, 0), refusal);
    assert_eq!(rewritten(metadata_canonical, &payload), Err(refusal));
    assert_eq!(rewritten(hints_canonical, &payload), Err(refusal));
    let names = [0x02, 0x07, 0x01, 0x00, 0xFF, 0xFF, 0xFF, 0xFF, 0x0F];
    assert_eq!(rewritten(names_canonical, &names), Err(refused(2, 9)));
}

#[test]
fn tag_names_have_id_11() {
    let payload = [
        0x01, 0x04, 0x01, 0x00, 0x01, 0x66, 0x0B, 0x04, 0x01, 0x00, 0x01, 0x74,
    ];
    assert_eq!(
        bytes_of(&payload, function_name(&payload, 0)),
        Some(&b"f"[..])
    );
    assert_eq!(bytes_of(&payload, tag_name(&payload, 0)), Some(&b"t"[..]));
    assert_eq!(tag_name(&payload[..6], 0), NONE);
    assert_eq!(function_name(&payload[6..], 0), NONE);
}

#[test]
fn a_lookup_does_not_stop_early() {
    // The first entry answers; the last one repeats an index.
    let payload = [
        0x01, 0x0A, 0x03, 0x00, 0x01, 0x61, 0x05, 0x01, 0x62, 0x05, 0x01, 0x63,
    ];
    let refusal = refused(11, 9);
    assert_eq!(function_name(&payload, 0), refusal);
    assert_eq!(function_name(&payload, 1), refusal);
    assert_eq!(module_name(&payload), refusal);
    // The answer lies in an earlier subsection than the damage.
    let payload = [0x00, 0x02, 0x01, 0x6D, 0x0B, 0x00];
    assert_eq!(module_name(&payload), refused(2, 6));
    // The second function's items are damaged.
    let payload = [
        0x02, 0x00, 0x01, 0x05, 0x01, 0x01, 0x01, 0x01, 0x05, 0x01, 0x07,
    ];
    assert_eq!(hint(&payload, 0, 5), refused(12, 9));
    assert_eq!(metadata(&payload, 0, 5), found(5, 1));
    assert_eq!(metadata(&payload[..10], 0, 5), refused(2, 9));
}

#[test]
fn padding_is_read_and_not_copied() {
    let payload = [
        0x02, 0x90, 0x80, 0x80, 0x80, 0x00, 0x82, 0x00, 0x83, 0x00, 0x80, 0x00, 0x84, 0x80, 0x00,
        0x81, 0x00, 0x80, 0x00, 0x81, 0x00, 0x78,
    ];
    assert_eq!(local_name(&payload, 4, 0), found(21, 1));
    let canonical = vec![0x02, 0x06, 0x01, 0x04, 0x01, 0x00, 0x01, 0x78];
    assert_eq!(rewritten(names_canonical, &payload), Ok(canonical));
}
