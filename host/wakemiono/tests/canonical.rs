//! Whether a payload is canonical already: accepted, and equal to its canonical form.

mod common;

use common::P;
use wakemiono::{function_names, FunctionIndex, Hints, Metadata, NamePayload, Refusal};

/// A payload as text, two digits for each byte.
fn bytes(hex: &str) -> Vec<u8> {
    let byte = |word| u8::from_str_radix(word, 16).expect("two digits");
    hex.split_whitespace().map(byte).collect()
}

/// Whether a payload is accepted, and whether it is canonical.
type Told = (Result<(), Refusal>, bool);

/// What accepted payloads say, so that a no is never for a refusal: `told` judges and tells one.
#[track_caller]
fn all_say(expected: bool, rows: &[&str], told: fn(&[u8]) -> Told) {
    for row in rows {
        assert_eq!(told(&bytes(row)), (Ok(()), expected), "{row}");
    }
}

#[track_caller]
fn names_say(expected: bool, rows: &[&str]) {
    all_say(expected, rows, |payload| {
        let names = NamePayload::new(payload);
        (names.judge(), names.is_canonical())
    });
}

#[track_caller]
fn metadata_says(expected: bool, rows: &[&str]) {
    all_say(expected, rows, |payload| {
        let metadata = Metadata::new(payload);
        (metadata.judge(), metadata.is_canonical())
    });
}

/// What hints say, which are metadata as well.
#[track_caller]
fn hints_say(expected: bool, rows: &[&str]) {
    metadata_says(expected, rows);
    all_say(expected, rows, |payload| {
        let hints = Hints::new(payload);
        (hints.judge(), hints.is_canonical())
    });
}

#[test]
fn the_examples_of_the_rules() {
    const E7: &str = "01 85 00 01 00 81 00 61";
    const E8: &str = "01 01 00";
    const E9: &str = "";
    const E10: &str = "00 01 00";
    const E11: &str = "03 01 FF";
    const E15: &str = "01 02 01 05 01 01";
    names_say(false, &[E7, E8]);
    names_say(true, &[E9, E10, E11]);
    hints_say(true, &[E15, "00"]);
    assert!(NamePayload::new(&P).is_canonical());
}

#[test]
fn one_padded_number_is_enough() {
    names_say(true, &["00 02 01 6D", "01 04 01 00 01 61"]);
    names_say(true, &["02 06 01 03 01 00 01 78"]);
    let subsection_sizes = [
        "00 82 00 01 6D",
        "01 84 00 01 00 01 61",
        "02 86 80 80 80 00 01 03 01 00 01 78",
        "03 81 00 FF",
    ];
    names_say(false, &subsection_sizes);
    let lengths = ["00 03 81 00 6D", "01 05 01 00 81 00 61"];
    names_say(false, &lengths);
    names_say(false, &["02 07 01 03 01 00 81 00 78"]);
    let counts = ["01 05 81 00 00 01 61", "02 07 81 00 03 01 00 01 78"];
    names_say(false, &counts);
    names_say(false, &["02 07 01 03 81 00 00 01 78"]);
    let indices = ["01 05 01 80 00 01 61", "02 07 01 83 00 01 00 01 78"];
    names_say(false, &indices);
    names_say(false, &["02 07 01 03 01 80 00 01 78"]);
}

#[test]
fn one_padded_number_is_enough_in_metadata() {
    let counts = ["81 00 02 01 05 01 01", "01 02 81 00 05 01 01"];
    hints_say(false, &counts);
    hints_say(false, &["80 80 80 80 00"]);
    let index_and_offset = ["01 82 00 01 05 01 01", "01 02 01 85 00 01 01"];
    hints_say(false, &index_and_offset);
    let size = "01 02 01 05 81 00 01";
    hints_say(false, &[size]);
    let size_of_nothing = "01 02 01 05 80 00";
    metadata_says(false, &[size_of_nothing]);
}

#[test]
fn numbers_that_need_their_bytes_are_not_padded() {
    let index_127 = ["01 04 01 7F 01 61", "01 05 01 FF 00 01 61"];
    names_say(true, &index_127[..1]);
    names_say(false, &index_127[1..]);
    names_say(true, &["01 05 01 80 01 01 61"]);
    let greatest = "01 08 01 FF FF FF FF 0F 01 7A";
    names_say(true, &[greatest]);
    hints_say(true, &["01 FF FF FF FF 0F 01 FF FF FF FF 0F 01 00"]);
}

#[test]
fn what_looks_padded_in_contents_is_no_number() {
    names_say(true, &["03 02 80 00", "FF 05 80 80 80 80 00"]);
    metadata_says(true, &["01 02 01 05 02 80 00"]);
}

#[test]
fn lists_without_anything_in_them() {
    let empty_maps = ["01 01 00", "04 01 00", "0B 01 00", "02 01 00", "0A 01 00"];
    names_say(false, &empty_maps);
    let map_beside_others = "00 02 01 6D 01 01 00 03 01 FF";
    names_say(false, &[map_beside_others]);
    let groups = [
        "02 08 02 00 00 03 01 00 01 78",
        "02 08 02 03 01 00 01 78 07 00",
        "0A 08 02 03 01 00 01 78 07 00",
    ];
    names_say(false, &groups);
    let left_empty = ["02 03 01 05 00", "0A 05 02 05 00 06 00"];
    names_say(false, &left_empty);
    let functions_without_items = [
        "01 02 00",
        "02 00 00 02 01 05 01 01",
        "02 02 01 05 01 01 07 00",
    ];
    hints_say(false, &functions_without_items);
}

#[test]
fn what_may_be_empty() {
    let module_name = "00 01 00";
    let kept = ["03 00", "FF 00"];
    let name_in_a_map = "01 03 01 00 00";
    let name_in_a_group = "02 05 01 03 01 00 00";
    names_say(true, &[module_name, name_in_a_map, name_in_a_group]);
    names_say(true, &kept);
    let data = "01 02 01 05 00";
    metadata_says(true, &[data]);
}

#[test]
fn what_is_refused_is_not_canonical() {
    let names = [
        "01 07 02 03 01 62 03 01 61",
        "02 01 00 01 01 00",
        "01 02 00 00",
        "01 00",
        "01",
        "00 03 02 C0 80",
        "01 04 FF FF FF FF 1F",
        "00 02 01 6D 01 04 01 00 01 61 01",
    ];
    for row in names {
        let payload = bytes(row);
        let payload = NamePayload::new(&payload);
        assert!(payload.judge().is_err() && !payload.is_canonical(), "{row}");
    }
    for row in ["", "80", "00 07", "FF FF FF FF 0F 00"] {
        let payload = bytes(row);
        let (metadata, hints) = (Metadata::new(&payload), Hints::new(&payload));
        assert!(metadata.judge().is_err() && hints.judge().is_err(), "{row}");
        assert!(!metadata.is_canonical() && !hints.is_canonical(), "{row}");
    }
}

#[test]
fn what_is_no_hint_may_be_other_data() {
    const E16: &str = "01 02 01 05 01 02";
    for row in [E16, "01 02 01 05 02 00 00"] {
        metadata_says(true, &[row]);
        assert!(!Hints::new(&bytes(row)).is_canonical(), "{row}");
    }
}

#[test]
fn what_is_written_from_lists_is_canonical() {
    let listed = [(0, "main"), (127, ""), (128, "größe"), (u32::MAX, "z")];
    let written = function_names(listed.map(|(index, name)| (FunctionIndex(index), name)));
    assert!(NamePayload::new(&written.unwrap()).is_canonical());
}
