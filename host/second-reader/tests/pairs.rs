//! A separate name payload beside the module's own, by hand from the text of the request.

mod support;

use second_reader::*;
use support::editions::*;
use support::*;

/// Function 3 called `f`, and called `g`.
const F: &[u8] = b"\x01\x04\x01\x03\x01f";
const G: &[u8] = b"\x01\x04\x01\x03\x01g";

/// No payloads: refused 2 at 2, and 10 at 3.
const CUT_SHORT: &[u8] = b"\x01\x00";
const LEFT_OVER: &[u8] = b"\x01\x02\x00\x00";

const NOBODY: PairAnswer = of(Whose::Nobody, NONE);

const fn separate(offset: u64, length: u64) -> PairAnswer {
    of(Whose::Separate, found(offset, length))
}

const fn own(offset: u64, length: u64) -> PairAnswer {
    of(Whose::Own, found(offset, length))
}

/// What two payloads come to in both editions.
#[track_caller]
fn assert_joined(separate: &[u8], own: &[u8], expected: &[u8]) {
    for edition in &EDITIONS {
        assert_eq!(joined(edition, separate, own).as_deref(), Ok(expected));
    }
}

#[test]
fn a_name_in_both_is_the_separate_ones() {
    assert_eq!(pair_function_name(F, G, 3), separate(5, 1));
    assert_eq!(wide_pair_function_name(G, F, 3), separate(5, 1));
    assert_joined(F, G, F);
    assert_joined(G, F, G);
    assert_joined(F, F, F);
}

#[test]
fn a_name_in_one_is_that_ones() {
    assert_eq!(pair_function_name(F, b"", 3), separate(5, 1));
    assert_eq!(pair_function_name(b"", F, 3), own(5, 1));
    assert_eq!(pair_function_name(b"", F, 2), NOBODY);
    assert_eq!(pair_type_name(F, G, 3), NOBODY);
    assert_joined(F, b"", F);
    assert_joined(b"", F, F);
    assert_joined(b"", b"", b"");
}

/// The offset counts in the payload that supplied the name.
#[test]
fn a_name_lies_in_its_payload() {
    let module_and_g = [b"\x00\x02\x01m", G].concat();
    assert_eq!(pair_function_name(b"", &module_and_g, 3), own(9, 1));
    assert_eq!(pair_module_name(F, &module_and_g), own(3, 1));
    assert_eq!(pair_function_name(F, &module_and_g, 3), separate(5, 1));
    assert_joined(F, &module_and_g, &[b"\x00\x02\x01m", F].concat());
}

#[test]
fn an_empty_name_hides_a_full_one() {
    let empty = b"\x01\x03\x01\x03\x00";
    assert_eq!(pair_function_name(empty, F, 3), separate(5, 0));
    assert_eq!(pair_function_name(F, empty, 3), separate(5, 1));
    assert_joined(empty, F, empty);
    let empty_module_name = b"\x00\x01\x00";
    assert_eq!(
        pair_module_name(empty_module_name, b"\x00\x02\x01m"),
        separate(3, 0)
    );
    assert_joined(empty_module_name, b"\x00\x02\x01m", empty_module_name);
}

#[test]
fn an_empty_kept_subsection_hides_a_full_one() {
    let (empty, full) = (b"\x0C\x00", b"\x0C\x01\xFF");
    assert_eq!(pair_kept(empty, full, 12), separate(2, 0));
    assert_eq!(wide_pair_kept(empty, full, 12), separate(2, 0));
    assert_joined(empty, full, empty);
    assert_joined(full, empty, full);
    assert_eq!(pair_kept(b"\x0D\x00", full, 12), own(2, 1));
    assert_joined(b"\x0D\x00", full, b"\x0C\x01\xFF\x0D\x00");
}

/// An empty map gives none, and so does an empty group.
#[test]
fn an_empty_list_hides_nothing() {
    let no_functions = b"\x01\x01\x00";
    assert_eq!(pair_function_name(no_functions, F, 3), own(5, 1));
    assert_joined(no_functions, F, F);
    assert_joined(no_functions, no_functions, b"");
    let (empty_group, local) = (b"\x02\x03\x01\x03\x00", b"\x02\x06\x01\x03\x01\x00\x01x");
    assert_eq!(pair_local_name(empty_group, local, 3, 0), own(7, 1));
    assert_joined(empty_group, local, local);
    assert_joined(empty_group, empty_group, b"");
}

#[test]
fn maps_are_merged_index_by_index() {
    let (even, odd) = (
        b"\x01\x07\x02\x00\x01a\x02\x01c",
        b"\x01\x07\x02\x01\x01b\x03\x01d",
    );
    let all = b"\x01\x0D\x04\x00\x01a\x01\x01b\x02\x01c\x03\x01d";
    assert_joined(even, odd, all);
    assert_joined(odd, even, all);
    let greatest = b"\x01\x08\x01\xFF\xFF\xFF\xFF\x0F\x01z";
    assert_joined(
        greatest,
        F,
        b"\x01\x0B\x02\x03\x01f\xFF\xFF\xFF\xFF\x0F\x01z",
    );
}

#[test]
fn groups_of_one_function_are_merged() {
    let of_separate = b"\x02\x0B\x02\x00\x01\x00\x01a\x03\x01\x01\x01b";
    let of_own = b"\x02\x0E\x02\x03\x02\x00\x01c\x01\x01d\x07\x01\x05\x01e";
    assert_eq!(pair_local_name(of_separate, of_own, 0, 0), separate(7, 1));
    assert_eq!(pair_local_name(of_separate, of_own, 3, 0), own(7, 1));
    assert_eq!(pair_local_name(of_separate, of_own, 3, 1), separate(12, 1));
    assert_eq!(pair_local_name(of_separate, of_own, 7, 5), own(15, 1));
    assert_joined(
        of_separate,
        of_own,
        b"\x02\x13\x03\x00\x01\x00\x01a\x03\x02\x00\x01c\x01\x01b\x07\x01\x05\x01e",
    );
}

#[test]
fn padding_is_not_joined() {
    let padded = b"\x01\x8B\x80\x00\x82\x00\x80\x00\x81\x00a\x81\x80\x00\x00";
    assert_joined(padded, F, b"\x01\x09\x03\x00\x01a\x01\x00\x03\x01f");
    assert_joined(padded, b"", b"\x01\x06\x02\x00\x01a\x01\x00");
}

/// One name in each, of a hundred bytes: the size of the joined contents takes a byte more.
#[test]
fn sizes_grow_as_contents_do() {
    let named = |index: u8| [&[0x01, 103, 0x01, index, 100][..], &[b'n'; 100]].concat();
    let entry = |index: u8| [&[index, 100][..], &[b'n'; 100]].concat();
    let all = [&[0x01, 0xCD, 0x01, 0x02][..], &entry(0), &entry(1)].concat();
    assert_joined(&named(1), &named(0), &all);
}

/// Whatever is asked is refused so, and nothing is joined.
#[track_caller]
fn assert_refused(separate: &[u8], own: &[u8], refused: PairAnswer) {
    for edition in &EDITIONS {
        for question in [
            Question::Module,
            Question::Flat(1, 3),
            Question::Nested(2, 3, 0),
            Question::Kept(3),
        ] {
            let answer = (edition.ask_pair)(separate, own, question);
            assert_eq!(answer, refused, "{question:?}");
        }
        assert_eq!(joined(edition, separate, own), Err(refused));
    }
}

#[test]
fn both_refused_is_the_separate_ones() {
    let cut_short = of(Whose::Separate, refused(2, 2));
    assert_refused(CUT_SHORT, LEFT_OVER, cut_short);
    assert_refused(CUT_SHORT, CUT_SHORT, cut_short);
    assert_refused(LEFT_OVER, CUT_SHORT, of(Whose::Separate, refused(10, 3)));
}

#[test]
fn the_own_one_is_refused_while_the_separate_one_has_the_name() {
    let cut_short = of(Whose::Own, refused(2, 2));
    assert_refused(b"\x00\x02\x01a", CUT_SHORT, cut_short);
    assert_refused(F, CUT_SHORT, cut_short);
    assert_refused(F, LEFT_OVER, of(Whose::Own, refused(10, 3)));
    assert_refused(LEFT_OVER, F, of(Whose::Separate, refused(10, 3)));
}

/// An output one byte short gives the needed length, and is nobody's.
#[test]
fn an_output_that_is_too_short() {
    let short = of(Whose::Nobody, refused(13, 6));
    let mut out = [0xEE; 5];
    assert_eq!(pair_join(F, G, &mut out), short);
    assert_eq!(wide_pair_join(F, b"", &mut out), short);
    assert_eq!(out, [0xEE; 5]);
    // A damaged payload is refused before it.
    let damaged = of(Whose::Own, refused(2, 2));
    assert_eq!(pair_join(F, CUT_SHORT, &mut out), damaged);
}

/// A map of globals is kept by the one edition, and merged by the other.
#[test]
fn each_edition_goes_by_its_own_ids() {
    let (three, five) = (b"\x07\x04\x01\x03\x01g", b"\x07\x04\x01\x05\x01h");
    assert_eq!(joined(&FIRST, three, five).as_deref(), Ok(&three[..]));
    let merged = &b"\x07\x07\x02\x03\x01g\x05\x01h"[..];
    assert_eq!(joined(&WIDER, three, five).as_deref(), Ok(merged));
    assert_eq!(wide_pair_global_name(three, five, 5), own(5, 1));
    assert_eq!(pair_kept(three, five, 7), separate(2, 4));
    assert_eq!(wide_pair_kept(three, five, 7), NOBODY);
    let no_map = b"\x07\x01\xFF";
    let refused = Err(of(Whose::Own, refused(2, 2)));
    assert_eq!(joined(&WIDER, three, no_map), refused);
    assert_eq!(joined(&FIRST, three, no_map).as_deref(), Ok(&three[..]));
}

/// Function `index`, named by so many zeros, with its numbers in five bytes each.
fn zeros(index: u8, length: u32) -> Vec<u8> {
    let number = |value| inputs::number(value, &mut FiveBytes);
    let entry = [&[index], &number(length)[..]].concat();
    let size = number(1 + entry.len() as u32 + length);
    let start = [&[0x01], &size[..], &[0x01], &entry].concat();
    let mut payload = vec![0; start.len() + length as usize];
    payload[..start.len()].copy_from_slice(&start);
    payload
}

struct FiveBytes;

impl inputs::Padding for FiveBytes {
    fn width(&mut self, _fewest: usize) -> usize {
        5
    }
}

/// Zeros that are only read take no memory of their own.
#[test]
#[cfg(target_pointer_width = "64")]
#[cfg_attr(
    not(target_arch = "x86_64"),
    ignore = "lends four gigabytes of zeros, which not every other machine has"
)]
fn a_joined_subsection_that_would_be_too_large() {
    const HALF: u32 = 1 << 31;
    const BESIDE_TEXTS: u32 = 1 + 2 * (1 + 5); // the count, and each one's index and length
    let zero = zeros(0, HALF);
    let join = |length| pair_join(&zero, &zeros(1, length), &mut []);
    let too_large = of(Whose::Nobody, refused(15, 0));
    assert_eq!(join(HALF - BESIDE_TEXTS), too_large);
    let needed = 1 + 5 + u64::from(u32::MAX);
    let too_short = of(Whose::Nobody, refused(13, needed));
    assert_eq!(join(HALF - BESIDE_TEXTS - 1), too_short);
}
