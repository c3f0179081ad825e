//! Markers beside function names, and the quick question by them: what is made, what is answered, and
//! what is refused.

mod common;

use common::{custom, module, refused, P};
use wakemiono::{
    function_names, offset_in, FunctionIndex, Marked, Markers, Module, Name, NamePayload, Refusal,
};

/// Function 3 alone.
const ONE: [u8; 6] = [0x01, 0x04, 0x01, 0x03, 0x01, 0x66];

/// The functions 5 and 3, in that order: no payload that is accepted.
const FALLING: [u8; 9] = [0x01, 0x07, 0x02, 0x05, 0x01, 0x61, 0x03, 0x01, 0x62];

/// So many functions, at every second index from 1 on, each with a name of one letter.
fn functions(count: u32) -> Vec<u8> {
    let letters = "abcdefghijklmnopqrstuvwxyz".as_bytes().chunks(1).cycle();
    let indices = (0..count).map(|n| FunctionIndex(2 * n + 1));
    function_names(indices.zip(letters)).expect("they rise")
}

/// Markers as they are stored, and how the tests here write them.
struct Stored(Vec<FunctionIndex>, Vec<u32>, u64);

fn stored(indices: &[u32], offsets: &[u32], end: u64) -> Stored {
    let indices = indices.iter().copied().map(FunctionIndex);
    Stored(indices.collect(), offsets.to_vec(), end)
}

impl Stored {
    fn quick<'a>(&self, lent: &'a [u8], function: u32) -> Result<Option<Name<'a>>, Refusal> {
        let Stored(indices, offsets, end) = self;
        NamePayload::new(lent).quick_function_name(indices, offsets, *end, FunctionIndex(function))
    }

    /// Where the name lies that must be there, and how long it is.
    #[track_caller]
    fn place(&self, lent: &[u8], function: u32) -> (usize, usize) {
        let name = self.quick(lent, function).expect("this is accepted");
        let name = name.expect("there is a name").as_bytes();
        (offset_in(lent, name).expect("it lies there"), name.len())
    }
}

fn made(lent: &[u8]) -> Markers<'_> {
    NamePayload::new(lent).markers().expect("this is accepted")
}

#[track_caller]
fn assert_made(lent: &[u8], indices: &[u32], offsets: &[u32], end: u64) {
    let markers = made(lent);
    let numbers: Vec<u32> = markers.indices().iter().map(|index| index.0).collect();
    assert_eq!(numbers, indices);
    assert_eq!((markers.offsets(), markers.end()), (offsets, end));
}

#[test]
fn a_marker_is_an_index_and_where_its_number_stands() {
    assert_made(&ONE, &[3], &[3], 6);
    assert_made(&P, &[0], &[7], 13);
    let padded = [0x01, 0x87, 0x00, 0x81, 0x00, 0x83, 0x00, 0x81, 0x00, 0x66];
    assert_made(&padded, &[3], &[5], 10);
    let greatest = [0x01, 0x07, 0x01, 0xFF, 0xFF, 0xFF, 0xFF, 0x0F, 0x00];
    assert_made(&greatest, &[u32::MAX], &[3], 9);
}

#[test]
fn no_functions_have_no_markers() {
    assert_made(&[], &[], &[], 0);
    assert_made(&[0x00, 0x02, 0x01, 0x6D], &[], &[], 0);
    assert_made(&[0x01, 0x01, 0x00], &[], &[], 3);
    assert_eq!(made(&[0x01, 0x01, 0x00]).quick(FunctionIndex(0)), None);
}

#[test]
fn fewer_than_sixteen_exactly_sixteen_and_more() {
    assert_made(&functions(15), &[1], &[3], 48);
    assert_made(&functions(16), &[1], &[3], 51);
    assert_made(&functions(17), &[1, 33], &[3, 51], 54);
    assert_made(&functions(33), &[1, 33, 65], &[3, 51, 99], 102);
}

/// Empty names at the least indices take the fewest bytes, so that there are as many markers as may be.
#[test]
fn the_lists_that_are_made_have_room_for_all() {
    for count in 0..=128 {
        let empty = (0..count).map(|index| (FunctionIndex(index), ""));
        let payload = function_names(empty).unwrap();
        let marked: Vec<FunctionIndex> = (0..count).step_by(16).map(FunctionIndex).collect();
        assert_eq!(made(&payload).indices(), marked);
    }
}

#[test]
fn each_function_is_found_as_in_full() {
    for count in [1, 15, 16, 17, 40, 300] {
        let lent = functions(count);
        let (payload, markers) = (NamePayload::new(&lent), made(&lent));
        for function in (0..2 * count + 2).map(FunctionIndex) {
            let full = payload.function_name(function).unwrap();
            assert_eq!(markers.quick(function), full);
            assert_eq!(
                full.is_some(),
                function.0 % 2 == 1 && function.0 < 2 * count
            );
        }
        assert_eq!(markers.quick(FunctionIndex(u32::MAX)), None);
    }
}

/// It is borrowed from the payload, and outlives the markers.
#[test]
fn a_name_is_the_very_bytes_of_the_payload() {
    let bytes = module(&[custom("name", &P)]);
    let names = Module::new(&bytes).names().unwrap().unwrap();
    let name = {
        let markers = names.markers().unwrap();
        markers.clone().quick(FunctionIndex(3))
    };
    assert_eq!(offset_in(&bytes, name.unwrap().as_bytes()), Some(27));
}

#[test]
fn shown_by_their_number() {
    let lent = functions(17);
    let shown = format!("{:?}", made(&lent));
    assert_eq!(shown, "Markers(2 in NamePayload(54 bytes))");
}

#[test]
fn a_refused_payload_has_no_markers() {
    let damaged_behind = [&ONE[..], &[0x0B, 0x02, 0x00, 0x00]].concat();
    for (payload, fault) in [
        (&[0x01, 0x00][..], (2, 2)),
        (&FALLING, (11, 6)),
        (&damaged_behind, (10, 9)),
    ] {
        let payload = NamePayload::new(payload);
        assert_eq!(refused(payload.markers()), fault);
        assert_eq!(refused(payload.markers_into(&mut [], &mut [])), fault);
    }
    // What only the wider edition looks into may be damaged.
    assert_made(&[&ONE[..], &[0x07, 0x01, 0xFF]].concat(), &[3], &[3], 6);
}

#[test]
fn lists_that_are_too_short_stay_as_they_were() {
    let lent = functions(17);
    let payload = NamePayload::new(&lent);
    for (one, two) in [(0, 0), (1, 1), (1, 2), (2, 1), (0, 9), (9, 0)] {
        let (mut indices, mut offsets) = (vec![FunctionIndex(7); one], vec![7; two]);
        let answer = payload.markers_into(&mut indices, &mut offsets);
        assert_eq!(refused(answer), (13, 2));
        let untouched = (vec![FunctionIndex(7); one], vec![7; two]);
        assert_eq!((indices, offsets), untouched);
    }
}

#[test]
fn what_is_behind_the_markers_stays_as_it_was() {
    let lent = functions(17);
    let (mut indices, mut offsets) = ([FunctionIndex(7); 4], [7; 3]);
    let answer = NamePayload::new(&lent).markers_into(&mut indices, &mut offsets);
    assert_eq!(answer, Ok(Marked { count: 2, end: 54 }));
    assert_eq!(indices.map(|index| index.0), [1, 33, 7, 7]);
    assert_eq!(offsets, [3, 51, 7]);
}

/// It lends 4 GiB of zeros behind a few bytes that keep them, so that they are not even read.
#[test]
fn a_payload_too_long_for_offsets_of_32_bits() {
    let longest = usize::try_from(u32::MAX).unwrap();
    let mut lent = vec![0; longest + 1];
    lent[..6].copy_from_slice(&ONE);
    lent[6..12].copy_from_slice(&[0x0C, 0xF3, 0xFF, 0xFF, 0xFF, 0x0F]);
    let fits = NamePayload::new(&lent[..longest]);
    assert_eq!(refused(fits.markers_into(&mut [], &mut [])), (13, 1));
    let (mut indices, mut offsets) = ([FunctionIndex(7)], [7]);
    let marked = fits.markers_into(&mut indices, &mut offsets);
    assert_eq!(marked, Ok(Marked { count: 1, end: 6 }));

    lent[7] += 1; // keeps one byte more
    let exceeds = NamePayload::new(&lent);
    assert_eq!(exceeds.judge(), Ok(()));
    assert_eq!(refused(exceeds.markers_into(&mut [], &mut [])), (15, 0));
    let quick = exceeds.quick_function_name(&[], &[9], u64::MAX, FunctionIndex(3));
    assert_eq!(refused(quick), (15, 0));
    // An entry at the very end of the longest, of two zeros, can be marked.
    let last = stored(&[0], &[u32::MAX - 2], u32::MAX.into());
    assert_eq!(last.place(&lent[..longest], 0), (longest, 0));
}

#[test]
fn lists_that_are_no_markers() {
    let lent = [0; 12];
    for (markers, at) in [
        // of unequal length, whatever else
        (stored(&[], &[3], 10), 0),
        (stored(&[3], &[], 13), 0),
        (stored(&[3, 3, 3], &[99, 1], 13), 2),
        // an end one past the payload, whatever else
        (stored(&[], &[], 13), 0),
        (stored(&[3, 3], &[99, 1], 13), 2),
        (stored(&[1, 2], &[3, 4], u64::MAX), 2),
        // the first position at fault in either list
        (stored(&[2, 1, 3], &[3, 4, 4], 10), 1),
        (stored(&[1, 2, 2], &[3, 3, 4], 10), 1),
        (stored(&[1, 2, 2], &[3, 4, 5], 10), 2),
        (stored(&[1, 2, 3], &[3, 4, 4], 10), 2),
        (stored(&[1, 2, 3], &[3, 4, 2], 10), 2),
        // an offset not below the end
        (stored(&[1], &[10], 10), 0),
        (stored(&[1, 2, 3], &[8, 9, 10], 10), 2),
        (stored(&[1, 2, 3], &[8, 11, 12], 10), 1),
        (stored(&[1], &[0], 0), 0),
    ] {
        for function in [0, 2, u32::MAX] {
            let Stored(indices, offsets, end) = &markers;
            let answer = markers.quick(&lent, function);
            assert_eq!(refused(answer), (22, at), "{indices:?} {offsets:?} {end}");
        }
    }
}

#[test]
fn asked_below_the_first_marker() {
    let lent = functions(17);
    assert_eq!(made(&lent).quick(FunctionIndex(0)), None);
    let second = stored(&[33], &[51], 54);
    assert_eq!(second.quick(&lent, 31), Ok(None));
    assert_eq!(second.place(&lent, 33), (53, 1));
    assert_eq!(stored(&[], &[], 54).quick(&lent, 33), Ok(None));
}

#[test]
fn sixteen_entries_are_read_at_most() {
    let lent = functions(17);
    let first = stored(&[1], &[3], 54);
    assert_eq!(first.place(&lent, 31), (50, 1));
    assert_eq!(first.quick(&lent, 33), Ok(None));
}

#[test]
fn no_order_and_no_marker_ends_the_question() {
    assert_eq!(stored(&[3], &[3], 9).place(&FALLING, 3), (8, 1));
    // The next marker stands before the entry that is asked for.
    assert_eq!(stored(&[3, 4], &[3, 6], 9).place(&FALLING, 3), (8, 1));
    let twice = [0x01, 0x07, 0x02, 0x03, 0x01, 0x61, 0x03, 0x01, 0x62];
    assert_eq!(stored(&[3], &[3], 9).place(&twice, 3), (5, 1));
}

#[test]
fn an_entry_that_cannot_be_read_whole_ends_the_question() {
    // Cut by the end, one byte after the other.
    for end in 4..9 {
        let markers = stored(&[3], &[3], end);
        assert_eq!(markers.quick(&FALLING, 3), Ok(None), "end {end}");
    }
    let too_large_index = [0xFF, 0xFF, 0xFF, 0xFF, 0x1F, 0x00, 0x03, 0x00];
    let too_large_length = [0x03, 0xFF, 0xFF, 0xFF, 0xFF, 0x1F, 0x03, 0x00];
    let too_long_text = [0x02, 0xFF, 0xFF, 0xFF, 0xFF, 0x0F, 0x03, 0x00];
    for unreadable in [too_large_index, too_large_length, too_long_text] {
        assert_eq!(stored(&[0], &[0], 8).quick(&unreadable, 3), Ok(None));
    }
}

/// Whatever stands in the payload, before the entry, in its text and behind it.
#[test]
fn the_payload_is_not_judged() {
    let markers = made(&ONE);
    let own = stored(&[3], markers.offsets(), markers.end());
    for damaged in [
        &[0xFF, 0xFF, 0xFF, 0x03, 0x01, 0x66][..],
        &[0x01, 0x04, 0x01, 0x03, 0x01, 0xFF],
        &[0x01, 0x04, 0x01, 0x03, 0x01, 0x66, 0x01, 0x00],
    ] {
        assert!(NamePayload::new(damaged).judge().is_err());
        assert_eq!(own.place(damaged, 3), (5, 1));
    }
    assert_eq!(refused(own.quick(&ONE[..5], 3)), (22, 1));
}

/// They are refused, or what they lead to is read as entries, which may be something else.
#[test]
fn markers_of_another_payload() {
    let (few, many) = (functions(5), functions(40));
    let of = |lent: &[u8]| {
        let markers = made(lent);
        let (indices, offsets) = (markers.indices().to_vec(), markers.offsets().to_vec());
        Stored(indices, offsets, markers.end())
    };
    assert_eq!(refused(of(&many).quick(&few, 1)), (22, 3));
    assert_eq!(of(&few).place(&many, 9), (17, 1));
    assert_eq!(of(&few).quick(&many, 11), Ok(None));
    let moved = [&[0x00, 0x02, 0x01, 0x6D], &many[..]].concat();
    assert_eq!(of(&many).place(&moved, 1), (16, 99));
    assert_eq!(of(&moved).place(&moved, 1), (9, 1));
}
