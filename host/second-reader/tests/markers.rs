//! Markers beside function names, and the quick question: by hand from the text of the request.

mod support;

use second_reader::*;
use support::inputs::{names, number, Contents, Fewest, Flat};
use support::*;

/// Function 3 alone.
const ONE: &[u8] = b"\x01\x04\x01\x03\x01f";

/// The functions 5 and 3, in that order: no payload that is accepted.
const FALLING: &[u8] = b"\x01\x07\x02\x05\x01a\x03\x01b";

/// So many functions, at every second index from 1 on, each called by one letter: three bytes each.
fn functions(count: u32) -> Vec<u8> {
    let letter = |index: u32| vec![b'a' + (index % 26) as u8];
    let list: Flat = (0..count).map(|n| (2 * n + 1, letter(n))).collect();
    names(&vec![(1, Contents::Map(list))], &mut Fewest)
}

#[test]
fn a_marker_is_an_index_and_where_its_number_stands() {
    assert_eq!(marked(ONE), Ok(Markers::new(&[3], &[3], 6)));
    // The size, the count, the index and the length are padded.
    let padded = b"\x01\x87\x00\x81\x00\x83\x00\x81\x00f";
    assert_eq!(marked(padded), Ok(Markers::new(&[3], &[5], 10)));
    let greatest = b"\x01\x07\x01\xFF\xFF\xFF\xFF\x0F\x00";
    assert_eq!(marked(greatest), Ok(Markers::new(&[u32::MAX], &[3], 9)));
}

#[test]
fn what_stands_around_the_functions() {
    // The module's name before them; locals and something kept behind them.
    assert_eq!(marked(&P), Ok(Markers::new(&[0], &[7], 13)));
    let kept = b"\x00\x02\x01m\x01\x04\x01\x03\x01f\x0C\x02\xFF\xFE";
    assert_eq!(marked(kept), Ok(Markers::new(&[3], &[7], 10)));
}

#[test]
fn no_functions() {
    let nothing = |end| Ok(Markers::new(&[], &[], end));
    assert_eq!(marked(b"\x01\x01\x00"), nothing(3));
    assert_eq!(marked(b"\x01\x02\x80\x00"), nothing(4));
    assert_eq!(marked(b""), nothing(0));
    assert_eq!(marked(b"\x00\x02\x01m\x02\x01\x00\x04\x01\x00"), nothing(0));
}

#[test]
fn every_sixteenth_entry() {
    for (count, marks) in [
        (1, vec![0]),
        (15, vec![0]),
        (16, vec![0]),
        (17, vec![0, 16]),
        (32, vec![0, 16]),
        (33, vec![0, 16, 32]),
    ] {
        let payload = functions(count);
        let markers = marked(&payload).unwrap();
        let first = payload.len() as u32 - 3 * count;
        let expected = |of: fn(u32, u32) -> u32| marks.iter().map(|&n| of(n, first)).collect();
        let indices: Vec<u32> = expected(|n, _| 2 * n + 1);
        let offsets: Vec<u32> = expected(|n, first| 3 * n + first);
        let end = payload.len() as u64;
        assert_eq!(markers, Markers::new(&indices, &offsets, end), "{count}");
    }
}

#[test]
fn making_judges_the_payload_by_the_first_edition() {
    for (payload, code, offset) in [
        (&b"\x01\x00"[..], 2, 2),
        (FALLING, 11, 6),
        (b"\x01\x04\x01\x03\x01\xFF", 4, 5),
        (b"\x02\x01\x00\x01\x01\x00", 9, 3),
        // damaged behind the functions
        (b"\x01\x04\x01\x03\x01f\x0B\x02\x00\x00", 10, 9),
    ] {
        // whatever the lists
        for room in [0, 2] {
            let answer = markers(payload, &mut vec![0; room], &mut vec![0; room]);
            assert_eq!(answer, refused(code, offset), "{payload:02X?}");
        }
    }
    let no_map_of_globals = b"\x01\x04\x01\x03\x01f\x07\x01\xFF";
    assert_eq!(wide_names_judge(no_map_of_globals), refused(2, 8));
    assert_eq!(marked(no_map_of_globals), Ok(Markers::new(&[3], &[3], 6)));
}

#[test]
fn both_lists_need_room_for_all() {
    let payload = functions(17);
    for (indices, offsets) in [(0, 0), (1, 1), (2, 1), (1, 2), (0, 9), (9, 0)] {
        let (mut indices, mut offsets) = (vec![7; indices], vec![7; offsets]);
        let answer = markers(&payload, &mut indices, &mut offsets);
        assert_eq!(answer, refused(13, 2));
        assert!(indices.iter().chain(&offsets).all(|&number| number == 7));
    }
    let (mut indices, mut offsets) = ([7; 3], [7; 2]);
    let answer = markers(&payload, &mut indices, &mut offsets);
    assert_eq!(answer, found(payload.len() as u64, 2));
    assert_eq!((indices, offsets), ([1, 33, 7], [3, 51]));
}

/// The payload is given six bytes that keep all that follows them, which is never looked at.
#[test]
#[cfg(target_pointer_width = "64")]
#[cfg_attr(
    not(target_arch = "x86_64"),
    ignore = "lends four gigabytes of zeros, which not every other machine has"
)]
fn payloads_too_long_for_offsets_of_32_bits() {
    const LONGEST: usize = u32::MAX as usize;
    let before = [ONE, b"\x0C\xF3\xFF\xFF\xFF\x0F"].concat();
    let mut lent = vec![0; LONGEST + 1];
    lent[..before.len()].copy_from_slice(&before);
    assert_eq!(markers(&lent[..LONGEST], &mut [], &mut []), refused(13, 1));
    let made = markers(&lent[..LONGEST], &mut [0], &mut [0]);
    assert_eq!(made, found(6, 1));
    lent[before.len() - 5] += 1; // keeps one byte more
    assert_eq!(markers(&lent, &mut [], &mut []), refused(15, 0));

    // It is asked before the lists are looked at; an entry at the very end can be marked.
    let quick = |lent: &[u8], indices: &[u32], offsets: &[u32]| {
        quick_function_name(lent, indices, offsets, LONGEST as u64, 0)
    };
    assert_eq!(quick(&lent, &[0], &[]), refused(15, 0));
    assert_eq!(quick(&lent[..LONGEST], &[0], &[]), refused(22, 0));
    let last = quick(&lent[..LONGEST], &[0], &[u32::MAX - 2]);
    assert_eq!(last, found(LONGEST as u64, 0));
}

#[test]
fn lists_of_unequal_length() {
    // before an end outside, and before what is wrong with a position
    for end in [6, 7, u64::MAX] {
        let quick =
            |indices: &[u32], offsets: &[u32]| quick_function_name(ONE, indices, offsets, end, 3);
        assert_eq!(quick(&[], &[3]), refused(22, 0));
        assert_eq!(quick(&[3], &[]), refused(22, 0));
        assert_eq!(quick(&[3, 3, 3], &[9]), refused(22, 1));
        assert_eq!(quick(&[5, 4], &[9, 9, 9, 9]), refused(22, 2));
    }
}

#[test]
fn an_end_outside_the_payload() {
    for end in [7, u64::from(u32::MAX) + 7, u64::MAX] {
        // before what is wrong with a position
        for (indices, offsets) in [
            (&[][..], &[][..]),
            (&[3], &[3]),
            (&[3], &[9]),
            (&[3, 3], &[3, 3]),
        ] {
            let count = indices.len() as u64;
            let answer = quick_function_name(ONE, indices, offsets, end, 3);
            assert_eq!(answer, refused(22, count));
        }
    }
    // The end of the payload is inside.
    assert_eq!(Markers::new(&[3], &[3], 6).quick(ONE, 3), found(5, 1));
    assert_eq!(Markers::new(&[], &[], 0).quick(b"", 3), NONE);
}

#[test]
fn the_first_position_at_fault_in_either_list() {
    let lent = [0; 12];
    for (indices, offsets, at) in [
        (&[2, 1, 3][..], &[3, 4, 4][..], 1),
        (&[1, 2, 2], &[3, 3, 4], 1),
        (&[1, 2, 2], &[3, 4, 5], 2),
        (&[1, 2, 1], &[3, 4, 5], 2),
        (&[1, 2, 3], &[3, 4, 4], 2),
        (&[1, 2, 3], &[3, 4, 2], 2),
        (&[1, 1, 1], &[3, 3, 3], 1),
        // an offset at the end, and beyond it, at each position
        (&[1], &[10], 0),
        (&[1], &[u32::MAX], 0),
        (&[1, 2, 3], &[10, 11, 12], 0),
        (&[1, 2, 3], &[8, 10, 11], 1),
        (&[1, 2, 3], &[8, 9, 10], 2),
        (&[1, 2, 3], &[8, 9, 11], 2),
        // the first is not compared with what is before it
        (&[0, 0], &[0, 1], 1),
        (&[u32::MAX, 0], &[9, 10], 1),
    ] {
        let markers = Markers::new(indices, offsets, 10);
        // whatever is asked
        for function in [0, 2, u32::MAX] {
            let answer = markers.quick(&lent, function);
            assert_eq!(answer, refused(22, at), "{markers:?}");
        }
    }
    // Nothing lies below the end 0.
    assert_eq!(Markers::new(&[1], &[0], 0).quick(&lent, 1), refused(22, 0));
}

#[test]
fn without_a_marker_not_above_the_function() {
    let payload = functions(17);
    let markers = marked(&payload).unwrap();
    assert_eq!(markers.quick(&payload, 0), NONE);
    // The entry is there, but its marker is above.
    let second = Markers::new(&markers.indices[1..], &markers.offsets[1..], markers.end);
    assert_eq!(function_name(&payload, 31), found(50, 1));
    assert_eq!(second.quick(&payload, 31), NONE);
    assert_eq!(second.quick(&payload, 33), found(53, 1));
    for function in [0, 3, u32::MAX] {
        assert_eq!(Markers::new(&[], &[], 6).quick(ONE, function), NONE);
    }
}

#[test]
fn sixteen_entries_are_read_at_most() {
    let payload = functions(17);
    let first = Markers::new(&[1], &[3], payload.len() as u64);
    assert_eq!(first.quick(&payload, 31), found(3 + 3 * 15 + 2, 1));
    assert_eq!(first.quick(&payload, 33), NONE);
}

#[test]
fn the_last_marker_not_above_is_where_it_starts() {
    // Function 9 stands before the second marker, and is not found behind it.
    let payload = b"\x01\x0A\x03\x05\x01a\x09\x01b\x07\x01c";
    let markers = Markers::new(&[5, 7], &[3, 9], 12);
    assert_eq!(markers.quick(payload, 5), found(5, 1));
    assert_eq!(markers.quick(payload, 7), found(11, 1));
    assert_eq!(markers.quick(payload, 9), NONE);
    // Function 6 stands behind the second marker, and is found from the first.
    let payload = b"\x01\x0A\x03\x05\x01a\x07\x01b\x06\x01c";
    let markers = Markers::new(&[5, 7], &[3, 6], 12);
    assert_eq!(markers.quick(payload, 6), found(11, 1));
}

#[test]
fn an_index_out_of_order_does_not_end_the_question() {
    assert_eq!(Markers::new(&[3], &[3], 9).quick(FALLING, 3), found(8, 1));
    assert_eq!(Markers::new(&[3], &[3], 9).quick(FALLING, 5), found(5, 1));
    // The first with that index answers.
    let twice = b"\x01\x07\x02\x03\x01a\x03\x01b";
    assert_eq!(Markers::new(&[3], &[3], 9).quick(twice, 3), found(5, 1));
}

#[test]
fn an_entry_fits_if_all_of_it_lies_before_the_end() {
    let entries = b"\x03\x02ab\x04\x00";
    for (end, third, fourth) in [
        (6, found(2, 2), found(6, 0)),
        (5, found(2, 2), NONE),
        (4, found(2, 2), NONE),
        (3, NONE, NONE),
        (2, NONE, NONE),
        (1, NONE, NONE),
    ] {
        let markers = Markers::new(&[0], &[0], end);
        assert_eq!(markers.quick(entries, 3), third, "end {end}");
        assert_eq!(markers.quick(entries, 4), fourth, "end {end}");
    }
    // What does not fit ends the question before what follows in it.
    let too_long = b"\x03\x09\x04\x00\x04\x00";
    assert_eq!(Markers::new(&[0], &[0], 6).quick(too_long, 4), NONE);
}

#[test]
fn a_number_that_cannot_be_read_ends_the_question() {
    for unreadable in [
        &b"\xFF\xFF\xFF\xFF\x1F\x00\x03\x00"[..], // the fifth byte of an index
        b"\x03\xFF\xFF\xFF\xFF\x1F\x03\x00",      // the fifth byte of a length
        b"\x02\xFF\xFF\xFF\xFF\x0F\x03\x00",      // a length beyond everything
        b"\x80\x80\x80\x80\x80\x00\x03\x00",      // no number ends with its sixth byte
        b"\x80",
    ] {
        let alone = Markers::new(&[0], &[0], unreadable.len() as u64);
        assert_eq!(alone.quick(unreadable, 3), NONE, "{unreadable:02X?}");
        // met first, or behind the entry that is asked for
        let behind = [b"\x07\x01a", unreadable].concat();
        let markers = Markers::new(&[0], &[0], behind.len() as u64);
        assert_eq!(markers.quick(&behind, 7), found(2, 1));
        assert_eq!(markers.quick(&behind, 3), NONE, "{unreadable:02X?}");
    }
    let padded = b"\x83\x80\x80\x80\x00\x81\x00a";
    assert_eq!(Markers::new(&[0], &[0], 8).quick(padded, 3), found(7, 1));
}

#[test]
fn text_is_not_checked() {
    let no_text = b"\x01\x04\x01\x03\x01\xFF";
    assert_eq!(function_name(no_text, 3), refused(4, 5));
    assert_eq!(Markers::new(&[3], &[3], 6).quick(no_text, 3), found(5, 1));
}

#[test]
fn the_payload_is_not_judged() {
    let markers = marked(ONE).unwrap();
    // Damaged before the entry, and behind it; and no payload at all.
    for damaged in [
        &b"\xFF\xFF\xFF\x03\x01f"[..],
        b"\x01\x04\x01\x03\x01f\x01\x00",
        b"\0\0\0\x03\x01f\0\0\0",
    ] {
        assert_eq!(markers.quick(damaged, 3), found(5, 1));
    }
    assert_eq!(markers.quick(&ONE[..5], 3), refused(22, 1));
}

#[test]
fn markers_of_another_payload() {
    let (one, many) = (functions(5), functions(40));
    let of_many = marked(&many).unwrap();
    let of_one = marked(&one).unwrap();
    // Those of the longer one end outside the shorter one.
    assert_eq!(of_many.quick(&one, 1), refused(22, 3));
    // Those of the shorter one end in the longer one, so that what is behind their end is not read.
    assert_eq!(of_one.quick(&many, 9), found(17, 1));
    assert_eq!(of_one.quick(&many, 11), NONE);
    // Where the functions stand elsewhere, other bytes are read as entries: here 6D 01 79, 28 01 01,
    // 61 03 01 62 05 and 01 63, which has 99 bytes of text.
    let moved = [b"\x00\x02\x01m", &many[..]].concat();
    assert_eq!(of_many.quick(&moved, 1), found(16, 99));
    assert_eq!(marked(&moved).unwrap().quick(&moved, 1), found(9, 1));
}

/// Also where the index takes several bytes, and so the entry more than three.
#[test]
fn each_of_many_is_found_by_its_own_markers() {
    let payload = functions(300);
    let markers = marked(&payload).unwrap();
    assert_eq!(markers.indices.len(), 19);
    for function in 0..=601 {
        let full = function_name(&payload, function);
        assert_eq!(markers.quick(&payload, function), full);
    }
    let number_at = |at: u32| &payload[at as usize..][..2];
    let last = number(markers.indices[18], &mut Fewest);
    assert_eq!(number_at(markers.offsets[18]), last);
}
