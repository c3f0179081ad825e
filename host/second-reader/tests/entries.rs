//! Every row of a payload at once: by hand, from the text of the header.

mod support;

use second_reader::*;
use support::*;

/// What the lists hold before a call.
const UNTOUCHED: u32 = 0xEEEE_EEEE;
const UNTOUCHED_PLACE: u64 = 0xEEEE_EEEE_EEEE_EEEE;

/// Two numbers, an offset and a length.
type Row = (u32, u32, u64, u64);

/// Lists for rows with a place.
#[derive(Clone, Debug, PartialEq)]
struct Places(Vec<u32>, Vec<u32>, Vec<u64>, Vec<u64>);

impl Places {
    fn with_rooms(rooms: [usize; 4]) -> Places {
        Places(
            vec![UNTOUCHED; rooms[0]],
            vec![UNTOUCHED; rooms[1]],
            vec![UNTOUCHED_PLACE; rooms[2]],
            vec![UNTOUCHED_PLACE; rooms[3]],
        )
    }

    fn row(&self, at: usize) -> Row {
        (self.0[at], self.1[at], self.2[at], self.3[at])
    }
}

/// Lists so many rows and no others, at the front of lists with room to spare; is refused lists of which one lacks room
/// for one; and changes nothing else.
#[track_caller]
fn lists(rows: &[Row], call: impl Fn(&mut Places) -> Answer) {
    let count = rows.len();
    let mut places = Places::with_rooms([count + 2; 4]);
    assert_eq!(call(&mut places), found(0, count as u64));
    for (at, row) in rows.iter().enumerate() {
        assert_eq!(places.row(at), *row);
    }
    let untouched = Places::with_rooms([count + 2; 4]);
    for at in count..count + 2 {
        assert_eq!(places.row(at), untouched.row(at));
    }
    for short in (0..4).filter(|_| count > 0) {
        let mut rooms = [count; 4];
        rooms[short] -= 1;
        let mut places = Places::with_rooms(rooms);
        assert_eq!(call(&mut places), refused(13, count as u64));
        assert_eq!(places, Places::with_rooms(rooms));
    }
}

/// Answers so, and leaves every list as it was.
#[track_caller]
fn answers(answer: Answer, call: impl Fn(&mut Places) -> Answer) {
    for room in [0, 3] {
        let mut places = Places::with_rooms([room; 4]);
        assert_eq!(call(&mut places), answer);
        assert_eq!(places, Places::with_rooms([room; 4]));
    }
}

fn names(payload: &[u8], id: u8) -> impl Fn(&mut Places) -> Answer + '_ {
    move |Places(firsts, seconds, offsets, lengths)| {
        names_list(payload, id, firsts, seconds, offsets, lengths)
    }
}

fn wide_names(payload: &[u8], id: u8) -> impl Fn(&mut Places) -> Answer + '_ {
    move |Places(firsts, seconds, offsets, lengths)| {
        wide_names_list(payload, id, firsts, seconds, offsets, lengths)
    }
}

fn data(payload: &[u8]) -> impl Fn(&mut Places) -> Answer + '_ {
    move |Places(functions, code_offsets, offsets, lengths)| {
        metadata_list(payload, functions, code_offsets, offsets, lengths)
    }
}

#[test]
fn the_payload_of_the_rules() {
    lists(&[(0, 0, 3, 1)], names(&P, 0));
    lists(&[(0, 0, 9, 1), (3, 0, 12, 1)], names(&P, 1));
    lists(&[(3, 0, 20, 1)], names(&P, 2));
    for id in [3, 4, 10, 11, 12, 255] {
        answers(NONE, names(&P, id));
        answers(NONE, wide_names(&P, id));
    }
}

#[test]
fn groups_are_listed_with_both_indices() {
    let groups = b"\x02\x14\x03\x00\x01\x05\x01l\x02\x00\x07\x03\x00\x01x\x05\x00\x80\x01\x02zz";
    let rows = [(0, 5, 7, 1), (7, 0, 14, 1), (7, 5, 17, 0), (7, 128, 20, 2)];
    lists(&rows, names(groups, 2));
    lists(&rows, wide_names(groups, 2));
}

/// Labels and globals are kept by the first edition, and listed by the wider one.
#[test]
fn what_is_kept_is_not_listed() {
    let payload = b"\x03\x06\x01\x03\x01\x02\x01l\x07\x04\x01\x03\x01g\x0C\x02\x01\x00";
    answers(NONE, names(payload, 3));
    answers(NONE, names(payload, 7));
    lists(&[(3, 2, 7, 1)], wide_names(payload, 3));
    lists(&[(3, 0, 13, 1)], wide_names(payload, 7));
    answers(NONE, wide_names(payload, 12));
}

#[test]
fn an_empty_map_is_found_without_rows() {
    lists(&[], names(b"\x01\x01\x00", 1));
    lists(&[], names(b"\x02\x03\x01\x07\x00", 2));
    lists(&[], data(b"\x00"));
    lists(&[], data(b"\x02\x00\x00\x05\x00"));
}

#[test]
fn a_payload_is_refused_whatever_is_listed() {
    let left_over = [&P[..], b"\x04\x02\x00\x00"].concat();
    for id in [0, 1, 2, 3, 4, 255] {
        answers(refused(10, 24), names(&left_over, id));
        answers(refused(10, 24), wide_names(&left_over, id));
    }
    let no_globals = b"\x07\x01\xFF";
    answers(NONE, names(no_globals, 1));
    answers(refused(2, 2), wide_names(no_globals, 1));
    answers(refused(11, 6), data(b"\x01\x02\x02\x05\x01a\x05\x00"));
}

#[test]
fn padded_numbers_are_stepped_over() {
    let padded = b"\x01\x89\x00\x81\x00\x83\x80\x00\x82\x00ab";
    lists(&[(3, 0, 10, 2)], names(padded, 1));
}

#[test]
fn data_of_any_format() {
    let payload = b"\x02\x02\x02\x05\x02ab\x09\x00\x07\x01\xFF\xFF\xFF\xFF\x0F\x01c";
    let rows = [(2, 5, 5, 2), (2, 9, 9, 0), (7, u32::MAX, 17, 1)];
    lists(&rows, data(payload));
}

/// Function, offset and whether it is likely.
type Hint = (u32, u32, u32);

type Call = fn(&[u8], &mut [u32], &mut [u32], &mut [u32]) -> Answer;

#[track_caller]
fn lists_hints(rows: &[Hint], call: Call, payload: &[u8]) {
    let count = rows.len();
    let mut lists = [(); 3].map(|()| vec![UNTOUCHED; count + 1]);
    let [functions, offsets, likely] = &mut lists;
    let told = call(payload, functions, offsets, likely);
    assert_eq!(told, found(0, count as u64));
    for (at, row) in rows.iter().enumerate() {
        assert_eq!((lists[0][at], lists[1][at], lists[2][at]), *row);
    }
    assert!(lists.iter().all(|list| list[count] == UNTOUCHED));
    for short in (0..3).filter(|_| count > 0) {
        let mut lists = [(); 3].map(|()| vec![UNTOUCHED; count]);
        lists[short].pop();
        let before = lists.clone();
        let [functions, offsets, likely] = &mut lists;
        let told = call(payload, functions, offsets, likely);
        assert_eq!(told, refused(13, count as u64));
        assert_eq!(lists, before);
    }
}

#[test]
fn hints() {
    let payload = b"\x01\x02\x02\x05\x01\x01\x09\x01\x00";
    lists_hints(&[(2, 5, 1), (2, 9, 0)], hints_list, payload);
    lists_hints(&[], hints_list, b"\x00");
    let no_hint = b"\x01\x02\x01\x05\x01\x02";
    assert_eq!(
        hints_list(no_hint, &mut [], &mut [], &mut []),
        refused(12, 4)
    );
}

#[test]
fn older_hints_stand_once_and_in_order() {
    let payload = b"\x03\x05\x00\x02\x01\x09\x80\x00\x04\x02\x00\x01\x01\x80\x01\
        \x05\x00\x02\x00\x09\x01\x03";
    let rows = [(2, 128, 1), (5, 3, 1), (5, 4, 0), (5, 9, 1)];
    lists_hints(&rows, old_hints_list, payload);
    lists_hints(&[], old_hints_list, b"\x02\x05\x00\x00\x03\x00\x00");
    let not_zero = b"\x01\x02\x80\x00";
    let told = old_hints_list(not_zero, &mut [], &mut [], &mut []);
    assert_eq!(told, refused(17, 2));
}
