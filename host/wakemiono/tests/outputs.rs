//! Outputs: what is written, and that nothing else is.

mod common;

use common::{refused, EVERY_ID, P};
use wakemiono::{
    function_names_into, Customer, Edition, First, FunctionIndex, Hints, Hold, Metadata,
    NamePayload, Pair, Refusal, SharedTable, Wider,
};

const GUARD: usize = 16;
const UNTOUCHED: u8 = 0xA5;

/// Calls with an output of a length, between guards. Hands back the answer and the output, once the
/// guards are as they were.
fn with_guards<T>(length: usize, call: impl FnOnce(&mut [u8]) -> T) -> (T, Vec<u8>) {
    let mut buffer = vec![UNTOUCHED; GUARD + length + GUARD];
    let answer = call(&mut buffer[GUARD..GUARD + length]);
    assert_eq!(buffer[..GUARD], [UNTOUCHED; GUARD]);
    assert_eq!(buffer[GUARD + length..], [UNTOUCHED; GUARD]);
    (answer, buffer[GUARD..GUARD + length].to_vec())
}

/// Tries outputs from no room at all to more than is needed.
#[track_caller]
fn writes(expected: &[u8], write: impl Fn(&mut [u8]) -> Result<usize, Refusal>) {
    let needed = expected.len();
    for length in 0..needed + 4 {
        let (answer, out) = with_guards(length, &write);
        if length < needed {
            assert_eq!(refused(answer), (13, needed as u64));
            assert_eq!(out, vec![UNTOUCHED; length]);
        } else {
            assert_eq!(answer, Ok(needed));
            assert_eq!(out[..needed], *expected);
            assert_eq!(out[needed..], vec![UNTOUCHED; length - needed]);
        }
    }
}

/// Tries outputs of several lengths; none may change.
#[track_caller]
fn refuses(fault: (u32, u64), write: impl Fn(&mut [u8]) -> Result<usize, Refusal>) {
    for length in [0, 1, 7, 64] {
        let (answer, out) = with_guards(length, &write);
        assert_eq!(refused(answer), fault);
        assert_eq!(out, vec![UNTOUCHED; length]);
    }
}

#[test]
fn names_are_rewritten_between_guards() {
    let padded = [0x01, 0x85, 0x00, 0x01, 0x00, 0x81, 0x00, 0x61];
    let canonical = [0x01, 0x04, 0x01, 0x00, 0x01, 0x61];
    writes(&canonical, |out| {
        NamePayload::new(&padded).canonical_into(out)
    });
    writes(&P, |out| NamePayload::new(&P).canonical_into(out));
    writes(&[], |out| {
        NamePayload::new(&[0x01, 0x01, 0x00]).canonical_into(out)
    });
    writes(&[], |out| NamePayload::new(&[]).canonical_into(out));
}

#[test]
fn names_of_the_wider_edition_are_rewritten_between_guards() {
    let padded = [0x07, 0x85, 0x00, 0x01, 0x00, 0x81, 0x00, 0x61];
    let canonical = [0x07, 0x04, 0x01, 0x00, 0x01, 0x61];
    writes(&canonical, |out| {
        NamePayload::wider(&padded).canonical_into(out)
    });
    writes(&EVERY_ID, |out| {
        NamePayload::wider(&EVERY_ID).canonical_into(out)
    });
    let empty_map = [0x07, 0x01, 0x00];
    writes(&[], |out| {
        NamePayload::wider(&empty_map).canonical_into(out)
    });
    writes(&empty_map, |out| {
        NamePayload::new(&empty_map).canonical_into(out)
    });
}

/// Joins into an output. Whose a refusal is, is not what is tried here.
fn join<E: Edition>(separate: &[u8], own: &[u8], out: &mut [u8]) -> Result<usize, Refusal> {
    let in_edition = NamePayload::<E>::in_edition;
    let joined = Pair::new(in_edition(separate), in_edition(own)).join_into(out);
    joined.map_err(|refused| refused.refusal())
}

#[test]
fn pairs_are_joined_between_guards() {
    let padded = [0x01, 0x85, 0x00, 0x01, 0x00, 0x81, 0x00, 0x61];
    let other = [0x01, 0x04, 0x01, 0x03, 0x01, 0x62];
    let joined = [0x01, 0x07, 0x02, 0x00, 0x01, 0x61, 0x03, 0x01, 0x62];
    writes(&joined, |out| join::<First>(&padded, &other, out));
    writes(&joined, |out| join::<Wider>(&other, &padded, out));
    writes(&P, |out| join::<First>(&P, &P, out));
    writes(&EVERY_ID, |out| join::<Wider>(&EVERY_ID, &P[..4], out));
    writes(&[], |out| join::<First>(&[0x01, 0x01, 0x00], &[], out));
    writes(&[], |out| join::<Wider>(&[], &[0x07, 0x01, 0x00], out));
}

/// The canonical form goes to the front of a work buffer, and names are copied to that of an output.
#[test]
fn shared_payloads_are_opened_and_asked_between_guards() {
    let padded = [0x01, 0x85, 0x00, 0x01, 0x00, 0x81, 0x00, 0x61];
    let canonical = [0x01, 0x04, 0x01, 0x00, 0x01, 0x61];
    let customer = Customer(0);
    let mut table = SharedTable::new(1).expect("a store may have one block");
    writes(&canonical, |work| {
        let opened = table
            .clone()
            .open_with(customer, NamePayload::new(&padded), work);
        opened.map(|_| canonical.len())
    });
    table.open(customer, NamePayload::new(&P)).expect("room");
    let ask = |function, out: &mut [u8]| {
        let name = table.function_name_into(customer, Hold(0), FunctionIndex(function), out);
        name.map(|name| name.map_or(0, |name| name.len()))
    };
    writes(b"b", |out| ask(3, out));
    writes(&[], |out| ask(2, out));
}

#[test]
fn metadata_and_hints_are_rewritten_between_guards() {
    let padded = [
        0x82, 0x00, 0x01, 0x00, 0x02, 0x81, 0x00, 0x85, 0x00, 0x81, 0x00, 0x01,
    ];
    let canonical = [0x01, 0x02, 0x01, 0x05, 0x01, 0x01];
    writes(&canonical, |out| Metadata::new(&padded).canonical_into(out));
    writes(&canonical, |out| Hints::new(&padded).canonical_into(out));
    writes(&[0x00], |out| {
        Metadata::new(&[0x01, 0x07, 0x00]).canonical_into(out)
    });
    writes(&[0x00], |out| Hints::new(&[0x80, 0x00]).canonical_into(out));
}

#[test]
fn lists_are_written_between_guards() {
    let payload = [0x01, 0x08, 0x02, 0x00, 0x01, 0x61, 0x03, 0x02, 0x62, 0x63];
    writes(&payload, |out| {
        function_names_into(&[0, 3].map(FunctionIndex), &[1, 2], b"abc", out)
    });
    writes(&[], |out| function_names_into(&[], &[], &[], out));
}

#[test]
fn a_refusal_writes_nothing() {
    refuses((10, 3), |out| {
        NamePayload::new(&[0x01, 0x02, 0x00, 0x00]).canonical_into(out)
    });
    let labels_fall = [
        0x03, 0x09, 0x01, 0x03, 0x02, 0x02, 0x01, 0x61, 0x01, 0x01, 0x62,
    ];
    refuses((11, 8), |out| {
        NamePayload::wider(&labels_fall).canonical_into(out)
    });
    let left_over = [0x01, 0x02, 0x00, 0x00];
    let table = SharedTable::new(1).expect("a store may have one block");
    refuses((10, 3), |work| {
        let opened = table
            .clone()
            .open_with(Customer(0), NamePayload::new(&left_over), work);
        opened.map(|_| 0)
    });
    refuses((24, 0), |out| {
        let name = table.function_name_into(Customer(0), Hold(0), FunctionIndex(0), out);
        name.map(|name| name.map_or(0, |name| name.len()))
    });
    refuses((10, 3), |out| join::<First>(&left_over, &P, out));
    refuses((10, 3), |out| join::<First>(&P, &left_over, out));
    refuses((11, 8), |out| join::<Wider>(&EVERY_ID, &labels_fall, out));
    refuses((2, 0), |out| Metadata::new(&[]).canonical_into(out));
    refuses((12, 4), |out| {
        Hints::new(&[0x01, 0x02, 0x01, 0x05, 0x01, 0x02]).canonical_into(out)
    });
    refuses((14, 0), |out| {
        function_names_into(&[0].map(FunctionIndex), &[1], b"ab", out)
    });
    refuses((11, 1), |out| {
        function_names_into(&[3, 3].map(FunctionIndex), &[1, 1], b"ab", out)
    });
    refuses((4, 0), |out| {
        function_names_into(&[0, 1].map(FunctionIndex), &[1, 1], "é".as_bytes(), out)
    });
}

#[test]
fn a_rewriting_is_as_long_as_it_is() {
    let padded = [0x01, 0x85, 0x00, 0x01, 0x00, 0x81, 0x00, 0x61];
    assert_eq!(NamePayload::new(&padded).to_canonical().unwrap().len(), 6);
    assert_eq!(
        Metadata::new(&[0x01, 0x07, 0x00]).to_canonical(),
        Ok(vec![0x00])
    );
    assert_eq!(Hints::new(&[0x80, 0x00]).to_canonical(), Ok(vec![0x00]));
}
