//! A table of payloads that customers share: stored once, asked by each, and free again when nobody
//! has them open.

mod common;

use std::sync::RwLock;

use common::{refused, EVERY_ID, P};
use wakemiono::{
    function_names, Customer, FunctionIndex, Hold, NamePayload, Reason, Refusal, SharedTable,
};

const ONE: Customer = Customer(0);
const OTHER: Customer = Customer(15);

/// The payload P with its sizes and an index padded, and with a map that is empty.
const P_OTHERWISE: [u8; 27] = [
    0x00, 0x82, 0x00, 0x01, 0x6D, 0x01, 0x88, 0x00, 0x02, 0x80, 0x00, 0x01, 0x61, 0x03, 0x01, 0x62,
    0x02, 0x06, 0x01, 0x03, 0x01, 0x00, 0x01, 0x78, 0x0B, 0x01, 0x00,
];

fn table(blocks: usize) -> SharedTable {
    SharedTable::new(blocks).expect("a store has so many blocks")
}

/// A payload that takes so many blocks, all but full, with one function of a long name.
fn of_blocks(blocks: usize, letter: char) -> Vec<u8> {
    const IN_A_BLOCK: usize = 508;
    const BESIDE_THE_NAME: usize = 9;
    let name = letter.to_string();
    let name = name.repeat(blocks * IN_A_BLOCK - BESIDE_THE_NAME);
    function_names([(FunctionIndex(0), name)]).expect("names are written")
}

#[track_caller]
fn text(answer: Result<Option<Vec<u8>>, Refusal>) -> String {
    let name = answer.expect("this is accepted").expect("there is a name");
    String::from_utf8(name).expect("a name is text")
}

#[test]
fn equal_payloads_are_stored_once_however_they_are_spelled() {
    let mut table = table(3);
    let hold = table.open(ONE, NamePayload::new(&P)).unwrap();
    let store = table.store().to_vec();
    let others = table.open(OTHER, NamePayload::new(&P_OTHERWISE)).unwrap();
    assert_eq!(table.store(), store, "it was stored already");
    for (customer, hold) in [(ONE, hold), (OTHER, others)] {
        let name = |function| table.function_name(customer, hold, FunctionIndex(function));
        assert_eq!(text(name(0)), "a");
        assert_eq!(text(name(3)), "b");
        assert_eq!(name(1), Ok(None));
    }
    table.open(ONE, NamePayload::new(&EVERY_ID)).unwrap();
    assert_ne!(table.store(), store, "this one was not");
}

#[test]
fn a_payload_is_there_up_to_its_last_close() {
    let mut table = table(1);
    let payload = NamePayload::new(&P);
    let (hold, others) = (
        table.open(ONE, payload).unwrap(),
        table.open(OTHER, payload).unwrap(),
    );
    let no_room = (26, 0);
    let other = NamePayload::new(&EVERY_ID);
    assert_eq!(refused(table.open(ONE, other)), no_room);
    table.close(ONE, hold).unwrap();
    assert_eq!(refused(table.open(ONE, other)), no_room);
    assert_eq!(
        text(table.function_name(OTHER, others, FunctionIndex(0))),
        "a"
    );
    let store = table.store().to_vec();
    table.close(OTHER, others).unwrap();
    assert_eq!(table.store(), store, "a close writes nothing");
    let hold = table.open(ONE, other).unwrap();
    assert_eq!(text(table.function_name(ONE, hold, FunctionIndex(3))), "f");
}

#[test]
fn the_lowest_unused_hold_is_given() {
    let mut table = table(1);
    let empty = NamePayload::new(&[]);
    for hold in 0..SharedTable::HOLDS {
        assert_eq!(table.open(ONE, empty), Ok(Hold(hold)));
    }
    assert_eq!(refused(table.open(ONE, empty)), (25, 0));
    assert_eq!(table.open(OTHER, empty), Ok(Hold(0)));
    for hold in [5, 2].map(Hold) {
        table.close(ONE, hold).unwrap();
    }
    assert_eq!(table.open(ONE, empty), Ok(Hold(2)));
    assert_eq!(table.open(ONE, empty), Ok(Hold(5)));
    assert_eq!(refused(table.open(ONE, empty)), (25, 0));
}

#[test]
fn a_hold_is_its_customers_alone() {
    let mut table = table(1);
    let hold = table.open(ONE, NamePayload::new(&P)).unwrap();
    let function = FunctionIndex(0);
    for (customer, hold, number) in [
        (OTHER, hold, 24),
        (ONE, Hold(1), 24),
        (ONE, Hold(8), 24),
        (ONE, Hold(u32::MAX), 24),
        (Customer(16), hold, 23),
        (Customer(u32::MAX), Hold(8), 23),
    ] {
        let name = table.function_name(customer, hold, function);
        assert_eq!(refused(name), (number, 0));
        assert_eq!(refused(table.close(customer, hold)), (number, 0));
    }
    table.close(ONE, hold).unwrap();
    assert_eq!(refused(table.close(ONE, hold)), (24, 0));
}

/// Some fit the stack, some do not, and one fills the greatest store.
#[test]
fn names_of_any_length() {
    let mut table = table(SharedTable::MOST_BLOCKS);
    for blocks in [1, 2, 127, 128] {
        let payload = of_blocks(blocks, 'n');
        let hold = table.open(ONE, NamePayload::new(&payload)).unwrap();
        let name = text(table.function_name(ONE, hold, FunctionIndex(0)));
        let expected = NamePayload::new(&payload).function_name(FunctionIndex(0));
        assert_eq!(name.as_bytes(), expected.unwrap().unwrap().as_bytes());
        table.close(ONE, hold).unwrap();
    }
    let too_long = of_blocks(129, 'n');
    assert_eq!(
        refused(table.open(ONE, NamePayload::new(&too_long))),
        (26, 0)
    );
}

#[test]
fn names_go_to_the_front_of_an_output() {
    let mut table = table(1);
    let names = [(FunctionIndex(0), ""), (FunctionIndex(1), "größe")];
    let payload = function_names(names).unwrap();
    let hold = table.open(ONE, NamePayload::new(&payload)).unwrap();
    let mut out = [0xEE; 9];
    let function = FunctionIndex(1);
    let asked = table.function_name_into(ONE, hold, function, &mut out[..6]);
    assert_eq!(refused(asked), (13, 7));
    assert_eq!(out, [0xEE; 9]);
    let asked = table.function_name_into(ONE, hold, function, &mut out);
    assert_eq!(asked.unwrap().unwrap().to_string(), "größe");
    assert_eq!(out[..7], *"größe".as_bytes());
    assert_eq!(out[7..], [0xEE; 2]);
    let asked = table.function_name_into(ONE, hold, FunctionIndex(0), &mut []);
    assert!(
        asked.unwrap().unwrap().is_empty(),
        "an empty name is a name"
    );
    let asked = table.function_name_into(ONE, hold, FunctionIndex(2), &mut []);
    assert_eq!(asked, Ok(None));
}

#[test]
fn what_is_wrong_with_a_payload_is_said_before_the_table_is_asked() {
    let mut table = table(1);
    let left_over = NamePayload::new(&[0x01, 0x02, 0x00, 0x00]);
    for _ in 0..SharedTable::HOLDS {
        assert_eq!(refused(table.open(ONE, left_over)), (10, 3));
        table.open(ONE, NamePayload::new(&P)).unwrap();
    }
    assert_eq!(refused(table.open(ONE, left_over)), (10, 3));
    assert_eq!(refused(table.open(Customer(16), left_over)), (23, 0));
    let no_work = table.open_with(ONE, NamePayload::new(&P_OTHERWISE), &mut [0; 20]);
    assert_eq!(refused(no_work), (13, 21));
    let full = table.open_with(ONE, NamePayload::new(&P_OTHERWISE), &mut [0; 21]);
    assert_eq!(refused(full), (25, 0));
}

/// Written where the table got as far as its store, and by no other refusal.
#[test]
fn the_work_buffer() {
    let mut table = table(1);
    let padded = NamePayload::new(&P_OTHERWISE);
    let mut work = [0xEE; 23];
    let written = [&P[..], &[0xEE, 0xEE]].concat();
    let refusal = table.open_with(Customer(16), padded, &mut work);
    assert_eq!(refused(refusal), (23, 0));
    assert_eq!(work, [0xEE; 23]);
    assert_eq!(table.open_with(ONE, padded, &mut work), Ok(Hold(0)));
    assert_eq!(work[..], written);
    let mut work = [0xEE; 82];
    let refusal = table.open_with(ONE, NamePayload::new(&EVERY_ID), &mut work);
    assert_eq!(refused(refusal), (26, 0));
    assert_eq!(work, EVERY_ID);
}

#[test]
fn stores_have_1_to_128_blocks() {
    for blocks in [0, 129, usize::MAX / SharedTable::BLOCK + 2, usize::MAX] {
        let refusal = SharedTable::new(blocks).unwrap_err();
        assert_eq!(refusal.reason(), Reason::OtherStore);
        assert_eq!((refusal.number(), refusal.offset()), (30, 0));
    }
    for blocks in [1, 128] {
        let table = table(blocks);
        assert_eq!(table.store(), vec![0; blocks * SharedTable::BLOCK]);
        assert_eq!(
            format!("{table:?}"),
            format!("SharedTable({blocks} blocks)")
        );
    }
}

#[test]
fn a_clone_goes_its_own_way() {
    let mut table = table(1);
    let hold = table.open(ONE, NamePayload::new(&P)).unwrap();
    let mut clone = table.clone();
    clone.close(ONE, hold).unwrap();
    clone.open(OTHER, NamePayload::new(&EVERY_ID)).unwrap();
    assert_eq!(text(table.function_name(ONE, hold, FunctionIndex(3))), "b");
    assert_eq!(
        text(clone.function_name(OTHER, hold, FunctionIndex(3))),
        "f"
    );
}

/// Every customer on a thread of their own, with every second payload their own.
#[test]
fn customers_on_threads() {
    let table = RwLock::new(table(SharedTable::CUSTOMERS as usize + 1));
    let visits = |customer: Customer| {
        let own = function_names([(FunctionIndex(customer.0), "own")]).unwrap();
        for turn in 0..20 {
            let (payload, function) = match turn % 2 {
                0 => (&P[..], FunctionIndex(0)),
                _ => (&own[..], FunctionIndex(customer.0)),
            };
            let opened = table
                .write()
                .unwrap()
                .open(customer, NamePayload::new(payload));
            let hold = opened.unwrap();
            assert_eq!(hold, Hold(0));
            let name = table
                .read()
                .unwrap()
                .function_name(customer, hold, function);
            assert_eq!(text(name), ["a", "own"][turn % 2]);
            table.write().unwrap().close(customer, hold).unwrap();
        }
    };
    std::thread::scope(|threads| {
        for customer in (0..SharedTable::CUSTOMERS).map(Customer) {
            threads.spawn(move || visits(customer));
        }
    });
}

/// A store of six blocks: payloads of one block in 0, 2 and 5, of two in 3 and 4, and block 1 free again.
fn with_a_gap() -> SharedTable {
    let mut table = table(6);
    for (blocks, letter) in [(1, 'a'), (1, 'b'), (1, 'c'), (2, 'd'), (1, 'e')] {
        let payload = of_blocks(blocks, letter);
        table.open(ONE, NamePayload::new(&payload)).unwrap();
    }
    table.close(ONE, Hold(1)).unwrap();
    table
}

fn block(store: &[u8], number: usize) -> &[u8] {
    &store[number * SharedTable::BLOCK..][..SharedTable::BLOCK]
}

#[test]
fn gaps_are_closed_and_blocks_behind_keep_their_bytes() {
    let mut table = with_a_gap();
    let before = table.store().to_vec();
    table.compact().unwrap();
    for (number, old) in [0, 2, 3, 4, 5, 5].into_iter().enumerate() {
        assert_eq!(block(table.store(), number), block(&before, old));
    }
    let once = table.store().to_vec();
    table.compact().unwrap();
    assert_eq!(table.store(), once, "there is no gap left");
    for (hold, letter) in [(0, "a"), (2, "c"), (3, "d"), (4, "e")] {
        let name = text(table.function_name(ONE, Hold(hold), FunctionIndex(0)));
        assert_eq!(name.replace(letter, ""), "");
    }
    let closed = table.function_name(ONE, Hold(1), FunctionIndex(0));
    assert_eq!(refused(closed), (24, 0));
    assert_eq!(table.open(ONE, NamePayload::new(&P)), Ok(Hold(1)));
}

#[test]
fn a_table_without_gaps_stays_as_it_is() {
    let mut table = table(3);
    let store = table.store().to_vec();
    assert_eq!(table.compact(), Ok(()));
    assert_eq!(table.store(), store);
    table.open(ONE, NamePayload::new(&P)).unwrap();
    table.open(OTHER, NamePayload::new(&EVERY_ID)).unwrap();
    let store = table.store().to_vec();
    assert_eq!(table.compact(), Ok(()));
    assert_eq!(table.store(), store);
}

/// Two blocks are free, and not side by side.
#[test]
fn an_open_finds_room_once_the_gaps_are_closed() {
    let mut table = with_a_gap();
    table.close(ONE, Hold(2)).unwrap();
    table
        .open(OTHER, NamePayload::new(&of_blocks(1, 'b')))
        .unwrap();
    table.close(ONE, Hold(4)).unwrap();
    let two_blocks = of_blocks(2, 'n');
    let two_blocks = NamePayload::new(&two_blocks);
    assert_eq!(refused(table.open(OTHER, two_blocks)), (26, 0));
    table.compact().unwrap();
    let three_blocks = of_blocks(3, 'n');
    let opened = table.open(OTHER, NamePayload::new(&three_blocks));
    assert_eq!(refused(opened), (26, 0));
    assert_eq!(table.open(OTHER, two_blocks), Ok(Hold(1)));
    let names = [
        (ONE, 0, "a"),
        (OTHER, 0, "b"),
        (ONE, 3, "d"),
        (OTHER, 1, "n"),
    ];
    for (customer, hold, letter) in names {
        let name = text(table.function_name(customer, Hold(hold), FunctionIndex(0)));
        assert_eq!(name.replace(letter, ""), "");
    }
}
