//! The shared table: by hand from the text of the request, and one row for each thing that its readings
//! settle.

mod support;

use second_reader::*;
use support::shop::*;
use support::*;

// What stands in the store.

#[test]
fn a_block_is_payload_then_zeros_then_the_sum_of_its_words() {
    let mut shop = Shop::new(2);
    shop.open_granted(0, &[0x01, 0x04, 0x01, 0x00, 0x01, 0x61]);
    let mut block = [0; BLOCK];
    block[..6].copy_from_slice(&[0x01, 0x04, 0x01, 0x00, 0x01, 0x61]);
    // 0x00010401 and 0x00006101.
    block[PAYLOAD..].copy_from_slice(&[0x02, 0x65, 0x01, 0x00]);
    assert_eq!(shop.block(0), block);
    assert_eq!(shop.block(1), [UNTOUCHED; BLOCK]);
}

#[test]
fn the_sum_wraps() {
    let mut shop = Shop::new(1);
    shop.open_granted(0, &[0x03, 0x06, 0xFF, 0xFF, 0xFF, 0xFF, 0xFF, 0xFF]);
    // 0xFFFF0603 and 0xFFFFFFFF.
    assert_eq!(shop.block(0)[PAYLOAD..], [0x02, 0x06, 0xFF, 0xFF]);
}

#[test]
fn an_empty_payload_takes_one_block_of_zeros() {
    for empty in [&[][..], &[0x01, 0x01, 0x00]] {
        let mut shop = Shop::new(2);
        assert_eq!(shop.open(3, empty), found(0, 0));
        assert_eq!(shop.block(0), [0; BLOCK]);
        assert_eq!(shop.block(1), [UNTOUCHED; BLOCK]);
        assert_eq!(shop.ask(3, 0, 0), (NONE, vec![]));
    }
}

/// A name payload of one byte is always cut off, so the shortest that takes room has two.
#[test]
fn one_byte_is_no_payload() {
    for byte in 0..=u8::MAX {
        let mut shop = Shop::new(1);
        assert_eq!(shop.open(0, &[byte]), refused(2, 1));
        assert_eq!(shop.stored(), []);
    }
}

#[test]
fn as_many_blocks_as_the_payload_needs() {
    for (length, blocks) in [
        (2, 1),
        (507, 1),
        (508, 1),
        (509, 2),
        (1_016, 2),
        (1_017, 3),
        (65_024, 128),
    ] {
        let mut shop = Shop::new(blocks);
        let payload = kept_payload(length, 0x5A);
        assert_eq!(shop.open(0, &payload), found(0, 0), "{length}");
        let stored = shop.table.stored(&shop.store);
        assert_eq!((stored.len(), &stored[0].payload), (1, &payload));
        let taken = (0..blocks).flat_map(|number| &shop.block(number)[..PAYLOAD]);
        let (front, behind): (Vec<_>, Vec<_>) = taken.enumerate().partition(|it| it.0 < length);
        assert!(front.iter().all(|(at, byte)| **byte == payload[*at]));
        assert!(behind.iter().all(|(_, byte)| **byte == 0));
        if blocks > 1 {
            let mut short = Shop::new(blocks - 1);
            assert_eq!(short.open(0, &payload), refused(26, 0), "{length}");
        }
    }
}

#[test]
fn k12_r31a_what_no_store_can_hold_is_26_after_25_and_27() {
    let payload = kept_payload(MOST_BLOCKS * PAYLOAD + 1, 0);
    let mut shop = Shop::new(MOST_BLOCKS);
    assert_eq!(shop.open(0, &payload), refused(26, 0));
    shop.open_granted(1, &NAMED);
    shop.store[0] ^= 1;
    assert_eq!(shop.open(0, &payload), refused(27, 0));
    shop.store[0] ^= 1;
    for _ in 0..HOLDS {
        shop.open_granted(0, &NAMED);
    }
    assert_eq!(shop.open(0, &payload), refused(25, 0));
}

// Payloads that are shared.

#[test]
fn two_spellings_by_two_customers_are_stored_once() {
    let mut shop = Shop::new(4);
    assert_eq!(shop.open(0, &NAMED_OTHERWISE), found(0, 0));
    let store = shop.store.clone();
    assert_eq!(shop.block(0)[..NAMED.len()], NAMED);
    assert_eq!(shop.open(15, &NAMED), found(0, 0));
    assert_eq!(shop.store, store);
    assert_eq!(shop.stored(), [(0, 2)]);
    for customer in [0, 15] {
        assert_eq!(shop.ask(customer, 0, 0), (found(0, 1), b"a".to_vec()));
    }
}

/// What differs in nothing that a function name shows is still another payload.
#[test]
fn equal_function_names_are_not_equal_payloads() {
    let mut shop = Shop::new(4);
    let with_kept = [&NAMED[..], &[0x0C, 0x00]].concat();
    shop.open_granted(0, &NAMED);
    shop.open_granted(1, &with_kept);
    assert_eq!(shop.stored(), [(0, 1), (1, 1)]);
}

#[test]
fn a_payload_that_begins_as_another_is_another() {
    let one_block = kept_payload(PAYLOAD, 0);
    let two_blocks = [&one_block[..], &[0x0D, 0x00]].concat();
    for (beginning, whole) in [
        (&[][..], &[0x00, 0x01, 0x00][..]),
        (&[0x0C, 0x00], &[0x0C, 0x00, 0x0D, 0x00]),
        (&one_block, &two_blocks),
    ] {
        for (one, other) in [(beginning, whole), (whole, beginning)] {
            let mut shop = Shop::new(4);
            shop.open_granted(0, one);
            shop.open_granted(1, other);
            let users: Vec<usize> = shop.stored().iter().map(|stored| stored.1).collect();
            assert_eq!(users, [1, 1]);
        }
    }
}

#[test]
fn a_payload_has_users_until_its_last_close() {
    let mut shop = Shop::new(1);
    for users in 1..=HOLDS as usize {
        shop.open_granted(2, &NAMED);
        shop.open_granted(9, &NAMED_OTHERWISE);
        assert_eq!(shop.stored(), [(0, 2 * users)]);
    }
    for hold in 0..HOLDS {
        assert_eq!(shop.close(2, hold), CLOSED);
        assert_eq!(shop.open(1, &[]), refused(26, 0));
    }
    for hold in 0..HOLDS {
        assert_eq!(shop.open(1, &[]), refused(26, 0));
        assert_eq!(shop.ask(9, hold, 0), (found(0, 1), b"a".to_vec()));
        assert_eq!(shop.close(9, hold), CLOSED);
    }
    assert_eq!(shop.stored(), []);
    assert_eq!(shop.open(1, &[]), found(0, 0));
    assert_eq!(shop.stored(), [(0, 1)]);
}

#[test]
fn the_first_run_of_free_blocks_that_is_long_enough() {
    let mut shop = Shop::new(8);
    let lengths = [1, 1, 2, 1, 2];
    for (byte, blocks) in lengths.into_iter().enumerate() {
        shop.open_granted(0, &kept_payload(blocks * PAYLOAD, byte as u8));
    }
    // In use are 0, 1, 2 and 3, 4, 5 and 6; free is 7.
    assert_eq!(shop.close(0, 0), CLOSED);
    assert_eq!(shop.close(0, 2), CLOSED);
    let two_blocks = kept_payload(2 * PAYLOAD, 0x77);
    let three_blocks = kept_payload(3 * PAYLOAD, 0x77);
    assert_eq!(shop.open(1, &three_blocks), refused(26, 0));
    assert_eq!(shop.open(1, &two_blocks), found(0, 0));
    let one_block = |byte| kept_payload(PAYLOAD, byte);
    assert_eq!(shop.open(1, &one_block(0x78)), found(0, 1));
    assert_eq!(shop.open(1, &one_block(0x79)), found(0, 2));
    assert_eq!(shop.open(1, &one_block(0x7A)), refused(26, 0));
    let firsts: Vec<usize> = shop.stored().iter().map(|stored| stored.0).collect();
    assert_eq!(firsts, [0, 1, 2, 4, 5, 7]);
    assert_eq!(shop.block(2)[PAYLOAD - 1], 0x77);
    assert_eq!(shop.block(0)[PAYLOAD - 1], 0x78);
    assert_eq!(shop.block(7)[PAYLOAD - 1], 0x79);
}

#[test]
fn k12_r32_free_blocks_keep_what_they_hold() {
    let mut shop = Shop::new(3);
    shop.open_granted(0, &kept_payload(3 * PAYLOAD, 0x11));
    let full = shop.clone();
    assert_eq!(shop.close(0, 0), CLOSED);
    shop.open_granted(0, &[]);
    assert_eq!(shop.block(0), [0; BLOCK]);
    assert_eq!(shop.store[BLOCK..], full.store[BLOCK..]);
    assert_eq!(shop.open(0, &[]), found(0, 1));
    assert_eq!(shop.store[BLOCK..], full.store[BLOCK..]);
}

// Holds.

#[test]
fn the_eighth_hold_and_the_ninth() {
    let mut shop = Shop::new(1);
    for hold in 0..HOLDS {
        assert_eq!(shop.open(7, &NAMED), found(0, hold.into()));
    }
    assert_eq!(shop.open(7, &NAMED), refused(25, 0));
    assert_eq!(shop.open(8, &NAMED), found(0, 0));
}

#[test]
fn an_open_gets_the_lowest_hold_that_is_unused() {
    let mut shop = Shop::new(1);
    for _ in 0..HOLDS {
        shop.open_granted(7, &NAMED);
    }
    for hold in [5, 1, 7] {
        assert_eq!(shop.close(7, hold), CLOSED);
        assert_eq!(shop.close(7, hold), refused(24, 0));
    }
    for hold in [1, 5, 7] {
        assert_eq!(shop.open(7, &NAMED), found(0, hold));
    }
    assert_eq!(shop.open(7, &NAMED), refused(25, 0));
}

#[test]
fn holds_that_are_not_open() {
    let mut shop = Shop::new(1);
    shop.open_granted(0, &NAMED);
    for (customer, hold) in [(0, 1), (0, 7), (0, 8), (0, u32::MAX), (1, 0), (15, 0)] {
        assert_eq!(shop.ask(customer, hold, 0), (refused(24, 0), vec![]));
        assert_eq!(shop.close(customer, hold), refused(24, 0));
    }
    assert_eq!(shop.stored(), [(0, 1)]);
    assert_eq!(shop.close(0, 0), CLOSED);
    assert_eq!(shop.ask(0, 0, 0), (refused(24, 0), vec![]));
}

#[test]
fn customers_that_there_are_not() {
    let mut shop = Shop::new(1);
    for customer in [CUSTOMERS, u32::MAX] {
        assert_eq!(shop.open(customer, &NAMED), refused(23, 0));
        assert_eq!(shop.open(customer, &[0xFF]), refused(23, 0));
        assert_eq!(shop.ask(customer, HOLDS, 0), (refused(23, 0), vec![]));
        assert_eq!(shop.close(customer, HOLDS), refused(23, 0));
    }
    assert_eq!(shop.open(CUSTOMERS - 1, &NAMED), found(0, 0));
}

// The store that is lent.

/// Whatever else is wrong with a call.
fn every_call_is_30(table: &mut Table, store: &mut [u8]) {
    let before = (table.clone(), store.to_vec());
    let mut lent = [UNTOUCHED; NAMED.len()];
    for customer in [0, CUSTOMERS] {
        let opened = table_open(table, store, customer, &NAMED, &mut lent);
        assert_eq!(opened, refused(30, 0));
        let asked = table_function_name(table, store, customer, HOLDS, 0, &mut lent);
        assert_eq!(asked, refused(30, 0));
        assert_eq!(table_close(table, store, customer, HOLDS), refused(30, 0));
    }
    assert_eq!(table_compact(table, store), refused(30, 0));
    assert_eq!(lent, [UNTOUCHED; NAMED.len()]);
    assert_eq!((table.clone(), store.to_vec()), before);
}

#[test]
fn k12_r28_a_table_over_what_is_no_store_refuses_every_call() {
    for length in [0, 1, 511, 513, 1_023, (MOST_BLOCKS + 1) * BLOCK] {
        let mut table = table_start(length as u64);
        every_call_is_30(&mut table, &mut vec![0; length]);
    }
}

#[test]
fn k12_r28_a_store_of_another_length() {
    let mut shop = Shop::new(2);
    shop.open_granted(0, &NAMED);
    for length in [0, 1, BLOCK, 2 * BLOCK - 1, 2 * BLOCK + 1, 3 * BLOCK] {
        every_call_is_30(&mut shop.table, &mut vec![0; length]);
    }
    assert_eq!(shop.ask(0, 0, 0), (found(0, 1), b"a".to_vec()));
}

#[test]
fn k12_r31a_lengths_are_compared_in_64_bits() {
    let mut table = table_start((1 << 32) + BLOCK as u64);
    every_call_is_30(&mut table, &mut [0; BLOCK]);
    let mut table = table_start(BLOCK as u64);
    let opened = table_open(&mut table, &mut [0; BLOCK], 0, &[], &mut []);
    assert_eq!(opened, found(0, 0));
}

// The order of refusals.

#[test]
fn k12_r29_an_open_judges_its_payload_before_its_holds() {
    let mut shop = Shop::new(1);
    for _ in 0..HOLDS {
        shop.open_granted(0, &NAMED);
    }
    let untouched = |room| vec![UNTOUCHED; room];
    let cut_off = [&NAMED_OTHERWISE[..], &[0x0C]].concat();
    assert_eq!(shop.open(0, &cut_off), refused(2, 14));
    assert_eq!(
        shop.open_with(0, &NAMED_OTHERWISE, 7),
        (refused(13, 8), untouched(7))
    );
    assert_eq!(
        shop.open_with(0, &NAMED_OTHERWISE, 0),
        (refused(13, 8), untouched(0))
    );
    assert_eq!(
        shop.open_with(0, &NAMED_OTHERWISE, 8),
        (refused(25, 0), untouched(8))
    );
    let refused_and_short = shop.open_with(0, &[0x02, 0x01, 0x00, 0x01, 0x01, 0x00], 0);
    assert_eq!(refused_and_short, (refused(9, 3), vec![]));
}

/// The work buffer needs room for the canonical payload alone, and keeps what is behind it.
#[test]
fn k12_r29_what_an_open_writes_to_the_work_buffer() {
    let written = |room| [&NAMED[..], &[UNTOUCHED; 20]].concat()[..room].to_vec();
    for room in [8, 9, 20] {
        let mut shop = Shop::new(1);
        let granted = shop.open_with(0, &NAMED_OTHERWISE, room);
        assert_eq!(granted, (found(0, 0), written(room)));
        let joined = shop.open_with(1, &NAMED_OTHERWISE, room);
        assert_eq!(joined, (found(0, 0), written(room)));
        shop.store[0] ^= 1;
        let damaged = shop.open_with(1, &NAMED_OTHERWISE, room);
        assert_eq!(damaged, (refused(27, 0), written(room)));
        let mut full = Shop::new(1);
        full.open_granted(0, &[]);
        let no_room = full.open_with(0, &NAMED_OTHERWISE, room);
        assert_eq!(no_room, (refused(26, 0), written(room)));
    }
}

#[test]
fn k12_r29_25_then_27_then_26() {
    let mut shop = Shop::new(1);
    for _ in 0..HOLDS {
        shop.open_granted(0, &NAMED);
    }
    shop.store[BLOCK - 1] ^= 0x80;
    assert_eq!(shop.open(0, &[]), refused(25, 0));
    assert_eq!(shop.open(1, &[]), refused(27, 0));
    assert_eq!(shop.open(1, &NAMED), refused(27, 0));
    shop.store[BLOCK - 1] ^= 0x80;
    assert_eq!(shop.open(1, &[]), refused(26, 0));
    assert_eq!(shop.open(1, &NAMED), found(0, 0));
}

#[test]
fn k12_r30_a_question_is_27_before_13() {
    let mut shop = Shop::new(1);
    shop.open_granted(0, &[0x01, 0x06, 0x01, 0x05, 0x03, b'a', b'b', b'c']);
    let untouched = |room| vec![UNTOUCHED; room];
    assert_eq!(shop.ask_with(0, 0, 5, 2), (refused(13, 3), untouched(2)));
    assert_eq!(shop.ask_with(0, 0, 5, 0), (refused(13, 3), untouched(0)));
    assert_eq!(shop.ask_with(0, 0, 5, 3), (found(0, 3), b"abc".to_vec()));
    assert_eq!(shop.ask_with(0, 0, 4, 0), (NONE, vec![]));
    shop.store[100] = 1;
    for function in [4, 5] {
        let asked = shop.ask_with(0, 0, function, 2);
        assert_eq!(asked, (refused(27, 0), untouched(2)));
    }
}

#[test]
fn an_empty_name_is_found_and_needs_no_room() {
    let mut shop = Shop::new(1);
    shop.open_granted(0, &NAMED);
    assert_eq!(shop.ask_with(0, 0, 2, 0), (found(0, 0), vec![]));
    assert_eq!(shop.ask_with(0, 0, 1, 0), (NONE, vec![]));
    assert_eq!(shop.ask_with(0, 0, 0, 0), (refused(13, 1), vec![]));
}

/// A name that is cut by the end of a block is copied whole.
#[test]
fn a_name_that_stands_in_two_blocks() {
    let text: Vec<u8> = (0..520).map(|at| b'a' + (at % 26) as u8).collect();
    let mut payload = vec![0x01, 0x8C, 0x04, 0x01, 0x03, 0x88, 0x04];
    payload.extend(&text);
    let mut shop = Shop::new(2);
    shop.open_granted(4, &payload);
    assert_eq!(shop.ask_with(4, 0, 3, 520), (found(0, 520), text));
}

// Damage.

/// Blocks 0 and 1 are customer 0's, 2 is that of customers 1 and 2, and 3 is free.
fn three_used_blocks() -> Shop {
    let mut shop = Shop::new(4);
    let two_blocks = [&NAMED[..], &kept_payload(PAYLOAD, 7)].concat();
    shop.open_granted(0, &two_blocks);
    shop.open_granted(1, &NAMED);
    shop.open_granted(2, &NAMED);
    assert_eq!(shop.stored(), [(0, 1), (2, 2)]);
    shop
}

/// Every byte of a store is changed, and each call is put that looks at some of them.
#[test]
fn a_damaged_byte_is_met_by_the_calls_that_look_at_its_block() {
    let whole = three_used_blocks();
    for at in 0..whole.store.len() {
        let mut shop = whole.clone();
        shop.store[at] ^= 1 << (at % 8);
        let block = at / BLOCK;
        let of_two_blocks = block < 2;
        let asked_of = |damaged: bool| match damaged {
            true => (refused(27, 0), vec![]),
            false => (found(0, 1), b"a".to_vec()),
        };
        assert_eq!(shop.ask(0, 0, 0), asked_of(of_two_blocks), "byte {at}");
        assert_eq!(shop.ask(1, 0, 0), asked_of(block == 2), "byte {at}");
        assert_eq!(shop.ask(2, 0, 0), asked_of(block == 2), "byte {at}");
        let opened = match block {
            3 => found(0, 0),
            _ => refused(27, 0),
        };
        assert_eq!(shop.open(3, &NAMED), opened, "byte {at}");
        assert_eq!(shop.open(3, &[0x0D, 0x00]).code, opened.code, "byte {at}");
        for customer in 0..3 {
            assert_eq!(shop.close(customer, 0), CLOSED, "byte {at}");
        }
    }
}

#[test]
fn damage_in_blocks_that_are_free_again_is_not_met() {
    let mut shop = three_used_blocks();
    shop.store[BLOCK] ^= 1;
    assert_eq!(shop.open(3, &[]), refused(27, 0));
    assert_eq!(shop.close(0, 0), CLOSED);
    assert_eq!(shop.open(3, &[]), found(0, 0));
    assert_eq!(shop.stored(), [(0, 1), (2, 2)]);
}

/// The bytes of a payload may be damaged so that the sum is right.
#[test]
fn k12_r30_a_payload_that_is_no_longer_accepted_is_27() {
    let mut shop = Shop::new(2);
    shop.open_granted(0, &NAMED);
    shop.open_granted(1, &[]);
    shop.tamper(0, 5, &[0xFF]);
    for function in [0, 1, 2] {
        assert_eq!(shop.ask(0, 0, function), (refused(27, 0), vec![]));
    }
    assert_eq!(shop.ask(1, 0, 0), (NONE, vec![]));
    assert_eq!(
        shop.open(1, &[]),
        found(0, 1),
        "an open looks at checks alone"
    );
    assert_eq!(shop.close(0, 0), CLOSED);
}

#[test]
fn k12_r31_a_question_answers_from_the_bytes_as_they_stand() {
    let mut shop = Shop::new(1);
    shop.open_granted(0, &NAMED);
    shop.tamper(0, 5, b"z");
    assert_eq!(shop.ask(0, 0, 0), (found(0, 1), b"z".to_vec()));
    let not_canonical = [0x01, 0x85, 0x00, 0x01, 0x83, 0x00, 0x01, b'y'];
    assert!(!names_is_canonical(&not_canonical));
    shop.tamper(0, 0, &not_canonical);
    assert_eq!(shop.ask(0, 0, 3), (found(0, 1), b"y".to_vec()));
}

#[test]
fn k12_r31_an_open_compares_with_the_bytes_as_they_stand() {
    let mut shop = Shop::new(2);
    shop.open_granted(0, &NAMED);
    shop.tamper(0, 5, b"z");
    shop.open_granted(1, &NAMED);
    assert_eq!(shop.stored(), [(0, 1), (1, 1)]);
    let mut other = NAMED;
    other[5] = b'z';
    shop.open_granted(2, &other);
    assert_eq!(shop.stored(), [(0, 2), (1, 1)]);
}

#[test]
fn k12_r31_of_two_equal_payloads_the_first_is_joined() {
    let mut other = NAMED;
    other[5] = b'z';
    for tampered in [0, 1] {
        let mut shop = Shop::new(2);
        // The one that stands first is opened last.
        shop.open_granted(0, &[]);
        shop.open_granted(0, &NAMED);
        assert_eq!(shop.close(0, 0), CLOSED);
        shop.open_granted(1, &other);
        let text = [b"a", b"z"][tampered];
        shop.tamper(tampered, 5, text);
        let same = shop.block(0)[..NAMED.len()].to_vec();
        assert_eq!(same, shop.block(1)[..NAMED.len()]);
        shop.open_granted(2, &same);
        assert_eq!(shop.stored(), [(0, 2), (1, 1)]);
    }
}

/// The block of the first is then that of the second, byte for byte.
#[test]
fn k12_r31_what_is_stored_is_compared_over_its_own_length() {
    let mut shop = Shop::new(2);
    shop.open_granted(0, &[0x0C, 0x00]);
    shop.tamper(0, 2, &[0x0D, 0x00]);
    shop.open_granted(1, &[0x0C, 0x00, 0x0D, 0x00]);
    assert_eq!(shop.stored(), [(0, 1), (1, 1)]);
    assert_eq!(shop.block(0), shop.block(1));
}

#[test]
fn k12_r31_bytes_behind_the_end_are_not_looked_at_again() {
    let mut shop = Shop::new(2);
    shop.open_granted(0, &NAMED);
    shop.tamper(0, NAMED.len(), &[0xFF; 40]);
    assert_eq!(shop.ask(0, 0, 0), (found(0, 1), b"a".to_vec()));
    shop.open_granted(1, &NAMED);
    assert_eq!(shop.stored(), [(0, 2)]);
}

/// A store that was never written to may hold zeros, and these are right.
#[test]
fn k12_r31_a_block_of_zeros_has_a_right_check() {
    let mut shop = Shop::new(2);
    shop.open_granted(0, &[0x0C, 0x00]);
    shop.store[..BLOCK].fill(0);
    assert_eq!(shop.open(1, &[]), found(0, 0));
    assert_eq!(shop.ask(0, 0, 0), (refused(27, 0), vec![]));
}

/// Changes nothing of the table either: the wrappers above compare it before and after a refusal.
#[test]
fn k12_r31a_a_question_changes_nothing() {
    let shop = three_used_blocks();
    let before = shop.clone();
    assert_eq!(shop.ask(0, 0, 0), (found(0, 1), b"a".to_vec()));
    assert_eq!(shop.ask(0, 0, 9), (NONE, vec![]));
    assert_eq!(shop, before);
}

// Gaps.

/// A shop of so many blocks. Its first payloads take the blocks that are said, and hold their number as
/// a byte; payload n is open as hold n % 8 of customer n / 8.
fn shop_of(blocks: usize, payloads: &[usize]) -> Shop {
    let mut shop = Shop::new(blocks);
    for (number, blocks) in payloads.iter().enumerate() {
        let payload = kept_payload(blocks * PAYLOAD, number as u8);
        shop.open_granted(number as u32 / HOLDS, &payload);
    }
    shop
}

fn close_payloads(shop: &mut Shop, payloads: &[usize]) {
    for number in payloads.iter().map(|number| *number as u32) {
        assert_eq!(shop.close(number / HOLDS, number % HOLDS), CLOSED);
    }
}

/// The blocks that a step leaves, by the numbers that they had before it.
#[track_caller]
fn compacts_to(shop: &mut Shop, old_numbers: &[usize]) {
    let before = shop.clone();
    assert_eq!(shop.compact(), COMPACTED);
    for (number, old) in old_numbers.iter().enumerate() {
        assert_eq!(shop.block(number), before.block(*old), "block {number}");
    }
    assert_eq!(shop.store.len(), old_numbers.len() * BLOCK);
    assert_no_gap(shop, &before);
    let once = shop.clone();
    assert_eq!(shop.compact(), COMPACTED);
    assert_eq!(*shop, once, "a second step finds nothing to move");
}

/// What is stored stands side by side, each payload as before and open by the same holds.
fn assert_no_gap(shop: &Shop, before: &Shop) {
    let (stored, stored_before) = (
        shop.table.stored(&shop.store),
        before.table.stored(&before.store),
    );
    let mut first_block = 0;
    for (stored, before) in stored.iter().zip(&stored_before) {
        assert_eq!(stored.first_block, first_block);
        assert_eq!(stored.payload, before.payload);
        assert_eq!(stored.users, before.users);
        first_block += stored.payload.len().div_ceil(PAYLOAD).max(1);
    }
    assert_eq!(stored.len(), stored_before.len());
    for (open, before) in shop.table.open_holds().zip(before.table.open_holds()) {
        assert_eq!((open.customer, open.hold), (before.customer, before.hold));
        assert_eq!(open.length, before.length);
    }
    assert_eq!(
        shop.table.open_holds().count(),
        before.table.open_holds().count()
    );
}

#[test]
fn a_store_in_which_nothing_is_stored_stays_as_it_is() {
    let mut never_used = Shop::new(2);
    compacts_to(&mut never_used, &[0, 1]);
    let mut free_again = shop_of(3, &[1, 2]);
    close_payloads(&mut free_again, &[0, 1]);
    compacts_to(&mut free_again, &[0, 1, 2]);
}

#[test]
fn so_does_one_without_a_gap() {
    compacts_to(&mut shop_of(4, &[1, 2]), &[0, 1, 2, 3]);
    compacts_to(&mut shop_of(3, &[1, 2]), &[0, 1, 2]);
    compacts_to(&mut shop_of(1, &[1]), &[0]);
}

/// Payloads go to the front in the order in which they stand, and blocks behind them are as they were.
#[test]
fn k13_r34_gaps_are_closed_and_blocks_behind_keep_their_bytes() {
    let rows: [(&[usize], &[usize], &[usize]); 6] = [
        // At the front, of one block and of many.
        (&[1, 1, 1], &[0], &[1, 2, 2, 3, 4, 5]),
        (&[3, 2, 1], &[0], &[3, 4, 5, 3, 4, 5]),
        // In the middle, of one block and of many.
        (&[2, 1, 2], &[1], &[0, 1, 3, 4, 4, 5]),
        (&[1, 1, 2, 2], &[1, 2], &[0, 4, 5, 3, 4, 5]),
        // Two of them, and with the last block in use.
        (&[1, 2, 1, 1, 1], &[0, 2], &[1, 2, 4, 5, 4, 5]),
        // A payload that is longer than the gap before it.
        (&[1, 5], &[0], &[1, 2, 3, 4, 5, 5]),
    ];
    for (payloads, closed, left) in rows {
        let mut shop = shop_of(6, payloads);
        close_payloads(&mut shop, closed);
        compacts_to(&mut shop, left);
    }
}

#[test]
fn k13_r34_blocks_1_and_3_of_4() {
    let mut shop = shop_of(4, &[1, 1, 1, 1]);
    close_payloads(&mut shop, &[0, 2]);
    compacts_to(&mut shop, &[1, 3, 2, 3]);
    assert_eq!(shop.stored(), [(0, 1), (1, 1)]);
}

/// Every second block of the greatest store, before and behind the others.
#[test]
fn every_second_block_of_128() {
    for free in [0, 1] {
        let mut shop = shop_of(MOST_BLOCKS, &[1; MOST_BLOCKS]);
        let closed: Vec<usize> = (free..MOST_BLOCKS).step_by(2).collect();
        close_payloads(&mut shop, &closed);
        let used = (1 - free..MOST_BLOCKS).step_by(2);
        let left: Vec<usize> = used.chain(MOST_BLOCKS / 2..MOST_BLOCKS).collect();
        compacts_to(&mut shop, &left);
    }
}

/// An empty payload takes a block, too.
#[test]
fn an_empty_payload_moves_with_the_others() {
    let mut shop = shop_of(3, &[1]);
    shop.open_granted(1, &[]);
    shop.open_granted(2, &NAMED);
    close_payloads(&mut shop, &[0]);
    compacts_to(&mut shop, &[1, 2, 2]);
    assert_eq!(shop.ask(1, 0, 0), (NONE, vec![]));
    assert_eq!(shop.ask(2, 0, 0), (found(0, 1), b"a".to_vec()));
}

#[test]
fn every_customer_is_answered_as_before() {
    let mut shop = shop_of(6, &[2]);
    for customer in [3, 9, 15] {
        shop.open_granted(customer, &NAMED);
        shop.open_granted(customer, &[customer as u8 + 100, 0x00]);
    }
    assert_eq!(shop.close(3, 1), CLOSED);
    close_payloads(&mut shop, &[0]);
    let before = shop.clone();
    assert_eq!(shop.compact(), COMPACTED);
    assert_eq!(shop.stored(), [(0, 3), (1, 1), (2, 1)]);
    for customer in 0..=CUSTOMERS {
        for hold in 0..=HOLDS {
            for function in 0..4 {
                let asked = shop.ask(customer, hold, function);
                assert_eq!(asked, before.ask(customer, hold, function));
            }
            let closed = before.clone().close(customer, hold);
            assert_eq!(shop.clone().close(customer, hold), closed);
        }
        for payload in [&NAMED[..], &NAMED_OTHERWISE, &[109, 0x00], &[], &[0xFF]] {
            let opened = before.clone().open(customer, payload);
            assert_eq!(shop.clone().open(customer, payload), opened);
        }
    }
}

/// Two blocks are free, and there is no run of two before the step.
#[test]
fn an_open_that_was_refused_26_is_granted_after_the_step() {
    let mut shop = shop_of(5, &[1, 1, 1, 1, 1]);
    close_payloads(&mut shop, &[1, 3]);
    let two_blocks = kept_payload(2 * PAYLOAD, 0x77);
    let three_blocks = kept_payload(3 * PAYLOAD, 0x77);
    assert_eq!(shop.open(1, &two_blocks), refused(26, 0));
    assert_eq!(shop.compact(), COMPACTED);
    assert_eq!(shop.open(1, &three_blocks), refused(26, 0));
    assert_eq!(shop.open(1, &two_blocks), found(0, 0));
    assert_eq!(shop.stored(), [(0, 1), (1, 1), (2, 1), (3, 1)]);
    assert_eq!(shop.open(1, &[]), refused(26, 0));
    assert_eq!(shop.open(2, &two_blocks), found(0, 0));
}

/// Every byte of a store is changed: what is used is met though it would not have to move, and nothing
/// moves; what is free is not met.
#[test]
fn k13_r34_a_damaged_block_is_27_before_anything_moves() {
    let mut whole = shop_of(6, &[1, 2, 1, 1]);
    close_payloads(&mut whole, &[2]);
    for at in 0..whole.store.len() {
        let mut shop = whole.clone();
        shop.store[at] ^= 1 << (at % 8);
        let is_free = [3, 5].contains(&(at / BLOCK));
        match is_free {
            true => compacts_to(&mut shop, &[0, 1, 2, 4, 4, 5]),
            false => assert_eq!(shop.compact(), refused(27, 0), "byte {at}"),
        }
    }
    let mut without_gap = shop_of(2, &[1, 1]);
    without_gap.store[BLOCK] ^= 1;
    assert_eq!(without_gap.compact(), refused(27, 0));
}

/// Checks alone are looked at: what is no longer accepted moves as it stands.
#[test]
fn a_payload_that_is_no_longer_accepted_moves() {
    let mut shop = shop_of(2, &[1]);
    shop.open_granted(1, &NAMED);
    close_payloads(&mut shop, &[0]);
    shop.tamper(1, 5, &[0xFF]);
    compacts_to(&mut shop, &[1, 1]);
    assert_eq!(shop.ask(1, 0, 0), (refused(27, 0), vec![]));
}

#[test]
fn k13_30_comes_before_27() {
    let mut shop = shop_of(2, &[1]);
    shop.store[0] ^= 1;
    let mut too_long = [&shop.store[..], &[0; BLOCK]].concat();
    every_call_is_30(&mut shop.table, &mut too_long);
    every_call_is_30(&mut shop.table, &mut too_long[..BLOCK]);
    assert_eq!(shop.compact(), refused(27, 0));
}
