//! Tables that nobody started: calls on them end, answer in the order of the refusals, and keep to what they may change;
//! and where gaps are closed, what is left is said of any table. And tables that were started over no store.

use std::ops::Range;

use comparison::library::{self, TableState, Told, FOUND, NONE, PLACES, REFUSED};
use comparison::random::{seed, Random};
use comparison::sharing::history::{customers, Maker, Payloads, Trouble};
use comparison::sharing::makes::LibraryTable;
use comparison::sharing::refusals::{
    ALL_HOLDS_OPEN, DAMAGED, NOT_OPEN, NO_CUSTOMER, NO_ROOM, OTHER_STORE,
};
use comparison::sharing::{
    is_store, Both, Call, Shop, Step, Table, BLOCK, CUSTOMERS, HOLDS, MOST_BLOCKS, PAYLOAD,
};

/// Function 0 is called `a`.
const NAMED: &[u8] = &[0x01, 0x04, 0x01, 0x00, 0x01, 0x61];

/// A payload of 514 bytes, most of which are kept.
fn two_blocks() -> Vec<u8> {
    [&[0x0C, 0xFF, 0x03][..], &[0x5A; 511]].concat()
}

fn refused(code: u32) -> Told {
    Told {
        kind: REFUSED,
        code,
        offset: 0,
        length: 0,
    }
}

fn found(length: u64) -> Told {
    Told {
        kind: FOUND,
        code: 0,
        offset: 0,
        length,
    }
}

/// A table over so many blocks, all of zeros, that knows what is put in.
fn shop(blocks: usize, put_in: impl FnOnce(&mut TableState)) -> Shop<LibraryTable> {
    let mut shop: Shop<LibraryTable> = Shop::new(&vec![0; blocks * BLOCK]);
    let mut state = shop.table.state();
    put_in(&mut state);
    shop.table = LibraryTable::made_up(state);
    shop
}

fn put(shop: &mut Shop<LibraryTable>, call: Call<'_>) -> Told {
    let store_length = shop.store().len();
    let step = Step {
        customer: 0,
        call,
        store_length,
    };
    shop.put(&step).told
}

fn open(payload: &[u8]) -> Call<'_> {
    Call::Open {
        payload,
        room: payload.len(),
    }
}

const ASK: Call<'_> = Call::FunctionName {
    hold: 0,
    function: 0,
    room: 8,
};

const CLOSE: Call<'_> = Call::Close { hold: 0 };

#[test]
fn a_payload_that_runs_past_the_store_is_damaged() {
    for (block, size) in [(3, 509), (0, 4 * 508 + 1), (1, u32::MAX)] {
        let mut shop = shop(4, |state| {
            state.holds[0] = block as u8 + 1;
            state.users[block] = 1;
            state.sizes[block] = size;
        });
        assert_eq!(put(&mut shop, open(NAMED)), refused(DAMAGED));
        assert_eq!(put(&mut shop, ASK), refused(DAMAGED));
        assert_eq!(put(&mut shop, CLOSE), found(0));
        let state = shop.table.state();
        assert_eq!((state.users[block], state.sizes[block]), (0, 0));
    }
}

#[test]
fn users_stop_at_255() {
    for (users, after) in [(254, 255), (255, 255)] {
        let mut shop = shop(2, |state| state.users[1] = users);
        assert_eq!(put(&mut shop, open(&[])), found(0));
        let state = shop.table.state();
        assert_eq!((state.holds[0], state.users[1]), (2, after));
    }
}

/// Blocks 0 to 2 belong to the one, and block 1 to the other as well.
#[test]
fn of_two_payloads_that_overlap_the_longer_counts() {
    let mut shop = shop(5, |state| {
        (state.users[0], state.sizes[0]) = (1, 2 * 508 + 1);
        (state.users[1], state.sizes[1]) = (1, 7);
    });
    assert_eq!(put(&mut shop, open(NAMED)), found(0));
    assert_eq!(shop.table.state().holds[0], 4);
    assert_eq!(put(&mut shop, open(&two_blocks())), refused(NO_ROOM));
}

/// To a block that the store does not have, or that no table has.
#[test]
fn a_hold_that_leads_nowhere_is_damaged_and_is_closed() {
    for hold in [3, PLACES as u8, PLACES as u8 + 1, u8::MAX] {
        let mut shop = shop(2, |state| state.holds[0] = hold);
        let mut without = shop.table.state();
        without.holds[0] = 0;
        assert_eq!(put(&mut shop, ASK), refused(DAMAGED));
        assert_eq!(put(&mut shop, CLOSE), found(0));
        assert_eq!(shop.table.state(), without);
    }
}

/// Its block has no users, and is the payload of no bytes.
#[test]
fn a_hold_that_leads_to_a_free_block_asks_an_empty_payload() {
    let mut shop = shop(2, |state| state.holds[0] = 2);
    assert_eq!(put(&mut shop, ASK).kind, NONE);
    assert_eq!(put(&mut shop, CLOSE), found(0));
    let started = library::table_start(2 * BLOCK as u64);
    assert_eq!(shop.table.state(), started);
}

/// A number of any kind: 0 and other small ones, the greatest, and any.
fn any_number(r: &mut Random) -> u64 {
    match r.below(4) {
        0 => 0,
        1 => r.below(600) as u64,
        2 => u64::MAX,
        _ => r.number(),
    }
}

/// A table of any bytes, most often over a store of that length, and some of it as it is at the start.
fn any_state(r: &mut Random, store_length: usize) -> TableState {
    let mut state = library::table_start(store_length as u64);
    let holds = r.below(3);
    for hold in 0..PLACES {
        state.holds[hold] = match holds {
            0 => 0,
            1 => r.below(2 * store_length / BLOCK + 1) as u8,
            _ => any_number(r) as u8,
        };
    }
    let rows = [1, 4, 40][r.below(3)];
    for row in 0..PLACES {
        if r.once_in(rows) {
            state.users[row] = any_number(r) as u8;
            state.sizes[row] = any_number(r) as u32;
        }
    }
    if r.once_in(20) {
        state.bytes = any_number(r);
    }
    state
}

/// What a call is refused for before anything of the store is looked at, by what the table knows.
fn refused_first(state: &TableState, step: &Step<'_>) -> Option<u32> {
    let length = step.store_length;
    if !is_store(length) || length as u64 != state.bytes {
        return Some(OTHER_STORE);
    }
    let own = step.customer as usize * HOLDS as usize;
    let holds = state.holds.get(own..own + HOLDS as usize);
    let holds = holds.unwrap_or_default();
    match step.call {
        Call::Compact => None,
        _ if step.customer >= CUSTOMERS => Some(NO_CUSTOMER),
        Call::FunctionName { hold, .. } | Call::Close { hold } => {
            let is_open = holds.get(hold as usize).is_some_and(|lead| *lead > 0);
            (!is_open).then_some(NOT_OPEN)
        }
        Call::Open { payload, room } => {
            let told = Told::from(second_reader::names_canonical(payload, &mut vec![0; room]));
            match told.kind {
                REFUSED => Some(told.code),
                _ => holds.iter().all(|lead| *lead > 0).then_some(ALL_HOLDS_OPEN),
            }
        }
    }
}

/// What is seen of a call is a refusal that comes first where there is one, and else one of the others, or an answer.
fn assert_in_order(state: &TableState, step: &Step<'_>, told: Told) {
    let code = (told.kind == REFUSED).then_some(told.code);
    let first = refused_first(state, step);
    if first.is_some() {
        assert_eq!(code, first, "{step:?} on {state:?}");
        return;
    }
    let others: &[u32] = match step.call {
        Call::Open { .. } => &[DAMAGED, NO_ROOM],
        Call::FunctionName { .. } => &[DAMAGED, 13],
        Call::Close { .. } => &[],
        Call::Compact => &[DAMAGED],
    };
    let is_allowed = match code {
        Some(code) => others.contains(&code),
        None => true,
    };
    assert!(is_allowed, "{step:?} on {state:?}: {told:?}");
}

#[test]
fn tables_that_nobody_started() {
    const TABLES: usize = 1_500;
    const CALLS: usize = 12;
    const STORES: [usize; 5] = [1, 2, 5, 20, MOST_BLOCKS];
    let mut r = Random::new(seed());
    let mut met = [0; 5];
    for _ in 0..TABLES {
        let payloads = Payloads::new(&mut r, 3);
        let customers = customers(&mut r, CUSTOMERS);
        let length = r.one_of(&STORES) * BLOCK;
        let maker = Maker::new(&mut r, &payloads, customers, length, Trouble::OneByte);
        let mut shop: Shop<LibraryTable> = Shop::new(&maker.history(&mut r, 0).store);
        shop.table = LibraryTable::made_up(any_state(&mut r, length));
        for _ in 0..CALLS {
            let state = shop.table.state();
            let step = maker.step(&mut r);
            let store = shop.store().to_vec();
            let told = shop.put(&step).told;
            assert_in_order(&state, &step, told);
            if matches!(step.call, Call::Compact) && told.code != OTHER_STORE {
                assert_gaps_closed(&mut shop, &state, &store, told);
            }
            met[told.kind as usize] += 1;
        }
    }
    println!("put {} calls: {met:?}", TABLES * CALLS);
    assert!(met[..3].iter().all(|times| *times >= 100), "{met:?}");
}

/// Every call on it is refused, whatever else is wrong.
#[test]
fn tables_over_no_store() {
    let calls = [open(NAMED), open(&NAMED[..5]), ASK, CLOSE, Call::Compact];
    for length in [
        0,
        1,
        511,
        513,
        1_023,
        MOST_BLOCKS * BLOCK + 1,
        (MOST_BLOCKS + 1) * BLOCK,
    ] {
        let mut both: Both<LibraryTable, second_reader::Table> = Both::new(&vec![0; length]);
        for call in calls {
            for (customer, store_length) in [(0, length), (CUSTOMERS, length), (0, BLOCK)] {
                let step = Step {
                    customer,
                    call,
                    store_length,
                };
                let seen = both.put(&step).expect("no difference");
                assert_eq!(
                    seen.told,
                    refused(OTHER_STORE),
                    "{step:?} on {length} bytes"
                );
            }
        }
    }
}

/// 4,294,967,296 bytes more than are lent.
#[test]
fn lengths_are_compared_in_64_bits() {
    let mut shop = shop(1, |state| {
        *state = library::table_start((1 << 32) + BLOCK as u64);
    });
    for call in [open(NAMED), ASK, CLOSE, Call::Compact] {
        assert_eq!(put(&mut shop, call), refused(OTHER_STORE));
    }
}

/// How many blocks a payload of a size takes.
fn needed(size: u32) -> usize {
    (size as usize).div_ceil(PAYLOAD).max(1)
}

fn is_right(block: &[u8]) -> bool {
    let words = block.chunks(4);
    let mut words = words.map(|word| u32::from_le_bytes([word[0], word[1], word[2], word[3]]));
    let check = words.next_back();
    Some(words.fold(0, u32::wrapping_add)) == check
}

/// The blocks of each payload that begins in a store, whether they are all there or not.
fn payloads(state: &TableState, blocks: usize) -> Vec<Range<usize>> {
    let first_blocks = (0..blocks).filter(|block| state.users[*block] > 0);
    first_blocks
        .map(|first| first..first + needed(state.sizes[first]))
        .collect()
}

/// What is to be left where gaps are closed, whatever the table knows; nothing where something is damaged. A hold leads
/// to one more than the number of taken blocks before that to which it led.
fn without_gaps(state: &TableState, store: &[u8]) -> Option<(TableState, Vec<u8>)> {
    let old: Vec<&[u8]> = store.chunks(BLOCK).collect();
    let payloads = payloads(state, old.len());
    let is_whole = |payload: &Range<usize>| {
        let blocks = old.get(payload.clone());
        blocks.is_some_and(|blocks| blocks.iter().all(|block| is_right(block)))
    };
    if !payloads.iter().all(is_whole) {
        return None;
    }
    let is_taken = |block: &usize| payloads.iter().any(|payload| payload.contains(block));
    let taken: Vec<usize> = (0..old.len()).filter(is_taken).collect();
    let mut left = state.clone();
    for hold in left.holds.iter_mut().filter(|hold| **hold > 0) {
        let led_to = usize::from(*hold) - 1;
        *hold = 1 + taken.iter().filter(|block| **block < led_to).count() as u8;
    }
    for block in 0..old.len() {
        let from = taken.get(block);
        left.users[block] = from.map_or(0, |from| state.users[*from]);
        left.sizes[block] = from.map_or(0, |from| state.sizes[*from]);
    }
    let behind = old[taken.len()..].iter().copied();
    let blocks = taken.iter().map(|block| old[*block]).chain(behind);
    Some((left, blocks.flatten().copied().collect()))
}

/// Holds the answer where gaps were closed, and what is left, to what is to be.
fn assert_gaps_closed(shop: &mut Shop<LibraryTable>, state: &TableState, store: &[u8], told: Told) {
    let (expected, (left, left_store)) = match without_gaps(state, store) {
        Some(left) => (found(0), left),
        None => (refused(DAMAGED), (state.clone(), store.to_vec())),
    };
    assert_eq!(told, expected, "{state:?}");
    assert_eq!(shop.table.state(), left, "{state:?}");
    assert_eq!(shop.store(), left_store, "{state:?}");
}

fn close_gaps(shop: &mut Shop<LibraryTable>) -> Told {
    let (state, store) = (shop.table.state(), shop.store().to_vec());
    let told = put(shop, Call::Compact);
    assert_gaps_closed(shop, &state, &store, told);
    told
}

/// Blocks 1 to 3 belong to the one, and block 2 to the other as well. Marks behind the store stay where they are.
#[test]
fn payloads_that_overlap_move_together() {
    let mut shop = shop(6, |state| {
        (state.users[1], state.sizes[1]) = (1, 2 * 508 + 1);
        (state.users[2], state.sizes[2]) = (2, 7);
        (state.users[5], state.sizes[5]) = (255, 0);
        (state.users[6], state.sizes[6]) = (9, 10);
        state.holds[..9].copy_from_slice(&[0, 1, 2, 3, 4, 6, 7, 128, 255]);
    });
    assert_eq!(close_gaps(&mut shop), found(0));
    let state = shop.table.state();
    assert_eq!(state.holds[..9], [0, 1, 1, 2, 3, 4, 5, 5, 5]);
    assert_eq!(state.users[..8], [1, 2, 0, 255, 0, 0, 9, 0]);
    assert_eq!(state.sizes[..8], [1_017, 7, 0, 0, 0, 0, 10, 0]);
}

#[test]
fn a_payload_that_runs_past_the_store_is_not_moved() {
    for (block, size) in [(3, 509), (1, 4 * 508 + 1), (1, u32::MAX)] {
        let mut shop = shop(4, |state| {
            state.users[block] = 1;
            state.sizes[block] = size;
        });
        assert_eq!(close_gaps(&mut shop), refused(DAMAGED));
    }
}

/// Blocks of any bytes with right checks, but for one in many.
fn any_blocks(r: &mut Random, blocks: usize) -> Vec<u8> {
    const ONE_WRONG_IN: usize = 60;
    let mut store = vec![];
    for _ in 0..blocks {
        let words: Vec<u32> = (0..PAYLOAD / 4).map(|_| r.number() as u32).collect();
        let wrong = u32::from(r.once_in(ONE_WRONG_IN));
        let check = words.iter().copied().fold(wrong, u32::wrapping_add);
        store.extend(words.into_iter().chain([check]).flat_map(u32::to_le_bytes));
    }
    store
}

/// A table whose payloads may overlap, and are so short that most are whole; some begin behind the store. Its holds lead
/// anywhere.
fn any_short_payloads(r: &mut Random, store_length: usize) -> TableState {
    const ONE_PAST_THE_END_IN: usize = 40;
    let mut state = library::table_start(store_length as u64);
    state.holds = state.holds.map(|_| r.number() as u8);
    let one_in = r.one_of(&[1, 2, 3, 10]);
    let longest = r.one_of(&[1, 2 * PAYLOAD, 3 * PAYLOAD]);
    let blocks = store_length / BLOCK;
    for row in 0..PLACES {
        if r.once_in(one_in) {
            let room = match r.once_in(ONE_PAST_THE_END_IN) {
                true => longest,
                false => blocks.saturating_sub(row) * PAYLOAD,
            };
            state.users[row] = any_number(r) as u8;
            state.sizes[row] = r.below(longest + 1).min(room) as u32;
        }
    }
    state
}

#[test]
fn gaps_of_tables_that_nobody_started() {
    const TABLES: usize = 4_000;
    const LEAST_OF_EACH: usize = 400;
    const STORES: [usize; 6] = [1, 2, 5, 20, 60, MOST_BLOCKS];
    let mut r = Random::new(seed());
    let mut closed = 0;
    for _ in 0..TABLES {
        let blocks = r.one_of(&STORES);
        let store = any_blocks(&mut r, blocks);
        let mut shop: Shop<LibraryTable> = Shop::new(&store);
        shop.table = LibraryTable::made_up(any_short_payloads(&mut r, store.len()));
        closed += usize::from(close_gaps(&mut shop).kind == FOUND);
    }
    println!("closed the gaps of {closed} of {TABLES} tables");
    let met = LEAST_OF_EACH..TABLES - LEAST_OF_EACH;
    assert!(met.contains(&closed), "{closed} of {TABLES}");
}
