//! Shared tables: random calls of sixteen customers, between which gaps are closed, put to both makes and held to a model
//! that knows no blocks; one customer's answers held to those among other customers, and to those where no gap is closed.

use std::collections::BTreeMap;

use comparison::library::{TableState, Told, FOUND, NONE, REFUSED};
use comparison::random::{seed, Random};
use comparison::sharing::history::{customers, Event, History, Maker, Payloads, Trouble};
use comparison::sharing::makes::LibraryTable;
use comparison::sharing::model::{follow, Model};
use comparison::sharing::refusals::{ALL_HOLDS_OPEN, DAMAGED, NOT_OPEN, NO_CUSTOMER, NO_ROOM};
use comparison::sharing::{
    compare, Asked, Call, Difference, Met, Seen, Shop, Step, Table, BLOCK, CUSTOMERS, HOLDS,
    PAYLOAD,
};

/// How many histories are put, by how many customers each, and how long they are.
#[derive(Clone, Copy)]
struct Put {
    histories: usize,
    events: usize,
    customers: &'static [u32],
}

/// One customer alone, some, and all of them.
const BY_ANY: Put = Put {
    histories: 250,
    events: 500,
    customers: &[1, 2, 5, CUSTOMERS, CUSTOMERS],
};

/// All customers, and more calls by each.
const BY_SIXTEEN: Put = Put {
    histories: 70,
    events: 2_000,
    customers: &[CUSTOMERS],
};

/// How many calls are put at least: some of the events are damage.
const LEAST_CALLS: u64 = 100_000;

/// How often each answer that a call may give is met at least.
const LEAST_OF_EACH: u64 = 40;

/// Few blocks, so that they are soon used up, and as many as there may be.
const BLOCKS: [usize; 10] = [1, 2, 3, 4, 5, 8, 12, 20, 40, 128];

/// How many payloads the customers of a history choose from.
const PAYLOADS: [usize; 4] = [1, 3, 8, 20];

/// Puts random histories, one after the other, until one of them shows a difference.
fn with_histories(
    r: &mut Random,
    put: Put,
    trouble: Trouble,
    mut look: impl FnMut(&History<'_>) -> Result<(), Difference>,
) -> Result<(), Difference> {
    for _ in 0..put.histories {
        let count = r.one_of(&PAYLOADS);
        let payloads = Payloads::new(r, count);
        let count = r.one_of(put.customers);
        let customers = customers(r, count);
        let length = r.one_of(&BLOCKS) * BLOCK;
        let maker = Maker::new(r, &payloads, customers, length, trouble);
        look(&maker.history(r, put.events))?;
    }
    Ok(())
}

/// What is stored and how often it is open is what the model says, each payload once, unless a byte of it is damaged.
fn same_users<T: Table>(shop: &mut Shop<T>, model: &Model) {
    if shop.is_damaged() {
        return;
    }
    let stored = shop.table.state().stored(shop.store());
    let found: BTreeMap<&[u8], usize> = stored
        .iter()
        .map(|(payload, users)| (&payload[..], *users))
        .collect();
    assert_eq!(found.len(), stored.len(), "a payload is stored twice");
    let expected = model.users().iter();
    let expected = expected.map(|(payload, users)| (&payload[..], *users));
    assert_eq!(found, expected.collect());
}

fn assert_met(met: &Met) {
    let calls: u64 = met.values().sum();
    println!("put {calls} calls: {met:?}");
    assert!(calls >= LEAST_CALLS, "only {calls} calls were put");
    let mut answers = vec![
        ("open", "kind", FOUND),
        ("function_name", "kind", FOUND),
        ("function_name", "kind", NONE),
        ("close", "kind", FOUND),
        ("compact", "kind", FOUND),
    ];
    let refusals = [
        ("open", &[2, 13, 23, 25, 26, 27, 30][..]),
        ("function_name", &[13, 23, 24, 27, 30]),
        ("close", &[23, 24, 30]),
        ("compact", &[27, 30]),
    ];
    for (call, codes) in refusals {
        answers.extend(codes.iter().map(|code| (call, "refused", *code)));
    }
    for answer in answers {
        let times = met.get(&answer).copied().unwrap_or_default();
        assert!(times >= LEAST_OF_EACH, "{answer:?} was met {times} times");
    }
}

/// Every answer that a call may give, from both makes, with the whole table, store and buffers after each call.
#[test]
fn random_calls_leave_the_same_in_both() {
    let mut met = Met::new();
    let mut r = Random::new(seed());
    let compared = with_histories(&mut r, BY_SIXTEEN, Trouble::Tampering, |history| {
        compare::<LibraryTable, second_reader::Table>(history, &mut met)
    });
    assert_eq!(compared, Ok(()));
    assert_met(&met);
}

fn follow_the_model<T: Table>() {
    let mut met = Met::new();
    let mut r = Random::new(seed());
    let followed = with_histories(&mut r, BY_ANY, Trouble::OneByte, |history| {
        follow::<T>(history, &mut met, same_users)
    });
    assert_eq!(followed, Ok(()));
    assert_met(&met);
}

#[test]
fn random_calls_are_answered_as_the_model_says() {
    follow_the_model::<LibraryTable>();
}

#[test]
fn the_second_reader_answers_as_the_model_says() {
    follow_the_model::<second_reader::Table>();
}

/// How many pairs of histories are compared, and how many calls one customer has in each.
const PAIRS: usize = 100;
const OWN_CALLS: usize = 150;

/// Fewer calls than this are put by others before each call of the customer.
const OTHERS_BOUND: usize = 8;

/// The calls of one customer, among those of others, between which the gaps are closed now and then.
fn among_others<'p>(
    r: &mut Random,
    payloads: &'p Payloads,
    own: &[Step<'p>],
    blocks: usize,
) -> History<'p> {
    let others = customers(r, CUSTOMERS);
    let of_others = |customer: &u32| *customer != own[0].customer;
    let others = others.into_iter().filter(of_others).collect();
    let store_length = blocks * BLOCK;
    let others = Maker::new(r, payloads, others, store_length, Trouble::None);
    let mut history = others.history(r, OTHERS_BOUND);
    for step in own {
        for _ in 0..r.below(OTHERS_BOUND) {
            history.events.push(Event::Step(others.step(r)));
        }
        let step = Step {
            store_length,
            ..*step
        };
        history.events.push(Event::Step(step));
    }
    history
}

/// What a customer sees of a history.
fn seen_by<T: Table>(customer: u32, history: &History<'_>) -> Vec<Seen> {
    let mut shop: Shop<T> = Shop::new(&history.store);
    let mut all = vec![];
    for event in &history.events {
        let Event::Step(step) = event else {
            continue;
        };
        let seen = shop.put(step);
        if step.is_by(customer) {
            all.push(seen);
        }
    }
    all
}

fn is_refused_for_room(seen: &Seen) -> bool {
    seen.told.code == NO_ROOM
}

/// Compares what one customer sees among others with what they see alone, and among others again. Says how many pairs
/// there were in which the customer was never refused for room.
fn isolated<T: Table>(r: &mut Random, pairs: usize) -> Result<usize, Difference> {
    const MANY_BLOCKS: [usize; 4] = [30, 50, 100, 128];
    let mut compared = 0;
    for _ in 0..pairs {
        let payloads = Payloads::new(r, 8);
        let customer = r.below(CUSTOMERS as usize) as u32;
        let own = Maker::new(r, &payloads, vec![customer], BLOCK, Trouble::None);
        let own: Vec<Step<'_>> = (0..OWN_CALLS).map(|_| own.customers_step(r)).collect();
        let seen = [(); 2].map(|()| {
            let blocks = r.one_of(&MANY_BLOCKS);
            seen_by::<T>(customer, &among_others(r, &payloads, &own, blocks))
        });
        assert_eq!(seen[0].len(), OWN_CALLS);
        if !seen.iter().flatten().any(is_refused_for_room) {
            compared += 1;
            if seen[0] != seen[1] {
                return Err(format!("customer {customer} in pair {compared}"));
            }
        }
    }
    Ok(compared)
}

fn sees_nothing_of_the_others<T: Table>() {
    let compared = isolated::<T>(&mut Random::new(seed()), PAIRS);
    let compared = compared.expect("no difference");
    println!("compared {compared} of {PAIRS} pairs of histories");
    assert!(compared >= PAIRS / 2, "only {compared} pairs were compared");
}

#[test]
fn what_a_customer_sees_is_nothing_of_the_others() {
    sees_nothing_of_the_others::<LibraryTable>();
}

#[test]
fn what_the_second_reader_shows_is_nothing_of_the_others() {
    sees_nothing_of_the_others::<second_reader::Table>();
}

/// Puts the customers' calls of a history to a table in which gaps are closed between them, and to one in which none is,
/// up to the first open that either refuses for room. Says how many events that were, or where the two differ.
fn without_closing<T: Table>(history: &History<'_>) -> Result<usize, Difference> {
    let (mut closing, mut never): (Shop<T>, Shop<T>) =
        (Shop::new(&history.store), Shop::new(&history.store));
    for (number, event) in history.events.iter().enumerate() {
        let Event::Step(step) = event else {
            continue;
        };
        let seen = closing.put(step);
        if let Call::Compact = step.call {
            continue;
        }
        let also_seen = never.put(step);
        if is_refused_for_room(&seen) || is_refused_for_room(&also_seen) {
            return Ok(number);
        }
        if seen != also_seen {
            return Err(format!("event {number}, {step:?}: {seen:?}, {also_seen:?}"));
        }
    }
    Ok(history.events.len())
}

/// Compares what all customers see where gaps are closed with what they see where none is.
fn no_answer_is_another<T: Table>(r: &mut Random) -> Result<usize, Difference> {
    let mut compared = 0;
    with_histories(r, FEW, Trouble::None, |history| {
        compared += without_closing::<T>(history)?;
        Ok(())
    })?;
    Ok(compared)
}

#[test]
fn every_customer_is_answered_as_before() {
    const LEAST_COMPARED: usize = 2_000;
    let compared = no_answer_is_another::<LibraryTable>(&mut Random::new(seed()));
    let compared = compared.expect("no difference");
    println!("compared {compared} calls");
    assert!(compared >= LEAST_COMPARED, "only {compared} were compared");
}

/// Closes the gaps behind every open of a history that finds no room, and puts it again: the model knows then whether
/// there is room. Says how many found it.
fn put_again<T: Table>(history: &History<'_>) -> Result<usize, Difference> {
    let mut shop: Shop<T> = Shop::new(&history.store);
    let mut model = Model::new(history.store.len());
    let mut put = |step: &Step<'_>| {
        let seen = shop.put(step);
        let followed = model.follow(step, &seen, false);
        followed.map(|()| is_refused_for_room(&seen))
    };
    let mut granted = 0;
    for event in &history.events {
        let Event::Step(step) = event else {
            continue;
        };
        if put(step)? {
            put(&Step {
                call: Call::Compact,
                ..*step
            })?;
            granted += usize::from(!put(step)?);
        }
    }
    Ok(granted)
}

/// Stores that are nearly full most of the time, of many payloads, so that there are gaps.
fn room_is_joined<T: Table>(r: &mut Random) -> Result<usize, Difference> {
    const HISTORIES: usize = 40;
    const CALLS: usize = 1_000;
    const MANY_PAYLOADS: usize = 60;
    const STORES: [usize; 4] = [12, 20, 30, 40];
    let mut granted = 0;
    for _ in 0..HISTORIES {
        let payloads = Payloads::new(r, MANY_PAYLOADS);
        let customers = customers(r, CUSTOMERS);
        let length = r.one_of(&STORES) * BLOCK;
        let maker = Maker::new(r, &payloads, customers, length, Trouble::None);
        granted += put_again::<T>(&maker.history(r, CALLS))?;
    }
    Ok(granted)
}

#[test]
fn opens_that_found_no_room_find_it_where_enough_blocks_are_free() {
    const LEAST_GRANTED: usize = 20;
    let granted = room_is_joined::<LibraryTable>(&mut Random::new(seed()));
    let granted = granted.expect("no difference");
    println!("{granted} opens found room once the gaps were closed");
    assert!(granted >= LEAST_GRANTED, "only {granted} found room");
}

/// A table that is wrong in one thing, which the tests above must see.
struct Wrong<const FAULT: u8>(second_reader::Table);

/// The work buffer is written although all holds are open.
const WRITES_TOO_EARLY: u8 = 0;
/// A hold above 7 is refused before the customer is.
const REFUSES_IN_ANOTHER_ORDER: u8 = 1;
/// What is damaged is asked as if there were no name.
const SERVES_DAMAGED: u8 = 2;
/// The hold of another customer is closed.
const CLOSES_ANOTHERS: u8 = 3;
/// What it knows of its users is wrong, though nothing that it answers is.
const MISCOUNTS: u8 = 4;
/// Gaps are not closed, though it is said.
const KEEPS_GAPS: u8 = 5;
/// A customer's hold is closed with the gaps.
const LOSES_A_HOLD: u8 = 6;
/// Blocks behind what is stored are cleared.
const CLEARS_BEHIND: u8 = 7;
/// What is damaged is overlooked where gaps are closed.
const OVERLOOKS_DAMAGE: u8 = 8;

const CLOSED: Told = Told {
    kind: FOUND,
    code: 0,
    offset: 0,
    length: 0,
};

impl<const FAULT: u8> Table for Wrong<FAULT> {
    fn start(store_length: u64) -> Self {
        Wrong(Table::start(store_length))
    }

    fn state(&mut self) -> TableState {
        let mut state = self.0.state();
        if FAULT == MISCOUNTS {
            state.users[0] = state.users[0].min(1);
        }
        state
    }

    fn open(&mut self, store: &mut [u8], customer: u32, payload: &[u8], work: &mut [u8]) -> Told {
        let told = self.0.open(store, customer, payload, work);
        if FAULT == WRITES_TOO_EARLY && told.code == ALL_HOLDS_OPEN {
            let _ = second_reader::names_canonical(payload, work);
        }
        told
    }

    fn function_name(&mut self, store: &[u8], asked: Asked, out: &mut [u8]) -> Told {
        let told = self.0.function_name(store, asked, out);
        match (FAULT, told.code) {
            (REFUSES_IN_ANOTHER_ORDER, NO_CUSTOMER) if asked.hold >= HOLDS => Told {
                code: NOT_OPEN,
                ..told
            },
            (SERVES_DAMAGED, DAMAGED) => Told {
                kind: NONE,
                code: 0,
                ..told
            },
            _ => told,
        }
    }

    fn close(&mut self, store: &[u8], customer: u32, hold: u32) -> Told {
        let whose = match (FAULT, customer) {
            (CLOSES_ANOTHERS, 1) => 0,
            _ => customer,
        };
        self.0.close(store, whose, hold)
    }

    fn compact(&mut self, store: &mut [u8]) -> Told {
        let (table, bytes) = (self.0.clone(), store.to_vec());
        let told = self.0.compact(store);
        match (FAULT, told.kind) {
            (KEEPS_GAPS, FOUND) => {
                self.0 = table;
                store.copy_from_slice(&bytes);
            }
            (LOSES_A_HOLD, FOUND) => {
                self.0.close(store, 0, 0);
            }
            (CLEARS_BEHIND, FOUND) => {
                let used = used_bytes(&self.0, store);
                store[used..].fill(0);
            }
            (OVERLOOKS_DAMAGE, REFUSED) if told.code == DAMAGED => return CLOSED,
            _ => {}
        }
        told
    }
}

/// How many bytes of a store without gaps are used.
fn used_bytes(table: &second_reader::Table, store: &[u8]) -> usize {
    let stored = table.stored(store).into_iter();
    let blocks = stored.map(|stored| stored.payload.len().div_ceil(PAYLOAD).max(1));
    blocks.sum::<usize>() * BLOCK
}

const FEW: Put = Put {
    histories: 40,
    ..BY_ANY
};

/// A comparison with a table that is right says so.
fn is_seen_by_comparison<const FAULT: u8>(r: &mut Random) -> bool {
    let compared = with_histories(r, FEW, Trouble::Tampering, |history| {
        compare::<Wrong<FAULT>, second_reader::Table>(history, &mut Met::new())
    });
    compared.is_err()
}

/// The model says so, too.
fn is_seen<const FAULT: u8>(r: &mut Random) -> bool {
    let followed = with_histories(r, FEW, Trouble::OneByte, |history| {
        follow::<Wrong<FAULT>>(history, &mut Met::new(), |_, _| {})
    });
    followed.is_err() && is_seen_by_comparison::<FAULT>(r)
}

#[test]
fn wrong_tables_are_seen() {
    let mut r = Random::new(seed());
    assert!(is_seen::<WRITES_TOO_EARLY>(&mut r));
    assert!(is_seen::<REFUSES_IN_ANOTHER_ORDER>(&mut r));
    assert!(is_seen::<SERVES_DAMAGED>(&mut r));
    assert!(is_seen::<CLOSES_ANOTHERS>(&mut r));
    assert!(is_seen::<LOSES_A_HOLD>(&mut r));
    assert!(is_seen_by_comparison::<MISCOUNTS>(&mut r));
    assert!(is_seen_by_comparison::<KEEPS_GAPS>(&mut r));
    assert!(is_seen_by_comparison::<CLEARS_BEHIND>(&mut r));
    assert!(is_seen_by_comparison::<OVERLOOKS_DAMAGE>(&mut r));
    assert!(isolated::<Wrong<CLOSES_ANOTHERS>>(&mut r, PAIRS).is_err());
    assert!(isolated::<Wrong<LOSES_A_HOLD>>(&mut r, PAIRS).is_err());
    assert!(no_answer_is_another::<Wrong<LOSES_A_HOLD>>(&mut r).is_err());
    assert!(room_is_joined::<Wrong<KEEPS_GAPS>>(&mut r).is_err());
}
