//! Histories made at random: calls of many customers on one table, and damage to its store between them.

use super::{Call, Step, BLOCK, CUSTOMERS, HOLDS, MOST_BLOCKS, PAYLOAD};
use crate::held::{Contents, Entries, Held, Names, FIRST};
use crate::made;
use crate::random::Random;
use crate::spelling::unpadded;
use crate::tally::KEYS;

/// A change of the store that is no call.
#[derive(Clone, Copy, Debug)]
pub enum Damage {
    /// One byte is another.
    Byte {
        /// Where it stands.
        at: usize,
        /// The bits that change.
        change: u8,
    },
    /// A word of a block is another, and so is the check, which stays as right as it was.
    Word {
        /// The number of the block.
        block: usize,
        /// The number of the word in it.
        word: usize,
        /// What is added to both.
        add: u32,
    },
    /// A block is written over another, with its check.
    Block {
        /// The number of the block that is copied.
        from: usize,
        /// The number of the block that is written over.
        to: usize,
    },
    /// The byte that was changed last is as it was, unless a call has written its block since.
    Repaired,
}

/// What happens.
#[derive(Clone, Copy, Debug)]
pub enum Event<'p> {
    /// A call.
    Step(Step<'p>),
    /// Something else writes to the store.
    Damage(Damage),
}

/// What happens to a table, from its start.
pub struct History<'p> {
    /// What the store holds at the start.
    pub store: Vec<u8>,
    /// In order.
    pub events: Vec<Event<'p>>,
}

/// What may go wrong in a history beside the calls themselves.
#[derive(Clone, Copy, PartialEq, Eq)]
pub enum Trouble {
    /// Nothing: every call is lent the store of the start, which the calls alone write.
    None,
    /// Stores of other lengths are lent, and at most one byte is damaged at a time.
    OneByte,
    /// The same, and words are changed together with their checks, and blocks copied with theirs.
    Tampering,
}

/// Payloads from which the customers of a history choose, each in several spellings, and some that are refused.
pub struct Payloads(Vec<Vec<Vec<u8>>>);

/// The subsection that fills a payload up to a length, and the one with function names.
const FILLING: u8 = 200;
const FUNCTIONS: u8 = 1;

/// Lengths about which the number of blocks changes, and one that is left as it comes.
const FILLED_TO: [usize; 7] = [
    0,
    0,
    PAYLOAD,
    PAYLOAD + 1,
    2 * PAYLOAD,
    2 * PAYLOAD + 1,
    1_900,
];

/// The id and the size of the filling, which has 128 bytes or more, and less than 16,384.
const FILLING_HEAD: usize = 3;
const LEAST_FILLING: usize = 128;

/// The longest payload that any store can hold, and its filling's head.
const LONGEST: usize = MOST_BLOCKS * PAYLOAD;
const LONG_FILLING_HEAD: usize = 4;

/// Of so many histories one has the payload that fills the greatest store, and the one that no store holds.
const ONE_LONG_IN: usize = 8;

/// Of so many spellings of a payload one is refused.
const ONE_REFUSED_IN: usize = 6;

impl Payloads {
    /// So many payloads, and the empty one.
    pub fn new(r: &mut Random, count: usize) -> Payloads {
        let mut all = vec![vec![vec![], vec![FUNCTIONS, 1, 0]]];
        for _ in 0..count {
            let length = r.one_of(&FILLED_TO);
            let held = filled(r, length);
            all.push(spellings(r, &held));
        }
        if r.once_in(ONE_LONG_IN) {
            let contents = vec![0x5A; LONGEST - LONG_FILLING_HEAD];
            let longest = spelled_filling(contents.clone());
            let too_long = spelled_filling([contents, vec![0]].concat());
            all.push(vec![longest, too_long]);
        }
        Payloads(all)
    }

    fn one(&self, r: &mut Random) -> &[u8] {
        let spellings = &self.0[r.below(self.0.len())];
        &spellings[r.below(spellings.len())]
    }
}

fn spelled_filling(contents: Vec<u8>) -> Vec<u8> {
    let subsections = [(FILLING, Contents::Kept(contents))].into();
    let names = Names {
        edition: &FIRST,
        subsections,
    };
    names.spelled(&mut unpadded)
}

/// Names of functions and whatever else, whose canonical payload has a length where there is room for a filling.
fn filled(r: &mut Random, length: usize) -> Names {
    let mut held = made::held_names(r, &FIRST);
    held.subsections.remove(&FILLING);
    let functions = KEYS.into_iter().filter(|_| r.once_in(2));
    let functions: Vec<u32> = functions.collect();
    let entries = functions.into_iter().map(|key| (key, name(r)));
    let entries: Entries = entries.collect();
    held.subsections.insert(FUNCTIONS, Contents::Map(entries));
    let filling = length.saturating_sub(held.clone().canonical().len() + FILLING_HEAD);
    if filling >= LEAST_FILLING {
        let contents = vec![r.number() as u8; filling];
        held.subsections.insert(FILLING, Contents::Kept(contents));
    }
    held
}

/// A name of few, so that some payloads have the same for the same function.
fn name(r: &mut Random) -> Vec<u8> {
    r.one_of(&["", "a", "b", "main", "漢", "core::fmt::write"])
        .into()
}

/// Several spellings of one payload, and now and then what is left of one that was cut off, which is refused most often.
fn spellings(r: &mut Random, held: &Names) -> Vec<Vec<u8>> {
    let canonical = held.clone().canonical();
    let mut all = vec![held.spelled(&mut unpadded)];
    all.extend(any_of(r, held.with_one_padded()));
    let more = any_of(r, held.with_an_empty_list());
    all.extend(more.map(|held| held.spelled(&mut unpadded)));
    if r.once_in(ONE_REFUSED_IN) {
        let cut = r.below(canonical.len() + 1);
        all.push(canonical[..cut].to_vec());
    }
    all.push(canonical);
    all
}

/// Any of these, or none where there are none.
fn any_of<T>(r: &mut Random, mut all: Vec<T>) -> Option<T> {
    match all.len() {
        0 => None,
        count => Some(all.swap_remove(r.below(count))),
    }
}

/// How the calls of one history are chosen.
pub struct Maker<'p> {
    payloads: &'p Payloads,
    /// Those that call, of which some may not exist.
    customers: Vec<u32>,
    /// How often each of their three calls is put, against the others.
    weights: [usize; 3],
    trouble: Trouble,
    store_length: usize,
}

/// Of so many calls one has something out of range: the customer, or the hold, or the length of the store.
const ONE_OUT_OF_RANGE_IN: usize = 25;

/// Of so many calls one closes the gaps.
const ONE_COMPACT_IN: usize = 20;

/// Of so many calls one has too little room, or a little more than it needs.
const ONE_ROOM_IN: usize = 8;
const SPARE: usize = 7;

/// The length of the longest of the names of functions.
const LONGEST_NAME: usize = 16;

/// Of so many events one damages something, and of so many one puts it back: damage does not last long.
const ONE_DAMAGE_IN: usize = 40;
const ONE_REPAIR_IN: usize = 8;

impl<'p> Maker<'p> {
    /// Calls by these customers.
    pub fn new(
        r: &mut Random,
        payloads: &'p Payloads,
        customers: Vec<u32>,
        store_length: usize,
        trouble: Trouble,
    ) -> Maker<'p> {
        let weights = [0; 3].map(|_| 2 + r.below(4));
        Maker {
            payloads,
            customers,
            weights,
            trouble,
            store_length,
        }
    }

    /// A history of so many events, and the store that it starts with.
    pub fn history(&self, r: &mut Random, events: usize) -> History<'p> {
        let store = any_store(r, self.store_length);
        let events = (0..events).map(|_| self.event(r)).collect();
        History { store, events }
    }

    fn event(&self, r: &mut Random) -> Event<'p> {
        if self.trouble == Trouble::None {
            return Event::Step(self.step(r));
        }
        if r.once_in(ONE_REPAIR_IN) {
            return Event::Damage(Damage::Repaired);
        }
        if r.once_in(ONE_DAMAGE_IN) {
            return Event::Damage(self.damage(r));
        }
        Event::Step(self.step(r))
    }

    fn damage(&self, r: &mut Random) -> Damage {
        let blocks = self.store_length / BLOCK;
        match r.below(3) {
            0 if self.trouble == Trouble::Tampering => Damage::Word {
                block: r.below(blocks),
                // Most payloads are short.
                word: r.below(8),
                add: 1 << r.below(32),
            },
            1 if self.trouble == Trouble::Tampering => Damage::Block {
                from: r.below(blocks),
                to: r.below(blocks),
            },
            _ => Damage::Byte {
                at: r.below(self.store_length),
                change: 1 << r.below(8),
            },
        }
    }

    /// A call of one of the customers, or the gaps are closed.
    pub fn step(&self, r: &mut Random) -> Step<'p> {
        let step = self.customers_step(r);
        match r.once_in(ONE_COMPACT_IN) {
            true => Step {
                call: Call::Compact,
                ..step
            },
            false => step,
        }
    }

    /// A call of one of the customers.
    pub fn customers_step(&self, r: &mut Random) -> Step<'p> {
        let customer = r.one_of(&self.customers);
        let [opens, questions, closes] = self.weights;
        let chosen = r.below(opens + questions + closes);
        let call = match chosen {
            _ if chosen < opens => self.open(r),
            _ if chosen < opens + questions => Call::FunctionName {
                hold: any_hold(r),
                function: r.one_of(&KEYS),
                room: any_room(r, LONGEST_NAME),
            },
            _ => Call::Close { hold: any_hold(r) },
        };
        Step {
            customer,
            call,
            store_length: self.any_length(r),
        }
    }

    fn open(&self, r: &mut Random) -> Call<'p> {
        let payload = self.payloads.one(r);
        let room = any_room(r, payload.len());
        Call::Open { payload, room }
    }

    fn any_length(&self, r: &mut Random) -> usize {
        let length = self.store_length;
        if self.trouble == Trouble::None || !r.once_in(ONE_OUT_OF_RANGE_IN) {
            return length;
        }
        r.one_of(&[0, length - BLOCK, length - 1, length + 1, length + BLOCK])
    }
}

/// What a store holds before anything is stored.
fn any_store(r: &mut Random, length: usize) -> Vec<u8> {
    match r.below(3) {
        0 => vec![0; length],
        1 => vec![0xFF; length],
        _ => (0..length).map(|_| r.number() as u8).collect(),
    }
}

/// Most often one of the eight, and a low one, since those are open more often.
fn any_hold(r: &mut Random) -> u32 {
    match r.once_in(ONE_OUT_OF_RANGE_IN) {
        true => r.one_of(&[HOLDS, HOLDS + 1, u32::MAX]),
        false => {
            let most = r.below(HOLDS as usize);
            r.below(most + 1) as u32
        }
    }
}

/// Most often as much as is needed at the most.
fn any_room(r: &mut Random, most: usize) -> usize {
    if !r.once_in(ONE_ROOM_IN) {
        return most;
    }
    let less = r.below(most + 1);
    r.one_of(&[0, less, most.saturating_sub(1), most + SPARE])
}

/// The first so many customers, and now and then one that there is not.
pub fn customers(r: &mut Random, count: u32) -> Vec<u32> {
    const EACH: usize = 8;
    let each = (0..count).flat_map(|customer| [customer; EACH]);
    each.chain([r.one_of(&[CUSTOMERS, u32::MAX])]).collect()
}
