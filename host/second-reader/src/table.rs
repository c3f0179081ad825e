//! Name payloads that customers share, each stored once in the blocks of a store that is lent at every
//! call.
//!
//! What the rule calls the users of a payload are the holds that have it open. So the table knows the
//! holds alone: a payload is stored as long as there is a hold of it, and a block is used as long as it
//! belongs to such a payload.

use std::collections::{BTreeMap, BTreeSet};
use std::ops::Range;

use crate::answer::{Answer, Reason, Refusal};
use crate::canonical::rewrite_names;
use crate::edition::{id, Edition};
use crate::names::{self, Owner};
use crate::reading::Part;

const CUSTOMERS: u32 = 16;

/// How many holds each customer has.
const HOLDS: u32 = 8;

const MOST_BLOCKS: usize = 128;
const BLOCK: usize = 512;
const WORD: usize = 4;

/// How much of a block is payload; the word behind it is the check.
const PAYLOAD: usize = BLOCK - WORD;

/// A table over a store, with what its customers hold open.
#[derive(Clone, Debug, PartialEq, Eq)]
pub struct Table {
    store_length: u64,
    /// Where the payload of each open hold stands, by the customer and the hold.
    holds: BTreeMap<(u32, u32), Place>,
}

/// Where a payload stands in the store. The order is that of the store, since no two of them share a
/// block.
#[derive(Clone, Copy, Debug, PartialEq, Eq, PartialOrd, Ord)]
struct Place {
    first_block: usize,
    length: usize,
}

/// A payload that is stored.
#[derive(Clone, Debug, PartialEq, Eq)]
pub struct Stored {
    /// Its first block, counted from 0.
    pub first_block: usize,
    /// Its bytes as they stand in the store.
    pub payload: Vec<u8>,
    /// How many holds have it open.
    pub users: usize,
}

/// A hold that is open, and where its payload stands.
#[derive(Clone, Copy, Debug, PartialEq, Eq)]
pub struct OpenHold {
    /// Whose hold it is.
    pub customer: u32,
    /// Its number.
    pub hold: u32,
    /// The first block of its payload, counted from 0.
    pub first_block: usize,
    /// How many bytes the payload has.
    pub length: usize,
}

/// A table over a store of that length, with nothing stored.
#[must_use]
pub fn table_start(store_length: u64) -> Table {
    Table {
        store_length,
        holds: BTreeMap::new(),
    }
}

/// Opens a name payload, whose canonical form is written at the front of `work`. Found: the hold as the
/// length.
pub fn table_open(
    table: &mut Table,
    store: &mut [u8],
    customer: u32,
    payload: &[u8],
    work: &mut [u8],
) -> Answer {
    Answer::counted(table.open(store, customer, payload, work))
}

/// The name of a function in the payload that a hold has open, copied to the front of `out`. Found: its
/// length.
pub fn table_function_name(
    table: &Table,
    store: &[u8],
    customer: u32,
    hold: u32,
    function: u32,
    out: &mut [u8],
) -> Answer {
    let copied = table.copy_name(store, (customer, hold), function, out);
    Answer::of(copied.map(|length| length.map(|length| Answer::found(0, length))))
}

/// Closes a hold. Found: nothing more is said.
pub fn table_close(table: &mut Table, store: &[u8], customer: u32, hold: u32) -> Answer {
    Answer::counted(table.close(store, (customer, hold)).map(|()| 0))
}

/// Moves what is stored to the front of the store, and so joins the blocks that are free. Found: nothing
/// more is said.
pub fn table_compact(table: &mut Table, store: &mut [u8]) -> Answer {
    Answer::counted(table.compact(store).map(|()| 0))
}

impl Table {
    /// What is stored, in the order of the store. No call tells it: it is for whoever looks on.
    #[must_use]
    pub fn stored(&self, store: &[u8]) -> Vec<Stored> {
        let stored = |place: Place| Stored {
            first_block: place.first_block,
            payload: place.payload(store),
            users: self.holds.values().filter(|other| **other == place).count(),
        };
        self.places().into_iter().map(stored).collect()
    }

    /// What is open, by customer and hold. No call tells it either.
    pub fn open_holds(&self) -> impl Iterator<Item = OpenHold> + '_ {
        let holds = self.holds.iter();
        holds.map(|(&(customer, hold), place)| OpenHold {
            customer,
            hold,
            first_block: place.first_block,
            length: place.length,
        })
    }

    /// How long the store was at the start.
    #[must_use]
    pub fn store_length(&self) -> u64 {
        self.store_length
    }

    fn open(
        &mut self,
        store: &mut [u8],
        customer: u32,
        payload: &[u8],
        work: &mut [u8],
    ) -> Result<u64, Refusal> {
        self.check_store(store)?;
        check_customer(customer)?;
        let canonical = canonical(payload)?;
        let front = front_of(work, canonical.len())?;
        let hold = self.lowest_unused(customer)?;
        // Whatever is refused from here on is refused with the canonical payload in the work buffer.
        front.copy_from_slice(&canonical);
        self.check_used_blocks(store)?;
        let place = match self.place_of(&canonical, store) {
            Some(place) => place,
            None => self.store_anew(&canonical, store)?,
        };
        self.holds.insert((customer, hold), place);
        Ok(u64::from(hold))
    }

    fn copy_name(
        &self,
        store: &[u8],
        hold: (u32, u32),
        function: u32,
        out: &mut [u8],
    ) -> Result<Option<u64>, Refusal> {
        self.check_store(store)?;
        let place = self.place(hold)?;
        place.check(store)?;
        let payload = place.payload(store);
        let wanted = Owner::Entry(id::FUNCTIONS, function);
        let Ok(name) = names::ask(Part::whole(&payload), Edition::First, wanted) else {
            return Err(Reason::Damaged.at(0));
        };
        let Some(name) = name else {
            return Ok(None);
        };
        let name = name.bytes();
        front_of(out, name.len())?.copy_from_slice(name);
        Ok(Some(name.len() as u64))
    }

    fn close(&mut self, store: &[u8], hold: (u32, u32)) -> Result<(), Refusal> {
        self.check_store(store)?;
        self.place(hold)?;
        self.holds.remove(&hold);
        Ok(())
    }

    fn compact(&mut self, store: &mut [u8]) -> Result<(), Refusal> {
        self.check_store(store)?;
        self.check_used_blocks(store)?;
        let mut moved = BTreeMap::new();
        let mut first_block = 0;
        // In the order of the store, so that nothing is written over that has not moved yet.
        for place in self.places() {
            let blocks = place.blocks();
            let bytes = blocks.start * BLOCK..blocks.end * BLOCK;
            store.copy_within(bytes, first_block * BLOCK);
            moved.insert(
                place,
                Place {
                    first_block,
                    ..place
                },
            );
            first_block += blocks.len();
        }
        for place in self.holds.values_mut() {
            *place = moved[place];
        }
        Ok(())
    }

    fn check_store(&self, store: &[u8]) -> Result<(), Refusal> {
        let blocks = store.len() / BLOCK;
        let in_blocks = store.len() % BLOCK == 0 && (1..=MOST_BLOCKS).contains(&blocks);
        if in_blocks && store.len() as u64 == self.store_length {
            Ok(())
        } else {
            Err(Reason::OtherStore.at(0))
        }
    }

    /// Where the payload of a hold stands.
    fn place(&self, (customer, hold): (u32, u32)) -> Result<Place, Refusal> {
        check_customer(customer)?;
        let place = self.holds.get(&(customer, hold));
        place.copied().ok_or(Reason::NotOpen.at(0))
    }

    fn lowest_unused(&self, customer: u32) -> Result<u32, Refusal> {
        let unused = |hold: &u32| !self.holds.contains_key(&(customer, *hold));
        (0..HOLDS).find(unused).ok_or(Reason::AllHoldsOpen.at(0))
    }

    /// Where payloads are stored, each once, in the order of the store.
    fn places(&self) -> BTreeSet<Place> {
        self.holds.values().copied().collect()
    }

    fn check_used_blocks(&self, store: &[u8]) -> Result<(), Refusal> {
        let mut places = self.places().into_iter();
        places.try_for_each(|place| place.check(store))
    }

    /// Where a payload is stored already: the first place that holds these bytes.
    fn place_of(&self, payload: &[u8], store: &[u8]) -> Option<Place> {
        let mut places = self.places().into_iter();
        places.find(|place| place.payload(store) == payload)
    }

    fn store_anew(&self, payload: &[u8], store: &mut [u8]) -> Result<Place, Refusal> {
        let used: BTreeSet<usize> = self.places().into_iter().flat_map(Place::blocks).collect();
        let blocks = store.len() / BLOCK;
        let is_free = |block| block < blocks && !used.contains(&block);
        let length = payload.len();
        let mut places = (0..blocks).map(|first_block| Place {
            first_block,
            length,
        });
        let place = places.find(|place| place.blocks().all(is_free));
        let place = place.ok_or(Reason::NoRoom.at(0))?;
        place.write(payload, store);
        Ok(place)
    }
}

impl Place {
    /// The blocks of the payload: one also where it is empty.
    fn blocks(self) -> Range<usize> {
        let count = self.length.div_ceil(PAYLOAD).max(1);
        self.first_block..self.first_block + count
    }

    fn check(self, store: &[u8]) -> Result<(), Refusal> {
        if self.blocks().all(|number| is_right(block(store, number))) {
            Ok(())
        } else {
            Err(Reason::Damaged.at(0))
        }
    }

    fn payload(self, store: &[u8]) -> Vec<u8> {
        let payloads = self.blocks().map(|number| &block(store, number)[..PAYLOAD]);
        let mut payload = payloads.collect::<Vec<&[u8]>>().concat();
        payload.truncate(self.length);
        payload
    }

    fn write(self, payload: &[u8], store: &mut [u8]) {
        let mut padded = payload.to_vec();
        padded.resize(self.blocks().len() * PAYLOAD, 0);
        for (number, part) in self.blocks().zip(padded.chunks(PAYLOAD)) {
            let block = &mut store[number * BLOCK..][..BLOCK];
            block[..PAYLOAD].copy_from_slice(part);
            block[PAYLOAD..].copy_from_slice(&check_of(part));
        }
    }
}

fn check_customer(customer: u32) -> Result<(), Refusal> {
    if customer < CUSTOMERS {
        Ok(())
    } else {
        Err(Reason::NoCustomer.at(0))
    }
}

/// The canonical form, which is never longer than the payload itself.
fn canonical(payload: &[u8]) -> Result<Vec<u8>, Refusal> {
    let mut out = vec![0; payload.len()];
    let length = rewrite_names(Part::whole(payload), Edition::First, &mut out)?;
    out.truncate(length as usize);
    Ok(out)
}

/// The front of a lent buffer that has room for so much.
fn front_of(buffer: &mut [u8], needed: usize) -> Result<&mut [u8], Refusal> {
    let refusal = Reason::OutputTooShort.at(needed);
    buffer.get_mut(..needed).ok_or(refusal)
}

fn block(store: &[u8], number: usize) -> &[u8] {
    &store[number * BLOCK..][..BLOCK]
}

fn is_right(block: &[u8]) -> bool {
    let (payload, check) = block.split_at(PAYLOAD);
    check == check_of(payload)
}

/// The wrapping sum of all words, as it is stored.
fn check_of(payload: &[u8]) -> [u8; WORD] {
    let mut sum: u32 = 0;
    for word in payload.chunks_exact(WORD) {
        sum = sum.wrapping_add(u32::from_le_bytes([word[0], word[1], word[2], word[3]]));
    }
    sum.to_le_bytes()
}
