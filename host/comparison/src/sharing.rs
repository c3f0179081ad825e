//! Shared tables: what is put to one, the store and the buffers that are lent to it, and what is seen of it then.

use std::collections::BTreeMap;

use crate::guarded::Guarded;
use crate::library::{TableState, Told, FOUND, REFUSED};
use crate::tally::{framed, guarded_output, GUARD, GUARD_BYTE};

pub mod history;
pub mod makes;
pub mod model;
pub mod refusals;

use history::{Damage, Event, History};

/// How many customers a table has.
pub const CUSTOMERS: u32 = 16;
/// How many holds each of them has.
pub const HOLDS: u32 = 8;
/// The bytes of a block, and of the payload in it.
pub const BLOCK: usize = 512;
/// How much of a block is payload.
pub const PAYLOAD: usize = 508;
/// The most blocks that a store has.
pub const MOST_BLOCKS: usize = 128;

/// Whether a store may have so many bytes.
pub fn is_store(length: usize) -> bool {
    length % BLOCK == 0 && (1..=MOST_BLOCKS).contains(&(length / BLOCK))
}

/// More than any payload or buffer that is lent to a table takes.
const ROOM: usize = (MOST_BLOCKS + 2) * BLOCK;

/// Whose name a customer asks for.
#[derive(Clone, Copy)]
pub struct Asked {
    /// Who asks.
    pub customer: u32,
    /// Through which hold.
    pub hold: u32,
    /// The function.
    pub function: u32,
}

/// A table of any make, by the calls that there are on it.
pub trait Table {
    /// A table over a store of a length.
    fn start(store_length: u64) -> Self;
    /// What it knows now, as the header has it.
    fn state(&mut self) -> TableState;
    /// Opens a payload.
    fn open(&mut self, store: &mut [u8], customer: u32, payload: &[u8], work: &mut [u8]) -> Told;
    /// Asks for the name of a function. It may change the table no more than the calls that are refused.
    fn function_name(&mut self, store: &[u8], asked: Asked, out: &mut [u8]) -> Told;
    /// Closes a hold.
    fn close(&mut self, store: &[u8], customer: u32, hold: u32) -> Told;
    /// Closes the gaps in the store.
    fn compact(&mut self, store: &mut [u8]) -> Told;
}

/// What is called, and what is lent to the call beside the store.
#[derive(Clone, Copy, Debug)]
pub enum Call<'p> {
    /// An open, with a work buffer of so much room.
    Open {
        /// In one of its spellings, or refused.
        payload: &'p [u8],
        /// How many bytes the work buffer has.
        room: usize,
    },
    /// A question, with an output of so much room.
    FunctionName {
        /// Through which it is asked.
        hold: u32,
        /// Whose name is asked for.
        function: u32,
        /// How many bytes the output has.
        room: usize,
    },
    /// A close.
    Close {
        /// Which is closed.
        hold: u32,
    },
    /// The gaps are closed.
    Compact,
}

/// A call on a store.
#[derive(Clone, Copy, Debug)]
pub struct Step<'p> {
    /// Who calls; of no account where the gaps are closed.
    pub customer: u32,
    /// What is called.
    pub call: Call<'p>,
    /// How many bytes of the store are lent; of another store than at the start, others.
    pub store_length: usize,
}

impl Step<'_> {
    /// How many bytes the buffer has that the call may write to.
    pub fn room(&self) -> usize {
        match self.call {
            Call::Open { room, .. } | Call::FunctionName { room, .. } => room,
            Call::Close { .. } | Call::Compact => 0,
        }
    }

    /// Whether it is a call of that customer. Closing the gaps is nobody's call.
    pub fn is_by(&self, customer: u32) -> bool {
        self.customer == customer && !matches!(self.call, Call::Compact)
    }
}

/// What the caller sees of a call: the answer, and its buffer behind the call.
#[derive(Clone, Debug, PartialEq, Eq)]
pub struct Seen {
    /// The answer.
    pub told: Told,
    /// The work buffer, or the output.
    pub output: Vec<u8>,
}

/// A table, its store, and the memory in which everything is lent: at the very end of what is mapped.
pub struct Shop<T> {
    /// The table.
    pub table: T,
    store_length: usize,
    store: Guarded,
    payload: Guarded,
    output: Guarded,
    damaged: Option<DamagedByte>,
}

/// A byte that was changed, and its block as it is since then.
struct DamagedByte {
    at: usize,
    change: u8,
    block: Vec<u8>,
}

impl<T: Table> Shop<T> {
    /// A table over a store that holds these bytes.
    pub fn new(store: &[u8]) -> Shop<T> {
        let mut memory = Guarded::new(ROOM);
        memory.last(ROOM).fill(GUARD_BYTE);
        memory.lend(store);
        Shop {
            table: T::start(store.len() as u64),
            store_length: store.len(),
            store: memory,
            payload: Guarded::new(ROOM),
            output: Guarded::new(ROOM),
            damaged: None,
        }
    }

    /// The store as it is.
    pub fn store(&mut self) -> &[u8] {
        self.store.last(self.store_length)
    }

    /// Puts a call. Whatever its answer, it changes nothing that a call of this kind and answer must leave as it is.
    pub fn put(&mut self, step: &Step<'_>) -> Seen {
        let state = self.table.state();
        let before = self.store().to_vec();
        let seen = self.call(step);
        let granted = seen.told.kind == FOUND;
        let is_question = matches!(step.call, Call::FunctionName { .. });
        if !granted || is_question {
            assert_eq!(self.table.state(), state, "{step:?} changed the table");
        }
        let may_write = matches!(step.call, Call::Open { .. } | Call::Compact);
        if !granted || !may_write {
            assert_eq!(self.store(), before, "{step:?} changed the store");
        }
        self.assert_nothing_before_the_store(step);
        seen
    }

    fn call(&mut self, step: &Step<'_>) -> Seen {
        let framed = framed(&mut self.output, step.room());
        let buffer = &mut framed[GUARD..];
        let store = self.store.last(step.store_length);
        let told = match step.call {
            Call::Open { payload, .. } => {
                let lent = self.payload.lend(payload);
                let told = self.table.open(store, step.customer, lent, buffer);
                assert_eq!(lent, payload, "{step:?} changed what was lent");
                told
            }
            Call::FunctionName { hold, function, .. } => {
                let asked = Asked {
                    customer: step.customer,
                    hold,
                    function,
                };
                self.table.function_name(store, asked, buffer)
            }
            Call::Close { hold } => self.table.close(store, step.customer, hold),
            Call::Compact => self.table.compact(store),
        };
        let output = guarded_output(framed, format_args!("{step:?}")).to_vec();
        Seen { told, output }
    }

    /// A store that is lent too long has a block more, and what is there stays as it is, too.
    fn assert_nothing_before_the_store(&mut self, step: &Step<'_>) {
        let lent = self.store.last(self.store_length + BLOCK);
        let before = &lent[..BLOCK];
        let unchanged = before.iter().all(|byte| *byte == GUARD_BYTE);
        assert!(unchanged, "{step:?} wrote before the store");
    }

    /// Changes the store, or puts back the byte that was changed. No two bytes are changed at a time.
    pub fn damage(&mut self, damage: Damage) {
        match damage {
            Damage::Byte { at, change } => {
                self.repair();
                self.store.last(self.store_length)[at] ^= change;
                let block = self.block_of(at).to_vec();
                self.damaged = Some(DamagedByte { at, change, block });
            }
            Damage::Word { block, word, add } => self.tamper(block, word, add),
            Damage::Block { from, to } => {
                let copied = from * BLOCK..(from + 1) * BLOCK;
                let store = self.store.last(self.store_length);
                store.copy_within(copied, to * BLOCK);
            }
            Damage::Repaired => self.repair(),
        }
    }

    /// Forgets a damaged byte whose block was written since.
    fn forget_written(&mut self) {
        if let Some(damaged) = self.damaged.take() {
            let is_damaged = self.block_of(damaged.at) == damaged.block;
            self.damaged = is_damaged.then_some(damaged);
        }
    }

    /// Whether a byte is changed that nothing has written since.
    pub fn is_damaged(&mut self) -> bool {
        self.forget_written();
        self.damaged.is_some()
    }

    fn repair(&mut self) {
        self.forget_written();
        if let Some(DamagedByte { at, change, .. }) = self.damaged.take() {
            self.store.last(self.store_length)[at] ^= change;
        }
    }

    /// Adds to a word and to the check of its block, which is then right if it was before.
    fn tamper(&mut self, block: usize, word: usize, add: u32) {
        const WORD: usize = 4;
        let block = &mut self.store.last(self.store_length)[block * BLOCK..][..BLOCK];
        for at in [word * WORD, PAYLOAD] {
            let place = &mut block[at..at + WORD];
            let number = u32::from_le_bytes([place[0], place[1], place[2], place[3]]);
            place.copy_from_slice(&number.wrapping_add(add).to_le_bytes());
        }
    }

    fn block_of(&mut self, at: usize) -> &[u8] {
        let start = at - at % BLOCK;
        &self.store()[start..start + BLOCK]
    }
}

/// How often each call was answered in each way: by its name, and the number of the refusal or the kind of the answer.
pub type Met = BTreeMap<(&'static str, &'static str, u32), u64>;

/// Counts an answer.
pub fn count(met: &mut Met, step: &Step<'_>, told: Told) {
    let call = match step.call {
        Call::Open { .. } => "open",
        Call::FunctionName { .. } => "function_name",
        Call::Close { .. } => "close",
        Call::Compact => "compact",
    };
    let answer = match told.kind {
        REFUSED => (call, "refused", told.code),
        kind => (call, "kind", kind),
    };
    *met.entry(answer).or_default() += 1;
}

/// Where a table does what it must not do: at which call, and what it did.
pub type Difference = String;

/// Two tables, each with a store of its own, which get the same calls.
pub struct Both<One, Other> {
    one: Shop<One>,
    other: Shop<Other>,
}

impl<One: Table, Other: Table> Both<One, Other> {
    /// Over stores that hold these bytes.
    pub fn new(store: &[u8]) -> Both<One, Other> {
        Both {
            one: Shop::new(store),
            other: Shop::new(store),
        }
    }

    /// Puts a call to both. They answer alike, know the same, and leave the same bytes in the store and in the buffers;
    /// or it is said what differs.
    pub fn put(&mut self, step: &Step<'_>) -> Result<Seen, Difference> {
        let (seen, also_seen) = (self.one.put(step), self.other.put(step));
        if seen != also_seen {
            return Err(format!("{step:?}: {seen:?}, {also_seen:?}"));
        }
        if self.one.store() != self.other.store() {
            return Err(format!("{step:?}: the stores differ"));
        }
        let (knows, also_knows) = (self.one.table.state(), self.other.table.state());
        if knows != also_knows {
            return Err(format!("{step:?}: {knows:?}, {also_knows:?}"));
        }
        Ok(seen)
    }

    /// Changes both stores.
    fn damage(&mut self, damage: Damage) {
        self.one.damage(damage);
        self.other.damage(damage);
    }

    /// What is stored in both, in the order of the store: each payload, and how many holds have it open.
    pub fn stored(&mut self) -> Vec<(Vec<u8>, usize)> {
        self.one.table.state().stored(self.one.store())
    }
}

/// Puts one history to two tables, and says at which event they differ.
pub fn compare<One: Table, Other: Table>(
    history: &History<'_>,
    met: &mut Met,
) -> Result<(), Difference> {
    let mut both: Both<One, Other> = Both::new(&history.store);
    for (number, event) in history.events.iter().enumerate() {
        match event {
            Event::Damage(damage) => both.damage(*damage),
            Event::Step(step) => {
                let seen = both.put(step);
                let seen = seen.map_err(|differ| format!("event {number}, {differ}"))?;
                count(met, step, seen.told);
            }
        }
    }
    Ok(())
}
