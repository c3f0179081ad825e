//! The two makes of a table: the library's, and the second reader's.

use std::mem::size_of;

use super::{Asked, Table, BLOCK, HOLDS, PAYLOAD};
use crate::guarded::Guarded;
use crate::library::{self, TableState, Told, PLACES};
use crate::tally::{framed, guarded_output, GUARD};

/// A table of the library. It lies with guard bytes before it and nothing mapped behind it.
pub struct LibraryTable(Guarded);

impl LibraryTable {
    /// A table of which anything may be known.
    pub fn made_up(state: TableState) -> LibraryTable {
        let length = size_of::<TableState>();
        let mut memory = Guarded::new(GUARD + length);
        framed(&mut memory, length);
        *memory.last_table() = state;
        LibraryTable(memory)
    }
}

impl Table for LibraryTable {
    fn start(store_length: u64) -> Self {
        LibraryTable::made_up(library::table_start(store_length))
    }

    fn state(&mut self) -> TableState {
        let framed = self.0.last(GUARD + size_of::<TableState>());
        guarded_output(framed, format_args!("a call: the table"));
        self.0.last_table().clone()
    }

    fn open(&mut self, store: &mut [u8], customer: u32, payload: &[u8], work: &mut [u8]) -> Told {
        library::table_open(self.0.last_table(), store, customer, payload, work)
    }

    fn function_name(&mut self, store: &[u8], asked: Asked, out: &mut [u8]) -> Told {
        let Asked {
            customer,
            hold,
            function,
        } = asked;
        library::table_function_name(self.0.last_table(), store, customer, hold, function, out)
    }

    fn close(&mut self, store: &[u8], customer: u32, hold: u32) -> Told {
        library::table_close(self.0.last_table(), store, customer, hold)
    }

    fn compact(&mut self, store: &mut [u8]) -> Told {
        library::table_compact(self.0.last_table(), store)
    }
}

impl Table for second_reader::Table {
    fn start(store_length: u64) -> Self {
        second_reader::table_start(store_length)
    }

    fn state(&mut self) -> TableState {
        (&*self).into()
    }

    fn open(&mut self, store: &mut [u8], customer: u32, payload: &[u8], work: &mut [u8]) -> Told {
        second_reader::table_open(self, store, customer, payload, work).into()
    }

    fn function_name(&mut self, store: &[u8], asked: Asked, out: &mut [u8]) -> Told {
        let Asked {
            customer,
            hold,
            function,
        } = asked;
        second_reader::table_function_name(self, store, customer, hold, function, out).into()
    }

    fn close(&mut self, store: &[u8], customer: u32, hold: u32) -> Told {
        second_reader::table_close(self, store, customer, hold).into()
    }

    fn compact(&mut self, store: &mut [u8]) -> Told {
        second_reader::table_compact(self, store).into()
    }
}

/// What a table of the library is to know where a table of the second reader has the same open.
impl From<&second_reader::Table> for TableState {
    fn from(table: &second_reader::Table) -> TableState {
        let mut state = TableState {
            holds: [0; PLACES],
            users: [0; PLACES],
            sizes: [0; PLACES],
            bytes: table.store_length(),
        };
        for open in table.open_holds() {
            let hold = open.customer * HOLDS + open.hold;
            state.holds[hold as usize] = open.first_block as u8 + 1;
            state.users[open.first_block] += 1;
            state.sizes[open.first_block] = open.length as u32;
        }
        state
    }
}

impl TableState {
    /// What is stored, in the order of the store: each payload, and how many holds have it open.
    pub fn stored(&self, store: &[u8]) -> Vec<(Vec<u8>, usize)> {
        let used = (0..PLACES).filter(|block| self.users[*block] > 0);
        used.map(|block| {
            let users = usize::from(self.users[block]);
            (payload_at(store, block, self.sizes[block] as usize), users)
        })
        .collect()
    }
}

/// The payload of a length that begins at a block.
fn payload_at(store: &[u8], first_block: usize, length: usize) -> Vec<u8> {
    let blocks = store.chunks(BLOCK).skip(first_block);
    let payloads = blocks.flat_map(|block| &block[..PAYLOAD]);
    payloads.take(length).copied().collect()
}
