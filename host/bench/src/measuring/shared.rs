//! Calls on a shared table, put once to each make of it: an open of a payload that is stored already, a question through
//! the hold that it gives, and the close of that hold; and in another table the gaps are closed.

use comparison::library::{self, TableState, FOUND};
use comparison::sharing::{BLOCK, CUSTOMERS, HOLDS, MOST_BLOCKS};

use super::{are_alike, look_up, regions, rewrite, Compared, UNTOUCHED};
use crate::name_map::{NameMap, FUNCTIONS};
use crate::operation::Operation;
use crate::payload::Payload;
use crate::region::counted;
use crate::{gaps, shared};

/// Who opens the payload again: the last customer, who has a hold left.
const CUSTOMER: u32 = CUSTOMERS - 1;

/// A table of each make, over a store of its own.
struct Tables {
    told: (TableState, Vec<u8>),
    read: (second_reader::Table, Vec<u8>),
}

pub fn calls(payload: &Payload) -> Vec<Compared> {
    let bytes = &payload.bytes[..];
    let names = NameMap::of(bytes, FUNCTIONS).expect("functions");
    let last = *names.lists.indices.last().expect("some have names");
    let mut tables = Tables::with(MOST_BLOCKS, &shared::stored(payload));
    let (hold, opened) = tables.open(bytes);
    vec![
        rewrite(bytes),
        look_up(bytes, last),
        opened,
        tables.ask(hold, last, bytes.len()),
        tables.close(hold),
    ]
}

/// Every second payload is closed, the first of them too, so that all that are left have to move.
pub fn compaction(payload: &Payload) -> Compared {
    let stored = gaps::stored(payload);
    let mut tables = Tables::with(stored.len(), &stored);
    for number in (0..stored.len() as u32).step_by(2) {
        tables.close_uncounted(number / HOLDS, number % HOLDS);
    }
    tables.compact()
}

impl Tables {
    /// Stores of so many blocks in which these payloads are stored, each open once: the first eight by the first customer,
    /// and so on.
    fn with(blocks: usize, payloads: &[Vec<u8>]) -> Tables {
        let length = blocks * BLOCK;
        let mut tables = Tables {
            told: (library::table_start(length as u64), vec![0; length]),
            read: (second_reader::table_start(length as u64), vec![0; length]),
        };
        for (customer, payloads) in (0..).zip(payloads.chunks(HOLDS as usize)) {
            for payload in payloads {
                let mut work = vec![0; payload.len()];
                let (table, store) = &mut tables.told;
                let told = library::table_open(table, store, customer, payload, &mut work);
                assert_eq!(told.kind, FOUND, "there is room for all of them");
                let (table, store) = &mut tables.read;
                let _ = second_reader::table_open(table, store, customer, payload, &mut work);
            }
        }
        assert!(tables.are_alike());
        tables
    }

    fn are_alike(&self) -> bool {
        let ((knows, store), (table, also_store)) = (&self.told, &self.read);
        *knows == TableState::from(table) && store == also_store
    }

    /// The hold that is given, and whether both makes leave the same.
    fn open(&mut self, payload: &[u8]) -> (u32, Compared) {
        const REGIONS: [u8; 2] = regions(Operation::TableOpen);
        let room = payload.len();
        let (mut by_library, mut by_reader) = (vec![UNTOUCHED; room], vec![UNTOUCHED; room]);
        let (table, store) = &mut self.told;
        let told = counted::<{ REGIONS[0] }, _, _>(
            (table, &mut store[..], payload, &mut by_library[..]),
            |(table, store, lent, work)| library::table_open(table, store, CUSTOMER, lent, work),
        );
        let (table, store) = &mut self.read;
        let read = counted::<{ REGIONS[1] }, _, _>(
            (table, &mut store[..], payload, &mut by_reader[..]),
            |(table, store, lent, work)| {
                second_reader::table_open(table, store, CUSTOMER, lent, work)
            },
        );
        let alike = are_alike(told, read) && by_library == by_reader && self.are_alike();
        (told.length as u32, (Operation::TableOpen, alike))
    }

    fn ask(&self, hold: u32, function: u32, room: usize) -> Compared {
        const REGIONS: [u8; 2] = regions(Operation::TableLookUp);
        let (mut by_library, mut by_reader) = (vec![UNTOUCHED; room], vec![UNTOUCHED; room]);
        let (table, store) = &self.told;
        let told = counted::<{ REGIONS[0] }, _, _>(
            (table, &store[..], hold, function, &mut by_library[..]),
            |(table, store, hold, function, out)| {
                library::table_function_name(table, store, CUSTOMER, hold, function, out)
            },
        );
        let (table, store) = &self.read;
        let read = counted::<{ REGIONS[1] }, _, _>(
            (table, &store[..], hold, function, &mut by_reader[..]),
            |(table, store, hold, function, out)| {
                second_reader::table_function_name(table, store, CUSTOMER, hold, function, out)
            },
        );
        let alike = are_alike(told, read) && by_library == by_reader && self.are_alike();
        (Operation::TableLookUp, alike)
    }

    fn close(&mut self, hold: u32) -> Compared {
        const REGIONS: [u8; 2] = regions(Operation::TableClose);
        let (table, store) = &mut self.told;
        let told =
            counted::<{ REGIONS[0] }, _, _>((table, &store[..], hold), |(table, store, hold)| {
                library::table_close(table, store, CUSTOMER, hold)
            });
        let (table, store) = &mut self.read;
        let read =
            counted::<{ REGIONS[1] }, _, _>((table, &store[..], hold), |(table, store, hold)| {
                second_reader::table_close(table, store, CUSTOMER, hold)
            });
        let alike = are_alike(told, read) && self.are_alike();
        (Operation::TableClose, alike)
    }
    fn close_uncounted(&mut self, customer: u32, hold: u32) {
        let (table, store) = &mut self.told;
        let told = library::table_close(table, store, customer, hold);
        assert_eq!(told.kind, FOUND, "it is open");
        let (table, store) = &mut self.read;
        let _ = second_reader::table_close(table, store, customer, hold);
    }

    fn compact(&mut self) -> Compared {
        const REGIONS: [u8; 2] = regions(Operation::TableCompact);
        let (table, store) = &mut self.told;
        let told = counted::<{ REGIONS[0] }, _, _>((table, &mut store[..]), |(table, store)| {
            library::table_compact(table, store)
        });
        let (table, store) = &mut self.read;
        let read = counted::<{ REGIONS[1] }, _, _>((table, &mut store[..]), |(table, store)| {
            second_reader::table_compact(table, store)
        });
        let alike = are_alike(told, read) && told.kind == FOUND && self.are_alike();
        (Operation::TableCompact, alike)
    }
}
