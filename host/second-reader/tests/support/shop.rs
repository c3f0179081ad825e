//! A shared table with its store, and calls on it that look at what they may not change.

use super::found;
use second_reader::*;

pub const BLOCK: usize = 512;
pub const PAYLOAD: usize = 508;
pub const MOST_BLOCKS: usize = 128;
pub const CUSTOMERS: u32 = 16;
pub const HOLDS: u32 = 8;

/// What a store and a lent buffer hold before anything is written there.
pub const UNTOUCHED: u8 = 0xA5;

/// Function 0 is called `a`, function 1 is not named, function 2 has an empty name.
pub const NAMED: [u8; 8] = [0x01, 0x06, 0x02, 0x00, 0x01, b'a', 0x02, 0x00];

/// [`NAMED`] as another tool spells it: the size and an index are padded, and a list is empty.
pub const NAMED_OTHERWISE: [u8; 13] = [
    0x01, 0x87, 0x00, 0x02, 0x80, 0x00, 0x01, b'a', 0x02, 0x00, 0x04, 0x01, 0x00,
];

/// A table with the store that it was started over.
#[derive(Clone, Debug, PartialEq, Eq)]
pub struct Shop {
    pub table: Table,
    pub store: Vec<u8>,
}

impl Shop {
    pub fn new(blocks: usize) -> Shop {
        let store = vec![UNTOUCHED; blocks * BLOCK];
        Shop {
            table: table_start(store.len() as u64),
            store,
        }
    }

    /// An open with a work buffer of a length, and the buffer as it is then.
    pub fn open_with(&mut self, customer: u32, payload: &[u8], room: usize) -> (Answer, Vec<u8>) {
        let before = self.clone();
        let mut work = vec![UNTOUCHED; room];
        let answer = table_open(
            &mut self.table,
            &mut self.store,
            customer,
            payload,
            &mut work,
        );
        assert!(answer.kind == Kind::Found || *self == before);
        (answer, work)
    }

    /// An open with room for all of the payload. The work buffer is as the answer wants it to be.
    pub fn open(&mut self, customer: u32, payload: &[u8]) -> Answer {
        let (answer, work) = self.open_with(customer, payload, payload.len());
        let mut expected = vec![UNTOUCHED; payload.len()];
        if answer.kind == Kind::Found || [26, 27].contains(&answer.code) {
            let _ = names_canonical(payload, &mut expected);
        }
        assert_eq!(work, expected);
        answer
    }

    pub fn open_granted(&mut self, customer: u32, payload: &[u8]) -> u32 {
        let answer = self.open(customer, payload);
        assert_eq!(answer, found(0, answer.length));
        answer.length as u32
    }

    pub fn ask_with(
        &self,
        customer: u32,
        hold: u32,
        function: u32,
        room: usize,
    ) -> (Answer, Vec<u8>) {
        let mut out = vec![UNTOUCHED; room];
        let answer =
            table_function_name(&self.table, &self.store, customer, hold, function, &mut out);
        (answer, out)
    }

    /// What a question answers where the output has room, and the name that it copies.
    pub fn ask(&self, customer: u32, hold: u32, function: u32) -> (Answer, Vec<u8>) {
        const ROOM: usize = 40;
        let (answer, mut out) = self.ask_with(customer, hold, function, ROOM);
        let length = answer.length as usize;
        assert_eq!(out[length..], [UNTOUCHED; ROOM][length..]);
        out.truncate(length);
        (answer, out)
    }

    pub fn close(&mut self, customer: u32, hold: u32) -> Answer {
        let before = self.clone();
        let answer = table_close(&mut self.table, &self.store, customer, hold);
        assert_eq!(
            self.store, before.store,
            "a close leaves the store as it is"
        );
        assert!(answer.kind == Kind::Found || *self == before);
        answer
    }

    pub fn compact(&mut self) -> Answer {
        let before = self.clone();
        let answer = table_compact(&mut self.table, &mut self.store);
        assert!(answer.kind == Kind::Found || *self == before);
        answer
    }

    pub fn block(&self, number: usize) -> &[u8] {
        &self.store[number * BLOCK..][..BLOCK]
    }

    /// The first block and the users of what is stored.
    pub fn stored(&self) -> Vec<(usize, usize)> {
        let stored = self.table.stored(&self.store);
        stored.iter().map(|it| (it.first_block, it.users)).collect()
    }

    /// Changes bytes of a block and makes its check right again.
    pub fn tamper(&mut self, number: usize, at: usize, bytes: &[u8]) {
        let block = &mut self.store[number * BLOCK..][..BLOCK];
        block[at..at + bytes.len()].copy_from_slice(bytes);
        let words = block[..PAYLOAD].chunks(4);
        let sum = words.map(|word| u64::from(u32::from_le_bytes(word.try_into().unwrap())));
        let check = sum.sum::<u64>() as u32;
        block[PAYLOAD..].copy_from_slice(&check.to_le_bytes());
    }
}

pub const CLOSED: Answer = found(0, 0);
pub const COMPACTED: Answer = found(0, 0);

/// A canonical payload of a length of which all is kept, and whose contents are all this byte.
pub fn kept_payload(length: usize, byte: u8) -> Vec<u8> {
    const KEPT: u8 = 12;
    let size_length = match length {
        0x00..=0x81 => 1,
        0x82..=0x4002 => 2,
        _ => 3,
    };
    let contents = length - 1 - size_length;
    let mut payload = vec![KEPT];
    for place in 0..size_length {
        let goes_on = if place + 1 < size_length { 0x80 } else { 0 };
        payload.push((contents >> (7 * place)) as u8 & 0x7F | goes_on);
    }
    payload.resize(length, byte);
    assert!(names_is_canonical(&payload));
    payload
}
