//! Name payloads that customers share, in a store that the table owns.

use std::fmt;

use crate::ffi::table::Table;
use crate::{Customer, FunctionIndex, Hold, Name, NamePayload, Reason, Refusal};

/// A table of name payloads that sixteen customers share, with the store in which they stand.
///
/// A customer opens a payload, in the first edition of names, and gets a hold on it; asks function
/// names through the hold; and closes it. Payloads are stored in their canonical form, so that those
/// which answer every question alike are stored once, whoever opens them and however a tool has
/// spelled them. When the last hold on a payload is closed, its blocks are free and are used again.
///
/// ```
/// use wakemiono::{Customer, FunctionIndex, NamePayload, SharedTable};
///
/// let by_one_tool = [0x01, 0x04, 0x01, 0x00, 0x01, 0x61];
/// let by_another = [0x01, 0x85, 0x00, 0x01, 0x00, 0x81, 0x00, 0x61];
/// let (one, other) = (Customer(0), Customer(1));
///
/// let mut table = SharedTable::new(1)?; // one block has room for one of them
/// let hold = table.open(one, NamePayload::new(&by_one_tool))?;
/// let others_hold = table.open(other, NamePayload::new(&by_another))?;
///
/// table.close(one, hold)?;
/// let name = table.function_name(other, others_hold, FunctionIndex(0))?;
/// assert_eq!(name.as_deref(), Some(&b"a"[..]));
/// # Ok::<(), wakemiono::Refusal>(())
/// ```
///
/// What a customer is answered depends on nothing that other customers do, save that an open may be
/// refused for want of room; [`compact`](Self::compact) joins the room that closes have left here and
/// there. No answer says where something stands in the store, nor who else has it.
///
/// A question only borrows the table, so that under a [`RwLock`](std::sync::RwLock) many are asked at a
/// time. A clone has a store of its own, with all that is open in it.
#[derive(Clone)]
pub struct SharedTable {
    table: Table,
    store: Box<[u8]>,
}

/// Longer names than most are. A name that is longer is asked for a second time.
const LONG_NAME: usize = 256;

impl SharedTable {
    /// How many customers there are: 0 to 15.
    ///
    /// ```
    /// use wakemiono::{Customer, NamePayload, SharedTable};
    ///
    /// let mut table = SharedTable::new(1)?;
    /// for customer in (0..SharedTable::CUSTOMERS).map(Customer) {
    ///     table.open(customer, NamePayload::new(&[]))?;
    /// }
    /// # Ok::<(), wakemiono::Refusal>(())
    /// ```
    pub const CUSTOMERS: u32 = 16;

    /// How many holds each customer has: 0 to 7.
    ///
    /// ```
    /// use wakemiono::{Customer, Hold, NamePayload, SharedTable};
    ///
    /// let mut table = SharedTable::new(1)?;
    /// for hold in (0..SharedTable::HOLDS).map(Hold) {
    ///     assert_eq!(table.open(Customer(0), NamePayload::new(&[]))?, hold);
    /// }
    /// # Ok::<(), wakemiono::Refusal>(())
    /// ```
    pub const HOLDS: u32 = 8;

    /// How many bytes a block of the store has. Of these 508 are for the payload, and four are a check.
    ///
    /// ```
    /// use wakemiono::SharedTable;
    ///
    /// assert_eq!(SharedTable::new(3)?.store().len(), 3 * SharedTable::BLOCK);
    /// # Ok::<(), wakemiono::Refusal>(())
    /// ```
    pub const BLOCK: usize = 512;

    /// How many blocks a store has at most.
    ///
    /// ```
    /// use wakemiono::SharedTable;
    ///
    /// assert!(SharedTable::new(SharedTable::MOST_BLOCKS).is_ok());
    /// assert!(SharedTable::new(SharedTable::MOST_BLOCKS + 1).is_err());
    /// ```
    pub const MOST_BLOCKS: usize = 128;

    /// A table over a store of so many blocks, with nothing stored.
    ///
    /// ```
    /// use wakemiono::{Reason, SharedTable};
    ///
    /// assert!(SharedTable::new(16).is_ok());
    /// assert_eq!(SharedTable::new(0).unwrap_err().reason(), Reason::OtherStore);
    /// ```
    ///
    /// # Errors
    ///
    /// [`OtherStore`](Reason::OtherStore) for no block, or for more than
    /// [`MOST_BLOCKS`](Self::MOST_BLOCKS). No other call gives it, since the store stays in here.
    pub fn new(blocks: usize) -> Result<SharedTable, Refusal> {
        if !(1..=Self::MOST_BLOCKS).contains(&blocks) {
            return Err(Refusal::in_bytes(Reason::OtherStore, 0));
        }
        let store = vec![0; blocks * Self::BLOCK].into_boxed_slice();
        let table = Table::start(store.len() as u64);
        Ok(SharedTable { table, store })
    }

    /// Opens a payload for a customer, who gets their lowest unused hold on it.
    ///
    /// ```
    /// use wakemiono::{Customer, Hold, NamePayload, SharedTable};
    ///
    /// let mut table = SharedTable::new(2)?;
    /// let payload = NamePayload::new(&[0x01, 0x04, 0x01, 0x00, 0x01, 0x61]);
    /// assert_eq!(table.open(Customer(5), payload)?, Hold(0));
    /// assert_eq!(table.open(Customer(5), payload)?, Hold(1));
    /// assert_eq!(table.open(Customer(6), payload)?, Hold(0));
    /// # Ok::<(), wakemiono::Refusal>(())
    /// ```
    ///
    /// It is judged in the first edition. What the wider edition accepts is accepted by the first too,
    /// which has the same names of functions; so who uses the wider edition judges there, and opens the
    /// bytes here. A payload of the wider edition is not taken for one of the first:
    ///
    /// ```compile_fail,E0308
    /// use wakemiono::{Customer, NamePayload, SharedTable};
    ///
    /// SharedTable::new(2)?.open(Customer(5), NamePayload::wider(&[]));
    /// # Ok::<(), wakemiono::Refusal>(())
    /// ```
    ///
    /// # Errors
    ///
    /// In this order: [`NoCustomer`](Reason::NoCustomer); what the payload is refused for, as
    /// [`judge`](NamePayload::judge) says it; [`AllHoldsOpen`](Reason::AllHoldsOpen);
    /// [`StoreDamaged`](Reason::StoreDamaged) where the check of any used block is wrong; and
    /// [`NoRoom`](Reason::NoRoom) where the payload is not stored yet and no run of free blocks is long
    /// enough. The table is then as it was.
    pub fn open(&mut self, customer: Customer, payload: NamePayload<'_>) -> Result<Hold, Refusal> {
        // The canonical form is never longer than the payload.
        let mut work = vec![0; payload.as_bytes().len()];
        self.open_with(customer, payload, &mut work)
    }

    /// The same with a work buffer of the caller's, at whose front the canonical form is written. What
    /// is behind it is unchanged. One as long as the payload is always enough.
    ///
    /// ```
    /// use wakemiono::{Customer, NamePayload, SharedTable};
    ///
    /// let mut table = SharedTable::new(1)?;
    /// let padded = NamePayload::new(&[0x01, 0x85, 0x00, 0x01, 0x00, 0x81, 0x00, 0x61]);
    /// let mut work = [0xEE; 8];
    /// table.open_with(Customer(0), padded, &mut work)?;
    /// assert_eq!(work, [0x01, 0x04, 0x01, 0x00, 0x01, 0x61, 0xEE, 0xEE]);
    /// # Ok::<(), wakemiono::Refusal>(())
    /// ```
    ///
    /// # Errors
    ///
    /// As [`open`](Self::open); and where the payload is accepted,
    /// [`OutputTooShort`](Reason::OutputTooShort) with the length that the work buffer needs, before the
    /// others. The canonical form is written also where the refusal is
    /// [`StoreDamaged`](Reason::StoreDamaged) or [`NoRoom`](Reason::NoRoom); after any other the work
    /// buffer is as it was.
    pub fn open_with(
        &mut self,
        customer: Customer,
        payload: NamePayload<'_>,
        work: &mut [u8],
    ) -> Result<Hold, Refusal> {
        let payload = payload.as_bytes();
        let answer = self.table.open(&mut self.store, customer.0, payload, work);
        answer.hold()
    }

    /// A function's name in the payload that a hold has open, as
    /// [`NamePayload::function_name`] gives it, and copied, since the store may be used for something
    /// else later on.
    ///
    /// ```
    /// use wakemiono::{Customer, FunctionIndex, NamePayload, SharedTable};
    ///
    /// let mut table = SharedTable::new(1)?;
    /// let customer = Customer(0);
    /// let hold = table.open(customer, NamePayload::new(&[0x01, 0x04, 0x01, 0x03, 0x01, 0x66]))?;
    /// assert_eq!(table.function_name(customer, hold, FunctionIndex(3))?, Some(b"f".to_vec()));
    /// assert_eq!(table.function_name(customer, hold, FunctionIndex(4))?, None);
    /// # Ok::<(), wakemiono::Refusal>(())
    /// ```
    ///
    /// # Errors
    ///
    /// In this order: [`NoCustomer`](Reason::NoCustomer); [`HoldNotOpen`](Reason::HoldNotOpen); and
    /// [`StoreDamaged`](Reason::StoreDamaged) where the check of one of the payload's blocks is wrong,
    /// or the payload is no longer accepted.
    pub fn function_name(
        &self,
        customer: Customer,
        hold: Hold,
        function: FunctionIndex,
    ) -> Result<Option<Vec<u8>>, Refusal> {
        let copied = |out: &mut [u8]| {
            let name = self.function_name_into(customer, hold, function, out);
            name.map(|name| name.map(|name| name.as_bytes().to_vec()))
        };
        let needed = match copied(&mut [0; LONG_NAME]) {
            Err(refusal) if refusal.reason() == Reason::OutputTooShort => refusal.offset(),
            answer => return answer,
        };
        let needed = usize::try_from(needed).expect("a length of what is in memory is a usize");
        copied(&mut vec![0; needed])
    }

    /// The same, copied to the front of an output. What is behind it is unchanged. An output as long as
    /// the payload that was opened is always enough.
    ///
    /// ```
    /// use wakemiono::{Customer, FunctionIndex, NamePayload, SharedTable};
    ///
    /// let mut table = SharedTable::new(1)?;
    /// let customer = Customer(0);
    /// let hold = table.open(customer, NamePayload::new(&[0x01, 0x04, 0x01, 0x03, 0x01, 0x66]))?;
    /// let mut out = [0xEE; 3];
    /// let name = table.function_name_into(customer, hold, FunctionIndex(3), &mut out)?;
    /// assert_eq!(name.unwrap().to_str(), Ok("f"));
    /// assert_eq!(out, [0x66, 0xEE, 0xEE]);
    /// # Ok::<(), wakemiono::Refusal>(())
    /// ```
    ///
    /// # Errors
    ///
    /// As [`function_name`](Self::function_name), and then
    /// [`OutputTooShort`](Reason::OutputTooShort) with the length of the name. A refusal leaves the
    /// output as it was.
    pub fn function_name_into<'o>(
        &self,
        customer: Customer,
        hold: Hold,
        function: FunctionIndex,
        out: &'o mut [u8],
    ) -> Result<Option<Name<'o>>, Refusal> {
        let (table, store) = (&self.table, &self.store);
        let answer = table.function_name(store, customer.0, hold.0, function.0, out);
        let length = answer.copied(out.len())?;
        Ok(length.map(|length| Name::from(&out[..length])))
    }

    /// Closes a hold of a customer, who may get its number again from a later open. The store is not
    /// written, and the blocks of a payload that nobody has open any more are free.
    ///
    /// ```
    /// use wakemiono::{Customer, NamePayload, Reason, SharedTable};
    ///
    /// let mut table = SharedTable::new(1)?;
    /// let one_name = NamePayload::new(&[0x01, 0x04, 0x01, 0x00, 0x01, 0x61]);
    /// let hold = table.open(Customer(0), NamePayload::new(&[]))?;
    /// assert_eq!(table.open(Customer(1), one_name).unwrap_err().reason(), Reason::NoRoom);
    /// table.close(Customer(0), hold)?;
    /// table.open(Customer(1), one_name)?;
    /// # Ok::<(), wakemiono::Refusal>(())
    /// ```
    ///
    /// # Errors
    ///
    /// [`NoCustomer`](Reason::NoCustomer), then [`HoldNotOpen`](Reason::HoldNotOpen). The table is then
    /// as it was.
    pub fn close(&mut self, customer: Customer, hold: Hold) -> Result<(), Refusal> {
        self.table.close(&self.store, customer.0, hold.0).granted()
    }

    /// Closes the gaps that closed payloads have left: what is stored moves to the front of the store, in
    /// the order in which it stands, and the blocks behind it keep their bytes. It is nobody's call but
    /// that of whoever looks after the table, after a busy time or when an open found no room.
    ///
    /// ```
    /// use wakemiono::{function_names, Customer, FunctionIndex, NamePayload, Reason, SharedTable};
    ///
    /// let short = function_names([(FunctionIndex(0), "main")])?;
    /// let long = function_names([(FunctionIndex(0), "n".repeat(600))])?; // it takes two blocks
    /// let (one, other) = (Customer(0), Customer(1));
    ///
    /// let mut table = SharedTable::new(3)?;
    /// let before = table.open(one, NamePayload::new(&[]))?;
    /// let hold = table.open(other, NamePayload::new(&short))?;
    /// table.close(one, before)?; // the first block is free again, and so is the last
    ///
    /// let opened = table.open(one, NamePayload::new(&long));
    /// assert_eq!(opened.unwrap_err().reason(), Reason::NoRoom);
    /// table.compact()?;
    /// table.open(one, NamePayload::new(&long))?;
    ///
    /// let name = table.function_name(other, hold, FunctionIndex(0))?;
    /// assert_eq!(name.as_deref(), Some(&b"main"[..]));
    /// # Ok::<(), Box<dyn std::error::Error>>(())
    /// ```
    ///
    /// Every customer is answered as before, save that an open that found no room may find it now. The
    /// first one after the step that gets as far, with no close between, finds room exactly where its
    /// payload is stored already or as many blocks are free in all as it takes.
    ///
    /// # Errors
    ///
    /// [`StoreDamaged`](Reason::StoreDamaged) where the check of any used block is wrong, whether it would
    /// have to move or not. Nothing has moved then, and the table is as it was.
    pub fn compact(&mut self) -> Result<(), Refusal> {
        self.table.compact(&mut self.store).granted()
    }

    /// The store as it stands, for whoever looks after it: what all customers have stored, and in blocks
    /// that are free whatever they held last.
    ///
    /// ```
    /// use wakemiono::{Customer, NamePayload, SharedTable};
    ///
    /// let mut table = SharedTable::new(2)?;
    /// let payload = [0x01, 0x04, 0x01, 0x00, 0x01, 0x61];
    /// table.open(Customer(0), NamePayload::new(&payload))?;
    /// assert!(table.store().starts_with(&payload));
    /// # Ok::<(), wakemiono::Refusal>(())
    /// ```
    #[must_use]
    pub fn store(&self) -> &[u8] {
        &self.store
    }
}

impl fmt::Debug for SharedTable {
    fn fmt(&self, f: &mut fmt::Formatter<'_>) -> fmt::Result {
        let blocks = self.store.len() / Self::BLOCK;
        write!(f, "SharedTable({blocks} blocks)")
    }
}

#[cfg(test)]
mod tests {
    use super::*;

    /// Function 0 is called `a`.
    const NAMED: [u8; 6] = [0x01, 0x04, 0x01, 0x00, 0x01, 0x61];

    const CUSTOMER: Customer = Customer(3);

    /// A table of two blocks, with one hold open.
    fn opened() -> (SharedTable, Hold) {
        let mut table = SharedTable::new(2).unwrap();
        let hold = table.open(CUSTOMER, NamePayload::new(&NAMED)).unwrap();
        (table, hold)
    }

    fn number<T: fmt::Debug>(answer: Result<T, Refusal>) -> u32 {
        answer.unwrap_err().number()
    }

    fn ask(table: &SharedTable, hold: Hold) -> Result<Option<Vec<u8>>, Refusal> {
        table.function_name(CUSTOMER, hold, FunctionIndex(0))
    }

    /// The check of its block, and the payload with a check that is right.
    #[test]
    fn what_was_damaged_is_not_served() {
        let (mut table, hold) = opened();
        let before = table.clone();
        table.store[5] ^= 1;
        assert_eq!(number(ask(&table, hold)), 27);
        assert_eq!(number(table.open(CUSTOMER, NamePayload::new(&[]))), 27);
        assert_eq!(table.table, before.table, "a refusal changes nothing");
        table.store.fill(0);
        table.store[0] = 0x01;
        table.store[508] = 0x01;
        assert_eq!(number(ask(&table, hold)), 27);
        assert_eq!(table.close(CUSTOMER, hold), Ok(()));
        assert_eq!(table.open(CUSTOMER, NamePayload::new(&NAMED)), Ok(Hold(0)));
        assert_eq!(ask(&table, Hold(0)), Ok(Some(b"a".to_vec())));
    }

    #[test]
    fn the_work_buffer_of_an_open_that_is_refused_for_the_store() {
        let (mut table, _) = opened();
        table.store[5] ^= 1;
        let mut work = [0xEE; 7];
        let opened = table.open_with(CUSTOMER, NamePayload::new(&NAMED), &mut work);
        assert_eq!(number(opened), 27);
        assert_eq!(work, [0x01, 0x04, 0x01, 0x00, 0x01, 0x61, 0xEE]);
    }

    /// A block that would have to move, and one that would not.
    #[test]
    fn what_was_damaged_is_not_moved() {
        let (mut table, hold) = opened();
        for closed in [false, true] {
            if closed {
                table.open(CUSTOMER, NamePayload::new(&[])).unwrap();
                table.close(CUSTOMER, hold).unwrap();
            }
            let used = usize::from(closed);
            table.store[used * SharedTable::BLOCK] ^= 1;
            let before = table.clone();
            assert_eq!(number(table.compact()), 27);
            assert_eq!(table.table, before.table);
            assert_eq!(table.store, before.store);
            table.store[used * SharedTable::BLOCK] ^= 1;
        }
        assert_eq!(table.compact(), Ok(()));
        assert_eq!(ask(&table, Hold(1)), Ok(None));
    }

    /// Which no call of this type lends.
    #[test]
    fn a_store_of_another_length_is_refused_first() {
        let (mut table, hold) = opened();
        table.store = vec![0; 3 * SharedTable::BLOCK].into();
        let nobody = Customer(16);
        assert_eq!(number(table.open(nobody, NamePayload::new(&[]))), 30);
        assert_eq!(number(ask(&table, hold)), 30);
        assert_eq!(number(table.close(nobody, hold)), 30);
        assert_eq!(number(table.compact()), 30);
    }

    #[test]
    fn a_question_and_refusals_change_nothing() {
        let (mut table, hold) = opened();
        let before = table.clone();
        assert_eq!(ask(&table, hold), Ok(Some(b"a".to_vec())));
        assert_eq!(number(ask(&table, Hold(1))), 24);
        assert_eq!(number(table.close(CUSTOMER, Hold(8))), 24);
        assert_eq!(number(table.open(Customer(16), NamePayload::new(&[]))), 23);
        let cut_short = NamePayload::new(&NAMED[..5]);
        assert_eq!(number(table.open(CUSTOMER, cut_short)), 2);
        assert_eq!(table.table, before.table);
        assert_eq!(table.store, before.store);
    }
}
