//! The C calls on a table of payloads that customers share, each behind a safe function. What their
//! blocks rely on is said of all calls in the module above; and **table**: a borrow of a table keeps
//! it alive during the call. Where it is `&mut`, it is the only way to it, and the call stores numbers
//! there, of which any is a `u8`, a `u32` or a `u64`; any that stand there are taken.

use super::Answer;

/// As many holds as all customers have, and as many blocks as a store has at most.
const PLACES: usize = 128;

/// What is known between two calls: `wm_table` of the header.
#[repr(C)]
#[derive(Clone, Debug, PartialEq, Eq)]
pub(crate) struct Table {
    holds: [u8; PLACES],
    users: [u8; PLACES],
    sizes: [u32; PLACES],
    bytes: u64,
}

extern "C" {
    fn wm_table_start(store_len: u64) -> Table;
    fn wm_table_open(
        table: *mut Table,
        store: *mut u8,
        store_len: usize,
        customer: u32,
        payload: *const u8,
        payload_len: usize,
        work: *mut u8,
        work_len: usize,
    ) -> Answer;
    fn wm_table_function_name(
        table: *const Table,
        store: *const u8,
        store_len: usize,
        customer: u32,
        hold: u32,
        function: u32,
        out: *mut u8,
        out_len: usize,
    ) -> Answer;
    fn wm_table_close(
        table: *mut Table,
        store: *const u8,
        store_len: usize,
        customer: u32,
        hold: u32,
    ) -> Answer;
    fn wm_table_compact(table: *mut Table, store: *mut u8, store_len: usize) -> Answer;
}

impl Table {
    pub(crate) fn start(store_len: u64) -> Table {
        // SAFETY: nothing is lent, and any length is taken.
        unsafe { wm_table_start(store_len) }
    }

    pub(crate) fn open(
        &mut self,
        store: &mut [u8],
        customer: u32,
        payload: &[u8],
        work: &mut [u8],
    ) -> Answer {
        // SAFETY: a table; pointers and lengths of two `&mut` slices, the outputs, and of one live
        // slice, lent. All four are borrowed, and so do not overlap. Any customer is taken.
        unsafe {
            wm_table_open(
                self,
                store.as_mut_ptr(),
                store.len(),
                customer,
                payload.as_ptr(),
                payload.len(),
                work.as_mut_ptr(),
                work.len(),
            )
        }
    }

    pub(crate) fn function_name(
        &self,
        store: &[u8],
        customer: u32,
        hold: u32,
        function: u32,
        out: &mut [u8],
    ) -> Answer {
        // SAFETY: a table and pointer and length of one live slice, both lent and only read, and of
        // one `&mut` slice, the output, which overlaps neither. Any customer, hold and index are taken.
        unsafe {
            wm_table_function_name(
                self,
                store.as_ptr(),
                store.len(),
                customer,
                hold,
                function,
                out.as_mut_ptr(),
                out.len(),
            )
        }
    }

    pub(crate) fn close(&mut self, store: &[u8], customer: u32, hold: u32) -> Answer {
        // SAFETY: a table, and pointer and length of one live slice, lent, which does not overlap it.
        // Any customer and hold are taken.
        unsafe { wm_table_close(self, store.as_ptr(), store.len(), customer, hold) }
    }

    pub(crate) fn compact(&mut self, store: &mut [u8]) -> Answer {
        // SAFETY: a table, and pointer and length of one `&mut` slice, the output, which does not
        // overlap it.
        unsafe { wm_table_compact(self, store.as_mut_ptr(), store.len()) }
    }
}

/// The layout that the header gives: three lists and a number, without gaps.
const _: () = {
    assert!(std::mem::size_of::<Table>() == 776);
    assert!(std::mem::align_of::<Table>() == 8);
    assert!(std::mem::offset_of!(Table, users) == 128);
    assert!(std::mem::offset_of!(Table, sizes) == 256);
    assert!(std::mem::offset_of!(Table, bytes) == 768);
};
