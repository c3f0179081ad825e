//! Memory that ends where nothing is mapped.

use std::ffi::{c_int, c_void};
use std::fmt::Debug;
use std::mem::size_of;
use std::ptr;

use crate::library::{Stream, TableState};

/// No page of a machine that runs x86-64 programs is larger.
const PAGE: usize = 65_536;

const NO_ACCESS: c_int = 0;
const READ_AND_WRITE: c_int = 1 | 2;
const PRIVATE_AND_ANONYMOUS: c_int = 0x02 | 0x20;

extern "C" {
    fn mmap(
        at: *mut c_void,
        len: usize,
        prot: c_int,
        flags: c_int,
        fd: c_int,
        offset: i64,
    ) -> *mut c_void;
    fn mprotect(at: *mut c_void, len: usize, prot: c_int) -> c_int;
    fn munmap(at: *mut c_void, len: usize) -> c_int;
}

/// A number, of which any bytes are one.
pub trait Number: Copy + Debug + PartialEq + private::Sealed {
    /// The one whose bytes are all this.
    fn of_bytes(byte: u8) -> Self;
}

mod private {
    pub trait Sealed {}
    impl Sealed for u32 {}
    impl Sealed for u64 {}
}

impl Number for u32 {
    fn of_bytes(byte: u8) -> u32 {
        u32::from_ne_bytes([byte; 4])
    }
}

impl Number for u64 {
    fn of_bytes(byte: u8) -> u64 {
        u64::from_ne_bytes([byte; 8])
    }
}

/// Room for bytes that is followed by memory that cannot be read.
pub struct Guarded {
    start: *mut u8,
    room: usize,
}

impl Guarded {
    /// Maps at least so many bytes.
    pub fn new(room: usize) -> Guarded {
        let room = room.div_ceil(PAGE).max(1) * PAGE;
        // SAFETY: a new anonymous mapping overlaps nothing that Rust knows of.
        let start = unsafe {
            mmap(
                ptr::null_mut(),
                room + PAGE,
                READ_AND_WRITE,
                PRIVATE_AND_ANONYMOUS,
                -1,
                0,
            )
        };
        assert!(start as isize != -1, "no memory could be mapped");
        let start = start.cast::<u8>();
        // SAFETY: the last page belongs to the mapping just made, and nothing refers to it.
        let barred = unsafe { mprotect(start.add(room).cast(), PAGE, NO_ACCESS) };
        assert_eq!(barred, 0, "the page behind could not be barred");
        Guarded { start, room }
    }

    /// The last `len` bytes before the barred page.
    pub fn last(&mut self, len: usize) -> &mut [u8] {
        assert!(len <= self.room);
        // SAFETY: these bytes are mapped, initialised with zeros by the system, and borrowed from self alone.
        unsafe { std::slice::from_raw_parts_mut(self.start.add(self.room - len), len) }
    }

    /// The last `len` numbers before the barred page.
    pub fn last_numbers<N: Number>(&mut self, len: usize) -> &mut [N] {
        let place = self.last(len * size_of::<N>());
        // SAFETY: the room ends at a page, so this start is aligned; any bytes are numbers, and they are borrowed.
        unsafe { std::slice::from_raw_parts_mut(place.as_mut_ptr().cast::<N>(), len) }
    }

    /// The last state of a stream before the barred page.
    pub fn last_stream(&mut self) -> &mut Stream {
        let place = self.last(size_of::<Stream>());
        // SAFETY: the room ends at a page, so this start is aligned; any bytes are a state, and they are borrowed.
        unsafe { &mut *place.as_mut_ptr().cast::<Stream>() }
    }

    /// The last table before the barred page.
    pub fn last_table(&mut self) -> &mut TableState {
        let place = self.last(size_of::<TableState>());
        // SAFETY: the room ends at a page, so this start is aligned; any bytes are a table, and they are borrowed.
        unsafe { &mut *place.as_mut_ptr().cast::<TableState>() }
    }

    /// Bytes copied to the very end.
    pub fn lend(&mut self, bytes: &[u8]) -> &[u8] {
        let place = self.last(bytes.len());
        place.copy_from_slice(bytes);
        place
    }

    /// Numbers copied to the very end.
    pub fn lend_numbers(&mut self, numbers: &[u32]) -> &[u32] {
        let place = self.last_numbers(numbers.len());
        place.copy_from_slice(numbers);
        place
    }
}

impl Drop for Guarded {
    fn drop(&mut self) {
        // SAFETY: the mapping was made by `new` with this length, and no borrow of it outlives self.
        unsafe { munmap(self.start.cast(), self.room + PAGE) };
    }
}
