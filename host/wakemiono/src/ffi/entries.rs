//! The C calls that list every row of a payload, each behind a safe function on slices. What their blocks rely on is said
//! of all calls in the module above.

use super::Answer;
use crate::{First, Wider};

extern "C" {
    fn wm_names_list(
        payload: *const u8,
        payload_len: usize,
        id: u8,
        firsts: *mut u32,
        firsts_len: usize,
        seconds: *mut u32,
        seconds_len: usize,
        offsets: *mut u64,
        offsets_len: usize,
        lengths: *mut u64,
        lengths_len: usize,
    ) -> Answer;
    fn wm_wide_names_list(
        payload: *const u8,
        payload_len: usize,
        id: u8,
        firsts: *mut u32,
        firsts_len: usize,
        seconds: *mut u32,
        seconds_len: usize,
        offsets: *mut u64,
        offsets_len: usize,
        lengths: *mut u64,
        lengths_len: usize,
    ) -> Answer;
    fn wm_metadata_list(
        payload: *const u8,
        payload_len: usize,
        functions: *mut u32,
        functions_len: usize,
        code_offsets: *mut u32,
        code_offsets_len: usize,
        offsets: *mut u64,
        offsets_len: usize,
        lengths: *mut u64,
        lengths_len: usize,
    ) -> Answer;
    fn wm_hints_list(
        payload: *const u8,
        payload_len: usize,
        functions: *mut u32,
        functions_len: usize,
        code_offsets: *mut u32,
        code_offsets_len: usize,
        likely: *mut u32,
        likely_len: usize,
    ) -> Answer;
    fn wm_old_hints_list(
        payload: *const u8,
        payload_len: usize,
        functions: *mut u32,
        functions_len: usize,
        code_offsets: *mut u32,
        code_offsets_len: usize,
        likely: *mut u32,
        likely_len: usize,
    ) -> Answer;
}

/// Rows of two numbers and a place in what was lent, in four lists of one length.
#[derive(Default)]
pub struct PlaceRows {
    pub(crate) firsts: Vec<u32>,
    pub(crate) seconds: Vec<u32>,
    pub(crate) offsets: Vec<u64>,
    pub(crate) lengths: Vec<u64>,
}

/// Rows of two numbers and a hint, in three lists of one length.
#[derive(Default)]
pub(crate) struct HintRows {
    pub(crate) functions: Vec<u32>,
    pub(crate) offsets: Vec<u32>,
    pub(crate) likely: Vec<u32>,
}

/// Rows that a call fills in.
pub(crate) trait Rows: Default {
    /// Room for so many.
    fn with_room(count: usize) -> Self;
}

impl Rows for PlaceRows {
    fn with_room(count: usize) -> PlaceRows {
        PlaceRows {
            firsts: vec![0; count],
            seconds: vec![0; count],
            offsets: vec![0; count],
            lengths: vec![0; count],
        }
    }
}

impl Rows for HintRows {
    fn with_room(count: usize) -> HintRows {
        HintRows {
            functions: vec![0; count],
            offsets: vec![0; count],
            likely: vec![0; count],
        }
    }
}

/// Safe functions, each with the C call that it makes: one that is lent a payload and told numbers, and fills in rows
/// with a place.
macro_rules! listing_places {
    ($($vis:vis fn $name:ident($($number:ident: $type:ty),*) = $call:ident;)*) => {$(
        $vis fn $name(lent: &[u8], $($number: $type,)* rows: &mut PlaceRows) -> Answer {
            // SAFETY: pointers and lengths of one live slice, lent, and of four `&mut` slices, the outputs, which are
            // vectors of their own, with numbers aligned as theirs are. Any id may be asked, and lists that are too short
            // are refused by the call.
            unsafe {
                $call(
                    lent.as_ptr(),
                    lent.len(),
                    $($number,)*
                    rows.firsts.as_mut_ptr(),
                    rows.firsts.len(),
                    rows.seconds.as_mut_ptr(),
                    rows.seconds.len(),
                    rows.offsets.as_mut_ptr(),
                    rows.offsets.len(),
                    rows.lengths.as_mut_ptr(),
                    rows.lengths.len(),
                )
            }
        }
    )*};
}

/// The same of calls that fill in rows with a hint.
macro_rules! listing_hints {
    ($($name:ident = $call:ident;)*) => {$(
        pub(crate) fn $name(lent: &[u8], rows: &mut HintRows) -> Answer {
            // SAFETY: pointers and lengths of one live slice, lent, and of three `&mut` slices, the outputs, which are
            // vectors of their own, with numbers aligned as `u32` is. Lists that are too short are refused by the call.
            unsafe {
                $call(
                    lent.as_ptr(),
                    lent.len(),
                    rows.functions.as_mut_ptr(),
                    rows.functions.len(),
                    rows.offsets.as_mut_ptr(),
                    rows.offsets.len(),
                    rows.likely.as_mut_ptr(),
                    rows.likely.len(),
                )
            }
        }
    )*};
}

/// The call that lists names, which every edition has.
///
/// It is `pub` for the sake of [`Edition`](crate::Edition), and cannot be named outside this crate.
pub trait ListCalls {
    fn list(lent: &[u8], id: u8, rows: &mut PlaceRows) -> Answer;
}

impl ListCalls for First {
    listing_places! {
        fn list(id: u8) = wm_names_list;
    }
}

impl ListCalls for Wider {
    listing_places! {
        fn list(id: u8) = wm_wide_names_list;
    }
}

listing_places! {
    pub(crate) fn metadata_list() = wm_metadata_list;
}

listing_hints! {
    hints_list = wm_hints_list;
    old_hints_list = wm_old_hints_list;
}
