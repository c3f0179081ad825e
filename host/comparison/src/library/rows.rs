//! The calls that list every row of a payload.

use super::Told;

/// Declares calls that list rows of two numbers and a place, with a safe function for each.
macro_rules! places {
    ($($call:ident = $symbol:ident ($($argument:ident: $of:ty),*);)*) => {
        mod of_places {
            extern "C" {
                $(pub fn $symbol(
                    payload: *const u8, payload_len: usize $(, $argument: $of)*, firsts: *mut u32, firsts_len: usize,
                    seconds: *mut u32, seconds_len: usize, offsets: *mut u64, offsets_len: usize, lengths: *mut u64,
                    lengths_len: usize
                ) -> super::Told;)*
            }
        }
        $(
            #[doc = concat!("`", stringify!($symbol), "` of the header, on slices.")]
            pub fn $call(
                payload: &[u8] $(, $argument: $of)*, firsts: &mut [u32], seconds: &mut [u32], offsets: &mut [u64],
                lengths: &mut [u64],
            ) -> Told {
                // SAFETY: all are live slices, no list overlaps another of them, and the call stores into the lists alone.
                unsafe {
                    of_places::$symbol(
                        payload.as_ptr(), payload.len() $(, $argument)*, firsts.as_mut_ptr(), firsts.len(),
                        seconds.as_mut_ptr(), seconds.len(), offsets.as_mut_ptr(), offsets.len(), lengths.as_mut_ptr(),
                        lengths.len(),
                    )
                }
            }
        )*
    };
}

places! {
    names_list = wm_names_list(id: u8);
    wide_names_list = wm_wide_names_list(id: u8);
    metadata_list = wm_metadata_list();
}

/// Declares calls that list rows of two numbers and a hint, with a safe function for each.
macro_rules! hints {
    ($($call:ident = $symbol:ident;)*) => {
        mod of_hints {
            extern "C" {
                $(pub fn $symbol(
                    payload: *const u8, payload_len: usize, functions: *mut u32, functions_len: usize,
                    code_offsets: *mut u32, code_offsets_len: usize, likely: *mut u32, likely_len: usize
                ) -> super::Told;)*
            }
        }
        $(
            #[doc = concat!("`", stringify!($symbol), "` of the header, on slices.")]
            pub fn $call(
                payload: &[u8], functions: &mut [u32], code_offsets: &mut [u32], likely: &mut [u32],
            ) -> Told {
                // SAFETY: all are live slices, no list overlaps another of them, and the call stores into the lists alone.
                unsafe {
                    of_hints::$symbol(
                        payload.as_ptr(), payload.len(), functions.as_mut_ptr(), functions.len(),
                        code_offsets.as_mut_ptr(), code_offsets.len(), likely.as_mut_ptr(), likely.len(),
                    )
                }
            }
        )*
    };
}

hints! {
    hints_list = wm_hints_list;
    old_hints_list = wm_old_hints_list;
}
