//! The C calls on two name payloads, each behind a safe function on slices. What their blocks rely on
//! is said of all calls in the module above.

use crate::{First, Wider};

/// The answer of these calls, by value: `wm_pair_answer` of the header.
///
/// It is `pub` for the sake of [`PairCalls`], and cannot be named outside this crate.
#[repr(C)]
#[derive(Clone, Copy, Debug, PartialEq, Eq)]
pub struct PairAnswer {
    pub(crate) kind: u32,
    pub(crate) code: u32,
    pub(crate) offset: u64,
    pub(crate) length: u64,
    pub(crate) whose: u64,
}

pub(crate) const NOBODY: u64 = 0;
pub(crate) const SEPARATE: u64 = 1;
pub(crate) const OWN: u64 = 2;

extern "C" {
    fn wm_pair_module_name(
        separate: *const u8,
        separate_len: usize,
        own: *const u8,
        own_len: usize,
    ) -> PairAnswer;
    fn wm_pair_function_name(
        separate: *const u8,
        separate_len: usize,
        own: *const u8,
        own_len: usize,
        function: u32,
    ) -> PairAnswer;
    fn wm_pair_local_name(
        separate: *const u8,
        separate_len: usize,
        own: *const u8,
        own_len: usize,
        function: u32,
        local: u32,
    ) -> PairAnswer;
    fn wm_pair_type_name(
        separate: *const u8,
        separate_len: usize,
        own: *const u8,
        own_len: usize,
        type_: u32,
    ) -> PairAnswer;
    fn wm_pair_field_name(
        separate: *const u8,
        separate_len: usize,
        own: *const u8,
        own_len: usize,
        type_: u32,
        field: u32,
    ) -> PairAnswer;
    fn wm_pair_tag_name(
        separate: *const u8,
        separate_len: usize,
        own: *const u8,
        own_len: usize,
        tag: u32,
    ) -> PairAnswer;
    fn wm_pair_kept(
        separate: *const u8,
        separate_len: usize,
        own: *const u8,
        own_len: usize,
        id: u8,
    ) -> PairAnswer;
    fn wm_pair_join(
        separate: *const u8,
        separate_len: usize,
        own: *const u8,
        own_len: usize,
        out: *mut u8,
        out_len: usize,
    ) -> PairAnswer;

    fn wm_wide_pair_module_name(
        separate: *const u8,
        separate_len: usize,
        own: *const u8,
        own_len: usize,
    ) -> PairAnswer;
    fn wm_wide_pair_function_name(
        separate: *const u8,
        separate_len: usize,
        own: *const u8,
        own_len: usize,
        function: u32,
    ) -> PairAnswer;
    fn wm_wide_pair_local_name(
        separate: *const u8,
        separate_len: usize,
        own: *const u8,
        own_len: usize,
        function: u32,
        local: u32,
    ) -> PairAnswer;
    fn wm_wide_pair_label_name(
        separate: *const u8,
        separate_len: usize,
        own: *const u8,
        own_len: usize,
        function: u32,
        label: u32,
    ) -> PairAnswer;
    fn wm_wide_pair_type_name(
        separate: *const u8,
        separate_len: usize,
        own: *const u8,
        own_len: usize,
        type_: u32,
    ) -> PairAnswer;
    fn wm_wide_pair_table_name(
        separate: *const u8,
        separate_len: usize,
        own: *const u8,
        own_len: usize,
        table: u32,
    ) -> PairAnswer;
    fn wm_wide_pair_memory_name(
        separate: *const u8,
        separate_len: usize,
        own: *const u8,
        own_len: usize,
        memory: u32,
    ) -> PairAnswer;
    fn wm_wide_pair_global_name(
        separate: *const u8,
        separate_len: usize,
        own: *const u8,
        own_len: usize,
        global: u32,
    ) -> PairAnswer;
    fn wm_wide_pair_element_name(
        separate: *const u8,
        separate_len: usize,
        own: *const u8,
        own_len: usize,
        element: u32,
    ) -> PairAnswer;
    fn wm_wide_pair_data_name(
        separate: *const u8,
        separate_len: usize,
        own: *const u8,
        own_len: usize,
        data: u32,
    ) -> PairAnswer;
    fn wm_wide_pair_field_name(
        separate: *const u8,
        separate_len: usize,
        own: *const u8,
        own_len: usize,
        type_: u32,
        field: u32,
    ) -> PairAnswer;
    fn wm_wide_pair_tag_name(
        separate: *const u8,
        separate_len: usize,
        own: *const u8,
        own_len: usize,
        tag: u32,
    ) -> PairAnswer;
    fn wm_wide_pair_kept(
        separate: *const u8,
        separate_len: usize,
        own: *const u8,
        own_len: usize,
        id: u8,
    ) -> PairAnswer;
    fn wm_wide_pair_join(
        separate: *const u8,
        separate_len: usize,
        own: *const u8,
        own_len: usize,
        out: *mut u8,
        out_len: usize,
    ) -> PairAnswer;
}

/// The calls on two name payloads that every edition has.
///
/// It is `pub` for the sake of [`Edition`](crate::Edition), as [`NameCalls`](super::NameCalls) is.
pub trait PairCalls {
    fn pair_module_name(separate: &[u8], own: &[u8]) -> PairAnswer;
    fn pair_function_name(separate: &[u8], own: &[u8], function: u32) -> PairAnswer;
    fn pair_local_name(separate: &[u8], own: &[u8], function: u32, local: u32) -> PairAnswer;
    fn pair_type_name(separate: &[u8], own: &[u8], type_: u32) -> PairAnswer;
    fn pair_field_name(separate: &[u8], own: &[u8], type_: u32, field: u32) -> PairAnswer;
    fn pair_tag_name(separate: &[u8], own: &[u8], tag: u32) -> PairAnswer;
    fn pair_kept(separate: &[u8], own: &[u8], id: u8) -> PairAnswer;
    fn join(separate: &[u8], own: &[u8], out: &mut [u8]) -> PairAnswer;
}

/// Safe functions, each with the C call that it makes: one that is lent two slices and told numbers.
macro_rules! asking {
    ($($vis:vis fn $name:ident($($number:ident: $type:ty),*) = $call:ident;)*) => {$(
        $vis fn $name(separate: &[u8], own: &[u8], $($number: $type),*) -> PairAnswer {
            // SAFETY: pointers and lengths of two live slices, both lent; being only read, they may
            // overlap. Any index and any id may be asked.
            unsafe {
                $call(separate.as_ptr(), separate.len(), own.as_ptr(), own.len(), $($number),*)
            }
        }
    )*};
}

/// The safe function that joins, with the C call that it makes.
macro_rules! joining {
    ($call:ident) => {
        fn join(separate: &[u8], own: &[u8], out: &mut [u8]) -> PairAnswer {
            // SAFETY: pointers and lengths of two live slices, both lent, which may overlap, and of
            // one `&mut` slice, the output, which overlaps neither.
            unsafe {
                $call(
                    separate.as_ptr(),
                    separate.len(),
                    own.as_ptr(),
                    own.len(),
                    out.as_mut_ptr(),
                    out.len(),
                )
            }
        }
    };
}

impl PairCalls for First {
    asking! {
        fn pair_module_name() = wm_pair_module_name;
        fn pair_function_name(function: u32) = wm_pair_function_name;
        fn pair_local_name(function: u32, local: u32) = wm_pair_local_name;
        fn pair_type_name(type_: u32) = wm_pair_type_name;
        fn pair_field_name(type_: u32, field: u32) = wm_pair_field_name;
        fn pair_tag_name(tag: u32) = wm_pair_tag_name;
        fn pair_kept(id: u8) = wm_pair_kept;
    }

    joining!(wm_pair_join);
}

impl PairCalls for Wider {
    asking! {
        fn pair_module_name() = wm_wide_pair_module_name;
        fn pair_function_name(function: u32) = wm_wide_pair_function_name;
        fn pair_local_name(function: u32, local: u32) = wm_wide_pair_local_name;
        fn pair_type_name(type_: u32) = wm_wide_pair_type_name;
        fn pair_field_name(type_: u32, field: u32) = wm_wide_pair_field_name;
        fn pair_tag_name(tag: u32) = wm_wide_pair_tag_name;
        fn pair_kept(id: u8) = wm_wide_pair_kept;
    }

    joining!(wm_wide_pair_join);
}

/// The calls on two name payloads that only the wider edition has.
impl Wider {
    asking! {
        pub(crate) fn pair_label_name(function: u32, label: u32) = wm_wide_pair_label_name;
        pub(crate) fn pair_table_name(table: u32) = wm_wide_pair_table_name;
        pub(crate) fn pair_memory_name(memory: u32) = wm_wide_pair_memory_name;
        pub(crate) fn pair_global_name(global: u32) = wm_wide_pair_global_name;
        pub(crate) fn pair_element_name(element: u32) = wm_wide_pair_element_name;
        pub(crate) fn pair_data_name(data: u32) = wm_wide_pair_data_name;
    }
}

/// The layout that the header gives: two 32-bit fields, then three of 64 bits, without gaps.
const _: () = {
    assert!(std::mem::size_of::<PairAnswer>() == 32);
    assert!(std::mem::offset_of!(PairAnswer, code) == 4);
    assert!(std::mem::offset_of!(PairAnswer, offset) == 8);
    assert!(std::mem::offset_of!(PairAnswer, length) == 16);
    assert!(std::mem::offset_of!(PairAnswer, whose) == 24);
};
