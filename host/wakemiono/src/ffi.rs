//! The C calls, each behind a safe function on slices. All `unsafe` code of this crate stands here,
//! and, of the calls on two name payloads, on a module that arrives, on a shared table and that list all
//! rows, in [`pairs`], [`stream`], [`table`] and [`entries`].
//!
//! What every block relies on, as the header `wakemiono.h` states it:
//!
//! - **lent**: a slice's pointer is never null, also where the slice is empty, and its length
//!   counts what lies behind the pointer; the borrow keeps it alive and unchanged until the call
//!   returns. A call reads what is lent to it and nothing else, keeps no pointer, and takes any
//!   bytes and any numbers.
//! - **output**: `&mut` is the only way to what lies there during the call, so no lent slice and no
//!   other output overlaps it. A call stores into its outputs and nowhere else, and stores bytes or
//!   numbers, of which any is a `u8`, a `u32` or a `u64`.

pub(crate) mod entries;
pub(crate) mod pairs;
pub(crate) mod stream;
pub(crate) mod table;

use crate::{First, FunctionIndex, Wider};

/// The answer of most calls, by value: `wm_answer` of the header.
///
/// It is `pub` for the sake of [`NameCalls`], and cannot be named outside this crate.
#[repr(C)]
#[derive(Clone, Copy, Debug, PartialEq, Eq)]
pub struct Answer {
    pub(crate) kind: u32,
    pub(crate) code: u32,
    pub(crate) offset: u64,
    pub(crate) length: u64,
}

/// The answer of the calls that say why there is no name, by value: `wm_why` of the header.
#[repr(C)]
#[derive(Clone, Copy, Debug, PartialEq, Eq)]
pub(crate) struct WhyAnswer {
    pub(crate) kind: u32,
    pub(crate) code: u32,
    pub(crate) offset: u64,
    pub(crate) position: u64,
    pub(crate) has_below: u32,
    pub(crate) below: u32,
    pub(crate) has_above: u32,
    pub(crate) above: u32,
}

pub(crate) const NONE: u32 = 0;
pub(crate) const FOUND: u32 = 1;
pub(crate) const REFUSED: u32 = 2;
pub(crate) const UNLIKELY: u32 = 3;
pub(crate) const LIKELY: u32 = 4;
pub(crate) const NO_SUBSECTION: u32 = 5;
pub(crate) const NO_GROUP: u32 = 6;
pub(crate) const NO_ENTRY: u32 = 7;

extern "C" {
    fn wm_walk(module: *const u8, module_len: usize) -> Answer;
    fn wm_section(module: *const u8, module_len: usize, position: u64) -> Answer;
    fn wm_custom(module: *const u8, module_len: usize, name: *const u8, name_len: usize) -> Answer;

    fn wm_names_judge(payload: *const u8, payload_len: usize) -> Answer;
    fn wm_module_name(payload: *const u8, payload_len: usize) -> Answer;
    fn wm_function_name(payload: *const u8, payload_len: usize, function: u32) -> Answer;
    fn wm_type_name(payload: *const u8, payload_len: usize, type_: u32) -> Answer;
    fn wm_tag_name(payload: *const u8, payload_len: usize, tag: u32) -> Answer;
    fn wm_local_name(payload: *const u8, payload_len: usize, function: u32, local: u32) -> Answer;
    fn wm_field_name(payload: *const u8, payload_len: usize, type_: u32, field: u32) -> Answer;
    fn wm_kept(payload: *const u8, payload_len: usize, id: u8) -> Answer;

    fn wm_module_name_in(module: *const u8, module_len: usize) -> Answer;
    fn wm_function_name_in(module: *const u8, module_len: usize, function: u32) -> Answer;
    fn wm_type_name_in(module: *const u8, module_len: usize, type_: u32) -> Answer;
    fn wm_tag_name_in(module: *const u8, module_len: usize, tag: u32) -> Answer;
    fn wm_local_name_in(module: *const u8, module_len: usize, function: u32, local: u32) -> Answer;
    fn wm_field_name_in(module: *const u8, module_len: usize, type_: u32, field: u32) -> Answer;
    fn wm_kept_in(module: *const u8, module_len: usize, id: u8) -> Answer;

    fn wm_metadata_judge(payload: *const u8, payload_len: usize) -> Answer;
    fn wm_hints_judge(payload: *const u8, payload_len: usize) -> Answer;
    fn wm_metadata(payload: *const u8, payload_len: usize, function: u32, offset: u32) -> Answer;
    fn wm_hint(payload: *const u8, payload_len: usize, function: u32, offset: u32) -> Answer;
    fn wm_metadata_in(
        module: *const u8,
        module_len: usize,
        format: *const u8,
        format_len: usize,
        function: u32,
        offset: u32,
    ) -> Answer;
    fn wm_hint_in(module: *const u8, module_len: usize, function: u32, offset: u32) -> Answer;

    fn wm_names_canonical(
        payload: *const u8,
        payload_len: usize,
        out: *mut u8,
        out_len: usize,
    ) -> Answer;
    fn wm_metadata_canonical(
        payload: *const u8,
        payload_len: usize,
        out: *mut u8,
        out_len: usize,
    ) -> Answer;
    fn wm_hints_canonical(
        payload: *const u8,
        payload_len: usize,
        out: *mut u8,
        out_len: usize,
    ) -> Answer;

    fn wm_names_is_canonical(payload: *const u8, payload_len: usize) -> u32;
    fn wm_metadata_is_canonical(payload: *const u8, payload_len: usize) -> u32;
    fn wm_hints_is_canonical(payload: *const u8, payload_len: usize) -> u32;

    fn wm_function_names_write(
        indices: *const u32,
        indices_len: usize,
        lengths: *const u32,
        lengths_len: usize,
        text: *const u8,
        text_len: usize,
        out: *mut u8,
        out_len: usize,
    ) -> Answer;

    fn wm_wide_names_judge(payload: *const u8, payload_len: usize) -> Answer;
    fn wm_wide_module_name(payload: *const u8, payload_len: usize) -> Answer;
    fn wm_wide_function_name(payload: *const u8, payload_len: usize, function: u32) -> Answer;
    fn wm_wide_local_name(
        payload: *const u8,
        payload_len: usize,
        function: u32,
        local: u32,
    ) -> Answer;
    fn wm_wide_label_name(
        payload: *const u8,
        payload_len: usize,
        function: u32,
        label: u32,
    ) -> Answer;
    fn wm_wide_type_name(payload: *const u8, payload_len: usize, type_: u32) -> Answer;
    fn wm_wide_table_name(payload: *const u8, payload_len: usize, table: u32) -> Answer;
    fn wm_wide_memory_name(payload: *const u8, payload_len: usize, memory: u32) -> Answer;
    fn wm_wide_global_name(payload: *const u8, payload_len: usize, global: u32) -> Answer;
    fn wm_wide_element_name(payload: *const u8, payload_len: usize, element: u32) -> Answer;
    fn wm_wide_data_name(payload: *const u8, payload_len: usize, data: u32) -> Answer;
    fn wm_wide_field_name(payload: *const u8, payload_len: usize, type_: u32, field: u32)
        -> Answer;
    fn wm_wide_tag_name(payload: *const u8, payload_len: usize, tag: u32) -> Answer;
    fn wm_wide_kept(payload: *const u8, payload_len: usize, id: u8) -> Answer;

    fn wm_wide_module_name_in(module: *const u8, module_len: usize) -> Answer;
    fn wm_wide_function_name_in(module: *const u8, module_len: usize, function: u32) -> Answer;
    fn wm_wide_local_name_in(
        module: *const u8,
        module_len: usize,
        function: u32,
        local: u32,
    ) -> Answer;
    fn wm_wide_label_name_in(
        module: *const u8,
        module_len: usize,
        function: u32,
        label: u32,
    ) -> Answer;
    fn wm_wide_type_name_in(module: *const u8, module_len: usize, type_: u32) -> Answer;
    fn wm_wide_table_name_in(module: *const u8, module_len: usize, table: u32) -> Answer;
    fn wm_wide_memory_name_in(module: *const u8, module_len: usize, memory: u32) -> Answer;
    fn wm_wide_global_name_in(module: *const u8, module_len: usize, global: u32) -> Answer;
    fn wm_wide_element_name_in(module: *const u8, module_len: usize, element: u32) -> Answer;
    fn wm_wide_data_name_in(module: *const u8, module_len: usize, data: u32) -> Answer;
    fn wm_wide_field_name_in(
        module: *const u8,
        module_len: usize,
        type_: u32,
        field: u32,
    ) -> Answer;
    fn wm_wide_tag_name_in(module: *const u8, module_len: usize, tag: u32) -> Answer;
    fn wm_wide_kept_in(module: *const u8, module_len: usize, id: u8) -> Answer;

    fn wm_wide_names_canonical(
        payload: *const u8,
        payload_len: usize,
        out: *mut u8,
        out_len: usize,
    ) -> Answer;
    fn wm_wide_names_is_canonical(payload: *const u8, payload_len: usize) -> u32;

    fn wm_old_hints_judge(payload: *const u8, payload_len: usize) -> Answer;
    fn wm_old_hint(payload: *const u8, payload_len: usize, function: u32, offset: u32) -> Answer;
    fn wm_old_hint_in(module: *const u8, module_len: usize, function: u32, offset: u32) -> Answer;
    fn wm_old_hints_canonical(
        payload: *const u8,
        payload_len: usize,
        out: *mut u8,
        out_len: usize,
    ) -> Answer;
    fn wm_old_hints_is_canonical(payload: *const u8, payload_len: usize) -> u32;

    fn wm_why_function(payload: *const u8, payload_len: usize, function: u32) -> WhyAnswer;
    fn wm_why_local(payload: *const u8, payload_len: usize, function: u32, local: u32)
        -> WhyAnswer;

    fn wm_markers(
        payload: *const u8,
        payload_len: usize,
        indices: *mut u32,
        indices_len: usize,
        offsets: *mut u32,
        offsets_len: usize,
    ) -> Answer;
    fn wm_quick_function_name(
        payload: *const u8,
        payload_len: usize,
        indices: *const u32,
        indices_len: usize,
        offsets: *const u32,
        offsets_len: usize,
        end: u64,
        function: u32,
    ) -> Answer;
    fn wm_hints_on_branches(module: *const u8, module_len: usize) -> Answer;
}

pub(crate) fn walk(module: &[u8]) -> Answer {
    // SAFETY: pointer and length of one live slice, lent.
    unsafe { wm_walk(module.as_ptr(), module.len()) }
}

pub(crate) fn section(module: &[u8], position: u64) -> Answer {
    // SAFETY: pointer and length of one live slice, lent; any position may be asked.
    unsafe { wm_section(module.as_ptr(), module.len(), position) }
}

pub(crate) fn custom(module: &[u8], name: &[u8]) -> Answer {
    // SAFETY: pointers and lengths of two live slices, both lent; being only read, they may
    // overlap.
    unsafe { wm_custom(module.as_ptr(), module.len(), name.as_ptr(), name.len()) }
}

pub(crate) fn metadata_judge(payload: &[u8]) -> Answer {
    // SAFETY: pointer and length of one live slice, lent.
    unsafe { wm_metadata_judge(payload.as_ptr(), payload.len()) }
}

pub(crate) fn hints_judge(payload: &[u8]) -> Answer {
    // SAFETY: pointer and length of one live slice, lent.
    unsafe { wm_hints_judge(payload.as_ptr(), payload.len()) }
}

pub(crate) fn metadata(payload: &[u8], function: u32, offset: u32) -> Answer {
    // SAFETY: pointer and length of one live slice, lent; any index and offset may be asked.
    unsafe { wm_metadata(payload.as_ptr(), payload.len(), function, offset) }
}

pub(crate) fn hint(payload: &[u8], function: u32, offset: u32) -> Answer {
    // SAFETY: pointer and length of one live slice, lent; any index and offset may be asked.
    unsafe { wm_hint(payload.as_ptr(), payload.len(), function, offset) }
}

pub(crate) fn metadata_in(module: &[u8], format: &[u8], function: u32, offset: u32) -> Answer {
    // SAFETY: pointers and lengths of two live slices, both lent; being only read, they may
    // overlap.
    unsafe {
        wm_metadata_in(
            module.as_ptr(),
            module.len(),
            format.as_ptr(),
            format.len(),
            function,
            offset,
        )
    }
}

pub(crate) fn hint_in(module: &[u8], function: u32, offset: u32) -> Answer {
    // SAFETY: pointer and length of one live slice, lent; any index and offset may be asked.
    unsafe { wm_hint_in(module.as_ptr(), module.len(), function, offset) }
}

pub(crate) fn metadata_canonical(payload: &[u8], out: &mut [u8]) -> Answer {
    // SAFETY: pointers and lengths of one live slice, lent, and of one `&mut` slice, the output.
    unsafe { wm_metadata_canonical(payload.as_ptr(), payload.len(), out.as_mut_ptr(), out.len()) }
}

pub(crate) fn hints_canonical(payload: &[u8], out: &mut [u8]) -> Answer {
    // SAFETY: pointers and lengths of one live slice, lent, and of one `&mut` slice, the output.
    unsafe { wm_hints_canonical(payload.as_ptr(), payload.len(), out.as_mut_ptr(), out.len()) }
}

pub(crate) fn metadata_is_canonical(payload: &[u8]) -> u32 {
    // SAFETY: pointer and length of one live slice, lent.
    unsafe { wm_metadata_is_canonical(payload.as_ptr(), payload.len()) }
}

pub(crate) fn hints_is_canonical(payload: &[u8]) -> u32 {
    // SAFETY: pointer and length of one live slice, lent.
    unsafe { wm_hints_is_canonical(payload.as_ptr(), payload.len()) }
}

pub(crate) fn function_names_write(
    indices: &[FunctionIndex],
    lengths: &[u32],
    text: &[u8],
    out: &mut [u8],
) -> Answer {
    // SAFETY: pointers and lengths of three live slices, lent, with numbers aligned as `u32` is,
    // and of one `&mut` slice, the output. A `FunctionIndex` is laid out as its `u32`, being
    // `repr(transparent)`. Lists that disagree are refused by the call.
    unsafe {
        wm_function_names_write(
            indices.as_ptr().cast::<u32>(),
            indices.len(),
            lengths.as_ptr(),
            lengths.len(),
            text.as_ptr(),
            text.len(),
            out.as_mut_ptr(),
            out.len(),
        )
    }
}

/// The calls on names that every edition has, so that what is asked in both is written once.
///
/// It is `pub` for the sake of [`Edition`](crate::Edition), and cannot be named outside this crate,
/// so that there are no other editions.
pub trait NameCalls {
    fn judge(payload: &[u8]) -> Answer;
    fn module_name(payload: &[u8]) -> Answer;
    fn function_name(payload: &[u8], function: u32) -> Answer;
    fn type_name(payload: &[u8], type_: u32) -> Answer;
    fn tag_name(payload: &[u8], tag: u32) -> Answer;
    fn local_name(payload: &[u8], function: u32, local: u32) -> Answer;
    fn field_name(payload: &[u8], type_: u32, field: u32) -> Answer;
    fn kept(payload: &[u8], id: u8) -> Answer;

    fn module_name_in(module: &[u8]) -> Answer;
    fn function_name_in(module: &[u8], function: u32) -> Answer;
    fn type_name_in(module: &[u8], type_: u32) -> Answer;
    fn tag_name_in(module: &[u8], tag: u32) -> Answer;
    fn local_name_in(module: &[u8], function: u32, local: u32) -> Answer;
    fn field_name_in(module: &[u8], type_: u32, field: u32) -> Answer;
    fn kept_in(module: &[u8], id: u8) -> Answer;

    fn canonical(payload: &[u8], out: &mut [u8]) -> Answer;
    fn is_canonical(payload: &[u8]) -> u32;
}

/// Safe functions, each with the C call that it makes: one that is lent a slice and told numbers.
macro_rules! asking {
    ($($vis:vis fn $name:ident($($number:ident: $type:ty),*) -> $answer:ty = $call:ident;)*) => {$(
        $vis fn $name(lent: &[u8], $($number: $type),*) -> $answer {
            // SAFETY: pointer and length of one live slice, lent; any index, any id and any offset may
            // be asked.
            unsafe { $call(lent.as_ptr(), lent.len(), $($number),*) }
        }
    )*};
}

impl NameCalls for First {
    asking! {
        fn judge() -> Answer = wm_names_judge;
        fn module_name() -> Answer = wm_module_name;
        fn function_name(function: u32) -> Answer = wm_function_name;
        fn type_name(type_: u32) -> Answer = wm_type_name;
        fn tag_name(tag: u32) -> Answer = wm_tag_name;
        fn local_name(function: u32, local: u32) -> Answer = wm_local_name;
        fn field_name(type_: u32, field: u32) -> Answer = wm_field_name;
        fn kept(id: u8) -> Answer = wm_kept;

        fn module_name_in() -> Answer = wm_module_name_in;
        fn function_name_in(function: u32) -> Answer = wm_function_name_in;
        fn type_name_in(type_: u32) -> Answer = wm_type_name_in;
        fn tag_name_in(tag: u32) -> Answer = wm_tag_name_in;
        fn local_name_in(function: u32, local: u32) -> Answer = wm_local_name_in;
        fn field_name_in(type_: u32, field: u32) -> Answer = wm_field_name_in;
        fn kept_in(id: u8) -> Answer = wm_kept_in;

        fn is_canonical() -> u32 = wm_names_is_canonical;
    }

    fn canonical(payload: &[u8], out: &mut [u8]) -> Answer {
        // SAFETY: pointers and lengths of one live slice, lent, and of one `&mut` slice, the
        // output.
        unsafe { wm_names_canonical(payload.as_ptr(), payload.len(), out.as_mut_ptr(), out.len()) }
    }
}

impl NameCalls for Wider {
    asking! {
        fn judge() -> Answer = wm_wide_names_judge;
        fn module_name() -> Answer = wm_wide_module_name;
        fn function_name(function: u32) -> Answer = wm_wide_function_name;
        fn type_name(type_: u32) -> Answer = wm_wide_type_name;
        fn tag_name(tag: u32) -> Answer = wm_wide_tag_name;
        fn local_name(function: u32, local: u32) -> Answer = wm_wide_local_name;
        fn field_name(type_: u32, field: u32) -> Answer = wm_wide_field_name;
        fn kept(id: u8) -> Answer = wm_wide_kept;

        fn module_name_in() -> Answer = wm_wide_module_name_in;
        fn function_name_in(function: u32) -> Answer = wm_wide_function_name_in;
        fn type_name_in(type_: u32) -> Answer = wm_wide_type_name_in;
        fn tag_name_in(tag: u32) -> Answer = wm_wide_tag_name_in;
        fn local_name_in(function: u32, local: u32) -> Answer = wm_wide_local_name_in;
        fn field_name_in(type_: u32, field: u32) -> Answer = wm_wide_field_name_in;
        fn kept_in(id: u8) -> Answer = wm_wide_kept_in;

        fn is_canonical() -> u32 = wm_wide_names_is_canonical;
    }

    fn canonical(payload: &[u8], out: &mut [u8]) -> Answer {
        // SAFETY: pointers and lengths of one live slice, lent, and of one `&mut` slice, the
        // output.
        unsafe {
            wm_wide_names_canonical(payload.as_ptr(), payload.len(), out.as_mut_ptr(), out.len())
        }
    }
}

/// The calls that only the first edition has.
impl First {
    asking! {
        pub(crate) fn why_function(function: u32) -> WhyAnswer = wm_why_function;
        pub(crate) fn why_local(function: u32, local: u32) -> WhyAnswer = wm_why_local;
    }

    pub(crate) fn markers(
        payload: &[u8],
        indices: &mut [FunctionIndex],
        offsets: &mut [u32],
    ) -> Answer {
        // SAFETY: pointers and lengths of one live slice, lent, and of two `&mut` slices, the
        // outputs, with numbers aligned as `u32` is. A `FunctionIndex` is laid out as its `u32`,
        // being `repr(transparent)`, and any `u32` is one.
        unsafe {
            wm_markers(
                payload.as_ptr(),
                payload.len(),
                indices.as_mut_ptr().cast::<u32>(),
                indices.len(),
                offsets.as_mut_ptr(),
                offsets.len(),
            )
        }
    }

    pub(crate) fn quick_function_name(
        payload: &[u8],
        indices: &[FunctionIndex],
        offsets: &[u32],
        end: u64,
        function: u32,
    ) -> Answer {
        // SAFETY: pointers and lengths of three live slices, all lent, with numbers aligned as
        // `u32` is; a `FunctionIndex` is laid out as its `u32`, being `repr(transparent)`. Any end
        // and any index may be asked, and lists that are no markers are refused by the call.
        unsafe {
            wm_quick_function_name(
                payload.as_ptr(),
                payload.len(),
                indices.as_ptr().cast::<u32>(),
                indices.len(),
                offsets.as_ptr(),
                offsets.len(),
                end,
                function,
            )
        }
    }
}

/// The calls that only the wider edition has.
impl Wider {
    asking! {
        pub(crate) fn label_name(function: u32, label: u32) -> Answer = wm_wide_label_name;
        pub(crate) fn table_name(table: u32) -> Answer = wm_wide_table_name;
        pub(crate) fn memory_name(memory: u32) -> Answer = wm_wide_memory_name;
        pub(crate) fn global_name(global: u32) -> Answer = wm_wide_global_name;
        pub(crate) fn element_name(element: u32) -> Answer = wm_wide_element_name;
        pub(crate) fn data_name(data: u32) -> Answer = wm_wide_data_name;

        pub(crate) fn label_name_in(function: u32, label: u32) -> Answer = wm_wide_label_name_in;
        pub(crate) fn table_name_in(table: u32) -> Answer = wm_wide_table_name_in;
        pub(crate) fn memory_name_in(memory: u32) -> Answer = wm_wide_memory_name_in;
        pub(crate) fn global_name_in(global: u32) -> Answer = wm_wide_global_name_in;
        pub(crate) fn element_name_in(element: u32) -> Answer = wm_wide_element_name_in;
        pub(crate) fn data_name_in(data: u32) -> Answer = wm_wide_data_name_in;
    }
}

pub(crate) fn hints_on_branches(module: &[u8]) -> Answer {
    // SAFETY: pointer and length of one live slice, lent.
    unsafe { wm_hints_on_branches(module.as_ptr(), module.len()) }
}

// The calls of the older edition of hints.
asking! {
    pub(crate) fn old_hints_judge() -> Answer = wm_old_hints_judge;
    pub(crate) fn old_hint(function: u32, offset: u32) -> Answer = wm_old_hint;
    pub(crate) fn old_hint_in(function: u32, offset: u32) -> Answer = wm_old_hint_in;

    pub(crate) fn old_hints_is_canonical() -> u32 = wm_old_hints_is_canonical;
}

pub(crate) fn old_hints_canonical(payload: &[u8], out: &mut [u8]) -> Answer {
    // SAFETY: pointers and lengths of one live slice, lent, and of one `&mut` slice, the output.
    unsafe { wm_old_hints_canonical(payload.as_ptr(), payload.len(), out.as_mut_ptr(), out.len()) }
}

/// The layout that the header gives: two 32-bit fields, then two of 64 bits, without gaps.
const _: () = {
    assert!(std::mem::size_of::<Answer>() == 24);
    assert!(std::mem::offset_of!(Answer, code) == 4);
    assert!(std::mem::offset_of!(Answer, offset) == 8);
    assert!(std::mem::offset_of!(Answer, length) == 16);
};

/// The same of the other: two 32-bit fields, two of 64 bits, then four of 32 bits, without gaps.
const _: () = {
    assert!(std::mem::size_of::<WhyAnswer>() == 40);
    assert!(std::mem::offset_of!(WhyAnswer, code) == 4);
    assert!(std::mem::offset_of!(WhyAnswer, offset) == 8);
    assert!(std::mem::offset_of!(WhyAnswer, position) == 16);
    assert!(std::mem::offset_of!(WhyAnswer, has_below) == 24);
    assert!(std::mem::offset_of!(WhyAnswer, below) == 28);
    assert!(std::mem::offset_of!(WhyAnswer, has_above) == 32);
    assert!(std::mem::offset_of!(WhyAnswer, above) == 36);
};
