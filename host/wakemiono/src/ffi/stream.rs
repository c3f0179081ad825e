//! The C calls on a module that arrives in parts, each behind a safe function. What their blocks rely
//! on is said of all calls in the module above; and **state**: `&mut` is the only way to a state during
//! the call, which stores numbers into it, of which any is a `u64`, and takes any that stand there.

use super::Answer;

/// How many numbers of a state are the library's own.
const REST: usize = 14;

/// What is known between two parts: `wm_stream` of the header. It is lent and not copied.
#[repr(C)]
#[derive(Debug, PartialEq, Eq)]
pub(crate) struct State {
    pub(crate) total: u64,
    pub(crate) rest: [u64; REST],
}

/// The answer of the finish, by value: `wm_stream_answer` of the header.
#[repr(C)]
#[derive(Clone, Copy, Debug, PartialEq, Eq)]
pub(crate) struct StreamAnswer {
    pub(crate) kind: u32,
    pub(crate) code: u32,
    pub(crate) offset: u64,
    pub(crate) length: u64,
    pub(crate) name_kind: u64,
    pub(crate) name_offset: u64,
    pub(crate) name_length: u64,
    pub(crate) hints_kind: u64,
    pub(crate) hints_offset: u64,
    pub(crate) hints_length: u64,
    pub(crate) old_hints_kind: u64,
    pub(crate) old_hints_offset: u64,
    pub(crate) old_hints_length: u64,
}

extern "C" {
    fn wm_stream_begin() -> State;
    fn wm_stream_part(stream: *mut State, part: *const u8, part_len: usize) -> Answer;
    fn wm_stream_finish(stream: *mut State) -> StreamAnswer;
}

impl State {
    pub(crate) fn begin() -> State {
        // SAFETY: nothing is lent.
        unsafe { wm_stream_begin() }
    }

    pub(crate) fn part(&mut self, part: &[u8]) -> Answer {
        // SAFETY: a state, and pointer and length of one live slice, lent, which does not overlap it.
        unsafe { wm_stream_part(self, part.as_ptr(), part.len()) }
    }

    pub(crate) fn finish(&mut self) -> StreamAnswer {
        // SAFETY: a state.
        unsafe { wm_stream_finish(self) }
    }
}

/// The layout that the header gives: numbers of 64 bits, the first of which is the total.
const _: () = {
    assert!(std::mem::size_of::<State>() == 8 * (1 + REST));
    assert!(std::mem::align_of::<State>() == 8);
    assert!(std::mem::offset_of!(State, rest) == 8);
};

/// The same of the answer: two 32-bit fields, then eleven of 64 bits, without gaps.
const _: () = {
    assert!(std::mem::size_of::<StreamAnswer>() == 96);
    assert!(std::mem::offset_of!(StreamAnswer, code) == 4);
    assert!(std::mem::offset_of!(StreamAnswer, offset) == 8);
    assert!(std::mem::offset_of!(StreamAnswer, name_kind) == 24);
    assert!(std::mem::offset_of!(StreamAnswer, hints_kind) == 48);
    assert!(std::mem::offset_of!(StreamAnswer, old_hints_kind) == 72);
    assert!(std::mem::offset_of!(StreamAnswer, old_hints_length) == 88);
};
