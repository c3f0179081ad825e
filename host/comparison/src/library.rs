//! The C calls as the header declares them, on slices. They are declared here by themselves, so that a mistake in the
//! declarations of the safe crate would be seen.

mod rows;

pub use rows::{hints_list, metadata_list, names_list, old_hints_list, wide_names_list};

// The crate that links the library is used for nothing else here.
use wakemiono as _;

/// The answer of every call but those to a yes or no, those that say why, those on two payloads and the finish of a stream.
#[derive(Clone, Copy, Debug, PartialEq, Eq)]
#[repr(C)]
pub struct Told {
    /// Which of the five kinds of answer this is.
    pub kind: u32,
    /// The number of a refusal; for a section, its id.
    pub code: u32,
    /// Where what was found, or the fault, lies in what was lent; of markers, where their subsection ends.
    pub offset: u64,
    /// How many bytes were found or written; for the walk, how many sections, and of markers and rows how many.
    pub length: u64,
}

/// The answer of the calls that say why there is no name.
#[derive(Clone, Copy, Debug, PartialEq, Eq)]
#[repr(C)]
pub struct ToldWhy {
    /// Found where there is a name, else one of the three reasons or a refusal.
    pub kind: u32,
    /// The number of a refusal; for a name, the id of its subsection.
    pub code: u32,
    /// Where the fault lies in what was lent.
    pub offset: u64,
    /// The position of a name's entry in its map.
    pub position: u64,
    /// 1 if a map without the index has one below it.
    pub has_below: u32,
    /// The nearest of those.
    pub below: u32,
    /// 1 if a map without the index has one above it.
    pub has_above: u32,
    /// The nearest of those.
    pub above: u32,
}

/// The answer of the calls on two payloads.
#[derive(Clone, Copy, Debug, PartialEq, Eq)]
#[repr(C)]
pub struct ToldPair {
    /// None, found or refused.
    pub kind: u32,
    /// The number of a refusal.
    pub code: u32,
    /// Where what was found, or the fault, lies in the payload that it is of.
    pub offset: u64,
    /// How many bytes were found or written.
    pub length: u64,
    /// Which payload it is of.
    pub whose: u64,
}

/// How many numbers the state of a stream has behind its total.
const REST: usize = 14;

/// The state of a stream. There is no padding in it, so that two are equal exactly if all their bytes are.
#[derive(Clone, Debug, PartialEq, Eq)]
#[repr(C)]
pub struct Stream {
    /// How many bytes were taken.
    pub total: u64,
    /// What is the library's own; open, so that any state can be made up.
    pub rest: [u64; REST],
}

/// The answer to the finish of a stream.
#[derive(Clone, Copy, Debug, Default, PartialEq, Eq)]
#[repr(C)]
pub struct ToldStream {
    /// Found or refused.
    pub kind: u32,
    /// The number of a refusal.
    pub code: u32,
    /// Where the fault lies in all that came.
    pub offset: u64,
    /// How many sections there are.
    pub length: u64,
    /// Where the payload of names lies.
    pub name: ToldPlace,
    /// Where the payload of branch hints lies.
    pub hints: ToldPlace,
    /// Where the payload of hints of the older edition lies.
    pub old_hints: ToldPlace,
}

/// Three fields of it, which say where a payload lies.
#[derive(Clone, Copy, Debug, Default, PartialEq, Eq)]
#[repr(C)]
pub struct ToldPlace {
    /// None or found.
    pub kind: u64,
    /// Its offset from the module's first byte.
    pub offset: u64,
    /// Its length in bytes.
    pub length: u64,
}

/// How many holds all customers of a table have, and how many blocks its store has at most.
pub const PLACES: usize = 128;

/// What a table knows between two calls. There is no padding in it, so that two are equal exactly if all their bytes are.
#[derive(Clone, Debug, PartialEq, Eq)]
#[repr(C)]
pub struct TableState {
    /// For each hold, one more than the first block of its payload, or 0; open, so that any table can be made up.
    pub holds: [u8; PLACES],
    /// For each block, how many holds have the payload open that begins there.
    pub users: [u8; PLACES],
    /// For each block, the length of that payload.
    pub sizes: [u32; PLACES],
    /// The length of the store at the start.
    pub bytes: u64,
}

/// The kind of an answer without what was asked for.
pub const NONE: u32 = 0;
/// The kind of an answer with what was found, judged or written.
pub const FOUND: u32 = 1;
/// The kind of a refusal.
pub const REFUSED: u32 = 2;
/// The kind of a hint that a branch is unlikely.
pub const UNLIKELY: u32 = 3;
/// The kind of a hint that a branch is likely.
pub const LIKELY: u32 = 4;
/// The kind of a reason: there is no subsection.
pub const NO_SUBSECTION: u32 = 5;
/// The kind of a reason: there is no group for the function.
pub const NO_GROUP: u32 = 6;
/// The kind of a reason: the map does not have the index.
pub const NO_ENTRY: u32 = 7;

/// An answer of neither of two payloads.
pub const NOBODY: u64 = 0;
/// An answer of the payload that came apart from the module.
pub const SEPARATE: u64 = 1;
/// An answer of the module's own payload.
pub const OWN: u64 = 2;

/// The answer to a yes or no that says yes; no is 0.
pub const YES: u32 = 1;

impl From<second_reader::Answer> for Told {
    fn from(answer: second_reader::Answer) -> Told {
        Told {
            kind: answer.kind as u32,
            code: answer.code,
            offset: answer.offset,
            length: answer.length,
        }
    }
}

impl From<second_reader::Why> for ToldWhy {
    fn from(why: second_reader::Why) -> ToldWhy {
        ToldWhy {
            kind: why.kind as u32,
            code: why.code,
            offset: why.offset,
            position: why.position,
            has_below: why.below.is_some().into(),
            below: why.below.unwrap_or_default(),
            has_above: why.above.is_some().into(),
            above: why.above.unwrap_or_default(),
        }
    }
}

impl ToldPair {
    /// What one of two payloads tells, or neither.
    pub fn of(whose: u64, told: Told) -> ToldPair {
        ToldPair {
            kind: told.kind,
            code: told.code,
            offset: told.offset,
            length: told.length,
            whose,
        }
    }

    /// The same without whose it is.
    pub fn alone(self) -> Told {
        Told {
            kind: self.kind,
            code: self.code,
            offset: self.offset,
            length: self.length,
        }
    }
}

impl From<second_reader::PairAnswer> for ToldPair {
    fn from(answer: second_reader::PairAnswer) -> ToldPair {
        ToldPair {
            kind: answer.kind as u32,
            code: answer.code,
            offset: answer.offset,
            length: answer.length,
            whose: answer.whose as u64,
        }
    }
}

impl From<Told> for ToldPlace {
    fn from(told: Told) -> ToldPlace {
        ToldPlace {
            kind: told.kind.into(),
            offset: told.offset,
            length: told.length,
        }
    }
}

impl From<Option<second_reader::Place>> for ToldPlace {
    fn from(place: Option<second_reader::Place>) -> ToldPlace {
        place.map_or(ToldPlace::default(), |place| ToldPlace {
            kind: FOUND.into(),
            offset: place.offset,
            length: place.length,
        })
    }
}

impl From<second_reader::StreamAnswer> for ToldStream {
    fn from(answer: second_reader::StreamAnswer) -> ToldStream {
        ToldStream {
            kind: answer.kind as u32,
            code: answer.code,
            offset: answer.offset,
            length: answer.length,
            name: answer.name.into(),
            hints: answer.hints.into(),
            old_hints: answer.old_hints.into(),
        }
    }
}

/// Declares calls that take one lent slice and numbers, with a safe function for each.
macro_rules! questions {
    ($($call:ident = $symbol:ident ($($argument:ident: $of:ty),*) -> $answer:ident;)*) => {
        mod declared {
            use super::{Told, ToldWhy};

            extern "C" {
                $(pub fn $symbol(lent: *const u8, lent_len: usize $(, $argument: $of)*) -> $answer;)*
            }
        }
        $(
            #[doc = concat!("`", stringify!($symbol), "` of the header, on a slice.")]
            pub fn $call(lent: &[u8] $(, $argument: $of)*) -> $answer {
                // SAFETY: pointer and length are those of a live slice, which the call only reads.
                unsafe { declared::$symbol(lent.as_ptr(), lent.len() $(, $argument)*) }
            }
        )*
    };
}

questions! {
    walk = wm_walk() -> Told;
    section = wm_section(position: u64) -> Told;
    names_judge = wm_names_judge() -> Told;
    module_name = wm_module_name() -> Told;
    function_name = wm_function_name(function: u32) -> Told;
    type_name = wm_type_name(index: u32) -> Told;
    tag_name = wm_tag_name(tag: u32) -> Told;
    local_name = wm_local_name(function: u32, local: u32) -> Told;
    field_name = wm_field_name(index: u32, field: u32) -> Told;
    kept = wm_kept(id: u8) -> Told;
    module_name_in = wm_module_name_in() -> Told;
    function_name_in = wm_function_name_in(function: u32) -> Told;
    type_name_in = wm_type_name_in(index: u32) -> Told;
    tag_name_in = wm_tag_name_in(tag: u32) -> Told;
    local_name_in = wm_local_name_in(function: u32, local: u32) -> Told;
    field_name_in = wm_field_name_in(index: u32, field: u32) -> Told;
    kept_in = wm_kept_in(id: u8) -> Told;
    wide_names_judge = wm_wide_names_judge() -> Told;
    wide_module_name = wm_wide_module_name() -> Told;
    wide_function_name = wm_wide_function_name(function: u32) -> Told;
    wide_local_name = wm_wide_local_name(function: u32, local: u32) -> Told;
    wide_label_name = wm_wide_label_name(function: u32, label: u32) -> Told;
    wide_type_name = wm_wide_type_name(index: u32) -> Told;
    wide_table_name = wm_wide_table_name(table: u32) -> Told;
    wide_memory_name = wm_wide_memory_name(memory: u32) -> Told;
    wide_global_name = wm_wide_global_name(global: u32) -> Told;
    wide_element_name = wm_wide_element_name(element: u32) -> Told;
    wide_data_name = wm_wide_data_name(data: u32) -> Told;
    wide_field_name = wm_wide_field_name(index: u32, field: u32) -> Told;
    wide_tag_name = wm_wide_tag_name(tag: u32) -> Told;
    wide_kept = wm_wide_kept(id: u8) -> Told;
    wide_module_name_in = wm_wide_module_name_in() -> Told;
    wide_function_name_in = wm_wide_function_name_in(function: u32) -> Told;
    wide_local_name_in = wm_wide_local_name_in(function: u32, local: u32) -> Told;
    wide_label_name_in = wm_wide_label_name_in(function: u32, label: u32) -> Told;
    wide_type_name_in = wm_wide_type_name_in(index: u32) -> Told;
    wide_table_name_in = wm_wide_table_name_in(table: u32) -> Told;
    wide_memory_name_in = wm_wide_memory_name_in(memory: u32) -> Told;
    wide_global_name_in = wm_wide_global_name_in(global: u32) -> Told;
    wide_element_name_in = wm_wide_element_name_in(element: u32) -> Told;
    wide_data_name_in = wm_wide_data_name_in(data: u32) -> Told;
    wide_field_name_in = wm_wide_field_name_in(index: u32, field: u32) -> Told;
    wide_tag_name_in = wm_wide_tag_name_in(tag: u32) -> Told;
    wide_kept_in = wm_wide_kept_in(id: u8) -> Told;
    metadata_judge = wm_metadata_judge() -> Told;
    hints_judge = wm_hints_judge() -> Told;
    metadata = wm_metadata(function: u32, offset: u32) -> Told;
    hint = wm_hint(function: u32, offset: u32) -> Told;
    hint_in = wm_hint_in(function: u32, offset: u32) -> Told;
    hints_on_branches = wm_hints_on_branches() -> Told;
    old_hints_judge = wm_old_hints_judge() -> Told;
    old_hint = wm_old_hint(function: u32, offset: u32) -> Told;
    old_hint_in = wm_old_hint_in(function: u32, offset: u32) -> Told;
    why_function = wm_why_function(function: u32) -> ToldWhy;
    why_local = wm_why_local(function: u32, local: u32) -> ToldWhy;
    names_is_canonical = wm_names_is_canonical() -> u32;
    wide_names_is_canonical = wm_wide_names_is_canonical() -> u32;
    metadata_is_canonical = wm_metadata_is_canonical() -> u32;
    hints_is_canonical = wm_hints_is_canonical() -> u32;
    old_hints_is_canonical = wm_old_hints_is_canonical() -> u32;
}

/// Declares calls that rewrite a lent payload into an output.
macro_rules! rewritings {
    ($($call:ident = $symbol:ident;)*) => {
        mod rewriting {
            extern "C" {
                $(pub fn $symbol(lent: *const u8, lent_len: usize, out: *mut u8, out_len: usize) -> super::Told;)*
            }
        }
        $(
            #[doc = concat!("`", stringify!($symbol), "` of the header, on slices.")]
            pub fn $call(lent: &[u8], out: &mut [u8]) -> Told {
                // SAFETY: both are live slices that do not overlap; the call stores into the output alone.
                unsafe { rewriting::$symbol(lent.as_ptr(), lent.len(), out.as_mut_ptr(), out.len()) }
            }
        )*
    };
}

rewritings! {
    names_canonical = wm_names_canonical;
    wide_names_canonical = wm_wide_names_canonical;
    metadata_canonical = wm_metadata_canonical;
    hints_canonical = wm_hints_canonical;
    old_hints_canonical = wm_old_hints_canonical;
}

/// Declares calls that take two lent payloads and numbers, with a safe function for each.
macro_rules! pair_questions {
    ($($call:ident = $symbol:ident ($($argument:ident: $of:ty),*);)*) => {
        mod paired {
            extern "C" {
                $(pub fn $symbol(
                    separate: *const u8, separate_len: usize, own: *const u8, own_len: usize $(, $argument: $of)*
                ) -> super::ToldPair;)*
            }
        }
        $(
            #[doc = concat!("`", stringify!($symbol), "` of the header, on slices.")]
            pub fn $call(separate: &[u8], own: &[u8] $(, $argument: $of)*) -> ToldPair {
                // SAFETY: both are live slices, which the call only reads.
                unsafe {
                    paired::$symbol(separate.as_ptr(), separate.len(), own.as_ptr(), own.len() $(, $argument)*)
                }
            }
        )*
    };
}

pair_questions! {
    pair_module_name = wm_pair_module_name();
    pair_function_name = wm_pair_function_name(function: u32);
    pair_local_name = wm_pair_local_name(function: u32, local: u32);
    pair_type_name = wm_pair_type_name(index: u32);
    pair_field_name = wm_pair_field_name(index: u32, field: u32);
    pair_tag_name = wm_pair_tag_name(tag: u32);
    pair_kept = wm_pair_kept(id: u8);
    wide_pair_module_name = wm_wide_pair_module_name();
    wide_pair_function_name = wm_wide_pair_function_name(function: u32);
    wide_pair_local_name = wm_wide_pair_local_name(function: u32, local: u32);
    wide_pair_label_name = wm_wide_pair_label_name(function: u32, label: u32);
    wide_pair_type_name = wm_wide_pair_type_name(index: u32);
    wide_pair_table_name = wm_wide_pair_table_name(table: u32);
    wide_pair_memory_name = wm_wide_pair_memory_name(memory: u32);
    wide_pair_global_name = wm_wide_pair_global_name(global: u32);
    wide_pair_element_name = wm_wide_pair_element_name(element: u32);
    wide_pair_data_name = wm_wide_pair_data_name(data: u32);
    wide_pair_field_name = wm_wide_pair_field_name(index: u32, field: u32);
    wide_pair_tag_name = wm_wide_pair_tag_name(tag: u32);
    wide_pair_kept = wm_wide_pair_kept(id: u8);
}

/// Declares calls that join two lent payloads into an output.
macro_rules! joinings {
    ($($call:ident = $symbol:ident;)*) => {
        mod joining {
            extern "C" {
                $(pub fn $symbol(
                    separate: *const u8, separate_len: usize, own: *const u8, own_len: usize, out: *mut u8, out_len: usize
                ) -> super::ToldPair;)*
            }
        }
        $(
            #[doc = concat!("`", stringify!($symbol), "` of the header, on slices.")]
            pub fn $call(separate: &[u8], own: &[u8], out: &mut [u8]) -> ToldPair {
                // SAFETY: all are live slices, the output overlaps neither payload, and the call stores into it alone.
                unsafe {
                    joining::$symbol(
                        separate.as_ptr(), separate.len(), own.as_ptr(), own.len(), out.as_mut_ptr(), out.len()
                    )
                }
            }
        )*
    };
}

joinings! {
    pair_join = wm_pair_join;
    wide_pair_join = wm_wide_pair_join;
}

extern "C" {
    fn wm_custom(module: *const u8, module_len: usize, name: *const u8, name_len: usize) -> Told;
    fn wm_metadata_in(
        module: *const u8,
        module_len: usize,
        format: *const u8,
        format_len: usize,
        function: u32,
        offset: u32,
    ) -> Told;
    fn wm_function_names_write(
        indices: *const u32,
        indices_len: usize,
        lengths: *const u32,
        lengths_len: usize,
        text: *const u8,
        text_len: usize,
        out: *mut u8,
        out_len: usize,
    ) -> Told;
    fn wm_markers(
        payload: *const u8,
        payload_len: usize,
        indices: *mut u32,
        indices_len: usize,
        offsets: *mut u32,
        offsets_len: usize,
    ) -> Told;
    fn wm_quick_function_name(
        payload: *const u8,
        payload_len: usize,
        indices: *const u32,
        indices_len: usize,
        offsets: *const u32,
        offsets_len: usize,
        end: u64,
        function: u32,
    ) -> Told;
    fn wm_stream_begin() -> Stream;
    fn wm_stream_part(stream: *mut Stream, part: *const u8, part_len: usize) -> Told;
    fn wm_stream_finish(stream: *mut Stream) -> ToldStream;
    fn wm_table_start(store_len: u64) -> TableState;
    fn wm_table_open(
        table: *mut TableState,
        store: *mut u8,
        store_len: usize,
        customer: u32,
        payload: *const u8,
        payload_len: usize,
        work: *mut u8,
        work_len: usize,
    ) -> Told;
    fn wm_table_function_name(
        table: *const TableState,
        store: *const u8,
        store_len: usize,
        customer: u32,
        hold: u32,
        function: u32,
        out: *mut u8,
        out_len: usize,
    ) -> Told;
    fn wm_table_close(
        table: *mut TableState,
        store: *const u8,
        store_len: usize,
        customer: u32,
        hold: u32,
    ) -> Told;
    fn wm_table_compact(table: *mut TableState, store: *mut u8, store_len: usize) -> Told;
}

/// `wm_custom` of the header, on slices.
pub fn custom(module: &[u8], name: &[u8]) -> Told {
    // SAFETY: both are live slices, which the call only reads.
    unsafe { wm_custom(module.as_ptr(), module.len(), name.as_ptr(), name.len()) }
}

/// `wm_metadata_in` of the header, on slices.
pub fn metadata_in(module: &[u8], format: &[u8], function: u32, offset: u32) -> Told {
    // SAFETY: both are live slices, which the call only reads.
    unsafe {
        wm_metadata_in(
            module.as_ptr(),
            module.len(),
            format.as_ptr(),
            format.len(),
            function,
            offset,
        )
    }
}

/// `wm_function_names_write` of the header, on slices.
pub fn function_names_write(indices: &[u32], lengths: &[u32], text: &[u8], out: &mut [u8]) -> Told {
    // SAFETY: all are live slices, the output overlaps none of the others, and the call stores into it alone.
    unsafe {
        wm_function_names_write(
            indices.as_ptr(),
            indices.len(),
            lengths.as_ptr(),
            lengths.len(),
            text.as_ptr(),
            text.len(),
            out.as_mut_ptr(),
            out.len(),
        )
    }
}

/// `wm_markers` of the header, on slices.
pub fn markers(payload: &[u8], indices: &mut [u32], offsets: &mut [u32]) -> Told {
    // SAFETY: all are live slices, neither list overlaps another of them, and the call stores into the lists alone.
    unsafe {
        wm_markers(
            payload.as_ptr(),
            payload.len(),
            indices.as_mut_ptr(),
            indices.len(),
            offsets.as_mut_ptr(),
            offsets.len(),
        )
    }
}

/// `wm_quick_function_name` of the header, on slices.
pub fn quick_function_name(
    payload: &[u8],
    indices: &[u32],
    offsets: &[u32],
    end: u64,
    function: u32,
) -> Told {
    // SAFETY: all are live slices, which the call only reads.
    unsafe {
        wm_quick_function_name(
            payload.as_ptr(),
            payload.len(),
            indices.as_ptr(),
            indices.len(),
            offsets.as_ptr(),
            offsets.len(),
            end,
            function,
        )
    }
}

/// `wm_stream_begin` of the header.
pub fn stream_begin() -> Stream {
    // SAFETY: nothing is lent.
    unsafe { wm_stream_begin() }
}

/// `wm_stream_part` of the header, on a state and a slice.
pub fn stream_part(stream: &mut Stream, part: &[u8]) -> Told {
    // SAFETY: the state overlaps the live slice nowhere, any numbers are a state, and the call stores into it alone.
    unsafe { wm_stream_part(stream, part.as_ptr(), part.len()) }
}

/// `wm_stream_finish` of the header, on a state.
pub fn stream_finish(stream: &mut Stream) -> ToldStream {
    // SAFETY: any numbers are a state, and the call stores into it alone.
    unsafe { wm_stream_finish(stream) }
}

/// `wm_table_start` of the header.
pub fn table_start(store_length: u64) -> TableState {
    // SAFETY: nothing is lent.
    unsafe { wm_table_start(store_length) }
}

/// `wm_table_open` of the header, on a table and slices.
pub fn table_open(
    table: &mut TableState,
    store: &mut [u8],
    customer: u32,
    payload: &[u8],
    work: &mut [u8],
) -> Told {
    // SAFETY: the table and the live slices do not overlap, any numbers are a table, and the call stores into the table,
    // the store and the work buffer alone.
    unsafe {
        wm_table_open(
            table,
            store.as_mut_ptr(),
            store.len(),
            customer,
            payload.as_ptr(),
            payload.len(),
            work.as_mut_ptr(),
            work.len(),
        )
    }
}

/// `wm_table_function_name` of the header, on a table and slices.
pub fn table_function_name(
    table: &TableState,
    store: &[u8],
    customer: u32,
    hold: u32,
    function: u32,
    out: &mut [u8],
) -> Told {
    // SAFETY: the output overlaps neither the table nor the live slice, any numbers are a table, and the call stores into
    // the output alone.
    unsafe {
        wm_table_function_name(
            table,
            store.as_ptr(),
            store.len(),
            customer,
            hold,
            function,
            out.as_mut_ptr(),
            out.len(),
        )
    }
}

/// `wm_table_close` of the header, on a table and a slice.
pub fn table_close(table: &mut TableState, store: &[u8], customer: u32, hold: u32) -> Told {
    // SAFETY: the table overlaps the live slice nowhere, any numbers are a table, and the call stores into it alone.
    unsafe { wm_table_close(table, store.as_ptr(), store.len(), customer, hold) }
}

/// `wm_table_compact` of the header, on a table and a slice.
pub fn table_compact(table: &mut TableState, store: &mut [u8]) -> Told {
    // SAFETY: the table overlaps the live slice nowhere, any numbers are a table, and the call stores into these two alone.
    unsafe { wm_table_compact(table, store.as_mut_ptr(), store.len()) }
}
