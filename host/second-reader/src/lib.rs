//! The rules for WebAssembly names and code metadata, in plain Rust.
//!
//! This is a second reader, written from the text of the rules alone. It shares no code with the
//! proved crates and knows nothing of how they work. It is the comparison, not the product: where
//! the two give different answers for the same bytes, one of them misreads the rules.
//!
//! The functions are the calls of the C header under the same names, with slices for pointer and
//! length. Each takes any bytes, ends in an [`Answer`], in a [`Why`], in a [`PairAnswer`], in a
//! [`StreamAnswer`] or, to a yes or no, in a `bool`, and asks for no prior check: a payload is judged
//! whole before it is asked or rewritten, but for the quick question, which judges nothing, and a
//! refusal changes no byte of an output and nothing of a [`Stream`] or a [`Table`]; only the work buffer
//! of an open is written by two of its refusals, as the rule says.
//!
//! Names have two editions, which differ in the table of ids alone: `wide_` begins the calls of the
//! wider one. Hints have two as well, which have no list in common: `old_` begins the calls of the
//! older one.
//!
//! ```
//! use second_reader::{function_name, Kind};
//!
//! let payload = [0x01, 0x04, 0x01, 0x07, 0x01, b'f'];
//! let answer = function_name(&payload, 7);
//! assert_eq!((answer.kind, answer.offset, answer.length), (Kind::Found, 5, 1));
//! assert_eq!(function_name(&payload, 6).kind, Kind::None);
//! ```

#![forbid(unsafe_code)]
#![warn(missing_docs)]

mod answer;
mod branches;
mod canonical;
mod edition;
mod entries;
mod instructions;
mod lists;
mod markers;
mod metadata;
mod names;
mod number;
mod older;
mod pairs;
mod reading;
mod stream;
mod table;
mod telling;
mod through;
mod walk;
mod why;
mod wide;
mod writing;

pub use answer::{Answer, Kind, PairAnswer, Place, Reason, StreamAnswer, Whose, Why};
pub use branches::hints_on_branches;
pub use canonical::{hints_canonical, metadata_canonical, names_canonical, wide_names_canonical};
pub use entries::{hints_list, metadata_list, names_list, old_hints_list, wide_names_list};
pub use lists::function_names_write;
pub use markers::{markers, quick_function_name};
pub use metadata::{hint, hints_judge, metadata, metadata_judge};
pub use names::{
    field_name, function_name, kept, local_name, module_name, names_judge, tag_name, type_name,
};
pub use older::{old_hint, old_hint_in, old_hints_canonical, old_hints_judge};
pub use pairs::{
    pair_field_name, pair_function_name, pair_join, pair_kept, pair_local_name, pair_module_name,
    pair_tag_name, pair_type_name, wide_pair_data_name, wide_pair_element_name,
    wide_pair_field_name, wide_pair_function_name, wide_pair_global_name, wide_pair_join,
    wide_pair_kept, wide_pair_label_name, wide_pair_local_name, wide_pair_memory_name,
    wide_pair_module_name, wide_pair_table_name, wide_pair_tag_name, wide_pair_type_name,
};
pub use stream::{stream_begin, stream_finish, stream_part, Stream};
pub use table::{
    table_close, table_compact, table_function_name, table_open, table_start, OpenHold, Stored,
    Table,
};
pub use telling::{
    hints_is_canonical, metadata_is_canonical, names_is_canonical, old_hints_is_canonical,
    wide_names_is_canonical,
};
pub use through::{
    field_name_in, function_name_in, hint_in, kept_in, local_name_in, metadata_in, module_name_in,
    tag_name_in, type_name_in,
};
pub use walk::{custom, section, walk};
pub use why::{why_function, why_local};
pub use wide::{
    wide_data_name, wide_data_name_in, wide_element_name, wide_element_name_in, wide_field_name,
    wide_field_name_in, wide_function_name, wide_function_name_in, wide_global_name,
    wide_global_name_in, wide_kept, wide_kept_in, wide_label_name, wide_label_name_in,
    wide_local_name, wide_local_name_in, wide_memory_name, wide_memory_name_in, wide_module_name,
    wide_module_name_in, wide_names_judge, wide_table_name, wide_table_name_in, wide_tag_name,
    wide_tag_name_in, wide_type_name, wide_type_name_in,
};
