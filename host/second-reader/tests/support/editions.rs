//! The calls of each edition of names, and its table of ids, so that one test is run over both.

use second_reader::*;

/// A question to a name payload: by the id of the subsection, and the indices in it.
#[derive(Clone, Copy, Debug, PartialEq, Eq)]
pub enum Question {
    Module,
    Flat(u8, u32),
    Nested(u8, u32, u32),
    Kept(u8),
}

/// One edition of names.
pub struct Edition {
    /// The ids of subsections that hold a name map.
    pub maps: &'static [u8],
    /// The ids of subsections that hold an indirect name map.
    pub indirect_maps: &'static [u8],
    pub judge: fn(&[u8]) -> Answer,
    pub ask: fn(&[u8], Question) -> Answer,
    pub ask_in: fn(&[u8], Question) -> Answer,
    pub rewrite: fn(&[u8], &mut [u8]) -> Answer,
    pub is_canonical: fn(&[u8]) -> bool,
    pub ask_pair: fn(&[u8], &[u8], Question) -> PairAnswer,
    pub join: fn(&[u8], &[u8], &mut [u8]) -> PairAnswer,
}

pub const FIRST: Edition = Edition {
    maps: &[1, 4, 11],
    indirect_maps: &[2, 10],
    judge: names_judge,
    ask: ask_first,
    ask_in: ask_first_in,
    rewrite: names_canonical,
    is_canonical: names_is_canonical,
    ask_pair: ask_first_pair,
    join: pair_join,
};

pub const WIDER: Edition = Edition {
    maps: &[1, 4, 5, 6, 7, 8, 9, 11],
    indirect_maps: &[2, 3, 10],
    judge: wide_names_judge,
    ask: ask_wider,
    ask_in: ask_wider_in,
    rewrite: wide_names_canonical,
    is_canonical: wide_names_is_canonical,
    ask_pair: ask_wider_pair,
    join: wide_pair_join,
};

pub const EDITIONS: [Edition; 2] = [FIRST, WIDER];

fn ask_first(payload: &[u8], question: Question) -> Answer {
    match question {
        Question::Module => module_name(payload),
        Question::Flat(1, index) => function_name(payload, index),
        Question::Flat(4, index) => type_name(payload, index),
        Question::Flat(11, index) => tag_name(payload, index),
        Question::Nested(2, primary, index) => local_name(payload, primary, index),
        Question::Nested(10, primary, index) => field_name(payload, primary, index),
        Question::Kept(id) => kept(payload, id),
        other => panic!("no question of the first edition: {other:?}"),
    }
}

fn ask_first_in(module: &[u8], question: Question) -> Answer {
    match question {
        Question::Module => module_name_in(module),
        Question::Flat(1, index) => function_name_in(module, index),
        Question::Flat(4, index) => type_name_in(module, index),
        Question::Flat(11, index) => tag_name_in(module, index),
        Question::Nested(2, primary, index) => local_name_in(module, primary, index),
        Question::Nested(10, primary, index) => field_name_in(module, primary, index),
        Question::Kept(id) => kept_in(module, id),
        other => panic!("no question of the first edition: {other:?}"),
    }
}

fn ask_wider(payload: &[u8], question: Question) -> Answer {
    match question {
        Question::Module => wide_module_name(payload),
        Question::Flat(1, index) => wide_function_name(payload, index),
        Question::Flat(4, index) => wide_type_name(payload, index),
        Question::Flat(5, index) => wide_table_name(payload, index),
        Question::Flat(6, index) => wide_memory_name(payload, index),
        Question::Flat(7, index) => wide_global_name(payload, index),
        Question::Flat(8, index) => wide_element_name(payload, index),
        Question::Flat(9, index) => wide_data_name(payload, index),
        Question::Flat(11, index) => wide_tag_name(payload, index),
        Question::Nested(2, primary, index) => wide_local_name(payload, primary, index),
        Question::Nested(3, primary, index) => wide_label_name(payload, primary, index),
        Question::Nested(10, primary, index) => wide_field_name(payload, primary, index),
        Question::Kept(id) => wide_kept(payload, id),
        other => panic!("no question of the wider edition: {other:?}"),
    }
}

fn ask_wider_in(module: &[u8], question: Question) -> Answer {
    match question {
        Question::Module => wide_module_name_in(module),
        Question::Flat(1, index) => wide_function_name_in(module, index),
        Question::Flat(4, index) => wide_type_name_in(module, index),
        Question::Flat(5, index) => wide_table_name_in(module, index),
        Question::Flat(6, index) => wide_memory_name_in(module, index),
        Question::Flat(7, index) => wide_global_name_in(module, index),
        Question::Flat(8, index) => wide_element_name_in(module, index),
        Question::Flat(9, index) => wide_data_name_in(module, index),
        Question::Flat(11, index) => wide_tag_name_in(module, index),
        Question::Nested(2, primary, index) => wide_local_name_in(module, primary, index),
        Question::Nested(3, primary, index) => wide_label_name_in(module, primary, index),
        Question::Nested(10, primary, index) => wide_field_name_in(module, primary, index),
        Question::Kept(id) => wide_kept_in(module, id),
        other => panic!("no question of the wider edition: {other:?}"),
    }
}

fn ask_first_pair(separate: &[u8], own: &[u8], question: Question) -> PairAnswer {
    match question {
        Question::Module => pair_module_name(separate, own),
        Question::Flat(1, index) => pair_function_name(separate, own, index),
        Question::Flat(4, index) => pair_type_name(separate, own, index),
        Question::Flat(11, index) => pair_tag_name(separate, own, index),
        Question::Nested(2, primary, index) => pair_local_name(separate, own, primary, index),
        Question::Nested(10, primary, index) => pair_field_name(separate, own, primary, index),
        Question::Kept(id) => pair_kept(separate, own, id),
        other => panic!("no question of the first edition: {other:?}"),
    }
}

fn ask_wider_pair(separate: &[u8], own: &[u8], question: Question) -> PairAnswer {
    match question {
        Question::Module => wide_pair_module_name(separate, own),
        Question::Flat(1, index) => wide_pair_function_name(separate, own, index),
        Question::Flat(4, index) => wide_pair_type_name(separate, own, index),
        Question::Flat(5, index) => wide_pair_table_name(separate, own, index),
        Question::Flat(6, index) => wide_pair_memory_name(separate, own, index),
        Question::Flat(7, index) => wide_pair_global_name(separate, own, index),
        Question::Flat(8, index) => wide_pair_element_name(separate, own, index),
        Question::Flat(9, index) => wide_pair_data_name(separate, own, index),
        Question::Flat(11, index) => wide_pair_tag_name(separate, own, index),
        Question::Nested(2, primary, index) => wide_pair_local_name(separate, own, primary, index),
        Question::Nested(3, primary, index) => wide_pair_label_name(separate, own, primary, index),
        Question::Nested(10, primary, index) => wide_pair_field_name(separate, own, primary, index),
        Question::Kept(id) => wide_pair_kept(separate, own, id),
        other => panic!("no question of the wider edition: {other:?}"),
    }
}
