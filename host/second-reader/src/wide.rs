//! The calls of the wider edition: its judgement and its questions, put to a payload and through a
//! module.
//!
//! Twelve ids are known. Everything but that is as in the first edition, and is read by the same
//! code.

use crate::answer::Answer;
use crate::edition::{id, Edition};
use crate::names::{self, Owner};
use crate::through;

/// Judges a name payload. Found, where it is accepted: offset 0 and the payload's length.
pub fn wide_names_judge(payload: &[u8]) -> Answer {
    names::judged(payload, Edition::Wider)
}

/// The name of the module.
pub fn wide_module_name(payload: &[u8]) -> Answer {
    ask(payload, Owner::Module)
}

/// The name of a function.
pub fn wide_function_name(payload: &[u8], function: u32) -> Answer {
    ask(payload, Owner::Entry(id::FUNCTIONS, function))
}

/// The name of a local in a function.
pub fn wide_local_name(payload: &[u8], function: u32, local: u32) -> Answer {
    ask(payload, Owner::InGroup(id::LOCALS, function, local))
}

/// The name of a label in a function.
pub fn wide_label_name(payload: &[u8], function: u32, label: u32) -> Answer {
    ask(payload, Owner::InGroup(id::LABELS, function, label))
}

/// The name of a type.
pub fn wide_type_name(payload: &[u8], type_index: u32) -> Answer {
    ask(payload, Owner::Entry(id::TYPES, type_index))
}

/// The name of a table.
pub fn wide_table_name(payload: &[u8], table: u32) -> Answer {
    ask(payload, Owner::Entry(id::TABLES, table))
}

/// The name of a memory.
pub fn wide_memory_name(payload: &[u8], memory: u32) -> Answer {
    ask(payload, Owner::Entry(id::MEMORIES, memory))
}

/// The name of a global.
pub fn wide_global_name(payload: &[u8], global: u32) -> Answer {
    ask(payload, Owner::Entry(id::GLOBALS, global))
}

/// The name of an element segment.
pub fn wide_element_name(payload: &[u8], element: u32) -> Answer {
    ask(payload, Owner::Entry(id::ELEMENTS, element))
}

/// The name of a data segment.
pub fn wide_data_name(payload: &[u8], data: u32) -> Answer {
    ask(payload, Owner::Entry(id::DATA, data))
}

/// The name of a field in a type.
pub fn wide_field_name(payload: &[u8], type_index: u32, field: u32) -> Answer {
    ask(payload, Owner::InGroup(id::FIELDS, type_index, field))
}

/// The name of a tag.
pub fn wide_tag_name(payload: &[u8], tag: u32) -> Answer {
    ask(payload, Owner::Entry(id::TAGS, tag))
}

/// The contents of the kept subsection with an id. The twelve known ids are never
/// kept.
pub fn wide_kept(payload: &[u8], id: u8) -> Answer {
    ask(payload, Owner::Kept(id))
}

/// The name of the module, asked through the module.
pub fn wide_module_name_in(module: &[u8]) -> Answer {
    ask_in(module, Owner::Module)
}

/// The name of a function, asked through the module.
pub fn wide_function_name_in(module: &[u8], function: u32) -> Answer {
    ask_in(module, Owner::Entry(id::FUNCTIONS, function))
}

/// The name of a local in a function, asked through the module.
pub fn wide_local_name_in(module: &[u8], function: u32, local: u32) -> Answer {
    ask_in(module, Owner::InGroup(id::LOCALS, function, local))
}

/// The name of a label in a function, asked through the module.
pub fn wide_label_name_in(module: &[u8], function: u32, label: u32) -> Answer {
    ask_in(module, Owner::InGroup(id::LABELS, function, label))
}

/// The name of a type, asked through the module.
pub fn wide_type_name_in(module: &[u8], type_index: u32) -> Answer {
    ask_in(module, Owner::Entry(id::TYPES, type_index))
}

/// The name of a table, asked through the module.
pub fn wide_table_name_in(module: &[u8], table: u32) -> Answer {
    ask_in(module, Owner::Entry(id::TABLES, table))
}

/// The name of a memory, asked through the module.
pub fn wide_memory_name_in(module: &[u8], memory: u32) -> Answer {
    ask_in(module, Owner::Entry(id::MEMORIES, memory))
}

/// The name of a global, asked through the module.
pub fn wide_global_name_in(module: &[u8], global: u32) -> Answer {
    ask_in(module, Owner::Entry(id::GLOBALS, global))
}

/// The name of an element segment, asked through the module.
pub fn wide_element_name_in(module: &[u8], element: u32) -> Answer {
    ask_in(module, Owner::Entry(id::ELEMENTS, element))
}

/// The name of a data segment, asked through the module.
pub fn wide_data_name_in(module: &[u8], data: u32) -> Answer {
    ask_in(module, Owner::Entry(id::DATA, data))
}

/// The name of a field in a type, asked through the module.
pub fn wide_field_name_in(module: &[u8], type_index: u32, field: u32) -> Answer {
    ask_in(module, Owner::InGroup(id::FIELDS, type_index, field))
}

/// The name of a tag, asked through the module.
pub fn wide_tag_name_in(module: &[u8], tag: u32) -> Answer {
    ask_in(module, Owner::Entry(id::TAGS, tag))
}

/// The contents of the kept subsection with an id, asked through the module.
pub fn wide_kept_in(module: &[u8], id: u8) -> Answer {
    ask_in(module, Owner::Kept(id))
}

fn ask(payload: &[u8], wanted: Owner) -> Answer {
    names::asked(payload, Edition::Wider, wanted)
}

fn ask_in(module: &[u8], wanted: Owner) -> Answer {
    through::asked(module, Edition::Wider, wanted)
}
