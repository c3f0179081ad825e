//! What several tests share: the rules' payload P, a payload with every id, all questions of an
//! edition, modules from their sections, and refusals as number and offset.

#![allow(dead_code)] // each test file uses its own part of this

use wakemiono::{
    DataIndex, Edition, ElementIndex, FieldIndex, First, FunctionIndex, GlobalIndex, LabelIndex,
    LocalIndex, MemoryIndex, Module, Name, NamePayload, Pair, PairRefusal, Refusal, SuppliedName,
    TableIndex, TagIndex, TypeIndex, Whose, Wider,
};

/// The payload P of the rules, at one place in memory.
pub static P: [u8; 21] = [
    0x00, 0x02, 0x01, 0x6D, 0x01, 0x07, 0x02, 0x00, 0x01, 0x61, 0x03, 0x01, 0x62, 0x02, 0x06, 0x01,
    0x03, 0x01, 0x00, 0x01, 0x78,
];

/// A payload with one name for each of the twelve ids of the wider edition, and two subsections
/// that both editions keep. No two names are alike, and all stand at the index 3, or at 2 within it.
pub static EVERY_ID: [u8; 82] = [
    0x00, 0x02, 0x01, 0x6D, // module m
    0x01, 0x04, 0x01, 0x03, 0x01, 0x66, // function 3 f
    0x02, 0x06, 0x01, 0x03, 0x01, 0x02, 0x01, 0x6C, // local 2 of function 3 l
    0x03, 0x06, 0x01, 0x03, 0x01, 0x02, 0x01, 0x62, // label 2 of function 3 b
    0x04, 0x04, 0x01, 0x03, 0x01, 0x74, // type 3 t
    0x05, 0x04, 0x01, 0x03, 0x01, 0x61, // table 3 a
    0x06, 0x04, 0x01, 0x03, 0x01, 0x79, // memory 3 y
    0x07, 0x04, 0x01, 0x03, 0x01, 0x76, // global 3 v
    0x08, 0x04, 0x01, 0x03, 0x01, 0x65, // element segment 3 e
    0x09, 0x04, 0x01, 0x03, 0x01, 0x73, // data segment 3 s
    0x0A, 0x06, 0x01, 0x03, 0x01, 0x02, 0x01, 0x64, // field 2 of type 3 d
    0x0B, 0x04, 0x01, 0x03, 0x01, 0x67, // tag 3 g
    0x0C, 0x02, 0xFF, 0xFE, // kept
    0xFF, 0x00, // kept and empty
];

/// A payload with one name for each of the six ids of the first edition, all at the index 5, or at 7 within it, and two
/// subsections that it keeps.
pub static ONE_OF_EACH: [u8; 44] = [
    0x00, 0x02, 0x01, 0x6D, // module m
    0x01, 0x04, 0x01, 0x05, 0x01, 0x66, // function 5 f
    0x02, 0x06, 0x01, 0x05, 0x01, 0x07, 0x01, 0x6C, // local 7 of function 5 l
    0x03, 0x02, 0xFF, 0xFE, // kept
    0x04, 0x04, 0x01, 0x05, 0x01, 0x74, // type 5 t
    0x0A, 0x06, 0x01, 0x05, 0x01, 0x07, 0x01, 0x64, // field 7 of type 5 d
    0x0B, 0x04, 0x01, 0x05, 0x01, 0x67, // tag 5 g
    0xFF, 0x00, // kept and empty
];

/// The ids that the wider edition knows and the first keeps.
pub const ONLY_WIDER: [u8; 6] = [3, 5, 6, 7, 8, 9];

/// What a question for a name gets.
pub type Asked<'a> = Result<Option<Name<'a>>, Refusal>;

/// What a question for a name gets from a pair.
pub type PairAsked<'s, 'o> = Result<Option<SuppliedName<'s, 'o>>, PairRefusal>;

/// The questions for names that both editions have.
macro_rules! asked_in_both {
    ($names:expr, $one:expr, $two:expr) => {
        [
            $names.module_name(),
            $names.function_name(FunctionIndex($one)),
            $names.type_name(TypeIndex($one)),
            $names.tag_name(TagIndex($one)),
            $names.local_name(FunctionIndex($one), LocalIndex($two)),
            $names.field_name(TypeIndex($one), FieldIndex($two)),
        ]
    };
}

/// Those that only the wider edition has.
macro_rules! asked_in_wider {
    ($names:expr, $one:expr, $two:expr) => {
        [
            $names.label_name(FunctionIndex($one), LabelIndex($two)),
            $names.table_name(TableIndex($one)),
            $names.memory_name(MemoryIndex($one)),
            $names.global_name(GlobalIndex($one)),
            $names.element_name(ElementIndex($one)),
            $names.data_name(DataIndex($one)),
        ]
    };
}

/// An edition with all its questions for names, each put for an index, and for another within it.
/// The first six are those that both editions have.
pub trait AllQuestions: Edition {
    fn names<'a>(payload: NamePayload<'a, Self>, one: u32, two: u32) -> Vec<Asked<'a>>;
    fn names_in<'a>(module: Module<'a, Self>, one: u32, two: u32) -> Vec<Asked<'a>>;
    fn of_pair<'s, 'o>(pair: Pair<'s, 'o, Self>, one: u32, two: u32) -> Vec<PairAsked<'s, 'o>>;
}

impl AllQuestions for First {
    fn names<'a>(payload: NamePayload<'a, First>, one: u32, two: u32) -> Vec<Asked<'a>> {
        asked_in_both!(payload, one, two).to_vec()
    }

    fn names_in<'a>(module: Module<'a, First>, one: u32, two: u32) -> Vec<Asked<'a>> {
        asked_in_both!(module, one, two).to_vec()
    }

    fn of_pair<'s, 'o>(pair: Pair<'s, 'o, First>, one: u32, two: u32) -> Vec<PairAsked<'s, 'o>> {
        asked_in_both!(pair, one, two).to_vec()
    }
}

impl AllQuestions for Wider {
    fn names<'a>(payload: NamePayload<'a, Wider>, one: u32, two: u32) -> Vec<Asked<'a>> {
        [
            asked_in_both!(payload, one, two),
            asked_in_wider!(payload, one, two),
        ]
        .concat()
    }

    fn names_in<'a>(module: Module<'a, Wider>, one: u32, two: u32) -> Vec<Asked<'a>> {
        [
            asked_in_both!(module, one, two),
            asked_in_wider!(module, one, two),
        ]
        .concat()
    }

    fn of_pair<'s, 'o>(pair: Pair<'s, 'o, Wider>, one: u32, two: u32) -> Vec<PairAsked<'s, 'o>> {
        [
            asked_in_both!(pair, one, two),
            asked_in_wider!(pair, one, two),
        ]
        .concat()
    }
}

pub const HINTS_NAME: &str = "metadata.code.branch_hint";

pub const OLD_HINTS_NAME: &str = "branchHints";

/// A small module of the repository, with every kind of section that is asked here.
pub const SMALL: &[u8] = include_bytes!("../../../../examples/small.wasm");

/// Number and offset of the refusal that must be there.
#[track_caller]
pub fn refused<T: std::fmt::Debug>(answer: Result<T, Refusal>) -> (u32, u64) {
    let refusal = answer.expect_err("this is refused");
    (refusal.number(), refusal.offset())
}

/// Whose the refusal is that must be there, its number and its offset.
#[track_caller]
pub fn refused_of<T: std::fmt::Debug>(answer: Result<T, PairRefusal>) -> (Option<Whose>, u32, u64) {
    let refused = answer.expect_err("this is refused");
    let refusal = refused.refusal();
    (refused.whose(), refusal.number(), refusal.offset())
}

/// The text of the name that must be there.
#[track_caller]
pub fn text<'a>(answer: Result<Option<Name<'a>>, Refusal>) -> &'a str {
    let name = answer.expect("this is accepted");
    name.expect("there is a name")
        .to_str()
        .expect("a name is text")
}

/// A module from its sections.
pub fn module(sections: &[Vec<u8>]) -> Vec<u8> {
    [b"\0asm\x01\0\0\0", sections.concat().as_slice()].concat()
}

/// A section with a size of so many bytes, padded where it needs fewer.
pub fn section_sized(id: u8, size_bytes: usize, contents: &[u8]) -> Vec<u8> {
    [
        &[id],
        number(contents.len(), size_bytes).as_slice(),
        contents,
    ]
    .concat()
}

pub fn section(id: u8, contents: &[u8]) -> Vec<u8> {
    section_sized(id, 1, contents)
}

pub fn custom(name: &str, payload: &[u8]) -> Vec<u8> {
    let contents = [number(name.len(), 1).as_slice(), name.as_bytes(), payload].concat();
    section(0, &contents)
}

/// A number in at least so many bytes.
pub fn number(value: usize, at_least: usize) -> Vec<u8> {
    let mut bytes = Vec::new();
    let mut rest = value;
    while rest > 0x7F || bytes.len() + 1 < at_least {
        bytes.push((rest & 0x7F) as u8 | 0x80);
        rest >>= 7;
    }
    bytes.push(rest as u8);
    bytes
}
