//! Why a function or a local has no name: each reason, and where a name stands that is there.

mod common;

use common::{custom, module, refused, P};
use wakemiono::{FunctionIndex, LocalIndex, Module, NamePayload, Refusal, Why};

type OfFunction = Result<Why<FunctionIndex>, Refusal>;
type OfLocal = Result<Why<LocalIndex>, Refusal>;

fn function(payload: &[u8], function: u32) -> OfFunction {
    NamePayload::new(payload).why_function(FunctionIndex(function))
}

fn local(payload: &[u8], function: u32, local: u32) -> OfLocal {
    NamePayload::new(payload).why_local(FunctionIndex(function), LocalIndex(local))
}

fn named<Index>(subsection: u8, position: u64) -> Result<Why<Index>, Refusal> {
    Ok(Why::Named {
        subsection,
        position,
    })
}

/// There is no entry for the index, and these are the nearest that have one.
fn between<Index: From<u32>>(
    below: Option<u32>,
    above: Option<u32>,
) -> Result<Why<Index>, Refusal> {
    Ok(Why::NoEntry {
        below: below.map(Index::from),
        above: above.map(Index::from),
    })
}

#[test]
fn functions_of_the_rules_payload() {
    assert_eq!(function(&P, 0), named(1, 0));
    assert_eq!(function(&P, 1), between(Some(0), Some(3)));
    assert_eq!(function(&P, 2), between(Some(0), Some(3)));
    assert_eq!(function(&P, 3), named(1, 1));
    assert_eq!(function(&P, 4), between(Some(3), None));
    assert_eq!(function(&P, u32::MAX), between(Some(3), None));
}

#[test]
fn locals_of_the_rules_payload() {
    assert_eq!(local(&P, 3, 0), named(2, 0));
    assert_eq!(local(&P, 3, 1), between(Some(0), None));
    assert_eq!(local(&P, 3, u32::MAX), between(Some(0), None));
    for other in [0, 2, 4, u32::MAX] {
        assert_eq!(local(&P, other, 0), Ok(Why::NoGroup));
    }
}

#[test]
fn a_payload_without_the_subsection() {
    let only_locals = [0x02, 0x06, 0x01, 0x03, 0x01, 0x00, 0x01, 0x78];
    assert_eq!(function(&only_locals, 3), Ok(Why::NoSubsection));
    let only_functions = [0x01, 0x04, 0x01, 0x03, 0x01, 0x66];
    assert_eq!(local(&only_functions, 3, 0), Ok(Why::NoSubsection));
    assert_eq!(function(&[], 0), Ok(Why::NoSubsection));
    assert_eq!(local(&[], 0, 0), Ok(Why::NoSubsection));
}

#[test]
fn what_is_there_and_empty() {
    let no_functions = [0x01, 0x01, 0x00];
    let no_groups = [0x02, 0x01, 0x00];
    let empty_group = [0x02, 0x03, 0x01, 0x03, 0x00];
    for index in [0, 3, u32::MAX] {
        assert_eq!(function(&no_functions, index), between(None, None));
        assert_eq!(local(&no_groups, index, 0), Ok(Why::NoGroup));
        assert_eq!(local(&empty_group, 3, index), between(None, None));
    }
    assert_eq!(local(&empty_group, 2, 0), Ok(Why::NoGroup));
}

#[test]
fn the_ends_of_the_index_space() {
    let greatest = [0x01, 0x08, 0x01, 0xFF, 0xFF, 0xFF, 0xFF, 0x0F, 0x01, 0x7A];
    assert_eq!(function(&greatest, u32::MAX), named(1, 0));
    let before = between(None, Some(u32::MAX));
    assert_eq!(function(&greatest, 0), before);
    assert_eq!(function(&greatest, u32::MAX - 1), before);
    // The least index is told from none.
    let least = [0x01, 0x04, 0x01, 0x00, 0x01, 0x61];
    assert_eq!(function(&least, u32::MAX), between(Some(0), None));
}

#[test]
fn a_position_counts_in_the_map_of_the_group() {
    let two_groups = [
        0x02, 0x12, 0x02, // two groups
        0x00, 0x01, 0x05, 0x01, 0x61, // function 0: local 5
        0x04, 0x03, 0x00, 0x01, 0x62, 0x05, 0x01, 0x63, 0x80, 0x01, 0x01,
        0x64, // and 0, 5, 128
    ];
    assert_eq!(local(&two_groups, 0, 5), named(2, 0));
    assert_eq!(local(&two_groups, 4, 5), named(2, 1));
    assert_eq!(local(&two_groups, 4, 128), named(2, 2));
    assert_eq!(local(&two_groups, 0, 128), between(Some(5), None));
    assert_eq!(local(&two_groups, 4, 127), between(Some(5), Some(128)));
    assert_eq!(local(&two_groups, 4, 4), between(Some(0), Some(5)));
}

#[test]
fn an_empty_name_is_a_name() {
    assert_eq!(function(&[0x01, 0x03, 0x01, 0x03, 0x00], 3), named(1, 0));
    let local_without_text = [0x02, 0x05, 0x01, 0x03, 0x01, 0x00, 0x00];
    assert_eq!(local(&local_without_text, 3, 0), named(2, 0));
}

#[test]
fn a_payload_damaged_further_on_is_refused_whatever_is_asked() {
    let damaged = [&P[..], &[0x0B, 0x02, 0x00, 0x00]].concat();
    for index in [0, 1, 3, u32::MAX] {
        assert_eq!(refused(function(&damaged, index)), (10, 24));
        assert_eq!(refused(local(&damaged, index, 0)), (10, 24));
    }
}

/// What only the wider edition looks into may be damaged, since the first edition judges.
#[test]
fn the_first_edition_judges() {
    let no_map_of_globals = [0x01, 0x04, 0x01, 0x03, 0x01, 0x66, 0x07, 0x01, 0xFF];
    assert_eq!(function(&no_map_of_globals, 3), named(1, 0));
    assert!(NamePayload::wider(&no_map_of_globals).judge().is_err());
}

#[test]
fn the_payload_of_a_module() {
    let bytes = module(&[custom("name", &P)]);
    let names = Module::new(&bytes).names().unwrap().unwrap();
    let why = names.why_function(FunctionIndex(1)).unwrap();
    assert_eq!(
        why.to_string(),
        "the map of function names has no entry for it; the nearest below is 0, and the nearest \
         above is 3"
    );
    let why = names.why_local(FunctionIndex(3), LocalIndex(0)).unwrap();
    let said = "it is entry 0, counted from 0, in its function's map of local names (subsection 2)";
    assert_eq!(why.to_string(), said);
}
