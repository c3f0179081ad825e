//! Every refusal as a sentence, each from a call that gives it.

mod common;

use std::error::Error;
use std::fs;
use std::path::Path;

use common::{custom, module, section, HINTS_NAME};
use wakemiono::{
    function_names, function_names_into, Customer, FunctionIndex, Hints, Hold, Metadata, Module,
    NamePayload, OldHints, Pair, PairRefusal, Reason, Refusal, SharedTable, Whose,
};

#[track_caller]
fn says(answer: Result<impl std::fmt::Debug, Refusal>, reason: Reason, sentence: &str) {
    let refusal = answer.expect_err("this is refused");
    assert_eq!(refusal.reason(), reason);
    assert_eq!(refusal.number(), reason.number());
    assert_eq!(refusal.to_string(), sentence);
}

#[test]
fn of_modules() {
    let count = |bytes: &[u8]| Module::new(bytes).section_count();
    says(
        count(b"\0asm\x02\0\0\0"),
        Reason::Preamble,
        "the preamble 00 61 73 6D 01 00 00 00 is missing or different: it belongs at byte 0x0 (0)",
    );
    says(
        count(&module(&[vec![14, 0]])),
        Reason::SectionId,
        "a section id is above 13: it stands at byte 0x8 (8)",
    );
    says(
        count(&module(&[section(3, &[0]), section(1, &[0])])),
        Reason::SectionOrder,
        "a section is repeated or out of order: its id stands at byte 0xB (11)",
    );
    says(
        count(&module(&[custom("name", &[]), custom("name", &[])])),
        Reason::SecondSection,
        "a section `name`, `metadata.code.branch_hint` or `branchHints` is the second: its id stands at byte 0xF \
         (15)",
    );
    says(
        count(&module(&[section(10, &[0]), custom(HINTS_NAME, &[0])])),
        Reason::SectionTooLate,
        "a data section follows `name`, or branch hints follow code: the id of the later section \
         stands at byte 0xB (11)",
    );
}

#[test]
fn of_payloads() {
    let names = |bytes: &'static [u8]| NamePayload::new(bytes).judge();
    says(
        names(&[0x01, 0x00]),
        Reason::RunsPast,
        "a number, name or sized part runs past the part that encloses it: the number, or the \
         length of the part, starts at byte 0x2 (2)",
    );
    says(
        Metadata::new(&[0xFF, 0xFF, 0xFF, 0xFF, 0x1F]).judge(),
        Reason::NumberTooLarge,
        "the fifth byte of a number is above 0x0F: the number starts at byte 0x0 (0)",
    );
    says(
        names(&[0x02, 0x01, 0x00, 0x01, 0x01, 0x00]),
        Reason::SubsectionOrder,
        "a subsection id is not above the one before: it stands at byte 0x3 (3)",
    );
    says(
        names(&[0x01, 0x02, 0x00, 0x00]),
        Reason::LeftOver,
        "bytes are left over in a subsection, in metadata or in hints, or behind imports or bodies: \
         the first of them stands at byte 0x3 (3)",
    );
    says(
        names(&[0x01, 0x07, 0x02, 0x03, 0x01, 0x62, 0x03, 0x01, 0x61]),
        Reason::NotRising,
        "an index or code offset is not above the one before: it starts at byte 0x6 (6)",
    );
    says(
        Hints::new(&[0x01, 0x02, 0x01, 0x05, 0x01, 0x02]).judge(),
        Reason::NotAHint,
        "a branch hint has a size other than 1, or data or a kind above 1: its size, or its kind, \
         stands at byte 0x4 (4)",
    );
}

#[test]
fn of_older_hints() {
    says(
        OldHints::new(&[0x01, 0x02, 0x80, 0x00]).judge(),
        Reason::NotZero,
        "the byte behind a function of older hints is not zero: it stands at byte 0x2 (2)",
    );
    says(
        OldHints::new(&[0x01, 0x02, 0x00, 0x01, 0x02]).judge(),
        Reason::NotAHint,
        "a branch hint has a size other than 1, or data or a kind above 1: its size, or its kind, \
         stands at byte 0x4 (4)",
    );
}

#[test]
fn of_text_with_a_large_offset() {
    let payload = [
        &[0x03, 0x14],
        [0; 20].as_slice(),
        &[0x04, 0x04, 0x01, 0x00, 0x01, 0xFF],
    ]
    .concat();
    let refusal = NamePayload::new(&payload).judge().unwrap_err();
    assert_eq!(
        refusal.to_string(),
        "text is not UTF-8: it starts at byte 0x1B (27)"
    );
}

#[test]
fn of_outputs() {
    says(
        Metadata::new(&[0x00]).canonical_into(&mut []),
        Reason::OutputTooShort,
        "the output is shorter than needed: the needed length is 1",
    );
}

#[test]
fn of_lists() {
    says(
        function_names_into(&[FunctionIndex(0)], &[], b"", &mut []),
        Reason::ListsDisagree,
        "the lists disagree: their counts differ, or the lengths do not add up to the text",
    );
    says(
        function_names([(FunctionIndex(1), "a"), (FunctionIndex(1), "b")]),
        Reason::NotRising,
        "an index or code offset is not above the one before: its position in the list is 1, \
         counted from 0",
    );
    says(
        function_names([(FunctionIndex(0), &b"abc"[..]), (FunctionIndex(1), b"\xFF")]),
        Reason::NotText,
        "text is not UTF-8: in the joined text the name starts at byte 0x3 (3)",
    );
}

/// Whatever of the three is wrong, the number is a position in the lists or a length of one.
#[test]
fn of_markers() {
    let payload = NamePayload::new(&[0x01, 0x04, 0x01, 0x03, 0x01, 0x66]);
    let quick = |indices: &[u32], offsets: &[u32], end| {
        let indices: Vec<FunctionIndex> = indices.iter().copied().map(FunctionIndex).collect();
        payload.quick_function_name(&indices, offsets, end, FunctionIndex(3))
    };
    let sentence = |at: u32| {
        format!(
            "the lists are no markers: their lengths differ, the end lies outside the payload, or a \
             position does not rise or is not below the end: that position, counted from 0, or the \
             length of the shorter list is {at}"
        )
    };
    says(quick(&[3], &[], 6), Reason::NotMarkers, &sentence(0));
    says(quick(&[3], &[3], 7), Reason::NotMarkers, &sentence(1));
    says(
        quick(&[3, 4, 4], &[3, 4, 5], 6),
        Reason::NotMarkers,
        &sentence(2),
    );
    says(
        payload.markers_into(&mut [], &mut [0]),
        Reason::OutputTooShort,
        "the output is shorter than needed: the needed length is 1",
    );
}

/// No call of this crate can be made to give them, but for parts of more bytes than there are.
#[test]
fn of_streams() {
    let said = Reason::StreamFinished.to_string();
    assert_eq!(
        said,
        "a part or a finish came after the finish of the stream"
    );
    let said = Reason::StreamTooLong.to_string();
    let sentence = "a part takes the stream above 18,446,744,073,709,551,615 bytes";
    assert_eq!(said, sentence);
}

#[test]
fn of_shared_tables() {
    let mut table = SharedTable::new(1).unwrap();
    let (empty, named) = (
        NamePayload::new(&[]),
        NamePayload::new(&[0x00, 0x02, 0x01, 0x6D]),
    );
    says(
        table.open(Customer(16), empty),
        Reason::NoCustomer,
        "there is no such customer: the number is above 15",
    );
    says(
        table.close(Customer(15), Hold(0)),
        Reason::HoldNotOpen,
        "the hold is not open for that customer, or is above 7",
    );
    says(
        table.open_with(Customer(15), named, &mut []),
        Reason::OutputTooShort,
        "the output is shorter than needed: the needed length is 4",
    );
    for _ in 0..SharedTable::HOLDS {
        table.open(Customer(15), empty).unwrap();
    }
    says(
        table.open(Customer(15), empty),
        Reason::AllHoldsOpen,
        "all eight holds of the customer are in use",
    );
    says(
        table.open(Customer(0), named),
        Reason::NoRoom,
        "the payload is not stored yet, and no run of free blocks is long enough for it",
    );
    says(
        SharedTable::new(129),
        Reason::OtherStore,
        "the store has another length than at the start, or not 1 to 128 blocks of 512 bytes",
    );
}

/// No call of this crate can be made to give it, since nothing else writes to the store.
#[test]
fn of_a_damaged_store() {
    let said = Reason::StoreDamaged.to_string();
    let sentence =
        "the check of a needed block is wrong, or the stored payload is no longer accepted";
    assert_eq!(said, sentence);
}

/// A module of one function, `i32.const 1`, `if`, `end`, `end`, with one hint. The function's index
/// stands at byte 47 of the module, the hint's offset at 49.
#[test]
fn of_hints_on_branches() {
    let with = |function: u8, offset: u8, code: u8| {
        let mut bytes = b"\0asm\x01\0\0\0\x01\x04\x01\x60\0\0\x03\x02\x01\0".to_vec();
        bytes.extend(b"\0\x20\x19metadata.code.branch_hint\x01");
        bytes.extend([function, 1, offset, 1, 1]);
        bytes.extend([0x0A, 9, 1, 7, 0, code, 1, 0x04, 0x40, 0x0B, 0x0B]);
        Module::new(&bytes).hints_on_branches()
    };
    const I32_CONST: u8 = 0x41;
    assert_eq!(with(0, 3, I32_CONST), Ok(()));
    says(
        with(1, 3, I32_CONST),
        Reason::NoBody,
        "a hinted function has no body in the module: the function's index starts at byte 0x2F (47)",
    );
    says(
        with(0, 3, 0xFF),
        Reason::UnreadableCode,
        "the locals or an instruction before a hint cannot be read by version 1.0: the hint's \
         offset starts at byte 0x31 (49)",
    );
    says(
        with(0, 1, I32_CONST),
        Reason::NotOnABranch,
        "a hint does not stand on br_if or if: the hint's offset starts at byte 0x31 (49)",
    );
}

/// The imports of a module with hints: a kind that there is not, and bytes behind the list.
#[test]
fn of_imports_beside_hints() {
    let with = |imports: &[u8]| {
        let bytes = module(&[section(2, imports), custom(HINTS_NAME, &[0])]);
        Module::new(&bytes).hints_on_branches()
    };
    says(
        with(&[1, 0, 0, 4]),
        Reason::UnknownImport,
        "an import's kind is above 3, or the flag of its limits above 1: the kind, or the flag, \
         stands at byte 0xD (13)",
    );
    says(
        with(&[0, 0]),
        Reason::LeftOver,
        "bytes are left over in a subsection, in metadata or in hints, or behind imports or bodies: \
         the first of them stands at byte 0xB (11)",
    );
}

#[test]
fn of_pairs() {
    let (accepted, left_over) = (
        NamePayload::new(&[0x00, 0x02, 0x01, 0x6D]),
        NamePayload::new(&[0x01, 0x02, 0x00, 0x00]),
    );
    let said = |separate, own| Pair::new(separate, own).module_name().unwrap_err();
    let sentence =
        "bytes are left over in a subsection, in metadata or in hints, or behind imports or \
                    bodies: the first of them \
                    stands at byte 0x3 (3)";
    assert_eq!(
        said(left_over, accepted).to_string(),
        format!("the separate payload: {sentence}")
    );
    assert_eq!(
        said(accepted, left_over).to_string(),
        format!("the module's own payload: {sentence}")
    );
    let too_short = Pair::new(accepted, accepted).join_into(&mut [0; 3]);
    assert_eq!(
        too_short.unwrap_err().to_string(),
        "the joined payload: the output is shorter than needed: the needed length is 4"
    );
}

#[test]
fn of_pairs_as_errors() {
    fn judged(separate: &[u8], own: &[u8]) -> Result<(), Box<dyn Error + Send + Sync>> {
        Pair::new(NamePayload::new(separate), NamePayload::new(own)).judge()?;
        Ok(())
    }
    let error = judged(&[], &[0x01, 0x02, 0x00, 0x00]).unwrap_err();
    let refused = error
        .downcast_ref::<PairRefusal>()
        .expect("the error is the refusal of a pair");
    assert_eq!(refused.whose(), Some(Whose::Own));
    assert_eq!(
        (refused.refusal().number(), refused.refusal().offset()),
        (10, 3)
    );
}

#[test]
fn as_errors() {
    fn judged(bytes: &[u8]) -> Result<(), Box<dyn Error + Send + Sync>> {
        NamePayload::new(bytes).judge()?;
        Ok(())
    }
    let error = judged(&[0x01, 0x02, 0x00, 0x00]).unwrap_err();
    let refusal = error
        .downcast_ref::<Refusal>()
        .expect("the error is a refusal");
    assert_eq!((refusal.number(), refusal.offset()), (10, 3));
    assert!(error.source().is_none());
}

#[test]
fn their_numbers_are_1_to_15_and_17_to_30() {
    let numbers: Vec<u32> = Reason::ALL.iter().map(|reason| reason.number()).collect();
    assert_eq!(numbers, (1..=15).chain(17..=30).collect::<Vec<u32>>());
    for reason in Reason::ALL {
        assert_eq!(Reason::from_number(reason.number()), Some(*reason));
    }
    for none in [0, 16, 31, u32::MAX] {
        assert_eq!(Reason::from_number(none), None);
    }
}

/// A refusal of bytes does not advise about lists, nor one of lists about a producer.
#[test]
fn advice_is_about_what_was_lent() {
    for payload in [&[0x00, 0x02, 0x01, 0xFF][..], &[1, 5, 2, 0, 0, 0, 0]] {
        let refusal = NamePayload::new(payload).judge().unwrap_err();
        assert!(!refusal.advice().contains("lists"), "{refusal}");
        assert!(
            refusal.reason().advice().contains("from lists"),
            "{refusal}"
        );
    }
    for names in [[(0, &b"\xFF"[..]), (1, b"b")], [(0, b"a"), (0, b"b")]] {
        let names = names.map(|(index, name)| (FunctionIndex(index), name));
        let refusal = function_names(names).unwrap_err();
        assert!(!refusal.advice().contains("producer"), "{refusal}");
    }
    let refusal = Module::new(&[]).section_count().unwrap_err();
    assert_eq!(refusal.advice(), refusal.reason().advice());
}

#[test]
fn the_rules_give_the_same_advice() {
    let rules = Path::new(env!("CARGO_MANIFEST_DIR")).join("../../docs/RULES.md");
    let rules = fs::read_to_string(rules).expect("the repository has docs/RULES.md");
    // A row is: its rule, the number, when it is given, the offset, and what to do.
    let rows = rules.lines().filter_map(|line| {
        let (_, cells) = line.strip_prefix("| R18.")?.split_once(" | ")?;
        let (number, cells) = cells.split_once(" | ")?;
        let (_, advice) = cells.strip_suffix(" |")?.rsplit_once(" | ")?;
        Some((number.parse().ok()?, advice))
    });
    // The table has a row more, for the program that lists, which no call of the library gives.
    let rows: Vec<(u32, &str)> = rows.filter(|(number, _)| *number != 16).collect();
    let advice: Vec<(u32, &str)> = Reason::ALL
        .iter()
        .map(|reason| (reason.number(), reason.advice()))
        .collect();
    assert_eq!(rows, advice);
}
