//! The older edition of branch hints: any bytes, through modules, and beside the newer edition.

mod common;

use common::{custom, module, refused, section, HINTS_NAME, OLD_HINTS_NAME};
use wakemiono::{
    offset_in, CodeOffset, FunctionIndex, Hint, Hints, InstructionOffset, Module, OldHints, Refusal,
};

/// Function 5 before function 2, its offsets falling, and function 5 once more, where it is said
/// anew of offset 9 what was said of it before.
const FREE: [u8; 21] = [
    0x03, 0x05, 0x00, 0x02, 0x01, 0x09, 0x00, 0x04, 0x02, 0x00, 0x01, 0x01, 0x80, 0x01, 0x05, 0x00,
    0x02, 0x00, 0x09, 0x01, 0x03,
];

type Asked = Result<Option<Hint>, Refusal>;

fn asked(payload: &[u8], function: u32, at: u32) -> Asked {
    OldHints::new(payload).hint(FunctionIndex(function), InstructionOffset(at))
}

fn judged(payload: &[u8]) -> (u32, u64) {
    refused(OldHints::new(payload).judge())
}

#[test]
fn the_first_hint_of_a_place_answers() {
    assert_eq!(OldHints::new(&FREE).judge(), Ok(()));
    assert_eq!(asked(&FREE, 5, 9), Ok(Some(Hint::Likely)));
    assert_eq!(asked(&FREE, 5, 4), Ok(Some(Hint::Unlikely)));
    assert_eq!(asked(&FREE, 5, 3), Ok(Some(Hint::Likely)));
    assert_eq!(asked(&FREE, 2, 128), Ok(Some(Hint::Likely)));
    assert_eq!(asked(&FREE, 9, 5), Ok(None));
    assert_eq!(asked(&FREE, 2, 9), Ok(None));
    assert_eq!(asked(&[0x00], 0, 0), Ok(None));
    let padded_kind = [0x01, 0x00, 0x00, 0x01, 0x81, 0x80, 0x00, 0x05];
    assert_eq!(asked(&padded_kind, 0, 5), Ok(Some(Hint::Likely)));
}

#[test]
fn refusals_come_from_left_to_right() {
    assert_eq!(judged(&[]), (2, 0));
    assert_eq!(judged(&[0x01, 0x05]), (2, 2));
    assert_eq!(judged(&[0x01, 0x05, 0x80, 0x00]), (17, 2));
    assert_eq!(judged(&[0x01, 0x05, 0x00, 0x01, 0x02]), (12, 4));
    assert_eq!(judged(&[0x01, 0x05, 0x00, 0x01, 0x82, 0x00, 0xFF]), (12, 4));
    assert_eq!(judged(&[0x01, 0x05, 0x00, 0x01, 0x01]), (2, 5));
    assert_eq!(judged(&[0xFF, 0xFF, 0xFF, 0xFF, 0x1F]), (3, 0));
    assert_eq!(judged(&[0x00, 0x00]), (10, 1));
    assert_eq!(refused(asked(&[0x00, 0x00], 5, 9)), (10, 1));
}

#[test]
fn through_a_module() {
    let bytes = module(&[custom(OLD_HINTS_NAME, &FREE), section(10, &[0])]);
    let module_ = Module::new(&bytes);
    let hint = |function, at| module_.old_hint(FunctionIndex(function), InstructionOffset(at));
    assert_eq!(hint(5, 9), Ok(Some(Hint::Likely)));
    assert_eq!(hint(5, 5), Ok(None));
    let payload = module_.old_hints().unwrap().expect("the section is there");
    assert_eq!(payload.as_bytes(), FREE);
    assert_eq!(format!("{payload:?}"), "OldHints(21 bytes)");
    let wider = Module::wider(&bytes);
    let hint = wider.old_hint(FunctionIndex(2), InstructionOffset(128));
    assert_eq!(hint, Ok(Some(Hint::Likely)));
}

#[test]
fn the_editions_are_asked_apart() {
    let newer = [0x01, 0x02, 0x01, 0x05, 0x01, 0x01];
    let older = [0x01, 0x02, 0x00, 0x01, 0x00, 0x05];
    let bytes = module(&[custom(OLD_HINTS_NAME, &older), custom(HINTS_NAME, &newer)]);
    let both = Module::new(&bytes);
    let function = FunctionIndex(2);
    assert_eq!(both.hint(function, CodeOffset(5)), Ok(Some(Hint::Likely)));
    let hint = both.old_hint(function, InstructionOffset(5));
    assert_eq!(hint, Ok(Some(Hint::Unlikely)));
    assert!(Hints::new(&older).judge().is_err());
    assert!(OldHints::new(&newer).judge().is_err());
    // The damage of one edition is not met by a question to the other.
    let bytes = module(&[custom(OLD_HINTS_NAME, &[]), custom(HINTS_NAME, &newer)]);
    let damaged = Module::new(&bytes);
    assert_eq!(
        damaged.hint(function, CodeOffset(5)),
        Ok(Some(Hint::Likely))
    );
    assert_eq!(
        refused(damaged.old_hint(function, InstructionOffset(5))),
        (2, 22)
    );
}

#[test]
fn canonical_forms() {
    let canonical = |payload: &[u8]| OldHints::new(payload).to_canonical();
    let of_free = [
        0x02, 0x02, 0x00, 0x01, 0x01, 0x80, 0x01, 0x05, 0x00, 0x03, 0x01, 0x03, 0x00, 0x04, 0x01,
        0x09,
    ];
    assert_eq!(canonical(&FREE), Ok(of_free.to_vec()));
    assert_eq!(canonical(&of_free), Ok(of_free.to_vec()));
    assert_eq!(canonical(&[0x01, 0x05, 0x00, 0x80, 0x00]), Ok(vec![0x00]));
    assert_eq!(canonical(&[0x80, 0x00]), Ok(vec![0x00]));
    assert_eq!(refused(canonical(&[0x00, 0x00])), (10, 1));
    assert!(OldHints::new(&of_free).is_canonical());
    assert!(!OldHints::new(&FREE).is_canonical());
}

#[test]
fn outputs_of_every_length() {
    let (hints, needed) = (OldHints::new(&FREE), 16);
    for room in 0..needed {
        let mut out = vec![0xEE; room];
        let answer = hints.canonical_into(&mut out);
        assert_eq!(refused(answer), (13, needed as u64));
        assert!(out.iter().all(|byte| *byte == 0xEE));
    }
    for room in needed..FREE.len() + 3 {
        let mut out = vec![0xEE; room];
        assert_eq!(hints.canonical_into(&mut out), Ok(needed));
        assert_eq!(out[..needed], hints.to_canonical().unwrap());
        assert!(out[needed..].iter().all(|byte| *byte == 0xEE));
    }
}

/// A rewriting answers as its payload does, is never longer, and rewriting it again changes nothing.
fn rewriting_agrees(payload: &[u8]) {
    let hints = OldHints::new(payload);
    let canonical = hints.to_canonical();
    assert_eq!(
        canonical.as_ref().map(drop).map_err(|it| *it),
        hints.judge()
    );
    assert_eq!(hints.is_canonical(), canonical.as_deref() == Ok(payload));
    let Ok(canonical) = canonical else {
        return;
    };
    assert!(canonical.len() <= payload.len());
    assert!(OldHints::new(&canonical).is_canonical());
    assert_eq!(
        OldHints::new(&canonical).to_canonical().as_ref(),
        Ok(&canonical)
    );
    for (function, at) in (0..6).flat_map(|function| (0..12).map(move |at| (function, at))) {
        assert_eq!(
            asked(&canonical, function, at),
            asked(payload, function, at)
        );
    }
}

/// Every question to a payload gets a hint or none, or is refused as the payload is.
fn payload_agrees(payload: &[u8]) {
    rewriting_agrees(payload);
    let judged = OldHints::new(payload).judge();
    let at_preamble = module(&[custom(OLD_HINTS_NAME, payload)]);
    let whole = Module::new(&at_preamble);
    let lies_at = whole.old_hints().unwrap().expect("the section is there");
    let start = offset_in(&at_preamble, lies_at.as_bytes()).expect("it lies in the module");
    for (function, at) in (0..4).flat_map(|function| (0..8).map(move |at| (function, at))) {
        let apart = asked(payload, function, at);
        assert_eq!(apart.map(drop), judged);
        let through = whole.old_hint(FunctionIndex(function), InstructionOffset(at));
        let place = |refusal: Refusal, from: u64| (refusal.number(), from + refusal.offset());
        assert_eq!(
            through.map_err(|refusal| place(refusal, 0)),
            apart.map_err(|refusal| place(refusal, start as u64))
        );
    }
}

#[test]
fn any_bytes_may_be_lent() {
    for length in 0..=FREE.len() {
        payload_agrees(&FREE[..length]);
    }
    for at in 0..FREE.len() {
        for byte in [0x00, 0x01, 0x02, 0x03, 0x05, 0x7F, 0x80, 0x81, 0xFF] {
            let mut changed = FREE;
            changed[at] = byte;
            payload_agrees(&changed);
        }
    }
}
