//! Damaged inputs: cut at every length, every byte changed to every value, and bytes of no plan at
//! all.
//!
//! Nothing may panic, every call must give the judgement's refusal, and what is accepted must
//! rewrite well.

mod support;

use second_reader::*;
use support::editions::*;
use support::inputs::*;
use support::random::{for_seeds, Random};
use support::*;

const INDICES: [u32; 4] = [0, 1, 127, u32::MAX];

/// Ids that are asked for as kept: always known, known to the wider edition, and never known.
const KEPT: [u8; 3] = [1, 3, 12];

/// The calls on payloads of one kind.
struct Calls<'a> {
    judge: fn(&[u8]) -> Answer,
    ask: &'a dyn Fn(&[u8]) -> Vec<Answer>,
    rewrite: fn(&[u8], &mut [u8]) -> Answer,
    is_canonical: fn(&[u8]) -> bool,
}

/// Every question of an edition for a name, with these indices.
fn name_questions(edition: &Edition, indices: &[u32]) -> Vec<Question> {
    let mut questions = vec![Question::Module];
    for &index in indices {
        let flat = |&id: &u8| Question::Flat(id, index);
        questions.extend(edition.maps.iter().map(flat));
        let nested = |&id: &u8| {
            [
                Question::Nested(id, 1, index),
                Question::Nested(id, index, 0),
            ]
        };
        questions.extend(edition.indirect_maps.iter().flat_map(nested));
    }
    questions
}

/// Every question of an edition to a name payload, for a few indices.
fn name_answers(edition: &Edition, payload: &[u8]) -> Vec<Answer> {
    let mut questions = name_questions(edition, &INDICES);
    questions.extend(KEPT.map(Question::Kept));
    let ask = |question| (edition.ask)(payload, question);
    questions.into_iter().map(ask).collect()
}

fn metadata_answers(payload: &[u8]) -> Vec<Answer> {
    INDICES.map(|index| metadata(payload, index, 0)).to_vec()
}

fn hint_answers(payload: &[u8]) -> Vec<Answer> {
    INDICES.map(|index| hint(payload, 0, index)).to_vec()
}

fn old_hint_answers(payload: &[u8]) -> Vec<Answer> {
    let asked = INDICES.map(|index| [old_hint(payload, 0, index), old_hint(payload, index, 1)]);
    asked.concat()
}

/// What an answer says apart from where: two payloads answer alike where these are the same.
fn said(lent: &[u8], answers: Vec<Answer>) -> Vec<(Kind, Option<&[u8]>)> {
    let said = |answer: Answer| (answer.kind, bytes_of(lent, answer));
    answers.into_iter().map(said).collect()
}

/// Puts every question to one payload, whatever it is.
fn check_payload(payload: &[u8], calls: Calls<'_>) {
    let Calls {
        judge,
        ask,
        rewrite,
        is_canonical,
    } = calls;
    let judged = judge(payload);
    if judged.kind == Kind::Refused {
        assert!((2..=12).contains(&judged.code) || judged.code == 17);
        assert!(judged.offset <= payload.len() as u64);
        assert!(ask(payload).iter().all(|answer| *answer == judged));
        assert_eq!(rewritten(rewrite, payload), Err(judged));
        assert!(!is_canonical(payload));
        return;
    }
    assert_eq!(judged, found(0, payload.len() as u64));
    let canonical = rewritten(rewrite, payload).unwrap();
    assert!(canonical.len() <= payload.len());
    assert_eq!(judge(&canonical), found(0, canonical.len() as u64));
    assert_eq!(
        said(payload, ask(payload)),
        said(&canonical, ask(&canonical))
    );
    assert_eq!(is_canonical(payload), canonical == payload);
    assert!(is_canonical(&canonical));
    assert_eq!(rewritten(rewrite, &canonical), Ok(canonical));
}

fn check_names(payload: &[u8]) {
    for edition in &EDITIONS {
        let calls = Calls {
            judge: edition.judge,
            ask: &|lent| name_answers(edition, lent),
            rewrite: edition.rewrite,
            is_canonical: edition.is_canonical,
        };
        check_payload(payload, calls);
    }
    check_reasons(payload);
    check_markers(payload);
}

/// A payload beside which others are asked: what both editions know, and what only the wider does.
const PAIRED: &[u8] = b"\x00\x01\x00\x01\x04\x01\x00\x01f\x02\x06\x01\x01\x01\x00\x01l\
    \x03\x06\x01\x01\x01\x7F\x01b\x07\x04\x01\x01\x01g\x0C\x00";

/// Puts one payload, whatever it is, on each side of another, of itself, and of nothing.
fn check_pairs(payload: &[u8]) {
    for edition in &EDITIONS {
        for other in [b"", PAIRED] {
            check_pair(edition, payload, other);
            check_pair(edition, other, payload);
        }
        check_pair(edition, payload, payload);
    }
}

/// Two payloads answer every question by what each answers alone, and what is joined of them answers
/// as they do.
fn check_pair(edition: &Edition, separate: &[u8], own: &[u8]) {
    let joined = joined(edition, separate, own);
    let mut questions = name_questions(edition, &INDICES);
    questions.extend(KEPT.map(Question::Kept));
    for question in questions {
        let alone = |payload: &[u8]| (edition.ask)(payload, question);
        let expected = of_two(alone(separate), alone(own));
        let asked = (edition.ask_pair)(separate, own, question);
        assert_eq!(
            asked, expected,
            "{question:?} of {separate:02X?} and {own:02X?}"
        );
        match &joined {
            Err(refused) => assert_eq!(asked, *refused),
            Ok(joined) => {
                let said = bytes_of_pair(separate, own, asked);
                assert_eq!(bytes_of(joined, alone(joined)), said);
            }
        }
    }
    if let Ok(joined) = joined {
        assert!(joined.len() <= separate.len() + own.len());
        assert!((edition.is_canonical)(&joined));
    }
}

/// Markers are refused as the payload is; asked by its own, it answers as in full.
fn check_markers(payload: &[u8]) {
    let made = marked(payload);
    let judged = names_judge(payload);
    if judged.kind == Kind::Refused {
        assert_eq!(made, Err(judged));
        return;
    }
    let markers = made.unwrap();
    for index in INDICES {
        assert_eq!(markers.quick(payload, index), function_name(payload, index));
    }
}

/// A reason is given exactly where the question for the name gets none.
fn check_reasons(payload: &[u8]) {
    for index in INDICES {
        check_reason(function_name(payload, index), why_function(payload, index));
        for (function, local) in [(1, index), (index, 0)] {
            let name = local_name(payload, function, local);
            check_reason(name, why_local(payload, function, local));
        }
    }
}

fn check_reason(name: Answer, why: Why) {
    const REASONS: [Kind; 3] = [Kind::NoSubsection, Kind::NoGroup, Kind::NoEntry];
    match name.kind {
        Kind::Refused => assert_eq!(why, why_refused(name.code, name.offset)),
        Kind::None => assert!(REASONS.contains(&why.kind), "{why:?}"),
        _ => assert_eq!(why.kind, Kind::Found),
    }
}

fn check_metadata(payload: &[u8]) {
    let of_any_format = Calls {
        judge: metadata_judge,
        ask: &metadata_answers,
        rewrite: metadata_canonical,
        is_canonical: metadata_is_canonical,
    };
    check_payload(payload, of_any_format);
    let of_hints = Calls {
        judge: hints_judge,
        ask: &hint_answers,
        rewrite: hints_canonical,
        is_canonical: hints_is_canonical,
    };
    check_payload(payload, of_hints);
    // The rules for hints refuse more, and only by 12.
    let (any, hints) = (metadata_judge(payload), hints_judge(payload));
    assert!(any == hints || hints.code == 12);
}

fn check_older(payload: &[u8]) {
    let calls = Calls {
        judge: old_hints_judge,
        ask: &old_hint_answers,
        rewrite: old_hints_canonical,
        is_canonical: old_hints_is_canonical,
    };
    check_payload(payload, calls);
    // It has no order and no names, so nothing is refused for these.
    let code = old_hints_judge(payload).code;
    assert!([0, 2, 3, 10, 12, 17].contains(&code), "{payload:02X?}");
}

/// Puts every question through one module, whatever it is.
fn check_module(module: &[u8]) {
    let walked = walk(module);
    if walked.kind == Kind::Refused {
        assert!((1..=8).contains(&walked.code));
        assert!(walked.offset <= module.len() as u64);
        assert_eq!(section(module, 0), walked);
        assert_eq!(custom(module, b"name"), walked);
        assert!(through_answers(module)
            .iter()
            .all(|answer| *answer == walked));
        return;
    }
    check_sections(module, walked.length);
    for answer in through_answers(module) {
        assert!(answer.offset + answer.length <= module.len() as u64);
    }
}

fn through_answers(module: &[u8]) -> Vec<Answer> {
    let mut answers = vec![
        hint_in(module, 0, 0),
        old_hint_in(module, 0, 0),
        hints_on_branches(module),
        metadata_in(module, b"branch_hint", 0, 0),
        metadata_in(module, b"x", 0, 0),
    ];
    for edition in &EDITIONS {
        let mut questions = name_questions(edition, &[0]);
        questions.extend(KEPT.map(Question::Kept));
        let ask = |question| (edition.ask_in)(module, question);
        answers.extend(questions.into_iter().map(ask));
    }
    answers
}

/// The sections lie one behind the other and fill the module.
fn check_sections(module: &[u8], count: u64) {
    let mut least = PREAMBLE.len() as u64;
    for position in 0..count {
        let here = section(module, position);
        assert_eq!(here.kind, Kind::Found);
        assert_eq!(u32::from(module[here.offset as usize]), here.code);
        assert!(here.offset >= least);
        least = here.offset + 2 + here.length;
    }
    assert!(least <= module.len() as u64);
    assert_eq!(section(module, count), NONE);
}

/// The input cut at every length.
fn cut_everywhere(input: &[u8], check: fn(&[u8])) {
    for length in 0..=input.len() {
        check(&input[..length]);
    }
}

/// The input with every byte, one at a time, changed to every other value.
fn change_everywhere(input: &[u8], check: fn(&[u8])) {
    let mut changed = input.to_vec();
    for place in 0..input.len() {
        for value in 0..=u8::MAX {
            changed[place] = value;
            check(&changed);
        }
        changed[place] = input[place];
    }
}

/// The first input of at most this length that the generator gives.
fn small(most: usize, mut make: impl FnMut() -> Vec<u8>) -> Vec<u8> {
    loop {
        let input = make();
        if input.len() <= most {
            return input;
        }
    }
}

/// A name payload made for either edition.
fn names_input(random: &mut Random) -> Vec<u8> {
    let edition = random.pick(&[&FIRST, &WIDER]);
    let names = random_names(random, edition);
    encoded_names(&names, random)
}

fn metadata_input(random: &mut Random) -> Vec<u8> {
    let list = match random.one_in(3) {
        true => random_metadata(random),
        false => random_hints(random),
    };
    encoded_nested(&list, random)
}

fn older_input(random: &mut Random) -> Vec<u8> {
    let list = random_older(random);
    encoded_older(&list, random)
}

fn module_input(random: &mut Random) -> Vec<u8> {
    let metadata = small(40, || metadata_input(random));
    let hints = small(60, || {
        let hints = random_hints(random);
        encoded_nested(&hints, random)
    });
    let older = small(60, || older_input(random));
    let names = small(60, || names_input(random));
    let mut sections = vec![
        plain_section(1, b"\0"),
        custom_section(b"metadata.code.x", &metadata),
        custom_section(HINTS, &hints),
        custom_section(OLD_HINTS, &older),
        plain_section(10, b"\0"),
        plain_section(11, b"\0"),
        custom_section(b"name", &names),
    ];
    sections.retain(|_| !random.one_in(4));
    module(&sections)
}

#[test]
fn names_cut_short() {
    cut_everywhere(&P, check_names);
    for_seeds(200, |random| {
        cut_everywhere(&names_input(random), check_names)
    });
}

#[test]
fn pairs_cut_short() {
    cut_everywhere(PAIRED, check_pairs);
    for_seeds(20, |random| {
        cut_everywhere(&names_input(random), check_pairs)
    });
}

#[test]
fn metadata_cut_short() {
    for_seeds(200, |random| {
        cut_everywhere(&metadata_input(random), check_metadata);
    });
}

#[test]
fn older_hints_cut_short() {
    for_seeds(200, |random| {
        cut_everywhere(&older_input(random), check_older);
    });
}

#[test]
fn modules_cut_short() {
    for_seeds(100, |random| {
        cut_everywhere(&module_input(random), check_module)
    });
}

#[test]
fn names_with_a_byte_changed() {
    change_everywhere(&P, check_names);
    for_seeds(12, |random| {
        let input = small(60, || names_input(random));
        change_everywhere(&input, check_names);
    });
}

#[test]
fn pairs_with_a_byte_changed() {
    change_everywhere(PAIRED, check_pairs);
}

/// Payloads made for either edition, every second damaged, of which any two may meet.
#[test]
fn pairs_of_any_two() {
    let mut before = Vec::new();
    for_seeds(5_000, |random| {
        let mut payload = names_input(random);
        if random.one_in(2) && !payload.is_empty() {
            let place = random.below(payload.len());
            payload[place] = random.byte();
        }
        for edition in &EDITIONS {
            check_pair(edition, &before, &payload);
        }
        before = payload;
    });
}

#[test]
fn metadata_with_a_byte_changed() {
    for_seeds(12, |random| {
        let input = small(60, || metadata_input(random));
        change_everywhere(&input, check_metadata);
    });
}

#[test]
fn older_hints_with_a_byte_changed() {
    for_seeds(12, |random| {
        let input = small(60, || older_input(random));
        change_everywhere(&input, check_older);
    });
}

#[test]
fn modules_with_a_byte_changed() {
    change_everywhere(&module(&[custom_section(b"name", &P)]), check_module);
    for_seeds(4, |random| {
        change_everywhere(&module_input(random), check_module)
    });
}

/// Which payloads one edition accepts and the other does not: made for either, every second damaged.
#[test]
fn the_first_edition_accepts_what_the_wider_accepts() {
    const LEAST_OF_EACH: u64 = 1_000;
    let (mut by_both, mut by_first_alone, mut by_none) = (0, 0, 0);
    for_seeds(10_000, |random| {
        let mut payload = names_input(random);
        if random.one_in(2) && !payload.is_empty() {
            let place = random.below(payload.len());
            payload[place] = random.byte();
        }
        let judged = EDITIONS.map(|edition| (edition.judge)(&payload).kind);
        match judged {
            [Kind::Found, Kind::Found] => {
                names_of_both_are_alike(&payload);
                by_both += 1;
            }
            [Kind::Found, _] => by_first_alone += 1,
            [_, Kind::Found] => panic!("by the wider edition alone: {payload:02X?}"),
            _ => by_none += 1,
        }
    });
    let met = [by_both, by_first_alone, by_none];
    assert!(met.iter().all(|times| *times >= LEAST_OF_EACH), "{met:?}");
}

/// What both editions know and what both keep has the same place in each.
fn names_of_both_are_alike(payload: &[u8]) {
    let mut questions = name_questions(&FIRST, &INDICES);
    questions.extend([12, 0x80, 0xFF].map(Question::Kept));
    for question in questions {
        let answers = EDITIONS.map(|edition| (edition.ask)(payload, question));
        assert_eq!(answers[0], answers[1], "{question:?} of {payload:02X?}");
    }
}

/// Small bytes are far more often a payload than any bytes are.
#[test]
fn bytes_of_no_plan() {
    for_seeds(20_000, |random| {
        let most = random.pick(&[4, 8, 16]);
        let mut bytes = any_bytes(random, most);
        if !random.one_in(4) {
            for byte in &mut bytes {
                *byte %= 4;
            }
        }
        check_names(&bytes);
        check_metadata(&bytes);
        check_older(&bytes);
        check_module(&bytes);
        check_module(&module(&[bytes]));
    });
}

/// All payloads of up to four bytes, over the bytes that matter.
#[test]
fn every_short_payload() {
    const BYTES: [u8; 10] = [0, 1, 2, 3, 4, 7, 0x0B, 0x61, 0x80, 0xFF];
    let mut payloads = vec![Vec::new()];
    for _ in 0..4 {
        let longer = payloads
            .iter()
            .flat_map(|payload| BYTES.map(|byte| [&payload[..], &[byte]].concat()))
            .collect();
        payloads.iter().for_each(|payload| check_names(payload));
        payloads.iter().for_each(|payload| check_metadata(payload));
        payloads.iter().for_each(|payload| check_older(payload));
        payloads = longer;
    }
    payloads.iter().for_each(|payload| check_names(payload));
    payloads.iter().for_each(|payload| check_metadata(payload));
    payloads.iter().for_each(|payload| check_older(payload));
}

/// Markers of no plan, over bytes of no plan: they are refused at a place that they have, and what is
/// found lies between the marker that it was found by and the end.
#[test]
fn markers_of_no_plan() {
    const LEAST_OF_EACH: u64 = 500;
    let mut met = [0; 3];
    for_seeds(40_000, |random| {
        let payload: Vec<u8> = (0..random.below(24))
            .map(|_| random.pick(&[0, 0, 1, 1, 2, 3, 5, 0x61, 0x80, 0xFF]))
            .collect();
        let count = random.below(4);
        let mut list = |most: usize| -> Vec<u32> {
            let mut numbers: Vec<u32> = (0..count).map(|_| random.below(most) as u32).collect();
            if !random.one_in(3) {
                numbers.sort_unstable();
                numbers.dedup();
            }
            numbers
        };
        let markers = Markers::new(&list(6), &list(payload.len() + 1), payload.len() as u64);
        let answer = markers.quick(&payload, 3);
        met[answer.kind as usize] += 1;
        match answer.kind {
            Kind::Refused => {
                assert_eq!(answer.code, 22);
                assert!(answer.offset <= count as u64);
            }
            Kind::Found => {
                let start = markers.offsets.iter().copied().map(u64::from).min();
                assert!(answer.offset >= start.unwrap() + 2);
                assert!(answer.offset + answer.length <= markers.end);
            }
            _ => assert_eq!(answer, NONE),
        }
    });
    assert!(met.iter().all(|times| *times >= LEAST_OF_EACH), "{met:?}");
}

/// Lists of no plan: whatever is refused leaves the output alone, whatever is written reads back.
#[test]
fn lists_of_no_plan() {
    for_seeds(20_000, |random| {
        let indices: Vec<u32> = (0..random.below(4))
            .map(|_| random.below(4) as u32)
            .collect();
        let lengths: Vec<u32> = (0..random.below(4))
            .map(|_| random.below(3) as u32)
            .collect();
        let text: Vec<u8> = (0..random.below(5))
            .map(|_| random.pick(&[0x61, 0x62, 0xC3, 0xA9]))
            .collect();
        let write = |out: &mut [u8]| function_names_write(&indices, &lengths, &text, out);
        match written(write, 64) {
            Ok(payload) => {
                check_names(&payload);
                for index in indices {
                    assert_eq!(function_name(&payload, index).kind, Kind::Found);
                }
            }
            Err(refusal) => assert!([4, 11, 14].contains(&refusal.code)),
        }
    });
}
