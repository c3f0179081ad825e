//! Properties of accepted payloads, over payloads built at random from plain lists.

mod support;

use std::collections::BTreeMap;

use second_reader::*;
use support::editions::*;
use support::inputs::*;
use support::random::{for_seeds, Random};
use support::*;

const SEEDS: u64 = 3_000;

/// Every text in a name payload with the question that it answers.
fn present(names: &Names) -> Vec<(Question, &[u8])> {
    let mut all = Vec::new();
    for (id, contents) in names {
        match contents {
            Contents::Module(text) => all.push((Question::Module, &text[..])),
            Contents::Kept(contents) => all.push((Question::Kept(*id), &contents[..])),
            Contents::Map(list) => {
                for (index, text) in list {
                    all.push((Question::Flat(*id, *index), &text[..]));
                }
            }
            Contents::Indirect(list) => {
                for (primary, index, text) in items(list) {
                    all.push((Question::Nested(*id, primary, index), text));
                }
            }
        }
    }
    all
}

/// The items of a nested list, one after the other.
fn items(list: &Nested) -> Vec<(u32, u32, &[u8])> {
    let mut all = Vec::new();
    for (primary, entries) in list {
        for (index, part) in entries {
            all.push((*primary, *index, &part[..]));
        }
    }
    all
}

/// Questions of an edition that lie beside those present, of every kind.
fn beside(all: &[(Question, &[u8])], edition: &Edition, random: &mut Random) -> Vec<Question> {
    let mut questions = vec![Question::Module];
    for id in 0..=u8::MAX {
        questions.push(Question::Kept(id));
    }
    let near = |index: u32, random: &mut Random| {
        index.wrapping_add(random.below(3) as u32).wrapping_sub(1)
    };
    for (question, _) in all {
        match *question {
            Question::Flat(_, i) => {
                questions.push(Question::Flat(random.pick(edition.maps), near(i, random)));
            }
            Question::Nested(_, p, i) => {
                let (p, i) = (near(p, random), near(i, random));
                questions.push(Question::Nested(random.pick(edition.indirect_maps), p, i));
                questions.push(Question::Nested(random.pick(edition.indirect_maps), i, p));
            }
            _ => {}
        }
    }
    questions
}

/// Runs a check under each seed in each edition, over names made for it and their payload.
fn for_names(count: u64, mut check: impl FnMut(&Edition, &Names, &[u8], &mut Random)) {
    for edition in &EDITIONS {
        for_seeds(count, |random| {
            let names = random_names(random, edition);
            let payload = encoded_names(&names, random);
            check(edition, &names, &payload, random);
        });
    }
}

#[test]
fn names_answer_what_was_put_in() {
    for_names(SEEDS, |edition, names, payload, _| {
        assert_eq!((edition.judge)(payload), found(0, payload.len() as u64));
        for (question, text) in present(names) {
            let answer = (edition.ask)(payload, question);
            assert_eq!(bytes_of(payload, answer), Some(text), "{question:?}");
        }
    });
}

#[test]
fn names_are_rewritten_by_the_definition() {
    for_names(SEEDS, |edition, names, payload, _| {
        let canonical = rewritten(edition.rewrite, payload).unwrap();
        assert_eq!(canonical, canonical_names(names));
        assert_eq!((edition.is_canonical)(payload), payload == canonical);
        assert!(canonical.len() <= payload.len());
        assert_eq!(
            (edition.judge)(&canonical),
            found(0, canonical.len() as u64)
        );
        assert_eq!(rewritten(edition.rewrite, &canonical), Ok(canonical));
    });
}

#[test]
fn rewritten_names_answer_alike() {
    for_names(SEEDS, |edition, names, payload, random| {
        let canonical = rewritten(edition.rewrite, payload).unwrap();
        let present = present(names);
        let mut questions = beside(&present, edition, random);
        questions.extend(present.iter().map(|(question, _)| *question));
        for question in questions {
            let before = bytes_of(payload, (edition.ask)(payload, question));
            let after = bytes_of(&canonical, (edition.ask)(&canonical, question));
            assert_eq!(before, after, "{question:?}");
        }
    });
}

/// What two plain lists of subsections come to, with the first one's before the other's.
fn merged(separate: &Names, own: &Names) -> Names {
    let mut subsections = BTreeMap::new();
    for (id, contents) in own.iter().chain(separate) {
        let contents = match (subsections.remove(id), contents) {
            (Some(Contents::Map(behind)), Contents::Map(before)) => {
                Contents::Map(merged_map(before, &behind))
            }
            (Some(Contents::Indirect(behind)), Contents::Indirect(before)) => {
                Contents::Indirect(merged_groups(before, &behind))
            }
            (_, other) => other.clone(),
        };
        subsections.insert(*id, contents);
    }
    subsections.into_iter().collect()
}

fn merged_map(before: &Flat, behind: &Flat) -> Flat {
    let mut entries: BTreeMap<u32, Vec<u8>> = behind.iter().cloned().collect();
    entries.extend(before.iter().cloned());
    entries.into_iter().collect()
}

fn merged_groups(before: &Nested, behind: &Nested) -> Nested {
    let mut groups: BTreeMap<u32, Flat> = behind.iter().cloned().collect();
    for (primary, entries) in before {
        let group = groups.entry(*primary).or_default();
        *group = merged_map(entries, group);
    }
    groups.into_iter().collect()
}

/// Asked for everything that is in either, and joined by the definition.
#[test]
fn pairs_answer_and_are_joined() {
    for_names(SEEDS, |edition, separate_names, separate, random| {
        let own_names = random_names(random, edition);
        let own = encoded_names(&own_names, random);
        let merged = merged(separate_names, &own_names);
        let joined = joined(edition, separate, &own).unwrap();
        assert_eq!(joined, canonical_names(&merged));
        assert!(joined.len() <= separate.len() + own.len());
        let of_separate = present(separate_names);
        for (question, text) in present(&merged) {
            let answer = (edition.ask_pair)(separate, &own, question);
            let is_separate = of_separate.iter().any(|(other, _)| *other == question);
            let whose = if is_separate {
                Whose::Separate
            } else {
                Whose::Own
            };
            assert_eq!(answer.whose, whose, "{question:?}");
            assert_eq!(
                bytes_of_pair(separate, &own, answer),
                Some(text),
                "{question:?}"
            );
        }
        for question in beside(&present(&merged), edition, random) {
            let answer = (edition.ask_pair)(separate, &own, question);
            let alone = |payload: &[u8]| (edition.ask)(payload, question);
            assert_eq!(answer, of_two(alone(separate), alone(&own)), "{question:?}");
        }
    });
}

/// What is to be said of an index in a map, by the plain list.
fn why_in(subsection: u32, list: &Flat, wanted: u32) -> Why {
    let indices: Vec<u32> = list.iter().map(|(index, _)| *index).collect();
    let below = indices.iter().copied().filter(|index| *index < wanted);
    let above = indices.iter().copied().filter(|index| *index > wanted);
    match indices.iter().position(|index| *index == wanted) {
        Some(position) => named(subsection, position as u64),
        None => between(below.max(), above.min()),
    }
}

/// The contents that were put in under an id.
fn put_in(names: &Names, wanted: u8) -> Option<&Contents> {
    let found = names.iter().find(|(id, _)| *id == wanted);
    found.map(|(_, contents)| contents)
}

fn why_of_function(names: &Names, function: u32) -> Why {
    match put_in(names, 1) {
        Some(Contents::Map(list)) => why_in(1, list, function),
        _ => NO_SUBSECTION,
    }
}

fn why_of_local(names: &Names, function: u32, local: u32) -> Why {
    let Some(Contents::Indirect(groups)) = put_in(names, 2) else {
        return NO_SUBSECTION;
    };
    let group = groups.iter().find(|(primary, _)| *primary == function);
    group.map_or(NO_GROUP, |(_, list)| why_in(2, list, local))
}

/// Asked at every index that was put in, whatever has it there, and beside it.
#[test]
fn reasons_are_those_of_what_was_put_in() {
    let beside = |index: u32| [index.wrapping_sub(1), index, index.wrapping_add(1)];
    for_names(SEEDS, |_, names, payload, _| {
        let mut asked = vec![(0, 0)];
        for (question, _) in present(names) {
            match question {
                Question::Flat(_, index) => asked.push((index, 0)),
                Question::Nested(_, primary, index) => asked.push((primary, index)),
                Question::Module | Question::Kept(_) => {}
            }
        }
        for (one, two) in asked {
            for one in beside(one) {
                assert_eq!(why_function(payload, one), why_of_function(names, one));
                for two in beside(two) {
                    assert_eq!(why_local(payload, one, two), why_of_local(names, one, two));
                }
            }
        }
    });
}

/// Function names, up to seventy of them, between a module's name and those of its locals.
fn random_functions(random: &mut Random) -> (Flat, Vec<u8>) {
    let indices = ascending(random, 70).into_iter();
    let functions: Flat = indices.map(|index| (index, text(random))).collect();
    let mut subsections = vec![(1, Contents::Map(functions.clone()))];
    if random.one_in(2) {
        subsections.insert(0, (0, Contents::Module(text(random))));
    }
    if random.one_in(2) {
        subsections.push((2, Contents::Indirect(random_nested(random, text))));
    }
    let payload = encoded_names(&subsections, random);
    (functions, payload)
}

/// They are the first of each sixteen that were put in, and an entry begins where the text of the one
/// before it ends.
#[test]
fn markers_are_those_of_what_was_put_in() {
    for_seeds(SEEDS, |random| {
        let (functions, payload) = random_functions(random);
        let markers = marked(&payload).unwrap();
        let first_of_each: Vec<u32> = functions.chunks(16).map(|some| some[0].0).collect();
        assert_eq!(markers.indices, first_of_each);
        for (some, offset) in functions.chunks(16).zip(markers.offsets.iter().skip(1)) {
            let before = function_name(&payload, some[15].0);
            assert_eq!(before.offset + before.length, u64::from(*offset));
        }
        if let Some((last, _)) = functions.last() {
            let last = function_name(&payload, *last);
            assert_eq!(last.offset + last.length, markers.end);
        }
    });
}

/// Asked at every index that was put in, and beside it.
#[test]
fn the_quick_question_answers_as_the_full_one() {
    for_seeds(SEEDS / 4, |random| {
        let (functions, payload) = random_functions(random);
        let markers = marked(&payload).unwrap();
        for (index, _) in functions {
            for asked in [index.wrapping_sub(1), index, index.wrapping_add(1)] {
                let full = function_name(&payload, asked);
                assert_eq!(markers.quick(&payload, asked), full);
            }
        }
    });
}

/// A custom section with any size of contents, its numbers padded at random.
fn padded_section(name: &[u8], payload: &[u8], random: &mut Random) -> Vec<u8> {
    let mut padding = random;
    let contents = [sized(name, &mut padding), payload.to_vec()].concat();
    [vec![0], sized(&contents, &mut padding)].concat()
}

#[test]
fn names_answer_alike_through_a_module() {
    for_names(SEEDS / 4, |edition, names, payload, random| {
        let before = plain_section(random.below(12) as u8 + 1, b"\0\0");
        let section = padded_section(b"name", payload, random);
        let module = module(&[before, section, custom_section(b"other", b"name")]);
        let start = custom(&module, b"name").offset;
        assert_eq!(custom(&module, b"name"), found(start, payload.len() as u64));
        let present = present(names);
        let mut questions = beside(&present, edition, random);
        questions.extend(present.iter().map(|(question, _)| *question));
        for question in questions {
            let mut expected = (edition.ask)(payload, question);
            if expected.kind == Kind::Found {
                expected.offset += start;
            }
            let through = (edition.ask_in)(&module, question);
            assert_eq!(through, expected, "{question:?}");
        }
    });
}

#[test]
fn metadata_answers_and_is_rewritten() {
    for_seeds(SEEDS, |random| {
        let list = random_metadata(random);
        let payload = encoded_nested(&list, random);
        assert_eq!(metadata_judge(&payload), found(0, payload.len() as u64));
        let canonical = rewritten(metadata_canonical, &payload).unwrap();
        assert_eq!(canonical, canonical_metadata(&list));
        assert_eq!(metadata_is_canonical(&payload), payload == canonical);
        assert!(canonical.len() <= payload.len());
        assert_eq!(
            rewritten(metadata_canonical, &canonical),
            Ok(canonical.clone())
        );
        for (function, offset, data) in items(&list) {
            for lent in [&payload, &canonical] {
                assert_eq!(bytes_of(lent, metadata(lent, function, offset)), Some(data));
            }
            let (function, offset) = (offset, function.wrapping_add(1));
            assert_eq!(
                bytes_of(&payload, metadata(&payload, function, offset)),
                bytes_of(&canonical, metadata(&canonical, function, offset))
            );
        }
    });
}

#[test]
fn hints_answer_and_are_rewritten() {
    for_seeds(SEEDS, |random| {
        let list = random_hints(random);
        let payload = encoded_nested(&list, random);
        assert_eq!(hints_judge(&payload), found(0, payload.len() as u64));
        let canonical = rewritten(hints_canonical, &payload).unwrap();
        assert_eq!(canonical, canonical_metadata(&list));
        assert_eq!(hints_is_canonical(&payload), payload == canonical);
        assert!(canonical.len() <= payload.len());
        assert_eq!(
            rewritten(hints_canonical, &canonical),
            Ok(canonical.clone())
        );
        let module = module(&[padded_section(HINTS, &payload, random)]);
        for (function, offset, data) in items(&list) {
            let expected = if data == [1] { LIKELY } else { UNLIKELY };
            assert_eq!(hint(&payload, function, offset), expected);
            assert_eq!(hint(&canonical, function, offset), expected);
            assert_eq!(hint_in(&module, function, offset), expected);
            let place = metadata_in(&module, b"branch_hint", function, offset);
            assert_eq!(bytes_of(&module, place), Some(data));
            let other = hint(&payload, offset, function);
            assert_eq!(hint(&canonical, offset, function), other);
        }
    });
}

#[test]
fn older_hints_answer_and_are_rewritten() {
    for_seeds(SEEDS, |random| {
        let list = random_older(random);
        let payload = encoded_older(&list, random);
        assert_eq!(old_hints_judge(&payload), found(0, payload.len() as u64));
        let canonical = rewritten(old_hints_canonical, &payload).unwrap();
        assert_eq!(canonical, canonical_older(&list));
        assert_eq!(old_hints_is_canonical(&payload), payload == canonical);
        assert!(canonical.len() <= payload.len());
        assert_eq!(
            rewritten(old_hints_canonical, &canonical),
            Ok(canonical.clone())
        );
        let module = module(&[padded_section(OLD_HINTS, &payload, random)]);
        let said = said_first(&list);
        for (function, offset) in said.keys().flat_map(|&(a, b)| [(a, b), (b, a)]) {
            let expected = match said.get(&(function, offset)) {
                Some(true) => LIKELY,
                Some(false) => UNLIKELY,
                None => NONE,
            };
            assert_eq!(old_hint(&payload, function, offset), expected);
            assert_eq!(old_hint(&canonical, function, offset), expected);
            assert_eq!(old_hint_in(&module, function, offset), expected);
        }
    });
}

#[test]
fn names_written_from_lists_read_back() {
    for_seeds(SEEDS, |random| {
        let list: Flat = random_flat(random, text);
        let indices: Vec<u32> = list.iter().map(|(i, _)| *i).collect();
        let lengths: Vec<u32> = list.iter().map(|(_, text)| text.len() as u32).collect();
        let joined: Vec<u8> = list.iter().flat_map(|(_, text)| text.clone()).collect();
        let write = |out: &mut [u8]| function_names_write(&indices, &lengths, &joined, out);
        let payload = written(write, joined.len() + 12 * indices.len() + 12).unwrap();
        let expected = canonical_names(&vec![(1, Contents::Map(list.clone()))]);
        assert_eq!(payload, expected);
        assert!(names_is_canonical(&payload));
        assert_eq!(rewritten(names_canonical, &payload), Ok(payload.clone()));
        for (index, text) in &list {
            let answer = function_name(&payload, *index);
            assert_eq!(bytes_of(&payload, answer), Some(&text[..]));
            assert_eq!(type_name(&payload, *index), NONE);
            let next = index.wrapping_add(1);
            if !indices.contains(&next) {
                assert_eq!(function_name(&payload, next), NONE);
            }
        }
        assert_eq!(module_name(&payload), NONE);
    });
}
