//! Modules of several producers: their listings, and every call compared on them and on their payloads.

use comparison::fixtures::{files, modules};
use comparison::library::{
    self, custom, section, walk, Told, ToldPair, FOUND, LIKELY, OWN, REFUSED, SEPARATE, UNLIKELY,
};
use comparison::markers::Markers;
use comparison::random::{seed, Random};
use comparison::tally::{Judged, Said, Tally, Way, HINTS, LISTING, NAMES, OLD_HINTS};
use second_reader::{Kind, Why};
use std::collections::BTreeMap;
use std::fmt::Write;
use std::fs;
use std::path::{Path, PathBuf};

/// How many fixtures are committed, so that none is lost unseen: a module, and its listing.
const MODULES: usize = 134;
/// Those that the walk accepts, which have judgements of their payloads.
const WITH_PAYLOADS: usize = 104;
/// Their lines.
const JUDGEMENTS: usize = 362;
/// The accepted among them: of names in each edition, of hints in each edition, and of other metadata.
const NAMES_SAID: Said = said(35, 8);
const WIDE_SAID: Said = said(22, 11);
const HINTS_SAID: Said = said(21, 3);
const OLD_SAID: Said = said(3, 3);
const METADATA_SAID: Said = said(3, 0);
/// Those with an accepted payload that has something to ask for; and the questions to them.
const ANSWERED: (usize, usize) = (52, 1_200);
/// The same of the wider edition of names.
const ANSWERED_WIDELY: (usize, usize) = (30, 1_170);
/// The same of the older edition of hints.
const ANSWERED_OF_OLD: (usize, usize) = (4, 13);
/// How many functions and locals are asked why they have no name: 1,087 that have one, and the two beside each.
const ASKED_WHY: usize = 3 * 1_087;

/// How often each call that lists finds rows at least, is refused the payload, and is refused a list.
const LEAST_LISTED: u64 = 4;

/// Those with a name section, accepted or not.
const WITH_NAMES: usize = 60;
/// How often each question is answered in each way at least, over all pairs of them.
const LEAST_OF_PAIRS: u64 = 50;
/// The questions to pairs of those whose names the third reading found, in each edition.
const ASKED_OF_PAIRS: usize = 117_938;
const ASKED_OF_PAIRS_WIDELY: usize = 66_810;

/// How often each fixture arrives in parts that are cut at random.
const RANDOM_ROUNDS: usize = 10;
/// How many modules that arrived are accepted at least, lack a preamble or are cut off, and how many are refused otherwise.
const LEAST_ARRIVED: u64 = 500;
const LEAST_REFUSED: u64 = 20;

/// Those that name more than sixteen functions, and their markers.
const MARKED: (usize, usize) = (2, 60);

/// The ids of the subsections with the names of functions and of locals.
const FUNCTIONS: u32 = 1;
const LOCALS: u32 = 2;

const fn said(canonical: u64, not_canonical: u64) -> Said {
    Said {
        canonical,
        not_canonical,
    }
}

/// The module that a file of expectations is about.
fn module_of(expectations: &Path) -> Vec<u8> {
    fs::read(expectations.with_extension("wasm")).expect("each expectation has its module")
}

/// The payload of a custom section.
fn payload_of<'a>(module: &'a [u8], name: &[u8]) -> Option<&'a [u8]> {
    let found = custom(module, name);
    (found.kind == FOUND).then(|| &module[found.offset as usize..][..found.length as usize])
}

fn payload_line(label: &str, payload: Told) -> String {
    match payload.kind {
        FOUND => format!("{label} {} {}\n", payload.offset, payload.length),
        _ => format!("{label} none\n"),
    }
}

/// The listing, as the rules have it.
fn listing(module: &[u8]) -> String {
    let count = walk(module);
    if count.kind == REFUSED {
        return format!("refused {} {}\n", count.code, count.offset);
    }
    let mut text = format!("sections {}\n", count.length);
    for position in 0..count.length {
        let s = section(module, position);
        writeln!(text, "{} {} {}", s.code, s.offset, s.length).expect("a string takes all");
    }
    text + &payload_line("name", custom(module, NAMES))
        + &payload_line("hints", custom(module, HINTS))
}

#[test]
fn listings() {
    let listings = files("listing");
    assert_eq!((modules().len(), listings.len()), (MODULES, MODULES));
    for path in listings {
        let expected = fs::read_to_string(&path).expect("a listing can be read");
        assert_eq!(listing(&module_of(&path)), expected, "{}", path.display());
    }
}

/// The judgement of a payload, as the third reading words it.
fn judgement(judged: Option<Judged>) -> String {
    match judged {
        None => "none".to_owned(),
        Some(Judged { told, .. }) if told.kind == REFUSED => {
            format!("refused {} {}", told.code, told.offset)
        }
        Some(Judged { canonical, .. }) => {
            let not = if canonical { "" } else { "not " };
            format!("accepted {not}canonical")
        }
    }
}

/// Whether hints stand on branches, as the third reading words it.
fn on_branches(told: Told) -> String {
    match told.kind {
        REFUSED => format!("refused {} {}", told.code, told.offset),
        _ => "accepted".to_owned(),
    }
}

#[test]
fn payloads() {
    let mut tally = Tally::default();
    let mut judgements = 0;
    let payloads = files("payloads");
    assert_eq!(payloads.len(), WITH_PAYLOADS);
    for path in payloads {
        let module = module_of(&path);
        let expected = fs::read_to_string(&path).expect("judgements can be read");
        for line in expected.lines() {
            let (word, expected) = line.split_once(' ').expect("a word and its judgement");
            let said = match word {
                "wide-name" => judgement(tally.wide_judgement(&module)),
                "hints" => judgement(tally.judgement(&module, HINTS)),
                "old-hints" => judgement(tally.old_judgement(&module)),
                "on-branches" => on_branches(tally.on_branches(&module)),
                section => judgement(tally.judgement(&module, section.as_bytes())),
            };
            assert_eq!(said, expected, "{word} in {}", path.display());
            judgements += 1;
        }
    }
    assert_eq!(judgements, JUDGEMENTS);
    assert_eq!(tally.names_said, NAMES_SAID);
    assert_eq!(tally.wide_said, WIDE_SAID);
    assert_eq!(tally.hints_said, HINTS_SAID);
    assert_eq!(tally.old_said, OLD_SAID);
    assert_eq!(tally.metadata_said, METADATA_SAID);
    println!("compared {} calls", tally.calls);
}

/// Those that the walk refuses have no payloads to judge.
#[test]
fn accepted_modules_have_judgements() {
    for path in modules() {
        let module = fs::read(&path).expect("a fixture can be read");
        let accepted = walk(&module).kind == FOUND;
        let judged = path.with_extension("payloads").is_file();
        assert_eq!(judged, accepted, "{}", path.display());
    }
}

#[test]
fn calls() {
    let mut tally = Tally::default();
    for path in modules() {
        let module = fs::read(path).expect("a fixture can be read");
        tally.module(&module);
        for name in [NAMES, HINTS, OLD_HINTS] {
            let Some(payload) = payload_of(&module, name) else {
                continue;
            };
            match name {
                NAMES => tally.names(payload),
                HINTS => tally.metadata(payload),
                _ => tally.old_hints(payload),
            }
        }
    }
    let ways = [Way::Rows, Way::Refused, Way::TooShort];
    tally.assert_rows_met(&LISTING, &ways, LEAST_LISTED);
    println!("compared {} calls", tally.calls);
}

/// Every fixture as it arrives: in two parts, byte by byte, and in many parts.
#[test]
fn as_they_arrive() {
    let mut r = Random::new(seed());
    let mut tally = Tally::default();
    for path in modules() {
        let module = fs::read(path).expect("a fixture can be read");
        tally.arrives(&module);
        for _ in 0..RANDOM_ROUNDS {
            tally.arrives_at_random(&module, &mut r);
        }
    }
    println!("compared {} calls", tally.calls);
    tally.assert_streams_met(&[0, 1, 2], LEAST_ARRIVED);
    tally.assert_streams_met(&[3, 4, 5, 6, 7, 8], LEAST_REFUSED);
}

/// What the third reading found, asked through the module: the question's words, then offset and length.
fn asked(module: &[u8], words: &[&str]) -> Told {
    let number = |at: usize| words[at].parse::<u32>().expect("a number");
    match words[0] {
        "module" => library::module_name_in(module),
        "function" => library::function_name_in(module, number(1)),
        "type" => library::type_name_in(module, number(1)),
        "tag" => library::tag_name_in(module, number(1)),
        "local" => library::local_name_in(module, number(1), number(2)),
        "field" => library::field_name_in(module, number(1), number(2)),
        "kept" => library::kept_in(module, number(1) as u8),
        "hints" => library::metadata_in(module, b"branch_hint", number(1), number(2)),
        section => {
            let format = section
                .strip_prefix("metadata.code.")
                .expect("a question of the fixtures");
            library::metadata_in(module, format.as_bytes(), number(1), number(2))
        }
    }
}

/// The same, asked by the wider edition.
fn asked_widely(module: &[u8], words: &[&str]) -> Told {
    let number = |at: usize| words[at].parse::<u32>().expect("a number");
    match words[0] {
        "module" => library::wide_module_name_in(module),
        "function" => library::wide_function_name_in(module, number(1)),
        "local" => library::wide_local_name_in(module, number(1), number(2)),
        "label" => library::wide_label_name_in(module, number(1), number(2)),
        "type" => library::wide_type_name_in(module, number(1)),
        "table" => library::wide_table_name_in(module, number(1)),
        "memory" => library::wide_memory_name_in(module, number(1)),
        "global" => library::wide_global_name_in(module, number(1)),
        "element" => library::wide_element_name_in(module, number(1)),
        "data" => library::wide_data_name_in(module, number(1)),
        "field" => library::wide_field_name_in(module, number(1), number(2)),
        "tag" => library::wide_tag_name_in(module, number(1)),
        "kept" => library::wide_kept_in(module, number(1) as u8),
        other => panic!("no question of the fixtures: {other}"),
    }
}

/// Asks what one file of expectations lists, and no other id is kept. How many questions there are.
fn ask_file(path: &Path, asked: fn(&[u8], &[&str]) -> Told, kept: fn(&[u8], u8) -> Told) -> usize {
    let module = module_of(path);
    let expected = fs::read_to_string(path).expect("answers can be read");
    for line in expected.lines() {
        let words: Vec<&str> = line.split(' ').collect();
        let (question, place) = words.split_at(words.len() - 2);
        let told = asked(&module, question);
        let place = [place[0], place[1]].map(|word| word.parse().expect("a number"));
        let found = (told.kind, [told.offset, told.length]);
        assert_eq!(found, (FOUND, place), "{line} in {}", path.display());
    }
    let listed = expected.lines().filter(|line| line.starts_with("kept "));
    let found = (0..=u8::MAX).filter(|id| kept(&module, *id).kind == FOUND);
    assert_eq!(found.count(), listed.count(), "kept in {}", path.display());
    expected.lines().count()
}

#[test]
fn answers() {
    let answers = files("answers");
    let ask = |path: &PathBuf| ask_file(path, asked, library::kept_in);
    let questions = answers.iter().map(ask).sum();
    assert_eq!((answers.len(), questions), ANSWERED);
}

#[test]
fn answers_of_the_wider_edition() {
    let answers = files("wide-answers");
    let ask = |path: &PathBuf| ask_file(path, asked_widely, library::wide_kept_in);
    let questions = answers.iter().map(ask).sum();
    assert_eq!((answers.len(), questions), ANSWERED_WIDELY);
}

/// Asks for the older hints that one file lists. How many questions there are.
fn ask_old_hints(path: &PathBuf) -> usize {
    let module = module_of(path);
    let expected = fs::read_to_string(path).expect("answers can be read");
    for line in expected.lines() {
        let words: Vec<&str> = line.split(' ').collect();
        let [function, offset] = [words[0], words[1]].map(|word| word.parse().expect("a number"));
        let kind = match words[2] {
            "likely" => LIKELY,
            _ => UNLIKELY,
        };
        let told = library::old_hint_in(&module, function, offset);
        assert_eq!(told.kind, kind, "{line} in {}", path.display());
    }
    expected.lines().count()
}

#[test]
fn answers_of_the_older_edition() {
    let answers = files("old-answers");
    let questions = answers.iter().map(ask_old_hints).sum();
    assert_eq!((answers.len(), questions), ANSWERED_OF_OLD);
}

/// The indices that the third reading found in each map of functions or locals, in the order of the map. That of a
/// function's locals is under the function.
fn maps(answers: &str) -> BTreeMap<Option<u32>, Vec<u32>> {
    let number = |word: &str| word.parse().expect("a number");
    let mut maps: BTreeMap<Option<u32>, Vec<u32>> = BTreeMap::new();
    for line in answers.lines() {
        let words: Vec<&str> = line.split(' ').collect();
        let (group, index) = match words[..] {
            ["function", index, ..] => (None, number(index)),
            ["local", function, index, ..] => (Some(number(function)), number(index)),
            _ => continue,
        };
        maps.entry(group).or_default().push(index);
    }
    maps
}

/// What is to be said of an index, by those that its map has.
fn why_among(subsection: u32, indices: &[u32], wanted: u32) -> Why {
    let unused = Why {
        kind: Kind::NoEntry,
        code: 0,
        offset: 0,
        position: 0,
        below: None,
        above: None,
    };
    let all = || indices.iter().copied();
    match all().position(|index| index == wanted) {
        Some(position) => Why {
            kind: Kind::Found,
            code: subsection,
            position: position as u64,
            ..unused
        },
        None => Why {
            below: all().filter(|index| *index < wanted).max(),
            above: all().filter(|index| *index > wanted).min(),
            ..unused
        },
    }
}

/// Asks for every index that one file lists, and for those beside it. How many questions there are.
fn ask_why(path: &PathBuf) -> usize {
    let answers = fs::read_to_string(path).expect("answers can be read");
    let module = module_of(path);
    let payload = payload_of(&module, NAMES).unwrap_or_default();
    let mut questions = 0;
    for (group, indices) in maps(&answers) {
        for index in &indices {
            for wanted in [index.wrapping_sub(1), *index, index.wrapping_add(1)] {
                let (told, subsection) = match group {
                    None => (library::why_function(payload, wanted), FUNCTIONS),
                    Some(function) => (library::why_local(payload, function, wanted), LOCALS),
                };
                let expected = why_among(subsection, &indices, wanted);
                let asked = format_args!("{group:?} {wanted} in {}", path.display());
                assert_eq!(told, expected.into(), "{asked}");
                questions += 1;
            }
        }
    }
    questions
}

#[test]
fn reasons_for_no_name() {
    let questions: usize = files("answers").iter().map(ask_why).sum();
    assert_eq!(questions, ASKED_WHY);
}

/// The name payloads of the fixtures, accepted or not.
fn name_payloads() -> Vec<Vec<u8>> {
    let modules = modules().into_iter();
    let bytes = modules.map(|path| fs::read(path).expect("a fixture can be read"));
    let payload = |module: Vec<u8>| payload_of(&module, NAMES).map(<[u8]>::to_vec);
    bytes.filter_map(payload).collect()
}

/// Every name payload beside every other, beside itself and beside nothing.
#[test]
fn pairs() {
    let mut tally = Tally::default();
    let payloads = name_payloads();
    assert_eq!(payloads.len(), WITH_NAMES);
    for separate in &payloads {
        for own in &payloads {
            tally.pair(separate, own);
        }
        tally.beside_itself_and_nothing(separate);
    }
    println!("compared {} calls", tally.calls);
    tally.assert_pairs_met(LEAST_OF_PAIRS);
}

/// A name payload, and what the third reading found in it.
struct Read {
    payload: Vec<u8>,
    /// By the words of each question, the bytes that answer it.
    answers: BTreeMap<String, Vec<u8>>,
}

impl Read {
    fn of(path: &PathBuf) -> Read {
        let module = module_of(path);
        let lines = fs::read_to_string(path).expect("answers can be read");
        let answer = |line: &str| {
            let words: Vec<&str> = line.split(' ').collect();
            let (question, place) = words.split_at(words.len() - 2);
            let [offset, length] = [place[0], place[1]].map(|word| word.parse().expect("a number"));
            let found: &[u8] = &module[offset..][..length];
            (question.join(" "), found.to_vec())
        };
        let of_names = |line: &&str| !line.starts_with("hints ") && !line.starts_with("metadata.");
        Read {
            payload: payload_of(&module, NAMES).unwrap_or_default().to_vec(),
            answers: lines.lines().filter(of_names).map(answer).collect(),
        }
    }
}

/// What the third reading found, asked of two payloads.
fn asked_of_two(separate: &[u8], own: &[u8], words: &[&str]) -> ToldPair {
    let number = |at: usize| words[at].parse::<u32>().expect("a number");
    match words[0] {
        "module" => library::pair_module_name(separate, own),
        "function" => library::pair_function_name(separate, own, number(1)),
        "type" => library::pair_type_name(separate, own, number(1)),
        "tag" => library::pair_tag_name(separate, own, number(1)),
        "local" => library::pair_local_name(separate, own, number(1), number(2)),
        "field" => library::pair_field_name(separate, own, number(1), number(2)),
        "kept" => library::pair_kept(separate, own, number(1) as u8),
        other => panic!("no question of the fixtures: {other}"),
    }
}

/// The same, asked by the wider edition.
fn asked_of_two_widely(separate: &[u8], own: &[u8], words: &[&str]) -> ToldPair {
    let number = |at: usize| words[at].parse::<u32>().expect("a number");
    match words[0] {
        "module" => library::wide_pair_module_name(separate, own),
        "function" => library::wide_pair_function_name(separate, own, number(1)),
        "local" => library::wide_pair_local_name(separate, own, number(1), number(2)),
        "label" => library::wide_pair_label_name(separate, own, number(1), number(2)),
        "type" => library::wide_pair_type_name(separate, own, number(1)),
        "table" => library::wide_pair_table_name(separate, own, number(1)),
        "memory" => library::wide_pair_memory_name(separate, own, number(1)),
        "global" => library::wide_pair_global_name(separate, own, number(1)),
        "element" => library::wide_pair_element_name(separate, own, number(1)),
        "data" => library::wide_pair_data_name(separate, own, number(1)),
        "field" => library::wide_pair_field_name(separate, own, number(1), number(2)),
        "tag" => library::wide_pair_tag_name(separate, own, number(1)),
        "kept" => library::wide_pair_kept(separate, own, number(1) as u8),
        other => panic!("no question of the fixtures: {other}"),
    }
}

/// Asks two payloads for all that the third reading found in either: the separate one answers what it can. How many
/// questions there are.
fn ask_two(separate: &Read, own: &Read, asked: fn(&[u8], &[u8], &[&str]) -> ToldPair) -> usize {
    let mut answers: BTreeMap<&String, (u64, &Vec<u8>)> = BTreeMap::new();
    for (whose, read) in [(OWN, own), (SEPARATE, separate)] {
        answers.extend(
            read.answers
                .iter()
                .map(|(question, found)| (question, (whose, found))),
        );
    }
    for (question, (whose, found)) in &answers {
        let words: Vec<&str> = question.split(' ').collect();
        let told = asked(&separate.payload, &own.payload, &words);
        assert_eq!((told.kind, told.whose), (FOUND, *whose), "{question}");
        let payload = if told.whose == OWN {
            &own.payload
        } else {
            &separate.payload
        };
        let bytes = &payload[told.offset as usize..][..told.length as usize];
        assert_eq!(bytes, &found[..], "{question}");
    }
    answers.len()
}

/// How many questions all pairs of fixtures have that the third reading answered in an edition.
fn ask_all_pairs(kind: &str, asked: fn(&[u8], &[u8], &[&str]) -> ToldPair) -> usize {
    let read: Vec<Read> = files(kind).iter().map(Read::of).collect();
    let mut questions = 0;
    for separate in &read {
        for own in &read {
            questions += ask_two(separate, own, asked);
        }
    }
    questions
}

#[test]
fn answers_of_pairs() {
    let questions = ask_all_pairs("answers", asked_of_two);
    assert_eq!(questions, ASKED_OF_PAIRS);
}

#[test]
fn answers_of_pairs_in_the_wider_edition() {
    let questions = ask_all_pairs("wide-answers", asked_of_two_widely);
    assert_eq!(questions, ASKED_OF_PAIRS_WIDELY);
}

/// The markers that the third reading found: a line for each, and one for the end.
fn read_markers(path: &Path) -> Markers {
    let number = |word: &str| word.parse::<u32>().expect("a number");
    let mut markers = Markers::new(&[], &[], 0);
    let lines = fs::read_to_string(path).expect("markers can be read");
    for line in lines.lines() {
        let (word, offset) = line.split_once(' ').expect("two words");
        match word {
            "end" => markers.end = number(offset).into(),
            index => {
                markers.indices.push(number(index));
                markers.offsets.push(number(offset));
            }
        }
    }
    markers
}

#[test]
fn markers() {
    let mut tally = Tally::default();
    let mut count = 0;
    let files = files("markers");
    for path in &files {
        let module = module_of(path);
        let payload = payload_of(&module, NAMES).unwrap_or_default();
        let expected = read_markers(path);
        let made = tally.own_markers(payload, &expected.indices);
        assert_eq!(made.as_ref(), Some(&expected), "{}", path.display());
        count += expected.indices.len();
    }
    assert_eq!((files.len(), count), MARKED);
}

/// Every function that has a name, and those beside it.
#[test]
fn functions_by_markers() {
    let mut tally = Tally::default();
    for path in files("answers") {
        let answers = fs::read_to_string(&path).expect("answers can be read");
        let indices = maps(&answers).remove(&None).unwrap_or_default();
        let beside = |index: u32| [index.wrapping_sub(1), index, index.wrapping_add(1)];
        let asked: Vec<u32> = indices.into_iter().flat_map(beside).collect();
        let module = module_of(&path);
        let payload = payload_of(&module, NAMES).unwrap_or_default();
        let markers = tally.own_markers(payload, &asked);
        assert!(markers.is_some(), "{}", path.display());
    }
    println!("compared {} calls", tally.calls);
}
