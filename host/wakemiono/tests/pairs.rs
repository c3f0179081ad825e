//! A separate name payload beside the module's own: who answers, what is joined, and who is refused.

mod common;

use common::{custom, module, refused_of, AllQuestions, EVERY_ID, P};
use wakemiono::{
    offset_in, Edition, First, FunctionIndex, LocalIndex, Module, NamePayload, Pair, PairRefusal,
    Reason, Supplied, SuppliedName, TypeIndex, Whose, Wider,
};

/// A pair in the first edition.
fn pair<'s, 'o>(separate: &'s [u8], own: &'o [u8]) -> Pair<'s, 'o> {
    Pair::new(NamePayload::new(separate), NamePayload::new(own))
}

/// The same in the wider one.
fn wide_pair<'s, 'o>(separate: &'s [u8], own: &'o [u8]) -> Pair<'s, 'o, Wider> {
    Pair::new(NamePayload::wider(separate), NamePayload::wider(own))
}

/// Whose the name is that must be there, and its text.
#[track_caller]
fn said<'a>(answer: Result<Option<SuppliedName<'a, 'a>>, PairRefusal>) -> (Whose, &'a str) {
    let name = answer.expect("both are accepted").expect("there is a name");
    let text = name.into_inner().to_str().expect("a name is text");
    (name.whose(), text)
}

#[track_caller]
fn assert_joined<E: Edition>(pair: Pair<'_, '_, E>, expected: &[u8]) {
    let joined = pair.to_joined().expect("both are accepted");
    assert_eq!(joined, expected, "{joined:02X?}");
    assert!(NamePayload::<E>::in_edition(&joined).is_canonical());
}

/// Function 3 called `f`, and called `g`.
const F: [u8; 6] = [0x01, 0x04, 0x01, 0x03, 0x01, 0x66];
const G: [u8; 6] = [0x01, 0x04, 0x01, 0x03, 0x01, 0x67];

#[test]
fn a_name_in_both_is_the_separate_ones() {
    let function = FunctionIndex(3);
    let (f_first, g_first) = (pair(&F, &G), pair(&G, &F));
    assert_eq!(
        said(f_first.function_name(function)),
        (Whose::Separate, "f")
    );
    assert_eq!(
        said(g_first.function_name(function)),
        (Whose::Separate, "g")
    );
    assert_joined(f_first, &F);
    assert_joined(g_first, &G);
}

#[test]
fn a_name_in_one_is_that_ones() {
    let function = FunctionIndex(3);
    let (before, behind) = (pair(&F, &[]), pair(&[], &F));
    assert_eq!(said(before.function_name(function)), (Whose::Separate, "f"));
    assert_eq!(said(behind.function_name(function)), (Whose::Own, "f"));
    for only_three in [before, behind] {
        assert_eq!(only_three.function_name(FunctionIndex(2)), Ok(None));
        assert_eq!(only_three.type_name(TypeIndex(3)), Ok(None));
        assert_joined(only_three, &F);
    }
}

#[test]
fn an_empty_name_hides_a_full_one() {
    let empty = [0x01, 0x03, 0x01, 0x03, 0x00];
    let hiding = pair(&empty, &F);
    let function = FunctionIndex(3);
    assert_eq!(said(hiding.function_name(function)), (Whose::Separate, ""));
    assert_joined(hiding, &empty);
    let empty_module_name = [0x00, 0x01, 0x00];
    let hiding = pair(&empty_module_name, &[0x00, 0x02, 0x01, 0x6D]);
    assert_eq!(said(hiding.module_name()), (Whose::Separate, ""));
    assert_joined(hiding, &empty_module_name);
}

#[test]
fn an_empty_kept_subsection_hides_a_full_one() {
    let (empty, full) = ([0x03, 0x00], [0x03, 0x01, 0xFF]);
    let hiding = pair(&empty, &full);
    assert_eq!(hiding.kept(3), Ok(Some(Supplied::Separate(&[][..]))));
    assert_joined(hiding, &empty);
    let shown = pair(&full, &empty);
    assert_eq!(shown.kept(3), Ok(Some(Supplied::Separate(&[0xFF][..]))));
    assert_joined(shown, &full);
    // What is known is not kept, in either of the two.
    assert_eq!(pair(&F, &G).kept(1), Ok(None));
}

/// An empty map is no answer, and an empty group none either.
#[test]
fn an_empty_list_hides_nothing() {
    let no_functions = [0x01, 0x01, 0x00];
    assert_eq!(
        said(pair(&no_functions, &F).function_name(FunctionIndex(3))),
        (Whose::Own, "f")
    );
    assert_joined(pair(&no_functions, &F), &F);
    assert_joined(pair(&no_functions, &no_functions), &[]);
    let empty_group = [0x02, 0x03, 0x01, 0x03, 0x00];
    let local = [0x02, 0x06, 0x01, 0x03, 0x01, 0x00, 0x01, 0x78];
    let found = pair(&empty_group, &local).local_name(FunctionIndex(3), LocalIndex(0));
    assert_eq!(said(found), (Whose::Own, "x"));
    assert_joined(pair(&empty_group, &local), &local);
    assert_joined(pair(&empty_group, &empty_group), &[]);
}

#[test]
fn groups_of_one_function_are_merged() {
    let separate = [
        0x02, 0x0B, 0x02, 0x00, 0x01, 0x00, 0x01, 0x61, 0x03, 0x01, 0x01, 0x01, 0x62,
    ];
    let own = [
        0x02, 0x0E, 0x02, 0x03, 0x02, 0x00, 0x01, 0x63, 0x01, 0x01, 0x64, 0x07, 0x01, 0x05, 0x01,
        0x65,
    ];
    let merged = pair(&separate, &own);
    let local = |function, local| merged.local_name(FunctionIndex(function), LocalIndex(local));
    assert_eq!(said(local(0, 0)), (Whose::Separate, "a"));
    assert_eq!(said(local(3, 0)), (Whose::Own, "c"));
    assert_eq!(said(local(3, 1)), (Whose::Separate, "b"));
    assert_eq!(said(local(7, 5)), (Whose::Own, "e"));
    assert_eq!(local(3, 5), Ok(None));
    let joined = [
        0x02, 0x13, 0x03, // three groups
        0x00, 0x01, 0x00, 0x01, 0x61, // function 0: a
        0x03, 0x02, 0x00, 0x01, 0x63, 0x01, 0x01, 0x62, // function 3: c, b
        0x07, 0x01, 0x05, 0x01, 0x65, // function 7: e
    ];
    assert_joined(merged, &joined);
}

#[test]
fn a_module_name_in_the_own_one_alone() {
    let named = pair(&F, &[0x00, 0x02, 0x01, 0x6D]);
    assert_eq!(said(named.module_name()), (Whose::Own, "m"));
    assert_joined(named, &[&[0x00, 0x02, 0x01, 0x6D], &F[..]].concat());
}

/// Cut short, and with a byte too many: refusals that differ in number and in place.
const CUT_SHORT: [u8; 2] = [0x01, 0x00];
const LEFT_OVER: [u8; 4] = [0x01, 0x02, 0x00, 0x00];

/// Whatever is asked is refused so, and nothing is joined.
#[track_caller]
fn is_refused<E: AllQuestions>(pair: Pair<'_, '_, E>, whose: Whose, number: u32, offset: u64) {
    let expected = (Some(whose), number, offset);
    for answer in E::of_pair(pair, 3, 0) {
        assert_eq!(refused_of(answer), expected);
    }
    assert_eq!(refused_of(pair.judge()), expected);
    assert_eq!(refused_of(pair.kept(3)), expected);
    assert_eq!(refused_of(pair.join_into(&mut [])), expected);
    assert_eq!(refused_of(pair.to_joined()), expected);
}

#[test]
fn both_refused_is_the_separate_ones() {
    is_refused(pair(&CUT_SHORT, &LEFT_OVER), Whose::Separate, 2, 2);
    is_refused(pair(&LEFT_OVER, &CUT_SHORT), Whose::Separate, 10, 3);
    is_refused(wide_pair(&CUT_SHORT, &LEFT_OVER), Whose::Separate, 2, 2);
}

#[test]
fn the_own_one_is_refused_while_the_separate_one_has_the_name() {
    is_refused(pair(&F, &LEFT_OVER), Whose::Own, 10, 3);
    is_refused(
        pair(&[0x00, 0x02, 0x01, 0x61], &CUT_SHORT),
        Whose::Own,
        2,
        2,
    );
    is_refused(wide_pair(&EVERY_ID, &LEFT_OVER), Whose::Own, 10, 3);
    is_refused(pair(&LEFT_OVER, &F), Whose::Separate, 10, 3);
}

/// What only the wider edition looks into may be damaged in the first.
#[test]
fn each_edition_judges_by_its_own_ids() {
    let no_map_of_globals = [0x07, 0x01, 0xFF];
    assert_joined(
        pair(&F, &no_map_of_globals),
        &[&F[..], &no_map_of_globals].concat(),
    );
    is_refused(wide_pair(&F, &no_map_of_globals), Whose::Own, 2, 2);
    is_refused(wide_pair(&no_map_of_globals, &F), Whose::Separate, 2, 2);
}

/// A map of globals is kept by the one edition, and the other merges it.
#[test]
fn each_edition_joins_by_its_own_ids() {
    let (three, five) = (
        [0x07, 0x04, 0x01, 0x03, 0x01, 0x67],
        [0x07, 0x04, 0x01, 0x05, 0x01, 0x68],
    );
    assert_joined(pair(&three, &five), &three);
    let merged = [0x07, 0x07, 0x02, 0x03, 0x01, 0x67, 0x05, 0x01, 0x68];
    assert_joined(wide_pair(&three, &five), &merged);
    assert_joined(wide_pair(&five, &three), &merged);
}

#[test]
fn every_question_of_the_wider_edition() {
    for (pair, whose) in [
        (wide_pair(&EVERY_ID, &[]), Whose::Separate),
        (wide_pair(&[], &EVERY_ID), Whose::Own),
        (wide_pair(&EVERY_ID, &EVERY_ID), Whose::Separate),
    ] {
        let alone = Wider::names(NamePayload::wider(&EVERY_ID), 3, 2);
        let asked = Wider::of_pair(pair, 3, 2);
        assert_eq!(asked.len(), alone.len());
        for (answer, alone) in asked.into_iter().zip(alone) {
            let alone = alone.unwrap().unwrap().to_str().unwrap();
            assert_eq!(said(answer), (whose, alone));
        }
        assert_joined(pair, &EVERY_ID);
    }
}

#[test]
fn padding_is_not_joined() {
    let padded = [0x01, 0x85, 0x00, 0x01, 0x00, 0x81, 0x00, 0x61];
    let merged = [0x01, 0x07, 0x02, 0x00, 0x01, 0x61, 0x03, 0x01, 0x66];
    assert_joined(pair(&padded, &F), &merged);
    assert_joined(pair(&F, &padded), &merged);
    assert_joined(pair(&padded, &[]), &[0x01, 0x04, 0x01, 0x00, 0x01, 0x61]);
}

/// A name is the very bytes of the payload that has supplied it, where both have equal ones, too.
#[test]
fn a_name_lies_in_its_payload() {
    let (separate, own) = (P.to_vec(), P.to_vec());
    let both = pair(&separate, &own);
    let Ok(Some(Supplied::Separate(name))) = both.function_name(FunctionIndex(3)) else {
        panic!("the separate payload has it");
    };
    assert_eq!(offset_in(&separate, name.as_bytes()), Some(12));
    let stripped = pair(&[], &own);
    let Ok(Some(Supplied::Own(name))) = stripped.local_name(FunctionIndex(3), LocalIndex(0)) else {
        panic!("the own payload has it");
    };
    assert_eq!(offset_in(&own, name.as_bytes()), Some(20));
}

/// One payload may be lent twice.
#[test]
fn a_payload_beside_itself() {
    let twice = pair(&P, &P);
    assert_eq!(said(twice.module_name()), (Whose::Separate, "m"));
    assert_joined(twice, &P);
}

#[test]
fn nothing_at_all() {
    let nothing = pair(&[], &[]);
    assert_eq!(nothing.judge(), Ok(()));
    assert!(First::of_pair(nothing, 0, 0)
        .into_iter()
        .all(|name| name == Ok(None)));
}

#[test]
fn the_size_of_a_joined_subsection_may_take_more_bytes() {
    let named = |function: u32| {
        wakemiono::function_names([(FunctionIndex(function), "n".repeat(100))]).unwrap()
    };
    let (zero, one) = (named(0), named(1));
    let joined = pair(&zero, &one).to_joined().unwrap();
    assert_eq!(joined.len(), 1 + 2 + 1 + 2 * 102);
    assert!(joined.len() <= zero.len() + one.len());
    assert!(NamePayload::new(&joined).is_canonical());
}

/// Names that came apart from their module, and from one with some of its own.
#[test]
fn beside_a_module() {
    let bare = module(&[]);
    let stripped = Module::new(&bare)
        .names_beside(NamePayload::new(&P))
        .unwrap();
    assert_eq!(said(stripped.module_name()), (Whose::Separate, "m"));
    assert!(stripped.own().as_bytes().is_empty());
    let bytes = module(&[custom("name", &P)]);
    let with_names = Module::new(&bytes);
    let both = with_names.names_beside(NamePayload::new(&F)).unwrap();
    assert_eq!(
        said(both.function_name(FunctionIndex(3))),
        (Whose::Separate, "f")
    );
    assert_eq!(
        said(both.function_name(FunctionIndex(0))),
        (Whose::Own, "a")
    );
    let no_module = Module::new(b"no module").names_beside(NamePayload::new(&F));
    assert_eq!(no_module.unwrap_err().reason(), Reason::Preamble);
}

/// Modules of several producers, by the names of their files, each with names.
const PRODUCED: [(&str, &[u8]); 5] = [
    ("clang-lld", include_bytes!("../../fixtures/clang-lld.wasm")),
    ("rustc", include_bytes!("../../fixtures/rustc.wasm")),
    ("go-names", include_bytes!("../../fixtures/go-names.wasm")),
    ("wabt-wide", include_bytes!("../../fixtures/wabt-wide.wasm")),
    (
        "binaryen-wide",
        include_bytes!("../../fixtures/binaryen-wide.wasm"),
    ),
];

/// The name payload of a module, and the module without the section.
fn stripped(bytes: &[u8]) -> (&[u8], Vec<u8>) {
    let module = Module::new(bytes);
    let names = module.names().unwrap().expect("it has names").as_bytes();
    let end = offset_in(bytes, names).unwrap() + names.len();
    let sections = module.sections().unwrap();
    let starts = sections.map(|section| section.offset() as usize);
    let start = starts.filter(|start| *start < end).last().unwrap();
    (names, [&bytes[..start], &bytes[end..]].concat())
}

/// A stripped module beside its names answers as it did before.
fn answers_as_before<E: AllQuestions>(name: &str, bytes: &[u8]) {
    let (names, stripped) = stripped(bytes);
    let before = Module::<E>::in_edition(bytes);
    let stripped = Module::<E>::in_edition(&stripped);
    let pair = stripped
        .names_beside(NamePayload::in_edition(names))
        .unwrap();
    let mut found = 0;
    for (one, two) in (0..30).flat_map(|one| (0..3).map(move |two| (one, two))) {
        let answers = E::of_pair(pair, one, two).into_iter();
        for (answer, expected) in answers.zip(E::names_in(before, one, two)) {
            let answer = answer.unwrap();
            assert!(answer.iter().all(|name| name.whose() == Whose::Separate));
            assert_eq!(
                answer.map(Supplied::into_inner),
                expected.unwrap(),
                "{name}"
            );
            found += usize::from(answer.is_some());
        }
    }
    assert!(found > 0, "{name}");
    let canonical = before.names().unwrap().unwrap().to_canonical().unwrap();
    assert_eq!(pair.to_joined(), Ok(canonical), "{name}");
}

#[test]
fn stripped_modules_of_several_producers() {
    for (name, bytes) in PRODUCED {
        answers_as_before::<First>(name, bytes);
        answers_as_before::<Wider>(name, bytes);
    }
}

#[test]
fn as_it_is_shown() {
    assert_eq!(
        format!("{:?}", pair(&F, &P)),
        "Pair(NamePayload(6 bytes) beside NamePayload(21 bytes))"
    );
}

/// A payload that names one function, by so many zeros, which are only read and so take no memory of
/// their own.
fn zeros(function: u8, length: u32) -> Vec<u8> {
    let entry = [&[function][..], &five_bytes(length)].concat();
    let size = 1 + entry.len() as u32 + length;
    let start = [&[0x01][..], &five_bytes(size), &[0x01], &entry].concat();
    let mut payload = vec![0; start.len() + length as usize];
    payload[..start.len()].copy_from_slice(&start);
    payload
}

/// A number in five bytes.
fn five_bytes(number: u32) -> [u8; 5] {
    [0, 7, 14, 21, 28].map(|shift| {
        let goes_on = if shift < 28 { 0x80 } else { 0 };
        (number >> shift) as u8 & 0x7F | goes_on
    })
}

/// Each is accepted, and 4,294,967,296 bytes would be joined, which is one too many.
#[test]
fn a_joined_subsection_that_would_be_too_long_is_refused() {
    // The contents are a count, and for each function its index, the length of its name, and that.
    let half: u32 = 1 << 31;
    let beside_text = 1 + 2 * (1 + 5);
    let (zero, one) = (zeros(0, half), zeros(1, half - beside_text));
    let refused = pair(&zero, &one).join_into(&mut []).unwrap_err();
    assert_eq!(refused.whose(), None);
    assert_eq!(refused.refusal().reason(), Reason::SubsectionTooLong);
    assert_eq!(refused.refusal().offset(), 0);
    let one_less = &zeros(1, half - beside_text - 1);
    let needed = u64::from(u32::MAX) + 1 + 5;
    let too_short = pair(&zero, one_less).join_into(&mut []);
    assert_eq!(refused_of(too_short), (None, 13, needed));
}
