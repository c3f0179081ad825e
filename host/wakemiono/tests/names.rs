//! Names: borrowed from what was lent, and shown so that people can read them.

mod common;

use std::collections::HashMap;

use common::{custom, module, P};
use wakemiono::{offset_in, Edition, FunctionIndex, Module, Name, NamePayload, Reason};

#[test]
fn a_name_outlives_what_was_asked_and_not_the_bytes() {
    fn every_name(module: &[u8]) -> HashMap<FunctionIndex, Name<'_>> {
        let payload = Module::new(module).names().unwrap().unwrap();
        (0..4)
            .map(FunctionIndex)
            .filter_map(|function| Some((function, payload.function_name(function).unwrap()?)))
            .collect()
    }
    let bytes = module(&[custom("name", &P)]);
    let names = every_name(&bytes);
    assert_eq!(names.len(), 2);
    assert_eq!(names[&FunctionIndex(3)].as_bytes(), b"b");
    assert_eq!(
        offset_in(&bytes, names[&FunctionIndex(3)].as_bytes()),
        Some(15 + 12)
    );
}

#[test]
fn names_and_modules_go_to_other_threads() {
    fn asked_there<E: Edition>(module: Module<'_, E>) -> Name<'_> {
        let asked = std::thread::scope(|scope| {
            let asked = scope.spawn(|| module.function_name(FunctionIndex(0)));
            asked.join().unwrap()
        });
        asked.unwrap().unwrap()
    }
    let bytes = module(&[custom("name", &P)]);
    assert_eq!(asked_there(Module::new(&bytes)).as_bytes(), b"a");
    assert_eq!(asked_there(Module::wider(&bytes)).as_bytes(), b"a");
}

fn shown(bytes: &[u8]) -> (String, String) {
    let name = Name::from(bytes);
    (format!("{name}"), format!("{name:?}"))
}

#[test]
fn what_is_printable_is_shown_as_it_is() {
    for text in [
        "",
        "main",
        "größe",
        "関数",
        "<T as \u{2200}>::f",
        "नमस्ते",
        "🦀",
    ] {
        let (display, debug) = shown(text.as_bytes());
        assert_eq!(display, text);
        assert_eq!(debug, format!("Name(\"{text}\")"));
    }
    let (display, debug) = shown(b"it's \"x\"");
    assert_eq!(display, "it's \"x\"");
    assert_eq!(debug, r#"Name("it\'s \"x\"")"#);
}

#[test]
fn what_is_not_printable_is_escaped() {
    for (bytes, escaped) in [
        (&b"a\nb\t\r\0"[..], r"a\nb\t\r\0"),
        (b"\x1B[31m", r"\u{1b}[31m"),
        ("\u{202E}\u{FEFF}".as_bytes(), r"\u{202e}\u{feff}"),
        (b"a\\nb", r"a\\nb"),
        (b"\xFF\xC3", r"\xFF\xC3"),
        (b"a\xED\xA0\x80b", r"a\xED\xA0\x80b"),
    ] {
        let (display, debug) = shown(bytes);
        assert_eq!(display, escaped);
        assert_eq!(debug, format!("Name(\"{escaped}\")"));
        assert!(display.chars().all(|shown| !shown.is_control()));
    }
}

/// Fillers of Hangul and the empty pattern of Braille are letters and symbols that nobody sees.
#[test]
fn what_is_drawn_as_nothing_is_escaped() {
    for blank in ['\u{115F}', '\u{1160}', '\u{2800}', '\u{3164}', '\u{FFA0}'] {
        let escaped = format!("a{0}{0}b", blank.escape_unicode());
        let (display, debug) = shown(format!("a{blank}{blank}b").as_bytes());
        assert_eq!(display, escaped);
        assert_eq!(debug, format!("Name(\"{escaped}\")"));
    }
}

#[test]
fn columns_are_as_wide_as_what_is_shown() {
    let name = Name::from(&b"a\n\xFF"[..]);
    assert_eq!(format!("{name:>9}|{name:<9}|"), r"  a\n\xFF|a\n\xFF  |");
    assert_eq!(format!("{name:.3}|"), r"a\n|");
    let reason = Reason::NotText;
    assert_eq!(format!("{reason:-^21}"), "--text is not UTF-8--");
}

#[test]
fn names_are_compared_byte_by_byte() {
    let (a, b) = (Name::from(&b"a"[..]), Name::from(&b"b"[..]));
    assert!(a < b);
    assert_eq!(
        a,
        NamePayload::new(&P)
            .function_name(FunctionIndex(0))
            .unwrap()
            .unwrap()
    );
    assert_eq!((a.len(), a.is_empty()), (1, false));
}

#[test]
fn a_part_lies_in_what_was_lent_or_not() {
    let (lent, other) = ([1, 2, 3], [1, 2, 3]);
    assert_eq!(offset_in(&lent, &lent), Some(0));
    assert_eq!(offset_in(&lent, &lent[1..2]), Some(1));
    assert_eq!(offset_in(&lent, &lent[3..]), Some(3));
    assert_eq!(offset_in(&lent[..2], &lent[1..]), None);
    assert_eq!(offset_in(&lent[1..], &lent), None);
    assert_eq!(offset_in(&lent, &other), None);
}
