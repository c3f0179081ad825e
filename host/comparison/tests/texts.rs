//! Text: every one of up to three bytes, those of four bytes around each limit, and characters between others.

use comparison::tally::{Said, Tally, CALLS_OF_A_TEXT, SHORT_TEXT};

/// Around the values that a byte behind a character's first may have.
const EDGES: [u8; 8] = [0x00, 0x7F, 0x80, 0x81, 0xBE, 0xBF, 0xC0, 0xFF];

/// How many characters take one, two and three bytes. Surrogates are none.
const OF_ONE: u64 = 0x80;
const OF_TWO: u64 = 0x800 - 0x80;
const OF_THREE: u64 = 0x1_0000 - 0x800 - SURROGATES;
const SURROGATES: u64 = 0xE000 - 0xD800;

/// How many texts of one, two and three bytes there are.
const TEXTS: [u64; 3] = [
    OF_ONE,
    OF_ONE * OF_ONE + OF_TWO,
    OF_ONE * OF_ONE * OF_ONE + 2 * OF_ONE * OF_TWO + OF_THREE,
];

/// A payload with one text is canonical where it is accepted.
#[test]
fn one_to_three_bytes() {
    let mut tally = Tally::default();
    for a in 0..=u8::MAX {
        tally.text(&[a]);
        for b in 0..=u8::MAX {
            tally.text(&[a, b]);
            for c in 0..=u8::MAX {
                tally.text(&[a, b, c]);
            }
        }
    }
    let tried = (1 << 8) + (1 << 16) + (1 << 24);
    assert_eq!(tally.calls, CALLS_OF_A_TEXT * tried);
    let said = Said {
        canonical: TEXTS.iter().sum(),
        not_canonical: 0,
    };
    assert_eq!(tally.names_said, said);
}

/// In the wider edition, as the name of a global.
#[test]
fn one_and_two_bytes_in_the_wider_edition() {
    let mut tally = Tally::default();
    for a in 0..=u8::MAX {
        tally.wide_text(&[a]);
        for b in 0..=u8::MAX {
            tally.wide_text(&[a, b]);
        }
    }
    let said = Said {
        canonical: TEXTS[0] + TEXTS[1],
        not_canonical: 0,
    };
    assert_eq!(tally.wide_said, said);
}

/// Every first and second byte: the limits of four bytes, U+10000 and U+10FFFF, show in these two.
#[test]
fn four_bytes_around_each_limit() {
    let mut tally = Tally::default();
    for a in 0..=u8::MAX {
        for b in 0..=u8::MAX {
            for c in EDGES {
                for d in EDGES {
                    tally.text(&[a, b, c, d]);
                }
            }
        }
    }
    let tried = (1 << 16) * 8 * 8;
    assert_eq!(tally.calls, CALLS_OF_A_TEXT * tried);
}

/// The first and the last of each length, the neighbours of the surrogates and of the greatest, and what is beside them.
const AT_LIMITS: [&[u8]; 17] = [
    b"\x7F",
    b"\x80",
    b"\xC1\xBF",
    b"\xC2\x80",
    b"\xDF\xBF",
    b"\xE0\x9F\xBF",
    b"\xE0\xA0\x80",
    b"\xED\x9F\xBF",
    b"\xED\xA0\x80",
    b"\xED\xBF\xBF",
    b"\xEE\x80\x80",
    b"\xEF\xBF\xBF",
    b"\xF0\x8F\xBF\xBF",
    b"\xF0\x90\x80\x80",
    b"\xF4\x8F\xBF\xBF",
    b"\xF4\x90\x80\x80",
    b"\xF8\x88\x80\x80",
];

/// Blocks of ASCII are looked at together, so each stands at every place of them, whole and cut short.
#[test]
fn at_every_place_of_ascii() {
    let mut tally = Tally::default();
    let ascii = [b'a'; SHORT_TEXT];
    for character in AT_LIMITS {
        for taken in 1..=character.len() {
            for before in 0..=SHORT_TEXT - taken {
                let mut text = ascii;
                text[before..before + taken].copy_from_slice(&character[..taken]);
                for text in [&text[..], &text[..before + taken]] {
                    tally.text(text);
                    tally.wide_text(text);
                }
            }
        }
    }
    println!("compared {} calls", tally.calls);
    assert_eq!(tally.names_said.not_canonical, 0);
    assert_eq!(tally.wide_said, tally.names_said);
}
