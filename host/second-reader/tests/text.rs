//! Which texts are names, against the Unicode Standard's table of well-formed byte sequences.

mod support;

use second_reader::*;
use support::*;

/// The rows of the table: the ranges of the first, second, third and fourth byte.
const WELL_FORMED: [&[(u8, u8)]; 9] = [
    &[(0x00, 0x7F)],
    &[(0xC2, 0xDF), (0x80, 0xBF)],
    &[(0xE0, 0xE0), (0xA0, 0xBF), (0x80, 0xBF)],
    &[(0xE1, 0xEC), (0x80, 0xBF), (0x80, 0xBF)],
    &[(0xED, 0xED), (0x80, 0x9F), (0x80, 0xBF)],
    &[(0xEE, 0xEF), (0x80, 0xBF), (0x80, 0xBF)],
    &[(0xF0, 0xF0), (0x90, 0xBF), (0x80, 0xBF), (0x80, 0xBF)],
    &[(0xF1, 0xF3), (0x80, 0xBF), (0x80, 0xBF), (0x80, 0xBF)],
    &[(0xF4, 0xF4), (0x80, 0x8F), (0x80, 0xBF), (0x80, 0xBF)],
];

/// Both ends of every range in the table, and the bytes just outside.
const ENDS: [u8; 25] = [
    0x00, 0x7F, 0x80, 0x8F, 0x90, 0x9F, 0xA0, 0xBF, 0xC0, 0xC1, 0xC2, 0xDF, 0xE0, 0xE1, 0xEC, 0xED,
    0xEE, 0xEF, 0xF0, 0xF1, 0xF3, 0xF4, 0xF5, 0xFE, 0xFF,
];

fn well_formed(text: &[u8]) -> bool {
    if text.is_empty() {
        return true;
    }
    let fits = |row: &&[(u8, u8)]| {
        text.len() >= row.len()
            && row
                .iter()
                .zip(text)
                .all(|(&(low, high), byte)| (low..=high).contains(byte))
    };
    let row = WELL_FORMED.iter().find(|row| fits(row));
    row.is_some_and(|row| well_formed(&text[row.len()..]))
}

fn check(text: &[u8]) {
    let length = text.len() as u8;
    let payload = [&[0x00, length + 1, length], text].concat();
    let expected = match well_formed(text) {
        true => found(3, u64::from(length)),
        false => refused(4, 3),
    };
    assert_eq!(module_name(&payload), expected, "{text:X?}");
}

#[test]
fn every_text_of_one_and_two_bytes() {
    for first in 0..=u8::MAX {
        check(&[first]);
        for second in 0..=u8::MAX {
            check(&[first, second]);
        }
    }
}

#[test]
fn texts_of_three_and_four_bytes_at_the_ends_of_ranges() {
    for first in ENDS {
        for second in ENDS {
            for third in ENDS {
                check(&[first, second, third]);
                for fourth in ENDS {
                    check(&[first, second, third, fourth]);
                }
            }
        }
    }
}

#[test]
fn every_character() {
    for character in '\0'..=char::MAX {
        let mut bytes = [0; 4];
        let text = character.encode_utf8(&mut bytes).as_bytes();
        let payload = &[&[0x00, text.len() as u8 + 1, text.len() as u8], text].concat();
        assert_eq!(module_name(payload), found(3, text.len() as u64));
    }
}
