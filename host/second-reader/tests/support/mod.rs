//! Short ways to say which answer is expected, and to build the inputs.

// Every test file uses some of these, and none uses all.
#![allow(dead_code)]

pub mod editions;
pub mod inputs;
pub mod random;
pub mod shop;

use editions::Edition;
use second_reader::{markers, quick_function_name, Answer, Kind, PairAnswer, Whose, Why};

pub const PREAMBLE: &[u8] = b"\0asm\x01\0\0\0";

pub const HINTS: &[u8] = b"metadata.code.branch_hint";

pub const OLD_HINTS: &[u8] = b"branchHints";

/// The payload P of the rules.
pub const P: [u8; 21] = [
    0x00, 0x02, 0x01, 0x6D, 0x01, 0x07, 0x02, 0x00, 0x01, 0x61, 0x03, 0x01, 0x62, 0x02, 0x06, 0x01,
    0x03, 0x01, 0x00, 0x01, 0x78,
];

pub const NONE: Answer = answer(Kind::None, 0, 0, 0);
pub const UNLIKELY: Answer = answer(Kind::Unlikely, 0, 0, 0);
pub const LIKELY: Answer = answer(Kind::Likely, 0, 0, 0);

const fn answer(kind: Kind, code: u32, offset: u64, length: u64) -> Answer {
    Answer {
        kind,
        code,
        offset,
        length,
    }
}

pub const fn found(offset: u64, length: u64) -> Answer {
    answer(Kind::Found, 0, offset, length)
}

pub const fn section_found(id: u32, offset: u64, length: u64) -> Answer {
    answer(Kind::Found, id, offset, length)
}

pub const fn refused(code: u32, offset: u64) -> Answer {
    answer(Kind::Refused, code, offset, 0)
}

pub const NO_SUBSECTION: Why = why(Kind::NoSubsection);
pub const NO_GROUP: Why = why(Kind::NoGroup);

const fn why(kind: Kind) -> Why {
    Why {
        kind,
        code: 0,
        offset: 0,
        position: 0,
        below: None,
        above: None,
    }
}

/// A name stands in a subsection, at a position of its map.
pub const fn named(subsection: u32, position: u64) -> Why {
    Why {
        code: subsection,
        position,
        ..why(Kind::Found)
    }
}

/// A map does not have an index, and these are the nearest that it has.
pub const fn between(below: Option<u32>, above: Option<u32>) -> Why {
    Why {
        below,
        above,
        ..why(Kind::NoEntry)
    }
}

/// The same refusal, as the answer to why.
pub const fn why_refused(code: u32, offset: u64) -> Why {
    Why {
        code,
        offset,
        ..why(Kind::Refused)
    }
}

/// The answer of two payloads that is one's, or nobody's.
pub const fn of(whose: Whose, answer: Answer) -> PairAnswer {
    PairAnswer {
        kind: answer.kind,
        code: answer.code,
        offset: answer.offset,
        length: answer.length,
        whose,
    }
}

/// What two payloads are to answer, by what each of them answers alone.
pub fn of_two(separate: Answer, own: Answer) -> PairAnswer {
    let answers = [(Whose::Separate, separate), (Whose::Own, own)];
    let refused = answers.iter().find(|(_, it)| it.kind == Kind::Refused);
    let found = answers.iter().find(|(_, it)| it.kind == Kind::Found);
    let (whose, answer) = refused.or(found).unwrap_or(&(Whose::Nobody, NONE));
    of(*whose, *answer)
}

/// The bytes that an answer points to, or none where it is not a found one.
pub fn bytes_of(lent: &[u8], answer: Answer) -> Option<&[u8]> {
    let start = answer.offset as usize;
    (answer.kind == Kind::Found).then(|| &lent[start..start + answer.length as usize])
}

/// The bytes that an answer of two payloads points to, in the one that supplied them.
pub fn bytes_of_pair<'a>(separate: &'a [u8], own: &'a [u8], said: PairAnswer) -> Option<&'a [u8]> {
    let lent = match said.whose {
        Whose::Nobody => return None,
        Whose::Separate => separate,
        Whose::Own => own,
    };
    bytes_of(lent, answer(said.kind, said.code, said.offset, said.length))
}

/// What a rewriting writes, or its refusal. Around what is written the output must stay as it was.
pub fn rewritten(
    rewrite: fn(&[u8], &mut [u8]) -> Answer,
    payload: &[u8],
) -> Result<Vec<u8>, Answer> {
    written(|out| rewrite(payload, out), payload.len() + 1)
}

/// What a call writes into an output that has room, or its refusal.
pub fn written(write: impl Fn(&mut [u8]) -> Answer, room: usize) -> Result<Vec<u8>, Answer> {
    const UNTOUCHED: u8 = 0xA5;
    let mut out = vec![UNTOUCHED; room];
    let answer = write(&mut out);
    let length = match answer.kind {
        Kind::Found => answer.length as usize,
        _ => 0,
    };
    assert!(out[length..].iter().all(|&byte| byte == UNTOUCHED));
    if answer.kind == Kind::Refused {
        return Err(answer);
    }
    assert_eq!(answer, found(0, length as u64));
    check_room(&write, length, UNTOUCHED);
    out.truncate(length);
    Ok(out)
}

/// What is joined of two payloads, or the refusal of one of them, whatever the output.
pub fn joined(edition: &Edition, separate: &[u8], own: &[u8]) -> Result<Vec<u8>, PairAnswer> {
    let join = |out: &mut [u8]| (edition.join)(separate, own, out);
    let write = |out: &mut [u8]| {
        let PairAnswer {
            kind,
            code,
            offset,
            length,
            whose,
        } = join(out);
        let of_a_payload = kind == Kind::Refused && code != 13;
        assert_eq!(whose != Whose::Nobody, of_a_payload);
        answer(kind, code, offset, length)
    };
    let joined = written(write, separate.len() + own.len() + 1);
    joined.map_err(|_| join(&mut []))
}

/// Exactly enough room is enough; one byte less is refusal 13, gives the needed length and writes
/// nothing.
fn check_room(write: &impl Fn(&mut [u8]) -> Answer, needed: usize, untouched: u8) {
    let mut exact = vec![untouched; needed];
    assert_eq!(write(&mut exact), found(0, needed as u64));
    if needed > 0 {
        let mut short = vec![untouched; needed - 1];
        assert_eq!(write(&mut short), refused(13, needed as u64));
        assert!(short.iter().all(|&byte| byte == untouched));
        assert_eq!(write(&mut []), refused(13, needed as u64));
    }
}

/// Markers as they are stored: both lists, and the end.
#[derive(Clone, Debug, PartialEq, Eq)]
pub struct Markers {
    pub indices: Vec<u32>,
    pub offsets: Vec<u32>,
    pub end: u64,
}

impl Markers {
    pub fn new(indices: &[u32], offsets: &[u32], end: u64) -> Markers {
        Markers {
            indices: indices.to_vec(),
            offsets: offsets.to_vec(),
            end,
        }
    }

    /// The quick question, by these and whatever is lent.
    pub fn quick(&self, payload: &[u8], function: u32) -> Answer {
        quick_function_name(payload, &self.indices, &self.offsets, self.end, function)
    }
}

/// What every place of a list holds before markers are made.
const UNMARKED: u32 = 0xA5A5_A5A5;

/// The markers that are made of a payload, or the refusal. Behind them both lists must stay as they
/// were, and so must a list that is too short for them, and the other one.
pub fn marked(payload: &[u8]) -> Result<Markers, Answer> {
    let room = payload.len() + 1;
    let (answer, mut indices, mut offsets) = marked_into(payload, room, room);
    let count = match answer.kind {
        Kind::Found => answer.length as usize,
        _ => 0,
    };
    for list in [&mut indices, &mut offsets] {
        assert!(list[count..].iter().all(|&number| number == UNMARKED));
        list.truncate(count);
    }
    if answer.kind == Kind::Refused {
        return Err(answer);
    }
    let exact = marked_into(payload, count, count);
    assert_eq!(exact, (answer, indices.clone(), offsets.clone()));
    if let Some(short) = count.checked_sub(1) {
        for (of_indices, of_offsets) in [(short, count), (count, short), (0, room), (room, 0)] {
            let unchanged = (vec![UNMARKED; of_indices], vec![UNMARKED; of_offsets]);
            let (refusal, indices, offsets) = marked_into(payload, of_indices, of_offsets);
            assert_eq!(refusal, refused(13, count as u64));
            assert_eq!((indices, offsets), unchanged);
        }
    }
    Ok(Markers::new(&indices, &offsets, answer.offset))
}

/// Makes markers in lists that have so much room, and hands them back as they are then.
fn marked_into(payload: &[u8], indices: usize, offsets: usize) -> (Answer, Vec<u32>, Vec<u32>) {
    let (mut indices, mut offsets) = (vec![UNMARKED; indices], vec![UNMARKED; offsets]);
    let answer = markers(payload, &mut indices, &mut offsets);
    (answer, indices, offsets)
}

/// A section of any id: id, size in its fewest bytes, contents. Only for contents below 128 bytes.
pub fn plain_section(id: u8, contents: &[u8]) -> Vec<u8> {
    assert!(contents.len() < 0x80);
    [&[id, contents.len() as u8], contents].concat()
}

/// A custom section of a name. Only for contents below 128 bytes.
pub fn custom_section(name: &[u8], payload: &[u8]) -> Vec<u8> {
    plain_section(0, &[&[name.len() as u8], name, payload].concat())
}

/// A module of the given sections.
pub fn module(sections: &[Vec<u8>]) -> Vec<u8> {
    [PREAMBLE, &sections.concat()].concat()
}
