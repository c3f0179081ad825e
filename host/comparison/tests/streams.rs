//! What is cut in the middle, what is known only at the end, what comes after the finish, totals near their limit, and
//! states that nobody began.

use comparison::guarded::Guarded;
use comparison::library::{self, Stream, Told, ToldPlace, ToldStream, FOUND, NONE, REFUSED};
use comparison::random::{seed, Random};
use comparison::spelling::{self, number, unpadded, PREAMBLE};
use comparison::tally::{Tally, HINTS, NAMES, OLD_HINTS};
use std::mem::size_of;

/// The refusal of a part or of a finish after the finish, and of a part that is too many.
const AFTER_FINISH: u32 = 18;
const TOO_LONG: u32 = 28;

fn section(id: u8, contents: &[u8]) -> Vec<u8> {
    spelling::section(id, contents, &mut unpadded)
}

fn custom(name: &[u8], payload: &[u8]) -> Vec<u8> {
    spelling::custom(name, payload, &mut unpadded)
}

fn module(sections: &[Vec<u8>]) -> Vec<u8> {
    [PREAMBLE, &sections.concat()].concat()
}

fn refused(code: u32, offset: u64) -> ToldStream {
    ToldStream {
        kind: REFUSED,
        code,
        offset,
        ..ToldStream::default()
    }
}

fn found(offset: u64, length: u64) -> ToldPlace {
    ToldPlace {
        kind: FOUND.into(),
        offset,
        length,
    }
}

/// What is said of a module that arrives, however it is cut.
fn arrived(tally: &mut Tally, m: &[u8]) -> ToldStream {
    tally.arrives(m);
    tally.streamed([m]).1
}

/// Numbers in each count of bytes that they may have: as the size of a section, and as the length of its name. The
/// last one of each is too large.
#[test]
fn numbers_cut_in_the_middle() {
    let mut tally = Tally::default();
    for padding in 0..5 {
        let zero = number(0, &mut |_| padding);
        let accepted = module(&[section(0, &zero), [&[1], &zero[..]].concat()]);
        assert_eq!(arrived(&mut tally, &accepted).length, 2);
    }
    let too_large = [0x80, 0x80, 0x80, 0x80, 0x10];
    let as_size = [PREAMBLE, &[1], &too_large[..], &[0]].concat();
    assert_eq!(arrived(&mut tally, &as_size), refused(3, 9));
    let as_length = module(&[section(0, &too_large)]);
    assert_eq!(arrived(&mut tally, &as_length), refused(3, 10));
    let cut_off = module(&[section(0, &too_large[..4])]);
    assert_eq!(arrived(&mut tally, &cut_off), refused(2, 10));
}

/// Names in characters of each length, whole and broken at each place.
#[test]
fn characters_cut_in_the_middle() {
    let mut tally = Tally::default();
    let text = "aé漢🦀\u{7F}\u{80}\u{7FF}\u{800}\u{D7FF}\u{E000}\u{FFFF}\u{10000}\u{10FFFF}";
    let text = text.as_bytes();
    let accepted = module(&[custom(text, b"x")]);
    assert_eq!(arrived(&mut tally, &accepted).length, 1);
    for at in 0..text.len() {
        tally.arrives(&module(&[custom(&text[..at], b"x")]));
        for change in [
            0x00, 0x7F, 0x80, 0xBF, 0xC0, 0xC1, 0xE0, 0xED, 0xF0, 0xF4, 0xF8, 0xFF,
        ] {
            let mut broken = text.to_vec();
            broken[at] = change;
            tally.arrives(&module(&[custom(&broken, b"x")]));
        }
    }
    println!("compared {} calls", tally.calls);
    tally.assert_streams_met(&[0, 4], 100);
}

/// The three names that are looked for, and others that begin or end as they do.
#[test]
fn names_cut_in_the_middle() {
    let mut tally = Tally::default();
    for name in [NAMES, HINTS, OLD_HINTS] {
        let told = arrived(&mut tally, &module(&[custom(name, b"xyz")]));
        let payload = found(PREAMBLE.len() as u64 + 3 + name.len() as u64, 3);
        let places = [told.name, told.hints, told.old_hints];
        let at = [NAMES, HINTS, OLD_HINTS].map(|other| other == name);
        assert_eq!(
            places,
            at.map(|is| if is { payload } else { ToldPlace::default() })
        );
        let longer = [name, b"s"].concat();
        let twice = [name, name].concat();
        let mut other = name.to_vec();
        for at in 0..name.len() {
            other[at] ^= 0x20;
            tally.arrives(&module(&[custom(&other, b"xyz")]));
            other[at] ^= 0x20;
        }
        for other in [&name[1..], &name[..name.len() - 1], &longer, &twice, b""] {
            let told = arrived(&mut tally, &module(&[custom(other, b"xyz")]));
            let kinds = [told.name, told.hints, told.old_hints].map(|place| place.kind);
            assert_eq!((told.length, kinds), (1, [NONE.into(); 3]));
        }
    }
}

/// A name that is bad counts only once all of its section has come: before that the section is one that never ends.
#[test]
fn a_bad_name_in_a_section_that_never_ends() {
    let mut tally = Tally::default();
    let code = section(10, &[0]);
    let hints = custom(HINTS, &[0]);
    for (before, contents, code, at) in [
        (vec![], &[0x01, 0xFF, 0x00, 0x00][..], 4, 11),
        (vec![], &[0x05, 0x61, 0x62], 2, 10),
        (vec![], &[0x80, 0x80, 0x80, 0x80, 0x80, 0x00, 0x00], 3, 10),
        (vec![], &[0x02, 0xC3], 2, 10),
        (vec![], &[0x02, 0xC3, 0xC3], 4, 11),
        (custom(NAMES, &[]), b"\x04name", 7, 15),
        (custom(NAMES, &[]), b"\x04name\0\0\0", 7, 15),
        (hints.clone(), &[&[0x19], HINTS, &[0]].concat(), 7, 37),
        (
            [hints, code.clone()].concat(),
            &[&[0x19], HINTS, &[0]].concat(),
            7,
            40,
        ),
        (code.clone(), &[&[0x19], HINTS, &[0]].concat(), 8, 11),
        (code, &[&[0x0B], OLD_HINTS, &[0]].concat(), 8, 11),
    ] {
        let begun = [PREAMBLE, &before].concat();
        let whole = [&begun[..], &section(0, contents)].concat();
        assert_eq!(
            arrived(&mut tally, &whole),
            refused(code, at),
            "{whole:02X?}"
        );
        let size_at = begun.len() as u64 + 1;
        let never_ends = &whole[..whole.len() - 1];
        assert_eq!(arrived(&mut tally, never_ends), refused(2, size_at));
    }
}

/// The same of what is final at once, whatever comes behind it.
#[test]
fn what_is_final_at_once() {
    let mut tally = Tally::default();
    let names = custom(NAMES, &[]);
    for (sections, code, at) in [
        (vec![14], 5, 8),
        (vec![255], 5, 8),
        ([section(3, &[]), vec![1]].concat(), 6, 10),
        ([section(3, &[]), vec![3]].concat(), 6, 10),
        ([names.clone(), vec![11]].concat(), 8, 15),
        (vec![1, 0xFF, 0xFF, 0xFF, 0xFF, 0x10], 3, 9),
    ] {
        let begun = [PREAMBLE, &sections].concat();
        for behind in [&[][..], &[0], &[0x80], &names, &[0xFF; 9]] {
            let whole = [&begun[..], behind].concat();
            assert_eq!(
                arrived(&mut tally, &whole),
                refused(code, at),
                "{whole:02X?}"
            );
        }
    }
}

/// R14.4: a fault of a custom name counts only once all of the section has come.
#[test]
fn a_name_is_refused_once_its_section_is_whole() {
    let mut tally = Tally::default();
    let begun = [PREAMBLE, &[0x00, 0x07, 0x84, 0x80, 0x80, 0x80, 0x1F]].concat();
    assert_eq!(arrived(&mut tally, &begun), refused(2, 9));
    let whole = [&begun[..], &[0, 0]].concat();
    assert_eq!(arrived(&mut tally, &whole), refused(3, 10));
}

#[test]
fn a_section_that_ends_at_the_finish() {
    let mut tally = Tally::default();
    for length in [0, 1, 127, 128, 300] {
        let contents = vec![0; length];
        for whole in [
            module(&[section(1, &contents)]),
            module(&[custom(b"x", &contents)]),
            module(&[custom(NAMES, &contents)]),
        ] {
            assert_eq!(arrived(&mut tally, &whole).length, 1);
            let (told, _) = whole.split_at(whole.len() - 1);
            assert_eq!(arrived(&mut tally, told).kind, REFUSED);
        }
    }
}

#[test]
fn the_preamble_in_eight_parts() {
    let mut tally = Tally::default();
    let (_, told) = tally.streamed(PREAMBLE.chunks(1));
    let nothing = ToldStream {
        kind: FOUND,
        ..ToldStream::default()
    };
    assert_eq!(told, nothing);
    for at in 0..PREAMBLE.len() {
        let mut other = PREAMBLE.to_vec();
        other[at] ^= 1;
        assert_eq!(arrived(&mut tally, &other), refused(1, 0));
        assert_eq!(arrived(&mut tally, &PREAMBLE[..at]), refused(1, 0));
    }
    assert_eq!(tally.streamed([&[][..]; 3]).1, refused(1, 0));
    assert_eq!(tally.streamed([]).1, refused(1, 0));
}

fn part_refused(code: u32) -> Told {
    Told {
        kind: REFUSED,
        code,
        offset: 0,
        length: 0,
    }
}

/// The tally holds that the state is unchanged.
#[test]
fn after_the_finish() {
    let mut tally = Tally::default();
    let accepted = module(&[custom(NAMES, &[])]);
    for module in [
        &accepted[..],
        PREAMBLE,
        &PREAMBLE[..3],
        &accepted[..12],
        b"no module",
    ] {
        let mut read = tally.stream_begin();
        tally.stream_part(&mut read, module);
        tally.stream_finish(&mut read);
        let finished = tally.stream().clone();
        for _ in 0..2 {
            for part in [&[][..], &[0], PREAMBLE] {
                let told = tally.stream_part(&mut read, part);
                assert_eq!(told, part_refused(AFTER_FINISH));
            }
            assert_eq!(tally.stream_finish(&mut read), refused(AFTER_FINISH, 0));
        }
        assert_eq!(*tally.stream(), finished);
        assert_eq!(finished.total, module.len() as u64);
    }
}

/// Sets the total of the stream of each reader.
fn set_total(tally: &mut Tally, read: &mut second_reader::Stream, total: u64) {
    tally.stream().total = total;
    read.total = total;
}

#[test]
fn the_total_near_its_limit() {
    const MOST: usize = 3;
    let bytes = [0; MOST + 1];
    let mut tally = Tally::default();
    for left in 0..=MOST {
        let mut read = tally.stream_begin();
        tally.stream_part(&mut read, PREAMBLE);
        set_total(&mut tally, &mut read, u64::MAX - left as u64);
        for too_many in left + 1..=MOST + 1 {
            let told = tally.stream_part(&mut read, &bytes[..too_many]);
            assert_eq!(told, part_refused(TOO_LONG), "{too_many} of {left}");
        }
        tally.stream_part(&mut read, &[]);
        tally.stream_part(&mut read, &bytes[..left]);
        assert_eq!(tally.stream().total, u64::MAX);
        tally.stream_part(&mut read, &[]);
        let told = tally.stream_part(&mut read, &[0]);
        assert_eq!(told, part_refused(TOO_LONG));
    }
}

/// A part that is refused for the total has not come: the next one goes on where the one before it ended.
#[test]
fn a_part_that_is_refused_has_not_come() {
    let mut tally = Tally::default();
    let mut read = tally.stream_begin();
    tally.stream_part(&mut read, &PREAMBLE[..5]);
    set_total(&mut tally, &mut read, u64::MAX - 3);
    let told = tally.stream_part(&mut read, &[0; 4]);
    assert_eq!(told, part_refused(TOO_LONG));
    set_total(&mut tally, &mut read, 5);
    let rest = [&PREAMBLE[5..], &custom(NAMES, b"x")].concat();
    tally.stream_part(&mut read, &rest);
    let told = tally.stream_finish(&mut read);
    assert_eq!((told.kind, told.name), (FOUND, found(15, 1)));
}

#[test]
fn after_the_finish_goes_before_the_total() {
    let mut tally = Tally::default();
    let mut read = tally.stream_begin();
    tally.stream_finish(&mut read);
    set_total(&mut tally, &mut read, u64::MAX);
    let told = tally.stream_part(&mut read, &[0]);
    assert_eq!(told, part_refused(AFTER_FINISH));
}

/// What is done with a state that nobody began: every call ends, and answers with a kind that it may answer with.
fn is_safe(memory: &mut Guarded, lent: &mut Guarded, state: &Stream, parts: &[&[u8]]) {
    let stream = memory.last_stream();
    *stream = state.clone();
    for part in parts {
        let told = library::stream_part(stream, lent.lend(part));
        match told.kind {
            FOUND => assert_eq!(told.length, part.len() as u64, "{state:?}"),
            _ => assert_eq!(told, part_refused(told.code), "{state:?}"),
        }
    }
    for _ in 0..2 {
        let told = library::stream_finish(stream);
        assert!([FOUND, REFUSED].contains(&told.kind), "{state:?}");
    }
}

/// A state of any numbers: some are 0, and some have small bytes, as those of a state have that was begun.
fn any_state(r: &mut Random) -> Stream {
    const SMALL_BYTES: u64 = 0x0F0F_0F0F_0F0F_0F0F;
    let mut state = library::stream_begin();
    state.total = r.number();
    state.rest.fill_with(|| match r.below(3) {
        0 => 0,
        1 => r.number() & SMALL_BYTES,
        _ => r.number(),
    });
    state
}

#[test]
fn states_that_nobody_began() {
    const ROUNDS: usize = 20_000;
    let mut r = Random::new(seed());
    let (mut memory, mut lent) = (Guarded::new(size_of::<Stream>()), Guarded::new(1));
    let whole = module(&[
        custom(HINTS, &[0]),
        section(1, &[0]),
        custom("é".as_bytes(), &[]),
    ]);
    for _ in 0..ROUNDS {
        let (one, other) = whole.split_at(r.below(whole.len()));
        is_safe(
            &mut memory,
            &mut lent,
            &any_state(&mut r),
            &[one, &[], other],
        );
    }
}

/// A state that was reached, with each byte of it changed.
#[test]
fn states_that_were_changed() {
    let (mut memory, mut lent) = (Guarded::new(size_of::<Stream>()), Guarded::new(1));
    let whole = module(&[
        custom(OLD_HINTS, &[0]),
        section(1, &[0; 3]),
        custom("é漢".as_bytes(), &[0; 3]),
        custom(NAMES, &[0; 3]),
    ]);
    for at in 0..=whole.len() {
        let (one, other) = whole.split_at(at);
        let mut reached = library::stream_begin();
        library::stream_part(&mut reached, one);
        for place in 0..reached.rest.len() {
            for byte in 0..size_of::<u64>() {
                for change in [0x01, 0x02, 0x04, 0x08, 0x7F, 0x80, 0xFF] {
                    let mut changed = reached.clone();
                    changed.rest[place] ^= change << (8 * byte);
                    is_safe(&mut memory, &mut lent, &changed, &[other, one]);
                }
            }
        }
    }
}
