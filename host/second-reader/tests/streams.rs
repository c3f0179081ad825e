//! A module as it arrives: by hand from the text of the request, and cut at every place.

mod support;

use second_reader::*;
use support::*;

/// The answer to parts that came one after the other, and what is said of them is taken each time.
fn streamed<'a>(parts: impl IntoIterator<Item = &'a [u8]>) -> StreamAnswer {
    let mut stream = stream_begin();
    for part in parts {
        let length = part.len() as u64;
        assert_eq!(stream_part(&mut stream, part), found(0, length));
    }
    stream_finish(&mut stream)
}

/// Accepted, with so many sections and these places.
fn walked(sections: u64, [name, hints, old_hints]: [Option<Place>; 3]) -> StreamAnswer {
    StreamAnswer {
        kind: Kind::Found,
        code: 0,
        offset: 0,
        length: sections,
        name,
        hints,
        old_hints,
    }
}

fn stream_refused(code: u32, offset: u64) -> StreamAnswer {
    StreamAnswer {
        kind: Kind::Refused,
        code,
        offset,
        ..walked(0, [None; 3])
    }
}

fn place(offset: u64, length: u64) -> Option<Place> {
    Some(Place { offset, length })
}

fn with_all_three() -> Vec<u8> {
    module(&[
        custom_section(OLD_HINTS, &[0]),
        plain_section(1, &[0]),
        custom_section("é".as_bytes(), b"x"),
        custom_section(HINTS, &[]),
        custom_section(b"name", &P),
    ])
}

#[test]
fn the_three_places_however_it_is_cut() {
    let whole = with_all_three();
    let places = [place(67, 21), place(60, 0), place(22, 1)];
    let answer = walked(5, places);
    assert_eq!(streamed([&whole[..]]), answer);
    assert_eq!(streamed(whole.chunks(1)), answer);
    for at in 0..=whole.len() {
        let (one, other) = whole.split_at(at);
        assert_eq!(streamed([one, other]), answer);
        assert_eq!(streamed([&[], one, &[], &[], other, &[]]), answer);
    }
}

#[test]
fn what_is_cut_off_is_refused_as_the_walk_refuses_it() {
    let whole = with_all_three();
    for length in 0..whole.len() {
        let cut = &whole[..length];
        let answer = walk(cut);
        let StreamAnswer {
            kind,
            code,
            offset,
            length,
            ..
        } = streamed(cut.chunks(3));
        assert_eq!(
            Answer {
                kind,
                code,
                offset,
                length
            },
            answer
        );
    }
}

#[test]
fn k5_r11_a_section_that_never_ends_is_2_though_its_name_is_bad() {
    let number_too_large = [PREAMBLE, &[0x00, 0x07, 0x84, 0x80, 0x80, 0x80, 0x1F]].concat();
    assert_eq!(streamed([&number_too_large[..]]), stream_refused(2, 9));
    let whole = [&number_too_large[..], &[0, 0]];
    assert_eq!(streamed(whole), stream_refused(3, 10));
    let second = module(&[
        custom_section(b"name", &[]),
        vec![0, 6, 4],
        b"name".to_vec(),
    ]);
    assert_eq!(streamed([&second[..]]), stream_refused(2, 16));
    assert_eq!(streamed([&second[..], &[0]]), stream_refused(7, 15));
}

#[test]
fn k5_r12_after_the_finish() {
    for module in [PREAMBLE, b"no module"] {
        let mut stream = stream_begin();
        let _ = stream_part(&mut stream, module);
        let _ = stream_finish(&mut stream);
        let finished = stream.clone();
        assert_eq!(stream_part(&mut stream, &[0]), refused(18, 0));
        assert_eq!(stream_part(&mut stream, &[]), refused(18, 0));
        assert_eq!(stream_finish(&mut stream), stream_refused(18, 0));
        assert_eq!(stream, finished);
        assert_eq!(stream.total, module.len() as u64);
    }
}

#[test]
fn k5_r12_the_total_has_a_limit() {
    let mut stream = stream_begin();
    stream.total = u64::MAX - 2;
    let before = stream.clone();
    assert_eq!(stream_part(&mut stream, &[0; 3]), refused(28, 0));
    assert_eq!(stream, before);
    assert_eq!(stream_part(&mut stream, &[0; 2]), found(0, 2));
    assert_eq!(stream_part(&mut stream, &[]), found(0, 0));
    assert_eq!(stream_part(&mut stream, &[0]), refused(28, 0));
    let _ = stream_finish(&mut stream);
    assert_eq!(stream_part(&mut stream, &[0]), refused(18, 0));
}

#[test]
fn k5_r14_the_next_part_is_taken_as_if_a_refused_one_had_not_come() {
    let mut stream = stream_begin();
    let _ = stream_part(&mut stream, &PREAMBLE[..4]);
    stream.total = u64::MAX - 4;
    assert_eq!(stream_part(&mut stream, &[0xFF; 5]), refused(28, 0));
    assert_eq!(stream_part(&mut stream, &PREAMBLE[4..]), found(0, 4));
    assert_eq!(stream_finish(&mut stream), walked(0, [None; 3]));
}
