//! A module as it arrives: fed in parts that are cut anywhere, or copied from a reader.

mod common;

use std::io::{self, Cursor, Read, Write};

use common::{custom, module, refused, section, HINTS_NAME, OLD_HINTS_NAME, P, SMALL};
use wakemiono::{Place, Refusal, Stream, Walked};

/// What is said of these parts, one after the other.
fn streamed<'a>(parts: impl IntoIterator<Item = &'a [u8]>) -> Result<Walked, Refusal> {
    let mut stream = Stream::new();
    for part in parts {
        stream.part(part)?;
    }
    stream.finish()
}

fn place(offset: u64, length: u64) -> Option<Place> {
    Some(Place { offset, length })
}

#[test]
fn all_three_payloads_are_found() {
    let bytes = module(&[
        custom("x", b"yz"),
        custom(HINTS_NAME, &[0]),
        section(1, &[0]),
        custom(OLD_HINTS_NAME, &[]),
        custom("name", &P),
    ]);
    let walked = Walked {
        section_count: 5,
        name: place(67, 21),
        hints: place(42, 1),
        old_hints: place(60, 0),
    };
    for at in 0..=bytes.len() {
        let (one, other) = bytes.split_at(at);
        assert_eq!(streamed([one, &[], other, &[]]), Ok(walked), "cut at {at}");
    }
    assert_eq!(streamed(bytes.chunks(1)), Ok(walked));
}

#[test]
fn what_is_known_only_at_the_end_goes_first() {
    let open = [
        &module(&[])[..],
        &[0x00, 0x07, 0x84, 0x80, 0x80, 0x80, 0x1F],
    ]
    .concat();
    assert_eq!(refused(streamed(open.chunks(1))), (2, 9));
    assert_eq!(refused(streamed([&open[..], &[0, 0]])), (3, 10));
    let not_text = [&module(&[])[..], &[0x00, 0x03, 0x01, 0xFF]].concat();
    assert_eq!(refused(streamed([&not_text[..]])), (2, 9));
    assert_eq!(refused(streamed([&not_text[..], &[0]])), (4, 11));
}

#[test]
fn nothing_is_no_module() {
    assert_eq!(refused(streamed([])), (1, 0));
    assert_eq!(refused(streamed([&[][..]; 3])), (1, 0));
    assert_eq!(streamed(module(&[]).chunks(1)).unwrap().section_count, 0);
}

#[test]
fn copied_from_a_reader() {
    let mut stream = Stream::new();
    let copied = io::copy(&mut &SMALL[..], &mut stream).unwrap();
    assert_eq!((copied, stream.total()), (113, 113));
    let walked = stream.finish().unwrap();
    assert_eq!(walked.section_count, 6);
    assert_eq!(walked.name, place(88, 25));
    assert_eq!(walked.hints, place(58, 6));
    assert_eq!(walked.old_hints, None);
}

/// A section of a megabyte of zeros before names, neither of which is in memory at once.
#[test]
fn copied_from_several_readers() {
    const ZEROS: u64 = 1 << 20;
    let head = [&module(&[])[..], &[0x00, 0x82, 0x80, 0x40, 0x01, b'x']].concat();
    let names = custom("name", &P);
    let mut reader = Cursor::new(head)
        .chain(io::repeat(0).take(ZEROS))
        .chain(&names[..]);
    let mut stream = Stream::new();
    io::copy(&mut reader, &mut stream).unwrap();
    let at = 8 + 4 + 2 + ZEROS + 7;
    assert_eq!(stream.finish().unwrap().name, place(at, 21));
}

#[test]
fn written_and_flushed() {
    let mut stream = Stream::new();
    assert_eq!(stream.write(&[]).unwrap(), 0);
    assert_eq!(stream.write(&SMALL[..50]).unwrap(), 50);
    stream.flush().unwrap();
    stream.write_all(&SMALL[50..]).unwrap();
    assert_eq!(format!("{stream:?}"), "Stream(113 bytes)");
    assert_eq!(stream.finish().unwrap().section_count, 6);
}

#[test]
fn given_to_another_thread() {
    let mut stream = Stream::default();
    stream.part(&SMALL[..50]).unwrap();
    let rest = std::thread::spawn(move || {
        stream.part(&SMALL[50..])?;
        stream.finish()
    });
    assert_eq!(rest.join().unwrap().unwrap().section_count, 6);
}
