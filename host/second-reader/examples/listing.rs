//! Reads a module from standard input and prints its listing: the sections, and where names and
//! hints lie.
//!
//! Only the walk judges the module here; payloads are placed and not looked into.

use std::fmt::Write as _;
use std::io::{self, Read as _, Write as _};

use second_reader::{custom, section, walk, Answer, Kind, Reason};

const MOST: usize = 65_536;

fn main() -> io::Result<()> {
    let mut input = Vec::new();
    // One byte more than is read tells an input that is too large from one that just fits.
    io::stdin()
        .lock()
        .take(MOST as u64 + 1)
        .read_to_end(&mut input)?;
    io::stdout().write_all(listing(&input).as_bytes())
}

fn listing(input: &[u8]) -> String {
    if input.len() > MOST {
        return refused(Reason::InputTooLarge as u32, MOST as u64);
    }
    let walked = walk(input);
    if walked.kind == Kind::Refused {
        return refused(walked.code, walked.offset);
    }
    let mut lines = format!("sections {}\n", walked.length);
    // Each section asked for is another walk, which is bearable for inputs of this size.
    for position in 0..walked.length {
        let found = section(input, position);
        // Writing to a string does not fail.
        let _ = writeln!(lines, "{} {} {}", found.code, found.offset, found.length);
    }
    lines += &payload("name", custom(input, b"name"));
    lines += &payload("hints", custom(input, b"metadata.code.branch_hint"));
    lines
}

fn refused(number: u32, offset: u64) -> String {
    format!("refused {number} {offset}\n")
}

fn payload(label: &str, place: Answer) -> String {
    match place.kind {
        Kind::Found => format!("{label} {} {}\n", place.offset, place.length),
        _ => format!("{label} none\n"),
    }
}

#[cfg(test)]
mod tests {
    use super::*;

    const PREAMBLE: &[u8] = b"\0asm\x01\0\0\0";

    fn after_preamble(sections: &[u8]) -> Vec<u8> {
        [PREAMBLE, sections].concat()
    }

    /// A module of exactly the given length: the preamble and one custom section called `x`.
    fn module_of(length: usize) -> Vec<u8> {
        let mut module = after_preamble(&[0, 0x80, 0x80, 0x00, 1, b'x']);
        let size = length - 12;
        module[9] |= (size & 0x7F) as u8;
        module[10] |= (size >> 7 & 0x7F) as u8;
        module[11] |= (size >> 14) as u8;
        module.resize(length, 0);
        module
    }

    #[test]
    fn the_module_of_the_rules() {
        let module = after_preamble(
            b"\x00\x1A\x04name\x00\x02\x01m\
            \x01\x07\x02\x00\x01a\x03\x01b\
            \x02\x06\x01\x03\x01\x00\x01x",
        );
        assert_eq!(module.len(), 36);
        let expected = "sections 1\n0 8 26\nname 15 21\nhints none\n";
        assert_eq!(listing(&module), expected);
    }

    #[test]
    fn no_sections() {
        let expected = "sections 0\nname none\nhints none\n";
        assert_eq!(listing(PREAMBLE), expected);
    }

    #[test]
    fn an_empty_payload_is_placed() {
        let module = after_preamble(b"\x00\x05\x04name");
        let expected = "sections 1\n0 8 5\nname 15 0\nhints none\n";
        assert_eq!(listing(&module), expected);
    }

    #[test]
    fn payloads_are_not_judged() {
        let module = after_preamble(
            b"\x01\x00\x00\x1B\x19metadata.code.branch_hint\xFF\x00\x06\x04name\xFF",
        );
        let expected = "sections 3\n1 8 0\n0 10 27\n0 39 6\nname 46 1\nhints 38 1\n";
        assert_eq!(listing(&module), expected);
    }

    #[test]
    fn a_refused_walk_is_one_line() {
        assert_eq!(listing(b""), "refused 1 0\n");
        assert_eq!(listing(&after_preamble(b"\x0E\x00")), "refused 5 8\n");
    }

    #[test]
    fn as_much_as_is_read() {
        let expected = "sections 1\n0 8 65524\nname none\nhints none\n";
        assert_eq!(listing(&module_of(MOST)), expected);
    }

    #[test]
    fn one_byte_more_is_refused_whatever_it_is() {
        assert_eq!(listing(&module_of(MOST + 1)), "refused 16 65536\n");
        assert_eq!(listing(&vec![0xFF; MOST + 1]), "refused 16 65536\n");
        assert_eq!(listing(&vec![0xFF; MOST]), "refused 1 0\n");
    }
}
