//! Bytes as the format has them, in the fewest that it allows but for padded numbers.

const PREAMBLE: &[u8] = b"\0asm\x01\0\0\0";

/// How many bits of a number stand in each of its bytes.
const BITS_IN_A_BYTE: usize = 7;

/// The bit that says that the number goes on in the next byte.
const GOES_ON: u8 = 1 << BITS_IN_A_BYTE;

/// How many bytes a number may have.
const MOST_BYTES: usize = 5;

/// A number in its fewest bytes.
pub fn number(value: usize) -> Vec<u8> {
    let mut bytes = vec![];
    let mut rest = value;
    while rest >= usize::from(GOES_ON) {
        bytes.push(rest as u8 | GOES_ON);
        rest >>= BITS_IN_A_BYTE;
    }
    bytes.push(rest as u8);
    bytes
}

/// A number of at most 28 bits in the most bytes that it may have: the last one adds nothing.
pub fn padded(value: usize) -> Vec<u8> {
    let group = |place| (value >> (place * BITS_IN_A_BYTE)) as u8 | GOES_ON;
    let mut bytes: Vec<u8> = (0..MOST_BYTES - 1).map(group).collect();
    bytes.push(0);
    bytes
}

/// A part with its size before it.
pub fn sized(contents: &[u8]) -> Vec<u8> {
    [&number(contents.len()), contents].concat()
}

/// A subsection of a name payload.
pub fn subsection(id: u8, contents: &[u8]) -> Vec<u8> {
    [&[id], &sized(contents)[..]].concat()
}

/// A list of elements under the numbers 0, 1, 2 and so on.
pub fn list(elements: impl ExactSizeIterator<Item = Vec<u8>>) -> Vec<u8> {
    let mut bytes = number(elements.len());
    for (index, element) in elements.enumerate() {
        bytes.extend(number(index));
        bytes.extend(element);
    }
    bytes
}

/// A section of a module, which is laid out as a subsection is.
pub fn section(id: u8, contents: &[u8]) -> Vec<u8> {
    subsection(id, contents)
}

/// A custom section of a name.
pub fn custom_section(name: &str, payload: &[u8]) -> Vec<u8> {
    section(0, &[&sized(name.as_bytes()), payload].concat())
}

/// A module of these sections.
pub fn module(sections: &[u8]) -> Vec<u8> {
    [PREAMBLE, sections].concat()
}
