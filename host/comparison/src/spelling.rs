//! Numbers, sized parts and sections as bytes: in the fewest, or padded.

/// What every module begins with.
pub const PREAMBLE: &[u8] = b"\0asm\x01\0\0\0";

/// The most bytes that a number takes.
pub const LONGEST_NUMBER: usize = 5;

/// How many bits of a number stand in each of its bytes.
const BITS_IN_A_BYTE: u32 = 7;

/// The bit that says that the number goes on in the next byte.
const GOES_ON: u8 = 1 << BITS_IN_A_BYTE;

/// Says of each number by how many bytes it is padded, given the fewest that it takes.
pub type Padding<'a> = &'a mut dyn FnMut(usize) -> usize;

/// The padding that leaves each number in its fewest bytes.
pub fn unpadded(_fewest: usize) -> usize {
    0
}

/// A number.
pub fn number(value: u32, padding: Padding<'_>) -> Vec<u8> {
    let mut bytes = vec![];
    let mut rest = value;
    while rest >= u32::from(GOES_ON) {
        bytes.push(rest as u8 | GOES_ON);
        rest >>= BITS_IN_A_BYTE;
    }
    bytes.push(rest as u8);
    for _ in 0..padding(bytes.len()) {
        *bytes.last_mut().expect("a number has bytes") |= GOES_ON;
        bytes.push(0);
    }
    bytes
}

/// A part with its size before it.
pub fn sized(contents: &[u8], padding: Padding<'_>) -> Vec<u8> {
    let mut bytes = number(contents.len() as u32, padding);
    bytes.extend(contents);
    bytes
}

/// A section.
pub fn section(id: u8, contents: &[u8], padding: Padding<'_>) -> Vec<u8> {
    let mut bytes = vec![id];
    bytes.extend(sized(contents, padding));
    bytes
}

/// A custom section of a name.
pub fn custom(name: &[u8], payload: &[u8], padding: Padding<'_>) -> Vec<u8> {
    let mut contents = sized(name, padding);
    contents.extend(payload);
    section(0, &contents, padding)
}

/// Every spelling in which one number is padded, and every other is in its fewest bytes.
pub fn with_one_padded(spelled: impl Fn(Padding<'_>) -> Vec<u8>) -> Vec<Vec<u8>> {
    let mut numbers = vec![];
    spelled(&mut |fewest| {
        numbers.push(fewest);
        0
    });
    let mut all = vec![];
    for (place, fewest) in numbers.into_iter().enumerate() {
        for more in 1..=LONGEST_NUMBER - fewest {
            all.push(spelled(&mut padded_at(place, more)));
        }
    }
    all
}

/// Pads the number at one place, counted from 0 as they are spelled.
fn padded_at(place: usize, more: usize) -> impl FnMut(usize) -> usize {
    let mut places = 0..;
    move |_| match places.next() == Some(place) {
        true => more,
        false => 0,
    }
}
