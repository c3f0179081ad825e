//! The bytes around a place, as a small hex dump with a marker under that place.

use std::ops::Range;

/// How many bytes a row has.
const ROW: usize = 16;

/// By how much the next row is further on.
const STEP: u64 = ROW as u64;

/// How wide a byte is in a row: a space and two digits.
const CELL: usize = 3;

/// What stands under the place, at the end of its row. No other row ends so.
pub const MARKER: &str = "^^";

/// Where the row with the place and the rows right before and after it lie in something of a length;
/// none where the place is behind the end.
pub fn around(length: u64, place: u64) -> Option<Range<u64>> {
    if place > length {
        return None;
    }
    let row = place - place % STEP;
    let end = row.saturating_add(2 * STEP).min(length);
    Some(row.saturating_sub(STEP)..end)
}

/// The rows of the dump: the bytes around a place, of which the first stands at an offset. The marker
/// follows the row that holds the place; a place at the very end is marked behind the last byte.
pub fn rows(from: u64, bytes: &[u8], place: u64) -> Vec<String> {
    let mut rows = Vec::new();
    let mut start = from;
    let mut rest = bytes;
    // One more step than there are rows, for a place at the end that begins a row of its own.
    loop {
        let (now, later) = rest.split_at(rest.len().min(ROW));
        let holds_place = (start..start.saturating_add(STEP)).contains(&place);
        if !now.is_empty() || holds_place {
            rows.push(row(start, now));
        }
        if holds_place {
            rows.push(marker(start, place));
        }
        if now.is_empty() {
            return rows;
        }
        rest = later;
        start += STEP;
    }
}

fn row(start: u64, bytes: &[u8]) -> String {
    let hex: String = bytes.iter().map(|byte| format!(" {byte:02X}")).collect();
    let text: String = bytes.iter().map(|byte| printable(*byte)).collect();
    format!(
        "{} {hex:<width$}  |{text}|",
        offset(start),
        width = CELL * ROW
    )
}

fn offset(start: u64) -> String {
    format!("{start:08X}")
}

fn printable(byte: u8) -> char {
    if byte.is_ascii_graphic() || byte == b' ' {
        byte.into()
    } else {
        '.'
    }
}

fn marker(start: u64, place: u64) -> String {
    // As wide as what stands before the place in its row: the offset, the bytes before, and two
    // spaces.
    let before = offset(start).len() + CELL * (place - start) as usize + "  ".len();
    format!("{:before$}{MARKER}", "")
}

#[cfg(test)]
mod tests {
    use super::*;

    /// The rows around a place.
    fn dumped(bytes: &[u8], place: u64) -> Vec<String> {
        let shown = around(bytes.len() as u64, place).expect("it is not behind the end");
        let [start, end] = [shown.start, shown.end].map(|at| at as usize);
        rows(shown.start, &bytes[start..end], place)
    }

    #[test]
    fn the_marker_is_under_the_place() {
        let bytes: Vec<u8> = (0x30..0x70).collect();
        assert_eq!(
            dumped(&bytes, 0x12),
            [
                "00000000  30 31 32 33 34 35 36 37 38 39 3A 3B 3C 3D 3E 3F  |0123456789:;<=>?|",
                "00000010  40 41 42 43 44 45 46 47 48 49 4A 4B 4C 4D 4E 4F  |@ABCDEFGHIJKLMNO|",
                "                ^^",
                "00000020  50 51 52 53 54 55 56 57 58 59 5A 5B 5C 5D 5E 5F  |PQRSTUVWXYZ[\\]^_|",
            ]
        );
    }

    #[test]
    fn the_end_is_marked_too() {
        let empty = ["00000000                                                   ||"];
        assert_eq!(dumped(&[], 0)[..1], empty);
        assert_eq!(dumped(&[], 0)[1], "          ^^");
        let full_row = dumped(&[0; 16], 16);
        assert_eq!(full_row.len(), 3);
        assert!(full_row[1].starts_with("00000010"));
        assert_eq!(full_row[2], "          ^^");
        assert_eq!(dumped(&[0; 3], 3)[1], "                   ^^");
    }

    #[test]
    fn a_place_far_behind_the_start_is_marked() {
        let place = 0x1_0000_0012;
        assert_eq!(around(u64::MAX, place), Some(0x1_0000_0000..0x1_0000_0030));
        let rows = rows(0x1_0000_0000, &[b'a'; 0x30], place);
        assert!(rows[1].starts_with("100000010  61 61 61"), "{}", rows[1]);
        assert_eq!(rows[2], "                 ^^");
        assert_eq!(around(u64::MAX, u64::MAX), Some(u64::MAX - 31..u64::MAX));
    }

    #[test]
    fn a_place_behind_the_end_is_not_shown() {
        assert_eq!(around(3, 4), None);
        assert_eq!(around(3, u64::MAX), None);
    }
}
