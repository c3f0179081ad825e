//! Some bytes of something long, of which the others were left out.

use std::ops::Range;

/// The pieces that were kept, in their order and none beside another.
#[derive(Debug, Default)]
pub struct Sparse(Vec<Piece>);

#[derive(Debug)]
struct Piece {
    from: u64,
    bytes: Vec<u8>,
}

impl Piece {
    fn end(&self) -> u64 {
        self.from + self.bytes.len() as u64
    }
}

impl Sparse {
    /// Keeps the bytes at an offset, which is not before the end of what was kept last.
    pub fn keep(&mut self, at: u64, bytes: &[u8]) {
        match self.0.last_mut() {
            Some(last) if last.end() == at => last.bytes.extend(bytes),
            _ => self.0.push(Piece {
                from: at,
                bytes: bytes.to_vec(),
            }),
        }
    }

    /// The bytes of a range; none where some of them were left out.
    pub fn get(&self, range: Range<u64>) -> Option<&[u8]> {
        if range.is_empty() {
            return Some(&[]);
        }
        let behind = self.0.partition_point(|piece| piece.from <= range.start);
        let piece = self.0.get(behind.checked_sub(1)?)?;
        let within = |at: u64| usize::try_from(at - piece.from).ok();
        piece.bytes.get(within(range.start)?..within(range.end)?)
    }
}

#[cfg(test)]
mod tests {
    use super::*;

    #[test]
    fn what_was_kept_is_there_and_nothing_else() {
        let mut sparse = Sparse::default();
        sparse.keep(2, b"ab");
        sparse.keep(4, b"c");
        sparse.keep(u64::MAX - 3, b"xyz");
        assert_eq!(sparse.get(2..5), Some(&b"abc"[..]));
        assert_eq!(sparse.get(3..4), Some(&b"b"[..]));
        assert_eq!(sparse.get(u64::MAX - 2..u64::MAX), Some(&b"yz"[..]));
        for left_out in [0..1, 1..3, 4..6, 5..6, 4..u64::MAX] {
            assert_eq!(sparse.get(left_out.clone()), None, "{left_out:?}");
        }
        assert_eq!(sparse.get(9..9), Some(&[][..]));
        assert_eq!(Sparse::default().get(0..1), None);
    }
}
