//! Reading left to right inside one part: numbers, names, sized parts, ascending lists.

use std::str;

use crate::answer::{Reason, Refusal};
use crate::number::{BITS, BITS_IN_A_BYTE, GOES_ON, GREATEST_FIFTH, LONGEST};

/// The unread rest of one part of what was lent.
///
/// It holds the lent bytes from their very start up to the end of the part. So no read can leave
/// the part, and every offset counts from the start of what was lent, however deep the part lies.
#[derive(Clone, Copy)]
pub(crate) struct Part<'a> {
    lent: &'a [u8],
    at: usize,
}

impl<'a> Part<'a> {
    /// All of what was lent.
    pub fn whole(lent: &'a [u8]) -> Self {
        Part { lent, at: 0 }
    }

    /// What was lent without a beginning of the given length; nothing where there is no more.
    pub fn after(lent: &'a [u8], beginning: usize) -> Self {
        Part {
            lent,
            at: beginning.min(lent.len()),
        }
    }

    /// Where the next byte is read.
    pub fn offset(&self) -> usize {
        self.at
    }

    /// The bytes not read yet.
    pub fn bytes(&self) -> &'a [u8] {
        &self.lent[self.at..]
    }

    /// One byte, or none at the end.
    pub fn byte(&mut self) -> Option<u8> {
        let byte = *self.lent.get(self.at)?;
        self.at += 1;
        Some(byte)
    }

    /// An unsigned 32-bit number.
    #[inline]
    pub fn number(&mut self) -> Result<u32, Refusal> {
        // Nearly all numbers in real payloads are one byte long.
        match self.lent.get(self.at) {
            Some(&byte) if byte < GOES_ON => {
                self.at += 1;
                Ok(u32::from(byte))
            }
            _ => self.long_number(),
        }
    }

    /// A number of any width. Its fifth byte, where there is one, is its last.
    fn long_number(&mut self) -> Result<u32, Refusal> {
        let mut value = 0;
        for (width, &byte) in (1..=LONGEST).zip(self.bytes()) {
            if width == LONGEST && byte > GREATEST_FIFTH {
                return Err(Reason::NumberTooLarge.at(self.at));
            }
            value |= u32::from(byte & BITS) << (BITS_IN_A_BYTE * (width - 1));
            if byte < GOES_ON {
                self.at += width;
                return Ok(value);
            }
        }
        Err(Reason::PastEnd.at(self.at))
    }

    /// A number and that many bytes, which are handed back unread.
    #[inline]
    pub fn sized(&mut self) -> Result<Part<'a>, Refusal> {
        let size_at = self.at;
        let size = self.number()? as usize;
        if size > self.lent.len() - self.at {
            return Err(Reason::PastEnd.at(size_at));
        }
        let start = self.at;
        self.at += size;
        Ok(Part {
            lent: &self.lent[..self.at],
            at: start,
        })
    }

    /// A sized part that is text.
    #[inline]
    pub fn name(&mut self) -> Result<Part<'a>, Refusal> {
        let text = self.sized()?;
        match str::from_utf8(text.bytes()) {
            Ok(_) => Ok(text),
            Err(_) => Err(Reason::NotUtf8.at(text.at)),
        }
    }

    /// A list whose elements each begin with a number above the one before. `rest_of` reads what
    /// follows it.
    ///
    /// The count is only counted down: nothing is reserved for elements that have not been seen.
    #[inline]
    pub fn ascending_list(
        &mut self,
        mut rest_of: impl FnMut(&mut Self, u32) -> Result<(), Refusal>,
    ) -> Result<(), Refusal> {
        let count = self.number()?;
        let mut least = 0;
        for _ in 0..count {
            let start = self.at;
            let number = self.number()?;
            if u64::from(number) < least {
                return Err(Reason::NotAscending.at(start));
            }
            least = u64::from(number) + 1;
            rest_of(self, number)?;
        }
        Ok(())
    }

    /// Refuses bytes left over once the contents are read.
    pub fn finish(&self) -> Result<(), Refusal> {
        if self.at == self.lent.len() {
            Ok(())
        } else {
            Err(Reason::LeftOver.at(self.at))
        }
    }
}

#[cfg(test)]
mod tests {
    use super::*;

    /// The number at the front and how many bytes it took.
    fn number(bytes: &[u8]) -> Result<(u32, usize), Refusal> {
        let mut part = Part::whole(bytes);
        part.number().map(|value| (value, part.offset()))
    }

    #[test]
    fn example_1_padding_is_read() {
        assert_eq!(number(&[0x80, 0x80, 0x80, 0x80, 0x00]), Ok((0, 5)));
    }

    #[test]
    fn example_2_the_greatest_number() {
        assert_eq!(number(&[0xFF, 0xFF, 0xFF, 0xFF, 0x0F]), Ok((u32::MAX, 5)));
    }

    #[test]
    fn example_3_a_fifth_byte_too_large() {
        let refusal = Reason::NumberTooLarge.at(0);
        assert_eq!(number(&[0xFF, 0xFF, 0xFF, 0xFF, 0x1F]), Err(refusal));
    }

    #[test]
    fn example_4_a_number_cut_short() {
        assert_eq!(number(&[0x80]), Err(Reason::PastEnd.at(0)));
    }

    #[test]
    fn every_width_is_read() {
        assert_eq!(number(&[]), Err(Reason::PastEnd.at(0)));
        assert_eq!(number(&[0x7F, 0x01]), Ok((0x7F, 1)));
        assert_eq!(number(&[0x80, 0x01]), Ok((0x80, 2)));
        assert_eq!(number(&[0xFF, 0xFF, 0x03]), Ok((0xFFFF, 3)));
        assert_eq!(number(&[0x80, 0x80, 0x80, 0x01]), Ok((1 << 21, 4)));
        assert_eq!(number(&[0x80, 0x80, 0x80, 0x80, 0x01]), Ok((1 << 28, 5)));
    }

    #[test]
    fn a_fifth_byte_with_its_high_bit_is_too_large() {
        let refusal = Reason::NumberTooLarge.at(0);
        assert_eq!(number(&[0x80, 0x80, 0x80, 0x80, 0x80, 0x00]), Err(refusal));
        assert_eq!(number(&[0x80, 0x80, 0x80, 0x80, 0x10]), Err(refusal));
    }

    #[test]
    fn offsets_of_an_inner_part_count_from_the_start() {
        let mut outer = Part::after(&[9, 9, 3, 1, 0xFF, 7, 5], 2);
        let mut inner = outer.sized().unwrap_or_else(|_| panic!("fits"));
        assert_eq!(outer.offset(), 6);
        assert_eq!((inner.offset(), inner.bytes()), (3, &[1, 0xFF, 7][..]));
        assert_eq!(inner.name().err(), Some(Reason::NotUtf8.at(4)));
        assert_eq!(inner.finish(), Err(Reason::LeftOver.at(5)));
    }

    #[test]
    fn a_beginning_longer_than_all_leaves_nothing() {
        let part = Part::after(&[1, 2], 8);
        assert_eq!((part.offset(), part.bytes()), (2, &[][..]));
    }
}
