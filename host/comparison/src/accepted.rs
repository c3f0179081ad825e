//! Reading what was accepted, so that no read can fail.

/// What is left of an accepted payload, or of a part of one.
pub struct Accepted<'a>(pub &'a [u8]);

impl<'a> Accepted<'a> {
    /// The next subsection, by its id and its contents; none at the end.
    pub fn subsection(&mut self) -> Option<(u8, Accepted<'a>)> {
        if self.0.is_empty() {
            return None;
        }
        let id = self.bytes(1)[0];
        Some((id, Accepted(self.sized())))
    }

    fn bytes(&mut self, length: usize) -> &'a [u8] {
        let (taken, rest) = self.0.split_at(length);
        self.0 = rest;
        taken
    }

    /// The next number.
    pub fn number(&mut self) -> u32 {
        let mut value = 0;
        let mut shift = 0;
        loop {
            let byte = self.bytes(1)[0];
            value |= u32::from(byte & 0x7F) << shift;
            shift += 7;
            if byte < 0x80 {
                return value;
            }
        }
    }

    /// The next sized part.
    pub fn sized(&mut self) -> &'a [u8] {
        let length = self.number();
        self.bytes(length as usize)
    }
}
