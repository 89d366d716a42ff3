//! Checked reading of a lent message.
//!
//! A count taken from a message is widened to 64 bits before it is added or
//! multiplied, because 01 "Known bad readings" names the sum of 0xFFFFFFFF and
//! 20 in 32 bits.

#[derive(Clone, Copy, Debug)]
pub struct Cursor<'a> {
    rest: &'a [u8],
}

impl<'a> Cursor<'a> {
    pub fn over(bytes: &'a [u8]) -> Self {
        Cursor { rest: bytes }
    }

    pub fn left(&self) -> u64 {
        self.rest.len() as u64
    }

    /// `None` is always "running out of bytes", which 01 answers with 7.
    pub fn take(&mut self, count: u64) -> Option<&'a [u8]> {
        if count > self.left() {
            return None;
        }
        let (part, rest) = self.rest.split_at(count as usize);
        self.rest = rest;
        Some(part)
    }

    pub fn byte(&mut self) -> Option<u8> {
        self.take(1).map(|part| part[0])
    }

    pub fn half(&mut self) -> Option<u16> {
        self.take(2)
            .map(|part| u16::from_le_bytes([part[0], part[1]]))
    }

    pub fn word(&mut self) -> Option<u32> {
        self.take(4)
            .map(|part| u32::from_le_bytes([part[0], part[1], part[2], part[3]]))
    }

    pub fn long(&mut self) -> Option<u64> {
        let low = self.word()?;
        let high = self.word()?;
        Some(u64::from(high) << 32 | u64::from(low))
    }

    /// A size field and the bytes it counts.
    pub fn counted(&mut self) -> Option<&'a [u8]> {
        let count = self.word()?;
        self.take(u64::from(count))
    }

    /// `Some` only where nothing is left: sizes have to add up exactly.
    pub fn end(&self) -> Option<()> {
        self.rest.is_empty().then_some(())
    }
}

#[cfg(test)]
mod tests {
    use super::*;

    #[test]
    fn numbers_are_little_endian() {
        let mut cursor = Cursor::over(&[1, 2, 3, 4, 5, 6, 7, 8, 9, 10, 11, 12, 13, 14, 15]);
        assert_eq!(cursor.byte(), Some(1));
        assert_eq!(cursor.half(), Some(0x0302));
        assert_eq!(cursor.word(), Some(0x0706_0504));
        assert_eq!(cursor.long(), Some(0x0F0E_0D0C_0B0A_0908));
        assert_eq!(cursor.end(), Some(()));
    }

    #[test]
    fn running_out_takes_nothing() {
        let mut cursor = Cursor::over(&[1, 2, 3]);
        assert_eq!(cursor.word(), None);
        assert_eq!(cursor.take(u64::from(u32::MAX) + 20), None);
        assert_eq!(cursor.left(), 3);
        assert_eq!(cursor.end(), None);
    }
}
