//! Bits taken and laid down most significant first.

/// A reading place in a byte string; each field taken moves it on.
pub struct BitReader<'a> {
    bytes: &'a [u8],
    at: usize,
}

impl<'a> BitReader<'a> {
    pub fn new(bytes: &'a [u8]) -> Self {
        BitReader { bytes, at: 0 }
    }

    /// The next field of 1 to 64 bits; none, and the place stays, if it isn't wholly there.
    pub fn take(&mut self, width: u32) -> Option<u64> {
        let end = self.at + width as usize;
        if end > self.bytes.len() * 8 {
            return None;
        }
        let (first, last) = (self.at / 8, end.div_ceil(8));
        let window = self.bytes[first..last].iter().fold(0u128, |window, &byte| window << 8 | u128::from(byte));
        self.at = end;
        let value = (window >> (last * 8 - end)) & ((1 << width) - 1);
        Some(value as u64)
    }

    /// Moves to the next byte's start; false if a bit passed over is 1.
    pub fn finish_byte(&mut self) -> bool {
        let rest = (8 - self.at % 8) % 8;
        rest == 0 || self.take(rest as u32) == Some(0)
    }

    /// The number of the byte where the next bit stands.
    pub fn byte(&self) -> usize {
        self.at / 8
    }

    pub fn is_at_end(&self) -> bool {
        self.at == self.bytes.len() * 8
    }
}

/// A string of bits. Its order is the one that the normal form sorts by: "by their bits".
#[derive(Clone, Debug, Default, PartialEq, Eq, PartialOrd, Ord)]
pub struct BitString(Vec<bool>);

impl BitString {
    /// Lays down a field of 1 to 64 bits.
    pub fn put(&mut self, width: u32, value: u64) {
        self.0.extend((0..width).rev().map(|bit| value >> bit & 1 == 1));
    }

    pub fn append(&mut self, other: &BitString) {
        self.0.extend_from_slice(&other.0);
    }

    pub fn len(&self) -> usize {
        self.0.len()
    }

    pub fn is_empty(&self) -> bool {
        self.0.is_empty()
    }

    /// The bytes, zero bits filling the last one.
    pub fn into_bytes(self) -> Vec<u8> {
        let byte = |bits: &[bool]| bits.iter().enumerate().fold(0, |byte, (n, &bit)| byte | u8::from(bit) << (7 - n));
        self.0.chunks(8).map(byte).collect()
    }
}

#[cfg(test)]
mod tests {
    use super::*;

    #[test]
    fn what_was_laid_down_is_taken_again() {
        let fields = [(4, 1), (5, 16), (64, u64::MAX - 5), (1, 1), (16, 0x8001), (64, 1 << 63), (3, 5)];
        let mut laid = BitString::default();
        for (width, value) in fields {
            laid.put(width, value);
        }
        let bits = laid.len();
        let bytes = laid.into_bytes();
        assert_eq!(bytes.len(), bits.div_ceil(8));
        let mut reader = BitReader::new(&bytes);
        for (width, value) in fields {
            assert_eq!(reader.take(width), Some(value));
        }
        assert!(reader.finish_byte() && reader.is_at_end());
        assert_eq!(reader.take(1), None);
    }

    #[test]
    fn the_most_significant_bit_comes_first() {
        let mut reader = BitReader::new(&[0b1010_0000, 0b0000_0001]);
        assert_eq!((reader.take(1), reader.take(2), reader.take(5)), (Some(1), Some(1), Some(0)));
        assert_eq!(reader.take(9), None);
        assert_eq!(reader.take(8), Some(1));
    }
}
