//! The two forms of a stream, and how sextets and bits are read out of each.

use crate::alphabet;
use crate::refusal::{Refusal, TOO_LONG};

/// Text (T) or binary (B). "B has the same rules, read on its sextets."
#[derive(Clone, Copy, Debug, PartialEq, Eq)]
pub enum Form {
    Text,
    Binary,
}

impl Form {
    /// The size of a unit: 4 characters or 3 bytes.
    pub fn unit(self) -> usize {
        match self {
            Form::Text => 4,
            Form::Binary => 3,
        }
    }

    /// The longest stream that is read.
    pub fn limit(self) -> usize {
        match self {
            Form::Text => 4_194_304,
            Form::Binary => 3_145_728,
        }
    }

    /// 1: the stream is longer than the limit. A stream of just the limit is
    /// read (D23).
    pub fn check_length(self, stream: &[u8]) -> Result<(), Refusal> {
        if stream.len() > self.limit() {
            return Err(Refusal::new(TOO_LONG, 0));
        }
        Ok(())
    }

    /// 5 or 19: the first character outside the alphabet in `from..to`. Binary
    /// has no characters, so nothing there can be outside.
    pub fn check_alphabet(self, stream: &[u8], from: usize, to: usize) -> Result<(), Refusal> {
        if self == Form::Binary {
            return Ok(());
        }
        let part = stream.get(from..to).unwrap_or(&[]);
        match alphabet::first_stranger(part) {
            Some((index, number)) => Err(Refusal::new(number, from + index)),
            None => Ok(()),
        }
    }

    /// Sextet `index` of the item that starts at `offset`; nothing if it lies
    /// behind the stream or is no character of the alphabet.
    pub fn sextet(self, stream: &[u8], offset: usize, index: usize) -> Option<u8> {
        match self {
            Form::Text => alphabet::value(*stream.get(offset + index)?),
            Form::Binary => {
                let bit = 6 * index;
                let high = *stream.get(offset + bit / 8)?;
                // A missing second byte is never asked for a bit: the sextet
                // that ends a unit ends with its byte.
                let low = *stream.get(offset + bit / 8 + 1).unwrap_or(&0);
                let pair = u16::from_be_bytes([high, low]);
                Some((pair >> (10 - bit % 8)) as u8 & 63)
            }
        }
    }

    /// The same sextet as its character.
    pub fn character(self, stream: &[u8], offset: usize, index: usize) -> Option<u8> {
        self.sextet(stream, offset, index).map(alphabet::character)
    }

    /// Are the `count` bits from bit `from` of the item at `offset` all zero?
    pub fn zero_bits(self, stream: &[u8], offset: usize, from: usize, count: usize) -> bool {
        (from..from + count).all(|bit| match self.sextet(stream, offset, bit / 6) {
            Some(sextet) => (sextet >> (5 - bit % 6)) & 1 == 0,
            None => false,
        })
    }
}

#[cfg(test)]
mod tests {
    use super::*;

    #[test]
    fn units_and_limits() {
        assert_eq!((Form::Text.unit(), Form::Binary.unit()), (4, 3));
        // The two limits are the same number of units: 1,048,576.
        assert_eq!(Form::Text.limit() / 4, 1 << 20);
        assert_eq!(Form::Binary.limit() / 3, 1 << 20);
    }

    #[test]
    fn the_limit_itself_is_read() {
        let text = vec![b'A'; 4_194_305];
        assert_eq!(Form::Text.check_length(&text[..4_194_304]), Ok(()));
        assert_eq!(Form::Text.check_length(&text), Err(Refusal::new(1, 0)));
        assert_eq!(Form::Binary.check_length(&text[..3_145_728]), Ok(()));
        let longer = &text[..3_145_729];
        assert_eq!(Form::Binary.check_length(longer), Err(Refusal::new(1, 0)));
    }

    #[test]
    fn sextets_of_1aam_in_both_forms() {
        // 01's deck: `1AAM` in B is D4 00 0C. The values are 53, 0, 0, 12.
        let binary = [0xFF, 0xD4, 0x00, 0x0C];
        for (index, sextet) in [53, 0, 0, 12].into_iter().enumerate() {
            assert_eq!(Form::Text.sextet(b"?1AAM", 1, index), Some(sextet));
            assert_eq!(Form::Binary.sextet(&binary, 1, index), Some(sextet));
        }
        assert_eq!(Form::Text.sextet(b"?1AAM", 1, 4), None);
        assert_eq!(Form::Binary.sextet(&binary, 1, 4), None);
    }

    #[test]
    fn sextets_behind_the_first_unit() {
        // Eight sextets 0..8: 00 10 83 10 51 87, the start of RFC 4648's own
        // alphabet row.
        let binary = [0x00, 0x10, 0x83, 0x10, 0x51, 0x87];
        for index in 0..8 {
            assert_eq!(Form::Binary.sextet(&binary, 0, index), Some(index as u8));
            assert_eq!(Form::Text.sextet(b"ABCDEFGH", 0, index), Some(index as u8));
        }
    }

    #[test]
    fn zero_bits_are_counted_from_the_most_significant() {
        // `MQAA`: Q is 16 = 010000, so of the two pad bits the second is set.
        assert!(Form::Text.zero_bits(b"MQAA", 0, 6, 1));
        assert!(!Form::Text.zero_bits(b"MQAA", 0, 6, 2));
        assert!(!Form::Binary.zero_bits(&[0x31, 0x00, 0x00], 0, 6, 2));
        assert!(Form::Binary.zero_bits(&[0x30, 0xFF, 0xFF], 0, 6, 2));
    }

    #[test]
    fn the_first_bad_character_is_the_place() {
        let refused = Form::Text.check_alphabet(b"AA!A=", 0, 5);
        assert_eq!(refused, Err(Refusal::new(5, 2)));
        assert_eq!(Form::Text.check_alphabet(b"AA!A=", 3, 4), Ok(()));
        let refused = Form::Text.check_alphabet(b"AA!A=", 3, 5);
        assert_eq!(refused, Err(Refusal::new(19, 4)));
        assert_eq!(Form::Binary.check_alphabet(b"!!!", 0, 3), Ok(()));
    }
}
