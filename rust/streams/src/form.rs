//! The two forms, the alphabet, and units from one form to the other.

/// Text (T) or binary (B).
#[derive(Clone, Copy, Debug, PartialEq, Eq)]
pub enum Form {
    Text,
    Binary,
}

pub const FORMS: [Form; 2] = [Form::Text, Form::Binary];

/// 01: `A`-`Z` 0 to 25, `a`-`z` 26 to 51, `0`-`9` 52 to 61, `-` 62, `_` 63.
pub const ALPHABET: &[u8; 64] = b"ABCDEFGHIJKLMNOPQRSTUVWXYZabcdefghijklmnopqrstuvwxyz0123456789-_";

impl Form {
    /// Characters or bytes of a unit.
    pub fn unit(self) -> usize {
        match self {
            Form::Text => 4,
            Form::Binary => 3,
        }
    }

    /// Text of whole units in this form.
    pub fn of_text(self, text: &[u8]) -> Vec<u8> {
        match self {
            Form::Text => text.to_vec(),
            Form::Binary => to_binary(text),
        }
    }

    /// The 24 bits of the unit at an offset; characters outside the alphabet
    /// and bytes behind the end are read as 0.
    pub fn bits(self, stream: &[u8], offset: usize) -> u32 {
        let at = |index: usize| stream.get(offset + index).copied().unwrap_or(0);
        match self {
            Form::Text => (0..4).fold(0, |bits, i| bits << 6 | u32::from(value(at(i)))),
            Form::Binary => (0..3).fold(0, |bits, i| bits << 8 | u32::from(at(i))),
        }
    }

    /// Puts 24 bits there, as far as the stream goes.
    pub fn put(self, stream: &mut [u8], offset: usize, bits: u32) {
        let unit = self.of_text(&characters(bits));
        let part = stream.iter_mut().skip(offset);
        part.zip(unit).for_each(|(old, new)| *old = new);
    }
}

/// The four characters of 24 bits.
pub fn characters(bits: u32) -> [u8; 4] {
    [18, 12, 6, 0].map(|shift| ALPHABET[(bits >> shift) as usize & 63])
}

/// The value of a character, 0 for one outside the alphabet.
pub fn value(character: u8) -> u8 {
    let place = ALPHABET.iter().position(|known| *known == character);
    place.unwrap_or(0) as u8
}

/// The bytes of the whole units of a text in the alphabet.
pub fn to_binary(text: &[u8]) -> Vec<u8> {
    let mut values = [0; 256];
    for (sextet, character) in ALPHABET.iter().enumerate() {
        values[usize::from(*character)] = sextet as u32;
    }
    let units = text.chunks_exact(4);
    let bits = units.map(|unit| {
        let sextets = unit.iter().map(|c| values[usize::from(*c)]);
        sextets.fold(0, |bits, sextet| bits << 6 | sextet)
    });
    bits.flat_map(|bits: u32| bits.to_be_bytes().into_iter().skip(1))
        .collect()
}

#[cfg(test)]
mod tests {
    use super::*;

    #[test]
    fn units_in_both_forms() {
        // 01's deck: `1AAM` in B is D4 00 0C.
        assert_eq!(to_binary(b"1AAM"), [0xD4, 0x00, 0x0C]);
        assert_eq!(Form::Text.bits(b"?1AAM", 1), 0xD4000C);
        assert_eq!(Form::Binary.bits(&[0xD4, 0x00, 0x0C], 0), 0xD4000C);
        assert_eq!(characters(0xD4000C), *b"1AAM");
        let mut text = *b"MAABMAAB";
        Form::Text.put(&mut text, 4, 0xD4000C);
        assert_eq!(&text, b"MAAB1AAM");
    }
}
