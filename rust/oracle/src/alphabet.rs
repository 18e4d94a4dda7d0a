//! The URL-safe Base64 alphabet of RFC 4648: a character and its 6-bit value.
//!
//! 02 j: "Half of all 5s are `+`, `/` or `=` from the ordinary alphabet. The
//! lookup of b) should tell these three apart from other strangers, and every
//! caller should report them as number 19 where they would have given 5, at the
//! same place in the same order."

use crate::refusal::{CHARACTER, ORDINARY_BASE64};

/// The value of a character, or nothing for a character outside the alphabet.
/// In text a character is a byte (D6).
pub fn value(character: u8) -> Option<u8> {
    match character {
        b'A'..=b'Z' => Some(character - b'A'),
        b'a'..=b'z' => Some(character - b'a' + 26),
        b'0'..=b'9' => Some(character - b'0' + 52),
        b'-' => Some(62),
        b'_' => Some(63),
        _ => None,
    }
}

/// The number that a character outside the alphabet is refused with.
pub fn stranger(character: u8) -> u8 {
    match character {
        b'+' | b'/' | b'=' => ORDINARY_BASE64,
        _ => CHARACTER,
    }
}

/// The first character outside the alphabet: its index and its number. "the
/// first bad character is reported, of whichever kind".
pub fn first_stranger(characters: &[u8]) -> Option<(usize, u8)> {
    let index = characters.iter().position(|c| value(*c).is_none())?;
    Some((index, stranger(characters[index])))
}

/// The character of a sextet. Only the low six bits are looked at.
pub fn character(sextet: u8) -> u8 {
    match sextet & 63 {
        low @ 0..=25 => b'A' + low,
        low @ 26..=51 => b'a' + (low - 26),
        low @ 52..=61 => b'0' + (low - 52),
        62 => b'-',
        _ => b'_',
    }
}

#[cfg(test)]
mod tests {
    use super::*;

    #[test]
    fn the_values_of_01() {
        // 01: `A`-`Z` 0 to 25, `a`-`z` 26 to 51, `0`-`9` 52 to 61, `-` 62, `_` 63.
        let corners = [
            (b'A', 0),
            (b'Z', 25),
            (b'a', 26),
            (b'z', 51),
            (b'0', 52),
            (b'9', 61),
            (b'-', 62),
            (b'_', 63),
        ];
        for (letter, sextet) in corners {
            assert_eq!(value(letter), Some(sextet));
            assert_eq!(character(sextet), letter);
        }
    }

    #[test]
    fn sixty_four_characters_and_no_more() {
        assert_eq!((0..=255).filter(|b| value(*b).is_some()).count(), 64);
        for sextet in 0..64 {
            assert_eq!(value(character(sextet)), Some(sextet));
        }
    }

    #[test]
    fn three_strangers_are_of_the_ordinary_alphabet() {
        let outside = || (0..=255).filter(|b| value(*b).is_none());
        let ordinary: Vec<u8> = outside().filter(|b| stranger(*b) == 19).collect();
        assert_eq!(ordinary, *b"+/=");
        assert_eq!(outside().filter(|b| stranger(*b) == 5).count(), 189);
    }

    #[test]
    fn the_first_stranger_decides() {
        assert_eq!(first_stranger(b"MA!+"), Some((2, 5)));
        assert_eq!(first_stranger(b"MA+!"), Some((2, 19)));
        assert_eq!(first_stranger(b"/=+ "), Some((0, 19)));
        assert_eq!(first_stranger(b"MAAB"), None);
    }

    #[test]
    fn no_equals_sign_and_no_standard_base64() {
        for outside in [b'=', b'+', b'/', b'\n', b' ', b'.', 0, 0x80, 0xFF] {
            assert_eq!(value(outside), None);
        }
    }
}
