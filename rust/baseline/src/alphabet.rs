//! The alphabet: tables by character, by pairs of characters and by pairs of
//! sextets, and the search for the first character outside.

/// 01's order: the index of a character is its value.
const CHARACTERS: &[u8; 64] = b"ABCDEFGHIJKLMNOPQRSTUVWXYZabcdefghijklmnopqrstuvwxyz0123456789-_";

/// Stands in `VALUES` for a character outside the alphabet.
pub const STRANGER: u8 = 255;

/// The number of a character outside the alphabet: 19 for those of ordinary
/// Base64.
pub fn number(stranger: u8) -> u8 {
    match stranger {
        b'+' | b'/' | b'=' => 19,
        _ => 5,
    }
}

/// The value of every character.
pub static VALUES: [u8; 256] = values();

/// The characters by value.
pub static LETTERS: [u8; 64] = *CHARACTERS;

/// The twelve bits of two characters, by the pair read as a little-endian
/// number. 0 for a pair with a stranger in it.
pub static PAIRS: [u16; 65536] = pairs();

/// The two characters of twelve bits, the first one in the low byte.
pub static TWINS: [u16; 4096] = twins();

const fn values() -> [u8; 256] {
    let mut values = [STRANGER; 256];
    let mut sextet = 0;
    while sextet < 64 {
        values[CHARACTERS[sextet] as usize] = sextet as u8;
        sextet += 1;
    }
    values
}

const fn pairs() -> [u16; 65536] {
    let mut pairs = [0; 65536];
    let mut twelve = 0;
    while twelve < 4096 {
        let first = CHARACTERS[twelve >> 6] as usize;
        let second = CHARACTERS[twelve & 63] as usize;
        pairs[second << 8 | first] = twelve as u16;
        twelve += 1;
    }
    pairs
}

const fn twins() -> [u16; 4096] {
    let mut twins = [0; 4096];
    let mut twelve = 0;
    while twelve < 4096 {
        let first = CHARACTERS[twelve >> 6] as u16;
        let second = CHARACTERS[twelve & 63] as u16;
        twins[twelve] = second << 8 | first;
        twelve += 1;
    }
    twins
}

/// 0 exactly for the 64 characters. Written without branches and with the
/// operations that vectors of bytes have.
#[inline(always)]
fn strangeness(character: u8) -> u8 {
    let letter = (character & 0xDF).wrapping_sub(b'A').saturating_sub(25);
    let digit = character.wrapping_sub(b'0').saturating_sub(9);
    let dash = character ^ b'-';
    let low_line = character ^ b'_';
    letter.min(digit).min(dash.min(low_line))
}

/// How many characters are looked at together.
const BLOCK: usize = 64;

/// The place of the first character outside the alphabet, from `from` on.
pub fn first_stranger(text: &[u8], from: usize) -> Option<usize> {
    let rest = text.get(from..)?;
    let (blocks, tail) = rest.as_chunks::<BLOCK>();
    let strange = |block: &[u8; BLOCK]| block.iter().fold(0, |all, c| all | strangeness(*c)) != 0;
    let clean = blocks.iter().position(strange).unwrap_or(blocks.len());
    let near = blocks.get(clean).map_or(tail, |block| block);
    let within = near.iter().position(|c| strangeness(*c) != 0)?;
    Some(from + clean * BLOCK + within)
}

#[cfg(test)]
mod tests {
    use super::*;

    #[test]
    fn strangeness_is_what_the_table_says() {
        for character in 0..=255 {
            let known = VALUES[usize::from(character)] != STRANGER;
            assert_eq!(strangeness(character) == 0, known, "{character}");
        }
    }

    #[test]
    fn the_first_stranger_at_every_place() {
        for length in 0..200 {
            let mut text = vec![b'A'; length];
            assert_eq!(first_stranger(&text, 0), None);
            for place in 0..length {
                text[place] = b'=';
                assert_eq!(first_stranger(&text, 0), Some(place));
                assert_eq!(first_stranger(&text, place), Some(place));
                assert_eq!(first_stranger(&text, place + 1), None);
                text[place] = b'_';
            }
        }
    }
}
