//! Every byte in every place where a character is turned into its value, by
//! whichever way the library goes there: 64 have a value, 3 are of ordinary
//! Base64, 189 are neither.

use crate::{demand, judges, writes};
use streams::Form;

/// 01: `A`-`Z` 0 to 25, `a`-`z` 26 to 51, `0`-`9` 52 to 61, `-` 62, `_` 63.
const ALPHABET: &[u8; 64] = b"ABCDEFGHIJKLMNOPQRSTUVWXYZabcdefghijklmnopqrstuvwxyz0123456789-_";

/// What a text of `A`s with one other byte is in binary.
fn told(byte: u8, place: usize, size: usize) -> Result<Vec<u8>, (u8, usize)> {
    let value = ALPHABET.iter().position(|known| *known == byte);
    let number = if b"+/=".contains(&byte) { 19 } else { 5 };
    let value = value.ok_or((number, place))? << (6 * (3 - place % 4));
    let mut binary = vec![0; size];
    let unit = place / 4 * 3;
    binary[unit..unit + 3].copy_from_slice(&value.to_be_bytes()[5..]);
    Ok(binary)
}

/// By units, by blocks of 64 characters and by pairs: lengths around each, the
/// byte in the first and the last two units.
#[test]
fn sixty_four_bytes_have_a_value() {
    for units in [1, 2, 15, 16, 17, 33, 2_047, 2_048, 2_049, 2_051] {
        let mut text = b"AAAA".repeat(units);
        let last = text.len().saturating_sub(8)..text.len();
        for place in (0..4).chain(last) {
            for byte in 0..=255 {
                text[place] = byte;
                let mut out = vec![0; 3 * units];
                let answer = judges::by_proved(proved::to_binary(&text, &mut out));
                let told = told(byte, place, out.len());
                assert_eq!(answer.map(|_| out), told, "{byte} at {place} of {units}");
            }
            text[place] = b'A';
        }
    }
}

/// Headers of one and two units, values, tags, and what groups hold, told by a
/// first unit or not.
const TEXTS: [&str; 15] = [
    "MAABMAAB",
    "EAAAAAAAAAAAAAAAAAAAAAAAAAAAAAAAAAAAAAAAAAAB",
    "0HAAAAAB",
    "1AAFABCD",
    "0L_ABCDE",
    "VABh",
    "5BABAGhp",
    "7AABAAABAGhp",
    "-AABMAAB-JABMAAB",
    "-CAC-_AAACAA",
    "--AAAAABMAAB",
    "-KACAAAAAAAA",
    "4AABA-ab",
    "5AABAA-a",
    "6AABAAA-",
];

/// Report, conversion, reads and walk.
#[test]
fn every_byte_in_every_place() {
    for text in TEXTS {
        for place in 0..text.len() {
            for byte in 0..=255 {
                let mut made = text.as_bytes().to_vec();
                made[place] = byte;
                demand(&made, Form::Text, |s| judges::alike(s, Form::Text));
            }
        }
    }
}

/// Given to a writer; its letter is in `every_name_of_a_code`.
#[test]
fn every_byte_for_a_tag_character() {
    for place in 0..11 {
        for byte in 0..=255 {
            let mut tag = *b"ABCDEFGHIJK";
            tag[place] = byte;
            let item = proved::Primitive {
                chars: 1,
                letter: b'Z',
                tag,
                tags: 11,
                raw: &[],
            };
            writes::alike(&item).unwrap();
        }
    }
}

/// And of a text, whose first one must not be `A`.
#[test]
fn every_byte_for_a_text_character() {
    for place in 0..8 {
        for byte in 0..=255 {
            let mut text = *b"-a-label";
            text[place] = byte;
            for length in place + 1..=text.len() {
                let item = proved::Primitive {
                    chars: 5,
                    letter: b'A',
                    tag: [0; 11],
                    tags: 0,
                    raw: &text[..length],
                };
                writes::alike(&item).unwrap();
            }
        }
    }
}
