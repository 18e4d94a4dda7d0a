//! An item before it is written: a tree of groups and primitives.

use crate::form::{characters, Form};
use crate::table::MOST_SMALL;

#[derive(Clone, Debug, PartialEq, Eq)]
pub enum Item {
    /// A primitive or an indexed item as it stands in text.
    Primitive(Vec<u8>),
    /// A genus/version: the six characters behind `-_`.
    Genus([u8; 6]),
    /// A group of items. `large` is the large header whatever it counts; else
    /// it is the one that the count asks for.
    Group {
        letter: u8,
        large: bool,
        body: Vec<Item>,
    },
}

impl Item {
    /// Adds the item to a text.
    pub fn write(&self, text: &mut Vec<u8>) {
        match self {
            Item::Primitive(characters) => text.extend(characters),
            Item::Genus(version) => {
                text.extend(b"-_");
                text.extend(version);
            }
            Item::Group {
                letter,
                large,
                body,
            } => write_group(*letter, *large, &stream(body), text),
        }
    }
}

/// Header and body; the large header where the small one cannot count so far.
fn write_group(letter: u8, large: bool, body: &[u8], text: &mut Vec<u8>) {
    let units = body.len() / 4;
    text.extend(group_header(letter, large || units > MOST_SMALL, units));
    text.extend(body);
}

/// `-X##` or `--X#####`.
pub fn group_header(letter: u8, large: bool, units: usize) -> Vec<u8> {
    let digits = characters(units as u32);
    if large {
        let first = characters((units >> 24) as u32)[3];
        return [b"--", &[letter, first][..], &digits].concat();
    }
    vec![b'-', letter, digits[2], digits[3]]
}

/// The text of items one behind the other.
pub fn stream(items: &[Item]) -> Vec<u8> {
    let mut text = Vec::new();
    items.iter().for_each(|item| item.write(&mut text));
    text
}

/// The same in either form.
pub fn stream_in(items: &[Item], form: Form) -> Vec<u8> {
    form.of_text(&stream(items))
}

#[cfg(test)]
mod tests {
    use super::*;

    #[test]
    fn groups_of_01s_deck() {
        let number = Item::Primitive(b"MAAB".to_vec());
        let group = |large| Item::Group {
            letter: b'A',
            large,
            body: vec![number.clone()],
        };
        assert_eq!(stream(&[group(false), number.clone()]), b"-AABMAABMAAB");
        assert_eq!(stream(&[group(true)]), b"--AAAAABMAAB");
        assert_eq!(group_header(b'c', true, 0x3FFF_FFFF), b"--c_____");
    }

    #[test]
    fn a_long_body_takes_the_large_header() {
        for (units, head) in [(4095, &b"-A__1AAK"[..]), (4096, b"--AAABAA")] {
            let body = b"1AAK".repeat(units);
            let mut text = Vec::new();
            write_group(b'A', false, &body, &mut text);
            assert!(text.starts_with(head));
        }
    }
}
