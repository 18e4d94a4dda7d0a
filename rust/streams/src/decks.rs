//! The long text decks that are timed. Each fills a size as far as whole
//! top-level items go.

use crate::form::{characters, ALPHABET};
use crate::generate::{any_item, fixed, indexed, nested, TOP};
use crate::item::{stream, Item};
use crate::random::Random;
use crate::table::{FIXED, INDEXED, TEXT};

/// 44-character digests `E` with any value.
pub fn digests(random: &mut Random, size: usize) -> Vec<u8> {
    let digest = FIXED[4];
    assert_eq!((digest.0, digest.1), ("E", 44));
    fill(size, || fixed(random, digest))
}

/// Small groups nested ten deep around one short number, 44 characters each.
pub fn nests(random: &mut Random, size: usize) -> Vec<u8> {
    let number = FIXED[12];
    assert_eq!((number.0, number.1), ("M", 4));
    fill(size, || {
        let core = vec![fixed(random, number)];
        nested(b"JACDI", 10, core).remove(0)
    })
}

/// All codes alike but for the large ones, which only long items have; groups
/// three deep.
pub fn all_codes(random: &mut Random, size: usize) -> Vec<u8> {
    fill(size, || any_item(random, TOP, 3))
}

/// Labels and locations: texts of type `A` of 1 to 22 characters, as 001's table
/// of paths has them, and so of all small selectors.
pub fn labels(random: &mut Random, size: usize) -> Vec<u8> {
    fill(size, || label(random, TEXT))
}

/// The same values as bytes of type `B`: from one seed all sizes, selectors and
/// characters are those of `labels`.
pub fn small_bytes(random: &mut Random, size: usize) -> Vec<u8> {
    fill(size, || label(random, b'B'))
}

/// Groups `-K` of one to four indexed signatures of Ed25519, 88 characters each,
/// their indexes in turn.
pub fn signatures(random: &mut Random, size: usize) -> Vec<u8> {
    fill(size, || signed(random, b'K'))
}

/// What stands behind a key event log's messages: a genus/version, then groups
/// `-C` of controllers' and witnesses' signatures, receipt couples, replay
/// couples and seal source couples, as 003 has these groups.
pub fn attachments(random: &mut Random, size: usize) -> Vec<u8> {
    let mut front = Some(Item::Genus(*b"AAACAA"));
    fill(size, || front.take().unwrap_or_else(|| attached(random)))
}

/// Signatures of controllers and a first seen replay couple always, the rest
/// as often as not.
fn attached(random: &mut Random) -> Item {
    let mut body = vec![signed(random, b'K')];
    if random.once_in(2) {
        body.push(signed(random, b'L'));
    }
    if random.once_in(2) {
        body.push(couples(random, b'M', ["B", "0B"]));
    }
    body.push(couples(random, b'O', ["0A", "1AAG"]));
    if random.once_in(2) {
        body.push(couples(random, b'S', ["0A", "E"]));
    }
    group(b'C', body)
}

/// One to four indexed signatures of Ed25519, their indexes in turn.
fn signed(random: &mut Random, letter: u8) -> Item {
    let row = INDEXED[0];
    assert_eq!((row.code, row.full), ("A", 88));
    let signature = |place: u8| match indexed(random, row) {
        Item::Primitive(mut text) => {
            text[1] = b'A' + place;
            Item::Primitive(text)
        }
        other => other,
    };
    let mut body: Vec<Item> = (0..4).map(signature).collect();
    body.truncate(1 + random.below(4));
    group(letter, body)
}

/// One or two couples of fixed codes.
fn couples(random: &mut Random, letter: u8, codes: [&str; 2]) -> Item {
    let couple = codes.map(|code| {
        *FIXED
            .iter()
            .find(|row| row.0 == code)
            .expect("a fixed code")
    });
    let many = 1 + random.below(2);
    let body = (0..many).flat_map(|_| couple);
    group(letter, body.map(|row| fixed(random, row)).collect())
}

fn group(letter: u8, body: Vec<Item>) -> Item {
    Item::Group {
        letter,
        large: false,
        body,
    }
}

fn label(random: &mut Random, letter: u8) -> Item {
    let length = 1 + random.below(22);
    let mut text = random.characters(length);
    text[0] = *random.pick(&ALPHABET[1..]);
    let front = (4 - text.len() % 4) % 4;
    let digits = characters((text.len() + front) as u32 / 4);
    let selector = b'4' + front.saturating_sub(1) as u8;
    let head = [selector, letter, digits[2], digits[3]];
    Item::Primitive([&head[..], &b"AAA"[..front], &text].concat())
}

fn fill(size: usize, mut item: impl FnMut() -> Item) -> Vec<u8> {
    let mut text = Vec::with_capacity(size);
    loop {
        let next = stream(&[item()]);
        if text.len() + next.len() > size {
            return text;
        }
        text.extend(next);
    }
}

#[cfg(test)]
mod tests {
    use super::*;

    #[test]
    fn decks_fill_their_size() {
        let mut random = Random::new(3);
        assert_eq!(digests(&mut random, 1000).len(), 968);
        let deck = nests(&mut random, 1000);
        assert_eq!(deck.len(), 968);
        assert!(deck.starts_with(b"-JAK-AAJ-CAI-DAH-IAG-JAF-AAE-CAD-DAC-IABM"));
        assert!(all_codes(&mut random, 100_000).len() > 90_000);
    }

    #[test]
    fn signatures_come_in_groups_of_one_to_four() {
        let deck = signatures(&mut Random::new(3), 20_000);
        let (mut at, mut sizes) = (0, Vec::new());
        while at < deck.len() {
            assert_eq!(&deck[at..at + 2], b"-K");
            let digits = &deck[at + 2..at + 4];
            let units = [(b"AW", 22), (b"As", 44), (b"BC", 66), (b"BY", 88)];
            let known = units.iter().find(|(known, _)| *known == digits);
            let (_, units) = known.expect("one to four signatures");
            assert_eq!(&deck[at + 4..at + 6], b"AA");
            sizes.push(*units);
            at += 4 + 4 * units;
        }
        assert_eq!(at, deck.len());
        sizes.sort();
        sizes.dedup();
        assert_eq!(sizes, [22, 44, 66, 88]);
    }

    #[test]
    fn attachments_hold_each_kind_of_group() {
        let deck = attachments(&mut Random::new(3), 20_000);
        assert!(deck.starts_with(b"-_AAACAA-C"));
        let units = |at: usize| {
            let digit = |c: &u8| ALPHABET.iter().position(|known| known == c).unwrap();
            64 * digit(&deck[at + 2]) + digit(&deck[at + 3])
        };
        let (mut at, mut letters) = (8, Vec::new());
        while at < deck.len() {
            assert_eq!(&deck[at..at + 2], b"-C");
            let end = at + 4 + 4 * units(at);
            at += 4;
            while at < end {
                letters.push(deck[at + 1]);
                at += 4 + 4 * units(at);
            }
            assert_eq!(at, end);
        }
        letters.sort();
        letters.dedup();
        assert_eq!(letters, b"KLMOS");
    }

    #[test]
    fn labels_and_bytes_differ_in_their_type_alone() {
        let made = [labels, small_bytes].map(|make| make(&mut Random::new(3), 10_000));
        let [labels, bytes] = &made;
        assert_eq!(labels.len(), bytes.len());
        let (mut at, mut selectors) = (0, Vec::new());
        while at < labels.len() {
            assert_eq!((labels[at + 1], bytes[at + 1]), (b'A', b'B'));
            assert_eq!(labels[at + 2..at + 8], bytes[at + 2..at + 8]);
            selectors.push(labels[at]);
            at += 4 * (1 + usize::from(labels[at + 3] - b'A'));
        }
        assert_eq!(at, labels.len());
        selectors.sort();
        selectors.dedup();
        assert_eq!(selectors, b"456");
    }
}
