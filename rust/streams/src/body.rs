//! Bodies to put a group around: such that a group takes, and such that it
//! refuses for each reason, at its border.

use crate::damage::damage;
use crate::form::Form;
use crate::generate::{
    any_deck, any_fill, any_item, any_primitive, any_signatures, filled, filled_indexed, nested,
    not_short, some_indexed, Stand, MOST_GROUPS,
};
use crate::item::{stream_in, Item};
use crate::noise::noise;
use crate::random::Random;
use crate::table::{holds_indexed, is_overrideable, GENUS_VERSION, GROUPS, MOST_SMALL, SIGNED};

/// The letter of a group, and what lies at the start of its buffer.
#[derive(Clone, Debug, PartialEq, Eq)]
pub struct Body {
    pub letter: u8,
    pub bytes: Vec<u8>,
}

/// How many kinds `body` tells apart.
pub const KINDS: u64 = 12;

/// A body of the kind with this number, whole or not, and mostly with a letter
/// that is a group's.
pub fn body(random: &mut Random, form: Form, kind: u64) -> Body {
    let (letter, items) = match kind % KINDS {
        0 => (*random.pick(GROUPS), Vec::new()),
        1 | 2 => accepted(random),
        3 => signatures(random),
        4 => genus(random),
        5 => deep(random),
        6 if random.once_in(8) => long(random),
        6 | 7 => spelt(random),
        8 => (*random.pick(SIGNED), any_deck(random, 3)),
        _ => return spoilt(random, form, kind),
    };
    let bytes = stream_in(&items, form);
    Body { letter, bytes }
}

/// Items that a group of any letter takes.
pub fn accepted(random: &mut Random) -> (u8, Vec<Item>) {
    let letter = *random.pick(GROUPS);
    let items = random.below(5);
    if holds_indexed(letter) {
        return (letter, (0..items).map(|_| some_indexed(random)).collect());
    }
    let stand = |place| Stand {
        within: 1,
        first: place == 0 && is_overrideable(letter),
    };
    let items = (0..items).map(|place| any_item(random, stand(place), 4));
    (letter, items.collect())
}

/// Indexed items that may be wrong, and of which one may be another item.
fn signatures(random: &mut Random) -> (u8, Vec<Item>) {
    match any_signatures(random) {
        Item::Group { letter, body, .. } => (letter, body),
        other => (SIGNED[0], vec![other]),
    }
}

/// A genus/version, the one that is read or another, first or behind an item,
/// in the body or in a group within it.
fn genus(random: &mut Random) -> (u8, Vec<Item>) {
    let version = *random.pick(&[GENUS_VERSION, *b"AAABAA", *b"AAACAB"]);
    let mut items = vec![Item::Genus(version), any_primitive(random)];
    if random.once_in(2) {
        items.reverse();
    }
    let letters = [*random.pick(b"ABCDJZ"), *random.pick(b"ABCDJZ")];
    let within = random.below(3);
    (*random.pick(b"ABCDJKZ"), nested(&letters, within, items))
}

/// Groups one in another, a few less or more than the group around them leaves
/// room for; the innermost is empty or not.
fn deep(random: &mut Random) -> (u8, Vec<Item>) {
    let core = match random.below(3) {
        0 => Vec::new(),
        _ => vec![any_primitive(random)],
    };
    let depth = MOST_GROUPS - 3 + random.below(5);
    let letters = [*random.pick(b"ADJZ"), *random.pick(b"ADJZ")];
    let mut items = nested(&letters, depth, core);
    items.insert(random.below(2), any_primitive(random));
    (*random.pick(b"ACJKa"), items)
}

/// Some units less or more than a small code counts.
fn long(random: &mut Random) -> (u8, Vec<Item>) {
    let units = MOST_SMALL - 2 + random.below(5);
    let letter = *random.pick(b"ACDJKLZc");
    let items = match holds_indexed(letter) {
        true => filled_indexed(random, units),
        false => filled(random, units),
    };
    (letter, items)
}

/// An item with the large code where a small one would do, or a text with any
/// fill.
fn spelt(random: &mut Random) -> (u8, Vec<Item>) {
    let (letter, mut items) = accepted(random);
    let item = match random.once_in(2) {
        true => not_short(random),
        false => any_fill(random),
    };
    items.insert(random.below(items.len() + 1), item);
    (letter, items)
}

/// Accepted items that are damaged, cut anywhere or given to a letter that is no
/// group's, and noise.
fn spoilt(random: &mut Random, form: Form, kind: u64) -> Body {
    let (mut letter, items) = accepted(random);
    let mut bytes = stream_in(&items, form);
    match kind % KINDS {
        9 => damage(random, form, &mut bytes),
        10 => bytes = noise(random, form, 60),
        _ => {
            bytes.truncate(random.below(bytes.len() + 1));
            if random.once_in(2) {
                letter = *random.pick(b"09-_dz@[`{\x00\xFF");
            }
        }
    }
    Body { letter, bytes }
}

#[cfg(test)]
mod tests {
    use super::*;
    use crate::form::FORMS;

    /// Bodies of one kind, in text.
    fn bodies(kind: u64, seed: u64) -> impl Iterator<Item = Body> {
        let mut random = Random::new(seed);
        (0..2000).map(move |_| body(&mut random, Form::Text, kind))
    }

    #[test]
    fn the_same_seed_gives_the_same_body() {
        for kind in 0..KINDS {
            for form in FORMS {
                let made = || body(&mut Random::new(kind), form, kind);
                assert_eq!(made(), made());
            }
        }
    }

    #[test]
    fn long_bodies_stand_on_both_sides_of_a_small_code() {
        let mut random = Random::new(1);
        let mut seen: Vec<_> = (0..400)
            .map(|_| stream_in(&long(&mut random).1, Form::Text).len() / 4)
            .collect();
        seen.sort();
        seen.dedup();
        assert!(seen.iter().copied().eq(4093..=4097), "{seen:?}");
    }

    #[test]
    fn every_letter_is_there_and_others() {
        let mut seen: Vec<u8> = bodies(1, 2).map(|body| body.letter).collect();
        seen.sort();
        seen.dedup();
        assert_eq!(seen, GROUPS);
        let strange = bodies(11, 3).filter(|body| !GROUPS.contains(&body.letter));
        assert!(strange.count() > 200);
    }

    #[test]
    fn cut_ones_are_whole_units_and_not() {
        let whole = bodies(11, 4).filter(|body| body.bytes.len() % 4 == 0);
        assert!((200..1800).contains(&whole.count()));
    }
}
