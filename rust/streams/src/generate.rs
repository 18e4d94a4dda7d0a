//! Items that 01 accepts, of every code, selector and nesting.

use crate::form::{characters, ALPHABET};
use crate::item::{stream, Item};
use crate::random::Random;
use crate::table::{
    holds_indexed, is_overrideable, Fixed, Indexed, Kind, FIXED, GENUS_VERSION, GROUPS, HEADS,
    INDEXED, LARGE, MOST_SMALL, SIGNED, SMALL, TEXT, TYPES,
};

/// Groups that may stand within each other.
pub const MOST_GROUPS: usize = 64;

/// An accepted item of a fixed code with any value.
pub fn fixed(random: &mut Random, (code, full, kind): Fixed) -> Item {
    let mut text = code.as_bytes().to_vec();
    match (kind, code.len()) {
        (Kind::Label, _) => text.extend([b'A', b'A' + random.below(4) as u8]),
        (Kind::Prepad, _) => text.push(b'_'),
        (Kind::Raw, 1) => text.push(b'A' + random.below(16) as u8),
        (Kind::Raw, 2) => text.push(b'A' + random.below(4) as u8),
        _ => {}
    }
    text.extend(random.characters(full - text.len()));
    Item::Primitive(text)
}

/// An item of a variable code with `n` units of any value, of type `A` of any
/// text; of a small one with lead bytes one at least. It is accepted where the code is the shortest one
/// that counts so far.
pub fn variable(random: &mut Random, selector: u8, letter: u8, n: usize) -> Item {
    let lead = usize::from((selector - b'4') % 3);
    let small = selector < b'7';
    let n = n.max(usize::from(small && lead > 0));
    let digits = characters(n as u32);
    let mut text = if small {
        vec![selector, letter, digits[2], digits[3]]
    } else {
        [&[selector, b'A', b'A', letter], &digits[..]].concat()
    };
    let header = text.len();
    text.extend(random.characters(4 * n));
    if n > 0 {
        let front = match letter {
            TEXT => fill(random, lead),
            _ => lead_bytes(random, lead),
        };
        text[header..header + front.len()].copy_from_slice(&front);
    }
    Item::Primitive(text)
}

/// One lead byte: `A` and 2 zero bits; two: `AA` and 4 zero bits.
fn lead_bytes(random: &mut Random, lead: usize) -> Vec<u8> {
    match lead {
        0 => Vec::new(),
        1 => vec![b'A', b'A' + random.below(16) as u8],
        _ => vec![b'A', b'A', b'A' + random.below(4) as u8],
    }
}

/// What a text opens with: of 4 and 7 one `A` or none, of 5 and 8 two, of 6 and
/// 9 three; then another character.
fn fill(random: &mut Random, lead: usize) -> Vec<u8> {
    let fill = match lead {
        0 => random.below(2),
        _ => lead + 1,
    };
    let mut front = vec![b'A'; fill];
    front.push(*random.pick(&ALPHABET[1..]));
    front
}

/// A value of type `A` that may be no text: of any small selector, in front as
/// many `A` as there may be or some more or less.
pub fn any_fill(random: &mut Random) -> Item {
    let (selector, n) = (*random.pick(SMALL), random.below(4));
    let digits = characters(n as u32);
    let mut text = vec![selector, TEXT, digits[2], digits[3]];
    let header = text.len();
    text.extend(random.characters(4 * n));
    if n > 0 {
        text[header..header + 4].copy_from_slice(&front_unit(random));
    }
    Item::Primitive(text)
}

/// A first unit for a value of type `A`: so many `A`, then characters that may
/// be one too or have few bits, so that they are lead bits that are zero.
pub fn front_unit(random: &mut Random) -> [u8; 4] {
    let fill = random.below(5);
    std::array::from_fn(|place| match random.below(3) {
        _ if place < fill => b'A',
        0 => *random.pick(b"ABDEPQ"),
        _ => random.character(),
    })
}

/// The same at some place in a deck, at top level or within groups.
pub fn any_fill_deck(random: &mut Random) -> Vec<Item> {
    let item = any_fill(random);
    placed(random, item)
}

/// An accepted item of an indexed code with any index and value, and any ondex
/// that the code may have.
pub fn indexed(random: &mut Random, row: Indexed) -> Item {
    let mut text = row.code.as_bytes().to_vec();
    text.extend(random.characters(row.index));
    if row.current {
        text.extend(vec![b'A'; row.ondex]);
    } else {
        text.extend(random.characters(row.ondex));
    }
    if row.padded() {
        text.push(b'A' + random.below(4) as u8);
    }
    text.extend(random.characters(row.full - text.len()));
    Item::Primitive(text)
}

/// An accepted item of any indexed code; often of the one that most signatures
/// have.
pub fn some_indexed(random: &mut Random) -> Item {
    let row = match random.below(3) {
        0 => INDEXED[0],
        _ => *random.pick(&INDEXED),
    };
    indexed(random, row)
}

/// An indexed item that may be wrong: any digits for an ondex, few of them
/// zero, and any pad bits, few of them set.
pub fn any_indexed(random: &mut Random) -> Item {
    let row = *random.pick(&INDEXED);
    let mut text = stream(&[indexed(random, row)]);
    let ondex = row.code.len() + row.index;
    if random.once_in(2) {
        for digit in &mut text[ondex..ondex + row.ondex] {
            *digit = *random.pick(b"AAABg_");
        }
    }
    if random.once_in(2) {
        text[ondex + row.ondex] = *random.pick(b"ADEIQg");
    }
    Item::Primitive(text)
}

/// A group of indexed items that may be wrong, and of which one may be another
/// item: a start of the master table, a group, a genus/version.
pub fn any_signatures(random: &mut Random) -> Item {
    let letter = *random.pick(SIGNED);
    let items = random.below(4);
    let mut body: Vec<Item> = (0..items)
        .map(|_| match random.below(3) {
            0 => any_indexed(random),
            _ => some_indexed(random),
        })
        .collect();
    if random.once_in(3) {
        let other = match random.below(4) {
            0 => any_primitive(random),
            1 => Item::Genus(GENUS_VERSION),
            2 => Item::Group {
                letter: *random.pick(b"AJKL"),
                large: false,
                body: Vec::new(),
            },
            _ => Item::Primitive(random.pick(&HEADS).as_bytes().to_vec()),
        };
        body.insert(random.below(body.len() + 1), other);
    }
    Item::Group {
        letter,
        large: random.once_in(12),
        body,
    }
}

/// The same at some place in a deck, at top level or within groups.
pub fn any_signatures_deck(random: &mut Random) -> Vec<Item> {
    let item = any_signatures(random);
    placed(random, item)
}

/// Indexed items of so many units in all. Where no such items add up to it, it
/// is anything.
pub fn filled_indexed(random: &mut Random, units: usize) -> Vec<Item> {
    // 22 and 23 units: so many of them, and of these as many as are left.
    let adds_up = |units: usize| units % 22 <= units / 22;
    if !adds_up(units) {
        return vec![Item::Primitive(random.characters(4 * units))];
    }
    let (mut items, mut left) = (Vec::new(), units);
    while left > 0 {
        let row = *random.pick(&INDEXED);
        if left >= row.full / 4 && adds_up(left - row.full / 4) {
            left -= row.full / 4;
            items.push(indexed(random, row));
        }
    }
    items
}

/// A group of any letter: `-K` and `-L` with indexed items for `body`'s.
pub fn group(random: &mut Random, letter: u8, mut body: Vec<Item>) -> Item {
    if holds_indexed(letter) {
        body.iter_mut()
            .for_each(|item| *item = some_indexed(random));
    }
    Item::Group {
        letter,
        large: false,
        body,
    }
}

/// How many items `one_code` tells apart.
pub const CODES: usize = FIXED.len() + VARIABLES + 2 * GROUPS.len() + 2 * INDEXED.len() + 1;

const VARIABLES: usize = TYPES.len() * SMALL.len();

/// An item of the code with this index below `CODES`: every fixed code, every
/// variable type under every small selector, every group letter, empty and
/// not, every indexed code in both groups that hold it, and the genus/version.
pub fn one_code(random: &mut Random, index: usize) -> Item {
    if let Some(row) = FIXED.get(index) {
        return fixed(random, *row);
    }
    let index = index - FIXED.len();
    if index < VARIABLES {
        let n = random.below(5);
        let selector = SMALL[index % SMALL.len()];
        return variable(random, selector, TYPES[index / SMALL.len()], n);
    }
    let index = index - VARIABLES;
    let Some(letter) = GROUPS.get(index / 2) else {
        let index = index - 2 * GROUPS.len();
        return match INDEXED.get(index / 2) {
            Some(row) => Item::Group {
                letter: SIGNED[index % 2],
                large: false,
                body: vec![indexed(random, *row)],
            },
            None => Item::Genus(GENUS_VERSION),
        };
    };
    let mut body = Vec::new();
    if index % 2 == 1 {
        body.extend([any_primitive(random), any_primitive(random)]);
    }
    group(random, *letter, body)
}

/// How many items `large_code` tells apart.
pub const LARGE_CODES: usize = TYPES.len() * LARGE.len() + GROUPS.len();

/// An item of the large code with this index below `LARGE_CODES`, of so many
/// units: every variable type under every large selector, every group letter.
/// It is accepted where a small code does not count so far.
pub fn large_code(random: &mut Random, index: usize, units: usize) -> Item {
    if let Some(letter) = TYPES.get(index / LARGE.len()) {
        return variable(random, LARGE[index % LARGE.len()], *letter, units);
    }
    let letter = GROUPS[index - TYPES.len() * LARGE.len()];
    let body = match holds_indexed(letter) {
        true => filled_indexed(random, units),
        false => filled(random, units),
    };
    Item::Group {
        letter,
        large: true,
        body,
    }
}

/// Primitives of so many units in all.
pub fn filled(random: &mut Random, units: usize) -> Vec<Item> {
    let mut items = Vec::new();
    let mut left = units;
    while left > 0 {
        let mut item = any_primitive(random);
        if units_of(&item) > left {
            item = Item::Primitive(b"MAAB".to_vec());
        }
        left -= units_of(&item);
        items.push(item);
    }
    items
}

fn units_of(item: &Item) -> usize {
    stream(std::slice::from_ref(item)).len() / 4
}

/// An accepted item of some units less or more than a small code counts, with
/// the code that this asks for.
pub fn long_item(random: &mut Random) -> Item {
    let units = MOST_SMALL - 5 + random.below(12);
    if units > MOST_SMALL {
        let index = random.below(LARGE_CODES);
        return large_code(random, index, units);
    }
    if random.once_in(2) {
        let (selector, letter) = (*random.pick(SMALL), *random.pick(TYPES));
        return variable(random, selector, letter, units);
    }
    let body = filled(random, units);
    Item::Group {
        letter: *random.pick(b"ABCDJZac"),
        large: false,
        body,
    }
}

/// An item with a large code of which a small one would count the units:
/// mostly few, at times as many as it can.
pub fn not_short(random: &mut Random) -> Item {
    let units = match random.below(40) {
        0 => MOST_SMALL - random.below(2),
        1 => 60 + random.below(9),
        _ => random.below(5),
    };
    let index = random.below(LARGE_CODES);
    large_code(random, index, units)
}

/// The same at some place in a deck, at top level or within groups.
pub fn not_short_deck(random: &mut Random) -> Vec<Item> {
    let item = not_short(random);
    placed(random, item)
}

fn placed(random: &mut Random, item: Item) -> Vec<Item> {
    let mut items = any_deck(random, 3);
    let within = *random.pick(&[0, 0, 1, 1, 2, 3, MOST_GROUPS - 1, MOST_GROUPS]);
    let mut core = any_deck(random, 1);
    core.insert(random.below(core.len() + 1), item);
    let place = random.below(items.len() + 1);
    let letters = [*random.pick(b"ABCDJZac"), *random.pick(b"ABCDJZac")];
    items.splice(place..place, nested(&letters, within, core));
    items
}

/// All of them, one behind the other.
pub fn every_code(random: &mut Random) -> Vec<Item> {
    (0..CODES).map(|index| one_code(random, index)).collect()
}

pub fn any_primitive(random: &mut Random) -> Item {
    if random.once_in(3) {
        let n = if random.once_in(50) {
            random.below(200)
        } else {
            random.below(6)
        };
        let (selector, letter) = (*random.pick(SMALL), *random.pick(TYPES));
        return variable(random, selector, letter, n);
    }
    let row = *random.pick(&FIXED);
    fixed(random, row)
}

/// How an item stands: within how many groups, and first in an `-A` `-B` `-C`.
#[derive(Clone, Copy)]
pub struct Stand {
    pub within: usize,
    pub first: bool,
}

/// The place of a top-level item.
pub const TOP: Stand = Stand {
    within: 0,
    first: false,
};

/// Any accepted item; groups in it stand within fewer than `deepest` groups.
pub fn any_item(random: &mut Random, stand: Stand, deepest: usize) -> Item {
    let may_open = stand.within < deepest.min(MOST_GROUPS);
    match random.below(10) {
        0..=3 if may_open => any_group(random, stand, deepest),
        4 if random.once_in(4) => Item::Genus(any_genus(random, stand)),
        _ => any_primitive(random),
    }
}

/// The genus/version that is read, or any where none is asked for.
fn any_genus(random: &mut Random, stand: Stand) -> [u8; 6] {
    let free = stand.within > 0 && !stand.first;
    match random.below(3) {
        0 if free => *b"AAABAA",
        1 if free => std::array::from_fn(|_| random.character()),
        _ => GENUS_VERSION,
    }
}

fn any_group(random: &mut Random, stand: Stand, deepest: usize) -> Item {
    let letter = *random.pick(GROUPS);
    let items = random.below(5);
    if holds_indexed(letter) {
        let body = (0..items).map(|_| some_indexed(random)).collect();
        return Item::Group {
            letter,
            large: false,
            body,
        };
    }
    let inner = |first| Stand {
        within: stand.within + 1,
        first: first && is_overrideable(letter),
    };
    let body = (0..items).map(|i| any_item(random, inner(i == 0), deepest));
    let body = body.collect();
    group(random, letter, body)
}

/// `depth` groups, each just around the next, around one small primitive.
/// `letters` are taken in turn.
pub fn nested(letters: &[u8], depth: usize, core: Vec<Item>) -> Vec<Item> {
    (0..depth).rev().fold(core, |body, place| {
        vec![Item::Group {
            letter: letters[place % letters.len()],
            large: false,
            body,
        }]
    })
}

/// A deck of up to `most` accepted top-level items, some nested deep, few of
/// them long.
pub fn any_deck(random: &mut Random, most: usize) -> Vec<Item> {
    let deepest = *random.pick(&[1, 3, 3, 5, MOST_GROUPS]);
    let mut items = Vec::new();
    for _ in 0..random.below(most + 1) {
        if random.once_in(12) {
            let few = random.below(MOST_GROUPS / 3);
            let depth = *random.pick(&[few, few, 40, MOST_GROUPS - 1, MOST_GROUPS]);
            let letter = *random.pick(b"ACDJZac");
            let core = vec![any_primitive(random)];
            items.extend(nested(&[letter, b'J'], depth, core));
        } else if random.once_in(400) {
            items.push(long_item(random));
        } else {
            items.push(any_item(random, TOP, deepest));
        }
    }
    items
}

/// Groups one in another, a few less or more than may stand so. Some have
/// items beside the next group, and one may have the large header; the
/// innermost holds what it may, or nothing.
pub fn deep(random: &mut Random) -> Item {
    let depth = MOST_GROUPS - 4 + random.below(11);
    let mut body = match random.below(4) {
        0 => Vec::new(),
        1 => vec![Item::Group {
            letter: b'K',
            large: false,
            body: Vec::new(),
        }],
        _ => vec![any_primitive(random)],
    };
    // Counted from the innermost; a number past the outermost is none.
    let any = random.below(2 * depth);
    let last = depth.saturating_sub(MOST_GROUPS);
    let large = *random.pick(&[any, any, last, last.saturating_sub(1), depth]);
    for place in 0..depth - 1 {
        let inner = around(random, place == large, body);
        body = vec![inner];
        if random.once_in(20) {
            body.insert(random.below(2), any_primitive(random));
        }
    }
    around(random, large == depth - 1, body)
}

fn around(random: &mut Random, large: bool, body: Vec<Item>) -> Item {
    Item::Group {
        letter: *random.pick(b"ABCDJZac"),
        large,
        body,
    }
}

#[cfg(test)]
mod tests {
    use super::*;

    #[test]
    fn everything_is_whole_units_in_the_alphabet() {
        let mut random = Random::new(1);
        for round in 0..500 {
            let items = match round % 2 {
                0 => every_code(&mut random),
                _ => any_deck(&mut random, 12),
            };
            let text = stream(&items);
            assert_eq!(text.len() % 4, 0);
            assert!(text.iter().all(|c| ALPHABET.contains(c)));
        }
    }

    #[test]
    fn every_code_is_there_once() {
        let items = every_code(&mut Random::new(1));
        let heads = |item: &Item| stream(std::slice::from_ref(item))[..4].to_vec();
        let primitives = FIXED.len() + VARIABLES;
        let mut heads: Vec<_> = items[..primitives].iter().map(heads).collect();
        heads.iter_mut().for_each(|head| match head[0] {
            b'4'..=b'6' => head.truncate(2),
            b'0' => head.truncate(2),
            b'1' | b'7'..=b'9' => {}
            _ => head.truncate(1),
        });
        heads.sort();
        heads.dedup();
        assert_eq!((heads.len(), items.len()), (primitives, CODES));
        assert_eq!(items[CODES - 1], Item::Genus(GENUS_VERSION));
    }

    #[test]
    fn large_codes_count_what_they_are_asked() {
        let mut random = Random::new(7);
        for index in 0..LARGE_CODES {
            for units in [0, 1, 2, 4095, 4096] {
                let text = stream(&[large_code(&mut random, index, units)]);
                assert_eq!(text.len(), 8 + 4 * units);
                assert!(text.starts_with(b"--") || LARGE.contains(&text[0]));
            }
        }
    }

    /// The `A` in front of a value, under its selector.
    fn fronts(items: impl Iterator<Item = Item>) -> Vec<(u8, usize)> {
        let front = |item: Item| {
            let text = stream(&[item]);
            let header = if text[0] < b'7' { 4 } else { 8 };
            let fill = text[header..].iter().take_while(|c| **c == b'A').count();
            (text[0], fill)
        };
        let mut seen: Vec<_> = items.map(front).collect();
        seen.sort();
        seen.dedup();
        seen
    }

    #[test]
    fn texts_have_their_fill() {
        let mut random = Random::new(9);
        let texts = (0..600).map(|round| {
            let selector = b"456789"[round % 6];
            variable(&mut random, selector, TEXT, 1 + round % 3)
        });
        let four = [(b'4', 0), (b'4', 1), (b'5', 2), (b'6', 3)];
        let seven = four.map(|(selector, fill)| (selector + 3, fill));
        assert_eq!(fronts(texts), [four, seven].concat());
    }

    #[test]
    fn any_fill_stands_on_both_sides() {
        let mut random = Random::new(10);
        let seen = fronts((0..4000).map(|_| any_fill(&mut random)));
        for selector in *b"456" {
            for fill in 0..4 {
                assert!(seen.contains(&(selector, fill)), "{selector} {fill}");
            }
        }
    }

    #[test]
    fn long_ones_stand_on_both_sides_of_a_small_code() {
        let mut random = Random::new(8);
        let mut seen: Vec<_> = (0..400)
            .map(|_| {
                let text = stream(&[long_item(&mut random)]);
                let large = text.starts_with(b"--") || LARGE.contains(&text[0]);
                (text.len() / 4 - 1 - usize::from(large), large)
            })
            .collect();
        seen.sort();
        seen.dedup();
        let told = (4090..=4101).map(|units| (units, units > 4095));
        assert!(seen.iter().copied().eq(told), "{seen:?}");
    }

    #[test]
    fn indexed_items_have_their_size_and_digits() {
        let mut random = Random::new(11);
        for row in INDEXED {
            let text = stream(&[indexed(&mut random, row)]);
            assert_eq!(text.len(), row.full);
            assert!(text.starts_with(row.code.as_bytes()));
            assert!([64, 114].contains(&row.raw()));
            let digits = row.code.len() + row.index;
            let ondex = &text[digits..digits + row.ondex];
            assert!(!row.current || ondex.iter().all(|digit| *digit == b'A'));
            let front = text[digits + row.ondex];
            assert!(!row.padded() || (b'A'..=b'D').contains(&front));
        }
    }

    #[test]
    fn indexed_items_add_up() {
        let mut random = Random::new(12);
        for units in [0, 22, 23, 44, 45, 46, 66, 462, 463, 4094, 4095, 4096, 4101] {
            let items = filled_indexed(&mut random, units);
            assert_eq!(stream(&items).len(), 4 * units);
            assert!(items.iter().all(|item| units_of(item) <= 40));
        }
        assert_eq!(filled_indexed(&mut random, 3).len(), 1);
    }

    #[test]
    fn any_indexed_stands_on_both_sides() {
        let mut random = Random::new(13);
        for row in INDEXED {
            let (mut ondex, mut pads) = ([0; 2], [0; 2]);
            for _ in 0..4000 {
                let text = stream(&[any_indexed(&mut random)]);
                if text.len() != row.full || !text.starts_with(row.code.as_bytes()) {
                    continue;
                }
                let digits = row.code.len() + row.index;
                let zero = text[digits..digits + row.ondex].iter().all(|d| *d == b'A');
                ondex[usize::from(zero)] += 1;
                let front = text[digits + row.ondex];
                pads[usize::from((b'A'..=b'D').contains(&front))] += 1;
            }
            assert!(row.ondex == 0 || ondex.iter().all(|times| *times > 0));
            assert!(pads.iter().all(|times| *times > 0), "{}", row.code);
        }
    }

    #[test]
    fn fixed_items_have_their_size() {
        let mut random = Random::new(2);
        for row in FIXED {
            let text = stream(&[fixed(&mut random, row)]);
            assert_eq!(text.len(), row.1);
            assert!(text.starts_with(row.0.as_bytes()));
        }
    }

    #[test]
    fn deep_ones_stand_on_both_sides_of_the_limit() {
        fn depth(item: &Item) -> usize {
            match item {
                Item::Group { body, .. } => 1 + body.iter().map(depth).max().unwrap_or(0),
                _ => 0,
            }
        }
        let mut random = Random::new(5);
        let mut seen: Vec<_> = (0..1000).map(|_| depth(&deep(&mut random))).collect();
        seen.sort();
        seen.dedup();
        // With an empty group as the innermost item it is one more.
        assert!(seen.iter().copied().eq(60..=71), "{seen:?}");
    }

    #[test]
    fn nested_groups_count_what_is_within() {
        let core = vec![Item::Primitive(b"MAAB".to_vec())];
        let text = stream(&nested(b"AJ", 3, core));
        assert_eq!(text, b"-AAD-JAC-AABMAAB".as_slice());
    }
}
