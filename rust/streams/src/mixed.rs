//! Mixed streams (02 d): JSON events, groups in text and groups in binary, one
//! behind the other, and what goes wrong with them.

use crate::damage::damage;
use crate::form::{Form, FORMS};
use crate::generate::{
    any_fill_deck, any_item, any_primitive, any_signatures, deep, group, long_item, not_short, TOP,
};
use crate::item::{stream_in, Item};
use crate::random::Random;
use crate::table::GROUPS;

/// The length of a JSON item's header.
pub const HEADER: usize = 23;

/// The bytes that start an item, and those next to them.
pub const STARTS: &[u8] = b"-{\xF8\xF9\xFA\xFB";
pub const NO_STARTS: &[u8] = b",./z|}M\n\r \0\xF7\xFC\xFF";

/// `{"v":"`, then protocol, version, `JSON`, the stated length and `_`.
pub fn header(protocol: &str, version: &str, length: usize) -> Vec<u8> {
    format!(r#"{{"v":"{protocol}{version}JSON{length:06x}_"#).into_bytes()
}

/// A header of a protocol and version that streams have, or of any.
fn any_header(random: &mut Random, length: usize) -> Vec<u8> {
    let capitals: Vec<u8> = (0..4).map(|_| b'A' + random.below(26) as u8).collect();
    let any = String::from_utf8_lossy(&capitals).into_owned();
    let protocol = *random.pick(&["KERI", "ACDC", &any]);
    let version = *random.pick(&["10", "11", "00", "ff", "a9"]);
    header(protocol, version, length)
}

/// An accepted JSON item: a header that states its length, then any body.
pub fn event(random: &mut Random) -> Vec<u8> {
    let body = match random.below(6) {
        0 => Vec::new(),
        1 => {
            let length = random.below(60);
            random.bytes(length)
        }
        2 => {
            let length = random.below(9);
            random.bytes(length)
        }
        // What starts an item is no start within a body.
        3 => [br#"","#.as_slice(), &attachment(random, Form::Text), b"}"].concat(),
        _ => {
            let digest = String::from_utf8_lossy(&random.characters(43)).into_owned();
            format!(r#"","t":"icp","d":"E{digest}","s":"0"}}"#).into_bytes()
        }
    };
    let mut item = any_header(random, HEADER + body.len());
    item.extend(body);
    item
}

/// An accepted group or genus/version, as it stands behind an event.
pub fn attachment(random: &mut Random, form: Form) -> Vec<u8> {
    let item = any_item(random, TOP, 3);
    let letter = *random.pick(GROUPS);
    stream_in(&[around(random, letter, item)], form)
}

/// What stands at top level as it is, else in a group.
fn around(random: &mut Random, letter: u8, item: Item) -> Item {
    match item {
        Item::Primitive(_) => group(random, letter, vec![item]),
        other => other,
    }
}

/// An accepted item of any form.
pub fn part(random: &mut Random) -> Vec<u8> {
    match random.below(3) {
        0 => event(random),
        1 => attachment(random, Form::Text),
        _ => attachment(random, Form::Binary),
    }
}

/// Up to `most` accepted items, one behind the other.
pub fn deck(random: &mut Random, most: usize) -> Vec<u8> {
    let items = random.below(most + 1);
    (0..items).flat_map(|_| part(random)).collect()
}

/// A deck in which one item or more may be refused, or be no item.
pub fn any_deck(random: &mut Random, most: usize) -> Vec<u8> {
    let before = deck(random, most);
    let mut all = [before, any_part(random)].concat();
    if random.once_in(2) {
        all.extend(deck(random, most));
    }
    if random.once_in(3) {
        all.extend(any_part(random));
        all.extend(part(random));
    }
    if random.once_in(12) {
        let end = all.len().saturating_sub(random.below(30));
        all.truncate(end);
    }
    all
}

/// An item that meets some rule from either side, or is none.
pub fn any_part(random: &mut Random) -> Vec<u8> {
    match random.below(12) {
        0 | 1 => another_length(random),
        2 | 3 => another_header(random),
        4 => cut(random),
        5 => another_string(random),
        6 | 7 => damaged(random),
        8 => another_start(random),
        9 => {
            let form = *random.pick(&FORMS);
            let item = any_primitive(random);
            stream_in(&[item], form)
        }
        10 => judged(random),
        _ => {
            let bytes = random.below(40);
            [&[*random.pick(STARTS)], &random.bytes(bytes)[..]].concat()
        }
    }
}

/// A stated length around 23, around what is there, or any.
fn another_length(random: &mut Random) -> Vec<u8> {
    let mut item = event(random);
    let length = item.len();
    let stated = match random.below(9) {
        0 => length - 1,
        1 => length + 1,
        2 => HEADER - 1,
        3 => HEADER,
        4 => HEADER + 1,
        5 => 0,
        6 => 0xFF_FFFF,
        7 => length + random.below(9),
        _ => random.below(1 << 24),
    };
    let digits = format!("{stated:06x}");
    item[16..22].copy_from_slice(digits.as_bytes());
    item
}

/// One byte of a header another: a neighbour of what may stand there, the other
/// case, or any.
fn another_header(random: &mut Random) -> Vec<u8> {
    let mut item = event(random);
    let place = random.below(HEADER);
    item[place] = match random.below(4) {
        0 => item[place] ^ 0x20,
        1 => *random.pick(b"@[`{/:gGfFaAzZ09_-+ "),
        2 => item[place].wrapping_add(1),
        _ => random.byte(),
    };
    item
}

/// Fewer bytes than a header, just as many or few more, right or not.
fn cut(random: &mut Random) -> Vec<u8> {
    let form = *random.pick(&FORMS);
    let mut item = match random.below(3) {
        0 => vec![b'{'; HEADER + 2],
        1 => attachment(random, form),
        _ => event(random),
    };
    let length = random.below(HEADER + 3);
    item.truncate(length);
    item
}

/// Other serialisations, version 2 strings, and maps that open otherwise.
fn another_string(random: &mut Random) -> Vec<u8> {
    let start = *random.pick(&[
        r#"{"v":"KERI10MGPK000030_"#,
        r#"{"v":"KERI10CBOR000030_"#,
        r#"{"v":"KERI10CESR000030_"#,
        r#"{"v":"KERICAAJSONAAAw."#,
        r#"{"v":"keri10JSON000030_"#,
        r#"{"v":"KERI1AJSON000030_"#,
        r#"{"v":"KERI10JSON00003A_"#,
        r#"{"v":"KERI10JSON000030."#,
        r#"{"d":"KERI10JSON000030_"#,
        r#"{ "v":"KERI10JSON000031_"#,
        r#"["v":"KERI10JSON000030_"#,
        "{}",
    ]);
    let mut item = start.as_bytes().to_vec();
    item.resize(0x30 + random.below(2), b' ');
    item
}

/// A group with damages of its own form.
fn damaged(random: &mut Random) -> Vec<u8> {
    let form = *random.pick(&FORMS);
    let mut item = attachment(random, form);
    damage(random, form, &mut item);
    item
}

/// Another first byte, a line feed between items, or a mark before them.
fn another_start(random: &mut Random) -> Vec<u8> {
    let mut item = part(random);
    let start = *random.pick(&[STARTS, NO_STARTS]);
    let byte = *random.pick(start);
    match random.below(3) {
        0 => item.insert(0, byte),
        1 => item.push(byte),
        _ => item[0] = byte,
    }
    item
}

/// Items that only their judging may refuse, of either form.
fn judged(random: &mut Random) -> Vec<u8> {
    let form = *random.pick(&FORMS);
    let letter = *random.pick(GROUPS);
    let item = match random.below(5) {
        0 => any_signatures(random),
        1 => deep(random),
        2 => not_short(random),
        3 if random.once_in(8) => long_item(random),
        _ => any_fill_deck(random).remove(0),
    };
    let item = around(random, letter, item);
    stream_in(&[item], form)
}

/// Long decks to be timed, filled as far as whole items go: an event of some 300
/// bytes with its signatures in the given form behind it.
pub fn events(random: &mut Random, size: usize, form: Form) -> Vec<u8> {
    let mut all = Vec::with_capacity(size);
    loop {
        let digests: Vec<u8> = (0..6)
            .flat_map(|_| [br#","E"#, &random.characters(43)[..], br#"""#].concat())
            .collect();
        let body = [br#"","t":"ixn","a":["#.as_slice(), &digests[1..], b"]}"].concat();
        let mut next = header("KERI", "10", HEADER + body.len());
        next.extend(body);
        let signatures = crate::decks::signatures(random, 360);
        next.extend(form.of_text(&signatures));
        if all.len() + next.len() > size {
            return all;
        }
        all.extend(next);
    }
}

/// The same without JSON: groups in text and in binary in turn.
pub fn forms_in_turn(random: &mut Random, size: usize) -> Vec<u8> {
    let mut all = Vec::with_capacity(size);
    loop {
        let form = *random.pick(&FORMS);
        let next = attachment(random, form);
        if all.len() + next.len() > size {
            return all;
        }
        all.extend(next);
    }
}

#[cfg(test)]
mod tests {
    use super::*;

    #[test]
    fn headers_have_their_length() {
        assert_eq!(header("KERI", "10", 23), br#"{"v":"KERI10JSON000017_"#);
        assert_eq!(header("KERI", "10", 23).len(), HEADER);
        let mut random = Random::new(1);
        for _ in 0..500 {
            let item = event(&mut random);
            let digits = std::str::from_utf8(&item[16..22]).expect("digits");
            assert_eq!(usize::from_str_radix(digits, 16), Ok(item.len()));
        }
    }

    #[test]
    fn attachments_start_as_groups_do() {
        let mut random = Random::new(2);
        for _ in 0..2000 {
            assert_eq!(attachment(&mut random, Form::Text)[0], b'-');
            let first = attachment(&mut random, Form::Binary)[0];
            assert!((0xF8..=0xFB).contains(&first), "{first}");
        }
    }

    #[test]
    fn the_same_seed_gives_the_same_deck() {
        for seed in 0..200 {
            let made = || any_deck(&mut Random::new(seed), 4);
            assert_eq!(made(), made());
        }
    }

    #[test]
    fn long_decks_fill_their_size() {
        let mut random = Random::new(3);
        for form in FORMS {
            let deck = events(&mut random, 100_000, form);
            assert!(deck.len() > 98_000 && deck.starts_with(b"{\"v\":\"KERI10JSON"));
        }
        assert!(forms_in_turn(&mut random, 100_000).len() > 90_000);
    }
}
