//! Inputs to start from: the papers' streams, an item of every code, large ones
//! for few units too and around 4,096, groups around the depth limit, streams so
//! long that conversion goes by its tables, a primitive and an indexed item of
//! every code to write, bodies of every kind and letter for a group, mixed streams,
//! some states, some comparisons, some rooms for the second engine, streams in
//! pieces.

use crate::input::{Call, CALLS, COMPARE, GROUP, LONG, MIXED, PIECES, SECOND};
use streams::body::{body, Body, KINDS};
use streams::damage::GENUS_CODES;
use streams::expectation::{file, report};
use streams::form::FORMS;
use streams::generate::{large_code, nested, one_code, CODES, LARGE_CODES};
use streams::item::{stream, Item};
use streams::table::{Kind, FIXED, GROUPS, HEADS, INDEXED, TEXT, TYPES};
use streams::{mixed, papers, Form, Random};

/// The first byte of an input.
fn choice(call: Call, form: Form) -> u8 {
    let place = CALLS.iter().position(|known| *known == call);
    place.unwrap_or(0) as u8 | u8::from(form == Form::Binary) << 3
}

/// A few units more than the most that conversion takes one by one.
const LONG_UNITS: usize = 2_053;

pub fn seeds() -> Vec<Vec<u8>> {
    let mut seeds = Vec::new();
    for text in texts() {
        for form in FORMS {
            let made = form.of_text(&text);
            for call in [Call::All, Call::ReadItems] {
                seeds.push([&[choice(call, form), 0], &made[..]].concat());
            }
        }
    }
    let long = Random::new(2).characters(4 * LONG_UNITS);
    for form in FORMS {
        seeds.push([&[choice(Call::Convert, form), 0], &form.of_text(&long)[..]].concat());
        seeds.extend(writes(form));
        seeds.extend(indexed_writes(form));
        seeds.extend(states(form));
        seeds.extend(groups(form));
        seeds.extend(seconds(form));
        seeds.extend(pieces(form));
        for header in [&b"--JAABAA"[..], b"--AAAA__", b"7AABABAA", b"9AABAA__"] {
            let made = form.of_text(&[header, b"AAAA"].concat());
            seeds.push([&[choice(Call::All, form), LONG], &made[..]].concat());
        }
        for first in [&b"7AAAABAAA-ab"[..], b"8AAAABAAAA-a", b"9AAAABAAAAA-"] {
            let made = form.of_text(&[first, b"BCDE"].concat());
            for call in [Call::All, Call::ReadItems] {
                seeds.push([&[choice(call, form), LONG], &made[..]].concat());
            }
        }
        for text in [&b"A"[..], b"Ab", b"A!", b"-a=", b"-a b"] {
            seeds.push(text_write(form, 5, [0, 0], text));
        }
    }
    seeds.extend(compares());
    seeds.extend(mixed_streams());
    seeds
}

fn texts() -> Vec<Vec<u8>> {
    let papers = [papers::DECK, papers::POINTS, papers::EXAMPLES].concat();
    let mut texts: Vec<_> = papers.iter().map(|text| text.as_bytes().to_vec()).collect();
    let mut random = Random::new(1);
    texts.extend((0..CODES).map(|index| stream(&[one_code(&mut random, index)])));
    texts.extend((0..LARGE_CODES).map(|index| stream(&[large_code(&mut random, index, 2)])));
    for deep in [2, 16, 40, 63, 64, 65] {
        let core = vec![Item::Primitive(b"MAAB".to_vec())];
        texts.push(stream(&nested(b"AJ", deep, core)));
    }
    texts
}

/// chars, letter, tags, tag, raw: as `Front::primitive` and `Front::raw` take
/// them apart.
pub fn writes(form: Form) -> Vec<Vec<u8>> {
    let start = [choice(Call::Write, form), 0];
    let mut writes = Vec::new();
    for (code, full, kind) in FIXED {
        let letter = code.as_bytes()[code.len() - 1];
        let value = full / 4 * 3 - code.len().min(3);
        let (tags, raw) = match kind {
            Kind::Raw => (0, value),
            Kind::Label => (0, value - 1),
            Kind::Tag => (full - code.len(), 0),
            Kind::Prepad => (full - code.len() - 1, 0),
        };
        let head = [code.len() as u8, letter, tags as u8];
        let raw = vec![0x5A; raw];
        writes.push([&start[..], &head, b"ABCDEFGHIJK", &[0, 0], &raw].concat());
    }
    // A length from FF00 on is one around 12,285: FF00 is 12,281, FF05 12,286;
    // from FF80 on it is one around 16,380: FF80 is 16,376, FF85 16,381.
    for letter in TYPES.iter().filter(|letter| **letter != TEXT) {
        for (chars, length) in [(5, [0, 0]), (5, [0xFF, 4]), (6, [0xFF, 5])] {
            let head = [chars, *letter, 0];
            writes.push([&start[..], &head, &[0; 11], &length, b"hello"].concat());
        }
    }
    for text in [&b"-"[..], b"-a", b"-ab", b"-a-b", b"-label"] {
        for (chars, length) in [(5, [0, 0]), (5, [0xFF, 0x84]), (6, [0xFF, 0x85])] {
            writes.push(text_write(form, chars, length, text));
        }
    }
    writes
}

fn text_write(form: Form, chars: u8, length: [u8; 2], text: &[u8]) -> Vec<u8> {
    let head = [choice(Call::Write, form), 0, chars, TEXT, 0];
    [&head[..], &[0; 11], &length, text].concat()
}

/// The same bytes as `calls::write_indexed` takes them: a number that chooses
/// the selector, the letter, and in the tag index, ondex, which raw length,
/// whether there is an ondex, and by how many bytes both are shifted.
pub fn indexed_writes(form: Form) -> Vec<Vec<u8>> {
    let row = |row: &streams::table::Indexed| {
        let (place, letter) = match *row.code.as_bytes() {
            [selector, letter] => (b"?023".iter().position(|known| *known == selector), letter),
            _ => (Some(0), row.code.as_bytes()[0]),
        };
        let most = |digits: usize| ((1u32 << (6 * digits)) - 1).to_be_bytes();
        let is_long = u8::from(row.raw() == 114);
        let has_ondex = u8::from(row.ondex > 0 && !row.current);
        let start = [choice(Call::Write, form), 0];
        let head = [place.unwrap_or(0) as u8, letter, 0];
        let tag = [
            &most(row.index)[..],
            &most(row.ondex),
            &[is_long, has_ondex, 0],
        ];
        [&start[..], &head, &tag.concat(), &[0, 0], &[0x5A]].concat()
    };
    INDEXED.iter().map(row).collect()
}

/// A letter, the body's own length, and the body: an item in a group of each
/// letter, bodies of each kind, and long ones around what a small code counts.
fn groups(form: Form) -> Vec<Vec<u8>> {
    let first = GROUP | u8::from(form == Form::Binary) << 3;
    let head = |room: u8, letter: u8| [first, room, letter, 0, 0];
    let mut random = Random::new(4);
    let mut seeds = Vec::new();
    for letter in GROUPS {
        let body = form.of_text(b"MAAB");
        seeds.push([&head(0, *letter)[..], &body].concat());
    }
    for kind in 0..KINDS {
        for _ in 0..4 {
            let Body { letter, bytes } = body(&mut random, form, kind);
            seeds.push([&head(0, letter)[..], &bytes].concat());
        }
    }
    for letter in *b"AJK" {
        let large = form.of_text(b"--JAABAA1AAK");
        seeds.push([&head(LONG, letter)[..], &large].concat());
        for units in 4094..4098 {
            seeds.push([&[first, LONG], &long_group(form, letter, units)[..]].concat());
        }
    }
    seeds
}

/// Each room with each working room, of a stream that ends with a part of a unit.
fn seconds(form: Form) -> Vec<Vec<u8>> {
    let first = SECOND | u8::from(form == Form::Binary) << 3;
    let made = form.of_text(b"-AAB0AAAMAAB1AAM");
    let part = &made[..made.len() - 1];
    let rooms = (0..4).flat_map(|room| (0..4).map(move |work| [room, work]));
    let seed = |[room, work]: [u8; 2]| [&[first, room, work], part].concat();
    rooms.map(seed).collect()
}

/// 02's own examples, decks and what may be no item; long ones too.
fn mixed_streams() -> Vec<Vec<u8>> {
    let seed = |room: u8, stream: &[u8]| [&[MIXED, room], stream].concat();
    let mut seeds: Vec<Vec<u8>> = papers::MIXED.iter().map(|stream| seed(0, stream)).collect();
    let mut random = Random::new(5);
    for room in 0..4 {
        seeds.push(seed(room, &mixed::deck(&mut random, 6)));
    }
    for _ in 0..40 {
        seeds.push(seed(0, &mixed::any_deck(&mut random, 3)));
        seeds.push(seed(0, &mixed::any_part(&mut random)));
    }
    for long in [
        &b"--JAABAA1AAK"[..],
        b"-AAA",
        b"{\"v\":\"KERI10JSON004000_    ",
    ] {
        seeds.push(seed(LONG, long));
    }
    seeds
}

/// A stream of two items and a remainder in pieces of one element, of a unit and
/// of any; each place of a state with some numbers, and its buffers in every room.
fn pieces(form: Form) -> Vec<Vec<u8>> {
    let first = PIECES | u8::from(form == Form::Binary) << 3;
    let made = form.of_text(b"-AAB0AAAMAAB--KAABAA6BAA_AAA");
    let head = |room: u8, more: u8, cut: &[u8]| {
        [&[first, room, more, cut.len() as u8], cut, &made].concat()
    };
    let unit = form.unit() as u8;
    let mut seeds = vec![
        head(0, 0, &[1; 15]),
        head(0, 0, &[unit; 15]),
        head(0, 0, &[2 * unit - 1, 0, 0, unit + 2]),
        head(0, 0, &[]),
    ];
    for room in 0..4 {
        seeds.extend((0..4).map(|more| head(room, more, &[3 * unit, unit])));
    }
    for place in 0..proved::PIECES as u8 {
        for number in [[0, 0], [0, 1], [0, 5], [0xFF, 0xFF]] {
            let damage = [0, 0, 0x81, unit + 1, 1, place];
            seeds.push([&[first], &damage[..], &number, &made].concat());
        }
    }
    seeds
}

/// So many units of a long body, stated by its length.
pub fn long_group(form: Form, letter: u8, units: usize) -> Vec<u8> {
    let [high, low] = ((units * form.unit()) as u16).to_be_bytes();
    [&[letter, high, low], &form.of_text(b"1AAK")[..]].concat()
}

/// Files and reports as bytes; verdicts with a stream's own report, right and
/// one off.
fn compares() -> Vec<Vec<u8>> {
    let mut random = Random::new(3);
    let expected = file(&[4, 0], &[6]);
    let (length, told) = (expected.len() as u8, report(&mut random, &[4, 0], &[6]));
    let mut seeds = vec![[&[COMPARE, 0, length], &expected[..], &[0], &told].concat()];
    for made in 1..4 {
        for verdicts in [[4, 0], [4, 8]] {
            for (remainder, stream) in [(255, "-AAB0AAAMAAB"), (6, "-AAB0AAAMAAB_AAA")] {
                let head = [COMPARE | made, 0, 2];
                seeds.push([&head, &verdicts[..], &[remainder], stream.as_bytes()].concat());
            }
        }
    }
    seeds
}

/// Three units in a group, from inside it, and a state that does not fit; a
/// signature in its group, from inside it with one mark and both, without its
/// mark, and a mark with none open.
fn states(form: Form) -> Vec<Vec<u8>> {
    let start = [choice(Call::WalkFrom, form), 0];
    let made = form.of_text(b"-AADMAAB0J_A1AAKMAAB");
    let signed = form.of_text(&[&b"-KAWAB"[..], &[b'A'; 86]].concat());
    let state = |open, position, marks, end| [open, 0, position, marks, 1, 0, end];
    let plain = [state(1, 1, 1, 4), state(1, 2, 0, 4), state(2, 2, 0, 4)];
    let plain = plain.map(|state| [&start[..], &state, &made].concat());
    let inside = [0x10, 0x11, 0].map(|marks| state(1, 1, marks, 23));
    let inside = inside.map(|state| [&start[..], &state, &signed].concat());
    let none_open = [&start[..], &[0, 0, 0, 0x10, 0], &signed].concat();
    [&plain[..], &inside, &[none_open]].concat()
}

/// Words that a fuzzer may put anywhere: heads in both forms.
pub fn dictionary() -> String {
    let heads = HEADS.iter().chain(&GENUS_CODES);
    let json = [
        r#"{"v":""#,
        "KERI10JSON",
        "000017_",
        r#"{"v":"KERI10JSON000017_"#,
    ];
    let word = |bytes: Vec<u8>| {
        let shown: String = bytes.iter().map(|b| format!("\\x{b:02X}")).collect();
        format!("\"{shown}\"\n")
    };
    let in_both = |head: &&str| FORMS.map(|form| word(form.of_text(head.as_bytes())));
    let json = json.iter().map(|part| word(part.as_bytes().to_vec()));
    heads.flat_map(in_both).chain(json).collect()
}

#[cfg(test)]
mod tests {
    use super::*;
    use crate::input::Front;

    #[test]
    fn every_indexed_write_is_accepted() {
        for form in FORMS {
            for seed in indexed_writes(form) {
                let mut front = Front(&seed[2..]);
                let (chars, letter, _, tag) = front.primitive();
                let raw = crate::calls::indexed_raw(tag, &front.raw());
                let item = crate::calls::indexed_item((chars, letter), tag, &raw);
                let answer = proved::write_indexed_text(&item, &mut [0; 160]);
                assert!(answer.is_ok(), "{answer:?} {item:?}");
            }
        }
    }

    #[test]
    fn every_write_is_accepted() {
        for form in FORMS {
            for seed in writes(form) {
                let mut front = Front(&seed[2..]);
                let (chars, letter, tags, tag) = front.primitive();
                let raw = &front.raw();
                let item = proved::Primitive {
                    chars,
                    letter,
                    tag,
                    tags,
                    raw,
                };
                let answer = proved::write_text(&item, &mut [0; 16_400]);
                assert!(answer.is_ok(), "{answer:?} {chars} {letter}");
            }
        }
    }
}
