//! Primitives written by both, as text and as binary.

use crate::judges::{by_oracle, by_proved, lent, Check};
use oracle::primitive::{write, Named};
use proved::{Indexed, Primitive, Tag};
use streams::damage::{ORDINARY, STRANGERS};
use streams::table::{FIXED, INDEXED, TEXT, TYPES};
use streams::Random;

/// The code's characters; none where the numbers name no fixed code.
fn fixed(chars: u8, letter: u8) -> Vec<u8> {
    match chars {
        1 => vec![letter],
        2 => vec![b'0', letter],
        4 => vec![b'1', b'A', b'A', letter],
        _ => vec![],
    }
}

/// One primitive by both, into every room.
pub fn alike(item: &Primitive) -> Check {
    let characters = fixed(item.chars, item.letter);
    let named = match item.chars {
        5 | 6 => Named::Variable {
            letter: item.letter,
            large: item.chars == 6,
        },
        _ => Named::Fixed(&characters),
    };
    let tag = oracle::primitive::Tag {
        number: item.tags,
        characters: item.tag,
    };
    for form in [oracle::Form::Text, oracle::Form::Binary] {
        let mut long = vec![0; 2 * item.raw.len() + 40];
        let size = write(named, &tag, item.raw, form, &mut long).unwrap_or(0);
        let call = match form {
            oracle::Form::Text => proved::write_text,
            oracle::Form::Binary => proved::write_binary,
        };
        lent(
            "write",
            size,
            |out| by_proved(call(item, out)),
            |out| by_oracle(write(named, &tag, item.raw, form, out)),
        )
        .map_err(|why| format!("{item:02X?} as {form:?}, {why}"))?;
    }
    Ok(())
}

/// One indexed item by both, into every room.
pub fn alike_indexed(item: &Indexed) -> Check {
    type Call = fn(&Indexed, &mut [u8]) -> Result<usize, proved::Refusal>;
    let forms: [[Call; 2]; 2] = [
        [proved::write_indexed_text, beside::write_indexed_text],
        [proved::write_indexed_binary, beside::write_indexed_binary],
    ];
    for [proved, oracle] in forms {
        let size = oracle(item, &mut [0; 160]).unwrap_or(0);
        lent(
            "write indexed",
            size,
            |out| by_proved(proved(item, out)),
            |out| by_proved(oracle(item, out)),
        )
        .map_err(|why| format!("{item:02X?}, {why}"))?;
    }
    Ok(())
}

/// Known indexed codes and others; index, ondex and length that fit, one more
/// or less, and others.
pub fn any_indexed(random: &mut Random) -> Check {
    let row = *random.pick(&INDEXED);
    let (mut selector, mut letter) = match *row.code.as_bytes() {
        [selector, letter] => (selector, letter),
        _ => (0, row.code.as_bytes()[0]),
    };
    if random.once_in(8) {
        selector = *random.pick(&[0, b'0', b'1', b'2', b'3', b'4', b'A', 255]);
    }
    if random.once_in(8) {
        letter = *random.pick(b"ABCDEaz0-");
    }
    let mut number = |digits: usize| {
        let limit = 1usize << (6 * digits);
        match random.below(8) {
            0 => limit,
            1 => limit - 1,
            2 => limit + random.below(limit),
            3 => *random.pick(&[usize::MAX, 1 << 32, (1 << 32) + 1, 64, 4096, 262_144]),
            4 | 5 => 0,
            _ => random.below(limit),
        }
    };
    let (index, ondex) = (number(row.index), number(row.ondex));
    let length = match random.below(8) {
        0 => random.below(170),
        1 => row.raw() - 1 + 2 * random.below(2),
        _ => row.raw(),
    };
    let raw = random.bytes(length);
    alike_indexed(&Indexed {
        selector,
        letter,
        index,
        ondex,
        raw: &raw,
    })
}

/// Known codes and others, with lengths that fit and others.
pub fn any(random: &mut Random) -> Check {
    let mut item = match random.below(3) {
        0 => variable(random),
        _ => fixed_code(random),
    };
    if random.once_in(6) {
        item.0 = random.below(9) as u8;
    }
    if random.once_in(6) {
        item.1 = random.byte();
    }
    let (chars, letter, tags, length) = item;
    let tag = any_tag(random);
    alike(&Primitive {
        chars,
        letter,
        tag,
        tags: unfit(random, tags),
        raw: &value(random, letter, length),
    })
}

/// chars, letter, number of tag characters, length of the raw value or text.
type Shape = (u8, u8, usize, usize);

fn variable(random: &mut Random) -> Shape {
    let chars = 5 + random.below(2) as u8;
    let letter = match random.below(3) {
        0 => TEXT,
        _ => *random.pick(TYPES),
    };
    // Around the most that a small one holds, or short.
    let length = match (random.below(8), letter) {
        (0, TEXT) => 16_365 + random.below(32),
        (0, _) => 12_270 + random.below(32),
        _ => random.below(40),
    };
    (chars, letter, 0, length)
}

fn fixed_code(random: &mut Random) -> Shape {
    let (code, _, _) = *random.pick(&FIXED);
    let row = oracle::registry::fixed(code.as_bytes()).unwrap();
    let letter = code.as_bytes()[code.len() - 1];
    (code.len() as u8, letter, row.tag, row.raw())
}

/// Now and then another number near it, or one far off.
fn unfit(random: &mut Random, number: usize) -> usize {
    match random.below(12) {
        0 => number + 1,
        1 => number.saturating_sub(1),
        2 => *random.pick(&[11, 12, 13, 256, usize::MAX]),
        _ => number,
    }
}

fn value(random: &mut Random, letter: u8, length: usize) -> Vec<u8> {
    let length = match random.below(10) {
        0 => length + 1,
        1 => length.saturating_sub(1),
        _ => length,
    };
    match letter {
        TEXT if !random.once_in(10) => any_text(random, length),
        _ => random.bytes(length),
    }
}

/// Characters, now and then with `A` first, or with strangers among them.
fn any_text(random: &mut Random, length: usize) -> Vec<u8> {
    let mut text = random.characters(length);
    if random.once_in(4) {
        let fill = random.below(4);
        text.iter_mut().take(fill).for_each(|first| *first = b'A');
    }
    for strangers in [STRANGERS, ORDINARY] {
        let place = random.below(length);
        if let Some(there) = text.get_mut(place).filter(|_| random.once_in(6)) {
            *there = *random.pick(strangers);
        }
    }
    text
}

/// In the alphabet, or with strangers among them.
fn any_tag(random: &mut Random) -> Tag {
    let mut tag = [0; 11];
    tag.fill_with(|| random.character());
    for strangers in [STRANGERS, ORDINARY] {
        if random.once_in(4) {
            tag[random.below(11)] = *random.pick(strangers);
        }
    }
    if random.once_in(6) {
        tag[random.below(11)] = random.byte();
    }
    tag
}

/// Every type, small and large, around the most that each form holds, at each
/// lead: 12 beyond it, 18 for a large one up to the small one's, and a large
/// item of the most is a stream of the limit.
#[test]
fn every_type_at_the_limits() {
    let bytes = Random::new(0x1318).bytes(3_145_723);
    let mut text = Random::new(0x1316).characters(4_194_297);
    text[0] = b'-';
    for &letter in TYPES {
        let (raw, small, large) = match letter {
            TEXT => (&text, 16_377..=16_384, 4_194_293..=4_194_297),
            _ => (&bytes, 12_283..=12_288, 3_145_720..=3_145_723),
        };
        for chars in [5, 6] {
            for length in small.clone().chain(large.clone()) {
                let item = Primitive {
                    chars,
                    letter,
                    tag: [0; 11],
                    tags: 0,
                    raw: &raw[..length],
                };
                alike(&item).unwrap();
            }
        }
    }
}

/// Every writer's refusal of a text, alone and before the next one: a stranger
/// in each place, `A` first, and both.
#[test]
fn texts_that_are_refused() {
    for text in [
        "", "-", "-a", "-a-", "-a-b", "A", "Aa", "Aa-", "Aa-b", "AAAA",
    ] {
        for place in 0..=text.len() {
            for stranger in *b"!=" {
                let mut given = text.as_bytes().to_vec();
                if let Some(there) = given.get_mut(place) {
                    *there = stranger;
                }
                for (chars, tags) in [(5, 0), (6, 0), (5, 1)] {
                    let item = Primitive {
                        chars,
                        letter: TEXT,
                        tag: *b"!!!!!!!!!!!",
                        tags,
                        raw: &given,
                    };
                    alike(&item).unwrap();
                }
            }
        }
    }
}
