//! Streams and values as long as 01 lets them be, one less and one more.

use crate::{judges, seconds, walks, writes};
use streams::form::{characters, FORMS};
use streams::{decks, Form, Random};

#[test]
fn lengths_around_the_limits() {
    let mut random = Random::new(0x1141);
    let makers = [
        decks::digests,
        decks::nests,
        decks::all_codes,
        decks::labels,
        decks::signatures,
        decks::attachments,
        units,
    ];
    for (index, maker) in makers.into_iter().enumerate() {
        let long = maker(&mut random, 4_200_000);
        for form in FORMS {
            let made = form.of_text(&long);
            let limit = judges::oracle_form(form).limit();
            for end in [8_191, 8_192, 8_193, limit - 1, limit, limit + 1] {
                at_a_limit(&made[..end], form, index as u64);
            }
        }
    }
}

/// Units that are each an item: the most rows a report can have.
fn units(_: &mut Random, size: usize) -> Vec<u8> {
    b"1AAK".repeat(size / 4)
}

/// No shrinking here: the length is what matters. Long streams are walked at
/// the limit itself alone, which is where the time goes.
fn at_a_limit(made: &[u8], form: Form, seed: u64) {
    let walked = made.len() < 10_000 || made.len() >= judges::oracle_form(form).limit();
    let check = |s: &[u8]| {
        judges::report(s, form)?;
        seconds::alike(s, form)?;
        judges::conversion(s, form)?;
        for at in [0, 4, s.len() / 2, s.len() - 1, s.len()] {
            judges::read(s, form, at)?;
        }
        if walked {
            walks::from_the_start(s, form)?;
        }
        walks::from_made_up(s, form, seed)
    };
    if let Err(why) = check(made) {
        panic!("{form:?} of {} elements: {why}", made.len());
    }
}

/// Conversion goes by tables of pairs from 1,024 units of binary and 2,048 of
/// text on, some units a turn: each length around these, and strangers in
/// each place of the last units.
#[test]
fn conversion_around_its_tables() {
    let mut random = Random::new(0x2048);
    for units in (1_016..1_040).chain(2_040..2_064) {
        let mut text = random.characters(4 * units);
        for form in FORMS {
            conversion(&form.of_text(&text), form);
        }
        for place in text.len() - 40..text.len() {
            let known = std::mem::replace(&mut text[place], random.below(256) as u8);
            conversion(&text, Form::Text);
            text[place] = known;
        }
    }
}

fn conversion(made: &[u8], form: Form) {
    if let Err(why) = judges::conversion(made, form) {
        panic!("{form:?} of {} elements: {why}", made.len());
    }
}

/// One item that fills the stream to the limit: a group of so many units, and
/// a large value, each also counting one unit more than there is.
#[test]
fn one_item_of_the_limit() {
    let units = (1 << 20) - 2;
    for head in [&b"--AA"[..], b"--KA", b"--JA", b"7AAB", b"7AAA", b"8AAA"] {
        for count in [units, units + 1] {
            let mut text = head.to_vec();
            text.extend(characters(count as u32));
            text.extend(b"1AAK".repeat(units));
            for form in FORMS {
                at_a_limit(&form.of_text(&text), form, 1);
            }
        }
    }
}

#[test]
fn writes_at_the_limits() {
    let raw = Random::new(0x1317).bytes(3_145_724);
    for chars in [5, 6] {
        for length in [
            0, 1, 2, 3, 12_283, 12_284, 12_285, 12_286, 3_145_720, 3_145_721, 3_145_722, 3_145_723,
        ] {
            let item = proved::Primitive {
                chars,
                letter: b'B',
                tag: [0; 11],
                tags: 0,
                raw: &raw[..length],
            };
            writes::alike(&item).unwrap();
        }
    }
}
