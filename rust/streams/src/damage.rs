//! The ways in which a stream goes wrong.

// All operators have one type, also those that leave the length as it is.
#![allow(clippy::ptr_arg)]

use crate::form::{characters, Form};
use crate::generate::{any_fill, any_indexed, any_signatures, front_unit, MOST_GROUPS};
use crate::item::{group_header, stream_in};
use crate::random::Random;
use crate::table::{GROUPS, HEADS, MOST_SMALL};

/// One way of damage. It changes the stream in place.
pub type Operator = fn(&mut Random, Form, &mut Vec<u8>);

/// All of them, with a name for messages.
pub const OPERATORS: [(&str, Operator); 18] = [
    ("flip a bit", flip_bit),
    ("any byte", any_byte),
    ("wrong alphabet", wrong_alphabet),
    ("ordinary Base64", ordinary_base64),
    ("truncate", truncate),
    ("remove bytes", remove_bytes),
    ("remove units", remove_units),
    ("repeat units", repeat_units),
    ("swap units", swap_units),
    ("splice", splice),
    ("another head", another_head),
    ("another count", another_count),
    ("large code", large_code),
    ("genus code", genus_code),
    ("another fill", another_fill),
    ("another signature", another_signature),
    ("wrap", wrap),
    ("flip a header's bit", flip_header_bit),
];

/// One to three damages of any kind.
pub fn damage(random: &mut Random, form: Form, stream: &mut Vec<u8>) {
    for _ in 0..1 + random.below(3) {
        let (_, operator) = *random.pick(&OPERATORS);
        operator(random, form, stream);
    }
}

/// The offset of any unit, the place behind the last one included.
fn unit_offset(random: &mut Random, form: Form, stream: &[u8]) -> usize {
    random.below(stream.len() / form.unit() + 1) * form.unit()
}

/// Offsets of units that look like a small group's header.
fn group_headers(form: Form, stream: &[u8]) -> Vec<usize> {
    let offsets = (0..stream.len()).step_by(form.unit());
    // `-` is 62; the letters end with `c`, 28.
    let is_group = |offset: &usize| {
        let bits = form.bits(stream, *offset);
        bits >> 18 == 62 && bits >> 12 & 63 <= 28
    };
    offsets.filter(is_group).collect()
}

/// Those and the ones that look like a small variable's: `4` is 56.
fn counted_headers(form: Form, stream: &[u8]) -> Vec<usize> {
    let offsets = (0..stream.len()).step_by(form.unit());
    let is_variable = |offset: &usize| matches!(form.bits(stream, *offset) >> 18, 56..=58);
    let mut headers = group_headers(form, stream);
    headers.extend(offsets.filter(is_variable));
    headers
}

fn insert(stream: &mut Vec<u8>, offset: usize, part: &[u8]) {
    stream.splice(offset..offset, part.iter().copied());
}

fn flip_bit(random: &mut Random, _: Form, stream: &mut Vec<u8>) {
    let place = random.below(stream.len());
    if let Some(byte) = stream.get_mut(place) {
        *byte ^= 1 << random.below(8);
    }
}

/// A bit of a first unit, so of a code, a count or pad bits: the header that
/// is hit is any unit's in a small stream and the first in a long one.
fn flip_header_bit(random: &mut Random, form: Form, stream: &mut Vec<u8>) {
    let offset = unit_offset(random, form, stream).min(8 * form.unit());
    let bits = form.bits(stream, offset) ^ 1 << random.below(24);
    form.put(stream, offset, bits);
}

fn any_byte(random: &mut Random, _: Form, stream: &mut Vec<u8>) {
    let place = random.below(stream.len());
    if let Some(byte) = stream.get_mut(place) {
        *byte = random.byte();
    }
}

/// Those of the ordinary alphabet, and others: next to the alphabet's, next to
/// these three, and far off.
pub const ORDINARY: &[u8; 3] = b"+/=";
pub const STRANGERS: &[u8] = b"+/=\n \t.,*<>!@[^`{:;\x00\x0D\x7F\x80\xC1\xFF";

/// One stranger, or two near each other, of either kind.
fn wrong_alphabet(random: &mut Random, _: Form, stream: &mut Vec<u8>) {
    let mut place = random.below(stream.len());
    for _ in 0..1 + random.below(2) {
        let strangers = *random.pick(&[STRANGERS, ORDINARY]);
        if let Some(byte) = stream.get_mut(place) {
            *byte = *random.pick(strangers);
        }
        place += random.below(6);
    }
}

/// A stretch as ordinary Base64 has it: `+` for `-`, `/` for `_`, `=` at its end.
fn ordinary_base64(random: &mut Random, _: Form, stream: &mut Vec<u8>) {
    let from = random.below(stream.len());
    let to = (from + 1 + random.below(60)).min(stream.len());
    let padded = random.below(3);
    let Some(stretch) = stream.get_mut(from..to) else {
        return;
    };
    for character in &mut *stretch {
        *character = match *character {
            b'-' => b'+',
            b'_' => b'/',
            known => known,
        };
    }
    let last = stretch.iter_mut().rev().take(padded);
    last.for_each(|character| *character = b'=');
}

fn truncate(random: &mut Random, _: Form, stream: &mut Vec<u8>) {
    let few = random.once_in(2);
    let lost = random.below(if few { 6 } else { stream.len() + 1 });
    stream.truncate(stream.len().saturating_sub(lost));
}

fn remove_bytes(random: &mut Random, _: Form, stream: &mut Vec<u8>) {
    let from = random.below(stream.len() + 1);
    let to = (from + 1 + random.below(9)).min(stream.len());
    stream.drain(from..to.max(from));
}

fn remove_units(random: &mut Random, form: Form, stream: &mut Vec<u8>) {
    let from = unit_offset(random, form, stream);
    let to = from + form.unit() * (1 + random.below(4));
    stream.drain(from..to.min(stream.len()).max(from));
}

fn repeat_units(random: &mut Random, form: Form, stream: &mut Vec<u8>) {
    let from = unit_offset(random, form, stream);
    let to = from + form.unit() * (1 + random.below(4));
    let part = stream[from..to.min(stream.len()).max(from)].to_vec();
    insert(stream, from, &part);
}

fn swap_units(random: &mut Random, form: Form, stream: &mut Vec<u8>) {
    let one = unit_offset(random, form, stream);
    let other = unit_offset(random, form, stream);
    let (first, second) = (form.bits(stream, one), form.bits(stream, other));
    form.put(stream, one, second);
    form.put(stream, other, first);
}

/// A part of the stream goes over another part of it.
fn splice(random: &mut Random, _: Form, stream: &mut Vec<u8>) {
    let mut cut = || random.below(stream.len() + 1);
    let (a, b, c, d) = (cut(), cut(), cut(), cut());
    let part = stream[a.min(b)..a.max(b)].to_vec();
    stream.splice(c.min(d)..c.max(d), part);
    stream.truncate(1 << 16);
}

/// The start of one stream and the end of another; mostly cut between units.
pub fn cross(random: &mut Random, form: Form, one: &[u8], other: &[u8]) -> Vec<u8> {
    let mut cut = |stream: &[u8]| {
        if random.once_in(4) {
            return random.below(stream.len() + 1);
        }
        unit_offset(random, form, stream)
    };
    [&one[..cut(one)], &other[cut(other)..]].concat()
}

/// A known, unknown or reserved head, over a unit or before it.
fn another_head(random: &mut Random, form: Form, stream: &mut Vec<u8>) {
    let offset = unit_offset(random, form, stream);
    let head = form.of_text(random.pick(&HEADS).as_bytes());
    if random.once_in(2) {
        insert(stream, offset, &head);
    } else {
        let bits = form.bits(&head, 0);
        form.put(stream, offset, bits);
    }
}

/// A group's or variable's count by a little more or less, or to anything.
fn another_count(random: &mut Random, form: Form, stream: &mut Vec<u8>) {
    let headers = counted_headers(form, stream);
    if headers.is_empty() {
        return;
    }
    let offset = *random.pick(&headers);
    let bits = form.bits(stream, offset);
    let count = match random.below(4) {
        0 => bits.wrapping_add(1),
        1 => bits.wrapping_sub(1),
        2 => bits.wrapping_add(random.below(9) as u32),
        _ => random.number() as u32,
    };
    form.put(stream, offset, bits & 0xFF_F000 | count & 0xFFF);
}

/// A small group's or variable's header as the large one of the same count;
/// groups that reach over it count the unit that it is longer by.
fn large_code(random: &mut Random, form: Form, stream: &mut Vec<u8>) {
    let headers = counted_headers(form, stream);
    if headers.is_empty() {
        return;
    }
    let offset = *random.pick(&headers);
    let groups = group_headers(form, stream);
    for header in groups.into_iter().filter(|group| *group < offset) {
        let bits = form.bits(stream, header);
        let reaches = header + (1 + (bits & 0xFFF) as usize) * form.unit() > offset;
        if reaches && bits & 0xFFF < 0xFFF {
            form.put(stream, header, bits + 1);
        }
    }
    let bits = form.bits(stream, offset);
    let (selector, letter, count) = (bits >> 18, bits >> 12 & 63, bits & 0xFFF);
    // `-` is 62; from a small selector to its large one it is three.
    let first = match selector {
        62 => 62 << 18 | 62 << 12 | letter << 6,
        _ => (selector + 3) << 18 | letter,
    };
    form.put(stream, offset, first);
    let second = form.of_text(&characters(count));
    insert(stream, (offset + form.unit()).min(stream.len()), &second);
}

/// Another first unit for a value of type `A`; where none stands, such an item
/// before any unit.
fn another_fill(random: &mut Random, form: Form, stream: &mut Vec<u8>) {
    let unit = form.unit();
    let offsets = (0..stream.len().saturating_sub(unit)).step_by(unit);
    // `4A` to `6A`, and `7AAA` to `9AAA` with a second unit.
    let value = |offset: usize| match form.bits(stream, offset) {
        0xEC_0000 | 0xF0_0000 | 0xF4_0000 => Some(offset + 2 * unit),
        bits if matches!(bits >> 12, 0xE00 | 0xE40 | 0xE80) => Some(offset + unit),
        _ => None,
    };
    let values: Vec<usize> = offsets.filter_map(value).collect();
    if values.is_empty() || random.once_in(4) {
        let item = stream_in(&[any_fill(random)], form);
        let offset = unit_offset(random, form, stream);
        insert(stream, offset, &item);
        return;
    }
    let first = form.of_text(&front_unit(random));
    let bits = form.bits(&first, 0);
    form.put(stream, *random.pick(&values), bits);
}

/// Another header for the first item of a group of signatures: of any indexed
/// item, so of another code, ondex or pad bits; where there is no such group,
/// one before any unit.
fn another_signature(random: &mut Random, form: Form, stream: &mut Vec<u8>) {
    let unit = form.unit();
    let mut groups = group_headers(form, stream);
    // `K` is 10, `L` 11.
    groups.retain(|offset| matches!(form.bits(stream, *offset) >> 12 & 63, 10 | 11));
    if groups.is_empty() || random.once_in(4) {
        let group = stream_in(&[any_signatures(random)], form);
        let offset = unit_offset(random, form, stream);
        insert(stream, offset, &group);
        return;
    }
    let first = *random.pick(&groups) + unit;
    let item = stream_in(&[any_indexed(random)], form);
    for place in 0..1 + random.below(2) {
        let bits = form.bits(&item, place * unit);
        form.put(stream, first + place * unit, bits);
    }
}

/// The genus/version that is read, and others that differ from it.
pub const GENUS_CODES: [&str; 5] = ["-_AAACAA", "-_AAABAA", "-_BAACAA", "-_AAACAB", "-_ABACAA"];

/// A genus/version of some kind before any unit, often the first of a group.
fn genus_code(random: &mut Random, form: Form, stream: &mut Vec<u8>) {
    let code = form.of_text(random.pick(&GENUS_CODES).as_bytes());
    let headers = group_headers(form, stream);
    let offset = if headers.is_empty() || random.once_in(2) {
        unit_offset(random, form, stream)
    } else {
        (*random.pick(&headers) + form.unit()).min(stream.len())
    };
    insert(stream, offset, &code);
}

/// A group's header before any unit, counting some units of what follows; at
/// times many of them, so that what follows stands too deep. One may be large
/// where a small one would do.
fn wrap(random: &mut Random, form: Form, stream: &mut Vec<u8>) {
    let offset = unit_offset(random, form, stream);
    let left = (stream.len() - offset) / form.unit();
    let mut units = if random.once_in(2) {
        left
    } else {
        random.below(left + 2)
    };
    let times = if random.once_in(4) {
        MOST_GROUPS - 6 + random.below(9)
    } else {
        1
    };
    let letter = *random.pick(GROUPS);
    let spelt_large = random.below(4 * times);
    for place in 0..times {
        let large = units > MOST_SMALL || place == spelt_large;
        let header = form.of_text(&group_header(letter, large, units));
        insert(stream, offset, &header);
        units += header.len() / form.unit();
    }
}

#[cfg(test)]
mod tests {
    use super::*;
    use crate::form::FORMS;

    #[test]
    fn no_operator_fails_on_short_streams() {
        let mut random = Random::new(4);
        for (_, operator) in OPERATORS {
            for length in (0..20).chain(0..20) {
                for form in FORMS {
                    let mut stream = random.bytes(length);
                    operator(&mut random, form, &mut stream);
                }
            }
        }
    }

    #[test]
    fn another_fill_finds_the_texts() {
        let mut random = Random::new(6);
        // `4A` at 4 and, behind it, `8AAA` with 4,096 units at 12.
        let mut text = b"MAAB4AAB-a-b8AAAABAAAA-a".to_vec();
        text.extend(b"BCDE".repeat(4095));
        for form in FORMS {
            let before = form.of_text(&text);
            let mut seen = Vec::new();
            for _ in 0..200 {
                let mut stream = before.clone();
                another_fill(&mut random, form, &mut stream);
                if stream.len() == before.len() {
                    let units = (0..before.len()).step_by(form.unit());
                    let changed = |at: &usize| form.bits(&stream, *at) != form.bits(&before, *at);
                    seen.extend(units.filter(changed).map(|at| at / form.unit()));
                }
            }
            seen.sort();
            seen.dedup();
            assert_eq!(seen, [2, 5]);
        }
    }

    #[test]
    fn every_operator_changes_something() {
        let mut random = Random::new(5);
        for (name, operator) in OPERATORS {
            let changes = |_: &usize| {
                let mut stream = b"-JAD-AABMAABEAAAMAAB4BAB____".to_vec();
                let before = stream.clone();
                operator(&mut random, Form::Text, &mut stream);
                stream != before
            };
            assert!((0..100).filter(changes).count() > 30, "{name}");
        }
    }
}
