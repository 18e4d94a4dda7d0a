//! Streams that were never right.

use crate::form::Form;
use crate::item::group_header;
use crate::random::Random;
use crate::table::{GROUPS, HEADS};

/// Bytes, characters, or likely heads with anything between them.
pub fn noise(random: &mut Random, form: Form, most: usize) -> Vec<u8> {
    let length = random.below(most + 1);
    match random.below(3) {
        0 => random.bytes(length),
        1 => {
            let text = random.characters(length * 4 / form.unit());
            form.of_text(&text)
        }
        _ => form.of_text(&heads(random, length / 4)),
    }
}

/// Up to `most` units that are likely to be framed.
pub fn heads(random: &mut Random, most: usize) -> Vec<u8> {
    let mut text = Vec::new();
    while text.len() < 4 * most {
        match random.below(4) {
            0 => {
                let (letter, units) = (*random.pick(GROUPS), random.below(9));
                text.extend(group_header(letter, random.once_in(4), units));
            }
            1 => text.extend(random.characters(4)),
            _ => text.extend(random.pick(&HEADS).as_bytes()),
        }
    }
    text
}
