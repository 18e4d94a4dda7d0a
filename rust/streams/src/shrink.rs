//! Makes a failing stream small, so that a person can read it.
//!
//! Parts are taken out and units made simple as long as the stream still
//! fails. Where a part is taken out of a group, the counts around it are
//! lowered with it; that is tried as well as leaving them. Long streams are cut
//! into stretches that do not overlap, and their single bytes are left.

use crate::form::Form;

/// From so many bytes on a stream is long.
const LONG: usize = 4096;

/// A small stream on which `fails` is still true. `stream` must fail.
pub fn shrink(stream: &[u8], form: Form, mut fails: impl FnMut(&[u8]) -> bool) -> Vec<u8> {
    let mut best = stream.to_vec();
    loop {
        let before = best.clone();
        take_out_units(&mut best, form, &mut fails);
        if best.len() < LONG {
            take_out_bytes(&mut best, &mut fails);
            make_simple(&mut best, form, &mut fails);
        }
        if best == before {
            return best;
        }
    }
}

/// Keeps a candidate that still fails.
fn keep(best: &mut Vec<u8>, candidate: Vec<u8>, fails: &mut impl FnMut(&[u8]) -> bool) -> bool {
    let smaller = candidate != *best && fails(&candidate);
    if smaller {
        *best = candidate;
    }
    smaller
}

/// Stretches of units, long ones first.
fn take_out_units(best: &mut Vec<u8>, form: Form, fails: &mut impl FnMut(&[u8]) -> bool) {
    let mut units = (best.len() / form.unit()).next_power_of_two();
    while units > 0 {
        let length = units * form.unit();
        let mut offset = 0;
        while offset + length <= best.len() {
            let lowered = without(&lowered(best, form, offset, units), offset, length);
            let taken =
                keep(best, lowered, fails) || keep(best, without(best, offset, length), fails);
            if !taken {
                offset += if best.len() < LONG {
                    form.unit()
                } else {
                    length
                };
            }
        }
        units /= 2;
    }
}

fn without(stream: &[u8], offset: usize, length: usize) -> Vec<u8> {
    [&stream[..offset], &stream[offset + length..]].concat()
}

/// The stream with all small groups that reach over a unit counting less.
fn lowered(stream: &[u8], form: Form, offset: usize, units: usize) -> Vec<u8> {
    let mut lower = stream.to_vec();
    for header in (0..offset).step_by(form.unit()) {
        let bits = form.bits(stream, header);
        let count = (bits & 0xFFF) as usize;
        let reaches = header + (1 + count) * form.unit() > offset;
        if bits >> 18 == 62 && reaches && count >= units {
            form.put(&mut lower, header, bits - units as u32);
        }
    }
    lower
}

/// Single bytes, from the end on.
fn take_out_bytes(best: &mut Vec<u8>, fails: &mut impl FnMut(&[u8]) -> bool) {
    for offset in (0..best.len()).rev() {
        keep(best, without(best, offset, 1), fails);
    }
}

/// Each byte to its simplest, or each unit to one that counts less.
fn make_simple(best: &mut Vec<u8>, form: Form, fails: &mut impl FnMut(&[u8]) -> bool) {
    let plain = if form == Form::Text { b'A' } else { 0 };
    for offset in 0..best.len() {
        let mut simple = best.clone();
        simple[offset] = plain;
        keep(best, simple, fails);
    }
    for offset in (0..best.len()).step_by(form.unit()) {
        let bits = form.bits(best, offset);
        let mut simple = best.clone();
        form.put(
            &mut simple,
            offset,
            (bits & 0xFF_F000) | ((bits & 0xFFF) / 2),
        );
        keep(best, simple, fails);
    }
}

#[cfg(test)]
mod tests {
    use super::*;
    use crate::generate::any_deck;
    use crate::item::stream;
    use crate::random::Random;

    #[test]
    fn down_to_the_part_that_matters() {
        let mut random = Random::new(6);
        let mut text = stream(&any_deck(&mut random, 12));
        text.extend(b"MAAB!A");
        let small = shrink(&text, Form::Text, |s| s.contains(&b'!'));
        assert_eq!(small, b"!");
    }

    #[test]
    fn of_a_long_stream_too() {
        let mut text = b"MAAB".repeat(6000);
        text[13_001] = b'!';
        let small = shrink(&text, Form::Text, |s| s.contains(&b'!'));
        assert_eq!(small, b"!");
    }

    #[test]
    fn counts_go_down_with_the_contents() {
        // Fails: a group with just its contents, in which a unit `MAAB` stands.
        let fails = |s: &[u8]| {
            let count = (Form::Text.bits(s, 0) & 0xFFF) as usize;
            s.starts_with(b"-")
                && s.len() == 4 + 4 * count
                && s[4..].chunks(4).any(|u| u == b"MAAB")
        };
        let stream = b"-JAF1AAK1AALMAAB1AAM1AAK";
        assert!(fails(stream));
        let small = shrink(stream, Form::Text, fails);
        assert_eq!(small, b"-AABMAAB");
    }
}
