//! Changes of an input that know what a stream is: half of them are the ways
//! of damage of `streams`, or an accepted item put in; the others libFuzzer's.

use crate::input::{Call, Front, Room, LONG};
use crate::seeds::{long_group, writes};
use proved::MAX_DEPTH;
use streams::body::{body, Body};
use streams::damage::damage;
use streams::expectation::{file, report, spoilt, varied, verdicts, FILE, REPORT};
use streams::form::characters;
use streams::generate::{any_item, large_code, LARGE_CODES, TOP};
use streams::item::stream;
use streams::{mixed, Form, Random};

extern "C" {
    fn LLVMFuzzerMutate(data: *mut u8, size: usize, most: usize) -> usize;
}

/// What libFuzzer calls for a new input from an old one.
///
/// # Safety
///
/// `data` is valid for `most` bytes, of which the first `size` are the input.
#[no_mangle]
pub unsafe extern "C" fn LLVMFuzzerCustomMutator(
    data: *mut u8,
    size: usize,
    most: usize,
    seed: u32,
) -> usize {
    let mut random = Random::new(u64::from(seed));
    // SAFETY: by the contract.
    let input = unsafe { std::slice::from_raw_parts_mut(data, most) };
    // Long streams take long: what comes of them is mostly none.
    if size > 1 && input[1] == LONG && !random.once_in(64) {
        input[1] = 0;
    }
    if random.once_in(2) {
        if let Some(size) = changed(&mut random, input, size) {
            return size;
        }
    }
    // SAFETY: by the contract.
    unsafe { LLVMFuzzerMutate(data, size, most) }
}

/// The stream of an input changed in place; nothing if it has none.
fn changed(random: &mut Random, input: &mut [u8], size: usize) -> Option<usize> {
    let mut front = Front(&input[..size]);
    let (call, form, _, too_long) = front.choice();
    front.room();
    if too_long || size < 2 {
        return None;
    }
    match call {
        Call::Write => return another_write(random, form, input),
        Call::WalkFrom if random.once_in(2) => {
            front.state();
            let made = [&another_state(random, form, front.0), front.0].concat();
            return replaced(input, 2, &made);
        }
        Call::WalkFrom => drop(front.state()),
        Call::Read => drop(front.number()),
        Call::Compare => return another_compare(random, input, size),
        Call::Group if random.once_in(2) => return another_group(random, form, input),
        Call::Group => drop((front.byte(), front.number())),
        Call::Second => drop(front.room()),
        Call::Mixed if random.once_in(2) => return another_mixed(random, front.0.to_vec(), input),
        Call::Pieces if random.once_in(3) => return another_cut(random, input, size),
        Call::Pieces => drop(front.cut(Room::Exact)),
        _ if random.once_in(400) => return long_stream(random, form, input),
        _ => {}
    }
    let mut made = front.0.to_vec();
    let from = size - made.len();
    if random.once_in(3) {
        put_in(random, form, &mut made);
    } else {
        damage(random, form, &mut made);
    }
    replaced(input, from, &made)
}

/// The input from there on is what was made, as far as it has room.
fn replaced(input: &mut [u8], from: usize, made: &[u8]) -> Option<usize> {
    let room = input.get_mut(from..)?;
    let length = made.len().min(room.len());
    room[..length].copy_from_slice(&made[..length]);
    Some(from + length)
}

/// A state that fits the stream, any number open, as `Front::state` takes it
/// apart; or one that has one byte wrong.
fn another_state(random: &mut Random, form: Form, stream: &[u8]) -> Vec<u8> {
    let units = stream.len() / form.unit();
    let open = random.below(MAX_DEPTH + 1);
    let mut ends = Vec::new();
    let mut end = units;
    for _ in 0..open {
        end -= random.below(3).min(end);
        ends.extend((end as u16).to_be_bytes());
    }
    let position = (random.below(end) as u16).to_be_bytes();
    let mark = random.below(2).min(open);
    let mut state = vec![open as u8, position[0], position[1], mark as u8, open as u8];
    state.extend(ends);
    if random.once_in(2) {
        let place = random.below(state.len());
        state[place] = match random.below(3) {
            0 => state[place].wrapping_add(1),
            1 => state[place].wrapping_sub(1),
            _ => random.byte(),
        };
    }
    state
}

/// A comparison with its file or its report not well made, or verdicts varied.
fn another_compare(random: &mut Random, input: &mut [u8], size: usize) -> Option<usize> {
    let there = verdicts(random, 20);
    let wanted = varied(random, &there);
    let (left, over) = (random.below(2), random.below(2));
    let mut expected = file(&wanted, &[4][..left]);
    let mut told = report(random, &there, &[4][..over]);
    match random.below(4) {
        0 => expected = spoilt(random, &FILE, &expected),
        1 => told = spoilt(random, &REPORT, &told),
        2 => told = input[2..size].to_vec(),
        _ => {}
    }
    input[0] &= !3;
    let length = [expected.len() as u8];
    replaced(input, 2, &[&length, &expected[..], &[0], &told].concat())
}

/// Another body with its letter; its own length is stated, or another. Or a long
/// one, around what a small code counts.
fn another_group(random: &mut Random, form: Form, input: &mut [u8]) -> Option<usize> {
    if random.once_in(100) {
        *input.get_mut(1)? = LONG;
        let (letter, units) = (*random.pick(b"ACJZ"), 4094 + random.below(5));
        return replaced(input, 2, &long_group(form, letter, units));
    }
    let kind = random.number();
    let Body { letter, bytes } = body(random, form, kind);
    let stated = match random.below(6) {
        0 => (bytes.len() as u16).wrapping_add(random.below(9) as u16),
        1 => random.number() as u16,
        _ => 0,
    };
    let [high, low] = stated.to_be_bytes();
    replaced(input, 2, &[&[letter, high, low], &bytes[..]].concat())
}

/// Another mixed stream, or a part of one put in or behind.
fn another_mixed(random: &mut Random, mut made: Vec<u8>, input: &mut [u8]) -> Option<usize> {
    match random.below(4) {
        0 => made = mixed::any_deck(random, 3),
        1 => made.extend(mixed::part(random)),
        2 => {
            let part = mixed::any_part(random);
            made.splice(0..0, part);
        }
        _ => {
            let (part, place) = (mixed::part(random), random.below(made.len() + 1));
            made.splice(place..place, part);
        }
    }
    replaced(input, 2, &made)
}

/// One byte of how a stream is cut, of its rooms, or of what is damaged.
fn another_cut(random: &mut Random, input: &mut [u8], size: usize) -> Option<usize> {
    let place = 1 + random.below(size.min(20) - 1);
    input[place] = match random.below(3) {
        0 => random.below(6) as u8,
        1 => 128 + random.below(16) as u8,
        _ => random.byte(),
    };
    Some(size)
}

/// Where an input to write has its raw value's length.
const LENGTH: usize = 16;

/// An accepted write of any code with one thing changed. Edge and room stay.
fn another_write(random: &mut Random, form: Form, input: &mut [u8]) -> Option<usize> {
    let mut made = random.pick(&writes(form)).clone();
    match random.below(4) {
        0 => made[LENGTH..LENGTH + 2].copy_from_slice(&[0xFF, random.byte()]),
        1 => made.push(random.byte()),
        2 => drop(made.pop()),
        _ => {
            let place = 2 + random.below(made.len() - 2);
            made[place] = random.byte();
        }
    }
    replaced(input, 2, &made[2..])
}

/// A long stream of an item with a large code, around the least that it
/// counts, or what it is short of that.
fn long_stream(random: &mut Random, form: Form, input: &mut [u8]) -> Option<usize> {
    let index = random.below(LARGE_CODES);
    let item = stream(&[large_code(random, index, 1)]);
    let units = characters(4093 + random.below(6) as u32);
    let unit = *random.pick(&[*b"1AAK", *b"AAAA", *b"AQAA"]);
    // Its own first unit, which a text's fill stands in, or another.
    let first = *random.pick(&[&item[8..], &unit]);
    let text = [&item[..4], &units, first, &unit].concat();
    *input.get_mut(1)? = LONG;
    replaced(input, 2, &form.of_text(&text))
}

/// An accepted item before any unit.
fn put_in(random: &mut Random, form: Form, made: &mut Vec<u8>) {
    let item = form.of_text(&stream(&[any_item(random, TOP, 3)]));
    let units = made.len() / form.unit();
    let offset = random.below(units + 1) * form.unit();
    made.splice(offset..offset, item);
}
