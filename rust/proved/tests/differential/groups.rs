//! Groups put around bodies by both, in buffers of every size; and what the
//! library says of a group that it wrote, and of one that it would not write.

use crate::demands::rows;
use crate::judges::{by_proved, oracle_form, same, Check};
use crate::{deck, demand};
use proved::{Item, Refusal, State, STATE, STATE_FIRST, STATE_INDEXED, STATE_OPEN};
use streams::body::Body;
use streams::form::FORMS;
use streams::generate::{filled_indexed, nested};
use streams::item::{group_header, stream_in};
use streams::table::{holds_indexed, is_overrideable, GROUPS, MOST_SMALL};
use streams::{Form, Random};

type Call = fn(u8, usize, &mut [u8]) -> Result<usize, Refusal>;

/// The library's and the oracle's.
fn calls(form: Form) -> [Call; 2] {
    match form {
        Form::Text => [proved::group_text, beside::group_text],
        Form::Binary => [proved::group_binary, beside::group_binary],
    }
}

/// Every check of one body in a group of one letter.
pub fn around(letter: u8, body: &[u8], form: Form) -> Check {
    alike(letter, body, form)?;
    judged(letter, body, form)
}

/// The body in buffers with just enough room for the group, one less, none
/// behind the body and more, and with less than its length; and other lengths
/// stated: one less and more, none, the buffer's, and past everything.
fn alike(letter: u8, body: &[u8], form: Form) -> Check {
    let length = body.len();
    let size = length + header(letter, body, form).len();
    for (room, stated) in [
        (size + 9, length),
        (size, length),
        (size - 1, length),
        (length, length),
        (length.saturating_sub(1), length),
        (0, length),
        (size, length + 1),
        (size, length.saturating_sub(1)),
        (size + 9, 0),
        (size, size),
        (size, size + 1),
        (size, usize::MAX),
    ] {
        in_buffer(letter, body, form, room, stated)?;
    }
    Ok(())
}

/// Both on a buffer of this room that starts with the body, AA behind it.
fn in_buffer(letter: u8, body: &[u8], form: Form, room: usize, stated: usize) -> Check {
    let mut ours = body.to_vec();
    ours.resize(room, 0xAA);
    let mut theirs = ours.clone();
    let [proved, oracle] = calls(form);
    let answers = (
        proved(letter, stated, &mut ours),
        oracle(letter, stated, &mut theirs),
    );
    same(
        "group",
        (by_proved(answers.0), ours),
        (by_proved(answers.1), theirs),
    )
    .map_err(|why| format!("{:?}, {stated} of {room}, {why}", letter as char))
}

/// The header that 003 has for so many whole units.
fn header(letter: u8, body: &[u8], form: Form) -> Vec<u8> {
    let units = body.len() / form.unit();
    form.of_text(&group_header(letter, units > MOST_SMALL, units))
}

/// Of the library alone: a group that it writes is one accepted item, in which
/// the walk yields the body's items; one that it refuses for its contents is
/// refused so when it is judged, at the same place counted on.
fn judged(letter: u8, body: &[u8], form: Form) -> Check {
    let header = header(letter, body, form);
    let group = [&header, body].concat();
    let mut buffer = [body, &header].concat();
    let [write, _] = calls(form);
    match write(letter, body.len(), &mut buffer) {
        Ok(size) => {
            same("size", size, group.len())?;
            same("group", &buffer, &group)?;
            accepted(&group, form)?;
            walked(letter, body, &group, form)
        }
        Err(refusal) if is_of_the_contents(letter, body, form) => {
            let (number, place) = (usize::from(refusal.number), refusal.place);
            let found = rows(&group, form);
            same("items", found.items, vec![[0, group.len(), number]])?;
            let told = [0, number, header.len() + place];
            same("refusals", found.refusals, vec![told])?;
            same("remainder", found.remainder, vec![])
        }
        Err(refusal) => same("place", refusal.place, 0),
    }
}

/// With room enough only the walk of the body is left to refuse it.
fn is_of_the_contents(letter: u8, body: &[u8], form: Form) -> bool {
    let size = body.len() + header(letter, body, form).len();
    let within = size <= oracle_form(form).limit();
    within && GROUPS.contains(&letter) && body.len().is_multiple_of(form.unit())
}

fn accepted(group: &[u8], form: Form) -> Check {
    let found = rows(group, form);
    same("items", found.items, vec![[0, group.len(), 0]])?;
    same("refusals", found.refusals, vec![])?;
    same("remainder", found.remainder, vec![])
}

/// 02 e: "the group is yielded, then the items of that walk, their offsets
/// counted on by the header's size, the body's own at depth 1".
fn walked(letter: u8, body: &[u8], group: &[u8], form: Form) -> Check {
    let header = group.len() - body.len();
    let (items, end) = items(group, form, [0; STATE]);
    same("the walk's end", end, Ok(false))?;
    let large = usize::from(header > form.unit());
    let first = [0, group.len(), 0, 7 + large, usize::from(letter), 0];
    same("the group", items.first(), Some(&first))?;
    let within = match body.is_empty() {
        true => Vec::new(),
        false => contents(letter, body, form)?,
    };
    let mut on = within;
    on.iter_mut().for_each(|item| item[0] += header);
    same("the body's items", &items[1..], &on[..])
}

/// The items of a walk with this group open, which ends with the body.
fn contents(letter: u8, body: &[u8], form: Form) -> Result<Vec<Item>, String> {
    let mut state = [0; STATE];
    state[0] = body.len() / form.unit();
    state[STATE_OPEN] = 1;
    state[STATE_FIRST] = usize::from(is_overrideable(letter));
    state[STATE_INDEXED] = usize::from(holds_indexed(letter));
    let (items, end) = items(body, form, state);
    same("the body's end", end, Ok(false))?;
    Ok(items)
}

fn items(stream: &[u8], form: Form, mut state: State) -> (Vec<Item>, Result<bool, (u8, usize)>) {
    let step = match form {
        Form::Text => proved::walk_text,
        Form::Binary => proved::walk_binary,
    };
    let mut items = Vec::new();
    loop {
        let mut item = [0; 6];
        match step(stream, &mut state, &mut item) {
            Ok(true) => items.push(item),
            end => return (items, by_proved(end)),
        }
    }
}

/// One generated body.
pub fn one(random: &mut Random, form: Form, kind: u64) {
    let Body { letter, bytes } = streams::body::body(random, form, kind);
    demand(&bytes, form, |body| around(letter, body, form));
}

/// What the bodies are worth: each number that the writer gives is met, and
/// so is a group that is written, small and large.
#[test]
fn every_answer_is_met() {
    let mut seen = [0; 20];
    let mut large = 0;
    for seed in 0..20_000 {
        let form = FORMS[seed as usize % 2];
        let mut random = Random::new(seed);
        let Body { letter, bytes } = streams::body::body(&mut random, form, seed / 2);
        let mut buffer = [&bytes, &[0; 8][..]].concat();
        let answer = calls(form)[0](letter, bytes.len(), &mut buffer);
        seen[usize::from(answer.map_or_else(|refusal| refusal.number, |_| 0))] += 1;
        large += usize::from(answer.is_ok_and(|size| size - bytes.len() > form.unit()));
    }
    for (number, times) in seen.into_iter().enumerate() {
        let is_met = matches!(number, 0 | 2 | 4..=11 | 15 | 16 | 18 | 19);
        assert_eq!(times > 5, is_met, "{number} of {seen:?}");
    }
    assert!(large > 20, "{large}");
}

/// 02's own examples, and what follows from 003 for empty bodies.
#[test]
fn groups_of_02_e() {
    for (letter, body, told) in deck::GROUPS {
        for form in FORMS {
            let body = form.of_text(body.as_bytes());
            demand(&body, form, |body| around(*letter, body, form));
            let mut buffer = [&body, &[0xAA; 8][..]].concat();
            let answer = by_proved(calls(form)[0](*letter, body.len(), &mut buffer));
            match *told {
                Ok(group) => {
                    let group = form.of_text(group.as_bytes());
                    assert_eq!(answer, Ok(group.len()));
                    assert_eq!(buffer[..group.len()], group);
                }
                // The place in units is the same in both forms.
                Err((number, units)) => assert_eq!(answer, Err((number, units * form.unit()))),
            }
        }
    }
}

#[test]
fn every_letter() {
    for form in FORMS {
        for body in ["", "1AAK", "MAAB1AAK", "-AAA", "MAA", "_AAA"] {
            let body = match body.len() % 4 {
                0 => form.of_text(body.as_bytes()),
                _ => body.as_bytes()[..form.unit() - 1].to_vec(),
            };
            for letter in 0..=255 {
                around(letter, &body, form).unwrap();
            }
        }
        for row in streams::table::INDEXED {
            let item = streams::generate::indexed(&mut Random::new(1), row);
            let body = stream_in(&[item], form);
            for letter in GROUPS.iter().copied() {
                around(letter, &body, form).unwrap();
            }
        }
    }
}

/// 63 groups one in the other pass in a body, 64 are 11.
#[test]
fn depths_of_02_e() {
    for form in FORMS {
        for letter in *b"AJKZc" {
            for depth in 61..=66 {
                let body = stream_in(&nested(b"J", depth, Vec::new()), form);
                around(letter, &body, form).unwrap();
                let mut buffer = [&body, &[0; 8][..]].concat();
                let answer = by_proved(calls(form)[0](letter, body.len(), &mut buffer));
                let told = match (letter, depth) {
                    (b'K', _) => Err((6, 0)),
                    (_, ..64) => Ok(body.len() + form.unit()),
                    _ => Err((11, 63 * form.unit())),
                };
                assert_eq!(answer, told, "{letter} {depth}");
            }
        }
    }
}

#[test]
fn sizes_around_a_small_code() {
    let mut random = Random::new(0xE);
    for form in FORMS {
        for units in 4_094..=4_098 {
            let body = form.of_text(&b"1AAK".repeat(units));
            let signed = stream_in(&filled_indexed(&mut random, units), form);
            for (letter, body) in [(b'A', &body), (b'J', &body), (b'K', &signed)] {
                around(letter, body, form).unwrap();
                let mut buffer = [body, &[0; 8][..]].concat();
                let size = calls(form)[0](letter, body.len(), &mut buffer).unwrap();
                let headers = 1 + usize::from(units > 4_095);
                assert_eq!(size, body.len() + headers * form.unit());
            }
        }
    }
}

/// The longest body, a unit and an element less and more, and the limit itself:
/// with no room, room for just the group, one less and more.
#[test]
fn bodies_around_the_limit() {
    for form in FORMS {
        let (unit, limit) = (form.unit(), oracle_form(form).limit());
        let most = limit - 2 * unit;
        let long = form.of_text(&b"1AAK".repeat(limit / unit + 2));
        let lengths = [most - unit, most - 1, most, most + 1, most + unit];
        for length in lengths.into_iter().chain([limit, limit + 1]) {
            for letter in *b"AK0" {
                for room in [length, length + 2 * unit - 1, length + 2 * unit, length + 9] {
                    in_buffer(letter, &long[..length], form, room, length).unwrap();
                }
                in_buffer(letter, &long[..length], form, length, length + 1).unwrap();
            }
        }
        let mut buffer = long.clone();
        assert_eq!(calls(form)[0](b'J', most, &mut buffer), Ok(limit));
        let found = rows(&buffer[..limit], form);
        assert_eq!(found.items, [[0, limit, 0]]);
        assert_eq!(buffer[limit..], long[limit..]);
    }
}

/// A signature group of the limit's size.
#[test]
fn signatures_of_the_limit() {
    let units = (1 << 20) - 2;
    for form in FORMS {
        let body = stream_in(&filled_indexed(&mut Random::new(0x1E), units), form);
        for room in [
            body.len() + 2 * form.unit() - 1,
            body.len() + 2 * form.unit(),
        ] {
            in_buffer(b'L', &body, form, room, body.len()).unwrap();
        }
    }
}
