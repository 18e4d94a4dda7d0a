//! Mixed streams (02 d): the report beside the oracle's in every room, demand 3
//! of it, and its CESR items beside 01's two reports.

use crate::judges::{by_proved, lent, same, Check};
use crate::{demands, say, setting};
use streams::form::FORMS;
use streams::mixed::{any_deck, any_part, deck, event, header, HEADER, NO_STARTS, STARTS};
use streams::{shrink, Form, Random};

/// Rows as numbers: items (offset, size, verdict, form), refusals (index, number,
/// place), remainder (offset, number).
#[derive(Clone, Debug, PartialEq, Eq)]
pub struct Rows {
    pub items: Vec<[usize; 4]>,
    pub refusals: Vec<[usize; 3]>,
    pub remainder: Vec<[usize; 2]>,
}

pub fn rows(stream: &[u8]) -> Rows {
    let mut out = vec![0; 17 + 19 * (stream.len() / 3)];
    let length = proved::report_mixed(stream, &mut out).expect("a report");
    let mut rest = &out[..length];
    let found = Rows {
        items: demands::section(&mut rest, [4, 4, 1, 1]),
        refusals: demands::section(&mut rest, [4, 1, 4]),
        remainder: demands::section(&mut rest, [4, 1]),
    };
    assert!(rest.is_empty(), "{rest:02X?} left over");
    found
}

/// Both, into every room.
pub fn report(stream: &[u8]) -> Check {
    let room = oracle::mixed::report(stream).map_or(17, |report| report.room());
    lent(
        "mixed report",
        room,
        |out| by_proved(proved::report_mixed(stream, out)),
        |out| by_proved(beside::report_mixed(stream, out)),
    )
}

fn form_of(number: usize) -> Option<Form> {
    [Some(Form::Text), Some(Form::Binary), None][number]
}

/// Demand 3 with this header: bytes behind top-level headers are changed; both
/// reports have the same items, forms and remainder, and each item is judged as
/// by itself.
fn damaged(stream: &[u8], seed: u64) -> Check {
    let mut random = Random::new(seed);
    let before = rows(stream);
    let mut changed = stream.to_vec();
    for [offset, size, _, form] in &before.items {
        let header = match form_of(*form) {
            Some(form) => demands::header(stream, form, *offset),
            None => HEADER,
        };
        for _ in 0..random.below(3) {
            if header < *size {
                let place = offset + header + random.below(size - header);
                changed[place] = random.byte();
            }
        }
    }
    let after = rows(&changed);
    let framed = |rows: &Rows| -> Vec<[usize; 3]> {
        let items = rows.items.iter();
        items.map(|row| [row[0], row[1], row[3]]).collect()
    };
    same("items", framed(&after), framed(&before))?;
    same("remainder", &after.remainder, &before.remainder)?;
    each_by_itself(stream, &before)?;
    each_by_itself(&changed, &after)
}

fn each_by_itself(stream: &[u8], whole: &Rows) -> Check {
    let mut refusals = Vec::new();
    for (index, [offset, size, verdict, form]) in whole.items.iter().enumerate() {
        let item = &stream[*offset..offset + size];
        let own = rows(item);
        same("by itself", &own.items, &vec![[0, *size, *verdict, *form]])
            .map_err(|why| format!("item {index} {why}"))?;
        same("by itself", &own.remainder, &vec![])?;
        for [_, number, place] in &own.refusals {
            refusals.push([index, *number, place + offset]);
        }
        as_01_has_it(item, *form, &own)?;
    }
    same("refusals", &refusals, &whole.refusals)
}

/// A CESR item by itself has one row by 01's report of its form, with the same
/// verdict and place; and where it is whole units in the alphabet, its other form
/// is an item of this report too, in the ratio of four to three. A JSON item is
/// accepted.
fn as_01_has_it(item: &[u8], form: usize, own: &Rows) -> Check {
    let Some(form) = form_of(form) else {
        return same("JSON", own.refusals.len(), 0);
    };
    if item.len() > crate::judges::oracle_form(form).limit() {
        return Ok(());
    }
    let told = demands::rows(item, form);
    let narrow: Vec<_> = own
        .items
        .iter()
        .map(|row| [row[0], row[1], row[2]])
        .collect();
    same("01's items", &narrow, &told.items)?;
    same("01's refusals", &own.refusals, &told.refusals)?;
    same("01's remainder", &own.remainder, &told.remainder)?;
    in_the_other_form(item, form, own)
}

fn in_the_other_form(item: &[u8], form: Form, own: &Rows) -> Check {
    let units = item.len() / form.unit();
    let (other, number, unit) = match form {
        Form::Text => {
            let mut out = vec![0; 3 * units];
            if proved::to_binary(item, &mut out).is_err() {
                return Ok(());
            }
            (out, 1, 3)
        }
        Form::Binary => {
            let mut out = vec![0; 4 * units];
            proved::to_text(item, &mut out).expect("room");
            (out, 0, 4)
        }
    };
    let by = |length: usize| length / form.unit() * unit;
    let scaled = Rows {
        items: vec![[0, by(own.items[0][1]), own.items[0][2], number]],
        refusals: own
            .refusals
            .iter()
            .map(|row| [row[0], row[1], by(row[2])])
            .collect(),
        remainder: vec![],
    };
    same("in the other form", rows(&other), scaled)
}

/// All of it on one stream.
pub fn alike(stream: &[u8], seed: u64) -> Check {
    report(stream)?;
    damaged(stream, seed)
}

/// Fails with the stream made small and what differs on it.
fn demand(stream: &[u8], check: impl Fn(&[u8]) -> Check) {
    if check(stream).is_ok() {
        return;
    }
    let small = shrink(stream, Form::Text, |s| check(s).is_err());
    let shown = String::from_utf8_lossy(&small).into_owned();
    let why = check(&small).unwrap_err();
    panic!("mixed {small:02X?} {shown:?}\n{why}");
}

/// A stream by its number: one that is accepted, one with a fault of some kind,
/// bytes, or a text or a binary of 01's that may be no mixed stream.
pub fn one_case(seed: u64) {
    let mut random = Random::new(seed);
    let made = match seed % 8 {
        0 | 1 => deck(&mut random, 6),
        2 => any_part(&mut random),
        3 => {
            let length = random.below(60);
            random.bytes(length)
        }
        4 => {
            let form = *random.pick(&FORMS);
            let items = streams::generate::any_deck(&mut random, 4);
            let mut made = form.of_text(&streams::item::stream(&items));
            streams::damage(&mut random, form, &mut made);
            made
        }
        _ => any_deck(&mut random, 4),
    };
    demand(&made, |s| alike(s, seed));
    if seed % 8 < 2 {
        let found = rows(&made);
        let accepted = found.refusals.is_empty() && found.remainder.is_empty();
        assert!(accepted, "{made:02X?} {found:?}");
    }
}

fn remainder(stream: &[u8]) -> Vec<[usize; 2]> {
    report(stream).expect("as the oracle");
    rows(stream).remainder
}

/// 02's own order, by examples: what the paper says, typed in.
#[test]
fn the_order_of_02() {
    let head = |length: &str| format!(r#"{{"v":"KERI10JSON{length}_"#);
    // 22 bytes from `{` on: 4, even if malformed. 23 bytes malformed: 17.
    let malformed = format!("{{{}", "!".repeat(22));
    assert_eq!(remainder(&malformed.as_bytes()[..22]), [[0, 4]]);
    assert_eq!(remainder(malformed.as_bytes()), [[0, 17]]);
    // An uppercase hexadecimal digit, in the length and in the version.
    assert_eq!(remainder(head("00001A").as_bytes()), [[0, 17]]);
    let version = head("000017").replace("10", "1A");
    assert_eq!(remainder(version.as_bytes()), [[0, 17]]);
    // MGPK.
    let other = head("000017").replace("JSON", "MGPK");
    assert_eq!(remainder(other.as_bytes()), [[0, 17]]);
    // The length: 22, 23, and 24 with 23 bytes left.
    assert_eq!(remainder(head("000016").as_bytes()), [[0, 17]]);
    let found = rows(head("000017").as_bytes());
    assert_eq!(
        (found.items, found.remainder),
        (vec![[0, 23, 0, 2]], vec![])
    );
    assert_eq!(remainder(head("000018").as_bytes()), [[0, 4]]);
    // A primitive and a line feed at top level.
    assert_eq!(remainder(b"MAAB"), [[0, 17]]);
    assert_eq!(remainder(b"-AAA\n"), [[4, 17]]);
    // A stranger in a header, of either kind.
    assert_eq!(remainder(b"-A!A"), [[0, 5]]);
    assert_eq!(remainder(b"-A+A"), [[0, 19]]);
    // The bytes next to F8 and FB.
    for first in [0xF7, 0xFC] {
        assert_eq!(remainder(&[first, 0, 0]), [[0, 17]]);
    }
}

/// The report's bytes: three items, one of each form.
#[test]
fn rows_of_ten_bytes() {
    let mut stream = br#"{"v":"KERI10JSON000018_""#.to_vec();
    stream.extend(b"-AABMQAA");
    // `-AAA` in B.
    stream.extend([0xF8, 0, 0]);
    #[rustfmt::skip]
    let told = [
        0, 0, 0, 3,
        0, 0, 0, 0, 0, 0, 0, 24, 0, 2,
        0, 0, 0, 24, 0, 0, 0, 8, 8, 0,
        0, 0, 0, 32, 0, 0, 0, 3, 0, 1,
        0, 0, 0, 1,
        0, 0, 0, 1, 8, 0, 0, 0, 28,
        0, 0, 0, 0,
    ];
    let mut out = [0xAA; 17 + 19 * 3];
    assert_eq!(proved::report_mixed(&stream, &mut out), Ok(told.len()));
    assert_eq!(out[..told.len()], told);
    assert!(out[told.len()..].iter().all(|byte| *byte == 0xAA));
    let mut short = [0xAA; 17 + 19 * 3 - 1];
    let refused = proved::Refusal {
        number: 3,
        place: 0,
    };
    assert_eq!(proved::report_mixed(&stream, &mut short), Err(refused));
    assert_eq!(short, [0xAA; 17 + 19 * 3 - 1]);
}

#[test]
fn every_byte_of_a_header() {
    let mut stream = header("KERI", "10", 30);
    stream.resize(30, b' ');
    stream.extend(b"-AAA");
    for place in 0..24 {
        for byte in 0..=255 {
            let mut changed = stream.clone();
            changed[place] = byte;
            demand(&changed, |s| alike(s, 1));
        }
    }
    for length in 0..stream.len() {
        demand(&stream[..length], |s| alike(s, 1));
    }
}

#[test]
fn every_pair_of_first_bytes() {
    for first in 0..=255 {
        for second in 0..=255 {
            for tail in [&b""[..], b"A", b"AA", b"\0\0\0\0", b"AAAAAA"] {
                let stream = [&[first, second], tail].concat();
                demand(&stream, report);
            }
        }
    }
    for start in [STARTS, NO_STARTS].concat() {
        let event = event(&mut Random::new(1));
        let stream = [&event[..], &[start], &event].concat();
        demand(&stream, |s| alike(s, 1));
    }
}

/// Streams of the limit, one less and one more; items longer than 01's streams
/// may be.
#[test]
fn lengths_around_the_limit() {
    const LIMIT: usize = 4_194_304;
    let mut random = Random::new(0x1141);
    let mut decks: Vec<Vec<u8>> = FORMS
        .map(|form| streams::mixed::events(&mut random, LIMIT + 2000, form))
        .to_vec();
    decks.push(streams::mixed::forms_in_turn(&mut random, LIMIT + 9000));
    // Empty groups in binary: the most rows that a report can have.
    decks.push([0xF8, 0, 0].repeat(LIMIT / 3 + 2));
    // One item: JSON, a binary group of more bytes than a binary stream may have,
    // each also stating one more than there is.
    for length in [LIMIT, LIMIT + 1] {
        let mut stream = header("KERI", "10", length);
        stream.resize(LIMIT + 1, b' ');
        decks.push(stream);
    }
    for units in [LIMIT / 3 - 2, LIMIT / 3 - 1] {
        let digits = (units as u32).to_be_bytes();
        let mut stream = [&[0xFB, 0xE2, 0x40], &digits[1..]].concat();
        stream.extend([0xD4, 0x00, 0x0A].repeat(LIMIT / 3));
        decks.push(stream);
    }
    for deck in decks {
        for end in [LIMIT - 1, LIMIT, LIMIT + 1] {
            if let Err(why) = report(&deck[..end]) {
                panic!("mixed stream of {end} bytes: {why}");
            }
        }
    }
}

#[test]
fn generated_mixed_streams() {
    let first = (setting("SEED", 1) << 40) + 0x3173;
    crate::generated::each("mixed streams judged", |case| one_case(first + case));
    say("mixed streams: demand 3 and 01's verdicts of their CESR items too");
}
