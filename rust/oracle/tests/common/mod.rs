//! Helpers of the tests. They hold no knowledge of codes.
#![allow(dead_code)]

pub mod papers;

use oracle::form::Form;
use oracle::primitive::{read_binary, read_text};
use oracle::report::{report, write_report};

/// Bytes from hexadecimal digits; blanks are for the reader.
pub fn hex(digits: &str) -> Vec<u8> {
    let digits: Vec<u32> = digits.chars().filter_map(|c| c.to_digit(16)).collect();
    assert_eq!(digits.len() % 2, 0);
    let pairs = digits.chunks_exact(2);
    pairs.map(|pair| (pair[0] * 16 + pair[1]) as u8).collect()
}

/// `groups` nested small groups of one letter, each holding just the next.
pub fn nested(letter: char, groups: usize) -> String {
    around(letter, groups, "")
}

/// The same around `body`, which is whole units.
pub fn around(letter: char, groups: usize, body: &str) -> String {
    let digit = |value: usize| oracle::alphabet::character(value as u8) as char;
    let header = |inner: usize| format!("-{letter}{}{}", digit(inner / 64), digit(inner % 64));
    let units = body.len() / 4;
    let headers = (units..units + groups).rev().map(header);
    headers.collect::<String>() + body
}

/// The report's bytes, with just the room that is asked.
pub fn bytes_of_report(stream: &[u8], form: Form) -> Vec<u8> {
    let room = report(stream, form).unwrap().room();
    let mut out = vec![0xEE; room];
    let length = write_report(stream, form, &mut out).unwrap();
    assert!(out[length..].iter().all(|byte| *byte == 0xEE));
    let refused = write_report(stream, form, &mut out[..room - 1]);
    assert_eq!(refused.map_err(|r| (r.number, r.place)), Err((3, 0)));
    out.truncate(length);
    out
}

/// Rows as plain numbers: items (offset, size, verdict), refusals (index,
/// number, place), remainder (offset, number).
pub type Items<'a> = &'a [(usize, usize, u8)];
pub type Refusals<'a> = &'a [(usize, u8, usize)];
pub type Remainder = Option<(usize, u8)>;

/// Asserts a text report's rows.
pub fn rows(stream: &str, items: Items, refusals: Refusals, remainder: Remainder) {
    rows_of(stream.as_bytes(), Form::Text, items, refusals, remainder);
}

pub fn rows_of(stream: &[u8], form: Form, items: Items, refusals: Refusals, rest: Remainder) {
    let found = report(stream, form).unwrap();
    let shown = String::from_utf8_lossy(stream);
    let item_rows = found.items.iter().map(|r| (r.offset, r.size, r.verdict));
    assert_eq!(item_rows.collect::<Vec<_>>(), items, "{shown}");
    let refusal_rows = found.refusals.iter().map(|r| (r.index, r.number, r.place));
    assert_eq!(refusal_rows.collect::<Vec<_>>(), refusals, "{shown}");
    let remainder = found.remainder.map(|r| (r.offset, r.number));
    assert_eq!(remainder, rest, "{shown}");
}

/// The text stream as binary. Only for streams of whole units in the alphabet.
pub fn binary(text: &str) -> Vec<u8> {
    let mut out = vec![0; text.len() / 4 * 3];
    let length = oracle::convert::to_binary(text.as_bytes(), &mut out).unwrap();
    assert_eq!(length, out.len());
    out
}

/// Asserts what is read at the start of a primitive, in text and in binary:
/// code, tag characters and raw value.
pub fn reads(text: &str, code: &str, tag: &str, raw: &str) {
    let mut out = vec![0; hex(raw).len()];
    let found = read_text(text.as_bytes(), 0, &mut out).unwrap();
    assert_eq!(found.code.characters(), code, "{text}");
    assert_eq!(&found.tag.characters[..found.tag.number], tag.as_bytes());
    assert_eq!((&out, found.size), (&hex(raw), text.len()), "{text}");
    assert_eq!((found.raw, found.text), (out.len(), 0), "{text}");
    let stream = binary(text);
    let (same, part) = read_binary(&stream, 0, &mut []).unwrap();
    assert_eq!((same.code, same.tag), (found.code, found.tag));
    assert_eq!((part, same.size), (&out[..], stream.len()), "{text}");
}

/// The same of a text: its code and its characters, copied out in both forms
/// where there is room for just so many.
pub fn reads_text(item: &str, code: &str, text: &str) {
    let stream = binary(item);
    for form in [Form::Text, Form::Binary] {
        let mut out = vec![b'?'; text.len() + 1];
        let (found, size) = match form {
            Form::Text => (read_text(item.as_bytes(), 0, &mut out).unwrap(), item.len()),
            Form::Binary => {
                let (found, part) = read_binary(&stream, 0, &mut out).unwrap();
                // Text is handed back in no part of the stream.
                assert!(std::ptr::eq(part, &stream[stream.len()..]));
                (found, stream.len())
            }
        };
        assert_eq!((found.code.characters(), found.size), (code.into(), size));
        assert_eq!((found.raw, found.text), (0, text.len()), "{item}");
        assert_eq!(out, [text.as_bytes(), b"?"].concat(), "{item}");
        let Some(short) = text.len().checked_sub(1) else {
            continue;
        };
        let mut out = vec![b'?'; short];
        let refused = match form {
            Form::Text => read_text(item.as_bytes(), 0, &mut out).map(|_| ()),
            Form::Binary => read_binary(&stream, 0, &mut out).map(|_| ()),
        };
        assert_eq!(refused.map_err(|r| (r.number, r.place)), Err((3, 0)));
        assert_eq!(out, vec![b'?'; short]);
    }
}
