//! Why a JSON item of a mixed stream could not be framed: for display only, by
//! the bytes of its header.

use crate::kind::Kind;
use crate::words::{counted, measured};
use cesr::Number;
use std::ops::Range;

/// The length of a header: `{"v":"` and the 17 characters of a version 1 string.
const HEADER: usize = 23;

/// A part of a header: where it stands, what a byte of it must be, and in words.
type Part = (Range<usize>, fn(usize, u8) -> bool, &'static str);

const PARTS: [Part; 6] = [
    (
        0..6,
        |at, byte| br#"{"v":""#.get(at) == Some(&byte),
        r#"of {"v":" "#,
    ),
    (
        6..10,
        |_, byte| byte.is_ascii_uppercase(),
        "a capital letter of the protocol",
    ),
    (
        10..12,
        |_, byte| is_hex(byte),
        "a lowercase hexadecimal digit of the version",
    ),
    (
        12..16,
        |at, byte| b"JSON".get(at) == Some(&byte),
        "of JSON, the kind",
    ),
    (
        16..22,
        |_, byte| is_hex(byte),
        "a lowercase hexadecimal digit of the length",
    ),
    (
        22..23,
        |_, byte| byte == b'_',
        "the _ at the version string's end",
    ),
];

fn is_hex(byte: u8) -> bool {
    matches!(byte, b'0'..=b'9' | b'a'..=b'f')
}

/// What is wrong with what starts at `offset` and should be a JSON item.
pub fn note(number: Number, rest: &[u8], offset: usize) -> Option<String> {
    if rest.first() != Some(&b'{') {
        return None;
    }
    match number {
        Number::MixedStart => Some(malformed(rest, offset)),
        Number::PastEnd => Some(past_end(rest)),
        _ => None,
    }
}

fn malformed(rest: &[u8], offset: usize) -> String {
    let wrong = rest.iter().take(HEADER).enumerate().find_map(|(at, byte)| {
        let (part, fits, words) = PARTS.iter().find(|part| part.0.contains(&at))?;
        let fits = fits(at.saturating_sub(part.start), *byte);
        (!fits).then(|| (offset.saturating_add(at), *byte, words.trim_end()))
    });
    match wrong {
        Some((place, byte, words)) => format!(
            "a version 1 string is asked for: the byte at {place} is {byte:02X} hexadecimal, not {words}"
        ),
        None => {
            let length = counted(stated(rest).unwrap_or(0), "byte");
            format!("the length that is stated, {length}, is less than the header's {HEADER}")
        }
    }
}

fn past_end(rest: &[u8]) -> String {
    let asked = match rest.len() < HEADER {
        true => HEADER,
        false => stated(rest).unwrap_or(HEADER),
    };
    let [asked, left] = [asked, rest.len()].map(|length| measured(Kind::Mixed, length));
    let are = if rest.len() == 1 { "is" } else { "are" };
    format!("asks for {asked}, {left} {are} left")
}

fn stated(rest: &[u8]) -> Option<usize> {
    let digits = std::str::from_utf8(rest.get(16..22)?).ok()?;
    usize::from_str_radix(digits, 16).ok()
}

#[cfg(test)]
mod tests {
    use super::*;

    #[test]
    fn what_is_wrong_with_a_header() {
        for (rest, said) in [
            (r#"{"v":"KERI10JSON000016_"#, "the length that is stated, 22 bytes, is less"),
            (r#"{"v":"KERI10JSON00001A_"#, "the byte at 121 is 41 hexadecimal, not a lowercase hexadecimal digit of the length"),
            (r#"{"v":"KERI10MGPK000017_"#, "the byte at 112 is 4D hexadecimal, not of JSON, the kind"),
            (r#"{"v":"KERi10JSON000017_"#, "the byte at 109 is 69 hexadecimal, not a capital letter of the protocol"),
            (r#"{"v":"KERI1GJSON000017_"#, "the byte at 111 is 47 hexadecimal, not a lowercase hexadecimal digit of the version"),
            (r#"{"v":"KERI10JSON000017."#, "the byte at 122 is 2E hexadecimal, not the _ at"),
            (r#"{ "v":"KERI10JSON00017_"#, r#"the byte at 101 is 20 hexadecimal, not of {"v":""#),
        ] {
            let told = note(Number::MixedStart, rest.as_bytes(), 100).expect("words");
            assert!(told.contains(said), "{told}");
        }
    }

    #[test]
    fn how_much_is_asked_for() {
        for (rest, said) in [
            (
                r#"{"v":"KERI10JSON000018_"#,
                "asks for 24 bytes, 23 bytes are left",
            ),
            (r#"{"v":"#, "asks for 23 bytes, 5 bytes are left"),
            ("{", "asks for 23 bytes, 1 byte is left"),
        ] {
            let told = note(Number::PastEnd, rest.as_bytes(), 0);
            assert_eq!(told.as_deref(), Some(said));
        }
        assert_eq!(note(Number::PastEnd, b"-AA", 0), None);
        assert_eq!(note(Number::Character, b"{AAA", 0), None);
    }
}
