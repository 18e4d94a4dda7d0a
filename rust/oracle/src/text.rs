//! Base64 text: the value of variable type `A`.
//!
//! 02 c: "The value is text filled in front with `A` to whole quadlets [..].
//! Selectors 4 and 7 take off one `A` if there is one, 5 and 8 exactly two, 6
//! and 9 exactly three. A text that itself starts with `A` [..] is refused by
//! reader and writer with number 16, as is a value without the full fill."

use crate::form::Form;
use crate::frame::Frame;
use crate::registry::Code;

/// 003, "String Base64 Only": the type whose value is text.
pub const TEXT_TYPE: u8 = b'A';
/// Most characters of a text with its fill, small and large, inclusive: 4,095
/// units, and what is left of a stream behind a header of two units.
pub const MOST_SMALL_TEXT: usize = 16_380;
pub const MOST_LARGE_TEXT: usize = 4_194_296;

/// Has the code text for its value?
pub fn is_text(code: Code) -> bool {
    matches!(code, Code::Variable { letter, .. } if letter == TEXT_TYPE)
}

/// The characters of a framed item behind its header, fill and all.
pub fn value(stream: &[u8], form: Form, framed: &Frame) -> Vec<u8> {
    let characters = framed.header / form.unit() * 4..framed.size / form.unit() * 4;
    characters
        .filter_map(|index| form.character(stream, framed.offset, index))
        .collect()
}

/// The text without the fill that the lead's selector takes off; nothing where
/// that is not there in full or the text starts with `A` (16).
pub fn without_fill(lead: usize, value: &[u8]) -> Option<&[u8]> {
    let text = match lead {
        0 => value.strip_prefix(b"A").unwrap_or(value),
        1 => value.strip_prefix(b"AA")?,
        _ => value.strip_prefix(b"AAA")?,
    };
    (!starts_with_fill(text)).then_some(text)
}

/// A text that starts so could be taken for fill.
pub fn starts_with_fill(text: &[u8]) -> bool {
    text.starts_with(b"A")
}

/// How many `A` go before a text of so many characters.
pub fn fill(length: usize) -> usize {
    (4 - length % 4) % 4
}

/// The lead that tells the selector: no `A` and one are both of 4 and 7.
pub fn lead(fill: usize) -> usize {
    fill.saturating_sub(1)
}

#[cfg(test)]
mod tests {
    use super::*;

    #[test]
    fn what_each_selector_takes_off() {
        let text = |lead, value: &'static str| {
            without_fill(lead, value.as_bytes()).map(|text| std::str::from_utf8(text).unwrap())
        };
        assert_eq!(text(0, ""), Some(""));
        assert_eq!(text(0, "BCDE"), Some("BCDE"));
        assert_eq!(text(0, "ABCD"), Some("BCD"));
        assert_eq!(text(0, "AACD"), None);
        assert_eq!(text(0, "AAAA"), None);
        assert_eq!(text(1, "AACD"), Some("CD"));
        for value in ["ABCD", "BACD", "BCDE", "AAAD", "AAAA"] {
            assert_eq!(text(1, value), None, "{value}");
        }
        assert_eq!(text(2, "AAAD"), Some("D"));
        for value in ["AABD", "ABAD", "BAAD", "BCDE", "AAAA"] {
            assert_eq!(text(2, value), None, "{value}");
        }
    }

    #[test]
    fn fill_and_lead_by_length() {
        // Three characters and four have selector 4, two 5, one 6.
        for (length, filled, selector) in [(0, 0, 0), (1, 3, 2), (2, 2, 1), (3, 1, 0), (4, 0, 0)] {
            assert_eq!(fill(length), filled);
            assert_eq!(lead(fill(length)), selector);
        }
        // 4 x 4,095 characters, and a stream's limit less two units.
        assert_eq!(MOST_SMALL_TEXT, 4 * 4_095);
        assert_eq!(MOST_LARGE_TEXT, 4_194_304 - 8);
    }
}
