//! Reading and writing a single primitive.

use crate::alphabet;
use crate::convert::{binary_of, lend, text_of};
use crate::form::Form;
use crate::frame::{frame, Frame};
use crate::judge::judge_primitive;
use crate::refusal::{
    Refusal, NOT_A_PRIMITIVE, NOT_SHORT, PAST_END, TEXT_FILL, UNFIT_LENGTH, UNKNOWN_CODE,
};
use crate::registry::{self, Code, Fixed};
use crate::text::{self, MOST_LARGE_TEXT, MOST_SMALL_TEXT, TEXT_TYPE};

/// Most tag characters that any code holds.
pub const MOST_TAG: usize = 11;
/// Most raw bytes of a small and of a large variable value, inclusive (D32).
pub const MOST_SMALL: usize = 12_285;
pub const MOST_LARGE: usize = 3_145_722;

/// Tag characters by value with their number. A reader leaves unused places
/// 0; a writer ignores the places behind the number.
#[derive(Clone, Copy, Debug, PartialEq, Eq)]
pub struct Tag {
    pub number: usize,
    pub characters: [u8; MOST_TAG],
}

impl Tag {
    /// No tag characters.
    pub const NONE: Tag = Tag {
        number: 0,
        characters: [0; MOST_TAG],
    };

    /// These characters. A number above 11 is kept, for the writer to refuse.
    pub fn of(characters: &[u8]) -> Tag {
        let mut tag = Tag::NONE;
        tag.number = characters.len();
        for (place, character) in tag.characters.iter_mut().zip(characters) {
            *place = *character;
        }
        tag
    }
}

/// What a reader finds: the code, the tag characters, the item's size in the
/// stream's own measure, the raw value's length in bytes and, of a text, the
/// number of its characters. Text has no raw value.
#[derive(Clone, Copy, Debug, PartialEq, Eq)]
pub struct Primitive {
    pub code: Code,
    pub tag: Tag,
    pub size: usize,
    pub raw: usize,
    pub text: usize,
}

/// Reads from text: 1, 4 at or past the end, framing (never 7), 14, judging,
/// 3. The raw value, or the characters of a text, are copied out to the start
/// of `out`.
pub fn read_text(stream: &[u8], offset: usize, out: &mut [u8]) -> Result<Primitive, Refusal> {
    let framed = accepted(stream, Form::Text, offset)?;
    let found = primitive(stream, Form::Text, &framed);
    if text::is_text(found.code) {
        lend(&characters(stream, Form::Text, &framed), out)?;
    } else {
        let item = binary_of(&stream[framed.offset..framed.end()]);
        lend(&item[item.len() - found.raw..], out)?;
    }
    Ok(found)
}

/// Reads from binary. The raw value is the part of the stream where it lies,
/// at the item's end; room is not asked (D28). 02 c: "Characters are copied out
/// in both forms, with 3 when room is short".
pub fn read_binary<'s>(
    stream: &'s [u8],
    offset: usize,
    out: &mut [u8],
) -> Result<(Primitive, &'s [u8]), Refusal> {
    let framed = accepted(stream, Form::Binary, offset)?;
    let found = primitive(stream, Form::Binary, &framed);
    if text::is_text(found.code) {
        lend(&characters(stream, Form::Binary, &framed), out)?;
    }
    let part = &stream[framed.end() - found.raw..framed.end()];
    Ok((found, part))
}

/// The characters of an accepted text.
fn characters(stream: &[u8], form: Form, framed: &Frame) -> Vec<u8> {
    let value = text::value(stream, form, framed);
    let text = text::without_fill(framed.code.lead(), &value);
    text.map_or(Vec::new(), <[u8]>::to_vec)
}

/// The orders common to both readers, up to judging.
fn accepted(stream: &[u8], form: Form, offset: usize) -> Result<Frame, Refusal> {
    form.check_length(stream)?;
    if offset >= stream.len() {
        // The place is the offset as given, even far past the stream (D26).
        return Err(Refusal::new(PAST_END, offset));
    }
    let framed = frame(stream, form, offset, stream.len())?;
    if !framed.code.is_primitive() {
        return Err(Refusal::new(NOT_A_PRIMITIVE, offset));
    }
    judge_primitive(stream, form, &framed)?;
    Ok(framed)
}

fn primitive(stream: &[u8], form: Form, framed: &Frame) -> Primitive {
    let mut found = Primitive {
        code: framed.code,
        tag: Tag::NONE,
        size: framed.size,
        raw: 0,
        text: 0,
    };
    match framed.code {
        Code::Fixed(row) => {
            found.tag = tag_of(stream, form, framed, row);
            found.raw = row.raw();
        }
        code if text::is_text(code) => found.text = characters(stream, form, framed).len(),
        // A lead is never longer than the value: n = 0 with a lead is 9.
        code => found.raw = (3 * framed.count as usize).saturating_sub(code.lead()),
    }
    found
}

/// The tag characters stand at the item's end, behind code and prepad.
fn tag_of(stream: &[u8], form: Form, framed: &Frame, row: &Fixed) -> Tag {
    let from = row.full - row.tag;
    let characters = (from..row.full)
        .take(row.tag)
        .filter_map(|index| form.character(stream, framed.offset, index));
    Tag::of(&characters.collect::<Vec<u8>>())
}

/// How the caller names a code to the writer (D30).
#[derive(Clone, Copy, Debug, PartialEq, Eq)]
pub enum Named<'a> {
    /// A fixed code by its characters.
    Fixed(&'a [u8]),
    /// A variable type by its letter, with small or large.
    Variable { letter: u8, large: bool },
}

/// Writes one primitive to text or binary: 6, 12, 18, 5 or 19, 16, 3, else the
/// size written. 02 h: "the primitive writer refuses them directly after 12,
/// with place 0". For type `A` the characters stand where `raw` does.
pub fn write(
    named: Named,
    tag: &Tag,
    raw: &[u8],
    form: Form,
    out: &mut [u8],
) -> Result<usize, Refusal> {
    let item = match named {
        Named::Fixed(characters) => fixed_item(characters, tag, raw)?,
        Named::Variable { letter, large } if letter == TEXT_TYPE => text_item(large, tag, raw)?,
        Named::Variable { letter, large } => variable_item(letter, large, tag, raw)?,
    };
    match form {
        Form::Text => lend(&text_of(&item), out),
        Form::Binary => lend(&item, out),
    }
}

/// A fixed item's bytes: 6, 12, 5 or 19.
fn fixed_item(characters: &[u8], tag: &Tag, raw: &[u8]) -> Result<Vec<u8>, Refusal> {
    let Some(row) = registry::fixed(characters) else {
        return Err(Refusal::new(UNKNOWN_CODE, 0));
    };
    // No row has more than 11 tag characters, so a number above is 12 too.
    if tag.number != row.tag || raw.len() != row.raw() {
        return Err(Refusal::new(UNFIT_LENGTH, 0));
    }
    let given = &tag.characters[..row.tag];
    if let Some((index, number)) = alphabet::first_stranger(given) {
        return Err(Refusal::new(number, index));
    }
    let mut head = row.code.as_bytes().to_vec();
    if row.prepad {
        head.push(b'_');
    }
    head.extend(given);
    Ok(item(&head, row.lead, raw))
}

/// A variable item's bytes: 6, 12, 18. The lead follows from the raw length.
fn variable_item(letter: u8, large: bool, tag: &Tag, raw: &[u8]) -> Result<Vec<u8>, Refusal> {
    if !registry::is_variable_type(letter) {
        return Err(Refusal::new(UNKNOWN_CODE, 0));
    }
    let most = if large { MOST_LARGE } else { MOST_SMALL };
    if tag.number != 0 || raw.len() > most {
        return Err(Refusal::new(UNFIT_LENGTH, 0));
    }
    if large && raw.len() <= MOST_SMALL {
        return Err(Refusal::new(NOT_SHORT, 0));
    }
    let lead = (3 - raw.len() % 3) % 3;
    let count = (lead + raw.len()) / 3;
    let head = variable_head(letter, large, lead, count);
    Ok(item(&head, lead, raw))
}

/// A text item's bytes: 12 by the text with its fill, 18, 5 or 19 (place: the
/// index in the text), 16 (place 0).
fn text_item(large: bool, tag: &Tag, given: &[u8]) -> Result<Vec<u8>, Refusal> {
    let fill = text::fill(given.len());
    let filled = fill + given.len();
    let most = if large {
        MOST_LARGE_TEXT
    } else {
        MOST_SMALL_TEXT
    };
    if tag.number != 0 || filled > most {
        return Err(Refusal::new(UNFIT_LENGTH, 0));
    }
    if large && filled <= MOST_SMALL_TEXT {
        return Err(Refusal::new(NOT_SHORT, 0));
    }
    if let Some((index, number)) = alphabet::first_stranger(given) {
        return Err(Refusal::new(number, index));
    }
    if text::starts_with_fill(given) {
        return Err(Refusal::new(TEXT_FILL, 0));
    }
    let mut characters = variable_head(TEXT_TYPE, large, text::lead(fill), filled / 4);
    characters.extend(std::iter::repeat_n(b'A', fill));
    characters.extend(given);
    Ok(binary_of(&characters))
}

/// Selector, type and digits of n.
fn variable_head(letter: u8, large: bool, lead: usize, count: usize) -> Vec<u8> {
    let mut head = Vec::new();
    if large {
        head.extend([b'7' + lead as u8, b'A', b'A', letter]);
        head.extend(digits(count, 4));
    } else {
        head.extend([b'4' + lead as u8, letter]);
        head.extend(digits(count, 2));
    }
    head
}

/// A number in base 64, most significant digit first.
fn digits(number: usize, width: usize) -> Vec<u8> {
    let digit = |place: usize| alphabet::character((number >> (6 * place)) as u8 & 63);
    (0..width).rev().map(digit).collect()
}

/// Head characters, zero bits up to the next whole byte (these are the pad
/// bits: 2 behind one character, 4 behind two), zero lead bytes, raw bytes.
fn item(head: &[u8], lead: usize, raw: &[u8]) -> Vec<u8> {
    let mut bytes = Vec::new();
    let (mut bits, mut held) = (0u32, 0);
    for character in head {
        bits = bits << 6 | u32::from(alphabet::value(*character).unwrap_or(0));
        held += 6;
        if held >= 8 {
            held -= 8;
            bytes.push((bits >> held) as u8);
        }
    }
    if held > 0 {
        bytes.push((bits << (8 - held)) as u8);
    }
    bytes.extend(std::iter::repeat_n(0, lead));
    bytes.extend(raw);
    bytes
}

#[cfg(test)]
mod tests {
    use super::*;

    /// Code, tag characters and raw value, or number and place.
    type Outcome = Result<(String, Vec<u8>, Vec<u8>), (u8, usize)>;

    fn read(text: &str, offset: usize) -> Outcome {
        let mut out = [0xEE; 64];
        let found = read_text(text.as_bytes(), offset, &mut out);
        let found = found.map_err(|refused| (refused.number, refused.place))?;
        assert!(out[found.raw..].iter().all(|byte| *byte == 0xEE));
        let tag = found.tag.characters[..found.tag.number].to_vec();
        Ok((found.code.characters(), tag, out[..found.raw].to_vec()))
    }

    fn raw(code: &str, raw: &[u8]) -> Outcome {
        Ok((code.to_string(), Vec::new(), raw.to_vec()))
    }

    #[test]
    fn raw_values_of_the_deck() {
        assert_eq!(read("MAAB", 0), raw("M", &[0, 1]));
        assert_eq!(read("VABh", 0), raw("V", &[0x61]));
        assert_eq!(read("WGhp", 0), raw("W", &[0x68, 0x69]));
        assert_eq!(read("5BABAGhp", 0), raw("5B", &[0x68, 0x69]));
        assert_eq!(read("6BABAABh", 0), raw("6B", &[0x61]));
        assert_eq!(read("1AAK", 0), raw("1AAK", &[]));
    }

    #[test]
    fn tags_come_with_their_number() {
        let tagged = |code: &str, tag: &str| Ok((code.to_string(), tag.into(), vec![]));
        assert_eq!(read("0J_A", 0), tagged("0J", "A"));
        assert_eq!(read("0L_ab-_9", 0), tagged("0L", "ab-_9"));
        assert_eq!(read("XABC", 0), tagged("X", "ABC"));
        assert_eq!(read("ZABCDEFGHIJK", 0), tagged("Z", "ABCDEFGHIJK"));
        assert_eq!(read("1AAFABCD", 0), tagged("1AAF", "ABCD"));
        let unused = read_text(b"0K_A", 0, &mut []).unwrap().tag;
        assert_eq!(unused.number, 2);
        assert_eq!(unused.characters, *b"_A\0\0\0\0\0\0\0\0\0");
    }

    #[test]
    fn binary_hands_back_the_part() {
        // `WGhp` is 58 68 69; an unaligned offset is read as it is (D26).
        let stream = [0xFF, 0x58, 0x68, 0x69];
        let (found, part) = read_binary(&stream, 1, &mut []).unwrap();
        assert_eq!((found.size, found.raw), (3, 2));
        assert!(std::ptr::eq(part, &stream[2..4]));
        // `0J_A`: the empty part at the item's end (D28).
        let stream = [0xD0, 0x9F, 0xC0, 0x00];
        let (found, part) = read_binary(&stream, 0, &mut []).unwrap();
        assert_eq!(found.tag, Tag::of(b"A"));
        assert!(std::ptr::eq(part, &stream[3..3]));
    }

    #[test]
    fn refused_reads() {
        assert_eq!(read("MAAB", 4), Err((4, 4)));
        assert_eq!(read("MAAB", 400), Err((4, 400)));
        assert_eq!(read("", 0), Err((4, 0)));
        assert_eq!(read("MAABMA!B", 4), Err((5, 6)));
        assert_eq!(read("MAAB0HAAA!=A", 4), Err((5, 9)));
        assert_eq!(read("MAAB0HAAA=!A", 4), Err((19, 9)));
        assert_eq!(read("MAABM+!B", 4), Err((19, 5)));
        assert_eq!(read("MAABbAAA", 4), Err((6, 4)));
        assert_eq!(read("MAABMQAA", 4), Err((8, 4)));
        assert_eq!(read("5BAA", 0), Err((9, 0)));
        assert_eq!(read("0JAA", 0), Err((10, 0)));
        assert_eq!(read("7AABAAAA", 0), Err((18, 0)));
        assert_eq!(read("MAAB8AABAAAA", 4), Err((18, 4)));
    }

    #[test]
    fn fourteen_behind_framing_and_never_seven() {
        // D27.
        assert_eq!(read("-AAB", 0), Err((4, 0)));
        assert_eq!(read("-KAB!!!!", 0), Err((14, 0)));
        assert_eq!(read("--KAAAAA", 0), Err((14, 0)));
        assert_eq!(read("-AAA", 0), Err((14, 0)));
        assert_eq!(read("MAAB-_AAABAA", 4), Err((14, 4)));
        assert_eq!(read("-_AAACAA", 0), Err((14, 0)));
    }

    #[test]
    fn unaligned_text_offsets() {
        assert_eq!(read("xMAAB", 1), raw("M", &[0, 1]));
        assert_eq!(read("xMAA", 1), Err((4, 1)));
    }

    #[test]
    fn room_is_asked_last_and_for_text_only() {
        let mut short = [9; 1];
        let refused = read_text(b"MAAB", 0, &mut short);
        assert_eq!((refused, short), (Err(Refusal::new(3, 0)), [9; 1]));
        let refused = read_text(b"MQAA", 0, &mut short);
        assert_eq!(refused, Err(Refusal::new(8, 0)));
        assert!(read_text(b"X___", 0, &mut []).is_ok());
        assert!(read_text(b"4BAA", 0, &mut []).is_ok());
        assert!(read_binary(&[0x30, 0, 1], 0, &mut []).is_ok());
    }

    #[test]
    fn text_asks_room_for_its_characters_in_both_forms() {
        // `5AABAA-a`: 57 0 0 1, 0 0 62 26.
        let binary = [0xE4, 0x00, 0x01, 0x00, 0x0F, 0x9A];
        let mut out = [b'?'; 3];
        let refused = read_text(b"5AABAA-a", 0, &mut out[..1]);
        assert_eq!(refused, Err(Refusal::new(3, 0)));
        let refused = read_binary(&binary, 0, &mut out[..1]);
        assert_eq!(refused, Err(Refusal::new(3, 0)));
        assert_eq!(&out, b"???");
        let found = read_text(b"5AABAA-a", 0, &mut out).unwrap();
        assert_eq!((found.raw, found.text, &out), (0, 2, b"-a?"));
        out = [b'?'; 3];
        let (found, part) = read_binary(&binary, 0, &mut out).unwrap();
        assert_eq!((found.raw, found.text, &out), (0, 2, b"-a?"));
        assert!(std::ptr::eq(part, &binary[6..]));
        // Judged before the room is asked; the empty text asks none.
        let refused = read_text(b"4AABAAAA", 0, &mut []);
        assert_eq!(refused, Err(Refusal::new(16, 0)));
        assert!(read_text(b"4AAA", 0, &mut []).is_ok());
    }

    #[test]
    fn one_comes_before_the_offset() {
        let long = vec![b'A'; 4_194_305];
        let refused = read_text(&long, usize::MAX, &mut []);
        assert_eq!(refused, Err(Refusal::new(1, 0)));
        let refused = read_binary(&long[..3_145_729], 0, &mut []);
        assert_eq!(refused, Err(Refusal::new(1, 0)));
    }

    fn written(named: Named, tag: &str, raw: &[u8]) -> Result<String, (u8, usize)> {
        let mut out = [b'?'; 64];
        let size = write(named, &Tag::of(tag.as_bytes()), raw, Form::Text, &mut out)
            .map_err(|refused| (refused.number, refused.place))?;
        assert!(out[size..].iter().all(|byte| *byte == b'?'));
        Ok(String::from_utf8_lossy(&out[..size]).into_owned())
    }

    fn fixed(code: &str, tag: &str, raw: &[u8]) -> Result<String, (u8, usize)> {
        written(Named::Fixed(code.as_bytes()), tag, raw)
    }

    fn small(letter: u8, raw: &[u8]) -> Result<String, (u8, usize)> {
        let large = false;
        written(Named::Variable { letter, large }, "", raw)
    }

    fn large(letter: u8, raw: &[u8]) -> Result<String, (u8, usize)> {
        let large = true;
        written(Named::Variable { letter, large }, "", raw)
    }

    #[test]
    fn writing_the_deck() {
        assert_eq!(fixed("M", "", &[0, 1]), Ok("MAAB".into()));
        assert_eq!(fixed("0H", "", &[0xFF; 4]), Ok("0HD_____".into()));
        assert_eq!(fixed("V", "", &[0x61]), Ok("VABh".into()));
        assert_eq!(fixed("W", "", &[0x68, 0x69]), Ok("WGhp".into()));
        assert_eq!(fixed("0J", "A", &[]), Ok("0J_A".into()));
        assert_eq!(fixed("X", "___", &[]), Ok("X___".into()));
        assert_eq!(fixed("1AAM", "", &[]), Ok("1AAM".into()));
        assert_eq!(small(b'B', &[]), Ok("4BAA".into()));
        assert_eq!(small(b'B', &[0x68, 0x69]), Ok("5BABAGhp".into()));
        assert_eq!(small(b'B', &[0x61]), Ok("6BABAABh".into()));
    }

    #[test]
    fn writing_binary() {
        let mut out = [7; 4];
        let size = write(
            Named::Fixed(b"1AAM"),
            &Tag::NONE,
            &[],
            Form::Binary,
            &mut out,
        );
        assert_eq!((size, out), (Ok(3), [0xD4, 0x00, 0x0C, 7]));
    }

    #[test]
    fn six_for_what_is_no_primitive() {
        for code in ["", "b", "AA", "-A", "-_", "4B", "7AAB", "0P", "1AAQ", "MA"] {
            assert_eq!(fixed(code, "AAAAAAAAAAAAAA", &[1]), Err((6, 0)));
        }
        for letter in [b'G', b'I', b'a', b'-', 0] {
            assert_eq!(small(letter, &[]), Err((6, 0)));
            assert_eq!(large(letter, &[]), Err((6, 0)));
        }
    }

    #[test]
    fn twelve_before_five_before_three() {
        assert_eq!(fixed("M", "", &[1]), Err((12, 0)));
        assert_eq!(fixed("M", "A", &[0, 1]), Err((12, 0)));
        assert_eq!(fixed("X", "ABC", &[0]), Err((12, 0)));
        assert_eq!(fixed("X", "!!", &[]), Err((12, 0)));
        assert_eq!(fixed("Z", "AAAAAAAAAAAA", &[]), Err((12, 0)));
        assert_eq!(fixed("X", "A!=", &[]), Err((5, 1)));
        assert_eq!(fixed("X", "A=!", &[]), Err((19, 1)));
        assert_eq!(fixed("X", "+/=", &[]), Err((19, 0)));
        assert_eq!(fixed("X", "+/", &[]), Err((12, 0)));
        let refused = write(
            Named::Fixed(b"X"),
            &Tag::of(b"A!="),
            &[],
            Form::Text,
            &mut [],
        );
        assert_eq!(refused, Err(Refusal::new(5, 1)));
        let refused = write(
            Named::Fixed(b"X"),
            &Tag::of(b"AAA"),
            &[],
            Form::Text,
            &mut [0; 3],
        );
        assert_eq!(refused, Err(Refusal::new(3, 0)));
    }

    #[test]
    fn places_behind_the_number_are_ignored() {
        // D31: no 5 for them, and they are not written.
        let tag = Tag {
            number: 1,
            characters: *b"A!!!!!!!!!!",
        };
        let mut out = [0; 4];
        let size = write(Named::Fixed(b"0J"), &tag, &[], Form::Text, &mut out);
        assert_eq!((size, &out), (Ok(4), b"0J_A"));
        let tag = Tag {
            number: usize::MAX,
            ..tag
        };
        let refused = write(Named::Fixed(b"Z"), &tag, &[], Form::Text, &mut out);
        assert_eq!(refused, Err(Refusal::new(12, 0)));
    }

    #[test]
    fn the_largest_values() {
        // D32. 4 + 4 x 4095 = 16,384 and 8 + 4 x 1,048,574 = 4,194,304.
        let raw = vec![0x55; 3_145_723];
        let mut out = vec![0; 4_194_304];
        for (large, most, size) in [(false, 12_285, 16_384), (true, 3_145_722, 4_194_304)] {
            let letter = b'B';
            let named = Named::Variable { letter, large };
            let full = write(named, &Tag::NONE, &raw[..most], Form::Text, &mut out);
            assert_eq!(full, Ok(size));
            let over = write(named, &Tag::NONE, &raw[..most + 1], Form::Text, &mut out);
            assert_eq!(over, Err(Refusal::new(12, 0)));
            let found = read_text(&out[..size], 0, &mut vec![0; most]).unwrap();
            assert_eq!((found.size, found.raw), (size, most));
        }
    }

    #[test]
    fn a_large_code_for_a_small_value() {
        // 02 h: 18 directly after 12, so before 3, place 0.
        for length in [0, 1, 2, 3, 12_283, 12_284, 12_285] {
            let raw = vec![0x55; length];
            assert_eq!(large(b'B', &raw), Err((18, 0)));
            let letter = b'H';
            let named = Named::Variable {
                letter,
                large: true,
            };
            let refused = write(named, &Tag::NONE, &raw, Form::Binary, &mut []);
            assert_eq!(refused, Err(Refusal::new(18, 0)));
        }
        assert_eq!(large(b'G', &[]), Err((6, 0)));
        let (letter, large) = (b'B', true);
        let named = Named::Variable { letter, large };
        let tagged = write(named, &Tag::of(b"!"), &[], Form::Text, &mut []);
        assert_eq!(tagged, Err(Refusal::new(12, 0)));
        // The shortest large one: 12,286 bytes, two of lead, 4,096 units.
        let mut out = vec![0; 16_392];
        let raw = vec![0x55; 12_286];
        let full = write(named, &Tag::NONE, &raw, Form::Text, &mut out);
        assert_eq!((full, &out[..8]), (Ok(16_392), &b"9AABABAA"[..]));
        let found = read_text(&out, 0, &mut vec![0; 12_286]).unwrap();
        assert_eq!((found.size, found.raw), (16_392, 12_286));
    }
}
