//! One indexed item: a signature with its place in the current key list and in
//! the next one, as it stands within a group `-K` or `-L`.

use crate::names::INDEXED;
use crate::{Form, Refusal};
use alloc::borrow::Cow;
use alloc::vec;
use alloc::vec::Vec;
use core::fmt;
use core::str::FromStr;

/// Room for every raw value: an Ed448 signature has 114 bytes.
const ROOM: usize = 128;
/// Room for every item: 160 characters.
const ITEM: usize = 160;

/// A code of the Indexed Code Table: a letter, or a selector and a letter. A
/// value of this type need not be a code of the table: the library refuses one
/// that is not with 6.
#[derive(Clone, Copy, Debug, PartialEq, Eq, Hash)]
pub struct IndexedCode {
    selector: u8,
    letter: u8,
}

impl IndexedCode {
    /// A code by its letter, and its selector where it has one.
    ///
    /// ```
    /// use cesr::IndexedCode;
    /// assert_eq!("A".parse(), Ok(IndexedCode::new(None, b'A')));
    /// assert_eq!("2B".parse(), Ok(IndexedCode::new(Some(b'2'), b'B')));
    /// ```
    pub const fn new(selector: Option<u8>, letter: u8) -> IndexedCode {
        let selector = match selector {
            Some(selector) => selector,
            None => 0,
        };
        IndexedCode { selector, letter }
    }

    /// The character in front of its letter, where there is one.
    pub const fn selector(self) -> Option<u8> {
        match self.selector {
            0 => None,
            selector => Some(selector),
        }
    }

    /// Its letter.
    pub const fn letter(self) -> u8 {
        self.letter
    }

    /// The registry's name, for display; none for a code that it lacks.
    ///
    /// ```
    /// use cesr::IndexedCode;
    /// let code = IndexedCode::new(Some(b'0'), b'A');
    /// assert_eq!(code.name(), Some("Ed448 indexed sig, dual"));
    /// ```
    pub fn name(self) -> Option<&'static str> {
        let mut rows = INDEXED.iter();
        let row = rows.find(|row| row.0.parse() == Ok(self));
        row.map(|row| row.1)
    }

    /// As the library answered it.
    pub(crate) fn answered(selector: usize, letter: usize) -> IndexedCode {
        let [selector, letter] = [selector, letter].map(|told| u8::try_from(told).unwrap_or(0));
        IndexedCode { selector, letter }
    }
}

/// The code's characters: `A`, `0B`, `2C`.
impl fmt::Display for IndexedCode {
    fn fmt(&self, f: &mut fmt::Formatter<'_>) -> fmt::Result {
        if let Some(selector) = self.selector() {
            write!(f, "{}", char::from(selector))?;
        }
        write!(f, "{}", char::from(self.letter))
    }
}

/// Characters that can be no indexed code: neither one nor two.
#[derive(Clone, Copy, Debug, PartialEq, Eq)]
pub struct ParseIndexedCodeError;

impl fmt::Display for ParseIndexedCodeError {
    fn fmt(&self, f: &mut fmt::Formatter<'_>) -> fmt::Result {
        f.write_str("an indexed code is a letter, or 0, 2 or 3 and a letter")
    }
}

impl core::error::Error for ParseIndexedCodeError {}

impl FromStr for IndexedCode {
    type Err = ParseIndexedCodeError;

    fn from_str(characters: &str) -> Result<IndexedCode, ParseIndexedCodeError> {
        match *characters.as_bytes() {
            [letter] => Ok(IndexedCode::new(None, letter)),
            [selector, letter] => Ok(IndexedCode::new(Some(selector), letter)),
            _ => Err(ParseIndexedCodeError),
        }
    }
}

/// An indexed item that was read.
#[derive(Clone, Debug, PartialEq, Eq)]
pub struct IndexedItem<'a> {
    /// Its code.
    pub code: IndexedCode,
    /// Its full size in characters or bytes.
    pub size: usize,
    /// Its place in the current key list.
    pub index: usize,
    /// Its place in the next key list; 0 where the code has no digits for it.
    pub ondex: usize,
    /// The signature.
    pub raw: Cow<'a, [u8]>,
}

/// Reads the indexed item at an offset. The raw value of a binary is the part
/// of the stream where it lies.
///
/// # Errors
///
/// 1, 4 at or past the end, as it is framed by the indexed table (a group or
/// genus/version is 6), then as it is judged: 5 or 19, 8, 15.
///
/// ```
/// use cesr::{read_indexed, Form, Number};
/// let stream = ["-KAWAC", &"A".repeat(86)].concat();
/// let item = read_indexed(Form::Text, stream.as_bytes(), 4)?;
/// assert_eq!((item.code.to_string().as_str(), item.size), ("A", 88));
/// assert_eq!((item.index, item.ondex, item.raw.len()), (2, 0, 64));
///
/// let refusal = read_indexed(Form::Text, stream.as_bytes(), 0).unwrap_err();
/// assert_eq!(refusal.number, Number::UnknownCode);
/// # Ok::<(), cesr::Refusal>(())
/// ```
pub fn read_indexed(form: Form, stream: &[u8], at: usize) -> Result<IndexedItem<'_>, Refusal> {
    let mut info = [0; proved::INDEXED];
    match form {
        Form::Text => {
            let mut out = [0; ROOM];
            proved::read_indexed_text(stream, at, &mut out, &mut info)?;
            let raw = copied(&out, &info).to_vec();
            Ok(item(form, &info, raw.into()))
        }
        Form::Binary => {
            proved::read_indexed_binary(stream, at, &mut info)?;
            let [_, _, _, start, length, ..] = info;
            let start = at.saturating_add(start);
            let part = stream.get(start..start.saturating_add(length));
            Ok(item(form, &info, part.unwrap_or_default().into()))
        }
    }
}

/// Reads the indexed item of a text; its raw value is copied to the start of
/// `out`.
///
/// # Errors
///
/// As [`read_indexed`], then 3 if the room is below the raw value's length.
/// Refused, `out` stays as it was.
pub fn read_indexed_text_into<'o>(
    text: &[u8],
    at: usize,
    out: &'o mut [u8],
) -> Result<IndexedItem<'o>, Refusal> {
    let mut info = [0; proved::INDEXED];
    proved::read_indexed_text(text, at, out, &mut info)?;
    Ok(item(Form::Text, &info, copied(out, &info).into()))
}

fn copied<'o>(out: &'o [u8], info: &proved::IndexedInfo) -> &'o [u8] {
    let [_, _, _, _, length, ..] = *info;
    out.get(..length).unwrap_or_default()
}

fn item<'a>(form: Form, info: &proved::IndexedInfo, raw: Cow<'a, [u8]>) -> IndexedItem<'a> {
    let [selector, letter, units, _, _, index, ondex] = *info;
    IndexedItem {
        code: IndexedCode::answered(selector, letter),
        size: units.saturating_mul(form.unit()),
        index,
        ondex,
        raw,
    }
}

/// Writes an indexed item.
///
/// # Errors
///
/// 6 for a code that the table lacks, 12 for a raw length unfit for the code and
/// for an index or ondex too large for its digits (without digits any but 0), 15
/// for an ondex other than 0 with a code for the current key list only.
///
/// ```
/// use cesr::{write_indexed, Form, Number};
/// let text = write_indexed(Form::Text, "2A".parse()?, 65, 2, &[0; 64])?;
/// assert_eq!((text.len(), &text[..8]), (92, &b"2ABBACAA"[..]));
/// let refusal = write_indexed(Form::Text, "2B".parse()?, 65, 2, &[0; 64]).unwrap_err();
/// assert_eq!(refusal.number, Number::Ondex);
/// # Ok::<(), Box<dyn std::error::Error>>(())
/// ```
pub fn write_indexed(
    form: Form,
    code: IndexedCode,
    index: usize,
    ondex: usize,
    raw: &[u8],
) -> Result<Vec<u8>, Refusal> {
    let mut out = vec![0; ITEM];
    let length = write_indexed_into(form, code, index, ondex, raw, &mut out)?;
    out.truncate(length);
    Ok(out)
}

/// Writes an indexed item at the start of `out`: the length written. A second
/// item goes into the rest of the buffer.
///
/// # Errors
///
/// As [`write_indexed`], then 3 if the room is below the item's size. Refused,
/// `out` stays as it was.
pub fn write_indexed_into(
    form: Form,
    code: IndexedCode,
    index: usize,
    ondex: usize,
    raw: &[u8],
    out: &mut [u8],
) -> Result<usize, Refusal> {
    let item = proved::Indexed {
        selector: code.selector,
        letter: code.letter,
        index,
        ondex,
        raw,
    };
    let length = match form {
        Form::Text => proved::write_indexed_text(&item, out),
        Form::Binary => proved::write_indexed_binary(&item, out),
    };
    Ok(length?)
}
