//! One primitive: read from a stream, or written as an item.

use crate::{Code, Form, Head, Number, Refusal};
use alloc::borrow::Cow;
use alloc::string::String;
use alloc::vec;
use alloc::vec::Vec;
use core::fmt;

/// The most tag characters that an item holds.
const MOST_TAGS: usize = 11;
/// Room for the raw value of every fixed code, and for most texts.
const FIRST_ROOM: usize = 128;
/// Units that an item can need beside those its raw value fills: two of
/// header, three of tag characters, one that the value fills in part.
const UNITS_BESIDE: usize = 6;

/// The tag characters of an item.
#[derive(Clone, Copy, PartialEq, Eq, Hash)]
pub struct Tag {
    characters: [u8; MOST_TAGS],
    count: usize,
}

impl Tag {
    /// The tag characters; empty for a code that is no tag.
    pub fn as_bytes(&self) -> &[u8] {
        self.characters.get(..self.count).unwrap_or_default()
    }

    /// Tag characters to write. More than eleven are told to the library by
    /// their number, and it refuses them.
    fn given(characters: &[u8]) -> Tag {
        let mut places = [0; MOST_TAGS];
        for (place, character) in places.iter_mut().zip(characters) {
            *place = *character;
        }
        Tag {
            characters: places,
            count: characters.len(),
        }
    }
}

impl fmt::Display for Tag {
    fn fmt(&self, f: &mut fmt::Formatter<'_>) -> fmt::Result {
        self.as_bytes().escape_ascii().fmt(f)
    }
}

impl fmt::Debug for Tag {
    fn fmt(&self, f: &mut fmt::Formatter<'_>) -> fmt::Result {
        write!(f, "Tag({self})")
    }
}

/// What a primitive holds: raw bytes, or text under variable type `A`.
#[derive(Clone, Debug, PartialEq, Eq)]
pub enum Value<'a> {
    /// The raw value; empty for a tag.
    Raw(Cow<'a, [u8]>),
    /// The characters of type `A`, without the `A` that fill them up in front.
    Text(Cow<'a, str>),
}

impl Value<'_> {
    /// The raw bytes or the characters: what the writer takes for it.
    pub fn as_bytes(&self) -> &[u8] {
        match self {
            Value::Raw(raw) => raw,
            Value::Text(text) => text.as_bytes(),
        }
    }
}

/// A primitive that was read.
#[derive(Clone, Debug, PartialEq, Eq)]
pub struct Primitive<'a> {
    /// Its code and lead.
    pub head: Head,
    /// Its full size in characters or bytes.
    pub size: usize,
    /// Its tag characters; none for a code that is no tag.
    pub tag: Tag,
    /// Its value.
    pub value: Value<'a>,
}

impl Primitive<'_> {
    /// Its raw value; empty for a tag and for a text.
    pub fn raw(&self) -> &[u8] {
        match &self.value {
            Value::Raw(raw) => raw,
            Value::Text(_) => &[],
        }
    }

    /// Its text; none for another type than `A`.
    pub fn text(&self) -> Option<&str> {
        match &self.value {
            Value::Raw(_) => None,
            Value::Text(text) => Some(text),
        }
    }
}

/// Reads the primitive at an offset. A raw value of a binary is the part of the
/// stream where it lies.
///
/// # Errors
///
/// 1, 4 at or past the end, as it is framed (never 7), 14 for a group or
/// genus/version, then as it is judged.
///
/// ```
/// use cesr::{read, Form, Number};
/// let item = read(Form::Text, b"MAAB5BABAGhp", 4)?;
/// assert_eq!((item.head.to_string().as_str(), item.size), ("5B", 8));
/// assert_eq!(item.raw(), b"hi");
///
/// let tag = read(Form::Text, b"0J_A", 0)?;
/// assert_eq!(tag.tag.as_bytes(), b"A");
///
/// let path = read(Form::Text, b"4AADA-a-personal", 0)?;
/// assert_eq!(path.text(), Some("-a-personal"));
///
/// let refusal = read(Form::Text, b"-AABMAAB", 0).unwrap_err();
/// assert_eq!(refusal.number, Number::NotAPrimitive);
/// # Ok::<(), cesr::Refusal>(())
/// ```
pub fn read(form: Form, stream: &[u8], at: usize) -> Result<Primitive<'_>, Refusal> {
    let mut first = [0; FIRST_ROOM];
    match Found::in_stream(form, stream, at, &mut first) {
        Err(refusal) if refusal.number == Number::Room => {
            // No value has more than four characters a unit.
            let left = form.units(stream.len().saturating_sub(at));
            let mut out = vec![0; Form::Text.room(left)];
            let found = Found::in_stream(form, stream, at, &mut out)?;
            Ok(found.kept(form, stream, &out))
        }
        answer => Ok(answer?.kept(form, stream, &first)),
    }
}

/// Reads the primitive of a text; its raw value, or its text, is copied to the
/// start of `out`.
///
/// # Errors
///
/// As [`read`], then 3 if the room is below its length. Refused, `out` stays as
/// it was.
pub fn read_text_into<'o>(
    text: &[u8],
    at: usize,
    out: &'o mut [u8],
) -> Result<Primitive<'o>, Refusal> {
    let found = Found::in_stream(Form::Text, text, at, out)?;
    let value = found.value(Form::Text, &[], out);
    Ok(found.primitive(Form::Text, value))
}

/// Reads the primitive of a binary; a raw value is the part of the stream where
/// it lies, and only a text is copied to the start of `out`.
///
/// # Errors
///
/// As [`read`], then 3 if the room is below the text's length. Refused, `out`
/// stays as it was.
///
/// ```
/// use cesr::{read_binary_into, Number};
/// let item = read_binary_into(b"\x30\xFF\xFE", 0, &mut [])?;
/// assert_eq!(item.raw(), b"\xFF\xFE");
///
/// // `5AABAA-a` in binary.
/// let mut out = [0; 2];
/// let item = read_binary_into(b"\xE4\x00\x01\x00\x0F\x9A", 0, &mut out)?;
/// assert_eq!(item.text(), Some("-a"));
/// let refusal = read_binary_into(b"\xE4\x00\x01\x00\x0F\x9A", 0, &mut []).unwrap_err();
/// assert_eq!(refusal.number, Number::Room);
/// # Ok::<(), cesr::Refusal>(())
/// ```
pub fn read_binary_into<'a>(
    binary: &'a [u8],
    at: usize,
    out: &'a mut [u8],
) -> Result<Primitive<'a>, Refusal> {
    let found = Found::in_stream(Form::Binary, binary, at, out)?;
    let value = found.value(Form::Binary, binary, out);
    Ok(found.primitive(Form::Binary, value))
}

/// What the library told of a primitive.
struct Found {
    at: usize,
    tag: [u8; MOST_TAGS],
    info: proved::Info,
}

impl Found {
    fn in_stream(form: Form, stream: &[u8], at: usize, out: &mut [u8]) -> Result<Found, Refusal> {
        let (mut tag, mut info) = ([0; MOST_TAGS], [0; proved::INFO]);
        match form {
            Form::Text => proved::read_text(stream, at, out, &mut tag, &mut info)?,
            Form::Binary => proved::read_binary(stream, at, out, &mut tag, &mut info)?,
        };
        Ok(Found { at, tag, info })
    }

    fn code(&self) -> Code {
        let [chars, letter, ..] = self.info;
        Code::answered(chars, letter)
    }

    /// Its value: a text's characters and the raw value of a text stream stand
    /// in `out`, a raw value of a binary where it lies.
    fn value<'a>(&self, form: Form, stream: &'a [u8], out: &'a [u8]) -> Value<'a> {
        let [_, _, _, _, raw, _, text] = self.info;
        if self.code().is_text() {
            let characters = out.get(..text).unwrap_or_default();
            return Value::Text(String::from_utf8_lossy(characters));
        }
        Value::Raw(match form {
            Form::Text => out.get(..raw).unwrap_or_default().into(),
            Form::Binary => self.part(stream).into(),
        })
    }

    /// With a value that lies in the stream, or is a copy.
    fn kept<'s>(self, form: Form, stream: &'s [u8], out: &[u8]) -> Primitive<'s> {
        let value = match self.value(form, stream, out) {
            Value::Raw(_) if form == Form::Binary => Value::Raw(self.part(stream).into()),
            Value::Raw(raw) => Value::Raw(raw.into_owned().into()),
            Value::Text(text) => Value::Text(text.into_owned().into()),
        };
        self.primitive(form, value)
    }

    /// The part of a binary where its raw value lies.
    fn part<'a>(&self, binary: &'a [u8]) -> &'a [u8] {
        let [_, _, _, start, raw, ..] = self.info;
        let start = self.at.saturating_add(start);
        let part = binary.get(start..start.saturating_add(raw));
        part.unwrap_or_default()
    }

    fn primitive(self, form: Form, value: Value<'_>) -> Primitive<'_> {
        let [_, _, units, _, _, count, _] = self.info;
        Primitive {
            head: Head::answered(self.code(), self.lead()),
            size: units.saturating_mul(form.unit()),
            tag: Tag {
                characters: self.tag,
                count,
            },
            value,
        }
    }

    /// The lead bytes of a variable: between the header and the raw value; of a
    /// text one less than the `A` that fill it up, and none where there are none.
    fn lead(&self) -> usize {
        let [_, _, units, start, _, _, text] = self.info;
        let code = self.code();
        let header: usize = match code {
            Code::Small { .. } => 1,
            Code::Large { .. } => 2,
            _ => return 0,
        };
        if code.is_text() {
            let filled = Form::Text.room(units.saturating_sub(header));
            filled.saturating_sub(text).saturating_sub(1)
        } else {
            start.saturating_sub(Form::Binary.room(header))
        }
    }
}

/// Writes a primitive; for type `A` `raw` is the characters of its text. For
/// variables [`write_variable`] takes the code that fits.
///
/// # Errors
///
/// 6 for a code that is no primitive's, 12 for a raw length, text or number of
/// tag characters unfit for the code, 18 for a large code where the small one
/// holds the value, 5 or 19 for a character of a tag or text, its place the
/// index among them, 16 for a text that starts with `A`.
///
/// ```
/// use cesr::{write, Code, Form, Number};
/// assert_eq!(write(Form::Text, Code::small(b'B'), b"", b"hi")?, b"5BABAGhp");
/// assert_eq!(write(Form::Text, Code::small(b'A'), b"", b"-a")?, b"5AABAA-a");
/// assert_eq!(write(Form::Text, "0J".parse()?, b"A", b"")?, b"0J_A");
/// let refusal = write(Form::Text, "M".parse()?, b"", b"one").unwrap_err();
/// assert_eq!(refusal.number, Number::UnfitLength);
/// # Ok::<(), Box<dyn std::error::Error>>(())
/// ```
pub fn write(form: Form, code: Code, tag: &[u8], raw: &[u8]) -> Result<Vec<u8>, Refusal> {
    let mut out = vec![0; room(form, raw)];
    let length = write_into(form, code, tag, raw, &mut out)?;
    out.truncate(length);
    Ok(out)
}

/// Writes a primitive at the start of `out`: the length written. A second item
/// goes into the rest of the buffer.
///
/// # Errors
///
/// As [`write()`], then 3 if the room is below the item's size. Refused, `out`
/// stays as it was.
pub fn write_into(
    form: Form,
    code: Code,
    tag: &[u8],
    raw: &[u8],
    out: &mut [u8],
) -> Result<usize, Refusal> {
    let (chars, letter) = code.numbers();
    let given = Tag::given(tag);
    let item = proved::Primitive {
        chars,
        letter,
        tag: given.characters,
        tags: given.count,
        raw,
    };
    let length = match form {
        Form::Text => proved::write_text(&item, out),
        Form::Binary => proved::write_binary(&item, out),
    };
    Ok(length?)
}

/// Writes a variable value of a type with the one code that holds it: the
/// small one, or the large one where it does not fit there. For type `A` `raw`
/// is the characters of its text.
///
/// # Errors
///
/// 6 for a letter that is no type, 12 beyond 3,145,722 raw bytes or 4,194,296
/// characters, and a text as by [`write()`].
///
/// ```
/// use cesr::{read, write_variable, Form, Number};
/// assert_eq!(write_variable(Form::Text, b'B', b"hi")?, b"5BABAGhp");
/// assert_eq!(write_variable(Form::Binary, b'B', b"hi")?, b"\xE4\x10\x01\0hi");
/// assert_eq!(write_variable(Form::Text, b'A', b"-a-personal")?, b"4AADA-a-personal");
///
/// // 12,285 bytes are the most that a small code holds.
/// let raw = [7; 12_286];
/// assert!(write_variable(Form::Text, b'B', &raw[1..])?.starts_with(b"4B__"));
/// let large = write_variable(Form::Text, b'B', &raw)?;
/// assert!(large.starts_with(b"9AABABAA"));
/// assert_eq!(read(Form::Text, &large, 0)?.raw(), &raw);
///
/// let refusal = write_variable(Form::Text, b'G', b"hi").unwrap_err();
/// assert_eq!(refusal.number, Number::UnknownCode);
/// // It would be taken for fill.
/// let refusal = write_variable(Form::Text, b'A', b"Abc").unwrap_err();
/// assert_eq!(refusal.number, Number::TextFill);
/// # Ok::<(), cesr::Refusal>(())
/// ```
pub fn write_variable(form: Form, letter: u8, raw: &[u8]) -> Result<Vec<u8>, Refusal> {
    let mut out = vec![0; room(form, raw)];
    let length = write_variable_into(form, letter, raw, &mut out)?;
    out.truncate(length);
    Ok(out)
}

/// Writes a variable value at the start of `out`: the length written.
///
/// # Errors
///
/// As [`write_variable`], then 3 if the room is below the item's size. Refused,
/// `out` stays as it was.
///
/// ```
/// use cesr::{write_variable_into, Form, Number};
/// let mut out = [0; 20];
/// let first = write_variable_into(Form::Text, b'B', b"hi", &mut out)?;
/// let second = write_variable_into(Form::Text, b'B', b"a", &mut out[first..])?;
/// assert_eq!(&out[..first + second], b"5BABAGhp6BABAABh");
/// let refusal = write_variable_into(Form::Text, b'B', b"hi", &mut out[16..]).unwrap_err();
/// assert_eq!(refusal.number, Number::Room);
/// # Ok::<(), cesr::Refusal>(())
/// ```
pub fn write_variable_into(
    form: Form,
    letter: u8,
    raw: &[u8],
    out: &mut [u8],
) -> Result<usize, Refusal> {
    // The library says what a small code does not hold.
    match write_into(form, Code::small(letter), b"", raw, out) {
        Err(refusal) if refusal.number == Number::UnfitLength => {
            write_into(form, Code::large(letter), b"", raw, out)
        }
        answer => answer,
    }
}

/// Room for an item with this raw value or text, whatever its code.
fn room(form: Form, raw: &[u8]) -> usize {
    let units = Form::Binary.units(raw.len());
    form.room(units.saturating_add(UNITS_BESIDE))
}
