//! Text and binary: the two forms a stream comes in.

use core::fmt;
use core::str::FromStr;

/// The form of a stream. The same rules hold in both.
#[derive(Clone, Copy, Debug, PartialEq, Eq, Hash)]
pub enum Form {
    /// Characters of URL-safe Base64; a unit is 4 characters.
    Text,
    /// Bytes; a unit is 3 bytes.
    Binary,
}

impl Form {
    /// How many of a stream's first bytes tell its form.
    pub const TELLING: usize = 16;

    /// Binary for text, text for binary.
    pub const fn other(self) -> Form {
        match self {
            Form::Text => Form::Binary,
            Form::Binary => Form::Text,
        }
    }

    /// The length of a unit: 4 characters or 3 bytes.
    pub const fn unit(self) -> usize {
        match self {
            Form::Text => 4,
            Form::Binary => 3,
        }
    }

    /// The longest stream that is read, in characters or bytes. A reader that
    /// stops one behind it has all that the library needs to refuse with 1.
    pub const fn limit(self) -> usize {
        match self {
            Form::Text => 4_194_304,
            Form::Binary => 3_145_728,
        }
    }

    /// What offsets, sizes and places count: a `character` or a `byte`.
    pub const fn measure(self) -> &'static str {
        match self {
            Form::Text => "character",
            Form::Binary => "byte",
        }
    }

    /// Tells the form from a stream's first [`Form::TELLING`] bytes, or fewer
    /// if there are no more: text if each of them is printable ASCII, a tab or
    /// a line end, else binary.
    ///
    /// It is a guess for people and no verdict: a short binary stream may look
    /// like text (`WGhp` in binary is `Xhi`), and a program that knows the
    /// form says it. It looks at no outcome, so a stream is never taken for
    /// the form that it would pass in.
    ///
    /// ```
    /// use cesr::Form;
    /// assert_eq!(Form::told_from(b"-AAB0AAAMAAB"), Form::Text);
    /// assert_eq!(Form::told_from(b"MAA!"), Form::Text);
    /// assert_eq!(Form::told_from(b"\x30\x00\x01"), Form::Binary);
    /// ```
    pub fn told_from(first: &[u8]) -> Form {
        let mut telling = first.iter().take(Form::TELLING);
        match telling.all(|byte| matches!(byte, b'\t' | b'\n' | b'\r' | 0x20..=0x7E)) {
            true => Form::Text,
            false => Form::Binary,
        }
    }

    /// Room in bytes for so many units of this form, none past the longest
    /// stream's.
    pub(crate) fn room(self, units: usize) -> usize {
        units.saturating_mul(self.unit()).min(self.limit())
    }

    /// The whole units in so many characters or bytes.
    pub(crate) fn units(self, length: usize) -> usize {
        match self {
            Form::Text => length / 4,
            Form::Binary => length / 3,
        }
    }
}

impl fmt::Display for Form {
    fn fmt(&self, f: &mut fmt::Formatter<'_>) -> fmt::Result {
        f.write_str(match self {
            Form::Text => "text",
            Form::Binary => "binary",
        })
    }
}

/// The name of no form.
#[derive(Clone, Copy, Debug, PartialEq, Eq)]
pub struct ParseFormError;

impl fmt::Display for ParseFormError {
    fn fmt(&self, f: &mut fmt::Formatter<'_>) -> fmt::Result {
        f.write_str("a form is text or binary")
    }
}

impl core::error::Error for ParseFormError {}

impl FromStr for Form {
    type Err = ParseFormError;

    fn from_str(name: &str) -> Result<Form, ParseFormError> {
        match name {
            "text" => Ok(Form::Text),
            "binary" => Ok(Form::Binary),
            _ => Err(ParseFormError),
        }
    }
}
