//! Groups: a header put in front of items that are written already, and a
//! builder that writes items and groups one in the other.

use crate::{write, write_indexed, write_variable, Code, Form, IndexedCode, Refusal};
use alloc::vec::Vec;

/// The units of the largest header.
const HEADER: usize = 2;

/// Puts a group around a body, which is whole items one behind the other. The
/// letter is `K` and not `-K`; the small code is taken up to 4,095 units and the
/// large one above. An empty body is one too.
///
/// # Errors
///
/// 1 if header and body together are longer than [`Form::limit`], 6 for a letter
/// that is no group's, 2 for a body that isn't whole units, each with the place
/// 0; then what a [`Walk`](crate::Walk) of the body as this group's contents
/// refuses, its place counted from the body's start: a group `K` or `L` takes
/// indexed items and nothing else (6), and within the body 63 groups may stand
/// one in the other (11).
///
/// ```
/// use cesr::{write_group, Form, Number};
/// assert_eq!(write_group(Form::Text, b'A', b"MAAB")?, b"-AABMAAB");
/// assert_eq!(write_group(Form::Text, b'J', b"-AABMAAB1AAM")?, b"-JAD-AABMAAB1AAM");
/// assert_eq!(write_group(Form::Text, b'A', b"")?, b"-AAA");
///
/// let refusal = write_group(Form::Text, b'K', b"MAAB").unwrap_err();
/// assert_eq!((refusal.number, refusal.place), (Number::UnknownCode, 0));
/// let refusal = write_group(Form::Text, b'A', b"MAABMQAA").unwrap_err();
/// assert_eq!((refusal.number, refusal.place), (Number::NotZero, 4));
/// # Ok::<(), cesr::Refusal>(())
/// ```
pub fn write_group(form: Form, letter: u8, body: &[u8]) -> Result<Vec<u8>, Refusal> {
    let mut builder = Builder::new(form);
    builder.append(body).enclose(letter)?;
    Ok(builder.into_bytes())
}

/// Puts the header of a group in front of the first `length` characters or bytes
/// of the buffer and moves them behind it: the size of the group. What lies
/// behind it stays.
///
/// # Errors
///
/// 3 if `length` passes the buffer's, then as [`write_group`], then 3 if the
/// buffer has no room for header and body. Refused, the buffer stays as it was.
///
/// ```
/// use cesr::{write_group_into, write_into, Code, Form, Number};
/// let mut buffer = [0; 12];
/// let number = Code::fixed(1, b'M');
/// let length = write_into(Form::Text, number, b"", &[0, 1], &mut buffer)?;
/// let size = write_group_into(Form::Text, b'A', length, &mut buffer)?;
/// assert_eq!(&buffer[..size], b"-AABMAAB");
/// // And one around that.
/// let size = write_group_into(Form::Text, b'J', size, &mut buffer)?;
/// assert_eq!(&buffer[..size], b"-JAC-AABMAAB");
/// let refusal = write_group_into(Form::Text, b'J', size, &mut buffer).unwrap_err();
/// assert_eq!(refusal.number, Number::Room);
/// # Ok::<(), cesr::Refusal>(())
/// ```
pub fn write_group_into(
    form: Form,
    letter: u8,
    length: usize,
    buffer: &mut [u8],
) -> Result<usize, Refusal> {
    let size = match form {
        Form::Text => proved::group_text(letter, length, buffer),
        Form::Binary => proved::group_binary(letter, length, buffer),
    };
    Ok(size?)
}

/// Writes items one behind the other, and groups around them. Refused, a call
/// leaves the builder as it was.
///
/// ```
/// use cesr::{judge, Builder, Code, Form, IndexedCode};
/// let ed25519 = IndexedCode::new(None, b'A');
/// let mut stream = Builder::new(Form::Text);
/// // Two signatures, a group around them, a number beside it, and a group
/// // around all.
/// stream
///     .indexed(ed25519, 0, 0, &[7; 64])?
///     .indexed(ed25519, 1, 0, &[8; 64])?
///     .enclose(b'K')?
///     .primitive(Code::fixed(1, b'M'), b"", &[0, 1])?
///     .enclose(b'C')?;
/// assert!(stream.as_bytes().starts_with(b"-CAu-KAsAA"));
/// assert!(judge(Form::Text, stream.as_bytes())?.passed());
///
/// // The same from the outside in; beside the first group stands another.
/// let mut other = Builder::new(Form::Text);
/// other.group(b'C', |attached| {
///     attached.group(b'K', |signed| {
///         signed.indexed(ed25519, 0, 0, &[7; 64])?;
///         signed.indexed(ed25519, 1, 0, &[8; 64]).map(drop)
///     })?;
///     attached.primitive(Code::fixed(1, b'M'), b"", &[0, 1]).map(drop)
/// })?;
/// assert_eq!(other, stream);
/// other.group(b'J', |_| Ok(()))?;
/// assert!(other.as_bytes().ends_with(b"MAAB-JAA"));
/// # Ok::<(), cesr::Refusal>(())
/// ```
#[derive(Clone, Debug, PartialEq, Eq)]
pub struct Builder {
    form: Form,
    stream: Vec<u8>,
}

impl Builder {
    /// One with nothing in it.
    pub const fn new(form: Form) -> Builder {
        Builder {
            form,
            stream: Vec::new(),
        }
    }

    /// The form that it writes.
    pub const fn form(&self) -> Form {
        self.form
    }

    /// What was written.
    pub fn as_bytes(&self) -> &[u8] {
        &self.stream
    }

    /// What was written.
    pub fn into_bytes(self) -> Vec<u8> {
        self.stream
    }

    /// Puts a primitive behind what was written.
    ///
    /// # Errors
    ///
    /// As [`write()`].
    pub fn primitive(
        &mut self,
        code: Code,
        tag: &[u8],
        raw: &[u8],
    ) -> Result<&mut Builder, Refusal> {
        Ok(self.append(&write(self.form, code, tag, raw)?))
    }

    /// Puts a variable value of a type behind what was written, with the one
    /// code that holds it.
    ///
    /// # Errors
    ///
    /// As [`write_variable`].
    pub fn variable(&mut self, letter: u8, raw: &[u8]) -> Result<&mut Builder, Refusal> {
        Ok(self.append(&write_variable(self.form, letter, raw)?))
    }

    /// Puts an indexed item behind what was written. It may stand in a group `K`
    /// or `L` and nowhere else: the next group around it is to be one.
    ///
    /// # Errors
    ///
    /// As [`write_indexed`].
    pub fn indexed(
        &mut self,
        code: IndexedCode,
        index: usize,
        ondex: usize,
        raw: &[u8],
    ) -> Result<&mut Builder, Refusal> {
        let item = write_indexed(self.form, code, index, ondex, raw)?;
        Ok(self.append(&item))
    }

    /// Puts items behind what was written that were written elsewhere, in the
    /// same form. They are judged when a group is put around them, and not
    /// before.
    ///
    /// ```
    /// use cesr::{Builder, Form, Number};
    /// let mut stream = Builder::new(Form::Text);
    /// let refusal = stream.append(b"MAAB").append(b"MQAA").enclose(b'A').unwrap_err();
    /// assert_eq!((refusal.number, refusal.place), (Number::NotZero, 4));
    /// assert_eq!(stream.as_bytes(), b"MAABMQAA");
    /// ```
    pub fn append(&mut self, items: &[u8]) -> &mut Builder {
        self.stream.extend_from_slice(items);
        self
    }

    /// Puts a group around all that was written.
    ///
    /// # Errors
    ///
    /// As [`write_group`].
    pub fn enclose(&mut self, letter: u8) -> Result<&mut Builder, Refusal> {
        let length = self.stream.len();
        let room = HEADER.saturating_mul(self.form.unit());
        self.stream.resize(length.saturating_add(room), 0);
        let answer = write_group_into(self.form, letter, length, &mut self.stream);
        self.stream.truncate(*answer.as_ref().unwrap_or(&length));
        answer.map(|_| self)
    }

    /// Puts a group behind what was written, with what `contents` writes in it.
    ///
    /// # Errors
    ///
    /// What `contents` gives, then as [`write_group`], with a place that is
    /// counted from the group's contents.
    pub fn group(
        &mut self,
        letter: u8,
        contents: impl FnOnce(&mut Builder) -> Result<(), Refusal>,
    ) -> Result<&mut Builder, Refusal> {
        let mut within = Builder::new(self.form);
        contents(&mut within)?;
        within.enclose(letter)?;
        Ok(self.append(within.as_bytes()))
    }
}
