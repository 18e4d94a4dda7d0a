//! A manifest: the streams that are expected, a line for each. A line is
//! `SHA256 LENGTH FORM NAME`, and names are escaped as `sha256sum` does it.

use crate::kind::Kind;
use crate::sha256::{self, Digest};
use std::ffi::{OsStr, OsString};
use std::os::unix::ffi::{OsStrExt, OsStringExt};

/// A stream that is expected.
#[derive(Clone, Debug, PartialEq, Eq)]
pub struct Entry {
    digest: Digest,
    length: usize,
    pub form: Kind,
    pub name: OsString,
}

/// What a line must be.
const FORMAT: &str = "no line of a manifest, which is SHA256 LENGTH FORM NAME";
const CUT_OFF: &str = "the manifest is cut off: no line feed at its end";

/// The entries line by line, or in words what is wrong with a line. Behind the
/// last line feed nothing stands: a line without one may be half a line.
pub fn parse(text: &[u8]) -> Vec<Result<Entry, &'static str>> {
    let lines = text.split_inclusive(|byte| *byte == b'\n');
    let entry = |line: &[u8]| match line.strip_suffix(b"\n") {
        Some(line) => Entry::of(line).ok_or(FORMAT),
        None => Err(CUT_OFF),
    };
    lines.map(entry).collect()
}

impl Entry {
    /// The entry of a stream as it is now.
    pub fn new(bytes: &[u8], form: Kind, name: &OsStr) -> Entry {
        Entry {
            digest: sha256::of(bytes),
            length: bytes.len(),
            form,
            name: name.to_os_string(),
        }
    }

    fn of(line: &[u8]) -> Option<Entry> {
        let (line, marked) = match line.strip_prefix(b"\\") {
            Some(line) => (line, true),
            None => (line, false),
        };
        let mut fields = line.splitn(4, |byte| *byte == b' ');
        let digest = Digest::parse(fields.next()?)?;
        let length = number(fields.next()?)?;
        let form = std::str::from_utf8(fields.next()?).ok()?.parse().ok()?;
        let name = match marked {
            true => unescaped(fields.next()?)?,
            false => plain(fields.next()?)?,
        };
        Some(Entry {
            digest,
            length,
            form,
            name: OsString::from_vec(name),
        })
    }

    /// The entry's line, with its line feed.
    pub fn line(&self) -> Vec<u8> {
        let Entry {
            digest,
            length,
            form,
            name,
        } = self;
        let name = escaped(name.as_bytes());
        let mark = if name == self.name.as_bytes() {
            ""
        } else {
            "\\"
        };
        let mut line = format!("{mark}{digest} {length} {form} ").into_bytes();
        line.extend(name);
        line.push(b'\n');
        line
    }

    /// In words, how these bytes are not the stream that is listed.
    pub fn differs(&self, bytes: &[u8]) -> Option<String> {
        let (came, listed) = (bytes.len(), self.length);
        if came != listed {
            let what = if came < listed {
                "torn"
            } else {
                "other than listed"
            };
            return Some(format!("{what}: {came} bytes, {listed} are listed"));
        }
        let (digest, listed) = (sha256::of(bytes), self.digest);
        let other = format!("other than listed: SHA-256 is {digest}, {listed} is listed");
        (digest != listed).then_some(other)
    }
}

/// Digits alone: no sign, no blank.
fn number(digits: &[u8]) -> Option<usize> {
    let all = digits.iter().all(u8::is_ascii_digit);
    std::str::from_utf8(digits)
        .ok()
        .filter(|_| all)?
        .parse()
        .ok()
}

/// A name in a line that opens with no backslash. One that holds a carriage
/// return would have been escaped: it is a line that an editor wrote anew.
fn plain(name: &[u8]) -> Option<Vec<u8>> {
    let odd = name.is_empty() || name.contains(&b'\r') || name.contains(&0);
    (!odd).then(|| name.to_vec())
}

const ESCAPES: [(u8, u8); 3] = [(b'\\', b'\\'), (b'\n', b'n'), (b'\r', b'r')];

fn escaped(name: &[u8]) -> Vec<u8> {
    let mut escaped = Vec::new();
    for byte in name {
        match ESCAPES.iter().find(|(odd, _)| odd == byte) {
            Some((_, letter)) => escaped.extend([b'\\', *letter]),
            None => escaped.push(*byte),
        }
    }
    escaped
}

fn unescaped(name: &[u8]) -> Option<Vec<u8>> {
    let (mut unescaped, mut rest) = (Vec::new(), plain(name)?.into_iter());
    while let Some(byte) = rest.next() {
        unescaped.push(match byte {
            b'\\' => {
                let letter = rest.next()?;
                ESCAPES.iter().find(|escape| escape.1 == letter)?.0
            }
            byte => byte,
        });
    }
    Some(unescaped)
}

#[cfg(test)]
mod tests {
    use super::*;
    use cesr::Form;

    const ABC: &str = "ba7816bf8f01cfea414140de5dae2223b00361a396177a9cb410ff61f20015ad";

    fn parsed(name: &[u8]) -> Entry {
        Entry::new(b"abc", Kind::Cesr(Form::Text), OsStr::from_bytes(name))
    }

    /// Names as `sha256sum` writes them, there and back.
    #[test]
    fn lines_of_names() {
        for (name, line) in [
            (
                &b"a b.cesr"[..],
                format!("{ABC} 3 text a b.cesr\n").into_bytes(),
            ),
            (b" ", format!("{ABC} 3 text  \n").into_bytes()),
            (b"a\nb", format!("\\{ABC} 3 text a\\nb\n").into_bytes()),
            (b"a\\nb", format!("\\{ABC} 3 text a\\\\nb\n").into_bytes()),
            (b"a\rb", format!("\\{ABC} 3 text a\\rb\n").into_bytes()),
            (
                b"a\xff",
                [format!("{ABC} 3 text a").as_bytes(), b"\xff\n"].concat(),
            ),
        ] {
            assert_eq!(parsed(name).line(), line);
            assert_eq!(parse(&line), [Ok(parsed(name))]);
        }
    }

    #[test]
    fn a_line_of_each_form() {
        for form in [Form::Text.into(), Form::Binary.into(), Kind::Mixed] {
            let entry = Entry::new(b"abc", form, OsStr::new("a"));
            assert_eq!(entry.line(), format!("{ABC} 3 {form} a\n").into_bytes());
            assert_eq!(parse(&entry.line()), [Ok(entry)]);
        }
    }

    #[test]
    fn lines_that_are_none() {
        let short = &ABC[1..];
        for line in [
            String::new(),
            ABC.to_string(),
            format!("{ABC} 3 text"),
            format!("{ABC} 3 text "),
            format!("{ABC}  3 text a"),
            format!("{ABC} +3 text a"),
            format!("{ABC}  text a"),
            format!("{ABC} 3 Mixed a"),
            format!("{ABC} 3 json a"),
            format!("{ABC} 99999999999999999999 text a"),
            format!("{short} 3 text a"),
            format!(" {ABC} 3 text a"),
            format!("{ABC} 3 text a\r"),
            format!("\\{ABC} 3 text a\\"),
            format!("\\{ABC} 3 text a\\tb"),
            format!("{ABC}  a"),
        ] {
            assert_eq!(
                parse(format!("{line}\n").as_bytes()),
                [Err(FORMAT)],
                "{line}"
            );
        }
        let whole = parsed(b"a").line();
        let cut = &[&whole[..], &whole[..whole.len() - 1]].concat();
        assert_eq!(parse(cut), [Ok(parsed(b"a")), Err(CUT_OFF)]);
        assert_eq!(parse(b""), []);
    }

    #[test]
    fn what_is_other_than_listed() {
        let entry = parsed(b"a");
        assert_eq!(entry.differs(b"abc"), None);
        assert_eq!(
            entry.differs(b"ab").expect("words"),
            "torn: 2 bytes, 3 are listed"
        );
        let longer = entry.differs(b"abcd").expect("words");
        assert_eq!(longer, "other than listed: 4 bytes, 3 are listed");
        let other = entry.differs(b"abd").expect("words");
        assert!(
            other.starts_with("other than listed: SHA-256 is "),
            "{other}"
        );
    }
}
