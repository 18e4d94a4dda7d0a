//! `cesr write`: one item, made of the words of a call.

use crate::arguments;
use crate::convert::{failed, written};
use crate::name::shown;
use crate::standing::Standing;
use crate::{complain, hint};
use cesr::{Code, Form, Head, IndexedCode, Refusal};
use std::ffi::{OsStr, OsString};
use std::io::{self, Write};

/// The values of a call as they were given.
#[derive(Debug, Default)]
pub struct Values {
    pub index: Option<OsString>,
    pub ondex: Option<OsString>,
    pub raw: Option<OsString>,
    pub tag: Option<OsString>,
    pub text: Option<OsString>,
}

/// What is to be written.
#[derive(Debug, PartialEq, Eq)]
pub enum Item {
    Primitive {
        code: Code,
        tag: Vec<u8>,
        raw: Vec<u8>,
    },
    Indexed {
        code: IndexedCode,
        index: usize,
        ondex: usize,
        raw: Vec<u8>,
    },
}

/// Passed where the item was written.
pub fn run(task: &arguments::Write, out: &mut dyn Write) -> io::Result<Standing> {
    let name = shown(&task.code);
    match task.item.bytes(task.form) {
        Ok(bytes) => {
            if let Some(head) = task.item.other_head(task.form, &bytes, &name) {
                complain(&format!("{name}: its length makes it {head}"));
            }
            written(out, task.form, task.out.as_deref(), &bytes)
        }
        Err(refusal) => {
            let usually = hint::usually(refusal.number);
            failed(&format!("{name}: {refusal}\n        usually {usually}"))
        }
    }
}

impl Item {
    fn bytes(&self, form: Form) -> Result<Vec<u8>, Refusal> {
        match self {
            Item::Primitive { code, tag, raw } => cesr::write(form, *code, tag, raw),
            Item::Indexed {
                code,
                index,
                ondex,
                raw,
            } => cesr::write_indexed(form, *code, *index, *ondex, raw),
        }
    }

    /// The code that a primitive came to have, where it is another than was
    /// given: a variable's selector follows from the length of its value.
    fn other_head(&self, form: Form, bytes: &[u8], given: &str) -> Option<String> {
        match self {
            Item::Primitive { .. } => {
                let head = Head::of(form, bytes)?.to_string();
                (head != given).then_some(head)
            }
            Item::Indexed { .. } => None,
        }
    }
}

impl Values {
    /// The item of a code, or in words what is wrong. Both tables have some
    /// codes: it is an indexed item exactly if it has an index.
    pub fn item(self, code: &OsStr) -> Result<Item, String> {
        match self.index {
            Some(_) => self.indexed(code),
            None => self.primitive(code),
        }
    }

    fn indexed(self, code: &OsStr) -> Result<Item, String> {
        let parsed = code.to_str().unwrap_or_default().parse();
        let code = parsed.map_err(|wrong| format!("{wrong}, not {}", shown(code)))?;
        if self.tag.is_some() || self.text.is_some() {
            return Err("an indexed item has a raw value: give --raw".to_string());
        }
        Ok(Item::Indexed {
            code,
            index: number("--index", self.index)?,
            ondex: number("--ondex", self.ondex)?,
            raw: hexadecimal(self.raw)?,
        })
    }

    fn primitive(self, code: &OsStr) -> Result<Item, String> {
        let name = shown(code);
        let code: Code = match code.to_str().unwrap_or_default().parse() {
            Ok(code) => code,
            Err(_) if is_indexed(code) => {
                return Err(format!("{name} is a code of indexed items: give --index"))
            }
            Err(wrong) => return Err(format!("{wrong}, not {name}")),
        };
        if self.ondex.is_some() {
            return Err("--ondex goes with --index".to_string());
        }
        let bytes = |word: Option<OsString>| word.unwrap_or_default().into_encoded_bytes();
        let (tag, raw) = match (self.raw, self.tag, self.text) {
            (None, None, None) => (Vec::new(), Vec::new()),
            (None, None, text) if code.is_text() => (Vec::new(), bytes(text)),
            (raw, None, None) if !code.is_text() => (Vec::new(), hexadecimal(raw)?),
            (None, tag, None) if !code.is_text() => (bytes(tag), Vec::new()),
            (_, _, None) if code.is_text() => return Err(format!("{name} is text: give --text")),
            (None, None, _) => return Err(format!("{name} is no text: give --raw or --tag")),
            _ => return Err("an item has one of --raw, --tag and --text".to_string()),
        };
        Ok(Item::Primitive { code, tag, raw })
    }
}

fn is_indexed(code: &OsStr) -> bool {
    let parsed: Result<IndexedCode, _> = code.to_str().unwrap_or_default().parse();
    parsed.is_ok_and(|code| code.name().is_some())
}

/// A number of a call; 0 where it isn't given.
fn number(name: &str, word: Option<OsString>) -> Result<usize, String> {
    let Some(word) = word else {
        return Ok(0);
    };
    let digits = word.to_str().unwrap_or_default();
    match digits.bytes().all(|byte| byte.is_ascii_digit()) {
        true => digits.parse().ok(),
        false => None,
    }
    .ok_or_else(|| format!("{name} asks for a number, not {}", shown(&word)))
}

/// Bytes, two digits each.
fn hexadecimal(word: Option<OsString>) -> Result<Vec<u8>, String> {
    let word = word.unwrap_or_default();
    let wrong = || {
        let word = shown(&word);
        format!("--raw asks for hexadecimal digits, two a byte, not {word}")
    };
    let digit = |byte: &u8| char::from(*byte).to_digit(16).ok_or_else(wrong);
    let pairs = word.as_encoded_bytes().chunks(2);
    pairs
        .map(|pair| match pair {
            [high, low] => {
                let byte = digit(high)? << 4 | digit(low)?;
                u8::try_from(byte).map_err(|_| wrong())
            }
            _ => Err(wrong()),
        })
        .collect()
}

#[cfg(test)]
mod tests {
    use super::*;

    /// The values of these options.
    fn values(given: &[(&str, &str)]) -> Values {
        let value = |name: &str| {
            let row = given.iter().find(|row| row.0 == name);
            row.map(|row| OsString::from(row.1))
        };
        Values {
            index: value("index"),
            ondex: value("ondex"),
            raw: value("raw"),
            tag: value("tag"),
            text: value("text"),
        }
    }

    fn item(code: &str, given: &[(&str, &str)]) -> Result<Item, String> {
        values(given).item(OsStr::new(code))
    }

    fn primitive(code: &str, tag: &[u8], raw: &[u8]) -> Result<Item, String> {
        Ok(Item::Primitive {
            code: code.parse().expect("a code"),
            tag: tag.to_vec(),
            raw: raw.to_vec(),
        })
    }

    #[test]
    fn primitives() {
        assert_eq!(item("1AAM", &[]), primitive("1AAM", b"", b""));
        assert_eq!(
            item("M", &[("raw", "00fF")]),
            primitive("M", b"", b"\0\xFF")
        );
        assert_eq!(item("X", &[("tag", "a-b")]), primitive("X", b"a-b", b""));
        assert_eq!(item("4A", &[("text", "-a")]), primitive("4A", b"", b"-a"));
        assert_eq!(item("4A", &[]), primitive("4A", b"", b""));
        assert_eq!(item("A", &[("raw", "")]), primitive("A", b"", b""));
    }

    #[test]
    fn an_index_makes_it_an_indexed_item() {
        for (code, selector, letter) in [("A", None, b'A'), ("2B", Some(b'2'), b'B')] {
            let told = Ok(Item::Indexed {
                code: IndexedCode::new(selector, letter),
                index: 7,
                ondex: 0,
                raw: vec![1],
            });
            assert_eq!(item(code, &[("index", "7"), ("raw", "01")]), told);
        }
    }

    #[test]
    fn what_is_wrong_is_said() {
        let (index, raw) = (("index", "1"), ("raw", "00"));
        for (code, given, said) in [
            (
                "2A",
                &[raw][..],
                "2A is a code of indexed items: give --index",
            ),
            ("A", &[raw, ("ondex", "1")], "--ondex goes with --index"),
            (
                "A",
                &[index, ("tag", "a")],
                "an indexed item has a raw value: give --raw",
            ),
            (
                "A",
                &[index, ("text", "a")],
                "an indexed item has a raw value: give --raw",
            ),
            ("4A", &[raw], "4A is text: give --text"),
            ("7AAA", &[("tag", "a")], "7AAA is text: give --text"),
            ("4B", &[("text", "a")], "4B is no text: give --raw or --tag"),
            (
                "X",
                &[raw, ("tag", "a")],
                "an item has one of --raw, --tag and --text",
            ),
            (
                "4A",
                &[raw, ("text", "a")],
                "an item has one of --raw, --tag and --text",
            ),
            (
                "M",
                &[("raw", "0")],
                "--raw asks for hexadecimal digits, two a byte, not 0",
            ),
            (
                "M",
                &[("raw", "0x01")],
                "--raw asks for hexadecimal digits, two a byte, not 0x01",
            ),
            ("A", &[("index", "+1")], "--index asks for a number, not +1"),
            ("A", &[("index", "")], "--index asks for a number, not "),
            (
                "A",
                &[index, ("ondex", "a")],
                "--ondex asks for a number, not a",
            ),
            (
                "ABC",
                &[index],
                "an indexed code is a letter, or 0, 2 or 3 and a letter, not ABC",
            ),
            (
                "ABC",
                &[],
                "a primitive's code is like M, 0H, 1AAM, 4B or 7AAB, not ABC",
            ),
            (
                "",
                &[],
                "a primitive's code is like M, 0H, 1AAM, 4B or 7AAB, not ",
            ),
        ] {
            assert_eq!(item(code, given), Err(said.to_string()), "{code}");
        }
    }
}
