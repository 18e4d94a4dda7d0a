//! Codes as the library names them, and their characters and names for people.

use crate::names::{FIXED, GENUS_VERSION, GROUPS, VARIABLES};
use crate::{to_text_into, Form, IndexedCode};
use core::fmt;
use core::str::FromStr;

/// The library's number for an indexed item.
const INDEXED: u8 = 10;

/// How many characters a fixed code has.
#[derive(Clone, Copy, Debug, PartialEq, Eq, Hash)]
#[repr(u8)]
pub enum Chars {
    /// `M`.
    One = 1,
    /// `0H`.
    Two = 2,
    /// `1AAM`.
    Four = 4,
}

/// A code. The letter is the code's last character, a variable's type or a
/// group's letter. A value of this type need not be a code of the registry:
/// the library refuses one that is not with 6. Two values that are not equal
/// name no code alike.
#[derive(Clone, Copy, Debug, PartialEq, Eq, Hash)]
pub enum Code {
    /// A fixed code of 1, 2 or 4 characters: `M`, `0H`, `1AAM`.
    Fixed {
        /// The number of its characters.
        chars: Chars,
        /// Its last character.
        letter: u8,
    },
    /// A small variable, of selector `4`, `5` or `6`: up to 12,285 raw bytes, or
    /// of type `A` 16,380 characters with their fill.
    Small {
        /// Its type.
        letter: u8,
    },
    /// A large variable, of selector `7`, `8` or `9`: from 12,286 raw bytes on,
    /// or of type `A` from 16,381 characters on.
    Large {
        /// Its type.
        letter: u8,
    },
    /// A small group, `-A`: up to 4,095 units.
    SmallGroup {
        /// The group's letter.
        letter: u8,
    },
    /// A large group, `--A`: from 4,096 units on.
    LargeGroup {
        /// The group's letter.
        letter: u8,
    },
    /// A genus/version, `-_`.
    GenusVersion,
    /// An indexed item within a signature group, `-K` or `-L`: `A`, `0B`, `2C`.
    /// Its table is another one, so that `A` there is no `A` elsewhere.
    Indexed(IndexedCode),
    /// No code at all: what [`Code::fixed`] makes of a length that none has.
    Unknown,
}

impl Code {
    /// A fixed code by its number of characters, 1, 2 or 4, and its last one;
    /// [`Code::Unknown`] for any other number.
    ///
    /// ```
    /// use cesr::Code;
    /// assert_eq!("0H".parse(), Ok(Code::fixed(2, b'H')));
    /// assert_eq!(Code::fixed(3, b'H'), Code::Unknown);
    /// ```
    pub const fn fixed(chars: u8, letter: u8) -> Code {
        let chars = match chars {
            1 => Chars::One,
            2 => Chars::Two,
            4 => Chars::Four,
            _ => return Code::Unknown,
        };
        Code::Fixed { chars, letter }
    }

    /// A small variable of a type.
    pub const fn small(letter: u8) -> Code {
        Code::Small { letter }
    }

    /// A large variable of a type.
    pub const fn large(letter: u8) -> Code {
        Code::Large { letter }
    }

    /// A code in the library's two numbers.
    pub(crate) fn answered(chars: usize, letter: usize) -> Code {
        let letter = u8::try_from(letter).unwrap_or(0);
        match chars {
            5 => Code::Small { letter },
            6 => Code::Large { letter },
            7 => Code::SmallGroup { letter },
            8 => Code::LargeGroup { letter },
            9 => Code::GenusVersion,
            _ => Code::fixed(u8::try_from(chars).unwrap_or(0), letter),
        }
    }

    /// The library's two numbers. Only a primitive's are a code to its writer.
    pub(crate) fn numbers(self) -> (u8, u8) {
        match self {
            Code::Fixed { chars, letter } => (chars as u8, letter),
            Code::Small { letter } => (5, letter),
            Code::Large { letter } => (6, letter),
            Code::SmallGroup { letter } => (7, letter),
            Code::LargeGroup { letter } => (8, letter),
            Code::GenusVersion => (9, 0),
            Code::Indexed(code) => (INDEXED, code.letter()),
            Code::Unknown => (0, 0),
        }
    }

    /// Is its value text? It is that of variable type `A`, small and large.
    pub fn is_text(self) -> bool {
        matches!(
            self,
            Code::Small { letter: b'A' } | Code::Large { letter: b'A' }
        )
    }

    /// Does it head a group?
    pub fn is_group(self) -> bool {
        matches!(self, Code::SmallGroup { .. } | Code::LargeGroup { .. })
    }

    /// The registry's name, for display; none for a code that it lacks.
    ///
    /// ```
    /// use cesr::Code;
    /// assert_eq!(Code::fixed(1, b'E').name(), Some("Blake3-256 Digest"));
    /// assert_eq!(Code::fixed(1, b'b').name(), None);
    /// ```
    pub fn name(self) -> Option<&'static str> {
        match self {
            Code::Fixed { chars, letter } => fixed_name(chars, letter),
            Code::Small { letter } | Code::Large { letter } => lettered(&VARIABLES, letter),
            Code::SmallGroup { letter } | Code::LargeGroup { letter } => lettered(&GROUPS, letter),
            Code::GenusVersion => Some(GENUS_VERSION),
            Code::Indexed(code) => code.name(),
            Code::Unknown => None,
        }
    }
}

fn fixed_name(chars: Chars, letter: u8) -> Option<&'static str> {
    let mut rows = FIXED.iter().map(|(code, name)| (code.as_bytes(), *name));
    let found = rows.find(|(code, _)| code.last() == Some(&letter) && chars as usize == code.len());
    found.map(|(_, name)| name)
}

fn lettered(table: &[(u8, &'static str)], letter: u8) -> Option<&'static str> {
    let row = table.iter().find(|row| row.0 == letter);
    row.map(|row| row.1)
}

/// Characters that can be no primitive's code.
#[derive(Clone, Copy, Debug, PartialEq, Eq)]
pub struct ParseCodeError;

impl fmt::Display for ParseCodeError {
    fn fmt(&self, f: &mut fmt::Formatter<'_>) -> fmt::Result {
        f.write_str("a primitive's code is like M, 0H, 1AAM, 4B or 7AAB")
    }
}

impl core::error::Error for ParseCodeError {}

/// A primitive's code by its characters. A variable's selector tells small
/// from large; the lead follows from the length of the value.
///
/// ```
/// use cesr::Code;
/// assert_eq!("0H".parse(), Ok(Code::fixed(2, b'H')));
/// assert_eq!("6B".parse(), Ok(Code::small(b'B')));
/// assert!("-A".parse::<Code>().is_err());
/// ```
impl FromStr for Code {
    type Err = ParseCodeError;

    fn from_str(characters: &str) -> Result<Code, ParseCodeError> {
        match *characters.as_bytes() {
            [letter @ (b'A'..=b'Z' | b'a'..=b'z')] => Ok(Code::fixed(1, letter)),
            [b'0', letter] => Ok(Code::fixed(2, letter)),
            [b'1', b'A', b'A', letter] => Ok(Code::fixed(4, letter)),
            [b'4'..=b'6', letter] => Ok(Code::small(letter)),
            [b'7'..=b'9', b'A', b'A', letter] => Ok(Code::large(letter)),
            _ => Err(ParseCodeError),
        }
    }
}

/// A code with the lead bytes of a variable, which tell its selector.
#[derive(Clone, Copy, Debug, PartialEq, Eq, Hash)]
pub struct Head {
    code: Code,
    lead: u8,
}

impl Head {
    /// A code and its lead bytes: 0, 1 or 2 of a variable, 0 of any other;
    /// none where the code has no such lead.
    ///
    /// ```
    /// use cesr::{Code, Head};
    /// let head = Head::new(Code::small(b'B'), 1).expect("a lead of a variable");
    /// assert_eq!(head.to_string(), "5B");
    /// assert_eq!(Head::new(Code::fixed(1, b'M'), 1), None);
    /// ```
    pub const fn new(code: Code, lead: u8) -> Option<Head> {
        let most = match code {
            Code::Small { .. } | Code::Large { .. } => 2,
            _ => 0,
        };
        match lead <= most {
            true => Some(Head { code, lead }),
            false => None,
        }
    }

    /// As the library answered it.
    pub(crate) fn answered(code: Code, lead: usize) -> Head {
        let lead = u8::try_from(lead).unwrap_or(0);
        Head::new(code, lead).unwrap_or(Head { code, lead: 0 })
    }

    /// As the walk answered it: its last number is a variable's lead, or the
    /// selector of an indexed item.
    pub(crate) fn walked(chars: usize, letter: usize, last: usize) -> Head {
        if chars != usize::from(INDEXED) {
            return Head::answered(Code::answered(chars, letter), last);
        }
        let code = Code::Indexed(IndexedCode::answered(last, letter));
        Head { code, lead: 0 }
    }

    /// The code.
    pub const fn code(&self) -> Code {
        self.code
    }

    /// Lead bytes of a variable; else 0.
    pub const fn lead(&self) -> u8 {
        self.lead
    }

    /// What stands at the start of an item that the library has framed, for
    /// display; none where no code of the registry does. It is no verdict: a
    /// refused item has a head too.
    ///
    /// ```
    /// use cesr::{Form, Head};
    /// let head = Head::of(Form::Text, b"5BABAQAA").expect("a framed item");
    /// assert_eq!(head.to_string(), "5B");
    /// assert_eq!(head.name(), Some("Bytes"));
    /// ```
    pub fn of(form: Form, item: &[u8]) -> Option<Head> {
        let head = Head::spelt(first_unit(form, item)?);
        head.filter(|head| head.name().is_some())
    }

    /// The same within a signature group, where items are indexed ones.
    ///
    /// ```
    /// use cesr::{Form, Head};
    /// let head = Head::of_indexed(Form::Text, b"0BAB").expect("an indexed code");
    /// assert_eq!(head.name(), Some("Ed448 indexed sig, current only"));
    /// ```
    pub fn of_indexed(form: Form, item: &[u8]) -> Option<Head> {
        let code = match first_unit(form, item)? {
            [selector @ (b'0' | b'2' | b'3'), letter, ..] => {
                IndexedCode::new(Some(selector), letter)
            }
            [letter, ..] => IndexedCode::new(None, letter),
        };
        let head = Head::new(Code::Indexed(code), 0);
        head.filter(|head| head.name().is_some())
    }

    fn spelt(unit: [u8; 4]) -> Option<Head> {
        let [first, second, _, fourth] = unit;
        let (code, lead) = match unit {
            [b'-', b'_', ..] => (Code::GenusVersion, 0),
            [b'-', b'-', letter, _] => (Code::LargeGroup { letter }, 0),
            [b'-', letter, ..] => (Code::SmallGroup { letter }, 0),
            [b'4'..=b'6', letter, ..] => (Code::small(letter), first.wrapping_sub(b'4')),
            [b'7'..=b'9', b'A', b'A', _] => (Code::large(fourth), first.wrapping_sub(b'7')),
            [b'0', ..] => (Code::fixed(2, second), 0),
            [b'1', b'A', b'A', _] => (Code::fixed(4, fourth), 0),
            [b'1' | b'7'..=b'9', ..] => return None,
            _ => (Code::fixed(1, first), 0),
        };
        Some(Head { code, lead })
    }

    /// The registry's name of the code.
    pub fn name(&self) -> Option<&'static str> {
        self.code.name()
    }
}

/// The characters of an item's first unit.
fn first_unit(form: Form, item: &[u8]) -> Option<[u8; 4]> {
    match form {
        Form::Text => item.first_chunk().copied(),
        Form::Binary => {
            let mut unit = [0; 4];
            let first: [u8; 3] = *item.first_chunk()?;
            to_text_into(&first, &mut unit).ok()?;
            Some(unit)
        }
    }
}

/// The code's characters: `M`, `0H`, `1AAM`, `5B`, `8AAB`, `-A`, `--A`, `-_`.
impl fmt::Display for Head {
    fn fmt(&self, f: &mut fmt::Formatter<'_>) -> fmt::Result {
        let selector = |first: u8| char::from(first.saturating_add(self.lead));
        match self.code {
            Code::Fixed { chars, letter } => {
                let before = match chars {
                    Chars::One => "",
                    Chars::Two => "0",
                    Chars::Four => "1AA",
                };
                write!(f, "{before}{}", char::from(letter))
            }
            Code::Small { letter } => write!(f, "{}{}", selector(b'4'), char::from(letter)),
            Code::Large { letter } => write!(f, "{}AA{}", selector(b'7'), char::from(letter)),
            Code::SmallGroup { letter } => write!(f, "-{}", char::from(letter)),
            Code::LargeGroup { letter } => write!(f, "--{}", char::from(letter)),
            Code::GenusVersion => f.write_str("-_"),
            Code::Indexed(code) => code.fmt(f),
            Code::Unknown => f.write_str("?"),
        }
    }
}
