//! What others named: streams, files, words of a call. For people a name is
//! spelt so that it imitates no line and no other name; for machines it comes
//! back whole.

use std::ffi::{OsStr, OsString};
use std::fmt;
use std::ops::RangeInclusive;

/// No file has this name: one that is called so is spelt otherwise.
const STANDARD_INPUT: &str = "standard input";

/// A stream's name.
#[derive(Clone, Debug, PartialEq, Eq)]
pub enum Name {
    StandardInput,
    File(OsString),
}

impl Name {
    /// The name of a file; of standard input none.
    pub fn file(&self) -> &OsStr {
        match self {
            Name::StandardInput => OsStr::new(""),
            Name::File(name) => name,
        }
    }

    /// For machines: the name itself. `./` goes before a file that is called
    /// `standard input` or whose name opens with a backslash, so that a
    /// backslash in front marks a name that is no UTF-8, spelt as for people.
    pub fn exact(&self) -> String {
        let Name::File(name) = self else {
            return STANDARD_INPUT.to_string();
        };
        match name.to_str() {
            Some(name) if name == STANDARD_INPUT || name.starts_with('\\') => format!("./{name}"),
            Some(name) => name.to_string(),
            None => format!("\\{}", shown(name)),
        }
    }
}

/// For people.
impl fmt::Display for Name {
    fn fmt(&self, f: &mut fmt::Formatter<'_>) -> fmt::Result {
        match self {
            Name::StandardInput => f.write_str(STANDARD_INPUT),
            Name::File(name) => f.write_str(&shown(name)),
        }
    }
}

/// A word as people may see it, as shells spell it: a backslash goes before a
/// blank and a backslash, and what is not plainly seen is told by its number.
/// So it has no blank that could wrap a line where another seems to begin, and
/// no two words are spelt alike.
pub fn shown(word: &OsStr) -> String {
    let mut shown = String::new();
    for chunk in word.as_encoded_bytes().utf8_chunks() {
        chunk.valid().chars().for_each(|c| spell(&mut shown, c));
        for byte in chunk.invalid() {
            shown.push_str(&format!("\\x{byte:02x}"));
        }
    }
    shown
}

fn spell(shown: &mut String, c: char) {
    match c {
        ' ' | '\\' => shown.extend(['\\', c]),
        c if is_seen(c) => shown.push(c),
        c => shown.extend(c.escape_default()),
    }
}

/// Characters that count as letters and are blank, or turn the direction of
/// what stands beside them.
const NOT_SEEN: [RangeInclusive<char>; 9] = [
    '\u{590}'..='\u{8FF}',
    '\u{115F}'..='\u{1160}',
    '\u{3164}'..='\u{3164}',
    '\u{FB1D}'..='\u{FDFF}',
    '\u{FE70}'..='\u{FEFF}',
    '\u{FFA0}'..='\u{FFA0}',
    '\u{10800}'..='\u{10FFF}',
    '\u{13430}'..='\u{1345F}',
    '\u{1E800}'..='\u{1EFFF}',
];

/// A sign of ASCII, or a letter or digit that is seen and stays in its place.
/// Of marks, signs and blanks of other scripts nobody knows how they look.
pub fn is_seen(c: char) -> bool {
    let hidden = || NOT_SEEN.iter().any(|range| range.contains(&c));
    c.is_ascii_graphic() || (!c.is_ascii() && c.is_alphanumeric() && !hidden())
}

#[cfg(test)]
mod tests {
    use super::*;
    use std::collections::HashSet;
    use std::os::unix::ffi::OsStrExt;
    use std::process::Command;

    #[test]
    fn names_as_people_see_them() {
        for (name, said) in [
            (&b"plain-1.cesr"[..], "plain-1.cesr"),
            ("caf\u{e9}.cesr".as_bytes(), "caf\u{e9}.cesr"),
            (b"a b", "a\\ b"),
            (b"a\\b", "a\\\\b"),
            (b"a\nb\tc", "a\\nb\\tc"),
            (b"\x1b[2J", "\\u{1b}[2J"),
            (b"a\xffb\xfe", "a\\xffb\\xfe"),
            ("a\u{202e}b".as_bytes(), "a\\u{202e}b"),
            ("a\u{61c}\u{feff}".as_bytes(), "a\\u{61c}\\u{feff}"),
            (b"standard input", "standard\\ input"),
        ] {
            assert_eq!(shown(OsStr::from_bytes(name)), said);
        }
    }

    /// Names that are easily taken for each other: all are told apart, for
    /// people and for machines.
    #[test]
    fn no_two_names_are_alike() {
        let names: [&[u8]; 16] = [
            b"a b",
            b"a\\ b",
            b"a\xc2\xa0b",
            b"a\tb",
            b"a\\tb",
            b"a\xffb",
            b"a\xfeb",
            b"a\xef\xbf\xbdb",
            b"a\\xffb",
            b"\\a\\xffb",
            b"a\xe2\x80\x8bb",
            b"ab",
            b"a?b",
            b"standard input",
            b"standard\\ input",
            b"\\standard input",
        ];
        let file = |name: &&[u8]| Name::File(OsStr::from_bytes(name).to_os_string());
        let mut all: Vec<Name> = names.iter().map(file).collect();
        all.push(Name::StandardInput);
        let people: HashSet<String> = all.iter().map(Name::to_string).collect();
        let machines: HashSet<String> = all.iter().map(Name::exact).collect();
        assert_eq!((people.len(), machines.len()), (17, 17));
    }

    #[test]
    fn names_for_machines() {
        for (name, said) in [
            (&b"a b\n"[..], "a b\n"),
            (b"standard input", "./standard input"),
            (b"\\a", "./\\a"),
            (b"a\\b", "a\\b"),
            (b"a \xff", "\\a\\ \\xff"),
        ] {
            let name = Name::File(OsStr::from_bytes(name).to_os_string());
            assert_eq!(name.exact(), said);
        }
        assert_eq!(Name::StandardInput.exact(), "standard input");
    }

    /// Control characters, blanks, marks, what has no width or no meaning, and
    /// what runs from right to left, by another program's tables.
    #[test]
    fn what_is_not_seen_is_spelt() {
        let script = "
import sys, unicodedata
for n in range(0x21, 0x110000):
    kind, turn = unicodedata.category(chr(n)), unicodedata.bidirectional(chr(n))
    if kind in ('Cc', 'Cf', 'Cs', 'Co', 'Zs', 'Zl', 'Zp', 'Me') or turn in ('R', 'AL', 'BN', 'RLO', 'RLE'):
        print(n)
for n in 0x34f, 0x115f, 0x1160, 0x17b4, 0x17b5, 0x180b, 0x2800, 0x3164, 0xfe0f, 0xffa0, 0x301, 0x13441, 0xe0100:
    print(n)
";
        let said = Command::new("python3").args(["-c", script]).output();
        let said = String::from_utf8(said.expect("python3").stdout).expect("numbers");
        let numbers = said
            .lines()
            .map(|line| line.parse::<u32>().expect("a number"));
        let unseen: Vec<char> = numbers.filter_map(char::from_u32).collect();
        assert!(unseen.len() > 100_000);
        for c in unseen {
            let spelt = shown(OsStr::new(&c.to_string()));
            assert!(spelt.is_ascii() && spelt.starts_with('\\'), "{spelt}");
        }
    }
}
