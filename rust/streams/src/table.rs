//! The codes, typed in from 003 without those that 01 leaves out.

/// What stands behind the code characters.
#[derive(Clone, Copy, Debug, PartialEq, Eq)]
pub enum Kind {
    /// Pad bits by the code's length, then the raw value.
    Raw,
    /// Pad bits and a lead byte: `V` alone.
    Label,
    /// Tag characters.
    Tag,
    /// A `_`, then tag characters.
    Prepad,
}

/// A code, its full size in text characters, and its kind.
pub type Fixed = (&'static str, usize, Kind);

use Kind::{Label, Prepad, Raw, Tag};

#[rustfmt::skip]
pub const FIXED: [Fixed; 58] = [
    ("A", 44, Raw), ("B", 44, Raw), ("C", 44, Raw), ("D", 44, Raw), ("E", 44, Raw),
    ("F", 44, Raw), ("G", 44, Raw), ("H", 44, Raw), ("I", 44, Raw), ("J", 44, Raw),
    ("K", 76, Raw), ("L", 76, Raw), ("M", 4, Raw), ("N", 12, Raw), ("O", 44, Raw),
    ("P", 124, Raw), ("Q", 44, Raw), ("R", 8, Raw), ("S", 16, Raw), ("T", 20, Raw),
    ("U", 24, Raw), ("V", 4, Label), ("W", 4, Raw), ("X", 4, Tag), ("Y", 8, Tag),
    ("Z", 12, Tag), ("a", 44, Raw),
    ("0A", 24, Raw), ("0B", 88, Raw), ("0C", 88, Raw), ("0D", 88, Raw), ("0E", 88, Raw),
    ("0F", 88, Raw), ("0G", 88, Raw), ("0H", 8, Raw), ("0I", 88, Raw), ("0J", 4, Prepad),
    ("0K", 4, Tag), ("0L", 8, Prepad), ("0M", 8, Tag), ("0N", 12, Prepad), ("0O", 12, Tag),
    ("1AAA", 48, Raw), ("1AAB", 48, Raw), ("1AAC", 80, Raw), ("1AAD", 80, Raw),
    ("1AAE", 156, Raw), ("1AAF", 8, Tag), ("1AAG", 36, Raw), ("1AAH", 100, Raw),
    ("1AAI", 48, Raw), ("1AAJ", 48, Raw), ("1AAK", 4, Raw), ("1AAL", 4, Raw),
    ("1AAM", 4, Raw), ("1AAN", 12, Tag), ("1AAO", 4, Raw), ("1AAP", 4, Raw),
];

/// Types of variable values, and the one whose value is text.
pub const TYPES: &[u8] = b"ABCDEFH";
pub const TEXT: u8 = b'A';

/// Selectors of variable values by lead bytes: of small codes, of large ones.
pub const SMALL: &[u8] = b"456";
pub const LARGE: &[u8] = b"789";

/// What a small code's two digits count. Above it stand the large codes, and
/// up to it they are refused.
pub const MOST_SMALL: usize = 4095;

/// Group letters; `-K` and `-L` hold indexed items.
pub const GROUPS: &[u8] = b"ABCDEFGHIJKLMNOPQRSTUVWXYZabc";

/// The letters of groups that hold indexed items and nothing else.
pub const SIGNED: &[u8] = b"KL";

pub fn holds_indexed(letter: u8) -> bool {
    SIGNED.contains(&letter)
}

/// An indexed code: its characters, its digits of index and of ondex, its full
/// size in text characters, and whether it is for the current key list only.
#[derive(Clone, Copy, Debug, PartialEq, Eq)]
pub struct Indexed {
    pub code: &'static str,
    pub index: usize,
    pub ondex: usize,
    pub full: usize,
    pub current: bool,
}

impl Indexed {
    /// Four pad bits stand behind the digits of one letter and of `2`.
    pub fn padded(&self) -> bool {
        matches!(self.code.as_bytes()[0], b'A'..=b'D' | b'2')
    }

    /// Bytes of the raw value.
    pub fn raw(&self) -> usize {
        let bits = 6 * (self.code.len() + self.index + self.ondex);
        self.full / 4 * 3 - bits.div_ceil(8)
    }
}

const fn indexed(code: &'static str, digits: [usize; 2], full: usize, current: bool) -> Indexed {
    let [index, ondex] = digits;
    Indexed {
        code,
        index,
        ondex,
        full,
        current,
    }
}

/// 003's Indexed Code Table.
pub const INDEXED: [Indexed; 12] = [
    indexed("A", [1, 0], 88, false),
    indexed("B", [1, 0], 88, true),
    indexed("C", [1, 0], 88, false),
    indexed("D", [1, 0], 88, true),
    indexed("0A", [1, 1], 156, false),
    indexed("0B", [1, 1], 156, true),
    indexed("2A", [2, 2], 92, false),
    indexed("2B", [2, 2], 92, true),
    indexed("2C", [2, 2], 92, false),
    indexed("2D", [2, 2], 92, true),
    indexed("3A", [3, 3], 160, false),
    indexed("3B", [3, 3], 160, true),
];

pub fn is_overrideable(letter: u8) -> bool {
    matches!(letter, b'A'..=b'C')
}

/// The genus/version that is read, behind `-_`.
pub const GENUS_VERSION: [u8; 6] = *b"AAACAA";

/// First units worth putting somewhere: a known one of every table, and the
/// unknown and reserved ones next to them.
#[rustfmt::skip]
pub const HEADS: [&str; 80] = [
    "MAAB", "MQAA", "MP__", "EAAA", "EPAA", "EQAA", "VABh", "VAEA", "VBAA", "VQAA", "WGhp",
    "X___", "Y___", "Z___", "aAAA", "bAAA", "zAAA", "0AAA", "0AD_", "0AEA", "0HD_", "0HEA",
    "0J_A", "0JAA", "0J-_", "0K__", "0L_A", "0N9A", "0O__", "0PAA", "0SAA", "0aAA", "1AAA",
    "1AAK", "1AAP", "1AAQ", "1AB_", "1BAA", "2AAA", "3AAB", "4BAA", "4BAB", "4GAB", "5BAA",
    "5BAB", "6HAB", "6IAB", "7AAB", "7AAG", "7ABB", "8AAH", "9AAA", "9BAA", "-AAA", "-AAB",
    "-KAB", "-cAC", "-dAA", "-0AA", "--AA", "--KA", "--dA", "-_AA", "_AAA", "4AAA", "4AAB",
    "5AAB", "6AAB", "7AAA", "8AAA", "AAAA", "B_D_", "CAEA", "0BAA", "0BAB", "2BAA", "2DAB",
    "2EAA", "3BAA", "-LAX",
];
