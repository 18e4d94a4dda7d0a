//! The code registry of 003, with 003's description of every code.
//!
//! Left out as 01 has it: op codes, the grams `0P` to `0S` and other genera.
//! What is not in these tables is unknown (6). Items are read by the master
//! table, but within `-K` and `-L` by the indexed one (02 a).

/// A fixed code: its full size is known from the code alone.
#[derive(Clone, Copy, Debug, PartialEq, Eq)]
pub struct Fixed {
    /// The code's own characters: one, two or four.
    pub code: &'static str,
    /// Full size in text characters, code and all.
    pub full: usize,
    /// Zero lead bytes between the pad bits and the raw value.
    pub lead: usize,
    /// Number of tag characters; 0 for a code that is no tag.
    pub tag: usize,
    /// Does a `_` stand before the tag characters?
    pub prepad: bool,
    /// 003's description.
    pub name: &'static str,
}

impl Fixed {
    /// Zero bits behind the code characters: 2 behind one character, 4 behind
    /// two, none behind four, so that the raw value starts on a whole byte.
    /// Tags have none.
    pub fn pad_bits(&self) -> usize {
        match (self.tag, self.code.len()) {
            (0, 1) => 2,
            (0, 2) => 4,
            _ => 0,
        }
    }

    /// Raw value's length in bytes: what is left of the full size behind code,
    /// pad bits and lead. Tags have no raw value.
    pub fn raw(&self) -> usize {
        if self.tag > 0 {
            return 0;
        }
        let code_bytes = (self.code.len() * 6 + self.pad_bits()) / 8;
        self.full / 4 * 3 - code_bytes - self.lead
    }
}

const fn raw(code: &'static str, full: usize, name: &'static str) -> Fixed {
    Fixed {
        code,
        full,
        lead: 0,
        tag: 0,
        prepad: false,
        name,
    }
}

const fn lead_1(code: &'static str, full: usize, name: &'static str) -> Fixed {
    Fixed {
        lead: 1,
        ..raw(code, full, name)
    }
}

const fn tag(code: &'static str, full: usize, tag: usize, name: &'static str) -> Fixed {
    Fixed {
        tag,
        ..raw(code, full, name)
    }
}

const fn prepadded(code: &'static str, full: usize, tag: usize, name: &'static str) -> Fixed {
    Fixed {
        tag,
        prepad: true,
        ..raw(code, full, name)
    }
}

/// 003, "Primitive Codes: 1-Character", "2-Character" and "4-Character".
#[rustfmt::skip]
pub const FIXED: [Fixed; 58] = [
    raw("A", 44, "Seed of Ed25519 private key"),
    raw("B", 44, "Ed25519 non-transferable prefix public verkey"),
    raw("C", 44, "X25519 public encryption key"),
    raw("D", 44, "Ed25519 public verkey"),
    raw("E", 44, "Blake3-256 Digest"),
    raw("F", 44, "Blake2b-256 Digest"),
    raw("G", 44, "Blake2s-256 Digest"),
    raw("H", 44, "SHA3-256 Digest"),
    raw("I", 44, "SHA2-256 Digest"),
    raw("J", 44, "ECDSA secp256k1 private key seed"),
    raw("K", 76, "Ed448 private key seed"),
    raw("L", 76, "X448 public encryption key"),
    raw("M", 4, "Short number 2-byte b2"),
    raw("N", 12, "Big number 8-byte b2"),
    raw("O", 44, "X25519 private decryption key/seed"),
    raw("P", 124, "X25519 Cipher of qb64 Seed"),
    raw("Q", 44, "ECDSA secp256r1 256-bit random Seed"),
    raw("R", 8, "Tall 5-byte b2 number"),
    raw("S", 16, "Large 11-byte b2 number"),
    raw("T", 20, "Great 14-byte b2 number"),
    raw("U", 24, "Vast 17-byte b2 number"),
    lead_1("V", 4, "Label1 (1 byte, lead size 1)"),
    raw("W", 4, "Label2 (2 bytes, lead size 0)"),
    tag("X", 4, 3, "Tag3 (3 B64 chars for special values)"),
    tag("Y", 8, 7, "Tag7 (7 B64 chars for special values)"),
    tag("Z", 12, 11, "Tag11 (11 B64 chars for special values)"),
    raw("a", 44, "Blinding factor 256 bits"),
    raw("0A", 24, "Random salt/seed/nonce/private key/sn, 128 bits"),
    raw("0B", 88, "Ed25519 signature"),
    raw("0C", 88, "ECDSA secp256k1 signature"),
    raw("0D", 88, "Blake3-512 Digest"),
    raw("0E", 88, "Blake2b-512 Digest"),
    raw("0F", 88, "SHA3-512 Digest"),
    raw("0G", 88, "SHA2-512 Digest"),
    raw("0H", 8, "Long number 4-byte b2"),
    raw("0I", 88, "ECDSA secp256r1 signature"),
    prepadded("0J", 4, 1, "Tag1 (1 B64 char + 1 prepad)"),
    tag("0K", 4, 2, "Tag2 (2 B64 chars)"),
    prepadded("0L", 8, 5, "Tag5 (5 B64 chars + 1 prepad)"),
    tag("0M", 8, 6, "Tag6 (6 B64 chars)"),
    prepadded("0N", 12, 9, "Tag9 (9 B64 chars + 1 prepad)"),
    tag("0O", 12, 10, "Tag10 (10 B64 chars)"),
    raw("1AAA", 48, "ECDSA secp256k1 non-transferable prefix verkey"),
    raw("1AAB", 48, "ECDSA secp256k1 verkey/enckey"),
    raw("1AAC", 80, "Ed448 non-transferable prefix verkey"),
    raw("1AAD", 80, "Ed448 public verkey"),
    raw("1AAE", 156, "Ed448 signature"),
    tag("1AAF", 8, 4, "Tag4 (4 B64 chars)"),
    raw("1AAG", 36, "DateTime B64 encoded 32-char ISO-8601"),
    raw("1AAH", 100, "X25519 Cipher of qb64 Salt"),
    raw("1AAI", 48, "ECDSA secp256r1 non-transferable verkey"),
    raw("1AAJ", 48, "ECDSA secp256r1 verkey/enckey"),
    raw("1AAK", 4, "Null (None/empty)"),
    raw("1AAL", 4, "No (falsey Boolean)"),
    raw("1AAM", 4, "Yes (truthy Boolean)"),
    tag("1AAN", 12, 8, "Tag8 (8 B64 chars)"),
    raw("1AAO", 4, "Escape code for map field values"),
    raw("1AAP", 4, "Empty value (nonce/string)"),
];

/// A code of 003's Indexed Code Table: a signature with its place in the
/// current key list (index) and in the next one (ondex).
#[derive(Clone, Copy, Debug, PartialEq, Eq)]
pub struct Indexed {
    /// The code's own characters: a letter, or a selector and a letter.
    pub code: &'static str,
    /// Digits of the index, behind the code's characters.
    pub index: usize,
    /// Digits of the ondex, behind those of the index (D151).
    pub ondex: usize,
    /// Full size in text characters, code and all.
    pub full: usize,
    /// 003's description.
    pub name: &'static str,
}

impl Indexed {
    /// Code and digits in characters: 003's "Code Len".
    pub fn code_length(&self) -> usize {
        self.code.len() + self.index + self.ondex
    }

    /// "The header is one unit, or two for selectors 2 and 3."
    pub fn header_units(&self) -> usize {
        match self.code.as_bytes()[0] {
            b'2' | b'3' => 2,
            _ => 1,
        }
    }

    /// "Four zero pad bits stand before the raw bytes of `A` to `D` and `2A` to
    /// `2D`, none in the others."
    pub fn pad_bits(&self) -> usize {
        match self.code.as_bytes()[0] {
            b'A'..=b'D' | b'2' => 4,
            _ => 0,
        }
    }

    /// Raw value's length in bytes: what is left behind code, digits and pad
    /// bits.
    pub fn raw(&self) -> usize {
        self.full / 4 * 3 - (6 * self.code_length() + self.pad_bits()) / 8
    }

    /// 003: "\"Current only\" = indexes current list only."
    pub fn is_current_only(&self) -> bool {
        self.name.ends_with("current only")
    }
}

const fn indexed(
    code: &'static str,
    index: usize,
    ondex: usize,
    full: usize,
    name: &'static str,
) -> Indexed {
    Indexed {
        code,
        index,
        ondex,
        full,
        name,
    }
}

/// 003, "Indexed Code Table".
#[rustfmt::skip]
pub const INDEXED: [Indexed; 12] = [
    indexed("A", 1, 0, 88, "Ed25519 indexed sig, both same"),
    indexed("B", 1, 0, 88, "Ed25519 indexed sig, current only"),
    indexed("C", 1, 0, 88, "ECDSA secp256k1 indexed sig, both same"),
    indexed("D", 1, 0, 88, "ECDSA secp256k1 indexed sig, current only"),
    indexed("0A", 1, 1, 156, "Ed448 indexed sig, dual"),
    indexed("0B", 1, 1, 156, "Ed448 indexed sig, current only"),
    indexed("2A", 2, 2, 92, "Ed25519 indexed sig, big dual"),
    indexed("2B", 2, 2, 92, "Ed25519 indexed sig, big current only"),
    indexed("2C", 2, 2, 92, "ECDSA secp256k1 indexed sig, big dual"),
    indexed("2D", 2, 2, 92, "ECDSA secp256k1 indexed sig, big current only"),
    indexed("3A", 3, 3, 160, "Ed448 indexed sig, big dual"),
    indexed("3B", 3, 3, 160, "Ed448 indexed sig, big current only"),
];

/// 003, "Variable Raw Size Codes": type letter and description.
pub const VARIABLE: [(u8, &str); 7] = [
    (b'A', "String Base64 Only"),
    (b'B', "Bytes"),
    (b'C', "X25519 sealed box cipher of sniffable plaintext"),
    (b'D', "X25519 sealed box cipher of QB64 plaintext"),
    (b'E', "X25519 sealed box cipher of QB2 plaintext"),
    (b'F', "HPKE Base cipher of QB2 plaintext"),
    (b'H', "Decimal number string"),
];

/// 003, "Count Codes": group letter and description. Each has a large form.
pub const GROUPS: [(u8, &str); 29] = [
    (b'A', "Generic pipeline group"),
    (b'B', "Message + attachments group"),
    (b'C', "Attachments only group"),
    (b'D', "Datagram stream segment"),
    (b'E', "ESSR wrapper signable"),
    (b'F', "CESR native fixed field signable"),
    (b'G', "CESR native field map signable"),
    (b'H', "Non-native message group"),
    (b'I', "Generic field map mixed types"),
    (b'J', "Generic list mixed types"),
    (b'K', "Indexed controller signature group"),
    (b'L', "Indexed witness signature group"),
    (b'M', "Nontransferable receipt couples (pre+sig)"),
    (b'N', "Transferable receipt quadruples (pre+snu+dig+sig)"),
    (b'O', "First seen replay couples (fnu+dt)"),
    (b'P', "Pathed material group (path+mixed)"),
    (b'Q', "Digest seal singles (dig)"),
    (b'R', "Merkle root seal singles (rdig)"),
    (b'S', "Event seal source couple (snu+dig)"),
    (b'T', "Anchoring seal source triple (pre+snu+dig)"),
    (b'U', "Last event seal singles (aid+dig)"),
    (b'V', "Backer registrar seal couples (brid+dig)"),
    (b'W', "Typed digest seal couples (type+dig)"),
    (b'X', "Transferable indexed sig group (pre+snu+dig+sigs)"),
    (b'Y', "Transferable last indexed sig group (pre+sigs)"),
    (b'Z', "ESSR/TSP Payload"),
    (b'a', "Blinded State quadruples (dig+uuid+said+state)"),
    (b'b', "Bound Blinded State sextuples"),
    (b'c', "Typed Blinded IANA media quadruples"),
];

/// 003's scheme name for `-_`.
pub const GENUS_NAME: &str = "Genus/version";

/// 003, "Small max 4,095": what two digits count.
pub const MOST_SMALL_COUNT: u64 = 4_095;

/// The only genus/version that is read here: KERI/ACDC v2.00.
pub const GENUS_VERSION: [u8; 6] = *b"AAACAA";

/// A code as it stands at the head of an item. Small and large differ (D40).
#[derive(Clone, Copy, Debug, PartialEq, Eq)]
pub enum Code {
    Fixed(&'static Fixed),
    /// `selector` is the character `4` to `9`, `letter` the type.
    Variable {
        selector: u8,
        letter: u8,
    },
    Group {
        letter: u8,
        large: bool,
    },
    Genus,
    /// Of the Indexed Code Table; it stands within `-K` and `-L` alone.
    Indexed(&'static Indexed),
}

/// Which of 003's tables a start is looked up in. 02 a: within `-K` and `-L`
/// "Nothing but indexed items may stand there; any other start is 6". A start
/// that both tables have is read by the one that is asked (D152).
#[derive(Clone, Copy, Debug, PartialEq, Eq)]
pub enum Table {
    Master,
    Indexed,
}

impl Table {
    /// The code at the head of an item, from the characters of its first unit
    /// alone (D8). Nothing for an unknown or reserved one (6).
    pub fn identify(self, unit: [u8; 4]) -> Option<Code> {
        match self {
            Table::Master => identify(unit),
            Table::Indexed => identify_indexed(unit),
        }
    }
}

/// The indexed code with just these characters.
pub fn indexed_code(characters: &[u8]) -> Option<&'static Indexed> {
    INDEXED.iter().find(|row| row.code.as_bytes() == characters)
}

/// A letter is a code by itself; `0`, `2` and `3` are selectors of the letter
/// behind them.
fn identify_indexed(unit: [u8; 4]) -> Option<Code> {
    let length = match unit[0] {
        b'0' | b'2' | b'3' => 2,
        _ => 1,
    };
    indexed_code(&unit[..length]).map(Code::Indexed)
}

/// The fixed code with just these characters.
pub fn fixed(characters: &[u8]) -> Option<&'static Fixed> {
    FIXED.iter().find(|row| row.code.as_bytes() == characters)
}

pub fn is_variable_type(letter: u8) -> bool {
    VARIABLE.iter().any(|row| row.0 == letter)
}

pub fn is_group_letter(letter: u8) -> bool {
    GROUPS.iter().any(|row| row.0 == letter)
}

/// The same by the master table.
pub fn identify(unit: [u8; 4]) -> Option<Code> {
    match unit {
        [b'-', b'_', ..] => Some(Code::Genus),
        [b'-', b'-', letter, _] => group(letter, true),
        [b'-', letter, ..] => group(letter, false),
        [selector @ b'4'..=b'6', letter, ..] => variable(selector, letter),
        [selector @ b'7'..=b'9', b'A', b'A', letter] => variable(selector, letter),
        [b'1', ..] => fixed(&unit).map(Code::Fixed),
        [b'0', ..] => fixed(&unit[..2]).map(Code::Fixed),
        _ => fixed(&unit[..1]).map(Code::Fixed),
    }
}

fn variable(selector: u8, letter: u8) -> Option<Code> {
    is_variable_type(letter).then_some(Code::Variable { selector, letter })
}

fn group(letter: u8, large: bool) -> Option<Code> {
    is_group_letter(letter).then_some(Code::Group { letter, large })
}

impl Code {
    /// A header is the first unit, or the first two for selectors `7` `8` `9`
    /// and codes `--` `-_`.
    pub fn header_units(&self) -> usize {
        match self {
            Code::Fixed(_) => 1,
            Code::Variable { selector, .. } if *selector < b'7' => 1,
            Code::Variable { .. } => 2,
            Code::Group { large, .. } => 1 + usize::from(*large),
            Code::Genus => 2,
            Code::Indexed(row) => row.header_units(),
        }
    }

    /// Which sextets of the header are the digits of n; none for a code that
    /// has no n.
    pub fn digits(&self) -> std::ops::Range<usize> {
        match self {
            Code::Fixed(_) | Code::Genus | Code::Indexed(_) => 0..0,
            Code::Variable { selector, .. } if *selector < b'7' => 2..4,
            Code::Variable { .. } => 4..8,
            Code::Group { large: false, .. } => 2..4,
            Code::Group { large: true, .. } => 3..8,
        }
    }

    /// Full size in units, header and all. 64 bits, so that the largest group
    /// (8 + 4 x 1,073,741,823 characters) does not wrap (D9).
    pub fn units(&self, n: u64) -> u64 {
        match self {
            Code::Fixed(row) => row.full as u64 / 4,
            Code::Indexed(row) => row.full as u64 / 4,
            Code::Genus => 2,
            Code::Variable { .. } | Code::Group { .. } => self.header_units() as u64 + n,
        }
    }

    /// Selectors `7` `8` `9` and `--`, which have a small form beside them.
    pub fn is_large(&self) -> bool {
        match self {
            Code::Variable { selector, .. } => *selector >= b'7',
            Code::Group { large, .. } => *large,
            Code::Fixed(_) | Code::Genus | Code::Indexed(_) => false,
        }
    }

    /// Zero lead bytes in front of the raw value.
    pub fn lead(&self) -> usize {
        match self {
            Code::Fixed(row) => row.lead,
            Code::Variable { selector, .. } => usize::from((selector - b'4') % 3),
            Code::Group { .. } | Code::Genus | Code::Indexed(_) => 0,
        }
    }

    pub fn is_primitive(&self) -> bool {
        matches!(self, Code::Fixed(_) | Code::Variable { .. })
    }

    /// `-K` and `-L`, large too: they hold indexed items and nothing else.
    pub fn holds_indexed(&self) -> bool {
        matches!(
            self,
            Code::Group {
                letter: b'K' | b'L',
                ..
            }
        )
    }

    /// The table that a group's items are looked up in.
    pub fn table_within(&self) -> Table {
        if self.holds_indexed() {
            Table::Indexed
        } else {
            Table::Master
        }
    }

    /// `-A` `-B` `-C`, large too: the first item may override genus/version.
    pub fn is_overrideable(&self) -> bool {
        matches!(
            self,
            Code::Group {
                letter: b'A'..=b'C',
                ..
            }
        )
    }

    /// The code's stable characters: `M`, `0A`, `4B`, `7AAB`, `-A`, `--A`, `-_`.
    pub fn characters(&self) -> String {
        match *self {
            Code::Fixed(row) => row.code.to_string(),
            Code::Indexed(row) => row.code.to_string(),
            Code::Variable { selector, letter } if selector < b'7' => {
                format!("{}{}", selector as char, letter as char)
            }
            Code::Variable { selector, letter } => {
                format!("{}AA{}", selector as char, letter as char)
            }
            Code::Group {
                letter,
                large: false,
            } => format!("-{}", letter as char),
            Code::Group {
                letter,
                large: true,
            } => format!("--{}", letter as char),
            Code::Genus => "-_".to_string(),
        }
    }

    /// 003's description of the code.
    pub fn name(&self) -> &'static str {
        match *self {
            Code::Fixed(row) => row.name,
            Code::Variable { letter, .. } => described(&VARIABLE, letter),
            Code::Group { letter, .. } => described(&GROUPS, letter),
            Code::Genus => GENUS_NAME,
            Code::Indexed(row) => row.name,
        }
    }
}

fn described(table: &[(u8, &'static str)], letter: u8) -> &'static str {
    let row = table.iter().find(|row| row.0 == letter);
    row.map_or("", |row| row.1)
}

#[cfg(test)]
mod tests {
    use super::*;

    /// 01, "Fixed sizes (code: T characters)", typed in from there: the table
    /// above is from 003.
    const SIZES_OF_01: [(&str, usize); 22] = [
        ("A B C D E F G H I J O Q a", 44),
        ("K L", 76),
        ("M V W X", 4),
        ("N Z", 12),
        ("P", 124),
        ("R Y", 8),
        ("S", 16),
        ("T", 20),
        ("U", 24),
        ("0A", 24),
        ("0B 0C 0D 0E 0F 0G 0I", 88),
        ("0H 0L 0M", 8),
        ("0J 0K", 4),
        ("0N 0O", 12),
        ("1AAA 1AAB 1AAI 1AAJ", 48),
        ("1AAC 1AAD", 80),
        ("1AAE", 156),
        ("1AAF", 8),
        ("1AAG", 36),
        ("1AAH", 100),
        ("1AAK 1AAL 1AAM 1AAO 1AAP", 4),
        ("1AAN", 12),
    ];

    #[test]
    fn sizes_agree_with_01() {
        let mut seen = 0;
        for (codes, full) in SIZES_OF_01 {
            for code in codes.split_whitespace() {
                assert_eq!(fixed(code.as_bytes()).map(|row| row.full), Some(full));
                seen += 1;
            }
        }
        assert_eq!(seen, FIXED.len());
    }

    #[test]
    fn codes_are_distinct_and_sizes_are_whole_units() {
        for (index, row) in FIXED.iter().enumerate() {
            assert!(FIXED[..index].iter().all(|other| other.code != row.code));
            assert_eq!(row.full % 4, 0);
        }
    }

    #[test]
    fn tags_fill_their_size() {
        // 01: tags `X` `Y` `Z` `0J`-`0O` `1AAF` `1AAN` hold 3, 7, 11, 1, 2, 5,
        // 6, 9, 10, 4, 8 characters.
        let of_01 = [3, 7, 11, 1, 2, 5, 6, 9, 10, 4, 8];
        let tags: Vec<&Fixed> = FIXED.iter().filter(|row| row.tag > 0).collect();
        assert!(tags.iter().map(|row| row.tag).eq(of_01));
        for row in tags {
            let characters = row.code.len() + usize::from(row.prepad) + row.tag;
            assert_eq!(characters, row.full);
            assert_eq!((row.raw(), row.pad_bits()), (0, 0));
        }
        let prepadded = FIXED.iter().filter(|row| row.prepad).map(|row| row.code);
        assert!(prepadded.eq(["0J", "0L", "0N"]));
    }

    #[test]
    fn raw_lengths_from_003s_descriptions() {
        // 003: "2-byte", "8-byte", "5-byte", "11-byte", "14-byte", "17-byte",
        // "1 byte", "2 bytes", "128 bits", "4-byte", "256 bits", "Blake3-512",
        // the Booleans are empty; a 32 byte key, 64 byte signature, 33 byte
        // compressed key; 32 characters of date are 24 bytes.
        let lengths = [
            ("M", 2),
            ("N", 8),
            ("R", 5),
            ("S", 11),
            ("T", 14),
            ("U", 17),
            ("V", 1),
            ("W", 2),
            ("a", 32),
            ("A", 32),
            ("E", 32),
            ("0A", 16),
            ("0B", 64),
            ("0D", 64),
            ("0H", 4),
            ("1AAA", 33),
            ("1AAG", 24),
            ("1AAK", 0),
            ("1AAM", 0),
        ];
        for (code, raw) in lengths {
            assert_eq!(fixed(code.as_bytes()).map(Fixed::raw), Some(raw), "{code}");
        }
    }

    #[test]
    fn pad_size_is_003s_calculation() {
        // 003: pad_size = (3 - (raw_size % 3)) % 3; 1 -> 1-char, 2 -> 2-char,
        // 0 -> 4-char code. `V` counts its lead byte to the value.
        for row in FIXED.iter().filter(|row| row.tag == 0) {
            let pad = (3 - ((row.raw() + row.lead) % 3)) % 3;
            assert_eq!(row.code.len(), [4, 1, 2][pad], "{}", row.code);
        }
    }

    #[test]
    fn the_indexed_table_adds_up() {
        // 003's "Code Len" by the code's length: 2, 4, 6, 8. A signature has 64
        // bytes, of Ed448 114. The pad bits are what is left to a whole byte.
        for row in INDEXED {
            let (length, raw) = match row.code.as_bytes()[0] {
                b'0' => (4, 114),
                b'2' => (6, 64),
                b'3' => (8, 114),
                _ => (2, 64),
            };
            assert_eq!(
                (row.code_length(), row.raw()),
                (length, raw),
                "{}",
                row.code
            );
            assert_eq!((6 * length + row.pad_bits()) % 8, 0);
            assert!(row.pad_bits() < 8);
            assert_eq!(row.header_units() * 4, length.div_ceil(4) * 4);
            assert_eq!(row.raw() == 114, row.name.contains("Ed448"));
        }
        let current = INDEXED.iter().filter(|row| row.is_current_only());
        let current: Vec<&str> = current.map(|row| row.code).collect();
        assert_eq!(current, ["B", "D", "0B", "2B", "2D", "3B"]);
    }

    #[test]
    fn two_tables_with_starts_in_common() {
        // A start that both have is read by the table that is asked.
        for (unit, master, indexed) in [
            ("AAAA", 44, 88),
            ("DAAA", 44, 88),
            ("0AAA", 24, 156),
            ("0BAA", 88, 156),
        ] {
            let unit = unit.as_bytes().try_into().unwrap();
            let units = |table: Table| table.identify(unit).unwrap().units(0) * 4;
            assert_eq!(
                (units(Table::Master), units(Table::Indexed)),
                (master, indexed)
            );
        }
        for unit in ["2AAA", "2BAA", "2CAA", "2DAA", "3AAA", "3BAA"] {
            let unit = unit.as_bytes().try_into().unwrap();
            assert_eq!(Table::Master.identify(unit), None);
            assert!(Table::Indexed.identify(unit).is_some());
        }
        let unknown = [
            "EAAA", "MAAB", "aAAA", "0CAA", "0DAA", "0aAA", "1AAK", "2EAA", "2aAA", "3CAA", "3DAA",
            "4BAA", "7AAB", "-AAA", "-KAA", "--KA", "-_AA", "_AAA", "00AA", "20AA",
        ];
        for unit in unknown {
            let unit = unit.as_bytes().try_into().unwrap();
            assert_eq!(Table::Indexed.identify(unit), None);
        }
    }

    #[test]
    fn unknown_codes_of_p20() {
        let unknown = [
            "bAAA", "zAAA", "2AAA", "3AAA", "_AAA", "-0AA", "-9AA", "-dAA", "-zAA", "---A", "--_A",
            "--dA", "--0A", "0PAA", "0QAA", "0RAA", "0SAA", "0TAA", "0aAA", "00AA", "1AAQ", "1AAa",
            "1ABA", "1BAA", "4GAA", "5GAA", "6IAA", "4aAA", "7AAG", "7ABB", "8BAB", "9AAI", "9G93",
        ];
        for unit in unknown {
            assert_eq!(identify(unit.as_bytes().try_into().unwrap()), None);
        }
    }

    #[test]
    fn known_codes_and_their_characters() {
        let known = [
            ("MAAB", "M", "Short number 2-byte b2"),
            ("aAAA", "a", "Blinding factor 256 bits"),
            ("0HAA", "0H", "Long number 4-byte b2"),
            ("1AAM", "1AAM", "Yes (truthy Boolean)"),
            ("5B__", "5B", "Bytes"),
            ("9AAH", "9AAH", "Decimal number string"),
            ("-cAA", "-c", "Typed Blinded IANA media quadruples"),
            ("--KA", "--K", "Indexed controller signature group"),
            ("-_AA", "-_", "Genus/version"),
        ];
        for (unit, characters, name) in known {
            let code = identify(unit.as_bytes().try_into().unwrap()).unwrap();
            assert_eq!(code.characters(), characters);
            assert_eq!(code.name(), name);
        }
    }

    #[test]
    fn leads_by_selector() {
        for (selector, lead) in b"456789".iter().zip([0, 1, 2, 0, 1, 2]) {
            assert_eq!(variable(*selector, b'B').unwrap().lead(), lead);
        }
    }

    #[test]
    fn the_largest_group_does_not_wrap() {
        // D9: `--c_____` is 8 + 4 x 1,073,741,823 = 4,294,967,300 characters.
        let code = identify(*b"--c_").unwrap();
        assert_eq!(code.units(1_073_741_823) * 4, 4_294_967_300);
    }
}
