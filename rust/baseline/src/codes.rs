//! The registry as one table by the first two sextets of an item.

/// What the first two sextets say of an item.
#[derive(Clone, Copy, Debug, PartialEq, Eq, PartialOrd)]
#[repr(u8)]
pub enum Class {
    Unknown,
    /// More of the header decides: `1A`, `7A`, `8A`, `9A`, `--`, `-_`.
    More,
    /// A primitive with nothing more to be judged.
    Plain,
    /// A one-letter code with a pad or lead bit set.
    NotZero,
    /// The third sextet must begin with four zero bits.
    FourZero,
    /// The third sextet must be `_`.
    Prepad,
    /// A variable code with one or two lead bytes.
    Lead1,
    Lead2,
    /// Type `A`: text with none or one `A` before it, with two, with three.
    Text,
    Text1,
    Text2,
    /// A large variable code whose count fits the small one.
    NotShort,
    /// Indexed items: the fourth sextet must be zero (`0B`); with a header of
    /// two units four zero bits behind the ondex (`2A`, `2C`), which too must be
    /// zero (`2B`, `2D`), and zero alone (`3B`).
    Ondex,
    Big,
    BigOndex,
    WideOndex,
    /// A group; one with a first-item mark; one of indexed items; a large one
    /// whose count fits the small code.
    Group,
    Override,
    Indexed,
    NotShortGroup,
    /// A genus/version: the one that is read, and any other.
    Genus,
    OtherGenus,
}

/// An item has `behind` units behind its first, and for codes that count as
/// many more as the low twelve bits of that one say.
#[derive(Clone, Copy, Debug, PartialEq, Eq)]
pub struct Row {
    pub class: Class,
    pub behind: u8,
    pub count: u16,
}

/// What the last two sextets of a primitive's first unit must say, and the number
/// if it does not; and what its value's first unit must be.
#[derive(Clone, Copy)]
pub struct Check {
    pub mask: u16,
    pub want: u16,
    pub number: u8,
    pub front: Front,
}

/// A range of the 24 bits of a unit.
#[derive(Clone, Copy)]
pub struct Front {
    least: u32,
    most: u32,
}

impl Front {
    const ANY: Front = Front {
        least: 0,
        most: 0xFF_FFFF,
    };

    #[inline(always)]
    pub fn contains(self, bits: u32) -> bool {
        (self.least..=self.most).contains(&bits)
    }
}

impl Class {
    /// A group of items of the master table.
    #[inline(always)]
    pub fn opens(self) -> bool {
        matches!(self, Class::Group | Class::Override)
    }

    /// Nothing is asked of a class that has no line of its own.
    #[inline(always)]
    pub fn check(self) -> Check {
        CHECKS[self as usize]
    }
}

static CHECKS: [Check; CLASSES] = checks();

const CLASSES: usize = Class::OtherGenus as usize + 1;

const fn checks() -> [Check; CLASSES] {
    let mut checks = [of_header(0, 0, 0); CLASSES];
    checks[Class::NotZero as usize] = of_header(0, 1, 8);
    checks[Class::FourZero as usize] = of_header(0xF00, 0, 8);
    checks[Class::Prepad as usize] = of_header(0xFC0, 0xFC0, 10);
    checks[Class::NotShort as usize] = of_header(0, 1, 18);
    checks[Class::Ondex as usize] = of_header(0x3F, 0, 15);
    checks[Class::Lead1 as usize] = of_value(0, 0xFFFF);
    checks[Class::Lead2 as usize] = of_value(0, 0xFF);
    // A text starts with another character than `A`: behind one `A` or none
    // twelve bits are not all zero, behind two the next six, behind three the
    // last six.
    checks[Class::Text as usize] = of_value(1 << 12, 0xFF_FFFF);
    checks[Class::Text1 as usize] = of_value(1 << 6, 0xFFF);
    checks[Class::Text2 as usize] = of_value(1, 0x3F);
    checks
}

const fn of_header(mask: u16, want: u16, number: u8) -> Check {
    Check {
        mask,
        want,
        number,
        front: Front::ANY,
    }
}

const fn of_value(least: u32, most: u32) -> Check {
    Check {
        front: Front { least, most },
        ..of_header(0, 0, 0)
    }
}

impl Row {
    /// The row for the first two sextets of an item.
    #[inline(always)]
    pub fn of(code: u16) -> Row {
        ROWS[usize::from(code & 0xFFF)]
    }

    /// Units behind the first, by its last two sextets. Without meaning for
    /// `Unknown` and `More`.
    #[inline(always)]
    pub fn behind(self, low: u16) -> usize {
        usize::from(self.behind) + usize::from(low & self.count)
    }
}

/// The units of an indexed item and of its header, and its class, by its first
/// two sextets.
#[inline(always)]
pub fn indexed(code: u16) -> Option<(usize, usize, Class)> {
    const A: u16 = 0;
    const D: u16 = 3;
    const ZERO: u16 = 52;
    match (code >> 6, code & 63) {
        (A..=D, _) => Some((22, 1, Class::FourZero)),
        (ZERO, 0) => Some((39, 1, Class::Plain)),
        (ZERO, 1) => Some((39, 1, Class::Ondex)),
        (54, 0 | 2) => Some((23, 2, Class::Big)),
        (54, 1 | 3) => Some((23, 2, Class::BigOndex)),
        (55, 0) => Some((40, 2, Class::Plain)),
        (55, 1) => Some((40, 2, Class::WideOndex)),
        _ => None,
    }
}

/// By the first two sextets of an item.
static ROWS: [Row; 4096] = rows();

/// Sizes of `1AAA` to `1AAP` in units.
pub const ONE: [u8; 16] = [12, 12, 20, 20, 39, 2, 9, 25, 12, 12, 1, 1, 1, 3, 1, 1];

/// Sizes of `A` to `Z` and `a` in units.
const LETTER: [u8; 27] = [
    11, 11, 11, 11, 11, 11, 11, 11, 11, 11, 19, 19, 1, 3, 11, 31, 11, 2, 4, 5, 6, 1, 1, 1, 2, 3, 11,
];

/// Sizes of `0A` to `0O` in units.
const ZERO: [u8; 15] = [6, 22, 22, 22, 22, 22, 22, 2, 22, 1, 1, 2, 2, 3, 3];

/// Sextets that the tables start from.
const LABEL_1: usize = 21;
const TAG_3: usize = 23;
const TAG_11: usize = 25;
const DIGIT_0: usize = 52;
const DASH: usize = 62;
const LOW_LINE: usize = 63;

/// The group letters are `A` to `Z`, `a`, `b`, `c`.
pub const LAST_GROUP: usize = 28;

const UNKNOWN: Row = fixed(Class::Unknown, 1);
const MORE: Row = fixed(Class::More, 1);

const fn fixed(class: Class, units: u8) -> Row {
    Row {
        class,
        behind: units - 1,
        count: 0,
    }
}

const fn counted(class: Class) -> Row {
    Row {
        class,
        behind: 0,
        count: 0xFFF,
    }
}

const fn rows() -> [Row; 4096] {
    let mut rows = [UNKNOWN; 4096];
    let mut index = 0;
    while index < 4096 {
        rows[index] = row(index >> 6, index & 63);
        index += 1;
    }
    rows
}

const fn row(first: usize, second: usize) -> Row {
    match first {
        0..=26 => letter(first, second),
        DIGIT_0 => zero(second),
        53 | 59..=61 if second == 0 => MORE,
        56..=58 if is_type(second) => counted(variable(second, first - 56)),
        DASH if second >= DASH => MORE,
        DASH if second <= LAST_GROUP => counted(group(second)),
        _ => UNKNOWN,
    }
}

/// A one-letter code: two zero bits follow, for `V` ten, for a tag none.
const fn letter(first: usize, second: usize) -> Row {
    let class = match first {
        TAG_3..=TAG_11 => Class::Plain,
        LABEL_1 if second == 0 => Class::FourZero,
        LABEL_1 => Class::NotZero,
        _ if second < 16 => Class::Plain,
        _ => Class::NotZero,
    };
    fixed(class, LETTER[first])
}

/// A two-character code: four zero bits follow, for a tag none.
const fn zero(second: usize) -> Row {
    match second {
        9 | 11 | 13 => fixed(Class::Prepad, ZERO[second]),
        10 | 12 | 14 => fixed(Class::Plain, ZERO[second]),
        0..=8 => fixed(Class::FourZero, ZERO[second]),
        _ => UNKNOWN,
    }
}

/// The types of variable values: `A` to `F` and `H`.
pub const fn is_type(letter: usize) -> bool {
    letter <= 5 || letter == 7
}

/// The class of a variable code by its type and its number of lead bytes.
pub const fn variable(letter: usize, lead: usize) -> Class {
    match (letter, lead) {
        (0, 0) => Class::Text,
        (0, 1) => Class::Text1,
        (0, _) => Class::Text2,
        (_, 0) => Class::Plain,
        (_, 1) => Class::Lead1,
        _ => Class::Lead2,
    }
}

/// The class of a group by its letter.
pub const fn group(letter: usize) -> Class {
    match letter {
        0..=2 => Class::Override,
        10 | 11 => Class::Indexed,
        _ => Class::Group,
    }
}

/// The least count that a large code is for: two digits count up to 4,095.
pub const LEAST_LARGE: usize = 4096;

/// The first two sextets of the codes that need more of the header.
pub const ONE_A: u16 = 53 << 6;
pub const SEVEN_A: u16 = 59 << 6;
pub const EIGHT_A: u16 = 60 << 6;
pub const NINE_A: u16 = 61 << 6;
pub const LARGE_GROUP: u16 = (DASH << 6 | DASH) as u16;
pub const GENUS: u16 = (DASH << 6 | LOW_LINE) as u16;
