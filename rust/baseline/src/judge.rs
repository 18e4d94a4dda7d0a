//! Framing and judging, in units: places and sizes here count units.
//!
//! In text the caller knows where the next character outside the alphabet
//! stands, and all in front of it is clean. So a 5 is a comparison of numbers
//! (`CAREFUL`), and a stretch without such a character needs none. Binary is
//! such a stretch from its start to its end. Where the character is one of
//! ordinary Base64, the caller says 19 for the 5.

use crate::alphabet::PAIRS;
use crate::codes::{self, Class, Row};

/// Units of a stream: four characters or three bytes each.
pub trait Unit: Copy {
    const SIZE: usize;
    /// The first two sextets and the last two.
    fn halves(self) -> (u16, u16);

    /// All four as one number.
    #[inline(always)]
    fn bits(self) -> u32 {
        let (high, low) = self.halves();
        u32::from(high) << 12 | u32::from(low)
    }
}

impl Unit for [u8; 4] {
    const SIZE: usize = 4;
    #[inline(always)]
    fn halves(self) -> (u16, u16) {
        let [a, b, c, d] = self;
        let pair = |first, second| PAIRS[usize::from(u16::from_le_bytes([first, second]))];
        (pair(a, b), pair(c, d))
    }
}

impl Unit for [u8; 3] {
    const SIZE: usize = 3;
    #[inline(always)]
    fn halves(self) -> (u16, u16) {
        let bits = self.bits();
        ((bits >> 12) as u16, bits as u16 & 0xFFF)
    }

    #[inline(always)]
    fn bits(self) -> u32 {
        let [a, b, c] = self;
        u32::from_be_bytes([0, a, b, c])
    }
}

/// A framed item, sizes in units.
#[derive(Clone, Copy)]
pub struct Frame {
    pub size: usize,
    pub header: usize,
    pub class: Class,
    /// The last two sextets of the first unit.
    pub low: u16,
}

/// The number of a refusal, with its place in units. The place of a 5 is the
/// character that the caller knows.
#[derive(Clone, Copy, Debug, PartialEq, Eq)]
pub struct Refused {
    pub number: u8,
    pub place: usize,
}

fn refuse<T>(number: u8, place: usize) -> Result<T, Refused> {
    Err(Refused { number, place })
}

/// Frames the item that starts `left`, which is not empty and goes to the end
/// of what is around. `clean` units from its start on have no stranger.
#[inline(always)]
pub fn frame<U: Unit, const CAREFUL: bool>(left: &[U], clean: usize) -> Result<Frame, u8> {
    if CAREFUL && clean < 1 {
        return Err(5);
    }
    let (code, low) = left[0].halves();
    extent::<U, CAREFUL>(left, clean, code, low)
}

/// The same for a first unit whose halves are known.
#[inline(always)]
fn extent<U: Unit, const CAREFUL: bool>(
    left: &[U],
    clean: usize,
    code: u16,
    low: u16,
) -> Result<Frame, u8> {
    let row = Row::of(code);
    if row.class <= Class::More {
        return more::<U, CAREFUL>(left, clean, code, low);
    }
    one_unit_header(left.len(), row.behind(low) + 1, row.class, low)
}

#[inline(always)]
fn one_unit_header(left: usize, size: usize, class: Class, low: u16) -> Result<Frame, u8> {
    if size > left {
        return Err(4);
    }
    Ok(Frame {
        size,
        header: 1,
        class,
        low,
    })
}

/// Frames an item whose first two sextets do not decide.
fn more<U: Unit, const CAREFUL: bool>(
    left: &[U],
    clean: usize,
    code: u16,
    low: u16,
) -> Result<Frame, u8> {
    let (third, fourth) = (usize::from(low >> 6), usize::from(low & 63));
    match code {
        codes::ONE_A => match codes::ONE.get(usize::from(low)) {
            Some(size) => one_unit_header(left.len(), usize::from(*size), Class::Plain, low),
            None => Err(6),
        },
        codes::SEVEN_A | codes::EIGHT_A | codes::NINE_A if third == 0 && codes::is_type(fourth) => {
            let count = second_unit::<U, CAREFUL>(left, clean)? as usize;
            let lead = usize::from(code - codes::SEVEN_A) >> 6;
            let class = match count {
                codes::LEAST_LARGE.. => codes::variable(fourth, lead),
                _ => Class::NotShort,
            };
            two_unit_header(left.len(), count, class, low)
        }
        codes::LARGE_GROUP if third <= codes::LAST_GROUP => {
            let digits = second_unit::<U, CAREFUL>(left, clean)? as usize;
            let count = fourth << 24 | digits;
            let class = match count {
                codes::LEAST_LARGE.. => codes::group(third),
                _ => Class::NotShortGroup,
            };
            two_unit_header(left.len(), count, class, low)
        }
        codes::GENUS => {
            let second = second_unit::<U, CAREFUL>(left, clean)?;
            // `-_AAACAA`: the second unit is `ACAA`.
            let read = low == 0 && second == 2 << 12;
            let class = if read {
                Class::Genus
            } else {
                Class::OtherGenus
            };
            two_unit_header(left.len(), 0, class, low)
        }
        _ => Err(6),
    }
}

/// The second unit of a header of two: 4, 5, else its bits.
#[inline(always)]
fn second_unit<U: Unit, const CAREFUL: bool>(left: &[U], clean: usize) -> Result<u32, u8> {
    match left.get(1) {
        None => Err(4),
        Some(_) if CAREFUL && clean < 2 => Err(5),
        Some(unit) => Ok(unit.bits()),
    }
}

#[inline(always)]
fn two_unit_header(left: usize, count: usize, class: Class, low: u16) -> Result<Frame, u8> {
    if count > left - 2 {
        return Err(4);
    }
    Ok(Frame {
        size: count + 2,
        header: 2,
        class,
        low,
    })
}

/// Judges a framed primitive or genus/version without strangers: 0, 18, 9, 8,
/// 10, 16.
///
/// What stands in front of a value is a range of its first unit's bits, so that
/// no class asks for a branch of its own; an item that has no value is looked at
/// in its last unit, which for a variable is its header and so no lead byte.
#[inline(always)]
pub fn primitive<U: Unit>(item: &[U], framed: &Frame) -> u8 {
    let check = framed.class.check();
    if framed.low & check.mask != check.want {
        return check.number;
    }
    let value = item[framed.header.min(item.len() - 1)].bits();
    if check.front.contains(value) {
        return 0;
    }
    refused_front(&item[framed.header..], framed.class)
}

/// The number of a value that is not in its range: 9, 8, 16.
#[cold]
fn refused_front<U: Unit>(value: &[U], class: Class) -> u8 {
    let lead = match class {
        Class::Lead1 | Class::Text1 => 16,
        Class::Lead2 | Class::Text2 => 8,
        _ => return 16,
    };
    match value.first() {
        None => 9,
        Some(unit) if unit.bits() >> lead != 0 => 8,
        Some(_) => 16,
    }
}

/// Frames the indexed item that starts `left`, which is not empty.
#[inline(always)]
pub fn frame_indexed<U: Unit, const CAREFUL: bool>(left: &[U], clean: usize) -> Result<Frame, u8> {
    if CAREFUL && clean < 1 {
        return Err(5);
    }
    let (code, low) = left[0].halves();
    let Some((size, header, class)) = codes::indexed(code) else {
        return Err(6);
    };
    if header > left.len() {
        return Err(4);
    }
    if CAREFUL && clean < header {
        return Err(5);
    }
    if size > left.len() {
        return Err(4);
    }
    Ok(Frame {
        size,
        header,
        class,
        low,
    })
}

/// Judges a framed indexed item without strangers: 0, 8, 15.
#[inline(always)]
pub fn indexed<U: Unit>(item: &[U], framed: &Frame) -> u8 {
    let check = framed.class.check();
    if framed.low & check.mask != check.want {
        return check.number;
    }
    match framed.header {
        1 => 0,
        _ => second_of_indexed(item[1].bits(), framed.class),
    }
}

/// The second unit of a header: `##&&` behind `2B##`, `####` behind `3B##`.
fn second_of_indexed(bits: u32, class: Class) -> u8 {
    match class {
        Class::Big | Class::BigOndex if bits & 0xF00 != 0 => 8,
        Class::BigOndex if bits >> 12 != 0 => 15,
        Class::WideOndex if bits & 0x3_FFFF != 0 => 15,
        _ => 0,
    }
}

/// Judges the items of a group of signatures, whose `body` starts at unit `at`;
/// `bad` is the first unit with a stranger from there on.
#[inline(always)]
pub fn signatures<U: Unit, const CAREFUL: bool>(
    body: &[U],
    mut at: usize,
    bad: usize,
) -> Result<(), Refused> {
    let mut left = body;
    while !left.is_empty() {
        let clean = bad.wrapping_sub(at);
        let item = match frame_indexed::<U, CAREFUL>(left, clean) {
            Ok(item) => item,
            Err(number) => return refuse(number, at),
        };
        let (whole, after) = left.split_at(item.size);
        let number = match clean {
            _ if CAREFUL && clean < item.size => 5,
            _ => indexed(whole, &item),
        };
        if number != 0 {
            return refuse(number, at);
        }
        (left, at) = (after, at + item.size);
    }
    Ok(())
}

/// No group stands within more.
pub const MOST_GROUPS: usize = 64;

/// What is behind an open group in the one around it, and how deep that is.
pub struct Around<'s, U> {
    after: &'s [U],
    depth: usize,
}

/// Judges the items of a top-level group's `body`, which starts at unit `at`;
/// `bad` is the first unit with a stranger from there on.
///
/// A group that ends where the one around it ends only makes the depth rise;
/// any other leaves what is behind it on the stack.
#[inline(never)]
pub fn contents<'s, U: Unit, const CAREFUL: bool>(
    body: &'s [U],
    mut at: usize,
    bad: usize,
    mut first: bool,
    open: &mut Vec<Around<'s, U>>,
) -> Result<(), Refused> {
    open.clear();
    let (mut left, mut depth) = (body, 1);
    if !CAREFUL {
        let down = descend(left, depth, &mut first);
        (left, at, depth) = (&left[down..], at + down, depth + down);
    }
    loop {
        let Some(unit) = left.first() else {
            let Some(around) = open.pop() else {
                return Ok(());
            };
            (left, depth, first) = (around.after, around.depth, false);
            continue;
        };
        let item = match item::<U, CAREFUL>(*unit, left, bad.wrapping_sub(at), depth, first) {
            Ok(item) => item,
            Err(number) => return refuse(number, at),
        };
        let (whole, after) = left.split_at(item.size);
        if item.class.opens() {
            if !after.is_empty() {
                open.push(Around { after, depth });
            }
            (left, at) = (&whole[item.header..], at + item.header);
            (depth, first) = (depth + 1, item.class == Class::Override);
        } else {
            if item.class == Class::Indexed {
                signatures::<U, CAREFUL>(&whole[item.header..], at + item.header, bad)?;
            }
            (left, at, first) = (after, at + item.size, false);
        }
    }
}

/// How many small groups stand here of which each is all that is left of the
/// one around it. Sets the mark of the last one.
#[inline(always)]
fn descend<U: Unit>(left: &[U], depth: usize, first: &mut bool) -> usize {
    let most = left.len().min(MOST_GROUPS - depth);
    let mut down = 0;
    for unit in &left[..most] {
        let (code, low) = unit.halves();
        let class = Row::of(code).class;
        if !class.opens() || usize::from(low) != left.len() - down - 1 {
            break;
        }
        *first = class == Class::Override;
        down += 1;
    }
    down
}

/// Frames and judges the item that starts `left`; of a group that is opened
/// the framing, 11 and 18.
#[inline(always)]
fn item<U: Unit, const CAREFUL: bool>(
    unit: U,
    left: &[U],
    clean: usize,
    depth: usize,
    first: bool,
) -> Result<Frame, u8> {
    if CAREFUL && clean < 1 {
        return Err(5);
    }
    let (code, low) = unit.halves();
    let class = Row::of(code).class;
    if class.opens() {
        let item = one_unit_header(left.len(), usize::from(low) + 1, class, low)?;
        return if depth < MOST_GROUPS {
            Ok(item)
        } else {
            Err(11)
        };
    }
    let item = extent::<U, CAREFUL>(left, clean, code, low)?;
    if item.class >= Class::Group && depth >= MOST_GROUPS && item.class <= Class::NotShortGroup {
        return Err(11);
    }
    if item.class == Class::NotShortGroup {
        return Err(18);
    }
    if item.class.opens() || item.class == Class::Indexed {
        return Ok(item);
    }
    if item.class == Class::OtherGenus && first {
        return Err(7);
    }
    if CAREFUL && clean < item.size {
        return Err(5);
    }
    match primitive(&left[..item.size], &item) {
        0 => Ok(item),
        number => Err(number),
    }
}
