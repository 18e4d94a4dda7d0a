//! The report: items, refusals, remainder.
//!
//! One pass behind the search for strangers frames and judges the top-level
//! items and keeps their rows on the heap; the room is known after it. Items
//! of one size that follow each other are taken in a loop with a constant
//! step, so that the processor need not wait for each header to know where
//! the next one is.

use crate::alphabet::{self, first_stranger};
use crate::codes::{self, Class, Row as Code};
use crate::judge::{contents, frame, primitive, signatures, Around, Frame, Refused, Unit};
use crate::{Form, Refusal, BINARY_LIMIT, TEXT_LIMIT};

/// A row of the first two sections.
type Row = [u8; 9];

/// The report in a buffer of its own: 1, else its bytes.
pub fn report(stream: &[u8], form: Form) -> Result<Vec<u8>, Refusal> {
    let rows = Rows::of(stream, form)?;
    let mut bytes = vec![0; rows.length()];
    rows.write(&mut bytes);
    Ok(bytes)
}

/// The report into a lent buffer: 1, then 3 exactly if the room is below
/// 17 + 18 x items, else the length written.
pub fn write_report(stream: &[u8], form: Form, out: &mut [u8]) -> Result<usize, Refusal> {
    let rows = Rows::of(stream, form)?;
    if out.len() < 17 + 18 * rows.items.len() {
        return Err(Refusal::new(3, 0));
    }
    rows.write(out);
    Ok(rows.length())
}

/// Where the next character outside the alphabet stands; binary has none.
#[derive(Clone, Copy)]
pub struct Strangers<'s> {
    text: &'s [u8],
    next: usize,
}

impl Strangers<'_> {
    pub const NONE: Self = Strangers {
        text: &[],
        next: usize::MAX,
    };

    pub fn of(text: &[u8]) -> Strangers<'_> {
        let next = first_stranger(text, 0).unwrap_or(usize::MAX);
        Strangers { text, next }
    }

    /// The unit of the first stranger from unit `at` on.
    #[inline(always)]
    fn from<U: Unit>(&mut self, at: usize) -> usize {
        if self.next < at * U::SIZE {
            self.next = first_stranger(self.text, at * U::SIZE).unwrap_or(usize::MAX);
        }
        self.next / U::SIZE
    }

    /// A number as it is told: a 5 by the character that is known.
    fn told(&self, number: u8) -> u8 {
        match (number, self.text.get(self.next)) {
            (5, Some(stranger)) => alphabet::number(*stranger),
            _ => number,
        }
    }
}

/// The rows of the three sections.
#[derive(Default)]
pub struct Rows {
    items: Vec<Row>,
    refusals: Vec<Row>,
    remainder: Option<(usize, u8)>,
}

impl Rows {
    fn of(stream: &[u8], form: Form) -> Result<Rows, Refusal> {
        let (rows, tail) = match form {
            Form::Text if stream.len() > TEXT_LIMIT => return Err(Refusal::new(1, 0)),
            Form::Binary if stream.len() > BINARY_LIMIT => return Err(Refusal::new(1, 0)),
            Form::Text => {
                let (units, tail) = stream.as_chunks::<4>();
                // Characters of a partial last unit are never looked at.
                (judge_all(units, Strangers::of(units.as_flattened())), tail)
            }
            Form::Binary => {
                let (units, tail) = stream.as_chunks::<3>();
                (judge_all(units, Strangers::NONE), tail)
            }
        };
        let partial = (!tail.is_empty()).then_some((stream.len() - tail.len(), 4));
        let remainder = rows.remainder.or(partial);
        Ok(Rows { remainder, ..rows })
    }

    /// The report's length.
    fn length(&self) -> usize {
        let rows = self.items.len() + self.refusals.len();
        12 + 9 * rows + if self.remainder.is_some() { 5 } else { 0 }
    }

    /// Writes the sections to the buffer's start.
    fn write(&self, out: &mut [u8]) {
        let out = section(out, self.items.len(), self.items.as_flattened());
        let out = section(out, self.refusals.len(), self.refusals.as_flattened());
        match self.remainder {
            None => section(out, 0, &[]),
            Some((offset, number)) => {
                let [a, b, c, d] = four(offset);
                section(out, 1, &[a, b, c, d, number])
            }
        };
    }
}

/// For a stream in pieces.
impl Rows {
    pub fn count(&self) -> usize {
        self.items.len()
    }

    /// The number that framing failed with.
    pub fn failed(&self) -> Option<u8> {
        self.remainder.map(|(_, number)| number)
    }

    /// Where the items of so many elements end.
    pub fn end(&self, length: usize) -> usize {
        self.remainder.map_or(length, |(offset, _)| offset)
    }

    /// The rows as those of a stream in which so much stands before them.
    pub fn tell(&self, start: usize, index: usize, items: &mut Vec<u8>, refusals: &mut Vec<u8>) {
        items.extend(self.items.iter().flat_map(|row| {
            let [a, b, c, d, rest @ ..] = *row;
            let [a, b, c, d] = four(quad([a, b, c, d]) + start);
            let [e, f, g, h, verdict] = rest;
            [a, b, c, d, e, f, g, h, verdict]
        }));
        refusals.extend(self.refusals.iter().flat_map(|row| {
            let [a, b, c, d, number, place @ ..] = *row;
            let [a, b, c, d] = four(quad([a, b, c, d]) + index);
            let [e, f, g, h] = four(quad(place) + start);
            [a, b, c, d, number, e, f, g, h]
        }));
    }
}

/// How many units the item that starts `left`, of which not all is there, asks
/// for: what its header says, else one more.
pub fn asked<U: Unit>(left: &[U]) -> usize {
    let Some(unit) = left.first() else {
        return 1;
    };
    let (code, low) = unit.halves();
    let row = Code::of(code);
    match row.class {
        Class::More => large(left),
        _ => row.behind(low) + 1,
    }
}

/// The same by a header of two units, or of one that `1AA` opens.
fn large<U: Unit>(left: &[U]) -> usize {
    let (code, low) = left[0].halves();
    if code == codes::ONE_A {
        return codes::ONE
            .get(usize::from(low))
            .map_or(1, |size| usize::from(*size));
    }
    let Some(second) = left.get(1) else {
        return 2;
    };
    let digits = second.bits() as usize;
    match code {
        codes::GENUS => 2,
        codes::LARGE_GROUP => 2 + (usize::from(low & 63) << 24 | digits),
        _ => 2 + digits,
    }
}

/// Writes a count and the rows behind it, and gives the rest of the buffer.
pub(crate) fn section<'o>(out: &'o mut [u8], count: usize, rows: &[u8]) -> &'o mut [u8] {
    let (number, out) = out.split_at_mut(4);
    number.copy_from_slice(&four(count));
    let (part, out) = out.split_at_mut(rows.len());
    part.copy_from_slice(rows);
    out
}

fn quad(bytes: [u8; 4]) -> usize {
    u32::from_be_bytes(bytes) as usize
}

/// Four bytes, big-endian. No offset or count here is above 4,194,304.
pub(crate) fn four(number: usize) -> [u8; 4] {
    (number as u32).to_be_bytes()
}

#[inline(always)]
fn item_row<U: Unit>(at: usize, size: usize, verdict: u8) -> Row {
    let [a, b, c, d] = four(at * U::SIZE);
    let [e, f, g, h] = four(size * U::SIZE);
    [a, b, c, d, e, f, g, h, verdict]
}

fn refusal_row<U: Unit>(index: usize, refused: Refused, strangers: &Strangers) -> Row {
    let [a, b, c, d] = four(index);
    let place = match refused.number {
        5 => strangers.next,
        _ => refused.place * U::SIZE,
    };
    let [e, f, g, h] = four(place);
    [a, b, c, d, strangers.told(refused.number), e, f, g, h]
}

/// Frames and judges the top-level items of whole units.
pub fn judge_all<U: Unit>(units: &[U], mut strangers: Strangers) -> Rows {
    let mut rows = Rows::default();
    let mut open = Vec::new();
    let mut at = 0;
    while at < units.len() {
        let bad = strangers.from::<U>(at);
        let left = &units[at..];
        let item = match top_level(left, bad - at) {
            Ok(item) => item,
            Err(number) => {
                rows.remainder = Some((at * U::SIZE, strangers.told(number)));
                break;
            }
        };
        let whole = &left[..item.size];
        let verdict = if bad - at < item.size {
            judge::<U, true>(whole, at, &item, bad, &mut open)
        } else {
            judge::<U, false>(whole, at, &item, bad, &mut open)
        };
        match verdict {
            Ok(()) => rows.items.push(item_row::<U>(at, item.size, 0)),
            Err(refused) => rows.refuse::<U>(at, &item, refused, &strangers),
        }
        at += item.size;
        if matches!(item.class, Class::Plain | Class::FourZero) {
            let clean = &units[..bad.min(units.len())];
            at += rows.accept_alike(clean, at, &item);
        }
    }
    rows
}

impl Rows {
    /// The two rows of a refused item.
    fn refuse<U: Unit>(&mut self, at: usize, item: &Frame, refused: Refused, known: &Strangers) {
        let row = refusal_row::<U>(self.items.len(), refused, known);
        self.refusals.push(row);
        let verdict = known.told(refused.number);
        self.items.push(item_row::<U>(at, item.size, verdict));
    }

    /// The rows of the accepted primitives like `item` that follow from `at`
    /// on. Gives their size in all.
    #[inline(always)]
    fn accept_alike<U: Unit>(&mut self, clean: &[U], at: usize, item: &Frame) -> usize {
        let before = clean
            .get(at - item.size)
            .map(|unit| Code::of(unit.halves().0));
        let Some(like) = before.filter(|row| row.class == item.class && row.count == 0) else {
            return 0;
        };
        let taken = alike(clean, at, item, like);
        let offsets = (0..taken).map(|index| at + index * item.size);
        let rows = offsets.map(|at| item_row::<U>(at, item.size, 0));
        self.items.extend(rows);
        taken * item.size
    }
}

/// Frames a top-level item: 7 follows.
#[inline(always)]
pub(crate) fn top_level<U: Unit>(left: &[U], clean: usize) -> Result<Frame, u8> {
    let item = frame::<U, true>(left, clean)?;
    if item.class == Class::OtherGenus {
        return Err(7);
    }
    Ok(item)
}

/// How many accepted primitives like `item` follow from `at` on.
#[inline(always)]
fn alike<U: Unit>(clean: &[U], mut at: usize, item: &Frame, like: Code) -> usize {
    let check = like.class.check();
    let mut taken = 0;
    while at + item.size <= clean.len() {
        let (code, low) = clean[at].halves();
        if Code::of(code) != like || low & check.mask != check.want {
            break;
        }
        at += item.size;
        taken += 1;
    }
    taken
}

/// Judges a framed top-level item.
#[inline(always)]
pub(crate) fn judge<'s, U: Unit, const CAREFUL: bool>(
    whole: &'s [U],
    at: usize,
    item: &Frame,
    bad: usize,
    open: &mut Vec<Around<'s, U>>,
) -> Result<(), Refused> {
    if let Class::Group | Class::Override = item.class {
        let body = &whole[item.header..];
        let first = item.class == Class::Override;
        return contents::<U, CAREFUL>(body, at + item.header, bad, first, open);
    }
    if item.class == Class::Indexed {
        let body = &whole[item.header..];
        return signatures::<U, CAREFUL>(body, at + item.header, bad);
    }
    let number = match item.class {
        Class::NotShortGroup => 18,
        _ if CAREFUL => 5,
        _ => primitive(whole, item),
    };
    match number {
        0 => Ok(()),
        _ => Err(Refused { number, place: at }),
    }
}
