//! The report of a stream, and its rows.

use crate::{Form, Number, Refusal, State, Walk};
use alloc::borrow::Cow;
use alloc::vec;
use alloc::vec::Vec;
use core::fmt;
use core::iter::{FusedIterator, Zip};
use core::ops::{Range, RangeFrom};
use core::slice::ChunksExact;

/// Bytes of a row of items or refusals.
pub(crate) const ROW: usize = 9;
/// Bytes of a remainder's row.
pub(crate) const REMAINDER: usize = 5;

/// Judges a stream: its report.
///
/// A report is no pass: what is refused stands in it. [`Report::passed`] says
/// whether all of the stream is accepted.
///
/// # Errors
///
/// 1 if the stream is too long.
///
/// ```
/// use cesr::{judge, Form, Verdict};
/// let report = judge(Form::Text, b"MAABMQAA")?;
/// let verdicts: Vec<_> = report.items().map(|item| item.verdict).collect();
/// assert_eq!(verdicts[0], Verdict::Accepted);
/// assert_eq!(verdicts[1].number().map(|number| number.get()), Some(8));
/// # Ok::<(), cesr::Refusal>(())
/// ```
pub fn judge(form: Form, stream: &[u8]) -> Result<Report<'static>, Refusal> {
    judge_with(form, stream, vec![0; Report::room(form, stream.len())])
}

/// Judges a stream into a buffer that is given away, for those who must know
/// beforehand whether there is memory for it. [`Report::room`] is enough.
///
/// # Errors
///
/// As [`judge_into`].
///
/// ```
/// use cesr::{judge, judge_with, Form, Report};
/// let stream = b"MAABMQAA";
/// let mut room = Vec::new();
/// if room.try_reserve_exact(Report::room(Form::Text, stream.len())).is_ok() {
///     room.resize(room.capacity(), 0);
///     assert_eq!(judge_with(Form::Text, stream, room), judge(Form::Text, stream));
/// }
/// ```
pub fn judge_with(form: Form, stream: &[u8], mut out: Vec<u8>) -> Result<Report<'static>, Refusal> {
    let length = report(form, stream, &mut out)?;
    out.truncate(length);
    Ok(Report::over(Cow::Owned(out)))
}

/// Judges a stream into a lent buffer.
///
/// # Errors
///
/// 1, then 3 exactly if the room is below 17 + 18 x items. Refused, `out` stays
/// as it was.
///
/// ```
/// use cesr::{judge_into, Form, Number};
/// let mut out = [0; 53];
/// let report = judge_into(Form::Text, b"-AAB0AAAMAAB", &mut out)?;
/// assert_eq!(report.as_bytes().len(), 39);
/// let refusal = judge_into(Form::Text, b"-AAB0AAAMAAB", &mut [0; 52]).unwrap_err();
/// assert_eq!(refusal.number, Number::Room);
/// # Ok::<(), cesr::Refusal>(())
/// ```
pub fn judge_into<'a>(form: Form, stream: &[u8], out: &'a mut [u8]) -> Result<Report<'a>, Refusal> {
    let length = report(form, stream, out)?;
    let written = out.get(..length).unwrap_or_default();
    Ok(Report::over(Cow::Borrowed(written)))
}

fn report(form: Form, stream: &[u8], out: &mut [u8]) -> Result<usize, Refusal> {
    let length = match form {
        Form::Text => proved::report_text(stream, out),
        Form::Binary => proved::report_binary(stream, out),
    };
    Ok(length?)
}

/// What the library says of a stream: its top-level items in order, the
/// refusals among them, and the remainder that could not be framed.
///
/// ```
/// use cesr::{judge, Form};
/// let report = judge(Form::Text, b"MAABMQAAE8wY")?;
/// assert_eq!(report.to_string(), "2 items, 1 accepted, 1 refused, remainder 4 from 8");
/// for item in &report {
///     assert_eq!(item.verdict.to_string(), ["accepted", "refused 8"][item.index]);
/// }
/// # Ok::<(), cesr::Refusal>(())
/// ```
#[must_use = "a report may hold refusals"]
#[derive(Clone, Debug, PartialEq, Eq)]
pub struct Report<'a> {
    bytes: Cow<'a, [u8]>,
}

/// The three sections' rows.
struct Sections<'r> {
    items: &'r [u8],
    refusals: &'r [u8],
    remainder: &'r [u8],
}

impl<'a> Report<'a> {
    pub(crate) fn over(bytes: Cow<'a, [u8]>) -> Report<'a> {
        Report { bytes }
    }

    /// Room that is enough for every stream of this length: 17 + 18 x its
    /// units.
    pub fn room(form: Form, length: usize) -> usize {
        let units = form.units(length.min(form.limit()));
        units.saturating_mul(18).saturating_add(17)
    }

    /// The report's bytes, as the paper on scope sets them out.
    pub fn as_bytes(&self) -> &[u8] {
        &self.bytes
    }

    /// The top-level items in stream order.
    pub fn items(&self) -> Items<'_> {
        Items::from(0, self.sections().items)
    }

    /// The item with this index, from 0.
    pub fn item(&self, index: usize) -> Option<Item> {
        let row = self.sections().items.chunks_exact(ROW).nth(index)?;
        item_of(index, row)
    }

    /// One row for each refused item, in stream order.
    pub fn refusals(&self) -> Refusals<'_> {
        Refusals::over(self.sections().refusals)
    }

    /// What could not be framed, if anything.
    pub fn remainder(&self) -> Option<Remainder> {
        remainder_of(self.sections().remainder)
    }

    /// The number of accepted items.
    pub fn accepted(&self) -> usize {
        self.items().filter(|item| item.is_accepted()).count()
    }

    /// The number of refused items.
    pub fn refused(&self) -> usize {
        self.items().filter(|item| !item.is_accepted()).count()
    }

    /// Has the stream a byte, and does every byte lie in an accepted item? This
    /// is what a certificate asks, and the library answers it.
    ///
    /// ```
    /// use cesr::{judge, Form};
    /// assert!(judge(Form::Text, b"MAAB1AAM")?.passed());
    /// assert!(!judge(Form::Text, b"MAABMQAA")?.passed());
    /// // An item is accepted and none is refused, yet four bytes are left over.
    /// assert!(!judge(Form::Text, b"MAABE8wY")?.passed());
    /// // Of the empty stream nothing was judged.
    /// assert!(!judge(Form::Text, b"")?.passed());
    /// # Ok::<(), cesr::Refusal>(())
    /// ```
    pub fn passed(&self) -> bool {
        proved::passed(&self.bytes) == Ok(true)
    }

    /// Did it pass, and do the sizes of its items make up this length? For
    /// those who hold a report beside a stream that may be another's.
    ///
    /// ```
    /// use cesr::{judge, Form};
    /// assert!(judge(Form::Text, b"MAAB1AAM")?.accepts_all(8));
    /// // An item is accepted and none is refused, yet four bytes are left over.
    /// assert!(!judge(Form::Text, b"MAABE8wY")?.accepts_all(8));
    /// assert!(!judge(Form::Text, b"")?.accepts_all(0));
    /// # Ok::<(), cesr::Refusal>(())
    /// ```
    pub fn accepts_all(&self, length: usize) -> bool {
        let sizes = self.items().map(|item| item.size);
        self.passed() && sizes.fold(0, usize::saturating_add) == length
    }

    /// Each section stands behind its count in 4 bytes. Where bytes are
    /// missing a section is empty, and `accepts_all` then misses its items.
    fn sections(&self) -> Sections<'_> {
        let (items, rest) = section(&self.bytes, ROW);
        let (refusals, rest) = section(rest, ROW);
        let (remainder, _) = section(rest, REMAINDER);
        Sections {
            items,
            refusals,
            remainder,
        }
    }
}

impl<'r> IntoIterator for &'r Report<'_> {
    type Item = Item;
    type IntoIter = Items<'r>;

    /// The items in stream order.
    fn into_iter(self) -> Items<'r> {
        self.items()
    }
}

/// The sums on one line: `5 items, 4 accepted, 1 refused, remainder 4 from 8`.
impl fmt::Display for Report<'_> {
    fn fmt(&self, f: &mut fmt::Formatter<'_>) -> fmt::Result {
        let items = self.items().len();
        let are = if items == 1 { "item" } else { "items" };
        let (accepted, refused) = (self.accepted(), self.refused());
        write!(f, "{items} {are}, {accepted} accepted, {refused} refused, ")?;
        match self.remainder() {
            Some(rest) => write!(f, "{rest}"),
            None => f.write_str("no remainder"),
        }
    }
}

pub(crate) fn section(bytes: &[u8], row: usize) -> (&[u8], &[u8]) {
    let Some((count, rest)) = bytes.split_first_chunk::<4>() else {
        return (&[], &[]);
    };
    let length = quad(*count).saturating_mul(row);
    rest.split_at_checked(length).unwrap_or_default()
}

pub(crate) fn quad(bytes: [u8; 4]) -> usize {
    usize::try_from(u32::from_be_bytes(bytes)).unwrap_or(usize::MAX)
}

pub(crate) fn remainder_of(row: &[u8]) -> Option<Remainder> {
    let &[a, b, c, d, number] = row else {
        return None;
    };
    Some(Remainder {
        offset: quad([a, b, c, d]),
        number: Number::answered(number),
    })
}

pub(crate) const fn verdict_of(byte: u8) -> Verdict {
    match byte {
        0 => Verdict::Accepted,
        number => Verdict::Refused(Number::answered(number)),
    }
}

/// A top-level item of a report.
#[derive(Clone, Copy, Debug, PartialEq, Eq)]
pub struct Item {
    /// Its index among the items, from 0.
    pub index: usize,
    /// Where it starts.
    pub offset: usize,
    /// Its full size.
    pub size: usize,
    /// What the library says of it.
    pub verdict: Verdict,
}

impl Item {
    /// Is the verdict accepted?
    pub fn is_accepted(&self) -> bool {
        self.verdict == Verdict::Accepted
    }

    /// From its start to its end in the stream.
    pub fn range(&self) -> Range<usize> {
        self.offset..self.offset.saturating_add(self.size)
    }

    /// The item's own part of its stream; empty for another stream.
    pub fn of<'s>(&self, stream: &'s [u8]) -> &'s [u8] {
        stream.get(self.range()).unwrap_or_default()
    }
}

/// What the library says of an item.
#[derive(Clone, Copy, Debug, PartialEq, Eq)]
pub enum Verdict {
    /// Accepted.
    Accepted,
    /// Refused with this number; the place stands in the item's refusal row.
    Refused(Number),
}

impl Verdict {
    /// The number of a refusal.
    pub fn number(self) -> Option<Number> {
        match self {
            Verdict::Accepted => None,
            Verdict::Refused(number) => Some(number),
        }
    }
}

/// `accepted`, or `refused 8`.
impl fmt::Display for Verdict {
    fn fmt(&self, f: &mut fmt::Formatter<'_>) -> fmt::Result {
        match self {
            Verdict::Accepted => f.write_str("accepted"),
            Verdict::Refused(number) => write!(f, "refused {number}"),
        }
    }
}

/// The refusal of an item.
#[derive(Clone, Copy, Debug, PartialEq, Eq)]
pub struct RefusalRow {
    /// The item's index among the items, from 0.
    pub index: usize,
    /// Why and where, the place counted from the stream's start.
    pub refusal: Refusal,
}

/// `item 2: refused 8 at 80: pad bit or lead byte not zero`.
impl fmt::Display for RefusalRow {
    fn fmt(&self, f: &mut fmt::Formatter<'_>) -> fmt::Result {
        write!(f, "item {}: {}", self.index, self.refusal)
    }
}

/// The part of a stream that could not be framed. It runs to the stream's end
/// and counts neither as accepted nor as refused.
#[derive(Clone, Copy, Debug, PartialEq, Eq)]
pub struct Remainder {
    /// Where it starts.
    pub offset: usize,
    /// Why nothing could be framed there: 4, 5, 6, 7 or 19, in a mixed stream 17
    /// too.
    pub number: Number,
}

/// `remainder 4 from 8`.
impl fmt::Display for Remainder {
    fn fmt(&self, f: &mut fmt::Formatter<'_>) -> fmt::Result {
        write!(f, "remainder {} from {}", self.number, self.offset)
    }
}

impl Remainder {
    /// The refusal with its place, which for 5 and 19 is the character and
    /// stands in no report: the walk is asked from the remainder's start on. With
    /// another stream than the report's the place is that start.
    ///
    /// ```
    /// use cesr::{judge, Form};
    /// let report = judge(Form::Text, b"MAABMA!!")?;
    /// let rest = report.remainder().expect("a remainder");
    /// assert_eq!((rest.offset, rest.number.get()), (4, 5));
    /// assert_eq!(rest.refusal(Form::Text, b"MAABMA!!").place, 6);
    /// # Ok::<(), cesr::Refusal>(())
    /// ```
    pub fn refusal(&self, form: Form, stream: &[u8]) -> Refusal {
        let state = State::at(form.units(self.offset));
        match Walk::resumed(form, stream, state).next() {
            Some(Err(found)) if found.number == self.number => found,
            _ => Refusal {
                number: self.number,
                place: self.offset,
            },
        }
    }
}

/// The items of a report in stream order.
#[derive(Clone, Debug)]
pub struct Items<'r>(Zip<RangeFrom<usize>, ChunksExact<'r, u8>>);

impl<'r> Items<'r> {
    /// Rows of which the first is of the item with this index.
    pub(crate) fn from(first: usize, rows: &'r [u8]) -> Items<'r> {
        Items((first..).zip(rows.chunks_exact(ROW)))
    }
}

impl Iterator for Items<'_> {
    type Item = Item;

    fn next(&mut self) -> Option<Item> {
        let (index, row) = self.0.next()?;
        item_of(index, row)
    }

    fn size_hint(&self) -> (usize, Option<usize>) {
        self.0.size_hint()
    }
}

impl ExactSizeIterator for Items<'_> {}
impl FusedIterator for Items<'_> {}

fn item_of(index: usize, row: &[u8]) -> Option<Item> {
    let &[a, b, c, d, e, f, g, h, verdict] = row else {
        return None;
    };
    Some(Item {
        index,
        offset: quad([a, b, c, d]),
        size: quad([e, f, g, h]),
        verdict: verdict_of(verdict),
    })
}

/// The refusals of a report in stream order.
#[derive(Clone, Debug)]
pub struct Refusals<'r>(ChunksExact<'r, u8>);

impl<'r> Refusals<'r> {
    pub(crate) fn over(rows: &'r [u8]) -> Refusals<'r> {
        Refusals(rows.chunks_exact(ROW))
    }
}

impl Iterator for Refusals<'_> {
    type Item = RefusalRow;

    fn next(&mut self) -> Option<RefusalRow> {
        let &[a, b, c, d, number, e, f, g, h] = self.0.next()? else {
            return None;
        };
        Some(RefusalRow {
            index: quad([a, b, c, d]),
            refusal: Refusal {
                number: Number::answered(number),
                place: quad([e, f, g, h]),
            },
        })
    }

    fn size_hint(&self) -> (usize, Option<usize>) {
        self.0.size_hint()
    }
}

impl ExactSizeIterator for Refusals<'_> {}
impl FusedIterator for Refusals<'_> {}
