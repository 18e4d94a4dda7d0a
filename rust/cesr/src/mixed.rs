//! Streams that change form at top level, and their report.

use crate::report::{quad, remainder_of, section, verdict_of, REMAINDER, ROW};
use crate::{Form, Refusal, Refusals, Remainder, Verdict, Walk};
use alloc::borrow::Cow;
use alloc::vec;
use alloc::vec::Vec;
use core::fmt;
use core::iter::{Enumerate, FusedIterator};
use core::ops::Range;
use core::slice::ChunksExact;

/// Bytes of an item's row in a mixed report.
const MIXED: usize = 10;

/// Judges a stream that changes form at top level: each item starts with `-`
/// (text), a byte F8 to FB (binary) or `{` (JSON).
///
/// Items in text and in binary are framed and judged as [`judge`](crate::judge)
/// does it. **The body of a JSON item is not judged**: it is accepted by its
/// header, which states its length. A report is no pass: what is refused stands
/// in it.
///
/// # Errors
///
/// 1 if the stream is too long, see [`MixedReport::LIMIT`].
///
/// ```
/// use cesr::{judge_mixed, Form, ItemForm};
/// let stream = br#"{"v":"KERI10JSON000018_"-AABMAAB"#;
/// let report = judge_mixed(stream)?;
/// let forms: Vec<_> = report.items().map(|item| item.form).collect();
/// assert_eq!(forms, [ItemForm::Json, ItemForm::Cesr(Form::Text)]);
/// assert!(report.passed());
/// assert_eq!(report.unjudged(), 1);
/// # Ok::<(), cesr::Refusal>(())
/// ```
pub fn judge_mixed(stream: &[u8]) -> Result<MixedReport<'static>, Refusal> {
    judge_mixed_with(stream, vec![0; MixedReport::room(stream.len())])
}

/// Judges a mixed stream into a buffer that is given away. [`MixedReport::room`]
/// is enough.
///
/// # Errors
///
/// As [`judge_mixed_into`].
pub fn judge_mixed_with(stream: &[u8], mut out: Vec<u8>) -> Result<MixedReport<'static>, Refusal> {
    let length = proved::report_mixed(stream, &mut out)?;
    out.truncate(length);
    Ok(MixedReport::over(Cow::Owned(out)))
}

/// Judges a mixed stream into a lent buffer.
///
/// # Errors
///
/// 1, then 3 exactly if the room is below 17 + 19 x items. Refused, `out` stays
/// as it was.
///
/// ```
/// use cesr::{judge_mixed_into, Number};
/// let mut out = [0; 36];
/// assert_eq!(judge_mixed_into(b"-AABMAAB", &mut out)?.as_bytes().len(), 22);
/// let refusal = judge_mixed_into(b"-AABMAAB", &mut [0; 35]).unwrap_err();
/// assert_eq!(refusal.number, Number::Room);
/// # Ok::<(), cesr::Refusal>(())
/// ```
pub fn judge_mixed_into<'a>(stream: &[u8], out: &'a mut [u8]) -> Result<MixedReport<'a>, Refusal> {
    let length = proved::report_mixed(stream, out)?;
    let written = out.get(..length).unwrap_or_default();
    Ok(MixedReport::over(Cow::Borrowed(written)))
}

/// What the library says of a mixed stream: its top-level items in order, each
/// with its form, the refusals among them, and the remainder that could not be
/// framed. Offsets, sizes and places count bytes of the stream.
///
/// ```
/// use cesr::judge_mixed;
/// let report = judge_mixed(b"-AABMQAA\xF8\x00\x00MAAB")?;
/// assert_eq!(report.to_string(), "2 items, 1 accepted, 1 refused, remainder 17 from 11");
/// # Ok::<(), cesr::Refusal>(())
/// ```
#[must_use = "a report may hold refusals"]
#[derive(Clone, Debug, PartialEq, Eq)]
pub struct MixedReport<'a> {
    bytes: Cow<'a, [u8]>,
}

/// The three sections' rows.
struct Sections<'r> {
    items: &'r [u8],
    refusals: &'r [u8],
    remainder: &'r [u8],
}

impl<'a> MixedReport<'a> {
    /// The longest mixed stream that is read, in bytes.
    pub const LIMIT: usize = 4_194_304;

    fn over(bytes: Cow<'a, [u8]>) -> MixedReport<'a> {
        MixedReport { bytes }
    }

    /// Does a stream of these first bytes open with JSON, so that it is mixed if
    /// it is anything? A guess for people, as [`Form::told_from`] is.
    pub fn told_from(first: &[u8]) -> bool {
        first.first() == Some(&b'{')
    }

    /// Room that is enough for every mixed stream of this length: 17 + 19 x a
    /// third of it, since no item is shorter than a unit of binary.
    pub fn room(length: usize) -> usize {
        let items = length.min(MixedReport::LIMIT) / 3;
        items.saturating_mul(19).saturating_add(17)
    }

    /// The report's bytes: as those of a [`Report`](crate::Report), but that an
    /// item's row has a tenth byte, its form.
    pub fn as_bytes(&self) -> &[u8] {
        &self.bytes
    }

    /// The top-level items in stream order.
    pub fn items(&self) -> MixedItems<'_> {
        MixedItems(self.sections().items.chunks_exact(MIXED).enumerate())
    }

    /// The item with this index, from 0.
    pub fn item(&self, index: usize) -> Option<MixedItem> {
        let row = self.sections().items.chunks_exact(MIXED).nth(index)?;
        item_of(index, row)
    }

    /// One row for each refused item, in stream order.
    pub fn refusals(&self) -> Refusals<'_> {
        Refusals::over(self.sections().refusals)
    }

    /// What could not be framed, if anything.
    pub fn remainder(&self) -> Option<Remainder> {
        remainder_of(self.sections().remainder)
    }

    /// The number of accepted items, JSON ones included.
    pub fn accepted(&self) -> usize {
        self.items().filter(MixedItem::is_accepted).count()
    }

    /// The number of refused items.
    pub fn refused(&self) -> usize {
        self.items().filter(|item| !item.is_accepted()).count()
    }

    /// The number of JSON items, whose bodies nobody judged.
    pub fn unjudged(&self) -> usize {
        self.items()
            .filter(|item| item.form == ItemForm::Json)
            .count()
    }

    /// Has the stream a byte, and does every byte lie in an accepted item, bodies
    /// of JSON items unjudged? By the report's rows: the library's own answer to
    /// this is for the reports of text and binary alone.
    ///
    /// ```
    /// use cesr::judge_mixed;
    /// assert!(judge_mixed(b"-AABMAAB\xF8\x00\x00")?.passed());
    /// assert!(!judge_mixed(b"-AABMQAA")?.passed());
    /// // A primitive starts no item of a mixed stream.
    /// assert!(!judge_mixed(b"-AABMAABMAAB")?.passed());
    /// assert!(!judge_mixed(b"")?.passed());
    /// # Ok::<(), cesr::Refusal>(())
    /// ```
    pub fn passed(&self) -> bool {
        let (items, behind) = section(&self.bytes, MIXED);
        // The counts of refusals and remainders, and nothing else.
        let nothing_else = behind == [0; 8];
        nothing_else && !items.is_empty() && self.items().all(|item| item.is_accepted())
    }

    /// Did it pass, and do the sizes of its items make up this length? For
    /// those who hold a report beside a stream that may be another's.
    pub fn accepts_all(&self, length: usize) -> bool {
        let sizes = self.items().map(|item| item.size);
        self.passed() && sizes.fold(0, usize::saturating_add) == length
    }

    /// Where bytes are missing a section is empty.
    fn sections(&self) -> Sections<'_> {
        let (items, rest) = section(&self.bytes, MIXED);
        let (refusals, rest) = section(rest, ROW);
        let (remainder, _) = section(rest, REMAINDER);
        Sections {
            items,
            refusals,
            remainder,
        }
    }
}

impl<'r> IntoIterator for &'r MixedReport<'_> {
    type Item = MixedItem;
    type IntoIter = MixedItems<'r>;

    /// The items in stream order.
    fn into_iter(self) -> MixedItems<'r> {
        self.items()
    }
}

/// The sums on one line: `5 items, 4 accepted, 1 refused, remainder 17 from 8`.
impl fmt::Display for MixedReport<'_> {
    fn fmt(&self, f: &mut fmt::Formatter<'_>) -> fmt::Result {
        let items = self.items().len();
        let are = if items == 1 { "item" } else { "items" };
        let (accepted, refused) = (self.accepted(), self.refused());
        write!(f, "{items} {are}, {accepted} accepted, {refused} refused, ")?;
        match self.remainder() {
            Some(rest) => write!(f, "{rest}"),
            None => f.write_str("no remainder"),
        }
    }
}

/// The form of an item in a mixed stream.
#[derive(Clone, Copy, Debug, PartialEq, Eq, Hash)]
pub enum ItemForm {
    /// Text or binary.
    Cesr(Form),
    /// JSON, whose body is not judged.
    Json,
}

impl ItemForm {
    /// Text or binary; none for JSON.
    pub const fn cesr(self) -> Option<Form> {
        match self {
            ItemForm::Cesr(form) => Some(form),
            ItemForm::Json => None,
        }
    }

    /// As the library answered it: 0 text, 1 binary, 2 JSON. It answers no other
    /// byte: what it would say of one is nothing that is judged.
    const fn answered(byte: u8) -> ItemForm {
        match byte {
            0 => ItemForm::Cesr(Form::Text),
            1 => ItemForm::Cesr(Form::Binary),
            _ => ItemForm::Json,
        }
    }
}

/// `text`, `binary` or `JSON`.
impl fmt::Display for ItemForm {
    fn fmt(&self, f: &mut fmt::Formatter<'_>) -> fmt::Result {
        match self {
            ItemForm::Cesr(form) => form.fmt(f),
            ItemForm::Json => f.write_str("JSON"),
        }
    }
}

/// A top-level item of a mixed report.
#[derive(Clone, Copy, Debug, PartialEq, Eq)]
pub struct MixedItem {
    /// Its index among the items, from 0.
    pub index: usize,
    /// Where it starts.
    pub offset: usize,
    /// Its full size, in bytes.
    pub size: usize,
    /// What the library says of it; of a JSON item, whose body is not judged,
    /// accepted.
    pub verdict: Verdict,
    /// Its form.
    pub form: ItemForm,
}

impl MixedItem {
    /// Is the verdict accepted?
    pub fn is_accepted(&self) -> bool {
        self.verdict == Verdict::Accepted
    }

    /// From its start to its end in the stream.
    pub fn range(&self) -> Range<usize> {
        self.offset..self.offset.saturating_add(self.size)
    }

    /// The item's own part of its stream; empty for another stream.
    pub fn of<'s>(&self, stream: &'s [u8]) -> &'s [u8] {
        stream.get(self.range()).unwrap_or_default()
    }

    /// What a JSON item's header says; none for an item of another form.
    ///
    /// ```
    /// use cesr::judge_mixed;
    /// let stream = br#"{"v":"KERI10JSON000018_"-AABMAAB"#;
    /// let heads: Vec<_> = judge_mixed(stream)?.items().map(|item| item.json(stream)).collect();
    /// let head = heads[0].expect("JSON");
    /// assert_eq!((head.protocol(), head.version(), head.length), ("KERI", "10", 24));
    /// assert_eq!(heads[1], None);
    /// # Ok::<(), cesr::Refusal>(())
    /// ```
    pub fn json(&self, stream: &[u8]) -> Option<JsonHead> {
        match self.form {
            ItemForm::Json => JsonHead::of(self.of(stream)),
            ItemForm::Cesr(_) => None,
        }
    }
}

/// What the header of a framed JSON item says: its version 1 string.
#[derive(Clone, Copy, Debug, PartialEq, Eq)]
pub struct JsonHead {
    protocol: [u8; 4],
    version: [u8; 2],
    /// The item's length in bytes, which is its size.
    pub length: usize,
}

impl JsonHead {
    /// Of an item that the library framed. What is no header has none.
    fn of(item: &[u8]) -> Option<JsonHead> {
        let rest = item.strip_prefix(br#"{"v":""#)?;
        let (protocol, rest) = rest.split_first_chunk()?;
        let (version, rest) = rest.split_first_chunk()?;
        let (digits, _) = rest.strip_prefix(b"JSON")?.split_first_chunk::<6>()?;
        let digits = core::str::from_utf8(digits).ok()?;
        Some(JsonHead {
            protocol: *protocol,
            version: *version,
            length: usize::from_str_radix(digits, 16).ok()?,
        })
    }

    /// The four letters of the protocol.
    pub fn protocol(&self) -> &str {
        core::str::from_utf8(&self.protocol).unwrap_or_default()
    }

    /// The two hexadecimal digits of the version.
    pub fn version(&self) -> &str {
        core::str::from_utf8(&self.version).unwrap_or_default()
    }
}

/// The items of a mixed report in stream order.
#[derive(Clone, Debug)]
pub struct MixedItems<'r>(Enumerate<ChunksExact<'r, u8>>);

impl Iterator for MixedItems<'_> {
    type Item = MixedItem;

    fn next(&mut self) -> Option<MixedItem> {
        let (index, row) = self.0.next()?;
        item_of(index, row)
    }

    fn size_hint(&self) -> (usize, Option<usize>) {
        self.0.size_hint()
    }
}

impl ExactSizeIterator for MixedItems<'_> {}
impl FusedIterator for MixedItems<'_> {}

fn item_of(index: usize, row: &[u8]) -> Option<MixedItem> {
    let &[a, b, c, d, e, f, g, h, verdict, form] = row else {
        return None;
    };
    Some(MixedItem {
        index,
        offset: quad([a, b, c, d]),
        size: quad([e, f, g, h]),
        verdict: verdict_of(verdict),
        form: ItemForm::answered(form),
    })
}

impl Remainder {
    /// As [`Remainder::refusal`], of a mixed stream: 5 and 19 are a text's, and
    /// the walk is asked from the remainder's start on.
    ///
    /// ```
    /// use cesr::judge_mixed;
    /// let stream = b"\xF8\x00\x00-AA!";
    /// let rest = judge_mixed(stream)?.remainder().expect("a remainder");
    /// assert_eq!((rest.offset, rest.number.get()), (3, 5));
    /// assert_eq!(rest.refusal_in_mixed(stream).place, 6);
    /// # Ok::<(), cesr::Refusal>(())
    /// ```
    pub fn refusal_in_mixed(&self, stream: &[u8]) -> Refusal {
        let rest = stream.get(self.offset..).unwrap_or_default();
        let found = Walk::new(Form::Text, rest).next().and_then(Result::err);
        let place = match found {
            Some(found) if found.number == self.number => found.place,
            _ => 0,
        };
        Refusal {
            number: self.number,
            place: self.offset.saturating_add(place),
        }
    }
}

#[cfg(test)]
#[allow(clippy::indexing_slicing)]
mod tests {
    use super::*;

    /// A text group, refused 8 at 4, a JSON item, and a remainder 17 from 31.
    const REPORT: [u8; 46] = [
        0, 0, 0, 2, 0, 0, 0, 0, 0, 0, 0, 8, 8, 0, 0, 0, 0, 8, 0, 0, 0, 23, 0, 2, 0, 0, 0, 1, 0, 0,
        0, 0, 8, 0, 0, 0, 4, 0, 0, 0, 1, 0, 0, 0, 31, 17,
    ];

    fn of(bytes: &[u8]) -> MixedReport<'_> {
        MixedReport::over(Cow::Borrowed(bytes))
    }

    #[test]
    fn rows_of_ten_bytes() {
        let report = of(&REPORT);
        let rows: Vec<_> = report
            .items()
            .map(|item| (item.offset, item.size, item.is_accepted(), item.form))
            .collect();
        let text = ItemForm::Cesr(Form::Text);
        assert_eq!(rows, [(0, 8, false, text), (8, 23, true, ItemForm::Json)]);
        assert_eq!(report.item(1), report.items().nth(1));
        assert_eq!(report.item(2), None);
        let row = report
            .refusals()
            .next()
            .map(|row| (row.index, row.refusal.place));
        assert_eq!(row, Some((0, 4)));
        let rest = report
            .remainder()
            .map(|rest| (rest.offset, rest.number.get()));
        assert_eq!(rest, Some((31, 17)));
        assert!(!report.passed());
        assert_eq!(
            (report.accepted(), report.refused(), report.unjudged()),
            (1, 1, 1)
        );
    }

    /// An accepted item, and the same with each byte missing, one more, and each
    /// count or verdict another.
    #[test]
    fn what_passes_is_whole() {
        let mut whole = [0; 22];
        whole[3] = 1;
        whole[11] = 4;
        assert!(of(&whole).passed() && of(&whole).accepts_all(4));
        assert!(!of(&whole).accepts_all(5));
        for end in 0..whole.len() {
            assert!(!of(&whole[..end]).passed(), "{end}");
        }
        assert!(!of(&[&whole[..], &[0]].concat()).passed());
        for place in [3, 12, 17, 21] {
            let mut other = whole;
            other[place] += 1;
            assert!(!of(&other).passed(), "{place}");
        }
        assert!(!of(&[0; 12]).passed());
    }
}
