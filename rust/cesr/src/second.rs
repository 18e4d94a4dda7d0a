//! The second engine, and two answers held against each other.

use crate::report::{section, REMAINDER, ROW};
use crate::{Form, Refusal, Report};
use alloc::borrow::Cow;
use alloc::vec;
use alloc::vec::Vec;
use core::fmt;

/// Judges a stream by the second engine, which is plain and slower, and shares no
/// code with the first one but tables and conversion. Its answer is that of
/// [`judge`](crate::judge), for every stream: that is proved of the two, and
/// [`difference`] looks whether it is so.
///
/// # Errors
///
/// 1 if the stream is too long.
///
/// ```
/// use cesr::{difference, judge, judge_second, Form};
/// let stream = b"-AAB0AAAMAAB";
/// let report = judge_second(Form::Text, stream)?;
/// assert_eq!((report.accepted(), report.refused()), (1, 1));
/// assert_eq!(difference(&judge(Form::Text, stream), &Ok(report)), None);
/// # Ok::<(), cesr::Refusal>(())
/// ```
pub fn judge_second(form: Form, stream: &[u8]) -> Result<Report<'static>, Refusal> {
    let mut work = vec![0; working_room(form, stream.len())];
    let out = vec![0; Report::room(form, stream.len())];
    judge_second_with(form, stream, &mut work, out)
}

/// Judges a stream by the second engine into a buffer that is given away, with
/// lent working room. [`Report::room`] and [`working_room`] are enough.
///
/// # Errors
///
/// As [`judge_second_into`].
pub fn judge_second_with(
    form: Form,
    stream: &[u8],
    work: &mut [u8],
    mut out: Vec<u8>,
) -> Result<Report<'static>, Refusal> {
    let length = report(form, stream, work, &mut out)?;
    out.truncate(length);
    Ok(Report::over(Cow::Owned(out)))
}

/// Judges a stream by the second engine into a lent buffer, with lent working
/// room.
///
/// # Errors
///
/// 1, then 3 exactly if the working room is below [`working_room`], then 3
/// exactly if the room is below 17 + 18 x items. Refused, `out` stays as it was,
/// and `work` after 1 and its own 3. Else it begins with the stream's whole
/// triplets as text.
///
/// ```
/// use cesr::{judge_second_into, Form, Number};
/// let (mut work, mut out) = ([b'.'; 6], [0; 35]);
/// let report = judge_second_into(Form::Binary, b"\x30\x00\x01", &mut work, &mut out)?;
/// assert!(report.passed());
/// assert_eq!(&work, b"MAAB..");
/// let refusal = judge_second_into(Form::Binary, b"\x30\x00\x01", &mut [0; 3], &mut out);
/// assert_eq!(refusal.unwrap_err().number, Number::Room);
/// # Ok::<(), cesr::Refusal>(())
/// ```
pub fn judge_second_into<'a>(
    form: Form,
    stream: &[u8],
    work: &mut [u8],
    out: &'a mut [u8],
) -> Result<Report<'a>, Refusal> {
    let length = report(form, stream, work, out)?;
    let written = out.get(..length).unwrap_or_default();
    Ok(Report::over(Cow::Borrowed(written)))
}

/// The working room that the second engine asks for a stream of this length: 4
/// characters for each whole triplet of a binary, none for a text.
pub fn working_room(form: Form, length: usize) -> usize {
    match form {
        Form::Text => 0,
        Form::Binary => Form::Text.room(form.units(length)),
    }
}

fn report(form: Form, stream: &[u8], work: &mut [u8], out: &mut [u8]) -> Result<usize, Refusal> {
    let length = match form {
        Form::Text => proved::second_text(stream, out),
        Form::Binary => proved::second_binary(stream, work, out),
    };
    Ok(length?)
}

/// How two answers to one stream differ.
#[derive(Clone, Copy, Debug, PartialEq, Eq)]
pub enum Difference {
    /// One call is refused and the other is not, or with another number or place.
    Call {
        /// The first one's refusal; none where it has a report.
        first: Option<Refusal>,
        /// The second one's.
        second: Option<Refusal>,
    },
    /// The reports have different lengths.
    Length {
        /// The first one's, in bytes.
        first: usize,
        /// The second one's.
        second: usize,
    },
    /// The reports have one length: the first byte that is not the same.
    Byte {
        /// Where it stands in the reports.
        at: usize,
        /// What it is a part of.
        part: Part,
        /// The byte in the first one.
        first: u8,
        /// The byte in the second one.
        second: u8,
    },
}

/// A part of a report.
#[derive(Clone, Copy, Debug, PartialEq, Eq)]
pub enum Part {
    /// The number of a section's rows.
    Count,
    /// The row of the item with this index, from 0.
    Item(usize),
    /// The row of a refusal, counted from 0.
    Refusal(usize),
    /// The remainder's row.
    Remainder,
}

/// Holds two answers to one stream against each other: none where they are the
/// same, byte for byte.
///
/// ```
/// use cesr::{difference, judge, Difference, Form, Part};
/// let [one, other] = [&b"MAABMQAA"[..], b"MAAB0JAA"].map(|stream| judge(Form::Text, stream));
/// assert_eq!(difference(&one, &one), None);
/// let found = difference(&one, &other).expect("8 and 10");
/// assert!(matches!(found, Difference::Byte { part: Part::Item(1), first: 8, second: 10, .. }));
/// ```
pub fn difference(
    first: &Result<Report, Refusal>,
    second: &Result<Report, Refusal>,
) -> Option<Difference> {
    match (first, second) {
        (Ok(first), Ok(second)) => between(first.as_bytes(), second.as_bytes()),
        (Err(first), Err(second)) if first == second => None,
        _ => Some(Difference::Call {
            first: first.as_ref().err().copied(),
            second: second.as_ref().err().copied(),
        }),
    }
}

fn between(first: &[u8], second: &[u8]) -> Option<Difference> {
    if first.len() != second.len() {
        return Some(Difference::Length {
            first: first.len(),
            second: second.len(),
        });
    }
    let mut pairs = first.iter().zip(second).enumerate();
    let (at, (one, other)) = pairs.find(|(_, (one, other))| one != other)?;
    Some(Difference::Byte {
        at,
        part: part(first, at),
        first: *one,
        second: *other,
    })
}

/// The rows of a section by their index.
type Rows = fn(usize) -> Part;

/// A section's row in bytes, and what it is.
const SECTIONS: [(usize, Rows); 3] = [
    (ROW, Part::Item),
    (ROW, Part::Refusal),
    (REMAINDER, |_| Part::Remainder),
];

/// What a byte of a report is a part of. All before it is the same in both, so
/// either report tells.
fn part(report: &[u8], at: usize) -> Part {
    let (mut rest, mut at) = (report, at);
    for (row, part) in SECTIONS {
        let Some(behind) = at.checked_sub(4) else {
            return Part::Count;
        };
        let (rows, more) = section(rest, row);
        if behind < rows.len() {
            return part(behind.checked_div(row).unwrap_or_default());
        }
        at = behind.saturating_sub(rows.len());
        rest = more;
    }
    Part::Count
}

/// `item 1`, `refusal 0`, `the remainder` or `a count`.
impl fmt::Display for Part {
    fn fmt(&self, f: &mut fmt::Formatter<'_>) -> fmt::Result {
        match self {
            Part::Count => f.write_str("a count"),
            Part::Item(index) => write!(f, "item {index}"),
            Part::Refusal(index) => write!(f, "refusal {index}"),
            Part::Remainder => f.write_str("the remainder"),
        }
    }
}

/// `byte 21 of the reports, of item 1, is 8 by the first and 10 by the second`.
impl fmt::Display for Difference {
    fn fmt(&self, f: &mut fmt::Formatter<'_>) -> fmt::Result {
        match self {
            Difference::Call { first, second } => {
                f.write_str("the first answers ")?;
                answer(f, first)?;
                f.write_str(", the second ")?;
                answer(f, second)
            }
            Difference::Length { first, second } => write!(
                f,
                "the first's report has {first} bytes, the second's {second}"
            ),
            Difference::Byte {
                at,
                part,
                first,
                second,
            } => write!(
                f,
                "byte {at} of the reports, of {part}, is {first} by the first and {second} by the second"
            ),
        }
    }
}

fn answer(f: &mut fmt::Formatter<'_>, refusal: &Option<Refusal>) -> fmt::Result {
    match refusal {
        Some(Refusal { number, place }) => write!(f, "{number} at {place}"),
        None => f.write_str("a report"),
    }
}

#[cfg(test)]
#[allow(clippy::indexing_slicing)]
mod tests {
    use super::*;
    use crate::Number;
    use alloc::string::ToString;

    /// Two items, the second refused 8 at 4, and a remainder 4 from 8.
    const REPORT: [u8; 44] = [
        0, 0, 0, 2, 0, 0, 0, 0, 0, 0, 0, 4, 0, 0, 0, 0, 4, 0, 0, 0, 4, 8, 0, 0, 0, 1, 0, 0, 0, 1,
        8, 0, 0, 0, 4, 0, 0, 0, 1, 0, 0, 0, 8, 4,
    ];

    fn of(bytes: &[u8]) -> Result<Report<'_>, Refusal> {
        Ok(Report::over(Cow::Borrowed(bytes)))
    }

    fn refused(number: Number, place: usize) -> Result<Report<'static>, Refusal> {
        Err(Refusal { number, place })
    }

    #[test]
    fn the_same_bytes_do_not_differ() {
        assert_eq!(difference(&of(&REPORT), &of(&REPORT)), None);
        assert_eq!(difference(&of(&[]), &of(&[])), None);
        let long = refused(Number::TooLong, 0);
        assert_eq!(difference(&long, &long), None);
    }

    #[test]
    fn any_byte_differs_by_itself() {
        for at in 0..REPORT.len() {
            let mut other = REPORT;
            other
                .iter_mut()
                .skip(at)
                .take(1)
                .for_each(|byte| *byte ^= 1);
            let expected = match at {
                0..4 | 22..26 | 35..39 => Part::Count,
                4..13 => Part::Item(0),
                13..22 => Part::Item(1),
                26..35 => Part::Refusal(0),
                _ => Part::Remainder,
            };
            for (one, two) in [(REPORT, other), (other, REPORT)] {
                let found = difference(&of(&one), &of(&two));
                let is_there = matches!(found, Some(Difference::Byte { at: told, part, .. }) if told == at && part == expected);
                assert!(is_there, "{at}: {found:?}");
            }
        }
    }

    #[test]
    fn a_length_differs() {
        for end in 0..REPORT.len() {
            let cut: &[u8] = REPORT.split_at(end).0;
            let found = difference(&of(cut), &of(&REPORT));
            let (first, second) = (end, REPORT.len());
            assert_eq!(found, Some(Difference::Length { first, second }));
            let found = difference(&of(&REPORT), &of(cut));
            let (first, second) = (second, first);
            assert_eq!(found, Some(Difference::Length { first, second }));
        }
    }

    #[test]
    fn a_number_or_a_place_of_a_call_differs() {
        let all = [
            of(&REPORT),
            refused(Number::TooLong, 0),
            refused(Number::Room, 0),
            refused(Number::Room, 1),
        ];
        for (index, one) in all.iter().enumerate() {
            for (other_index, other) in all.iter().enumerate() {
                let differs = difference(one, other).is_some();
                assert_eq!(differs, index != other_index, "{one:?} {other:?}");
            }
        }
        let found = difference(&all[0], &all[2]).map(|found| found.to_string());
        let said = "the first answers a report, the second 3 at 0";
        assert_eq!(found.as_deref(), Some(said));
    }

    #[test]
    fn what_differs_is_said() {
        let mut other = REPORT;
        other[21] = 10;
        let found = difference(&of(&REPORT), &of(&other)).map(|found| found.to_string());
        let said = "byte 21 of the reports, of item 1, is 8 by the first and 10 by the second";
        assert_eq!(found.as_deref(), Some(said));
        let cut = REPORT.split_at(30).0;
        let found = difference(&of(&REPORT), &of(cut)).map(|found| found.to_string());
        let said = "the first's report has 44 bytes, the second's 30";
        assert_eq!(found.as_deref(), Some(said));
    }
}
