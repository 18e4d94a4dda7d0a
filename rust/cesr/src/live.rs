//! A judge that is fed.

use crate::{Form, Pieces, Refusal, Remainder, Report, Told};
use alloc::borrow::Cow;
use alloc::collections::TryReserveError;
use alloc::vec::Vec;

/// A judge that is fed: a stream comes in pieces of any size, items are told as
/// they come to their end, and the end gives the report of the whole stream,
/// wherever it was cut.
///
/// It keeps the rows that it told and the [`Pieces`], and nothing of the stream.
///
/// ```
/// use cesr::{judge, Form, Live};
/// let mut live = Live::new(Form::Text);
/// let told = live.feed(b"MAABMQ")?;
/// assert_eq!(told.items().map(|item| item.index).collect::<Vec<_>>(), [0]);
/// let told = live.feed(b"AA")?;
/// assert_eq!(told.refusals().next().map(|row| row.index), Some(1));
/// assert_eq!(live.end()?, judge(Form::Text, b"MAABMQAA")?);
/// # Ok::<(), cesr::Refusal>(())
/// ```
///
/// With the feature `std` it is a `std::io::Write`, to which anything can be
/// copied. A refused piece is an error whose inner one is the [`Refusal`].
///
/// ```
/// # #[cfg(feature = "std")] {
/// use cesr::{Form, Live};
/// let mut live = Live::new(Form::Text);
/// std::io::copy(&mut &b"MAAB1AAM"[..], &mut live)?;
/// assert!(live.end().is_ok_and(|report| report.passed()));
/// # }
/// # Ok::<(), std::io::Error>(())
/// ```
#[derive(Clone, Debug, PartialEq, Eq)]
pub struct Live {
    pieces: Pieces,
    items: Vec<u8>,
    refusals: Vec<u8>,
}

/// Counts and the remainder's row: what a report has beside the rows of items and
/// refusals.
const BESIDE: usize = 17;

impl Live {
    /// Before the first piece of a stream of this form.
    pub fn new(form: Form) -> Live {
        Live {
            pieces: Pieces::new(form),
            items: Vec::new(),
            refusals: Vec::new(),
        }
    }

    /// The state as it stands.
    pub fn pieces(&self) -> &Pieces {
        &self.pieces
    }

    /// All that was told so far.
    pub fn told(&self) -> Told<'_> {
        self.told_from(0, 0)
    }

    fn told_from(&self, items: usize, refusals: usize) -> Told<'_> {
        Told {
            first: items / crate::report::ROW,
            items: self.items.get(items..).unwrap_or_default(),
            refusals: self.refusals.get(refusals..).unwrap_or_default(),
        }
    }

    /// A piece: the rows that it completes. An empty piece changes nothing.
    ///
    /// # Errors
    ///
    /// 1 if the piece passes the limit. Nothing of it is taken in, and the stream may
    /// end there or go on with less.
    pub fn feed(&mut self, piece: &[u8]) -> Result<Told<'_>, Refusal> {
        let room = Pieces::room(self.pieces.form(), piece.len());
        let (items, refusals) = (self.items.len(), self.refusals.len());
        self.items.resize(items.saturating_add(room), 0);
        self.refusals.resize(refusals.saturating_add(room), 0);
        let rows = self.items.get_mut(items..).unwrap_or_default();
        let refused = self.refusals.get_mut(refusals..).unwrap_or_default();
        let told = self.pieces.feed_into(piece, rows, refused);
        let given = told.map(|told| (told.items.len(), told.refusals.len()));
        let (rows, refused) = given.unwrap_or_default();
        self.items.truncate(items.saturating_add(rows));
        self.refusals.truncate(refusals.saturating_add(refused));
        given.map(|_| self.told_from(items, refusals))
    }

    /// Memory for a piece of this length and the report behind it, for those who must
    /// know beforehand whether there is any.
    ///
    /// # Errors
    ///
    /// There is none left.
    pub fn try_reserve(&mut self, length: usize) -> Result<(), TryReserveError> {
        let room = Pieces::room(self.pieces.form(), length);
        self.refusals.try_reserve(room)?;
        // The report is made where the rows of items are.
        let refusals = self.refusals.len().saturating_add(room);
        let behind = refusals.saturating_add(BESIDE);
        self.items.try_reserve(room.saturating_add(behind))
    }

    /// The end: the report of all that came.
    ///
    /// # Errors
    ///
    /// None: 13 is for states that others made.
    pub fn end(mut self) -> Result<Report<'static>, Refusal> {
        let rest = self.pieces.end()?;
        Ok(self.joined(rest))
    }

    /// The rows in their sections, each after its count.
    fn joined(self, rest: Option<Remainder>) -> Report<'static> {
        let Live {
            items: mut report,
            refusals,
            ..
        } = self;
        report.splice(0..0, count(&report));
        report.extend(count(&refusals));
        report.extend(refusals);
        report.extend(four(usize::from(rest.is_some())));
        if let Some(Remainder { offset, number }) = rest {
            report.extend(four(offset));
            report.push(number.get());
        }
        Report::over(Cow::Owned(report))
    }
}

/// The number of rows.
fn count(rows: &[u8]) -> [u8; 4] {
    four(rows.len() / crate::report::ROW)
}

/// Four bytes, big-endian. No count or offset of a stream within the limit is cut.
fn four(number: usize) -> [u8; 4] {
    u32::try_from(number).unwrap_or(u32::MAX).to_be_bytes()
}

#[cfg(feature = "std")]
impl std::io::Write for Live {
    /// All of it, or the refusal.
    fn write(&mut self, piece: &[u8]) -> std::io::Result<usize> {
        match self.feed(piece) {
            Ok(_) => Ok(piece.len()),
            Err(refusal) => Err(std::io::Error::other(refusal)),
        }
    }

    fn flush(&mut self) -> std::io::Result<()> {
        Ok(())
    }
}
