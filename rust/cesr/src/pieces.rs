//! A stream that arrives in pieces, judged over a state and lent buffers.

use crate::report::{remainder_of, Items, Refusals, REMAINDER, ROW};
use crate::{Form, Refusal, Remainder};
use proved::{PIECES, PIECES_COUNT, PIECES_ITEMS, PIECES_READ, PIECES_UNIT};

/// The state of a stream that arrives in pieces: plain numbers, by value, and all
/// that is kept between two pieces, whatever an item's size is. [`Live`] keeps the
/// rows too.
///
/// A piece gives the rows of the items whose last byte came with it; the end gives
/// the remainder. All of them, joined, are those of the report of the whole stream,
/// wherever it was cut.
///
/// ```
/// use cesr::{Form, Pieces};
/// let mut pieces = Pieces::new(Form::Text);
/// let (mut items, mut refusals) = ([0; 18], [0; 9]);
/// // The first item, and one character of the second.
/// let told = pieces.feed_into(b"MAABM", &mut items, &mut refusals)?;
/// assert_eq!((told.items().len(), told.refusals().len()), (1, 0));
/// let told = pieces.feed_into(b"QAA-AAB", &mut items, &mut refusals)?;
/// let row = told.refusals().next().expect("a refusal");
/// assert_eq!(row.to_string(), "item 1: refused 8 at 4: pad bit or lead byte not zero");
/// // The group asks for more than came.
/// let rest = pieces.end()?.expect("a remainder");
/// assert_eq!(rest.to_string(), "remainder 4 from 8");
/// # Ok::<(), cesr::Refusal>(())
/// ```
///
/// [`Live`]: crate::Live
#[derive(Clone, Copy, Debug, PartialEq, Eq, Hash)]
pub struct Pieces(proved::Pieces);

/// The length of saved [`Pieces`].
pub const PIECES_BYTES: usize = PIECES * NUMBER;

/// Bytes of a number in a saved state.
const NUMBER: usize = 8;

impl Pieces {
    /// Before the first piece of a stream of this form.
    pub fn new(form: Form) -> Pieces {
        let mut numbers = [0; PIECES];
        let [unit, ..] = &mut numbers;
        *unit = form.unit();
        Pieces(numbers)
    }

    /// A state by its numbers, of which the first says the form. Any are one;
    /// those that no call gave may be refused 13.
    pub const fn from_numbers(numbers: [usize; PIECES]) -> Pieces {
        Pieces(numbers)
    }

    /// The state's numbers.
    pub const fn numbers(&self) -> &[usize; PIECES] {
        &self.0
    }

    /// The stream's form.
    pub fn form(&self) -> Form {
        match self.number(PIECES_UNIT) {
            4 => Form::Text,
            _ => Form::Binary,
        }
    }

    /// How many items were told so far: the index of the next one.
    pub fn items(&self) -> usize {
        self.number(PIECES_ITEMS)
    }

    /// How many characters or bytes were taken in so far.
    pub fn taken(&self) -> usize {
        let whole = self.number(PIECES_READ).saturating_mul(self.form().unit());
        whole.saturating_add(self.number(PIECES_COUNT))
    }

    fn number(&self, at: usize) -> usize {
        self.0.get(at).copied().unwrap_or_default()
    }

    /// Room that is enough, in each of the two buffers, for the rows of every piece
    /// of this length: 9 bytes for each unit that may end in it.
    pub fn room(form: Form, length: usize) -> usize {
        let units = form.units(length.min(form.limit())).saturating_add(1);
        units.saturating_mul(ROW)
    }

    /// A piece: the rows that it completes, in the buffers. An empty piece changes
    /// nothing.
    ///
    /// # Errors
    ///
    /// 13 after the end, and for a state that no call gave and that is unfit; 1 if
    /// the piece passes the limit; 3 exactly if the rows that it completes do not
    /// fit. Refused, nothing is taken in and the buffers stay as they were: the same
    /// piece may come again with more room.
    pub fn feed_into<'r>(
        &mut self,
        piece: &[u8],
        items: &'r mut [u8],
        refusals: &'r mut [u8],
    ) -> Result<Told<'r>, Refusal> {
        let first = self.items();
        let given = match self.form() {
            Form::Text => proved::feed_text(&mut self.0, piece, items, refusals),
            Form::Binary => proved::feed_binary(&mut self.0, piece, items, refusals),
        }?;
        Ok(Told {
            first,
            items: items.get(..given.items).unwrap_or_default(),
            refusals: refusals.get(..given.refusals).unwrap_or_default(),
        })
    }

    /// The end: the remainder, if there is one. No more pieces come.
    ///
    /// # Errors
    ///
    /// 13 after the end, and for a state that no call gave and that is unfit.
    pub fn end(&mut self) -> Result<Option<Remainder>, Refusal> {
        let mut row = [0; REMAINDER];
        let length = match self.form() {
            Form::Text => proved::end_text(&mut self.0, &mut row),
            Form::Binary => proved::end_binary(&mut self.0, &mut row),
        }?;
        Ok(remainder_of(row.get(..length).unwrap_or_default()))
    }

    /// The state to be saved: its numbers, big-endian, eight bytes each.
    ///
    /// ```
    /// use cesr::{Form, Pieces};
    /// let mut pieces = Pieces::new(Form::Text);
    /// pieces.feed_into(b"MA", &mut [], &mut [])?;
    /// let mut later = Pieces::from_bytes(&pieces.to_bytes());
    /// let mut items = [0; 9];
    /// assert_eq!(later.feed_into(b"AB", &mut items, &mut [])?.items().len(), 1);
    /// # Ok::<(), cesr::Refusal>(())
    /// ```
    pub fn to_bytes(&self) -> [u8; PIECES_BYTES] {
        let mut bytes = [0; PIECES_BYTES];
        for (place, number) in bytes.chunks_exact_mut(NUMBER).zip(self.0) {
            place.copy_from_slice(&(number as u64).to_be_bytes());
        }
        bytes
    }

    /// A saved state. Any bytes are one, as any numbers.
    pub fn from_bytes(bytes: &[u8; PIECES_BYTES]) -> Pieces {
        let mut numbers = [0; PIECES];
        for (number, place) in numbers.iter_mut().zip(bytes.chunks_exact(NUMBER)) {
            let wide = place
                .iter()
                .fold(0, |high, byte| high << 8 | u64::from(*byte));
            *number = usize::try_from(wide).unwrap_or(usize::MAX);
        }
        Pieces(numbers)
    }
}

/// The rows of a piece, or of all that came.
#[derive(Clone, Copy, Debug, PartialEq, Eq)]
pub struct Told<'r> {
    pub(crate) first: usize,
    pub(crate) items: &'r [u8],
    pub(crate) refusals: &'r [u8],
}

impl<'r> Told<'r> {
    /// The items that came to their end, with their index in the whole stream.
    pub fn items(&self) -> Items<'r> {
        Items::from(self.first, self.items)
    }

    /// One row for each refused one among them.
    pub fn refusals(&self) -> Refusals<'r> {
        Refusals::over(self.refusals)
    }

    /// Is there no row?
    pub fn is_empty(&self) -> bool {
        self.items.is_empty()
    }
}
