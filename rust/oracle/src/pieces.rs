//! 02, letter f: streams that arrive in pieces.
//!
//! "Feed the pieces in order, then say that the stream has ended. The item rows,
//! refusals and remainder that come out, joined, are those of the whole stream's
//! report (01's, text or binary), wherever it was cut." So all that came is kept
//! here, and each piece gives the rows that the report of all that came has more
//! than the report before it. An item whose last byte has not come passes the end
//! of what came, which is 4, so it is in neither; and an item that is there has
//! the row that it has in every longer stream.

use crate::form::Form;
use crate::refusal::{Refusal, ROOM, TOO_LONG, UNFIT_STATE};
use crate::report::{report, Report};

/// What came so far, and whether the end was told.
#[derive(Clone, Debug, PartialEq, Eq)]
pub struct Pieces {
    form: Form,
    came: Vec<u8>,
    ended: bool,
}

impl Pieces {
    pub fn start(form: Form) -> Pieces {
        Pieces {
            form,
            came: Vec::new(),
            ended: false,
        }
    }

    /// A piece: 13, 1, 3, else the lengths written of item rows and of refusal
    /// rows. "A refused call takes nothing in and writes nothing."
    pub fn feed(
        &mut self,
        piece: &[u8],
        items: &mut [u8],
        refusals: &mut [u8],
    ) -> Result<(usize, usize), Refusal> {
        if self.ended {
            return refuse(UNFIT_STATE);
        }
        // "Refusal 1 now comes to the piece that passes the limit."
        if self.came.len() + piece.len() > self.form.limit() {
            return refuse(TOO_LONG);
        }
        let told = self.report();
        let mut more = self.clone();
        more.came.extend(piece);
        let report = more.report();
        let rows = report.item_bytes(told.items.len());
        let refused = report.refusal_bytes(told.refusals.len());
        // "Refusal 3 is given exactly when the rows that a piece, or the end,
        // completes don't fit."
        if rows.len() > items.len() || refused.len() > refusals.len() {
            return refuse(ROOM);
        }
        items[..rows.len()].copy_from_slice(&rows);
        refusals[..refused.len()].copy_from_slice(&refused);
        *self = more;
        Ok((rows.len(), refused.len()))
    }

    /// The end: 13, 3, else the length written of the remainder's row, 5 or 0.
    pub fn end(&mut self, out: &mut [u8]) -> Result<usize, Refusal> {
        if self.ended {
            return refuse(UNFIT_STATE);
        }
        let row = self.report().remainder_bytes();
        if row.len() > out.len() {
            return refuse(ROOM);
        }
        out[..row.len()].copy_from_slice(&row);
        self.ended = true;
        Ok(row.len())
    }

    /// The report of what came.
    pub fn report(&self) -> Report {
        report(&self.came, self.form).expect("no more than the limit was taken in")
    }
}

fn refuse<T>(number: u8) -> Result<T, Refusal> {
    Err(Refusal::new(number, 0))
}

#[cfg(test)]
mod tests {
    use super::*;

    /// Each piece with room enough: the rows of all pieces, joined, and of the
    /// end.
    fn fed(form: Form, pieces: &[&[u8]]) -> [Vec<u8>; 3] {
        let mut state = Pieces::start(form);
        let [mut items, mut refusals, mut rest] = [vec![], vec![], vec![9; 5]];
        for piece in pieces {
            let (mut rows, mut refused) = ([9; 999], [9; 999]);
            let (n, m) = state.feed(piece, &mut rows, &mut refused).unwrap();
            items.extend(&rows[..n]);
            refusals.extend(&refused[..m]);
        }
        let length = state.end(&mut rest).unwrap();
        rest.truncate(length);
        [items, refusals, rest]
    }

    #[test]
    fn wherever_it_is_cut() {
        // 01's: two items, the first refused 4 at 4, and then a remainder too.
        for stream in [&b"-AAB0AAAMAAB"[..], b"-AAB0AAAMAAB0H", b"MAABMA!!", b""] {
            let whole = report(stream, Form::Text).unwrap();
            let sections = [
                whole.item_bytes(0),
                whole.refusal_bytes(0),
                whole.remainder_bytes(),
            ];
            for cut in 0..=stream.len() {
                let (front, back) = stream.split_at(cut);
                assert_eq!(fed(Form::Text, &[front, back]), sections);
            }
            let bytes: Vec<&[u8]> = stream.chunks(1).collect();
            assert_eq!(fed(Form::Text, &bytes), sections);
        }
    }

    #[test]
    fn an_items_rows_come_with_its_last_byte() {
        let mut state = Pieces::start(Form::Text);
        let mut rows = [9; 9];
        assert_eq!(state.feed(b"MAA", &mut [], &mut []), Ok((0, 0)));
        assert_eq!(state.feed(b"BM", &mut rows, &mut []), Ok((9, 0)));
        assert_eq!(rows, [0, 0, 0, 0, 0, 0, 0, 4, 0]);
        // `MQAA` is refused 8 at 4: it is item 1.
        let mut refused = [9; 9];
        assert_eq!(state.feed(b"QAA", &mut rows, &mut refused), Ok((9, 9)));
        assert_eq!(rows, [0, 0, 0, 4, 0, 0, 0, 4, 8]);
        assert_eq!(refused, [0, 0, 0, 1, 8, 0, 0, 0, 4]);
        assert_eq!(state.feed(b"", &mut [], &mut []), Ok((0, 0)));
        assert_eq!(state.end(&mut []), Ok(0));
    }

    #[test]
    fn the_remainders_row_comes_with_the_end() {
        let mut state = Pieces::start(Form::Text);
        // The remainder has begun, and what comes is not looked at.
        assert_eq!(state.feed(b"_AAAMAAB", &mut [], &mut []), Ok((0, 0)));
        assert_eq!(state.end(&mut [0; 4]), Err(Refusal::new(3, 0)));
        let mut row = [9; 6];
        assert_eq!(state.end(&mut row), Ok(5));
        assert_eq!(row, [0, 0, 0, 0, 6, 9]);
    }

    #[test]
    fn three_takes_nothing_in() {
        let mut state = Pieces::start(Form::Text);
        let before = state.clone();
        let (mut rows, mut refused) = ([9; 17], [9; 8]);
        for (n, m) in [(17, 8), (8, 8), (0, 0)] {
            let told = state.feed(b"MAABMQAA", &mut rows[..n], &mut refused[..m]);
            assert_eq!(told, Err(Refusal::new(3, 0)));
        }
        assert_eq!((&state, rows, refused), (&before, [9; 17], [9; 8]));
        let told = state.feed(b"MAABMQAA", &mut [0; 18], &mut [0; 9]);
        assert_eq!(told, Ok((18, 9)));
    }

    #[test]
    fn one_comes_to_the_piece_that_passes_the_limit() {
        for form in [Form::Text, Form::Binary] {
            // A remainder from the start: nothing is told until the end.
            let stream = vec![0xFF; form.limit()];
            let mut state = Pieces::start(form);
            assert_eq!(state.feed(&stream[1..], &mut [], &mut []), Ok((0, 0)));
            let before = state.clone();
            let refused = state.feed(&stream[..2], &mut [], &mut []);
            assert_eq!((refused, &state), (Err(Refusal::new(1, 0)), &before));
            assert_eq!(state.feed(&stream[..1], &mut [], &mut []), Ok((0, 0)));
            assert_eq!(state.feed(b"", &mut [], &mut []), Ok((0, 0)));
            let refused = state.feed(&stream[..1], &mut [], &mut []);
            assert_eq!(refused, Err(Refusal::new(1, 0)));
            assert_eq!(state.end(&mut [0; 5]), Ok(5));
        }
    }

    #[test]
    fn thirteen_after_the_end_and_first() {
        let mut state = Pieces::start(Form::Text);
        assert_eq!(state.end(&mut []), Ok(0));
        let long = vec![b'A'; Form::Text.limit() + 1];
        for piece in [&b""[..], b"MAAB", &long] {
            let refused = state.feed(piece, &mut [], &mut []);
            assert_eq!(refused, Err(Refusal::new(13, 0)));
        }
        assert_eq!(state.end(&mut []), Err(Refusal::new(13, 0)));
    }
}
