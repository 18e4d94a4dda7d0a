//! A stream that arrives in pieces. What came of the item under way is kept on
//! the heap, and nothing is looked at before all of it is there: so each byte is
//! judged once, together with the items behind it that a piece completes.

use crate::judge::Unit;
use crate::report::{asked, judge_all, Rows, Strangers};
use crate::{Form, Refusal, BINARY_LIMIT, TEXT_LIMIT};

/// A judge that is fed.
#[derive(Clone, Debug)]
pub struct Pieces {
    form: Form,
    /// The item under way, as far as it came, and where it starts.
    held: Vec<u8>,
    start: usize,
    /// So much of it must be there before anything can be said.
    asked: usize,
    items: usize,
    /// Once framing has failed: its number, and how much came since.
    failed: Option<(u8, usize)>,
    ended: bool,
}

impl Pieces {
    pub fn new(form: Form) -> Pieces {
        Pieces {
            form,
            held: Vec::new(),
            start: 0,
            asked: 1,
            items: 0,
            failed: None,
            ended: false,
        }
    }

    /// A piece: 13, 1, else the rows of the items that it completes, behind what
    /// is there.
    pub fn feed(
        &mut self,
        piece: &[u8],
        items: &mut Vec<u8>,
        refusals: &mut Vec<u8>,
    ) -> Result<(), Refusal> {
        if self.ended {
            return Err(Refusal::new(13, 0));
        }
        if self.taken() + piece.len() > self.limit() {
            return Err(Refusal::new(1, 0));
        }
        if let Some((_, more)) = &mut self.failed {
            *more += piece.len();
            return Ok(());
        }
        if self.held.is_empty() && piece.len() >= self.asked {
            let left = self.complete(piece, items, refusals);
            self.held.extend_from_slice(left);
            return Ok(());
        }
        self.held.extend_from_slice(piece);
        if self.held.len() >= self.asked {
            let mut held = std::mem::take(&mut self.held);
            let left = self.complete(&held, items, refusals).len();
            held.drain(..held.len() - left);
            self.held = held;
        }
        Ok(())
    }

    /// The end: 13, else the remainder's offset and number.
    pub fn end(&mut self) -> Result<Option<(usize, u8)>, Refusal> {
        if std::mem::replace(&mut self.ended, true) {
            return Err(Refusal::new(13, 0));
        }
        Ok(match self.failed {
            Some((number, _)) => Some((self.start, number)),
            None if self.held.is_empty() => None,
            None => Some((self.start, 4)),
        })
    }

    fn limit(&self) -> usize {
        match self.form {
            Form::Text => TEXT_LIMIT,
            Form::Binary => BINARY_LIMIT,
        }
    }

    /// Elements that came.
    fn taken(&self) -> usize {
        self.start + self.held.len() + self.failed.map_or(0, |(_, more)| more)
    }

    /// Judges the whole items of what came from `start` on; what is left of it.
    fn complete<'s>(
        &mut self,
        came: &'s [u8],
        items: &mut Vec<u8>,
        refusals: &mut Vec<u8>,
    ) -> &'s [u8] {
        let (rows, behind) = match self.form {
            Form::Text => {
                let (units, _) = came.as_chunks::<4>();
                let rows = judge_all(units, Strangers::of(units.as_flattened()));
                let behind = behind(units, &rows);
                (rows, behind)
            }
            Form::Binary => {
                let (units, _) = came.as_chunks::<3>();
                let rows = judge_all(units, Strangers::NONE);
                let behind = behind(units, &rows);
                (rows, behind)
            }
        };
        rows.tell(self.start, self.items, items, refusals);
        self.items += rows.count();
        self.start += behind.end;
        self.asked = behind.asked;
        let left = &came[behind.end..];
        match rows.failed() {
            // 4 says that more must come.
            None | Some(4) => left,
            Some(number) => {
                self.failed = Some((number, left.len()));
                &[]
            }
        }
    }
}

/// Where the whole items end, and how much the next one asks for.
struct Behind {
    end: usize,
    asked: usize,
}

fn behind<U: Unit>(units: &[U], rows: &Rows) -> Behind {
    let end = rows.end(units.len() * U::SIZE);
    let asked = asked(&units[end / U::SIZE..]) * U::SIZE;
    Behind { end, asked }
}
