//! A stream that arrives in pieces, judged over a state that the caller keeps.

use crate::{answered, declared, Refusal, STATE};

/// Where a state has what it is made of, and how many numbers it has: the
/// elements to a unit, 4 for a text and 3 for a binary; the walk's state; the
/// units read; the first unit of a header of two; whether strangers are asked
/// for; the lead bytes and whether a text comes next; number and place of what is
/// refused; where the item under way starts; the items told; whether framing goes
/// on, the remainder has begun or the end was told; the elements of a unit that is
/// not whole, and how many they are.
pub const PIECES_UNIT: usize = 0;
pub const PIECES_WALK: usize = 1;
pub const PIECES_READ: usize = PIECES_WALK + STATE;
pub const PIECES_HEADER: usize = PIECES_READ + 1;
pub const PIECES_SCANS: usize = PIECES_HEADER + 4;
pub const PIECES_LEAD: usize = PIECES_SCANS + 1;
pub const PIECES_TEXT: usize = PIECES_LEAD + 1;
pub const PIECES_NUMBER: usize = PIECES_TEXT + 1;
pub const PIECES_PLACE: usize = PIECES_NUMBER + 1;
pub const PIECES_START: usize = PIECES_PLACE + 1;
pub const PIECES_ITEMS: usize = PIECES_START + 1;
pub const PIECES_PHASE: usize = PIECES_ITEMS + 1;
pub const PIECES_HELD: usize = PIECES_PHASE + 1;
pub const PIECES_COUNT: usize = PIECES_HELD + 4;
pub const PIECES: usize = PIECES_COUNT + 1;

/// The number at `PIECES_PHASE` once the end was told.
pub const PIECES_ENDED: usize = 2;

/// The state between pieces. The first number says the form, and zeros behind it
/// are the start of every stream.
pub type Pieces = [usize; PIECES];

/// The lengths written of item rows and of refusal rows, nine bytes each.
#[derive(Clone, Copy, Debug, Default, PartialEq, Eq)]
pub struct Given {
    pub items: usize,
    pub refusals: usize,
}

/// A piece of a text: 13, 1, 3, else the rows that it completes. Refused, state
/// and buffers stay as they were.
pub fn feed_text(
    state: &mut Pieces,
    piece: &[u8],
    items: &mut [u8],
    refusals: &mut [u8],
) -> Result<Given, Refusal> {
    feed(declared::cesr_feed_text, state, piece, items, refusals)
}

/// The same of a binary.
pub fn feed_binary(
    state: &mut Pieces,
    piece: &[u8],
    items: &mut [u8],
    refusals: &mut [u8],
) -> Result<Given, Refusal> {
    feed(declared::cesr_feed_binary, state, piece, items, refusals)
}

fn feed(
    call: declared::Feed,
    state: &mut Pieces,
    piece: &[u8],
    items: &mut [u8],
    refusals: &mut [u8],
) -> Result<Given, Refusal> {
    let mut given = [0; 2];
    // SAFETY: the slices are valid for their lengths and do not overlap; state and
    // given are places of their own, of the lengths that the library reads and
    // writes.
    let number = unsafe {
        call(
            state,
            piece.as_ptr(),
            piece.len(),
            items.as_mut_ptr(),
            items.len(),
            refusals.as_mut_ptr(),
            refusals.len(),
            &mut given,
        )
    };
    let [items, refusals] = given;
    match number {
        0 => Ok(Given { items, refusals }),
        _ => Err(Refusal { number, place: 0 }),
    }
}

/// The end of a text: 13, 3, else the length of the remainder's row, 5, or 0 where
/// there is none. Refused, state and buffer stay as they were.
pub fn end_text(state: &mut Pieces, out: &mut [u8]) -> Result<usize, Refusal> {
    end(declared::cesr_end_text, state, out)
}

/// The same of a binary.
pub fn end_binary(state: &mut Pieces, out: &mut [u8]) -> Result<usize, Refusal> {
    end(declared::cesr_end_binary, state, out)
}

fn end(call: declared::End, state: &mut Pieces, out: &mut [u8]) -> Result<usize, Refusal> {
    let mut answer = 0;
    // SAFETY: the buffer is valid for its length; state and answer are places of
    // their own.
    let number = unsafe { call(state, out.as_mut_ptr(), out.len(), &mut answer) };
    answered(number, answer)
}
