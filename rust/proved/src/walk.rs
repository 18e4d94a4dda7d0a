//! The walk over a state that the caller keeps.

use crate::{declared, Refusal};

/// At most so many groups are open.
pub const MAX_DEPTH: usize = 64;

/// Where a state has the number open, the position, the first-item mark and the
/// mark of indexed items, and how many numbers it has.
pub const STATE_OPEN: usize = MAX_DEPTH;
pub const STATE_POSITION: usize = MAX_DEPTH + 1;
pub const STATE_FIRST: usize = MAX_DEPTH + 2;
pub const STATE_INDEXED: usize = MAX_DEPTH + 3;
pub const STATE: usize = MAX_DEPTH + 4;

/// The ends of open groups, the number open, the position, the first-item mark
/// and whether the innermost open group holds indexed items, each 0 or 1; ends
/// and position in units. Zeros alone are the start of every stream.
pub type State = [usize; STATE];

/// Offset and size in the stream's own measure, depth, and the code: chars as
/// in `Info` or 7 for a small group, 8 for a large one, 9 for a genus/version, 10
/// for an indexed item; the letter (0 for a genus/version); a variable's lead
/// bytes, or an indexed item's selector as in `IndexedInfo`.
pub type Item = [usize; 6];

/// The number that stands for the stream's end.
const END: u8 = 255;

/// One step over a text: true with the next state and the item, false at the
/// end, or a refusal; these two change neither state nor item.
pub fn walk_text(text: &[u8], state: &mut State, item: &mut Item) -> Result<bool, Refusal> {
    step(declared::cesr_walk_text, text, state, item)
}

/// The same over a binary.
pub fn walk_binary(binary: &[u8], state: &mut State, item: &mut Item) -> Result<bool, Refusal> {
    step(declared::cesr_walk_binary, binary, state, item)
}

fn step(
    call: declared::Walk,
    stream: &[u8],
    state: &mut State,
    item: &mut Item,
) -> Result<bool, Refusal> {
    let mut place = 0;
    // SAFETY: the stream is valid for its length; state, item and place are
    // places of their own, of the lengths that the library reads and writes.
    let number = unsafe { call(stream.as_ptr(), stream.len(), state, item, &mut place) };
    match number {
        0 => Ok(true),
        END => Ok(false),
        _ => Err(Refusal { number, place }),
    }
}

/// What an instalment took, and why it is over.
#[derive(Clone, Copy, Debug, PartialEq, Eq)]
pub struct Instalment {
    pub items: usize,
    pub pause: Pause,
}

/// The budget is used up, or the end or a refusal came first.
#[derive(Clone, Copy, Debug, PartialEq, Eq)]
pub enum Pause {
    Spent,
    End,
    Refused(Refusal),
}

/// At most so many items of a text from the state on, which goes on behind
/// them; with no item it stays as it was.
pub fn walk_on_text(text: &[u8], state: &mut State, budget: usize) -> Instalment {
    walk_on(declared::cesr_walk_on_text, text, state, budget)
}

/// The same of a binary.
pub fn walk_on_binary(binary: &[u8], state: &mut State, budget: usize) -> Instalment {
    walk_on(declared::cesr_walk_on_binary, binary, state, budget)
}

fn walk_on(call: declared::WalkOn, stream: &[u8], state: &mut State, budget: usize) -> Instalment {
    let (mut items, mut place) = (0, 0);
    let (start, length) = (stream.as_ptr(), stream.len());
    // SAFETY: the stream is valid for its length; state, items and place are
    // places of their own, of the lengths that the library reads and writes.
    let number = unsafe { call(start, length, state, budget, &mut items, &mut place) };
    let pause = match number {
        0 => Pause::Spent,
        END => Pause::End,
        _ => Pause::Refused(Refusal { number, place }),
    };
    Instalment { items, pause }
}
