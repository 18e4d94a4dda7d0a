//! Streams in pieces. The oracle keeps all that came, the library a state of
//! numbers: so the two are fed side by side, and of states that no call gave only
//! the conditions of 13 are known here, as docs/DECISIONS.md lists them (D200).

use crate::refused;
use oracle::{pieces, Form};
use proved::{
    Given, Pieces, Refusal, MAX_DEPTH, PIECES_COUNT, PIECES_ENDED, PIECES_HEADER, PIECES_HELD,
    PIECES_ITEMS, PIECES_LEAD, PIECES_NUMBER, PIECES_PHASE, PIECES_PLACE, PIECES_READ,
    PIECES_SCANS, PIECES_START, PIECES_TEXT, PIECES_UNIT, PIECES_WALK, STATE, STATE_FIRST,
    STATE_INDEXED, STATE_OPEN, STATE_POSITION,
};

/// The oracle's side of a stream in pieces.
#[derive(Clone, Debug, PartialEq, Eq)]
pub struct Fed(pieces::Pieces);

impl Fed {
    pub fn text() -> Fed {
        Fed(pieces::Pieces::start(Form::Text))
    }

    pub fn binary() -> Fed {
        Fed(pieces::Pieces::start(Form::Binary))
    }

    pub fn feed(
        &mut self,
        piece: &[u8],
        items: &mut [u8],
        refusals: &mut [u8],
    ) -> Result<Given, Refusal> {
        let told = self.0.feed(piece, items, refusals).map_err(refused)?;
        let (items, refusals) = told;
        Ok(Given { items, refusals })
    }

    pub fn end(&mut self, out: &mut [u8]) -> Result<usize, Refusal> {
        self.0.end(out).map_err(refused)
    }
}

/// The start of a text and of a binary.
pub fn start_text() -> Pieces {
    start(Form::Text)
}

pub fn start_binary() -> Pieces {
    start(Form::Binary)
}

fn start(form: Form) -> Pieces {
    let mut state = [0; proved::PIECES];
    state[PIECES_UNIT] = form.unit();
    state
}

/// Does a state meet all conditions of 13 in a call on a text?
pub fn fits_text(state: &Pieces) -> bool {
    fits(state, Form::Text)
}

/// In one on a binary?
pub fn fits_binary(state: &Pieces) -> bool {
    fits(state, Form::Binary)
}

/// No header counts more units than this: two, and five digits.
const ENDLESS: usize = 2 + (1 << 30);

fn fits(state: &Pieces, form: Form) -> bool {
    let unit = form.unit();
    let most = form.limit() / unit;
    let [read, start, items] = [PIECES_READ, PIECES_START, PIECES_ITEMS].map(|at| state[at]);
    let count = state[PIECES_COUNT];
    let four = |from: usize| state[from..from + 4].iter();
    let bytes = four(PIECES_HEADER).chain(four(PIECES_HELD));
    let unused = four(PIECES_HELD).skip(count);
    state[PIECES_UNIT] == unit
        && state[PIECES_PHASE] < PIECES_ENDED
        && [PIECES_SCANS, PIECES_TEXT].iter().all(|at| state[*at] < 2)
        && state[PIECES_NUMBER] < 256
        && bytes.clone().all(|byte| *byte < 256)
        && walk_fits(&state[PIECES_WALK..PIECES_WALK + STATE], most + ENDLESS)
        && read <= most
        && start <= read
        && items <= start
        && state[PIECES_PLACE] <= 4 * read + 3
        && state[PIECES_LEAD] <= 2
        && count < unit
        && unused.into_iter().all(|element| *element == 0)
        && read * unit + count <= form.limit()
}

/// 01's conditions of the walk's state, for a stream of so many units.
fn walk_fits(walk: &[usize], units: usize) -> bool {
    let open = walk[STATE_OPEN];
    if open > MAX_DEPTH || walk[STATE_FIRST] > 1 || walk[STATE_INDEXED] > 1 {
        return false;
    }
    let (ends, unused) = walk[..MAX_DEPTH].split_at(open);
    let marked = walk[STATE_FIRST] + walk[STATE_INDEXED] > 0;
    let at = walk[STATE_POSITION];
    unused.iter().all(|slot| *slot == 0)
        && ends.first().is_none_or(|outermost| *outermost <= units)
        && ends.windows(2).all(|pair| pair[1] <= pair[0])
        && match ends.last() {
            Some(innermost) => at < *innermost,
            None => at <= units && !marked,
        }
}
