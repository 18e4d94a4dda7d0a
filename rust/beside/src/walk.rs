//! The walk. The oracle's state counts the stream's own elements, the
//! library's counts units.

use crate::{indexed_code, refused};
use oracle::instalments;
use oracle::registry::Code;
use oracle::walk::{step, Found, Walk};
use oracle::Form;
use proved::{
    Instalment, Item, Pause, Refusal, State, STATE, STATE_FIRST, STATE_INDEXED, STATE_OPEN,
    STATE_POSITION,
};

/// chars, letter, and lead bytes or selector, as `include/cesr.h` numbers them.
pub fn code(code: Code) -> (usize, usize, usize) {
    match code {
        Code::Fixed(row) => {
            let characters = row.code.as_bytes();
            let letter = characters[characters.len() - 1];
            (characters.len(), usize::from(letter), 0)
        }
        Code::Variable { selector, letter } => {
            let (large, lead) = ((selector - b'4') / 3, (selector - b'4') % 3);
            (
                usize::from(5 + large),
                usize::from(letter),
                usize::from(lead),
            )
        }
        Code::Group { letter, large } => (7 + usize::from(large), usize::from(letter), 0),
        Code::Genus => (9, 0, 0),
        Code::Indexed(row) => {
            let (selector, letter) = indexed_code(row);
            (10, usize::from(letter), usize::from(selector))
        }
    }
}

pub fn walk_text(text: &[u8], state: &mut State, item: &mut Item) -> Result<bool, Refusal> {
    walk(text, Form::Text, state, item)
}

pub fn walk_binary(binary: &[u8], state: &mut State, item: &mut Item) -> Result<bool, Refusal> {
    walk(binary, Form::Binary, state, item)
}

fn walk(stream: &[u8], form: Form, state: &mut State, item: &mut Item) -> Result<bool, Refusal> {
    let Some(walk) = in_elements(state, form.unit()) else {
        return Err(no_mark(stream, form));
    };
    let (next, found) = step(walk, stream, form);
    match found {
        Found::Refused { number, place } => Err(Refusal { number, place }),
        Found::End => Ok(false),
        Found::Item {
            offset,
            size,
            depth,
            code: named,
        } => {
            let (chars, letter, lead) = code(named);
            *item = [offset, size, depth, chars, letter, lead];
            *state = in_units(&next, form.unit());
            Ok(true)
        }
    }
}

/// A mark that is no mark: 13, and 1 comes before it.
fn no_mark(stream: &[u8], form: Form) -> Refusal {
    let number = if stream.len() > form.limit() { 1 } else { 13 };
    Refusal { number, place: 0 }
}

pub fn walk_on_text(text: &[u8], state: &mut State, budget: usize) -> Instalment {
    walk_on(text, Form::Text, state, budget)
}

pub fn walk_on_binary(binary: &[u8], state: &mut State, budget: usize) -> Instalment {
    walk_on(binary, Form::Binary, state, budget)
}

fn walk_on(stream: &[u8], form: Form, state: &mut State, budget: usize) -> Instalment {
    let Some(walk) = in_elements(state, form.unit()) else {
        let pause = Pause::Refused(no_mark(stream, form));
        return Instalment { items: 0, pause };
    };
    let (next, items, pause) = instalments::walk_on(walk, stream, form, budget);
    if items > 0 {
        *state = in_units(&next, form.unit());
    }
    let pause = match pause {
        instalments::Pause::Spent => Pause::Spent,
        instalments::Pause::End => Pause::End,
        instalments::Pause::Refused(refusal) => Pause::Refused(refused(refusal)),
    };
    Instalment { items, pause }
}

/// A library's state in the oracle's measure. A number too large for that is
/// past every stream in both. Nothing for a mark that is no mark.
fn in_elements(state: &State, unit: usize) -> Option<Walk> {
    let mut walk = Walk::start();
    for (end, units) in walk.ends.iter_mut().zip(state) {
        *end = units.saturating_mul(unit);
    }
    walk.open = state[STATE_OPEN];
    walk.position = state[STATE_POSITION].saturating_mul(unit);
    walk.first = state[STATE_FIRST] == 1;
    walk.indexed = state[STATE_INDEXED] == 1;
    (state[STATE_FIRST] < 2 && state[STATE_INDEXED] < 2).then_some(walk)
}

fn in_units(walk: &Walk, unit: usize) -> State {
    let mut state = [0; STATE];
    for (units, end) in state.iter_mut().zip(walk.ends) {
        *units = end / unit;
    }
    state[STATE_OPEN] = walk.open;
    state[STATE_POSITION] = walk.position / unit;
    state[STATE_FIRST] = usize::from(walk.first);
    state[STATE_INDEXED] = usize::from(walk.indexed);
    state
}
