//! Steps and instalments of the walk by both, from the start and from made-up
//! states.

use crate::judges::{by_proved, same, Check};
use proved::{
    Instalment, Pause, State, MAX_DEPTH, STATE, STATE_FIRST, STATE_INDEXED, STATE_OPEN,
    STATE_POSITION,
};
use streams::{Form, Random};

/// One step of both; whether an item was found. State and item must be the
/// same afterwards, also where they must stay.
pub fn one_step(stream: &[u8], form: Form, state: &mut State) -> Result<bool, String> {
    let before = *state;
    let (mut item, mut told_state, mut told_item) = ([0xAA; 6], *state, [0xAA; 6]);
    let (ours, theirs) = match form {
        Form::Text => (
            proved::walk_text(stream, state, &mut item),
            beside::walk_text(stream, &mut told_state, &mut told_item),
        ),
        Form::Binary => (
            proved::walk_binary(stream, state, &mut item),
            beside::walk_binary(stream, &mut told_state, &mut told_item),
        ),
    };
    same(
        "walk",
        (by_proved(ours), *state, item),
        (by_proved(theirs), told_state, told_item),
    )
    .map_err(|why| format!("from {before:?}, {why}"))?;
    Ok(ours == Ok(true))
}

/// Step by step to the end or the first refusal: the offsets of the items, and
/// where it stopped. And once more in instalments, to the same state.
pub fn from_the_start(stream: &[u8], form: Form) -> Result<Vec<usize>, String> {
    let places = from(stream, form, [0; STATE], usize::MAX)?;
    let mut random = Random::new(places.len() as u64);
    let items = in_slices(stream, form, &mut [0; STATE], &mut random)?;
    same("items of all instalments", items, places.len() - 1)?;
    Ok(places)
}

/// One instalment of both. The state must be the same afterwards, also where
/// it must stay.
fn one_slice(
    stream: &[u8],
    form: Form,
    state: &mut State,
    budget: usize,
) -> Result<Instalment, String> {
    let before = *state;
    let mut told_state = *state;
    let (ours, theirs) = match form {
        Form::Text => (
            proved::walk_on_text(stream, state, budget),
            beside::walk_on_text(stream, &mut told_state, budget),
        ),
        Form::Binary => (
            proved::walk_on_binary(stream, state, budget),
            beside::walk_on_binary(stream, &mut told_state, budget),
        ),
    };
    same("instalment", (ours, *state), (theirs, told_state))
        .map_err(|why| format!("{budget} from {before:?}, {why}"))?;
    Ok(ours)
}

/// Instalments of many sizes to the end or the first refusal, which leave the
/// state where one without bound does; how many items they took.
fn in_slices(
    stream: &[u8],
    form: Form,
    state: &mut State,
    random: &mut Random,
) -> Result<usize, String> {
    let mut at_once = *state;
    let whole = one_slice(stream, form, &mut at_once, usize::MAX)?;
    let mut items = 0;
    loop {
        let more = 1 + random.below(1 + whole.items / 4);
        let budget = *random.pick(&[0, 1, 2, 3, 64, more, more, usize::MAX]);
        let slice = one_slice(stream, form, state, budget)?;
        items += slice.items;
        if slice.pause != Pause::Spent {
            same("last pause", slice.pause, whole.pause)?;
            break;
        }
        same("budget", slice.items, budget)?;
    }
    same("instalments", (items, *state), (whole.items, at_once))?;
    Ok(items)
}

fn from(stream: &[u8], form: Form, mut state: State, most: usize) -> Result<Vec<usize>, String> {
    let mut places = Vec::new();
    while places.len() < most {
        places.push(state[STATE_POSITION].saturating_mul(form.unit()));
        if !one_step(stream, form, &mut state)? {
            break;
        }
    }
    Ok(places)
}

/// A few steps from states that no walk gave, and of which many are 13.
pub fn from_made_up(stream: &[u8], form: Form, seed: u64) -> Check {
    let mut random = Random::new(seed);
    let mut state = [0; STATE];
    for _ in 0..6 {
        for _ in 0..random.below(4) {
            let mut next = state;
            if !one_step(stream, form, &mut next)? {
                break;
            }
            state = next;
        }
        let mut made_up = state;
        for _ in 0..1 + random.below(2) {
            violate(&mut random, stream.len() / form.unit(), &mut made_up);
        }
        from(stream, form, made_up, 5)?;
        for budget in [0, 1, 1 + random.below(5)] {
            one_slice(stream, form, &mut made_up.clone(), budget)?;
        }
        in_slices(stream, form, &mut made_up, &mut random)?;
    }
    Ok(())
}

/// One condition of 13 pushed at, or a change that leaves the state fit.
fn violate(random: &mut Random, units: usize, state: &mut State) {
    let open = state[STATE_OPEN].min(MAX_DEPTH);
    let near = |random: &mut Random, n: usize| (n + random.below(3)).saturating_sub(1);
    match random.below(12) {
        0 => {
            state[STATE_OPEN] = *random.pick(&[
                MAX_DEPTH - 1,
                MAX_DEPTH,
                MAX_DEPTH + 1,
                MAX_DEPTH + 2,
                255,
                usize::MAX,
            ])
        }
        1 => state[random.below(MAX_DEPTH)] = random.below(units + 2),
        2 if open < MAX_DEPTH => {
            state[open + random.below(MAX_DEPTH - open)] = 1 + random.below(units + 1)
        }
        3 if open > 0 => state[STATE_POSITION] = near(random, state[open - 1]),
        4 => state[STATE_POSITION] = *random.pick(&[units, units + 1, usize::MAX, usize::MAX / 3]),
        5 if open > 1 => state[open - 1] = near(random, state[open - 2]),
        6 if open > 0 => state[0] = *random.pick(&[units, units + 1, usize::MAX]),
        7 => {
            let mark = *random.pick(&[STATE_FIRST, STATE_INDEXED]);
            state[mark] = *random.pick(&[0, 1, 1, 2, usize::MAX]);
        }
        8 => state[STATE_POSITION] = random.below(units + 1),
        9 => state[STATE_OPEN] = near(random, state[STATE_OPEN]),
        10 => deepen(random, units, state),
        _ => state[random.below(STATE)] = random.below(units + 3),
    }
}

/// Any number open, ends in order, the position somewhere before them.
fn deepen(random: &mut Random, units: usize, state: &mut State) {
    *state = [0; STATE];
    state[STATE_OPEN] = random.below(MAX_DEPTH + 1);
    let mut end = units;
    for slot in 0..state[STATE_OPEN] {
        end -= random.below(3).min(end);
        state[slot] = end;
    }
    state[STATE_POSITION] = random.below(end + 1);
    state[STATE_FIRST] = random.below(2);
    state[STATE_INDEXED] = random.below(2);
}
