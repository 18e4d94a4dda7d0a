//! 02, letter i: the walk in instalments.
//!
//! "Walk on by at most a stated number of items and hand back the state and the
//! number of items taken." 1 and 13 are asked before anything else, so for a
//! budget of 0 too; after that it is step by step.

use crate::form::Form;
use crate::refusal::Refusal;
use crate::walk::{step, Found, Walk};

/// Why an instalment is over.
#[derive(Clone, Copy, Debug, PartialEq, Eq)]
pub enum Pause {
    /// As many items as the budget allows were taken.
    Spent,
    End,
    Refused(Refusal),
}

/// The state behind the items, how many they are, and why it is over.
pub fn walk_on(state: Walk, stream: &[u8], form: Form, budget: usize) -> (Walk, usize, Pause) {
    if let Err(refusal) = state.check(stream, form) {
        return (state, 0, Pause::Refused(refusal));
    }
    let mut walk = state;
    for items in 0..budget {
        let (next, found) = step(walk, stream, form);
        match found {
            Found::Item { .. } => walk = next,
            Found::End => return (walk, items, Pause::End),
            Found::Refused { number, place } => {
                let refusal = Refusal { number, place };
                return (walk, items, Pause::Refused(refusal));
            }
        }
    }
    (walk, budget, Pause::Spent)
}

#[cfg(test)]
mod tests {
    use super::*;

    const TEXT: Form = Form::Text;

    fn refused(number: u8, place: usize) -> Pause {
        Pause::Refused(Refusal { number, place })
    }

    #[test]
    fn the_budget_exactly_then_the_end() {
        // A group, its item, and a number: three items.
        let stream = b"-AABMAAB1AAM";
        let (walk, items, pause) = walk_on(Walk::start(), stream, TEXT, 2);
        assert_eq!((walk.position, items, pause), (8, 2, Pause::Spent));
        let (walk, items, pause) = walk_on(walk, stream, TEXT, 1);
        assert_eq!((walk.position, items, pause), (12, 1, Pause::Spent));
        assert_eq!(walk_on(walk, stream, TEXT, 9), (walk, 0, Pause::End));
        let whole = walk_on(Walk::start(), stream, TEXT, usize::MAX);
        assert_eq!(whole, (walk, 3, Pause::End));
    }

    #[test]
    fn a_refusal_comes_with_the_items_before_it() {
        let stream = b"MAABMAABMQAA";
        let (walk, items, pause) = walk_on(Walk::start(), stream, TEXT, 5);
        assert_eq!((walk.position, items, pause), (8, 2, refused(8, 8)));
        // Not within a budget that is used up before it.
        let (_, items, pause) = walk_on(Walk::start(), stream, TEXT, 2);
        assert_eq!((items, pause), (2, Pause::Spent));
    }

    #[test]
    fn nothing_to_spend() {
        let start = Walk::start();
        assert_eq!(walk_on(start, b"MAAB", TEXT, 0), (start, 0, Pause::Spent));
        assert_eq!(walk_on(start, b"", TEXT, 0), (start, 0, Pause::Spent));
        let mut unfit = start;
        unfit.first = true;
        for budget in [0, 1, usize::MAX] {
            let told = walk_on(unfit, b"MAAB", TEXT, budget);
            assert_eq!(told, (unfit, 0, refused(13, 0)));
            let long = vec![b'A'; TEXT.limit() + 1];
            let told = walk_on(unfit, &long, TEXT, budget);
            assert_eq!(told, (unfit, 0, refused(1, 0)));
        }
    }
}
