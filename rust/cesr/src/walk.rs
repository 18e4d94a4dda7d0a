//! The walk through a stream's items at all depths, item by item or in
//! instalments.

use crate::{read, Form, Head, Number, Refusal};
use proved::STATE;

/// The walk's state between two steps: the ends of the open groups, 64 at
/// most, outermost first, unused ones 0; the number open; the position; whether the
/// next item is first in an overrideable group, and whether the innermost open
/// group holds indexed items, each 0 or 1. Ends and position count units, so the
/// same stream has the same states in both forms.
///
/// The default is the start of every stream. A state that is unfit for its
/// stream is refused 13 by the next step.
#[derive(Clone, Copy, Debug, PartialEq, Eq, Hash)]
pub struct State(proved::State);

/// The length of a saved [`State`].
pub const STATE_BYTES: usize = STATE * NUMBER;

/// Bytes of a number in a saved state.
const NUMBER: usize = 8;

impl Default for State {
    fn default() -> State {
        State([0; STATE])
    }
}

impl State {
    /// A state by its numbers.
    pub const fn new(numbers: [usize; STATE]) -> State {
        State(numbers)
    }

    /// At so many units, with no group open.
    pub(crate) fn at(units: usize) -> State {
        let mut numbers = [0; STATE];
        let [.., position, _, _] = &mut numbers;
        *position = units;
        State(numbers)
    }

    /// The state's numbers.
    pub const fn numbers(&self) -> &[usize; STATE] {
        &self.0
    }

    /// The state to be saved: its numbers, big-endian, eight bytes each. It
    /// names neither the stream nor its form, which who saves it has to keep.
    ///
    /// ```
    /// use cesr::{Form, State, Walk};
    /// let mut walk = Walk::new(Form::Text, b"-AABMAAB1AAM");
    /// walk.next();
    /// let saved = walk.state().to_bytes();
    /// let mut later = Walk::resumed(Form::Text, b"-AABMAAB1AAM", State::from_bytes(&saved));
    /// assert_eq!(later.next(), walk.next());
    /// ```
    pub fn to_bytes(&self) -> [u8; STATE_BYTES] {
        let mut bytes = [0; STATE_BYTES];
        for (place, number) in bytes.chunks_exact_mut(NUMBER).zip(self.0) {
            place.copy_from_slice(&(number as u64).to_be_bytes());
        }
        bytes
    }

    /// A saved state. Any bytes are one; those that fit the stream badly are
    /// refused 13 by the next call over it, whatever it is asked to do.
    ///
    /// ```
    /// use cesr::{Form, Number, Pause, State, Walk, STATE_BYTES};
    /// let state = State::from_bytes(&[7; STATE_BYTES]);
    /// let pause = Walk::resumed(Form::Text, b"MAAB", state).walk_on(0).pause;
    /// assert!(matches!(pause, Pause::Refused(refusal) if refusal.number == Number::UnfitState));
    /// ```
    pub fn from_bytes(bytes: &[u8; STATE_BYTES]) -> State {
        let mut numbers = [0; STATE];
        for (number, place) in numbers.iter_mut().zip(bytes.chunks_exact(NUMBER)) {
            let wide = place
                .iter()
                .fold(0, |high, byte| high << 8 | u64::from(*byte));
            *number = usize::try_from(wide).unwrap_or(usize::MAX);
        }
        State(numbers)
    }
}

/// Why an instalment is over.
#[derive(Clone, Copy, Debug, PartialEq, Eq)]
pub enum Pause {
    /// The budget was taken whole. There may be more.
    Spent,
    /// The stream's end came first.
    End,
    /// A refusal came first.
    Refused(Refusal),
}

/// What [`Walk::walk_on`] took.
#[derive(Clone, Copy, Debug, PartialEq, Eq)]
pub struct Instalment {
    /// How many items, which is the budget exactly unless the end or a refusal
    /// came first.
    pub items: usize,
    /// Why it is over.
    pub pause: Pause,
}

/// An item that the walk yields.
#[derive(Clone, Copy, Debug, PartialEq, Eq)]
pub struct Step {
    /// Where it starts.
    pub offset: usize,
    /// Its full size, contents and all.
    pub size: usize,
    /// The number of groups it stands within.
    pub depth: usize,
    /// Its code and lead.
    pub head: Head,
}

/// Items at all depths, outer before inner, up to the end or the first
/// refusal, which is yielded last.
///
/// A signature group (`-K`, `-L`) is opened as any other; its items are indexed
/// ones, with a [`Code::Indexed`](crate::Code::Indexed).
///
/// ```
/// use cesr::{Form, Walk};
/// let steps: Result<Vec<_>, _> = Walk::new(Form::Text, b"-AABMAAB1AAM").collect();
/// let seen: Vec<_> = steps?
///     .iter()
///     .map(|step| (step.offset, step.depth, step.head.to_string()))
///     .collect();
/// let told = [(0, 0, "-A"), (4, 1, "M"), (8, 0, "1AAM")];
/// assert_eq!(seen, told.map(|(at, depth, code)| (at, depth, code.to_string())));
/// # Ok::<(), cesr::Refusal>(())
/// ```
#[derive(Clone, Debug)]
pub struct Walk<'s> {
    form: Form,
    stream: &'s [u8],
    state: State,
    done: bool,
}

impl<'s> Walk<'s> {
    /// A walk from the stream's start.
    pub fn new(form: Form, stream: &'s [u8]) -> Walk<'s> {
        Walk::resumed(form, stream, State::default())
    }

    /// A walk that goes on from a state.
    ///
    /// ```
    /// use cesr::{Form, Walk};
    /// let mut walk = Walk::new(Form::Text, b"MAAB1AAM");
    /// walk.next();
    /// let mut later = Walk::resumed(Form::Text, b"MAAB1AAM", walk.state());
    /// assert_eq!(later.next(), walk.next());
    /// ```
    pub fn resumed(form: Form, stream: &'s [u8], state: State) -> Walk<'s> {
        Walk {
            form,
            stream,
            state,
            done: false,
        }
    }

    /// The state behind the last item yielded or taken. A refusal leaves it as
    /// it was.
    pub fn state(&self) -> State {
        self.state
    }

    /// Walks on by at most so many items in one call, and yields none of them:
    /// what is left of the budget when the end or a refusal comes is not
    /// spent. Two calls come to where one of both budgets does.
    ///
    /// ```
    /// use cesr::{Form, Pause, Walk};
    /// let mut walk = Walk::new(Form::Text, b"-AABMAAB1AAMMQAA");
    /// let slice = walk.walk_on(2);
    /// assert_eq!((slice.items, slice.pause), (2, Pause::Spent));
    /// // The third item by itself, then what refuses the walk.
    /// assert_eq!(walk.next().map(|step| step.map(|step| step.offset)), Some(Ok(8)));
    /// let slice = walk.walk_on(1000);
    /// assert_eq!(slice.items, 0);
    /// assert!(matches!(slice.pause, Pause::Refused(refusal) if refusal.place == 12));
    /// ```
    pub fn walk_on(&mut self, budget: usize) -> Instalment {
        let state = &mut self.state.0;
        let taken = match self.form {
            Form::Text => proved::walk_on_text(self.stream, state, budget),
            Form::Binary => proved::walk_on_binary(self.stream, state, budget),
        };
        let pause = match taken.pause {
            proved::Pause::Spent => Pause::Spent,
            proved::Pause::End => Pause::End,
            proved::Pause::Refused(refusal) => Pause::Refused(refusal.into()),
        };
        self.done = pause != Pause::Spent;
        Instalment {
            items: taken.items,
            pause,
        }
    }
}

impl Iterator for Walk<'_> {
    type Item = Result<Step, Refusal>;

    fn next(&mut self) -> Option<Result<Step, Refusal>> {
        if self.done {
            return None;
        }
        let mut item = [0; 6];
        let state = &mut self.state.0;
        let answer = match self.form {
            Form::Text => proved::walk_text(self.stream, state, &mut item),
            Form::Binary => proved::walk_binary(self.stream, state, &mut item),
        };
        self.done = answer != Ok(true);
        match answer {
            Ok(true) => Some(Ok(Step::of(item))),
            Ok(false) => None,
            Err(refusal) => Some(Err(refusal.into())),
        }
    }
}

impl core::iter::FusedIterator for Walk<'_> {}

impl Step {
    fn of(item: proved::Item) -> Step {
        let [offset, size, depth, chars, letter, last] = item;
        Step {
            offset,
            size,
            depth,
            head: Head::walked(chars, letter, last),
        }
    }
}

/// The item of any kind at an offset, as it would stand within one group that
/// ends with the stream: a primitive is framed and judged, a group is framed
/// and judged by its code (18), its contents are not looked at, and a
/// genus/version of any version is an item. Its depth is then 1. What stands
/// within a signature group is read by another table, see
/// [`read_indexed`](crate::read_indexed).
///
/// # Errors
///
/// 1, 4 at or past the end, then as it is framed and judged, 7 excepted.
///
/// ```
/// use cesr::{item_at, Form, Number};
/// let group = item_at(Form::Text, b"MAAB-AABMQAA", 4)?;
/// assert_eq!((group.head.to_string().as_str(), group.size), ("-A", 8));
/// let refusal = item_at(Form::Text, b"MAAB-AABMQAA", 8).unwrap_err();
/// assert_eq!((refusal.number, refusal.place), (Number::NotZero, 8));
/// # Ok::<(), cesr::Refusal>(())
/// ```
pub fn item_at(form: Form, stream: &[u8], at: usize) -> Result<Step, Refusal> {
    match read(form, stream, at) {
        Ok(found) => Ok(Step {
            offset: at,
            size: found.size,
            depth: 1,
            head: found.head,
        }),
        Err(refusal) if refusal.number == Number::NotAPrimitive => {
            within_a_group(form, stream, at).unwrap_or(Err(refusal))
        }
        Err(refusal) => Err(refusal),
    }
}

/// One step over the rest of the stream, from a state with one group open that
/// takes all of it.
fn within_a_group(form: Form, stream: &[u8], at: usize) -> Option<Result<Step, Refusal>> {
    let rest = stream.get(at..)?;
    let mut numbers = [0; STATE];
    let [end, .., open, _, _, _] = &mut numbers;
    *end = form.units(rest.len());
    *open = 1;
    let answer = Walk::resumed(form, rest, State(numbers)).next()?;
    Some(match answer {
        Ok(step) => Ok(Step {
            offset: at.saturating_add(step.offset),
            ..step
        }),
        Err(refusal) => Err(Refusal {
            place: at.saturating_add(refusal.place),
            ..refusal
        }),
    })
}
