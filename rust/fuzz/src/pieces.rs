//! A stream in pieces before both, and a state that no call gave before the
//! library alone, of which the conditions of 13 are known.

use crate::calls::{Memory, HELD};
use crate::fence::Edge;
use crate::input::{Front, Room};
use beside::Fed;
use proved::{Given, Pieces, Refusal, PIECES};
use streams::cuts::pieces;
use streams::Form;

/// How the stream is cut, the rooms of both buffers, and what is damaged.
pub struct Cut {
    lengths: Vec<usize>,
    rooms: [Room; 2],
    /// A number of the state put in the place of another, before this piece.
    damage: Option<(usize, usize, usize)>,
}

impl Front<'_> {
    /// The room of refusals, how many pieces there are before the last, their
    /// lengths, and, if the second byte's highest bit is set, the piece before which
    /// the state is damaged, where, and the number that it gets.
    pub fn cut(&mut self, items: Room) -> Cut {
        let rooms = [items, self.room()];
        let count = self.byte();
        let lengths = (0..count & 15).map(|_| usize::from(self.byte()));
        let lengths = lengths.collect();
        let damage = (count > 127).then(|| {
            let (piece, place) = (usize::from(self.byte()), usize::from(self.byte()));
            (piece, place % PIECES, self.number())
        });
        Cut {
            lengths,
            rooms,
            damage,
        }
    }
}

type Feed = fn(&mut Pieces, &[u8], &mut [u8], &mut [u8]) -> Result<Given, Refusal>;
type End = fn(&mut Pieces, &mut [u8]) -> Result<usize, Refusal>;

/// The library's calls of a form, and the conditions of 13.
struct Calls {
    feed: Feed,
    end: End,
    fits: fn(&Pieces) -> bool,
}

fn calls(form: Form) -> (Calls, Pieces, Fed) {
    match form {
        Form::Text => {
            let calls = Calls {
                feed: proved::feed_text,
                end: proved::end_text,
                fits: beside::fits_text,
            };
            (calls, beside::start_text(), Fed::text())
        }
        Form::Binary => {
            let calls = Calls {
                feed: proved::feed_binary,
                end: proved::end_binary,
                fits: beside::fits_binary,
            };
            (calls, beside::start_binary(), Fed::binary())
        }
    }
}

/// All pieces and the end. Where a piece has too little room it comes again with
/// enough.
pub fn fed(memory: &mut Memory, form: Form, cut: &Cut, stream: &[u8]) {
    let mut lengths = cut.lengths.clone();
    lengths.push(stream.len());
    let (calls, mut state, mut told) = calls(form);
    for (index, piece) in pieces(stream, &lengths).into_iter().enumerate() {
        if let Some((_, place, number)) = cut.damage.filter(|(at, ..)| *at == index) {
            state[place] = number;
            return unknown(memory, &calls, form, state, piece);
        }
        let much = [9 * (piece.len() / 3 + 1); 2];
        let (mut rows, mut refused) = (vec![0; much[0]], vec![0; much[1]]);
        let given = told.clone().feed(piece, &mut rows, &mut refused);
        let given = given.expect("room enough");
        let [items, refusals] = cut.rooms;
        let rooms = [items.of(given.items), refusals.of(given.refusals)];
        let enough = [given.items, given.refusals];
        if !one(memory, &calls, (&mut state, &mut told), piece, rooms) {
            assert!(one(memory, &calls, (&mut state, &mut told), piece, enough));
        }
        assert!((calls.fits)(&state));
    }
    for room in [cut.rooms[0].of(5), 5, 9] {
        ended(memory, &calls, &mut state, &mut told, room);
    }
    assert!(!one(
        memory,
        &calls,
        (&mut state, &mut told),
        b"MAAB",
        [9, 9]
    ));
}

/// One piece before both, on the same rooms; was it taken in?
fn one(
    memory: &mut Memory,
    calls: &Calls,
    (state, told): (&mut Pieces, &mut Fed),
    piece: &[u8],
    [room, more]: [usize; 2],
) -> bool {
    let edge = memory.edge;
    let source = memory.stream.lend(edge, piece.len(), 0);
    source.copy_from_slice(piece);
    let items = memory.out.lend(edge, room, HELD);
    let refusals = memory.work.lend(edge, more, HELD);
    let placed = memory.state.numbers(edge, *state);
    let (mut rows, mut refused) = (vec![HELD; room], vec![HELD; more]);
    let answer = (calls.feed)(placed, source, items, refusals);
    assert_eq!(answer, told.feed(piece, &mut rows, &mut refused));
    assert_eq!((&*items, &*refusals), (&rows[..], &refused[..]));
    assert_eq!(source, piece);
    if answer.is_err() || piece.is_empty() {
        assert_eq!(placed, state);
    }
    *state = *placed;
    answer.is_ok()
}

fn ended(memory: &mut Memory, calls: &Calls, state: &mut Pieces, told: &mut Fed, room: usize) {
    let edge = memory.edge;
    let out = memory.out.lend(edge, room, HELD);
    let placed = memory.state.numbers(edge, *state);
    let mut row = vec![HELD; room];
    let answer = (calls.end)(placed, out);
    assert_eq!(answer, told.end(&mut row));
    assert_eq!(out, row);
    assert!(answer.is_ok() || placed == state);
    *state = *placed;
}

/// A state that no call gave: 13 exactly where a condition fails; refused, all
/// stays; a state that fits still does afterwards.
fn unknown(memory: &mut Memory, calls: &Calls, form: Form, state: Pieces, piece: &[u8]) {
    let edge = memory.edge;
    let source = memory.stream.lend(edge, piece.len(), 0);
    source.copy_from_slice(piece);
    let room = 9 * (piece.len() / form.unit() + 1);
    let items = memory.out.lend(edge, room, HELD);
    let refusals = memory.work.lend(edge, room, HELD);
    let placed = memory.state.numbers(edge, state);
    let answer = (calls.feed)(placed, source, items, refusals);
    let number = answer.err().map(|refused| refused.number);
    assert_eq!(number == Some(13), !(calls.fits)(&state), "{state:?}");
    assert!(matches!(number, None | Some(1 | 13)));
    let given = answer.unwrap_or_default();
    let stays = |buffer: &[u8], from: usize| buffer[from..].iter().all(|byte| *byte == HELD);
    assert!(stays(items, given.items) && stays(refusals, given.refusals));
    match answer {
        Ok(_) => assert!((calls.fits)(placed), "{state:?}"),
        Err(_) => assert_eq!((*placed, given), (state, Given::default())),
    }
    end_of_unknown(memory, calls, edge, state);
}

fn end_of_unknown(memory: &mut Memory, calls: &Calls, edge: Edge, state: Pieces) {
    let out = memory.out.lend(edge, 6, HELD);
    let placed = memory.state.numbers(edge, state);
    match (calls.end)(placed, out) {
        Ok(length) => {
            assert!((calls.fits)(&state) && (length == 0 || length == 5));
            assert!(out[length..].iter().all(|byte| *byte == HELD));
            assert!(!(calls.fits)(placed));
        }
        Err(refused) => {
            assert_eq!((refused.number, refused.place), (13, 0));
            assert!(!(calls.fits)(&state) && *placed == state);
            assert_eq!(out, [HELD; 6]);
        }
    }
}
