//! Streams in pieces: the library beside the oracle, call by call, with room that
//! is short and then enough; the library beside its own report; and states that no
//! call gave.

use crate::demand;
use crate::judges::{self, by_proved, rooms, same, Check};
use beside::Fed;
use proved::{
    Given, Pieces, Refusal, MAX_DEPTH, PIECES, PIECES_COUNT, PIECES_HEADER, PIECES_HELD,
    PIECES_ITEMS, PIECES_LEAD, PIECES_NUMBER, PIECES_PHASE, PIECES_PLACE, PIECES_READ,
    PIECES_SCANS, PIECES_START, PIECES_TEXT, PIECES_UNIT, PIECES_WALK, STATE_FIRST, STATE_INDEXED,
    STATE_OPEN, STATE_POSITION,
};
use streams::cuts::{self, WAYS};
use streams::decks;
use streams::form::FORMS;
use streams::{Form, Random};

/// What the library is asked by.
struct Calls {
    start: fn() -> Pieces,
    fits: fn(&Pieces) -> bool,
    feed: Feed,
    end: End,
}

type Feed = fn(&mut Pieces, &[u8], &mut [u8], &mut [u8]) -> Result<Given, Refusal>;
type End = fn(&mut Pieces, &mut [u8]) -> Result<usize, Refusal>;

const TEXT: Calls = Calls {
    start: beside::start_text,
    fits: beside::fits_text,
    feed: proved::feed_text,
    end: proved::end_text,
};

const BINARY: Calls = Calls {
    start: beside::start_binary,
    fits: beside::fits_binary,
    feed: proved::feed_binary,
    end: proved::end_binary,
};

fn calls(form: Form) -> (&'static Calls, Fed) {
    match form {
        Form::Text => (&TEXT, Fed::text()),
        Form::Binary => (&BINARY, Fed::binary()),
    }
}

/// What a call left: its answer, both buffers and whether the state moved.
type Left<T> = (Result<T, (u8, usize)>, Vec<u8>, Vec<u8>, bool);

/// One piece with these rooms by both; the rows are the oracle's.
fn fed(
    form: Form,
    (state, told): (&mut Pieces, &mut Fed),
    piece: &[u8],
    [room, more]: [usize; 2],
) -> Result<Result<[Vec<u8>; 2], u8>, String> {
    let (calls, _) = calls(form);
    let before = *state;
    let was = told.clone();
    let buffers = || [vec![0xAA; room], vec![0xAA; more]];
    let ([mut items, mut refusals], [mut rows, mut refused]) = (buffers(), buffers());
    let ours = (calls.feed)(state, piece, &mut items, &mut refusals);
    let theirs = told.feed(piece, &mut rows, &mut refused);
    let left: Left<Given> = (by_proved(ours), items, refusals, before != *state);
    // An empty piece changes nothing; of others the oracle knows more afterwards.
    let expected: Left<Given> = (by_proved(theirs), rows, refused, was != *told);
    same("feed", &left, &expected)
        .map_err(|why| format!("{} bytes, rooms {room} and {more}, {why}", piece.len()))?;
    let (answer, mut rows, mut refused, _) = expected;
    Ok(match answer {
        Err((number, _)) => Err(number),
        Ok(given) => {
            rows.truncate(given.items);
            refused.truncate(given.refusals);
            Ok([rows, refused])
        }
    })
}

/// The pieces of a stream and its end by both. Now and then a piece has too little
/// room first, and then enough.
fn in_pieces(stream: &[u8], form: Form, lengths: &[usize], random: &mut Random) -> Check {
    let (calls, mut told) = calls(form);
    let mut state = (calls.start)();
    let mut joined = [vec![], vec![]];
    for piece in cuts::pieces(stream, lengths) {
        let trial = (&mut state.clone(), &mut told.clone());
        let enough = match fed(form, trial, piece, much(piece))? {
            Err(number) => return Err(format!("refused {number}")),
            Ok(rows) => rows.map(|rows| rows.len()),
        };
        if random.once_in(3) {
            short(form, (&mut state, &mut told), piece, enough, random)?;
        }
        let spare = 9 * random.below(2);
        let rooms = enough.map(|length| length + spare);
        let rows = fed(form, (&mut state, &mut told), piece, rooms)?;
        let rows = rows.map_err(|number| format!("refused {number}"))?;
        for (all, rows) in joined.iter_mut().zip(rows) {
            all.extend(rows);
        }
        if !(calls.fits)(&state) {
            return Err(format!("a state that does not fit: {state:?}"));
        }
    }
    let rest = ended(form, &mut state, &mut told)?;
    whole(stream, form, joined, rest)?;
    another_cut(stream, form, &state)
}

/// Room for the rows of a piece: every unit may end an item, with the one that is
/// held.
fn much(piece: &[u8]) -> [usize; 2] {
    [9 * (piece.len() / 3 + 1); 2]
}

/// Too little of either, or of both: 3, and nothing is taken in.
fn short(
    form: Form,
    (state, told): (&mut Pieces, &mut Fed),
    piece: &[u8],
    enough: [usize; 2],
    random: &mut Random,
) -> Check {
    let less = |random: &mut Random, length: usize| match length {
        0 => 0,
        _ => *random.pick(&[0, length - 1, length - 9, length - 1]),
    };
    let [items, refusals] = enough;
    for rooms in [
        [less(random, items), refusals],
        [items, less(random, refusals)],
        [less(random, items), less(random, refusals)],
    ] {
        let is_short = rooms != enough;
        let refused = fed(form, (&mut state.clone(), &mut told.clone()), piece, rooms)?;
        same("short", refused.err(), is_short.then_some(3))?;
        if is_short {
            // The call itself is made on the state that goes on.
            same("once more", fed(form, (state, told), piece, rooms)?, Err(3))?;
        }
    }
    Ok(())
}

/// The end in every room, and what comes after it: 13.
fn ended(form: Form, state: &mut Pieces, told: &mut Fed) -> Result<Vec<u8>, String> {
    let (calls, _) = calls(form);
    let length = told.clone().end(&mut [0; 5]).expect("room enough");
    let mut row = Vec::new();
    for room in rooms(length) {
        let (mut ours, mut theirs) = (vec![0xAA; room], vec![0xAA; room]);
        let (mut next, mut other) = (*state, told.clone());
        let answers = ((calls.end)(&mut next, &mut ours), other.end(&mut theirs));
        let moved = (next != *state, other != *told);
        same(
            "end",
            (answers.0, &ours, moved.0),
            (answers.1, &theirs, moved.1),
        )?;
        if room == length {
            row = theirs;
        }
    }
    let mut out = [0xAA; 9];
    same("end", (calls.end)(state, &mut out), told.end(&mut [0; 9]))?;
    for piece in [&b""[..], b"MAAB"] {
        let refused = fed(form, (state, told), piece, much(piece))?;
        same("after the end", refused, Err(13))?;
    }
    let (mut once, mut row_left) = (*state, [0xAA; 9]);
    let answers = ((calls.end)(&mut once, &mut row_left), told.end(&mut [0; 9]));
    same("end after the end", answers.0, answers.1)?;
    same("end after the end", (once, row_left), (*state, [0xAA; 9]))?;
    Ok(row)
}

/// Joined, the rows are those of the library's own report.
fn whole(stream: &[u8], form: Form, [items, refusals]: [Vec<u8>; 2], rest: Vec<u8>) -> Check {
    let mut report = vec![0; judges::report_room(stream, form)];
    let length = match form {
        Form::Text => proved::report_text(stream, &mut report),
        Form::Binary => proved::report_binary(stream, &mut report),
    };
    report.truncate(length.expect("a stream within the limit"));
    let count = |rows: &[u8], row: usize| (rows.len() / row) as u32;
    let mut joined = Vec::new();
    for (rows, row) in [(items, 9), (refusals, 9), (rest, 5)] {
        joined.extend(count(&rows, row).to_be_bytes());
        joined.extend(rows);
    }
    same("joined", joined, report)
}

/// The state says no more than what came: cut elsewhere it is the same.
fn another_cut(stream: &[u8], form: Form, state: &Pieces) -> Check {
    let (calls, _) = calls(form);
    let mut other = (calls.start)();
    let mut rows = [vec![0; 9 * stream.len()], vec![0; 9 * stream.len()]];
    let [items, refusals] = &mut rows;
    let given = (calls.feed)(&mut other, stream, items, refusals);
    given.expect("room enough");
    (calls.end)(&mut other, &mut [0; 5]).expect("room enough");
    same("another cut", *state, other)
}

/// Streams up to this length are cut into any number of pieces.
const SHORT: usize = 400;

/// A stream cut in the ways of this seed, and states made of those it came to.
pub fn alike(stream: &[u8], form: Form, seed: u64) -> Check {
    let mut random = Random::new(seed ^ 0xF);
    // The oracle judges all that came with every piece.
    let ways = match stream.len() {
        0..SHORT => [seed as usize, random.below(WAYS)],
        _ => [1, cuts::FEW],
    };
    for way in ways {
        let lengths = cuts::lengths(&mut random, stream.len(), form.unit(), way);
        in_pieces(stream, form, &lengths, &mut random)
            .map_err(|why| format!("{lengths:?}, {why}"))?;
    }
    made_up(stream, form, &mut random)
}

/// States that no call gave. 13 comes exactly to those that fail a condition; a
/// refused call leaves all as it was, and none writes more than it says.
fn made_up(stream: &[u8], form: Form, random: &mut Random) -> Check {
    let (calls, _) = calls(form);
    let (front, back) = stream.split_at(random.below(stream.len() + 1));
    let mut state = (calls.start)();
    let mut rows = vec![0; 9 * stream.len()];
    (calls.feed)(&mut state, front, &mut rows.clone(), &mut rows).expect("room enough");
    for _ in 0..6 {
        let mut made = state;
        for _ in 0..random.below(3) {
            violate(random, stream.len() / form.unit(), &mut made);
        }
        for form in FORMS {
            from_made_up(form, made, back).map_err(|why| format!("{made:?}, {why}"))?;
        }
        let of_both = beside::fits_text(&made) && beside::fits_binary(&made);
        same("of one form at most", of_both, false)?;
    }
    Ok(())
}

fn from_made_up(form: Form, made: Pieces, piece: &[u8]) -> Check {
    let (calls, _) = calls(form);
    let fits = (calls.fits)(&made);
    let limit = judges::oracle_form(form).limit();
    let is_long = fits && taken(&made, form) + piece.len() > limit;
    let mut state = made;
    let [room, _] = much(piece);
    let (mut items, mut refusals) = (vec![0xAA; room], vec![0xAA; room]);
    let answer = (calls.feed)(&mut state, piece, &mut items, &mut refusals);
    let number = answer.err().map(|refused| refused.number);
    let expected = match (fits, is_long) {
        (false, _) => Some(13),
        (true, long) => long.then_some(1),
    };
    same("number", number, expected)?;
    let Given {
        items: written,
        refusals: refused,
    } = answer.unwrap_or_default();
    let stays = |buffer: &[u8], from: usize| buffer[from..].iter().all(|byte| *byte == 0xAA);
    let left = (stays(&items, written), stays(&refusals, refused));
    same("behind the rows", left, (true, true))?;
    same("whole rows", (written % 9, refused % 9), (0, 0))?;
    if number.is_some() {
        same("refused", (state, written + refused), (made, 0))?;
    } else if !(calls.fits)(&state) {
        return Err(format!("a fit state became unfit: {state:?}"));
    }
    let (mut next, mut out) = (made, [0xAA; 6]);
    let answer = (calls.end)(&mut next, &mut out);
    match (fits, answer) {
        (
            false,
            Err(Refusal {
                number: 13,
                place: 0,
            }),
        ) => same("end", (next, out), (made, [0xAA; 6])),
        (true, Ok(length @ (0 | 5))) => same("behind the row", stays(&out, length), true),
        (_, answer) => Err(format!("end: {answer:?}, fits {fits}")),
    }
}

/// Elements taken in.
fn taken(state: &Pieces, form: Form) -> usize {
    state[PIECES_READ] * form.unit() + state[PIECES_COUNT]
}

/// One condition of 13 pushed at, or a change that leaves the state fit.
fn violate(random: &mut Random, units: usize, state: &mut Pieces) {
    let walk = |at: usize| PIECES_WALK + at;
    let near = |random: &mut Random, n: usize| (n + random.below(3)).saturating_sub(1);
    let open = state[walk(STATE_OPEN)].min(MAX_DEPTH);
    let limit = 1 << 20;
    let endless = (1 << 30) + 2;
    let huge = [usize::MAX, usize::MAX / 2, 1 << 32, 256, 255];
    match random.below(20) {
        0 => state[PIECES_UNIT] = *random.pick(&[0, 2, 3, 4, 5, usize::MAX]),
        1 => state[PIECES_PHASE] = *random.pick(&[0, 1, 2, 3, usize::MAX]),
        2 => state[walk(STATE_OPEN)] = *random.pick(&[0, 1, 64, 65, usize::MAX]),
        3 => state[walk(random.below(MAX_DEPTH))] = random.below(units + 2),
        4 if open > 0 => state[walk(STATE_POSITION)] = near(random, state[walk(open - 1)]),
        5 if open > 1 => state[walk(open - 1)] = near(random, state[walk(open - 2)]),
        6 => {
            let far = *random.pick(&[limit, limit + endless, limit + endless + 1, usize::MAX]);
            state[walk(if open > 0 { 0 } else { STATE_POSITION })] = far;
        }
        7 => state[walk(*random.pick(&[STATE_FIRST, STATE_INDEXED]))] = random.below(3),
        8 => state[PIECES_READ] = near(random, state[PIECES_READ]),
        9 => state[PIECES_READ] = *random.pick(&[limit - 1, limit, limit + 1, usize::MAX]),
        10 => state[PIECES_START] = near(random, state[PIECES_READ]),
        11 => state[PIECES_ITEMS] = near(random, state[PIECES_START]),
        12 => state[PIECES_PLACE] = near(random, 4 * state[PIECES_READ].min(limit) + 3),
        13 => state[PIECES_LEAD] = random.below(4),
        14 => state[*random.pick(&[PIECES_SCANS, PIECES_TEXT])] = random.below(3),
        15 => state[PIECES_NUMBER] = *random.pick(&[0, 4, 8, 21, 255, 256, usize::MAX]),
        16 => state[PIECES_COUNT] = random.below(6),
        17 => state[PIECES_HELD + random.below(4)] = *random.pick(&[0, 45, 255, 256]),
        18 => state[PIECES_HEADER + random.below(4)] = *random.pick(&[0, 63, 64, 255, 256]),
        _ => state[random.below(PIECES)] = *random.pick(&huge),
    }
}

/// Every cut into two of the papers' streams and of one of every number.
#[test]
fn every_cut_into_two() {
    for text in [
        &b"-AAB0AAAMAAB"[..],
        b"-AAC-_AAABAAMAAB-JAC-_AAABAA",
        b"--AAAAAAMAAB7AABAAAA4AABAAAA5BAA6BABAABh0JAA",
        b"-KAB2AAA-AABMQAAMAA!-AAB-AAB-AA",
        b"8AABAAAAAAA=MAAB_AAAMAAB",
        b"-_AAACAA-_AAABAA",
    ] {
        for form in FORMS {
            let whole = form.of_text(text);
            demand(&whole, form, |stream| {
                for cut in 0..=stream.len() {
                    let mut random = Random::new(cut as u64);
                    let lengths = [cut, stream.len() - cut];
                    in_pieces(stream, form, &lengths, &mut random)?;
                }
                Ok(())
            });
        }
    }
}

/// Long decks by pieces of one byte and of 64 KiB, beside the library's own
/// report, and the limit passed by one byte.
#[test]
fn up_to_the_limit() {
    let mut random = Random::new(0xF11);
    for make in [decks::digests, decks::nests, decks::labels] {
        let long = make(&mut random, 4_194_304 + 64);
        for form in FORMS {
            let limit = judges::oracle_form(form).limit();
            let made = form.of_text(&long);
            for size in [1, 3, 65_536] {
                to_the_limit(&made[..limit], form, size).unwrap();
            }
        }
    }
}

fn to_the_limit(stream: &[u8], form: Form, size: usize) -> Check {
    let (calls, _) = calls(form);
    let mut state = (calls.start)();
    let mut joined = [vec![], vec![]];
    let room = 9 * (size / form.unit() + 1);
    let (mut items, mut refusals) = (vec![0; room], vec![0; room]);
    for piece in stream.chunks(size) {
        let given = (calls.feed)(&mut state, piece, &mut items, &mut refusals);
        let given = given.map_err(|refused| format!("{refused:?}"))?;
        joined[0].extend(&items[..given.items]);
        joined[1].extend(&refusals[..given.refusals]);
    }
    let before = state;
    let answer = (calls.feed)(&mut state, b"A", &mut items, &mut refusals);
    let number = answer.err().map(|refused| refused.number);
    same("one more", (number, state), (Some(1), before))?;
    let mut rest = vec![0; 5];
    let length = (calls.end)(&mut state, &mut rest).expect("room enough");
    rest.truncate(length);
    whole(stream, form, joined, rest)
}

/// An item as long as the limit allows, element by element: nothing is told before
/// its last one.
#[test]
fn one_item_of_the_limit() {
    let units = (1 << 20) - 2;
    let head = streams::form::characters(units as u32);
    for code in [&b"--AA"[..], b"7AAB"] {
        let text = [code, &head, &b"1AAK".repeat(units)].concat();
        for form in FORMS {
            let stream = form.of_text(&text);
            let (calls, _) = calls(form);
            let mut state = (calls.start)();
            let (last, front) = stream.split_last().expect("a long stream");
            for element in front.chunks(1) {
                let given = (calls.feed)(&mut state, element, &mut [], &mut []);
                assert_eq!(given, Ok(Given::default()));
            }
            let given = (calls.feed)(&mut state, &[*last], &mut [0; 9], &mut []);
            let (items, refusals) = (9, 0);
            assert_eq!(given, Ok(Given { items, refusals }));
            assert_eq!((calls.end)(&mut state, &mut []), Ok(0));
        }
    }
}
