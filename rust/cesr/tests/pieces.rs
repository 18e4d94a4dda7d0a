//! A judge that is fed, beside the whole report and beside the oracle.

use cesr::{judge, Form, Live, Number, Pieces, PIECES, PIECES_BYTES};
use oracle::pieces::Pieces as Oracle;
use streams::cuts::{lengths, pieces, WAYS};
use streams::generate::any_deck;
use streams::item::stream;
use streams::{damage, Random};

fn made(random: &mut Random, form: Form) -> Vec<u8> {
    let form = match form {
        Form::Text => streams::Form::Text,
        Form::Binary => streams::Form::Binary,
    };
    let mut made = form.of_text(&stream(&any_deck(random, 5)));
    if random.once_in(2) {
        damage(random, form, &mut made);
    }
    made
}

const FORMS: [Form; 2] = [Form::Text, Form::Binary];

#[test]
fn the_end_gives_the_whole_report() {
    let mut random = Random::new(0xFED);
    for seed in 0..2000 {
        let form = FORMS[seed % 2];
        let made = made(&mut random, form);
        let cut = lengths(&mut random, made.len(), form.unit(), seed % WAYS);
        let mut live = Live::new(form);
        let (mut items, mut refusals) = (Vec::new(), Vec::new());
        for piece in pieces(&made, &cut) {
            let told = live.feed(piece).expect("within the limit");
            assert_eq!(told.is_empty(), told.items().len() == 0);
            items.extend(told.items());
            refusals.extend(told.refusals());
        }
        let told = live.told();
        assert!(told.items().eq(items.iter().copied()));
        assert!(told.refusals().eq(refusals.iter().copied()));
        assert_eq!(live.pieces().items(), items.len());
        assert_eq!(live.pieces().taken(), made.len());
        let whole = judge(form, &made).expect("within the limit");
        assert!(whole.items().eq(items) && whole.refusals().eq(refusals));
        assert_eq!(live.end(), Ok(whole));
    }
}

/// The rows of each piece are the oracle's, and rooms by `Pieces::room` enough.
#[test]
fn rooms_and_rows() {
    let mut random = Random::new(0x200F);
    for seed in 0..500 {
        let form = FORMS[seed % 2];
        let made = made(&mut random, form);
        let mut told = Oracle::start([oracle::Form::Text, oracle::Form::Binary][seed % 2]);
        let mut state = Pieces::new(form);
        assert_eq!(state.form(), form);
        let cut = lengths(&mut random, made.len(), form.unit(), seed);
        for piece in pieces(&made, &cut) {
            let room = Pieces::room(form, piece.len());
            let (mut items, mut refusals) = (vec![7; room], vec![7; room]);
            let (mut rows, mut refused) = (items.clone(), refusals.clone());
            let given = state.feed_into(piece, &mut items, &mut refusals);
            let given = given.expect("room enough");
            let counts = (9 * given.items().len(), 9 * given.refusals().len());
            assert_eq!(told.feed(piece, &mut rows, &mut refused), Ok(counts));
            assert_eq!((items, refusals), (rows, refused));
            state = Pieces::from_bytes(&state.to_bytes());
        }
        let rest = state.end().expect("not ended before");
        assert_eq!(rest.is_some(), told.end(&mut [0; 5]) == Ok(5));
        assert_eq!(state.end().map_err(|r| r.number), Err(Number::UnfitState));
    }
}

#[test]
fn refused_calls_take_nothing_in() {
    let mut state = Pieces::new(Form::Text);
    let before = state;
    let (mut items, mut refusals) = ([0; 18], [0; 9]);
    let refused = state.feed_into(b"MAABMQAA", &mut items, &mut refusals[..8]);
    assert_eq!(refused.map_err(|r| r.number), Err(Number::Room));
    assert_eq!(state, before);
    let told = state.feed_into(b"MAABMQAA", &mut items, &mut refusals);
    assert_eq!(told.map(|told| told.items().len()), Ok(2));
    // A state that no call gave.
    for state in [
        Pieces::from_numbers([7; PIECES]),
        Pieces::from_numbers([0; PIECES]),
        Pieces::from_bytes(&[0xFF; PIECES_BYTES]),
    ] {
        let mut unfit = state;
        let refused = unfit.feed_into(b"", &mut [], &mut []);
        assert_eq!(refused.map_err(|r| r.number), Err(Number::UnfitState));
        assert!(unfit.end().is_err() && unfit == state);
    }
}

/// The piece that passes the limit is refused, and what came before stands.
#[test]
fn the_limit() {
    for form in FORMS {
        let unit = [&b"1AAK"[..], b"\xD4\x00\x0A"][usize::from(form == Form::Binary)];
        let whole = unit.repeat(form.limit() / unit.len());
        let mut live = Live::new(form);
        live.feed(&whole[1..]).expect("within the limit");
        let before = live.clone();
        let refused = live.feed(b"AA").map_err(|refusal| refusal.number);
        assert_eq!(refused, Err(Number::TooLong));
        assert_eq!(live, before);
        assert!(live.feed(b"A").is_ok());
        assert!(live.end().is_ok());
    }
}

#[cfg(feature = "std")]
mod written {
    use super::*;
    use std::io::{self, Read, Write};

    #[test]
    fn anything_can_be_copied_to_it() {
        let mut live = Live::new(Form::Text);
        live.write_all(b"MA").expect("taken");
        live.flush().expect("nothing to flush");
        let copied = io::copy(&mut &b"ABMQAA-"[..], &mut live).expect("taken");
        assert_eq!(copied, 7);
        let report = live.end().expect("not ended before");
        assert_eq!(Ok(report), judge(Form::Text, b"MAABMQAA-"));
    }

    #[test]
    fn an_error_has_the_refusal() {
        let mut live = Live::new(Form::Binary);
        let mut endless = io::repeat(0).take(1 << 30);
        let error = io::copy(&mut endless, &mut live).expect_err("past the limit");
        let refusal = error.get_ref().and_then(|inner| inner.downcast_ref());
        let refusal: Option<&cesr::Refusal> = refusal;
        assert_eq!(refusal.map(|one| one.number), Some(Number::TooLong));
    }
}
