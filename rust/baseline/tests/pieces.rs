//! Streams in pieces: beside the oracle, piece by piece, and beside the whole
//! report.

use baseline::Pieces;
use oracle::Form as Judge;
use streams::cuts::{lengths, pieces, FEW, WAYS};
use streams::damage::damage;
use streams::decks::{digests, labels, nests};
use streams::form::FORMS;
use streams::generate::{any_deck, any_signatures_deck, not_short_deck};
use streams::item::stream;
use streams::noise::noise;
use streams::{shrink, Form, Random};

fn forms(form: Form) -> (baseline::Form, Judge) {
    match form {
        Form::Text => (baseline::Form::Text, Judge::Text),
        Form::Binary => (baseline::Form::Binary, Judge::Binary),
    }
}

/// Are the rows of every piece, and of the end, the oracle's?
fn alike(made: &[u8], form: Form, cut: &[usize]) -> bool {
    let (own, judge) = forms(form);
    let (mut ours, mut theirs) = (Pieces::new(own), oracle::pieces::Pieces::start(judge));
    for piece in pieces(made, cut) {
        let (mut items, mut refusals) = (Vec::new(), Vec::new());
        let answer = ours.feed(piece, &mut items, &mut refusals);
        let room = 9 * (piece.len() / 3 + 1);
        let (mut rows, mut refused) = (vec![0; room], vec![0; room]);
        let told = theirs.feed(piece, &mut rows, &mut refused);
        let (n, m) = told.expect("within the limit");
        if answer.is_err() || items != rows[..n] || refusals != refused[..m] {
            return false;
        }
    }
    let mut row = vec![0; 5];
    let length = theirs.end(&mut row).expect("room enough");
    row.truncate(length);
    let rest = ours.end().expect("not ended before");
    let told =
        rest.map(|(offset, number)| [&(offset as u32).to_be_bytes()[..], &[number]].concat());
    told.unwrap_or_default() == row && ours.end().is_err()
}

fn assert_alike(made: &[u8], form: Form, seed: u64, what: &str) {
    // The oracle judges all that came with every piece.
    let way = if made.len() < 400 { seed as usize } else { FEW };
    let cut = |made: &[u8]| lengths(&mut Random::new(seed), made.len(), form.unit(), way);
    if !alike(made, form, &cut(made)) {
        let small = shrink(made, form, |s| !alike(s, form, &cut(s)));
        panic!("{what}: {form:?} {small:02X?} {:?}", cut(&small));
    }
}

#[test]
fn on_any_streams() {
    let mut random = Random::new(0xF1E);
    for seed in 0..20_000 {
        for form in FORMS {
            let items = match seed % 8 {
                0 => any_signatures_deck(&mut random),
                1 => not_short_deck(&mut random),
                _ => any_deck(&mut random, 5),
            };
            let mut made = match seed % 16 {
                15 => noise(&mut random, form, 90),
                _ => form.of_text(&stream(&items)),
            };
            if seed % 3 > 0 {
                damage(&mut random, form, &mut made);
            }
            assert_alike(&made, form, seed, "any");
        }
    }
}

/// In every way of cutting, with strangers, and one byte past the limit.
#[test]
fn on_long_decks() {
    let mut random = Random::new(0xF10);
    for make in [digests, nests, labels] {
        let mut text = make(&mut random, 40_000);
        for strangers in 0..3 {
            for form in FORMS {
                let made = form.of_text(&text);
                for way in 0..WAYS {
                    let cut = lengths(&mut random, made.len(), form.unit(), way);
                    joined(&made, form, &cut);
                }
            }
            for _ in 0..strangers {
                let place = random.below(text.len());
                text[place] = *random.pick(b"=+\n");
            }
        }
    }
}

/// The rows of all pieces are those of the whole report.
fn joined(made: &[u8], form: Form, cut: &[usize]) {
    let (own, _) = forms(form);
    let mut fed = Pieces::new(own);
    let (mut items, mut refusals) = (Vec::new(), Vec::new());
    for piece in pieces(made, cut) {
        fed.feed(piece, &mut items, &mut refusals).expect("taken");
    }
    let rest = fed.end().expect("not ended before");
    let rest =
        rest.map(|(offset, number)| [&(offset as u32).to_be_bytes()[..], &[number]].concat());
    let mut report = Vec::new();
    for (rows, row) in [(items, 9), (refusals, 9), (rest.unwrap_or_default(), 5)] {
        report.extend((rows.len() as u32 / row).to_be_bytes());
        report.extend(rows);
    }
    assert!(baseline::report(made, own) == Ok(report), "{form:?}");
}

#[test]
fn the_limit() {
    for form in FORMS {
        let (own, judge) = forms(form);
        let mut fed = Pieces::new(own);
        let (mut items, mut refusals) = (Vec::new(), Vec::new());
        let whole = vec![0xFF; judge.limit()];
        let mut feed = |fed: &mut Pieces, piece: &[u8]| fed.feed(piece, &mut items, &mut refusals);
        assert_eq!(feed(&mut fed, &whole), Ok(()));
        assert_eq!(feed(&mut fed, b""), Ok(()));
        let number = feed(&mut fed, b"A").map_err(|refused| refused.number);
        assert_eq!(number, Err(1));
        assert!(fed.end().is_ok_and(|rest| rest.is_some()));
        let number = feed(&mut fed, b"").map_err(|refused| refused.number);
        assert_eq!(number, Err(13));
    }
}
