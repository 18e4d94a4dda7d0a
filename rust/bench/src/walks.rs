//! The tables of the walk: a deck by instalments of 1 and 64 items and without
//! bound, and step by step. All tell the same number of items.

use crate::race::{Contender, Race, Rate, REFUSED};
use crate::reports::DECKS;
use proved::{Instalment, State, STATE};
use streams::{Form, Random};

const ALL: usize = usize::MAX;

#[rustfmt::skip]
static TEXT: &[Contender] = &[
    contender("baseline 1", baseline_text::<1>),
    contender("baseline 64", baseline_text::<64>),
    contender("baseline all", baseline_text::<ALL>),
    contender("proved 1", proved_text::<1>),
    contender("proved 64", proved_text::<64>),
    contender("proved all", proved_text::<ALL>),
    contender("proved steps", |text, out| steps(proved::walk_text, text, out)),
];

#[rustfmt::skip]
static BINARY: &[Contender] = &[
    contender("baseline 1", baseline_binary::<1>),
    contender("baseline 64", baseline_binary::<64>),
    contender("baseline all", baseline_binary::<ALL>),
    contender("proved 1", proved_binary::<1>),
    contender("proved 64", proved_binary::<64>),
    contender("proved all", proved_binary::<ALL>),
    contender("proved steps", |binary, out| steps(proved::walk_binary, binary, out)),
];

const fn contender(name: &'static str, call: fn(&[u8], &mut [u8]) -> usize) -> Contender {
    Contender { name, call }
}

fn baseline_text<const BUDGET: usize>(text: &[u8], out: &mut [u8]) -> usize {
    by_baseline(baseline::Form::Text, BUDGET, text, out)
}

fn baseline_binary<const BUDGET: usize>(binary: &[u8], out: &mut [u8]) -> usize {
    by_baseline(baseline::Form::Binary, BUDGET, binary, out)
}

fn proved_text<const BUDGET: usize>(text: &[u8], out: &mut [u8]) -> usize {
    by_proved(proved::walk_on_text, BUDGET, text, out)
}

fn proved_binary<const BUDGET: usize>(binary: &[u8], out: &mut [u8]) -> usize {
    by_proved(proved::walk_on_binary, BUDGET, binary, out)
}

fn by_baseline(form: baseline::Form, budget: usize, stream: &[u8], out: &mut [u8]) -> usize {
    let (mut walk, mut items) = (baseline::Walk::default(), 0);
    loop {
        let (taken, pause) = walk.walk_on(stream, form, budget);
        items += taken;
        match pause {
            baseline::Pause::Spent => {}
            baseline::Pause::End => return tell(items, out),
            baseline::Pause::Refused(_) => return REFUSED,
        }
    }
}

type WalkOn = fn(&[u8], &mut State, usize) -> Instalment;

fn by_proved(call: WalkOn, budget: usize, stream: &[u8], out: &mut [u8]) -> usize {
    let (mut state, mut items) = ([0; STATE], 0);
    loop {
        let slice = call(stream, &mut state, budget);
        items += slice.items;
        match slice.pause {
            proved::Pause::Spent => {}
            proved::Pause::End => return tell(items, out),
            proved::Pause::Refused(_) => return REFUSED,
        }
    }
}

type Walk = fn(&[u8], &mut State, &mut proved::Item) -> Result<bool, proved::Refusal>;

fn steps(call: Walk, stream: &[u8], out: &mut [u8]) -> usize {
    let (mut state, mut item, mut items) = ([0; STATE], [0; 6], 0);
    loop {
        match call(stream, &mut state, &mut item) {
            Ok(true) => items += 1,
            Ok(false) => return tell(items, out),
            Err(_) => return REFUSED,
        }
    }
}

/// The number of items, which is all that is written.
fn tell(items: usize, out: &mut [u8]) -> usize {
    out.copy_from_slice(&items.to_be_bytes());
    out.len()
}

const ROOM: usize = 8;

pub fn races() -> Vec<Race> {
    let mut races = Vec::new();
    for (deck, make) in DECKS {
        let text = make(&mut Random::new(3), 1 << 20);
        let binary = Form::Binary.of_text(&text);
        let title = format!("Text walk, {deck}, 1 MiB of text");
        races.push(race(title, TEXT, text));
        let title = format!("Binary walk, {deck}, 1 MiB of text as binary");
        races.push(race(title, BINARY, binary));
    }
    races
}

fn race(title: String, contenders: &'static [Contender], stream: Vec<u8>) -> Race {
    let mut out = [0; ROOM];
    (contenders[0].call)(&stream, &mut out);
    let rate = Rate::Items(usize::from_be_bytes(out));
    Race::new(title, contenders, contenders.len(), stream, ROOM, rate)
}
