//! Long streams: the limits, the timed decks, and strangers far in.

mod common;

use common::assert_alike;
use streams::decks::{all_codes, attachments, digests, labels, nests, signatures, small_bytes};
use streams::form::FORMS;
use streams::{Form, Random};

const DECKS: [fn(&mut Random, usize) -> Vec<u8>; 7] = [
    digests,
    nests,
    signatures,
    attachments,
    all_codes,
    labels,
    small_bytes,
];

#[test]
fn of_just_the_limit_and_one_more() {
    for (form, limit) in [(Form::Text, 4_194_304), (Form::Binary, 3_145_728)] {
        let unit = form.of_text(b"1AAK");
        let mut stream = unit.repeat(limit / form.unit());
        assert_eq!(stream.len(), limit);
        assert_alike(&stream, form, "limit");
        stream.push(b'A');
        assert_alike(&stream, form, "one more");
    }
}

#[test]
fn the_timed_decks_are_accepted_and_alike() {
    let mut random = Random::new(0x71AED);
    for make in DECKS {
        let deck = make(&mut random, 200_000);
        for form in FORMS {
            let stream = form.of_text(&deck);
            assert_alike(&stream, form, "deck");
            assert_alike(&stream[..stream.len() - 1], form, "cut deck");
        }
        let report = baseline::report(&deck, baseline::Form::Text).unwrap();
        assert_eq!(report[report.len() - 8..], [0; 8]);
    }
}

#[test]
fn strangers_far_in() {
    let mut random = Random::new(0x57A6);
    for make in DECKS {
        for strangers in 1..12 {
            let mut deck = make(&mut random, 20_000);
            for _ in 0..strangers {
                let place = random.below(deck.len());
                deck[place] = *random.pick(b"=+/\n\x80");
            }
            assert_alike(&deck, Form::Text, "strangers");
        }
    }
}
