//! Mixed streams: the baseline answers as the oracle does.

use streams::form::FORMS;
use streams::mixed::{any_deck, any_part, deck, event, events, forms_in_turn};
use streams::Random;

fn assert_alike(stream: &[u8]) {
    let told = oracle::mixed::report(stream).unwrap();
    let room = told.room();
    let shown = String::from_utf8_lossy(stream);
    assert_eq!(
        baseline::report_mixed(stream).unwrap(),
        told.bytes(),
        "{shown}"
    );
    let mut out = vec![0xAA; room + 3];
    let length = baseline::write_report_mixed(stream, &mut out).unwrap();
    assert_eq!(out[..length], told.bytes(), "{shown}");
    assert!(out[length..].iter().all(|byte| *byte == 0xAA));
    let refused = baseline::write_report_mixed(stream, &mut out[..room - 1]);
    assert_eq!(refused.map_err(|by| (by.number, by.place)), Err((3, 0)));
}

#[test]
fn on_every_byte_of_a_header() {
    let event = event(&mut Random::new(1));
    for place in 0..24 {
        for byte in 0..=255 {
            let mut stream = event.clone();
            stream.resize(30, b' ');
            stream[place] = byte;
            assert_alike(&stream);
        }
    }
    for length in 0..event.len() {
        assert_alike(&event[..length]);
    }
}

#[test]
fn on_every_first_byte() {
    for first in 0..=255 {
        for tail in ["", "A", "AA", "AAA", "AAAAA", r#""v":"KERI10JSON000017_"#] {
            assert_alike(&[&[first], tail.as_bytes()].concat());
        }
    }
}

#[test]
fn on_decks() {
    let mut random = Random::new(0xD3C5);
    for _ in 0..8_000 {
        let made = deck(&mut random, 6);
        assert_alike(&made);
        let told = oracle::mixed::report(&made).unwrap();
        assert!(told.refusals.is_empty() && told.remainder.is_none());
    }
}

#[test]
fn on_any_decks() {
    let mut random = Random::new(0xA4D3);
    for _ in 0..60_000 {
        assert_alike(&any_part(&mut random));
        assert_alike(&any_deck(&mut random, 4));
    }
}

#[test]
fn on_bytes() {
    let mut random = Random::new(0xB17E);
    for _ in 0..20_000 {
        let length = random.below(60);
        assert_alike(&random.bytes(length));
    }
}

/// Long decks, with strangers and cut.
#[test]
fn on_long_decks() {
    let mut random = Random::new(0x1046);
    for form in FORMS {
        let mut made = events(&mut random, 60_000, form);
        assert_alike(&made);
        for _ in 0..30 {
            let place = random.below(made.len());
            made[place] = random.byte();
            assert_alike(&made);
        }
        let half = made.len() / 2;
        assert_alike(&made[..half]);
    }
    assert_alike(&forms_in_turn(&mut random, 60_000));
}

#[test]
fn one_past_the_limit() {
    let long = vec![b'-'; 4_194_305];
    let refused = baseline::report_mixed(&long).unwrap_err();
    assert_eq!((refused.number, refused.place), (1, 0));
    assert_alike(&long[..4_194_304]);
}
