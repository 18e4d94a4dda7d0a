//! The proved conversions answer as the oracle's do, for every length of
//! buffer and at the limits, and leave the same bytes behind.

use streams::damage::damage;
use streams::form::FORMS;
use streams::generate::any_deck;
use streams::item::stream;
use streams::noise::noise;
use streams::{shrink, Form, Random};

/// The buffer afterwards, and the length written or the number and place.
type Answer = (Vec<u8>, Result<usize, (u8, usize)>);

fn proved(room: usize, call: impl Fn(&mut [u8]) -> Result<usize, proved::Refusal>) -> Answer {
    let mut out = vec![0xA5; room];
    let answer = call(&mut out).map_err(|refused| (refused.number, refused.place));
    (out, answer)
}

fn oracle(room: usize, call: impl Fn(&mut [u8]) -> Result<usize, oracle::Refusal>) -> Answer {
    let mut out = vec![0xA5; room];
    let answer = call(&mut out).map_err(|refused| (refused.number, refused.place));
    (out, answer)
}

/// Both conversions of one stream, with just enough room, one less and more.
fn alike(source: &[u8]) -> bool {
    let rooms = |size: usize| [size, size.saturating_sub(1), 0, size + 7];
    let to_binary = |room| {
        proved(room, |out| proved::to_binary(source, out))
            == oracle(room, |out| oracle::convert::to_binary(source, out))
    };
    let to_text = |room| {
        proved(room, |out| proved::to_text(source, out))
            == oracle(room, |out| oracle::convert::to_text(source, out))
    };
    rooms(source.len() / 4 * 3).into_iter().all(to_binary)
        && rooms(source.len() / 3 * 4).into_iter().all(to_text)
}

fn assert_alike(source: &[u8]) {
    if !alike(source) {
        let small = shrink(source, Form::Text, |s| !alike(s));
        panic!("{small:02X?}");
    }
}

#[test]
fn on_every_byte_at_every_place_of_a_unit() {
    for byte in 0..=255 {
        for place in 0..8 {
            let mut text = *b"MAAB0J_A";
            text[place] = byte;
            assert_alike(&text);
        }
    }
}

#[test]
fn on_every_short_length() {
    let mut random = Random::new(0x5407);
    for length in 0..300 {
        assert_alike(&random.characters(length));
        assert_alike(&random.bytes(length));
    }
}

#[test]
fn on_streams_damage_and_noise() {
    let mut random = Random::new(0xC0417);
    for _ in 0..3000 {
        for form in FORMS {
            let mut source = form.of_text(&stream(&any_deck(&mut random, 6)));
            assert_alike(&source);
            damage(&mut random, form, &mut source);
            assert_alike(&source);
            assert_alike(&noise(&mut random, form, 200));
        }
    }
}

#[test]
fn at_the_limits() {
    let mut random = Random::new(0x1141);
    let text = random.characters(4_194_308);
    for length in [4_194_300, 4_194_303, 4_194_304, 4_194_305, 4_194_308] {
        assert_alike(&text[..length]);
    }
    let binary = random.bytes(3_145_731);
    for length in [3_145_725, 3_145_727, 3_145_728, 3_145_729, 3_145_731] {
        assert_alike(&binary[..length]);
    }
    // A stranger far in, and in the very last place.
    for place in [1_000_003, 4_194_303] {
        let mut text = text[..4_194_304].to_vec();
        text[place] = b'=';
        assert_alike(&text);
    }
}
