//! The seeds and the kept inputs through the target, without a fuzzer.

use fuzz::{corpus, one, seeds};

#[test]
fn the_seeds() {
    let seeds = seeds::seeds();
    assert!(seeds.len() > 700, "{}", seeds.len());
    seeds.iter().for_each(|seed| one(seed));
}

/// Each also with the other rooms and against the other page.
#[test]
fn the_kept_inputs() {
    let kept = corpus::inputs(include_str!("../corpus.txt"));
    for input in kept.iter().chain(&seeds::seeds()) {
        one(input);
        let mut other = input.clone();
        other.resize(input.len().max(2), 0);
        for room in 0..5 {
            other[1] = room;
            other[0] ^= 1 << 4;
            one(&other);
        }
    }
}

#[test]
fn short_inputs() {
    one(&[]);
    for first in 0..=255 {
        for second in 0..=255 {
            one(&[first]);
            one(&[first, second]);
        }
    }
}
