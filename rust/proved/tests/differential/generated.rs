//! Generated streams and primitives, as many as asked for.

use crate::{compares, demand, demands, groups, judges, pieces, say, setting, walks, writes};
use std::panic::{catch_unwind, resume_unwind, AssertUnwindSafe};
use std::sync::atomic::{AtomicU64, Ordering};
use streams::damage::{cross, damage};
use streams::form::FORMS;
use streams::generate::{
    any_deck, any_fill_deck, any_signatures_deck, deep, every_code, not_short_deck, one_code, CODES,
};
use streams::item::stream;
use streams::noise::noise;
use streams::{Form, Random};

/// A deck of items that 01 accepts. Most are small, since in many small ones
/// more is met than in few long ones; one in a hundred is long.
fn deck(random: &mut Random, form: Form) -> Vec<u8> {
    let most = match random.below(100) {
        0 => 200,
        1..=14 => 12,
        15..=59 => 5,
        _ => 2,
    };
    form.of_text(&stream(&any_deck(random, most)))
}

/// Some items of codes that stand next to each other.
fn neighbours(random: &mut Random, form: Form) -> Vec<u8> {
    let from = random.below(CODES);
    let to = CODES.min(from + 1 + random.below(4));
    let items: Vec<_> = (from..to).map(|index| one_code(random, index)).collect();
    form.of_text(&stream(&items))
}

/// A stream by its number, and whether it is one that 01 accepts.
fn generated(random: &mut Random, form: Form, kind: u64) -> (Vec<u8>, bool) {
    let kind = kind % 16;
    let mut made = match kind {
        0..=8 => deck(random, form),
        9 => form.of_text(&stream(&not_short_deck(random))),
        10 => {
            let (one, other) = (deck(random, form), deck(random, form));
            cross(random, form, &one, &other)
        }
        11 => noise(random, form, 200),
        12 => form.of_text(&stream(&[deep(random)])),
        14 => form.of_text(&stream(&any_fill_deck(random))),
        15 => form.of_text(&stream(&any_signatures_deck(random))),
        _ => neighbours(random, form),
    };
    let whole = matches!(kind, 0..=2 | 13);
    let left = whole || matches!(kind, 11 | 12) || matches!(kind, 9 | 14 | 15) && random.once_in(2);
    if !left {
        damage(random, form, &mut made);
    }
    (made, whole)
}

/// All calls and both demands on one generated stream.
fn one_case(seed: u64, form: Form) {
    let mut random = Random::new(seed);
    let (made, whole) = generated(&mut random, form, seed);
    demand(&made, form, |s| judges::alike_in_short(s, form, seed));
    demand(&made, form, |s| walks::from_made_up(s, form, seed));
    demand(&made, form, |s| demands::damaged(s, form, seed));
    demand(&made, form, |s| compares::of_stream(s, form, seed));
    demand(&made, form, |s| pieces::alike(s, form, seed));
    match form {
        Form::Binary => demand(&made, form, demands::converted),
        Form::Text => demand(&made, form, demands::masked),
    }
    if whole {
        // Made small it would be another stream, and rightly refused.
        let found = demands::rows(&made, form);
        let accepted = found.refusals.is_empty() && found.remainder.is_empty();
        assert!(accepted, "{form:?} {made:02X?} {found:?}");
    }
}

/// Cases that a thread takes at once.
const BLOCK: u64 = 1000;

/// Calls `one` for each number below CASES, on THREADS threads, and says how
/// many it were, and now and then how far it is.
pub fn each(what: &str, one: impl Fn(u64) + Sync) {
    let cases = setting("CASES", 20_000);
    let next = AtomicU64::new(0);
    let take_blocks = || loop {
        let from = next.fetch_add(BLOCK, Ordering::Relaxed);
        if from >= cases {
            return;
        }
        if from > 0 && from.is_multiple_of(1_000_000) {
            say(&format!("{from} {what} so far"));
        }
        let block = || (from..cases.min(from + BLOCK)).for_each(&one);
        if let Err(why) = catch_unwind(AssertUnwindSafe(block)) {
            // No more blocks for the others.
            next.store(cases, Ordering::Relaxed);
            resume_unwind(why);
        }
    };
    // The scope ends when all have ended, and fails if one has.
    std::thread::scope(|scope| {
        (0..setting("THREADS", 1)).for_each(|_| drop(scope.spawn(take_blocks)));
    });
    say(&format!(
        "{cases} {what} alike, SEED={}",
        setting("SEED", 1)
    ));
}

#[test]
fn generated_streams() {
    let first = setting("SEED", 1) << 40;
    each("generated streams judged", |case| {
        one_case(first + case / 2, FORMS[(case % 2) as usize]);
    });
}

#[test]
fn generated_writes() {
    let first = (setting("SEED", 1) << 40) + 0x3713;
    each("primitives written", |case| {
        if let Err(why) = writes::any(&mut Random::new(first + case)) {
            panic!("{why}");
        }
    });
}

#[test]
fn generated_indexed_writes() {
    let first = (setting("SEED", 1) << 40) + 0x1D3D;
    each("indexed items written", |case| {
        if let Err(why) = writes::any_indexed(&mut Random::new(first + case)) {
            panic!("{why}");
        }
    });
}

#[test]
fn generated_groups() {
    let first = (setting("SEED", 1) << 40) + 0xE0E0;
    each("groups written", |case| {
        let mut random = Random::new(first + case);
        groups::one(&mut random, FORMS[(case % 2) as usize], case / 2);
    });
}

#[test]
fn generated_compares() {
    let first = (setting("SEED", 1) << 40) + 0x6E20;
    each("expectations compared", |case| {
        if let Err(why) = compares::any(&mut Random::new(first + case)) {
            panic!("{why}");
        }
    });
}

/// What the streams are worth: every verdict and every reason of a remainder
/// is met among few of them.
#[test]
fn every_number_is_met() {
    let (mut verdicts, mut remainders) = ([0; 20], [0; 20]);
    for seed in 0..20_000 {
        let form = FORMS[seed as usize % 2];
        let (made, _) = generated(&mut Random::new(seed), form, seed / 2);
        let found = demands::rows(&made, form);
        found.items.iter().for_each(|row| verdicts[row[2]] += 1);
        found
            .remainder
            .iter()
            .for_each(|row| remainders[row[1]] += 1);
    }
    for number in 0..20 {
        let is_verdict = matches!(number, 0 | 4..=11 | 15 | 16 | 18 | 19);
        assert_eq!(
            verdicts[number] > 20,
            is_verdict,
            "{number} of {verdicts:?}"
        );
        let is_remainder = matches!(number, 4..=7 | 19);
        assert_eq!(
            remainders[number] > 20,
            is_remainder,
            "{number} of {remainders:?}"
        );
    }
}

#[test]
fn every_code_at_once() {
    for seed in 0..20 {
        let items = every_code(&mut Random::new(seed));
        for form in FORMS {
            let made = form.of_text(&stream(&items));
            demand(&made, form, |s| judges::alike(s, form));
            demand(&made, form, |s| demands::damaged(s, form, seed));
        }
    }
}

#[test]
fn every_name_of_a_code() {
    for chars in 0..=255 {
        for letter in 0..=255 {
            let item = proved::Primitive {
                chars,
                letter,
                tag: *b"ABCDEFGHIJK",
                tags: 0,
                raw: &[],
            };
            writes::alike(&item).unwrap();
        }
    }
}

#[test]
fn every_name_of_an_indexed_code() {
    for selector in 0..=255 {
        for letter in 0..=255 {
            for length in [64, 114] {
                let item = proved::Indexed {
                    selector,
                    letter,
                    index: 63,
                    ondex: 0,
                    raw: &[0x5A; 114][..length],
                };
                writes::alike_indexed(&item).unwrap();
            }
        }
    }
}
