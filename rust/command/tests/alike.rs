//! The command beside the second program, which shares nothing with it, on
//! damaged and made-up streams: the report's bytes and the exit status.

mod common;

use common::fed;
use oracle::form::Form;
use oracle::report::{report, Report};
use streams::generate::any_deck;
use streams::item::stream;
use streams::noise::noise;
use streams::{damage, Random};

const STREAMS: u64 = 150;

fn made(seed: u64, form: streams::Form) -> Vec<u8> {
    let mut random = Random::new(seed);
    if seed % 5 == 4 {
        return noise(&mut random, form, 200);
    }
    let mut made = form.of_text(&stream(&any_deck(&mut random, 12)));
    if seed % 5 > 1 {
        damage(&mut random, form, &mut made);
    }
    made
}

/// 0 only where every byte lies in an accepted item, and there is one.
fn status(report: &Report, length: usize) -> i32 {
    let refused = !report.refusals.is_empty() || report.remainder.is_some();
    match (length, refused) {
        (0, _) => 2,
        (_, true) => 1,
        (_, false) => 0,
    }
}

#[test]
fn reports_and_exit_status_are_the_second_programs() {
    let mut seen = [0; 3];
    for seed in 0..STREAMS {
        for (made_in, judged_in, name) in [
            (streams::Form::Text, Form::Text, "text"),
            (streams::Form::Binary, Form::Binary, "binary"),
        ] {
            let stream = made(seed, made_in);
            let told = report(&stream, judged_in).expect("a stream within the limit");
            let status = status(&told, stream.len());
            let ran = fed(&["judge", "--report", "--form", name], &stream);
            assert_eq!(
                (ran.out, ran.status),
                (told.bytes(), status),
                "{seed} {name}"
            );
            assert_eq!(fed(&["judge", "--form", name], &stream).status, status);
            seen[usize::try_from(status).expect("a status")] += 1;
        }
    }
    assert!(seen[0] > 50 && seen[1] > 50, "{seen:?}");
}
