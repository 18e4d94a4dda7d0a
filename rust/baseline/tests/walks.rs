//! The baseline walks as the oracle does: in instalments of many sizes over
//! accepted and damaged streams and noise.

use baseline::{Pause, Walk};
use oracle::{instalments, walk};
use streams::damage::damage;
use streams::form::FORMS;
use streams::generate::{any_deck, any_signatures_deck, deep, one_code, CODES};
use streams::item::stream;
use streams::noise::noise;
use streams::{Form, Random};

fn assert_alike(made: &[u8], form: Form, random: &mut Random) {
    let (ours_form, theirs_form) = match form {
        Form::Text => (baseline::Form::Text, oracle::Form::Text),
        Form::Binary => (baseline::Form::Binary, oracle::Form::Binary),
    };
    let (mut ours, mut theirs) = (Walk::default(), walk::Walk::start());
    loop {
        let budget = *random.pick(&[0, 1, 2, 5, 64, usize::MAX]);
        let answer = ours.walk_on(made, ours_form, budget);
        let (next, items, pause) = instalments::walk_on(theirs, made, theirs_form, budget);
        theirs = next;
        let told = match pause {
            instalments::Pause::Spent => Pause::Spent,
            instalments::Pause::End => Pause::End,
            instalments::Pause::Refused(refusal) => Pause::Refused(baseline::Refusal {
                number: refusal.number,
                place: refusal.place,
            }),
        };
        let shown = String::from_utf8_lossy(made);
        assert_eq!(answer, (items, told), "{form:?} {budget} {shown:?}");
        if answer.1 != Pause::Spent {
            return;
        }
    }
}

#[test]
fn on_generated_streams() {
    for seed in 0..20_000 {
        let mut random = Random::new(seed);
        let form = FORMS[seed as usize % 2];
        let mut made = match seed / 2 % 6 {
            0 => noise(&mut random, form, 200),
            1 => form.of_text(&stream(&[deep(&mut random)])),
            2 => form.of_text(&stream(&any_signatures_deck(&mut random))),
            _ => form.of_text(&stream(&any_deck(&mut random, 6))),
        };
        if seed / 2 % 6 < 5 && seed % 5 > 0 {
            damage(&mut random, form, &mut made);
        }
        assert_alike(&made, form, &mut random);
    }
}

#[test]
fn on_every_code_with_a_stranger_at_each_place() {
    let mut random = Random::new(9);
    for index in 0..CODES {
        let text = stream(&[one_code(&mut random, index)]);
        for form in FORMS {
            assert_alike(&form.of_text(&text), form, &mut random);
        }
        for place in 0..text.len().min(60) {
            for stranger in [b'!', b'+'] {
                let mut bad = text.clone();
                bad[place] = stranger;
                assert_alike(&bad, Form::Text, &mut random);
            }
        }
    }
}
