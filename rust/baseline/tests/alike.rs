//! The baseline answers as the oracle does: on 01's deck, on accepted streams
//! of every code, selector and nesting, on damaged ones and on noise.

mod common;

use common::{assert_alike, assert_alike_in_both};
use oracle::Form as Judge;
use streams::damage::{damage, OPERATORS};
use streams::form::FORMS;
use streams::generate::{
    any_deck, any_fill_deck, any_signatures_deck, every_code, indexed, large_code, long_item,
    nested, not_short_deck, LARGE_CODES,
};
use streams::item::stream;
use streams::noise::noise;
use streams::table::{GROUPS, HEADS, INDEXED};
use streams::{Form, Item, Random};

/// 01, "The deck we check by" and "Errors we have seen shipped", and the
/// streams of docs/DECISIONS.md.
#[rustfmt::skip]
const DECK: [&str; 96] = [
    "", "MAAB", "MP__", "MQAA", "0HD_____", "0HEAAAAA", "VABh", "WGhp", "1AAM", "4BAA", "5BAA",
    "5BABAGhp", "6BABAABh", "5BABAPAA", "5BABAQAA", "0J_A", "0JAA", "-0AA", "-AAA", "-AABMAAB",
    "-AACMAAB", "-AAC-_AAABAA", "-JAC-_AAABAA", "-AAB0AAAMAAB", "--AAABAA",
    "E8wYuBjhslETYaLZcxMkWrhVbMcA8RS1pKYl7nJ77ntA",
    "-FABE_T2_p83_gRSuAYvGhqV3S0JzYEF2dIa-OCPLbIhBO7Y",
    "MAABMA!!", "-AACMQAA_AAA", "MAAB\n", "MAAB\nMAAB", "MAA!", "0A?!", "b!!A", "_AA=", "7AAG",
    "--0A", "7AAB", "--AA", "-_AA", "7AAB!__!", "--c_____", "-_AAACAA", "-_AAABAA", "-_BAACAA",
    "-AADMAAB-_AAABAA", "-AAD-AAA-_AAABAA", "-AAD-CAC-_AAABAA", "-AAD-KAA-_AAABAA",
    "--AAAAAC-_AAABAA", "0HEAA!AA", "VQAA", "VBAA", "VAEA", "X___", "-HAB_AAA", "-KAB_A!A",
    "-LAB____", "8AABAAAA", "9AABAAABAAEA", "-AABMAABMAAB!", "--KAAAAB_AA!",
    "--AAAAAA", "7AABAAAA", "9AABAAABAABh", "9AABAAAB!ABh", "-AAC--JAAAAAMAAB", "-AADMQAA--JAAAAA",
    "-JAD8AAHAAABAAAA", "MA!+", "MA+!", "7AAB+__!", "7AAB!__+", "0HEAA/!A", "0HEAA!/A",
    "-AABMA=!", "-KAB_A=!", "WGhpWGg=", "4AAA", "4AABAAAA", "4AABAACD", "4AABABCD", "4AAB-4-5",
    "4AADA-a-personal", "5AAEAA-4-5-legalName", "6AAEAAA-a-personal-1", "5AAA", "5AABAB-a",
    "5AABAP-a", "5AABBA-a", "5AABAAAa", "6AABAAB-", "6AABAAE-", "6AABAAAA", "4AABAA!A",
    "-AAC4AABAACDMAAB",
];

#[test]
fn on_01s_deck_and_the_decisions() {
    for text in DECK {
        assert_alike(text.as_bytes(), Form::Text, "deck");
        let whole = text.len() / 4 * 4;
        assert_alike_in_both(&text.as_bytes()[..whole], "deck");
    }
}

#[test]
fn on_nested_groups_of_every_letter() {
    for letter in GROUPS {
        for depth in (0..4).chain(15..19).chain(39..42).chain(60..70) {
            for core in ["", "MAAB", "-_AAABAA", "-_AAACAA", "-KAA", "-AAA", "MQAA"] {
                let core = vec![Item::Primitive(core.into())];
                assert_alike_in_both(&stream(&nested(&[*letter], depth, core)), "nested");
            }
        }
    }
}

#[test]
fn on_every_pair_of_first_characters() {
    // Every value of the first two sextets, with tails that fit most codes.
    for bits in 0..4096 {
        for tail in ["", "AAAA", "__AAAAAA", "AAAAAAAAAAAA"] {
            let [_, _, a, b] = streams::form::characters(bits);
            let mut text = vec![a, b, b'A', b'B'];
            text.extend(tail.bytes());
            assert_alike_in_both(&text, "pair");
        }
    }
}

#[test]
fn on_every_head() {
    for head in HEADS {
        for tail in 0..4 {
            let mut text = head.as_bytes().to_vec();
            text.extend(b"AAAB".repeat(tail));
            assert_alike_in_both(&text, "head");
            assert_alike_in_both(&[b"-AAB", &text[..]].concat(), "head in a group");
            assert_alike_in_both(&[b"--JAAAAE", &text[..]].concat(), "head in a group");
        }
    }
}

/// Large codes on both sides of what a small one counts, with strangers in
/// header and value, a lead byte that is not zero, and groups around them.
#[test]
fn on_large_codes() {
    let mut random = Random::new(0x1A26E);
    for index in 0..LARGE_CODES {
        for units in [0, 1, 2, 4094, 4095, 4096, 4097] {
            let item = large_code(&mut random, index, units);
            let text = stream(std::slice::from_ref(&item));
            assert_alike_in_both(&text, "large");
            for (place, character) in [(8, b'Q'), (10, b'Q'), (2, b'='), (5, b'!'), (11, b'+')] {
                let mut changed = text.clone();
                if let Some(there) = changed.get_mut(place) {
                    *there = character;
                    assert_alike(&changed, Form::Text, "changed");
                    if character == b'Q' {
                        assert_alike_in_both(&changed, "changed");
                    }
                }
            }
            let depths: &[usize] = if units < 3 {
                &[1, 2, 63, 64, 65]
            } else {
                &[1, 64]
            };
            for &depth in depths {
                let text = stream(&nested(b"JA", depth, vec![item.clone()]));
                assert_alike_in_both(&text, "within");
            }
        }
    }
}

#[test]
fn on_large_codes_for_few_units() {
    let mut random = Random::new(0x0018);
    for round in 0..8000 {
        for form in FORMS {
            let mut stream = form.of_text(&stream(&not_short_deck(&mut random)));
            if round % 2 == 1 {
                damage(&mut random, form, &mut stream);
            }
            assert_alike(&stream, form, "not short");
        }
    }
}

/// Every first unit of a text that decides, under every selector: `A` and its
/// neighbours in each place, by itself and with a unit behind it.
#[test]
fn on_every_fill() {
    let choices = b"ABDEPQ_";
    for selector in *b"456789" {
        for index in 0..choices.len().pow(4) {
            let unit = [343, 49, 7, 1].map(|place| choices[index / place % 7]);
            for more in 0..2 {
                let mut text = vec![selector, b'A', b'A', b'B' + more];
                if selector > b'6' {
                    text = vec![selector, b'A', b'A', b'A', b'A', b'A', b'A', b'B' + more];
                }
                text.extend(unit);
                text.extend(b"AAAA".repeat(usize::from(more)));
                assert_alike_in_both(&text, "fill");
            }
        }
    }
}

/// The same in long texts, of which the large selectors are.
#[test]
fn on_every_fill_of_a_long_text() {
    for head in ["4A__", "5A__", "6A__", "7AAAABAA", "8AAAABAA", "9AAAABAA"] {
        let units = 4095 + usize::from(head.len() > 4);
        for unit in [
            "-aaa", "Aaaa", "AAaa", "AAAa", "AAAA", "ABaa", "AABa", "Baaa",
        ] {
            let text = [head, unit, &"BCDE".repeat(units - 1)].concat();
            assert_alike_in_both(text.as_bytes(), "long fill");
        }
    }
}

#[test]
fn on_any_fill() {
    let mut random = Random::new(0x0016);
    for round in 0..8000 {
        for form in FORMS {
            let mut stream = form.of_text(&stream(&any_fill_deck(&mut random)));
            if round % 2 == 1 {
                damage(&mut random, form, &mut stream);
            }
            assert_alike(&stream, form, "any fill");
        }
    }
}

/// A group's text around whole units.
fn signed(body: &[u8]) -> Vec<u8> {
    stream(&[Item::Group {
        letter: b'K',
        large: false,
        body: vec![Item::Primitive(body.to_vec())],
    }])
}

/// Every value of an indexed item's first two sextets, and of each character
/// that is a digit or has pad bits.
#[test]
fn on_every_start_of_an_indexed_item() {
    for bits in 0..4096 {
        let [_, _, a, b] = streams::form::characters(bits);
        for full in [4, 8, 88, 92, 156, 160] {
            let mut text = vec![b'A'; full];
            text[..2].copy_from_slice(&[a, b]);
            assert_alike_in_both(&signed(&text), "indexed start");
        }
    }
    for row in INDEXED {
        let whole = stream(&[indexed(&mut Random::new(1), row)]);
        for place in 0..12 {
            for sextet in 0..64 {
                let mut text = whole.clone();
                text[place] = streams::form::ALPHABET[sextet];
                assert_alike_in_both(&signed(&text), "indexed digit");
            }
        }
    }
}

/// A stranger at each place, by itself and with another fault before it, and
/// each length.
#[test]
fn on_strangers_and_cuts_in_indexed_items() {
    let mut random = Random::new(0x0015);
    for row in INDEXED {
        let whole = stream(&[indexed(&mut random, row)]);
        for place in 0..row.full {
            for stranger in *b"!+" {
                let mut text = [&whole[..], &whole].concat();
                text[row.full + place] = stranger;
                assert_alike(&signed(&text), Form::Text, "stranger");
                text[6] = b'_';
                assert_alike(&signed(&text), Form::Text, "stranger behind");
                assert_alike(&signed(&text[row.full..]), Form::Text, "stranger alone");
            }
        }
        for units in 0..row.full / 4 {
            assert_alike_in_both(&signed(&whole[..4 * units]), "cut");
            let mut text = signed(&whole);
            text.truncate(4 * units);
            assert_alike_in_both(&text, "cut off");
        }
    }
}

#[test]
fn on_any_signatures() {
    let mut random = Random::new(0x0151);
    for round in 0..12_000 {
        for form in FORMS {
            let mut stream = form.of_text(&stream(&any_signatures_deck(&mut random)));
            if round % 2 == 1 {
                damage(&mut random, form, &mut stream);
            }
            assert_alike(&stream, form, "signatures");
        }
    }
}

#[test]
fn on_long_items() {
    let mut random = Random::new(0x4096);
    for _ in 0..300 {
        let item = long_item(&mut random);
        let text = stream(std::slice::from_ref(&item));
        assert_alike_in_both(&text, "long");
        let report = baseline::report(&text, baseline::Form::Text).unwrap();
        assert_eq!(report.len(), 12 + 9, "accepted");
        let mut changed = text;
        damage(&mut random, Form::Text, &mut changed);
        assert_alike(&changed, Form::Text, "long and damaged");
    }
}

#[test]
fn on_accepted_streams() {
    let mut random = Random::new(0xACCE);
    for round in 0..4000 {
        let items = match round % 20 {
            0 => every_code(&mut random),
            _ => any_deck(&mut random, 8),
        };
        let text = stream(&items);
        assert_alike_in_both(&text, "accepted");
        let report = baseline::report(&text, baseline::Form::Text).unwrap();
        assert_eq!(report[..4], (items.len() as u32).to_be_bytes());
        // No refusal and no remainder: three counts and the items.
        assert_eq!(report.len(), 12 + 9 * items.len());
    }
}

#[test]
fn on_damaged_streams() {
    let mut random = Random::new(0xDA3A);
    for _ in 0..24_000 {
        for form in FORMS {
            let mut stream = form.of_text(&stream(&any_deck(&mut random, 6)));
            damage(&mut random, form, &mut stream);
            assert_alike(&stream, form, "damaged");
        }
    }
}

#[test]
fn on_every_kind_of_damage() {
    let mut random = Random::new(0x0DD5);
    for (name, operator) in OPERATORS {
        for _ in 0..300 {
            for form in FORMS {
                let mut stream = form.of_text(&stream(&any_deck(&mut random, 4)));
                operator(&mut random, form, &mut stream);
                assert_alike(&stream, form, name);
            }
        }
    }
}

#[test]
fn on_noise() {
    let mut random = Random::new(0x7015E);
    for _ in 0..24_000 {
        for form in FORMS {
            let mut stream = noise(&mut random, form, 120);
            if random.once_in(3) {
                damage(&mut random, form, &mut stream);
            }
            assert_alike(&stream, form, "noise");
        }
    }
}

#[test]
fn the_streams_meet_every_number() {
    // D44: a verdict is 4 to 11, 15, 16, 18 or 19, a remainder's number 4 to 7 or
    // 19; 5 and 19 in text only.
    let mut random = Random::new(0xA11);
    for (form, judge) in [(Form::Text, Judge::Text), (Form::Binary, Judge::Binary)] {
        let (mut verdicts, mut remainders) = ([0; 256], [0; 256]);
        for _ in 0..8000 {
            let mut stream = form.of_text(&stream(&any_deck(&mut random, 6)));
            damage(&mut random, form, &mut stream);
            let report = oracle::report::report(&stream, judge).unwrap();
            let rows = report.items.iter().map(|row| row.verdict);
            rows.for_each(|verdict| verdicts[usize::from(verdict)] += 1);
            let rest = report.remainder.map(|rest| rest.number);
            rest.into_iter()
                .for_each(|n| remainders[usize::from(n)] += 1);
        }
        for number in (4..12).chain([15, 16, 18, 19]) {
            let possible = ![5, 19].contains(&number) || form == Form::Text;
            assert_eq!(verdicts[number] > 0, possible, "{form:?} verdict {number}");
            let possible = possible && ![8, 9, 10, 11, 15, 16, 18].contains(&number);
            assert_eq!(remainders[number] > 0, possible, "{form:?} rest {number}");
        }
    }
}
