//! The papers' streams: as they stand, cut short at every place, and damaged
//! in every place; and what 01 itself answers.

use crate::{deck, demand, demands, judges};
use streams::damage::{GENUS_CODES, ORDINARY, STRANGERS};
use streams::form::FORMS;
use streams::generate::{any_deck, large_code, nested, LARGE_CODES};
use streams::item::{stream, Item};
use streams::{papers, Form, Random};

/// All of them, and groups that are a few, 40 and up to 67 deep.
fn texts() -> Vec<Vec<u8>> {
    let papers = [papers::DECK, papers::POINTS, papers::EXAMPLES].concat();
    let mut texts: Vec<_> = papers.iter().map(|text| text.as_bytes().to_vec()).collect();
    for deep in (0..=10).chain([16, 17, 40]).chain(63..=67) {
        for letters in [&b"A"[..], b"J", b"AJCK", b"Z"] {
            texts.push(stream(&nested(letters, deep, number())));
        }
    }
    texts
}

fn number() -> Vec<Item> {
    vec![Item::Primitive(b"MAAB".to_vec())]
}

#[test]
fn whole_and_cut_short() {
    for text in texts() {
        for form in FORMS {
            let made = form.of_text(&text);
            for end in 0..=made.len() {
                demand(&made[..end], form, |s| judges::alike(s, form));
            }
        }
        demand(
            &Form::Binary.of_text(&text),
            Form::Binary,
            demands::converted,
        );
    }
}

#[test]
fn every_bit_flipped() {
    for text in texts() {
        for form in FORMS {
            let mut made = form.of_text(&text);
            for bit in 0..8 * made.len() {
                made[bit / 8] ^= 1 << (bit % 8);
                demand(&made, form, |s| judges::alike_in_short(s, form, bit as u64));
                made[bit / 8] ^= 1 << (bit % 8);
            }
        }
    }
}

/// One of ordinary Base64 and one of the others, alone and each behind the
/// other one.
#[test]
fn a_stranger_in_every_place() {
    for text in texts() {
        for place in 0..text.len() {
            let mut made = text.clone();
            let strangers = [
                ORDINARY[place % ORDINARY.len()],
                STRANGERS[3 + place % (STRANGERS.len() - 3)],
            ];
            for (first, second) in [(0, 1), (1, 0)] {
                made[place] = strangers[first];
                demand(&made, Form::Text, |s| judges::alike(s, Form::Text));
                if let Some(next) = made.get_mut(place + 1) {
                    let known = std::mem::replace(next, strangers[second]);
                    demand(&made, Form::Text, |s| {
                        judges::alike_in_short(s, Form::Text, 1)
                    });
                    made[place + 1] = known;
                }
            }
        }
    }
}

/// Each small group counts more and less, in every place of a stream.
#[test]
fn every_count_pushed() {
    for text in texts() {
        for form in FORMS {
            let made = form.of_text(&text);
            for offset in (0..made.len()).step_by(form.unit()) {
                let bits = form.bits(&made, offset);
                for count in [bits.wrapping_add(1), bits.wrapping_sub(1), bits + 2, !0] {
                    let mut pushed = made.clone();
                    form.put(&mut pushed, offset, bits & 0xFF_F000 | count & 0xFFF);
                    demand(&pushed, form, |s| judges::alike_in_short(s, form, 1));
                }
            }
        }
    }
}

#[test]
fn genus_codes_in_every_place() {
    let mut random = Random::new(0x6E05);
    let decks = (0..30).map(|_| stream(&any_deck(&mut random, 3)));
    for text in texts().into_iter().chain(decks.collect::<Vec<_>>()) {
        for place in (0..=text.len().min(600)).step_by(4) {
            for code in GENUS_CODES {
                let place = place.min(text.len());
                let made = [&text[..place], code.as_bytes(), &text[place..]].concat();
                for form in FORMS {
                    let made = form.of_text(&made);
                    demand(&made, form, |s| judges::alike_in_short(s, form, 1));
                }
            }
        }
    }
}

#[test]
fn reports_of_01() {
    for (text, items, refusals, remainder) in deck::TOLD {
        let found = demands::rows(text.as_bytes(), Form::Text);
        let told = demands::Rows {
            items: items.to_vec(),
            refusals: refusals.to_vec(),
            remainder: remainder.to_vec(),
        };
        assert_eq!(found, told, "{text}");
    }
    let (text, told, room) = deck::REPORT;
    let mut out = [0xAA; 60];
    let mut write =
        |room: usize| judges::by_proved(proved::report_text(text.as_bytes(), &mut out[..room]));
    assert_eq!(write(room - 1), Err((3, 0)));
    assert_eq!(write(room), Ok(told.len()));
    assert_eq!((&out[..39], &out[39..]), (&told[..], &[0xAA; 21][..]));
}

/// 02 g: 64 nested groups accepted, 65 refused 11; its format nests 40.
#[test]
fn depths_of_02_g() {
    for letter in b"AJZ" {
        let verdict = |deep| {
            let text = stream(&nested(&[*letter], deep, number()));
            demands::rows(&text, Form::Text).items[0][2]
        };
        assert_eq!([40, 64, 65].map(verdict), [0, 0, 11]);
    }
}

/// 02 h: 4,095 units in a large group are 18, 4,096 are accepted; so of a large
/// variable, whose units hold 12,285 raw bytes at most, or 12,286 at least.
#[test]
fn sizes_of_02_h() {
    for index in 0..LARGE_CODES {
        let verdict = |units| {
            let item = large_code(&mut Random::new(0x18), index, units);
            let text = stream(&[item]);
            let number = demands::rows(&text, Form::Text).items[0][2];
            for form in FORMS {
                let made = form.of_text(&text);
                demand(&made, form, |s| judges::alike_in_short(s, form, 1));
            }
            number
        };
        assert_eq!([1, 4094, 4095, 4096, 4097].map(verdict), [18, 18, 18, 0, 0]);
    }
}

#[test]
fn raw_values_of_01() {
    for (text, raw) in deck::RAW {
        let (mut out, mut tag, mut info) = ([0xAA; 4], [0; 11], [0; proved::INFO]);
        let read = proved::read_text(text.as_bytes(), 0, &mut out, &mut tag, &mut info);
        assert_eq!(read, Ok(raw.len()), "{text}");
        assert_eq!(&out[..raw.len()], *raw, "{text}");
        let binary = Form::Binary.of_text(text.as_bytes());
        let read = proved::read_binary(&binary, 0, &mut [], &mut tag, &mut info);
        assert_eq!(read, Ok(raw.len()), "{text}");
        assert_eq!(&binary[info[proved::INFO_START]..], *raw, "{text}");
        assert_eq!(info[proved::INFO_TEXT], 0, "{text}");
    }
}

type Write = fn(&proved::Primitive, &mut [u8]) -> Result<usize, proved::Refusal>;

/// Read out of both forms, and written to both.
#[test]
fn texts_of_001_and_02() {
    for (item, text) in deck::TEXTS {
        for form in FORMS {
            let made = form.of_text(item.as_bytes());
            let (read, write): (judges::Read, Write) = match form {
                Form::Text => (proved::read_text, proved::write_text),
                Form::Binary => (proved::read_binary, proved::write_binary),
            };
            let (mut out, mut tag, mut info) = ([0xAA; 23], [0; 11], [0; proved::INFO]);
            let length = read(&made, 0, &mut out, &mut tag, &mut info);
            assert_eq!(length, Ok(text.len()), "{item}");
            assert_eq!(&out[..text.len()], text.as_bytes(), "{item}");
            assert_eq!(info[proved::INFO_RAW..], [0, 0, text.len()], "{item}");
            let primitive = proved::Primitive {
                chars: 5,
                letter: b'A',
                tag,
                tags: 0,
                raw: text.as_bytes(),
            };
            let mut out = vec![0xAA; made.len()];
            assert_eq!(write(&primitive, &mut out), Ok(made.len()), "{item}");
            assert_eq!(out, made);
        }
    }
}
