//! Mixed streams: nothing panics on generated, damaged and made-up ones, the rows
//! are the report's bytes, and the parts of an answer agree. That the library's
//! answers are right is for the differential test.

use cesr::{judge, judge_mixed, judge_mixed_into, Form, ItemForm, MixedReport, Number, Verdict};
use streams::mixed::{any_deck, any_part, deck};
use streams::Random;

const CASES: u64 = 6_000;

fn each_case(check: impl Fn(&[u8])) {
    for seed in 0..CASES {
        let mut random = Random::new(seed);
        let made = match seed % 4 {
            0 => deck(&mut random, 6),
            1 => any_part(&mut random),
            2 => {
                let length = random.below(80);
                random.bytes(length)
            }
            _ => any_deck(&mut random, 4),
        };
        check(&made);
    }
}

/// The rows put back into bytes, as 02 sets the report out.
fn bytes_of(report: &MixedReport) -> Vec<u8> {
    let quad = |number: usize| u32::try_from(number).unwrap().to_be_bytes();
    let mut bytes = quad(report.items().count()).to_vec();
    for item in report {
        bytes.extend(quad(item.offset));
        bytes.extend(quad(item.size));
        bytes.push(item.verdict.number().map_or(0, Number::get));
        bytes.push(match item.form {
            ItemForm::Cesr(Form::Text) => 0,
            ItemForm::Cesr(Form::Binary) => 1,
            ItemForm::Json => 2,
        });
    }
    bytes.extend(quad(report.refusals().count()));
    for row in report.refusals() {
        bytes.extend(quad(row.index));
        bytes.push(row.refusal.number.get());
        bytes.extend(quad(row.refusal.place));
    }
    bytes.extend(quad(usize::from(report.remainder().is_some())));
    if let Some(remainder) = report.remainder() {
        bytes.extend(quad(remainder.offset));
        bytes.push(remainder.number.get());
    }
    bytes
}

#[test]
fn rows_are_the_bytes_of_the_report() {
    each_case(|stream| {
        let report = judge_mixed(stream).unwrap();
        assert_eq!(bytes_of(&report), report.as_bytes());
        assert_eq!(report.accepted() + report.refused(), report.items().len());
        assert_eq!(report.refused(), report.refusals().len());
        let json = report.items().filter(|item| item.form == ItemForm::Json);
        assert_eq!(report.unjudged(), json.count());
        for row in report.refusals() {
            let item = report.item(row.index).unwrap();
            assert_eq!(item.verdict, Verdict::Refused(row.refusal.number));
            assert!(item.range().contains(&row.refusal.place));
        }
        let all = (0..).map_while(|index| report.item(index));
        assert!(report.items().eq(all));
    });
}

/// Items, then the remainder, make up the stream; all of it is accepted only
/// without refusals and remainder. A JSON item's header says its size.
#[test]
fn every_byte_lies_in_an_item_or_the_remainder() {
    each_case(|stream| {
        let report = judge_mixed(stream).unwrap();
        let mut end = 0;
        for item in &report {
            assert_eq!(item.offset, end);
            assert_eq!(item.of(stream).len(), item.size);
            end += item.size;
            let head = item.json(stream);
            assert_eq!(head.is_some(), item.form == ItemForm::Json);
            if let Some(head) = head {
                assert_eq!((head.length, item.is_accepted()), (item.size, true));
                assert!(head.protocol().len() == 4 && head.version().len() == 2);
            }
        }
        let start = report.remainder().map_or(stream.len(), |rest| rest.offset);
        assert_eq!(start, end);
        if let Some(rest) = report.remainder() {
            let refusal = rest.refusal_in_mixed(stream);
            assert_eq!(refusal.number, rest.number);
            let character = stream[refusal.place];
            match refusal.number {
                Number::Character => assert!(!character.is_ascii_alphanumeric()),
                Number::OrdinaryBase64 => assert!(b"+/=".contains(&character)),
                _ => assert_eq!(refusal.place, rest.offset),
            }
        }
        let clean = report.refused() == 0 && report.remainder().is_none();
        assert_eq!(report.passed(), clean && !stream.is_empty());
        assert_eq!(report.accepts_all(stream.len()), report.passed());
        assert!(!report.accepts_all(stream.len() + 1));
    });
}

#[test]
fn a_lent_buffer_gets_the_same_report() {
    each_case(|stream| {
        let report = judge_mixed(stream).unwrap();
        let room = 17 + 19 * report.items().count();
        assert!(room <= MixedReport::room(stream.len()));
        let mut out = vec![0xAA; room];
        assert_eq!(judge_mixed_into(stream, &mut out), Ok(report));
        let refusal = judge_mixed_into(stream, &mut out[..room - 1]).unwrap_err();
        assert_eq!((refusal.number, refusal.place), (Number::Room, 0));
    });
}

/// A CESR item has the verdict that its own bytes get as a stream of its form.
#[test]
fn items_by_themselves() {
    each_case(|stream| {
        for item in &judge_mixed(stream).unwrap() {
            if let ItemForm::Cesr(form) = item.form {
                let own = judge(form, item.of(stream)).unwrap();
                let own = own.item(0).expect("an item");
                assert_eq!((own.size, own.verdict), (item.size, item.verdict));
            }
        }
    });
}

#[test]
fn one_byte_past_the_limit() {
    let long = vec![b'-'; MixedReport::LIMIT + 1];
    let refusal = judge_mixed(&long).unwrap_err();
    assert_eq!((refusal.number, refusal.place), (Number::TooLong, 0));
    assert!(judge_mixed(&long[..MixedReport::LIMIT]).is_ok());
}
