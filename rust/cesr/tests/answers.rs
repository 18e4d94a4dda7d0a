//! The crate's answers on generated, damaged and made-up streams: nothing
//! panics, the rows are the report's bytes, and the parts of an answer agree.
//! That the library's answers are right is for the differential test.

use cesr::{
    compare, difference, item_at, judge, judge_into, judge_second, judge_second_into, read,
    read_binary_into, read_indexed, read_text_into, to_binary, to_binary_into, to_text,
    to_text_into, working_room, write, write_group, write_group_into, write_indexed, write_into,
    write_variable, write_variable_into, Builder, Code, Expectation, Form, IndexedCode, Number,
    Pause, Refusal, Report, State, Verdict, Walk, STATE, STATE_BYTES,
};
use streams::generate::any_deck;
use streams::item::stream;
use streams::noise::noise;
use streams::table::GROUPS;
use streams::{damage, Random};

const CASES: u64 = 4_000;

fn made(seed: u64, form: Form) -> Vec<u8> {
    let form = match form {
        Form::Text => streams::Form::Text,
        Form::Binary => streams::Form::Binary,
    };
    let mut random = Random::new(seed);
    if seed % 4 == 3 {
        return noise(&mut random, form, 300);
    }
    let mut made = form.of_text(&stream(&any_deck(&mut random, 8)));
    if !seed.is_multiple_of(4) {
        damage(&mut random, form, &mut made);
    }
    made
}

fn each_case(check: impl Fn(u64, Form, &[u8])) {
    for seed in 0..CASES {
        for form in [Form::Text, Form::Binary] {
            check(seed, form, &made(seed, form));
        }
    }
}

/// The rows put back into bytes, as 01 sets the report out.
fn bytes_of(report: &Report) -> Vec<u8> {
    let quad = |number: usize| u32::try_from(number).unwrap().to_be_bytes();
    let mut bytes = quad(report.items().count()).to_vec();
    for item in report.items() {
        bytes.extend(quad(item.offset));
        bytes.extend(quad(item.size));
        bytes.push(item.verdict.number().map_or(0, Number::get));
    }
    bytes.extend(quad(report.refusals().count()));
    for row in report.refusals() {
        bytes.extend(quad(row.index));
        bytes.push(row.refusal.number.get());
        bytes.extend(quad(row.refusal.place));
    }
    bytes.extend(quad(usize::from(report.remainder().is_some())));
    if let Some(remainder) = report.remainder() {
        bytes.extend(quad(remainder.offset));
        bytes.push(remainder.number.get());
    }
    bytes
}

#[test]
fn rows_are_the_bytes_of_the_report() {
    each_case(|_, form, stream| {
        let report = judge(form, stream).unwrap();
        assert_eq!(bytes_of(&report), report.as_bytes());
        assert_eq!(report.accepted() + report.refused(), report.items().count());
        assert_eq!(report.refused(), report.refusals().len());
        assert_eq!(report.items().len(), report.items().count());
        for row in report.refusals() {
            let item = report.item(row.index).unwrap();
            assert_eq!(item.verdict, Verdict::Refused(row.refusal.number));
        }
        assert!(report
            .items()
            .eq((0..).map_while(|index| report.item(index))));
    });
}

/// Items, then the remainder, make up the stream; all of it is accepted only
/// without refusals and remainder.
#[test]
fn every_byte_lies_in_an_item_or_the_remainder() {
    each_case(|_, form, stream| {
        let report = judge(form, stream).unwrap();
        let mut end = 0;
        for item in report.items() {
            assert_eq!(item.offset, end);
            assert_eq!(item.of(stream).len(), item.size);
            end += item.size;
        }
        let start = report.remainder().map_or(stream.len(), |rest| rest.offset);
        assert_eq!(start, end);
        if let Some(rest) = report.remainder() {
            let refusal = rest.refusal(form, stream);
            let told = match refusal.number.is_of_a_character() {
                true => rest.offset..rest.offset + 8,
                false => rest.offset..rest.offset + 1,
            };
            assert!(told.contains(&refusal.place));
            let character = stream[refusal.place];
            match refusal.number {
                Number::Character => assert!(!character.is_ascii_alphanumeric()),
                Number::OrdinaryBase64 => assert!(b"+/=".contains(&character)),
                _ => {}
            }
        }
        let clean = report.refused() == 0 && report.remainder().is_none();
        assert_eq!(
            report.accepts_all(stream.len()),
            clean && !stream.is_empty()
        );
        assert!(!report.accepts_all(stream.len() + 1));
        assert_eq!(report.passed(), clean && !stream.is_empty());
        assert!((&report).into_iter().eq(report.items()));
    });
}

#[test]
fn a_lent_buffer_gets_the_same_report() {
    each_case(|_, form, stream| {
        let report = judge(form, stream).unwrap();
        let room = 17 + 18 * report.items().count();
        let mut out = vec![0xAA; room];
        assert_eq!(judge_into(form, stream, &mut out), Ok(report));
        let refusal = judge_into(form, stream, &mut out[..room - 1]).unwrap_err();
        assert_eq!((refusal.number, refusal.place), (Number::Room, 0));
    });
}

/// What is read can be written back as it stood, and a walk yields the heads
/// and sizes that reads find.
#[test]
fn walks_reads_and_writes_agree() {
    each_case(|_, form, stream| {
        for step in Walk::new(form, stream).map_while(Result::ok) {
            // Those of signature groups are of another table, and have a test below.
            if matches!(step.head.code(), Code::Indexed(_)) {
                continue;
            }
            let found = item_at(form, stream, step.offset).unwrap();
            assert_eq!((found.head, found.size), (step.head, step.size));
            let Ok(primitive) = read(form, stream, step.offset) else {
                assert!(step.head.code().is_group() || step.head.name() == Some("Genus/version"));
                continue;
            };
            assert_eq!((primitive.head, primitive.size), (step.head, step.size));
            let tag = primitive.tag.as_bytes();
            let value = primitive.value.as_bytes();
            let written = write(form, step.head.code(), tag, value).unwrap();
            assert_eq!(written, &stream[step.offset..step.offset + step.size]);
            if let Code::Small { letter } | Code::Large { letter } = step.head.code() {
                assert_eq!(write_variable(form, letter, value), Ok(written));
            }
            let is_text = step.head.code().is_text();
            assert_eq!(primitive.text().is_some(), is_text);
            assert_eq!(primitive.raw() == value, !is_text || value.is_empty());
        }
    });
}

#[test]
fn conversion_goes_both_ways() {
    each_case(|_, form, stream| match form {
        Form::Text => {
            if let Ok(binary) = to_binary(stream) {
                assert_eq!(to_text(&binary).unwrap(), stream);
            }
        }
        Form::Binary => {
            if let Ok(text) = to_text(stream) {
                assert_eq!(to_binary(&text).unwrap(), stream);
            }
        }
    });
}

/// Any offset, any state and any code: an answer and never a panic.
#[test]
fn nothing_panics_on_any_number() {
    each_case(|seed, form, stream| {
        let mut random = Random::new(seed);
        for at in [
            0,
            1,
            stream.len(),
            stream.len() + 1,
            usize::MAX - 1,
            usize::MAX,
        ] {
            let _ = read(form, stream, at);
            let _ = item_at(form, stream, at);
        }
        let mut numbers = [0; STATE];
        let most_open = STATE - 3;
        for number in &mut numbers {
            *number = *random.pick(&[0, 1, 2, most_open, most_open + 1, stream.len(), usize::MAX]);
        }
        let steps = Walk::resumed(form, stream, State::new(numbers)).take(100);
        assert!(steps.count() <= 100);
        let code = cesr::Code::fixed(random.byte(), random.byte());
        let _ = write(form, code, &random.bytes(20), stream);
    });
}

/// Slices of any size come to where the iterator does, over states that were
/// saved as bytes between them.
#[test]
fn slices_over_saved_states_come_to_where_the_iterator_does() {
    each_case(|seed, form, stream| {
        let mut walk = Walk::new(form, stream);
        let items = walk.by_ref().filter(Result::is_ok).count();
        let (mut state, mut taken) = (State::default(), 0);
        let budget = 1 + usize::try_from(seed % 7).unwrap();
        let mut pause = Pause::Spent;
        while pause == Pause::Spent {
            let mut resumed = Walk::resumed(form, stream, state);
            let slice = resumed.walk_on(budget);
            (taken, pause) = (taken + slice.items, slice.pause);
            state = State::from_bytes(&resumed.state().to_bytes());
            assert_eq!(state, resumed.state());
            // What paused the slice is all that an iterator has left.
            if pause != Pause::Spent {
                assert_eq!(resumed.next(), None);
            }
        }
        assert_eq!((taken, state), (items, walk.state()));
    });
}

/// Any bytes are a state that is saved as it was, fit or not.
#[test]
fn bytes_of_no_walk_come_back() {
    let mut random = Random::new(5);
    for _ in 0..1000 {
        let bytes = random.bytes(STATE_BYTES).try_into().unwrap();
        let state = State::from_bytes(&bytes);
        assert_eq!(state.to_bytes(), bytes);
        let pause = Walk::resumed(Form::Text, b"MAAB", state).walk_on(0).pause;
        assert!(matches!(pause, Pause::Refused(refusal) if refusal.number == Number::UnfitState));
    }
}

/// A walk yields its refusal once and then nothing.
#[test]
fn a_walk_ends_with_its_refusal() {
    let mut walk = Walk::new(Form::Text, b"MAABMQAAMAAB");
    assert!(walk.next().unwrap().is_ok());
    let state = walk.state();
    let refusal = walk.next().unwrap().unwrap_err();
    assert_eq!((refusal.number, refusal.place), (Number::NotZero, 4));
    assert_eq!(walk.state(), state);
    assert_eq!((walk.next(), walk.next()), (None, None));
}

/// The limit is the library's: one more and each call is refused 1.
#[test]
fn the_limit_is_where_the_library_has_it() {
    for (form, unit) in [(Form::Text, &b"1AAK"[..]), (Form::Binary, b"\xD4\x00\x0A")] {
        let mut stream = unit.repeat(form.limit() / unit.len());
        assert_eq!(stream.len(), form.limit());
        let report = judge(form, &stream).unwrap();
        assert_eq!(report.accepted(), 1_048_576);
        assert!(report.accepts_all(stream.len()));
        stream.push(unit[0]);
        let number = |answer: Result<(), cesr::Refusal>| answer.map_err(|refusal| refusal.number);
        let too_long = Err(Number::TooLong);
        assert_eq!(number(judge(form, &stream).map(|_| ())), too_long);
        assert_eq!(number(read(form, &stream, 0).map(|_| ())), too_long);
        assert_eq!(number(item_at(form, &stream, 0).map(|_| ())), too_long);
        let converted = match form {
            Form::Text => to_binary(&stream),
            Form::Binary => to_text(&stream),
        };
        assert_eq!(number(converted.map(|_| ())), too_long);
    }
}

/// Lent room: enough is enough, and one less is 3 and leaves all as it was.
#[test]
fn lent_buffers() {
    let mut out = [0xAA; 9];
    let item = read_text_into(b"5BABAGhp", 0, &mut out[..2]).unwrap();
    assert_eq!(item.raw(), b"hi");
    assert_eq!(out[2..], [0xAA; 7]);
    let mut out = [0xAA; 9];
    let refusal = read_text_into(b"5BABAGhp", 0, &mut out[..1]).unwrap_err();
    assert_eq!((refusal.number, out), (Number::Room, [0xAA; 9]));

    // `5AABAA-a` in binary: a text is copied out of either form.
    let binary = b"\xE4\x00\x01\x00\x0F\x9A";
    let refusal = read_text_into(b"5AABAA-a", 0, &mut out[..1]).unwrap_err();
    assert_eq!((refusal.number, out), (Number::Room, [0xAA; 9]));
    let refusal = read_binary_into(binary, 0, &mut out[..1]).unwrap_err();
    assert_eq!((refusal.number, out), (Number::Room, [0xAA; 9]));
    let item = read_binary_into(binary, 0, &mut out[..2]).unwrap();
    assert_eq!((item.text(), item.raw()), (Some("-a"), &[][..]));
    assert_eq!((&out[..2], &out[2..]), (&b"-a"[..], &[0xAA; 7][..]));
    // A raw value isn't, and asks no room.
    let item = read_binary_into(b"\xE4\x10\x01\0hi", 0, &mut []).unwrap();
    assert_eq!((item.text(), item.raw()), (None, &b"hi"[..]));
    let mut out = [0xAA; 9];

    let code = cesr::Code::small(b'B');
    let refusal = write_into(Form::Text, code, b"", b"hi", &mut out[..7]).unwrap_err();
    assert_eq!((refusal.number, out), (Number::Room, [0xAA; 9]));
    assert_eq!(write_into(Form::Text, code, b"", b"hi", &mut out), Ok(8));
    assert_eq!(&out, b"5BABAGhp\xAA");

    let mut out = [0xAA; 4];
    let refusal = to_binary_into(b"1AAM", &mut out[..2]).unwrap_err();
    assert_eq!((refusal.number, out), (Number::Room, [0xAA; 4]));
    assert_eq!(to_binary_into(b"1AAM", &mut out), Ok(3));
    assert_eq!(out, [0xD4, 0x00, 0x0C, 0xAA]);
    let mut out = [0xAA; 4];
    assert_eq!(to_text_into(b"\xD4\x00\x0C", &mut out), Ok(4));
    assert_eq!(&out, b"1AAM");
}

/// A writer's refusals: an unknown code, a tag's length, a character of a tag or
/// text, and a text that starts with `A`.
#[test]
fn what_a_writer_refuses() {
    let tag = cesr::Code::fixed(1, b'X');
    let text = cesr::Code::small(b'A');
    for (code, tags, raw, number, place) in [
        (
            cesr::Code::GenusVersion,
            &b""[..],
            &b""[..],
            Number::UnknownCode,
            0,
        ),
        (
            cesr::Code::SmallGroup { letter: b'A' },
            b"",
            b"",
            Number::UnknownCode,
            0,
        ),
        (tag, b"ab", b"", Number::UnfitLength, 0),
        (tag, b"abcdefghijklm", b"", Number::UnfitLength, 0),
        (tag, b"abc", b"1", Number::UnfitLength, 0),
        (tag, b"a!+", b"", Number::Character, 1),
        (tag, b"a+!", b"", Number::OrdinaryBase64, 1),
        (text, b"", b"A-a", Number::TextFill, 0),
        (text, b"", b"A!+", Number::Character, 1),
        (text, b"", b"-a=", Number::OrdinaryBase64, 2),
        (text, b"a", b"A", Number::UnfitLength, 0),
    ] {
        let refusal = write(Form::Binary, code, tags, raw).unwrap_err();
        assert_eq!((refusal.number, refusal.place), (number, place), "{code:?}");
    }
}

/// Values of the largest size come through `read` and `write` whole.
#[test]
fn the_longest_values_are_read_and_written() {
    for (code, length) in [
        (Code::small(b'B'), 12_285),
        (Code::large(b'B'), 12_286),
        (Code::large(b'B'), 3_145_722),
    ] {
        let raw = Random::new(7).bytes(length);
        for form in [Form::Text, Form::Binary] {
            let item = write(form, code, b"", &raw).unwrap();
            assert_eq!(read(form, &item, 0).unwrap().raw(), &raw[..]);
            assert_eq!(write_variable(form, b'B', &raw), Ok(item));
        }
    }
    for (code, length) in [
        (Code::small(b'A'), 16_380),
        (Code::large(b'A'), 16_381),
        (Code::large(b'A'), 4_194_296),
    ] {
        let text = "-a-label".repeat(length / 8 + 1);
        let text = &text[..length];
        for form in [Form::Text, Form::Binary] {
            let item = write(form, code, b"", text.as_bytes()).unwrap();
            assert_eq!(read(form, &item, 0).unwrap().text(), Some(text));
            assert_eq!(write_variable(form, b'A', text.as_bytes()), Ok(item));
        }
    }
    let refusal = write(Form::Text, cesr::Code::small(b'B'), b"", &[0; 12_286]).unwrap_err();
    assert_eq!(refusal.number, Number::UnfitLength);
    let refusal = write(Form::Text, cesr::Code::large(b'B'), b"", &[0; 12_285]).unwrap_err();
    assert_eq!((refusal.number, refusal.place), (Number::NotShort, 0));
}

/// By the type alone: each value has one code, of the two that name its type
/// the other is refused, and what is refused leaves the buffer.
#[test]
fn a_value_has_one_code() {
    let raw = Random::new(9).bytes(12_300);
    for letter in *b"BCDEFH" {
        for length in (0..40).chain(12_280..12_300) {
            for form in [Form::Text, Form::Binary] {
                let raw = &raw[..length];
                let item = write_variable(form, letter, raw).unwrap();
                let found = read(form, &item, 0).unwrap();
                let large = length > 12_285;
                let [code, other] = [large, !large].map(|large| match large {
                    true => Code::large(letter),
                    false => Code::small(letter),
                });
                assert_eq!((found.head.code(), found.raw()), (code, raw));
                let number = if large {
                    Number::UnfitLength
                } else {
                    Number::NotShort
                };
                let refusal = write(form, other, b"", raw).unwrap_err();
                assert_eq!((refusal.number, refusal.place), (number, 0));
                let mut out = vec![0xAA; item.len()];
                let refusal = write_variable_into(form, letter, raw, &mut out[1..]).unwrap_err();
                assert_eq!((refusal.number, refusal.place), (Number::Room, 0));
                assert!(out.iter().all(|byte| *byte == 0xAA));
                let length = write_variable_into(form, letter, raw, &mut out).unwrap();
                assert_eq!((length, &out), (item.len(), &item));
            }
        }
    }
}

/// A letter that is no type, and one more than a large code holds.
#[test]
fn no_code_holds_it() {
    for (letter, length, number) in [
        (b'G', 0, Number::UnknownCode),
        (b'G', 3_145_723, Number::UnknownCode),
        (0, 12_286, Number::UnknownCode),
        (b'B', 3_145_723, Number::UnfitLength),
        (b'A', 4_194_297, Number::UnfitLength),
    ] {
        for form in [Form::Text, Form::Binary] {
            let refusal = write_variable(form, letter, &vec![0; length]).unwrap_err();
            assert_eq!((refusal.number, refusal.place), (number, 0));
        }
    }
}

/// The same of texts: 16,380 characters with their fill are the most of a small
/// code; the selector tells the fill.
#[test]
fn a_text_has_one_code() {
    let text = "-a-label".repeat(2_050);
    for length in (0..40).chain(16_370..16_390) {
        for form in [Form::Text, Form::Binary] {
            let text = &text[..length];
            let item = write_variable(form, b'A', text.as_bytes()).unwrap();
            let found = read(form, &item, 0).unwrap();
            let large = length > 16_380;
            let [code, other] = [large, !large].map(|large| match large {
                true => Code::large(b'A'),
                false => Code::small(b'A'),
            });
            assert_eq!((found.head.code(), found.text()), (code, Some(text)));
            assert_eq!(found.head.lead(), [0, 2, 1, 0][length % 4]);
            assert_eq!(found.size, item.len());
            let number = if large {
                Number::UnfitLength
            } else {
                Number::NotShort
            };
            let refusal = write(form, other, b"", text.as_bytes()).unwrap_err();
            assert_eq!((refusal.number, refusal.place), (number, 0));
        }
    }
}

/// 02 a: within `-K` and `-L` stand indexed items and nothing else, and they
/// stand nowhere else; each is read by itself as the walk has it, and written
/// anew it is the same.
#[test]
fn indexed_items_stand_in_signature_groups() {
    let mut seen = 0;
    each_case(|seed, form, stream| {
        let mut around: Vec<(usize, bool)> = Vec::new();
        for step in Walk::new(form, stream).map_while(Result::ok) {
            around.retain(|(end, _)| *end > step.offset);
            let signed = around.last().is_some_and(|(_, signed)| *signed);
            let Code::Indexed(code) = step.head.code() else {
                assert!(!signed, "seed {seed} {form}");
                if let Code::SmallGroup { letter } | Code::LargeGroup { letter } = step.head.code()
                {
                    around.push((step.offset + step.size, b"KL".contains(&letter)));
                }
                continue;
            };
            assert!(signed && code.name().is_some(), "seed {seed} {form}");
            let item = read_indexed(form, stream, step.offset).unwrap();
            assert_eq!(
                (item.code, item.size),
                (code, step.size),
                "seed {seed} {form}"
            );
            let again = write_indexed(form, code, item.index, item.ondex, &item.raw).unwrap();
            assert_eq!(again, stream[step.offset..step.offset + step.size]);
        }
    });
    for seed in 0..CASES {
        let stream = made(seed, Form::Text);
        let steps = Walk::new(Form::Text, &stream).map_while(Result::ok);
        let indexed = |step: &cesr::Step| matches!(step.head.code(), Code::Indexed(_));
        seen += steps.filter(indexed).count();
    }
    assert!(seen > 100, "{seen}");
}

/// A report's own expectation has the report's verdict bytes and remainder's
/// number, and by the library its report is as expected.
#[test]
fn a_reports_own_expectation() {
    each_case(|seed, form, stream| {
        let report = judge(form, stream).unwrap();
        let bytes = report.as_bytes();
        let items = report.items().len();
        let verdicts: Vec<u8> = (0..items).map(|index| bytes[12 + 9 * index]).collect();
        let expected = Expectation::of(&report);
        assert_eq!(expected.verdicts, verdicts, "seed {seed} {form}");
        let last = bytes.last().copied();
        let remainder = report.remainder().and(last);
        assert_eq!(expected.remainder, remainder, "seed {seed} {form}");
        let found = compare(&expected.to_bytes(), bytes).unwrap();
        assert!(found.is_as_expected(), "seed {seed} {form} {found:?}");
        assert_eq!((found.passed, found.expected()), (items, items));
    });
}

/// A group around a stream, by each of the three ways; refused, what was there
/// stays.
#[test]
fn groups_around_streams() {
    each_case(|seed, form, stream| {
        let letter = GROUPS[seed as usize % GROUPS.len()];
        let group = write_group(form, letter, stream);
        let mut builder = Builder::new(form);
        let enclosed = builder.append(stream).enclose(letter).map(drop);
        let mut beside = Builder::new(form);
        beside.append(b"before");
        let within = beside.group(letter, |body| {
            body.append(stream);
            Ok(())
        });
        assert_eq!(within.map(drop), enclosed);
        let mut buffer = [stream, &[7; 8]].concat();
        let into = write_group_into(form, letter, stream.len(), &mut buffer);
        match group {
            Ok(group) => {
                assert!(judge(form, &group).unwrap().passed());
                assert_eq!(into, Ok(group.len()));
                assert_eq!(buffer[..group.len()], group);
                assert_eq!(beside.as_bytes(), [b"before", &group[..]].concat());
                assert_eq!(builder.into_bytes(), group);
            }
            Err(refusal) => {
                assert_eq!((into, enclosed), (Err(refusal), Err(refusal)));
                assert_eq!(builder.as_bytes(), stream);
                assert_eq!(beside.as_bytes(), b"before");
            }
        }
    });
}

/// Every item that can be written, beside each other in a group of a group.
#[test]
fn a_builder_writes_what_the_writers_write() -> Result<(), Refusal> {
    for form in [Form::Text, Form::Binary] {
        let number = write(form, Code::fixed(1, b'M'), b"", &[0, 1])?;
        let tag = write(form, Code::fixed(1, b'X'), b"abc", b"")?;
        let value = write_variable(form, b'B', b"hello")?;
        let code = IndexedCode::new(Some(b'2'), b'A');
        let signature = write_indexed(form, code, 65, 2, &[9; 64])?;
        let signed = write_group(form, b'L', &signature)?;
        let body = [&number[..], &tag, &signed, &value].concat();
        let mut builder = Builder::new(form);
        builder
            .primitive(Code::fixed(1, b'M'), b"", &[0, 1])?
            .primitive(Code::fixed(1, b'X'), b"abc", b"")?
            .group(b'L', |body| body.indexed(code, 65, 2, &[9; 64]).map(drop))?
            .variable(b'B', b"hello")?;
        assert_eq!(builder.as_bytes(), body);
        assert_eq!(builder.form(), form);
        builder.enclose(b'J')?.enclose(b'A')?;
        let inner = write_group(form, b'J', &body)?;
        assert_eq!(builder.as_bytes(), write_group(form, b'A', &inner)?);
        // What is refused is not there.
        let before = builder.clone();
        assert!(builder.primitive(Code::fixed(1, b'M'), b"", &[]).is_err());
        assert!(builder.variable(b'G', b"").is_err());
        assert!(builder.indexed(code, 4096, 0, &[9; 64]).is_err());
        let refused = builder.group(b'L', |_| {
            Err(Refusal {
                number: Number::Room,
                place: 9,
            })
        });
        assert_eq!(refused.unwrap_err().place, 9);
        assert_eq!(builder, before);
    }
    Ok(())
}

/// 63 groups one in the other pass in a body, 64 are 11.
#[test]
fn groups_as_deep_as_they_may_be() {
    for form in [Form::Text, Form::Binary] {
        let mut builder = Builder::new(form);
        for _ in 0..64 {
            builder.enclose(b'J').unwrap();
        }
        let refusal = builder.enclose(b'J').unwrap_err();
        assert_eq!(refusal.number, Number::TooDeep);
        assert_eq!(refusal.place, 63 * form.unit());
    }
}

/// By the second engine the same, and what its working room asks for and holds.
#[test]
fn the_second_engine_answers_the_same() {
    each_case(|seed, form, stream| {
        let first = judge(form, stream);
        let second = judge_second(form, stream);
        assert_eq!(difference(&first, &second), None, "{seed} {form}");
        let asked = working_room(form, stream.len());
        let mut out = vec![0; Report::room(form, stream.len())];
        let mut work = vec![b'.'; asked + 3];
        let lent = judge_second_into(form, stream, &mut work, &mut out);
        assert_eq!(difference(&first, &lent), None, "{seed} {form}");
        if form == Form::Text {
            assert_eq!((asked, &work[..]), (0, &b"..."[..]));
            return;
        }
        let whole = &stream[..stream.len() / 3 * 3];
        assert_eq!(to_text(whole).as_deref(), Ok(&work[..asked]));
        assert_eq!(&work[asked..], b"...");
        if let Some(less) = asked.checked_sub(1) {
            let mut work = vec![b'.'; less];
            let refused = judge_second_into(form, stream, &mut work, &mut out);
            let number = refused.map_err(|refusal| refusal.number).map(drop);
            assert_eq!(number, Err(Number::Room));
            assert!(work.iter().all(|byte| *byte == b'.'));
        }
    });
    for form in [Form::Text, Form::Binary] {
        let long = vec![b'A'; form.limit() + 1];
        assert_eq!(judge_second(form, &long), judge(form, &long));
    }
}
