//! Seeded noise: nothing panics, and what 01 says of every report holds.

mod common;

use common::{around, binary, nested};
use oracle::alphabet::character;
use oracle::convert::{to_binary, to_text, unit_to_bytes};
use oracle::form::Form;
use oracle::frame::frame_top_level;
use oracle::group::write as write_group;
use oracle::judge::{judge, MOST_GROUPS};
use oracle::mixed::{self, Kind};
use oracle::primitive::{read_binary, read_text, write, Named, Primitive, Tag};
use oracle::registry::{Code, FIXED, INDEXED, VARIABLE};
use oracle::report::{report, write_report, Report};
use oracle::walk::{step, Found, Walk};
use oracle::Refusal;

/// Accepted and refused items, and what cannot be framed.
#[rustfmt::skip]
const PIECES: [&str; 32] = [
    "MAAB", "MQAA", "0HD_____", "0HEAAAAA", "VABh", "VBAA", "1AAM", "4BAA", "5BAA", "5BABAGhp",
    "6BABAABh", "0J_A", "0JAA", "-_AAACAA", "-_AAABAA", "7AABAAABAAAA", "XABC", "-0AA", "-AAA",
    "-KAA", "bAAA", "1AAK", "MA!A", "0HAA==AA", "9AABAAAA", "MA+A",
    "0HAA!/AA", "4AAA", "4AABAAAA", "5AABAA-a", "5AABAB-a", "6AABAAA-",
];

/// Marsaglia's xorshift with 64 bits.
struct Noise(u64);

impl Noise {
    fn next(&mut self) -> u64 {
        self.0 ^= self.0 << 13;
        self.0 ^= self.0 >> 7;
        self.0 ^= self.0 << 17;
        self.0
    }

    fn below(&mut self, limit: usize) -> usize {
        (self.next() % limit as u64) as usize
    }

    fn bytes(&mut self, length: usize) -> Vec<u8> {
        (0..length).map(|_| self.next() as u8).collect()
    }

    fn characters(&mut self, length: usize) -> String {
        const ALPHABET: &[u8; 64] =
            b"ABCDEFGHIJKLMNOPQRSTUVWXYZabcdefghijklmnopqrstuvwxyz0123456789-_";
        let mut one = || ALPHABET[self.below(64)] as char;
        (0..length).map(|_| one()).collect()
    }

    /// An indexed item of any code, often with ondex digits or pad bits set.
    fn indexed(&mut self) -> String {
        let row = INDEXED[self.below(INDEXED.len())];
        let zero = self.below(2) == 0;
        let ondex = match zero {
            true => "A".repeat(row.ondex),
            false => self.characters(row.ondex),
        };
        let front = ["A", "D", "E", "_"][self.below(4)];
        let head = format!("{}{}{ondex}{front}", row.code, self.characters(row.index));
        let rest = self.characters(row.full - head.len());
        head + &rest
    }

    /// A stream of pieces that are likely to be framed, whole or not.
    fn likely(&mut self, pieces: usize) -> String {
        let mut stream = String::new();
        for _ in 0..pieces {
            if self.below(40) == 0 {
                stream += &nested('J', 63 + self.below(3));
            } else if self.below(10) == 0 {
                let items = 1 + self.below(3);
                let body: String = (0..items).map(|_| self.indexed()).collect();
                stream += &around(b"KL"[self.below(2)] as char, 1, &body);
            } else if self.below(3) == 0 {
                let letter = b"ABCJKLZ"[self.below(7)] as char;
                let count = (b'A' + self.below(7) as u8) as char;
                let large = self.below(8) == 0;
                stream += &if large {
                    format!("--{letter}AAAA{count}")
                } else {
                    format!("-{letter}A{count}")
                };
            } else {
                stream += PIECES[self.below(PIECES.len())];
            }
        }
        stream
    }
}

/// Every call on one stream, at several offsets and states.
fn try_every_call(noise: &mut Noise, stream: &[u8]) {
    let mut out = vec![0; noise.below(600)];
    let _ = to_binary(stream, &mut out);
    let _ = to_text(stream, &mut out);
    for form in [Form::Text, Form::Binary] {
        let _ = write_report(stream, form, &mut out);
        check_report(stream, form);
        check_walk(stream, form);
        check_group(noise, stream, form);
        let mut state = Walk::start();
        for end in state.ends.iter_mut().take(3) {
            *end = noise.below(stream.len() + 2);
        }
        state.open = noise.below(5);
        state.position = noise.below(stream.len() + 2);
        state.first = noise.below(2) == 0;
        state.indexed = noise.below(2) == 0;
        let _ = step(state, stream, form);
    }
    for _ in 0..4 {
        let offset = noise.below(stream.len() + 2);
        let _ = read_text(stream, offset, &mut out);
        let _ = read_binary(stream, offset, &mut out);
    }
    let _ = read_text(stream, usize::MAX, &mut out);
    let _ = read_binary(stream, usize::MAX, &mut out);
}

/// 01, "The report": the rows tile the stream, the counts agree, and every
/// item has the verdict and the place that it gets by itself.
fn check_report(stream: &[u8], form: Form) {
    let found = report(stream, form).unwrap();
    let mut offset = 0;
    for (index, row) in found.items.iter().enumerate() {
        assert_eq!(row.offset, offset);
        offset += row.size;
        let alone = report(&stream[row.offset..offset], form).unwrap();
        assert_eq!((alone.items.len(), alone.remainder), (1, None));
        assert_eq!(alone.items[0].verdict, row.verdict);
        let own = alone.refusals.first().map(|r| (r.number, r.place));
        let moved = own.map(|(number, place)| (index, number, place + row.offset));
        let here = found.refusals.iter().find(|r| r.index == index);
        assert_eq!(here.map(|r| (r.index, r.number, r.place)), moved);
        assert_eq!(moved.map_or(0, |(_, number, _)| number), row.verdict);
    }
    assert_eq!(found.remainder.map_or(stream.len(), |r| r.offset), offset);
    let accepted = found.items.iter().filter(|row| row.verdict == 0).count();
    assert_eq!(found.items.len(), accepted + found.refusals.len());
}

/// The walk yields the report's items as its items of depth 0, and stops at
/// the first refusal of the report in stream order.
fn check_walk(stream: &[u8], form: Form) {
    let found = report(stream, form).unwrap();
    let (mut state, mut top_level) = (Walk::start(), Vec::new());
    let last = loop {
        match step(state, stream, form) {
            (
                next,
                Found::Item {
                    offset,
                    size,
                    depth,
                    ..
                },
            ) => {
                state = next;
                if depth == 0 {
                    top_level.push((offset, size));
                }
            }
            (_, last) => break last,
        }
    };
    let rows: Vec<_> = found.items.iter().map(|r| (r.offset, r.size)).collect();
    assert!(rows.starts_with(&top_level));
    match (found.refusals.first(), found.remainder) {
        (Some(row), _) => {
            let (number, place) = (row.number, row.place);
            assert_eq!(last, Found::Refused { number, place });
        }
        (None, Some(rest)) => {
            assert!(matches!(last, Found::Refused { number, .. } if number == rest.number))
        }
        (None, None) => assert_eq!((last, top_level.len()), (Found::End, rows.len())),
    }
}

/// A body is put into a group exactly if the header and the body, judged as a
/// stream, are one accepted item; else the refusal is that of the body, counted
/// on.
fn check_group(noise: &mut Noise, stream: &[u8], form: Form) {
    let letter = b"ABCDJKLZac"[noise.below(10)];
    let body = &stream[..stream.len() - stream.len() % form.unit()];
    let units = body.len() / form.unit();
    let digits = [units / 64, units % 64].map(|digit| character(digit as u8));
    let header = [b'-', letter, digits[0], digits[1]];
    let header = match form {
        Form::Text => header.to_vec(),
        Form::Binary => unit_to_bytes(header).unwrap().to_vec(),
    };
    assert!(units < 4096, "the noise is short");
    let group = [&header, body].concat();
    let judged = report(&group, form).unwrap();
    assert_eq!((judged.items.len(), judged.remainder), (1, None));
    let mut buffer = [body, &header].concat();
    let answer = write_group(letter, form, body.len(), &mut buffer);
    match judged.refusals.first() {
        None => assert_eq!((answer, buffer), (Ok(group.len()), group)),
        Some(row) => {
            let refused = Refusal::new(row.number, row.place - header.len());
            assert_eq!(answer, Err(refused));
            assert_eq!(buffer, [body, &header].concat());
        }
    }
}

/// 02 d: "Demand 3 holds with this header". The rows of a mixed report tile the
/// stream, every item has the verdict and the place that it gets by itself, and a
/// CESR item the one that 01's report of its form gives it.
fn check_mixed(stream: &[u8]) {
    let whole = mixed::report(stream).unwrap();
    let (mut end, mut refusals) = (0, whole.refusals.iter().peekable());
    for row in &whole.items {
        assert_eq!((row.offset, Kind::of(stream[end])), (end, Some(row.kind)));
        end += row.size;
        let item = &stream[row.offset..end];
        let own = mixed::report(item).unwrap();
        assert_eq!((own.items.len(), own.remainder), (1, None));
        let alone = own.items[0];
        assert_eq!((alone.size, alone.verdict), (row.size, row.verdict));
        let place = own
            .refusals
            .first()
            .map(|r| (r.number, row.offset + r.place));
        let told = refusals.next_if(|_| row.verdict > 0);
        assert_eq!(place, told.map(|r| (r.number, r.place)));
        let form = match row.kind {
            Kind::Text => Form::Text,
            Kind::Binary => Form::Binary,
            Kind::Json => continue,
        };
        let by_01 = report(item, form).unwrap();
        assert_eq!(
            (by_01.items[0].size, by_01.items[0].verdict),
            (row.size, row.verdict)
        );
        assert_eq!(by_01.refusals, own.refusals);
    }
    assert_eq!(refusals.next(), None);
    let rest = whole.remainder.map_or(stream.len(), |rest| rest.offset);
    assert_eq!(rest, end);
}

/// JSON items, right and wrong, and the pieces as groups in both forms.
#[test]
fn mixed_noise() {
    let mut noise = Noise(0x02D);
    let mut seen = [0; 20];
    for _ in 0..4000 {
        let mut stream = Vec::new();
        for _ in 0..noise.below(6) {
            let piece = PIECES[noise.below(PIECES.len())];
            let group = around('J', noise.below(3), piece);
            match noise.below(6) {
                0 | 1 => stream.extend(group.bytes()),
                2 | 3 if group.bytes().all(|c| !b"!=+/".contains(&c)) => {
                    stream.extend(binary(&group))
                }
                4 => {
                    let length = noise.below(40);
                    let body = noise.bytes(length);
                    let stated = 23 + length + usize::from(noise.below(8) == 0);
                    stream.extend(format!(r#"{{"v":"KERI10JSON{stated:06x}_"#).bytes());
                    stream.extend(body);
                }
                _ => {
                    let length = noise.below(3);
                    stream.extend(noise.bytes(length));
                }
            }
        }
        check_mixed(&stream);
        let report = mixed::report(&stream).unwrap();
        report
            .items
            .iter()
            .for_each(|row| seen[usize::from(row.verdict)] += 1);
        report
            .remainder
            .iter()
            .for_each(|row| seen[usize::from(row.number)] += 1);
    }
    for number in [0, 4, 5, 6, 7, 8, 9, 10, 16, 17, 18, 19] {
        assert!(seen[number] > 0, "{number} was not met");
    }
}

#[test]
fn nothing_panics_on_bytes() {
    let mut noise = Noise(0x0123_4567_89AB_CDEF);
    for _ in 0..4000 {
        let length = noise.below(120);
        let stream = noise.bytes(length);
        try_every_call(&mut noise, &stream);
    }
}

#[test]
fn nothing_panics_on_characters() {
    let mut noise = Noise(0xFEED_FACE_CAFE_BEEF);
    for _ in 0..4000 {
        let length = noise.below(120);
        let stream = noise.characters(length);
        try_every_call(&mut noise, stream.as_bytes());
    }
}

#[test]
fn nothing_panics_on_likely_streams() {
    let mut noise = Noise(0xDEAD_BEEF_0BAD_F00D);
    for _ in 0..8000 {
        let pieces = noise.below(16);
        let mut stream = noise.likely(pieces).into_bytes();
        stream.truncate(stream.len() - noise.below(2).min(stream.len()));
        if !stream.is_empty() && noise.below(3) == 0 {
            let place = noise.below(stream.len());
            stream[place] = noise.next() as u8;
        }
        try_every_call(&mut noise, &stream);
    }
}

#[test]
fn the_noise_meets_every_number() {
    // D44: a verdict is 4 to 11, 15, 16, 18 or 19, a remainder's number 4 to 7 or
    // 19.
    let mut noise = Noise(0xDEAD_BEEF_0BAD_F00D);
    let (mut verdicts, mut remainders) = ([0; 256], [0; 256]);
    for _ in 0..8000 {
        let pieces = noise.below(16);
        let stream = noise.likely(pieces);
        let found = report(stream.as_bytes(), Form::Text).unwrap();
        for row in &found.items {
            verdicts[usize::from(row.verdict)] += 1;
        }
        if let Some(rest) = found.remainder {
            remainders[usize::from(rest.number)] += 1;
        }
    }
    for number in 0..256 {
        let verdict = matches!(number, 0 | 4..=11 | 15 | 16 | 18 | 19);
        assert_eq!(verdicts[number] > 0, verdict, "verdict {number}");
        let remainder = matches!(number, 4..=7 | 19);
        assert_eq!(remainders[number] > 0, remainder, "remainder {number}");
    }
}

/// 02 g: "Streams whose report held no 11 keep it". Within so many groups that
/// only 16 more may be open, an item that isn't 11 is judged as it is alone.
#[test]
fn what_is_not_11_under_a_lower_limit_is_the_same() {
    let mut noise = Noise(0x0640_0016);
    let (mut kept, mut deeper) = ([0; 2], 0);
    for _ in 0..8000 {
        let (groups, pieces) = (1 + noise.below(30), noise.below(4));
        let stream = around('J', groups, &noise.likely(pieces));
        let Ok(framed) = frame_top_level(stream.as_bytes(), Form::Text, 0) else {
            continue;
        };
        let under = |around| judge(stream.as_bytes(), Form::Text, &framed, around);
        match under(MOST_GROUPS - 16) {
            Err(refusal) if refusal.number == 11 => deeper += 1,
            verdict => {
                assert_eq!(under(0), verdict, "{stream}");
                kept[usize::from(verdict.is_err())] += 1;
            }
        }
    }
    let met = kept.into_iter().chain([deeper]).all(|times| times > 1000);
    assert!(met, "{kept:?} {deeper}");
}

/// 02 j: "number 19 where they would have given 5, at the same place in the
/// same order". With `!` for each `+`, `/`, `=` every answer is the same but for
/// the number, which is 19 exactly where one of the three stood at the place.
#[test]
fn only_the_number_tells_the_ordinary_alphabet() {
    let mut noise = Noise(0x19);
    let mut met = [0; 2];
    for _ in 0..8000 {
        let pieces = noise.below(12);
        let mut stream = noise.likely(pieces).into_bytes();
        for _ in 0..noise.below(4).min(stream.len()) {
            let place = noise.below(stream.len());
            stream[place] = b"+/=!\n "[noise.below(6)];
        }
        let plain = masked(&stream);
        let number = |number: u8, place: usize| match (number, stream[place]) {
            (5, b'+' | b'/' | b'=') => 19,
            (number, _) => number,
        };
        let told = report(&stream, Form::Text).unwrap();
        let mut same = report(&plain, Form::Text).unwrap();
        for row in &mut same.refusals {
            row.number = number(row.number, row.place);
            same.items[row.index].verdict = row.number;
            met[usize::from(row.number == 19)] += 1;
        }
        // A remainder has no place: the first stranger of its header.
        if let Some(rest) = &mut same.remainder {
            let stranger = plain[rest.offset..]
                .iter()
                .position(|c| b"!\n ".contains(c));
            let place = rest.offset + stranger.unwrap_or(0);
            rest.number = number(rest.number, place);
        }
        assert_eq!(told, same, "{}", String::from_utf8_lossy(&stream));
        let room = stream.len();
        let [ours, theirs] = [&stream, &plain].map(|s| to_binary(s, &mut vec![0; room]));
        let theirs = theirs.map_err(|r| (number(r.number, r.place), r.place));
        assert_eq!(ours.map_err(|r| (r.number, r.place)), theirs);
    }
    assert!(met.iter().all(|times| *times > 1000), "{met:?}");
}

fn masked(stream: &[u8]) -> Vec<u8> {
    let mask = |c: &u8| if b"+/=".contains(c) { b'!' } else { *c };
    stream.iter().map(mask).collect()
}

/// Text measures as binary ones: four characters are three bytes. Odd places
/// are none of an item's, and 5 and 19, which have them, are not in binary.
fn in_bytes(report: &Report) -> Report {
    let mut same = report.clone();
    for row in &mut same.items {
        (row.offset, row.size) = (row.offset / 4 * 3, row.size / 4 * 3);
    }
    for row in &mut same.refusals {
        row.place = row.place / 4 * 3;
    }
    if let Some(rest) = &mut same.remainder {
        rest.offset = rest.offset / 4 * 3;
    }
    same
}

#[test]
fn text_and_binary_reports_agree() {
    let mut noise = Noise(0x5EED_5EED_5EED_5EED);
    for round in 0..8000 {
        let pieces = noise.below(16);
        let stream = if round % 2 == 0 {
            noise.likely(pieces)
        } else {
            noise.characters(4 * pieces)
        };
        if stream.contains(['!', '=', '+', '/']) {
            continue;
        }
        let text = report(stream.as_bytes(), Form::Text).unwrap();
        let bytes = report(&binary(&stream), Form::Binary).unwrap();
        assert_eq!(in_bytes(&text), bytes, "{stream}");
    }
}

#[test]
fn conversions_are_inverse() {
    let mut noise = Noise(42);
    for _ in 0..2000 {
        let units = noise.below(20);
        let stream = noise.characters(4 * units);
        let mut back = vec![0; 4 * units];
        assert_eq!(to_text(&binary(&stream), &mut back), Ok(4 * units));
        assert_eq!(back, stream.as_bytes());
    }
}

/// Writes to both forms and reads back. A text's characters stand for `raw`.
fn round_trip(named: Named, tag: &Tag, raw: &[u8]) -> Primitive {
    let mut text = vec![0; 200 + raw.len() / 3 * 4];
    let size = write(named, tag, raw, Form::Text, &mut text).unwrap();
    let mut out = vec![0; raw.len()];
    let found = read_text(&text[..size], 0, &mut out).unwrap();
    assert_eq!((found.size, &out[..]), (size, raw));
    assert_eq!(found.tag, *tag);
    assert_eq!(found.raw + found.text, raw.len());
    let mut bytes = vec![0; size / 4 * 3];
    let length = write(named, tag, raw, Form::Binary, &mut bytes).unwrap();
    assert_eq!(length, bytes.len());
    out.fill(0);
    let (same, part) = read_binary(&bytes, 0, &mut out).unwrap();
    assert_eq!((same.code, same.tag), (found.code, *tag));
    assert_eq!((same.raw, same.text), (found.raw, found.text));
    let back = if same.text > 0 { &out[..] } else { part };
    assert_eq!(back, raw);
    let whole = std::str::from_utf8(&text[..size]).unwrap();
    assert_eq!(binary(whole), bytes);
    found
}

#[test]
fn every_fixed_code_is_written_and_read_back() {
    let mut noise = Noise(7);
    for row in FIXED.iter() {
        for _ in 0..20 {
            let raw = noise.bytes(row.raw());
            let tag = Tag::of(noise.characters(row.tag).as_bytes());
            let found = round_trip(Named::Fixed(row.code.as_bytes()), &tag, &raw);
            assert_eq!((found.code, found.size), (Code::Fixed(row), row.full));
        }
    }
}

#[test]
fn every_variable_type_is_written_and_read_back() {
    let mut noise = Noise(11);
    for (letter, _) in VARIABLE.into_iter().filter(|row| row.0 != b'A') {
        for length in (0..100).chain(12_280..12_292) {
            // 02 h: each length has one of the two codes.
            let large = length > 12_285;
            let raw = noise.bytes(length);
            let named = Named::Variable { letter, large };
            let found = round_trip(named, &Tag::NONE, &raw);
            let lead = (3 - length % 3) % 3;
            let first = if large { b'7' } else { b'4' };
            let selector = first + lead as u8;
            assert_eq!(found.code, Code::Variable { selector, letter });
        }
    }
}

#[test]
fn every_text_is_written_and_read_back() {
    let mut noise = Noise(12);
    for length in (0..100).chain(16_370..16_390) {
        let large = length > 16_380;
        let mut text = noise.characters(length).into_bytes();
        if let Some(first) = text.first_mut().filter(|first| **first == b'A') {
            *first = b'-';
        }
        let letter = b'A';
        let named = Named::Variable { letter, large };
        let found = round_trip(named, &Tag::NONE, &text);
        // Four characters or three in the first unit, two, one.
        let lead = [0, 2, 1, 0][length % 4];
        let selector = if large { b'7' } else { b'4' } + lead;
        assert_eq!(found.code, Code::Variable { selector, letter });
    }
}

/// "Selectors 4 and 7 take off one `A` if there is one": an accepted text, read
/// and written again, is the item that was read.
#[test]
fn an_accepted_text_has_one_spelling() {
    let mut noise = Noise(13);
    let mut met = [0; 2];
    for _ in 0..4000 {
        let units = 1 + noise.below(4);
        let selector = b"456"[noise.below(3)] as char;
        let mut value = noise.characters(4 * units);
        let front = noise.below(5);
        value.replace_range(..front, &"AAAA"[..front]);
        let item = format!("{selector}AA{}{value}", (b'A' + units as u8) as char);
        let mut out = [0; 16];
        let Ok(found) = read_text(item.as_bytes(), 0, &mut out) else {
            met[0] += 1;
            continue;
        };
        met[1] += 1;
        let named = Named::Variable {
            letter: b'A',
            large: false,
        };
        let mut again = [0; 20];
        let size = write(
            named,
            &Tag::NONE,
            &out[..found.text],
            Form::Text,
            &mut again,
        );
        assert_eq!(&again[..size.unwrap()], item.as_bytes());
    }
    assert!(met.iter().all(|times| *times > 500), "{met:?}");
}

#[test]
fn damage_behind_a_header_stays_in_its_item() {
    // Demand 3: rows of the items that are unchanged stay, and the remainder.
    let mut noise = Noise(0xDA3A_6E00_0000_0001);
    for _ in 0..4000 {
        let pieces = 1 + noise.below(16);
        let stream = noise.likely(pieces).into_bytes();
        let before = report(&stream, Form::Text).unwrap();
        if before.items.is_empty() {
            continue;
        }
        let hit = noise.below(before.items.len());
        let item = before.items[hit];
        let framed = frame_top_level(&stream, Form::Text, item.offset).unwrap();
        if framed.size == framed.header {
            continue;
        }
        let mut damaged = stream.clone();
        let place = framed.behind_header() + noise.below(framed.size - framed.header);
        damaged[place] = noise.next() as u8;
        let after = report(&damaged, Form::Text).unwrap();
        assert_eq!(after.items.len(), before.items.len());
        assert_eq!(after.remainder, before.remainder);
        let pairs = before.items.iter().zip(&after.items).enumerate();
        assert!(pairs.clone().all(|(i, (a, b))| i == hit || a == b));
        assert_eq!(after.items[hit].size, item.size);
    }
}

#[test]
fn long_streams_take_linear_time() {
    // The limit in the smallest items, and in 64 groups around them.
    let flat = "1AAK".repeat(1 << 20);
    let found = report(flat.as_bytes(), Form::Text).unwrap();
    assert_eq!((found.items.len(), found.refusals.len()), (1 << 20, 0));
    let mut stream = "1AAK".repeat((1 << 20) - 128);
    for _ in 0..64 {
        let units = stream.len() / 4;
        let digits = [18, 12, 6, 0].map(|shift| {
            let value = (units >> shift) as u8 & 63;
            oracle::alphabet::character(value) as char
        });
        stream = format!("--JA{}{stream}", digits.iter().collect::<String>());
    }
    assert_eq!(stream.len(), 4_194_304);
    let found = report(stream.as_bytes(), Form::Text).unwrap();
    assert_eq!((found.items.len(), found.refusals.len()), (1, 0));
}
