//! The recorded calls of `crates/vectors`: what the program there is fed, and
//! what it must write. Both come from this package, which shares nothing with
//! the program. `VECTORS_WRITE=1 cargo test -p oracle --test vectors` writes the
//! files anew; without it the files must be what they would be.

mod common;

use common::papers::{DECK, DIGESTS_OF_001, NUMBER, POST_PADDED_OF_001, SAD_PATHS, SHORTS_OF_002};
use common::{around, nested};
use oracle::compare::compare;
use oracle::convert;
use oracle::indexed::{self, IndexedItem};
use oracle::instalments::{walk_on, Pause};
use oracle::judge::MOST_GROUPS;
use oracle::primitive::{self, Named, Primitive, Tag};
use oracle::refusal::Refusal;
use oracle::registry::{Code, Indexed, FIXED, INDEXED, VARIABLE};
use oracle::report::write_report;
use oracle::walk::{step, Found, Walk};
use oracle::Form;
use std::fmt::Write as _;
use std::path::PathBuf;

const TO_BINARY: u8 = 1;
const TO_TEXT: u8 = 2;
const REPORT_TEXT: u8 = 3;
const REPORT_BINARY: u8 = 4;
const READ_TEXT: u8 = 5;
const READ_BINARY: u8 = 6;
const WRITE_TEXT: u8 = 7;
const WRITE_BINARY: u8 = 8;
const WALK_TEXT: u8 = 9;
const WALK_BINARY: u8 = 10;
const WALK_ON_TEXT: u8 = 13;
const WALK_ON_BINARY: u8 = 14;
const COMPARE: u8 = 20;
const READ_INDEXED_TEXT: u8 = 21;
const READ_INDEXED_BINARY: u8 = 22;
const WRITE_INDEXED_TEXT: u8 = 23;
const WRITE_INDEXED_BINARY: u8 = 24;

/// A walk's state: the ends, the number open, the position and the two marks.
const STATE: usize = MOST_GROUPS + 4;

/// A call with its input and the room lent.
struct Record {
    call: u8,
    room: usize,
    input: Vec<u8>,
}

impl Record {
    fn new(call: u8, room: usize, input: &[u8]) -> Record {
        Record {
            call,
            room,
            input: input.to_vec(),
        }
    }

    fn bytes(&self) -> Vec<u8> {
        let mut bytes = vec![self.call];
        bytes.extend((self.room as u16).to_be_bytes());
        bytes.extend((self.input.len() as u16).to_be_bytes());
        bytes.extend(&self.input);
        bytes
    }

    /// The line that the program must write: the lent buffer held AA before.
    fn line(&self) -> String {
        let mut out = vec![0xAA; self.room];
        let answer = match self.call {
            TO_BINARY => convert::to_binary(&self.input, &mut out),
            TO_TEXT => convert::to_text(&self.input, &mut out),
            REPORT_TEXT => write_report(&self.input, Form::Text, &mut out),
            REPORT_BINARY => write_report(&self.input, Form::Binary, &mut out),
            READ_TEXT | READ_BINARY => return self.read_line(),
            COMPARE => return self.compare_line(),
            READ_INDEXED_TEXT | READ_INDEXED_BINARY => return self.read_indexed_line(),
            WRITE_INDEXED_TEXT => write_indexed(&self.input, Form::Text, &mut out),
            WRITE_INDEXED_BINARY => write_indexed(&self.input, Form::Binary, &mut out),
            WALK_TEXT => return self.step_lines(Form::Text, 4),
            WALK_BINARY => return self.step_lines(Form::Binary, 3),
            WALK_ON_TEXT => return self.slice_lines(Form::Text, 4),
            WALK_ON_BINARY => return self.slice_lines(Form::Binary, 3),
            WRITE_TEXT => write(&self.input, Form::Text, &mut out),
            _ => write(&self.input, Form::Binary, &mut out),
        };
        line(self.call, answer, &out)
    }

    /// A step: the state in units and the item's six numbers; then the same
    /// as a reader's, and how many items are left and what stops the walk.
    fn step_lines(&self, form: Form, unit: usize) -> String {
        let (before, stream) = self.input.split_at(STATE);
        if before[STATE - 2..].iter().any(|mark| *mark > 1) {
            return self.no_mark(before);
        }
        let from = state_of(before, unit);
        let (next, found) = step(from, stream, form);
        let (answer, item) = step_numbers(found);
        let mut tail = String::new();
        for number in numbers_of(&next, unit).iter().chain(&item) {
            write!(tail, " {number}").unwrap();
        }
        let (call, read) = (self.call, self.call + 2);
        let (items, last) = rest(from, stream, form);
        [
            format!("{call} {} {}{tail}", answer.0, answer.1),
            format!("{read} {} {}{tail}", answer.0, answer.1),
            format!("{read} {} {} {items}", last.0, last.1),
        ]
        .join("\n")
    }

    /// An instalment, the room its budget: the items taken and the state in
    /// units; then the same with the state by value, if it is one.
    fn slice_lines(&self, form: Form, unit: usize) -> String {
        let (before, stream) = self.input.split_at(STATE);
        let mut state: Vec<usize> = before.iter().map(|byte| usize::from(*byte)).collect();
        if state[STATE - 2..].iter().any(|mark| *mark > 1) {
            return format!("{} 13 0 0{}", self.call, spaced(&state));
        }
        let (next, items, pause) = walk_on(state_of(before, unit), stream, form, self.room);
        let (number, place) = match pause {
            Pause::Spent => (0, 0),
            Pause::End => (255, 0),
            Pause::Refused(refusal) => (refusal.number, refusal.place),
        };
        if items > 0 {
            state = numbers_of(&next, unit);
        }
        let tail = format!("{number} {place} {items}{}", spaced(&state));
        format!("{} {tail}\n{} {tail}", self.call, self.call + 2)
    }

    /// A comparison: number and place, then the five numbers.
    fn compare_line(&self) -> String {
        let length = usize::from(u16::from_be_bytes([self.input[0], self.input[1]]));
        let (file, report) = self.input[2..].split_at(length);
        let told = compare(file, report);
        let agree = usize::from(told.remainders_agree);
        let counts = [told.passed, told.failed, told.not_reached, told.beyond];
        let mut line = format!("{COMPARE} {} {}", told.number, told.place);
        for count in counts.iter().chain(&[agree]) {
            write!(line, " {count}").unwrap();
        }
        line
    }

    /// A mark that is neither 0 nor 1 fits no stream, and is no reader's.
    fn no_mark(&self, before: &[u8]) -> String {
        let mut line = format!("{} 13 0", self.call);
        for number in before.iter().chain(&[0xAA; 6]) {
            write!(line, " {number}").unwrap();
        }
        line
    }

    /// The raw value of a text is what the buffer holds, and of a binary the part
    /// where it lies; then the seven numbers.
    fn read_indexed_line(&self) -> String {
        let at = usize::from(u16::from_be_bytes([self.input[0], self.input[1]]));
        let stream = &self.input[2..];
        let mut out = vec![0xAA; self.room];
        let (found, unit) = match self.call {
            READ_INDEXED_TEXT => (indexed::read_text(stream, at, &mut out), 4),
            _ => match indexed::read_binary(stream, at) {
                Ok((item, part)) => {
                    out = part.to_vec();
                    (Ok(item), 3)
                }
                Err(refusal) => {
                    out.clear();
                    (Err(refusal), 3)
                }
            },
        };
        let told = found.map_or([0xAA; 7], |item| indexed_numbers(&item, unit));
        line(self.call, found.map(|item| item.raw), &out) + &spaced(&told)
    }

    /// A read's line goes on with the tag places and the seven numbers.
    fn read_line(&self) -> String {
        let at = usize::from(u16::from_be_bytes([self.input[0], self.input[1]]));
        let stream = &self.input[2..];
        let mut out = vec![0xAA; self.room];
        let (found, unit) = match self.call {
            READ_TEXT => (primitive::read_text(stream, at, &mut out), 4),
            _ => {
                let found = primitive::read_binary(stream, at, &mut out);
                (found.map(|found| found.0), 3)
            }
        };
        let mut line = line(self.call, found.map(|item| item.raw + item.text), &out);
        let (tag, numbers) = match found {
            Ok(item) => (item.tag.characters, numbers(&item, unit)),
            Err(_) => ([0xAA; 11], [0xAA; 7]),
        };
        write!(line, " {}", hex(&tag)).unwrap();
        for number in numbers {
            write!(line, " {number}").unwrap();
        }
        line
    }
}

fn line(call: u8, answer: Result<usize, Refusal>, out: &[u8]) -> String {
    let (number, value) = match answer {
        Ok(length) => (0, length),
        Err(refusal) => (refusal.number, refusal.place),
    };
    format!("{call} {number} {value} {}", hex(out))
}

fn hex(bytes: &[u8]) -> String {
    bytes.iter().map(|byte| format!("{byte:02x}")).collect()
}

/// An item's seven numbers: the code's two, its units, where its raw value
/// starts in bytes, the raw value's length, the number of tag characters, and of
/// a text's characters.
fn numbers(item: &Primitive, unit: usize) -> [usize; 7] {
    let (chars, letter) = match item.code {
        Code::Fixed(row) => named(row.code),
        Code::Variable { selector, letter } => (5 + u8::from(selector > b'6'), letter),
        _ => unreachable!("no primitive"),
    };
    let units = item.size / unit;
    let start = units * 3 - item.raw;
    let (raw, tags, text) = (item.raw, item.tag.number, item.text);
    [chars.into(), letter.into(), units, start, raw, tags, text]
}

/// An indexed item's seven numbers: selector and letter, its units, where its
/// raw value starts in bytes, the raw value's length, index and ondex.
fn indexed_numbers(item: &IndexedItem, unit: usize) -> [usize; 7] {
    let (selector, letter) = indexed_code(item.row);
    let units = item.size / unit;
    let start = units * 3 - item.raw;
    let [index, ondex] = [item.index, item.ondex].map(|number| number as usize);
    let code = [selector, letter].map(usize::from);
    [code[0], code[1], units, start, item.raw, index, ondex]
}

/// Selector, 0 where the letter stands alone, and letter.
fn indexed_code(row: &Indexed) -> (u8, u8) {
    match *row.code.as_bytes() {
        [letter] => (0, letter),
        [selector, letter] => (selector, letter),
        _ => unreachable!("no indexed code"),
    }
}

/// An item's code in the walk: sort, letter, and lead bytes or the selector of
/// an indexed item.
fn code_numbers(code: Code) -> [usize; 3] {
    match code {
        Code::Fixed(row) => [row.code.len(), named(row.code).1.into(), 0],
        Code::Variable { selector, letter } => {
            let large = usize::from(selector > b'6');
            [5 + large, letter.into(), code.lead()]
        }
        Code::Group { letter, large } => [7 + usize::from(large), letter.into(), 0],
        Code::Genus => [9, 0, 0],
        Code::Indexed(row) => {
            let (selector, letter) = indexed_code(row);
            [10, letter.into(), selector.into()]
        }
    }
}

/// What a step found: number and place, and the item's six numbers.
fn step_numbers(found: Found) -> ((u8, usize), [usize; 6]) {
    match found {
        Found::Item {
            offset,
            size,
            depth,
            code,
        } => {
            let [sort, sign, lead] = code_numbers(code);
            ((0, 0), [offset, size, depth, sort, sign, lead])
        }
        Found::Refused { number, place } => ((number, place), [0xAA; 6]),
        Found::End => ((255, 0), [0xAA; 6]),
    }
}

/// The items that steps yield from a state on, and what stops them.
fn rest(from: Walk, stream: &[u8], form: Form) -> (usize, (u8, usize)) {
    let (mut walk, mut items) = (from, 0);
    loop {
        let (next, found) = step(walk, stream, form);
        if !matches!(found, Found::Item { .. }) {
            return (items, step_numbers(found).0);
        }
        (walk, items) = (next, items + 1);
    }
}

/// A state in units as one in the stream's own measure.
fn state_of(numbers: &[u8], unit: usize) -> Walk {
    let mut walk = Walk::start();
    for (end, number) in walk.ends.iter_mut().zip(numbers) {
        *end = usize::from(*number) * unit;
    }
    let behind = &numbers[MOST_GROUPS..];
    walk.open = behind[0].into();
    walk.position = usize::from(behind[1]) * unit;
    walk.first = behind[2] == 1;
    walk.indexed = behind[3] == 1;
    walk
}

fn spaced(numbers: &[usize]) -> String {
    numbers.iter().map(|number| format!(" {number}")).collect()
}

fn numbers_of(walk: &Walk, unit: usize) -> Vec<usize> {
    let mut numbers: Vec<usize> = walk.ends.iter().map(|end| end / unit).collect();
    numbers.extend([walk.open, walk.position / unit]);
    numbers.extend([walk.first, walk.indexed].map(usize::from));
    numbers
}

/// A fixed code as two numbers: its length and its last character.
fn named(code: &str) -> (u8, u8) {
    (code.len() as u8, code.as_bytes()[code.len() - 1])
}

/// A write as recorded: the code's two numbers, the tag characters, the raw value
/// or a text's characters.
fn write(input: &[u8], form: Form, out: &mut [u8]) -> Result<usize, Refusal> {
    let (chars, letter) = (input[0], input[1]);
    let tag = Tag {
        number: input[2].into(),
        characters: input[3..14].try_into().unwrap(),
    };
    let code = match chars {
        1 => vec![letter],
        2 => vec![b'0', letter],
        4 => vec![b'1', b'A', b'A', letter],
        _ => Vec::new(),
    };
    let named = match chars {
        5 | 6 => Named::Variable {
            letter,
            large: chars == 6,
        },
        _ => Named::Fixed(&code),
    };
    primitive::write(named, &tag, &input[14..], form, out)
}

/// A write of an indexed item as recorded: selector, letter, index and ondex in
/// eight bytes each, the raw value.
fn write_indexed(input: &[u8], form: Form, out: &mut [u8]) -> Result<usize, Refusal> {
    let code = match input[0] {
        0 => &input[1..2],
        _ => &input[..2],
    };
    let number = |from: usize| u64::from_be_bytes(input[from..from + 8].try_into().unwrap());
    indexed::write(code, number(2), number(10), &input[18..], form, out)
}

/// RFC 4648, sections 9 and 10, in the URL-safe alphabet, whole units only;
/// 003: `-_AAACAA`, the codes without a value; 01: `1AAM` is D4 00 0C.
const WORKED: [(&[u8], &[u8]); 8] = [
    (b"", b""),
    (b"Zm9v", b"foo"),
    (b"Zm9vYmFy", b"foobar"),
    (b"FPucA9l-", &[0x14, 0xfb, 0x9c, 0x03, 0xd9, 0x7e]),
    (b"-_AAACAA", &[0xfb, 0xf0, 0x00, 0x00, 0x20, 0x00]),
    (b"1AAM", &[0xd4, 0x00, 0x0c]),
    (b"____", &[0xff, 0xff, 0xff]),
    (b"MAAB", &[0x30, 0x00, 0x01]),
];

/// Every length from 0 to 13, with rooms around the exact one.
fn lengths(records: &mut Vec<Record>) {
    for length in 0..=13 {
        let text: Vec<u8> = b"AZaz09-_bQ7xM"[..length].to_vec();
        let binary: Vec<u8> = (0..length).map(|i| (i * 83 + 7) as u8).collect();
        for room in [length / 4 * 3, 12] {
            records.push(Record::new(TO_BINARY, room, &text));
        }
        for room in [length / 3 * 4, 20] {
            records.push(Record::new(TO_TEXT, room, &binary));
        }
    }
}

/// Every byte in each place of a unit, the second one of two.
fn every_byte(records: &mut Vec<Record>) {
    for place in 0..4 {
        for byte in 0..=255 {
            let mut text = *b"MAABWGhp";
            text[4 + place] = byte;
            records.push(Record::new(TO_BINARY, 7, &text));
        }
    }
    for place in 0..3 {
        let mut binary = [0x58, 0x68, 0x69].repeat(256);
        for byte in 0..=255 {
            binary[3 * usize::from(byte) + place] = byte;
        }
        records.push(Record::new(TO_TEXT, 1025, &binary));
    }
}

/// The order of refusal: not whole and a stranger, a stranger and no room, no
/// room by one.
fn orders(records: &mut Vec<Record>) {
    for (room, text) in [(3, &b"MA!"[..]), (0, b"MA!B"), (2, b"MAAB"), (3, b"Zg==")] {
        records.push(Record::new(TO_BINARY, room, text));
    }
    for (room, binary) in [(0, &[1, 2][..]), (3, &[1, 2, 3]), (4, &[1, 2, 3])] {
        records.push(Record::new(TO_TEXT, room, binary));
    }
}

/// A stranger at each place around the blocks of 64 in which a text is searched.
fn around_blocks(records: &mut Vec<Record>) {
    for place in [0, 1, 62, 63, 64, 65, 127, 128, 129, 190, 191] {
        let mut text = vec![b'A'; 192];
        text[place] = b'+';
        text[191] = if place == 191 { b'+' } else { b'=' };
        records.push(Record::new(TO_BINARY, 144, &text));
    }
    records.push(Record::new(TO_BINARY, 145, &[b'k'; 192]));
}

/// 01: the report of `-AAB0AAAMAAB`.
const BROKEN: &[u8] = b"-AAB0AAAMAAB";
const REPORTED: [u8; 39] = [
    0, 0, 0, 2, 0, 0, 0, 0, 0, 0, 0, 8, 4, 0, 0, 0, 8, 0, 0, 0, 4, 0, 0, 0, 0, 1, 0, 0, 0, 0, 4, 0,
    0, 0, 4, 0, 0, 0, 0,
];

fn in_binary(text: &[u8]) -> Option<Vec<u8>> {
    let mut out = vec![0; text.len() / 4 * 3];
    convert::to_binary(text, &mut out).ok()?;
    Some(out)
}

/// The report of a text with this room, and of its binary if it has one.
fn report_both(records: &mut Vec<Record>, room: usize, text: &[u8]) {
    records.push(Record::new(REPORT_TEXT, room, text));
    if let Some(binary) = in_binary(text) {
        records.push(Record::new(REPORT_BINARY, room, &binary));
    }
}

fn reports(records: &mut Vec<Record>) {
    for (text, _) in DECK {
        report_both(records, 40, text.as_bytes());
    }
    for room in [17, 16] {
        report_both(records, room, b"");
    }
    for room in [54, 53, 52] {
        report_both(records, room, BROKEN);
    }
    for groups in [15, 16, 17, 40, 63, 64, 65] {
        for letter in ['A', 'J', 'c'] {
            report_both(records, 36, nested(letter, groups).as_bytes());
        }
    }
    remainders(records);
    only_short(records);
    noise(records);
}

/// Partial units, strangers at the top and within groups, signature groups.
fn remainders(records: &mut Vec<Record>) {
    for text in [
        &b"MAAB\n"[..],
        b"MAABM",
        b"MAABMA",
        b"MAABMA!",
        b"MAAB\nMAAB",
        b"MAABMA!!",
        b"-AAB_AAA-AABMA!A-AAC-_AAABAAMAAB",
        b"-KAB_AAAMAAB",
        b"-LAB_A!AMAAB",
        b"-_AAACAA-_AAABAA",
        b"--AAAAABMAAB",
        b"--AAAAAB",
        b"-DAC0HEAAAAAMQAAMAAB",
        b"_AAAMAAB",
        b"7AABAAAAMAAB",
        b"8AABAAAAMAAB",
        b"9AAB",
    ] {
        report_both(records, 17 + 18 * 4, text);
    }
    for length in 1..=5 {
        let binary = &[0x30, 0, 1, 0x30, 0, 1][..length];
        records.push(Record::new(REPORT_BINARY, 53, binary));
    }
}

/// 02 h: 18, what it stands before and what stands before it; and its
/// `--AAABAA` with 4,096 units, which passes, beside 4,095.
fn only_short(records: &mut Vec<Record>) {
    for text in [
        &b"--AAAAAA"[..],
        b"-AAC--JAAAAAMAAB",
        b"-AACMQAA--JA",
        b"-AADMQAA--JAAAAA",
        b"--JAAAAB_AAA",
        b"--KAAAAB_A!A",
        b"9AABAAABAAEA",
        b"9AABAAAB!AEA",
        b"-JAD8AAHAAABAAAA",
    ] {
        report_both(records, 53, text);
    }
    for groups in [MOST_GROUPS - 1, MOST_GROUPS] {
        report_both(records, 35, around('J', groups, "--CAAAAA").as_bytes());
    }
    let enough = "--AAABAA".to_string() + &"1AAK".repeat(4096);
    records.push(Record::new(REPORT_TEXT, 35, enough.as_bytes()));
    let less = "--AAAA__".to_string() + &"1AAK".repeat(4095);
    let less = in_binary(less.as_bytes()).expect("whole units");
    records.push(Record::new(REPORT_BINARY, 35, &less));
}

/// 02 j: 19 and 5 in every kind of place, each first and each behind the other.
fn ordinary(records: &mut Vec<Record>) {
    for text in [
        &b"+AAB"[..],
        b"M/AB",
        b"MA=!",
        b"MA!=",
        b"7AAB+!__",
        b"7AAB!/__",
        b"-_AAAC=A",
        b"0HEAA/!A",
        b"0HEAA!/A",
        b"0L_ab=cd",
        b"-AACMAABMA+!",
        b"-KAB_A=!",
        b"-LAB_A!=",
        b"8AABAAAB+AAA",
        b"WGhpWGg=",
        b"WGhpWA==",
        b"MAABMA=",
    ] {
        report_both(records, 53, text);
        read_both(records, 0, 8, text);
        walk_both(records, [0; STATE], text);
    }
}

/// Streams of items and noise from a fixed sequence.
fn noise(records: &mut Vec<Record>) {
    let mut state: u32 = 20_240_601;
    let mut next = |below: usize| {
        state = state.wrapping_mul(1_664_525).wrapping_add(1_013_904_223);
        (state >> 8) as usize % below
    };
    for _ in 0..60 {
        let mut text = Vec::new();
        for _ in 0..next(6) {
            let pick = DECK[next(DECK.len())].0.as_bytes();
            text.extend(&[b"-AAC", b"-JAB", b"-BAB", b"-KAB"][next(4)][..next(2) * 4]);
            text.extend(pick);
        }
        if next(3) == 0 && !text.is_empty() {
            let place = next(text.len());
            text[place] = b"AB0159_-!="[next(10)];
        }
        report_both(records, 17 + 18 * (3 + next(9)), &text);
    }
}

/// Raw bytes that show their order.
fn raw(length: usize) -> Vec<u8> {
    (0..length).map(|i| (i * 37 + 0xE1) as u8).collect()
}

/// A write to both forms, with room enough and one less, and what was written
/// read back, with room enough and one less.
fn write_both(records: &mut Vec<Record>, code: (u8, u8), tag: &[u8], raw: &[u8]) {
    let mut input = vec![code.0, code.1, tag.len() as u8];
    input.extend([tag, &[b'!'; 11]].concat().iter().take(11));
    input.extend(raw);
    let mut text = vec![0; 4096];
    let written = write(&input, Form::Text, &mut text);
    let units = written.map_or(1, |size| size / 4);
    for (call, room) in [
        (WRITE_TEXT, units * 4 + 1),
        (WRITE_TEXT, units * 4 - 1),
        (WRITE_BINARY, units * 3),
        (WRITE_BINARY, units * 3 - 1),
    ] {
        records.push(Record::new(call, room, &input));
    }
    if let Ok(size) = written {
        read_both(records, 0, raw.len() + 1, &text[..size]);
        if !raw.is_empty() {
            read_both(records, 0, raw.len() - 1, &text[..size]);
        }
    }
}

/// A stream of text read at an offset in characters, and its binary at the same
/// unit, which asks room for the characters of a text alone.
fn read_both(records: &mut Vec<Record>, at: u16, room: usize, text: &[u8]) {
    let input = [&at.to_be_bytes(), text].concat();
    records.push(Record::new(READ_TEXT, room, &input));
    if let Some(binary) = in_binary(text) {
        let input = [&(at / 4 * 3).to_be_bytes(), &binary[..]].concat();
        records.push(Record::new(READ_BINARY, room, &input));
    }
}

/// Each code of the registry.
fn written(records: &mut Vec<Record>) {
    for row in FIXED {
        let tag = &b"Az9-_QwErTy"[..row.tag];
        write_both(records, named(row.code), tag, &raw(row.raw()));
    }
    for (letter, _) in VARIABLE.into_iter().filter(|row| row.0 != b'A') {
        for chars in [5, 6] {
            for length in 0..=3 {
                write_both(records, (chars, letter), b"", &raw(length));
            }
        }
    }
    write_both(records, (5, b'B'), b"", &raw(193));
    write_both(records, (6, b'H'), b"", &raw(194));
}

/// 02 c: texts of each length around a quadlet, and a longer one; what is not
/// written, in the writer's order; what is read, with each selector's fill,
/// without it, and with what stands before 16.
fn texts(records: &mut Vec<Record>) {
    let text = b"_zA-9AQw".repeat(33);
    for length in (0..=9).chain([261, 262, 263, 264]) {
        write_both(records, (5, b'A'), b"", &text[..length]);
    }
    for given in [
        &b"A"[..],
        b"AB",
        b"A-a",
        b"ABCD",
        b"A!",
        b"A=",
        b"-a b",
        b"-+!",
        b"=",
        b"-\xFF",
    ] {
        write_both(records, (5, b'A'), b"", given);
        write_both(records, (6, b'A'), b"", given);
    }
    write_both(records, (6, b'A'), b"", b"-a-b");
    write_both(records, (5, b'A'), b"-", b"!");
    for item in TEXTS {
        report_both(records, 35, item);
        read_both(records, 0, 8, item);
        walk_both(records, [0; STATE], item);
    }
}

/// Values of type `A`: 02 c's examples, and such as tell its orders, accepted or
/// not.
const TEXTS: [&[u8]; 25] = [
    b"4AAA",
    b"4AAB-4-5",
    b"4AABABCD",
    b"4AABAAAA",
    b"4AABAACD",
    b"4AABA-AA",
    b"4AACAAAABCDE",
    b"5AAA",
    b"5AABAA-a",
    b"5AABAB-a",
    b"5AABAP-a",
    b"5AABAQ-a",
    b"5AABBA-a",
    b"5AABAAAa",
    b"6AABAAA-",
    b"6AABAAB-",
    b"6AABAAE-",
    b"6AABABA-",
    b"6AABAAAA",
    b"4AABAA!A",
    b"4AABAA=A",
    b"7AAAAAABAAAA",
    b"8AAAAAAA",
    b"-AAC4AABAACDMAAB",
    b"-AAC5AABAA-aMAAB",
];

/// A writer's 6, 12 and 5, and their order.
fn unwritten(records: &mut Vec<Record>) {
    for (chars, letter) in [
        (0, b'M'),
        (1, b'-'),
        (2, b'P'),
        (3, b'M'),
        (4, b'Q'),
        (1, 0xFF),
    ] {
        write_both(records, (chars, letter), b"", &[0, 1]);
    }
    for (chars, letter) in [(5, b'G'), (6, b'I'), (7, b'A'), (255, b'M'), (5, 0)] {
        write_both(records, (chars, letter), b"!", &[0, 1]);
    }
    for length in [0, 1, 3] {
        write_both(records, (1, b'M'), b"", &raw(length));
    }
    for tag in [&b"A"[..], b"!", b"AAAAAAAAAAAA"] {
        write_both(records, (1, b'M'), tag, &[0, 1]);
        write_both(records, (5, b'B'), tag, b"");
    }
    for tag in [
        &b"AB"[..],
        b"ABCD",
        b"!",
        b"AB=",
        b"A!=",
        b"+AA",
        b"A/!",
        b"AAAAAAAAAAAA",
    ] {
        write_both(records, (1, b'X'), tag, b"");
    }
    write_both(records, (1, b'X'), b"ABC", &[0]);
    write_both(records, (1, b'Z'), b"ABCDEFGHIJ!", b"");
}

/// 01's deck read as primitives, and what a reader alone refuses.
fn reads(records: &mut Vec<Record>) {
    for (text, _) in DECK {
        read_both(records, 0, 33, text.as_bytes());
        let behind = [b"MAAB", text.as_bytes()].concat();
        read_both(records, 4, 33, &behind);
    }
    for at in [4, 8, 12, 65535] {
        read_both(records, at, 8, b"MAABMAAB");
    }
    for text in [
        &b"-_AAACAA"[..],
        b"-KAA",
        b"--AAAAAA",
        b"MA",
        b"MA!B",
        b"WG!p",
        b"0H!_____",
        b"7AABAAAA",
        b"8AABAAAA",
        b"9AAHAAABAABh",
        b"9AAHAAAB!ABh",
    ] {
        read_both(records, 0, 8, text);
    }
    read_both(records, 5, 8, b"MAABxMAABx");
}

/// The primitives among the examples of 002 and 001: read, reported and, where
/// their raw value is given, written again. 001's post-padded ones are refused.
fn examples(records: &mut Vec<Record>) {
    for (raw, text, _) in SHORTS_OF_002 {
        read_both(records, 0, 33, text.as_bytes());
        write_both(records, (1, b'M'), b"", &common::hex(raw));
    }
    for (path, _, item) in SAD_PATHS {
        read_both(records, 0, 33, item.as_bytes());
        report_both(records, 35, item.as_bytes());
        write_both(records, (5, b'A'), b"", path.as_bytes());
    }
    let others = DIGESTS_OF_001.iter().chain(&POST_PADDED_OF_001);
    for text in others.chain(&[&NUMBER[4..]]) {
        read_both(records, 0, 33, text.as_bytes());
        report_both(records, 35, text.as_bytes());
    }
    // 001's count of items, and 003's of units.
    for text in [NUMBER, &NUMBER.replace("-EAB", "-EAG")] {
        report_both(records, 53, text.as_bytes());
        walk_both(records, [0; STATE], text.as_bytes());
    }
}

/// Every step over a text and its binary, to the end or a refusal; of more than
/// twenty steps some.
fn walk_both(records: &mut Vec<Record>, from: [u8; STATE], text: &[u8]) {
    let binary = in_binary(text);
    for (call, stream, unit) in [
        (WALK_TEXT, Some(text), 4),
        (WALK_BINARY, binary.as_deref(), 3),
    ] {
        let Some(stream) = stream else { continue };
        let form = if unit == 4 { Form::Text } else { Form::Binary };
        let mut numbers = from.to_vec();
        let mut steps = Vec::new();
        loop {
            steps.push(Record::new(call, 0, &[&numbers, stream].concat()));
            let (next, found) = step(state_of(&numbers, unit), stream, form);
            if !matches!(found, Found::Item { .. }) {
                break;
            }
            numbers = numbers_of(&next, unit).iter().map(|n| *n as u8).collect();
        }
        let all = steps.len();
        let told = |at: usize| all <= 20 || at < 3 || at.is_multiple_of(16) || all <= at + 3;
        let some = steps.into_iter().enumerate().filter(|(at, _)| told(*at));
        records.extend(some.map(|(_, step)| step));
    }
}

/// A state: ends, position, first-item mark.
fn state(ends: &[u8], at: u8, first: u8) -> [u8; STATE] {
    marked(ends, at, first, 0)
}

/// The same with the mark of indexed items.
fn marked(ends: &[u8], at: u8, first: u8, indexed: u8) -> [u8; STATE] {
    let mut numbers = [0; STATE];
    numbers[..ends.len()].copy_from_slice(ends);
    numbers[MOST_GROUPS..].copy_from_slice(&[ends.len() as u8, at, first, indexed]);
    numbers
}

/// 02 a: a `-K` of one item of each of 003's indexed codes, right and wrong in
/// each way, whole and walked; the mark of a given state decides by itself.
fn signatures(records: &mut Vec<Record>) {
    for row in INDEXED {
        let mut heads = vec![format!("{}{}", row.code, "_".repeat(row.index))];
        if row.ondex > 0 {
            heads.push(format!("{}{}B", heads[0], "A".repeat(row.ondex - 1)));
        }
        let digits = "A".repeat(row.code_length() - row.code.len());
        heads.extend(["D", "E"].map(|value| format!("{}{digits}{value}", row.code)));
        for head in heads {
            let group = around('K', 1, &item(&head, row.full));
            for (call, stream) in [
                (REPORT_TEXT, group.clone().into_bytes()),
                (REPORT_BINARY, in_binary(group.as_bytes()).unwrap()),
            ] {
                records.push(Record::new(call, 17 + 18, &stream));
            }
        }
    }
    signature_walks(records);
}

/// `head` and as many `A` as make it whole.
fn item(head: &str, full: usize) -> String {
    format!("{head}{}", "A".repeat(full - head.len()))
}

fn signature_walks(records: &mut Vec<Record>) {
    let two = item("A_", 88) + &item("2BAAAB", 92);
    walk_both(records, [0; STATE], around('L', 1, &two).as_bytes());
    let strange = two.replacen("AAAAA", "AAA/A", 1);
    walk_both(records, [0; STATE], around('K', 1, &strange).as_bytes());
    for text in [
        "-KAC-_AAACAA",
        "-LABMAAB",
        "-KAB-KAA",
        "-KAA-LAA",
        "-AAB-KAAMAAB",
    ] {
        walk_both(records, [0; STATE], text.as_bytes());
    }
    for from in [
        marked(&[22], 0, 0, 1),
        marked(&[22], 0, 1, 1),
        marked(&[22, 22], 0, 0, 1),
        marked(&[22], 0, 0, 0),
        marked(&[], 0, 0, 1),
        marked(&[], 0, 1, 1),
    ] {
        walk_both(records, from, item("A_", 88).as_bytes());
    }
    for mark in [2, 255] {
        let numbers = marked(&[1], 0, 0, mark);
        for (call, stream) in [(WALK_TEXT, &b"MAAB"[..]), (WALK_BINARY, &[0x30, 0, 1])] {
            records.push(Record::new(call, 0, &[&numbers, stream].concat()));
        }
    }
}

/// A write to both forms, with room enough and one less; a refused one with room
/// for no item, since 3 is last.
fn write_indexed_both(records: &mut Vec<Record>, code: (u8, u8), digits: [u64; 2], raw: &[u8]) {
    let mut input = vec![code.0, code.1];
    input.extend(digits.map(u64::to_be_bytes).concat());
    input.extend(raw);
    let [text, binary] = match write_indexed(&input, Form::Text, &mut [0; 160]) {
        Ok(size) => [
            vec![size + 1, size - 1],
            vec![size / 4 * 3, size / 4 * 3 - 1],
        ],
        Err(_) => [vec![1], vec![0]],
    };
    let text = text.into_iter().map(|room| (WRITE_INDEXED_TEXT, room));
    let binary = binary.into_iter().map(|room| (WRITE_INDEXED_BINARY, room));
    let calls = text.chain(binary);
    records.extend(calls.map(|(call, room)| Record::new(call, room, &input)));
}

/// A text read at an offset in characters, and its binary at the same unit,
/// where no room is asked.
fn read_indexed_both(records: &mut Vec<Record>, at: u16, room: usize, text: &[u8]) {
    let input = [&at.to_be_bytes(), text].concat();
    records.push(Record::new(READ_INDEXED_TEXT, room, &input));
    if let Some(binary) = in_binary(text) {
        let input = [&(at / 4 * 3).to_be_bytes(), &binary[..]].concat();
        records.push(Record::new(READ_INDEXED_BINARY, 0, &input));
    }
}

/// 02 a: each code written with digits that show their order and with its
/// highest; then what is 12 (an index, an ondex or a raw length that does not
/// fit) and what is 15, each before the other and before 3.
fn indexed_written(records: &mut Vec<Record>) {
    for row in INDEXED {
        let code = indexed_code(&row);
        let [most_index, most_ondex] = [row.index, row.ondex].map(|n| (1 << (6 * n)) - 1u64);
        let some_index = 0x1083 & most_index;
        let value = raw(row.raw());
        for digits in [
            [some_index, 0x2105 & most_ondex],
            [most_index, 0],
            [0, most_ondex + 1],
            [most_index + 1, 1],
            [1 << 32, 0],
        ] {
            write_indexed_both(records, code, digits, &value);
        }
        if row.ondex > 0 {
            write_indexed_both(records, code, [0, 1], &value);
            write_indexed_both(records, code, [0, most_ondex], &value);
        }
        for length in [row.raw() - 1, row.raw() + 1] {
            write_indexed_both(records, code, [0, 0], &raw(length));
        }
    }
    for digits in [[0, u64::MAX], [u64::MAX, u64::MAX]] {
        write_indexed_both(records, (b'2', b'A'), digits, &raw(64));
    }
    indexed_unknown(records);
}

/// 6, and before 12.
fn indexed_unknown(records: &mut Vec<Record>) {
    for (selector, letter) in [
        (0, b'E'),
        (0, b'a'),
        (0, 0),
        (b'0', b'C'),
        (b'1', b'A'),
        (b'2', b'E'),
        (b'3', b'C'),
        (b'A', b'A'),
        (b'-', b'K'),
        (0xFF, 0xFF),
    ] {
        write_indexed_both(records, (selector, letter), [0, 0], &raw(64));
    }
    write_indexed_both(records, (0, b'E'), [64, 1], b"");
}

/// Each code with its highest index and what ondex it may have: read behind a
/// primitive, with room enough and one less, cut short by a unit; then with what
/// is 8, what is 15, and each of them with a stranger behind it.
fn indexed_read(records: &mut Vec<Record>) {
    for row in INDEXED {
        let index = "_".repeat(row.index);
        let ondex = |digit: &str| digit.repeat(row.ondex);
        let free = if row.is_current_only() { "A" } else { "-" };
        for (digits, value) in [
            (ondex(free), "D"),
            (ondex("A"), "E"),
            (ondex("B"), "A"),
            (ondex("B"), "Q"),
        ] {
            let mut text = format!("MAAB{}{index}{digits}{value}", row.code);
            text += &"z".repeat(4 + row.full - text.len());
            read_indexed_both(records, 4, row.raw() + 1, text.as_bytes());
            let input = [&[0, 4], text.as_bytes()].concat();
            records.push(Record::new(READ_INDEXED_TEXT, row.raw() - 1, &input));
            text.replace_range(row.full + 2.., "!=");
            read_indexed_both(records, 4, 0, text.as_bytes());
        }
        let item = format!("{}{}", row.code, "A".repeat(row.full - row.code.len()));
        read_indexed_both(records, 0, row.raw(), item.as_bytes());
        for left in [row.full - 4, 4 * row.header_units(), 4] {
            read_indexed_both(records, 0, row.raw(), &item.as_bytes()[..left]);
        }
        // Behind the header, the last character but one, and a stranger in it.
        for (place, stranger) in [(row.code.len(), "+"), (row.full - 2, "!"), (7, "=")] {
            let mut strange = item.clone();
            strange.replace_range(place..place + 1, stranger);
            read_indexed_both(records, 0, row.raw(), strange.as_bytes());
        }
    }
}

/// What is no indexed item, and offsets at, past and beside one.
fn indexed_not_read(records: &mut Vec<Record>) {
    for text in [
        &b""[..],
        b"-KAA",
        b"-_AAACAA",
        b"--KAABAA",
        b"MAAB",
        b"EAAA",
        b"1AAK",
        b"4BAA",
        b"0CAA",
        b"2EAA",
        b"3CAA",
        b"_AAA",
        b"2AAA",
        b"2AAA!AA",
        b"3BAA___/",
        b"E!AA",
        b"E=AA",
        b"MA",
        DIGESTS_OF_001[0].as_bytes(),
    ] {
        read_indexed_both(records, 0, 64, text);
    }
    // A key of 44 characters is half an item here.
    let key = format!("D{}", "A".repeat(43));
    read_indexed_both(records, 0, 64, key.as_bytes());
    let items = format!("A_{}", "A".repeat(86)).repeat(2);
    for at in [0, 4, 84, 88, 92, 172, 176, 180, 65_532] {
        read_indexed_both(records, at, 64, items.as_bytes());
    }
    records.push(Record::new(
        READ_INDEXED_TEXT,
        64,
        &[&[0, 1], items.as_bytes()].concat(),
    ));
}

fn walks(records: &mut Vec<Record>) {
    walk_both(records, [0; STATE], nested('A', MOST_GROUPS).as_bytes());
    walk_both(records, [0; STATE], nested('J', MOST_GROUPS + 1).as_bytes());
    for text in [
        &b""[..],
        b"-AAB-AAAMAAB",
        b"-KAB_AAA-LAB_A!A",
        b"-_AAABAA",
        b"-AAC-_AAABAA",
        b"-JAC-_AAABAA",
        b"-AAE-_AAACAA5BABAGhp",
        b"--AAAAAC-_AAACAA5BABAGhp",
        b"-AAC7AABAAAA",
        b"-AAC--KAAAAA",
    ] {
        walk_both(records, [0; STATE], text);
    }
    for groups in [MOST_GROUPS - 1, MOST_GROUPS] {
        let text = around('J', groups, "--CAAAAA");
        walk_both(records, [0; STATE], text.as_bytes());
    }
    let mut many = state(&[3; MOST_GROUPS], 0, 0);
    many[MOST_GROUPS] = MOST_GROUPS as u8 + 1;
    let mut slot = state(&[3], 0, 0);
    slot[MOST_GROUPS - 1] = 1;
    for from in [
        many,
        slot,
        state(&[2], 2, 0),
        state(&[], 4, 0),
        state(&[2, 3], 1, 0),
        state(&[4], 1, 0),
        state(&[], 0, 1),
        state(&[], 3, 1),
        state(&[3, 3, 3], 2, 0),
    ] {
        walk_both(records, from, b"MAABMAABMAAB");
    }
    for mark in [2, 255] {
        let numbers = state(&[1], 0, mark);
        for (call, stream) in [(WALK_TEXT, &b"MAAB"[..]), (WALK_BINARY, &[0x30, 0, 1])] {
            records.push(Record::new(call, 0, &[&numbers, stream].concat()));
        }
    }
}

/// One instalment of a text and of its binary for each budget.
fn slice_both(records: &mut Vec<Record>, from: [u8; STATE], text: &[u8], budgets: &[usize]) {
    let binary = in_binary(text);
    for (call, stream) in [
        (WALK_ON_TEXT, Some(text)),
        (WALK_ON_BINARY, binary.as_deref()),
    ] {
        let Some(stream) = stream else { continue };
        for budget in budgets {
            records.push(Record::new(call, *budget, &[&from, stream].concat()));
        }
    }
}

/// The budget exactly, the end, a refusal on the way, and 13 for a budget of 0
/// too.
fn instalments(records: &mut Vec<Record>) {
    let start = [0; STATE];
    slice_both(records, start, b"", &[0, 1]);
    slice_both(
        records,
        start,
        b"-AAB-AAAMAAB1AAM",
        &[0, 1, 2, 3, 4, 5, 4096],
    );
    slice_both(records, start, b"MAABMAABMQAA", &[1, 2, 3, 4]);
    slice_both(records, start, b"-AAC-_AAABAA", &[1, 2]);
    let deep = nested('J', MOST_GROUPS + 1);
    slice_both(records, start, deep.as_bytes(), &[MOST_GROUPS, 4096]);
    let decks = &b"MAABMAABMAAB"[..];
    slice_both(records, state(&[3, 3], 1, 0), decks, &[0, 1, 2, 3]);
    for unfit in [state(&[], 4, 0), state(&[2], 2, 0), state(&[], 0, 1)] {
        slice_both(records, unfit, decks, &[0, 1]);
    }
    slice_both(records, state(&[1], 0, 2), b"MAAB", &[0, 1]);
}

/// An expectation file: verdicts, and a remainder's number if any.
fn expected(verdicts: &[u8], remainder: &[u8]) -> Vec<u8> {
    let mut bytes = Vec::new();
    for section in [verdicts, remainder] {
        bytes.extend((section.len() as u32).to_be_bytes());
        bytes.extend(section);
    }
    bytes
}

fn compare_both(records: &mut Vec<Record>, file: &[u8], report: &[u8]) {
    let length = (file.len() as u16).to_be_bytes();
    records.push(Record::new(COMPARE, 0, &[&length, file, report].concat()));
}

/// 01's report with expectations as many, fewer, more, and one off; reports
/// with a remainder, and of nothing; then each beginning of a file and of a
/// report, bytes left over, two remainders, a count that is too high, and rows
/// of items that are a byte wider.
fn compares(records: &mut Vec<Record>) {
    let rest = oracle::report::report(b"MAABMQAA-AACMAAB", Form::Text).unwrap();
    for report in [&REPORTED[..], &rest.bytes(), &[0; 12]] {
        for remainder in [&[][..], &[4], &[0]] {
            for verdicts in [&[][..], &[4], &[4, 0], &[0, 8], &[0, 0], &[4, 0, 0, 0]] {
                compare_both(records, &expected(verdicts, remainder), report);
            }
        }
    }
    let (file, report) = (expected(&[0, 8], &[4]), rest.bytes());
    for length in 0..file.len() {
        compare_both(records, &file[..length], &report);
    }
    for length in 0..report.len() {
        compare_both(records, &file, &report[..length]);
    }
    compare_both(records, &[&file[..], &[0]].concat(), &report);
    compare_both(records, &file, &[&report[..], &[0]].concat());
    compare_both(records, &expected(&[0, 8], &[4, 4]), &report);
    let (items, last) = report.split_at(report.len() - 9);
    let twice = [items, &[0, 0, 0, 2], &last[4..], &last[4..]].concat();
    compare_both(records, &file, &twice);
    for byte in 0..4 {
        for (number, other) in [(0x80, &file), (1, &report)] {
            let mut high = other.clone();
            high[byte] ^= number;
            compare_both(records, &high, &report);
            compare_both(records, &file, &high);
        }
    }
    let wider = [&[0, 0, 0, 1][..], &[0; 7], &[4, 0, 1], &[0; 8]].concat();
    compare_both(records, &expected(&[0], &[]), &wider);
}

fn records() -> Vec<Record> {
    let mut records = Vec::new();
    for (text, binary) in WORKED {
        records.push(Record::new(TO_BINARY, binary.len() + 1, text));
        records.push(Record::new(TO_TEXT, text.len() + 1, binary));
    }
    lengths(&mut records);
    every_byte(&mut records);
    orders(&mut records);
    around_blocks(&mut records);
    reports(&mut records);
    written(&mut records);
    unwritten(&mut records);
    texts(&mut records);
    reads(&mut records);
    walks(&mut records);
    signatures(&mut records);
    indexed_written(&mut records);
    indexed_read(&mut records);
    indexed_not_read(&mut records);
    ordinary(&mut records);
    instalments(&mut records);
    examples(&mut records);
    compares(&mut records);
    records
}

fn file(name: &str) -> PathBuf {
    let top = PathBuf::from(env!("CARGO_MANIFEST_DIR")).join("../..");
    top.join("crates/vectors").join(name)
}

/// The worked examples are the papers', not this program's.
#[test]
fn worked_examples() {
    for (text, binary) in WORKED {
        let mut out = vec![0xAA; binary.len() + 1];
        assert_eq!(convert::to_binary(text, &mut out), Ok(binary.len()));
        assert_eq!((&out[..binary.len()], out[binary.len()]), (binary, 0xAA));
        let mut out = vec![0xAA; text.len() + 1];
        assert_eq!(convert::to_text(binary, &mut out), Ok(text.len()));
        assert_eq!((&out[..text.len()], out[text.len()]), (text, 0xAA));
    }
}

/// 01's verdicts and the report that it gives in bytes.
#[test]
fn the_deck() {
    for (text, number) in DECK {
        let report = oracle::report::report(text.as_bytes(), Form::Text).unwrap();
        let refused = report.refusals.first().map(|row| row.number);
        let found = refused.or(report.remainder.map(|row| row.number));
        assert_eq!(found.unwrap_or(0), number, "{text}");
    }
    let mut out = [0xAA; 53];
    assert_eq!(write_report(BROKEN, Form::Text, &mut out), Ok(39));
    assert_eq!((&out[..39], &out[39..]), (&REPORTED[..], &[0xAA; 14][..]));
    let line = Record::new(REPORT_TEXT, 52, BROKEN).line();
    assert_eq!(line, format!("3 3 0 {}", "aa".repeat(52)));
    let line = Record::new(REPORT_TEXT, 17, b"").line();
    assert_eq!(
        line,
        format!("3 0 12 {}{}", "00".repeat(12), "aa".repeat(5))
    );
}

#[test]
fn the_files_say_what_the_oracle_says() {
    let records = records();
    let input: Vec<u8> = records.iter().flat_map(Record::bytes).collect();
    let expected: String = records.iter().map(|r| r.line() + "\n").collect();
    if std::env::var_os("VECTORS_WRITE").is_some() {
        std::fs::write(file("stdin"), &input).unwrap();
        std::fs::write(file("stdout"), &expected).unwrap();
    }
    assert!(input.len() < 262_144, "the program reads 262,144 bytes");
    assert_eq!(std::fs::read(file("stdin")).unwrap(), input);
    assert_eq!(std::fs::read_to_string(file("stdout")).unwrap(), expected);
}
