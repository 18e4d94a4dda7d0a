//! The recorded calls of `crates/vectors_long`: long raw values and texts
//! written, and read back, indexed items of long streams, and reports of such by
//! the second judge. What the program there is fed and what it must write come
//! from this package, which shares nothing with the program. `VECTORS_WRITE=1
//! cargo test -p oracle --test vectors_long` writes the files anew; without it
//! the files must be what they would be.

use oracle::indexed::{self, IndexedItem};
use oracle::primitive::{read_binary, read_text, write, Named, Primitive, Tag};
use oracle::primitive::{MOST_LARGE, MOST_SMALL};
use oracle::registry::{Code, VARIABLE};
use oracle::second;
use oracle::text::{MOST_LARGE_TEXT, MOST_SMALL_TEXT, TEXT_TYPE};
use oracle::Form;
use std::fmt::Write as _;
use std::path::PathBuf;

/// A write with the room lent. The raw value follows from length and seed; of
/// type `A` it is small letters.
struct Record {
    form: Form,
    letter: u8,
    large: bool,
    seed: u8,
    length: usize,
    room: usize,
}

impl Record {
    fn call(&self) -> u8 {
        match self.form {
            Form::Text => 7,
            Form::Binary => 8,
        }
    }

    fn chars(&self) -> u8 {
        5 + u8::from(self.large)
    }

    fn raw(&self) -> Vec<u8> {
        filled(self.letter, self.seed, self.length)
    }

    fn bytes(&self) -> Vec<u8> {
        let mut bytes = vec![self.call(), self.chars(), self.letter, self.seed];
        bytes.extend((self.length as u32).to_be_bytes());
        bytes.extend((self.room as u16).to_be_bytes());
        bytes
    }

    fn write(&self, raw: &[u8], out: &mut [u8]) -> (u8, usize) {
        let named = Named::Variable {
            letter: self.letter,
            large: self.large,
        };
        match write(named, &Tag::NONE, raw, self.form, out) {
            Ok(size) => (0, size),
            Err(refusal) => (refusal.number, refusal.place),
        }
    }

    /// The written line and, where an item was written, the line of its read.
    fn lines(&self) -> String {
        let raw = self.raw();
        let mut out = vec![0xAA; self.room];
        let (number, value) = self.write(&raw, &mut out);
        let head: String = out[..12].iter().map(|b| format!("{b:02x}")).collect();
        let sum = checksum(&out);
        let mut lines = format!("{} {number} {value} {sum} {head}\n", self.call());
        if number == 0 {
            lines += &self.read(&raw, &out[..value]);
        }
        lines
    }

    fn read(&self, raw: &[u8], item: &[u8]) -> String {
        let mut back = vec![0xAA; raw.len()];
        let (call, found, unit) = match self.form {
            Form::Text => (5, read_text(item, 0, &mut back).unwrap(), 4),
            Form::Binary => {
                let (found, part) = read_binary(item, 0, &mut back).unwrap();
                if found.text == 0 {
                    back = part.to_vec();
                }
                (6, found, 3)
            }
        };
        let mut line = format!("{call} 0 {}", found.raw + found.text);
        for number in numbers(&found, unit) {
            write!(line, " {number}").unwrap();
        }
        let same = back.iter().zip(raw).take_while(|(a, b)| a == b).count();
        line + &format!(" {} {same}\n", back.len())
    }
}

/// Bytes that follow from length and seed; of type `A` small letters.
fn filled(letter: u8, seed: u8, length: usize) -> Vec<u8> {
    let number = |i: usize| i % 65_536 * 7 + i / 256 % 256 + usize::from(seed);
    let byte = |i: usize| match letter {
        TEXT_TYPE => b'a' + (number(i) % 26) as u8,
        _ => number(i) as u8,
    };
    (0..length).map(byte).collect()
}

/// A read of the indexed item at the start of a stream, which is filled like a
/// raw value.
struct Start {
    form: Form,
    letter: u8,
    seed: u8,
    length: usize,
}

impl Start {
    /// Room for the raw value that each of these items has, and a byte.
    const ROOM: usize = 65;

    fn bytes(&self) -> Vec<u8> {
        let mut bytes = vec![self.call(), 0, self.letter, self.seed];
        bytes.extend((self.length as u32).to_be_bytes());
        bytes.extend((Start::ROOM as u16).to_be_bytes());
        bytes
    }

    fn call(&self) -> u8 {
        match self.form {
            Form::Text => 21,
            Form::Binary => 22,
        }
    }

    fn line(&self) -> String {
        let stream = filled(self.letter, self.seed, self.length);
        let mut out = [0xAA; Start::ROOM];
        let found = match self.form {
            Form::Text => indexed::read_text(&stream, 0, &mut out),
            Form::Binary => indexed::read_binary(&stream, 0).map(|(found, _)| found),
        };
        let (number, value) = match found {
            Ok(item) => (0, item.raw),
            Err(refusal) => (refusal.number, refusal.place),
        };
        let mut line = format!("{} {number} {value}", self.call());
        let told = found.map_or([0xAA; 7], |item| indexed_numbers(&item, self.form));
        for number in told {
            write!(line, " {number}").unwrap();
        }
        line + &format!(" {}\n", checksum(&out))
    }
}

/// 02 m: the second judge's report of a stream, which is filled like a raw value.
struct Judged {
    form: Form,
    letter: u8,
    seed: u8,
    length: usize,
    room: usize,
}

impl Judged {
    /// The working room of a binary: less than a long one asks for.
    const WORK: usize = 16;

    fn bytes(&self) -> Vec<u8> {
        let mut bytes = vec![self.call(), 0, self.letter, self.seed];
        bytes.extend((self.length as u32).to_be_bytes());
        bytes.extend((self.room as u16).to_be_bytes());
        bytes
    }

    fn call(&self) -> u8 {
        match self.form {
            Form::Text => 28,
            Form::Binary => 29,
        }
    }

    fn line(&self) -> String {
        let stream = filled(self.letter, self.seed, self.length);
        let (mut work, mut out) = ([0xAA; Judged::WORK], vec![0xAA; self.room]);
        let (number, value) = match second::write_report(&stream, self.form, &mut work, &mut out) {
            Ok(length) => (0, length),
            Err(refusal) => (refusal.number, refusal.place),
        };
        let shown = match self.form {
            Form::Text => &out[..12],
            Form::Binary => &work,
        };
        let shown: String = shown.iter().map(|b| format!("{b:02x}")).collect();
        format!(
            "{} {number} {value} {} {shown}\n",
            self.call(),
            checksum(&out)
        )
    }
}

/// At the limit a text, with room enough and one less, and a binary whose working
/// room is less, with and without room for a report; 1 where the stream has one
/// more, whatever the rooms are; and binaries around what the working room holds.
fn judged() -> Vec<Judged> {
    let mut judged = Vec::new();
    for (form, letter, seed) in [(Form::Text, b'A', 3), (Form::Binary, b'B', 9)] {
        for more in [0, 1] {
            judged.extend([17, 16].map(|room| Judged {
                form,
                letter,
                seed,
                length: form.limit() + more,
                room,
            }));
        }
    }
    for length in [11, 12, 13, 14, 15] {
        judged.extend([17, 16].map(|room| Judged {
            form: Form::Binary,
            letter: b'B',
            seed: 0x80,
            length,
            room,
        }));
    }
    judged
}

/// Selector and letter, units, where the raw value starts in bytes, its length,
/// index and ondex.
fn indexed_numbers(item: &IndexedItem, form: Form) -> [usize; 7] {
    let [letter] = *item.row.code.as_bytes() else {
        unreachable!("no code of one letter");
    };
    let units = item.size / form.unit();
    let (index, ondex) = (item.index as usize, item.ondex as usize);
    [
        0,
        letter.into(),
        units,
        3 * units - item.raw,
        item.raw,
        index,
        ondex,
    ]
}

/// Accepted, refused 8, 6 and 5 where the stream has its most, and 1 where it
/// has one more.
fn starts() -> Vec<Start> {
    let mut starts = Vec::new();
    for (form, letter, seed) in [
        (Form::Text, b'A', 3),
        (Form::Text, b'B', b'A'),
        (Form::Binary, b'B', 9),
        (Form::Binary, b'B', 0),
        (Form::Binary, b'B', 0x80),
    ] {
        starts.extend([0, 1].map(|more| Start {
            form,
            letter,
            seed,
            length: form.limit() + more,
        }));
    }
    starts
}

/// The code's two numbers, its units, where its raw value starts in bytes, the
/// raw value's length, the number of tag characters and of a text's.
fn numbers(item: &Primitive, unit: usize) -> [usize; 7] {
    let Code::Variable { selector, letter } = item.code else {
        unreachable!("no variable code");
    };
    let units = item.size / unit;
    let start = units * 3 - item.raw;
    let chars = if selector > b'6' { 6 } else { 5 };
    [chars, letter.into(), units, start, item.raw, 0, item.text]
}

/// Digits of base 257, each one more than its byte, modulo the largest prime
/// below 2 to the 32.
fn checksum(bytes: &[u8]) -> u64 {
    let more = |sum: u64, byte: &u8| (sum * 257 + u64::from(*byte) + 1) % 4_294_967_291;
    bytes.iter().fold(0, more)
}

/// The most that a large item of 4,096 units takes, and a byte behind it.
const MOST_ROOM: usize = 16_393;

/// Each type, small and large, at the lengths around the small form's most,
/// where the one is 12 beyond it and the other 18 up to it (02 h), with room
/// enough and one less; and around the large form's most, where the room never
/// suffices.
fn records() -> Vec<Record> {
    let mut records = Vec::new();
    for (letter, _) in VARIABLE {
        // A unit holds three bytes, or four characters.
        let (small, large, unit) = match letter {
            TEXT_TYPE => (MOST_SMALL_TEXT, MOST_LARGE_TEXT, 4),
            _ => (MOST_SMALL, MOST_LARGE, 3),
        };
        for form in [Form::Text, Form::Binary] {
            for length in small + 1 - unit..=small + unit {
                around_small(&mut records, form, letter, length, length.div_ceil(unit));
            }
            for length in large + 1 - unit..=large + 1 {
                records.push(Record {
                    form,
                    letter,
                    large: true,
                    seed: letter,
                    length,
                    room: MOST_ROOM,
                });
            }
        }
    }
    records
}

fn around_small(records: &mut Vec<Record>, form: Form, letter: u8, length: usize, units: usize) {
    for large in [false, true] {
        let size = form.unit() * (units + 1 + usize::from(large));
        let seed = letter.wrapping_mul(31) ^ length as u8;
        records.extend([size + 1, size, size - 1].map(|room| Record {
            form,
            letter,
            large,
            seed,
            length,
            room,
        }));
    }
}

fn file(name: &str) -> PathBuf {
    let top = PathBuf::from(env!("CARGO_MANIFEST_DIR")).join("../..");
    top.join("crates/vectors_long").join(name)
}

/// 01's table by hand: `4` with 4,095 triplets is `4B__` and 4 + 4 x 4,095
/// characters; a large one counts on, and small ones end there. Of a text so
/// many units are 16,380 characters with its fill (02 c).
#[test]
fn heads_by_hand() {
    for (large, length, answer, head) in [
        (false, 12_283, (0, 16_384), &b"6B__"[..]),
        (false, 12_284, (0, 16_384), b"5B__"),
        (false, 12_285, (0, 16_384), b"4B__"),
        (false, 12_286, (12, 0), b""),
        (true, 12_283, (18, 0), b""),
        (true, 12_284, (18, 0), b""),
        (true, 12_285, (18, 0), b""),
        (true, 12_286, (0, 16_392), b"9AABABAA"),
        (true, 12_287, (0, 16_392), b"8AABABAA"),
        (true, 12_288, (0, 16_392), b"7AABABAA"),
    ] {
        headed(b'B', large, length, answer, head);
    }
    for (large, length, answer, head) in [
        (false, 16_377, (0, 16_384), &b"6A__AAA"[..]),
        (false, 16_378, (0, 16_384), b"5A__AA"),
        (false, 16_379, (0, 16_384), b"4A__A"),
        (false, 16_380, (0, 16_384), b"4A__"),
        (false, 16_381, (12, 0), b""),
        (true, 16_380, (18, 0), b""),
        (true, 16_381, (0, 16_392), b"9AAAABAAAAA"),
        (true, 16_382, (0, 16_392), b"8AAAABAAAA"),
        (true, 16_383, (0, 16_392), b"7AAAABAAA"),
        (true, 16_384, (0, 16_392), b"7AAAABAA"),
    ] {
        headed(b'A', large, length, answer, head);
    }
}

/// By hand: `C` with index 17 where the bytes begin 09 10, `A` with pad bits set
/// where they begin 00 07, the unknown start `g` at 80; `dkr..` in text, and a
/// stranger behind `AHOV`.
#[test]
fn starts_by_hand() {
    let told: Vec<_> = starts().iter().map(Start::line).collect();
    for (line, begins) in told.iter().zip([
        "21 6 0 ",
        "21 1 0 ",
        "21 5 4 ",
        "21 1 0 ",
        "22 0 64 0 67 22 2 64 17 0 ",
        "22 1 0 ",
        "22 8 0 ",
        "22 1 0 ",
        "22 6 0 ",
        "22 1 0 ",
    ]) {
        assert!(line.starts_with(begins), "{line} {begins}");
    }
}

/// 02 m by hand: 1 first, then 3 of the working room, then of the report, which
/// leaves the text. 80 87 8E is `gIeO`, whose start is unknown: nothing is framed,
/// and 17 bytes say so. Of eleven bytes three triplets are whole.
#[test]
fn judged_by_hand() {
    let told: Vec<_> = judged().iter().map(Judged::line).collect();
    let blank = "aa".repeat(Judged::WORK);
    for (line, (begins, ends)) in told.iter().zip([
        ("28 0 17 ", "000000000000000000000001"),
        ("28 3 0 ", &blank[..24]),
        ("28 1 0 ", &blank[..24]),
        ("28 1 0 ", &blank[..24]),
        ("29 3 0 ", &blank),
        ("29 3 0 ", &blank),
        ("29 1 0 ", &blank),
        ("29 1 0 ", &blank),
        ("29 0 17 ", "aaaaaaaa"),
        ("29 3 0 ", "aaaaaaaa"),
    ]) {
        assert!(line.starts_with(begins), "{line} {begins}");
        assert!(line.ends_with(&format!("{ends}\n")), "{line} {ends}");
    }
    assert!(told[8..10].iter().all(|line| line.contains(" 6749654f")));
    assert!(told[16..].iter().all(|line| line.starts_with("29 3 0 ")));
}

fn headed(letter: u8, large: bool, length: usize, answer: (u8, usize), head: &[u8]) {
    let record = Record {
        form: Form::Text,
        letter,
        large,
        seed: 0x80,
        length,
        room: MOST_ROOM,
    };
    let mut out = vec![0xAA; MOST_ROOM];
    assert_eq!(record.write(&record.raw(), &mut out), answer, "{length}");
    assert_eq!(&out[..head.len()], head);
}

#[test]
fn the_files_say_what_the_oracle_says() {
    let records = records();
    let mut input: Vec<u8> = records.iter().flat_map(Record::bytes).collect();
    let mut expected: String = records.iter().map(Record::lines).collect();
    for start in starts() {
        input.extend(start.bytes());
        expected += &start.line();
    }
    for judged in judged() {
        input.extend(judged.bytes());
        expected += &judged.line();
    }
    if std::env::var_os("VECTORS_WRITE").is_some() {
        std::fs::write(file("stdin"), &input).unwrap();
        std::fs::write(file("stdout"), &expected).unwrap();
    }
    assert!(input.len() < 65536, "the program reads 65,536 bytes");
    assert_eq!(std::fs::read(file("stdin")).unwrap(), input);
    assert_eq!(std::fs::read_to_string(file("stdout")).unwrap(), expected);
}
