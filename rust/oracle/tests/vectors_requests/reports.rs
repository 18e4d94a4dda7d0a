//! Reports of mixed streams, and reports by the second judge (02 m).

use crate::common::papers::{DECK, POST_PADDED_OF_001, SAD_PATHS};
use crate::common::{around, binary, nested};
use oracle::form::Form;
use oracle::refusal::Refusal;
use oracle::registry::{GROUPS, INDEXED};
use oracle::{mixed, report, second};

/// The calls' numbers in a record.
const MIXED: u8 = 27;
const SECOND_TEXT: u8 = 28;
const SECOND_BINARY: u8 = 29;

/// The call, the room and the working room lent, and the stream.
#[derive(Clone)]
struct Record {
    call: u8,
    room: usize,
    work: usize,
    stream: Vec<u8>,
}

impl Record {
    fn bytes(&self) -> Vec<u8> {
        let mut bytes = vec![self.call];
        bytes.extend((self.room as u16).to_be_bytes());
        bytes.extend((self.work as u16).to_be_bytes());
        bytes.extend((self.stream.len() as u16).to_be_bytes());
        bytes.extend(&self.stream);
        bytes
    }

    fn answer(&self, work: &mut [u8], out: &mut [u8]) -> Result<usize, Refusal> {
        match self.call {
            MIXED => mixed::write_report(&self.stream, out),
            SECOND_TEXT => second::write_report(&self.stream, Form::Text, work, out),
            _ => second::write_report(&self.stream, Form::Binary, work, out),
        }
    }

    /// The call, its number, length or place, the buffer, which held AA, and of
    /// a binary by the second judge the working room, which held AA too.
    fn line(&self) -> String {
        let (mut work, mut out) = (vec![0xAA; self.work], vec![0xAA; self.room]);
        let (number, value) = match self.answer(&mut work, &mut out) {
            Ok(length) => (0, length),
            Err(refusal) => (refusal.number, refusal.place),
        };
        let mut line = format!("{} {number} {value} {}", self.call, hex(&out));
        if self.call == SECOND_BINARY {
            line += &format!(" {}", hex(&work));
        }
        line + "\n"
    }
}

fn hex(bytes: &[u8]) -> String {
    bytes.iter().map(|byte| format!("{byte:02x}")).collect()
}

/// A stream with the room that its report asks for and a byte more.
fn record(stream: impl Into<Vec<u8>>) -> Record {
    let stream = stream.into();
    let room = mixed::report(&stream).expect("a short stream").room() + 1;
    Record {
        call: MIXED,
        room,
        work: 0,
        stream,
    }
}

/// The second judge's, with a byte more than it asks for of either room.
fn second_record(form: Form, stream: &[u8]) -> Record {
    let room = report::report(stream, form).expect("a short stream").room() + 1;
    let (call, work) = match form {
        Form::Text => (SECOND_TEXT, 0),
        Form::Binary => (SECOND_BINARY, stream.len() / 3 * 4 + 1),
    };
    Record {
        call,
        room,
        work,
        stream: stream.to_vec(),
    }
}

/// A header that states this length in these digits.
fn head(digits: &str) -> String {
    format!(r#"{{"v":"KERI10JSON{digits}_"#)
}

/// A JSON item with this body.
fn event(body: &[u8]) -> Vec<u8> {
    let digits = format!("{:06x}", 23 + body.len());
    [head(&digits).as_bytes(), body].concat()
}

/// CESR at the start of a stream: framed and judged as everywhere.
#[rustfmt::skip]
const TEXTS: &[&str] = &[
    "-AAA", "-AABMAAB", "-AABMQAA", "-AAB0AAA", "-AACMAAB", "-AAC-_AAABAA", "-JAC-_AAABAA", "-_AAACAA",
    "-_AAABAA", "-0AA", "-dAA", "---A", "--AA", "--AAAAAA", "--AAAAABMAAB", "-KAA", "-KABMAAB", "-LABAAAA",
    "-AAB_AAA", "-AAC4AABAAAA", "-AAB0JAA", "-AAB5BAA", "-AACMAAB-AAA", "--c_____",
];

/// The same in text alone: partial units and strangers.
#[rustfmt::skip]
const STRANGE: &[&str] = &[
    "-", "-A", "-AA", "-!", "-A!A", "-A+A", "-A+!", "-_AAAC/A", "--AAAA!A", "-AABMA!A", "-AABMA=A", "-AAB{AAA",
    "-AAA\n", "-AAA ", "-AAAM", "-AAAMAAB", "MAAB", "\n", "", "A", "[", "_AAA",
];

fn records() -> Vec<Record> {
    let mut records = Vec::new();
    // Every first byte, alone and with enough behind it for a header.
    for first in 0..=255 {
        records.push(record(vec![first]));
        records.push(record([&[first], &head("000017").as_bytes()[1..]].concat()));
    }
    for text in TEXTS {
        records.push(record(*text));
        records.push(record(binary(text)));
        // Behind a JSON item, so that no offset is whole units, and with another
        // form behind.
        for item in [text.as_bytes().to_vec(), binary(text)] {
            records.push(record([&event(b"}")[..], &item].concat()));
            records.push(record([&item[..], &event(b"")].concat()));
        }
        records.push(record([&binary(text)[..], text.as_bytes()].concat()));
    }
    for text in STRANGE {
        records.push(record(*text));
        records.push(record([&event(b"}}")[..], text.as_bytes()].concat()));
    }
    records.extend(headers());
    records.extend(groups());
    records.extend(rooms());
    records.extend(seconds());
    records.extend(second_rooms());
    records
}

/// Each byte of a header changed to its neighbours and the other case, each
/// length of a header, and stated lengths around 23 and around what is left.
fn headers() -> Vec<Record> {
    let mut records = Vec::new();
    let whole = event(b"  ");
    for place in 0..23 {
        for change in [1, 2, 0x20, 0x80, 0xFF] {
            let mut changed = whole.clone();
            changed[place] ^= change;
            records.push(record(changed));
        }
        for byte in *b"@AZ[`az{/0:9FfGg_-" {
            let mut changed = whole.clone();
            changed[place] = byte;
            records.push(record(changed));
        }
    }
    for length in 0..whole.len() {
        records.push(record(&whole[..length]));
        records.push(record(vec![b'{'; length]));
    }
    for digits in [
        "000000", "000016", "000017", "000018", "000019", "00001a", "00001A", "0000ff", "00ffff",
        "ffffff",
    ] {
        records.push(record(head(digits)));
        records.push(record(head(digits) + "  "));
        records.push(record(head(digits) + "-AAA"));
    }
    for kind in ["MGPK", "CBOR", "CESR", "json"] {
        records.push(record(head("000017").replace("JSON", kind)));
    }
    records.push(record(r#"{"v":"KERICAAJSONAAAX."}"#));
    records
}

/// Every group letter, signatures of each code, nests around the limit, and an
/// event whose body is none of this.
fn groups() -> Vec<Record> {
    let mut records = Vec::new();
    for (letter, _) in GROUPS.iter().copied() {
        let text = format!("-{}AA", letter as char);
        records.push(record([text.as_bytes(), &binary(&text)].concat()));
    }
    for row in INDEXED {
        let rest = row.full - row.code.len();
        let text = format!("{}{}", row.code, "A".repeat(rest));
        let text = around('K', 1, &text);
        records.push(record([text.as_bytes(), &binary(&text)].concat()));
    }
    for depth in [2, 63, 64, 65] {
        let text = nested('J', depth);
        records.push(record([&binary(&text)[..], text.as_bytes()].concat()));
    }
    let body: Vec<u8> = (0..=255).collect();
    records.push(record([&event(&body)[..], b"-AAA"].concat()));
    records
}

/// Every room from none to more than enough.
fn rooms() -> Vec<Record> {
    let stream = [
        b"-AAA",
        &event(b"")[..],
        b"-AABMQAA",
        &[0xF8, 0, 0],
        b"MAAB",
    ]
    .concat();
    let whole = record(stream);
    let room = |room| Record {
        room,
        ..whole.clone()
    };
    (0..=17 + 19 * 4 + 2).map(room).collect()
}

/// Each number that a text or a binary is refused with, at top level, in a group
/// and behind another, and what stands in front of what.
#[rustfmt::skip]
const RULES: &[&str] = &[
    // 4, 5, 6, 7 and 19 of framing.
    "MAABM", "MAABMA!", "0HEA", "-AACMAAB-AAB", "MA!B", "MAAB\n", "7AAB!__!", "7AAB+!__", "_AAAMAAB", "MAAB_AAA",
    "-_AAACAA-_AAABAA", "-_AAAC=A", "-AAC-_AAABAAMAAB", "-BAC-_AAABAA", "-AADMAAB-_AAABAA", "+AAB", "M/AB",
    // 5 and 19 behind a header, then 8, 10, 9, 18 and 16.
    "0HEAA!/A", "0HEAA/!A", "0L_ab=cd", "0LAab-cd", "-DAC0HEAAAAAMQAAMAAB", "5BAA", "6BAA", "9AABAAAA", "9AABAAABAAEA",
    "8AABAAAB+AAA", "7AAAAAABabcd", "4AAB-a-b", "4AABA-ab", "4AABAAab", "5AABAA-a", "5AABA-ab", "5AABAB-a", "6AABAAA-", "6AABAA-a",
    "4AAA", "5AAA", "4BABAAAA", "5BABAAAA", "5BABABAA", "6BABAABh", "6BABABAA",
    // 18 of groups, in front of what they hold; an inner 5, and 8 behind an accepted item.
    "--AAAAAA", "-AAC--JAAAAAMAAB", "--JAAAAB_AAA", "-AACMAABMA+!", "-AABMQAA", "-AACMAABMQAA", "-AAB-AABMQAA", "-AAB_AAA",
    "-AAB0AAAMAAB", "-AABMA!AMAAB",
    // Signature groups hold indexed items alone.
    "-KAA", "-KABMAAB", "-LABMAAB", "-KAC-_AAACAA", "-KAB-KAA", "-KAA-LAA", "-AAB-KAAMAAB", "-KAB_A=!", "-LAB_A!A",
];

/// 02 m: streams by the second judge as text and, where it has one, as binary.
fn seconds() -> Vec<Record> {
    let mut texts: Vec<String> = RULES.iter().map(|text| text.to_string()).collect();
    texts.extend(DECK.map(|(text, _)| text.to_string()));
    texts.extend(SAD_PATHS.map(|(_, _, item)| item.to_string()));
    texts.extend(POST_PADDED_OF_001[..4].iter().map(|item| item.to_string()));
    for row in INDEXED {
        let digits = "A".repeat(row.code_length() - row.code.len() - 1);
        for head in [
            format!("{}{}", row.code, "_".repeat(row.index)),
            format!("{}{digits}B", row.code),
            format!("{}{digits}AD", row.code),
            format!("{}{digits}AE", row.code),
        ] {
            let item = format!("{head}{}", "A".repeat(row.full - head.len()));
            texts.push(around('K', 1, &item));
        }
    }
    for depth in [63, 64, 65] {
        texts.extend(['A', 'J'].map(|letter| nested(letter, depth)));
    }
    texts.push(around('J', 63, "--CAAAAA"));
    let mut records = Vec::new();
    for text in texts {
        records.push(second_record(Form::Text, text.as_bytes()));
        let mut out = vec![0; text.len() / 4 * 3];
        if oracle::convert::to_binary(text.as_bytes(), &mut out).is_ok() {
            records.push(second_record(Form::Binary, &out));
        }
    }
    for units in [4095, 4096] {
        let digits = ["AA__", "ABAA"][units - 4095];
        let text = format!("--AA{digits}{}", "1AAK".repeat(units));
        records.push(second_record(Form::Text, text.as_bytes()));
    }
    records
}

/// Every room of a text, and of a binary the two rooms in each way around what
/// is asked; each length up to two triplets and a part.
fn second_rooms() -> Vec<Record> {
    let mut records = Vec::new();
    let text = second_record(Form::Text, b"-AABMQAAMAABM");
    records.extend((0..=text.room).map(|room| Record {
        room,
        ..text.clone()
    }));
    let stream = [&binary("-AABMQAAMAAB")[..], &[0x30, 0]].concat();
    let whole = second_record(Form::Binary, &stream);
    for room in [0, 1, whole.room - 2, whole.room - 1, whole.room, 100] {
        for work in [0, 1, 10, 11, 12, 13, 40] {
            records.push(Record {
                room,
                work,
                ..whole.clone()
            });
        }
    }
    for length in 0..=8 {
        let stream = &[0x30, 0, 1, 0xF8, 0, 0, 0x30, 0][..length];
        let whole = second_record(Form::Binary, stream);
        records.extend((0..=whole.work).map(|work| Record {
            work,
            ..whole.clone()
        }));
    }
    records
}

/// What the papers say of some of them.
#[test]
fn the_papers() {
    let told = |stream: &str| record(stream).line();
    // No item, no refusal, and the remainder's row: 17 bytes, one more stays.
    let rest = |number: &str| format!("27 0 17 000000000000000000000001{number}aa\n");
    assert_eq!(told("MAAB"), rest("0000000011"));
    assert_eq!(told(&head("000017")[..22]), rest("0000000004"));
    assert_eq!(told(&"{".repeat(23)), rest("0000000011"));
    assert_eq!(told(&head("000016")), rest("0000000011"));
    assert_eq!(told(&head("000018")), rest("0000000004"));
    assert_eq!(told("-A!A"), rest("0000000005"));
    assert_eq!(told("-A+A"), rest("0000000013"));
    // Offset 0, size 23, verdict 0, form 2.
    let accepted = told(&head("000017"));
    assert!(
        accepted.starts_with("27 0 22 000000010000000000000017000200000000"),
        "{accepted}"
    );
}

/// 02 m of some: the working room begins with the text, even where the report is
/// refused, and the rest stays; with less than that it is as it was.
#[test]
fn the_working_room() {
    let told = |room, work| {
        let whole = second_record(Form::Binary, &[0x30, 0, 1, 0x30]);
        Record {
            room,
            work,
            ..whole
        }
        .line()
    };
    let report = "0000000100000000000000030000000000000000010000000304";
    let blank = "aa".repeat(35 - report.len() / 2);
    assert_eq!(told(35, 4), format!("29 0 26 {report}{blank} 4d414142\n"));
    assert_eq!(told(35, 5), format!("29 0 26 {report}{blank} 4d414142aa\n"));
    assert_eq!(
        told(34, 5),
        format!("29 3 0 {} 4d414142aa\n", "aa".repeat(34))
    );
    assert_eq!(told(35, 3), format!("29 3 0 {} aaaaaa\n", "aa".repeat(35)));
}

/// What the program is fed, and what it must write.
pub fn recorded() -> (Vec<u8>, String) {
    let records = records();
    let lent = |record: &Record| record.room.max(record.work) <= 512;
    assert!(records.iter().all(lent), "the program lends 512 bytes");
    let input = records.iter().flat_map(Record::bytes).collect();
    (input, records.iter().map(Record::line).collect())
}
