//! Groups put around bodies.

use crate::common::{around, binary, nested};
use oracle::group;
use oracle::registry::{GROUPS, INDEXED};
use oracle::Form;

/// A letter, the stated length of the body, and the buffer.
struct Record {
    form: Form,
    letter: u8,
    stated: usize,
    buffer: Vec<u8>,
}

impl Record {
    fn call(&self) -> u8 {
        match self.form {
            Form::Text => 25,
            Form::Binary => 26,
        }
    }

    fn bytes(&self) -> Vec<u8> {
        let mut bytes = vec![self.call()];
        bytes.extend((self.stated as u16).to_be_bytes());
        bytes.extend([0, self.letter]);
        bytes.extend((self.buffer.len() as u16).to_be_bytes());
        bytes.extend(&self.buffer);
        bytes
    }

    fn line(&self) -> String {
        let mut buffer = self.buffer.clone();
        let answer = group::write(self.letter, self.form, self.stated, &mut buffer);
        let (number, value) = match answer {
            Ok(size) => (0, size),
            Err(refusal) => (refusal.number, refusal.place),
        };
        let shown: String = buffer.iter().map(|byte| format!("{byte:02x}")).collect();
        format!("{} {number} {value} {shown}\n", self.call())
    }
}

/// A body in a buffer of this length, AA behind it.
fn record(form: Form, letter: u8, body: &[u8], stated: usize, room: usize) -> Record {
    let mut buffer = body.to_vec();
    buffer.resize(room, 0xAA);
    Record {
        form,
        letter,
        stated,
        buffer,
    }
}

/// A body of whole units in a text and in a binary, each with more room than the
/// group asks for.
fn both(letter: u8, body: &str) -> [Record; 2] {
    let make = |form: Form, body: &[u8]| record(form, letter, body, body.len(), body.len() + 9);
    let text = make(Form::Text, body.as_bytes());
    [text, make(Form::Binary, &binary(body))]
}

/// Bodies of whole units in the alphabet: what a group takes and what it does
/// not, in the order of the refusals.
#[rustfmt::skip]
const BODIES: &[(u8, &str)] = &[
    (b'A', "MAAB"), (b'J', "MAAB1AAM"), (b'C', "-AABMAAB"), (b'Z', "5BABAGhp6BABAABh"),
    (b'A', "-_AAACAA"), (b'B', "-_AAABAA"), (b'C', "-_AAACABMAAB"), (b'D', "-_AAABAA"),
    (b'A', "MAAB-_AAABAA"), (b'D', "-AAC-_AAABAA"), (b'J', "-JAC-_AAABAA"),
    (b'0', "MAAB"), (b'd', "_AAA"), (b'_', ""), (b'-', "MAAB"), (0, ""), (255, "MAAB"),
    (b'A', "MAABMQAA"), (b'A', "_AAA"), (b'J', "MAAB_AAA"), (b'J', "0AAA"), (b'J', "MAAB0HAA"),
    (b'J', "MAAB-AACMAAB"), (b'J', "-AABMQAA"), (b'J', "--JAAAABMAAB"), (b'J', "7AABAAAA"),
    (b'J', "5BAA"), (b'J', "0JAA"), (b'J', "4AABAAAA"), (b'J', "MAAB-KABMAAB"),
    (b'K', "MAAB"), (b'L', "-KAA"), (b'K', "-_AAACAA"), (b'K', "AAAA"), (b'L', "2AAA"),
];

/// Texts that are no whole units or not in the alphabet, with their letter and
/// the length that is stated.
const TEXTS: &[(u8, &str, usize)] = &[
    (b'A', "MAAB", 3),
    (b'A', "MAAB", 5),
    (b'A', "MAAB", 0),
    (b'A', "MAABMAAB", 4),
    (b'A', "MAA!", 4),
    (b'A', "MAABM=AA", 8),
    (b'A', "MA!+", 4),
    (b'A', "MA+!", 4),
    (b'J', "-JAB!!!!", 8),
    (b'K', "MAAB", 3),
    (b'0', "MAAB", 3),
    (b'A', "MAAB", 14),
    (b'0', "MAAB", 14),
    (b'A', "MAAB", 65_535),
];

/// One signature of each indexed code, its value `A` all through.
fn signatures() -> Vec<String> {
    let item = |row: &oracle::registry::Indexed| {
        let rest = row.full - row.code.len() - row.index;
        format!("{}{}{}", row.code, "_".repeat(row.index), "A".repeat(rest))
    };
    INDEXED.iter().map(item).collect()
}

fn records() -> Vec<Record> {
    let mut records: Vec<Record> = GROUPS
        .iter()
        .flat_map(|(letter, _)| both(*letter, ""))
        .collect();
    for (letter, body) in BODIES {
        records.extend(both(*letter, body));
    }
    for (letter, body, stated) in TEXTS {
        records.push(record(Form::Text, *letter, body.as_bytes(), *stated, 13));
        records.push(record(Form::Binary, *letter, body.as_bytes(), *stated, 13));
    }
    let signatures = signatures();
    for item in &signatures {
        for letter in *b"KLJ" {
            records.extend(both(letter, item));
        }
    }
    // An ondex where there must be none, and a pad bit.
    for head in ["2BAAAB", "0B__", "3B___AAB", "A_E", "2AAAAAQ"] {
        let row = INDEXED.iter().find(|row| head.starts_with(row.code));
        let full = row.expect("an indexed code").full;
        records.extend(both(b'K', &format!("{head:A<full$}")));
    }
    records.extend(both(b'K', &signatures.concat()));
    records.extend(both(b'L', &(signatures.concat() + "MAAB")));
    for depth in [2, 62, 63, 64, 65] {
        records.extend(both(b'J', &nested('J', depth)));
        records.extend(both(b'A', &around('A', depth, "MAAB")));
    }
    records.extend(rooms());
    for units in [4095, 4096] {
        records.extend(both(b'J', &"1AAK".repeat(units)));
    }
    records
}

/// Every room from none to more than enough.
fn rooms() -> Vec<Record> {
    let body = "MAAB1AAM";
    let mut records = Vec::new();
    for room in 0..=16 {
        let text = body.as_bytes();
        records.push(record(Form::Text, b'A', text, text.len(), room));
        let bytes = binary(body);
        records.push(record(Form::Binary, b'A', &bytes, bytes.len(), room));
    }
    records
}

/// What the papers say of some of them.
#[test]
fn the_papers() {
    let line = |letter, body: &str| both(letter, body)[0].line();
    let hex = |bytes: &str| -> String { bytes.bytes().map(|b| format!("{b:02x}")).collect() };
    let told = |group: &str, behind: usize| hex(group) + &"aa".repeat(behind);
    assert_eq!(
        line(b'A', "MAAB"),
        format!("25 0 8 {}\n", told("-AABMAAB", 5))
    );
    assert_eq!(line(b'A', ""), format!("25 0 4 {}\n", told("-AAA", 5)));
    assert_eq!(line(b'K', "MAAB"), format!("25 6 0 {}\n", told("MAAB", 9)));
    assert_eq!(
        line(b'A', "MAABMQAA"),
        format!("25 8 4 {}\n", told("MAABMQAA", 9))
    );
    assert!(line(b'J', &nested('J', 63)).starts_with("25 0 256 "));
    assert!(line(b'J', &nested('J', 64)).starts_with("25 11 252 "));
}

/// What the program is fed, and what it must write.
pub fn recorded() -> (Vec<u8>, String) {
    let records = records();
    let lent = records.iter().all(|record| record.buffer.len() <= 20_480);
    assert!(lent, "the program lends 20,480 bytes");
    let input = records.iter().flat_map(Record::bytes).collect();
    (input, records.iter().map(Record::line).collect())
}
