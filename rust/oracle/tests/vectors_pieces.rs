//! The recorded calls of `crates/vectors_pieces`: streams in pieces. What the
//! program there is fed and what it must write come from this package, which shares
//! nothing with the program. `VECTORS_WRITE=1 cargo test -p oracle --test
//! vectors_pieces` writes the files anew; without it the files must be what they
//! would be.

mod common;

use common::{around, binary, nested};
use oracle::pieces::Pieces;
use oracle::{Form, Refusal};
use std::path::PathBuf;

/// A call of a form: a state begins, a piece comes, the end is told.
#[derive(Clone, Copy, PartialEq, Eq)]
enum Call {
    Start,
    Feed,
    End,
}

/// The rooms lent, of which the end takes the first, and the piece.
#[derive(Clone)]
struct Record {
    call: Call,
    form: Form,
    rooms: [usize; 2],
    piece: Vec<u8>,
}

impl Record {
    fn number(&self) -> u8 {
        let of_text = match self.call {
            Call::Start => 28,
            Call::Feed => 30,
            Call::End => 32,
        };
        of_text + u8::from(self.form == Form::Binary)
    }

    fn bytes(&self) -> Vec<u8> {
        let mut bytes = vec![self.number()];
        for number in [self.rooms[0], self.rooms[1], self.piece.len()] {
            bytes.extend((number as u16).to_be_bytes());
        }
        bytes.extend(&self.piece);
        bytes
    }

    /// The call, its number, the lengths written, and the buffers, which held AA.
    /// A state of the other form is 13.
    fn line(&self, state: &mut Kept) -> String {
        let [mut first, mut second] = self.rooms.map(|room| vec![0xAA; room]);
        let fits = state.form == self.form;
        let answer = match self.call {
            Call::Start => {
                *state = Kept::start(self.form);
                return String::new();
            }
            _ if !fits => Err(Refusal::new(13, 0)),
            Call::Feed => state.pieces.feed(&self.piece, &mut first, &mut second),
            Call::End => state.pieces.end(&mut first).map(|length| (length, 0)),
        };
        let (number, (given, more)) = match answer {
            Ok(lengths) => (0, lengths),
            Err(refusal) => (refusal.number, (0, 0)),
        };
        let shown = |buffer: &[u8]| -> String {
            let digits: String = buffer.iter().map(|byte| format!("{byte:02x}")).collect();
            format!(" {digits}")
        };
        let call = self.number();
        match self.call {
            Call::End => format!("{call} {number} {given}{}\n", shown(&first)),
            _ => {
                let rows = shown(&first) + &shown(&second);
                format!("{call} {number} {given} {more}{rows}\n")
            }
        }
    }
}

/// The state that the program keeps from record to record, with its form.
struct Kept {
    form: Form,
    pieces: Pieces,
}

impl Kept {
    fn start(form: Form) -> Kept {
        let pieces = Pieces::start(form);
        Kept { form, pieces }
    }
}

fn other(form: Form) -> Form {
    match form {
        Form::Text => Form::Binary,
        Form::Binary => Form::Text,
    }
}

/// A stream in these pieces, each with so much room more than it asks for; and of
/// every third first with too little.
fn fed(form: Form, pieces: &[&[u8]], spare: usize) -> Vec<Record> {
    let record = |call, rooms, piece: &[u8]| Record {
        call,
        form,
        rooms,
        piece: piece.to_vec(),
    };
    let mut records = vec![record(Call::Start, [0, 0], b"")];
    let mut state = Pieces::start(form);
    for (index, piece) in pieces.iter().enumerate() {
        let given = state.feed(piece, &mut [0; 4096], &mut [0; 4096]);
        let (items, refusals) = given.expect("room enough");
        if index % 3 == 0 && items > 0 {
            records.push(record(Call::Feed, [items - 1, refusals], piece));
            records.push(record(Call::Feed, [0, refusals], piece));
        }
        if index % 3 == 0 && refusals > 0 {
            records.push(record(Call::Feed, [items, refusals - 1], piece));
        }
        records.push(record(Call::Feed, [items + spare, refusals + spare], piece));
    }
    let length = state.end(&mut [0; 5]).expect("room enough");
    if length > 0 {
        records.push(record(Call::End, [4, 0], b""));
    }
    records.push(record(Call::End, [length + spare, 0], b""));
    // After the end, and by the other form's calls.
    records.push(record(Call::End, [5, 0], b""));
    records.push(record(Call::Feed, [9, 9], b"MAAB"));
    records
}

/// Streams of whole units in the alphabet: each number of a verdict and of a
/// remainder, small and large headers, groups that close within one another.
#[rustfmt::skip]
const STREAMS: &[&str] = &[
    "", "MAAB", "MAAB1AAMMP__", "-AAB0AAAMAAB", "-AACMAAB", "MAAB_AAAMAAB", "-_AAACAAMAAB", "MAAB-_AAABAA", "-AAC-_AAABAAMAAB",
    "-JAC-_AAABAAMAAB", "MQAAMAAB", "0HEAAAAAMAAB", "4BAA5BAA6BABAABh5BABAQAA", "0J_A0JAAMAAB", "-AAAMAAB", "-AAB-AAA-JAD-JAB-AAAMAABMAAB",
    "--JAAAABMAABMAAB", "7AABAAAAMAAB", "8AABAAAAMAAB", "4AABAAAA4AABA-ab4AAAMAAB", "5AABAA-a6AABAAA-5AABAAA-", "-KABMAABMAAB", "-KACAAAAAAAAMAAB",
    "-AAB7AABMAAB", "-AAC7AABAAAAMAAB", "-AAB--JAMAAB", "VABhVAEAWGhpXabc", "-AAD0HAA-AABMAAB",
];

/// Texts with characters outside the alphabet, and such that end within a unit.
const TEXTS: &[&str] = &[
    "M",
    "MAABMA",
    "MAABMA!!MAAB",
    "MAAB0HAA+!AAMAAB",
    "0HAA!+AAMAAB-",
    "-AACMAAB0J=AMAAB",
    "7AABAA=AMAAB",
    "8AABAAAAAAA=",
    "--JAA!AAMAAB",
    "-AAB-JA+MAAB",
    "=",
    "MAAB\nMAAB",
];

fn streams() -> Vec<(Form, Vec<u8>)> {
    let mut streams = Vec::new();
    for text in STREAMS {
        streams.push((Form::Text, text.as_bytes().to_vec()));
        streams.push((Form::Binary, binary(text)));
        let mut cut = binary(text);
        if cut.pop().is_some() {
            streams.push((Form::Binary, cut));
        }
    }
    for text in TEXTS {
        streams.push((Form::Text, text.as_bytes().to_vec()));
    }
    for depth in [63, 64, 65] {
        streams.push((Form::Text, (nested('J', depth) + "MAAB").into_bytes()));
        streams.push((Form::Binary, binary(&around('A', depth, "MAAB"))));
    }
    streams
}

fn records() -> Vec<Record> {
    let mut records = Vec::new();
    for (form, stream) in streams() {
        for size in [1, form.unit(), form.unit() + 1, stream.len().max(1)] {
            let mut pieces: Vec<&[u8]> = stream.chunks(size).collect();
            pieces.insert(pieces.len() / 2, b"");
            records.extend(fed(form, &pieces, size % 2));
        }
    }
    // Every cut into two, and a call of the other form on a state in the middle.
    let stream = b"MAAB-AAB0AAAMQAA--JAAAAA1AA";
    for cut in 0..=stream.len() {
        let (front, back) = stream.split_at(cut);
        let mut two = fed(Form::Text, &[front, back], 0);
        let wrong = |call, record: &Record| Record {
            call,
            form: other(record.form),
            ..record.clone()
        };
        let first = two[1].clone();
        two.insert(1, wrong(Call::Feed, &first));
        two.insert(3, wrong(Call::End, &first));
        records.extend(two);
    }
    records
}

fn file(name: &str) -> PathBuf {
    let top = PathBuf::from(env!("CARGO_MANIFEST_DIR")).join("../..");
    top.join("crates/vectors_pieces").join(name)
}

fn lines(records: &[Record]) -> String {
    let mut state = Kept::start(Form::Text);
    let line = |record: &Record| record.line(&mut state);
    records.iter().map(line).collect()
}

/// 01's own stream, of 39 bytes of report: two items, the first refused 4 at 4.
#[test]
fn the_papers() {
    let told = lines(&fed(Form::Text, &[b"-AAB0AA", b"AMAAB"], 0));
    let rows = "000000000000000804000000080000000400 000000000400000004";
    let expected = format!(
        "30 0 0 0  \n30 0 18 9 {rows}\n32 0 0 \n32 13 0 aaaaaaaaaa\n\
         30 13 0 0 aaaaaaaaaaaaaaaaaa aaaaaaaaaaaaaaaaaa\n"
    );
    assert_eq!(told, expected);
    let told = lines(&fed(Form::Text, &[b"-AACMAAB"], 0));
    assert!(
        told.contains("32 3 0 aaaaaaaa\n32 0 5 0000000004\n"),
        "{told}"
    );
}

/// Each refusal is among them, and rows of each kind.
#[test]
fn what_is_met() {
    let told = lines(&records());
    for start in [
        "30 0 9 0 ",
        "31 0 9 9 ",
        "30 3 ",
        "31 3 ",
        "30 13 ",
        "33 13 ",
        "32 3 ",
        "33 0 5 ",
        "31 13 ",
    ] {
        assert!(told.lines().any(|line| line.starts_with(start)), "{start}");
    }
}

#[test]
fn the_files_say_what_the_oracle_says() {
    let records = records();
    let input: Vec<u8> = records.iter().flat_map(Record::bytes).collect();
    let expected = lines(&records);
    if std::env::var_os("VECTORS_WRITE").is_some() {
        std::fs::write(file("stdin"), &input).unwrap();
        std::fs::write(file("stdout"), &expected).unwrap();
    }
    assert!(input.len() < 262_144, "the program reads 262,144 bytes");
    assert!(records
        .iter()
        .all(|record| record.rooms[0].max(record.rooms[1]) <= 4096));
    assert_eq!(std::fs::read(file("stdin")).unwrap(), input);
    assert_eq!(std::fs::read_to_string(file("stdout")).unwrap(), expected);
}
