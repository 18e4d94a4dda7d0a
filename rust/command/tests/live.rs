//! `judge --live`: items told while the stream is being written, the same verdict as
//! of the whole, and nothing that could be taken for a pass before it.

mod common;

use common::{fed, program, python, run, shell, within, Folder};
use std::fs;
use std::io::{BufRead, BufReader, Read, Write};
use std::os::unix::process::ExitStatusExt;
use std::process::{Child, ChildStdin, ChildStdout, Command, Stdio};
use streams::generate::any_deck;
use streams::item::stream;
use streams::{damage, Form, Random};

/// A call that waits for what is sent to it.
struct Waiting {
    child: Child,
    stdin: ChildStdin,
    lines: BufReader<ChildStdout>,
}

impl Waiting {
    fn of(arguments: &[&str]) -> Waiting {
        // Who runs the tests in the background may have told them to ignore a signal.
        let mut call = Command::new("env");
        call.args(["--default-signal=INT", "--default-signal=TERM", program()]);
        call.args(["judge", "--live"]).args(arguments);
        call.stdin(Stdio::piped()).stdout(Stdio::piped());
        let mut child = call.spawn().expect("the program starts");
        let stdin = child.stdin.take().expect("a pipe");
        let lines = BufReader::new(child.stdout.take().expect("a pipe"));
        Waiting {
            child,
            stdin,
            lines,
        }
    }

    fn send(&mut self, bytes: &[u8]) {
        self.stdin.write_all(bytes).expect("sent");
        self.stdin.flush().expect("sent");
    }

    /// Waits for the line, not for the clock.
    fn line(&mut self) -> String {
        let mut line = String::new();
        self.lines.read_line(&mut line).expect("a line");
        line
    }

    /// Ends the stream: what else is said, and the exit status.
    fn ended(mut self) -> (String, Option<i32>) {
        drop(self.stdin);
        let mut rest = String::new();
        self.lines.read_to_string(&mut rest).expect("lines");
        let status = self.child.wait().expect("the program ends");
        (rest, status.code())
    }
}

#[test]
fn the_first_refusal_is_told_before_the_last_byte_is_sent() {
    let stream = b"MAABMQAA-AABMAAB";
    let (front, last) = stream.split_at(stream.len() - 1);
    let mut call = Waiting::of(&["--form", "text", "--json"]);
    call.send(front);
    assert!(call.line().starts_with("{\"live\":\"item\",\"item\":0,"));
    assert!(call.line().starts_with("{\"live\":\"item\",\"item\":1,"));
    let refusal = "{\"live\":\"refusal\",\"item\":1,\"number\":8,\"meaning\":\"pad bit or lead byte not zero\",\"place\":4}\n";
    assert_eq!(call.line(), refusal);
    call.send(last);
    assert!(call.line().starts_with("{\"live\":\"item\",\"item\":2,"));
    let (rest, status) = call.ended();
    assert_eq!((rest.lines().count(), status), (1, Some(1)));
    assert!(rest.starts_with("{\"stream\":\"standard input\",\"outcome\":\"failed\""));

    let mut call = Waiting::of(&["--form", "text"]);
    call.send(front);
    assert_eq!(
        call.line(),
        "item 0: accepted: M Short number 2-byte b2, 4 characters from 0\n"
    );
    assert_eq!(
        call.line(),
        "item 1: refused 8 at 4, pad bit or lead byte not zero: M Short number 2-byte b2, 4 characters from 4\n"
    );
    call.send(last);
    assert!(call.line().starts_with("item 2: accepted: -A "));
    let (rest, status) = call.ended();
    let whole = fed(&["judge", "--form", "text"], stream);
    assert_eq!(rest, format!("\n{}", whole.text()));
    assert_eq!(status, Some(1));
}

/// Byte by byte the same is told as at once.
#[test]
fn wherever_it_is_cut() {
    for (form, bytes) in [
        ("text", &b"MAAB-AAB0AAAMAABMQAA-KAW"[..]),
        (
            "binary",
            b"\x30\x00\x01\xF8\x00\x01\xD0\x00\x00\x30\x00\x01\x00\x00",
        ),
    ] {
        let call = ["--json", "--all", "--form", form];
        let mut byte_by_byte = Waiting::of(&call);
        bytes.chunks(1).for_each(|byte| byte_by_byte.send(byte));
        let (said, status) = byte_by_byte.ended();
        let whole = fed(&[&["judge", "--live"], &call[..]].concat(), bytes);
        assert_eq!((said, status), (whole.text(), Some(whole.status)));
    }
}

/// Behind the items stands what `judge` says of the whole, whatever is asked for;
/// a report is the same bytes, and so is the exit status.
#[test]
fn the_end_is_what_judge_says() {
    let styles: [&[&str]; 5] = [
        &[],
        &["--all"],
        &["--json"],
        &["--json", "--all"],
        &["--report"],
    ];
    for seed in 0..30 {
        let mut random = Random::new(0xF00 + seed);
        let form = [Form::Text, Form::Binary][seed as usize % 2];
        let mut made = form.of_text(&stream(&any_deck(&mut random, 12)));
        if seed % 3 > 0 {
            damage(&mut random, form, &mut made);
        }
        if seed % 7 == 6 {
            made.truncate(seed as usize / 7);
        }
        let named: &[&str] = match (seed % 5, form) {
            (0, _) => &[],
            (_, Form::Text) => &["--form", "text"],
            (_, Form::Binary) => &["--form", "binary"],
        };
        for style in styles {
            let call = [&["judge"], style, named].concat();
            let whole = fed(&call, &made);
            let live = fed(&[&call[..], &["--live"]].concat(), &made);
            assert_eq!((live.status, &live.err), (whole.status, &whole.err));
            assert!(live.out.ends_with(&whole.out), "{made:02X?}");
            let before = live.out.len() - whole.out.len();
            let before = String::from_utf8_lossy(&live.out[..before]).into_owned();
            assert!(!before.contains("passed") && !before.contains("\"stream\""));
            if style == ["--report"] {
                assert_eq!(before, "");
            }
        }
    }
}

/// The rows told are those of the last object, and lines with `stream` count
/// streams.
#[test]
fn rows_are_those_of_the_report() {
    let script = "
import json, sys
*rows, last = [json.loads(line) for line in sys.stdin]
assert all('live' in row and 'stream' not in row for row in rows)
assert 'stream' in last and 'live' not in last
kinds = {kind: [row for row in rows if row['live'] == kind] for kind in ('item', 'refusal', 'remainder')}
assert sum(map(len, kinds.values())) == len(rows)
assert [{key: row[key] for key in row if key != 'live'} for row in kinds['item']] == last['rows']
short = lambda row: {key: row[key] for key in ('item', 'number', 'meaning', 'place')}
assert [short(row) for row in kinds['refusal']] == [short(row) for row in last['refusals']]
for row in kinds['remainder']:
    assert row['offset'] == last['remainder']['offset'] and row['number'] == last['remainder']['number']
assert len(kinds['remainder']) == (last['remainder'] is not None)
print(len(kinds['item']), len(kinds['refusal']), len(kinds['remainder']))
";
    for (name, said) in [
        ("first.cesr", "5 1 0\n"),
        ("cut.cesr", "1 0 1\n"),
        ("clean-binary.cesr", "5 0 0\n"),
    ] {
        let ran = fed(
            &["judge", "--live", "--json", "--all"],
            &common::sample(name),
        );
        assert_eq!(python(script, &ran.out), said);
    }
}

/// Fifteen bytes could be text, and the sixteenth says that it is none.
#[test]
fn the_form_is_told_by_sixteen_bytes() {
    let binary = [b"0AA".repeat(5), b"\x00AA".to_vec()].concat();
    let mut call = Waiting::of(&["--json"]);
    binary.chunks(1).for_each(|byte| call.send(byte));
    let (said, _) = call.ended();
    let whole = fed(&["judge", "--json"], &binary);
    assert!(
        said.ends_with(&whole.text()) && said.contains("\"form\":\"binary\",\"detected\":true")
    );
    // Fewer are judged once the end has come.
    let ran = fed(&["judge", "--live"], b"MAAB");
    let whole = fed(&["judge"], b"MAAB");
    assert_eq!((ran.status, whole.status), (0, 0));
    assert!(ran.text().ends_with(&whole.text()));
}

/// Ended by a signal no line says passed, and the status is not 0, though all that
/// came was accepted.
#[test]
fn a_signal_is_no_pass() {
    for (name, number) in [("INT", 2), ("TERM", 15)] {
        for style in [&[][..], &["--json"], &["--report"]] {
            let mut call = Waiting::of(&[&["--form", "text"], style].concat());
            call.send(b"MAABMAAB");
            let mut said = String::new();
            if style != ["--report"] {
                said = call.line() + &call.line();
            }
            let process = call.child.id().to_string();
            let kill = Command::new("kill").args(["-s", name, &process]).status();
            assert!(kill.expect("kill").success());
            let Waiting {
                mut child,
                stdin,
                mut lines,
            } = call;
            lines.read_to_string(&mut said).expect("lines");
            let status = child.wait().expect("the program ends");
            drop(stdin);
            assert_eq!((status.code(), status.signal()), (None, Some(number)));
            assert!(!said.contains("passed"), "{said}");
        }
    }
}

#[test]
fn a_named_pipe_and_a_file() {
    let folder = Folder::new();
    let piped = within(
        &folder,
        "mkfifo pipe && { { printf MAAB; printf 1AAM; } > pipe & cesr judge --live --form text pipe; }",
    );
    assert_eq!((piped.status, piped.err.as_str()), (0, ""));
    assert!(piped.text().ends_with("\npassed  pipe: 2 items, 2 accepted, 0 refused, no remainder\n        text, 8 characters\n"));
    let name = "samples/first.cesr";
    let (live, whole) = (run(&["judge", "--live", name]), run(&["judge", name]));
    assert_eq!((live.status, whole.status), (1, 1));
    assert!(live.text().ends_with(&format!("\n\n{}", whole.text())));
}

/// What is written beside the lines is the whole's too.
#[test]
fn files_beside_the_lines() {
    let folder = Folder::new();
    let [one, other] = ["one", "other"].map(|name| folder.file(name, b""));
    for option in ["--html", "--sarif"] {
        for (call, file) in [(&["judge"][..], &one), (&["judge", "--live"], &other)] {
            let ran = run(&[call, &[option, file, "samples/cut.cesr"]].concat());
            assert_eq!(ran.status, 1);
        }
        let [one, other] = [&one, &other].map(|name| fs::read(name).expect("a file"));
        assert!(one == other && !one.is_empty());
    }
}

#[test]
fn the_limit_and_nothing_at_all() {
    let live = run(&["judge", "--live", "--json", "/dev/zero"]);
    let whole = run(&["judge", "--json", "/dev/zero"]);
    assert_eq!((live.status, &live.err), (2, &whole.err));
    assert!(live.out.ends_with(&whole.out));
    // Every item that fits was told: one of 33 bytes after the other.
    let told = live.text().matches("\"live\":\"item\"").count();
    assert_eq!(told, 3_145_728 / 33);
    for style in [&[][..], &["--json"]] {
        let live = run(&[&["judge", "--live"], style].concat());
        let whole = run(&[&["judge"], style].concat());
        assert_eq!(live, whole);
        assert_eq!(live.status, 2);
    }
    for name in ["gone.cesr", "samples"] {
        let live = run(&["judge", "--live", name]);
        assert_eq!(live, run(&["judge", name]));
    }
}

/// Who reads no further is told so by the status.
#[test]
fn lines_that_cannot_be_written() {
    let ran = shell("printf MAABMAAB | cesr judge --live > /dev/full");
    assert_eq!(ran.status, 2);
    assert!(ran.err.contains("standard output"), "{}", ran.err);
}

/// Detected, it is the stream that can't be judged so.
#[test]
fn a_mixed_stream_is_not_judged_live() {
    let ran = run(&["judge", "--live", "samples/mixed.cesr"]);
    assert_eq!(ran.status, 2);
    assert!(ran
        .text()
        .starts_with("error   samples/mixed.cesr: begins with {"));
    assert!(ran.err.contains("--live judges none: nothing was judged"));
    let ran = fed(&["judge", "--live", "--form", "text"], b"{\"v\":\"");
    assert_eq!(ran.status, 1);
}

#[test]
fn refused_in_words() {
    let (one, other) = ("samples/clean.cesr", "samples/first.cesr");
    let both = "--live goes with neither --engine nor --manifest";
    for (call, said) in [
        (&["--live", one, other][..], "--live is of one stream"),
        (&["--live", "-", one], "--live is of one stream"),
        (&["--live", "--engine", "first", one], both),
        (&["--live", "--engine=both"], both),
        (&["--live", "--manifest", one], both),
        (
            &["--live", "--form", "mixed", one],
            "--live goes not with --form mixed",
        ),
        (&["--live=1", one], "--live takes no value"),
        (
            &["--live", "--report", "--json", one],
            "--report goes with neither",
        ),
    ] {
        let ran = run(&[&["judge"], call].concat());
        assert_eq!((ran.status, ran.out.len()), (2, 0));
        assert!(ran.err.contains(said), "{}", ran.err);
    }
    let ran = run(&["expect", "--live", one]);
    assert!(ran.status == 2 && ran.err.contains("no such option here: --live"));
}
