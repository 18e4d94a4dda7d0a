//! The three programs beside the oracle, at lengths around 8,192: the report on
//! standard output, or the single byte 01 for a longer stream; and on standard
//! error what they could not do.
//!
//! `rt ci` builds them, and so does `rt run < /dev/null` in the folder of each,
//! `crates/program_text`, `program_binary` and `program_mixed`; then:
//! `cargo test --release --test programs -- --ignored`

use oracle::report::write_report;
use std::fs::File;
use std::io::Write;
use std::path::Path;
use std::process::{Command, Output, Stdio};
use streams::form::FORMS;
use streams::{decks, mixed, papers, Form, Random};

/// Which program: of a form's report, or of the mixed one.
#[derive(Clone, Copy, Debug)]
enum Kind {
    Of(Form),
    Mixed,
}

const KINDS: [Kind; 3] = [Kind::Of(Form::Text), Kind::Of(Form::Binary), Kind::Mixed];

fn program(kind: Kind) -> Command {
    let name = match kind {
        Kind::Of(Form::Text) => "program_text",
        Kind::Of(Form::Binary) => "program_binary",
        Kind::Mixed => "program_mixed",
    };
    let crates = Path::new(env!("CARGO_MANIFEST_DIR")).join("../../crates");
    Command::new(crates.join(name).join("out").join(name))
}

/// What the program writes for a stream.
fn judged(kind: Kind, stream: &[u8]) -> Vec<u8> {
    let mut child = program(kind)
        .stdin(Stdio::piped())
        .stdout(Stdio::piped())
        .spawn()
        .expect("the program, built by rt");
    let mut input = child.stdin.take().unwrap();
    // It may end before it has read a stream that is too long.
    let _ = input.write_all(stream);
    drop(input);
    child.wait_with_output().unwrap().stdout
}

fn told(kind: Kind, stream: &[u8]) -> Vec<u8> {
    if stream.len() > 8192 {
        return vec![1];
    }
    let mut out = vec![0; 17 + 19 * stream.len()];
    let length = match kind {
        Kind::Of(Form::Text) => write_report(stream, oracle::Form::Text, &mut out),
        Kind::Of(Form::Binary) => write_report(stream, oracle::Form::Binary, &mut out),
        Kind::Mixed => oracle::mixed::write_report(stream, &mut out),
    };
    out.truncate(length.unwrap());
    out
}

const LENGTHS: [usize; 11] = [0, 1, 4, 8188, 8189, 8190, 8191, 8192, 8193, 8196, 20_000];

#[test]
#[ignore = "needs the programs in crates/program_*/out"]
fn lengths_around_8192() {
    let mut random = Random::new(0x8192);
    for maker in [decks::digests, decks::nests, decks::all_codes, units] {
        let text = maker(&mut random, 40_000);
        for form in FORMS {
            let made = form.of_text(&text);
            around_the_limit(Kind::Of(form), &made);
        }
    }
}

fn around_the_limit(kind: Kind, made: &[u8]) {
    for length in LENGTHS {
        let stream = &made[..length];
        let (found, told) = (judged(kind, stream), told(kind, stream));
        assert_eq!(found, told, "{kind:?} {length}");
    }
}

/// Events with signatures in either form, groups in both, and empty groups in
/// binary: the most rows a mixed report can have.
#[test]
#[ignore = "needs the programs in crates/program_*/out"]
fn mixed_streams_around_8192() {
    let mut random = Random::new(0x8193);
    for form in FORMS {
        around_the_limit(Kind::Mixed, &mixed::events(&mut random, 40_000, form));
    }
    around_the_limit(Kind::Mixed, &mixed::forms_in_turn(&mut random, 40_000));
    around_the_limit(Kind::Mixed, &[0xF8, 0, 0].repeat(10_000));
    for stream in papers::MIXED {
        assert_eq!(judged(Kind::Mixed, stream), told(Kind::Mixed, stream));
    }
}

fn ended(mut program: Command) -> Output {
    let program = program.stderr(Stdio::piped());
    let child = program.spawn().expect("the program, built by rt");
    child.wait_with_output().expect("an end")
}

/// A folder can't be read, a full device takes nothing.
#[test]
#[ignore = "needs the programs in crates/program_*/out"]
fn what_could_not_be_done_is_said() {
    for kind in KINDS {
        let mut unread = program(kind);
        unread
            .stdout(Stdio::piped())
            .stdin(File::open("/").expect("a folder"));
        let told = ended(unread);
        let said = "cesr: standard input could not be read: nothing was judged\n";
        assert_eq!((told.status.code(), told.stdout), (Some(1), vec![]));
        assert_eq!(told.stderr, said.as_bytes());
        let mut unwritten = program(kind);
        let full = File::options().write(true).open("/dev/full");
        unwritten
            .stdin(Stdio::null())
            .stdout(full.expect("a device"));
        unwritten_is_said(ended(unwritten));
    }
}

fn unwritten_is_said(told: Output) {
    let said = "cesr: standard output could not be written: the report is not whole\n";
    assert_eq!((told.status.code(), told.stderr), (Some(1), said.into()));
}

/// The pipe is closed before the program has read its input to the end.
#[test]
#[ignore = "needs the programs in crates/program_*/out"]
fn a_pipe_that_nobody_reads_is_said() {
    for kind in KINDS {
        let mut program = program(kind);
        let program = program.stdin(Stdio::piped()).stdout(Stdio::piped());
        let child = program.stderr(Stdio::piped()).spawn();
        let mut child = child.expect("the program, built by rt");
        drop(child.stdout.take());
        drop(child.stdin.take());
        unwritten_is_said(child.wait_with_output().expect("an end"));
    }
}

/// Units that are each an item: the most rows a report can have.
fn units(_: &mut Random, size: usize) -> Vec<u8> {
    b"1AAK".repeat(size / 4)
}
