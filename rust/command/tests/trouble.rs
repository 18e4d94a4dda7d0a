//! What can't be read, judged or written: never a pass.

mod common;

use common::{command, fed, run, sample, shell, Folder};
use std::fs::OpenOptions;
use std::io::Write;
use std::process::Stdio;

#[test]
fn an_empty_stream_is_no_pass() {
    let folder = Folder::new();
    let empty = folder.file("empty.cesr", b"");
    let said = "the stream is empty: nothing was judged\n";
    for (ran, name) in [
        (run(&["judge", &empty]), empty.as_str()),
        (run(&["judge"]), "standard input"),
    ] {
        assert_eq!(
            (ran.status, ran.text()),
            (2, format!("empty   {name}: {said}"))
        );
        assert_eq!(ran.err, format!("cesr: {name}: {said}"));
    }
    // Its report is twelve zero bytes all the same.
    let ran = run(&["judge", "--report", &empty]);
    assert_eq!((ran.status, ran.out), (2, vec![0; 12]));
    for task in [&["convert"][..], &["show", "0"]] {
        let ran = run(task);
        assert_eq!((ran.status, ran.text()), (2, String::new()));
        assert!(ran.err.contains("the stream is empty"), "{}", ran.err);
    }
}

#[test]
fn a_directory_and_a_missing_file_are_errors() {
    for (name, why) in [
        ("samples", "Is a directory\n"),
        ("samples/missing.cesr", "No such file or directory\n"),
    ] {
        for style in [&[][..], &["--all"], &["--report"]] {
            let ran = run(&[&["judge"], style, &[name]].concat());
            // A stream has its line also where it is alone; a report is bytes.
            let line = match style {
                ["--report"] => String::new(),
                _ => format!("error   {name}: {why}"),
            };
            assert_eq!((ran.status, ran.text()), (2, line));
            assert_eq!(ran.err, format!("cesr: {name}: {why}"));
        }
    }
    assert_eq!(run(&["convert", "samples"]).status, 2);
    assert_eq!(run(&["show", "0", "samples/missing.cesr"]).status, 2);
}

/// A file that vanished, one that is empty: the others are judged, and the
/// exit status is 2 wherever it stands.
#[test]
fn one_bad_file_among_many() {
    let folder = Folder::new();
    let (clean, empty) = ("samples/clean.cesr", folder.file("empty.cesr", b""));
    for names in [
        [clean, "gone.cesr", &empty, "samples/first.cesr"],
        ["gone.cesr", clean, "samples/first.cesr", &empty],
        [&empty, "samples/first.cesr", "gone.cesr", clean],
    ] {
        let ran = run(&[&["judge"], &names[..]].concat());
        let text = ran.text();
        assert_eq!((ran.status, text.lines().count()), (2, 5));
        assert!(text.contains("error   gone.cesr: No such file or directory\n"));
        assert!(text.contains(": the stream is empty: nothing was judged\n"));
        assert!(text.ends_with(
            "4 streams: 1 passed, 1 failed, 2 not judged; 10 items, 9 accepted, 1 refused, 0 remainders\n"
        ));
        assert_eq!(ran.err.lines().count(), 2);
    }
}

/// 01: a stream longer than the limit is refused 1; at the limit it is judged.
#[test]
fn the_limit() {
    let unit: [(&str, &[u8], usize); 2] = [
        ("text", b"1AAK", 4_194_304),
        ("binary", b"\xD4\x00\x0A", 3_145_728),
    ];
    let refused = "refused 1 at 0: stream longer than 4,194,304 characters or 3,145,728 bytes, a mixed one than 4,194,304 bytes\n";
    for (form, unit, limit) in unit {
        let mut stream = unit.repeat(limit / unit.len());
        assert_eq!(stream.len(), limit);
        let ran = fed(&["judge"], &stream);
        assert_eq!(ran.status, 0);
        assert!(ran
            .text()
            .contains("1048576 items, 1048576 accepted, 0 refused"));
        stream.push(unit[0]);
        for form in [&[][..], &["--form", form]] {
            let ran = fed(&[&["judge"], form].concat(), &stream);
            let line = format!("error   standard input: {refused}");
            assert_eq!((ran.status, ran.text()), (2, line));
            assert_eq!(ran.err, format!("cesr: standard input: {refused}"));
        }
        assert_eq!(fed(&["judge", "--report"], &stream).out, b"");
        assert_eq!(fed(&["convert"], &stream).status, 2);
        assert_eq!(fed(&["show", "0"], &stream).status, 2);
    }
}

/// Sources without an end are read to one byte past the limit.
#[test]
fn input_without_an_end() {
    for line in [
        "cesr judge /dev/zero",
        "yes | cesr judge",
        "cesr judge < /dev/zero",
    ] {
        let ran = shell(line);
        assert_eq!((ran.status, ran.text().lines().count()), (2, 1), "{line}");
        assert!(ran.text().starts_with("error   "), "{}", ran.text());
        assert!(ran.err.contains("refused 1 at 0"), "{}", ran.err);
    }
}

/// Tasks that write to standard output, on a stream that passes.
const WRITERS: [&[&str]; 9] = [
    &["judge"],
    &["judge", "--all"],
    &["judge", "--json"],
    &["judge", "--report"],
    &["judge", "-", "samples/clean.cesr"],
    &["convert", "--to", "binary"],
    &["show", "0"],
    &["numbers"],
    &["--help"],
];

#[test]
fn a_pipe_that_nobody_reads() {
    for arguments in WRITERS {
        let mut command = command(arguments);
        command.stdin(Stdio::piped()).stdout(Stdio::piped());
        let mut child = command.stderr(Stdio::piped()).spawn().unwrap();
        drop(child.stdout.take());
        let _ = child.stdin.take().unwrap().write_all(&sample("clean.cesr"));
        let output = child.wait_with_output().unwrap();
        let err = String::from_utf8_lossy(&output.stderr).into_owned();
        // `numbers` and `--help` may write before the pipe is closed.
        if arguments.len() > 1 || arguments[0] == "judge" {
            assert_eq!(output.status.code(), Some(2), "{arguments:?} {err}");
            assert_eq!(err, "cesr: standard output: Broken pipe\n");
        }
    }
}

/// A reader that stops early, in the middle of a long report.
#[test]
fn a_pipe_that_is_closed_early() {
    let folder = Folder::new();
    let long = folder.file("long.cesr", &b"1AAK".repeat(100_000));
    let ran = shell(&format!(
        "cesr judge --all {long} | head -n 1; echo ${{PIPESTATUS[0]}}"
    ));
    assert!(ran.text().ends_with("no remainder\n2\n"), "{}", ran.text());
    assert_eq!(ran.err, "cesr: standard output: Broken pipe\n");
}

#[test]
fn a_full_device() {
    for arguments in WRITERS {
        let full = OpenOptions::new().write(true).open("/dev/full").unwrap();
        let mut command = command(arguments);
        command.stdin(Stdio::piped()).stdout(full);
        let mut child = command.stderr(Stdio::piped()).spawn().unwrap();
        let _ = child.stdin.take().unwrap().write_all(&sample("clean.cesr"));
        let output = child.wait_with_output().unwrap();
        let err = String::from_utf8_lossy(&output.stderr).into_owned();
        assert_eq!(output.status.code(), Some(2), "{arguments:?}");
        assert_eq!(err, "cesr: standard output: No space left on device\n");
    }
    let ran = fed(
        &["convert", "--to", "binary", "--out", "/dev/full"],
        b"MAAB",
    );
    assert_eq!((ran.status, ran.err.contains("No space left")), (2, true));
}

#[test]
fn standard_output_or_input_closed_from_the_start() {
    for task in ["judge", "judge --json", "judge --report", "show 0"] {
        // Closed, and open for reading only.
        for unwritable in [">&-", "1< /dev/null"] {
            let ran = shell(&format!("cesr {task} samples/clean.cesr {unwritable}"));
            assert_eq!(
                (ran.status, ran.err.as_str()),
                (2, "cesr: standard output: closed\n")
            );
        }
        let ran = shell(&format!("cesr {task} samples/clean.cesr > /dev/null"));
        assert_eq!((ran.status, ran.err.as_str()), (0, ""));
    }
    assert_eq!(shell("cesr judge <&-").status, 2);
    // Standard error closed: the exit status still tells.
    assert_eq!(shell("cesr judge samples 2>&-").status, 2);
}

/// Calls that ask for what is not there, or for two things at once.
const WRONG: &[&[&str]] = &[
    &[],
    &["jugde", "samples/clean.cesr"],
    &["judge", "--from", "text"],
    &["judge", "--form"],
    &["judge", "--form", "txt", "samples/clean.cesr"],
    &["judge", "--all=yes", "samples/clean.cesr"],
    &["judge", "--json", "--report", "samples/clean.cesr"],
    &[
        "judge",
        "--report",
        "samples/clean.cesr",
        "samples/clean.cesr",
    ],
    &["judge", "--to", "text", "samples/clean.cesr"],
    &["show", "samples/clean.cesr"],
    &["show", "-1", "samples/clean.cesr"],
    &["show"],
    &["judge", "-", "samples/clean.cesr", "-"],
    &["judge", "--form", "te\u{1b}[31mxt"],
    &[
        "judge",
        "--form",
        "text",
        "--form",
        "binary",
        "samples/clean.cesr",
    ],
    &["judge", "--report", "--manifest", "samples/clean.cesr"],
    &["judge", "--manifest", "-"],
    &["judge", "--manifest", "samples/clean.cesr", "-"],
    &["judge", "--manifest"],
    &["manifest"],
    &["judge", "--"],
    &["convert", "--to", "binary", "--"],
    &["manifest", "-"],
    &["manifest", "--json", "samples/clean.cesr"],
    &["convert", "--out", "--", "samples/clean.cesr"],
    &["\u{1b}[31m"],
    &["samples/clean.cesr"],
    &["--json", "judge", "samples/clean.cesr"],
    &["--help", "samples/clean.cesr"],
    &["--version", "samples/clean.cesr"],
    &["convert", "samples/clean.cesr", "samples/clean.cesr"],
    &["numbers", "4"],
];

#[test]
fn a_wrong_call_is_an_error() {
    for arguments in WRONG {
        let ran = run(arguments);
        assert_eq!(
            (ran.status, ran.text()),
            (2, String::new()),
            "{arguments:?}"
        );
        assert!(ran.err.ends_with("\nTry 'cesr --help'.\n"), "{}", ran.err);
        assert!(!ran.err.contains('\u{1b}'), "{}", ran.err);
    }
}

#[test]
fn help_and_version_are_no_errors() {
    for arguments in ["help", "--help", "-h", "--version", "-V"] {
        let ran = run(&[arguments]);
        assert_eq!((ran.status, ran.err.as_str()), (0, ""));
        assert!(ran.text().starts_with("cesr"));
    }
}

/// A file may be called `--help`, and a pattern gives its name: no pass.
#[test]
fn help_behind_a_command_is_no_pass() {
    let help = run(&["--help"]).text();
    for arguments in [
        &["judge", "--help"][..],
        &["judge", "samples/clean.cesr", "--help"],
        &["judge", "-h", "samples/clean.cesr"],
        &["show", "0", "--help", "samples/clean.cesr"],
        &["convert", "--help"],
    ] {
        let ran = run(arguments);
        assert_eq!((ran.status, ran.text()), (2, help.clone()), "{arguments:?}");
    }
}

/// An option that is no UTF-8 is not taken for a name.
#[test]
fn options_in_other_bytes_are_errors() {
    for option in ["$'--out=\\xff'", "$'-\\xff'"] {
        let ran = shell(&format!("cesr convert {option} samples/clean.cesr"));
        assert_eq!((ran.status, ran.text()), (2, String::new()));
        assert!(ran.err.starts_with("cesr: no such option here: -"));
    }
}
