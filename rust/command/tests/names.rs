//! Names that look like something else: options, `-`, lines of the output,
//! other names. None is skipped, replaced or mistaken.

mod common;

use common::{command, finished, python, run, within, Folder};
use std::collections::HashSet;
use std::ffi::OsStr;
use std::os::unix::ffi::OsStrExt;

/// A pattern gives the names of files: one that is an option too, or `-`,
/// would not be judged. Behind `--`, or with its folder, it is.
#[test]
fn an_option_that_is_a_file_is_an_error() {
    for name in [
        "-",
        "-h",
        "--help",
        "--all",
        "--json",
        "--report",
        "--form=text",
        "--manifest=x",
        "-x",
    ] {
        let folder = Folder::new();
        folder.file("a.cesr", b"MAAB");
        folder.file(name, b"MQAA");
        let ran = within(&folder, "printf MAAB | cesr judge *");
        assert_eq!((ran.status, ran.text()), (2, String::new()), "{name}");
        let said = format!(
            "cesr: there is a file called {name}: put -- before names, or say ./{name} for it\n"
        );
        assert!(ran.err.starts_with(&said), "{}", ran.err);
        for line in [
            "cesr judge ./*",
            "cesr judge -- *",
            "cesr judge --form text -- *",
        ] {
            let ran = within(&folder, &format!("printf MAAB | {line}"));
            assert_eq!((ran.status, ran.text().lines().count()), (1, 3), "{name}");
            assert!(!ran.text().contains("standard input"), "{}", ran.text());
        }
    }
}

/// So for the other commands, and for a value.
#[test]
fn an_option_that_is_a_file_is_an_error_everywhere() {
    let folder = Folder::new();
    folder.file("-", b"MQAA");
    for line in [
        "cesr convert --to binary -",
        "cesr convert --to binary --out - a",
        "cesr show 0 -",
        "cesr group --form text A -",
        "cesr group --form text A --out - a",
        "cesr write --form text 1AAM --out -",
        "cesr manifest -",
    ] {
        let ran = within(&folder, line);
        assert_eq!((ran.status, ran.text()), (2, String::new()), "{line}");
        assert!(ran.err.contains("there is a file called -:"), "{}", ran.err);
    }
    let ran = within(&folder, "printf MAAB | cesr show -- 0 -");
    assert_eq!(ran.status, 1);
    assert!(ran.text().contains("verdict  refused 8 at 0"));
}

/// Behind `--` a file called `-` is read, and standard input is not; before
/// it, `-` is standard input.
#[test]
fn a_file_called_as_standard_input_is() {
    let folder = Folder::new();
    let ran = within(&folder, "printf MAAB | cesr judge -- -");
    assert_eq!(
        (ran.status, ran.text().as_str()),
        (2, "error   -: No such file or directory\n")
    );
    folder.file("-", b"MQAA");
    folder.file("standard input", b"MQAA");
    let ran = within(&folder, "printf MAAB | cesr judge - -- - 'standard input'");
    let told = "passed  standard input: text (detected), 1 item, 1 accepted, 0 refused, no remainder
failed  -: text (detected), 1 item, 0 accepted, 1 refused, no remainder; first refused 8 at 0
failed  standard\\ input: text (detected), 1 item, 0 accepted, 1 refused, no remainder; first refused 8 at 0
3 streams: 1 passed, 2 failed, 0 not judged; 3 items, 1 accepted, 2 refused, 0 remainders
";
    assert_eq!((ran.status, ran.text().as_str()), (1, told));
    let ran = within(
        &folder,
        "printf MAAB | cesr judge --json - -- 'standard input'",
    );
    let said = [
        "{\"stream\":\"standard input\",\"",
        "{\"stream\":\"./standard input\",\"",
    ];
    for (line, said) in ran.text().lines().zip(said) {
        assert!(line.starts_with(said), "{line}");
    }
}

/// A pattern that finds no file leaves nothing behind `--`: standard input is
/// not judged in their place.
#[test]
fn no_file_is_not_standard_input() {
    let folder = Folder::new();
    let line = "shopt -s nullglob; printf MAAB | cesr judge -- *.cesr";
    let ran = within(&folder, line);
    assert_eq!((ran.status, ran.text()), (2, String::new()));
    assert!(ran.err.starts_with("cesr: no FILE stands behind --\n"));
}

/// A file called `--` would be taken for the mark and left unjudged.
#[test]
fn a_file_called_as_the_mark_is() {
    let folder = Folder::new();
    folder.file("a.cesr", b"MAAB");
    folder.file("--", b"MQAA");
    let ran = within(&folder, "cesr judge *");
    assert_eq!((ran.status, ran.text()), (2, String::new()));
    assert!(ran
        .err
        .starts_with("cesr: there is a file called --: say ./-- for it\n"));
    for line in ["cesr judge -- *", "cesr judge ./*"] {
        let ran = within(&folder, line);
        assert_eq!((ran.status, ran.text().lines().count()), (1, 3), "{line}");
    }
}

/// Marks by which an odd name could be seen as it is.
const RAW: [&str; 8] = [
    "\u{1b}",
    "\u{202e}",
    "\u{e0041}",
    "\u{61c}",
    "\u{feff}",
    "\u{a0}",
    "  passed",
    "passed  vendor",
];

/// What a file is called can pass neither for a line nor for the row that a
/// terminal would wrap it to, in whatever output it stands.
#[test]
fn odd_names_imitate_no_line() {
    let folder = Folder::new();
    let blanks = " ".repeat(70);
    for name in [
        "a\npassed  b\u{1b}[2J\u{202e}\u{e0041}\u{61c}\u{feff}\u{a0}".to_string(),
        "a\r3 streams: 3 passed\u{2028}b".to_string(),
        format!("x{blanks}passed  vendor.cesr: 5 items"),
    ] {
        let bad = folder.file(&name, b"MQAA");
        let missing = format!("{bad}.gone");
        let within_it = format!("{bad}/x");
        for arguments in [
            &["judge", &bad][..],
            &["judge", "--all", &bad],
            &["judge", "--json", &missing],
            &["judge", &missing],
            &["judge", &missing, &bad],
            &["judge", "--manifest", &missing],
            &["judge", "--manifest", &bad],
            &["show", "0", &bad],
            &["show", "0", &missing],
            &["show", &name],
            &["convert", &bad],
            &["convert", &missing],
            &["convert", "--to", "binary", &bad, "--out", &within_it],
            &["convert", "--to", &name],
            &["convert", &bad, &bad],
            &["manifest", &missing],
            &["group", "--form", "text", "A", &bad],
            &["group", "--form", "text", "A", &missing],
            &["group", "--form", "text", &name],
            &["write", "--form", "text", &name],
            &["write", "--form", "text", "M", "--raw", &name],
            &["write", "--form", "text", "A", "--index", &name],
            &["judge", &format!("--{name}")],
            &[&name],
        ] {
            let ran = run(arguments);
            let said = ran.text() + &ran.err;
            assert!(!ran.err.is_empty() || ran.status == 1, "{arguments:?}");
            assert!(RAW.iter().all(|raw| !said.contains(raw)), "{said}");
            let imitated = |line: &str| line.starts_with("passed") || line.starts_with("3 streams");
            assert!(!said.split(['\n', '\r']).any(imitated), "{said}");
        }
    }
}

/// Names that differ by what is not seen, or by bytes that are no UTF-8, in
/// lines and in JSON.
#[test]
fn no_two_names_are_alike() {
    let names: [&[u8]; 8] = [
        b"a\xff",
        b"a\xfe",
        b"a\xef\xbf\xbd",
        b"a\\xff",
        b"a ",
        b"a\xe2\x80\x8b",
        b"a",
        b"a?",
    ];
    let folder = Folder::new();
    for name in names {
        std::fs::write(folder.path().join(OsStr::from_bytes(name)), b"MAAB").expect("a file");
    }
    let judged = |option: &[&str]| {
        let mut command = command(&[&["judge"], option, &["--"]].concat());
        command
            .current_dir(folder.path())
            .args(names.map(OsStr::from_bytes));
        finished(command, b"")
    };
    let ran = judged(&[]);
    assert_eq!((ran.status, ran.text().lines().count()), (0, 9));
    let lines: HashSet<String> = ran.text().lines().map(str::to_string).collect();
    assert_eq!(lines.len(), 9);
    let script = "
import json, sys
print(len({json.loads(line)['stream'] for line in sys.stdin}))
";
    assert_eq!(python(script, &judged(&["--json"]).out), "8\n");
}
