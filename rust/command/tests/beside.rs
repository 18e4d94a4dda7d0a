//! When and where files beside the lines are written, and under which names.

mod common;
#[path = "common/files.rs"]
mod files;

use common::{command, python, run, sample, within, Folder};
use files::{beside, reads, LOG, NAMES, SUITE};
use std::fs;
use std::os::unix::fs::PermissionsExt;

#[test]
fn lines_and_status_are_what_they_are_without() {
    let (ran, page) = beside("--html", &NAMES, b"");
    assert_eq!(ran, run(&[&["judge"], &NAMES[..]].concat()));
    assert_eq!(ran.status, 2);
    let sums = "5 streams: 1 passed, 2 failed, 2 not judged; \
                11 items, 10 accepted, 1 refused, 1 remainder";
    let script = format!("assert '{sums}' in text and '! error' in text, text");
    assert_eq!(reads(&page, &script), "");
    for style in ["--json", "--all", "--report"] {
        let arguments = [style, "samples/first.cesr"];
        let (ran, page) = beside("--html", &arguments, b"");
        assert_eq!(ran, run(&[&["judge"], &arguments[..]].concat()));
        assert_eq!(page, beside("--html", &arguments[1..], b"").1);
    }
}

/// Names that look like markup, that no text can hold, and standard input.
#[test]
fn names_add_nothing() {
    let folder = Folder::new();
    let line = r#"
printf MQAA > $'</td><script>"\'&amp;\x1b\n\xff\xef\xbf\xbf'; printf MAAB > 'standard input'
printf MAAB | cesr judge --html a --junit b --sarif c - -- *'>'* 'standard input'"#;
    // A slash can stand in no name.
    let ran = within(&folder, &line.replace("</", "<\u{2215}"));
    assert_eq!(ran.status, 1, "{}", ran.err);
    let file = |name: &str| fs::read(folder.path().join(name)).expect("the file");
    let script = "
assert text.count('\u{2715} failed') == 3 and 'script>' in text, text
";
    assert_eq!(reads(&file("a"), script), "");
    assert_eq!(python(SUITE, &file("b")).lines().count(), 3);
    let script = "
names = [urllib.parse.unquote_to_bytes(uri) for uri in artifacts]
assert names[0] == b'standard input' and names[2] == b'./standard input', names
assert names[1].endswith(b'\\x1b\\n\\xff\\xef\\xbf\\xbf'), names
";
    assert_eq!(python(&format!("{LOG}{script}"), &file("c")), "");
}

/// What can't be written is status 2 and said; the others are written, and
/// what stood there stays.
#[test]
fn a_file_that_cannot_be_written_is_an_error() {
    let folder = Folder::new();
    folder.file("deck", b"MAAB");
    let ran = within(
        &folder,
        "cesr judge --html gone/page --junit suite --sarif . deck",
    );
    let said = "cesr: gone/page: No such file or directory\ncesr: .: Is a directory\n";
    assert_eq!((ran.status, ran.err.as_str()), (2, said));
    assert!(ran.text().starts_with("passed  deck"));
    assert!(folder.path().join("suite").exists());
    let kept = folder.file("kept", b"kept");
    let full = "trap '' XFSZ; ulimit -f 1; cesr judge --html kept deck";
    let ran = within(&folder, full);
    assert_eq!(
        (ran.status, ran.err.as_str()),
        (2, "cesr: kept: File too large\n")
    );
    assert_eq!(fs::read(&kept).expect("the file"), b"kept");
    assert_eq!(fs::read_dir(folder.path()).expect("a folder").count(), 3);
    fs::set_permissions(&kept, PermissionsExt::from_mode(0o640)).expect("permissions");
    assert_eq!(within(&folder, "cesr judge --html kept deck").status, 0);
    let mode = fs::metadata(&kept).expect("a file").permissions().mode();
    assert_eq!(mode & 0o777, 0o640);
}

/// Where the lines can't be written no file is: a call that is cut off leaves
/// what stood there.
#[test]
fn files_are_written_when_all_is_judged() {
    let folder = Folder::new();
    folder.file("deck", b"MAAB");
    let kept = folder.file("kept", b"kept");
    let ran = within(&folder, "cesr judge --html kept deck > /dev/full");
    assert_eq!(ran.status, 2);
    assert_eq!(fs::read(&kept).expect("the file"), b"kept");
    let mut killed = command(&["judge", "--html", &kept, "-"]);
    killed.stdin(std::process::Stdio::piped());
    let mut child = killed.spawn().expect("the program starts");
    child.kill().expect("a signal");
    child.wait().expect("an end");
    assert_eq!(fs::read(&kept).expect("the file"), b"kept");
}

/// No file is written over what is read, whatever it is called, nor twice.
#[test]
fn what_is_read_is_not_written_over() {
    let folder = Folder::new();
    folder.file("deck", b"MAAB");
    let ran = within(
        &folder,
        "cesr manifest deck > LIST && ln -s deck link && ln deck hard",
    );
    assert_eq!(ran.status, 0);
    for (arguments, said) in [
        (
            "--html deck deck",
            "--html would replace deck, which is read",
        ),
        (
            "--html ./deck deck",
            "--html would replace ./deck, which is read",
        ),
        (
            "--junit link deck",
            "--junit would replace link, which is read",
        ),
        (
            "--sarif hard deck",
            "--sarif would replace hard, which is read",
        ),
        (
            "--sarif deck --manifest LIST",
            "--sarif would replace deck, which is read",
        ),
        (
            "--html deck < deck",
            "--html would replace deck, which is read",
        ),
        (
            "--html LIST --manifest LIST",
            "--html would replace LIST, which is read",
        ),
        (
            "--html page --sarif ./page deck",
            "./page is asked for twice",
        ),
        ("--html link --sarif hard LIST", "hard is asked for twice"),
    ] {
        let ran = within(&folder, &format!("cesr judge {arguments}"));
        assert_eq!(
            (ran.status, ran.err),
            (2, format!("cesr: {said}\n")),
            "{arguments}"
        );
        assert_eq!(ran.out, b"", "{arguments}");
    }
    assert_eq!(
        fs::read(folder.path().join("deck")).expect("the deck"),
        b"MAAB"
    );
    let ran = within(
        &folder,
        "cesr judge --html /dev/null --sarif /dev/null deck",
    );
    assert_eq!((ran.status, ran.err.as_str()), (0, ""));
}

#[test]
fn wrong_calls() {
    for (arguments, said) in [
        (&["--html"][..], "--html asks for a value"),
        (&["--html", "-", "x"], "--html asks for a file"),
        (&["--junit=", "x"], "--junit asks for a file"),
        (
            &["--sarif", "a", "--sarif", "b", "x"],
            "--sarif is given twice",
        ),
    ] {
        let ran = run(&[&["judge"], arguments].concat());
        assert_eq!(ran.status, 2, "{arguments:?}");
        assert!(
            ran.err.starts_with(&format!("cesr: {said}\n")),
            "{}",
            ran.err
        );
    }
    let ran = run(&["show", "--html", "x", "0", "samples/clean.cesr"]);
    assert!(ran.err.starts_with("cesr: no such option here: --html\n"));
}

/// Without memory for the page the lines are there, and it is an error.
#[test]
fn without_memory_for_a_file() {
    let folder = Folder::new();
    folder.file("long", &b"MQAA".repeat(1 << 20));
    let kept = folder.file("kept", b"kept");
    let ran = within(&folder, "ulimit -v 90000; cesr judge --sarif kept long");
    assert_eq!(ran.status, 2, "{}", ran.err);
    assert!(ran.text().starts_with("failed  long: 1048576 items"));
    assert_eq!(ran.err, "cesr: kept: out of memory\n");
    assert_eq!(fs::read(&kept).expect("the file"), b"kept");
}

/// Equal calls give equal pages and logs.
#[test]
fn equal_streams_give_equal_files() {
    for option in ["--html", "--sarif"] {
        let once = beside(option, &NAMES, b"").1;
        assert_eq!(once, beside(option, &NAMES, b"").1);
    }
    let file = beside("--html", &["samples/cut.cesr"], b"").1;
    let piped = beside("--html", &[], &sample("cut.cesr")).1;
    let file = String::from_utf8(file).expect("text").replace("<wbr>", "");
    let piped = String::from_utf8(piped).expect("text").replace("<wbr>", "");
    assert_eq!(file.replace("samples/cut.cesr", "standard input"), piped);
}
