//! Streams held against a manifest: 0 only if every one that is listed is
//! there, is the one that is listed, and passed.

mod common;

use common::{python, within, Folder};
use std::ffi::OsStr;
use std::fs;
use std::os::unix::ffi::OsStrExt;

/// Two decks that pass, and their manifest, in a folder called `decks`. The
/// digests are by `sha256sum`, of the bytes `MAAB` and `1AAM1AAK`.
fn decks() -> Folder {
    let folder = Folder::new();
    fs::create_dir(folder.path().join("decks")).expect("a folder");
    folder.file("decks/a.cesr", b"MAAB");
    folder.file("decks/b.cesr", b"1AAM1AAK");
    folder.file("decks/LIST", format!("{A}{B}").as_bytes());
    folder
}

const A: &str = "149671f59453f94978058e179e6507eddbf89cdd32bb15fae28b38c8af91f3de 4 text a.cesr\n";
const B: &str = "ec18b0b15d2c3538856c62c1333c0de672fe97956baedb0e715f6f5aec7dd2e0 8 text b.cesr\n";

#[test]
fn all_there_and_passed_is_0() {
    let folder = decks();
    let told = "passed  decks/a.cesr: text, 1 item, 1 accepted, 0 refused, no remainder
passed  decks/b.cesr: text, 2 items, 2 accepted, 0 refused, no remainder
2 streams, 2 expected: 2 passed, 0 failed, 0 not judged; 3 items, 3 accepted, 0 refused, 0 remainders
";
    let ran = within(&folder, "cesr judge --manifest decks/LIST");
    assert_eq!(
        (ran.status, ran.text().as_str(), ran.err.as_str()),
        (0, told, "")
    );
    // The files may be given, in any order and by other names of their folder.
    for files in [
        "decks/a.cesr decks/b.cesr",
        "./decks/b.cesr decks/../decks/a.cesr",
        "$PWD/decks/*.cesr",
    ] {
        let ran = within(
            &folder,
            &format!("cesr judge --manifest decks/LIST -- {files}"),
        );
        assert_eq!((ran.status, ran.err.as_str()), (0, ""), "{}", ran.text());
        assert_eq!(ran.text().lines().last(), told.lines().last());
    }
    // By a link to the folder, and from within it.
    let ran = within(
        &folder,
        "ln -s decks linked && cesr judge --manifest linked/LIST decks/a.cesr decks/b.cesr",
    );
    assert_eq!(ran.status, 0, "{}", ran.text());
    let ran = within(&folder, "cd decks && cesr judge --manifest LIST");
    assert_eq!((ran.status, ran.text()), (0, told.replace("decks/", "")));
    // One stream is told with its total too.
    folder.file("decks/LIST", A.as_bytes());
    let ran = within(&folder, "cesr judge --manifest decks/LIST");
    assert!(ran.text().ends_with("\n1 stream, 1 expected: 1 passed, 0 failed, 0 not judged; 1 item, 1 accepted, 0 refused, 0 remainders\n"));
}

/// The outcome of the second deck when the folder is changed by a line of the
/// shell: an `error` of its own, and 2.
fn error_of_b(change: &str, files: &str, line: &str) {
    let folder = decks();
    let ran = within(
        &folder,
        &format!("{change}\ncesr judge --manifest decks/LIST {files}"),
    );
    let text = ran.text();
    assert_eq!(ran.status, 2, "{text}");
    assert!(text.contains(&format!("\nerror   {line}\n")), "{text}");
    assert!(ran.err.contains(&format!("cesr: {line}\n")), "{}", ran.err);
    assert!(text.starts_with("passed  decks/a.cesr: "), "{text}");
    let json = within(
        &folder,
        &format!("cesr judge --json --manifest decks/LIST {files}"),
    );
    assert_eq!(json.status, 2);
    let script = "
import json, sys
for told in map(json.loads, sys.stdin):
    if told['outcome'] == 'error': print(told['stream'] + ': ' + told['error'])
";
    assert_eq!(python(script, &json.out), format!("{line}\n"));
}

#[test]
fn one_that_is_missing() {
    let why = "decks/b.cesr: No such file or directory";
    error_of_b("rm decks/b.cesr", "", why);
    error_of_b("rm decks/b.cesr", "decks/a.cesr decks/b.cesr", why);
    let why = "decks/b.cesr: missing: listed in the manifest, not given";
    error_of_b("", "decks/a.cesr", why);
}

#[test]
fn one_that_is_torn_or_other_than_listed() {
    let why = "decks/b.cesr: torn: 4 bytes, 8 are listed";
    error_of_b("printf 1AAM > decks/b.cesr", "", why);
    error_of_b("printf 1AAM > decks/b.cesr", "decks/*.cesr", why);
    let why = "decks/b.cesr: other than listed: 12 bytes, 8 are listed";
    error_of_b("printf 1AAM >> decks/b.cesr", "", why);
    // It would pass by itself.
    let why = "decks/b.cesr: other than listed: SHA-256 is 6927ce626b8326cbb9894cced5a8cab2575f63d90cc6b383c2729ee0f33f768a, ec18b0b15d2c3538856c62c1333c0de672fe97956baedb0e715f6f5aec7dd2e0 is listed";
    error_of_b("printf 1AAK1AAM > decks/b.cesr", "", why);
    let why = "decks/b.cesr: other than listed: text is asked for, binary is listed";
    error_of_b("sed -i 's/text b/binary b/' decks/LIST", "--form text", why);
}

#[test]
fn one_that_is_extra_or_listed_twice() {
    let why = "decks/c.cesr: extra: not listed in the manifest";
    error_of_b("cp decks/b.cesr decks/c.cesr", "decks/*.cesr", why);
    let why = "decks/a.cesr: extra: given more than once";
    error_of_b("", "decks/a.cesr decks/a.cesr decks/b.cesr", why);
    let twice = "tail -n 1 decks/LIST >> decks/LIST";
    let why = "decks/b.cesr: listed more than once, in lines 2, 3";
    error_of_b(twice, "decks/*.cesr", why);
    // By another name of its folder too; each line has an outcome.
    let folder = decks();
    let ran = within(
        &folder,
        "sed -n 's: b: ../decks/./b:p' decks/LIST >> decks/LIST; cesr judge --manifest decks/LIST",
    );
    assert_eq!(ran.status, 2);
    assert_eq!(
        ran.text()
            .matches("listed more than once, in lines 2, 3\n")
            .count(),
        2
    );
    assert!(ran
        .text()
        .contains("\n3 streams, 3 expected: 1 passed, 0 failed, 2 not judged;"));
}

#[test]
fn a_manifest_that_is_none() {
    let folder = decks();
    for (text, why) in [
        ("", "the manifest lists nothing"),
        (
            "\n",
            "line 1: no line of a manifest, which is SHA256 LENGTH FORM NAME",
        ),
        (
            "x 4 text a.cesr\n",
            "line 1: no line of a manifest, which is SHA256 LENGTH FORM NAME",
        ),
        (
            A.trim_end(),
            "line 1: the manifest is cut off: no line feed at its end",
        ),
    ] {
        folder.file("decks/LIST", text.as_bytes());
        for files in ["", "decks/a.cesr"] {
            let ran = within(
                &folder,
                &format!("cesr judge --manifest decks/LIST {files}"),
            );
            assert_eq!(ran.status, 2, "{}", ran.text());
            assert!(
                ran.text().contains(&format!("error   decks/LIST: {why}\n")),
                "{}",
                ran.text()
            );
            assert!(!ran.text().contains("passed  "), "{}", ran.text());
        }
    }
}

#[test]
fn a_manifest_that_cant_be_read() {
    let folder = decks();
    for (list, why) in [
        ("gone", "No such file or directory"),
        (".", "Is a directory"),
        ("/dev/zero", "longer than 67108864 bytes"),
    ] {
        let ran = within(
            &folder,
            &format!("cesr judge --manifest {list} decks/a.cesr"),
        );
        // The file that was given has its line, and is not judged.
        let told = format!(
            "error   {list}: the manifest: {why}\n\
             error   decks/a.cesr: not judged: the manifest can't be read\n\
             2 streams, 0 expected: 0 passed, 0 failed, 2 not judged; \
             0 items, 0 accepted, 0 refused, 0 remainders\n"
        );
        assert_eq!((ran.status, ran.text()), (2, told));
    }
}

/// A refused deck is 1, as it is without a manifest; one past the limit 2.
#[test]
fn a_listed_stream_is_judged_like_any_other() {
    let folder = decks();
    let ran = within(&folder, "printf MQAA > decks/b.cesr; cd decks; cesr manifest a.cesr b.cesr > LIST; cesr judge --manifest LIST");
    assert_eq!(ran.status, 1, "{}", ran.text());
    assert!(ran
        .text()
        .contains("\nfailed  b.cesr: text, 1 item, 0 accepted, 1 refused, "));
    let ran = within(&folder, ": > decks/b.cesr; cd decks; cesr manifest a.cesr b.cesr > LIST; cesr judge --manifest LIST");
    assert_eq!(ran.status, 2);
    assert!(ran.text().contains("\nempty   b.cesr: the stream is empty"));
    let long =
        "head -c 4194305 /dev/zero | tr '\\0' A > decks/b.cesr; cesr judge --manifest decks/LIST";
    let ran = within(&folder, long);
    assert_eq!(ran.status, 2);
    assert!(
        ran.text()
            .contains("\nerror   decks/b.cesr: refused 1 at 0: "),
        "{}",
        ran.text()
    );
}

/// What is written is what is read, and `sha256sum` says the same of it.
#[test]
fn a_manifest_is_written() {
    let folder = decks();
    let ran = within(
        &folder,
        "cd decks && cesr manifest --form text a.cesr b.cesr",
    );
    assert_eq!(
        (ran.status, ran.text(), ran.err),
        (0, format!("{A}{B}"), String::new())
    );
    let ran = within(&folder, "cd decks && cesr manifest a.cesr b.cesr");
    assert_eq!((ran.status, ran.text()), (0, format!("{A}{B}")));
    assert_eq!(
        ran.err,
        "cesr: the form of 2 streams was detected from the first bytes\n"
    );
    // All of them or none.
    let ran = within(&folder, "cesr manifest decks/a.cesr gone decks/b.cesr");
    assert_eq!((ran.status, ran.text()), (2, String::new()));
    assert_eq!(ran.err, "cesr: gone: No such file or directory\n");
    let ran = within(&folder, "cesr manifest /dev/zero");
    assert_eq!((ran.status, ran.text()), (2, String::new()));
}

/// Odd names, as `sha256sum` writes them, there and back.
#[test]
fn odd_names_are_listed_as_sha256sum_does() {
    let folder = Folder::new();
    for name in [
        &b"a b"[..],
        b"line\nfeed",
        b"back\\slash",
        b"carriage\rreturn",
        b"-x",
        b"standard input",
        b"\xff",
    ] {
        let path = folder.path().join(OsStr::from_bytes(name));
        fs::write(path, b"MAAB").expect("a file");
    }
    let script = "
names=(*)
cesr manifest --form text -- \"${names[@]}\" > LIST
sha256sum -- \"${names[@]}\" > theirs
sed 's/ 4 text /  /' LIST | cmp - theirs && cesr judge --manifest LIST | tail -n 1
";
    let ran = within(&folder, script);
    let total = "7 streams, 7 expected: 7 passed, 0 failed, 0 not judged; \
                 7 items, 7 accepted, 0 refused, 0 remainders\n";
    assert_eq!((ran.text().as_str(), ran.status), (total, 0), "{}", ran.err);
}
