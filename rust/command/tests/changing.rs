//! Files that change while they are read: never a pass. The change comes at a
//! set moment, from a library that is loaded before the C library and writes
//! when the command has read the first half.

mod common;

use common::{command, finished, shell, Folder, Ran};
use std::fs::{self, File};
use std::os::unix::fs::{symlink, MetadataExt};
use std::process::Command;
use std::time::{Duration, SystemTime};

/// Before the second read of a file with the given inode, runs the change, a
/// line of the shell.
const MEDDLER: &str = r#"
#define _GNU_SOURCE
#include <dlfcn.h>
#include <stdlib.h>
#include <string.h>
#include <sys/stat.h>
#include <unistd.h>

ssize_t read(int file, void *out, size_t length) {
    static int reads;
    ssize_t (*next)(int, void *, size_t) = dlsym(RTLD_NEXT, "read");
    const char *which = getenv("MEDDLED"), *change = getenv("MEDDLE");
    struct stat seen;
    if (which && change && !fstat(file, &seen) && seen.st_ino == strtoull(which, 0, 10) && reads++ == 1) {
        unsetenv("LD_PRELOAD");
        if (system(change)) _exit(99);
    }
    return next(file, out, length);
}
"#;

/// A folder with the library and a stream that was last written an hour ago.
fn prepared(stream: &[u8]) -> Folder {
    let folder = Folder::new();
    let source = folder.file("meddler.c", MEDDLER.as_bytes());
    let out = folder.path().join("meddler.so");
    let mut cc = Command::new("cc");
    cc.args(["-shared", "-fPIC", "-o"])
        .arg(&out)
        .arg(&source)
        .arg("-ldl");
    assert_eq!(finished(cc, b"").status, 0);
    let path = folder.file("deck.cesr", stream);
    let hour = SystemTime::now() - Duration::from_secs(3_600);
    let file = File::options().append(true).open(path).expect("the deck");
    file.set_modified(hour).expect("an hour ago");
    folder
}

/// Judges the stream while a line of the shell changes it.
fn meddled(folder: &Folder, mut judge: Command, change: &str) -> Ran {
    let deck = fs::metadata(folder.path().join("deck.cesr")).expect("the deck");
    judge.current_dir(folder.path());
    judge.env("LD_PRELOAD", folder.path().join("meddler.so"));
    judge
        .env("MEDDLED", deck.ino().to_string())
        .env("MEDDLE", change);
    finished(judge, b"")
}

/// A text as long as two reads and more, that is accepted.
const HALF: usize = 16_384;

fn halves(first: &[u8; 4], second: &[u8; 4]) -> Vec<u8> {
    [first.repeat(HALF / 4), second.repeat(HALF)].concat()
}

const CHANGED: &str = "error   deck.cesr: changed while it was read: nothing was judged\n";

/// The first half of one version and the second of another make up a stream
/// that passes, though neither version does.
#[test]
fn two_bad_versions_are_no_good_one() {
    let folder = prepared(&halves(b"MAAB", b"MQAA"));
    folder.file("other", &halves(b"MQAA", b"MAAB"));
    let ran = meddled(
        &folder,
        command(&["judge", "deck.cesr"]),
        "cat other 1<> deck.cesr >&1",
    );
    assert_eq!((ran.status, ran.text().as_str()), (2, CHANGED));
}

/// Whatever is done to it meanwhile: a change of the same bytes, of which only
/// the times tell; one whose time of writing is put back; one that cuts it,
/// makes it longer, takes its place or takes it away.
#[test]
fn any_change_is_an_error() {
    let deck = halves(b"MAAB", b"MAAB");
    for change in [
        "printf MAAB | dd of=deck.cesr conv=notrunc status=none",
        // A tick of the system's clock is ten milliseconds at most.
        "sleep 0.05; touch -r deck.cesr kept; printf MAAB | dd of=deck.cesr conv=notrunc status=none; touch -r kept deck.cesr",
        "printf MAAB >> deck.cesr",
        "truncate -s 40000 deck.cesr",
        "cp deck.cesr copy; mv copy deck.cesr",
        "rm deck.cesr",
    ] {
        let folder = prepared(&deck);
        let ran = meddled(&folder, command(&["judge", "deck.cesr"]), change);
        assert_eq!((ran.status, ran.text().as_str()), (2, CHANGED), "{change}");
    }
    // Unchanged it passes, also where something else is written.
    let folder = prepared(&deck);
    let ran = meddled(&folder, command(&["judge", "deck.cesr"]), "echo > other");
    assert_eq!(ran.status, 0, "{}", ran.text());
}

/// A link that leads elsewhere meanwhile: the file that was read is as it was,
/// and is not the one of that name.
#[test]
fn another_file_of_that_name_is_an_error() {
    let folder = prepared(&halves(b"MAAB", b"MAAB"));
    folder.file("other", &halves(b"MQAA", b"MQAA"));
    symlink("deck.cesr", folder.path().join("link")).expect("a link");
    let again = "ln -s other new && mv -T new link";
    let ran = meddled(&folder, command(&["judge", "link"]), again);
    let said = CHANGED.replace("deck.cesr", "link");
    assert_eq!((ran.status, ran.text()), (2, said));
}

/// So on standard input, in `show`, in `convert` and in a manifest.
#[test]
fn every_reader_looks() {
    let grow = "printf MAAB >> deck.cesr";
    let deck = halves(b"MAAB", b"MAAB");
    for arguments in [
        &["show", "0", "deck.cesr"][..],
        &["convert", "--to", "binary", "deck.cesr"],
        &["manifest", "deck.cesr"],
        &["judge", "--report", "deck.cesr"],
    ] {
        let folder = prepared(&deck);
        let ran = meddled(&folder, command(arguments), grow);
        assert_eq!(
            (ran.status, ran.text()),
            (2, String::new()),
            "{arguments:?}"
        );
        assert!(
            ran.err.contains("deck.cesr: changed while it was read"),
            "{}",
            ran.err
        );
    }
    let folder = prepared(&deck);
    let mut judge = Command::new("bash");
    judge.args(["-c", "exec \"$0\" judge < deck.cesr", common::program()]);
    // The shell reads nothing of it.
    let ran = meddled(&folder, judge, grow);
    let said = "error   standard input: changed while it was read: nothing was judged\n";
    assert_eq!((ran.status, ran.text().as_str()), (2, said));
}

/// Of a file on standard input that is read from its middle on, the rest is
/// the stream.
#[test]
fn the_rest_of_a_file() {
    let folder = Folder::new();
    let path = folder.file("deck", b"MAABMAAB1AAM");
    let script =
        format!("exec 0< {path}; dd bs=4 count=1 status=none > /dev/null; cesr judge --form text");
    let ran = shell(&script);
    assert_eq!(ran.status, 0, "{}", ran.text());
    assert!(
        ran.text().ends_with("\n        text, 8 characters\n"),
        "{}",
        ran.text()
    );
}
