//! Items and groups written by hand: what is written is what the papers have,
//! and what is not is said.

mod common;

use common::{command, fed, run, within, Folder, Ran};
use std::fs;

/// A raw value of so many bytes in hexadecimal digits.
fn raw(byte: u8, length: usize) -> String {
    format!("{byte:02x}").repeat(length)
}

fn group(words: &[&str], body: &[u8]) -> Ran {
    fed(&[&["group", "--form"], words].concat(), body)
}

/// Exit status, standard output, and the first line on standard error.
fn told(ran: &Ran) -> (i32, &[u8], &str) {
    let first = ran.err.lines().next();
    (ran.status, &ran.out, first.unwrap_or_default())
}

#[test]
fn a_group_in_both_forms() {
    // 01's deck: `-AAB` `MAAB` is F8 00 01, 30 00 01.
    let binary = [0xF8, 0x00, 0x01, 0x30, 0x00, 0x01];
    let ran = group(&["text", "A"], b"MAAB");
    assert_eq!(told(&ran), (0, &b"-AABMAAB"[..], ""));
    let ran = group(&["binary", "A"], &binary[3..]);
    assert_eq!(told(&ran), (0, &binary[..], ""));
    // Bytes that look like text are not taken for it, since the form is said.
    let ran = group(&["binary", "A"], b"Xhi");
    assert_eq!(told(&ran), (0, &b"\xF8\x00\x01Xhi"[..], ""));
    // In any order, and from a file.
    let folder = Folder::new();
    let body = folder.file("body", b"MAAB");
    for words in [
        &["group", "A", "--form=text", &body][..],
        &["group", "--form", "text", "A", "--", &body],
        &["group", "A", &body, "--form", "text"],
    ] {
        assert_eq!(run(words).out, b"-AABMAAB", "{words:?}");
    }
}

#[test]
fn groups_one_in_the_other() {
    let folder = Folder::new();
    let line = "printf MAAB | cesr group --form text A > inner && printf 1AAM | cat inner - | \
                cesr group --form text J | cesr group --form text C --out all && cat all";
    let ran = within(&folder, line);
    assert_eq!(told(&ran), (0, &b"-CAE-JAD-AABMAAB1AAM"[..], ""));
    let ran = within(&folder, "cesr judge --form text all");
    assert_eq!(ran.status, 0, "{}", ran.text());
}

/// Two files with a signature each, in a group of signatures, in a group of
/// attachments: 22 units each, 44 are `As`, and with a header 45 are `At`.
#[test]
fn an_attachment_group_of_two_signatures() {
    let folder = Folder::new();
    for (index, name) in ["one", "two"].into_iter().enumerate() {
        let (index, raw) = (index.to_string(), raw(7, 64));
        let path = folder.path().join(name);
        let out = path.to_str().expect("a readable name");
        let ran = run(&[
            "write", "--form", "text", "A", "--index", &index, "--raw", &raw, "--out", out,
        ]);
        assert_eq!(told(&ran), (0, &b""[..], ""));
    }
    let line = "cat one two | cesr group --form text K | cesr group --form text C --out all";
    let ran = within(&folder, line);
    assert_eq!(told(&ran), (0, &b""[..], ""));
    let all = fs::read(folder.path().join("all")).expect("the file");
    let signature = |index: char| format!("A{index}AH{}", "BwcH".repeat(21));
    let (one, two) = (signature('A'), signature('B'));
    assert_eq!(all, format!("-CAt-KAs{one}{two}").into_bytes());
    let ran = within(&folder, "cesr judge all");
    assert_eq!(ran.status, 0, "{}", ran.text());
}

#[test]
fn an_empty_body_is_written_and_said() {
    let said = "cesr: standard input: the stream is empty, and so is the group";
    let ran = group(&["text", "A"], b"");
    assert_eq!(told(&ran), (0, &b"-AAA"[..], said));
    let ran = group(&["binary", "K"], b"");
    assert_eq!(told(&ran), (0, &b"\xF8\xA0\x00"[..], said));
    let ran = group(&["text", "0"], b"");
    let said = "cesr: standard input: refused 6 at 0: code unknown or reserved";
    assert_eq!(told(&ran), (2, &b""[..], said));
}

#[test]
fn a_refused_group_is_not_written() {
    for (words, body, refused, more) in [
        (["text", "A"], "MAA", "2 at 0", ""),
        (
            ["text", "A"],
            "MAAB\n",
            "2 at 0",
            "the stream ends with a line feed",
        ),
        (["text", "A"], "MAABMQAA", "8 at 4", "       0  MAABMQAA\n"),
        (["text", "A"], "MAABMA!A", "5 at 6", "21 hexadecimal"),
        (["text", "A"], "-_AAABAA", "7 at 0", ""),
        (["text", "J"], "MAAB0AAA", "4 at 4", ""),
        (["text", "J"], "_AAA", "6 at 0", "       0  _AAA\n"),
        (
            ["text", "d"],
            "MAAB",
            "6 at 0",
            "        no group has the letter d\n",
        ),
        (
            ["text", "K"],
            "MAAB",
            "6 at 0",
            "a group -K holds indexed items and nothing else",
        ),
        (["binary", "J"], "MAABM", "2 at 0", ""),
    ] {
        let ran = group(&words, body.as_bytes());
        assert_eq!((ran.status, ran.text()), (2, String::new()), "{body}");
        let first = format!("cesr: standard input: refused {refused}: ");
        assert!(ran.err.starts_with(&first), "{}", ran.err);
        assert!(ran.err.contains(more), "{}", ran.err);
        assert!(ran.err.contains("\n        usually "), "{}", ran.err);
    }
}

/// A body is as long as header and body may be together, in either form.
#[test]
fn the_limit() {
    for (form, unit, most) in [
        ("text", &b"1AAK"[..], 4_194_304 - 8),
        ("binary", b"\xD4\x00\x0A", 3_145_728 - 6),
    ] {
        let body = unit.repeat(most / unit.len() + 3);
        let ran = group(&[form, "J"], &body[..most]);
        assert_eq!(ran.status, 0, "{}", ran.err);
        assert_eq!(ran.out[2 * unit.len()..], body[..most]);
        for length in [most + 1, most + unit.len(), body.len()] {
            let ran = group(&[form, "J"], &body[..length]);
            assert_eq!((ran.status, ran.out.len()), (2, 0));
            assert!(ran.err.contains(": refused 1 at 0: "), "{}", ran.err);
        }
    }
}

/// 63 groups one in the other pass in a body, 64 are 11.
#[test]
fn the_depth() {
    let nested = |depth: usize| -> Vec<u8> {
        let digit = |units: usize| {
            b"ABCDEFGHIJKLMNOPQRSTUVWXYZabcdefghijklmnopqrstuvwxyz0123456789-_"[units]
        };
        let header = |units: usize| [b'-', b'J', b'A', digit(units)];
        (0..depth).rev().flat_map(header).collect()
    };
    for depth in [62, 63] {
        assert_eq!(group(&["text", "J"], &nested(depth)).status, 0);
    }
    let ran = group(&["text", "J"], &nested(64));
    assert!(ran.err.contains(": refused 11 at 252: "), "{}", ran.err);
    assert_eq!((ran.status, ran.out.len()), (2, 0));
}

/// As `convert --out` has it: whole, or as it was.
#[test]
fn a_file_is_replaced_or_stays() {
    let folder = Folder::new();
    let kept = folder.file("kept", b"kept");
    let ran = group(&["text", "A", "--out", &kept], b"MQAA");
    assert_eq!(ran.status, 2);
    assert_eq!(fs::read(&kept).expect("the file"), b"kept");
    let ran = run(&["write", "--form", "text", "M", "--out", &kept]);
    assert_eq!(ran.status, 2);
    assert_eq!(fs::read(&kept).expect("the file"), b"kept");
    let ran = group(&["text", "A", "--out", &kept], b"MAAB");
    assert_eq!(told(&ran), (0, &b""[..], ""));
    assert_eq!(fs::read(&kept).expect("the file"), b"-AABMAAB");
    // A file in its own place, too.
    let ran = run(&["group", "--form", "text", "J", "--out", &kept, &kept]);
    assert_eq!(told(&ran), (0, &b""[..], ""));
    assert_eq!(fs::read(&kept).expect("the file"), b"-JAC-AABMAAB");
    assert_eq!(fs::read_dir(folder.path()).expect("a folder").count(), 1);
    // `-` is standard output.
    assert_eq!(
        group(&["text", "A", "--out", "-"], b"MAAB").out,
        b"-AABMAAB"
    );
}

/// 01's deck and the papers' examples, from their values.
#[test]
fn items_of_the_papers() {
    let indexed = [&b"2ABBAC"[..], &[b'A'; 86]].concat();
    let zeros = raw(0, 64);
    for (words, item) in [
        (&["M", "--raw", "0001"][..], &b"MAAB"[..]),
        (&["M", "--raw=ffFF"], b"MP__"),
        (&["V", "--raw", "61"], b"VABh"),
        (&["W", "--raw", "6869"], b"WGhp"),
        (&["1AAM"], b"1AAM"),
        (&["4B"], b"4BAA"),
        (&["5B", "--raw", "6869"], b"5BABAGhp"),
        (&["0J", "--tag", "A"], b"0J_A"),
        (&["4A", "--text", "-a-personal"], b"4AADA-a-personal"),
        (&["5A", "--text=-a"], b"5AABAA-a"),
        (&["4A"], b"4AAA"),
        (
            &["2A", "--index", "65", "--ondex", "2", "--raw", &zeros],
            &indexed,
        ),
    ] {
        let ran = run(&[&["write", "--form", "text"], words].concat());
        assert_eq!(told(&ran), (0, item, ""), "{words:?}");
    }
    let ran = run(&["write", "--form", "binary", "1AAM"]);
    assert_eq!(told(&ran), (0, &b"\xD4\x00\x0C"[..], ""));
}

/// `A` to `D`, `0A` and `0B` are codes of both tables: an index decides.
#[test]
fn a_code_of_both_tables() {
    let (seed, signature) = (raw(0, 32), raw(0, 64));
    let ran = run(&["write", "--form", "text", "A", "--raw", &seed]);
    assert_eq!(told(&ran), (0, &[b'A'; 44][..], ""));
    let index = ["--index", "0"];
    let words = ["write", "--form", "text", "A", "--raw"];
    let ran = run(&[&words[..], &[&signature], &index].concat());
    assert_eq!(told(&ran), (0, &[b'A'; 88][..], ""));
    let twelve = "cesr: A: refused 12 at 0: \
                  writer: raw length, tag length, index or ondex unfit for the code";
    for words in [
        [&words[..], &[&signature]].concat(),
        [&words[..], &[&seed], &index].concat(),
    ] {
        assert_eq!(told(&run(&words)), (2, &b""[..], twelve));
    }
}

/// Small and large are what is asked for; the lead follows from the length.
#[test]
fn a_selector_that_the_length_does_not_ask_for_is_said() {
    let ran = run(&["write", "--form", "text", "4B", "--raw", "6869"]);
    let said = "cesr: 4B: its length makes it 5B";
    assert_eq!(told(&ran), (0, &b"5BABAGhp"[..], said));
    let ran = run(&["write", "--form", "binary", "4A", "--text", "-a"]);
    let said = "cesr: 4A: its length makes it 5A";
    assert_eq!(told(&ran), (0, &b"\xE4\x00\x01\x00\x0F\x9A"[..], said));
    let ran = run(&["write", "--form", "text", "7AAB", "--raw", "6869"]);
    assert!(ran.err.starts_with("cesr: 7AAB: refused 18 at 0: "));
    assert_eq!(ran.status, 2);
}

#[test]
fn a_refused_item_is_not_written() {
    let sixty_four = raw(0, 64);
    for (words, refused) in [
        (&["M", "--raw", "00"][..], "12 at 0"),
        (&["X", "--tag", "a!b"], "5 at 1"),
        (&["X", "--tag", "ab/"], "19 at 2"),
        (&["X", "--tag", "ab"], "12 at 0"),
        (&["4A", "--text", "Abc"], "16 at 0"),
        (&["b"], "6 at 0"),
        (&["4G", "--raw", "00"], "6 at 0"),
        (&["B", "--index", "64", "--raw", &sixty_four], "12 at 0"),
        (&["2E", "--index", "0", "--raw", &sixty_four], "6 at 0"),
        (
            &["2B", "--index", "0", "--ondex", "1", "--raw", &sixty_four],
            "15 at 0",
        ),
    ] {
        let ran = run(&[&["write", "--form", "text"], words].concat());
        assert_eq!((ran.status, ran.text()), (2, String::new()));
        let first = format!("cesr: {}: refused {refused}: ", words[0]);
        assert!(ran.err.starts_with(&first), "{}", ran.err);
        assert!(ran.err.contains("\n        usually "), "{}", ran.err);
    }
}

/// What the command cannot know, it says, and writes nothing.
#[test]
fn what_is_not_told_is_asked_for() {
    let text = "--form=text";
    for (words, said) in [
        (&["group", text, "-K"][..], "a group's letter is K, not -K"),
        (&["group", text, "--K"], "a group's letter is K, not --K"),
        (&["group", text, "-KAA"], "no such option here: -KAA"),
        (
            &["group", text, "KK"],
            "a group has one letter, like K, not KK",
        ),
        (&["group", text, ""], "a group has one letter, like K, not "),
        (&["group", text], "group asks for a LETTER"),
        (&["group", text, "-"], "group asks for a LETTER"),
        (
            &["group", "K"],
            "group asks for --form text or --form binary",
        ),
        (
            &["group", "--form=mixed", "K"],
            "a form is text or binary, not mixed",
        ),
        (&["group", text, "K", "a", "b"], "one FILE only: b"),
        (
            &["group", text, "K", "--raw", "00"],
            "no such option here: --raw",
        ),
        (&["group", text, text, "K"], "--form is given twice"),
        (&["write", text], "write asks for a CODE"),
        (
            &["write", "M"],
            "write asks for --form text or --form binary",
        ),
        (&["write", text, "M", "a"], "there is no FILE for this: a"),
        (
            &["write", text, "M", "-"],
            "there is no FILE for this: standard input",
        ),
        (
            &["write", text, "-A"],
            "-A is a group's code: cesr group puts one around items",
        ),
        (
            &["write", text, "2A"],
            "2A is a code of indexed items: give --index",
        ),
        (
            &["write", text, "A", "--ondex=1"],
            "--ondex goes with --index",
        ),
        (&["write", text, "M", "--raw"], "--raw asks for a value"),
        (
            &["write", text, "M", "--raw=0", "--raw=1"],
            "--raw is given twice",
        ),
        (
            &["write", text, "M", "--json"],
            "no such option here: --json",
        ),
    ] {
        let ran = run(words);
        let said = format!("cesr: {said}\nTry 'cesr --help'.\n");
        assert_eq!(
            (ran.status, ran.err, ran.out),
            (2, said, Vec::new()),
            "{words:?}"
        );
    }
}

/// What cannot be read, and what cannot be written.
#[test]
fn a_directory_and_a_missing_file_are_errors() {
    for (name, why) in [
        ("samples", "Is a directory\n"),
        ("samples/missing.cesr", "No such file or directory\n"),
    ] {
        let ran = run(&["group", "--form", "text", "A", name]);
        let said = format!("cesr: {name}: {why}");
        assert_eq!((ran.status, ran.err, ran.out), (2, said, Vec::new()));
    }
    let mut closed = command(&["write", "--form", "text", "1AAM"]);
    closed.stdout(
        fs::File::options()
            .write(true)
            .open("/dev/full")
            .expect("a device"),
    );
    let status = closed.stderr(std::process::Stdio::null()).status();
    assert_eq!(status.expect("an exit status").code(), Some(2));
}
