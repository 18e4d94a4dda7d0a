//! The line protocol of the program.

mod common;

use common::hex;
use std::io::Write;
use std::process::{Command, Stdio};

/// Exit status, standard output and standard error.
fn run(words: &[&str], stream: &[u8]) -> (i32, Vec<u8>, String) {
    let mut child = Command::new(env!("CARGO_BIN_EXE_oracle"))
        .args(words)
        .stdin(Stdio::piped())
        .stdout(Stdio::piped())
        .stderr(Stdio::piped())
        .spawn()
        .unwrap();
    // A refused call may end without having read; that is no failure.
    let _ = child.stdin.take().unwrap().write_all(stream);
    let done = child.wait_with_output().unwrap();
    let error = String::from_utf8_lossy(&done.stderr).into_owned();
    (done.status.code().unwrap(), done.stdout, error)
}

fn answered(words: &[&str], stream: &[u8], answer: &[u8]) {
    let found = run(words, stream);
    assert_eq!(found, (0, answer.to_vec(), String::new()), "{words:?}");
}

fn refused(words: &[&str], stream: &[u8], answer: &str, error: &str) {
    let found = run(words, stream);
    assert_eq!(found, (1, answer.into(), format!("refused {error}\n")));
}

#[test]
fn reports() {
    let deck = hex(
        "00000002 00000000 00000008 04 00000008 00000004 00 00000001 00000000 04 00000004 00000000",
    );
    answered(&["report", "text"], b"-AAB0AAAMAAB", &deck);
    answered(&["report", "text", "--room", "53"], b"-AAB0AAAMAAB", &deck);
    refused(
        &["report", "text", "--room", "52"],
        b"-AAB0AAAMAAB",
        "",
        "3 0",
    );
    let most = usize::MAX.to_string();
    answered(&["report", "text", "--room", &most], b"", &[0; 12]);
    answered(&["report", "binary"], b"", &[0; 12]);
    refused(&["report", "text"], &vec![b'A'; 4_194_305], "", "1 0");
}

#[test]
fn mixed_reports() {
    // 02 d: `-AAA`, its binary form F8 00 00, and a primitive, which is 17.
    let stream = b"-AAA\xF8\x00\x00MAAB";
    let told = hex(
        "00000002 00000000 00000004 00 00 00000004 00000003 00 01 00000000 00000001 00000007 11",
    );
    answered(&["report", "mixed"], stream, &told);
    answered(&["report", "mixed", "--room", "55"], stream, &told);
    refused(&["report", "mixed", "--room", "54"], stream, "", "3 0");
    refused(&["report", "mixed"], &vec![b'-'; 4_194_305], "", "1 0");
}

#[test]
fn conversions() {
    answered(&["convert", "to-binary"], b"1AAM", &[0xD4, 0, 0x0C]);
    answered(&["convert", "to-text"], &[0xD4, 0, 0x0C], b"1AAM");
    refused(&["convert", "to-binary"], b"1AA!", "", "5 3");
    refused(&["convert", "to-binary"], b"1A+!", "", "19 2");
    refused(&["convert", "to-binary"], b"1AA", "", "2 0");
    refused(&["convert", "to-text", "--room", "3"], &[0; 3], "", "3 0");
}

#[test]
fn reads() {
    answered(
        &["read", "text", "4"],
        b"MAABWGhp",
        b"code=W tag= raw=6869 text= size=4\n",
    );
    answered(
        &["read", "text", "0"],
        b"0J_A",
        b"code=0J tag=A raw= text= size=4\n",
    );
    answered(
        &["read", "binary", "0"],
        &[0x54, 0, 0x61],
        b"code=V tag= raw=61 text= size=3\n",
    );
    let label = b"code=5A tag= raw= text=-a size=8\n";
    answered(&["read", "text", "0", "--room", "2"], b"5AABAA-a", label);
    // 57 0 0 1, 0 0 62 26: E4 00 01 00 0F 9A.
    let label = b"code=5A tag= raw= text=-a size=6\n";
    answered(&["read", "binary", "0"], &hex("E40001 000F9A"), label);
    let short = ["read", "binary", "0", "--room", "1"];
    refused(&short, &hex("E40001 000F9A"), "", "3 0");
    refused(&["read", "text", "0"], b"4AABAAAA", "", "16 0");
    refused(&["read", "text", "0"], b"-AAA", "", "14 0");
    refused(&["read", "text", "9"], b"MAAB", "", "4 9");
    refused(&["read", "text", "0", "--room", "1"], b"MAAB", "", "3 0");
}

#[test]
fn writes() {
    answered(&["write", "text", "M", "--raw", "0001"], b"", b"MAAB");
    answered(&["write", "text", "0J", "--tag", "A"], b"", b"0J_A");
    answered(&["write", "binary", "1AAM"], b"", &[0xD4, 0, 0x0C]);
    answered(
        &["write", "text", "small", "B", "--raw", "6869"],
        b"",
        b"5BABAGhp",
    );
    answered(
        &["write", "text", "small", "A", "--text", "-a-personal"],
        b"",
        b"4AADA-a-personal",
    );
    let fill = ["write", "text", "small", "A", "--text", "Aa"];
    refused(&fill, b"", "", "16 0");
    refused(&["write", "text", "large", "B"], b"", "", "18 0");
    refused(&["write", "text", "-A"], b"", "", "6 0");
    refused(&["write", "text", "small", "G"], b"", "", "6 0");
    refused(&["write", "text", "X", "--tag", "A!A"], b"", "", "5 1");
    refused(&["write", "text", "X", "--tag", "A/A"], b"", "", "19 1");
    refused(
        &["write", "text", "Z", "--tag", "AAAAAAAAAAAA"],
        b"",
        "",
        "12 0",
    );
    refused(&["write", "text", "1AAM", "--room", "3"], b"", "", "3 0");
}

#[test]
fn walks_and_steps() {
    refused(&["walk", "text"], b"-AAC--AAAAAA", "0 12 0 -A\n", "18 4");
    answered(&["walk", "text"], b"-AABMAAB", b"0 8 0 -A\n4 4 1 M\n");
    refused(&["walk", "text"], b"-AAB0AAAMAAB", "0 8 0 -A\n", "4 4");
    let zeros = " 0".repeat(63);
    let inside = format!("0 8 0 -A\n1 4 1 0 8{zeros}\n");
    answered(
        &["step", "text", "0", "0", "0", "0"],
        b"-AABMAAB",
        inside.as_bytes(),
    );
    let inside = format!("0 8 0 -K\n1 4 0 1 8{zeros}\n");
    let start = ["step", "text", "0", "0", "0", "0"];
    answered(&start, b"-KABMAAB", inside.as_bytes());
    let within = ["step", "text", "1", "4", "0", "1", "8"];
    refused(&within, b"-KABMAAB", "", "6 4");
    let end = format!("end\n0 4 0 0 0{zeros}\n");
    let at_end = ["step", "text", "0", "4", "0", "0"];
    answered(&at_end, b"MAAB", end.as_bytes());
    for unfit in [
        ["0", "0", "1", "0"],
        ["0", "0", "0", "1"],
        ["65", "0", "0", "0"],
    ] {
        let words = [&["step", "text"][..], &unfit].concat();
        refused(&words, b"MAAB", "", "13 0");
    }
}

#[test]
fn indexed_items() {
    let raw = "00".repeat(64);
    let write = |more: &[&str]| [&["write-indexed", "text"][..], more].concat().join(" ");
    let run_words = |line: String, stream: &[u8]| {
        let words: Vec<&str> = line.split(' ').collect();
        run(&words, stream)
    };
    let item = format!("2ABBAC{}", "A".repeat(86));
    let line = write(&["2A", "--index", "65", "--ondex", "2", "--raw", &raw]);
    assert_eq!(
        run_words(line, b""),
        (0, item.clone().into(), String::new())
    );
    let line = format!("code=2A index=65 ondex=2 raw={raw} size=92\n");
    answered(
        &["read-indexed", "text", "0"],
        item.as_bytes(),
        line.as_bytes(),
    );
    for (code, number) in [("2E", 6), ("B", 12), ("2B", 15)] {
        let line = write(&[code, "--ondex", "2", "--raw", &raw]);
        let told = (1, Vec::new(), format!("refused {number} 0\n"));
        assert_eq!(run_words(line, b""), told, "{code}");
    }
    refused(&["read-indexed", "text", "0"], b"-AAA", "", "6 0");
    refused(&["read-indexed", "binary", "3"], &[0; 3], "", "4 3");
}

#[test]
fn groups() {
    answered(&["group", "text", "A"], b"MAAB", b"-AABMAAB");
    answered(&["group", "text", "A"], b"", b"-AAA");
    let binary = hex("F80001 300001");
    answered(&["group", "binary", "A"], &binary[3..], &binary);
    answered(&["group", "text", "A", "--room", "8"], b"MAAB", b"-AABMAAB");
    let part = ["group", "text", "J", "--length", "4"];
    answered(&part, b"MAAB!!!!", b"-JABMAAB");
    for (more, body, error) in [
        (["--room", "7"], "MAAB", "3 0"),
        (["--length", "13"], "MAAB", "3 0"),
        (["--length", "3"], "MAAB", "2 0"),
        (["--length", "4"], "MAA!", "5 3"),
        (["--length", "8"], "MAABMQAA", "8 4"),
    ] {
        let words = [&["group", "text", "A"][..], &more].concat();
        refused(&words, body.as_bytes(), "", error);
    }
    refused(&["group", "text", "0"], b"MAAB", "", "6 0");
    refused(&["group", "text", "K"], b"MAAB", "", "6 0");
}

#[test]
fn pieces() {
    let (item, number) = ("000000000000000804", "000000080000000400");
    let told = format!("- -\n{item} 000000000400000004\n{number} -\n-\n");
    answered(&["pieces", "text", "4"], b"-AAB0AAAMAAB", told.as_bytes());
    let told = format!("{item}{number} 000000000400000004\n-\n");
    answered(&["pieces", "text", "99"], b"-AAB0AAAMAAB", told.as_bytes());
    answered(&["pieces", "text", "3"], b"MAA", b"- -\n0000000004\n");
    answered(&["pieces", "binary", "1"], b"", b"-\n");
    refused(
        &["pieces", "text", "5000000"],
        &vec![b'A'; 4_194_305],
        "",
        "1 0",
    );
}

#[test]
fn help_and_wrong_usage() {
    let (status, help, _) = run(&["--help"], b"");
    assert_eq!(status, 0);
    assert!(String::from_utf8_lossy(&help).contains("oracle report FORM"));
    let calls: [&[&str]; 7] = [
        &["group", "text", "-A"],
        &[],
        &["report", "word"],
        &["read", "text", "x"],
        &["report", "text", "--room"],
        &["write", "text", "M", "--raw", "0"],
        &["convert", "back"],
    ];
    for words in calls {
        assert_eq!(run(words, b"").0, 2, "{words:?}");
    }
}
