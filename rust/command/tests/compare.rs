//! Expected verdicts: `cesr expect` and `cesr compare`.

mod common;

use common::{fed, run, sample, within, Folder};

/// 02: two sections, each after its count in 4 bytes.
const FIRST: &[u8] = &[0, 0, 0, 5, 0, 0, 8, 0, 0, 0, 0, 0, 0];
const CUT: &[u8] = &[0, 0, 0, 1, 0, 0, 0, 0, 1, 4];

/// Its words in 02.
const TWENTY: &str = "refused 20 at 0: expectation file or report with a missing count, a section \
                      shorter than its count says, a remainder count above 1, or bytes left over";

fn report(name: &str) -> Vec<u8> {
    fed(&["judge", "--report"], &sample(name)).out
}

#[test]
fn of_a_streams_own_verdicts() {
    for (name, bytes) in [("first.cesr", FIRST), ("cut.cesr", CUT)] {
        let ran = fed(&["expect"], &sample(name));
        assert_eq!((ran.status, &ran.out[..]), (0, bytes));
        let told = "(detected from the first bytes)\n";
        assert!(ran.err.contains("a stream of ") && ran.err.ends_with(told));
        let ran = fed(&["expect", "--form", "text"], &sample(name));
        assert_eq!((ran.status, &ran.out[..], &*ran.err), (0, bytes, ""));
    }
    let binary = fed(&["expect"], &sample("first-binary.cesr"));
    assert_eq!((binary.status, &binary.out[..]), (0, FIRST));
}

#[test]
fn of_a_list() {
    for (text, bytes) in [
        ("0\n0\n8\n0\n0\n", FIRST),
        ("0\nremainder 4", CUT),
        ("remainder 4\n", &[0, 0, 0, 0, 0, 0, 0, 1, 4]),
    ] {
        let ran = fed(&["expect"], text.as_bytes());
        assert_eq!((ran.status, &ran.out[..]), (0, bytes), "{text}");
        assert!(ran.err.contains("a list of "), "{}", ran.err);
    }
}

/// A list with a slip of the pen is no stream: nothing is written.
#[test]
fn neither_a_list_nor_a_stream() {
    for (text, line) in [("0\n300\n", 2), ("0\n8x\n", 2), ("O\n", 1), ("0\r\n", 1)] {
        let ran = fed(&["expect"], text.as_bytes());
        let told = format!(
            "cesr: standard input: no list of verdicts (line {line}: no number from 0 to 255) \
             and no stream with an item; --form takes it as a stream\n"
        );
        assert_eq!((ran.status, &ran.out[..], &*ran.err), (2, &[][..], &*told));
    }
    // Said to be one, it is one: all of it is a remainder.
    let ran = fed(&["expect", "--form", "text"], b"-AACMAAB");
    assert_eq!(
        (ran.status, &ran.out[..]),
        (0, &[0, 0, 0, 0, 0, 0, 0, 1, 4][..])
    );
    let ran = run(&["expect"]);
    assert_eq!((ran.status, ran.out.len()), (2, 0));
    assert_eq!(
        ran.err,
        "cesr: standard input: it is empty: nothing is expected\n"
    );
}

/// What reads as a list has no item as a text.
#[test]
fn no_input_is_both() {
    for text in ["0", "0\n8\n", "4444", "1111\n2222", "255\n", "remainder 4"] {
        let ran = fed(&["judge", "--form", "text", "--report"], text.as_bytes());
        assert_eq!(ran.out[..4], [0; 4], "{text}");
    }
}

#[test]
fn as_expected_or_otherwise() {
    let folder = Folder::new();
    let first = folder.file("first.expected", FIRST);
    for (name, status, line) in [
        (
            "first.cesr",
            0,
            "as expected  standard input: 5 expected, 5 passed, 0 failed, 0 not reached, \
             0 beyond, remainders agree\n",
        ),
        (
            "clean.cesr",
            1,
            "otherwise  standard input: 5 expected, 4 passed, 1 failed, 0 not reached, \
             0 beyond, remainders agree\n",
        ),
        (
            "cut.cesr",
            1,
            "otherwise  standard input: 5 expected, 1 passed, 0 failed, 4 not reached, \
             0 beyond, remainders differ\n",
        ),
        (
            "faults.cesr",
            1,
            "otherwise  standard input: 5 expected, 0 passed, 5 failed, 0 not reached, \
             8 beyond, remainders agree\n",
        ),
    ] {
        let ran = fed(&["compare", &first], &report(name));
        assert_eq!((ran.status, &*ran.text()), (status, line));
        assert_eq!(ran.err, "");
    }
}

#[test]
fn for_machines() {
    let folder = Folder::new();
    folder.file("first.expected", FIRST);
    folder.file("cut.report", &report("cut.cesr"));
    let ran = within(&folder, "cesr compare --json first.expected cut.report");
    assert_eq!(ran.status, 1);
    assert_eq!(
        ran.text(),
        "{\"expected\":\"first.expected\",\"report\":\"cut.report\",\"outcome\":\"otherwise\",\
         \"passed\":1,\"failed\":0,\"not_reached\":4,\"beyond\":0,\"remainders_agree\":false,\"version\":\"0.2.0\"}\n"
    );
    let ran = within(&folder, "cesr compare --json cut.report cut.report");
    let number = format!(
        "\"refusal\":{{\"number\":20,\"meaning\":\"{}\",\"place\":0}}",
        &TWENTY[17..]
    );
    assert_eq!(ran.status, 2);
    assert!(ran.text().contains(&number), "{}", ran.text());
    assert!(ran.text().contains("\"outcome\":\"error\""));
    let ran = within(&folder, "cesr compare --json gone cut.report");
    assert_eq!(
        (ran.status, ran.err.contains("gone: No such file")),
        (2, true)
    );
    assert!(ran.text().contains("\"outcome\":\"error\",\"error\":"));
}

/// Which of the two it is, and both if both are.
#[test]
fn twenty_names_the_file() {
    let folder = Folder::new();
    folder.file("right.expected", FIRST);
    folder.file("right.report", &report("first.cesr"));
    folder.file("short.expected", &FIRST[..12]);
    folder.file("long.report", &[&report("first.cesr")[..], &[0]].concat());
    folder.file("stream", b"MAAB");
    for (words, said) in [
        ("right.expected long.report", "cesr: long.report: TWENTY\n"),
        ("short.expected right.report", "cesr: short.expected: TWENTY\n"),
        (
            "short.expected long.report",
            "cesr: short.expected: TWENTY\ncesr: long.report: TWENTY\n",
        ),
        (
            "right.expected stream",
            "cesr: stream: TWENTY\n        it looks like text: 'cesr judge --report' makes the report\n",
        ),
        (
            "stream right.report",
            "cesr: stream: TWENTY\n        it looks like text: 'cesr expect' makes the file of it\n",
        ),
    ] {
        let ran = within(&folder, &format!("cesr compare {words}"));
        let said = said.replace("TWENTY", TWENTY);
        assert_eq!((ran.status, &*ran.text(), &*ran.err), (2, "", &*said));
    }
}

/// Of nothing there is no pass; an expected remainder is something.
#[test]
fn nothing_expected_and_nothing_there() {
    let folder = Folder::new();
    let nothing = folder.file("nothing", &[0; 8]);
    let ran = fed(&["compare", &nothing], &[0; 12]);
    let said = "cesr: standard input: nothing was expected, and no item is there\n";
    assert_eq!((ran.status, &*ran.text(), &*ran.err), (2, "", said));
    let rest = folder.file("rest", &[0, 0, 0, 0, 0, 0, 0, 1, 4]);
    let told = fed(&["judge", "--report", "--form", "text"], b"-AACMAAB").out;
    for (file, report, status) in [
        (&rest, &told[..], 0),
        (&rest, &[0; 12], 1),
        (&nothing, &told, 1),
    ] {
        assert_eq!(fed(&["compare", file], report).status, status);
    }
}

#[test]
fn calls_that_make_no_sense() {
    for (words, said) in [
        (&["compare"][..], "compare asks for an EXPECTED file"),
        (&["compare", "-"], "standard input can be read once"),
        (&["compare", "a", "b", "c"], "one FILE only: c"),
        (&["compare", "--out", "a"], "no such option here: --out"),
        (&["expect", "a", "b"], "one FILE only: b"),
        (&["expect", "--json"], "no such option here: --json"),
    ] {
        let ran = run(words);
        assert_eq!((ran.status, ran.out.len()), (2, 0));
        assert_eq!(ran.err, format!("cesr: {said}\nTry 'cesr --help'.\n"));
    }
}

/// What stood there stays where the new file can't be written.
#[test]
fn a_file_is_whole_or_as_it_was() {
    let folder = Folder::new();
    folder.file("list", b"0\n8\n");
    let ran = within(&folder, "cesr expect --out made list && od -An -tx1 made");
    assert_eq!(ran.text(), " 00 00 00 02 00 08 00 00 00 00\n");
    let ran = within(&folder, "cesr expect --out gone/made list");
    assert_eq!(ran.status, 2);
    assert!(
        ran.err.ends_with("No such file or directory\n"),
        "{}",
        ran.err
    );
}
