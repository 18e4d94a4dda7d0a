//! The samples judged, converted and shown; output compared with kept
//! expectations. `expected/README.md` says how each was checked.

mod common;

use common::{expected, fed, run, sample};

/// Runs and compares standard output; nothing stands on standard error.
fn compare(arguments: &[&str], status: i32, name: &str) {
    let ran = run(arguments);
    assert_eq!(ran.text(), expected(name), "{arguments:?}");
    assert_eq!(
        (ran.status, ran.err.as_str()),
        (status, ""),
        "{arguments:?}"
    );
}

#[test]
fn one_stream_in_full() {
    compare(&["judge", "samples/first.cesr"], 1, "first.txt");
    compare(
        &["judge", "samples/first-binary.cesr"],
        1,
        "first-binary.txt",
    );
    compare(&["judge", "samples/clean.cesr"], 0, "clean.txt");
    compare(&["judge", "samples/cut.cesr"], 1, "cut.txt");
    compare(&["judge", "samples/faults.cesr"], 1, "faults.txt");
    compare(
        &["judge", "--all", "samples/faults.cesr"],
        1,
        "all-faults.txt",
    );
}

#[test]
fn every_item_with_its_name() {
    compare(
        &["judge", "--all", "samples/first.cesr"],
        1,
        "all-first.txt",
    );
    let arguments = [
        "judge",
        "--all",
        "--form=binary",
        "samples/clean-binary.cesr",
    ];
    compare(&arguments, 0, "all-clean-binary.txt");
}

#[test]
fn many_streams_with_a_line_each_and_a_total() {
    let names = [
        "samples/clean.cesr",
        "samples/clean-binary.cesr",
        "samples/cut.cesr",
        "samples/faults.cesr",
        "samples/first.cesr",
    ];
    compare(&[&["judge"], &names[..]].concat(), 1, "many.txt");
    compare(&[&["judge"], &names[..2]].concat(), 0, "many-clean.txt");
}

/// `--all` of many: each in full, a line between them, and the total.
#[test]
fn many_streams_in_full() {
    let names = ["samples/first.cesr", "samples/clean.cesr"];
    let ran = run(&["judge", "--all", names[0], names[1]]);
    let each = names.map(|name| run(&["judge", "--all", name]).text());
    let total = "2 streams: 1 passed, 1 failed, 0 not judged; \
                 10 items, 9 accepted, 1 refused, 0 remainders\n";
    assert_eq!(ran.text(), format!("{}\n{}\n{total}", each[0], each[1]));
    assert_eq!(ran.status, 1);
}

#[test]
fn standard_input_is_judged_as_a_file_is() {
    let file = run(&["judge", "samples/first.cesr"]);
    for arguments in [
        &["judge"][..],
        &["judge", "-"],
        &["judge", "--form", "text"],
    ] {
        let ran = fed(arguments, &sample("first.cesr"));
        let mut told = file.text().replace("samples/first.cesr", "standard input");
        if arguments.len() > 2 {
            told = told.replace(" (detected from the first bytes)", "");
        }
        assert_eq!((ran.text(), ran.status), (told, 1));
    }
}

/// A form that is said is taken, whatever the bytes look like.
#[test]
fn the_form_that_is_said_is_taken() {
    let ran = run(&["judge", "--form", "binary", "samples/clean.cesr"]);
    assert_eq!(ran.status, 1);
    // 2D, the byte of `-`, is 001011 01: `L`, 76 characters, so 57 bytes.
    assert!(ran.text().contains("\n        binary, 136 bytes\n"));
    assert!(ran
        .text()
        .contains("L X448 public encryption key, 57 bytes from 0\n"));
}

/// 01, "The report": 5 items; `E8wY..` is refused 8 at 80; no remainder.
#[test]
fn the_bytes_of_a_report() {
    let told: &[u8] = &[
        0, 0, 0, 5, // items
        0, 0, 0, 0, 0, 0, 0, 8, 0, // `-_AAACAA`
        0, 0, 0, 8, 0, 0, 0, 72, 0, // `-SAR` and 17 units
        0, 0, 0, 80, 0, 0, 0, 44, 8, // `E8wY..`
        0, 0, 0, 124, 0, 0, 0, 8, 0, // `0HD_____`
        0, 0, 0, 132, 0, 0, 0, 4, 0, // `1AAM`
        0, 0, 0, 1, // refusals
        0, 0, 0, 2, 8, 0, 0, 0, 80, // item 2
        0, 0, 0, 0, // no remainder
    ];
    let ran = run(&["judge", "--report", "samples/first.cesr"]);
    assert_eq!((ran.out.as_slice(), ran.status), (told, 1));
    assert_eq!(ran.err, "");
}

/// 01's own example, byte for byte.
#[test]
fn the_report_of_the_deck() {
    let told: &[u8] = &[
        0, 0, 0, 2, 0, 0, 0, 0, 0, 0, 0, 8, 4, 0, 0, 0, 8, 0, 0, 0, 4, 0, 0, 0, 0, 1, 0, 0, 0, 0,
        4, 0, 0, 0, 4, 0, 0, 0, 0,
    ];
    let ran = fed(&["judge", "--report"], b"-AAB0AAAMAAB");
    assert_eq!((ran.out.as_slice(), ran.status), (told, 1));
}

#[test]
fn streams_are_converted_both_ways() {
    for (text, binary) in [
        ("first.cesr", "first-binary.cesr"),
        ("clean.cesr", "clean-binary.cesr"),
    ] {
        let ran = run(&["convert", "--to", "binary", &format!("samples/{text}")]);
        assert_eq!((ran.out, ran.status), (sample(binary), 0));
        let ran = run(&["convert", "--to=text", &format!("samples/{binary}")]);
        assert_eq!((ran.out, ran.status), (sample(text), 0));
        let ran = fed(&["convert"], &sample(binary));
        assert_eq!((ran.out, ran.status), (sample(text), 0));
        assert_eq!(
            ran.err,
            "cesr: standard input: binary (detected from the first bytes)\n"
        );
    }
    // 01: `1AAM` in B is D4 00 0C.
    assert_eq!(
        fed(&["convert", "--to", "binary"], b"1AAM").out,
        [0xD4, 0x00, 0x0C]
    );
}

/// `-` is standard output; a text that is called binary is converted, and said.
#[test]
fn conversions_that_surprise() {
    let arguments = ["convert", "--to=binary", "--out", "-", "samples/clean.cesr"];
    assert_eq!(run(&arguments).out, sample("clean-binary.cesr"));
    let ran = fed(&["convert", "--to", "text"], b"MAABMAABMAAB");
    assert_eq!(
        (ran.out.as_slice(), ran.status),
        (&b"TUFBQk1BQUJNQUFC"[..], 0)
    );
    let said = "cesr: standard input: looks like text, is converted as binary\n";
    assert_eq!(ran.err, said);
}

#[test]
fn a_refused_conversion_writes_nothing() {
    let ran = fed(&["convert", "--to", "binary"], b"MAABMA!B");
    assert_eq!((ran.out.as_slice(), ran.status), (&b""[..], 2));
    assert_eq!(ran.err, expected("convert-5.txt"));
    let ran = fed(&["convert", "--to", "binary"], b"MAABMAA=");
    assert_eq!((ran.out.as_slice(), ran.status), (&b""[..], 2));
    assert_eq!(ran.err, expected("convert-19.txt"));
    let ran = fed(&["convert", "--to", "binary"], b"+AAB");
    assert!(ran
        .err
        .contains("URL-safe Base64 has - for the + at 0\n        usually "));
    let ran = fed(&["convert", "--to", "binary"], b"MAAB\n");
    assert_eq!((ran.out.as_slice(), ran.status), (&b""[..], 2));
    assert_eq!(ran.err, expected("convert-2.txt"));
}

#[test]
fn one_item_is_shown() {
    compare(&["show", "8", "samples/first.cesr"], 0, "show-group.txt");
    compare(&["show", "124", "samples/first.cesr"], 0, "show-number.txt");
    compare(
        &["show", "60", "samples/clean-binary.cesr"],
        0,
        "show-digest.txt",
    );
    compare(&["show", "80", "samples/first.cesr"], 1, "show-refused.txt");
    compare(&["show", "0", "samples/clean.cesr"], 0, "show-version.txt");
    compare(&["show", "48", "samples/faults.cesr"], 1, "show-deep.txt");
    compare(&["show", "136", "samples/clean.cesr"], 1, "show-past.txt");
}

/// 01's deck: raw values and tag characters.
#[test]
fn values_of_the_deck_are_shown() {
    for (text, line) in [
        ("MAAB", "raw      0001\n"),
        ("MP__", "raw      FFFF\n"),
        ("VABh", "raw      61\n"),
        ("WGhp", "raw      6869\n"),
        ("4BAA", "raw      (empty)\n"),
        ("5BABAGhp", "raw      6869\n"),
        ("6BABAABh", "raw      61\n"),
        ("0J_A", "tag      A\n"),
        ("Xicp", "tag      icp\n"),
    ] {
        let ran = fed(&["show", "0"], text.as_bytes());
        assert!(ran.text().contains(line), "{text}: {}", ran.text());
        assert_eq!(ran.status, 0);
    }
}

#[test]
fn the_numbers_are_listed() {
    compare(&["numbers"], 0, "numbers.txt");
}
