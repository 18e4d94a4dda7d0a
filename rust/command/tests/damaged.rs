//! Damaged samples. What is told of each was derived from 01 by hand.

mod common;

use common::{fed, sample};

/// `clean.cesr` with these bytes put in at an offset.
fn damaged(at: usize, bytes: &[u8]) -> Vec<u8> {
    let mut stream = sample("clean.cesr");
    stream[at..at + bytes.len()].copy_from_slice(bytes);
    stream
}

/// The readable report holds this line.
fn told(stream: &[u8], status: i32, line: &str) {
    let ran = fed(&["judge", "--form", "text"], stream);
    assert!(ran.text().contains(line), "{line}\n{}", ran.text());
    assert_eq!(ran.status, status, "{line}");
}

/// Within the digest at 80 a stranger is 5 at its place; the others stand.
#[test]
fn a_stranger_in_a_value() {
    let stream = damaged(90, b"!");
    told(&stream, 1, "5 items, 4 accepted, 1 refused, no remainder");
    told(
        &stream,
        1,
        "\nitem 2: refused 5 at 90, character outside the alphabet",
    );
    told(&stream, 1, "the byte at 90 is 21 hexadecimal");
}

/// Values aren't verified: another digest is a digest.
#[test]
fn another_value() {
    told(
        &damaged(100, b"AAAA"),
        0,
        "5 items, 5 accepted, 0 refused, no remainder",
    );
}

/// `b` heads no code, so the rest of the stream, 56 characters, is unframed.
#[test]
fn an_unknown_code() {
    let stream = damaged(80, b"b");
    told(
        &stream,
        1,
        "2 items, 2 accepted, 0 refused, remainder 6 from 80",
    );
    told(
        &stream,
        1,
        "\nremainder 6 from 80: code unknown or reserved\n",
    );
    told(&stream, 1, "56 characters not judged");
}

/// One unit too many in the group takes the digest's first: it passes the
/// group's end, 4 at 80. Behind it `_fz7` heads no code: remainder 6 from 84.
#[test]
fn a_count_too_high() {
    let stream = damaged(8, b"-SAS");
    told(
        &stream,
        1,
        "2 items, 1 accepted, 1 refused, remainder 6 from 84",
    );
    told(&stream, 1, "\nitem 1: refused 4 at 80, ");
}

/// A genus/version of another version at top level is 7 and ends the report.
#[test]
fn another_version() {
    let stream = damaged(0, b"-_AAABAA");
    told(
        &stream,
        1,
        "0 items, 0 accepted, 0 refused, remainder 7 from 0",
    );
    told(&stream, 1, "136 characters not judged");
}

/// The pad bits of `0H` are the first four behind the code: `E` is 000100.
#[test]
fn a_pad_bit() {
    told(
        &damaged(124, b"0HEAAAAA"),
        1,
        "\nitem 3: refused 8 at 124, ",
    );
}

/// A remainder for a stranger in a header tells the character's own place.
#[test]
fn a_stranger_in_a_header() {
    let stream = damaged(82, b"*");
    told(
        &stream,
        1,
        "\nremainder 5 from 80: character outside the alphabet",
    );
    told(&stream, 1, "the byte at 82 is 2A hexadecimal");
}

/// What a person would ask of a stranger that is often met.
#[test]
fn strangers_by_name() {
    for (byte, kind) in [
        (b"\n", "0A hexadecimal, a line feed\n"),
        (b"\r", "0D hexadecimal, a carriage return\n"),
        (b" ", "20 hexadecimal, a space\n"),
        (b"\x00", "00 hexadecimal\n"),
        (b"\xFF", "FF hexadecimal\n"),
    ] {
        told(
            &damaged(123, byte),
            1,
            &format!("the byte at 123 is {kind}"),
        );
    }
    for (byte, note) in [
        (b"+", "URL-safe Base64 has - for the + at 123\n"),
        (b"/", "URL-safe Base64 has _ for the / at 123\n"),
        (
            b"=",
            "a stream has no padding: nothing stands for the = at 123\n",
        ),
    ] {
        told(&damaged(123, byte), 1, note);
    }
}

/// An editor's byte order mark: EF is 111011 and BB goes on with it, `77u_` in
/// characters, which heads no code.
#[test]
fn a_byte_order_mark() {
    let stream = [b"\xEF\xBB\xBF", &sample("clean.cesr")[..]].concat();
    let note = "the stream opens with a byte order mark, which is no part of it\n";
    told(&stream, 1, note);
    let ran = fed(&["judge"], &stream);
    assert!(ran
        .text()
        .contains("remainder 6 from 0\n        binary (detected"));
    assert!(ran
        .text()
        .contains(&format!("        {note}        usually a code")));
    assert!(fed(&["convert", "--to", "binary"], &stream)
        .err
        .contains("not whole units"));
}

/// A stranger anywhere is never passed over.
#[test]
fn a_stranger_at_every_place() {
    for at in 0..136 {
        let ran = fed(&["judge"], &damaged(at, b"!"));
        assert_eq!(ran.status, 1, "at {at}");
    }
}

/// Cut anywhere but between two items, a stream has a remainder: 4.
#[test]
fn a_cut_at_every_place() {
    let whole = sample("clean.cesr");
    for end in 1..=136 {
        let ran = fed(&["judge"], &whole[..end]);
        let starts = [0, 8, 80, 124, 132];
        let last = starts.iter().rev().find(|start| **start < end);
        match [8, 80, 124, 132, 136].contains(&end) {
            true => assert_eq!(ran.status, 0, "cut at {end}"),
            false => {
                let rest = format!("remainder 4 from {}\n", last.expect("an item"));
                assert!(ran.text().contains(&rest), "cut at {end}");
                assert_eq!(ran.status, 1, "cut at {end}");
            }
        }
    }
}
