//! Readings of docs/DECISIONS.md that no other test names. Each test says
//! which one.

mod common;

use common::{binary, reads, rows, rows_of};
use oracle::form::Form;
use oracle::report::{report, write_report};

#[test]
fn d46_room_is_asked_by_items_only() {
    // One item, with and without a remainder: 17 + 18 = 35. Written are
    // 4 + 9, 4 and 4, and 5 for the remainder's row. No item: 17, written 17.
    for (stream, room, written) in [("MAAB", 35, 21), ("MAABMA!!", 35, 26), ("bAAA", 17, 17)] {
        let mut out = vec![0; room];
        let answer = write_report(stream.as_bytes(), Form::Text, &mut out);
        assert_eq!(answer, Ok(written), "{stream}");
        let short = write_report(stream.as_bytes(), Form::Text, &mut out[1..]);
        assert_eq!(short.map_err(|r| (r.number, r.place)), Err((3, 0)));
    }
}

#[test]
fn d9_every_digit_counts() {
    // The first of five digits stands for 64^4 = 16,777,216 units, the first
    // of four for 262,144; each passes the end, with a signature group too.
    for stream in ["--JBAAAA", "--KBAAAA", "--AB____", "7AABBAAA", "8AABBAAA"] {
        rows(stream, &[], &[], Some((0, 4)));
        rows_of(&binary(stream), Form::Binary, &[], &[], Some((0, 4)));
    }
    // `BA` is 64 units: 4 + 256 characters.
    let full = format!("4BBA{}", "AAAA".repeat(64));
    rows(&full, &[(0, 260, 0)], &[], None);
    rows(&full[..256], &[], &[], Some((0, 4)));
}

#[test]
fn d45_a_report_has_no_two() {
    rows("MAABMA", &[(0, 4, 0)], &[], Some((4, 4)));
}

#[test]
fn d23_a_stream_of_just_the_limit_is_read() {
    let text = "1AAK".repeat(1 << 20);
    assert!(report(text.as_bytes(), Form::Text).is_ok());
    assert!(report(&binary(&text), Form::Binary).is_ok());
}

#[test]
fn d49_what_stands_behind_the_remainders_header_is_not_looked_at() {
    for tail in ["AAAA", "!!!!", "MAAB", ""] {
        let stream = format!("MAABbAAA{tail}");
        rows(&stream, &[(0, 4, 0)], &[], Some((4, 6)));
    }
}

#[test]
fn d3_other_genera_are_plain_items_where_nothing_is_required() {
    rows("-JAC-_zzz___", &[(0, 12, 0)], &[], None);
    rows("-AAC-_zzz___", &[(0, 12, 7)], &[(0, 7, 4)], None);
    rows("-_zzz___", &[], &[], Some((0, 7)));
    rows("-_BAACAA", &[], &[], Some((0, 7)));
}

#[test]
fn d4_large_forms_with_small_counts() {
    // 02 h: 18, by the item's own n, so before 9.
    for (stream, size) in [
        ("--AAAAAB1AAK", 12),
        ("7AABAAABAAAA", 12),
        ("7AABAAAA", 8),
        ("8AABAAAA", 8),
    ] {
        rows(stream, &[(0, size, 18)], &[(0, 18, 0)], None);
        let (bytes, size) = (binary(stream), size / 4 * 3);
        rows_of(&bytes, Form::Binary, &[(0, size, 18)], &[(0, 18, 0)], None);
    }
    // A remainder is by framing alone, which 18 is no part of.
    rows("--AAAAAB", &[], &[], Some((0, 4)));
    rows("7AABAAAB", &[], &[], Some((0, 4)));
}

#[test]
fn d6_in_text_a_character_is_a_byte() {
    // An `é` in the value is two bytes, C3 A9; the first of them is the place.
    let stream = "0HAAé=A".as_bytes();
    assert_eq!(stream.len(), 8);
    rows_of(stream, Form::Text, &[(0, 8, 5)], &[(0, 5, 4)], None);
    rows_of(&[0x80; 4], Form::Text, &[], &[], Some((0, 5)));
    let stream = "0HAA=éA".as_bytes();
    rows_of(stream, Form::Text, &[(0, 8, 19)], &[(0, 19, 4)], None);
}

#[test]
fn d10_the_enclosing_group_is_the_innermost() {
    // `0H` is 8 characters: at 8 it fits the outer `-A`, which ends at 16, but
    // not the inner one, which ends at 12.
    let stream = "-AAD-AAB0HAAAAAA";
    rows(stream, &[(0, 16, 4)], &[(0, 4, 8)], None);
    let bytes = binary(stream);
    rows_of(&bytes, Form::Binary, &[(0, 12, 4)], &[(0, 4, 6)], None);
}

#[test]
fn d3_a_genus_switches_nothing() {
    rows("-JAD-_AAABAAMAAB", &[(0, 16, 0)], &[], None);
    let items = &[(0, 8, 0), (8, 4, 0), (12, 8, 0)];
    rows("-_AAACAAMAAB-_AAACAA", items, &[], None);
}

#[test]
fn d19_contents_of_other_groups_are_items() {
    for letter in ["E", "H", "X", "Y", "Z"] {
        let stream = format!("-{letter}AB{{\"a\"");
        rows(&stream, &[(0, 8, 5)], &[(0, 5, 4)], None);
    }
}

#[test]
fn d150_a_signature_group_holds_nothing_but_indexed_items() {
    // `-KAB`: 111110 001010 000000 000001 is F8 A0 01. What stands in it is no
    // indexed code.
    let stream = [0xF8, 0xA0, 0x01, 0xFF, 0x00, 0xFF];
    rows_of(&stream, Form::Binary, &[(0, 6, 6)], &[(0, 6, 3)], None);
    for start in ["MAAB", "-AAA", "-KAA", "1AAK"] {
        rows(&format!("-KAB{start}"), &[(0, 8, 6)], &[(0, 6, 4)], None);
    }
    rows("-KAC-_AAACAA", &[(0, 12, 6)], &[(0, 6, 4)], None);
    rows("-LAA", &[(0, 4, 0)], &[], None);
}

/// An indexed item of these first characters, filled with `A` to its size.
fn signature(head: &str, full: usize) -> String {
    format!("{head}{}", "A".repeat(full - head.len()))
}

#[test]
fn d151_value_characters_in_a_header_are_framed() {
    // `2A####` has two value characters in its second unit: a stranger there
    // comes before the extent, and before 8 and 15.
    rows("-KAC2BAAAB!E", &[(0, 12, 5)], &[(0, 5, 10)], None);
    rows("-KAC2BAAABE+", &[(0, 12, 19)], &[(0, 19, 11)], None);
    rows("-KAB2BAA", &[(0, 8, 4)], &[(0, 4, 4)], None);
    rows("-KAB2EAA", &[(0, 8, 6)], &[(0, 6, 4)], None);
}

#[test]
fn d152_a_start_of_both_tables_is_read_by_the_group() {
    // `0A` is a salt of 24 characters by the master table, a signature of 156
    // by the other.
    let salt = signature("0AAA", 24);
    rows(&format!("-JAG{salt}"), &[(0, 28, 0)], &[], None);
    rows(&format!("-KAG{salt}"), &[(0, 28, 4)], &[(0, 4, 4)], None);
    let long = signature("0A__", 156);
    rows(&format!("-KAn{long}"), &[(0, 160, 0)], &[], None);
}

#[test]
fn d153_ondex_digits_of_a_current_only_code() {
    for (head, full, digits) in [("0BA", 156, "An"), ("2BAA", 92, "AX"), ("3BAAA", 160, "Ao")] {
        let zero = format!("-K{digits}{}", signature(head, full));
        rows(&zero, &[(0, full + 4, 0)], &[], None);
        let one = format!("-K{digits}{}", signature(&format!("{head}B"), full));
        rows(&one, &[(0, full + 4, 15)], &[(0, 15, 4)], None);
    }
    // 8 before it.
    let both = format!("-KAX{}", signature("2BAABAE", 92));
    rows(&both, &[(0, 96, 8)], &[(0, 8, 4)], None);
}

#[test]
fn d18_values_are_not_read_further() {
    // Type `H` "Decimal number string", `1AAG` a date.
    reads("4HAB____", "4H", "", "FFFFFF");
    reads(
        &format!("1AAG{}", "_".repeat(32)),
        "1AAG",
        "",
        &"FF".repeat(24),
    );
}
