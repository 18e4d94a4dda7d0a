//! The whole deck of 01, the errors that 01 saw shipped, and the examples of
//! 003, 001 and 002. Expected values are worked out by hand from the papers.

mod common;

use common::papers::{DIGESTS_OF_001, NUMBER, POST_PADDED_OF_001, SAD_PATHS, SHORTS_OF_002};
use common::{around, binary, bytes_of_report, hex, nested, reads, reads_text, rows, rows_of};
use oracle::convert::to_binary;
use oracle::form::Form;
use oracle::primitive::{read_text, write, Named, Tag};
use oracle::registry;
use oracle::report::{report, write_report};
use oracle::walk::{step, Found, Walk};

/// 01, "The deck we check by": the stream in text, in binary, its text report
/// and its binary report.
#[rustfmt::skip]
const DECK: [(&str, &str, &str, &str); 21] = [
    // `MAAB`* raw 00 01. `MP__`* raw FF FF; `MQAA`* 8.
    ("MAAB", "300001",
     "00000001 00000000 00000004 00 00000000 00000000",
     "00000001 00000000 00000003 00 00000000 00000000"),
    ("MP__", "30FFFF",
     "00000001 00000000 00000004 00 00000000 00000000",
     "00000001 00000000 00000003 00 00000000 00000000"),
    ("MQAA", "310000",
     "00000001 00000000 00000004 08 00000001 00000000 08 00000000 00000000",
     "00000001 00000000 00000003 08 00000001 00000000 08 00000000 00000000"),
    // `0HD_____`* accepted; `0HEAAAAA`* 8.
    ("0HD_____", "D070FF FFFFFF",
     "00000001 00000000 00000008 00 00000000 00000000",
     "00000001 00000000 00000006 00 00000000 00000000"),
    ("0HEAAAAA", "D07100 000000",
     "00000001 00000000 00000008 08 00000001 00000000 08 00000000 00000000",
     "00000001 00000000 00000006 08 00000001 00000000 08 00000000 00000000"),
    // `VABh`* raw 61. `WGhp` raw 68 69. `1AAM` in B is D4 00 0C*.
    ("VABh", "540061",
     "00000001 00000000 00000004 00 00000000 00000000",
     "00000001 00000000 00000003 00 00000000 00000000"),
    ("WGhp", "586869",
     "00000001 00000000 00000004 00 00000000 00000000",
     "00000001 00000000 00000003 00 00000000 00000000"),
    ("1AAM", "D4000C",
     "00000001 00000000 00000004 00 00000000 00000000",
     "00000001 00000000 00000003 00 00000000 00000000"),
    // `4BAA` empty raw*; `5BAA` 9*.
    ("4BAA", "E01000",
     "00000001 00000000 00000004 00 00000000 00000000",
     "00000001 00000000 00000003 00 00000000 00000000"),
    ("5BAA", "E41000",
     "00000001 00000000 00000004 09 00000001 00000000 09 00000000 00000000",
     "00000001 00000000 00000003 09 00000001 00000000 09 00000000 00000000"),
    // `5BABAGhp` raw 68 69; `6BABAABh` raw 61; `5BABAPAA` accepted, `5BABAQAA` 8*.
    ("5BABAGhp", "E41001 006869",
     "00000001 00000000 00000008 00 00000000 00000000",
     "00000001 00000000 00000006 00 00000000 00000000"),
    ("6BABAABh", "E81001 000061",
     "00000001 00000000 00000008 00 00000000 00000000",
     "00000001 00000000 00000006 00 00000000 00000000"),
    ("5BABAPAA", "E41001 00F000",
     "00000001 00000000 00000008 00 00000000 00000000",
     "00000001 00000000 00000006 00 00000000 00000000"),
    ("5BABAQAA", "E41001 010000",
     "00000001 00000000 00000008 08 00000001 00000000 08 00000000 00000000",
     "00000001 00000000 00000006 08 00000001 00000000 08 00000000 00000000"),
    // `0J_A` tag `A`; `0JAA` 10*. `-0AA` 6 (no item, so a remainder).
    ("0J_A", "D09FC0",
     "00000001 00000000 00000004 00 00000000 00000000",
     "00000001 00000000 00000003 00 00000000 00000000"),
    ("0JAA", "D09000",
     "00000001 00000000 00000004 0A 00000001 00000000 0A 00000000 00000000",
     "00000001 00000000 00000003 0A 00000001 00000000 0A 00000000 00000000"),
    ("-0AA", "FB4000",
     "00000000 00000000 00000001 00000000 06",
     "00000000 00000000 00000001 00000000 06"),
    // `-AAA` accepted; `-AABMAAB` accepted; `-AACMAAB` remainder 4 at 0*.
    ("-AAA", "F80000",
     "00000001 00000000 00000004 00 00000000 00000000",
     "00000001 00000000 00000003 00 00000000 00000000"),
    ("-AABMAAB", "F80001 300001",
     "00000001 00000000 00000008 00 00000000 00000000",
     "00000001 00000000 00000006 00 00000000 00000000"),
    ("-AACMAAB", "F80002 300001",
     "00000000 00000000 00000001 00000000 04",
     "00000000 00000000 00000001 00000000 04"),
    // Empty stream: twelve zero bytes, room 17.
    ("", "",
     "00000000 00000000 00000000",
     "00000000 00000000 00000000"),
];

/// The rest of 01's deck: the two genus/version streams and the long report.
#[rustfmt::skip]
const DECK_OF_GROUPS: [(&str, &str, &str, &str); 3] = [
    // `-AAC-_AAABAA` 7 at 4*; `-JAC-_AAABAA` accepted*.
    ("-AAC-_AAABAA", "F80002 FBF000 001000",
     "00000001 00000000 0000000C 07 00000001 00000000 07 00000004 00000000",
     "00000001 00000000 00000009 07 00000001 00000000 07 00000003 00000000"),
    ("-JAC-_AAABAA", "F89002 FBF000 001000",
     "00000001 00000000 0000000C 00 00000000 00000000",
     "00000001 00000000 00000009 00 00000000 00000000"),
    // `-AAB0AAAMAAB`, the report as 01 spells it.
    ("-AAB0AAAMAAB", "F80001 D00000 300001",
     "00000002 00000000 00000008 04 00000008 00000004 00 00000001 00000000 04 00000004 00000000",
     "00000002 00000000 00000006 04 00000006 00000003 00 00000001 00000000 04 00000003 00000000"),
];

#[test]
fn deck_reports_byte_for_byte() {
    for (text, bytes, in_text, in_binary) in DECK.iter().chain(&DECK_OF_GROUPS) {
        let found = bytes_of_report(text.as_bytes(), Form::Text);
        assert_eq!(found, hex(in_text), "{text}");
        let found = bytes_of_report(&hex(bytes), Form::Binary);
        assert_eq!(found, hex(in_binary), "{text} in binary");
    }
}

#[test]
fn deck_conversions() {
    for (text, bytes, ..) in DECK.iter().chain(&DECK_OF_GROUPS) {
        assert_eq!(binary(text), hex(bytes), "{text}");
        let mut back = vec![0; text.len()];
        let length = oracle::convert::to_text(&hex(bytes), &mut back);
        assert_eq!((length, &back[..]), (Ok(text.len()), text.as_bytes()));
    }
}

#[test]
fn deck_raw_values_and_tags() {
    reads("MAAB", "M", "", "0001");
    reads("MP__", "M", "", "FFFF");
    reads("0HD_____", "0H", "", "FFFFFFFF");
    reads("VABh", "V", "", "61");
    reads("WGhp", "W", "", "6869");
    reads("1AAM", "1AAM", "", "");
    reads("4BAA", "4B", "", "");
    reads("5BABAGhp", "5B", "", "6869");
    reads("6BABAABh", "6B", "", "61");
    reads("5BABAPAA", "5B", "", "F000");
    reads("0J_A", "0J", "A", "");
}

/// 02 g: "Cases become 64 accepted, 65 refused 11"; its format nests 40.
#[test]
fn deck_64_nested_groups_accepted_65_refused_11() {
    for letter in ['A', 'J', 'Z', 'a'] {
        rows(&nested(letter, 40), &[(0, 160, 0)], &[], None);
        rows(&nested(letter, 64), &[(0, 256, 0)], &[], None);
        rows(&nested(letter, 65), &[(0, 260, 11)], &[(0, 11, 256)], None);
        let accepted = binary(&nested(letter, 64));
        rows_of(&accepted, Form::Binary, &[(0, 192, 0)], &[], None);
        let more = binary(&nested(letter, 65));
        rows_of(&more, Form::Binary, &[(0, 195, 11)], &[(0, 11, 192)], None);
    }
}

/// What the writer makes of a text: an item, or number and place.
fn written(text: &str, large: bool, form: Form) -> Result<Vec<u8>, (u8, usize)> {
    let named = Named::Variable {
        letter: b'A',
        large,
    };
    let mut out = vec![0; text.len() + 16];
    let size = write(named, &Tag::NONE, text.as_bytes(), form, &mut out);
    let size = size.map_err(|refused| (refused.number, refused.place))?;
    // 3 for a character or byte less.
    let short = write(
        named,
        &Tag::NONE,
        text.as_bytes(),
        form,
        &mut out[..size - 1],
    );
    assert_eq!(short.map_err(|r| (r.number, r.place)), Err((3, 0)));
    out.truncate(size);
    Ok(out)
}

/// 02 c: its examples of accepted texts; "the empty text is `4AAA`".
#[test]
fn deck_base64_text() {
    for (item, code, text) in [
        ("4AAB-4-5", "4A", "-4-5"),
        ("4AADA-a-personal", "4A", "-a-personal"),
        ("5AAEAA-4-5-legalName", "5A", "-4-5-legalName"),
        ("6AAEAAA-a-personal-1", "6A", "-a-personal-1"),
        ("4AAA", "4A", ""),
        ("4AABABCD", "4A", "BCD"),
        ("4AABBCDA", "4A", "BCDA"),
    ] {
        rows(item, &[(0, item.len(), 0)], &[], None);
        reads_text(item, code, text);
        assert_eq!(written(text, false, Form::Text), Ok(item.into()));
    }
}

/// 02 c: 16 "as is a value without the full fill", after 8, at the item.
#[test]
fn deck_text_without_its_fill() {
    let refused = |number, items: &[&str]| {
        for item in items {
            let (size, bytes) = (item.len(), binary(item));
            rows(item, &[(0, size, number)], &[(0, number, 0)], None);
            let items = &[(0, bytes.len(), number)];
            rows_of(&bytes, Form::Binary, items, &[(0, number, 0)], None);
        }
    };
    // Selectors 4, 5, 6: text that starts with `A`, then less than the fill.
    refused(16, &["4AABAAAA", "4AABAACD", "4AACAAAABCDE"]);
    refused(16, &["5AABAAAA", "5AABAAAD", "5AABABCD", "5AABAPCD"]);
    refused(16, &["6AABAAAA", "6AABAABD", "6AABAADD"]);
    // A lead byte that is not zero comes first; Q is 16 and E is 4.
    refused(8, &["5AABBCDE", "5AABAQCD", "5AABBA-a", "5AABQAAA"]);
    refused(8, &["6AABBAAA", "6AABABAA", "6AABAAED", "6AABAQAA"]);
    refused(9, &["5AAA", "6AAA"]);
    // Only the front is fill: `A` behind the first character is text.
    reads_text("4AABAB-A", "4A", "B-A");
    reads_text("5AABAA-A", "5A", "-A");
    reads_text("6AACAAA-AAAA", "6A", "-AAAA");
    // Other types stay bytes.
    reads("4BABAAAA", "4B", "", "000000");
    // 5 and 19 behind the header come before 16; places are the stream's.
    rows("4AABAA!A", &[(0, 8, 5)], &[(0, 5, 6)], None);
    rows("4AABAA=A", &[(0, 8, 19)], &[(0, 19, 6)], None);
    let items = &[(0, 12, 16), (12, 4, 0)];
    rows("-AAC4AABAACDMAAB", items, &[(0, 16, 4)], None);
}

/// The same under the large selectors: 18 below 4,096 units, then as above.
#[test]
fn deck_large_text() {
    let large = |first: &str| format!("{first}{}", "BCDE".repeat(4095));
    let text = |start: &str| format!("{start}{}", "BCDE".repeat(4095));
    for (head, first, start) in [
        ("7AAA", "-a-b", "-a-b"),
        ("7AAA", "A-ab", "-ab"),
        ("8AAA", "AA-a", "-a"),
        ("9AAA", "AAA-", "-"),
    ] {
        let item = large(&format!("{head}ABAA{first}"));
        rows(&item, &[(0, 16_392, 0)], &[], None);
        reads_text(&item, head, &text(start));
        assert_eq!(written(&text(start), true, Form::Text), Ok(item.into()));
    }
    for (number, first) in [
        (16, "7AAAABAAAACD"),
        (16, "8AAAABAAABCD"),
        (16, "8AAAABAAAAAD"),
        (8, "8AAAABAABACD"),
        (16, "9AAAABAAAABD"),
        (16, "9AAAABAAAAAA"),
        (8, "9AAAABAAAAED"),
    ] {
        let refusals = &[(0, number, 0)];
        rows(&large(first), &[(0, 16_392, number)], refusals, None);
    }
    // With few units it is 18, before 9, 8 and 16.
    for few in ["7AAAAAAA", "8AAAAAAA", "7AAAAAABAAAA", "8AAAAAABBAAA"] {
        rows(few, &[(0, few.len(), 18)], &[(0, 18, 0)], None);
    }
}

/// 02 c: "The writer's order is 6, 12, 5 (place its index in the text), 16
/// (place 0), 3", with 02 h's 18 directly after 12.
#[test]
fn deck_texts_that_are_not_written() {
    for form in [Form::Text, Form::Binary] {
        for (text, refused) in [
            ("A", (16, 0)),
            ("AB", (16, 0)),
            ("A-a", (16, 0)),
            ("ABCD", (16, 0)),
            ("A!", (5, 1)),
            ("A=", (19, 1)),
            ("-a b", (5, 2)),
            ("-+!", (19, 1)),
            ("\u{e9}", (5, 0)),
        ] {
            assert_eq!(written(text, false, form), Err(refused), "{text}");
            assert_eq!(written(text, true, form), Err((18, 0)), "{text}");
        }
        // Tag characters given for it are 12.
        let named = Named::Variable {
            letter: b'A',
            large: false,
        };
        let tagged = write(named, &Tag::of(b"-"), b"-a", form, &mut [0; 8]);
        assert_eq!(tagged.map_err(|r| (r.number, r.place)), Err((12, 0)));
    }
}

/// "text with its fill is at most 16,380 characters small and 4,194,296 large."
#[test]
fn deck_lengths_of_texts() {
    for form in [Form::Text, Form::Binary] {
        // 16,379 characters have one of fill: 16,380. One more is none.
        for (length, small, large) in [
            (16_379, Ok(()), Err((18, 0))),
            (16_380, Ok(()), Err((18, 0))),
            (16_381, Err((12, 0)), Ok(())),
        ] {
            let text = "B".repeat(length);
            assert_eq!(written(&text, false, form).map(|_| ()), small);
            assert_eq!(written(&text, true, form).map(|_| ()), large);
        }
        // 12 before 5, 18 before 5.
        assert_eq!(written(&"!".repeat(16_381), false, form), Err((12, 0)));
        assert_eq!(written(&"!".repeat(16_380), true, form), Err((18, 0)));
    }
    let most = "B".repeat(4_194_296);
    assert_eq!(
        written(&most, true, Form::Text).map(|i| i.len()),
        Ok(4_194_304)
    );
    let more = most + "B";
    assert_eq!(written(&more, true, Form::Text), Err((12, 0)));
}

/// 02 h: "A large group below 4,096 units is thus 18, and `--AAABAA` with its
/// 4,096 units still passes." The same of variable codes, by n; 4,095 units
/// hold 12,285 raw bytes, 4,096 hold 12,286 with two lead bytes.
#[test]
fn deck_only_the_short_form() {
    let number = |stream: &str| {
        let found = report(stream.as_bytes(), Form::Text).unwrap();
        let same = report(&binary(stream), Form::Binary).unwrap();
        assert_eq!(found.items[0].verdict, same.items[0].verdict);
        found.items[0].verdict
    };
    let (less, enough) = ("1AAK".repeat(4095), "1AAK".repeat(4096));
    assert_eq!(number(&format!("--AAAA__{less}")), 18);
    assert_eq!(number(&format!("-A__{less}")), 0);
    assert_eq!(number(&format!("--AAABAA{enough}")), 0);
    let (less, enough) = ("AAAA".repeat(4095), "AAAA".repeat(4096));
    for lead in 0..3 {
        assert_eq!(number(&format!("{}AABAA__{less}", 7 + lead)), 18);
        assert_eq!(number(&format!("{}B__{less}", 4 + lead)), 0);
        assert_eq!(number(&format!("{}AABABAA{enough}", 7 + lead)), 0);
    }
    // 18 before 9, also in a group; the items behind it are judged.
    rows("8AABAAAA", &[(0, 8, 18)], &[(0, 18, 0)], None);
    let items = &[(0, 12, 18), (12, 4, 0)];
    rows("-AAC9AAHAAAA1AAK", items, &[(0, 18, 4)], None);
    // The writer directly after 12, place 0; 12,286 bytes are the first.
    let named = |large| Named::Variable {
        letter: b'B',
        large,
    };
    let mut out = vec![0; 16_392];
    for (large, length, answer) in [
        (false, 12_285, Ok(16_384)),
        (false, 12_286, Err((12, 0))),
        (true, 12_285, Err((18, 0))),
        (true, 12_286, Ok(16_392)),
    ] {
        let raw = vec![1; length];
        let found = write(named(large), &Tag::NONE, &raw, Form::Text, &mut out);
        assert_eq!(found.map_err(|r| (r.number, r.place)), answer);
    }
}

/// 02 j: "`+`, `/` or `=` from the ordinary alphabet ... number 19 where they
/// would have given 5, at the same place in the same order ... the first bad
/// character is reported, of whichever kind."
#[test]
fn deck_the_wrong_base64() {
    for character in ['+', '/', '='] {
        let with = |text: &str| text.replace('*', &character.to_string());
        // A first unit, a second one: framing, so a remainder.
        for text in [
            "*AAB", "M*AB", "MA*!", "_AA*", "7AAB*__!", "--JAA*!A", "-_AAABA*",
        ] {
            rows(&with(text), &[], &[], Some((0, 19)));
        }
        for text in ["!*AB", "MA!*", "7AAB!__*"] {
            rows(&with(text), &[], &[], Some((0, 5)));
        }
        // Behind the header, in a tag, in a group, in one of signatures.
        rows(&with("0HEAA*AA"), &[(0, 8, 19)], &[(0, 19, 5)], None);
        rows(&with("0HEA!*AA"), &[(0, 8, 5)], &[(0, 5, 4)], None);
        rows(&with("0LAAA*!A"), &[(0, 8, 19)], &[(0, 19, 5)], None);
        rows(&with("-AABMA*!"), &[(0, 8, 19)], &[(0, 19, 6)], None);
        rows(&with("-KAB_A*!"), &[(0, 8, 19)], &[(0, 19, 6)], None);
        rows(&with("-LAB_A!*"), &[(0, 8, 5)], &[(0, 5, 6)], None);
        // 4 before it, in a unit that is not whole.
        rows(&with("MAABMA*"), &[(0, 4, 0)], &[], Some((4, 4)));
        // 18 before what a group holds, and behind a variable's.
        rows(&with("--KAAAAB_A*A"), &[(0, 12, 18)], &[(0, 18, 0)], None);
        rows(&with("8AABAAAB*AAA"), &[(0, 12, 19)], &[(0, 19, 8)], None);
    }
    // RFC 4648: padded, and what 62 and 63 are there.
    rows("WGhpWGg=", &[(0, 4, 0)], &[], Some((4, 19)));
    rows("0HD/////", &[], &[], Some((0, 19)));
    rows("0HD_//__", &[(0, 8, 19)], &[(0, 19, 4)], None);
}

/// 02 h: "for accepted primitives equal type and raw value ... mean equal
/// text". Of the two spellings that a value has, each form accepts one.
#[test]
fn one_spelling_for_a_value() {
    for length in (0..8).chain(12_280..12_292) {
        let raw: Vec<u8> = (0..length).map(|i| (7 * i + i / 256) as u8).collect();
        for letter in *b"BCDEFH" {
            for form in [Form::Text, Form::Binary] {
                let spelt = [false, true].map(|large| {
                    let mut out = vec![0; 16_400];
                    let named = Named::Variable { letter, large };
                    write(named, &Tag::NONE, &raw, form, &mut out).is_ok()
                });
                assert_eq!(spelt, [length <= 12_285, length > 12_285]);
            }
        }
    }
    for length in (0..8).chain(16_375..16_388) {
        let text = "B".repeat(length);
        for form in [Form::Text, Form::Binary] {
            let spelt = [false, true].map(|large| written(&text, large, form).is_ok());
            assert_eq!(spelt, [length <= 16_380, length > 16_380]);
        }
    }
}

#[test]
fn deck_room_of_the_long_report() {
    // 39 bytes, room 53; at 52, refusal 3.
    let mut out = [9; 53];
    let refused = write_report(b"-AAB0AAAMAAB", Form::Text, &mut out[..52]);
    assert_eq!(refused.map_err(|r| (r.number, r.place)), Err((3, 0)));
    assert_eq!(out, [9; 53]);
    let length = write_report(b"-AAB0AAAMAAB", Form::Text, &mut out);
    assert_eq!((length, &out[39..]), (Ok(39), &[9; 14][..]));
}

// 01, "Errors we have seen shipped".

#[test]
fn shipped_genus_code_of_001_heads_a_large_group() {
    // `--AAABAA`: digits AABAA are 64 x 64 = 4,096 units. Alone it is 4.
    rows("--AAABAA", &[], &[], Some((0, 4)));
    let whole = format!("--AAABAA{}", "1AAK".repeat(4096));
    rows(&whole, &[(0, 16_392, 0)], &[], None);
    let short = format!("--AAABAA{}", "1AAK".repeat(4095));
    rows(&short, &[], &[], Some((0, 4)));
    // 001's `--AAACAA`: 2 x 4,096 units.
    let whole = format!("--AAACAA{}", "1AAK".repeat(8192));
    rows(&whole, &[(0, 32_776, 0)], &[], None);
}

#[test]
fn shipped_post_padding_is_refused_8() {
    let digest = "E8wYuBjhslETYaLZcxMkWrhVbMcA8RS1pKYl7nJ77ntA";
    rows(digest, &[(0, 44, 8)], &[(0, 8, 0)], None);
    let refused = read_text(digest.as_bytes(), 0, &mut [0; 32]);
    assert_eq!(refused.map_err(|r| (r.number, r.place)), Err((8, 0)));
}

#[test]
fn shipped_count_as_number_of_items() {
    // One unit, not one item: the digest passes its group. Behind the group
    // `_p83` is an op code.
    let stream = "-FABE_T2_p83_gRSuAYvGhqV3S0JzYEF2dIa-OCPLbIhBO7Y";
    rows(stream, &[(0, 8, 4)], &[(0, 4, 4)], Some((8, 6)));
}

#[test]
fn shipped_refused_inner_item_does_not_end_the_report() {
    rows("-AAB0AAAMAAB", &[(0, 8, 4), (8, 4, 0)], &[(0, 4, 4)], None);
}

// Examples of 003.

#[test]
fn of_003_genus_version() {
    // "Example: -_AAACAA -> genus AAA, version 2.00"; `-_AAABAA` is "also
    // defined", 01 rules 7 for it at top level.
    rows("-_AAACAA", &[(0, 8, 0)], &[], None);
    rows("-_AAABAA", &[], &[], Some((0, 7)));
    rows("MAAB-_AAABAA", &[(0, 4, 0)], &[], Some((4, 7)));
    rows("-_AAACAAMAAB", &[(0, 8, 0), (8, 4, 0)], &[], None);
}

/// 003, "Primitive Codes": every code with its fs, and what stands behind the
/// code characters of the smallest accepted item before the `A`s.
const FIXED_OF_003: &str = "
    A44 B44 C44 D44 E44 F44 G44 H44 I44 J44 K76 L76 M4 N12 O44 P124 Q44 R8 S16
    T20 U24 V4 W4 X4 Y8 Z12 a44
    0A.24 0B.88 0C.88 0D.88 0E.88 0F.88 0G.88 0H.8 0I.88 0J_4 0K.4 0L_8 0M.8
    0N_12 0O.12
    1AAA.48 1AAB.48 1AAC.80 1AAD.80 1AAE.156 1AAF.8 1AAG.36 1AAH.100 1AAI.48
    1AAJ.48 1AAK.4 1AAL.4 1AAM.4 1AAN.12 1AAO.4 1AAP.4";

#[test]
fn of_003_every_fixed_code() {
    let mut seen = 0;
    for word in FIXED_OF_003.split_whitespace() {
        let length = match word.as_bytes()[0] {
            b'0' => 2,
            b'1' => 4,
            _ => 1,
        };
        let (code, size) = word.split_at(length);
        let prepad = if size.starts_with('_') { "_" } else { "" };
        let size: usize = size.trim_matches(['.', '_']).parse().unwrap();
        let mut item = format!("{code}{prepad}");
        item += &"A".repeat(size - item.len());
        rows(&item, &[(0, size, 0)], &[], None);
        let bytes = size / 4 * 3;
        rows_of(&binary(&item), Form::Binary, &[(0, bytes, 0)], &[], None);
        // A character less and the full size passes the end.
        rows(&item[..size - 1], &[], &[], Some((0, 4)));
        seen += 1;
    }
    assert_eq!(seen, 27 + 15 + 16);
}

#[test]
fn of_003_every_variable_code() {
    // "Full codes expand as: 4X, 5X, 6X (small) and 7AAX, 8AAX, 9AAX (big)".
    for letter in ["B", "C", "D", "E", "F", "H"] {
        for (lead, raw) in [(0, 3), (1, 2), (2, 1)] {
            let small = format!("{}{letter}ABAAAA", 4 + lead);
            rows(&small, &[(0, 8, 0)], &[], None);
            reads(&small, &small[..2], "", &"00".repeat(raw));
            let large = format!("{}AA{letter}ABAA{}", 7 + lead, "AAAA".repeat(4096));
            rows(&large, &[(0, 16_392, 0)], &[], None);
            reads(&large, &large[..4], "", &"00".repeat(3 * 4095 + raw));
            let short = format!("{}AA{letter}AAABAAAA", 7 + lead);
            rows(&short, &[(0, 12, 18)], &[(0, 18, 0)], None);
        }
    }
    // `A`, whose value is text, is in 02 c's tests above.
}

#[test]
fn of_003_every_group_code() {
    // "Small = 4 chars -X##, Large = 8 chars --X#####", `-A` to `-Z`, `-a` to `-c`.
    for letter in ('A'..='Z').chain('a'..='c') {
        rows(&format!("-{letter}AA"), &[(0, 4, 0)], &[], None);
        let small = format!("-{letter}ABMAAB");
        let large = format!("--{letter}AABAA{}", "MAAB".repeat(4096));
        if ['K', 'L'].contains(&letter) {
            rows(&small, &[(0, 8, 6)], &[(0, 6, 4)], None);
            rows(&large, &[(0, 16_392, 6)], &[(0, 6, 8)], None);
        } else {
            rows(&small, &[(0, 8, 0)], &[], None);
            rows(&large, &[(0, 16_392, 0)], &[], None);
        }
        for (short, size) in [("AAAAA", 8), ("AAAABMAAB", 12)] {
            let short = format!("--{letter}{short}");
            rows(&short, &[(0, size, 18)], &[(0, 18, 0)], None);
        }
    }
}

#[test]
fn of_003_largest_counts() {
    // "Small max 4,095", "Large max 1,073,741,823", "Big max: 16,777,215".
    let full = format!("-J__{}", "1AAK".repeat(4095));
    rows(&full, &[(0, 16_384, 0)], &[], None);
    let full = format!("4B__{}", "AAAA".repeat(4095));
    rows(&full, &[(0, 16_384, 0)], &[], None);
    for header in ["--J_____", "7AAB____", "--c_____"] {
        rows(header, &[], &[], Some((0, 4)));
    }
}

#[test]
fn of_003_reserved_and_left_out() {
    // `-` + [0-9] and `_` "reserved"; selectors 2 and 3 have no codes in the
    // master table; grams are left out by 01; `-S#####` is a typing error for
    // `--S#####`: its fifth character on is no part of the header.
    let unknown = [
        "-0AA", "-1AA", "-9AA", "_AAA", "2AAA", "3AAA", "0PAA", "0QAA", "0RAA", "0SAA", "bAAA",
        "zAAA", "4GAA", "7AAG", "-dAA", "--dA", "---A", "1AAQ",
    ];
    for stream in unknown {
        rows(stream, &[], &[], Some((0, 6)));
    }
    rows("-SABMAAB", &[(0, 8, 0)], &[], None);
}

#[test]
fn of_003_indexed_codes_in_the_master_table() {
    // The indexed table is for `-K` and `-L` alone: elsewhere its codes are read
    // by the master table. `2A####` and `3A######` are unknown there.
    rows("2AAAAAAA", &[], &[], Some((0, 6)));
    rows("3AAAAAAA", &[], &[], Some((0, 6)));
    rows("-JAC2AAAAAAA", &[(0, 12, 6)], &[(0, 6, 4)], None);
    // Within, they pass a group of two units.
    rows("-KAC2AAAAAAA", &[(0, 12, 4)], &[(0, 4, 4)], None);
}

/// 003's rows: code, digits of index and of ondex, characters.
const INDEXED_OF_003: [(&str, usize, usize, usize); 12] = [
    ("A", 1, 0, 88),
    ("B", 1, 0, 88),
    ("C", 1, 0, 88),
    ("D", 1, 0, 88),
    ("0A", 1, 1, 156),
    ("0B", 1, 1, 156),
    ("2A", 2, 2, 92),
    ("2B", 2, 2, 92),
    ("2C", 2, 2, 92),
    ("2D", 2, 2, 92),
    ("3A", 3, 3, 160),
    ("3B", 3, 3, 160),
];

#[test]
fn of_003_each_indexed_code_in_its_group() {
    for (code, index, ondex, full) in INDEXED_OF_003 {
        // Every digit `_` but those that must be zero; the value all zero.
        let current = ["0B", "2B", "2D", "3B"].contains(&code);
        let digits = |width: usize, digit: &str| digit.repeat(width);
        let free = if current { "A" } else { "_" };
        let head = format!("{code}{}{}", digits(index, "_"), digits(ondex, free));
        let item = format!("{head}{}", "A".repeat(full - head.len()));
        for letter in ['K', 'L'] {
            let stream = around(letter, 1, &item);
            let size = stream.len();
            rows(&stream, &[(0, size, 0)], &[], None);
            let bytes = binary(&stream);
            rows_of(&bytes, Form::Binary, &[(0, size / 4 * 3, 0)], &[], None);
            // Two of them, and a stranger in the last character of the second.
            let two = around(letter, 1, &format!("{item}{item}"));
            rows(&two, &[(0, size + full, 0)], &[], None);
            let strange = format!("{}=", &two[..two.len() - 1]);
            let place = two.len() - 1;
            let items = [(0, size + full, 19)];
            rows(&strange, &items, &[(0, 19, place)], None);
        }
        let (_, last) = walked(&around('K', 1, &item));
        assert_eq!(last, Found::End);
    }
}

// Examples of 002.

#[test]
fn of_002_short_numbers() {
    // ("M", 0x0000) "MAAA" 0x300000, ("M", 0x0001) "MAAB" 0x300001,
    // ("M", 0xffff) "MP__" 0x30ffff.
    for (raw, text, bytes) in SHORTS_OF_002 {
        reads(text, "M", "", raw);
        assert_eq!(binary(text), hex(bytes));
        let mut out = [0; 4];
        let size = write(
            Named::Fixed(b"M"),
            &Tag::NONE,
            &hex(raw),
            Form::Text,
            &mut out,
        );
        assert_eq!((size, &out[..]), (Ok(4), text.as_bytes()));
    }
}

// Examples of 001.

#[test]
fn of_001_sad_paths() {
    for (path, code, item) in SAD_PATHS {
        rows(item, &[(0, item.len(), 0)], &[], None);
        reads_text(item, code, path);
        assert_eq!(written(path, false, Form::Text), Ok(item.into()));
        assert_eq!(written(path, false, Form::Binary), Ok(binary(item)));
    }
}

#[test]
fn of_001_post_padded_primitives() {
    for item in POST_PADDED_OF_001 {
        rows(item, &[(0, item.len(), 8)], &[(0, 8, 0)], None);
        let bytes = binary(item);
        let size = bytes.len();
        rows_of(&bytes, Form::Binary, &[(0, size, 8)], &[(0, 8, 0)], None);
    }
}

#[test]
fn of_001_digests_that_are_accepted() {
    // Second characters `B` and `I` are below `Q`.
    for digest in DIGESTS_OF_001 {
        rows(digest, &[(0, 44, 0)], &[], None);
        let found = read_text(digest.as_bytes(), 0, &mut [0; 32]).unwrap();
        assert_eq!((found.code.name(), found.raw), ("Blake3-256 Digest", 32));
    }
}

#[test]
fn of_001_digest_with_43_characters() {
    let short = "EymRy7xMwsxUelUauaXtMxTfPAMPAI6FkekwlOjkggt";
    assert_eq!(short.len(), 43);
    rows(short, &[], &[], Some((0, 4)));
}

const SIG_0: &str =
    "AA5267UlFg1jHee4Dauht77SzGl8WUC_0oimYG5If3SdIOSzWM8Qs9SFajAilQcozXJVnbkY5stG_K4NbKdNB4AQ";
const SIG_1: &str =
    "ABBgeqntZW3Gu4HL0h3odYz6LaZ_SMfmITL-Btoq_7OZFe3L16jmOe49Ur108wH7mnBaq2E_0U0N0c5vgrJtDpAQ";
const SIG_2: &str =
    "ACTD7NDX93ZGTkZBBuSeSGsAQ7u0hngpNTZTK_Um7rUZGnLRNJvo5oOnnC1J2iBQHuxoq8PyjdT3BHS2LiPrs2Cg";

#[test]
fn of_001_indexed_signatures_by_the_master_table() {
    // `A` is a seed of 44 characters there. Behind it stand `IOSz` (I, and O
    // is 14: no pad bit), `Fe3L` and `GnLR` (e is 30, n is 39: pad bits).
    rows(SIG_0, &[(0, 44, 0), (44, 44, 0)], &[], None);
    rows(SIG_1, &[(0, 44, 0), (44, 44, 8)], &[(1, 8, 44)], None);
    rows(SIG_2, &[(0, 44, 0), (44, 44, 8)], &[(1, 8, 44)], None);
    // In 003 they belong into a `-K`, counted in units: 3 x 22 = 66 = `BC`. They
    // are from the time of post-padding: `5` is 57 and `T` 19, whose high four
    // bits are not zero; of the three only `ABBg..` happens to have zero pad bits.
    let group = format!("-KBC{SIG_0}{SIG_1}{SIG_2}");
    rows(&group, &[(0, 268, 8)], &[(0, 8, 4)], None);
    for (signature, number) in [(SIG_0, 8), (SIG_1, 0), (SIG_2, 8)] {
        let group = format!("-KAW{signature}");
        let refusal = (0, number, 4);
        let refusals = if number == 0 { vec![] } else { vec![refusal] };
        rows(&group, &[(0, 92, number)], &refusals, None);
    }
    let found = oracle::indexed::read_text(SIG_1.as_bytes(), 0, &mut [0; 64]).unwrap();
    assert_eq!((found.row.code, found.index, found.ondex), ("A", 1, 0));
    assert_eq!((found.size, found.raw), (88, 64));
}

const PREFIX: &str = "E_T2_p83_gRSuAYvGhqV3S0JzYEF2dIa-OCPLbIhBO7Y";
const EVENT: &str = "EwmQtlcszNoEIDfqD-Zih3N6o5B3humRKvBBln2juTEM";

#[test]
fn of_001_sequence_number() {
    // `-EAB` holds one unit; `0A` passes it. Then `AAAA`, a seed with only 20
    // of its 44 characters.
    rows(NUMBER, &[(0, 8, 4)], &[(0, 4, 4)], Some((8, 4)));
    reads(&NUMBER[4..], "0A", "", &format!("{}01", "00".repeat(15)));
    // With the count that 003 wants it is accepted: 24 characters, 6 units.
    let counted = NUMBER.replace("-EAB", "-EAG");
    rows(&counted, &[(0, 28, 0)], &[], None);
}

#[test]
fn of_001_complex_nested_group() {
    // "Examples": the whole stream, blanks and comments taken out. `-FAB` is
    // one unit of the prefix; `_p83` ends the report.
    let stream = format!("-FAB{PREFIX}{NUMBER}{EVENT}-AAD{SIG_0}{SIG_1}{SIG_2}");
    rows(&stream, &[(0, 8, 4)], &[(0, 4, 4)], Some((8, 6)));
    let bytes = binary(&stream);
    let items = &[(0, 6, 4)];
    rows_of(&bytes, Form::Binary, items, &[(0, 4, 3)], Some((6, 6)));
    // As annotated there, with five blanks and `#`: four blanks are the
    // group's unit, 5 at the first of them; ` #` is a partial unit.
    rows("-FAB     #", &[(0, 8, 5)], &[(0, 5, 4)], Some((8, 4)));
}

#[test]
fn of_001_controller_signatures_counted_by_items() {
    // `-AAD`: three units, the seed passes them. Then `Hee4` (e is 30: 8),
    // `ajAi` (j is 35: 8; it runs on into the next signature), `u4HL`: 6.
    let stream = format!("-AAD{SIG_0}{SIG_1}{SIG_2}");
    let items = &[(0, 16, 4), (16, 44, 8), (60, 44, 8)];
    let refusals = &[(0, 4, 4), (1, 8, 16), (2, 8, 60)];
    rows(&stream, items, refusals, Some((104, 6)));
}

#[test]
fn of_001_transferable_path_signature() {
    // "SAD Path Signature Group": `-JAB` holds `6AAE`, which passes it. Then
    // `AAA-a-credential-FABE_T2...` reads as a seed of 44 characters, no pad
    // bit set, and 44 behind 8 stands `zYEF`: 6.
    let group = format!("-FAB{PREFIX}{NUMBER}{EVENT}-AAD{SIG_0}{SIG_1}{SIG_2}");
    let stream = format!("-JAB6AAEAAA-a-credential{group}");
    let items = &[(0, 8, 4), (8, 44, 0)];
    rows(&stream, items, &[(0, 4, 4)], Some((52, 6)));
}

#[test]
fn of_001_nontransferable_path_signature() {
    // `-JAB` holds `5AAB`, which passes it; then `AA-a...` a seed; then `9G93`.
    let key = "BmMfUwIOywRkyc5GyQXfgDA4UOAMvjvnXcaK9G939ArM";
    let signature = POST_PADDED_OF_001[16];
    let stream = format!("-JAB5AABAA-a-CAB{key}{signature}");
    let items = &[(0, 8, 4), (8, 44, 0)];
    rows(&stream, items, &[(0, 4, 4)], Some((52, 6)));
    // `-CAB` by itself: the key passes its group. At 8 stands `UwIO`: `U`
    // takes 24 characters, w is 48: 8. At 32 stands `vjvn`: 6.
    let stream = format!("-CAB{key}");
    let items = &[(0, 8, 4), (8, 24, 8)];
    let refusals = &[(0, 4, 4), (1, 8, 8)];
    rows(&stream, items, refusals, Some((32, 6)));
}

#[test]
fn of_001_path_groups() {
    // "SAD Path Groups": in 003 `-K` holds indexed signatures, here one unit
    // that is none: 6. Then `AAA-` and `AA-a` are seeds with 16 (19 with the dots) characters of 44.
    for stream in [
        "-KAB6AABAAA--JAB5AABAA-a",
        "-KAB6AABAAA--JAB5AABAA-a...",
        "-KAB5AABAA-a-JAB5AABAA-a",
        "-KAB5AABAA-a-JAB5AABAA-a...",
    ] {
        rows(stream, &[(0, 8, 6)], &[(0, 6, 4)], Some((8, 4)));
    }
}

#[test]
fn of_001_codes_that_003_changed() {
    // 001 has `-0A#####` for large groups: reserved in 003.
    rows("-0AAAAAA", &[], &[], Some((0, 6)));
    // 001's `Z` is a blinding factor of 44; 003's a tag of 12.
    rows("ZAAAAAAAAAAA", &[(0, 12, 0)], &[], None);
    // 001's `1AAN` is 8 and `1AAO` is 12; 003 has 12 and 4.
    rows("1AANAAAA", &[], &[], Some((0, 4)));
    rows("1AAOMAAB", &[(0, 4, 0), (4, 4, 0)], &[], None);
    // 001's indexed `-J` and `-K`; 003's `-J` is a list, `-K` of signatures.
    rows("-JAB_AAA", &[(0, 8, 6)], &[(0, 6, 4)], None);
    rows("-KAB_AAA", &[(0, 8, 6)], &[(0, 6, 4)], None);
}

#[test]
fn of_001_genus_in_a_list_has_no_override() {
    // "suppose some application uses a list ... with a genus/version code as
    // its first element": 003's list is `-J`.
    rows("-JAC-_AAABAA", &[(0, 12, 0)], &[], None);
    for letter in ["A", "B", "C"] {
        let stream = format!("-{letter}AC-_AAABAA");
        rows(&stream, &[(0, 12, 7)], &[(0, 7, 4)], None);
    }
    for letter in ["D", "E", "F", "G", "H", "I", "M", "Z", "a", "c"] {
        let stream = format!("-{letter}AC-_AAABAA");
        rows(&stream, &[(0, 12, 0)], &[], None);
    }
    // Nothing but indexed items stands in these.
    for letter in ["K", "L"] {
        let stream = format!("-{letter}AC-_AAABAA");
        rows(&stream, &[(0, 12, 6)], &[(0, 6, 4)], None);
    }
}

#[test]
fn of_001_what_is_no_cesr() {
    // "Version String field", JSON and the field strings: left out by 01.
    rows("KERICAAJSONAAQB.", &[], &[], Some((0, 4)));
    rows("ACDC10JSON00011c_", &[], &[], Some((0, 4)));
    rows("{\"said\":\"####", &[], &[], Some((0, 5)));
    rows("field0______######", &[], &[], Some((0, 6)));
    // The nonces of "Signing SAIDs": `sKHt` and `_XKN` are unknown; `XiSo` is
    // a tag, `VDNv` has a lead byte 33 (hexadecimal), `qV8l` is unknown.
    rows(
        "sKHtYSiCdlibuLDS2PTJg1AZXtPhaySZ9O3DoKrRXWY",
        &[],
        &[],
        Some((0, 6)),
    );
    rows(
        "_XKNVntbcIjp12DmsAGhv-R7JRwuzjD6KCHC7Fw3zvU",
        &[],
        &[],
        Some((0, 6)),
    );
    let nonce = "XiSoVDNvqV8ldofPyTVqQ-EtVPlkIIQTln9Ai0yI05M";
    let items = &[(0, 4, 0), (4, 4, 8)];
    rows(nonce, items, &[(1, 8, 4)], Some((8, 6)));
}

// The walk and the writer over the deck.

/// Offsets, sizes, depths and codes that a walk yields, and what ends it.
fn walked(stream: &str) -> (Vec<(usize, usize, usize, String)>, Found) {
    let mut items = Vec::new();
    let mut state = Walk::start();
    loop {
        match step(state, stream.as_bytes(), Form::Text) {
            (
                next,
                Found::Item {
                    offset,
                    size,
                    depth,
                    code,
                },
            ) => {
                items.push((offset, size, depth, code.characters()));
                state = next;
            }
            (same, last) => {
                assert_eq!(same, state);
                return (items, last);
            }
        }
    }
}

#[test]
fn walk_over_nested_groups() {
    let signature = format!("A_{}", "A".repeat(86));
    let (items, last) = walked(&format!("-AAa-KAW{signature}-JABMAABXABC-AAA"));
    let item = |offset, size, depth, code: &str| (offset, size, depth, code.to_string());
    let expected = [
        item(0, 108, 0, "-A"),
        item(4, 92, 1, "-K"),
        item(8, 88, 2, "A"),
        item(96, 8, 1, "-J"),
        item(100, 4, 2, "M"),
        item(104, 4, 1, "X"),
        item(108, 4, 0, "-A"),
    ];
    assert_eq!((&items[..], last), (&expected[..], Found::End));
    // 02 h: a large group is walked into where the small code has no digits
    // for it, and is not yielded where it has.
    let (items, last) = walked(&format!("--JAABAA{}", "1AAK".repeat(4096)));
    assert_eq!((items.len(), last), (4097, Found::End));
    assert_eq!(
        items[..2],
        [item(0, 16_392, 0, "--J"), item(8, 4, 1, "1AAK")]
    );
    let (items, last) = walked("-AAC--JAAAAA");
    let (number, place) = (18, 4);
    assert_eq!(items, [item(0, 12, 0, "-A")]);
    assert_eq!(last, Found::Refused { number, place });
}

#[test]
fn walk_stops_where_the_report_goes_on() {
    // D41, over 01's long deck stream.
    let (items, last) = walked("-AAB0AAAMAAB");
    assert_eq!(items, [(0, 8, 0, "-A".to_string())]);
    let (number, place) = (4, 4);
    assert_eq!(last, Found::Refused { number, place });
}

#[test]
fn walk_into_64_groups() {
    let (items, last) = walked(&nested('A', 64));
    assert_eq!((items.len(), items[63].2, last), (64, 63, Found::End));
    let (items, last) = walked(&nested('A', 65));
    let (number, place) = (11, 256);
    assert_eq!((items.len(), last), (64, Found::Refused { number, place }));
}

#[test]
fn a_second_item_goes_behind_the_first() {
    // 01, and D33: its room is what is left.
    let mut out = [b'?'; 10];
    let number = Named::Fixed(b"M");
    let first = write(number, &Tag::NONE, &[0, 1], Form::Text, &mut out).unwrap();
    let tag = Tag::of(b"A");
    let second = Named::Fixed(b"0J");
    let size = write(second, &tag, &[], Form::Text, &mut out[first..]).unwrap();
    assert_eq!((size, &out), (4, b"MAAB0J_A??"));
    let refused = write(number, &Tag::NONE, &[0, 1], Form::Text, &mut out[8..]);
    assert_eq!(refused.map_err(|r| (r.number, r.place)), Err((3, 0)));
    assert_eq!(&out, b"MAAB0J_A??");
}

#[test]
fn conversion_refuses_before_it_writes() {
    let mut out = [9; 6];
    for (stream, number) in [(b"MAABMA!=", 5), (b"MAABMA=!", 19)] {
        let refused = to_binary(stream, &mut out);
        assert_eq!(refused.map_err(|r| (r.number, r.place)), Err((number, 6)));
        assert_eq!(out, [9; 6]);
    }
}

#[test]
fn names_are_003s() {
    for (unit, name) in [
        (*b"EAAA", "Blake3-256 Digest"),
        (*b"0BAA", "Ed25519 signature"),
        (*b"1AAG", "DateTime B64 encoded 32-char ISO-8601"),
        (*b"-ZAA", "ESSR/TSP Payload"),
        (
            *b"--XA",
            "Transferable indexed sig group (pre+snu+dig+sigs)",
        ),
        (*b"7AAF", "HPKE Base cipher of QB2 plaintext"),
    ] {
        assert_eq!(registry::identify(unit).unwrap().name(), name);
    }
}
