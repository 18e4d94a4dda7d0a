//! `cesr show`: where an offset stands, and what stands there.

mod common;

use common::{fed, Ran};

fn show(at: &str, stream: &str) -> Ran {
    fed(&["show", at, "--form", "text"], stream.as_bytes())
}

/// 02 a: an item of a signature group is shown by its own table.
#[test]
fn signatures_are_shown_by_their_table() {
    let stream = format!("MAAB-KAt2ABBAC{}BC{}", "A".repeat(86), "A".repeat(86));
    let told = format!(
        "stream   standard input: text
offset   8
code     2A
name     Ed25519 indexed sig, big dual
size     92 characters
index    65
ondex    2
raw      {zeros}
         {zeros}
length   64 bytes
verdict  accepted
",
        zeros = "0".repeat(64)
    );
    let ran = show("8", &stream);
    assert_eq!((ran.status, ran.text()), (0, told));
    let ran = show("100", &stream);
    assert!(ran
        .text()
        .contains("name     Ed25519 indexed sig, current only\n"));
    assert!(ran.text().contains("index    2\nondex    0\n"));
    let binary = fed(&["convert", "--to", "binary"], stream.as_bytes()).out;
    let ran = fed(&["show", "75", "--form", "binary"], &binary);
    assert!(ran
        .text()
        .contains("size     66 bytes\nindex    2\nondex    0\n"));
    // The group itself, with what stands in it.
    let ran = show("4", &stream);
    let said = "inside          8  2A Ed25519 indexed sig, big dual, 92 characters
inside        100  B Ed25519 indexed sig, current only, 88 characters
verdict  accepted
";
    assert!(ran.text().contains(said), "{}", ran.text());
}

/// A signature that is refused, by its own table and no further than its group.
#[test]
fn refused_signatures_are_shown_by_their_table() {
    // By the master table it would be a salt of 24 characters.
    let strange = format!("-KAn0BAB{}", "A".repeat(152));
    let ran = show("4", &strange);
    let said = "name     Ed448 indexed sig, current only\nverdict  refused 15 at 4, ";
    assert!(ran.text().contains(said), "{}", ran.text());
    assert_eq!(ran.status, 1);
    let short = format!("-KABAAAA{}", "A".repeat(84));
    let ran = show("4", &short);
    let said = "asks for 88 characters, 4 characters are left\n";
    assert!(
        ran.text().contains("verdict  refused 4 at 4, "),
        "{}",
        ran.text()
    );
    assert!(ran.text().contains(said), "{}", ran.text());
    // A key of the master table is half an item here, and a digest none.
    let key = format!("-KAL{}", "D".repeat(44));
    assert!(show("4", &key).text().contains("refused 4 at 4"));
    let digest = format!("-KALE{}", "A".repeat(43));
    assert!(show("4", &digest).text().contains("refused 6 at 4"));
    // Behind a refused one too.
    let two = format!("-KAsAAE{}BC{}", "A".repeat(85), "A".repeat(86));
    let ran = show("92", &two);
    let said = "start    of no item that is known: the walk stops at 4, refused 8 at 4
code     B
name     Ed25519 indexed sig, current only
";
    assert!(ran.text().contains(said), "{}", ran.text());
}

/// An offset, its stream, and what is said behind `start    of `.
type Said<'s> = (&'s str, &'s str, &'s str);

fn said_of(cases: &[Said]) {
    for (at, stream, said) in cases {
        let ran = show(at, stream);
        let line = ran.text().lines().nth(2).unwrap_or_default().to_string();
        let told = line.strip_prefix("start    of ").unwrap_or_default();
        assert_eq!(told, *said, "{at} {stream}\n{}", ran.text());
        let none = ran
            .text()
            .contains("verdict  none: no item is known to start here; as one it is ");
        assert_eq!(none, !said.is_empty(), "{}", ran.text());
        assert!(ran.status == 1 || !none, "{}", ran.text());
    }
}

/// 02 a: an offset that is no item's start is said to be none, with what it lies
/// in: an item, accepted or refused, or the remainder.
#[rustfmt::skip]
const ELSEWHERE: [Said; 11] = [
    ("2", "MAAB", "no item: within M Short number 2-byte b2 from 0"),
    ("2", "MQAA", "no item: within M Short number 2-byte b2 from 0"),
    ("6", "MAABMAAB", "no item: within M Short number 2-byte b2 from 4"),
    ("2", "-AABMAAB", "no item: within -A Generic pipeline group from 0"),
    ("8", "-AADMAAB0HAAAAAA", ""),
    ("10", "-AADMAAB0HAAAAAA", "no item: within 0H Long number 4-byte b2 from 8"),
    ("12", "-AADMAAB0HEAAAAA", "no item: within 0H Long number 4-byte b2 from 8"),
    ("8", "-AACMQAAMAAB", "no item that is known: the walk stops at 4, refused 8 at 4"),
    ("12", "--AAAAACMAABMAAB", "no item that is known: the walk stops at 0, refused 18 at 0"),
    ("4", "MAAB_AAAMAAB", ""),
    ("8", "MAAB_AAAMAAB", "no item: in the remainder from 4"),
];

#[test]
fn an_offset_that_is_no_items_start_is_said_to_be_none() {
    said_of(&ELSEWHERE);
}

/// The same in a signature group. What stands there is read by its table, also
/// where it would be an item.
#[test]
#[rustfmt::skip]
fn an_offset_in_a_signature_is_said_to_be_none() {
    let signed = format!("MAAB-KAt2ABBAC{}BC{}", "A".repeat(86), "A".repeat(86));
    let strange = format!("-KAWAB{}!{}", "A".repeat(40), "A".repeat(45));
    said_of(&[
        ("4", &signed, ""),
        ("6", &signed, "no item: within -K Indexed controller signature group from 4"),
        ("8", &signed, ""),
        ("12", &signed, "no item: within 2A Ed25519 indexed sig, big dual from 8"),
        ("180", &signed, "no item: within B Ed25519 indexed sig, current only from 100"),
        ("4", &strange, ""),
        ("46", &strange, "no item: within A Ed25519 indexed sig, both same from 4"),
    ]);
    let ran = show("12", &signed);
    let said = "code     A\nname     Ed25519 indexed sig, both same\n";
    assert!(ran.text().contains(said), "{}", ran.text());
    assert!(ran.text().ends_with("; as one it is accepted\n"), "{}", ran.text());
    let ran = show("46", &strange);
    assert!(ran.text().contains("; as one it is refused 5 at 46, "), "{}", ran.text());
}
