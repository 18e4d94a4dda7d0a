//! `--form mixed`: streams that change form at top level, by every output; what
//! is said of JSON bodies, what is detected, and what is refused in words.

mod common;
#[path = "common/files.rs"]
mod files;

use common::{fed, python, run, sample, within, Folder};
use files::{beside, reads, LOG, SUITE};
use std::fs;

const MIXED: &str = "samples/mixed.cesr";

/// Three items, one of each form, the second refused 8 at 28, then a primitive,
/// which starts no item: 17 from 35.
fn faults() -> Vec<u8> {
    let mut stream = br#"{"v":"KERI10JSON000018_""#.to_vec();
    stream.extend(b"-AABMQAA");
    stream.extend([0xF8, 0, 0]);
    stream.extend(b"MAAB");
    stream
}

#[test]
fn a_brace_is_told_as_mixed_and_said() {
    let ran = run(&["judge", MIXED]);
    let told = "passed  samples/mixed.cesr: 4 items, 4 accepted, 0 refused, no remainder\n        \
                mixed (detected from the first bytes), 587 bytes\n        \
                the bodies of 2 JSON items not judged\n";
    assert_eq!((ran.status, ran.text().as_str()), (0, told));
    let ran = run(&["judge", "--form", "mixed", MIXED]);
    assert_eq!(
        ran.text(),
        told.replace(" (detected from the first bytes)", "")
    );
    // One that begins with CESR is mixed only where somebody says so.
    let stream = b"-AABMAAB{\"v\":\"KERI10JSON000017_";
    assert_eq!(fed(&["judge", "--form=mixed"], stream).status, 0);
    let ran = fed(&["judge"], stream);
    assert_eq!(ran.status, 1);
    let hint = "with { JSON may begin: --form mixed judges JSON and CESR by turns";
    assert!(ran.text().contains(hint), "{}", ran.text());
    let binary = b"\xF8\x00\x00{\"v\":\"KERI10JSON000017_";
    assert!(fed(&["judge"], binary).text().contains(hint));
    assert_eq!(fed(&["judge", "--form", "mixed"], binary).status, 0);
    let short = fed(&["judge"], b"-AABMAAB{}").text();
    assert!(
        short.contains(hint) && short.contains("asks for 4 characters, 2 characters are left"),
        "{short}"
    );
    // Elsewhere it is not said.
    assert!(!fed(&["judge"], b"-AABMAAB[").text().contains(hint));
}

#[test]
fn every_item_with_its_form() {
    let ran = run(&["judge", "--all", MIXED]);
    let table = "
  item   offset     size  verdict     form    code  name
     0        0      154  accepted    JSON    KERI  version 10, its body not judged
     1      154      184  accepted    text    -K    Indexed controller signature group
     2      338      111  accepted    JSON    ACDC  version 10, its body not judged
     3      449      138  accepted    binary  -K    Indexed controller signature group
";
    assert!(ran.text().ends_with(table), "{}", ran.text());
}

#[test]
fn what_is_refused_with_its_bytes() {
    let ran = fed(&["judge"], &faults());
    let told = r#"failed  standard input: 3 items, 2 accepted, 1 refused, remainder 17 from 35
        mixed (detected from the first bytes), 39 bytes
        the body of 1 JSON item not judged

item 1: refused 8 at 28, pad bit or lead byte not zero
        text -A Generic pipeline group, 8 bytes from 24
      24  -AABMQAA...MAAB
          ~~~~^~~~
        usually a value padded behind its end, as older drafts had it

remainder 17 from 35: mixed stream: first byte not `-`, F8 to FB or `{`, or a JSON header that is malformed or states a length below 23
        4 bytes not judged
      35  MAAB
          ^
        the byte at 35 is 4D hexadecimal
        usually a value outside a group, a line feed, or JSON without a version 1 string
"#;
    assert_eq!((ran.status, ran.text().as_str()), (1, told));
}

/// 02's order at `{`, by what is said of each.
#[test]
fn what_is_wrong_with_json() {
    let head = |length: &str| format!(r#"{{"v":"KERI10JSON{length}_"#);
    for (stream, number, said) in [
        (
            head("000017")[..22].to_string(),
            4,
            "asks for 23 bytes, 22 bytes are left",
        ),
        ("{".repeat(22), 4, "asks for 23 bytes, 22 bytes are left"),
        (
            "{".repeat(23),
            17,
            "the byte at 1 is 7B hexadecimal, not of {\"v\":\"",
        ),
        (
            head("00001A"),
            17,
            "the byte at 21 is 41 hexadecimal, not a lowercase hexadecimal digit",
        ),
        (
            head("000017").replace("JSON", "MGPK"),
            17,
            "the byte at 12 is 4D hexadecimal, not of JSON",
        ),
        (
            head("000016"),
            17,
            "the length that is stated, 22 bytes, is less than the header's 23",
        ),
        (head("000018"), 4, "asks for 24 bytes, 23 bytes are left"),
        (
            format!("{}\n", head("000017")),
            17,
            "the byte at 23 is 0A hexadecimal, a line feed",
        ),
    ] {
        let ran = fed(&["judge", "--form", "mixed"], stream.as_bytes());
        let text = ran.text();
        assert_eq!(ran.status, 1, "{text}");
        assert!(
            text.contains(&format!("remainder {number} from ")),
            "{text}"
        );
        assert!(text.contains(said), "{text}");
    }
    assert_eq!(fed(&["judge"], head("000017").as_bytes()).status, 0);
    // A stranger in a text's header is its own number, at its own place.
    let ran = fed(&["judge", "--form", "mixed"], b"\xF8\x00\x00-AA!");
    assert!(ran.text().contains("remainder 5 from 3"), "{}", ran.text());
    assert!(
        ran.text().contains("the byte at 6 is 21 hexadecimal"),
        "{}",
        ran.text()
    );
}

#[test]
fn objects_for_machines() {
    let ran = fed(&["judge", "--json", "--all"], &faults());
    let script = "
import json, sys
told = json.loads(sys.stdin.read())
assert (told['form'], told['detected'], told['length']) == ('mixed', True, 39), told
assert (told['items'], told['accepted'], told['refused']) == (3, 2, 1), told
assert told['unjudged_json_bodies'] == 1, told
json_row, text, binary = told['rows']
assert json_row == {'item': 0, 'offset': 0, 'size': 24, 'form': 'json', 'protocol': 'KERI', 'version': '10', 'verdict': 0}, json_row
assert (text['form'], text['code'], text['verdict']) == ('text', '-A', 8), text
assert (binary['form'], binary['code'], binary['size']) == ('binary', '-A', 3), binary
refused, = told['refusals']
assert (refused['item'], refused['form'], refused['number'], refused['place']) == (1, 'text', 8, 28), refused
rest = told['remainder']
assert (rest['offset'], rest['length'], rest['number'], rest['place']) == (35, 4, 17, 35), rest
";
    assert_eq!(python(script, &ran.out), "");
    // A text has no such key, and its rows no form.
    let ran = run(&["judge", "--json", "--all", "samples/clean.cesr"]);
    assert!(!ran.text().contains("unjudged") && !ran.text().contains("\"form\":\"text\",\"code\""));
}

#[test]
fn the_report_has_rows_of_ten_bytes() {
    let ran = fed(&["judge", "--report"], &faults());
    #[rustfmt::skip]
    let told = [
        0, 0, 0, 3,
        0, 0, 0, 0, 0, 0, 0, 24, 0, 2,
        0, 0, 0, 24, 0, 0, 0, 8, 8, 0,
        0, 0, 0, 32, 0, 0, 0, 3, 0, 1,
        0, 0, 0, 1, 0, 0, 0, 1, 8, 0, 0, 0, 28,
        0, 0, 0, 1, 0, 0, 0, 35, 17,
    ];
    assert_eq!((ran.status, &ran.out[..]), (1, &told[..]));
}

/// Each of them says that bodies were not judged.
#[test]
fn files_beside_the_lines() {
    let (ran, page) = beside("--html", &[], &faults());
    assert_eq!(ran.status, 1);
    let script = "
for said in (
    '3 items, 2 accepted, 1 refused, remainder 17 from 35; the body of 1 JSON item not judged',
    'Not judged the body of 1 JSON item', 'JSON, its body not judged',
    'mixed (detected from the first bytes)', 'Item 1: refused 8 at 28',
    'text -A Generic pipeline group, 8 bytes from 24', 'Remainder 17 from 35',
    'No item of a mixed stream starts like this.', 'the byte at 35 is 4D hexadecimal',
): assert said in text, (said, text)
assert 'Refused in it' in text.split('Remainder 17')[0] and 'Refused in it' not in text.split('Remainder 17')[1], text
assert [rect['class'] for rect in page.rects][:2] == ['unjudged', 'accepted'], page.rects
assert any('KERI version 10, its body not judged' in title for title in page.titles), page.titles
";
    assert_eq!(reads(&page, script), "");
    let (_, suite) = beside("--junit", &[], &faults());
    let cases = python(SUITE, &suite);
    assert!(
        cases.contains("the body of 1 JSON item not judged"),
        "{cases}"
    );
    let (_, log) = beside("--sarif", &[], &faults());
    let script = format!(
        "{LOG}
place = run['artifacts'][0]['properties']
assert (place['form'], place['unjudgedJsonBodies']) == ('mixed', 1), place
assert [result['ruleId'] for result in run['results']] == ['cesr-8', 'cesr-17'], run['results']
assert 'the body of 1 JSON item not judged' in run['properties']['summary'], run['properties']
"
    );
    assert_eq!(python(&script, &log), "");
}

#[test]
fn many_streams_and_their_total() {
    let ran = run(&["judge", MIXED, "samples/clean.cesr"]);
    let told = "passed  samples/mixed.cesr: mixed (detected), 4 items, 4 accepted, 0 refused, no remainder; \
                the bodies of 2 JSON items not judged\n\
                passed  samples/clean.cesr: text (detected), 5 items, 5 accepted, 0 refused, no remainder\n\
                2 streams: 2 passed, 0 failed, 0 not judged; 9 items, 9 accepted, 0 refused, 0 remainders; \
                the bodies of 2 JSON items not judged\n";
    assert_eq!((ran.status, ran.text().as_str()), (0, told));
}

/// A manifest lists a mixed stream as it is to be judged.
#[test]
fn a_manifest_of_mixed_streams() {
    let folder = Folder::new();
    folder.file("one", &sample("mixed.cesr"));
    folder.file("two", b"-AABMAAB\xF8\x00\x00");
    let made = "cesr manifest one > LIST && cesr manifest --form mixed two >> LIST && cut -d ' ' -f 2- LIST";
    let ran = within(&folder, made);
    assert_eq!(
        (ran.status, ran.text().as_str()),
        (0, "587 mixed one\n11 mixed two\n")
    );
    let ran = within(&folder, "cesr judge --manifest LIST");
    assert_eq!(ran.status, 0, "{}", ran.text());
    assert!(
        ran.text().contains("two: mixed, 2 items, 2 accepted"),
        "{}",
        ran.text()
    );
    let ran = within(&folder, "cesr judge --form text --manifest LIST");
    assert_eq!(ran.status, 2);
    assert!(ran
        .err
        .contains("other than listed: text is asked for, mixed is listed"));
}

#[test]
fn an_item_of_a_mixed_stream_is_shown() {
    for (at, status, said) in [
        (0, 0, "item     0: JSON, 154 bytes from 0\nprotocol KERI\nversion  10\nlength   154 bytes\nverdict  accepted, its body not judged\n"),
        (5, 1, "start    of no item: within JSON from 0\nverdict  none: no item is known to start here\n"),
        (154, 0, "item     1: text, 184 bytes from 154\ncode     -K\n"),
        (158, 0, "item     1: text, 184 bytes from 154\ncode     A\nname     Ed25519 indexed sig, both same\nsize     88 characters\nindex    0\n"),
        (449, 0, "inside        452  A Ed25519 indexed sig, both same, 66 bytes\n"),
        (452, 0, "item     3: binary, 138 bytes from 449\ncode     A\n"),
        (600, 1, "verdict  refused 4 at 600"),
    ] {
        let ran = run(&["show", &at.to_string(), MIXED]);
        assert_eq!(ran.status, status, "{at}: {}", ran.text());
        assert!(ran.text().contains(said), "{at}: {}", ran.text());
    }
    for (stream, at, said) in [
        (faults(), 28, "refused 8 at 28"),
        (faults(), 35, "verdict  refused 17 at 35"),
        (
            faults(),
            36,
            "start    of no item: in the remainder from 35\n",
        ),
        (b"-AAA-AA!".to_vec(), 4, "refused 5 at 7"),
    ] {
        let ran = fed(&["show", "--form", "mixed", &at.to_string()], &stream);
        assert_eq!(ran.status, 1);
        assert!(ran.text().contains(said), "{}", ran.text());
    }
}

/// A refused call is said as everywhere: 4,194,304 bytes are judged, one more is
/// refused 1.
#[test]
fn the_limit_is_its_own() {
    let mut stream = br#"{"v":"KERI10JSON400000_"#.to_vec();
    stream.resize(4_194_304, b' ');
    let ran = fed(&["judge"], &stream);
    assert_eq!(ran.status, 0, "{}", ran.text());
    stream.push(b' ');
    let ran = fed(&["judge"], &stream);
    assert_eq!(ran.status, 2);
    assert!(
        ran.err.contains("refused 1 at 0: stream longer than"),
        "{}",
        ran.err
    );
    let folder = Folder::new();
    let long = folder.file("long", &stream);
    let ran = run(&["show", "0", &long]);
    assert_eq!(ran.status, 2);
    assert!(ran.err.contains("refused 1 at 0"), "{}", ran.err);
}

#[test]
fn refused_in_words() {
    for (call, said) in [
        (
            &["judge", "--form", "mixed", "--engine", "second", MIXED][..],
            "--engine goes not with --form mixed: a mixed stream is judged by the first engine alone",
        ),
        (
            &["judge", "--engine=both", "--form=mixed", MIXED],
            "--engine goes not with --form mixed",
        ),
        (&["judge", "--form", "json", MIXED], "a form is text, binary or mixed, not json"),
        (&["convert", "--to", "mixed", MIXED], "a form is text or binary, not mixed"),
        (&["group", "--form", "mixed", "K"], "a form is text or binary, not mixed"),
        (&["write", "M", "--form", "mixed", "--raw", "0001"], "a form is text or binary, not mixed"),
        (&["expect", "--form", "mixed", MIXED], "a form is text or binary, not mixed"),
        (
            &["expect", MIXED],
            "a mixed stream, as it begins with {: compare reads no report of one",
        ),
    ] {
        let ran = run(call);
        assert_eq!((ran.status, ran.out.len()), (2, 0), "{call:?}");
        assert!(ran.err.contains(said), "{}", ran.err);
    }
    assert_eq!(
        run(&["judge", "--engine", "first", "--form", "mixed", MIXED]).status,
        0
    );
    // Detected, it is an error of its own among the others.
    let ran = run(&["judge", "--engine", "both", MIXED, "samples/clean.cesr"]);
    assert_eq!(ran.status, 2);
    let said = "error   samples/mixed.cesr: a mixed stream is judged by the first engine alone: nothing was judged\n";
    assert!(ran.text().starts_with(said), "{}", ran.text());
    assert!(ran.text().contains("\npassed  samples/clean.cesr"));
}

/// `compare` reads no mixed report, and says what it is.
#[test]
fn a_mixed_report_is_not_compared() {
    let folder = Folder::new();
    let report = fed(&["judge", "--report"], &sample("mixed.cesr")).out;
    folder.file("report", &report);
    let list =
        "printf '0\\n0\\n0\\n0\\n' | cesr expect --out expected && cesr compare expected report";
    let ran = within(&folder, list);
    assert_eq!(ran.status, 2);
    assert!(ran.err.contains("report: refused 20 at 0"), "{}", ran.err);
    let said = "it reads as the report of a mixed stream, and compare reads none";
    assert!(ran.err.contains(said), "{}", ran.err);
    // A torn one reads as nothing.
    fs::write(folder.path().join("report"), &report[..30]).expect("a file");
    assert!(!within(&folder, "cesr compare expected report")
        .err
        .contains(said));
}
