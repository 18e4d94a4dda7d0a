//! JSON read by an independent parser, python3's. Without python3 these tests
//! fail: they are not skipped.

mod common;

use common::{expected, fed, python, run, Folder};

/// Each line parsed by itself and written again with sorted keys.
const AGAIN: &str = "
import json, sys
for line in sys.stdin.buffer.read().split(b'\\n')[:-1]:
    print(json.dumps(json.loads(line.decode('utf-8')), sort_keys=True, indent=1))
";

#[test]
fn objects_hold_what_the_report_holds() {
    let ran = run(&["judge", "--json", "--all", "samples/first.cesr"]);
    assert_eq!((ran.status, ran.err.as_str()), (1, ""));
    assert_eq!(python(AGAIN, &ran.out), expected("first.json"));
    let ran = run(&[
        "judge",
        "--json",
        "samples/cut.cesr",
        "samples/clean-binary.cesr",
    ]);
    assert_eq!((ran.status, ran.err.as_str()), (1, ""));
    assert_eq!(python(AGAIN, &ran.out), expected("cut-and-clean.json"));
}

#[test]
fn every_stream_has_a_line_whatever_came_of_it() {
    let folder = Folder::new();
    let empty = folder.file("empty.cesr", b"");
    let names = [
        "gone.cesr",
        "samples",
        &empty,
        "/dev/zero",
        "samples/clean.cesr",
    ];
    let ran = run(&[&["judge", "--json"], &names[..]].concat());
    assert_eq!(ran.status, 2);
    let script = "
import json, sys
for line in sys.stdin:
    told = json.loads(line)
    print(told['outcome'], told.get('error'), told.get('refusal', {}).get('number'))
";
    assert_eq!(
        python(script, &ran.out),
        "error No such file or directory None\nerror Is a directory None\nempty None None\n\
         error None 1\npassed None None\n"
    );
}

/// The guide's table has every key, and no other.
#[test]
fn the_guide_has_every_key() {
    let names = [
        "gone.cesr",
        "/dev/zero",
        "samples/first.cesr",
        "samples/cut.cesr",
    ];
    let call = ["judge", "--json", "--all", "--engine=both"];
    let mut ran = run(&[&call, &names[..]].concat());
    let mixed = run(&["judge", "--json", "--all", "samples/mixed.cesr"]);
    ran.out.extend(mixed.out);
    ran.out
        .extend(run(&["judge", "--json", "--live", "samples/cut.cesr"]).out);
    let script = "
import json, re, sys
used = set()
def look(at):
    for inner in at.values() if isinstance(at, dict) else at if isinstance(at, list) else ():
        look(inner)
    used.update(at if isinstance(at, dict) else ())
for line in sys.stdin:
    look(json.loads(line))
table = open('docs/GUIDE.md').read().split('| Key | Stands where | Holds |')[1].split('\\n\\n')[0]
said = set(re.findall('`([a-z0-9_]+)`', table))
words = {'passed', 'failed', 'empty', 'text', 'binary', 'mixed', 'json'}
print(sorted(used - said), sorted(said - used - words))
";
    assert_eq!(python(script, &ran.out), "[] []\n");
}

/// Names with quotes, control characters and other letters come back whole.
#[test]
fn names_come_back_whole() {
    let folder = Folder::new();
    for name in [
        "a\"b\\c",
        "line\nfeed\ttab",
        "\u{1b}[31m",
        "\u{e9}\u{1f600}\u{85}",
        "\u{7f}",
        "a\u{202e}b\u{2028}c",
        "\u{61c}\u{feff}\u{e0041}",
    ] {
        let path = folder.file(name, b"MAAB");
        let ran = run(&["judge", "--json", &path]);
        let script = "import json, sys; sys.stdout.buffer.write(json.loads(sys.stdin.buffer.read())['stream'].encode())";
        assert_eq!(python(script, &ran.out), path);
        assert_eq!(ran.out.iter().filter(|byte| **byte == b'\n').count(), 1);
        let odd = [
            '\u{1b}',
            '\u{85}',
            '\u{202e}',
            '\u{61c}',
            '\u{feff}',
            '\u{e0041}',
        ];
        assert!(!ran.text().contains(odd));
    }
}

/// 01: for 5 the place is the character. It is character 6 here, in an item
/// that starts at 4 and can't be framed.
#[test]
fn a_remainder_tells_the_characters_place() {
    let ran = fed(&["judge", "--json"], b"MAABMA!!");
    let script = "
import json, sys
rest = json.load(sys.stdin)['remainder']
print(rest['offset'], rest['length'], rest['number'], rest['place'])
";
    assert_eq!(python(script, &ran.out), "4 4 5 6\n");
}

/// What was judged is known by its digest: the bytes of a file and the same
/// bytes from a pipe, and none where nothing was judged.
#[test]
fn the_digest_is_of_what_was_judged() {
    for name in ["first.cesr", "clean-binary.cesr"] {
        let path = format!("samples/{name}");
        let script = "
import hashlib, json, sys
bytes, told = open(sys.argv[1], 'rb').read(), json.load(sys.stdin)
print(told['sha256'] == hashlib.sha256(bytes).hexdigest(), told['length'] == len(bytes))
";
        let script = script.replace("sys.argv[1]", &format!("{path:?}"));
        let file = run(&["judge", "--json", &path]);
        let piped = fed(&["judge", "--json"], &common::sample(name));
        for ran in [file, piped] {
            assert_eq!(python(&script, &ran.out), "True True\n");
        }
    }
    let ran = run(&["judge", "--json", "gone.cesr"]);
    assert!(!ran.text().contains("sha256"));
}

/// The sums of a long stream agree with its rows.
#[test]
fn rows_of_a_long_stream() {
    let stream = b"MAABMQAA5BABAGhp0JAA".repeat(20_000);
    let ran = fed(&["judge", "--json", "--all"], &stream);
    let script = "
import json, sys
told = json.load(sys.stdin)
rows, end = told['rows'], 0
for row in rows:
    assert row['offset'] == end
    end += row['size']
assert end == told['length'] == 400000
assert told['accepted'] == sum(row['verdict'] == 0 for row in rows) == 40000
assert told['refused'] == len(told['refusals']) == 40000
assert [(r['item'], r['number'], r['place']) for r in told['refusals'][:2]] == [(1, 8, 4), (3, 10, 16)]
print(told['outcome'], told['remainder'])
";
    assert_eq!(python(script, &ran.out), "failed None\n");
}
