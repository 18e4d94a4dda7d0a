//! Many decks judged side by side by the guide's line: every deck has a whole
//! line, long ones too, and the exit status is never 0 by mistake.

mod common;

use common::{python, shell, Folder};

const NIGHT: &str = "set -o pipefail; find decks -type f -name '*.cesr' -print0 | \
                     xargs -0 -n 16 -P 8 cesr judge --json > night.jsonl";

fn night(folder: &Folder) -> i32 {
    let at = folder.path().display();
    shell(&format!("cd {at} && {NIGHT}")).status
}

fn decks(folder: &Folder, count: usize, deck: impl Fn(usize) -> Vec<u8>) {
    std::fs::create_dir(folder.path().join("decks")).expect("a folder");
    for number in 0..count {
        folder.file(&format!("decks/{number}.cesr"), &deck(number));
    }
}

/// Every tenth deck has 2,000 refusals, a line of about 300 KB.
#[test]
fn every_deck_has_a_whole_line() {
    let folder = Folder::new();
    decks(&folder, 300, |number| match number % 10 {
        0 => b"MQAA".repeat(2_000),
        _ => b"MAAB".repeat(number),
    });
    assert_eq!(night(&folder), 123);
    let script = "
import collections, json, sys
told = [json.loads(line) for line in sys.stdin]
print(sorted(collections.Counter(one['outcome'] for one in told).items()))
print(len({one['stream'] for one in told}), sum(one['refused'] for one in told))
";
    let lines = std::fs::read(folder.path().join("night.jsonl")).expect("the night");
    let told = "[('failed', 30), ('passed', 270)]\n300 60000\n";
    assert_eq!(python(script, &lines), told);
}

#[test]
fn all_passed_is_0_and_nothing_found_is_not() {
    let folder = Folder::new();
    decks(&folder, 40, |_| b"MAAB".to_vec());
    assert_eq!(night(&folder), 0);
    folder.file("decks/empty.cesr", b"");
    assert_eq!(night(&folder), 123);
    let folder = Folder::new();
    decks(&folder, 0, |_| Vec::new());
    assert_eq!(night(&folder), 123);
    let folder = Folder::new();
    assert_ne!(night(&folder), 0);
}
