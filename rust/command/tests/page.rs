//! The page of `--html`, read by a parser; `tests/page` looks at it in a browser.

mod common;
#[path = "common/files.rs"]
mod files;

use common::{within, Folder};
use files::{beside, reads};
use std::fs;

/// 01's figures of the first sample: items of 8, 72, 44, 8 and 4 characters of
/// 136, the third refused; in the second stand 24 and 44 behind 12.
#[test]
fn a_band_is_in_proportion() {
    let (_, page) = beside("--html", &["samples/first.cesr"], b"");
    let script = "
def part(said): return round(float(said.rstrip('%')) * 136 / 100, 0)
for rect in page.rects: print(rect['class'], part(rect['x']), part(rect['width']))
";
    let told = "accepted 0.0 8.0\naccepted 8.0 72.0\naccepted 124.0 8.0\naccepted 132.0 4.0\n\
                refused 80.0 44.0\naccepted 12.0 24.0\naccepted 36.0 44.0\n";
    assert_eq!(reads(&page, script), told);
}

/// What the page says of a refused item within groups, and of a remainder.
#[test]
fn a_refusal_is_told_in_plain_words() {
    let (ran, page) = beside("--html", &[], b"-AAE-BADMAAB0AAAMAAB_AAA");
    assert_eq!(ran.status, 1);
    let script = "
for said in (
    'Item 0: refused 4 at 12', 'The item asks for more than is left.',
    '4: header or full size passes the end of stream or enclosing group',
    '-A Generic pipeline group, 20 characters from 0',
    'at 12: 0A Random salt/seed/nonce/private key/sn, 128 bits',
    '-B Message + attachments group, 16 characters from 4',
    'asks for 24 characters, 8 characters are left', 'a stream cut off, items counted',
    'Remainder 6 from 20', 'No item starts like this.', '6: code unknown or reserved',
    '4 characters: nobody knows where the next item starts', 'cesr 0.2.0',
    'text (detected from the first bytes)', '1 item, 0 accepted, 1 refused, remainder 6 from 20',
): assert said in text, (said, text)
";
    assert_eq!(reads(&page, script), "");
    let digest = "3fef0b6fb64dba3cb1da2c3daee0278bc05d176995794621df048dbc7f76d5ec";
    let (_, page) = beside("--html", &["samples/first.cesr"], b"");
    let script = format!("assert '{digest}' in text.replace(' ', ''), text");
    assert_eq!(reads(&page, &script), "");
}

/// A thousand are listed, of every stream one at least; the rest is counted.
#[test]
fn the_first_thousand_refusals_are_listed() {
    let folder = Folder::new();
    folder.file("many", &b"MQAA".repeat(1_234));
    folder.file("more", &b"MQAA5BAA".repeat(3));
    let ran = within(&folder, "cesr judge --html page many more");
    assert_eq!(ran.status, 1);
    let page = fs::read(folder.path().join("page")).expect("the page");
    let script = "
assert text.count(': refused ') == 1001, text.count(': refused ')
assert '234 more items are refused and not listed: cesr judge --all many lists them' in text
assert '5 more items are refused and not listed: cesr judge --all more lists them' in text
assert 'Number Items What it says 8 1237 Bits' in text and ' 9 3 A value' in text, text[:900]
assert len(page.rects) < 1100, len(page.rects)
";
    assert_eq!(reads(&page, script), "");
}

/// A deck of the limit's size: the page stays small, and one refused item in a
/// million is seen.
#[test]
fn a_long_stream_makes_no_long_page() {
    let mut deck = b"MAAB".repeat(1 << 20);
    deck[2_000_000..2_000_004].copy_from_slice(b"MQAA");
    let (ran, page) = beside("--html", &["--form", "text"], &deck);
    assert_eq!(ran.status, 1);
    assert!(page.len() < 40_000, "{}", page.len());
    let script = "
refused = [rect for rect in page.rects if rect['class'] == 'refused']
assert [round(float(rect['x'].rstrip('%'))) for rect in refused] == [48], refused
assert float(refused[0]['width'].rstrip('%')) >= 0.3, refused
";
    assert_eq!(reads(&page, script), "");
}

/// What stands in groups, of signatures too, and what is deeper than the rows.
#[test]
fn groups_are_drawn_with_their_contents() {
    let stream = format!("-AAY-KAW{}MAAB", "A".repeat(88));
    let (ran, page) = beside("--html", &["--form", "text"], stream.as_bytes());
    assert_eq!(ran.status, 0);
    let script = "
assert [rect['class'] for rect in page.rects] == ['accepted'] * 4, page.rects
";
    assert_eq!(reads(&page, script), "");
    // A stranger in a signature group: it is refused where it stands.
    let (_, page) = beside("--html", &["--form", "text"], b"-KACAAA!_AAA");
    let script = "
assert [rect['class'] for rect in page.rects] == ['refused'] * 2, page.rects
";
    assert_eq!(reads(&page, script), "");
    let (_, page) = beside("--html", &["samples/faults.cesr"], b"");
    let script = "assert 'items deeper than 6 groups not drawn' in text, text";
    assert_eq!(reads(&page, script), "");
}

#[test]
fn a_manifest_stands_on_the_page() {
    let folder = Folder::new();
    folder.file("deck", b"MAAB");
    let ran = within(
        &folder,
        "cesr manifest deck > LIST && cesr judge --manifest LIST --html page && sha256sum LIST",
    );
    let text = ran.text();
    let digest = text.lines().last().and_then(|line| line.get(..64));
    let digest = digest.expect("a digest");
    let page = fs::read(folder.path().join("page")).expect("the page");
    let script = format!(
        "
assert '1 stream, 1 expected: 1 passed' in text and 'Manifest LIST' in text, text
assert '{digest}' in text.replace(' ', ''), text
"
    );
    assert_eq!((reads(&page, &script).as_str(), ran.status), ("", 0));
}
