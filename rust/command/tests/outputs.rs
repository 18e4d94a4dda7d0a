//! What is written: in whole lines, files whole or not at all, a screenful of
//! a long listing, and a line for every stream where memory runs out.

mod common;

use common::{fed, python, run, sample, within, Folder};
use std::fs;
use std::os::unix::fs::{symlink, PermissionsExt};

/// Runs the command with its outputs at a socket that keeps each write apart,
/// and prints what is no whole line.
const WRITES: &str = r#"
import os, socket, subprocess, sys
def writes(arguments, bytes=b''):
    ours, theirs = zip(*[socket.socketpair(socket.AF_UNIX, socket.SOCK_SEQPACKET) for _ in range(2)])
    child = subprocess.Popen(['cesr'] + arguments, stdin=subprocess.PIPE, stdout=theirs[0], stderr=theirs[1])
    child.stdin.write(bytes)
    child.stdin.close()
    for socket_ in theirs: socket_.close()
    told = [[], []]
    for one, pieces in zip(ours, told):
        while piece := one.recv(1 << 20): pieces.append(piece)
    child.wait()
    return told
"#;

/// Lines of calls side by side don't mix: each is one write, complaints and
/// objects too, long ones as well.
#[test]
fn a_line_is_one_write() {
    let script = "
long = b'MQAA' * 600
out, err = writes(['judge', 'gone.cesr', 'samples', 'samples/clean.cesr'])
assert [piece.count(b'\\n') for piece in out] == [1, 1, 1, 1], out
assert [piece.count(b'\\n') for piece in err] == [1, 1], err
out, err = writes(['judge', '--json', 'gone.cesr', '-', 'samples/clean.cesr'], long)
assert len(out) == 3 and all(piece.endswith(b'\\n') for piece in out) and len(out[1]) > 80000, out
assert err == [b'cesr: gone.cesr: No such file or directory\\n'], err
_, err = writes(['convert', '--to', 'binary'], b'MAAB!!!!')
assert len(err) == 1 and err[0].count(b'\\n') == 5, err
_, err = writes(['jugde'])
assert len(err) == 1 and err[0].endswith(b\"\\nTry 'cesr --help'.\\n\"), err
";
    assert_eq!(python(&format!("{WRITES}{script}"), b""), "");
}

/// Where not all can be written, what stood there stays, and nothing else is
/// left in the folder.
#[test]
fn a_converted_file_is_whole_or_as_it_was() {
    let folder = Folder::new();
    let (long, kept) = (
        folder.file("long.cesr", &b"MAAB".repeat(100_000)),
        folder.file("kept.bin", b"kept"),
    );
    fs::set_permissions(&kept, PermissionsExt::from_mode(0o640)).expect("permissions");
    // Files of more than 8 KiB can't be written.
    let full = "trap '' XFSZ; ulimit -f 8; cesr convert --to binary --out kept.bin long.cesr";
    let ran = within(&folder, full);
    assert_eq!(
        (ran.status, ran.err.as_str()),
        (2, "cesr: kept.bin: File too large\n")
    );
    assert_eq!(fs::read(&kept).expect("the file"), b"kept");
    assert_eq!(fs::read_dir(folder.path()).expect("a folder").count(), 2);
    let ran = run(&["convert", "--to", "binary", "--out", &kept, &long]);
    assert_eq!((ran.status, ran.err.as_str()), (0, ""));
    assert_eq!(fs::read(&kept).expect("the file").len(), 300_000);
    let mode = |path: &str| fs::metadata(path).expect("a file").permissions().mode() & 0o777;
    assert_eq!(mode(&kept), 0o640);
    assert_eq!(fs::read_dir(folder.path()).expect("a folder").count(), 2);
    let new = "umask 027; cesr convert --to binary --out new.bin long.cesr";
    assert_eq!(within(&folder, new).status, 0);
    assert_eq!(mode(&format!("{}/new.bin", folder.path().display())), 0o640);
}

/// A link stays a link, also one whose file is still to be made; a file may be
/// converted in its own place.
#[test]
fn a_link_is_followed() {
    let folder = Folder::new();
    let path = |name: &str| folder.path().join(name);
    fs::create_dir(path("inner")).expect("a folder");
    symlink("inner/file", path("link")).expect("a link");
    symlink("link", path("again")).expect("a link");
    for text in ["MAAB", "1AAM1AAK"] {
        folder.file("deck", text.as_bytes());
        let ran = within(&folder, "cesr convert --to binary --out again deck");
        assert_eq!((ran.status, ran.err.as_str()), (0, ""));
        let binary = fs::read(path("inner/file")).expect("the file");
        assert_eq!(binary.len(), text.len() / 4 * 3);
        assert!(path("link").is_symlink() && path("again").is_symlink());
    }
    let ran = within(
        &folder,
        "cesr convert --to text --out inner/file inner/file",
    );
    assert_eq!(ran.status, 0, "{}", ran.err);
    assert_eq!(fs::read(path("inner/file")).expect("the file"), b"1AAM1AAK");
    symlink("loop", path("loop")).expect("a link");
    assert_eq!(
        within(&folder, "cesr convert --to binary --out loop deck").status,
        2
    );
}

/// What is no regular file is written to: a pipe with a name, a device, and
/// what standard output is, behind what stands there.
#[test]
fn what_is_no_file_is_written_to() {
    let folder = Folder::new();
    folder.file("deck", b"1AAM");
    for line in [
        "mkfifo pipe; cat pipe & cesr convert --to binary --out pipe deck && wait",
        "cesr convert --to binary --out /dev/stdout deck",
        "cesr convert --to binary --out /dev/stdout deck | cat",
        "cesr convert --to binary --out /dev/fd/3 deck 3>&1",
        "printf 12 > all; cesr convert --to binary --out /dev/stdout deck >> all && tail -c +3 all",
        "printf 12 > all; cesr convert --to binary --out /dev/fd/1 deck >> all && tail -c +3 all",
    ] {
        let ran = within(&folder, line);
        assert_eq!(
            (ran.status, ran.out.as_slice()),
            (0, &[0xD4, 0, 0x0C][..]),
            "{line} {}",
            ran.err
        );
    }
    let ran = within(&folder, "cesr convert --to binary --out . deck");
    assert_eq!(
        (ran.status, ran.err.as_str()),
        (2, "cesr: .: Is a directory\n")
    );
    let ran = within(&folder, "cesr convert --to binary --out gone/x deck");
    assert_eq!(
        (ran.status, ran.err.as_str()),
        (2, "cesr: gone/x: No such file or directory\n")
    );
}

/// Of many refused items eight are shown, and how many more there are; `--all`,
/// JSON and the report have all.
#[test]
fn a_long_listing_is_a_screenful_and_a_count() {
    let many = b"MQAA".repeat(20);
    let said = |ran: &common::Ran| ran.text().matches("\nitem ").count();
    let ran = fed(&["judge"], &many);
    assert_eq!((ran.status, said(&ran)), (1, 8));
    assert!(ran
        .text()
        .ends_with("\n12 more items are refused: --all lists them\n"));
    for (count, last) in [
        (8, "          ^~~~\n"),
        (9, "\n\n1 more item is refused: --all lists it\n"),
    ] {
        let ran = fed(&["judge"], &b"MQAA".repeat(count));
        assert_eq!(said(&ran), 8);
        assert!(ran.text().ends_with(last), "{}", ran.text());
    }
    let ran = fed(&["judge", "--all"], &many);
    assert_eq!((said(&ran), ran.text().contains("more items")), (20, false));
    // Twenty items, twenty refusals, no remainder.
    let ran = fed(&["judge", "--report"], &many);
    assert_eq!(ran.out.len(), 4 + 20 * 9 + 4 + 20 * 9 + 4);
    let ran = fed(&["judge", "--json"], &many);
    assert_eq!(ran.text().matches("{\"item\":").count(), 20);
    // A remainder is told behind the count.
    let ran = fed(&["judge"], &[&many[..], b"_AAA"].concat());
    assert!(ran
        .text()
        .contains("more items are refused: --all lists them\n\nremainder 6 from 80"));
}

/// Where memory runs out each stream has its line all the same, `error`, and
/// those that fit are judged.
#[test]
fn without_memory_every_stream_has_its_line() {
    let folder = Folder::new();
    folder.file("long", &b"MQAA".repeat(1 << 20));
    folder.file("short", b"MAAB");
    // The report of the long one asks for 18 MB, its object for some 150.
    for (kilobytes, option, lines) in [
        (20_000, "", 5),
        (20_000, "--json", 4),
        (90_000, "--json", 4),
    ] {
        let call = format!("ulimit -v {kilobytes}; cesr judge {option} short long short gone");
        let ran = within(&folder, &call);
        let text = ran.text();
        assert_eq!(
            (ran.status, text.lines().count()),
            (2, lines),
            "{text}{}",
            ran.err
        );
        let passed = text.matches(if lines == 5 {
            "passed  short"
        } else {
            "\"passed\""
        });
        assert_eq!(passed.count(), 2, "{text}");
        assert!(text.contains("out of memory"), "{text}");
        assert!(ran.err.contains("cesr: long: out of memory"), "{}", ran.err);
    }
}

/// 02 h: what is refused for its large code has a small one, which is told in
/// both forms.
#[test]
fn the_small_code_is_told() {
    for (stream, short) in [
        ("--JAAAABMAAB", "-JAB"),
        ("-AAC--cAAAAA", "-cAA"),
        ("7AABAAAA", "4BAA"),
        ("-AAD9AAHAAABAABh", "6HAB"),
    ] {
        let said = format!("        the small code's header is {short}\n");
        let ran = fed(&["judge", "--form=text"], stream.as_bytes());
        assert!(ran.text().contains(&said), "{}", ran.text());
        let binary = fed(&["convert", "--to", "binary"], stream.as_bytes()).out;
        let ran = fed(&["judge", "--form=binary"], &binary);
        assert!(ran.text().contains(&said), "{}", ran.text());
    }
    let ran = fed(&["show", "4", "--form", "text"], b"-AAD8AAHAAABAAAA");
    let told = "stream   standard input: text
offset   4
code     8AAH
name     Decimal number string
verdict  refused 18 at 4, large variable code or large group whose size fits the small code
       4  8AAHAAABAAAA
          ^
        the small code's header is 5HAB
        usually a writer that takes the large code for every size
";
    assert_eq!((ran.status, ran.text().as_str()), (1, told));
}

/// Type `A` in characters, of either form, where another type stays in
/// hexadecimal: `ABCD` is 0, 1, 2, 3, so 00 10 83.
#[test]
fn a_text_is_shown_as_text() {
    // 70 characters with `AA` before them are 18 units, `S`; 64 go on a line.
    let long = format!("5AASAA{}{}", "-a-label".repeat(8), "-1-2-3");
    let lines = format!("text     {}\n         -1-2-3\n", "-a-label".repeat(8));
    for (item, told) in [
        (
            "4AADA-a-personal",
            "text     -a-personal\nlength   11 characters\n",
        ),
        ("6AABAAA-", "text     -\nlength   1 character\n"),
        ("4AABABCD", "text     BCD\nlength   3 characters\n"),
        ("4AAA", "text     (empty)\nlength   0 characters\n"),
        (&long, &(lines + "length   70 characters\n")),
        ("4BABABCD", "raw      001083\nlength   3 bytes\n"),
    ] {
        let text = fed(&["show", "0", "--form", "text"], item.as_bytes());
        let binary = fed(&["convert", "--to", "binary"], item.as_bytes()).out;
        let binary = fed(&["show", "0", "--form", "binary"], &binary);
        for ran in [text, binary] {
            let value = format!("s\n{told}verdict  accepted\n");
            assert!(ran.text().ends_with(&value), "{}", ran.text());
            assert_eq!(ran.status, 0);
        }
    }
}

/// For 16 what stands in front of the text, in either form.
#[test]
fn the_fill_of_a_text_is_told() {
    for (stream, note) in [
        ("4AABAAAA", "behind the fill A the text starts with A"),
        ("5AABAAAa", "behind the fill AA the text starts with A"),
        ("-AAC6AABAAAA", "behind the fill AAA the text starts with A"),
        ("5AABAB-a", "the fill of 5A is AA, here stands AB"),
        ("MAAB6AABAAB-", "the fill of 6A is AAA, here stands AAB"),
    ] {
        let said = format!("        {note}\n");
        let ran = fed(&["judge", "--form=text"], stream.as_bytes());
        assert!(ran.text().contains(&said), "{}", ran.text());
        assert!(ran.text().contains("refused 16 at "), "{}", ran.text());
        let binary = fed(&["convert", "--to", "binary"], stream.as_bytes()).out;
        let ran = fed(&["judge", "--form=binary"], &binary);
        assert!(ran.text().contains(&said), "{}", ran.text());
    }
}

/// 33 zero bytes are `A` and a key of zeros in binary: accepted, and said.
#[test]
fn zeros_are_said() {
    let ran = fed(&["judge"], &[0; 33]);
    let told = "passed  standard input: 1 item, 1 accepted, 0 refused, no remainder
        binary (detected from the first bytes), 33 bytes
        every byte is 0
";
    assert_eq!((ran.status, ran.text().as_str()), (0, told));
    let ran = fed(&["judge", "-", "samples/clean.cesr"], &[0; 33]);
    assert!(ran
        .text()
        .contains(", 0 refused, no remainder; every byte is 0\n"));
    for (bytes, zeros) in [
        (vec![0; 33], true),
        (vec![0; 34], true),
        (sample("clean.cesr"), false),
        (vec![], false),
    ] {
        let ran = fed(&["judge", "--json"], &bytes);
        assert!(
            ran.text().contains(&format!("\"zeros\":{zeros}")),
            "{}",
            ran.text()
        );
    }
}
