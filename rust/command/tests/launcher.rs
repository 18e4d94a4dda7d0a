//! The script `cesr` at the project's top, in a folder of its own, with a prover
//! and a builder that are played.

mod common;

use common::{finished, top, Folder, Ran};
use std::fs::{self, Permissions};
use std::os::unix::fs::{symlink, PermissionsExt};
use std::path::Path;
use std::process::Command;
use std::thread;

/// The script in a folder, where it finds these programs alone beside the
/// system's.
fn prepared(programs: &[(&str, &str)]) -> Folder {
    let folder = Folder::new();
    for made in ["bin", "crates/exports_c", "tools"] {
        fs::create_dir_all(folder.path().join(made)).expect("a folder");
    }
    for name in ["cesr", "tools/library"] {
        let script = fs::read(top().join(name)).expect("the script");
        let path = folder.file(name, &script);
        fs::set_permissions(path, Permissions::from_mode(0o755)).expect("a program");
    }
    folder.file("crates.txt", b"");
    for (name, body) in programs {
        let path = folder.file(&format!("bin/{name}"), body.as_bytes());
        fs::set_permissions(path, Permissions::from_mode(0o755)).expect("a program");
    }
    folder
}

/// Calls the script by this path, with a stream on standard input.
fn called(folder: &Folder, script: &Path) -> Ran {
    let bin = folder.path().join("bin");
    let mut command = Command::new("bash");
    command.arg(script).arg("judge");
    command.env("PATH", format!("{}:/usr/bin:/bin", bin.display()));
    finished(command, b"MAAB")
}

fn call(folder: &Folder) -> Ran {
    called(folder, &folder.path().join("cesr"))
}

/// Both would read all of standard input. The prover is called in the folder of
/// the library's last crate.
const PROVER: &str = "#!/bin/sh
cat > /dev/null
mkdir -p out && touch out/libexports_c.a && echo rt: proved \"$1\"
";
const BUILDER: &str = "#!/bin/sh
cat > /dev/null
mkdir -p \"$CARGO_TARGET_DIR/release\" && cd \"$CARGO_TARGET_DIR/release\"
printf '#!/bin/sh\\ncat\\n' > cesr.$$ && chmod +x cesr.$$ && mv cesr.$$ cesr
";

/// A build that fails is no pass, and says what is missing.
#[test]
fn the_first_command_fails_where_nothing_can_be_built() {
    let fails = "#!/bin/sh\nexit 1\n";
    for (programs, said) in [
        (&[][..], "cesr: rt is not installed: the library could not"),
        (&[("rt", fails)], "the library could not be built; tools"),
        (&[("rt", "#!/bin/sh\necho rt: done\n")], "is missing"),
        (
            &[("rt", PROVER), ("cargo", fails)],
            "the command could not be built",
        ),
    ] {
        let ran = call(&prepared(programs));
        assert_eq!((ran.status, ran.text()), (2, String::new()));
        assert!(ran.err.contains(said), "{}", ran.err);
    }
}

/// The stream reaches the command whatever the builders would read; a second
/// call builds no library.
#[test]
fn a_stream_reaches_the_command_on_first_use() {
    let folder = prepared(&[("rt", PROVER), ("cargo", BUILDER)]);
    let ran = call(&folder);
    assert_eq!((ran.status, ran.text().as_str()), (0, "MAAB"));
    let said = "\nrt: proved all\nrt: proved lib\n";
    assert!(ran.err.ends_with(said), "{}", ran.err);
    let ran = call(&folder);
    assert_eq!((ran.text().as_str(), ran.err.as_str()), ("MAAB", ""));
}

/// A prover that takes its time over the last of three crates.
const STEPS: &str = "#!/bin/sh
mkdir -p out && touch out/libexports_c.a
case $1 in
all) echo '== base'; echo 'logic=proved'; echo '== report'; echo 'rt: report: begins with what a check kept elsewhere'
  sleep \"${PAUSE:-0}\"; echo '== exports_c'; echo '== summary'; echo 'base: ok' ;;
*) echo 'rt: chose --jobs 2 for exports_c'; echo 'logic=proved' ;;
esac
";

/// Three crates, and one that the library does not rest on.
const THREE: &[u8] =
    b"# The crates\nbase:\nreport: base\nother: base\n\nexports_c staticlib: base report bytes\n";

/// A crate that is refused is named.
#[test]
fn a_crate_that_is_refused_is_named() {
    let prover = "#!/bin/sh
echo '== base'; echo '== report'; echo '== summary'
echo 'base: ok'; echo 'report: failed (1)'; echo 'exports_c: not run, since report failed'; exit 1
";
    let folder = prepared(&[("rt", prover), ("cargo", BUILDER)]);
    let ran = call(&folder);
    assert_eq!((ran.status, ran.text()), (2, String::new()));
    let said = "\nreport: failed (1)\nexports_c: not run, since report failed\n";
    assert!(ran.err.contains(said), "{}", ran.err);
}

/// While it proves it says how many crates of how many are proved, each once,
/// and for how long it has been at it.
#[test]
fn it_says_how_far_it_is() {
    let folder = prepared(&[("rt", STEPS), ("cargo", BUILDER)]);
    folder.file("crates.txt", THREE);
    let ran = call(&folder);
    assert_eq!((ran.status, ran.text().as_str()), (0, "MAAB"));
    let lines: Vec<&str> = ran.err.lines().collect();
    let [_, told @ ..] = &lines[..] else {
        panic!("{}", ran.err);
    };
    assert_eq!(told.len(), 3, "{}", ran.err);
    for (count, line) in (1..).zip(told) {
        let said = format!("cesr: {count} of 3 crates proved, 0 min ");
        assert!(line.starts_with(&said) && line.ends_with(" s"), "{line}");
    }
}

/// At a terminal it is one line, and the time goes on while a crate takes long.
#[test]
fn at_a_terminal_the_time_goes_on() {
    let folder = prepared(&[("rt", STEPS), ("cargo", BUILDER)]);
    folder.file("crates.txt", THREE);
    let script = r#"
import os, pty, subprocess, sys
main, side = pty.openpty()
folder = os.environ['FOLDER']
env = {**os.environ, 'PAUSE': '2.5', 'PATH': folder + '/bin:/usr/bin:/bin'}
child = subprocess.Popen(['bash', folder + '/cesr', 'judge'], env=env,
    stdin=subprocess.DEVNULL, stdout=subprocess.DEVNULL, stderr=side)
os.close(side)
said = b''
while True:
    try: piece = os.read(main, 65536)
    except OSError: break
    if not piece: break
    said += piece
lines = said.decode().replace('\r\n', '\n').split('\n')
told = [part.split(',')[0] for part in lines[1].split('\r') if part]
times = {part.split(', ')[1] for part in lines[1].split('\r') if part}
print(child.wait(), len(lines), sorted(set(told)), len(times) > 1)
"#;
    let mut python = Command::new("python3");
    python.args(["-c", script]).env("FOLDER", folder.path());
    let told = "['cesr: 1 of 3 crates proved', 'cesr: 2 of 3 crates proved', 'cesr: 3 of 3 crates proved']";
    let ran = finished(python, b"");
    assert_eq!(ran.text(), format!("0 3 {told} True\n"), "{}", ran.err);
}

/// Calls at once: one builds, and the others wait for it. Two provers in one
/// folder would fail here, as they would take each other's files away.
#[test]
fn the_library_is_built_once() {
    let prover = "#!/bin/sh
mkdir ../../target/proving || exit 1
sleep 0.3
mkdir -p out && touch out/libexports_c.a && echo rt: proved
rmdir ../../target/proving
";
    let folder = prepared(&[("rt", prover), ("cargo", BUILDER)]);
    let calls: Vec<Ran> = thread::scope(|scope| {
        let calls: Vec<_> = (0..4).map(|_| scope.spawn(|| call(&folder))).collect();
        let ended = calls.into_iter().map(|one| one.join());
        ended.map(|one| one.expect("a call")).collect()
    });
    for ran in &calls {
        let said = (ran.status, ran.text());
        assert_eq!(said, (0, "MAAB".to_string()), "{}", ran.err);
    }
    let built = calls.iter().filter(|ran| ran.err.contains("rt: proved"));
    assert_eq!(built.count(), 1);
}

/// A source that changes while the library is built is in the library that the
/// call uses, and the next call builds nothing.
#[test]
fn a_source_that_changes_meanwhile_is_built_too() {
    let prover = "#!/bin/sh
mkdir -p out && ls .. > out/libexports_c.a && echo rt: proved
test \"$1\" = all || test -e ../late || { sleep 0.05; touch ../late; }
";
    let folder = prepared(&[("rt", prover), ("cargo", BUILDER)]);
    let ran = call(&folder);
    assert_eq!((ran.status, ran.text().as_str()), (0, "MAAB"));
    assert!(ran.err.contains("once more"), "{}", ran.err);
    let archive = folder.path().join("target/staticlib/libexports.a");
    let built = fs::read(archive).expect("the library");
    assert_eq!(built, b"exports_c\nlate\n");
    assert_eq!(call(&folder).err, "");
    // Changed after that it is built again.
    let late = fs::File::options()
        .append(true)
        .open(folder.path().join("crates/late"));
    let now = std::time::SystemTime::now();
    late.expect("a source").set_modified(now).expect("a time");
    assert!(call(&folder).err.contains("rt: proved"));
}

/// Sources that never stand still are an error.
#[test]
fn sources_that_always_change_are_an_error() {
    let prover = "#!/bin/sh
mkdir -p out && touch out/libexports_c.a && echo rt: proved
sleep 0.05; touch ../late
";
    let ran = call(&prepared(&[("rt", prover), ("cargo", BUILDER)]));
    assert_eq!((ran.status, ran.text()), (2, String::new()));
    assert!(ran
        .err
        .contains("cesr: sources change while the library is built"));
}

/// By a link, and by a link to a link with a relative path.
#[test]
fn a_link_to_it_works() {
    let folder = prepared(&[("rt", PROVER), ("cargo", BUILDER)]);
    let elsewhere = Folder::new();
    let (link, again) = (
        elsewhere.path().join("link"),
        elsewhere.path().join("again"),
    );
    symlink(folder.path().join("cesr"), &link).expect("a link");
    symlink("link", &again).expect("a link");
    for script in [link, again] {
        let ran = called(&folder, &script);
        assert_eq!(
            (ran.status, ran.text().as_str()),
            (0, "MAAB"),
            "{}",
            ran.err
        );
    }
    assert!(!elsewhere.path().join("target").exists());
}
