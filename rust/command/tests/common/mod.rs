//! The command run as a person would run it, at the project's top.

#![allow(dead_code)]

use std::fs;
use std::io::Write;
use std::path::{Path, PathBuf};
use std::process::{Command, Stdio};
use std::sync::atomic::{AtomicUsize, Ordering};

/// Exit status, standard output, standard error.
#[derive(Debug, PartialEq, Eq)]
pub struct Ran {
    pub status: i32,
    pub out: Vec<u8>,
    pub err: String,
}

impl Ran {
    pub fn text(&self) -> String {
        String::from_utf8(self.out.clone()).expect("readable output")
    }
}

/// The project's top, where the samples are.
pub fn top() -> PathBuf {
    let top = Path::new(env!("CARGO_MANIFEST_DIR")).join("../..");
    top.canonicalize().expect("the project's top")
}

pub fn program() -> &'static str {
    env!("CARGO_BIN_EXE_cesr")
}

pub fn command(arguments: &[&str]) -> Command {
    let mut command = Command::new(program());
    command.args(arguments).current_dir(top());
    command
}

/// Runs with nothing on standard input.
pub fn run(arguments: &[&str]) -> Ran {
    fed(arguments, b"")
}

/// Runs with these bytes on standard input.
pub fn fed(arguments: &[&str], bytes: &[u8]) -> Ran {
    finished(command(arguments), bytes)
}

/// Runs a line of the shell, in which `cesr` is the command.
pub fn shell(line: &str) -> Ran {
    let mut command = Command::new("bash");
    command.args(["-c", line]).current_dir(top());
    command.env("PATH", path_with_program());
    finished(command, b"")
}

/// The same in a folder of the test's own.
pub fn within(folder: &Folder, line: &str) -> Ran {
    shell(&format!("cd {} && {line}", folder.path().display()))
}

/// The search path with the command in front.
pub fn path_with_program() -> String {
    let folder = Path::new(program()).parent().expect("a folder");
    let path = std::env::var("PATH").unwrap_or_default();
    format!("{}:{path}", folder.display())
}

pub fn finished(mut command: Command, bytes: &[u8]) -> Ran {
    command
        .stdin(Stdio::piped())
        .stdout(Stdio::piped())
        .stderr(Stdio::piped());
    let mut child = command.spawn().expect("the program starts");
    let mut stdin = child.stdin.take().expect("a pipe");
    let bytes = bytes.to_vec();
    // A program may stop reading early: what can't be written is left.
    let writer = std::thread::spawn(move || drop(stdin.write_all(&bytes)));
    let output = child.wait_with_output().expect("the program ends");
    writer.join().expect("the writer ends");
    Ran {
        status: output.status.code().expect("an exit status"),
        out: output.stdout,
        err: String::from_utf8_lossy(&output.stderr).into_owned(),
    }
}

pub fn sample(name: &str) -> Vec<u8> {
    let path = top().join("samples").join(name);
    fs::read(&path).expect("a sample")
}

/// The kept expectation of this name.
pub fn expected(name: &str) -> String {
    let folder = Path::new(env!("CARGO_MANIFEST_DIR")).join("tests/expected");
    fs::read_to_string(folder.join(name)).expect("an expectation")
}

/// A folder of the test's own, gone when it is dropped.
pub struct Folder(PathBuf);

static FOLDERS: AtomicUsize = AtomicUsize::new(0);

impl Folder {
    pub fn new() -> Folder {
        let number = FOLDERS.fetch_add(1, Ordering::Relaxed);
        let name = format!("cesr-test-{}-{number}", std::process::id());
        let path = std::env::temp_dir().join(name);
        fs::create_dir_all(&path).expect("a folder");
        Folder(path)
    }

    pub fn path(&self) -> &Path {
        &self.0
    }

    /// A file in it with these bytes; its name.
    pub fn file(&self, name: &str, bytes: &[u8]) -> String {
        let path = self.0.join(name);
        fs::write(&path, bytes).expect("a file");
        path.to_str().expect("a readable name").to_string()
    }
}

impl Drop for Folder {
    fn drop(&mut self) {
        let _ = fs::remove_dir_all(&self.0);
    }
}

/// What python3 prints for a script with these bytes on its standard input.
pub fn python(script: &str, bytes: &[u8]) -> String {
    let mut command = Command::new("python3");
    command.args(["-c", script]).current_dir(top());
    command.env("PATH", path_with_program());
    let ran = finished(command, bytes);
    assert_eq!(ran.status, 0, "{}", ran.err);
    ran.text()
}
