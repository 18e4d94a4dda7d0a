//! Colours and progress at a terminal, which python3 plays.

mod common;

use common::python;

/// Runs the command with standard output or error, or both, at a terminal;
/// what came there, and what came elsewhere. `until` feeds standard input piece
/// by piece until these bytes come to the terminal: however slow the machine
/// is, they come before the stream is at the limit, or the test fails.
const PLAY: &str = r#"
import os, pty, select, subprocess, tempfile
def to_end(main):
    said = b''
    while True:
        try: piece = os.read(main, 65536)
        except OSError: break
        if not piece: break
        said += piece
    return said
def fed(child, main, until):
    said = b''
    for _ in range(256):
        if until in said: break
        child.stdin.write(b'MAAB' * 4096)
        child.stdin.flush()
        if select.select([main], [], [], 0.1)[0]: said += os.read(main, 65536)
    return said
def play(arguments, out, err, until=None, **settings):
    main, side = pty.openpty()
    env = {k: v for k, v in os.environ.items() if k not in ('NO_COLOR', 'TERM')}
    env.update({'TERM': 'xterm'}, **settings)
    rest = tempfile.TemporaryFile()
    child = subprocess.Popen(['cesr'] + arguments, env=env, stdin=subprocess.PIPE,
        stdout=side if out else rest, stderr=side if err else rest)
    os.close(side)
    said = fed(child, main, until) if until else b''
    child.stdin.close()
    said += to_end(main)
    child.wait()
    rest.seek(0)
    return said, rest.read()
ESC = b'\x1b['
"#;

fn holds(script: &str) {
    assert_eq!(python(&format!("{PLAY}{script}"), b""), "");
}

#[test]
fn colours_at_a_terminal_only() {
    holds(
        "
at, _ = play(['judge', 'samples/first.cesr'], True, False)
assert at.count(ESC) == 4 and b'failed' in at, at
at, _ = play(['judge', 'samples/first.cesr', 'samples/clean.cesr'], True, False)
assert b'\\x1b[32mpassed' in at and b'\\x1b[1;31mfailed' in at, at
_, piped = play(['judge', 'samples/first.cesr'], False, True)
assert ESC not in piped and b'failed' in piped, piped
",
    );
}

#[test]
fn never_with_no_color_nor_on_a_dumb_terminal() {
    holds(
        "
for setting in ({'NO_COLOR': '1'}, {'NO_COLOR': ''}, {'TERM': 'dumb'}):
    for arguments in (['judge'], ['judge', '--all'], ['show', '80']):
        at, _ = play(arguments + ['samples/first.cesr'], True, True, **setting)
        assert ESC not in at and b'refused 8' in at, at
at, _ = play(['judge', '--json', 'samples/first.cesr'], True, True)
assert ESC not in at, at
",
    );
}

/// When progress is shown is for the clock's tests beside the code; here that it
/// comes to the terminal, is gone at the end, and comes nowhere else.
#[test]
fn progress_of_long_work_at_a_terminal_only() {
    holds(
        "
at, piped = play(['judge'], False, True, until=b' bytes read')
assert b' bytes read' in at and at.endswith(b'\\r\\x1b[K'), at
assert b', 0 refused, no remainder' in piped and ESC not in piped, piped
",
    );
}

/// Of many streams it says which one is at work, also where files are written
/// beside the lines, and the lines are what they are without it.
#[test]
fn progress_over_many_streams() {
    holds(
        "
names = ['samples/clean.cesr', '-', 'samples/cut.cesr']
at, piped = play(['judge', '--html', '/dev/null'] + names, False, True, until=b'stream 2 of 3, ')
assert b'stream 2 of 3, ' in at and at.endswith(b'\\r\\x1b[K') and b'\\n' not in at, at
assert piped.startswith(b'passed') and piped.count(b'\\n') == 4 and ESC not in piped, piped
at, piped = play(['judge'] + names[:1] * 3 + ['gone.cesr'], False, True)
assert at == b'cesr: gone.cesr: No such file or directory\\r\\n', at
",
    );
}

/// A stream that is typed: one end is enough, and the report starts on a line
/// of its own.
#[test]
fn a_stream_is_typed() {
    holds(
        "
pid, main = pty.fork()
if pid == 0:
    os.environ['TERM'] = 'xterm'
    os.execvp('cesr', ['cesr', 'judge'])
said = b''
while b'\\n' not in said: said += os.read(main, 65536)
os.write(main, b'MAAB1AAK\\x04\\x04')
said += to_end(main)
assert os.waitstatus_to_exitcode(os.waitpid(pid, 0)[1]) == 0
assert said.startswith(b'cesr: reading standard input'), said
assert b'MAAB1AAK\\r\\n\\x1b[32mpassed' in said, said
",
    );
}

/// A stream that can't be read is told once where both outputs are seen.
#[test]
fn a_complaint_is_seen_once() {
    holds(
        "
names = ['samples/clean.cesr', 'gone.cesr']
at, _ = play(['judge'] + names, True, True)
assert at.count(b'No such file') == 1, at
for names_alone in (names[1:], ['--all'] + names[1:]):
    at, _ = play(['judge'] + names_alone, True, True)
    assert at.count(b'No such file') == 1 and b'error' in at, at
at, piped = play(['judge'] + names, True, False)
assert at.count(b'No such file') == piped.count(b'No such file') == 1, (at, piped)
at, piped = play(['judge', '--json'] + names, True, True)
assert at.count(b'No such file') == 2, at
",
    );
}

/// Bytes that are no text stay off a terminal.
#[test]
fn bytes_are_not_written_to_a_terminal() {
    holds(
        "
for arguments in (['judge', '--report'], ['convert', '--to', 'binary']):
    at, piped = play(arguments + ['samples/clean.cesr'], True, False)
    assert at == b'' and b'pipe' in piped, (at, piped)
",
    );
}

/// Bytes at a terminal would be no use; characters are.
#[test]
fn binary_is_not_for_a_terminal() {
    holds(
        "
for arguments in (['write', '1AAM'], ['group', 'A'], ['group', 'A', 'samples/clean-binary.cesr']):
    at, _ = play(arguments + ['--form', 'binary'], True, True)
    assert b'binary is not for a terminal' in at and b'\\xd4' not in at, at
at, _ = play(['write', '--form', 'text', '1AAM'], True, True)
assert at == b'1AAM', at
",
    );
}
