//! `cesr expect`: an expectation file, of a stream's own verdicts or of a list
//! of them. It is no verdict on the stream.

use crate::arguments::Expect;
use crate::complain;
use crate::convert::{failed, to_file};
use crate::engine::Engine;
use crate::input::{self, Input};
use crate::judged::Judged;
use crate::kind::{Kind, Told};
use crate::outcome::{self, Found};
use crate::standing::Standing;
use crate::terminal::Progress;
use crate::words::counted;
use cesr::Expectation;
use std::io::{self, IsTerminal, Write};

/// Passed where the file was written.
pub fn run(task: &Expect, out: &mut dyn Write) -> io::Result<Standing> {
    let name = task.source.name();
    let input = match input::read(&task.source, task.form, &mut Progress::told()) {
        Ok(input) => input,
        Err(why) => return failed(&format!("{name}: {why}")),
    };
    if input.bytes.is_empty() {
        complain(&format!("{name}: it is empty: nothing is expected"));
        return Ok(Standing::Empty);
    }
    let (expectation, told) = match told(input) {
        Ok(told) => told,
        Err(why) => return failed(&format!("{name}: {why}")),
    };
    if task.form.is_none() {
        complain(&format!("{name}: {told}"));
    }
    let bytes = expectation.to_bytes();
    match &task.out {
        Some(path) => to_file(path, &bytes),
        None if io::stdout().is_terminal() => {
            failed("an expectation file is bytes: give --out FILE, or send it to a pipe")
        }
        None => out.write_all(&bytes).map(|()| Standing::Passed),
    }
}

/// The expectation, and what it was made of. No input is both: what reads as a
/// list has no item as a text, since every code has a letter or a `-`.
fn told(input: Input) -> Result<(Expectation, String), String> {
    let (detected, form) = (input.detected, input.form_in_words());
    let list = match detected && input.bytes.len() <= input.form.limit() {
        true => list(&input.bytes),
        false => Err("it is a stream".to_string()),
    };
    if let Ok(list) = list {
        let verdicts = counted(list.verdicts.len(), "verdict");
        return Ok((list, format!("a list of {verdicts}")));
    }
    if input.form == Kind::Mixed {
        return Err(MIXED.to_string());
    }
    let own = match outcome::judged(input, Engine::First) {
        Found::Judged(_, Judged::Cesr(_, report)) => Expectation::of(&report),
        Found::Judged(_, Judged::Mixed(_)) => return Err(MIXED.to_string()),
        Found::Refused(_, refusal) => return Err(refusal.to_string()),
        Found::Unread(why) => return Err(why),
    };
    match list {
        Err(why) if detected && own.verdicts.is_empty() => Err(format!(
            "no list of verdicts ({why}) and no stream with an item; --form takes it as a stream"
        )),
        _ => {
            let items = counted(own.verdicts.len(), "item");
            Ok((own, format!("a stream of {items}, {form}")))
        }
    }
}

/// Why there is no expectation of a mixed stream.
const MIXED: &str = "a mixed stream, as it begins with {: compare reads no report of one";

/// A number a line, then `remainder N` or nothing; or in words what is wrong.
fn list(bytes: &[u8]) -> Result<Expectation, String> {
    let mut list = Expectation::default();
    let text = bytes.strip_suffix(b"\n").unwrap_or(bytes);
    for (index, line) in text.split(|byte| *byte == b'\n').enumerate() {
        let wrong = |why: &str| format!("line {}: {why}", index.saturating_add(1));
        if list.remainder.is_some() {
            return Err(wrong("something stands behind the remainder"));
        }
        match line.strip_prefix(b"remainder ") {
            Some(rest) => list.remainder = Some(number(rest).map_err(wrong)?),
            None => list.verdicts.push(number(line).map_err(wrong)?),
        }
    }
    Ok(list)
}

fn number(digits: &[u8]) -> Result<u8, &'static str> {
    let text = std::str::from_utf8(digits).unwrap_or_default();
    match text.bytes().all(|byte| byte.is_ascii_digit()) {
        true => text.parse().map_err(|_| "no number from 0 to 255"),
        false => Err("no number from 0 to 255"),
    }
}

#[cfg(test)]
mod tests {
    use super::*;

    #[test]
    fn lists() {
        for (text, verdicts, remainder) in [
            (&b"0"[..], &[0][..], None),
            (b"0\n8\n255\n", &[0, 8, 255], None),
            (b"0\n007\nremainder 4\n", &[0, 7], Some(4)),
            (b"remainder 6", &[], Some(6)),
        ] {
            let verdicts = verdicts.to_vec();
            let list = list(text).expect("a list");
            assert_eq!((list.verdicts, list.remainder), (verdicts, remainder));
        }
    }

    #[test]
    fn no_lists() {
        for (text, why) in [
            (&b"0\n256\n"[..], "line 2: no number from 0 to 255"),
            (b"", "line 1: no number from 0 to 255"),
            (b"0\n\n8\n", "line 2: no number from 0 to 255"),
            (b"0\n\n", "line 2: no number from 0 to 255"),
            (b"+1\n", "line 1: no number from 0 to 255"),
            (b"0 \n", "line 1: no number from 0 to 255"),
            (b"0\r\n", "line 1: no number from 0 to 255"),
            (b"MAAB", "line 1: no number from 0 to 255"),
            (b"0\nremainder\n", "line 2: no number from 0 to 255"),
            (b"0\nremainder 4x\n", "line 2: no number from 0 to 255"),
            (
                b"remainder 4\n0\n",
                "line 2: something stands behind the remainder",
            ),
            (
                b"remainder 4\nremainder 4\n",
                "line 2: something stands behind the remainder",
            ),
        ] {
            assert_eq!(list(text).expect_err("no list"), why);
        }
    }
}
