//! One stream before both judges, by every call that takes a stream. What they
//! answer and what they leave in the buffers must be the same.

use crate::{groups, seconds, walks};
use streams::table::GROUPS;
use streams::{Form, Random};

/// Nothing, or which call differs and how.
pub type Check = Result<(), String>;

/// The length written or read, or number and place.
pub type Answer = Result<usize, (u8, usize)>;

/// Streams up to this length are read at every offset.
const SMALL: usize = 240;

pub fn same<T: PartialEq + std::fmt::Debug>(call: &str, proved: T, oracle: T) -> Check {
    if proved == oracle {
        return Ok(());
    }
    let shown = format!("{call}:\n proved {proved:02X?}\n oracle {oracle:02X?}");
    Err(shown.chars().take(2000).collect())
}

pub fn by_proved<T>(answer: Result<T, proved::Refusal>) -> Result<T, (u8, usize)> {
    answer.map_err(|refused| (refused.number, refused.place))
}

pub fn by_oracle(answer: Result<usize, oracle::Refusal>) -> Answer {
    answer.map_err(|refused| (refused.number, refused.place))
}

pub fn oracle_form(form: Form) -> oracle::Form {
    match form {
        Form::Text => oracle::Form::Text,
        Form::Binary => oracle::Form::Binary,
    }
}

/// More than enough, just enough, one less, and none; each once.
pub fn rooms(size: usize) -> impl Iterator<Item = usize> {
    let one_less = size.checked_sub(1).filter(|less| *less > 0);
    let none = (size > 0).then_some(0);
    [Some(size + 9), Some(size), one_less, none]
        .into_iter()
        .flatten()
}

/// A call of both on a buffer of each room, which held AA before.
pub fn lent(
    name: &str,
    size: usize,
    proved: impl Fn(&mut [u8]) -> Answer,
    oracle: impl Fn(&mut [u8]) -> Answer,
) -> Check {
    for room in rooms(size) {
        let (mut ours, mut theirs) = (vec![0xAA; room], vec![0xAA; room]);
        let answers = (proved(&mut ours), oracle(&mut theirs));
        same(name, (answers.0, ours), (answers.1, theirs))
            .map_err(|why| format!("room {room}, {why}"))?;
    }
    Ok(())
}

/// Every call on one stream, which is a body too: of a group that may override
/// the genus/version, of one that may not, and of one of indexed items.
pub fn alike(stream: &[u8], form: Form) -> Check {
    report(stream, form)?;
    seconds::alike(stream, form)?;
    conversion(stream, form)?;
    for letter in *b"CJL" {
        groups::around(letter, stream, form)?;
    }
    let step = 1 + stream.len() / SMALL;
    let offsets = (0..stream.len()).step_by(step);
    reads(stream, form, offsets.chain(past(stream)))?;
    walks::from_the_start(stream, form).map(drop)
}

/// Every call on one stream of very many: it is read where its items stand,
/// where the walk stopped, at some other offsets, and past its end, and is the
/// body of one group.
pub fn alike_in_short(stream: &[u8], form: Form, seed: u64) -> Check {
    report(stream, form)?;
    seconds::alike(stream, form)?;
    conversion(stream, form)?;
    let letter = GROUPS[seed as usize % GROUPS.len()];
    groups::around(letter, stream, form)?;
    let items = walks::from_the_start(stream, form)?;
    let step = 1 + items.len() / SMALL;
    let places = items.iter().copied().step_by(step);
    let mut random = Random::new(seed);
    let others = (0..8).map(|_| random.below(stream.len()));
    reads(stream, form, places.chain(others).chain(past(stream)))
}

fn past(stream: &[u8]) -> [usize; 3] {
    [stream.len(), stream.len() + 1, usize::MAX]
}

fn reads(stream: &[u8], form: Form, mut offsets: impl Iterator<Item = usize>) -> Check {
    offsets.try_for_each(|at| {
        read(stream, form, at)?;
        read_indexed(stream, form, at)
    })
}

/// The room that a report asks for.
pub fn report_room(stream: &[u8], form: Form) -> usize {
    let found = oracle::report::report(stream, oracle_form(form));
    found.map_or(17, |report| report.room())
}

pub fn report(stream: &[u8], form: Form) -> Check {
    let room = report_room(stream, form);
    let calls: [Call; 2] = match form {
        Form::Text => [proved::report_text, beside::report_text],
        Form::Binary => [proved::report_binary, beside::report_binary],
    };
    both("report", stream, room, calls)
}

pub fn conversion(stream: &[u8], form: Form) -> Check {
    let size = stream.len();
    match form {
        Form::Text => {
            let calls = [proved::to_binary, beside::to_binary];
            both("text to binary", stream, size / 4 * 3, calls)
        }
        Form::Binary => {
            let calls = [proved::to_text, beside::to_text];
            both("binary to text", stream, size / 3 * 4, calls)
        }
    }
}

type Call = fn(&[u8], &mut [u8]) -> Result<usize, proved::Refusal>;

fn both(name: &str, stream: &[u8], size: usize, [proved, oracle]: [Call; 2]) -> Check {
    lent(
        name,
        size,
        |out| by_proved(proved(stream, out)),
        |out| by_proved(oracle(stream, out)),
    )
}

/// Tag and info as they are before a read.
const BEFORE: (proved::Tag, proved::Info) = ([0xAA; 11], [0xAA; proved::INFO]);

pub type Read = fn(
    &[u8],
    usize,
    &mut [u8],
    &mut proved::Tag,
    &mut proved::Info,
) -> Result<usize, proved::Refusal>;

/// By both, into every room. Out of a binary only a text is copied; where a raw
/// value lies, info says.
pub fn read(stream: &[u8], form: Form, at: usize) -> Check {
    let [proved, oracle]: [Read; 2] = match form {
        Form::Text => [proved::read_text, beside::read_text],
        Form::Binary => [proved::read_binary, beside::read_binary],
    };
    for room in rooms(asked(stream, form, at)) {
        let (mut ours, mut theirs) = (vec![0xAA; room], vec![0xAA; room]);
        let (mut tag, mut info) = BEFORE;
        let (mut told_tag, mut told_info) = BEFORE;
        let answer = proved(stream, at, &mut ours, &mut tag, &mut info);
        let told = oracle(stream, at, &mut theirs, &mut told_tag, &mut told_info);
        same(
            "read",
            (by_proved(answer), tag, info, ours),
            (by_proved(told), told_tag, told_info, theirs),
        )
        .map_err(|why| format!("at {at}, room {room}, {why}"))?;
    }
    Ok(())
}

/// The same of an indexed item: 114 bytes are the most that one holds.
pub fn read_indexed(stream: &[u8], form: Form, at: usize) -> Check {
    const INFO: proved::IndexedInfo = [0xAA; proved::INDEXED];
    let (mut info, mut told_info) = (INFO, INFO);
    if form == Form::Binary {
        let answer = proved::read_indexed_binary(stream, at, &mut info);
        let told = beside::read_indexed_binary(stream, at, &mut told_info);
        let (ours, theirs) = (by_proved(answer), by_proved(told));
        return same("read indexed", (ours, info), (theirs, told_info))
            .map_err(|why| format!("at {at}, {why}"));
    }
    let asked = beside::read_indexed_text(stream, at, &mut [0; 114], &mut told_info);
    for room in rooms(asked.unwrap_or(0)) {
        (info, told_info) = (INFO, INFO);
        let (mut ours, mut theirs) = (vec![0xAA; room], vec![0xAA; room]);
        let answer = proved::read_indexed_text(stream, at, &mut ours, &mut info);
        let told = beside::read_indexed_text(stream, at, &mut theirs, &mut told_info);
        same(
            "read indexed",
            (by_proved(answer), info, ours),
            (by_proved(told), told_info, theirs),
        )
        .map_err(|why| format!("at {at}, room {room}, {why}"))?;
    }
    Ok(())
}

/// The room that a read asks for.
fn asked(stream: &[u8], form: Form, at: usize) -> usize {
    let form = oracle_form(form);
    let framed = oracle::frame::frame(stream, form, at, stream.len());
    // A unit has at most four characters.
    let units = framed.map_or(0, |framed| framed.size / form.unit());
    let mut long = vec![0; 4 * units];
    match form {
        oracle::Form::Text => oracle::primitive::read_text(stream, at, &mut long)
            .map_or(0, |found| found.raw + found.text),
        oracle::Form::Binary => {
            oracle::primitive::read_binary(stream, at, &mut long).map_or(0, |found| found.0.text)
        }
    }
}
