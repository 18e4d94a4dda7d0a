//! A stream's outcome for machines: one object on one line.

use crate::input::Input;
use crate::judged::Judged;
use crate::kind::Kind;
use crate::memory::Gathered;
use crate::name::is_seen;
use crate::outcome::{code_and_name, Found, Outcome};
use crate::sha256;
use cesr::{ItemForm, MixedItem, Number, RefusalRow, Remainder};
use std::io::{self, Write};

/// One line, to be written at once: lines of calls that share a file stay
/// whole. An error where there is no memory for it.
pub fn line(outcome: &Outcome, all: bool) -> io::Result<Vec<u8>> {
    let mut line = Gathered::default();
    object(&mut line, outcome, all)?;
    Ok(line.0)
}

/// Every stream has `stream`, `outcome` and `version`, and `engine` where it is
/// not the first; what was judged has its sums, refusals and remainder, and with
/// `all` its `rows`.
fn object(out: &mut dyn Write, outcome: &Outcome, all: bool) -> io::Result<()> {
    let name = quoted(&outcome.name.exact());
    let word = quoted(outcome.standing().word());
    write!(out, "{{\"stream\":{name},\"outcome\":{word}")?;
    match &outcome.found {
        Found::Judged(input, report) => judged(out, input, report, all)?,
        Found::Refused(input, refusal) => {
            form(out, input)?;
            let why = why(refusal.number);
            write!(out, ",\"refusal\":{{{why},\"place\":{}}}", refusal.place)?;
        }
        Found::Unread(why) => write!(out, ",\"error\":{}", quoted(why))?,
    }
    if let Some(engine) = outcome.engine.word() {
        write!(out, ",\"engine\":\"{engine}\"")?;
    }
    writeln!(out, ",{}}}", version())
}

/// Which command said it: an object is kept longer than a program.
pub fn version() -> String {
    format!("\"version\":{}", quoted(cesr::VERSION))
}

fn form(out: &mut dyn Write, input: &Input) -> io::Result<()> {
    let Input { form, detected, .. } = input;
    write!(out, ",\"form\":\"{form}\",\"detected\":{detected}")
}

fn judged(out: &mut dyn Write, input: &Input, report: &Judged, all: bool) -> io::Result<()> {
    form(out, input)?;
    write!(out, ",\"length\":{}", input.bytes.len())?;
    write!(out, ",\"sha256\":\"{}\"", sha256::of(&input.bytes))?;
    write!(out, ",\"items\":{}", report.items().len())?;
    write!(out, ",\"accepted\":{}", report.accepted())?;
    write!(out, ",\"refused\":{}", report.refused())?;
    if let Some(bodies) = report.unjudged() {
        write!(out, ",\"unjudged_json_bodies\":{bodies}")?;
    }
    listed(out, "refusals", report.refusals(), |out, row| {
        refusal(out, input, report, &row)
    })?;
    match report.remainder() {
        Some(rest) => remainder(out, input, report, rest)?,
        None => write!(out, ",\"remainder\":null")?,
    }
    let zeros = input.is_all_zeros();
    write!(out, ",\"zeros\":{zeros}")?;
    if all {
        listed(out, "rows", report.items(), |out, item| {
            row(out, input, &item)
        })?;
    }
    Ok(())
}

fn listed<T>(
    out: &mut dyn Write,
    key: &str,
    rows: impl Iterator<Item = T>,
    each: impl Fn(&mut dyn Write, T) -> io::Result<()>,
) -> io::Result<()> {
    write!(out, ",\"{key}\":[")?;
    for (index, row) in rows.enumerate() {
        if index > 0 {
            write!(out, ",")?;
        }
        each(out, row)?;
    }
    write!(out, "]")
}

/// An item's place in the stream and its code. In a mixed stream it has its own
/// form, and JSON its protocol and version.
fn item(out: &mut dyn Write, input: &Input, item: &MixedItem) -> io::Result<()> {
    let MixedItem {
        offset, size, form, ..
    } = item;
    write!(out, ",\"offset\":{offset},\"size\":{size}")?;
    if input.form == Kind::Mixed {
        let form = form.to_string().to_lowercase();
        write!(out, ",\"form\":\"{form}\"")?;
    }
    if *form == ItemForm::Json {
        let head = item.json(&input.bytes);
        let [protocol, version] = head
            .as_ref()
            .map_or(["", ""], |head| [head.protocol(), head.version()]);
        let [protocol, version] = [protocol, version].map(quoted);
        return write!(out, ",\"protocol\":{protocol},\"version\":{version}");
    }
    let (code, name) = code_and_name(item, &input.bytes);
    write!(
        out,
        ",\"code\":{},\"name\":{}",
        quoted(&code),
        quoted(&name)
    )
}

fn refusal(
    out: &mut dyn Write,
    input: &Input,
    report: &Judged,
    row: &RefusalRow,
) -> io::Result<()> {
    write!(out, "{{\"item\":{}", row.index)?;
    if let Some(refused) = report.item(row.index) {
        item(out, input, &refused)?;
    }
    let why = why(row.refusal.number);
    write!(out, ",{why},\"place\":{}}}", row.refusal.place)
}

fn remainder(
    out: &mut dyn Write,
    input: &Input,
    report: &Judged,
    rest: Remainder,
) -> io::Result<()> {
    let place = report.refusal_of(rest, &input.bytes).place;
    let length = input.bytes.len().saturating_sub(rest.offset);
    let why = why(rest.number);
    write!(out, ",\"remainder\":{{\"offset\":{}", rest.offset)?;
    write!(out, ",\"length\":{length},{why},\"place\":{place}}}")
}

/// A row of the report: 0 for accepted, else the number.
fn row(out: &mut dyn Write, input: &Input, row: &MixedItem) -> io::Result<()> {
    write!(out, "{{\"item\":{}", row.index)?;
    item(out, input, row)?;
    let verdict = row.verdict.number().map_or(0, Number::get);
    write!(out, ",\"verdict\":{verdict}}}")
}

pub fn why(number: Number) -> String {
    format!("\"number\":{number},\"meaning\":{}", quoted(number.words()))
}

/// A string of JSON, with nothing in it that a terminal would act on, and no
/// blanks that would wrap what it shows.
pub fn quoted(text: &str) -> String {
    let mut quoted = String::from('"');
    for c in text.chars() {
        match c {
            '"' | '\\' => quoted.extend(['\\', c]),
            ' ' if !quoted.ends_with(' ') => quoted.push(c),
            c if is_seen(c) => quoted.push(c),
            c => {
                for half in c.encode_utf16(&mut [0; 2]) {
                    quoted.push_str(&format!("\\u{half:04x}"));
                }
            }
        }
    }
    quoted.push('"');
    quoted
}
