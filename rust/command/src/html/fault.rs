//! A refused item, or the remainder: its bytes, its number in plain words
//! beside the paper's, what stands at the place, and in which groups.

use super::bytes;
use crate::hint;
use crate::inner::Inner;
use crate::input::Input;
use crate::judged::Judged;
use crate::markup::escaped;
use crate::outcome::code_and_name;
use crate::readable;
use crate::words::measured;
use cesr::{Form, ItemForm, Number, Refusal, RefusalRow, Remainder, Step};
use std::io::{self, Write};
use std::ops::Range;

/// Groups that are listed with their names; more are told by code and place.
const NAMED: usize = 6;

pub fn refused(
    out: &mut dyn Write,
    input: &Input,
    report: &Judged,
    row: &RefusalRow,
) -> io::Result<()> {
    let Refusal { number, place } = row.refusal;
    let title = format!("Item {}: refused {number} at {place}", row.index);
    let Some(item) = report.item(row.index) else {
        return Ok(());
    };
    opened(out, "refused", "\u{2715}", &title, row.refusal)?;
    let (code, name) = code_and_name(&item, &input.bytes);
    let (form, size) = (
        readable::formed(input, item.form),
        measured(input.form, item.size),
    );
    said(
        out,
        "The item",
        &format!("{form}{}, {size} from {}", coded(&code, &name), item.offset),
    )?;
    closed(
        out,
        input,
        (item.form, item.range()),
        row.refusal,
        "the item",
        None,
    )
}

pub fn remainder(
    out: &mut dyn Write,
    input: &Input,
    report: &Judged,
    rest: Remainder,
) -> io::Result<()> {
    let Remainder { offset, number } = rest;
    let refusal = report.refusal_of(rest, &input.bytes);
    let left = measured(input.form, input.bytes.len().saturating_sub(offset));
    let title = format!("Remainder {number} from {offset}");
    opened(out, "remainder", "?", &title, refusal)?;
    let why = "nobody knows where the next item starts";
    said(out, "Not judged", &format!("{left}: {why}"))?;
    let part = offset..input.bytes.len();
    let form = report.form_of(input.bytes.get(offset..).unwrap_or_default());
    let note = readable::mixed_note(input, rest);
    closed(out, input, (form, part), refusal, "the remainder", note)
}

fn opened(
    out: &mut dyn Write,
    class: &str,
    sign: &str,
    title: &str,
    refusal: Refusal,
) -> io::Result<()> {
    let (number, plain) = (refusal.number, escaped(hint::plain(refusal.number)));
    writeln!(out, "<article class=\"fault {class}\">")?;
    writeln!(
        out,
        "<h3><span class=\"sign\" aria-hidden=\"true\">{sign}</span> {title}</h3>"
    )?;
    writeln!(out, "<p class=\"plain\">{plain}</p>\n<dl>")?;
    let words = escaped(number.words());
    said(out, "In the paper's words", &format!("{number}: {words}"))
}

/// What stands at the place, the bytes there, and what is usually behind it.
fn closed(
    out: &mut dyn Write,
    input: &Input,
    (form, part): (ItemForm, Range<usize>),
    refusal: Refusal,
    what: &str,
    note: Option<String>,
) -> io::Result<()> {
    // What starts no item of a mixed stream is none to look into.
    if let Some(form) = form.cesr().filter(|_| refusal.number != Number::MixedStart) {
        inside(out, input, form, part.clone(), refusal)?;
    }
    let seen = readable::note(readable::shown_in(form), &input.bytes, refusal);
    for note in seen.into_iter().chain(note) {
        said(out, "Seen there", &escaped(&note))?;
    }
    said(out, "Usually", &escaped(hint::usually(refusal.number)))?;
    writeln!(out, "</dl>")?;
    let form = readable::shown_in(form);
    bytes::written(out, form, &input.bytes, part, refusal.place, what)?;
    writeln!(out, "</article>")
}

/// Which item is refused in it, and in which groups.
fn inside(
    out: &mut dyn Write,
    input: &Input,
    form: Form,
    part: Range<usize>,
    refusal: Refusal,
) -> io::Result<()> {
    let start = part.start;
    let bytes = input.bytes.get(part).unwrap_or_default();
    let inner = Inner::of(form, bytes, start);
    if inner.at > start {
        let head = inner
            .head
            .map(|head| (head.to_string(), head.name().unwrap_or_default()));
        let what = match head {
            Some((code, name)) => coded(&code, name),
            None => "no item's code".to_string(),
        };
        said(out, "Refused in it", &format!("at {}: {what}", inner.at))?;
    }
    if !inner.groups.is_empty() {
        said(out, "Stands in", &groups(form, &inner.groups))?;
    }
    match inner.asked(refusal) {
        Some(asked) => said(out, "Size", &asked),
        None => Ok(()),
    }
}

fn said(out: &mut dyn Write, name: &str, value: &str) -> io::Result<()> {
    writeln!(out, "<div><dt>{name}</dt><dd>{value}</dd></div>")
}

fn coded(code: &str, name: &str) -> String {
    format!("<code>{}</code> {}", escaped(code), escaped(name))
}

/// The groups that are open at the place, outermost first.
fn groups(form: Form, groups: &[Step]) -> String {
    let one = |group: &Step| {
        let (code, from) = (escaped(&group.head.to_string()), group.offset);
        let size = measured(form, group.size);
        match groups.len() <= NAMED {
            true => {
                let name = escaped(group.head.name().unwrap_or_default());
                format!("<li><code>{code}</code> {name}, {size} from {from}</li>")
            }
            false => format!("<li><code>{code}</code> from {from}</li>"),
        }
    };
    let class = if groups.len() <= NAMED { "few" } else { "many" };
    let said: String = groups.iter().map(one).collect();
    let all = match groups.len() {
        0..=NAMED => String::new(),
        count => format!("{count} groups, one in the other: "),
    };
    format!("{all}<ol class=\"groups {class}\">{said}</ol>")
}
