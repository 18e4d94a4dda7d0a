//! One stream of the page: its outcome, what is known of it, its band, and
//! what is refused in it.

use super::{band, broken, eighths, fault, signed, Page};
use crate::engine::Engine;
use crate::input::Input;
use crate::judged::Judged;
use crate::markup::escaped;
use crate::memory::Gathered;
use crate::outcome::{Found, Outcome};
use crate::readable;
use crate::sha256;
use crate::words::{counted, measured};
use cesr::MixedItem;
use std::io::{self, Write};

pub fn add(page: &mut Page, outcome: &Outcome) -> io::Result<()> {
    let (number, standing) = (page.count, outcome.standing());
    let (word, name) = (standing.word(), broken(&outcome.name.to_string()));
    if page.many {
        row(page, outcome)?;
    }
    let out = &mut page.streams;
    writeln!(out, "<section class=\"stream\" id=\"stream-{number}\">")?;
    if page.many {
        let said = signed(standing);
        write!(out, "<h2><span class=\"outcome {word}\">{said}</span>")?;
        writeln!(out, " <span class=\"name\">{name}</span></h2>")?;
    }
    match (&outcome.found, outcome.complaint()) {
        (Found::Judged(input, report), None) => {
            let unjudged = readable::unjudged(report.unjudged().unwrap_or(0));
            let sums = [Some(readable::sums(report)), unjudged];
            page.sums = sums.into_iter().flatten().collect::<Vec<_>>().join("; ");
            judged(page, input, report, outcome.engine)?;
            more(page, report, outcome)?;
            remainder(page, input, report)?;
        }
        (_, complaint) => {
            page.sums = complaint.unwrap_or_default();
            if page.many {
                writeln!(page.streams, "<p>{}</p>", escaped(&page.sums))?;
            }
        }
    }
    writeln!(page.streams, "</section>")
}

/// The stream's row in the table of all.
fn row(page: &mut Page, outcome: &Outcome) -> io::Result<()> {
    let (number, standing, out) = (page.count, outcome.standing(), &mut page.rows);
    let (word, name) = (standing.word(), broken(&outcome.name.to_string()));
    let said = signed(standing);
    write!(
        out,
        "<tr><td class=\"outcome {word}\">{said}</td><td class=\"name\">"
    )?;
    write!(out, "<a href=\"#stream-{number}\">{name}</a></td>")?;
    let (Found::Judged(_, report), None) = (&outcome.found, outcome.complaint()) else {
        return writeln!(out, "<td colspan=\"4\">not judged</td></tr>");
    };
    let rest = match report.remainder() {
        Some(rest) => format!("from {}", rest.offset),
        None => "none".to_string(),
    };
    for (head, cell) in [
        ("Items", report.items().len().to_string()),
        ("Accepted", report.accepted().to_string()),
        ("Refused", report.refused().to_string()),
        ("Remainder", rest),
    ] {
        write!(out, "<td data-is=\"{head}\">{cell}</td>")?;
    }
    writeln!(out, "</tr>")
}

fn judged(page: &mut Page, input: &Input, report: &Judged, engine: Engine) -> io::Result<()> {
    facts(&mut page.streams, input, report, engine)?;
    let drawn = band::drawn(input, report, page.columns)?;
    page.streams.write_all(&drawn)?;
    for row in report.refusals() {
        page.counted(row.refusal.number);
    }
    for row in report.refusals().take(page.left.max(1)) {
        fault::refused(&mut page.streams, input, report, &row)?;
    }
    Ok(())
}

/// How many refused items are not listed.
fn more(page: &mut Page, report: &Judged, outcome: &Outcome) -> io::Result<()> {
    let rows = report.refusals().len();
    let more = rows.saturating_sub(page.left.max(1));
    page.left = page.left.saturating_sub(rows);
    let (are, them) = match more {
        0 => return Ok(()),
        1 => ("is", "it"),
        _ => ("are", "them"),
    };
    let (items, name) = (counted(more, "more item"), outcome.name.to_string());
    let call = escaped(&format!("cesr judge --all {name}"));
    let out = &mut page.streams;
    write!(
        out,
        "<p class=\"more\">{items} {are} refused and not listed: "
    )?;
    writeln!(out, "<code>{call}</code> lists {them}.</p>")
}

fn remainder(page: &mut Page, input: &Input, report: &Judged) -> io::Result<()> {
    match report.remainder() {
        Some(rest) => fault::remainder(&mut page.streams, input, report, rest),
        None => Ok(()),
    }
}

fn facts(out: &mut Gathered, input: &Input, report: &Judged, engine: Engine) -> io::Result<()> {
    let (form, bytes) = (input.form, &input.bytes);
    let accepted = report.items().filter(MixedItem::is_accepted);
    let covered = accepted.fold(0_usize, |sum, item| sum.saturating_add(item.size));
    let rest = match report.remainder() {
        Some(rest) => format!("from {}", rest.offset),
        None => "none".to_string(),
    };
    let length = measured(form, bytes.len());
    writeln!(out, "<dl class=\"facts\">")?;
    for (name, value) in [
        ("Items", report.items().len().to_string()),
        ("Accepted", report.accepted().to_string()),
        ("Refused", report.refused().to_string()),
        ("Remainder", rest),
        ("In accepted items", format!("{covered} of {length}")),
        ("Form", input.form_in_words()),
    ] {
        writeln!(out, "<div><dt>{name}</dt><dd>{value}</dd></div>")?;
    }
    if let Some(said) = readable::bodies(report.unjudged().unwrap_or(0)) {
        writeln!(out, "<div><dt>Not judged</dt><dd>{said}</dd></div>")?;
    }
    if let Some(word) = engine.word() {
        writeln!(out, "<div><dt>Engine</dt><dd>{word}</dd></div>")?;
    }
    let digest = eighths(&sha256::of(bytes).to_string());
    writeln!(
        out,
        "<div class=\"wide\"><dt>SHA-256</dt><dd>{digest}</dd></div>"
    )?;
    if let Some(said) = readable::beware(input) {
        let said = escaped(said);
        writeln!(
            out,
            "<div class=\"wide\"><dt>Beware</dt><dd>{said}</dd></div>"
        )?;
    }
    writeln!(out, "</dl>")
}
