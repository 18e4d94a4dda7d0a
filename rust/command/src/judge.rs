//! `cesr judge`: one stream in full, or many with a line each and a total.

use crate::arguments::{Judge, Style};
use crate::complain;
use crate::expected::{self, Expected};
use crate::json;
use crate::live;
use crate::name::shown;
use crate::outcome::{no_memory, Found, Outcome};
use crate::pages::{Call, Pages};
use crate::readable;
use crate::standing::Standing;
use crate::terminal::{Paint, Progress};
use crate::total::Total;
use std::io::{self, IsTerminal, Write};
use std::time::Instant;

/// The worst standing of all streams.
pub fn run(task: &Judge, out: &mut dyn Write) -> io::Result<Standing> {
    if task.style == Style::Report && io::stdout().is_terminal() {
        complain("a report is bytes: send it to a file or a pipe");
        return Ok(Standing::Error);
    }
    let Expected {
        cases,
        listed,
        digest,
    } = expected::of(task);
    let list = task.manifest.as_ref();
    let call = Call {
        streams: cases.len(),
        manifest: list.map(|list| (shown(list.as_os_str()), digest)),
    };
    let mut pages = match Pages::begun(task, &cases, &call) {
        Ok(pages) => pages,
        Err(why) => {
            complain(&why);
            return Ok(Standing::Error);
        }
    };
    let (count, lines) = (cases.len(), task.style.is_for_people());
    let alone = count == 1 && listed.is_none();
    // A stream's line and the complaint would stand there one below the other.
    let seen_twice = lines && io::stdout().is_terminal() && io::stderr().is_terminal();
    let (paint, mut progress) = (Paint::told(), Progress::told());
    let mut total = Total::over(listed);
    progress.stays();
    for (index, case) in cases.into_iter().enumerate() {
        progress.at(index.saturating_add(1), count);
        progress.tick(|| "judging".to_string());
        let started = Instant::now();
        let outcome = match task.live {
            true => live::outcome(case, task, out, (paint, &mut progress))?,
            false => Outcome::of(case, task.form, task.engine, &mut progress),
        };
        let outcome = one(task.style, alone, out, outcome, paint)?;
        // A stream's line leaves whole, also where many write to one file.
        out.flush()?;
        pages.add(&outcome, started.elapsed());
        if let Some(why) = outcome.complaint().filter(|_| !seen_twice) {
            progress.clear();
            complain(&format!("{}: {why}", outcome.name));
        }
        total.add(&outcome);
    }
    if lines && !alone {
        writeln!(out, "{}", total.in_words())?;
    }
    progress.clear();
    out.flush()?;
    Ok(total.worst().max(pages.write(&total)))
}

/// Writes what came of a stream, and gives it back: an error where there was
/// no memory for its line.
fn one(
    style: Style,
    alone: bool,
    out: &mut dyn Write,
    outcome: Outcome,
    paint: Paint,
) -> io::Result<Outcome> {
    match style {
        Style::Json { all } => return object(out, outcome, all),
        Style::Report => {
            if let Found::Judged(_, report) = &outcome.found {
                out.write_all(report.as_bytes())?;
            }
        }
        Style::Plain if !alone => readable::line(out, &outcome, paint)?,
        Style::Plain => readable::block(out, &outcome, false, paint)?,
        Style::All => {
            readable::block(out, &outcome, true, paint)?;
            if !alone {
                writeln!(out)?;
            }
        }
    }
    Ok(outcome)
}

fn object(out: &mut dyn Write, outcome: Outcome, all: bool) -> io::Result<Outcome> {
    let (line, outcome) = match json::line(&outcome, all) {
        Ok(line) => (line, outcome),
        Err(error) => {
            // What it held is given back first.
            let (name, engine) = (outcome.name.clone(), outcome.engine);
            drop(outcome);
            let outcome = Outcome {
                name,
                engine,
                found: Found::Unread(no_memory(&error)),
            };
            (json::line(&outcome, all)?, outcome)
        }
    };
    out.write_all(&line)?;
    Ok(outcome)
}
