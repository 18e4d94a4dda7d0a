//! `cesr compare`: an expectation file held against a report. What is as
//! expected may be a refusal: the line is no verdict on a stream.

use crate::arguments::Compare;
use crate::complain;
use crate::input::{self, Source};
use crate::json::{quoted, version, why};
use crate::standing::Standing;
use crate::terminal::Paint;
use cesr::{Comparison, Expectation, Form, Refusal};
use std::io::{self, Write};

/// The longest file that is read: a report takes at most some 19 MB.
const LONGEST: usize = 1 << 26;

/// The empty stream's report.
const NO_ITEM: [u8; 12] = [0; 12];

/// What came of it.
enum Found {
    Compared(Comparison),
    /// Nothing was expected, and nothing is there.
    Nothing(Comparison),
    Refused(Refusal),
    /// In words, why nothing was compared.
    Unread(String),
}

/// Passed where all is as expected.
pub fn run(task: &Compare, out: &mut dyn Write) -> io::Result<Standing> {
    let found = match (read(&task.expected), read(&task.report)) {
        (Ok(expected), Ok(report)) => compared(task, &expected, &report),
        (Err(why), _) | (_, Err(why)) => {
            complain(&why);
            Found::Unread(why)
        }
    };
    match (task.json, &found) {
        (true, found) => object(out, task, found)?,
        (false, Found::Compared(counts)) => line(out, task, counts)?,
        (false, _) => {}
    }
    Ok(standing(&found))
}

fn read(source: &Source) -> Result<Vec<u8>, String> {
    input::all(source, LONGEST).map_err(|why| format!("{}: {why}", source.name()))
}

fn compared(task: &Compare, expected: &[u8], report: &[u8]) -> Found {
    let nothing = Expectation::default().to_bytes();
    match cesr::compare(expected, report) {
        Ok(counts) if counts.is_as_expected() && expected == nothing => {
            let name = task.report.name();
            complain(&format!(
                "{name}: nothing was expected, and no item is there"
            ));
            Found::Nothing(counts)
        }
        Ok(counts) => Found::Compared(counts),
        Err(refusal) => {
            // Each by itself, since the number says of neither that it was the one.
            if cesr::compare(expected, &NO_ITEM).is_err() {
                refused(
                    &task.expected,
                    expected,
                    refusal,
                    "'cesr expect' makes the file of it",
                );
            }
            if cesr::compare(&nothing, report).is_err() {
                refused(
                    &task.report,
                    report,
                    refusal,
                    "'cesr judge --report' makes the report",
                );
            }
            Found::Refused(refusal)
        }
    }
}

/// Do these bytes read as the report of a mixed stream, whose items have rows of
/// ten bytes?
fn is_of_mixed(bytes: &[u8]) -> bool {
    let mut rest = bytes;
    for width in [10, 9, 5] {
        let Some((count, behind)) = rest.split_first_chunk() else {
            return false;
        };
        let count = usize::try_from(u32::from_be_bytes(*count)).unwrap_or(usize::MAX);
        let Some(behind) = behind.get(count.saturating_mul(width)..) else {
            return false;
        };
        rest = behind;
    }
    rest.is_empty()
}

/// The refusal, and what to do with what looks like text or is of a mixed stream.
fn refused(source: &Source, bytes: &[u8], refusal: Refusal, made: &str) {
    let mut said = format!("{}: {refusal}", source.name());
    if is_of_mixed(bytes) {
        said.push_str("\n        it reads as the report of a mixed stream, and compare reads none");
    }
    if !bytes.is_empty() && Form::told_from(bytes) == Form::Text {
        said.push_str(&format!("\n        it looks like text: {made}"));
    }
    complain(&said);
}

fn standing(found: &Found) -> Standing {
    match found {
        Found::Compared(counts) if counts.is_as_expected() => Standing::Passed,
        Found::Compared(_) => Standing::Failed,
        Found::Nothing(_) => Standing::Empty,
        Found::Refused(_) | Found::Unread(_) => Standing::Error,
    }
}

/// The words that open the line. `passed` is said of streams alone.
fn word(found: &Found) -> &'static str {
    match standing(found) {
        Standing::Passed => "as expected",
        Standing::Failed => "otherwise",
        other => other.word(),
    }
}

fn line(out: &mut dyn Write, task: &Compare, counts: &Comparison) -> io::Result<()> {
    let paint = Paint::told();
    let word = match counts.is_as_expected() {
        true => paint.good("as expected"),
        false => paint.bad("otherwise"),
    };
    let Comparison {
        passed,
        failed,
        not_reached,
        beyond,
        remainders_agree,
    } = counts;
    let remainders = match remainders_agree {
        true => "remainders agree",
        false => "remainders differ",
    };
    let (name, expected) = (task.report.name(), counts.expected());
    writeln!(
        out,
        "{word}  {name}: {expected} expected, {passed} passed, {failed} failed, \
         {not_reached} not reached, {beyond} beyond, {remainders}"
    )
}

/// One object on one line.
fn object(out: &mut dyn Write, task: &Compare, found: &Found) -> io::Result<()> {
    let names = [&task.expected, &task.report].map(|one| quoted(&one.name().exact()));
    let [expected, report] = names;
    let mut line = format!("{{\"expected\":{expected},\"report\":{report}");
    line.push_str(&format!(",\"outcome\":{}", quoted(word(found))));
    match found {
        Found::Compared(counts) | Found::Nothing(counts) => line.push_str(&numbers(counts)),
        Found::Refused(Refusal { number, place }) => {
            let why = why(*number);
            line.push_str(&format!(",\"refusal\":{{{why},\"place\":{place}}}"));
        }
        Found::Unread(why) => line.push_str(&format!(",\"error\":{}", quoted(why))),
    }
    line.push_str(&format!(",{}}}\n", version()));
    out.write_all(line.as_bytes())
}

fn numbers(counts: &Comparison) -> String {
    let Comparison {
        passed,
        failed,
        not_reached,
        beyond,
        remainders_agree,
    } = counts;
    format!(
        ",\"passed\":{passed},\"failed\":{failed},\"not_reached\":{not_reached},\
         \"beyond\":{beyond},\"remainders_agree\":{remainders_agree}"
    )
}
