//! `--sarif`: a log of SARIF 2.1.0, a result for each refused item, for a
//! remainder and for a stream that was not judged.

use crate::hint;
use crate::input::Input;
use crate::json::quoted;
use crate::judged::Judged;
use crate::memory::Gathered;
use crate::name::Name;
use crate::outcome::{Found, Outcome};
use crate::pages::Gathers;
use crate::sha256;
use crate::standing::Standing;
use crate::total::Total;
use crate::words::measured;
use cesr::{Number, Refusal};
use std::io::{self, Write};
use std::ops::Range;
use std::time::Duration;

const SCHEMA: &str =
    "https://docs.oasis-open.org/sarif/sarif/v2.1.0/os/schemas/sarif-schema-2.1.0.json";

/// The rule of streams that were not judged; the others are the numbers'.
const NOT_JUDGED: &str = "cesr-not-judged";

#[derive(Default)]
pub struct Log {
    artifacts: Gathered,
    results: Gathered,
    /// Of what was not judged.
    notifications: Gathered,
    streams: usize,
}

impl Gathers for Log {
    fn add(&mut self, outcome: &Outcome, _: Duration) -> io::Result<()> {
        let place = Place::of(self.streams, outcome);
        self.streams = self.streams.saturating_add(1);
        self.artifact(&place, outcome)?;
        match (&outcome.found, outcome.complaint()) {
            (Found::Judged(input, report), None) => self.judged(&place, input, report),
            (_, why) => self.not_judged(&place, &why.unwrap_or_default()),
        }
    }

    fn whole(&mut self, total: &Total) -> io::Result<Vec<u8>> {
        let (worst, said) = (total.worst(), quoted(&total.in_words()));
        let well = worst <= Standing::Failed;
        let version = env!("CARGO_PKG_VERSION");
        let mut out = Gathered::default();
        write!(
            out,
            "{{\"$schema\":\"{SCHEMA}\",\"version\":\"2.1.0\",\"runs\":[{{"
        )?;
        write!(
            out,
            "\"tool\":{{\"driver\":{{\"name\":\"cesr\",\"version\":\"{version}\""
        )?;
        write!(
            out,
            ",\"semanticVersion\":\"{version}\",\"rules\":[{}]}}}}",
            rules()
        )?;
        write!(out, ",\"columnKind\":\"unicodeCodePoints\"")?;
        write!(out, ",\"invocations\":[{{\"executionSuccessful\":{well}")?;
        write!(out, ",\"exitCode\":{}", worst.status())?;
        write!(out, ",\"toolExecutionNotifications\":[")?;
        out.write_all(&self.notifications.0)?;
        write!(out, "]}}],\"artifacts\":[")?;
        out.write_all(&self.artifacts.0)?;
        write!(out, "],\"results\":[")?;
        out.write_all(&self.results.0)?;
        writeln!(out, "],\"properties\":{{\"summary\":{said}}}}}]}}")?;
        Ok(out.0)
    }
}

impl Log {
    fn artifact(&mut self, place: &Place, outcome: &Outcome) -> io::Result<()> {
        let (uri, word) = (&place.uri, outcome.standing().word());
        let out = &mut self.artifacts;
        let comma = comma(out);
        write!(out, "{comma}{{\"location\":{{\"uri\":{uri}}}")?;
        if let Found::Judged(input, report) = &outcome.found {
            let (length, digest) = (input.bytes.len(), sha256::of(&input.bytes));
            write!(
                out,
                ",\"length\":{length},\"hashes\":{{\"sha-256\":\"{digest}\"}}"
            )?;
            write!(out, ",\"properties\":{{\"outcome\":\"{word}\"")?;
            write!(
                out,
                ",\"form\":\"{}\",\"detected\":{}",
                input.form, input.detected
            )?;
            if let Some(bodies) = report.unjudged() {
                write!(out, ",\"unjudgedJsonBodies\":{bodies}")?;
            }
            if let Some(engine) = outcome.engine.word() {
                write!(out, ",\"engine\":\"{engine}\"")?;
            }
            let (accepted, refused) = (report.accepted(), report.refused());
            return write!(out, ",\"accepted\":{accepted},\"refused\":{refused}}}}}");
        }
        write!(out, ",\"properties\":{{\"outcome\":\"{word}\"}}}}")
    }

    fn judged(&mut self, place: &Place, input: &Input, report: &Judged) -> io::Result<()> {
        for row in report.refusals() {
            let Refusal { number, place: at } = row.refusal;
            let item = report.item(row.index).map(|item| item.range());
            let words = number.words();
            let said = format!("item {}: refused {number} at {at}, {words}", row.index);
            let region = place.region(item.unwrap_or(at..at));
            let more = format!("\"item\":{},\"place\":{at}", row.index);
            self.result(place, number, &said, &region, &more)?;
        }
        let Some(rest) = report.remainder() else {
            return Ok(());
        };
        let (number, offset) = (rest.number, rest.offset);
        let left = measured(input.form, input.bytes.len().saturating_sub(offset));
        let words = number.words();
        let said = format!("remainder {number} from {offset}, {words}; {left} not judged");
        let more = format!("\"place\":{}", report.refusal_of(rest, &input.bytes).place);
        let region = place.region(offset..input.bytes.len());
        self.result(place, number, &said, &region, &more)
    }

    fn result(
        &mut self,
        place: &Place,
        number: Number,
        said: &str,
        region: &str,
        more: &str,
    ) -> io::Result<()> {
        let rule = Number::all().take_while(|known| *known != number).count();
        let (location, said) = (place.location(region), quoted(said));
        let out = &mut self.results;
        let comma = comma(out);
        write!(
            out,
            "{comma}{{\"ruleId\":\"cesr-{number}\",\"ruleIndex\":{rule}"
        )?;
        write!(
            out,
            ",\"kind\":\"fail\",\"level\":\"error\",\"message\":{{\"text\":{said}}}"
        )?;
        write!(
            out,
            ",\"locations\":[{location}],\"properties\":{{{more}}}}}"
        )
    }

    /// Both as a result, since servers look at these alone, and as what kept
    /// the call from its work.
    fn not_judged(&mut self, place: &Place, why: &str) -> io::Result<()> {
        let (location, said) = (place.location(""), quoted(why));
        let body = format!(
            "\"level\":\"error\",\"message\":{{\"text\":{said}}},\"locations\":[{location}]}}"
        );
        let comma_there = comma(&self.notifications);
        write!(self.notifications, "{comma_there}{{{body}")?;
        let comma = comma(&self.results);
        write!(self.results, "{comma}{{\"ruleId\":\"{NOT_JUDGED}\",{body}")
    }
}

/// A stream's name and number in the log, and how its bytes are counted.
struct Place {
    index: usize,
    uri: String,
    /// One line of ASCII has columns beside its bytes, for servers that ask.
    columns: bool,
}

impl Place {
    fn of(index: usize, outcome: &Outcome) -> Place {
        let columns = match &outcome.found {
            Found::Judged(input, _) => input.bytes.iter().all(|byte| matches!(byte, 0x20..=0x7E)),
            _ => false,
        };
        Place {
            index,
            uri: uri(&outcome.name),
            columns,
        }
    }

    fn region(&self, part: Range<usize>) -> String {
        let (from, length) = (part.start, part.end.saturating_sub(part.start));
        let mut region = format!("\"byteOffset\":{from},\"byteLength\":{length}");
        if self.columns {
            let (start, end) = (from.saturating_add(1), part.end.saturating_add(1));
            region.push_str(&format!(
                ",\"startLine\":1,\"startColumn\":{start},\"endLine\":1,\"endColumn\":{end}"
            ));
        }
        format!(",\"region\":{{{region}}}")
    }

    fn location(&self, region: &str) -> String {
        let Place { index, uri, .. } = self;
        format!(
            "{{\"physicalLocation\":{{\"artifactLocation\":{{\"uri\":{uri},\"index\":{index}}}{region}}}}}"
        )
    }
}

/// The name as a reference, quoted: an absolute one of a file's, else relative
/// to where the call was made. Standard input has the name that no file has.
fn uri(name: &Name) -> String {
    let exact = name.exact();
    let bytes = match name {
        Name::StandardInput => exact.as_bytes(),
        // A file of this name is told otherwise, as for all machines.
        Name::File(file) if file.to_str().is_none() => file.as_encoded_bytes(),
        Name::File(_) => exact.as_bytes(),
    };
    let scheme = if bytes.starts_with(b"/") {
        "file://"
    } else {
        ""
    };
    let mut uri = String::from(scheme);
    for byte in bytes {
        match byte {
            b'A'..=b'Z' | b'a'..=b'z' | b'0'..=b'9' | b'-' | b'.' | b'_' | b'~' | b'/' => {
                uri.push(char::from(*byte));
            }
            byte => uri.push_str(&format!("%{byte:02X}")),
        }
    }
    quoted(&uri)
}

fn rules() -> String {
    let mut rules: Vec<String> = Number::all()
        .map(|number| {
            rule(
                &format!("cesr-{number}"),
                hint::plain(number),
                number.words(),
                hint::usually(number),
            )
        })
        .collect();
    rules.push(rule(
        NOT_JUDGED,
        "The stream was not judged.",
        "the stream is empty, missing, too long or other than listed, or could not be read",
        "a file that is not there",
    ));
    rules.join(",")
}

fn rule(id: &str, plain: &str, words: &str, usually: &str) -> String {
    let help = quoted(&format!("Usually {usually}."));
    let [id, plain, words] = [id, plain, words].map(quoted);
    format!(
        "{{\"id\":{id},\"shortDescription\":{{\"text\":{plain}}},\"fullDescription\":{{\"text\":{words}}}\
         ,\"help\":{{\"text\":{help}}},\"defaultConfiguration\":{{\"level\":\"error\"}}}}"
    )
}

/// What stands between two of a list.
fn comma(list: &Gathered) -> &'static str {
    match list.0.is_empty() {
        true => "",
        false => ",",
    }
}
