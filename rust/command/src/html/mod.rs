//! `--html`: one page with all streams of a call, to look at and to print. It
//! is whole by itself and needs no script. Words and signs say what colours
//! say.

mod band;
mod bytes;
mod fault;
mod stream;

use crate::hint;
use crate::markup::escaped;
use crate::memory::Gathered;
use crate::outcome::Outcome;
use crate::pages::{Call, Gathers};
use crate::standing::Standing;
use crate::total::Total;
use cesr::Number;
use std::io::{self, Write};
use std::time::Duration;

/// Refusals that are listed on a page; of each stream one at least.
const LISTED: usize = 1_000;

/// Nothing is fetched and nothing is run, whatever a name may hold.
const HEAD: &str = "<!DOCTYPE html>
<html lang=\"en\">
<head>
<meta charset=\"utf-8\">
<meta name=\"viewport\" content=\"width=device-width, initial-scale=1\">
<meta http-equiv=\"Content-Security-Policy\" content=\"default-src 'none'; style-src 'unsafe-inline'\">
";
const STYLE: &str = include_str!("style.css");
/// The fills that tell parts of a band apart without colours.
const PATTERNS: &str = include_str!("patterns.svg");

const STREAMS: &str = "<h2>All streams</h2>
<table class=\"streams\">
<thead><tr><th>Outcome</th><th>Stream</th><th>Items</th><th>Accepted</th><th>Refused</th><th>Remainder</th></tr></thead>
";
const NUMBERS: &str = "<h2>Refused by number</h2>
<table class=\"numbers\">
<thead><tr><th>Number</th><th>Items</th><th>What it says</th></tr></thead>
";

const FOOT: &str = "<footer>
<p>Items are counted from 0, and so are offsets and places, in characters for text and in bytes for binary and for mixed \
streams. An item that is accepted is well formed; signatures and digests are not verified, and the body of a JSON item, which only a mixed \
stream has, is not judged. Every verdict, size and place is the proved library's.</p>
<p>cesr ";

/// A page as far as it is gathered.
pub struct Page {
    /// Is each stream told by its name, in a table too?
    many: bool,
    /// The pixels of a band.
    columns: usize,
    manifest: Vec<String>,
    /// The last stream's name and sums: of a stream that is alone.
    name: String,
    sums: String,
    /// Rows of the table of streams.
    rows: Gathered,
    streams: Gathered,
    count: usize,
    /// Refusals that may still be listed.
    left: usize,
    /// How often each number was given.
    numbers: Vec<(Number, usize)>,
}

impl Page {
    pub fn new(call: &Call) -> Page {
        let mut manifest = Vec::new();
        if let Some((name, digest)) = &call.manifest {
            let name = broken(name);
            manifest.push(format!("Manifest <span class=\"name\">{name}</span>"));
            let digest = digest.map(|digest| eighths(&digest.to_string()));
            manifest.extend(digest.map(|digest| format!("SHA-256 {digest}")));
        }
        Page {
            many: call.streams != 1 || call.manifest.is_some(),
            columns: band::columns(call.streams),
            manifest,
            name: String::new(),
            sums: String::new(),
            rows: Gathered::default(),
            streams: Gathered::default(),
            count: 0,
            left: LISTED,
            numbers: Vec::new(),
        }
    }

    fn counted(&mut self, number: Number) {
        match self.numbers.iter_mut().find(|(known, _)| *known == number) {
            Some((_, count)) => *count = count.saturating_add(1),
            None => self.numbers.push((number, 1)),
        }
    }
}

impl Gathers for Page {
    fn add(&mut self, outcome: &Outcome, _: Duration) -> io::Result<()> {
        self.name = outcome.name.to_string();
        stream::add(self, outcome)?;
        self.count = self.count.saturating_add(1);
        Ok(())
    }

    fn whole(&mut self, total: &Total) -> io::Result<Vec<u8>> {
        let (word, mut out) = (total.worst().word(), Gathered::default());
        if self.many {
            self.sums = total.in_words();
        }
        let title = escaped(if self.many { &self.sums } else { &self.name });
        writeln!(out, "{HEAD}<title>{word}: {title}</title>")?;
        writeln!(out, "<style>\n{STYLE}</style>\n</head>\n<body>\n{PATTERNS}")?;
        self.verdict(&mut out, total.worst())?;
        if self.many {
            out.write_all(STREAMS.as_bytes())?;
            out.write_all(&self.rows.0)?;
            writeln!(out, "</table>")?;
        }
        self.table(&mut out)?;
        out.write_all(&self.streams.0)?;
        let version = env!("CARGO_PKG_VERSION");
        writeln!(out, "{FOOT}{version}</p>\n</footer>\n</body>\n</html>")?;
        Ok(out.0)
    }
}

impl Page {
    /// All at one glance.
    fn verdict(&self, out: &mut Gathered, worst: Standing) -> io::Result<()> {
        let (word, sums) = (worst.word(), escaped(&self.sums));
        writeln!(out, "<header class=\"verdict {word}\">")?;
        writeln!(out, "<h1>{}</h1>", signed(worst))?;
        if !self.many {
            writeln!(out, "<p class=\"what name\">{}</p>", broken(&self.name))?;
        }
        writeln!(out, "<p class=\"sums\">{sums}</p>")?;
        writeln!(out, "<p>{}</p>", meaning(worst))?;
        if !self.manifest.is_empty() {
            writeln!(out, "<p>{}</p>", self.manifest.join(", "))?;
        }
        writeln!(out, "</header>")
    }

    /// The numbers that were given, how often, and what they say; not where
    /// that stands once below.
    fn table(&mut self, out: &mut Gathered) -> io::Result<()> {
        let once = self.numbers.iter().all(|(_, count)| *count == 1);
        if self.numbers.is_empty() || (once && !self.many) {
            return Ok(());
        }
        self.numbers.sort();
        out.write_all(NUMBERS.as_bytes())?;
        for (number, count) in &self.numbers {
            let (plain, words) = (escaped(hint::plain(*number)), escaped(number.words()));
            write!(out, "<tr><td data-is=\"Number\">{number}</td>")?;
            write!(out, "<td data-is=\"Items\">{count}</td>")?;
            write!(out, "<td data-is=\"What it says\">{plain} ")?;
            writeln!(out, "<span class=\"paper\">({words})</span></td></tr>")?;
        }
        writeln!(out, "</table>")
    }
}

/// What an outcome means, for who reads nothing else.
fn meaning(standing: Standing) -> &'static str {
    match standing {
        Standing::Passed => "Every byte lies in an accepted item.",
        Standing::Failed => "An item is refused, or the end of a stream could not be read.",
        Standing::Empty => "A stream has no bytes: nothing was judged there. This is no pass.",
        Standing::Error => "Not everything could be judged. This is no pass.",
    }
}

/// An outcome's word behind its sign.
fn signed(standing: Standing) -> String {
    let sign = match standing {
        Standing::Passed => "\u{2713}",
        Standing::Failed => "\u{2715}",
        Standing::Empty => "\u{2205}",
        Standing::Error => "!",
    };
    let word = standing.word();
    format!("<span class=\"sign\" aria-hidden=\"true\">{sign}</span> {word}")
}

/// A name that may be broken behind its signs.
fn broken(name: &str) -> String {
    let parts = name.split_inclusive(['/', '.', '-', '_', ' ']);
    let parts: Vec<String> = parts.map(escaped).collect();
    parts.join("<wbr>")
}

/// A digest that may be broken between its eighths.
fn eighths(digest: &str) -> String {
    let eighths = digest.as_bytes().chunks(8);
    let eighths: Vec<String> = eighths
        .map(|eighth| eighth.escape_ascii().to_string())
        .collect();
    format!("<span class=\"digest\">{}</span>", eighths.join("<wbr>"))
}
