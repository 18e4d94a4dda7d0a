//! The command's arguments.

use crate::engine::{Engine, FIRST_ALONE};
use crate::help;
use crate::input::Source;
use crate::kind::Kind;
use crate::name::shown;
use crate::pages::Asked;
use crate::standing::Standing;
use crate::write::{Item, Values};
use cesr::Form;
use std::ffi::{OsStr, OsString};
use std::path::{Path, PathBuf};
use std::vec::IntoIter;

const COMMANDS: &str = "judge, convert, show, group, write, manifest, compare, expect or numbers";

#[rustfmt::skip]
const JUDGE: &[&str] = &[
    "--form", MIXED, "--engine", "--manifest", "--all", "--json", "--report", "--html", "--junit",
    "--sarif", "--live",
];

#[rustfmt::skip]
const WRITE: &[&str] = &[
    "--form", "--index", "--ondex", "--raw", "--tag", "--text", "--out", CODE,
];

/// Words that no option is: what a command asks for in front of its FILE, and
/// may be given with the `-` of a group.
const LETTER: &str = "LETTER";
const CODE: &str = "CODE";

/// And one that says that the form may be mixed.
const MIXED: &str = "MIXED";

/// What is asked for.
#[derive(Debug)]
pub enum Task {
    Judge(Judge),
    Convert(Convert),
    Show(Show),
    Group(Group),
    Write(Write),
    Manifest(Manifest),
    Compare(Compare),
    Expect(Expect),
    /// A text of the command's own, and how the call stands that asked for it.
    Say(String, Standing),
}

#[derive(Debug)]
pub struct Judge {
    pub form: Option<Kind>,
    pub engine: Engine,
    pub style: Style,
    /// While it is being written; of one source, by the first engine, unlisted.
    pub live: bool,
    pub manifest: Option<PathBuf>,
    /// Files that are written beside the lines.
    pub pages: Vec<Asked>,
    /// None but with a manifest.
    pub sources: Vec<Source>,
}

#[derive(Clone, Copy, Debug, PartialEq, Eq)]
pub enum Style {
    Plain,
    All,
    Json { all: bool },
    Report,
}

impl Style {
    pub fn is_for_people(self) -> bool {
        matches!(self, Style::Plain | Style::All)
    }
}

#[derive(Debug)]
pub struct Convert {
    pub to: Option<Form>,
    pub out: Option<PathBuf>,
    pub source: Source,
}

#[derive(Debug)]
pub struct Show {
    pub form: Option<Kind>,
    pub at: usize,
    pub source: Source,
}

#[derive(Debug)]
pub struct Group {
    pub form: Form,
    pub letter: u8,
    pub out: Option<PathBuf>,
    pub source: Source,
}

#[derive(Debug)]
pub struct Write {
    pub form: Form,
    /// The code as it was given.
    pub code: OsString,
    pub item: Item,
    pub out: Option<PathBuf>,
}

#[derive(Debug)]
pub struct Manifest {
    pub form: Option<Kind>,
    pub sources: Vec<Source>,
}

#[derive(Debug)]
pub struct Compare {
    pub json: bool,
    pub expected: Source,
    pub report: Source,
}

#[derive(Debug)]
pub struct Expect {
    /// Given, the source is a stream; never a mixed one.
    pub form: Option<Kind>,
    pub out: Option<PathBuf>,
    pub source: Source,
}

/// All that a call can give.
#[derive(Default)]
struct Given {
    form: Option<Kind>,
    engine: Option<Engine>,
    to: Option<Form>,
    out: Option<OsString>,
    manifest: Option<OsString>,
    pages: Vec<Asked>,
    values: Values,
    all: bool,
    json: bool,
    report: bool,
    live: bool,
    help: bool,
    sources: Vec<Source>,
}

/// Makes a command's task of what is given.
type Made = fn(Given) -> Result<Task, String>;

/// The task, or in words what is wrong with the call.
pub fn parse(mut arguments: impl Iterator<Item = OsString>) -> Result<Task, String> {
    let Some(command) = arguments.next() else {
        return Err(format!("which command? {COMMANDS}"));
    };
    let (task, allowed): (Made, &[&str]) = match command.to_str().unwrap_or_default() {
        "judge" => (judge, JUDGE),
        "convert" => (convert, &["--to", "--out"]),
        "show" => (show, &["--form", MIXED]),
        "group" => (group, &["--form", "--out", LETTER]),
        "write" => (write, WRITE),
        "manifest" => (manifest, &["--form", MIXED]),
        "compare" => (compare, &["--json"]),
        "expect" => (expect, &["--form", "--out"]),
        "numbers" => (|given| said(given, help::numbers()), &[]),
        "help" | "--help" | "-h" => (|given| said(given, help::HELP.to_string()), &[]),
        "--version" | "-V" => (|given| said(given, help::VERSION.to_string()), &[]),
        _ => {
            let command = shown(&command);
            return Err(format!("no such command: {command} ({COMMANDS})"));
        }
    };
    let given = Given::from(arguments.collect(), allowed)?;
    match given.help {
        // A file may have this name: nothing was judged, so it is no pass.
        true => Ok(Task::Say(help::HELP.to_string(), Standing::Error)),
        false => task(given),
    }
}

impl Given {
    /// Behind `--` every word is a file's name. Without it a word may be an
    /// option, and then it must not be a file's name too.
    fn from(words: Vec<OsString>, allowed: &[&str]) -> Result<Given, String> {
        let mut before = words;
        let mut behind = Vec::new();
        match before.iter().position(|word| word == "--") {
            Some(mark) => {
                behind = before.split_off(mark).split_off(1);
                // A pattern may have given it, and then it marks nothing.
                if is_there(OsStr::new("--")) && !behind.iter().any(|word| word == "--") {
                    return Err("there is a file called --: say ./-- for it".to_string());
                }
                // A pattern that found nothing is no wish for standard input.
                if behind.is_empty() {
                    return Err("no FILE stands behind --".to_string());
                }
            }
            None => before.iter().try_for_each(|word| is_one_thing(word))?,
        }
        let mut given = Given::default();
        let mut before = before.into_iter();
        while let Some(word) = before.next() {
            given.take(word, &mut before, allowed)?;
        }
        let files = behind.into_iter().map(PathBuf::from).map(Source::File);
        given.sources.extend(files);
        Ok(given)
    }

    fn take(
        &mut self,
        word: OsString,
        more: &mut IntoIter<OsString>,
        allowed: &[&str],
    ) -> Result<(), String> {
        match word.to_str() {
            Some("--help" | "-h") => self.help = true,
            Some("-") => self.sources.push(Source::Standard),
            Some(option) if option.starts_with('-') => self.option(option, more, allowed)?,
            None if is_optional(&word) => return Err(no_such_option(&word)),
            _ => self.sources.push(Source::File(PathBuf::from(word))),
        }
        Ok(())
    }

    fn option(
        &mut self,
        option: &str,
        more: &mut IntoIter<OsString>,
        allowed: &[&str],
    ) -> Result<(), String> {
        let (name, mut value) = match option.split_once('=') {
            Some((name, value)) => (name, Some(OsString::from(value))),
            None => (option, None),
        };
        if !allowed.contains(&name) {
            let said = of_a_group(option, allowed);
            return Err(said.unwrap_or_else(|| no_such_option(OsStr::new(option))));
        }
        let mut valued = || {
            let value = value.take().or_else(|| more.next());
            value.ok_or_else(|| format!("{name} asks for a value"))
        };
        match name {
            "--form" => once(name, &mut self.form, kind(valued()?, allowed)?)?,
            "--engine" => once(name, &mut self.engine, engine(valued()?)?)?,
            "--to" => once(name, &mut self.to, form(valued()?)?)?,
            "--out" => once(name, &mut self.out, valued()?)?,
            "--manifest" => once(name, &mut self.manifest, valued()?)?,
            "--index" => once(name, &mut self.values.index, valued()?)?,
            "--ondex" => once(name, &mut self.values.ondex, valued()?)?,
            "--raw" => once(name, &mut self.values.raw, valued()?)?,
            "--tag" => once(name, &mut self.values.tag, valued()?)?,
            "--text" => once(name, &mut self.values.text, valued()?)?,
            "--html" | "--junit" | "--sarif" => Asked::add(&mut self.pages, name, valued()?)?,
            "--all" => self.all = true,
            "--json" => self.json = true,
            "--live" => self.live = true,
            _ => self.report = true,
        }
        match value {
            Some(_) => Err(format!("{name} takes no value")),
            None => Ok(()),
        }
    }
}

/// Of two values one would be passed over.
fn once<T>(name: &str, place: &mut Option<T>, value: T) -> Result<(), String> {
    match place.replace(value) {
        Some(_) => Err(format!("{name} is given twice")),
        None => Ok(()),
    }
}

fn is_optional(word: &OsStr) -> bool {
    word.as_encoded_bytes().starts_with(b"-")
}

/// Is there a file of this name here? Then a pattern may have given it.
fn is_there(word: &OsStr) -> bool {
    Path::new(word).symlink_metadata().is_ok()
}

/// An option that is a file's name too would leave the file unjudged.
fn is_one_thing(word: &OsStr) -> Result<(), String> {
    let name = shown(word);
    match is_optional(word) && is_there(word) {
        true => Err(format!(
            "there is a file called {name}: put -- before names, or say ./{name} for it"
        )),
        false => Ok(()),
    }
}

fn no_such_option(option: &OsStr) -> String {
    format!("no such option here: {}", shown(option))
}

/// `-K` where `K` is asked for, or where no group is written.
fn of_a_group(option: &str, allowed: &[&str]) -> Option<String> {
    let letter = option.trim_start_matches('-');
    if letter.chars().count() != 1 {
        return None;
    }
    let [letter, option] = [letter, option].map(|word| shown(OsStr::new(word)));
    match allowed.last() {
        Some(&LETTER) => Some(format!("a group's letter is {letter}, not {option}")),
        Some(&CODE) => Some(format!(
            "{option} is a group's code: cesr group puts one around items"
        )),
        _ => None,
    }
}

fn form(name: OsString) -> Result<Form, String> {
    let parsed = name.to_str().unwrap_or_default().parse();
    parsed.map_err(|wrong| format!("{wrong}, not {}", shown(&name)))
}

/// The form of a stream, which may be mixed where that is allowed.
fn kind(name: OsString, allowed: &[&str]) -> Result<Kind, String> {
    if !allowed.contains(&MIXED) {
        return form(name).map(Kind::Cesr);
    }
    let parsed = name.to_str().unwrap_or_default().parse();
    parsed.map_err(|wrong: &str| format!("{wrong}, not {}", shown(&name)))
}

fn engine(name: OsString) -> Result<Engine, String> {
    let known = Engine::named(name.to_str().unwrap_or_default());
    known.ok_or_else(|| {
        let name = shown(&name);
        format!("an engine is first, second or both, not {name}")
    })
}

fn said(given: Given, text: String) -> Result<Task, String> {
    match given.sources.is_empty() {
        true => Ok(Task::Say(text, Standing::Passed)),
        false => Err("there is no FILE for this".to_string()),
    }
}

fn judge(given: Given) -> Result<Task, String> {
    let style = match (given.all, given.json, given.report) {
        (false, false, false) => Style::Plain,
        (true, false, false) => Style::All,
        (all, true, false) => Style::Json { all },
        (false, false, true) => Style::Report,
        _ => return Err("--report goes with neither --json nor --all".to_string()),
    };
    if given.live {
        is_live(&given)?;
    }
    if given.form == Some(Kind::Mixed) && given.engine.is_some_and(|one| one != Engine::First) {
        return Err(format!(
            "--engine goes not with --form mixed: {FIRST_ALONE}"
        ));
    }
    let mut sources = given.sources;
    let inputs = sources.iter().filter(|one| **one == Source::Standard);
    match (inputs.count(), &given.manifest) {
        (1.., Some(_)) => return Err("standard input has no name to be listed by".to_string()),
        (2.., None) => return Err("standard input can be read once".to_string()),
        _ => {}
    }
    if style == Style::Report && (sources.len() > 1 || given.manifest.is_some()) {
        return Err("--report is of one stream, without a manifest".to_string());
    }
    if given.manifest.as_deref() == Some(OsStr::new("-")) {
        return Err("--manifest asks for a file".to_string());
    }
    if sources.is_empty() && given.manifest.is_none() {
        sources.push(Source::Standard);
    }
    Ok(Task::Judge(Judge {
        form: given.form,
        engine: given.engine.unwrap_or_default(),
        style,
        live: given.live,
        manifest: given.manifest.map(PathBuf::from),
        pages: given.pages,
        sources,
    }))
}

/// What is judged while it is being written is one stream, by one engine.
fn is_live(given: &Given) -> Result<(), String> {
    if given.engine.is_some() || given.manifest.is_some() {
        return Err("--live goes with neither --engine nor --manifest".to_string());
    }
    if given.form == Some(Kind::Mixed) {
        return Err("--live goes not with --form mixed".to_string());
    }
    match given.sources.len() {
        0 | 1 => Ok(()),
        _ => Err("--live is of one stream".to_string()),
    }
}

/// Where a command writes to; `-` is standard output.
fn out(name: Option<OsString>) -> Option<PathBuf> {
    name.filter(|name| name != "-").map(PathBuf::from)
}

fn convert(given: Given) -> Result<Task, String> {
    Ok(Task::Convert(Convert {
        to: given.to,
        out: out(given.out),
        source: at_most_one(given.sources.into_iter())?,
    }))
}

fn show(given: Given) -> Result<Task, String> {
    let mut sources = given.sources.into_iter();
    let at = match sources.next() {
        Some(Source::File(word)) => word.into_os_string(),
        _ => return Err("show asks for an OFFSET".to_string()),
    };
    let offset = at.to_str().unwrap_or_default().parse();
    Ok(Task::Show(Show {
        form: given.form,
        at: offset.map_err(|_| format!("no offset: {}", shown(&at)))?,
        source: at_most_one(sources)?,
    }))
}

/// The form of what is written, which nothing tells.
fn stated(command: &str, form: Option<Kind>) -> Result<Form, String> {
    match form {
        Some(Kind::Cesr(form)) => Ok(form),
        _ => Err(format!("{command} asks for --form text or --form binary")),
    }
}

fn group(given: Given) -> Result<Task, String> {
    let mut sources = given.sources.into_iter();
    let word = match sources.next() {
        Some(Source::File(word)) => word.into_os_string(),
        _ => return Err("group asks for a LETTER".to_string()),
    };
    let [letter] = *word.as_encoded_bytes() else {
        let word = shown(&word);
        return Err(format!("a group has one letter, like K, not {word}"));
    };
    Ok(Task::Group(Group {
        form: stated("group", given.form)?,
        letter,
        out: out(given.out),
        source: at_most_one(sources)?,
    }))
}

fn write(given: Given) -> Result<Task, String> {
    let mut sources = given.sources.into_iter();
    let code = match sources.next() {
        Some(Source::File(word)) => word.into_os_string(),
        _ => return Err("write asks for a CODE".to_string()),
    };
    if let Some(more) = sources.next() {
        return Err(format!("there is no FILE for this: {}", more.name()));
    }
    Ok(Task::Write(Write {
        form: stated("write", given.form)?,
        item: given.values.item(&code)?,
        code,
        out: out(given.out),
    }))
}

fn manifest(given: Given) -> Result<Task, String> {
    if given.sources.is_empty() || given.sources.contains(&Source::Standard) {
        return Err("manifest asks for a FILE or more, by their names".to_string());
    }
    Ok(Task::Manifest(Manifest {
        form: given.form,
        sources: given.sources,
    }))
}

fn compare(given: Given) -> Result<Task, String> {
    let mut sources = given.sources.into_iter();
    let Some(expected) = sources.next() else {
        return Err("compare asks for an EXPECTED file".to_string());
    };
    let report = at_most_one(sources)?;
    if expected == Source::Standard && report == Source::Standard {
        return Err("standard input can be read once".to_string());
    }
    Ok(Task::Compare(Compare {
        json: given.json,
        expected,
        report,
    }))
}

fn expect(given: Given) -> Result<Task, String> {
    Ok(Task::Expect(Expect {
        form: given.form,
        out: out(given.out),
        source: at_most_one(given.sources.into_iter())?,
    }))
}

fn at_most_one(mut sources: IntoIter<Source>) -> Result<Source, String> {
    match (sources.next(), sources.next()) {
        (None, _) => Ok(Source::Standard),
        (Some(source), None) => Ok(source),
        (Some(_), Some(more)) => Err(format!("one FILE only: {}", more.name())),
    }
}
