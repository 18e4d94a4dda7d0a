//! What a call is to judge: the streams that were handed in, held against a
//! manifest where there is one. Every file and every line of the manifest
//! gets an outcome of its own.

use crate::arguments::Judge;
use crate::input::{self, Source};
use crate::manifest::{self, Entry};
use crate::name::Name;
use crate::sha256::{self, Digest};
use crate::words;
use std::collections::HashMap;
use std::fs;
use std::path::{Path, PathBuf};

/// The longest manifest that is read.
const LONGEST: usize = 1 << 26;

/// One outcome to come.
#[derive(Debug)]
pub enum Case {
    /// A stream to judge, and as what it is listed.
    Stream(Source, Option<Entry>),
    /// What can't be judged, and why.
    Trouble(Name, String),
}

/// All of a call.
pub struct Expected {
    pub cases: Vec<Case>,
    /// The lines of the manifest.
    pub listed: Option<usize>,
    /// The digest of the manifest that was read.
    pub digest: Option<Digest>,
}

pub fn of(task: &Judge) -> Expected {
    let Some(list) = &task.manifest else {
        let stream = |source: &Source| Case::Stream(source.clone(), None);
        return Expected {
            cases: task.sources.iter().map(stream).collect(),
            listed: None,
            digest: None,
        };
    };
    let trouble = |why: String| Case::Trouble(Source::File(list.clone()).name(), why);
    let (lines, digest) = match input::text(list, LONGEST) {
        Ok(text) => (manifest::parse(&text), Some(sha256::of(&text))),
        Err(error) => {
            let why = format!("the manifest: {}", words::of_error(&error));
            return unlisted(trouble(why), &task.sources);
        }
    };
    let listed = Some(lines.len());
    let mut cases = match task.sources.is_empty() {
        true => Listed::of(list, &lines).all(),
        false => Listed::of(list, &lines).beside(&task.sources),
    };
    for (index, line) in lines.iter().enumerate() {
        if let Err(why) = line {
            cases.push(trouble(format!("line {}: {why}", index.saturating_add(1))));
        }
    }
    if lines.is_empty() {
        cases.push(trouble("the manifest lists nothing".to_string()));
    }
    Expected {
        cases,
        listed,
        digest,
    }
}

/// Without a manifest no stream is judged that was to be held against it.
fn unlisted(trouble: Case, given: &[Source]) -> Expected {
    let why = "not judged: the manifest can't be read";
    let unjudged = |source: &Source| Case::Trouble(source.name(), why.to_string());
    let mut cases = vec![trouble];
    cases.extend(given.iter().map(unjudged));
    Expected {
        cases,
        listed: Some(0),
        digest: None,
    }
}

/// A stream's place on the disk, whatever names its folder has. A link is a
/// place of its own.
pub type Place = PathBuf;

/// The streams of a manifest in its order.
struct Listed<'l> {
    entries: Vec<(Place, PathBuf, &'l Entry)>,
    /// The lines at which a place stands.
    lines: HashMap<Place, Vec<usize>>,
}

impl<'l> Listed<'l> {
    /// Names are relative to the manifest's folder.
    fn of(list: &Path, parsed: &'l [Result<Entry, &'static str>]) -> Listed<'l> {
        let folder = list.parent().unwrap_or(Path::new(""));
        let (mut entries, mut lines) = (Vec::new(), HashMap::<Place, Vec<usize>>::new());
        for (index, line) in parsed.iter().enumerate() {
            let Ok(entry) = line else { continue };
            let path = folder.join(&entry.name);
            let place = place(&path);
            let at = lines.entry(place.clone()).or_default();
            at.push(index.saturating_add(1));
            entries.push((place, path, entry));
        }
        Listed { entries, lines }
    }

    /// The listed streams, where no file is given.
    fn all(&self) -> Vec<Case> {
        let stream = |(place, path, entry): &(Place, PathBuf, &Entry)| {
            self.one(place, Source::File(path.clone()), entry)
        };
        self.entries.iter().map(stream).collect()
    }

    fn one(&self, place: &Place, source: Source, entry: &Entry) -> Case {
        match self.lines.get(place) {
            Some(lines) if lines.len() > 1 => {
                let lines: Vec<String> = lines.iter().map(usize::to_string).collect();
                let why = format!("listed more than once, in lines {}", lines.join(", "));
                Case::Trouble(source.name(), why)
            }
            _ => Case::Stream(source, Some(entry.clone())),
        }
    }

    /// The files that are given, then the listed ones that are not.
    fn beside(&self, given: &[Source]) -> Vec<Case> {
        let mut left: HashMap<&Place, &Entry> = HashMap::new();
        for (place, _, entry) in &self.entries {
            left.insert(place, entry);
        }
        let mut cases = Vec::new();
        for source in given {
            let at = match source {
                Source::File(path) => place(path),
                Source::Standard => Place::new(),
            };
            cases.push(match left.remove(&at) {
                Some(entry) => self.one(&at, source.clone(), entry),
                None => self.extra(&at, source),
            });
        }
        for (place, path, _) in &self.entries {
            if left.remove(place).is_some() {
                let why = "missing: listed in the manifest, not given".to_string();
                cases.push(Case::Trouble(Source::File(path.clone()).name(), why));
            }
        }
        cases
    }

    fn extra(&self, place: &Place, source: &Source) -> Case {
        let why = match self.lines.contains_key(place) {
            true => "extra: given more than once",
            false => "extra: not listed in the manifest",
        };
        Case::Trouble(source.name(), why.to_string())
    }
}

pub fn place(path: &Path) -> Place {
    let folder = match path.parent() {
        Some(folder) if folder.as_os_str().is_empty() => Path::new("."),
        Some(folder) => folder,
        None => Path::new("/"),
    };
    let found = match path.file_name() {
        Some(name) => fs::canonicalize(folder).map(|folder| folder.join(name)),
        None => fs::canonicalize(path),
    };
    found
        .or_else(|_| std::path::absolute(path))
        .unwrap_or_else(|_| path.to_path_buf())
}
