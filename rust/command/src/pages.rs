//! Files beside the lines, each with all streams of a call: a page for people,
//! a suite and a log for build servers. They are written when all is judged,
//! and one that can't be written makes the call an error.

use crate::arguments::Judge;
use crate::expected::{place, Case};
use crate::html::Page;
use crate::input::Source;
use crate::junit::Suite;
use crate::name::shown;
use crate::outcome::Outcome;
use crate::sarif::Log;
use crate::sha256::Digest;
use crate::standing::Standing;
use crate::total::Total;
use crate::{complain, replace, words};
use std::ffi::OsString;
use std::fs;
use std::io;
use std::os::unix::fs::MetadataExt;
use std::path::{Path, PathBuf};
use std::time::Duration;

/// A file that a call asks for.
#[derive(Clone, Debug, PartialEq, Eq)]
pub struct Asked {
    option: &'static str,
    path: PathBuf,
}

/// Begins a file.
type Begun = fn(&Call) -> Box<dyn Gathers>;

/// The options, and what gathers their files.
const KINDS: [(&str, Begun); 3] = [
    ("--html", |call| Box::new(Page::new(call))),
    ("--junit", |_| Box::new(Suite::default())),
    ("--sarif", |_| Box::new(Log::default())),
];

impl Asked {
    pub fn add(all: &mut Vec<Asked>, option: &str, value: OsString) -> Result<(), String> {
        let known = KINDS.iter().find(|kind| kind.0 == option);
        let option = known.map_or("", |kind| kind.0);
        if all.iter().any(|asked| asked.option == option) {
            return Err(format!("{option} is given twice"));
        }
        if value == "-" || value.is_empty() {
            return Err(format!("{option} asks for a file"));
        }
        let path = PathBuf::from(value);
        all.push(Asked { option, path });
        Ok(())
    }
}

/// What is known of a call before a stream is judged.
pub struct Call {
    pub streams: usize,
    /// The manifest's name, and its digest where it could be read.
    pub manifest: Option<(String, Option<Digest>)>,
}

/// What gathers the streams of a call for a file.
pub trait Gathers {
    /// The next stream, and how long it took.
    fn add(&mut self, outcome: &Outcome, took: Duration) -> io::Result<()>;
    /// All of the file.
    fn whole(&mut self, total: &Total) -> io::Result<Vec<u8>>;
}

/// The files of a call. One for which there is no memory is an error at last.
pub struct Pages(Vec<(PathBuf, io::Result<Box<dyn Gathers>>)>);

impl Pages {
    /// In words, why nothing is judged: a file is wanted where a stream, the
    /// manifest or another file stands.
    pub fn begun(task: &Judge, cases: &[Case], call: &Call) -> Result<Pages, String> {
        for (index, asked) in task.pages.iter().enumerate() {
            let name = shown(asked.path.as_os_str());
            let mut others = task.pages.iter().take(index);
            if others.any(|other| is_same(&asked.path, &other.path)) {
                return Err(format!("{name} is asked for twice"));
            }
            let mut read = cases
                .iter()
                .filter_map(file_of)
                .chain(task.manifest.as_deref());
            if read.any(|path| is_same(&asked.path, path)) {
                let option = asked.option;
                return Err(format!("{option} would replace {name}, which is read"));
            }
        }
        let begun = |asked: &Asked| {
            let kind = KINDS.iter().find(|kind| kind.0 == asked.option)?;
            Some((asked.path.clone(), Ok(kind.1(call))))
        };
        Ok(Pages(task.pages.iter().filter_map(begun).collect()))
    }

    pub fn add(&mut self, outcome: &Outcome, took: Duration) {
        for (_, page) in &mut self.0 {
            let added = page.as_mut().map(|page| page.add(outcome, took));
            if let Ok(Err(error)) = added {
                *page = Err(error);
            }
        }
    }

    /// Passed where all of them were written.
    pub fn write(self, total: &Total) -> Standing {
        let mut standing = Standing::Passed;
        for (path, page) in self.0 {
            let bytes = page.and_then(|mut page| page.whole(total));
            if let Err(error) = bytes.and_then(|bytes| replace::with(&path, &bytes)) {
                let name = shown(path.as_os_str());
                complain(&format!("{name}: {}", words::of_error(&error)));
                standing = Standing::Error;
            }
        }
        standing
    }
}

fn file_of(case: &Case) -> Option<&Path> {
    match case {
        Case::Stream(Source::File(path), _) => Some(path),
        Case::Stream(Source::Standard, _) => Some(Path::new("/dev/stdin")),
        Case::Trouble(..) => None,
    }
}

/// Do both names lead to one file, there or still to be made? What is no
/// regular file loses nothing.
fn is_same(one: &Path, other: &Path) -> bool {
    match (fs::metadata(one), fs::metadata(other)) {
        (Ok(one), Ok(_)) if !one.is_file() => false,
        (Ok(one), Ok(other)) => (one.dev(), one.ino()) == (other.dev(), other.ino()),
        (Err(_), Err(_)) => place(one) == place(other),
        _ => false,
    }
}
