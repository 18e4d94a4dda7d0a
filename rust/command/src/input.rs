//! Streams from files and standard input, never more of them than one byte
//! past the limit, and none that changed on the way.

use crate::kind::{Kind, Told};
use crate::name::Name;
use crate::terminal::Progress;
use crate::watch::Watch;
use crate::{say, words};
use cesr::Form;
use std::fs::File;
use std::io::{self, Read};
use std::os::fd::AsFd;
use std::path::{Path, PathBuf};

/// Bytes read at once, between two looks at the clock.
const PIECE: usize = 1 << 14;

/// Where a stream comes from.
#[derive(Clone, Debug, PartialEq, Eq)]
pub enum Source {
    Standard,
    File(PathBuf),
}

impl Source {
    /// The source's name for people and machines.
    pub fn name(&self) -> Name {
        match self {
            Source::Standard => Name::StandardInput,
            Source::File(path) => Name::File(path.clone().into_os_string()),
        }
    }
}

/// A stream as far as it was read: to be judged as some kind, or read in a form.
#[derive(Debug)]
pub struct Input<K = Kind> {
    pub bytes: Vec<u8>,
    pub form: K,
    /// Was the form guessed from the first bytes?
    pub detected: bool,
}

impl<K: Told> Input<K> {
    /// Form, and whether it was guessed.
    pub fn form_in_words(&self) -> String {
        match self.detected {
            true => format!("{} (detected from the first bytes)", self.form),
            false => self.form.to_string(),
        }
    }

    /// Is there a byte, and is every one 0?
    pub fn is_all_zeros(&self) -> bool {
        !self.bytes.is_empty() && self.bytes.iter().all(|byte| *byte == 0)
    }
}

/// Reads a stream, or says in words why it could not be read.
pub fn read<K: Told>(
    source: &Source,
    form: Option<K>,
    progress: &mut Progress,
) -> Result<Input<K>, String> {
    let input = match source {
        Source::Standard => typed_or_piped(form, progress),
        Source::File(path) => whole(path, form, progress),
    };
    progress.pause();
    input.map_err(|error| words::of_error(&error))
}

/// What is typed ends without a line feed, so that the report needs a new line.
fn typed_or_piped<K: Told>(form: Option<K>, progress: &mut Progress) -> io::Result<Input<K>> {
    let typed = progress.waits();
    let standard = io::stdin();
    let watch = Watch::begin(File::from(standard.as_fd().try_clone_to_owned()?), None)?;
    let input = limited(&mut standard.lock(), form, progress);
    if typed {
        say("\n");
    }
    steady(&watch, input?)
}

fn whole<K: Told>(path: &Path, form: Option<K>, progress: &mut Progress) -> io::Result<Input<K>> {
    let mut file = File::open(path)?;
    let watch = Watch::begin(file.try_clone()?, Some(path))?;
    steady(&watch, limited(&mut file, form, progress)?)
}

fn steady<K: Told>(watch: &Watch, input: Input<K>) -> io::Result<Input<K>> {
    watch.end(input.bytes.len(), past(input.form))?;
    Ok(input)
}

/// One byte past the limit, which is enough for the library to refuse.
fn past(form: impl Told) -> usize {
    form.limit().saturating_add(1)
}

fn limited<K: Told>(
    reader: &mut dyn Read,
    form: Option<K>,
    progress: &mut Progress,
) -> io::Result<Input<K>> {
    let mut bytes = Vec::new();
    let ended = filled(reader, &mut bytes, Form::TELLING, progress)?;
    let detected = form.is_none();
    let form = form.unwrap_or_else(|| K::told_from(&bytes));
    if !ended {
        filled(reader, &mut bytes, past(form), progress)?;
    }
    Ok(Input {
        bytes,
        form,
        detected,
    })
}

/// All of what is no stream, or in words why it could not be read.
pub fn all(source: &Source, most: usize) -> Result<Vec<u8>, String> {
    let read = match source {
        Source::Standard => piped(most),
        Source::File(path) => text(path, most),
    };
    read.map_err(|error| words::of_error(&error))
}

fn piped(most: usize) -> io::Result<Vec<u8>> {
    let standard = io::stdin();
    let watch = Watch::begin(File::from(standard.as_fd().try_clone_to_owned()?), None)?;
    bounded(&mut standard.lock(), &watch, most)
}

/// All of a file that is no stream, if it has no more bytes than this.
pub fn text(path: &Path, most: usize) -> io::Result<Vec<u8>> {
    let mut file = File::open(path)?;
    let watch = Watch::begin(file.try_clone()?, Some(path))?;
    bounded(&mut file, &watch, most)
}

fn bounded(reader: &mut dyn Read, watch: &Watch, most: usize) -> io::Result<Vec<u8>> {
    let (mut bytes, past) = (Vec::new(), most.saturating_add(1));
    filled(reader, &mut bytes, past, &mut Progress::none())?;
    watch.end(bytes.len(), past)?;
    match bytes.len() > most {
        true => Err(io::Error::other(format!("longer than {most} bytes"))),
        false => Ok(bytes),
    }
}

/// Reads on until there are so many bytes, or the end comes: true then. The
/// end is taken at its first word, since a terminal that is asked again waits
/// for a second one.
fn filled(
    mut reader: &mut dyn Read,
    bytes: &mut Vec<u8>,
    most: usize,
    progress: &mut Progress,
) -> io::Result<bool> {
    while bytes.len() < most {
        let asked = most.saturating_sub(bytes.len()).min(PIECE);
        let limit = u64::try_from(asked).unwrap_or(u64::MAX);
        if (&mut reader).take(limit).read_to_end(bytes)? < asked {
            return Ok(true);
        }
        progress.tick(|| format!("{} bytes read", bytes.len()));
    }
    Ok(false)
}

/// A source that is read as it comes, and the watch over it.
pub fn opened(source: &Source) -> io::Result<(Box<dyn Read>, Watch)> {
    match source {
        Source::Standard => {
            let standard = io::stdin();
            let watch = Watch::begin(File::from(standard.as_fd().try_clone_to_owned()?), None)?;
            Ok((Box::new(standard.lock()), watch))
        }
        Source::File(path) => {
            let file = File::open(path)?;
            let watch = Watch::begin(file.try_clone()?, Some(path))?;
            Ok((Box::new(file), watch))
        }
    }
}
