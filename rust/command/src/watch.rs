//! Does a file stay as it is while it is read? One that does not gives bytes
//! of which some are from before and some from after: a stream that nobody
//! wrote.

use std::fs::{self, File, Metadata};
use std::io::{self, Seek};
use std::os::unix::fs::MetadataExt;
use std::path::{Path, PathBuf};

/// What the system tells of a regular file, and what a write to it, a cut, a
/// new name or another file in its place changes.
#[derive(Clone, Copy, Debug, PartialEq, Eq)]
struct Seen {
    device: u64,
    file: u64,
    length: u64,
    /// Seconds and nanoseconds.
    written: (i64, i64),
    changed: (i64, i64),
}

impl Seen {
    /// None for a pipe or a device, which have no length and no past.
    fn of(file: &Metadata) -> Option<Seen> {
        file.is_file().then(|| Seen {
            device: file.dev(),
            file: file.ino(),
            length: file.len(),
            written: (file.mtime(), file.mtime_nsec()),
            changed: (file.ctime(), file.ctime_nsec()),
        })
    }
}

/// A file as it was before it was read.
pub struct Watch {
    file: File,
    /// None for standard input, which nothing can take the place of.
    path: Option<PathBuf>,
    before: Option<Seen>,
    /// Where reading starts.
    start: u64,
}

impl Watch {
    pub fn begin(mut file: File, path: Option<&Path>) -> io::Result<Watch> {
        let before = Seen::of(&file.metadata()?);
        let start = match before {
            Some(_) => file.stream_position()?,
            None => 0,
        };
        Ok(Watch {
            file,
            path: path.map(Path::to_path_buf),
            before,
            start,
        })
    }

    /// An error if anything has changed, or if other than all bytes came: as
    /// many as the file has, or `most`, where reading ends before it does.
    pub fn end(&self, came: usize, most: usize) -> io::Result<()> {
        let Some(before) = self.before else {
            return Ok(());
        };
        let mut after = vec![Seen::of(&self.file.metadata()?)];
        let named = |path| fs::metadata(path).ok().and_then(|file| Seen::of(&file));
        after.extend(self.path.as_ref().map(named));
        let left = before.length.saturating_sub(self.start);
        let whole = usize::try_from(left).unwrap_or(usize::MAX).min(most);
        match came == whole && after.iter().all(|after| *after == Some(before)) {
            true => Ok(()),
            false => Err(io::Error::other(
                "changed while it was read: nothing was judged",
            )),
        }
    }
}
