//! A file written whole or not at all: the bytes go to a new file beside it,
//! which takes its place when all of them are on the disk.

use std::fs::{self, File, OpenOptions};
use std::io::{self, ErrorKind, Write};
use std::os::unix::fs::{OpenOptionsExt, PermissionsExt};
use std::path::{Path, PathBuf};

/// Links that are followed one behind the other.
const LINKS: usize = 40;
/// Names that are tried for the new file.
const NAMES: usize = 100;

/// The file with these bytes, or as it was. What is no regular file, like a
/// device or a pipe, has nothing to lose and is written to.
pub fn with(path: &Path, bytes: &[u8]) -> io::Result<()> {
    match replaced(path)? {
        Some(path) => whole(&path, bytes),
        // Neither made nor cut: a descriptor may be a file that others write.
        None => OpenOptions::new().append(true).open(path)?.write_all(bytes),
    }
}

/// The file that the path leads to, there or not; none for what is written to
/// directly. A link is followed, so that it stays a link.
fn replaced(path: &Path) -> io::Result<Option<PathBuf>> {
    if fs::metadata(path).is_ok_and(|there| !there.is_file()) {
        return Ok(None);
    }
    let mut path = path.to_path_buf();
    for _ in 0..LINKS {
        let folder = folder(&path).to_path_buf();
        if fs::canonicalize(&folder).is_ok_and(|folder| is_apart(&folder)) {
            return Ok(None);
        }
        match fs::read_link(&path) {
            Ok(next) => path = folder.join(next),
            Err(_) => return Ok(Some(path)),
        }
    }
    Err(io::Error::other("too many links"))
}

/// A folder of devices and of open files, whose links are no names of files:
/// there is /dev/stdout, and nothing there is ever replaced.
fn is_apart(folder: &Path) -> bool {
    folder == Path::new("/dev") || folder.starts_with("/proc")
}

fn folder(path: &Path) -> &Path {
    match path.parent() {
        Some(folder) if !folder.as_os_str().is_empty() => folder,
        _ => Path::new("."),
    }
}

fn whole(path: &Path, bytes: &[u8]) -> io::Result<()> {
    // Who may write here, and who may read, stays as it is.
    let kept = match OpenOptions::new().append(true).open(path) {
        Ok(there) => Some(there.metadata()?.permissions()),
        Err(error) if error.kind() == ErrorKind::NotFound => None,
        Err(error) => return Err(error),
    };
    let mode = kept.as_ref().map_or(0o666, PermissionsExt::mode);
    let (mut file, beside) = beside(folder(path), mode)?;
    let fill = || {
        file.write_all(bytes)?;
        if let Some(kept) = kept {
            file.set_permissions(kept)?;
        }
        file.sync_all()?;
        fs::rename(&beside, path)
    };
    fill().inspect_err(|_| drop(fs::remove_file(&beside)))
}

/// A new file in the folder, and its name. From its start nobody may read it
/// who may not read the one that it replaces.
fn beside(folder: &Path, mode: u32) -> io::Result<(File, PathBuf)> {
    let mut new = OpenOptions::new();
    new.write(true).create_new(true).mode(mode);
    let process = std::process::id();
    for number in 0..NAMES {
        let path = folder.join(format!(".cesr-part-{process}-{number}"));
        match new.open(&path) {
            Ok(file) => return Ok((file, path)),
            Err(error) if error.kind() == ErrorKind::AlreadyExists => {}
            Err(error) => return Err(error),
        }
    }
    Err(ErrorKind::AlreadyExists.into())
}
