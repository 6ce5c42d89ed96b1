//! Files that are written whole or stay as they were.

use std::fs::{self, File, OpenOptions};
use std::io::{self, ErrorKind, Write};
use std::os::unix::fs::MetadataExt;
use std::path::{Path, PathBuf};
use std::process;

/// Writes a file beside its place, and puts it there if that has worked. A device or a pipe is written as it is.
pub fn save(path: &Path, bytes: &[u8]) -> io::Result<()> {
    let Some(file) = plain_file(path) else { return fs::write(path, bytes) };
    // one that may not be written is not replaced either
    let old = match OpenOptions::new().write(true).open(&file) {
        Ok(old) => Some(old.metadata()?.permissions()),
        Err(error) if error.kind() == ErrorKind::NotFound => None,
        Err(error) => return Err(error),
    };
    let (mut beside, name) = create_beside(&file)?;
    let written = beside.write_all(bytes).and_then(|()| old.map_or(Ok(()), |old| beside.set_permissions(old)));
    let placed = written.and_then(|()| fs::rename(&name, &file));
    if placed.is_err() {
        let _ = fs::remove_file(&name); // what has failed first is told
    }
    placed
}

/// Whether two names stand for one file, be it by a link of either kind.
pub fn is_same_file(one: &Path, other: &Path) -> bool {
    let file = |path| fs::metadata(path).ok().filter(|found| found.is_file()).map(|found| (found.dev(), found.ino()));
    file(one).is_some() && file(one) == file(other)
}

/// More links than the system follows.
const LINKS: usize = 64;

/// The plain file that a name stands for, or would, behind its links. None for anything else, and for one that is named by what
/// has opened it, as `/dev/stdout` is: that goes on with the file that it has.
fn plain_file(path: &Path) -> Option<PathBuf> {
    if fs::metadata(path).is_ok_and(|found| !found.is_file()) {
        return None;
    }
    let mut file = path.to_path_buf();
    for _ in 0..LINKS {
        let Ok(next) = fs::read_link(&file) else { return Some(file) };
        let folder = folder(&file);
        if fs::canonicalize(&folder).is_ok_and(|folder| folder.starts_with("/proc")) {
            return None;
        }
        file = folder.join(next);
    }
    None
}

fn folder(file: &Path) -> PathBuf {
    match file.parent() {
        Some(folder) if folder != Path::new("") => folder.to_path_buf(),
        _ => PathBuf::from("."),
    }
}

/// A file of a name that nothing has, in the folder of another.
fn create_beside(file: &Path) -> io::Result<(File, PathBuf)> {
    let folder = folder(file);
    let mut number = 0;
    loop {
        let name = folder.join(format!(".plokamyr-{}-{number}", process::id()));
        match OpenOptions::new().write(true).create_new(true).open(&name) {
            Ok(beside) => return Ok((beside, name)),
            Err(error) if error.kind() == ErrorKind::AlreadyExists && number < 100 => number += 1,
            Err(error) => return Err(error),
        }
    }
}
