//! Files: read up to a length, written whole or not at all.
use std::{
    ffi::OsString,
    fs::{self, File},
    io::{self, Read, Write},
    path::{Path, PathBuf},
    process,
};

use crate::complaint::{misused, plain, reason, unusable, Complaint};

/// The bytes of a file, but at most one more than `most`: enough to see that it is too long.
pub fn read(path: &Path, most: usize) -> Result<Vec<u8>, Complaint> {
    let mut bytes = Vec::new();
    File::open(path)
        .and_then(|file| file.take(most as u64 + 1).read_to_end(&mut bytes))
        .map_err(|error| unusable("read", path, &error))?;
    Ok(bytes)
}

/// Writes files so that after a crash each is the old or the new one whole: each goes into a new file beside its place, and all are moved
/// there once all are written. A device or a pipe is written to as it is.
pub fn write(files: &[(&Path, &[u8])]) -> Result<(), Complaint> {
    // Moving a file over one that is write-protected would go well, and is not what its owner wants.
    if let Some((path, _)) = files.iter().find(|(path, _)| is_protected(path)) {
        return Err(misused(format!("cannot write {}: it is write-protected", path.display())));
    }
    let mut waiting: Vec<New> = Vec::new();
    for (path, bytes) in files {
        let made =
            if is_plain(path) { New::beside(path, bytes).map(|new| waiting.push(new)) } else { pour(path, bytes) };
        made.map_err(|error| unusable("write", path, &error))?;
    }
    for new in waiting {
        let path = new.place.clone();
        new.settle().map_err(|error| unusable("write", &path, &error))?;
    }
    Ok(())
}

/// Refuses to write over what an answer is made of.
pub fn apart(output: &Path, sources: &[&Path]) -> Result<(), Complaint> {
    let real = |path: &Path| fs::canonicalize(path).ok();
    match sources.iter().any(|source| real(source).is_some() && real(source) == real(output)) {
        true => Err(misused(format!("{} is what this is made of, and would be lost", output.display()))),
        false => Ok(()),
    }
}

fn is_protected(path: &Path) -> bool {
    fs::metadata(path).map_or(false, |data| data.is_file() && data.permissions().readonly())
}

/// Whether a path is, or will be, a file that another can be moved over.
pub fn is_plain(path: &Path) -> bool {
    fs::metadata(path).map_or(true, |data| data.is_file())
}

fn pour(path: &Path, bytes: &[u8]) -> io::Result<()> {
    fs::OpenOptions::new().write(true).open(path)?.write_all(bytes)
}

/// A file that is written and not in its place yet. Dropped before that, it is removed.
struct New {
    written: PathBuf,
    place: PathBuf,
    settled: bool,
}

impl New {
    fn beside(path: &Path, bytes: &[u8]) -> io::Result<New> {
        // Where the path is a link, the file that it leads to is replaced, and not the link.
        let place = fs::canonicalize(path).unwrap_or_else(|_| path.to_owned());
        let name = place.file_name().ok_or(io::ErrorKind::InvalidInput)?;
        let mut hidden = OsString::from(".");
        hidden.push(name);
        hidden.push(format!(".new-{}", process::id()));
        let new = New { written: place.with_file_name(hidden), place, settled: false };
        let mut file = File::create(&new.written)?;
        if let Ok(old) = fs::metadata(&new.place) {
            file.set_permissions(old.permissions())?;
        }
        file.write_all(bytes)?;
        file.sync_all()?;
        Ok(new)
    }

    fn settle(mut self) -> io::Result<()> {
        fs::rename(&self.written, &self.place)?;
        self.settled = true;
        // The folder's own record of the move; some systems cannot be asked for it.
        if let Some(folder) = self.place.parent() {
            let folder = if folder.as_os_str().is_empty() { Path::new(".") } else { folder };
            File::open(folder).and_then(|folder| folder.sync_all()).unwrap_or(());
        }
        Ok(())
    }
}

impl Drop for New {
    fn drop(&mut self) {
        if !self.settled {
            fs::remove_file(&self.written).unwrap_or(());
        }
    }
}

/// Prints to standard output. A reader that has gone away has read enough.
pub fn print(text: &str) -> Result<(), Complaint> {
    let mut out = io::stdout();
    match out.write_all(plain(text).as_bytes()).and_then(|()| out.flush()) {
        Err(error) if error.kind() != io::ErrorKind::BrokenPipe => {
            Err(misused(format!("cannot write to standard output: {}", reason(&error))))
        }
        _ => Ok(()),
    }
}
