//! The state directory: where SQLite's file lies, and the lock on it.

use std::fs::{self, DirBuilder, File, OpenOptions};
use std::io;
use std::os::unix::fs::{DirBuilderExt, OpenOptionsExt};
use std::path::{Path, PathBuf};

const FILE: &str = "store.db";
/// What an older gateway left: its sessions that were barred would come back.
const OLD: [&str; 2] = ["journal", "barred"];

pub fn file(state: &Path) -> PathBuf {
    state.join(FILE)
}

/// Makes what is not there yet, and locks it as long as the gateway runs. Owner and group may read: no secret is in the store.
pub fn prepare(state: &Path) -> Result<File, String> {
    make_directory(state).map_err(|error| told(state, error))?;
    for old in OLD.iter().map(|name| state.join(name)) {
        if old.exists() {
            return Err(format!(
                "{}: of an older gateway, which this one does not read: move it away, and \
                 take barred sessions out of the sessions file",
                old.display()
            ));
        }
    }
    let locked = lock(&state.join("lock"))?;
    let path = file(state);
    let made = OpenOptions::new().write(true).create(true).truncate(false).mode(0o640).open(&path);
    made.and_then(|file| file.sync_all())
        .and_then(|()| File::open(state)?.sync_all())
        .map_err(|error| told(&path, error))?;
    Ok(locked)
}

/// Makes a directory and those above it; the names of new ones are on the disk then.
fn make_directory(path: &Path) -> io::Result<()> {
    if path.is_dir() {
        return Ok(());
    }
    let above = match path.parent() {
        Some(above) if above != Path::new("") => above,
        _ => Path::new("."),
    };
    make_directory(above)?;
    DirBuilder::new().recursive(true).mode(0o750).create(path)?;
    File::open(above)?.sync_all()
}

fn lock(path: &Path) -> Result<File, String> {
    let open = OpenOptions::new().write(true).create(true).truncate(false).mode(0o600).open(path);
    let file = open.map_err(|error| told(path, error))?;
    match file.try_lock() {
        Ok(()) => Ok(file),
        Err(fs::TryLockError::WouldBlock) => {
            Err(format!("{}: another gateway runs on this directory", path.display()))
        }
        Err(fs::TryLockError::Error(error)) => Err(told(path, error)),
    }
}

fn told(path: &Path, error: io::Error) -> String {
    format!("{}: {error}", path.display())
}
