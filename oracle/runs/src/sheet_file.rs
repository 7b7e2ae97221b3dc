//! A file that sheets are put into, one after the other.

use std::fs;
use std::path::{Path, PathBuf};
use std::process;
use std::sync::atomic::{AtomicUsize, Ordering};

/// Where a file is only memory, if the system has such a place.
const MEMORY: &str = "/dev/shm";

/// How many files this process has made.
static MADE: AtomicUsize = AtomicUsize::new(0);

/// The file, in a folder of its own that goes with it.
pub(crate) struct SheetFile {
    folder: PathBuf,
    path: String,
}

impl SheetFile {
    pub(crate) fn new() -> Result<Self, String> {
        let memory = PathBuf::from(MEMORY);
        let place = if memory.is_dir() {
            memory
        } else {
            std::env::temp_dir()
        };
        let made = MADE.fetch_add(1, Ordering::Relaxed);
        let folder = place.join(format!("sheets-{}-{made}", process::id()));
        fs::create_dir(&folder).map_err(|error| format!("{}: {error}", folder.display()))?;
        let path = folder.join("sheet").display().to_string();
        Ok(Self { folder, path })
    }

    pub(crate) fn path(&self) -> &str {
        &self.path
    }

    pub(crate) fn put(&self, sheet: &[u8]) -> Result<(), String> {
        fs::write(Path::new(&self.path), sheet).map_err(|error| format!("{}: {error}", self.path))
    }
}

impl Drop for SheetFile {
    fn drop(&mut self) {
        // A folder that stays behind harms no run.
        let _ = fs::remove_dir_all(&self.folder);
    }
}
