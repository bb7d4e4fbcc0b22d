//! A folder of its own for each run of *mark*, which finds its files by their names.

use std::env;
use std::fs;
use std::io;
use std::path::{Path, PathBuf};
use std::process;
use std::sync::atomic::{AtomicUsize, Ordering::Relaxed};

static MADE: AtomicUsize = AtomicUsize::new(0);

/// Is removed with its files when it goes.
pub struct Folder {
    path: PathBuf,
}

impl Folder {
    /// A new folder with these files.
    pub fn holding(files: &[(&str, &[u8])]) -> io::Result<Folder> {
        let name = format!("acornsled-{}-{}", process::id(), MADE.fetch_add(1, Relaxed));
        let path = env::temp_dir().join(name);
        fs::create_dir(&path)?;
        let folder = Folder { path };
        files.iter().try_for_each(|(name, bytes)| fs::write(folder.path.join(name), bytes))?;
        Ok(folder)
    }

    pub fn path(&self) -> &Path {
        &self.path
    }
}

impl Drop for Folder {
    fn drop(&mut self) {
        // a folder that is left behind changes no judgement
        _ = fs::remove_dir_all(&self.path);
    }
}
