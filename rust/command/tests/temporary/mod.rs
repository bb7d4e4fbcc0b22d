//! A folder for one test, removed when the test ends.

use std::env;
use std::fs;
use std::path::{Path, PathBuf};
use std::process;

pub struct Folder(PathBuf);

impl Folder {
    /// An empty folder; the test's name keeps it apart from those of other tests.
    pub fn new(test: &str) -> Folder {
        let path = env::temp_dir().join(format!("acornsled-{test}-{}", process::id()));
        fs::create_dir_all(&path).expect("a folder can be made");
        Folder(path)
    }

    pub fn path(&self) -> &Path {
        &self.0
    }
}

impl Drop for Folder {
    fn drop(&mut self) {
        let _ = fs::remove_dir_all(&self.0);
    }
}
