//! Files of the repository, and folders of their own for tests.

use std::fs::{create_dir, read_dir, remove_dir_all};
use std::path::{Path, PathBuf};

/// A file or folder of the repository, by its path from the root.
pub fn at(path: &str) -> PathBuf {
    Path::new(env!("CARGO_MANIFEST_DIR")).join("..").join(path)
}

/// The folders of the samples.
pub fn samples() -> Vec<PathBuf> {
    let entries = read_dir(at("samples")).expect("the samples");
    let folders: Vec<PathBuf> = entries.map(|entry| entry.expect("a sample").path()).collect();
    assert!(!folders.is_empty(), "there are samples");
    folders
}

/// An empty folder that goes when it is no longer used.
pub struct Folder(
    /// Where it is.
    pub PathBuf,
);

impl Folder {
    /// A folder for a test, by a name that no other test has.
    pub fn new(name: &str) -> Folder {
        let folder = std::env::temp_dir().join(format!("twolsken-{}-{name}", std::process::id()));
        create_dir(&folder).expect("a folder");
        Folder(folder)
    }
}

impl Drop for Folder {
    fn drop(&mut self) {
        // a test that fails leaves its own message, not one about the folder
        let _ = remove_dir_all(&self.0);
    }
}
