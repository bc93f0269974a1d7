//! A book in a file of its own, removed when it is no longer needed.

use std::fs;
use std::path::PathBuf;

pub struct BookFile {
    pub path: PathBuf,
}

impl BookFile {
    pub fn new(book: &[u8]) -> Result<BookFile, String> {
        let path = path_for("book");
        fs::write(&path, book).map_err(|error| format!("{}: {error}", path.display()))?;
        Ok(BookFile { path })
    }
}

impl Drop for BookFile {
    fn drop(&mut self) {
        let _ = fs::remove_file(&self.path);
    }
}

/// A path that no other process uses.
pub fn path_for(what: &str) -> PathBuf {
    std::env::temp_dir().join(format!("second-{}.{what}", std::process::id()))
}
