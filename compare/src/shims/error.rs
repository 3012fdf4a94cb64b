//! Stand-in for the store's error.

use std::path::{Path, PathBuf};

#[derive(Debug)]
pub enum StoreError {
    Corrupt(&'static str),
    Io(PathBuf, std::io::Error),
}

impl StoreError {
    pub fn io(path: &Path, error: std::io::Error) -> Self {
        Self::Io(path.to_path_buf(), error)
    }
}
