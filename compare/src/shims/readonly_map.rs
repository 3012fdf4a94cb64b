//! Stand-in for the mapped file: its first bytes, read into memory.

use super::error::StoreError;
use std::fs::File;
use std::io::Read;
use std::path::Path;

pub struct ReadonlyMap(Vec<u8>);

impl ReadonlyMap {
    pub fn map_prefix(path: &Path, length: usize) -> Result<Self, StoreError> {
        let mut bytes = vec![0; length];
        File::open(path)
            .and_then(|mut file| file.read_exact(&mut bytes))
            .map_err(|e| StoreError::io(path, e))?;
        Ok(Self(bytes))
    }

    pub fn as_file_bytes(&self) -> &[u8] {
        &self.0
    }
}
