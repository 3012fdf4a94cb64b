//! Stand-in for the store's way of writing a file: under another name first, then renamed.

use super::error::StoreError;
use std::fs::File;
use std::path::Path;

pub fn write_synced_tmp_file<F>(path: &Path, write: F) -> Result<(), StoreError>
where
    F: FnOnce(&mut File) -> Result<(), StoreError>,
{
    let mut name = path.as_os_str().to_os_string();
    name.push(".tmp");
    let unfinished = Path::new(&name);
    let mut file = File::create(unfinished).map_err(|e| StoreError::io(unfinished, e))?;
    write(&mut file)?;
    file.sync_all().map_err(|e| StoreError::io(unfinished, e))?;
    std::fs::rename(unfinished, path).map_err(|e| StoreError::io(path, e))
}
