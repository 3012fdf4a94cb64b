//! Stand-in for the store's file handle: a descriptor that does not own its file.

use std::fs::File;
use std::mem::ManuallyDrop;
use std::os::fd::{AsRawFd, FromRawFd, RawFd};
use std::os::unix::fs::FileExt;

#[derive(Clone, Copy)]
pub struct IoHandle(RawFd);

impl IoHandle {
    pub fn from_file(file: &File) -> Self {
        Self(file.as_raw_fd())
    }

    /// The number of bytes read, or the error's number below 0.
    pub fn pread(self, offset: u64, buffer: &mut [u8]) -> i32 {
        // SAFETY: the callers keep the file open while they use its handle; it is not closed here.
        let file = ManuallyDrop::new(unsafe { File::from_raw_fd(self.0) });
        match file.read_at(buffer, offset) {
            Ok(count) => count as i32,
            Err(error) => -error.raw_os_error().unwrap_or(5),
        }
    }
}
