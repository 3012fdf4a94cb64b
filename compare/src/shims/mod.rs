//! Stand-ins for the parts of the Rust's crate that the comparison does not judge: errors, files,
//! the mapped file and the queue of reads. They are plain, and they work: what reads, reads a file.

pub mod error;
pub mod file;
mod io_ctx;
pub mod io_handle;
pub mod readonly_map;
pub mod uring_session;

pub use io_ctx::IoCtx;
