//! The Rust's images are files: the folder that holds them, and what the Rust writes to it and
//! reads from it.

use crate::bdz::{BdzMphf, GStore};
use crate::error::StoreError;
use crate::lent::Loan;
use crate::model::image::{Opened, HEADER};
use crate::ours::{BAD_MAGIC, BAD_VERSION, BAD_WIDTH, DONE, G_LENGTH, SHORT_PREAD, ZERO_MODULUS};
use std::fs::{self, File};
use std::os::unix::fs::FileExt;
use std::path::PathBuf;

/// A folder of its own for one topic of one run. It goes when it is dropped, also after a failure.
pub struct Folder {
    path: PathBuf,
    /// The file that the Rust opens. It stays open here and is written over each time, which is far
    /// quicker than a new one.
    laid: File,
}

impl Folder {
    pub fn new(topic: &str) -> Self {
        let name = format!("bdz-compare-{}-{topic}", std::process::id());
        let path = std::env::temp_dir().join(name);
        fs::create_dir(&path).expect("a folder can be made for the files");
        let [laid, _] = ["laid", "empty"].map(|name| {
            let made = File::create_new(path.join(name));
            made.expect("a file can be made")
        });
        Self { path, laid }
    }

    /// The image that the Rust writes.
    pub fn written(&self, index: &BdzMphf) -> Vec<u8> {
        let path = self.path.join("written");
        let written = match index.compact {
            Some(_) => index.write_compact_to(&path),
            None => index.write_packed_to(&path),
        };
        written.expect("the Rust writes what is in memory");
        fs::read(path).expect("the file was written")
    }

    /// What the Rust comes to when it opens a file of so many bytes, of which these are the first.
    /// Where they are fewer than a header, the file has no others: it is all that can be read.
    pub fn opened(&self, compact: bool, first: &[u8], length: u64) -> Opened {
        let length = match first.len() {
            0..HEADER => length.min(first.len() as u64),
            _ => length,
        };
        Opened::of_rust(self.read(compact, first, length), first)
    }

    /// The Rust's index of a whole image. Its table stays in the file, where the next one is laid.
    pub fn index(&self, compact: bool, image: &[u8]) -> BdzMphf {
        let index = self.read(compact, image, image.len() as u64);
        index.expect("a whole image opens")
    }

    fn read(&self, compact: bool, first: &[u8], length: u64) -> Result<BdzMphf, StoreError> {
        let path = self.lay(first, length);
        match compact {
            true => BdzMphf::read_compact_from(&path),
            false => BdzMphf::read_packed_from(&path),
        }
    }

    /// A file of so many bytes, with zeros where the first ones are fewer. They take no place in
    /// it, so that it can be as long as the largest index asks. No file is ever cut to nothing: a
    /// file system may wait for the disk after that.
    fn lay(&self, first: &[u8], length: u64) -> PathBuf {
        if length == 0 {
            return self.path.join("empty");
        }
        let kept = length.min(first.len() as u64);
        self.laid
            .write_all_at(&first[..kept as usize], 0)
            .and_then(|()| self.laid.set_len(kept))
            .and_then(|()| self.laid.set_len(length))
            .expect("the file can be written");
        self.path.join("laid")
    }
}

impl Drop for Folder {
    fn drop(&mut self) {
        if let Err(error) = fs::remove_dir_all(&self.path) {
            eprintln!("{} is left behind: {error}", self.path.display());
        }
    }
}

impl Opened {
    fn of_rust(answer: Result<BdzMphf, StoreError>, first: &[u8]) -> Self {
        match answer {
            Ok(index) => Self {
                refusal: DONE,
                answer: fields(&index, first),
            },
            Err(error) => Self {
                refusal: refusal_of(&error),
                answer: [0; Loan::ANSWER],
            },
        }
    }
}

/// The Rust keeps no width of an index of no keys: it is taken from the header there.
fn fields(index: &BdzMphf, first: &[u8]) -> [u64; Loan::ANSWER] {
    let width = match &index.g {
        GStore::Fd { g_bits, .. } => *g_bits,
        GStore::Ram(_) => {
            let width = first[HEADER - 4..HEADER].try_into();
            u32::from_le_bytes(width.expect("there are four bytes"))
        }
    };
    let [n, m, modulus, width] = [index.n, index.m, index.modulus, width].map(u64::from);
    [n, m, index.seed, modulus, width]
}

/// The number of the Rust's refusal.
fn refusal_of(error: &StoreError) -> u32 {
    match error {
        StoreError::Corrupt("bdz mphf: short pread") => SHORT_PREAD,
        StoreError::Corrupt("bdz mphf: g length") => G_LENGTH,
        StoreError::Corrupt("bdz mphf: bad magic") => BAD_MAGIC,
        StoreError::Corrupt("bdz mphf: bad version") => BAD_VERSION,
        StoreError::Corrupt("bdz mphf: g_bits") => BAD_WIDTH,
        StoreError::Corrupt("bdz mphf: zero modulus") => ZERO_MODULUS,
        other => panic!("no refusal of an opening: {other:?}"),
    }
}
