//! What is fed: indexes that were built or made by hand, keys for them, and the Rust's scatter of the
//! same pages.

use crate::bdz::{self, BdzMphf, GPageScatter};
use crate::collisions::{crossing, crossing_key};
use crate::lent::{Fenced, Loan};
use crate::model::{image::HEADER, rank};
use crate::ours::{self, FeedIndex, DONE};
use crate::rng::{occupancy, Rng, OCCUPANCIES};
use crate::topics::lookup::{made, some_keys, wrapped_at, Record};
use crate::topics::pack::{rust_body, words};
use crate::trial::{Calls, Case};
use std::collections::BTreeSet;

/// An index to feed. Its table is empty where that is not kept.
pub struct Subject {
    pub record: Record,
    pub width: u32,
    body: Body,
}

/// What the pages are taken from.
enum Body {
    Whole(Vec<u8>),
    /// Each page is drawn by itself, from this number and its own: no whole table is needed.
    Drawn(u64),
}

impl Subject {
    /// An index that no build makes, with a table of words of this width.
    pub fn made(rng: &mut Rng, compact: bool, width: u32, m: u32) -> Self {
        let mut record = made(rng, compact, m);
        for word in &mut record.table {
            *word &= u32::MAX >> (32 - width);
        }
        let body = Body::Whole(rust_body(&record.table, width));
        Self {
            record,
            width,
            body,
        }
    }

    /// The same without a table.
    pub fn sparse(rng: &mut Rng, compact: bool, width: u32, m: u32) -> Self {
        let mut record = Record {
            m,
            table: Vec::new(),
            ..made(rng, compact, 1)
        };
        if compact {
            let (bytes, supers) = rank::needs(m);
            let kind = rng.below(OCCUPANCIES);
            record.occupancy = occupancy(rng, bytes, kind);
            record.supers = words(rng, supers);
        }
        Self {
            record,
            width,
            body: Body::Drawn(rng.next_u64()),
        }
    }

    /// What is read back from the image of an index.
    pub fn opened(record: &Record, image: &[u8]) -> Self {
        let open = match record.compact {
            true => ours::open_compact,
            false => ours::open_packed,
        };
        let mut answer = [0; Loan::ANSWER];
        let status = open(&image[..HEADER], image.len() as u64, &mut answer);
        assert_eq!(status, DONE, "a written image is refused");
        let [n, m, _, modulus, width] = answer.map(|number| number as u32);
        let (body, occupancy) = image[HEADER..].split_at(bdz::packed_g_bytes(m, width) as usize);
        let mut supers = vec![0; rank::needs(m).1];
        if record.compact {
            let status = ours::supers_from_occ_bytes(m, occupancy, &mut supers);
            assert_eq!(status, DONE, "no super counts");
        }
        let record = Record {
            compact: record.compact,
            n,
            m,
            seed: answer[2],
            modulus,
            table: record.table.clone(),
            occupancy: occupancy.to_vec(),
            supers,
        };
        Self {
            record,
            width,
            body: Body::Whole(body.to_vec()),
        }
    }

    pub fn index(&self) -> FeedIndex {
        FeedIndex {
            compact: u32::from(self.record.compact),
            n: self.record.n,
            m: self.record.m,
            seed: self.record.seed,
            modulus: self.record.modulus,
            width: self.width,
        }
    }

    /// The bytes of a page, as many as the Rust reads.
    pub fn page(&self, page: u32) -> Vec<u8> {
        let words = match self.record.n {
            1 => 1,
            _ => self.record.m,
        };
        let length = bdz::g_page_need(bdz::packed_g_bytes(words, self.width), page);
        match &self.body {
            Body::Whole(body) => {
                let start = page as usize * bdz::G_PAGE_BYTES;
                body[start..start + length].to_vec()
            }
            Body::Drawn(number) => Rng::new(number ^ u64::from(page) << 32).bytes(length),
        }
    }

    /// Keys of all kinds: half of them meet words that cross from page to page, and some are equal.
    pub fn keys(&self, rng: &mut Rng, count: usize) -> Vec<u64> {
        let Record {
            compact, m, seed, ..
        } = self.record;
        let crossing = crossing(m, self.width);
        let mut keys = some_keys(rng, &self.record, count);
        for at in 0..count {
            match rng.below(8) {
                0 => keys[at] = keys[rng.below_usize(at + 1)],
                1..=4 if !crossing.is_empty() => {
                    keys[at] = crossing_key(rng, compact, m, seed, &crossing);
                }
                _ => (),
            }
        }
        keys
    }
}

/// A feed to start, with other elements around what is lent to it.
pub struct Feeding<'a> {
    calls: Calls,
    index: FeedIndex,
    keys: &'a [u64],
    occupancy: Fenced<u8>,
    supers: Fenced<u32>,
}

impl<'a> Feeding<'a> {
    /// Of a subject: exactly what is needed, or more.
    pub fn of(rng: &mut Rng, calls: Calls, subject: &Subject, keys: &'a [u64]) -> Self {
        Self::with(rng, calls, subject.index(), &subject.record, keys)
    }

    /// Of an index that need not be the record's, which only lends to it.
    pub fn with(
        rng: &mut Rng,
        calls: Calls,
        index: FeedIndex,
        record: &Record,
        keys: &'a [u64],
    ) -> Self {
        let record = record.lengthened(rng);
        Self {
            calls,
            index,
            keys,
            occupancy: Fenced::new(rng, &record.occupancy),
            supers: Fenced::new(rng, &record.supers),
        }
    }

    pub fn case(&self) -> Case<'_> {
        Case {
            calls: self.calls,
            index: self.index,
            keys: self.keys,
            occupancy: self.occupancy.given(),
            supers: self.supers.given(),
        }
    }
}

/// The vertices of keys in an index of two keys or more.
pub fn rust_vertices(rust: &BdzMphf, keys: &[u64]) -> Vec<[u32; 3]> {
    let partite = rust.compact.is_some();
    let vertices = |&key: &u64| bdz::hash_verts(key, rust.seed, rust.m, partite);
    keys.iter().map(vertices).collect()
}

/// The pages that the Rust reads for them, rising, each once.
pub fn rust_pages(vertices: &[[u32; 3]], width: u32) -> Vec<u32> {
    let each = vertices.iter().flatten();
    let mut pages: Vec<u32> = each.flat_map(|&v| bdz::vertex_pages(v, width)).collect();
    pages.sort_unstable();
    pages.dedup();
    pages
}

/// The Rust's scatter of an index of two keys or more.
pub struct Scatter {
    pub rust: BdzMphf,
    pub width: u32,
    pub vertices: Vec<[u32; 3]>,
    /// Rising, each once.
    pub pages: Vec<u32>,
    pub came: BTreeSet<u32>,
    scatter: GPageScatter,
}

impl Scatter {
    pub fn new(subject: &Subject, keys: &[u64]) -> Self {
        let (rust, width) = (subject.record.rust(), subject.width);
        let vertices = rust_vertices(&rust, keys);
        let pages = rust_pages(&vertices, width);
        Self {
            scatter: GPageScatter::from_verts(width, &vertices, &pages),
            rust,
            width,
            vertices,
            pages,
            came: BTreeSet::new(),
        }
    }

    pub fn fill(&mut self, page: u32, bytes: &[u8]) {
        self.came.insert(page);
        self.scatter.fill(page, bytes);
    }

    /// Whether a page of the key has not come.
    pub fn waits(&self, position: usize) -> bool {
        let vertices = self.vertices[position].into_iter();
        vertices
            .flat_map(|vertex| bdz::vertex_pages(vertex, self.width))
            .any(|page| !self.came.contains(&page))
    }

    /// The words of each key, as far as they have come.
    pub fn words(&self) -> &[[u32; 3]] {
        &self.scatter.words
    }

    /// Where the ones of a rank wrap, the Rust is spared the sum.
    pub fn answer(&self, position: usize) -> u32 {
        let (vertices, words) = (self.vertices[position], self.scatter.words[position]);
        match wrapped_at(&self.rust, vertices, words) {
            Some(answer) => answer,
            None => self
                .rust
                .finish_index(words[0], words[1], words[2], vertices),
        }
    }
}
