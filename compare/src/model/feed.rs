//! The page feed, kept in the plainest way: the pages that came, and every bit of a word looked up in
//! them by itself.

use super::{hash, image, rank};
use crate::ours::{
    FeedIndex, BAD_WIDTH, DONE, MOST, NO_ROOM, NO_SUCH_KEY, OCC_TRUNCATED, PAGE_GIVEN, PAGE_LENGTH,
    PAGE_NOT_LISTED, TOO_LARGE, WAITING, ZERO_MODULUS,
};
use std::collections::{BTreeMap, BTreeSet};

/// "Pages are 4,096 bytes of the packed table".
pub const PAGE_BYTES: u64 = 4_096;
pub const PAGE_BITS: u64 = 8 * PAGE_BYTES;

/// What a start is lent: the bytes of the occupancy, and the elements of the buffers.
#[derive(Clone, Copy, Debug)]
pub struct StartLengths {
    pub occupancy: usize,
    pub order: usize,
    pub slots: usize,
    pub pages: usize,
}

/// What an asking is lent, beside the number of keys that it names.
#[derive(Clone, Copy, Debug)]
pub struct AskLengths {
    pub lent: usize,
    pub occupancy: usize,
    pub supers: usize,
    pub slots: usize,
}

/// Whether a buffer has fewer elements than so many for each key.
fn lacks(length: usize, each: u64, keys: u64) -> bool {
    (length as u128) < u128::from(each) * u128::from(keys)
}

/// "no keys accepted; n = 0; 10 (width 0 or over 32); n = 1; 11 (m or modulus 0); 12", and then what
/// is tested last.
fn common(index: FeedIndex, keys: u64, occupancy: usize, last: u32) -> u32 {
    let compact = index.compact != 0;
    if keys == 0 || index.n == 0 {
        DONE
    } else if !(1..=32).contains(&index.width) {
        BAD_WIDTH
    } else if index.n == 1 && compact {
        DONE
    } else if index.n == 1 {
        last
    } else if index.m == 0 || index.modulus == 0 {
        ZERO_MODULUS
    } else if compact && occupancy < rank::needs(index.m).0 {
        OCC_TRUNCATED
    } else {
        last
    }
}

/// "Three slots and six page entries a key"; the order is another three numbers a key.
pub fn start_status(index: FeedIndex, keys: usize, lengths: StartLengths) -> u32 {
    let keys = keys as u64;
    let last = if keys > u64::from(MOST) {
        TOO_LARGE
    } else if lacks(lengths.order, 3, keys)
        || lacks(lengths.slots, 3, keys)
        || lacks(lengths.pages, 6, keys)
    {
        NO_ROOM
    } else {
        DONE
    };
    common(index, keys, lengths.occupancy, last)
}

/// "Asking a feed: 20, the start's checks, 14 there taking in compact super counts", without 18.
pub fn ask_status(index: FeedIndex, keys: u64, position: u64, lengths: AskLengths) -> u32 {
    let supers = match index.compact {
        0 => 0,
        _ => rank::needs(index.m).1,
    };
    let last = if keys > u64::from(MOST) {
        TOO_LARGE
    } else if lacks(lengths.slots, 3, keys) || lengths.supers < supers {
        NO_ROOM
    } else {
        DONE
    };
    if position >= keys || position >= lengths.lent as u64 {
        NO_SUCH_KEY
    } else {
        common(index, keys, lengths.occupancy, last)
    }
}

/// "Page feed: 10 and 14 where the start tests them"; where nothing is listed every page is 15.
pub fn page_status(index: FeedIndex, keys: u64, order: usize, slots: usize) -> u32 {
    if keys == 0 || index.n == 0 {
        PAGE_NOT_LISTED
    } else if !(1..=32).contains(&index.width) {
        BAD_WIDTH
    } else if index.n == 1 && index.compact != 0 {
        PAGE_NOT_LISTED
    } else if lacks(order, 3, keys) || lacks(slots, 3, keys) {
        NO_ROOM
    } else {
        DONE
    }
}

/// A feed that was started.
pub struct Feed {
    index: FeedIndex,
    /// The words of the table that is fed.
    words: u32,
    /// That of each slot; none where no page is listed.
    vertices: Vec<u32>,
    listed: BTreeSet<u32>,
    came: BTreeMap<u32, Vec<u8>>,
    /// What the lent slots hold: kept, so that only those which a page changes are made anew.
    slots: Vec<u64>,
}

impl Feed {
    /// A feed whose start was accepted.
    pub fn new(index: FeedIndex, keys: &[u64]) -> Self {
        let compact = index.compact != 0;
        let (listing, words) = match index.n {
            0 => (false, 0),
            1 => (!compact, 1),
            _ => (true, index.m),
        };
        let vertices = match listing {
            true => keys
                .iter()
                .flat_map(|&key| hash::vertices(key, index.seed, words, compact))
                .collect(),
            false => Vec::new(),
        };
        let mut feed = Self {
            index,
            words,
            vertices,
            listed: BTreeSet::new(),
            came: BTreeMap::new(),
            slots: Vec::new(),
        };
        for slot in 0..feed.vertices.len() {
            let pages: Vec<u32> = feed.bits(slot).map(|bit| page_of(bit).0).collect();
            feed.listed.extend(pages);
            feed.slots.push(feed.slot(slot));
        }
        feed
    }

    /// Where the bits of a slot's word stand in the packed table.
    fn bits(&self, slot: usize) -> std::ops::Range<u64> {
        let width = u64::from(self.index.width);
        let start = u64::from(self.vertices[slot]) * width;
        start..start + width
    }

    /// A bit of the packed table, if its page has come.
    fn bit(&self, bit: u64) -> Option<u64> {
        let (page, bit) = page_of(bit);
        let bytes = self.came.get(&page)?;
        Some(u64::from(bytes[bit as usize / 8] >> (bit % 8) & 1))
    }

    /// The word so far, and above it a one for every bit that is missing.
    fn slot(&self, slot: usize) -> u64 {
        let one = |(at, bit)| match self.bit(bit) {
            Some(value) => value << at,
            None => 1u64 << (32 + at),
        };
        self.bits(slot).enumerate().map(one).sum()
    }

    /// "Rising, each once".
    pub fn listed(&self) -> Vec<u32> {
        self.listed.iter().copied().collect()
    }

    /// The slots by their vertices, each vertex above its slot's number.
    pub fn order(&self) -> Vec<u64> {
        let slots = self.vertices.iter().zip(0u64..);
        let rising: BTreeSet<(u32, u64)> = slots.map(|(&vertex, slot)| (vertex, slot)).collect();
        rising
            .into_iter()
            .map(|(vertex, slot)| u64::from(vertex) << 32 | slot)
            .collect()
    }

    pub fn slots(&self) -> &[u64] {
        &self.slots
    }

    /// "The last has what is left, from 1 byte to 4,096"; behind it a page has none.
    pub fn page_bytes(&self, page: u32) -> usize {
        let table = image::table_bytes(self.words, self.index.width);
        let start = u64::from(page) * PAGE_BYTES;
        table.saturating_sub(start).min(PAGE_BYTES) as usize
    }

    /// Takes a page where nothing was refused before: "15, 16, 17".
    pub fn page(&mut self, page: u32, bytes: &[u8]) -> u32 {
        if !self.listed.contains(&page) {
            return PAGE_NOT_LISTED;
        }
        if self.came.contains_key(&page) {
            return PAGE_GIVEN;
        }
        if bytes.len() != self.page_bytes(page) {
            return PAGE_LENGTH;
        }
        self.came.insert(page, bytes.to_vec());
        let (first, past) = (u64::from(page) * PAGE_BITS, u64::from(page + 1) * PAGE_BITS);
        for slot in 0..self.vertices.len() {
            let bits = self.bits(slot);
            if bits.start < past && bits.end > first {
                self.slots[slot] = self.slot(slot);
            }
        }
        DONE
    }

    /// The three words of a key, if all their bits have come.
    pub fn words(&self, position: usize) -> Option<[u32; 3]> {
        let mut words = [0; 3];
        for (part, word) in words.iter_mut().enumerate() {
            for (at, bit) in self.bits(3 * position + part).enumerate() {
                *word |= (self.bit(bit)? as u32) << at;
            }
        }
        Some(words)
    }

    /// The answer for a key where nothing was refused before, or 18.
    pub fn answer(&self, position: usize, occupancy: &[u8], supers: &[u32]) -> Result<u32, u32> {
        if self.vertices.is_empty() {
            return Ok(0);
        }
        let words = self.words(position).ok_or(WAITING)?;
        if self.index.n == 1 {
            return Ok(words[0]);
        }
        let sum = words.into_iter().fold(0, u32::wrapping_add);
        if self.index.compact == 0 {
            return Ok(sum % self.index.modulus);
        }
        let vertex = self.vertices[3 * position + sum as usize % 3];
        Ok(rank::answer(occupancy, supers, vertex, self.index.n))
    }
}

/// The page of a bit, and which of the page's bits it is.
pub fn page_of(bit: u64) -> (u32, u64) {
    ((bit / PAGE_BITS) as u32, bit % PAGE_BITS)
}
