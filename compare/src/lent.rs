//! The buffers that are lent to a call: dirty before it, fenced in, and judged after it; and those
//! that it only reads, fenced in as well.

use crate::ours::BUILT_WORDS;
use crate::rng::Rng;
use std::fmt::{Formatter, LowerHex};

/// Elements on each side of what a call is given, which it must leave alone.
const FENCE: usize = 16;

/// An element of a buffer.
pub trait Item: Copy + PartialEq + LowerHex {
    const ZERO: Self;
    fn from_bits(bits: u64) -> Self;
}

impl Item for u8 {
    const ZERO: Self = 0;
    fn from_bits(bits: u64) -> Self {
        (bits >> 56) as u8
    }
}

impl Item for u32 {
    const ZERO: Self = 0;
    fn from_bits(bits: u64) -> Self {
        (bits >> 32) as u32
    }
}

impl Item for u64 {
    const ZERO: Self = 0;
    fn from_bits(bits: u64) -> Self {
        bits
    }
}

/// An entry of a peel order, as the exports have it.
#[repr(C)]
#[derive(Clone, Copy, PartialEq)]
pub struct Pair {
    pub edge: u32,
    pub vert: u32,
}

impl Item for Pair {
    const ZERO: Self = Self { edge: 0, vert: 0 };
    fn from_bits(bits: u64) -> Self {
        Self {
            edge: (bits >> 32) as u32,
            vert: bits as u32,
        }
    }
}

impl LowerHex for Pair {
    fn fmt(&self, f: &mut Formatter<'_>) -> std::fmt::Result {
        write!(f, "({:#x}, {:#x})", self.edge, self.vert)
    }
}

/// How a call must leave a buffer. What is not named here stays as it was.
#[derive(Clone, Copy)]
pub enum Left<'a, T> {
    Untouched,
    /// So many zeros at its start.
    Zeros(usize),
    /// These at its start.
    New(&'a [T]),
    /// Anything in what was given; only the fences are judged.
    Anything,
}

/// A buffer with a fence on each side, full of dirt.
pub struct Lent<T> {
    items: Vec<T>,
    start: u64,
}

impl<T: Item> Lent<T> {
    pub fn new(rng: &mut Rng, length: usize) -> Self {
        let mut lent = Self {
            items: vec![T::ZERO; FENCE + length + FENCE],
            start: 0,
        };
        lent.soil(rng);
        lent
    }

    fn soil(&mut self, rng: &mut Rng) {
        self.start = rng.next_u64();
        for (at, item) in self.items.iter_mut().enumerate() {
            *item = dirt(self.start, at);
        }
    }

    fn length(&self) -> usize {
        self.items.len() - 2 * FENCE
    }

    pub fn given(&self) -> &[T] {
        &self.items[FENCE..FENCE + self.length()]
    }

    pub fn given_mut(&mut self) -> &mut [T] {
        let length = self.length();
        &mut self.items[FENCE..FENCE + length]
    }

    /// The first element that is not as it must be.
    pub fn fault(&self, name: &str, left: Left<T>) -> Option<String> {
        let must_be = |at: usize| match (left, at.checked_sub(FENCE)) {
            (Left::Zeros(need), Some(place)) if place < need => T::ZERO,
            (Left::New(new), Some(place)) if place < new.len() => new[place],
            (Left::Anything, Some(place)) if place < self.length() => self.items[at],
            _ => dirt(self.start, at),
        };
        let at = (0..self.items.len()).find(|&at| self.items[at] != must_be(at))?;
        Some(format!(
            "{name}[{}] of {} is {:#x}, not {:#x}",
            at as i64 - FENCE as i64,
            self.length(),
            self.items[at],
            must_be(at)
        ))
    }
}

/// Elements that a call only reads, with others around them, so that an answer which reads past an
/// end shows.
pub struct Fenced<T> {
    items: Vec<T>,
    start: usize,
    length: usize,
}

impl<T: Item> Fenced<T> {
    pub fn new(rng: &mut Rng, given: &[T]) -> Self {
        let around = T::from_bits(u64::MAX);
        let start = FENCE + rng.below_usize(8);
        let mut items = vec![around; start];
        items.extend(given);
        items.extend([around; FENCE]);
        Self {
            items,
            start,
            length: given.len(),
        }
    }

    pub fn given(&self) -> &[T] {
        &self.items[self.start..self.start + self.length]
    }
}

/// A number that names the kind: 0, or any other number.
pub fn flag(rng: &mut Rng, compact: bool) -> u32 {
    match compact {
        false => 0,
        true => rng.edge_u32().max(1),
    }
}

/// The keys as bytes from any address on, with up to 7 bytes behind them and others around.
pub struct KeyBytes {
    bytes: Vec<u8>,
    start: usize,
    length: usize,
}

impl KeyBytes {
    pub fn new(rng: &mut Rng, keys: &[u64]) -> Self {
        let start = rng.below_usize(8);
        let mut bytes = rng.bytes(start);
        for key in keys {
            bytes.extend(key.to_le_bytes());
        }
        bytes.extend(rng.bytes(16));
        let length = keys.len() * 8 + rng.below_usize(8);
        Self {
            bytes,
            start,
            length,
        }
    }

    pub fn given(&self) -> &[u8] {
        &self.bytes[self.start..self.start + self.length]
    }
}

/// The same with up to 8 elements of any kind behind, often none.
pub fn lengthened<T: Item>(rng: &mut Rng, given: &[T]) -> Vec<T> {
    let mut longer = given.to_vec();
    longer.extend((0..more(rng)).map(|_| T::from_bits(rng.next_u64())));
    longer
}

/// Up to 8, often 0: how much longer than it need be a buffer is.
pub fn more(rng: &mut Rng) -> usize {
    rng.below(2) as usize * rng.below_usize(9)
}

/// Lengths that do not suffice: one short, none at all, and any other. There are none where nothing
/// is needed.
pub fn shorter(rng: &mut Rng, need: usize) -> Vec<usize> {
    match need {
        0 => Vec::new(),
        _ => vec![need - 1, 0, rng.below_usize(need)],
    }
}

/// What stands at a place before a call. It is made anew to judge, so that nothing is kept of a
/// large buffer, and it is never 0, so that what was set to zero never passes for untouched.
fn dirt<T: Item>(start: u64, at: usize) -> T {
    let bits = start
        .wrapping_add(at as u64)
        .wrapping_mul(0xd6e8_feb8_6659_fd93);
    match T::from_bits(bits) {
        zero if zero == T::ZERO => T::from_bits(u64::MAX),
        item => item,
    }
}

/// How many elements each buffer needs, or has.
#[derive(Clone, Copy, Default, Debug)]
pub struct Sizes {
    pub key_room: usize,
    pub value_room: usize,
    pub table: usize,
    pub occupancy: usize,
    pub degrees: usize,
    pub xors: usize,
    pub queue: usize,
    pub order: usize,
    pub marks: usize,
    pub seen: usize,
}

impl Sizes {
    pub const COUNT: usize = 10;
    /// The rooms into which keys and values are read come first, as their check does.
    pub const ROOMS: usize = 2;

    pub fn all(&self) -> [usize; Self::COUNT] {
        let mut copy = *self;
        copy.all_mut().map(|size| *size)
    }

    pub fn all_mut(&mut self) -> [&mut usize; Self::COUNT] {
        [
            &mut self.key_room,
            &mut self.value_room,
            &mut self.table,
            &mut self.occupancy,
            &mut self.degrees,
            &mut self.xors,
            &mut self.queue,
            &mut self.order,
            &mut self.marks,
            &mut self.seen,
        ]
    }

    /// Whether a buffer of these is shorter than its need.
    pub fn lack(&self, needs: &Self) -> bool {
        self.all()
            .iter()
            .zip(needs.all())
            .any(|(&size, need)| size < need)
    }

    /// Whether the keys or the values have no room.
    pub fn lack_rooms(&self, needs: &Self) -> bool {
        self.key_room < needs.key_room || self.value_room < needs.value_room
    }
}

/// How a build must leave its buffers.
#[derive(Clone, Copy)]
pub enum After<'a> {
    /// It ended before it needed them.
    Untouched,
    /// The needed part of the scratch buffers is zeros, the keys and the values are read, and there is
    /// no table.
    Cleared,
    /// The same, with this table and occupancy.
    Built(&'a [u32], &'a [u8]),
}

/// All buffers that a build of either kind is lent.
pub struct Loan {
    pub key_room: Lent<u64>,
    pub value_room: Lent<u32>,
    pub table: Lent<u32>,
    pub occupancy: Lent<u8>,
    pub degrees: Lent<u8>,
    pub xors: Lent<u32>,
    pub queue: Lent<u32>,
    pub order: Lent<Pair>,
    pub marks: Lent<u8>,
    pub seen: Lent<u8>,
    pub answer: Lent<u64>,
    pub lengths: Sizes,
}

impl Loan {
    /// The index of a build: n, m, seed, modulus and width. Its status stands before them.
    pub const ANSWER: usize = BUILT_WORDS - 1;

    pub fn new(rng: &mut Rng, lengths: Sizes) -> Self {
        Self {
            key_room: Lent::new(rng, lengths.key_room),
            value_room: Lent::new(rng, lengths.value_room),
            table: Lent::new(rng, lengths.table),
            occupancy: Lent::new(rng, lengths.occupancy),
            degrees: Lent::new(rng, lengths.degrees),
            xors: Lent::new(rng, lengths.xors),
            queue: Lent::new(rng, lengths.queue),
            order: Lent::new(rng, lengths.order),
            marks: Lent::new(rng, lengths.marks),
            seen: Lent::new(rng, lengths.seen),
            answer: Lent::new(rng, BUILT_WORDS),
            lengths,
        }
    }

    /// Makes all of it dirty again, so that a large loan serves several builds.
    pub fn soil(&mut self, rng: &mut Rng) {
        for numbers in [&mut self.key_room, &mut self.answer] {
            numbers.soil(rng);
        }
        for words in [
            &mut self.value_room,
            &mut self.table,
            &mut self.xors,
            &mut self.queue,
        ] {
            words.soil(rng);
        }
        self.order.soil(rng);
        for bytes in [
            &mut self.occupancy,
            &mut self.degrees,
            &mut self.marks,
            &mut self.seen,
        ] {
            bytes.soil(rng);
        }
    }

    pub fn status(&self) -> u32 {
        u32::try_from(self.answer.given()[0]).expect("a status has 32 bits")
    }

    pub fn answer(&self) -> [u64; Self::ANSWER] {
        let index = &self.answer.given()[1..];
        index.try_into().expect("a loan has room for the answer")
    }

    /// The first place that a build of these keys and values left otherwise than it must. The answer
    /// is for the caller to judge.
    pub fn fault(
        &self,
        needs: &Sizes,
        keys: &[u64],
        values: &[u32],
        after: After,
    ) -> Option<String> {
        let (table, occupancy) = match after {
            After::Built(table, occupancy) => (Left::New(table), Left::New(occupancy)),
            _ => (Left::Untouched, Left::Untouched),
        };
        let cleared = !matches!(after, After::Untouched);
        let (keys, values) = match cleared {
            true => (Left::New(keys), Left::New(values)),
            false => (Left::Untouched, Left::Untouched),
        };
        self.key_room
            .fault("key_room", keys)
            .or_else(|| self.value_room.fault("value_room", values))
            .or_else(|| self.answer.fault("answer", Left::Anything))
            .or_else(|| self.table.fault("table", table))
            .or_else(|| self.occupancy.fault("occupancy", occupancy))
            .or_else(|| scratch("degrees", &self.degrees, needs.degrees, cleared))
            .or_else(|| scratch("xors", &self.xors, needs.xors, cleared))
            .or_else(|| scratch("queue", &self.queue, needs.queue, cleared))
            .or_else(|| scratch("order", &self.order, needs.order, cleared))
            .or_else(|| scratch("marks", &self.marks, needs.marks, cleared))
            .or_else(|| scratch("seen", &self.seen, needs.seen, cleared))
    }
}

fn scratch<T: Item>(name: &str, lent: &Lent<T>, need: usize, cleared: bool) -> Option<String> {
    match cleared {
        true => lent.fault(name, Left::Zeros(need)),
        false => lent.fault(name, Left::Untouched),
    }
}
