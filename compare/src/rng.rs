//! The generator behind every random input, and the boundary values.

/// Own code, so that a fault in a mixer under comparison cannot shape the inputs it is tried on.
pub struct Rng(u64);

impl Rng {
    pub fn new(seed: u64) -> Self {
        Self(seed)
    }

    /// Each topic has its own inputs for a seed, whatever topics stand before it.
    pub fn for_topic(seed: u64, topic: &str) -> Self {
        let mut own = Self::new(seed);
        for byte in topic.bytes() {
            own = Self::new(own.next_u64() ^ u64::from(byte));
        }
        own
    }

    pub fn next_u64(&mut self) -> u64 {
        self.0 = self.0.wrapping_add(0xa076_1d64_78bd_642f);
        let mut mixed = self.0;
        mixed = (mixed ^ (mixed >> 32)).wrapping_mul(0xd6e8_feb8_6659_fd93);
        mixed = (mixed ^ (mixed >> 32)).wrapping_mul(0xd6e8_feb8_6659_fd93);
        mixed ^ (mixed >> 32)
    }

    pub fn next_u32(&mut self) -> u32 {
        (self.next_u64() >> 32) as u32
    }

    /// A number under `limit`, which is not 0.
    pub fn below(&mut self, limit: u64) -> u64 {
        ((u128::from(self.next_u64()) * u128::from(limit)) >> 64) as u64
    }

    pub fn below_usize(&mut self, limit: usize) -> usize {
        self.below(limit as u64) as usize
    }

    /// Mostly a boundary value.
    pub fn edge_u64(&mut self) -> u64 {
        match self.below(8) {
            0 => self.next_u64(),
            1 => self.below(4),
            2 => u64::MAX - self.below(4),
            _ => (1 << self.below(64)) + self.below(3) - 1,
        }
    }

    /// Mostly a boundary value.
    pub fn edge_u32(&mut self) -> u32 {
        match self.below(8) {
            0 => self.next_u32(),
            1 => self.below(4) as u32,
            2 => u32::MAX - self.below(4) as u32,
            _ => (1u32 << self.below(32)) + self.below(3) as u32 - 1,
        }
    }

    /// A number of any length in bits, each length as likely as the others.
    pub fn any_length_u32(&mut self) -> u32 {
        self.next_u32() >> self.below(32)
    }

    pub fn bytes(&mut self, count: usize) -> Vec<u8> {
        (0..count).map(|_| self.next_u64() as u8).collect()
    }

    pub fn words(&mut self, count: usize) -> Vec<u32> {
        (0..count).map(|_| self.next_u32()).collect()
    }

    pub fn keys(&mut self, count: usize) -> Vec<u64> {
        (0..count).map(|_| self.next_u64()).collect()
    }

    pub fn shuffle<T>(&mut self, items: &mut [T]) {
        for last in (1..items.len()).rev() {
            items.swap(last, self.below_usize(last + 1));
        }
    }
}

/// Numbers of vertices about the ends of a byte and of the first blocks of an occupancy.
pub const SIZES: [u32; 11] = [0, 1, 7, 8, 9, 511, 512, 513, 1_023, 1_024, 1_025];

/// How many kinds of occupancies there are.
pub const OCCUPANCIES: u64 = 5;

/// Bits of a kind that a number chooses: none, all, few, many, or as they come. Those of the last
/// byte that are not below m are no different from the others.
pub fn occupancy(rng: &mut Rng, bytes: usize, kind: u64) -> Vec<u8> {
    let mut joined = |join: fn(u8, u8) -> u8| {
        let mut byte = || {
            let four = rng.next_u32().to_le_bytes();
            four.into_iter().reduce(join).expect("there are four")
        };
        (0..bytes).map(|_| byte()).collect()
    };
    match kind {
        0 => vec![0; bytes],
        1 => vec![0xff; bytes],
        2 => joined(|a, b| a & b),
        3 => joined(|a, b| a | b),
        _ => rng.bytes(bytes),
    }
}

/// Every power of two with the numbers beside it, and the ends.
pub fn edges_u64() -> Vec<u64> {
    let mut edges = vec![0, 1, 2, 3, u64::MAX - 1, u64::MAX];
    for bit in 2..64 {
        let power = 1u64 << bit;
        edges.extend([power - 1, power, power + 1]);
    }
    edges.sort_unstable();
    edges.dedup();
    edges
}

/// Those of `edges_u64` that fit, and the end.
pub fn edges_u32() -> Vec<u32> {
    let mut edges: Vec<u32> = edges_u64()
        .into_iter()
        .filter_map(|edge| u32::try_from(edge).ok())
        .collect();
    edges.extend([u32::MAX - 2, u32::MAX - 1]);
    edges.sort_unstable();
    edges.dedup();
    edges
}
