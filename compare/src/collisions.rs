//! Keys whose three products fall on one place or beside each other, for any m, and sets of keys
//! that meet on chosen vertices.
//!
//! A key is mixed before it is multiplied, and the mixer is a bijection, so the hash is chosen and
//! the key is what the inverse makes of it.

use crate::model::feed::PAGE_BITS;
use crate::model::hash;
use crate::rng::Rng;

/// What the assigned kind does with products that meet.
#[derive(Clone, Copy, PartialEq, Eq)]
pub enum Meeting {
    SecondMoves,
    SecondWraps,
    ThirdMoves,
    ThirdMovesTwice,
    ThirdWraps,
}

/// The key whose hash under the seed is `hash`.
pub fn key_of(hash: u64, seed: u64) -> u64 {
    let key = unmix64(hash).wrapping_sub(seed);
    assert_eq!(hash::hash(key, seed), hash, "no inverse");
    key
}

/// The inverse of mix64, step for step from its end.
pub fn unmix64(mut hash: u64) -> u64 {
    hash ^= hash >> 33;
    hash = hash.wrapping_mul(inverse(0xc4ce_b9fe_1a85_ec53));
    hash ^= hash >> 33;
    hash = hash.wrapping_mul(inverse(0xff51_afd7_ed55_8ccd));
    hash ^= hash >> 33;
    hash
}

/// The inverse of an odd number modulo 2^64; every step doubles the number of right bits.
const fn inverse(odd: u64) -> u64 {
    let mut found = odd;
    let mut step = 0;
    while step < 6 {
        found = found.wrapping_mul(2u64.wrapping_sub(odd.wrapping_mul(found)));
        step += 1;
    }
    found
}

/// The rotations are by 21 bits, so a hash is three words of 21 bits and one bit more, and each
/// product is led by one of the words.
const TOP: u64 = 1 << 21;

/// A hash whose three products by m are likely to meet.
///
/// Its words are chosen at most two places of m apart, often at an end, where a product that moves
/// on wraps to 0.
pub fn crowded_hash(rng: &mut Rng, m: u32) -> u64 {
    let place = (TOP / u64::from(m.max(1))).max(1);
    let base = match rng.below(4) {
        0 => 0,
        1 => TOP - place,
        2 => TOP - 2 * place.min(TOP / 2),
        _ => rng.below(TOP),
    };
    let mut hash = 0;
    for _ in 0..3 {
        let word = (base + place * rng.below(3)).min(TOP - 1);
        hash = hash << 21 | word;
    }
    hash << 1 | hash >> 62
}

/// What the hash asks of the assigned kind, found from the products alone.
pub fn meetings(hash: u64, m: u32) -> Vec<Meeting> {
    let [first, mut second, mut third] = hash::products(hash, m);
    let next = |at: u32| if at == m - 1 { 0 } else { at + 1 };
    let mut found = Vec::new();
    if second == first {
        found.push(Meeting::SecondMoves);
        second = next(second);
        if second == 0 {
            found.push(Meeting::SecondWraps);
        }
    }
    let mut moves = 0;
    while moves < 2 && (third == first || third == second) {
        third = next(third);
        moves += 1;
        if third == 0 {
            found.push(Meeting::ThirdWraps);
        }
    }
    match moves {
        0 => (),
        1 => found.push(Meeting::ThirdMoves),
        _ => found.push(Meeting::ThirdMovesTwice),
    }
    found
}

/// A hash with these three products by `size`, which is small beside 2^21.
pub fn hash_with(rng: &mut Rng, products: [u32; 3], size: u32) -> u64 {
    let size = u64::from(size);
    let mut hash = 0;
    for product in products.map(u64::from) {
        // All words from one to the other give the product, whatever bits follow them.
        let first = (product * TOP).div_ceil(size);
        let past = (product + 1) * TOP / size;
        hash = hash << 21 | (first + rng.below(past - first));
    }
    hash << 1 | rng.below(2)
}

/// What the products are by: m, or the size of a part.
fn factor(compact: bool, m: u32) -> u32 {
    match compact {
        true => m / 3,
        false => m,
    }
}

/// Keys that meet chosen vertices need an m that is small beside 2^21.
const CHOSEN: u32 = 1 << 19;

/// The vertices whose words cross from a page to the next; none where keys cannot be chosen.
pub fn crossing(m: u32, width: u32) -> Vec<u32> {
    if !(3..=CHOSEN).contains(&m) {
        return Vec::new();
    }
    let width = u64::from(width);
    let ends = (1..).map(|page| page * PAGE_BITS);
    ends.map(|end| (end, end / width))
        .take_while(|&(_, vertex)| vertex < u64::from(m))
        .filter(|&(end, vertex)| vertex * width < end)
        .map(|(_, vertex)| vertex as u32)
        .collect()
}

/// A key most of whose words are among the crossing ones, as far as its parts have such words.
pub fn crossing_key(rng: &mut Rng, compact: bool, m: u32, seed: u64, crossing: &[u32]) -> u64 {
    let size = factor(compact, m);
    let starts = match compact {
        true => [0, size, 2 * size],
        false => [0; 3],
    };
    let products = starts.map(|start| {
        let part = crossing
            .iter()
            .filter_map(|vertex| vertex.checked_sub(start));
        let part: Vec<u32> = part.filter(|&product| product < size).collect();
        match rng.below(3) {
            0 | 1 if !part.is_empty() => part[rng.below_usize(part.len())],
            _ => rng.below(u64::from(size)) as u32,
        }
    });
    key_of(hash_with(rng, products, size), seed)
}

/// How keys are to meet on one vertex.
#[derive(Clone, Copy, Debug)]
pub struct Crowd {
    pub compact: bool,
    /// Which of a key's three vertices it is.
    pub place: usize,
    /// Whether it is any of the three, a different one for different keys: the assigned kind only.
    pub turned: bool,
    /// How many keys meet.
    pub count: usize,
}

/// So many that a third of their vertices suffices to give half of a crowd a vertex of its own each,
/// and so few that a third suffices for all keys that are not in the crowd.
const CROWD_KEYS: usize = 400;
/// For either kind.
const CROWD_VERTICES: u32 = 492;

/// Keys of which `count` meet on one vertex at the seed. Each key has a vertex at the seed that no
/// other key has, so nothing but that crowd can fail the seed.
pub fn crowd(rng: &mut Rng, crowd: Crowd, seed: u64) -> Vec<u64> {
    let part = CROWD_VERTICES / 3;
    let mut free: [Vec<u32>; 3] = [0, 1, 2].map(|_| (0..part).collect());
    for offsets in &mut free {
        rng.shuffle(offsets);
    }
    let mut take = |place: usize| free[place].pop().expect("a part has vertices enough");
    let meeting = take(crowd.place);
    let mut own = Vec::new();
    for key in 0..CROWD_KEYS {
        let place = match key < crowd.count {
            true => (crowd.place + 1 + key % 2) % 3,
            false => crowd.place,
        };
        own.push((place, take(place)));
    }
    let mut keys = Vec::new();
    for (key, (place, offset)) in own.into_iter().enumerate() {
        // The other two are any of those that are no key's own.
        let mut offsets = [0, 1, 2].map(|place| free[place][rng.below_usize(free[place].len())]);
        if key < crowd.count {
            offsets[crowd.place] = meeting;
        }
        offsets[place] = offset;
        let vertices = [offsets[0], part + offsets[1], 2 * part + offsets[2]];
        let mut products = match crowd.compact {
            true => offsets,
            false => vertices,
        };
        if crowd.turned {
            products.rotate_left(rng.below_usize(3));
        }
        let size = factor(crowd.compact, CROWD_VERTICES);
        keys.push(key_of(hash_with(rng, products, size), seed));
    }
    rng.shuffle(&mut keys);
    assert_eq!(degrees(&keys, crowd.compact, seed), (crowd.count, true));
    keys
}

/// How many keys the most visited vertex has; and whether each key has a vertex to itself.
fn degrees(keys: &[u64], compact: bool, seed: u64) -> (usize, bool) {
    let vertices = |key: &u64| hash::vertices(*key, seed, CROWD_VERTICES, compact);
    let mut degrees = vec![0; CROWD_VERTICES as usize];
    for vertex in keys.iter().flat_map(vertices) {
        degrees[vertex as usize] += 1;
    }
    let alone = |vertex: u32| degrees[vertex as usize] == 1;
    let all_have = keys.iter().all(|key| vertices(key).into_iter().any(alone));
    (degrees.into_iter().max().unwrap_or(0), all_have)
}

/// Different keys that none of the seeds can peel: one key, and for each seed another that has the
/// same three vertices at that seed.
pub fn twins(rng: &mut Rng, compact: bool, m: u32, seeds: &[u64]) -> Vec<u64> {
    let size = factor(compact, m);
    let first = rng.next_u64();
    let mut keys = vec![first];
    for &seed in seeds {
        let products = hash::products(hash::hash(first, seed), size);
        let twin = loop {
            let twin = key_of(hash_with(rng, products, size), seed);
            if !keys.contains(&twin) {
                break twin;
            }
        };
        let vertices = |key| hash::vertices(key, seed, m, compact);
        assert_eq!(vertices(first), vertices(twin), "no twin");
        keys.push(twin);
    }
    rng.shuffle(&mut keys);
    keys
}
