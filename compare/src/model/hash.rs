//! Vertices: how many an index has, and which three a key has.

/// "`mix64` is MurmurHash3's 64-bit finalizer".
pub fn mix64(key: u64) -> u64 {
    let mut mixed = key;
    mixed = (mixed ^ (mixed >> 33)).wrapping_mul(0xff51_afd7_ed55_8ccd);
    mixed = (mixed ^ (mixed >> 33)).wrapping_mul(0xc4ce_b9fe_1a85_ec53);
    mixed ^ (mixed >> 33)
}

/// "h = mix64(key + seed modulo 2^64)".
pub fn hash(key: u64, seed: u64) -> u64 {
    mix64(key.wrapping_add(seed))
}

/// "The high 64 bits of h, h rotated left 21, and h rotated left 42, each times p".
pub fn products(hash: u64, part: u32) -> [u32; 3] {
    let product = |rotation| u128::from(hash.rotate_left(rotation)) * u128::from(part);
    [0, 21, 42].map(|rotation| (product(rotation) >> 64) as u32)
}

/// "If b = a, b becomes (b+1) mod m; if c is a or b, c becomes (c+1) mod m, and once more if still
/// equal to either". Without vertices there are zeros.
pub fn assigned_vertices(hash: u64, m: u32) -> [u32; 3] {
    if m == 0 {
        return [0; 3];
    }
    let next = |vertex: u32| ((u64::from(vertex) + 1) % u64::from(m)) as u32;
    let [a, mut b, mut c] = products(hash, m);
    if b == a {
        b = next(b);
    }
    for _ in 0..2 {
        if c == a || c == b {
            c = next(c);
        }
    }
    [a, b, c]
}

/// "Compact, p = floor(m/3): a, p+b, 2p+c".
pub fn compact_vertices(hash: u64, m: u32) -> [u32; 3] {
    let part = m / 3;
    let [a, b, c] = products(hash, part);
    [a, part + b, 2 * part + c]
}

/// The vertices of a key in an index of either kind.
pub fn vertices(key: u64, seed: u64, m: u32, compact: bool) -> [u32; 3] {
    match compact {
        true => compact_vertices(hash(key, seed), m),
        false => assigned_vertices(hash(key, seed), m),
    }
}

/// "Assigned m = max(ceil(123n/100), n+3) for n of 2 or more. Compact m is that, raised to a
/// multiple of 3. n = 0: m 0. n = 1: m 1".
pub fn vertex_count(compact: bool, n: u32) -> u64 {
    let n = u64::from(n);
    let assigned = (123 * n).div_ceil(100).max(n + 3);
    match (n, compact) {
        (0 | 1, _) => n,
        (_, false) => assigned,
        (_, true) => assigned.next_multiple_of(3),
    }
}
