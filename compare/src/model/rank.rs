//! Occupancies: what they need, and the ones in them.

/// "ceil(m/8) occupancy bytes" and "ceil(m/512)+1 super counts".
pub fn needs(m: u32) -> (usize, usize) {
    (m.div_ceil(8) as usize, m.div_ceil(512) as usize + 1)
}

/// "Vertex v at bit v mod 8 of byte v/8": how many of these vertices have a one.
pub fn ones(occupancy: &[u8], vertices: std::ops::Range<usize>) -> u32 {
    let bit = |vertex: usize| u32::from(occupancy[vertex / 8] >> (vertex % 8) & 1);
    vertices.map(bit).sum()
}

/// "Ones before each block of 512 bits, and last the ones below m".
pub fn super_counts(m: u32, occupancy: &[u8]) -> Vec<u32> {
    let m = m as usize;
    let mut counts = vec![0];
    for start in (0..m).step_by(512) {
        let before = counts[counts.len() - 1];
        counts.push(before + ones(occupancy, start..m.min(start + 512)));
    }
    counts
}

/// "Lookup adds the lent ones modulo 2^32": the ones below a vertex, by lent super counts.
pub fn rank(occupancy: &[u8], supers: &[u32], vertex: u32) -> u32 {
    let vertex = vertex as usize;
    let block = vertex / 512;
    supers[block].wrapping_add(ones(occupancy, 512 * block..vertex))
}

/// "The answer is min(ones below it, n-1)".
pub fn answer(occupancy: &[u8], supers: &[u32], vertex: u32, n: u32) -> u32 {
    rank(occupancy, supers, vertex).min(n - 1)
}

/// "The number of ones in its ceil(m/8) occupancy bytes; it is full when that equals n": the ones
/// and whether they are n; none where there are fewer bytes, which is 12.
pub fn audit(n: u32, m: u32, occupancy: &[u8]) -> Option<[u64; 2]> {
    let bytes = occupancy.get(..needs(m).0)?;
    let ones = bytes.iter().map(|byte| u64::from(byte.count_ones())).sum();
    Some([ones, u64::from(ones == u64::from(n))])
}
