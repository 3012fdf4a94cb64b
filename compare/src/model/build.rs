//! What a build needs, and what it refuses before it touches anything.

use super::hash;
use crate::lent::Sizes;
use crate::ours::{ASSIGNED_LEN, ASSIGNED_MODULUS, DONE, MOST, NO_ROOM, TOO_LARGE};

/// "Table, xor and queue m words each; degrees and assigned marks m bytes each; order n pairs; compact
/// occupancy ceil(m/8) bytes. Seen values: ceil(modulus/8) bytes. For n = 1 only the table, seen values
/// and occupancy are needed." The keys and the values, which come as bytes, need a word each.
pub fn needs(compact: bool, keys: usize, values: usize, modulus: u32) -> Sizes {
    let m = hash::vertex_count(compact, keys as u32) as usize;
    let each = if keys < 2 { 0 } else { m };
    Sizes {
        key_room: keys,
        value_room: values,
        table: m,
        occupancy: if compact { m.div_ceil(8) } else { 0 },
        degrees: each,
        xors: each,
        queue: each,
        order: if keys < 2 { 0 } else { keys },
        marks: each,
        seen: match compact || keys == 0 {
            true => 0,
            false => modulus.div_ceil(8) as usize,
        },
    }
}

/// "Assigned build: 1; no keys is accepted with any modulus; 2; 13; 14"; "Compact build: no keys
/// accepted; 13; 14". The rooms for keys and values are tested before all else.
pub fn early_status(
    compact: bool,
    keys: usize,
    values: usize,
    modulus: u32,
    lengths: &Sizes,
) -> u32 {
    let needs = needs(compact, keys, values, modulus);
    if lengths.lack_rooms(&needs) {
        NO_ROOM
    } else if !compact && keys != values {
        ASSIGNED_LEN
    } else if keys == 0 {
        DONE
    } else if !compact && modulus == 0 {
        ASSIGNED_MODULUS
    } else if keys > MOST as usize || !compact && modulus > MOST {
        TOO_LARGE
    } else if lengths.lack(&needs) {
        NO_ROOM
    } else {
        DONE
    }
}
