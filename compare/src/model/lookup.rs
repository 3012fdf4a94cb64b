//! Lookups of many keys: what they refuse, and what they answer.

use super::{hash, rank};
use crate::ours::{Index, DONE, NO_ROOM, OCC_TRUNCATED, ZERO_MODULUS};

/// "No keys accepted; 14 (answers); n = 0 answers 0; n = 1; 11 (m or modulus 0); 12; 14". The room for
/// the keys, which come as bytes, is tested before all else.
pub fn status(index: Index, keys: usize, key_room: usize, answers: usize) -> u32 {
    let (bytes, supers) = rank::needs(index.m);
    let compact = index.compact != 0;
    if key_room < keys {
        NO_ROOM
    } else if keys == 0 {
        DONE
    } else if answers < keys {
        NO_ROOM
    } else if index.n <= 1 {
        DONE
    } else if index.m == 0 || index.modulus == 0 {
        ZERO_MODULUS
    } else if compact && index.occupancy.len() < bytes {
        OCC_TRUNCATED
    } else if index.table.len() < index.m as usize || compact && index.supers.len() < supers {
        NO_ROOM
    } else {
        DONE
    }
}

/// "Sum of three words modulo 2^32, then mod modulus. Compact: sum mod 3 picks the vertex; the answer is
/// min(ones below it, n-1). n = 1: compact 0, assigned the stored word (0 if the lent table is empty)";
/// "n = 0 answers 0".
pub fn answer(index: Index, key: u64) -> u32 {
    let compact = index.compact != 0;
    match index.n {
        0 => return 0,
        1 if compact => return 0,
        1 => return index.table.first().copied().unwrap_or(0),
        _ => (),
    }
    let vertices = hash::vertices(key, index.seed, index.m, compact);
    let words = vertices.map(|vertex| index.table[vertex as usize]);
    let sum = words.into_iter().fold(0, u32::wrapping_add);
    match compact {
        false => sum % index.modulus,
        true => {
            let vertex = vertices[sum as usize % 3];
            rank::answer(index.occupancy, index.supers, vertex, index.n)
        }
    }
}
