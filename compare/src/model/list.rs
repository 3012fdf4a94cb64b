//! Key lists, as the programs read them.

use crate::ours::{BAD_LIST, NO_ROOM};

/// "Over 1,000 records, or of modulus over 65,536, is 19".
pub const MOST_RECORDS: usize = 1_000;
pub const MOST_MODULUS: u32 = 65_536;

/// "4B 4D and the modulus (4 bytes)".
pub const HEAD: [u8; 2] = [0x4b, 0x4d];
/// "Records 4B 56, key (8), value (4)".
pub const ASSIGNED: [u8; 2] = [0x4b, 0x56];
/// "Only records 4B 43, key (8), for compact".
pub const COMPACT: [u8; 2] = [0x4b, 0x43];

/// A list that is none of the bad ones. A compact one has the modulus 0 and no values.
#[derive(Clone, PartialEq, Debug, Default)]
pub struct List {
    pub compact: bool,
    pub modulus: u32,
    pub keys: Vec<u64>,
    pub values: Vec<u32>,
}

impl List {
    /// Kind, modulus and count, as a reader tells them.
    pub fn told(&self) -> [u64; 3] {
        let count = self.keys.len() as u64;
        [u64::from(self.compact), u64::from(self.modulus), count]
    }

    /// The bytes of such a list, also where it has too many records or too large a modulus.
    pub fn bytes(&self) -> Vec<u8> {
        if self.compact {
            let record = |key: &u64| [&COMPACT[..], &key.to_le_bytes()].concat();
            return self.keys.iter().flat_map(record).collect();
        }
        let mut bytes = [&HEAD[..], &self.modulus.to_le_bytes()].concat();
        for (key, value) in self.keys.iter().zip(&self.values) {
            bytes.extend(ASSIGNED);
            bytes.extend(key.to_le_bytes());
            bytes.extend(value.to_le_bytes());
        }
        bytes
    }
}

/// The list that the bytes are, if they are one: "a file that is empty, mixed, cut, of another
/// shape, over 1,000 records, or of modulus over 65,536 is 19".
pub fn list(bytes: &[u8]) -> Option<List> {
    let found = match bytes.strip_prefix(&HEAD) {
        Some(rest) => assigned(rest)?,
        None if bytes.is_empty() => return None,
        None => compact(bytes)?,
    };
    let small = found.keys.len() <= MOST_RECORDS && found.modulus <= MOST_MODULUS;
    small.then_some(found)
}

/// What stands behind the first two bytes.
fn assigned(rest: &[u8]) -> Option<List> {
    let (modulus, records) = rest.split_first_chunk()?;
    let mut list = List {
        modulus: u32::from_le_bytes(*modulus),
        ..List::default()
    };
    for record in records.chunks(ASSIGNED.len() + 8 + 4) {
        let (key, value) = record.strip_prefix(&ASSIGNED)?.split_first_chunk()?;
        list.keys.push(u64::from_le_bytes(*key));
        list.values.push(u32::from_le_bytes(value.try_into().ok()?));
    }
    Some(list)
}

fn compact(records: &[u8]) -> Option<List> {
    let mut list = List {
        compact: true,
        ..List::default()
    };
    for record in records.chunks(COMPACT.len() + 8) {
        let key = record.strip_prefix(&COMPACT)?;
        list.keys.push(u64::from_le_bytes(key.try_into().ok()?));
    }
    Some(list)
}

/// Reads a list into buffers of so many elements: 19, then 14 where the keys are too few, or of an
/// assigned list the values.
pub fn read(bytes: &[u8], keys: usize, values: usize) -> Result<List, u32> {
    let list = list(bytes).ok_or(BAD_LIST)?;
    match list.keys.len() > keys || list.values.len() > values {
        true => Err(NO_ROOM),
        false => Ok(list),
    }
}
