//! The attack on the reader of key lists finds what is wrong: it passes a plain reader that stands in
//! for ours, and not the same reader with any one of these faults.

use compare::attack::lists::{self, Read};
use compare::ours::{BAD_LIST, DONE, NO_ROOM};
use compare::rng::Rng;
use compare::tally::Tally;

const NO_FAULT: u32 = 0;
/// Takes a modulus of 65,537.
const LARGE_MODULUS: u32 = 1;
/// Takes 1,001 records.
const MANY_RECORDS: u32 = 2;
/// Has written the records before the one that makes the list bad.
const WRITES_BAD: u32 = 3;
/// Has written the keys of a list whose values have no room.
const WRITES_WITHOUT_ROOM: u32 = 4;
/// Tells kind, modulus and count of what it refuses.
const TELLS_REFUSED: u32 = 5;
/// Tests the room for what it tells after the list.
const ROOM_LATE: u32 = 6;
/// Tests the room for keys before the list.
const ROOM_EARLY: u32 = 7;
/// Takes any marker in a record that has the right length.
const ANY_MARKER: u32 = 8;
/// Leaves out a last record that is cut.
const CUT_RECORD: u32 = 9;
/// Takes no bytes as a compact list of no keys.
const EMPTY_FILE: u32 = 10;
/// Refuses an assigned list of no keys.
const NO_EMPTY_LIST: u32 = 11;
/// Wants room for values of a compact list.
const VALUES_OF_COMPACT: u32 = 12;
/// Clears the values where a compact list has none.
const CLEARS_VALUES: u32 = 13;
/// Clears what is lent behind the keys.
const CLEARS_BEHIND: u32 = 14;
/// Tells the count of a compact list as its modulus.
const COMPACT_MODULUS: u32 = 15;
/// Refuses the modulus 0, which only a build refuses.
const NO_ZERO_MODULUS: u32 = 16;
const FAULTS: u32 = 17;

/// What was read, and whether the list was a good one to its end.
#[derive(Default)]
struct Seen {
    compact: bool,
    modulus: u32,
    keys: Vec<u64>,
    values: Vec<u32>,
    good: bool,
}

/// The records that stand before the first bad one, and whether there is none.
fn records<const FAULT: u32>(mut bytes: &[u8], seen: &mut Seen) -> bool {
    let (marker, length) = match seen.compact {
        true => ([0x4b, 0x43], 10),
        false => ([0x4b, 0x56], 14),
    };
    while bytes.len() >= length {
        if bytes[..2] != marker && FAULT != ANY_MARKER {
            return false;
        }
        seen.keys
            .push(u64::from_le_bytes(bytes[2..10].try_into().unwrap()));
        if !seen.compact {
            seen.values
                .push(u32::from_le_bytes(bytes[10..14].try_into().unwrap()));
        }
        bytes = &bytes[length..];
    }
    bytes.is_empty() || FAULT == CUT_RECORD
}

fn see<const FAULT: u32>(bytes: &[u8]) -> Seen {
    let mut seen = Seen {
        compact: !bytes.starts_with(&[0x4b, 0x4d]),
        ..Seen::default()
    };
    if seen.compact {
        seen.good = records::<FAULT>(bytes, &mut seen);
        seen.good &= !bytes.is_empty() || FAULT == EMPTY_FILE;
    } else if bytes.len() >= 6 {
        seen.modulus = u32::from_le_bytes(bytes[2..6].try_into().unwrap());
        seen.good = records::<FAULT>(&bytes[6..], &mut seen);
        let most = 65_536 + u32::from(FAULT == LARGE_MODULUS);
        seen.good &= seen.modulus <= most;
        seen.good &= seen.modulus > 0 || FAULT != NO_ZERO_MODULUS;
        seen.good &= !seen.keys.is_empty() || FAULT != NO_EMPTY_LIST;
    }
    seen.good &= seen.keys.len() <= 1_000 + usize::from(FAULT == MANY_RECORDS);
    seen
}

/// The number that a list comes to in buffers of these lengths.
fn number<const FAULT: u32>(seen: &Seen, keys: usize, values: usize) -> u32 {
    let few_values = match FAULT {
        VALUES_OF_COMPACT => values < seen.keys.len(),
        _ => values < seen.values.len(),
    };
    let no_room = keys < seen.keys.len() || few_values;
    match (seen.good, no_room) {
        (false, true) if FAULT == ROOM_EARLY => NO_ROOM,
        (false, _) => BAD_LIST,
        (true, true) => NO_ROOM,
        (true, false) => DONE,
    }
}

fn tells<const FAULT: u32>(seen: &Seen, number: u32) -> [u64; 3] {
    if number != DONE && FAULT != TELLS_REFUSED {
        return [0; 3];
    }
    let count = seen.keys.len() as u64;
    let modulus = match FAULT {
        COMPACT_MODULUS if seen.compact => count,
        _ => u64::from(seen.modulus),
    };
    [u64::from(seen.compact), modulus, count]
}

fn read<const FAULT: u32>(
    bytes: &[u8],
    keys: &mut [u64],
    values: &mut [u32],
    told: &mut [u64],
) -> u32 {
    let seen = see::<FAULT>(bytes);
    let number = number::<FAULT>(&seen, keys.len(), values.len());
    if told.len() < 3 {
        return match FAULT {
            ROOM_LATE if number != DONE => number,
            _ => NO_ROOM,
        };
    }
    let writes = match number {
        DONE => true,
        BAD_LIST => FAULT == WRITES_BAD,
        _ => FAULT == WRITES_WITHOUT_ROOM,
    };
    if writes {
        let kept = seen.keys.len().min(keys.len());
        keys[..kept].copy_from_slice(&seen.keys[..kept]);
    }
    if FAULT == CLEARS_BEHIND && number == DONE {
        keys[seen.keys.len()..].fill(0);
    }
    told[..3].copy_from_slice(&tells::<FAULT>(&seen, number));
    if number == DONE {
        values[..seen.values.len()].copy_from_slice(&seen.values);
        if FAULT == CLEARS_VALUES && seen.compact {
            values.fill(0);
        }
    }
    number
}

/// What one round of the attack finds first, if it finds anything.
fn found(read: Read) -> Option<String> {
    let attacked = lists::run(&mut Tally::default(), &mut Rng::new(1), read, 0);
    attacked.err().map(|difference| difference.ours)
}

#[test]
fn a_reader_without_fault_passes() {
    assert_eq!(found(read::<NO_FAULT>), None);
}

#[test]
fn every_fault_is_found() {
    let faulty: [(u32, Read); 16] = [
        (LARGE_MODULUS, read::<LARGE_MODULUS>),
        (MANY_RECORDS, read::<MANY_RECORDS>),
        (WRITES_BAD, read::<WRITES_BAD>),
        (WRITES_WITHOUT_ROOM, read::<WRITES_WITHOUT_ROOM>),
        (TELLS_REFUSED, read::<TELLS_REFUSED>),
        (ROOM_LATE, read::<ROOM_LATE>),
        (ROOM_EARLY, read::<ROOM_EARLY>),
        (ANY_MARKER, read::<ANY_MARKER>),
        (CUT_RECORD, read::<CUT_RECORD>),
        (EMPTY_FILE, read::<EMPTY_FILE>),
        (NO_EMPTY_LIST, read::<NO_EMPTY_LIST>),
        (VALUES_OF_COMPACT, read::<VALUES_OF_COMPACT>),
        (CLEARS_VALUES, read::<CLEARS_VALUES>),
        (CLEARS_BEHIND, read::<CLEARS_BEHIND>),
        (COMPACT_MODULUS, read::<COMPACT_MODULUS>),
        (NO_ZERO_MODULUS, read::<NO_ZERO_MODULUS>),
    ];
    assert!(faulty.iter().map(|(fault, _)| *fault).eq(1..FAULTS));
    for (fault, read) in faulty {
        assert!(found(read).is_some(), "fault {fault} is not found");
    }
}
