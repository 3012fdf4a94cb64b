//! The attack on refusals finds what is wrong: it passes our own calls, and not the same with any one
//! of these faults around them.

use compare::attack::refusals::{self, Calls};
use compare::lent::Loan;
use compare::ours::{self, Index, ASSIGNED_LEN, ASSIGNED_MODULUS, DONE, NO_ROOM};
use compare::rng::Rng;
use compare::tally::Tally;

const NO_FAULT: u32 = 0;
/// A lookup that reads the keys into their room before it judges.
const LOOKUP_READS_EARLY: u32 = 1;
/// One that reads them where the answers have room, whatever the index says.
const LOOKUP_JUDGES_HALF: u32 = 2;
/// One that writes behind the keys in a longer room.
const LOOKUP_READS_PAST: u32 = 3;
/// One that does not read them at all.
const LOOKUP_LEAVES_ROOM: u32 = 4;
/// A build that reads the keys before it judges.
const BUILD_READS_KEYS_EARLY: u32 = 5;
/// The values.
const BUILD_READS_VALUES_EARLY: u32 = 6;
/// One that writes behind the values in a longer room.
const BUILD_READS_PAST: u32 = 7;
/// One that judges the modulus before the rooms.
const ROOMS_LATE: u32 = 8;
/// One that clears its scratch where it is refused.
const CLEARS_REFUSED: u32 = 9;
/// One that tells how many keys there are beside a refusal.
const TELLS_REFUSED: u32 = 10;
/// One whose number is lost: it answers 0 for a refusal.
const LOSES_NUMBER: u32 = 11;
/// A compact build that reads before it judges.
const COMPACT_READS_EARLY: u32 = 12;
const FAULTS: u32 = 13;

fn read_keys(keys: &[u8], room: &mut [u64]) {
    for (place, key) in room.iter_mut().zip(keys.chunks_exact(8)) {
        *place = u64::from_le_bytes(key.try_into().unwrap());
    }
}

fn read_values(values: &[u8], room: &mut [u32]) {
    for (place, value) in room.iter_mut().zip(values.chunks_exact(4)) {
        *place = u32::from_le_bytes(value.try_into().unwrap());
    }
}

/// Tells a refusal, or what else these words say.
fn tell(loan: &mut Loan, words: [u64; 6]) -> u32 {
    loan.answer.given_mut().copy_from_slice(&words);
    words[0] as u32
}

fn lookup<const FAULT: u32>(
    keys: &[u8],
    index: Index,
    key_room: &mut [u64],
    out: &mut [u32],
) -> u32 {
    let count = keys.len() / 8;
    let before = key_room.to_vec();
    let answered = out.len() >= count;
    if key_room.len() >= count
        && (FAULT == LOOKUP_READS_EARLY || FAULT == LOOKUP_JUDGES_HALF && answered)
    {
        read_keys(keys, key_room);
    }
    let status = ours::index_batch(keys, index, key_room, out);
    match (FAULT, status) {
        (LOOKUP_READS_PAST, DONE) if key_room.len() > count => key_room[count] = 0,
        (LOOKUP_LEAVES_ROOM, _) => key_room.copy_from_slice(&before),
        _ => (),
    }
    status
}

fn assigned<const FAULT: u32>(keys: &[u8], values: &[u8], modulus: u32, loan: &mut Loan) -> u32 {
    let (count, given) = (keys.len() / 8, values.len() / 4);
    let fits = loan.lengths.key_room >= count && loan.lengths.value_room >= given;
    if FAULT == BUILD_READS_KEYS_EARLY && fits {
        read_keys(keys, loan.key_room.given_mut());
    }
    if FAULT == BUILD_READS_VALUES_EARLY && fits {
        read_values(values, loan.value_room.given_mut());
    }
    if FAULT == ROOMS_LATE && !fits && count == given && modulus == 0 {
        return tell(loan, [u64::from(ASSIGNED_MODULUS), 0, 0, 0, 0, 0]);
    }
    let status = ours::build_assigned(keys, values, modulus, loan);
    match (FAULT, status) {
        (BUILD_READS_PAST, DONE) if loan.lengths.value_room > given => {
            loan.value_room.given_mut()[given] = 0;
        }
        (CLEARS_REFUSED, NO_ROOM | ASSIGNED_LEN) => loan.degrees.given_mut().fill(0),
        (TELLS_REFUSED, NO_ROOM | ASSIGNED_LEN) => loan.answer.given_mut()[1] = count as u64,
        (LOSES_NUMBER, NO_ROOM) => return tell(loan, [0; 6]),
        _ => (),
    }
    status
}

fn compact<const FAULT: u32>(keys: &[u8], loan: &mut Loan) -> u32 {
    if FAULT == COMPACT_READS_EARLY && loan.lengths.key_room >= keys.len() / 8 {
        read_keys(keys, loan.key_room.given_mut());
    }
    ours::build_compact(keys, loan)
}

fn calls<const FAULT: u32>() -> Calls {
    Calls {
        assigned: assigned::<FAULT>,
        compact: compact::<FAULT>,
        lookup: lookup::<FAULT>,
    }
}

/// What one round of the attack finds first, if it finds anything.
fn found(calls: Calls) -> Option<String> {
    let (mut tally, mut rng) = (Tally::default(), Rng::new(1));
    let difference = refusals::run(&mut tally, &mut rng, calls, 0).err()?;
    Some(format!("{}, {}", difference.what, difference.ours))
}

#[test]
fn the_attack_finds_every_fault() {
    assert_eq!(found(calls::<NO_FAULT>()), None);
    let faulty = [
        (LOOKUP_READS_EARLY, calls::<LOOKUP_READS_EARLY>()),
        (LOOKUP_JUDGES_HALF, calls::<LOOKUP_JUDGES_HALF>()),
        (LOOKUP_READS_PAST, calls::<LOOKUP_READS_PAST>()),
        (LOOKUP_LEAVES_ROOM, calls::<LOOKUP_LEAVES_ROOM>()),
        (BUILD_READS_KEYS_EARLY, calls::<BUILD_READS_KEYS_EARLY>()),
        (
            BUILD_READS_VALUES_EARLY,
            calls::<BUILD_READS_VALUES_EARLY>(),
        ),
        (BUILD_READS_PAST, calls::<BUILD_READS_PAST>()),
        (ROOMS_LATE, calls::<ROOMS_LATE>()),
        (CLEARS_REFUSED, calls::<CLEARS_REFUSED>()),
        (TELLS_REFUSED, calls::<TELLS_REFUSED>()),
        (LOSES_NUMBER, calls::<LOSES_NUMBER>()),
        (COMPACT_READS_EARLY, calls::<COMPACT_READS_EARLY>()),
    ];
    assert!(faulty.iter().map(|(fault, _)| *fault).eq(1..FAULTS));
    for (fault, calls) in faulty {
        assert!(found(calls).is_some(), "fault {fault} is not found");
    }
}
