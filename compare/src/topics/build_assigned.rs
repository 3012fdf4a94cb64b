//! Building an assigned index.

use super::builds::{
    check, check_rooms, check_short, check_status, check_with, hard_builds, keys_with_equal_ones,
    notice_seed, set_of_keys, Build, Outcome, Room, SETS, SMALL,
};
use super::Topic;
use crate::lent::Loan;
use crate::ours::{
    ASSIGNED_DUPLICATE, ASSIGNED_LEN, ASSIGNED_MODULUS, ASSIGNED_VALUE, DONE, MOST, NOT_PEELED,
    NO_ROOM, TOO_LARGE,
};
use crate::rng::{edges_u32, Rng};
use crate::tally::{Difference, Tally};

/// The moduli of small builds go up to this.
const LARGEST_OF_SMALL: u64 = 1 << 20;

pub const TOPIC: Topic = Topic {
    name: "build_assigned",
    needs: &[
        ("no keys", 250),
        ("counts differ", 1_000),
        ("modulus 0", 300),
        ("modulus too large", 300),
        ("small builds", SMALL as u64 * SETS * 4),
        ("first seed kept", 500),
        ("later seed kept", 500),
        ("value too large", 1_500),
        ("value came before", 600),
        ("both faults of values", 400),
        ("room too short", 5_000),
        ("buffer too short", 1_500),
        ("equal keys", 200),
        ("255 keys on a vertex", 16),
        ("256 keys on a vertex", 16),
        ("no seed peels", 4),
        ("no seed peels but perhaps the last", 4),
        ("only the last seed peels", 4),
        ("modulus 2^30", 8),
        ("large builds", 4),
    ],
    run,
};

fn run(tally: &mut Tally, rng: &mut Rng) -> Result<(), Difference> {
    no_keys(tally, rng)?;
    counts_differ(tally, rng)?;
    for n in (1..=50).chain([SMALL, 1_000]) {
        bad_modulus(tally, rng, n)?;
    }
    for n in 1..=SMALL {
        for set in 0..SETS {
            small_builds(tally, rng, n, set)?;
        }
    }
    for n in (1..=60).chain([SMALL, 1_000]) {
        for _ in 0..4 {
            bad_values(tally, rng, n)?;
        }
    }
    largest_modulus(tally, rng)?;
    hard_builds(tally, rng, false, short_buffers, check_keys)
}

/// Different values below the modulus, in any order.
pub fn different(rng: &mut Rng, count: usize, modulus: u32) -> Vec<u32> {
    let mut values: Vec<u32> = Vec::new();
    if u64::from(modulus) < 4 * count as u64 {
        values.extend(0..modulus);
    }
    while values.len() < count {
        let more = count - values.len();
        values.extend((0..more).map(|_| rng.below(u64::from(modulus)) as u32));
        values.sort_unstable();
        values.dedup();
    }
    rng.shuffle(&mut values);
    values.truncate(count);
    values
}

/// A modulus that leaves room for n different values, often no more than that.
pub fn some_modulus(rng: &mut Rng, n: usize) -> u32 {
    let more = match rng.below(4) {
        0 => 0,
        1 => rng.below(9),
        2 => rng.below(4 * n as u64),
        _ => rng.below(10_000),
    };
    n as u32 + more as u32
}

/// Builds with values that are as they should be.
fn check_keys(
    tally: &mut Tally,
    rng: &mut Rng,
    what: &'static str,
    keys: &[u64],
) -> Result<Outcome, Difference> {
    let modulus = some_modulus(rng, keys.len());
    let values = different(rng, keys.len(), modulus);
    let build = Build::Assigned(keys, &values, modulus);
    let room = Room::enough(rng);
    check(tally, rng, what, build, room)
}

/// Every modulus is kept, and no buffer is needed.
fn no_keys(tally: &mut Tally, rng: &mut Rng) -> Result<(), Difference> {
    for modulus in edges_u32() {
        let build = Build::Assigned(&[], &[], modulus);
        for room in [Room::Empty, Room::Few, Room::Few] {
            check_status(tally, rng, "no keys", build, room, DONE)?;
        }
    }
    Ok(())
}

/// This is tested first, whatever else is wrong.
fn counts_differ(tally: &mut Tally, rng: &mut Rng) -> Result<(), Difference> {
    let what = "counts differ";
    for count in 0..=30 {
        for other in (0..=10).filter(|&other| other != count) {
            let (more, fewer) = (count.max(other), count.min(other));
            for (keys, values) in [(more, fewer), (fewer, more)] {
                let keys = rng.keys(keys);
                let modulus = 31 + rng.below(100) as u32;
                let good = different(rng, values, modulus);
                let build = Build::Assigned(&keys, &good, modulus);
                check_status(tally, rng, what, build, Room::Longer, ASSIGNED_LEN)?;
                let any: Vec<u32> = (0..values).map(|_| rng.edge_u32()).collect();
                for modulus in [0, MOST + 1, rng.edge_u32()] {
                    let build = Build::Assigned(&keys, &any, modulus);
                    check_status(tally, rng, what, build, Room::Few, ASSIGNED_LEN)?;
                    check_rooms(tally, rng, "room too short", build)?;
                }
            }
        }
    }
    Ok(())
}

/// Both refusals come before the buffers and the values are tested.
fn bad_modulus(tally: &mut Tally, rng: &mut Rng, n: usize) -> Result<(), Difference> {
    let keys = rng.keys(n);
    let good: Vec<u32> = (0..n as u32).collect();
    let any: Vec<u32> = (0..n).map(|_| rng.edge_u32()).collect();
    for values in [good, any] {
        let build = Build::Assigned(&keys, &values, 0);
        check_rooms(tally, rng, "room too short", build)?;
        for room in [Room::Empty, Room::Few, Room::Longer] {
            check_status(tally, rng, "modulus 0", build, room, ASSIGNED_MODULUS)?;
        }
        let past = 1 + rng.below(u64::from(u32::MAX - MOST)) as u32;
        for modulus in [MOST + 1, MOST + past, u32::MAX] {
            let build = Build::Assigned(&keys, &values, modulus);
            check_rooms(tally, rng, "room too short", build)?;
            for room in [Room::Empty, Room::Few] {
                check_status(tally, rng, "modulus too large", build, room, TOO_LARGE)?;
            }
        }
    }
    Ok(())
}

fn small_builds(tally: &mut Tally, rng: &mut Rng, n: usize, set: u64) -> Result<(), Difference> {
    let keys = set_of_keys(rng, n, set);
    let least = n as u32;
    let larger = least + 2 + rng.below(2 * n as u64) as u32;
    let any = least + rng.below(LARGEST_OF_SMALL - n as u64 + 1) as u32;
    for modulus in [least, least + 1, larger, any] {
        let values = different(rng, n, modulus);
        let build = Build::Assigned(&keys, &values, modulus);
        let room = Room::enough(rng);
        let outcome = check(tally, rng, "small builds", build, room)?;
        notice_seed(tally, &outcome);
    }
    Ok(())
}

/// The first fault decides, and at a value that has both faults its size. Keys that no seed peels
/// change nothing, since no seed is tried.
fn bad_values(tally: &mut Tally, rng: &mut Rng, n: usize) -> Result<(), Difference> {
    let keys = match rng.below(4) {
        0 if n > 1 => keys_with_equal_ones(rng, n),
        _ => rng.keys(n),
    };
    let modulus = some_modulus(rng, n);
    let good = different(rng, n, modulus);
    let mut check = |what, values: &[u32], meant| {
        let build = Build::Assigned(&keys, values, modulus);
        let room = Room::enough(rng);
        check_status(tally, rng, what, build, room, meant)
    };
    for values in large_values(&good, modulus) {
        check("value too large", &values, ASSIGNED_VALUE)?;
    }
    for values in repeated_values(&good, modulus) {
        check("value came before", &values, ASSIGNED_DUPLICATE)?;
    }
    for (values, meant) in values_with_both(&good, modulus) {
        check("both faults of values", &values, meant)?;
    }
    Ok(())
}

/// Values of which one, or each, is not below the modulus.
fn large_values(good: &[u32], modulus: u32) -> Vec<Vec<u32>> {
    let n = good.len();
    let mut lists = Vec::new();
    for large in [modulus, modulus + 1, u32::MAX] {
        for at in [0, n / 2, n - 1] {
            lists.push(changed(good, &[(at, large)]));
        }
        lists.push(vec![large; n]);
    }
    lists
}

/// Values of which one came before, or all are the same.
fn repeated_values(good: &[u32], modulus: u32) -> Vec<Vec<u32>> {
    let n = good.len();
    if n < 2 {
        return Vec::new();
    }
    let places = [(1, 0), (n - 1, 0), (n - 1, n - 2), (n / 2, 0)];
    let mut lists: Vec<Vec<u32>> = places
        .map(|(at, before)| changed(good, &[(at, good[before])]))
        .into();
    lists.push(vec![modulus - 1; n]);
    lists
}

/// Values with both faults: the first of them is what is refused.
fn values_with_both(good: &[u32], modulus: u32) -> Vec<(Vec<u32>, u32)> {
    let n = good.len();
    if n < 3 {
        return Vec::new();
    }
    let last = n - 1;
    vec![
        (
            changed(good, &[(1, good[0]), (last, modulus)]),
            ASSIGNED_DUPLICATE,
        ),
        (
            changed(good, &[(1, modulus), (last, good[0])]),
            ASSIGNED_VALUE,
        ),
        (
            changed(good, &[(0, modulus), (last, modulus)]),
            ASSIGNED_VALUE,
        ),
    ]
}

/// The values with others at these places.
fn changed(good: &[u32], changes: &[(usize, u32)]) -> Vec<u32> {
    let mut values = good.to_vec();
    for &(at, value) in changes {
        values[at] = value;
    }
    values
}

/// The buffers are tested before the values, and before a seed is tried.
fn short_buffers(tally: &mut Tally, rng: &mut Rng, n: usize) -> Result<(), Difference> {
    let what = "buffer too short";
    let keys = rng.keys(n);
    let modulus = some_modulus(rng, n);
    let good = different(rng, n, modulus);
    check_short(tally, rng, what, Build::Assigned(&keys, &good, modulus))?;
    let large = vec![modulus; n];
    check_short(tally, rng, what, Build::Assigned(&keys, &large, modulus))?;
    let equal = vec![keys[0]; n];
    check_short(tally, rng, what, Build::Assigned(&equal, &good, modulus))
}

/// The bits of the values seen are 128 MiB here, so one loan serves all.
fn largest_modulus(tally: &mut Tally, rng: &mut Rng) -> Result<(), Difference> {
    let what = "modulus 2^30";
    let keys = rng.keys(3);
    let equal = [keys[0], keys[0]];
    let some = different(rng, 3, MOST);
    let last = MOST - 1;
    let largest = Build::Assigned(&keys, &some, MOST);
    for room in [Room::Empty, Room::Few] {
        check_status(tally, rng, what, largest, room, NO_ROOM)?;
    }
    let mut loan = Loan::new(rng, largest.needs());
    for (keys, values, modulus, meant) in [
        (&keys[..], &some[..], MOST, DONE),
        (&keys[..2], &[last, 0], MOST, DONE),
        (&keys[..1], &[last], MOST, DONE),
        (&keys[..], &[0, last, last], MOST, ASSIGNED_DUPLICATE),
        (&keys[..2], &[last, MOST], MOST, ASSIGNED_VALUE),
        (&equal[..], &[0, last], MOST, NOT_PEELED),
        // One byte less is needed, and that is left as it was.
        (&keys[..], &[1, 0, MOST - 8], MOST - 8, ASSIGNED_VALUE),
        (&keys[..2], &[MOST - 9, 1], MOST - 8, DONE),
    ] {
        loan.soil(rng);
        let build = Build::Assigned(keys, values, modulus);
        let outcome = check_with(tally, rng, what, build, &mut loan)?;
        assert_eq!(outcome.refusal, meant, "{what}: the input is another case");
    }
    Ok(())
}
