//! Building a compact index.

use super::builds::{
    check, check_short, check_status, hard_builds, notice_seed, set_of_keys, Build, Outcome, Room,
    SETS, SMALL,
};
use super::Topic;
use crate::ours::DONE;
use crate::rng::Rng;
use crate::tally::{Difference, Tally};

pub const TOPIC: Topic = Topic {
    name: "build_compact",
    needs: &[
        ("no keys", 200),
        ("small builds", SMALL as u64 * SETS * 2),
        ("first seed kept", 500),
        ("later seed kept", 500),
        ("buffer too short", 1_000),
        ("equal keys", 200),
        ("255 keys on a vertex", 12),
        ("256 keys on a vertex", 12),
        ("no seed peels", 4),
        ("no seed peels but perhaps the last", 4),
        ("only the last seed peels", 4),
        ("large builds", 4),
    ],
    run,
};

fn run(tally: &mut Tally, rng: &mut Rng) -> Result<(), Difference> {
    for _ in 0..100 {
        for room in [Room::Empty, Room::Few] {
            check_status(tally, rng, "no keys", Build::Compact(&[]), room, DONE)?;
        }
    }
    for n in 1..=SMALL {
        for set in 0..SETS {
            small_builds(tally, rng, n, set)?;
        }
    }
    hard_builds(tally, rng, true, short_buffers, check_keys)
}

/// Builds with room enough.
fn check_keys(
    tally: &mut Tally,
    rng: &mut Rng,
    what: &'static str,
    keys: &[u64],
) -> Result<Outcome, Difference> {
    let room = Room::enough(rng);
    check(tally, rng, what, Build::Compact(keys), room)
}

/// In buffers that are exact and in longer ones.
fn small_builds(tally: &mut Tally, rng: &mut Rng, n: usize, set: u64) -> Result<(), Difference> {
    for room in [Room::Exact, Room::Longer] {
        let keys = set_of_keys(rng, n, set);
        let outcome = check(tally, rng, "small builds", Build::Compact(&keys), room)?;
        notice_seed(tally, &outcome);
    }
    Ok(())
}

/// The buffers are tested before a seed is tried.
fn short_buffers(tally: &mut Tally, rng: &mut Rng, n: usize) -> Result<(), Difference> {
    let what = "buffer too short";
    let keys = rng.keys(n);
    check_short(tally, rng, what, Build::Compact(&keys))?;
    let equal = vec![keys[0]; n];
    check_short(tally, rng, what, Build::Compact(&equal))
}
