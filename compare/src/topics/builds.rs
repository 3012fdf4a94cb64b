//! What the two topics of builds share: the question, the Rust's answer to it, and the comparison.

use crate::bdz::{self, BdzMphf, GStore, PeelScratch, MAX_SEED};
use crate::collisions::{self, Crowd};
use crate::error::StoreError;
use crate::expressions::{assigned_vertices, seeds};
use crate::lent::{more, After, Fenced, Loan, Sizes};
use crate::ours::{
    self, ASSIGNED_DUPLICATE, ASSIGNED_LEN, ASSIGNED_MODULUS, ASSIGNED_VALUE, DONE, MOST,
    NOT_PEELED, NO_ROOM, TOO_LARGE,
};
use crate::rng::{edges_u64, Rng};
use crate::tally::{listed, Difference, Tally};

/// Every number of keys up to this is tried.
pub const SMALL: usize = 200;
/// How many sets of keys each of them has.
pub const SETS: u64 = 6;

/// What a build is asked.
#[derive(Clone, Copy)]
pub enum Build<'a> {
    /// Keys, values and modulus.
    Assigned(&'a [u64], &'a [u32], u32),
    Compact(&'a [u64]),
}

impl Build<'_> {
    pub fn keys(&self) -> &[u64] {
        match self {
            Build::Assigned(keys, _, _) | Build::Compact(keys) => keys,
        }
    }

    pub fn values(&self) -> &[u32] {
        match self {
            Build::Assigned(_, values, _) => values,
            Build::Compact(_) => &[],
        }
    }

    /// What each buffer needs.
    pub fn needs(&self) -> Sizes {
        let n = self.keys().len();
        let rooms = Sizes {
            key_room: n,
            value_room: self.values().len(),
            ..Sizes::default()
        };
        let m = match n {
            0 => return rooms,
            1 => 1,
            _ => vertices(matches!(self, Build::Compact(_)), n) as usize,
        };
        let mut needs = Sizes { table: m, ..rooms };
        match self {
            Build::Assigned(_, _, modulus) => needs.seen = modulus.div_ceil(8) as usize,
            Build::Compact(_) => needs.occupancy = m.div_ceil(8),
        }
        if n > 1 {
            (needs.degrees, needs.marks) = (m, m);
            (needs.xors, needs.queue) = (m, m);
            needs.order = n;
        }
        needs
    }

    /// What the build must come to with buffers of these lengths.
    fn expected(&self, lengths: &Sizes) -> Outcome {
        // Keys and values come as bytes and need rooms of their own, which are tested before all else.
        if lengths.lack_rooms(&self.needs()) {
            return Outcome::refused(NO_ROOM);
        }
        if !self.is_over_early() {
            // These two were added, so the Rust does not know them.
            if matches!(self, Build::Assigned(_, _, modulus) if *modulus > MOST) {
                return Outcome::refused(TOO_LARGE);
            }
            if lengths.lack(&self.needs()) {
                return Outcome::refused(NO_ROOM);
            }
        }
        Outcome::of_rust(self.rust())
    }

    pub fn rust(&self) -> Result<BdzMphf, StoreError> {
        match *self {
            Build::Assigned(keys, values, modulus) => {
                BdzMphf::build_assigned(keys, values, modulus)
            }
            Build::Compact(keys) => BdzMphf::build_compact(keys),
        }
    }

    /// The status of our build, with the keys and the values as bytes.
    pub fn ours(&self, keys: &[u8], values: &[u8], loan: &mut Loan) -> u32 {
        match *self {
            Build::Assigned(_, _, modulus) => ours::build_assigned(keys, values, modulus, loan),
            Build::Compact(_) => ours::build_compact(keys, loan),
        }
    }

    pub fn key_bytes(&self) -> Vec<u8> {
        key_bytes(self.keys())
    }

    pub fn value_bytes(&self) -> Vec<u8> {
        self.values().iter().flat_map(|v| v.to_le_bytes()).collect()
    }

    /// The first place of a loan that the build left otherwise than it must.
    pub fn fault(&self, loan: &Loan, after: After) -> Option<String> {
        loan.fault(&self.needs(), self.keys(), self.values(), after)
    }

    /// Whether the Rust has its answer before the added refusals have their turn.
    fn is_over_early(&self) -> bool {
        match *self {
            Build::Assigned(keys, values, modulus) => {
                keys.len() != values.len() || keys.is_empty() || modulus == 0
            }
            Build::Compact(keys) => keys.is_empty(),
        }
    }

    fn describe(&self, lengths: &Sizes) -> String {
        let mut asked = listed("keys", self.keys());
        if let Build::Assigned(_, values, modulus) = self {
            asked += &format!(", {}, modulus {modulus}", listed("values", values));
        }
        format!(
            "{asked}, buffers {lengths:?}; the answers are the status, the answer (n, m, seed, \
             modulus, width) and the first element of a buffer that is not left as it must be"
        )
    }
}

pub fn key_bytes(keys: &[u64]) -> Vec<u8> {
    keys.iter().flat_map(|key| key.to_le_bytes()).collect()
}

/// The vertices of n keys, of which there are two or more.
fn vertices(compact: bool, n: usize) -> u32 {
    match compact {
        true => bdz::compact_vertex_count(n as u32),
        false => assigned_vertices(n as u32) as u32,
    }
}

/// What a build must come to.
pub struct Outcome {
    pub refusal: u32,
    pub seed: u64,
    n: u32,
    m: u32,
    modulus: u32,
    width: u32,
    table: Vec<u32>,
    occupancy: Vec<u8>,
}

impl Outcome {
    fn refused(refusal: u32) -> Self {
        Self {
            refusal,
            seed: 0,
            n: 0,
            m: 0,
            modulus: 0,
            width: 0,
            table: Vec::new(),
            occupancy: Vec::new(),
        }
    }

    pub fn of_rust(answer: Result<BdzMphf, StoreError>) -> Self {
        let built = match answer {
            Ok(built) => built,
            Err(error) => return Self::refused(refusal_of(&error)),
        };
        let (width, occupancy) = match &built.compact {
            Some(rank) => (bdz::COMPACT_G_BITS, rank.occ_bytes().to_vec()),
            None => (bdz::g_bits_for_modulus(built.modulus), Vec::new()),
        };
        Self {
            refusal: DONE,
            seed: built.seed,
            n: built.n,
            m: built.m,
            modulus: built.modulus,
            width,
            table: table_of(&built).to_vec(),
            occupancy,
        }
    }

    pub fn answer(&self) -> [u64; Loan::ANSWER] {
        let [n, m, modulus, width] = [self.n, self.m, self.modulus, self.width].map(u64::from);
        [n, m, self.seed, modulus, width]
    }

    /// How the lent buffers are left.
    pub fn after(&self) -> After<'_> {
        match self.refusal {
            DONE if self.n > 0 => After::Built(&self.table, &self.occupancy),
            ASSIGNED_VALUE | ASSIGNED_DUPLICATE | NOT_PEELED => After::Cleared,
            _ => After::Untouched,
        }
    }
}

pub fn table_of(built: &BdzMphf) -> &[u32] {
    match &built.g {
        GStore::Ram(table) => table,
        GStore::Fd { .. } => panic!("the Rust builds in memory"),
    }
}

/// The number of the Rust's refusal.
fn refusal_of(error: &StoreError) -> u32 {
    match error {
        StoreError::Corrupt("bdz mphf: assigned len") => ASSIGNED_LEN,
        StoreError::Corrupt("bdz mphf: assigned modulus") => ASSIGNED_MODULUS,
        StoreError::Corrupt("bdz mphf: assigned value") => ASSIGNED_VALUE,
        StoreError::Corrupt("bdz mphf: assigned duplicate") => ASSIGNED_DUPLICATE,
        StoreError::Corrupt("bdz mphf: graph did not peel") => NOT_PEELED,
        other => panic!("no refusal of a build: {other:?}"),
    }
}

/// How long the lent buffers are.
#[derive(Clone, Copy)]
pub enum Room {
    /// As long as they need to be.
    Exact,
    /// Up to 8 elements longer, each.
    Longer,
    /// That number's is one element too short; the others are exact, or else longer.
    OneShort(usize),
    /// The same, but too short by any number of elements.
    Shorter(usize),
    /// Up to 7 elements, whatever they need; the rooms for keys and values are long enough.
    Few,
    /// None, but for these rooms.
    Empty,
    /// As few, with that number's room too short by any number of elements.
    FewAndShort(usize),
}

impl Room {
    pub fn enough(rng: &mut Rng) -> Self {
        match rng.below(2) {
            0 => Self::Exact,
            _ => Self::Longer,
        }
    }

    fn lengths(self, rng: &mut Rng, needs: &Sizes) -> Sizes {
        let longer = match self {
            Self::Exact => false,
            Self::Longer => true,
            _ => rng.below(2) == 0,
        };
        let mut lengths = *needs;
        for (number, length) in lengths.all_mut().into_iter().enumerate() {
            match self {
                Self::OneShort(short) if short == number => *length -= 1,
                Self::Shorter(short) if short == number => *length = rng.below_usize(*length),
                Self::FewAndShort(short) if short == number => *length = rng.below_usize(*length),
                Self::Few | Self::Empty | Self::FewAndShort(_) if number < Sizes::ROOMS => {
                    *length += more(rng);
                }
                Self::Few | Self::FewAndShort(_) => *length = rng.below_usize(8),
                Self::Empty => *length = 0,
                _ if longer => *length += rng.below_usize(9),
                _ => (),
            }
        }
        lengths
    }
}

/// Builds in dirty buffers, and answers what both sides came to.
pub fn check(
    tally: &mut Tally,
    rng: &mut Rng,
    what: &'static str,
    build: Build,
    room: Room,
) -> Result<Outcome, Difference> {
    let lengths = room.lengths(rng, &build.needs());
    let mut loan = Loan::new(rng, lengths);
    check_with(tally, rng, what, build, &mut loan)
}

/// Builds in a loan that is dirty.
pub fn check_with(
    tally: &mut Tally,
    rng: &mut Rng,
    what: &'static str,
    build: Build,
    loan: &mut Loan,
) -> Result<Outcome, Difference> {
    let expected = build.expected(&loan.lengths);
    let keys = Fenced::new(rng, &build.key_bytes());
    let values = Fenced::new(rng, &build.value_bytes());
    let status = build.ours(keys.given(), values.given(), loan);
    let fault = build.fault(loan, expected.after());
    let ours = (status, loan.answer(), fault);
    let agreed = (expected.refusal, expected.answer(), None);
    tally.same(what, ours, agreed, || build.describe(&loan.lengths))?;
    Ok(expected)
}

/// The same for a case that is meant to come to this: it must not be another one by mistake.
pub fn check_status(
    tally: &mut Tally,
    rng: &mut Rng,
    what: &'static str,
    build: Build,
    room: Room,
    meant: u32,
) -> Result<(), Difference> {
    let outcome = check(tally, rng, what, build, room)?;
    assert_eq!(outcome.refusal, meant, "{what}: the input is another case");
    Ok(())
}

/// A room for keys or values that is too short comes before all else that is wrong.
pub fn check_rooms(
    tally: &mut Tally,
    rng: &mut Rng,
    what: &'static str,
    build: Build,
) -> Result<(), Difference> {
    let rooms = build.needs().all().into_iter().take(Sizes::ROOMS);
    for (number, _) in rooms.enumerate().filter(|&(_, need)| need > 0) {
        for _ in 0..2 {
            check_status(tally, rng, what, build, Room::FewAndShort(number), NO_ROOM)?;
        }
    }
    Ok(())
}

/// Each buffer too short in turn, and then all of them.
pub fn check_short(
    tally: &mut Tally,
    rng: &mut Rng,
    what: &'static str,
    build: Build,
) -> Result<(), Difference> {
    for (number, need) in build.needs().all().into_iter().enumerate() {
        if need > 0 {
            for room in [Room::OneShort(number), Room::Shorter(number)] {
                check_status(tally, rng, what, build, room, NO_ROOM)?;
            }
        }
    }
    check_status(tally, rng, what, build, Room::Empty, NO_ROOM)
}

/// Different keys, of a kind that the number of the set chooses.
pub fn set_of_keys(rng: &mut Rng, count: usize, set: u64) -> Vec<u64> {
    let numbers = 0..count as u64;
    match set {
        0 => {
            let start = rng.edge_u64();
            numbers.map(|number| start.wrapping_add(number)).collect()
        }
        1 => {
            // Alike in all but a few bits next to each other, the highest ones for instance.
            let (base, shift) = (rng.next_u64(), rng.below(57));
            numbers.map(|number| base ^ number << shift).collect()
        }
        2 => {
            let mut keys = edges_u64();
            rng.shuffle(&mut keys);
            keys.truncate(count);
            let more = rng.keys(count - keys.len());
            keys.extend(more);
            keys
        }
        _ => rng.keys(count),
    }
}

/// Keys of which two are the same, anywhere among them.
pub fn keys_with_equal_ones(rng: &mut Rng, count: usize) -> Vec<u64> {
    let mut keys = rng.keys(count);
    keys[1] = keys[0];
    rng.shuffle(&mut keys);
    keys
}

/// The counts show that the builds keep the first seed as well as others.
pub fn notice_seed(tally: &mut Tally, outcome: &Outcome) {
    match outcome {
        Outcome { n: 0 | 1, .. } => (),
        kept if kept.seed == seeds(1)[0] => tally.notice("first seed kept"),
        _ => tally.notice("later seed kept"),
    }
}

/// Builds with nothing wrong but perhaps the keys.
type CheckKeys = fn(&mut Tally, &mut Rng, &'static str, &[u64]) -> Result<Outcome, Difference>;

/// The three places of a vertex; then all of them, which only the assigned kind can have.
const CROWDED_PLACES: [(usize, bool); 4] = [(0, false), (1, false), (2, false), (0, true)];

/// Checks builds of so many keys.
type CheckCount = fn(&mut Tally, &mut Rng, usize) -> Result<(), Difference>;

/// What both kinds are tried with: short buffers, equal keys, crowded vertices, keys that the seeds
/// refuse, and many keys.
pub fn hard_builds(
    tally: &mut Tally,
    rng: &mut Rng,
    compact: bool,
    short_buffers: CheckCount,
    check_keys: CheckKeys,
) -> Result<(), Difference> {
    for n in (1..=40).chain([64, 65, SMALL, 1_000]) {
        short_buffers(tally, rng, n)?;
    }
    for n in (2..=60).chain([SMALL, 1_000]) {
        equal_keys(tally, rng, n, check_keys)?;
    }
    crowds(tally, rng, compact, check_keys)?;
    stubborn(tally, rng, compact, check_keys)?;
    for n in [1_000, 5_000, 60_000, 1_000_000] {
        let keys = rng.keys(n);
        check_keys(tally, rng, "large builds", &keys)?;
    }
    Ok(())
}

/// Some keys that are equal, and all of them.
fn equal_keys(
    tally: &mut Tally,
    rng: &mut Rng,
    n: usize,
    check_keys: CheckKeys,
) -> Result<(), Difference> {
    let one = rng.next_u64();
    for keys in [
        keys_with_equal_ones(rng, n),
        keys_with_equal_ones(rng, n),
        keys_with_equal_ones(rng, n),
        vec![one; n],
    ] {
        let outcome = check_keys(tally, rng, "equal keys", &keys)?;
        assert_eq!(outcome.refusal, NOT_PEELED, "equal keys were told apart");
    }
    Ok(())
}

/// 255 and 256 keys on one vertex at the first seed. Nothing else can fail the seed, so it is kept
/// with 255 of them and not with 256.
fn crowds(
    tally: &mut Tally,
    rng: &mut Rng,
    compact: bool,
    check_keys: CheckKeys,
) -> Result<(), Difference> {
    let first = seeds(1)[0];
    for (place, turned) in CROWDED_PLACES {
        if turned && compact {
            continue;
        }
        for (count, what) in [(255, "255 keys on a vertex"), (256, "256 keys on a vertex")] {
            let crowd = Crowd {
                compact,
                place,
                turned,
                count,
            };
            for _ in 0..4 {
                let keys = collisions::crowd(rng, crowd, first);
                let outcome = check_keys(tally, rng, what, &keys)?;
                assert_eq!(outcome.refusal, DONE, "{what}: no seed at all");
                assert_eq!(outcome.seed == first, count == 255, "{what}: wrong seed");
            }
        }
    }
    Ok(())
}

/// Different keys that no seed peels, and such that no seed peels but perhaps the last. The first
/// ones would peel with one seed more.
fn stubborn(
    tally: &mut Tally,
    rng: &mut Rng,
    compact: bool,
    check_keys: CheckKeys,
) -> Result<(), Difference> {
    let seeds = seeds(MAX_SEED as usize + 1);
    let (&one_more, seeds) = seeds.split_last().expect("there are seeds");
    let (&last, before) = seeds.split_last().expect("there are seeds");
    for _ in 0..4 {
        let m = vertices(compact, seeds.len() + 1);
        let keys = loop {
            let keys = collisions::twins(rng, compact, m, seeds);
            if peels(&keys, one_more, m, compact) {
                break keys;
            }
        };
        let outcome = check_keys(tally, rng, "no seed peels", &keys)?;
        assert_eq!(outcome.refusal, NOT_PEELED, "a seed peels");
    }
    while tally.count("only the last seed peels") < 4 {
        let m = vertices(compact, before.len() + 1);
        let keys = collisions::twins(rng, compact, m, before);
        let outcome = check_keys(tally, rng, "no seed peels but perhaps the last", &keys)?;
        if outcome.refusal == DONE {
            assert_eq!(outcome.seed, last, "an earlier seed peels");
            tally.notice("only the last seed peels");
        }
    }
    Ok(())
}

fn peels(keys: &[u64], seed: u64, m: u32, compact: bool) -> bool {
    let mut scratch = PeelScratch::default();
    scratch.prepare(m as usize, keys.len());
    bdz::peel_order(keys, seed, m, &mut scratch, compact)
}
