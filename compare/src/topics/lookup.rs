//! Looking keys up: in indexes that were built, and in such as no build makes.

use super::build_assigned::{different, some_modulus};
use super::builds::{set_of_keys, table_of, SETS, SMALL};
use super::pack::words;
use super::ranks::{rust_rank, wrapped_rank};
use super::Topic;
use crate::bdz::{self, BdzMphf, GStore};
use crate::collisions::{crowded_hash, key_of};
use crate::error::StoreError;
use crate::lent::{flag, lengthened, more, shorter, Fenced, KeyBytes, Left, Lent};
use crate::model::rank;
use crate::ours::{self, Index, DONE, NO_ROOM, OCC_TRUNCATED, ZERO_MODULUS};
use crate::rng::{occupancy, Rng, OCCUPANCIES, SIZES};
use crate::tally::{listed, Difference, Tally};
use crate::IoCtx;

/// Numbers of keys over `SMALL`, each of them with one index of either kind.
pub const LARGE: [usize; 4] = [1_000, 5_000, 60_000, 1_000_000];
/// Keys that are looked up one by one in each built index, and as many strangers.
const SINGLE: usize = 4;
/// Rounds of every size with indexes that are made by hand, for either kind.
const MADE: u64 = 10;
/// Cases of each kind with nothing, or only one key, to find.
const FEW: usize = 300;
const BUILT_KEYS: u64 = SETS * (SMALL * (SMALL + 1) / 2) as u64 + 1_066_000;

pub const TOPIC: Topic = Topic {
    name: "lookup",
    needs: &[
        ("assigned keys", BUILT_KEYS),
        ("values found", BUILT_KEYS),
        ("compact keys", BUILT_KEYS),
        ("numbers found once", BUILT_KEYS),
        ("strangers", 2 * BUILT_KEYS),
        ("single keys", 10_000),
        ("keys of made assigned indexes", 20_000),
        ("keys of made compact indexes", 20_000),
        ("words that wrap", 10_000),
        ("ones that wrap", 500),
        ("answers cut to n - 1", 5_000),
        ("index of no keys", 6 * FEW as u64),
        ("index of one key", 6 * FEW as u64),
        ("no keys", 8 * FEW as u64),
        ("zero modulus", 15_000),
        ("room for keys too short", 60_000),
        ("answers too short", 30_000),
        ("occupancy too short", 5_000),
        ("table too short", 5_000),
        ("super counts too short", 2_500),
    ],
    run,
};

fn run(tally: &mut Tally, rng: &mut Rng) -> Result<(), Difference> {
    for n in 0..=SMALL {
        for set in 0..SETS {
            assigned(tally, rng, n, set)?;
            compact(tally, rng, n, set)?;
        }
    }
    for n in LARGE {
        assigned(tally, rng, n, SETS - 1)?;
        compact(tally, rng, n, SETS - 1)?;
    }
    for compact in [false, true] {
        for m in sizes(rng) {
            for _ in 0..MADE {
                made_index(tally, rng, compact, m)?;
                short_buffers(tally, rng, compact, m)?;
                zero_modulus(tally, rng, compact, m)?;
            }
        }
        for _ in 0..FEW {
            few_keys(tally, rng, compact)?;
            no_keys(tally, rng, compact)?;
        }
    }
    Ok(())
}

/// An index of the Rust, lent.
pub fn lent(built: &BdzMphf) -> Index<'_> {
    let rank = built.compact.as_ref();
    Index {
        compact: u32::from(rank.is_some()),
        n: built.n,
        m: built.m,
        seed: built.seed,
        modulus: built.modulus,
        table: table_of(built),
        occupancy: rank.map_or(&[], |rank| rank.occ_bytes()),
        supers: rank.map_or(&[], |rank| &rank.supers),
    }
}

/// An index that owns what it lends. What it lends may be longer or shorter than its numbers ask.
#[derive(Clone)]
pub struct Record {
    pub compact: bool,
    pub n: u32,
    pub m: u32,
    pub seed: u64,
    pub modulus: u32,
    pub table: Vec<u32>,
    pub occupancy: Vec<u8>,
    pub supers: Vec<u32>,
}

impl Record {
    fn of(index: Index) -> Self {
        Self {
            compact: index.compact != 0,
            n: index.n,
            m: index.m,
            seed: index.seed,
            modulus: index.modulus,
            table: index.table.to_vec(),
            occupancy: index.occupancy.to_vec(),
            supers: index.supers.to_vec(),
        }
    }

    pub fn lent(&self) -> Index<'_> {
        Index {
            compact: u32::from(self.compact),
            n: self.n,
            m: self.m,
            seed: self.seed,
            modulus: self.modulus,
            table: &self.table,
            occupancy: &self.occupancy,
            supers: &self.supers,
        }
    }

    /// The Rust's index of the same numbers, which owns what is lent here.
    pub fn rust(&self) -> BdzMphf {
        let rank = || rust_rank(self.m, &self.occupancy, &self.supers);
        BdzMphf {
            n: self.n,
            m: self.m,
            seed: self.seed,
            modulus: self.modulus,
            g: GStore::Ram(self.table.as_slice().into()),
            compact: self.compact.then(rank),
        }
    }

    /// With more lent than before, or as much: of what the kind does not use as well.
    pub fn lengthened(&self, rng: &mut Rng) -> Self {
        Self {
            table: lengthened(rng, &self.table),
            occupancy: lengthened(rng, &self.occupancy),
            supers: lengthened(rng, &self.supers),
            ..*self
        }
    }

    /// With less lent than before, or as much.
    pub fn cut(&self, rng: &mut Rng) -> Self {
        let mut kept = |length: usize| rng.below_usize(length + 1);
        Self {
            table: self.table[..kept(self.table.len())].to_vec(),
            occupancy: self.occupancy[..kept(self.occupancy.len())].to_vec(),
            supers: self.supers[..kept(self.supers.len())].to_vec(),
            ..*self
        }
    }

    /// Document 01: "no keys accepted; 14 (answers); n = 0 answers 0; n = 1; 11 (m or modulus 0);
    /// 12; 14". Before that the keys need a room of their own, since they come as bytes.
    fn agreed_status(&self, keys: usize, room: Room) -> u32 {
        let (bytes, supers) = rank::needs(self.m);
        if room.keys < keys {
            NO_ROOM
        } else if keys == 0 {
            DONE
        } else if room.answers < keys {
            NO_ROOM
        } else if self.n <= 1 {
            DONE
        } else if self.m == 0 || self.modulus == 0 {
            ZERO_MODULUS
        } else if self.compact && self.occupancy.len() < bytes {
            OCC_TRUNCATED
        } else if self.table.len() < self.m as usize || self.compact && self.supers.len() < supers {
            NO_ROOM
        } else {
            DONE
        }
    }

    /// The answers, or the status of a refusal. 11 is the only one that the Rust knows, since its
    /// buffers are its own.
    fn expected(&self, keys: &[u64], room: Room) -> Result<Vec<u32>, u32> {
        match self.agreed_status(keys.len(), room) {
            DONE => Ok(rust_answers(&self.rust(), keys)),
            ZERO_MODULUS => match self.rust().index_batch(keys, &mut IoCtx::none()) {
                Err(StoreError::Corrupt("bdz mphf: zero modulus")) => Err(ZERO_MODULUS),
                other => panic!("the Rust does not refuse: {other:?}"),
            },
            added => Err(added),
        }
    }

    /// For a report.
    pub fn describe(&self) -> String {
        format!(
            "compact {}, n {}, m {}, seed {:#x}, modulus {}, {}, {}, {}",
            self.compact,
            self.n,
            self.m,
            self.seed,
            self.modulus,
            listed("words", &self.table),
            listed("bytes of occupancy", &self.occupancy),
            listed("super counts", &self.supers)
        )
    }
}

/// What the Rust finds. Where the ones of a rank wrap, it is spared the sum.
pub fn rust_answers(rust: &BdzMphf, keys: &[u64]) -> Vec<u32> {
    let all = |keys: &[u64]| {
        let found = rust.index_batch(keys, &mut IoCtx::none());
        found.expect("the Rust does not refuse")
    };
    let wrapped: Vec<Option<u32>> = keys.iter().map(|&key| wrapped_answer(rust, key)).collect();
    if wrapped.iter().all(Option::is_none) {
        return all(keys);
    }
    let each = keys.iter().zip(wrapped);
    each.map(|(&key, wrapped)| wrapped.unwrap_or_else(|| all(&[key])[0]))
        .collect()
}

/// The answer for a key whose ones wrap.
fn wrapped_answer(rust: &BdzMphf, key: u64) -> Option<u32> {
    if rust.n < 2 {
        return None;
    }
    let (vertices, words) = met(rust, key);
    wrapped_at(rust, vertices, words)
}

/// The same by the vertices and the words of the key. There are two keys or more.
pub fn wrapped_at(rust: &BdzMphf, vertices: [u32; 3], words: [u32; 3]) -> Option<u32> {
    let rank = rust.compact.as_ref()?;
    let ones = wrapped_rank(rank, picked(vertices, words))?;
    Some(ones.min(rust.n - 1))
}

/// The vertices of a key and their words. There are two keys or more.
fn met(rust: &BdzMphf, key: u64) -> ([u32; 3], [u32; 3]) {
    let vertices = bdz::hash_verts(key, rust.seed, rust.m, rust.compact.is_some());
    let words = vertices.map(|vertex| table_of(rust)[vertex as usize]);
    (vertices, words)
}

/// The vertex that the words pick in a compact index.
fn picked(vertices: [u32; 3], words: [u32; 3]) -> u32 {
    let sum = words.into_iter().fold(0, u32::wrapping_add);
    vertices[sum as usize % 3]
}

/// For how many keys there is room, and for how many answers.
#[derive(Clone, Copy, Debug)]
struct Room {
    keys: usize,
    answers: usize,
}

impl Room {
    /// As much as is needed, or up to 8 more.
    fn enough(rng: &mut Rng, keys: usize) -> Self {
        Self {
            keys: keys + more(rng),
            answers: keys + more(rng),
        }
    }
}

/// What is wrong with the same lookup of keys that are words already. It needs no room for them, so
/// that a refusal for want of it has no counterpart.
fn words_fault(
    rng: &mut Rng,
    keys: &[u64],
    index: Index,
    room: Room,
    (agreed, left): (u32, Left<u32>),
) -> Option<String> {
    if room.keys < keys.len() {
        return None;
    }
    let words = Fenced::new(rng, keys);
    let mut answers = Lent::new(rng, room.answers);
    match ours::index_words(words.given(), index, answers.given_mut()) {
        status if status != agreed => Some(format!("status {status} for keys that are words")),
        _ => answers.fault("answers to words", left),
    }
}

/// Looks the keys up in dirty buffers, and answers the status and what was found.
fn check(
    tally: &mut Tally,
    rng: &mut Rng,
    what: &'static str,
    record: &Record,
    keys: &[u64],
    room: Room,
) -> Result<(u32, Vec<u32>), Difference> {
    let bytes = KeyBytes::new(rng, keys);
    let table = Fenced::new(rng, &record.table);
    let occupancy = Fenced::new(rng, &record.occupancy);
    let supers = Fenced::new(rng, &record.supers);
    let index = Index {
        compact: flag(rng, record.compact),
        table: table.given(),
        occupancy: occupancy.given(),
        supers: supers.given(),
        ..record.lent()
    };
    let mut key_room = Lent::new(rng, room.keys);
    let mut answers = Lent::new(rng, room.answers);
    let status = ours::index_batch(
        bytes.given(),
        index,
        key_room.given_mut(),
        answers.given_mut(),
    );
    let expected = record.expected(keys, room);
    let (read, inputs) = match &expected {
        Ok(_) => (Left::New(keys), keys.len().max(1)),
        Err(_) => (Left::Untouched, 1),
    };
    let (agreed, left) = match &expected {
        Ok(found) => (DONE, Left::New(&found[..])),
        Err(refusal) => (*refusal, Left::Untouched),
    };
    let fault = key_room
        .fault("key_room", read)
        .or_else(|| answers.fault("answers", left))
        .or_else(|| words_fault(rng, keys, index, room, (agreed, left)));
    tally.same_all(what, inputs, (status, fault), (agreed, None), || {
        asked(record, keys, room)
    })?;
    let found = answers.given().iter().copied().take(keys.len()).collect();
    Ok((status, found))
}

/// What was asked, and what is told of it.
fn asked(record: &Record, keys: &[u64], room: Room) -> String {
    format!(
        "{}, {}, {room:?}; the answers are the status and the first element of a buffer that is \
         not left as it must be",
        record.describe(),
        listed("keys", keys)
    )
}

/// Looks the keys up where nothing is refused, in exact buffers or longer ones.
fn look(
    tally: &mut Tally,
    rng: &mut Rng,
    what: &'static str,
    record: &Record,
    keys: &[u64],
) -> Result<Vec<u32>, Difference> {
    let record = record.lengthened(rng);
    let room = Room::enough(rng, keys.len());
    let (status, found) = check(tally, rng, what, &record, keys, room)?;
    assert_eq!(status, DONE, "{what}: the input is another case");
    if record.n > 1 {
        let limit = match record.compact {
            true => record.n,
            false => record.modulus,
        };
        assert!(
            found.iter().all(|&answer| answer < limit),
            "{what}: {limit}"
        );
    }
    Ok(found)
}

/// A lookup that is meant to be refused with this status: it must not be another case by mistake.
fn refuse(
    tally: &mut Tally,
    rng: &mut Rng,
    what: &'static str,
    record: &Record,
    keys: &[u64],
    room: Room,
    meant: u32,
) -> Result<(), Difference> {
    let (status, _) = check(tally, rng, what, record, keys, room)?;
    assert_eq!(status, meant, "{what}: the input is another case");
    Ok(())
}

/// Every key finds its value.
fn assigned(tally: &mut Tally, rng: &mut Rng, n: usize, set: u64) -> Result<(), Difference> {
    let modulus = some_modulus(rng, n);
    let values = different(rng, n, modulus);
    let build = |keys: &[u64]| BdzMphf::build_assigned(keys, &values, modulus);
    let (keys, record) = drawn(rng, n, set, build);
    let found = look(tally, rng, "assigned keys", &record, &keys)?;
    tally.same_all("values found", n, &found, &values, || {
        format!("{}, {}", listed("keys", &keys), listed("values", &values))
    })?;
    others(tally, rng, &record, &keys)
}

/// Every number below n is found once.
fn compact(tally: &mut Tally, rng: &mut Rng, n: usize, set: u64) -> Result<(), Difference> {
    let (keys, record) = drawn(rng, n, set, BdzMphf::build_compact);
    let mut found = look(tally, rng, "compact keys", &record, &keys)?;
    found.sort_unstable();
    let numbers: Vec<u32> = (0..n as u32).collect();
    tally.same_all("numbers found once", n, &found, &numbers, || {
        listed("keys", &keys)
    })?;
    others(tally, rng, &record, &keys)
}

/// Different keys and the Rust's index of them. Keys that do not peel are drawn again.
pub fn drawn(
    rng: &mut Rng,
    n: usize,
    set: u64,
    build: impl Fn(&[u64]) -> Result<BdzMphf, StoreError>,
) -> (Vec<u64>, Record) {
    loop {
        let keys = set_of_keys(rng, n, set);
        if let Ok(built) = build(&keys) {
            return (keys, Record::of(lent(&built)));
        }
    }
}

/// As many strangers as keys, or a few more; then some of both one by one.
fn others(
    tally: &mut Tally,
    rng: &mut Rng,
    record: &Record,
    keys: &[u64],
) -> Result<(), Difference> {
    let strangers = some_keys(rng, record, keys.len().max(SINGLE));
    look(tally, rng, "strangers", record, &strangers)?;
    let some = keys.iter().take(SINGLE);
    for &key in some.chain(strangers.iter().take(SINGLE)) {
        let found = look(tally, rng, "single keys", record, &[key])?;
        assert_eq!(found, [rust_single(record, key)], "the Rust's names differ");
    }
    Ok(())
}

/// The Rust's answer for one key, by both names that it has for that.
fn rust_single(record: &Record, key: u64) -> u32 {
    let rust = record.rust();
    let single = rust.index(key).expect("the Rust does not refuse");
    if rust.n > 1 {
        let common = rust.index_from_g(table_of(&rust), key);
        assert_eq!(single, common, "the Rust differs from itself");
    }
    single
}

/// Keys as they come, at the ends of a word, and such as meet on a vertex or beside it.
pub fn some_keys(rng: &mut Rng, record: &Record, count: usize) -> Vec<u64> {
    let mut key = || match rng.below(4) {
        0 => rng.edge_u64(),
        1 => key_of(crowded_hash(rng, record.m), record.seed),
        _ => rng.next_u64(),
    };
    (0..count).map(|_| key()).collect()
}

/// Every m up to 70, about the ends of blocks, and others; most of them are no multiple of 3.
pub fn sizes(rng: &mut Rng) -> Vec<u32> {
    let mut sizes: Vec<u32> = (1..=70).collect();
    sizes.extend(SIZES.iter().filter(|&&m| m > 70));
    sizes.extend((0..20).map(|_| 71 + rng.below(3_000) as u32));
    sizes
}

/// An index of two keys or more that no build makes, with exactly what it needs: any words, so that
/// sums wrap, any bits, and super counts of them or of others.
pub fn made(rng: &mut Rng, compact: bool, m: u32) -> Record {
    let (bytes, supers) = match compact {
        true => rank::needs(m),
        false => (0, 0),
    };
    let kind = rng.below(OCCUPANCIES);
    let occupancy = occupancy(rng, bytes, kind);
    let supers = match rng.below(2) {
        0 if compact => bdz::supers_from_occ_bytes(&occupancy, m).into_vec(),
        _ => words(rng, supers),
    };
    let ones = bdz::popcount_bits(&occupancy, 0, m as usize);
    let n = match rng.below(8) {
        0 => 2,
        1 => ones.saturating_sub(1),
        2 => ones,
        3 => ones + 1,
        4 => ones / 2,
        5 => u32::MAX,
        _ => rng.edge_u32(),
    };
    let modulus = match rng.below(4) {
        0 => 1,
        1 => u32::MAX,
        2 => rng.any_length_u32(),
        _ => rng.edge_u32(),
    };
    Record {
        compact,
        n: n.max(2),
        m,
        seed: rng.edge_u64(),
        modulus: modulus.max(1),
        table: words(rng, m as usize),
        occupancy,
        supers,
    }
}

fn made_index(tally: &mut Tally, rng: &mut Rng, compact: bool, m: u32) -> Result<(), Difference> {
    let record = made(rng, compact, m);
    let count = 1 + rng.below_usize(50);
    let keys = some_keys(rng, &record, count);
    let what = match compact {
        true => "keys of made compact indexes",
        false => "keys of made assigned indexes",
    };
    look(tally, rng, what, &record, &keys)?;
    notice_cases(tally, &record.rust(), &keys);
    Ok(())
}

/// The counts show that sums of all kinds wrap, and that n cuts answers.
fn notice_cases(tally: &mut Tally, rust: &BdzMphf, keys: &[u64]) {
    for &key in keys {
        let (vertices, words) = met(rust, key);
        if words.map(u64::from).iter().sum::<u64>() > u64::from(u32::MAX) {
            tally.notice("words that wrap");
        }
        let Some(rank) = &rust.compact else {
            continue;
        };
        let vertex = picked(vertices, words);
        match wrapped_rank(rank, vertex) {
            Some(_) => tally.notice("ones that wrap"),
            None if rank.rank1(vertex) >= rust.n => tally.notice("answers cut to n - 1"),
            None => (),
        }
    }
}

/// Each buffer too short in turn, and with the occupancy others that are tested after it.
fn short_buffers(
    tally: &mut Tally,
    rng: &mut Rng,
    compact: bool,
    m: u32,
) -> Result<(), Difference> {
    let record = made(rng, compact, m);
    let count = 1 + rng.below_usize(20);
    let keys = some_keys(rng, &record, count);
    short_rooms(tally, rng, &record, &keys)?;
    for (what, short, meant) in short_records(rng, &record) {
        let room = Room::enough(rng, count);
        refuse(tally, rng, what, &short, &keys, room, meant)?;
    }
    Ok(())
}

/// The same index with too little lent, and the status of that.
fn short_records(rng: &mut Rng, record: &Record) -> Vec<(&'static str, Record, u32)> {
    let (bytes, supers) = rank::needs(record.m);
    let mut cases = Vec::new();
    for length in shorter(rng, record.m as usize) {
        let mut short = record.lengthened(rng);
        short.table.truncate(length);
        cases.push(("table too short", short, NO_ROOM));
    }
    if !record.compact {
        return cases;
    }
    for length in shorter(rng, supers) {
        let mut short = record.lengthened(rng);
        short.supers.truncate(length);
        cases.push(("super counts too short", short, NO_ROOM));
    }
    for length in shorter(rng, bytes) {
        for mut short in [record.lengthened(rng), record.cut(rng)] {
            short.occupancy.truncate(length);
            cases.push(("occupancy too short", short, OCC_TRUNCATED));
        }
    }
    cases
}

/// The rooms for keys and for answers are tested before the index is, whatever it is.
fn short_rooms(
    tally: &mut Tally,
    rng: &mut Rng,
    record: &Record,
    keys: &[u64],
) -> Result<(), Difference> {
    let empty = Record {
        m: 0,
        ..record.cut(rng)
    };
    for record in [record.lengthened(rng), record.cut(rng), empty] {
        let enough = Room::enough(rng, keys.len());
        for length in shorter(rng, keys.len()) {
            for (what, keys_room, answers) in [
                ("answers too short", enough.keys, length),
                ("room for keys too short", length, enough.answers),
                ("room for keys too short", length, length),
            ] {
                let room = Room {
                    keys: keys_room,
                    answers,
                };
                refuse(tally, rng, what, &record, keys, room, NO_ROOM)?;
            }
        }
    }
    Ok(())
}

/// This is tested before the index's own buffers are.
fn zero_modulus(tally: &mut Tally, rng: &mut Rng, compact: bool, m: u32) -> Result<(), Difference> {
    let made = made(rng, compact, m);
    let some = made.modulus;
    for (m, modulus) in [(0, some), (m, 0), (0, 0)] {
        let record = Record {
            m,
            modulus,
            ..made.clone()
        };
        for record in [record.lengthened(rng), record.cut(rng), record.cut(rng)] {
            let count = 1 + rng.below_usize(20);
            let keys = some_keys(rng, &record, count);
            let room = Room::enough(rng, count);
            let what = "zero modulus";
            refuse(tally, rng, what, &record, &keys, room, ZERO_MODULUS)?;
        }
    }
    Ok(())
}

/// Numbers and buffers of any size.
fn any_record(rng: &mut Rng, compact: bool, n: u32) -> Record {
    let [table, bytes, supers] = [0; 3].map(|_| rng.below(2) as usize * rng.below_usize(8));
    Record {
        compact,
        n,
        m: rng.edge_u32(),
        seed: rng.edge_u64(),
        modulus: rng.edge_u32(),
        table: words(rng, table),
        occupancy: rng.bytes(bytes),
        supers: words(rng, supers),
    }
}

/// Document 01: "n = 0 answers 0"; "n = 1: compact 0, assigned the stored word (0 if the lent table
/// is empty)", whatever else the index is.
fn few_keys(tally: &mut Tally, rng: &mut Rng, compact: bool) -> Result<(), Difference> {
    for (n, what) in [(0, "index of no keys"), (1, "index of one key")] {
        for modulus in [0, 1, rng.edge_u32()] {
            let record = Record {
                modulus,
                ..any_record(rng, compact, n)
            };
            let answer = match (compact, n) {
                (false, 1) => record.table.first().copied().unwrap_or(0),
                _ => 0,
            };
            let count = 1 + rng.below_usize(20);
            let keys = some_keys(rng, &record, count);
            let room = Room::enough(rng, count);
            let (_, found) = check(tally, rng, what, &record, &keys, room)?;
            assert_eq!(found, vec![answer; count], "{what}");
            short_rooms(tally, rng, &record, &keys)?;
        }
    }
    Ok(())
}

/// Nothing is refused, and nothing is touched.
fn no_keys(tally: &mut Tally, rng: &mut Rng, compact: bool) -> Result<(), Difference> {
    for n in [0, 1, 2, rng.edge_u32()] {
        let record = any_record(rng, compact, n);
        let room = Room::enough(rng, 0);
        let (status, _) = check(tally, rng, "no keys", &record, &[], room)?;
        assert_eq!(status, DONE, "no keys were refused");
    }
    Ok(())
}
