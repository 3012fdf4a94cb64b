//! The attack on what builds and lookups refuse by what they are lent: every buffer about its need, and
//! a refused call must leave each of them as it was, the rooms into which keys and values are read too.

use super::{around, meets, met, rounds, Target};
use crate::lent::{flag, After, Fenced, KeyBytes, Left, Lent, Loan, Sizes};
use crate::model::{build, hash, image, lookup, rank};
use crate::ours::{
    self, Index, ASSIGNED_DUPLICATE, ASSIGNED_LEN, ASSIGNED_MODULUS, ASSIGNED_VALUE, DONE, MOST,
    NOT_PEELED, NO_ROOM, OCC_TRUNCATED, TOO_LARGE, ZERO_MODULUS,
};
use crate::rng::Rng;
use crate::tally::{listed, Difference, Tally};

pub const TARGET: Target = Target {
    name: "refusals",
    needs: &[
        ("bdz_build_assigned", 1_000),
        ("bdz_build_compact", 1_000),
        ("bdz_index_batch", 1_000),
        ("refused with room for all keys", 1_000),
        ("read into longer rooms", 1_000),
        meets(DONE),
        meets(ASSIGNED_LEN),
        meets(ASSIGNED_MODULUS),
        meets(ASSIGNED_VALUE),
        meets(ASSIGNED_DUPLICATE),
        meets(NOT_PEELED),
        meets(ZERO_MODULUS),
        meets(OCC_TRUNCATED),
        meets(TOO_LARGE),
        meets(NO_ROOM),
    ],
    share: 1,
    run: |tally, rng, least| run(tally, rng, Calls::OURS, least),
};

type Assigned = fn(&[u8], &[u8], u32, &mut Loan) -> u32;
type Compact = fn(&[u8], &mut Loan) -> u32;
type Lookup = fn(&[u8], Index, &mut [u64], &mut [u32]) -> u32;

/// The calls that are attacked: ours, or such as stand in for them where the attack itself is tried.
#[derive(Clone, Copy)]
pub struct Calls {
    pub assigned: Assigned,
    pub compact: Compact,
    pub lookup: Lookup,
}

impl Calls {
    pub const OURS: Self = Self {
        assigned: ours::build_assigned,
        compact: ours::build_compact,
        lookup: ours::index_batch,
    };
}

/// Builds and lookups of a round, of each kind.
const DRAWN: usize = 1_500;
/// Keys of a build, and of a lookup, at the most.
const KEYS: usize = 12;
/// Vertices of a drawn index at the most.
const VERTICES: usize = 1_200;
/// A buffer whose need is larger is lent so many elements: too few.
const LARGEST: usize = 4_096;

pub fn run(tally: &mut Tally, rng: &mut Rng, calls: Calls, least: u64) -> Result<(), Difference> {
    rounds(tally, least, |tally| {
        let mut attack = Attack { tally, rng, calls };
        for compact in [false, true] {
            for _ in 0..DRAWN {
                attack.build(compact)?;
                attack.lookup(compact)?;
            }
        }
        Ok(())
    })
}

struct Attack<'a> {
    tally: &'a mut Tally,
    rng: &'a mut Rng,
    calls: Calls,
}

/// What a build is asked.
struct Asked {
    compact: bool,
    keys: Vec<u64>,
    values: Vec<u32>,
    modulus: u32,
}

impl Asked {
    fn needs(&self) -> Sizes {
        build::needs(
            self.compact,
            self.keys.len(),
            self.values.len(),
            self.modulus,
        )
    }

    /// The answer, the seed aside, which the model does not find.
    fn answer(&self, status: u32, seed: u64) -> [u64; Loan::ANSWER] {
        if status != DONE {
            return [0; Loan::ANSWER];
        }
        let n = self.keys.len() as u32;
        let (modulus, width) = match self.compact {
            true => (n, image::COMPACT_WIDTH),
            false => (self.modulus, image::width(self.modulus)),
        };
        let seed = if n < 2 { u64::from(n) } else { seed };
        let m = hash::vertex_count(self.compact, n);
        [u64::from(n), m, seed, u64::from(modulus), u64::from(width)]
    }
}

impl Attack<'_> {
    /// A length about a need, mostly enough.
    fn length(&mut self, need: usize) -> usize {
        let lengths = around(need.min(LARGEST));
        match self.rng.below(6) {
            0 => lengths[self.rng.below_usize(lengths.len())],
            _ => lengths[lengths.len() - 1 - self.rng.below_usize(3.min(lengths.len()))]
                .max(need.min(LARGEST)),
        }
    }

    /// Keys and values, often as they should be, with each of the faults at times.
    fn asked(&mut self, compact: bool) -> Asked {
        let count = self.rng.below_usize(KEYS + 1);
        let mut keys = self.rng.keys(count);
        if count > 1 && self.rng.below(8) == 0 {
            keys[1] = keys[0];
        }
        if compact {
            return Asked {
                compact,
                keys,
                values: Vec::new(),
                modulus: 0,
            };
        }
        let modulus = match self.rng.below(8) {
            0 => 0,
            1 => MOST + 1 + self.rng.below(u64::from(u32::MAX - MOST)) as u32,
            2 => self.rng.edge_u32(),
            _ => (count + self.rng.below_usize(20)) as u32,
        };
        let given = match self.rng.below(8) {
            0 => self.rng.below_usize(KEYS + 1),
            _ => count,
        };
        let mut values: Vec<u32> = (0..given as u32).collect();
        self.rng.shuffle(&mut values);
        if given > 1 && self.rng.below(8) == 0 {
            values[given - 1] = [values[0], modulus, u32::MAX][self.rng.below_usize(3)];
        }
        Asked {
            compact,
            keys,
            values,
            modulus,
        }
    }

    /// A build in buffers about their needs. What it makes is judged elsewhere: here its number where it
    /// is refused early, and what it leaves of every buffer.
    fn build(&mut self, compact: bool) -> Result<(), Difference> {
        let asked = self.asked(compact);
        let needs = asked.needs();
        let mut lengths = needs;
        for length in lengths.all_mut() {
            *length = self.length(*length);
        }
        let mut loan = Loan::new(self.rng, lengths);
        let keys = KeyBytes::new(self.rng, &asked.keys);
        let values: Vec<u8> = asked.values.iter().flat_map(|v| v.to_le_bytes()).collect();
        let values = Fenced::new(self.rng, &values);
        let (what, status) = match compact {
            true => (
                "bdz_build_compact",
                (self.calls.compact)(keys.given(), &mut loan),
            ),
            false => {
                let call = self.calls.assigned;
                let status = call(keys.given(), values.given(), asked.modulus, &mut loan);
                ("bdz_build_assigned", status)
            }
        };
        let (count, given) = (asked.keys.len(), asked.values.len());
        let early = build::early_status(compact, count, given, asked.modulus, &lengths);
        let agreed = match early {
            DONE if [DONE, ASSIGNED_VALUE, ASSIGNED_DUPLICATE, NOT_PEELED].contains(&status) => {
                status
            }
            early => early,
        };
        let after = match agreed {
            DONE if count > 0 => {
                let (table, occupancy) = (loan.table.given(), loan.occupancy.given());
                After::Built(&table[..needs.table], &occupancy[..needs.occupancy])
            }
            _ if early == DONE && count > 0 => After::Cleared,
            _ => After::Untouched,
        };
        let fault = loan.fault(&needs, &asked.keys, &asked.values, after);
        let answer = loan.answer();
        let ours = (status, answer, fault);
        self.tally.same(what, ours, (agreed, asked.answer(agreed, answer[2]), None), || {
            format!(
                "{}, {}, modulus {}, buffers {lengths:?}; the answers are the number, the index (n, m, \
                 seed, modulus, width) and the first element of a buffer that is not left as it must be",
                listed("keys", &asked.keys),
                listed("values", &asked.values),
                asked.modulus
            )
        })?;
        met(self.tally, agreed);
        let longer = lengths.key_room > count && lengths.value_room > given;
        self.notice(early, lengths.key_room >= count, longer && count > 0);
        Ok(())
    }

    /// A lookup in an index of any numbers, in buffers about their needs.
    fn lookup(&mut self, compact: bool) -> Result<(), Difference> {
        let count = self.rng.below_usize(KEYS + 1);
        let keys = self.rng.keys(count);
        let n = [0, 1, 2, 3, self.rng.edge_u32()][self.rng.below_usize(5)];
        let m = self.rng.below_usize(VERTICES) as u32 * u32::from(self.rng.below(8) > 0);
        let modulus = self.rng.any_length_u32() * u32::from(self.rng.below(8) > 0);
        let (bytes, blocks) = rank::needs(m);
        let table_length = self.length(m as usize);
        let table: Vec<u32> = (0..table_length)
            .map(|_| self.rng.any_length_u32())
            .collect();
        let bytes = self.length(bytes);
        let occupancy = self.rng.bytes(bytes);
        let blocks = self.length(blocks);
        let supers: Vec<u32> = (0..blocks).map(|_| self.rng.any_length_u32()).collect();
        let (table, occupancy) = (
            Fenced::new(self.rng, &table),
            Fenced::new(self.rng, &occupancy),
        );
        let supers = Fenced::new(self.rng, &supers);
        let index = Index {
            compact: flag(self.rng, compact),
            n,
            m,
            seed: self.rng.next_u64(),
            modulus,
            table: table.given(),
            occupancy: occupancy.given(),
            supers: supers.given(),
        };
        let (room, answers) = (self.length(count), self.length(count));
        let given = KeyBytes::new(self.rng, &keys);
        let mut key_room = Lent::new(self.rng, room);
        let mut out = Lent::new(self.rng, answers);
        let status =
            (self.calls.lookup)(given.given(), index, key_room.given_mut(), out.given_mut());
        let agreed = lookup::status(index, count, room, answers);
        let found: Vec<u32> = match agreed {
            DONE => keys.iter().map(|&key| lookup::answer(index, key)).collect(),
            _ => Vec::new(),
        };
        let (read, left) = match agreed {
            DONE => (Left::New(&keys[..]), Left::New(&found[..])),
            _ => (Left::Untouched, Left::Untouched),
        };
        let fault = key_room
            .fault("key_room", read)
            .or_else(|| out.fault("answers", left));
        self.tally.same("bdz_index_batch", (status, fault), (agreed, None), || {
            format!(
                "compact {}, n {n}, m {m}, seed {:#x}, modulus {modulus}, {} words, {} bytes of occupancy, \
                 {} super counts, {}, room for {room} keys and {answers} answers; the answers are the \
                 number and the first element of a buffer that is not left as it must be",
                index.compact,
                index.seed,
                index.table.len(),
                index.occupancy.len(),
                index.supers.len(),
                listed("keys", &keys)
            )
        })?;
        met(self.tally, agreed);
        self.notice(agreed, room >= count, room > count && count > 0);
        Ok(())
    }

    /// The counts show that refusals come with room for the keys, and reading with more than that.
    fn notice(&mut self, refusal: u32, fits: bool, longer: bool) {
        match refusal {
            DONE if longer => self.tally.notice("read into longer rooms"),
            DONE => (),
            _ if fits => self.tally.notice("refused with room for all keys"),
            _ => (),
        }
    }
}
