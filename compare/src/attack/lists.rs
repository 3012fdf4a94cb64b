//! The attack on the reader of key lists: lists about every limit, damaged in every way, and read into
//! buffers about their needs.

use super::{around, meets, met, rounds, Target, LONGER};
use crate::lent::{more, Fenced, Left, Lent};
use crate::model::list::{self, List, ASSIGNED, COMPACT, HEAD, MOST_RECORDS};
use crate::ours::{self, BAD_LIST, DONE, NO_ROOM};
use crate::rng::Rng;
use crate::tally::{listed, Difference, Tally};

pub const TARGET: Target = Target {
    name: "lists",
    needs: &[
        ("bdz_read_list", 1_000),
        ("assigned lists read", 100),
        ("compact lists read", 100),
        ("lists of 1,000 records read", 2),
        ("lists of 1,001 records", 2),
        meets(DONE),
        meets(NO_ROOM),
        meets(BAD_LIST),
    ],
    share: 1,
    run: |tally, rng, least| run(tally, rng, ours::read_list, least),
};

/// The call that is attacked: ours, or one that stands in for it where the attack itself is tried.
pub type Read = fn(&[u8], &mut [u64], &mut [u32], &mut [u64]) -> u32;

/// The words that are told: kind, modulus and count.
const TOLD: usize = 3;
/// Rooms for them up to this are lent in every length.
const ROOMS: usize = 5;
/// Damages of a list in a round.
const DAMAGES: usize = 100;
/// The records of most lists are up to this many.
const FEW: usize = 20;
const MODULI: [u32; 7] = [0, 1, 2, 65_535, 65_536, 65_537, u32::MAX];

pub fn run(tally: &mut Tally, rng: &mut Rng, read: Read, least: u64) -> Result<(), Difference> {
    rounds(tally, least, |tally| {
        let mut attack = Attack { tally, rng, read };
        for compact in [false, true] {
            for count in [MOST_RECORDS - 1, MOST_RECORDS, MOST_RECORDS + 1] {
                attack.sound(compact, count)?;
            }
            for count in 0..=FEW {
                attack.sound(compact, count)?;
                attack.damaged(compact, count)?;
            }
            let many = attack.rng.below_usize(MOST_RECORDS + 1);
            attack.sound(compact, many)?;
            attack.damaged(compact, many)?;
        }
        attack.moduli()?;
        attack.any_bytes()
    })
}

/// A list of any keys, values and modulus that it can have; it may have too many records.
fn any_list(rng: &mut Rng, compact: bool, count: usize) -> List {
    let keys = (0..count).map(|_| rng.edge_u64()).collect();
    match compact {
        true => List {
            compact,
            keys,
            ..List::default()
        },
        false => List {
            compact,
            modulus: rng.below(u64::from(list::MOST_MODULUS) + 1) as u32,
            keys,
            values: (0..count).map(|_| rng.edge_u32()).collect(),
        },
    }
}

/// How many elements the buffers have.
#[derive(Clone, Copy, Debug)]
struct Rooms {
    keys: usize,
    values: usize,
    told: usize,
}

impl Rooms {
    /// As much as a list of so many records can need, or a little more.
    fn enough(rng: &mut Rng, count: usize) -> Self {
        Self {
            keys: count + more(rng),
            values: count + more(rng),
            told: TOLD + more(rng),
        }
    }
}

struct Attack<'a> {
    tally: &'a mut Tally,
    rng: &'a mut Rng,
    read: Read,
}

impl Attack<'_> {
    /// Reads the bytes into dirty buffers of these lengths. The room for what is told is tested before
    /// all else.
    fn read(&mut self, bytes: &[u8], rooms: Rooms) -> Result<(), Difference> {
        let given = Fenced::new(self.rng, bytes);
        let mut keys = Lent::new(self.rng, rooms.keys);
        let mut values = Lent::new(self.rng, rooms.values);
        let mut told = Lent::new(self.rng, rooms.told);
        let number = (self.read)(
            given.given(),
            keys.given_mut(),
            values.given_mut(),
            told.given_mut(),
        );
        let read = match rooms.told < TOLD {
            true => Err(NO_ROOM),
            false => list::read(bytes, rooms.keys, rooms.values),
        };
        let agreed = read.as_ref().err().copied().unwrap_or(DONE);
        let list = read.unwrap_or_default();
        let answer = list.told();
        let left = match rooms.told < TOLD {
            true => Left::Untouched,
            false => Left::New(&answer[..]),
        };
        let fault = told
            .fault("told", left)
            .or_else(|| keys.fault("keys", Left::New(&list.keys)))
            .or_else(|| values.fault("values", Left::New(&list.values)));
        let what = "bdz_read_list";
        self.tally.same(what, (number, fault), (agreed, None), || {
            format!(
                "{}, buffers {rooms:?}; the answers are the number and the first element of a buffer \
                 (told is kind, modulus, count) that is not left as it must be",
                listed("bytes", bytes)
            )
        })?;
        self.notice(agreed, &list);
        Ok(())
    }

    fn notice(&mut self, agreed: u32, list: &List) {
        met(self.tally, agreed);
        if agreed != DONE {
            return;
        }
        self.tally.notice(match list.compact {
            true => "compact lists read",
            false => "assigned lists read",
        });
        if list.keys.len() == MOST_RECORDS {
            self.tally.notice("lists of 1,000 records read");
        }
    }

    /// A list of so many records with buffers about their needs: bad with too many records, and with
    /// none where it is compact.
    fn sound(&mut self, compact: bool, count: usize) -> Result<(), Difference> {
        let bytes = any_list(self.rng, compact, count).bytes();
        let enough = Rooms::enough(self.rng, count);
        for length in around(count) {
            for rooms in [
                Rooms {
                    keys: length,
                    ..enough
                },
                Rooms {
                    values: length,
                    ..enough
                },
                Rooms {
                    keys: length,
                    values: length,
                    ..enough
                },
            ] {
                self.read(&bytes, rooms)?;
            }
        }
        for told in 0..=ROOMS {
            self.read(&bytes, Rooms { told, ..enough })?;
            let none = Rooms {
                keys: 0,
                values: 0,
                told,
            };
            self.read(&bytes, none)?;
        }
        if count > MOST_RECORDS {
            self.tally.notice("lists of 1,001 records");
        }
        Ok(())
    }

    /// A list that something was done to, or several things.
    fn damaged(&mut self, compact: bool, count: usize) -> Result<(), Difference> {
        let sound = any_list(self.rng, compact, count).bytes();
        for _ in 0..DAMAGES {
            let mut bytes = sound.clone();
            for _ in 0..1 + self.rng.below(2) {
                self.damage(&mut bytes, compact);
            }
            let mut rooms = Rooms::enough(self.rng, count + LONGER);
            if self.rng.below(4) == 0 {
                rooms.keys = self.rng.below_usize(count + 1);
            }
            self.read(&bytes, rooms)?;
        }
        Ok(())
    }

    /// One thing: a byte changed, a cut, bytes behind, a record of either kind put between or behind,
    /// a record taken out, a marker swapped, or a head before it or taken from it.
    fn damage(&mut self, bytes: &mut Vec<u8>, compact: bool) {
        let length = bytes.len();
        let record = match compact {
            true => 10,
            false => 14,
        };
        let head = length % record;
        let place = head + record * self.rng.below_usize(length / record + 1);
        match self.rng.below(9) {
            0 if length > 0 => bytes[self.rng.below_usize(length)] ^= 1 << self.rng.below(8),
            1 => bytes.truncate(self.rng.below_usize(length + 1)),
            2 => {
                let behind = 1 + self.rng.below_usize(20);
                bytes.extend(self.rng.bytes(behind));
            }
            3 => self.put_record(bytes, place, compact),
            4 => self.put_record(bytes, place, !compact),
            5 if place < length => drop(bytes.drain(place..(place + record).min(length))),
            6 if place + 2 <= length => {
                let marker = [ASSIGNED, COMPACT, HEAD][self.rng.below_usize(3)];
                bytes[place..place + 2].copy_from_slice(&marker);
            }
            7 => {
                let modulus = MODULI[self.rng.below_usize(MODULI.len())];
                bytes.splice(0..0, head_of(modulus));
            }
            _ => drop(bytes.drain(..length.min(HEAD.len() + 4))),
        }
    }

    /// Puts a record of a kind in at a place.
    fn put_record(&mut self, bytes: &mut Vec<u8>, place: usize, compact: bool) {
        let (marker, behind) = match compact {
            true => (COMPACT, 8),
            false => (ASSIGNED, 12),
        };
        let place = place.min(bytes.len());
        let record = [&marker[..], &self.rng.bytes(behind)].concat();
        bytes.splice(place..place, record);
    }

    /// Every modulus about a limit, with and without records.
    fn moduli(&mut self) -> Result<(), Difference> {
        for modulus in MODULI.into_iter().chain([self.rng.edge_u32()]) {
            for count in [0, 1, 2, FEW] {
                let list = List {
                    modulus,
                    ..any_list(self.rng, false, count)
                };
                let rooms = Rooms::enough(self.rng, count);
                self.read(&list.bytes(), rooms)?;
            }
        }
        Ok(())
    }

    /// Few bytes of all kinds, and such as start like a list.
    fn any_bytes(&mut self) -> Result<(), Difference> {
        for length in 0..=40 {
            let any = self.rng.bytes(length);
            let rooms = Rooms::enough(self.rng, FEW);
            self.read(&any, rooms)?;
            for start in [HEAD, ASSIGNED, COMPACT] {
                let bytes = [&start[..], &any].concat();
                for cut in 0..=start.len() {
                    self.read(&bytes[..bytes.len() - cut.min(length)], rooms)?;
                }
            }
        }
        Ok(())
    }
}

fn head_of(modulus: u32) -> Vec<u8> {
    [&HEAD[..], &modulus.to_le_bytes()].concat()
}
