//! The attack on the two openers, the parts of what they open, and the audit: headers that no writer makes, lengths and buffers
//! about what they must be.

use super::{around, meets, met, rounds, Target};
use crate::lent::{flag, more, Fenced, Left, Lent, Loan};
use crate::model::image::{self, get, put, FIELDS, HEADER, MAGIC, VERSION, WIDTH};
use crate::model::rank;
use crate::ours::{
    self, BAD_MAGIC, BAD_VERSION, BAD_WIDTH, DONE, G_LENGTH, NO_ROOM, OCC_TRUNCATED, SHORT_PREAD,
    ZERO_MODULUS,
};
use crate::rng::{occupancy, Rng, OCCUPANCIES, SIZES};
use crate::tally::{listed, Difference, Tally};

pub const TARGET: Target = Target {
    name: "openings",
    needs: &[
        ("bdz_open_packed", 1_000),
        ("bdz_open_compact", 1_000),
        ("bdz_audit", 1_000),
        ("parts of an opened image", 1_000),
        ("parts of any record", 1_000),
        meets(DONE),
        meets(SHORT_PREAD),
        meets(G_LENGTH),
        meets(BAD_MAGIC),
        meets(BAD_VERSION),
        meets(BAD_WIDTH),
        meets(ZERO_MODULUS),
        meets(OCC_TRUNCATED),
        meets(NO_ROOM),
    ],
    share: 2,
    run: |tally, rng, least| run(tally, rng, Calls::OURS, least),
};

type Open = fn(&[u8], u64, &mut [u64]) -> u32;
type Audit = fn(u32, u32, &[u8], &mut [u64]) -> u32;
type Parts = fn(u32, u32, u32, u32) -> [u64; 3];

/// The calls that are attacked: ours, or such as stand in for them where the attack itself is tried.
#[derive(Clone, Copy)]
pub struct Calls {
    pub packed: Open,
    pub compact: Open,
    pub audit: Audit,
    pub parts: Parts,
}

impl Calls {
    pub const OURS: Self = Self {
        packed: ours::open_packed,
        compact: ours::open_compact,
        audit: ours::audit,
        parts: ours::parts,
    };
}

/// The words of an audit's answer: the ones, and whether they are n.
const AUDITED: usize = 2;
/// First bytes up to this many are given in every number.
const FIRST: usize = 40;
/// Answers up to this many words are lent in every length.
const ROOMS: usize = 7;
/// Drawn headers of a round: with two fields damaged, and with any numbers.
const DRAWN: usize = 100;

pub fn run(tally: &mut Tally, rng: &mut Rng, calls: Calls, least: u64) -> Result<(), Difference> {
    rounds(tally, least, |tally| {
        let mut attack = Attack { tally, rng, calls };
        for compact in [false, true] {
            for n in [0, 1, 2, 3, attack.rng.edge_u32()] {
                let header = attack.sound(compact, n);
                attack.header(compact, &header)?;
                attack.damaged(compact, &header)?;
                attack.damaged_twice(compact, &header)?;
                attack.first_bytes(compact, &header)?;
                attack.short_answers(compact, &header)?;
            }
            attack.any_numbers(compact)?;
        }
        attack.any_parts()?;
        attack.audits()
    })
}

struct Attack<'a> {
    tally: &'a mut Tally,
    rng: &'a mut Rng,
    calls: Calls,
}

impl Attack<'_> {
    /// Opens an image of so many bytes, of which these are the first, with room for so many words.
    fn open(
        &mut self,
        compact: bool,
        first: &[u8],
        length: u64,
        room: usize,
    ) -> Result<(), Difference> {
        let (what, open) = match compact {
            true => ("bdz_open_compact", self.calls.compact),
            false => ("bdz_open_packed", self.calls.packed),
        };
        let given = Fenced::new(self.rng, first);
        let mut answer = Lent::new(self.rng, room);
        let number = open(given.given(), length, answer.given_mut());
        let opened = image::open(compact, first, length);
        let (agreed, left) = match room < Loan::ANSWER {
            true => (NO_ROOM, Left::Untouched),
            false => (opened.refusal, Left::New(&opened.answer[..])),
        };
        let fault = answer.fault("answer", left);
        self.tally.same(what, (number, fault), (agreed, None), || {
            format!(
                "the first bytes {first:x?} of {length}, room for {room} words; the answers are the \
                 number and the first word (n, m, seed, modulus, width) that is not left as it must be"
            )
        })?;
        met(self.tally, agreed);
        if agreed == DONE {
            let [n, m, _, _, width] = opened.answer.map(|number| number as u32);
            self.parts("parts of an opened image", compact, [n, m, width])?;
        }
        Ok(())
    }

    /// The places of the parts, by n, m and width; of an opened image they lie within it.
    fn parts(
        &mut self,
        what: &'static str,
        compact: bool,
        [n, m, width]: [u32; 3],
    ) -> Result<(), Difference> {
        let ours = (self.calls.parts)(flag(self.rng, compact), n, m, width);
        let agreed = image::parts(compact, n, m, width);
        self.tally.same(what, ours, agreed, || {
            format!("compact {compact}, n {n}, m {m}, width {width}")
        })
    }

    /// Of records that no opener gives as well.
    fn any_parts(&mut self) -> Result<(), Difference> {
        for _ in 0..DRAWN {
            let [n, m, width] = [(); 3].map(|()| self.rng.edge_u32());
            for record in [[n, m, width], [n.min(2), m, width % 34]] {
                for compact in [false, true] {
                    self.parts("parts of any record", compact, record)?;
                }
            }
        }
        Ok(())
    }

    /// With lengths about what the header asks for and at their ends, and rubbish behind it; at
    /// times by the opener of the other kind.
    fn header(&mut self, compact: bool, header: &[u8]) -> Result<(), Difference> {
        let asked = image::asked(compact, header);
        let any = self.rng.edge_u64();
        for length in [0, 31, 32, 33, asked - 1, asked, asked + 1, any, u64::MAX] {
            let behind = more(self.rng);
            let first = [header, &self.rng.bytes(behind)].concat();
            let room = Loan::ANSWER + more(self.rng);
            self.open(compact, &first, length, room)?;
            if self.rng.below(8) == 0 {
                self.open(!compact, &first, length, room)?;
            }
        }
        Ok(())
    }

    /// A header of so many keys that is opened where its image is long enough. Two have the widest
    /// words, so that an m at its end asks for more than 32 bits can count.
    fn sound(&mut self, compact: bool, n: u32) -> Vec<u8> {
        let rng = &mut self.rng;
        let m = [1, 5, rng.any_length_u32(), u32::MAX][rng.below_usize(4)].max(1);
        let modulus = [1, 2, rng.edge_u32(), u32::MAX][rng.below_usize(4)].max(1);
        let width = match compact {
            true => image::COMPACT_WIDTH,
            false if n == 2 => 32,
            false => [1, 32, 1 + rng.below(32) as u32][rng.below_usize(3)],
        };
        let [n, m, modulus, width] = [n, m, modulus, width].map(u64::from);
        image::header(compact, [n, m, rng.edge_u64(), modulus, width])
    }

    /// What the value of a field becomes: an end, a number beside an end or beside itself, the magic
    /// of the other kind, or any.
    fn damages(&mut self, own: u64, bytes: usize) -> [u64; 14] {
        let half = 1 << (8 * bytes - 1);
        let (before, after) = (own.wrapping_sub(1), own.wrapping_add(1));
        let (any, other) = (self.rng.next_u64(), own ^ 1 << 24);
        let ends = [0, 1, 2, 3, half - 1, half, u64::MAX - 1, u64::MAX];
        let [a, b, c, d, e, f, g, h] = ends;
        [a, b, c, d, e, f, g, h, before, after, 32, 33, any, other]
    }

    /// Each field in turn.
    fn damaged(&mut self, compact: bool, header: &[u8]) -> Result<(), Difference> {
        for field in FIELDS {
            for value in self.damages(get(header, field), field.1) {
                let mut header = header.to_vec();
                put(&mut header, field, value);
                self.header(compact, &header)?;
            }
        }
        Ok(())
    }

    /// Any two fields, which may be one: the numbers tell which is judged first.
    fn damaged_twice(&mut self, compact: bool, header: &[u8]) -> Result<(), Difference> {
        for _ in 0..DRAWN {
            let mut header = header.to_vec();
            for _ in 0..2 {
                let field = FIELDS[self.rng.below_usize(FIELDS.len())];
                let values = self.damages(get(&header, field), field.1);
                let value = values[self.rng.below_usize(values.len())];
                put(&mut header, field, value);
            }
            self.header(compact, &header)?;
        }
        Ok(())
    }

    /// Any bytes, mostly behind the right magic and version, and at times before the right width.
    fn any_numbers(&mut self, compact: bool) -> Result<(), Difference> {
        let sound = image::header(compact, [0, 0, 0, 0, u64::from(image::COMPACT_WIDTH)]);
        for _ in 0..DRAWN {
            let mut header = self.rng.bytes(HEADER);
            for field in [MAGIC, VERSION, WIDTH] {
                if self.rng.below(8) > 0 {
                    put(&mut header, field, get(&sound, field));
                }
            }
            self.header(compact, &header)?;
        }
        Ok(())
    }

    /// Fewer first bytes than a header has, and more.
    fn first_bytes(&mut self, compact: bool, header: &[u8]) -> Result<(), Difference> {
        let asked = image::asked(compact, header);
        let image = [header, &self.rng.bytes(FIRST - HEADER)].concat();
        for count in 0..=FIRST {
            for length in [0, count as u64, 31, 32, asked - 1, asked, u64::MAX] {
                let room = Loan::ANSWER + more(self.rng);
                self.open(compact, &image[..count], length, room)?;
            }
        }
        Ok(())
    }

    /// This is tested before the image is, whatever that is.
    fn short_answers(&mut self, compact: bool, header: &[u8]) -> Result<(), Difference> {
        let asked = image::asked(compact, header);
        for room in 0..=ROOMS {
            for count in [0, HEADER - 1, HEADER] {
                for length in [0, asked - 1, asked] {
                    self.open(compact, &header[..count], length, room)?;
                    self.open(!compact, &header[..count], length, room)?;
                }
            }
        }
        Ok(())
    }

    /// Of every kind of occupancy, with lengths about what m asks for.
    fn audits(&mut self) -> Result<(), Difference> {
        let drawn = [0; 4].map(|_| self.rng.below(5_000) as u32);
        for m in SIZES.into_iter().chain(drawn) {
            let need = rank::needs(m).0;
            let kind = self.rng.below(OCCUPANCIES);
            let bits = occupancy(self.rng, need + super::LONGER, kind);
            for length in around(need) {
                self.audit_counts(m, &bits[..length])?;
            }
        }
        for m in [self.rng.edge_u32(), u32::MAX, u32::MAX - 7, 1 << 31] {
            let length = self.rng.below_usize(100);
            let bits = self.rng.bytes(length);
            self.audit_counts(m, &bits)?;
        }
        Ok(())
    }

    /// For n as many as there are ones, about as many, and at the ends.
    fn audit_counts(&mut self, m: u32, bits: &[u8]) -> Result<(), Difference> {
        let ones = rank::audit(0, m, bits).map_or(0, |[ones, _]| ones as u32);
        for n in [ones, ones.wrapping_sub(1), ones + 1, 0, m, u32::MAX] {
            let room = AUDITED + more(self.rng);
            self.audit(n, m, bits, room)?;
        }
        for room in 0..=ROOMS {
            self.audit(ones, m, bits, room)?;
        }
        Ok(())
    }

    fn audit(&mut self, n: u32, m: u32, bits: &[u8], room: usize) -> Result<(), Difference> {
        let given = Fenced::new(self.rng, bits);
        let mut answer = Lent::new(self.rng, room);
        let number = (self.calls.audit)(n, m, given.given(), answer.given_mut());
        let audited = rank::audit(n, m, bits);
        let (agreed, left) = match &audited {
            _ if room < AUDITED => (NO_ROOM, Left::Untouched),
            None => (OCC_TRUNCATED, Left::Zeros(AUDITED)),
            Some(audited) => (DONE, Left::New(&audited[..])),
        };
        let fault = answer.fault("answer", left);
        self.tally
            .same("bdz_audit", (number, fault), (agreed, None), || {
                format!(
                "n {n}, m {m}, {}, room for {room} words; the answers are the number and the first \
                 word (ones, whether they are n) that is not left as it must be",
                listed("bytes", bits)
            )
            })?;
        met(self.tally, agreed);
        Ok(())
    }
}
