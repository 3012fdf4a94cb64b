//! Audits: the ones of an occupancy, and whether they are n.

use super::Topic;
use crate::lent::{lengthened, more, shorter, Fenced, Left, Lent};
use crate::model::rank::needs;
use crate::ours::{self, DONE, NO_ROOM, OCC_TRUNCATED};
use crate::rng::{occupancy, Rng, OCCUPANCIES, SIZES};
use crate::tally::{listed, Difference, Tally};

/// The answer: the ones, and 1 where they are n.
const ANSWER: usize = 2;
const DRAWN: usize = 300;
/// Sizes up to this are drawn.
const LARGEST: u64 = 5_000;
/// That of a million keys.
const LONG: u32 = 1_230_000;

pub const TOPIC: Topic = Topic {
    name: "audit",
    needs: &[
        ("audits", 8_000),
        ("full", 1_500),
        ("not full", 6_000),
        ("padding bits that count", 600),
        ("occupancy too short", 4_000),
        ("answer too short", 3_000),
    ],
    run,
};

fn run(tally: &mut Tally, rng: &mut Rng) -> Result<(), Difference> {
    let drawn: Vec<u32> = (0..DRAWN).map(|_| rng.below(LARGEST + 1) as u32).collect();
    for m in SIZES.into_iter().chain(drawn).chain([LONG]) {
        for kind in 0..OCCUPANCIES {
            let occupancy = occupancy(rng, needs(m).0, kind);
            audits(tally, rng, m, &occupancy)?;
            refused(tally, rng, m, &occupancy)?;
        }
    }
    Ok(())
}

/// The first bits that are ones, counted one by one.
fn ones(occupancy: &[u8], bits: usize) -> u32 {
    let bit = |at: usize| u32::from(occupancy[at / 8] >> (at % 8) & 1);
    (0..bits).map(bit).sum()
}

/// What an audit is asked.
#[derive(Clone, Copy)]
struct Audit<'a> {
    n: u32,
    m: u32,
    occupancy: &'a [u8],
}

impl Audit<'_> {
    /// Asks for it in a dirty answer of `room` words.
    fn check(
        self,
        tally: &mut Tally,
        rng: &mut Rng,
        what: &'static str,
        room: usize,
        status: u32,
        left: Left<u64>,
    ) -> Result<(), Difference> {
        let Self { n, m, occupancy } = self;
        let given = Fenced::new(rng, occupancy);
        let mut answer = Lent::new(rng, room);
        let ours = ours::audit(n, m, given.given(), answer.given_mut());
        let fault = answer.fault("answer", left);
        tally.same(what, (ours, fault), (status, None), || {
            format!(
                "n {n}, m {m}, {}, room for {room} words; the answers are the status and the first \
                 word (ones, whether they are n) that is not left as it must be",
                listed("bytes", occupancy)
            )
        })
    }

    /// With no room for an answer, whatever else is wrong.
    fn no_room(self, tally: &mut Tally, rng: &mut Rng) -> Result<(), Difference> {
        for room in 0..ANSWER {
            let what = "answer too short";
            self.check(tally, rng, what, room, NO_ROOM, Left::Untouched)?;
        }
        Ok(())
    }
}

/// For n as many as there are ones, about as many, and any. Document 01 counts all bits of the
/// bytes, also those past m, but no bytes behind them.
fn audits(tally: &mut Tally, rng: &mut Rng, m: u32, occupancy: &[u8]) -> Result<(), Difference> {
    let all = ones(occupancy, occupancy.len() * 8);
    if all > ones(occupancy, m as usize) {
        tally.notice("padding bits that count");
    }
    for n in [all, all.wrapping_sub(1), all + 1, 0, m, rng.edge_u32()] {
        let answer = [u64::from(all), u64::from(n == all)];
        let audit = Audit {
            n,
            m,
            occupancy: &lengthened(rng, occupancy),
        };
        let room = ANSWER + more(rng);
        audit.check(tally, rng, "audits", room, DONE, Left::New(&answer))?;
        tally.notice(match n == all {
            true => "full",
            false => "not full",
        });
    }
    Ok(())
}

/// Too few bytes, and too few words for the answer.
fn refused(tally: &mut Tally, rng: &mut Rng, m: u32, occupancy: &[u8]) -> Result<(), Difference> {
    let whole = Audit {
        n: rng.edge_u32(),
        m,
        occupancy,
    };
    whole.no_room(tally, rng)?;
    for length in shorter(rng, occupancy.len()) {
        let short = Audit {
            occupancy: &occupancy[..length],
            ..whole
        };
        let (what, room) = ("occupancy too short", ANSWER + more(rng));
        let left = Left::Zeros(ANSWER);
        short.check(tally, rng, what, room, OCC_TRUNCATED, left)?;
        short.no_room(tally, rng)?;
    }
    Ok(())
}
