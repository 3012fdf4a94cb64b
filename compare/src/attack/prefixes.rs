//! The attack by cutting: images of every small number of keys, built and written by the exports,
//! and every prefix of each given to its opener.

use super::openings::Calls;
use super::{meets, met, Target};
use crate::lent::{more, After, Left, Lent, Loan};
use crate::model::build::needs;
use crate::model::{hash, image};
use crate::ours::{self, Index, DONE, G_LENGTH, SHORT_PREAD};
use crate::rng::Rng;
use crate::tally::{listed, Difference, Tally};
use std::ops::RangeInclusive;

/// Numbers of keys, each with an image of either kind.
const COUNTS: RangeInclusive<usize> = 2..=2_000;
const IMAGES: u64 = 1_999;

pub const TARGET: Target = Target {
    name: "prefixes",
    needs: &[
        ("bdz_build_assigned", IMAGES),
        ("bdz_build_compact", IMAGES),
        ("bdz_write_image", 2 * IMAGES),
        ("bdz_open_packed", 3_000_000),
        ("bdz_open_compact", 900_000),
        ("prefixes", 4_000_000),
        ("whole images", 2 * IMAGES),
        meets(DONE),
        meets(SHORT_PREAD),
        meets(G_LENGTH),
    ],
    share: 0,
    run: |tally, rng, _| run(tally, rng, Calls::OURS, COUNTS),
};

pub fn run(
    tally: &mut Tally,
    rng: &mut Rng,
    calls: Calls,
    counts: RangeInclusive<usize>,
) -> Result<(), Difference> {
    for n in counts {
        for compact in [false, true] {
            let built = build(tally, rng, compact, n)?;
            let image = write(tally, rng, &built)?;
            cuts(tally, rng, calls, &built, &image)?;
        }
    }
    Ok(())
}

/// An index of two keys or more that was built.
struct Built {
    compact: bool,
    /// n, m, seed, modulus and width.
    answer: [u64; Loan::ANSWER],
    table: Vec<u32>,
    occupancy: Vec<u8>,
}

/// A modulus from n to twice that, or n for the compact kind; and n different values below it.
fn values(rng: &mut Rng, compact: bool, n: usize) -> (u32, Vec<u32>) {
    if compact {
        return (n as u32, Vec::new());
    }
    let modulus = (n + rng.below_usize(n + 1)) as u32;
    let mut values: Vec<u32> = (0..modulus).collect();
    rng.shuffle(&mut values);
    values.truncate(n);
    (modulus, values)
}

/// The name of the export that is called, and its answer.
fn call_build(
    compact: bool,
    keys: &[u64],
    values: &[u32],
    modulus: u32,
    loan: &mut Loan,
) -> (&'static str, u32) {
    let keys: Vec<u8> = keys.iter().flat_map(|key| key.to_le_bytes()).collect();
    let values: Vec<u8> = values.iter().flat_map(|v| v.to_le_bytes()).collect();
    match compact {
        true => ("bdz_build_compact", ours::build_compact(&keys, loan)),
        false => {
            let number = ours::build_assigned(&keys, &values, modulus, loan);
            ("bdz_build_assigned", number)
        }
    }
}

/// The model has no builds: the numbers of the index are held to it, except for the seed, and the
/// scratch buffers, which end as zeros.
fn build(tally: &mut Tally, rng: &mut Rng, compact: bool, n: usize) -> Result<Built, Difference> {
    let keys = rng.keys(n);
    let (modulus, values) = values(rng, compact, n);
    let m = hash::vertex_count(compact, n as u32);
    let needs = needs(compact, n, values.len(), modulus);
    let mut loan = Loan::new(rng, needs);
    let (what, number) = call_build(compact, &keys, &values, modulus, &mut loan);
    let width = match compact {
        true => image::COMPACT_WIDTH,
        false => image::width(modulus),
    };
    let answer = loan.answer();
    let built = Built {
        compact,
        answer,
        table: loan.table.given().to_vec(),
        occupancy: loan.occupancy.given().to_vec(),
    };
    let agreed = [n as u64, m, answer[2], u64::from(modulus), u64::from(width)];
    let after = After::Built(&built.table, &built.occupancy);
    let fault = loan.fault(&needs, &keys, &values, after);
    tally.same(what, (number, answer, fault), (DONE, agreed, None), || {
        format!(
            "{}, {}, modulus {modulus}; the answers are the number, the index (n, m, seed, modulus, \
             width) and the first element of a buffer that is not left as it must be",
            listed("keys", &keys),
            listed("values", &values)
        )
    })?;
    met(tally, DONE);
    Ok(built)
}

/// The image, which is the model's.
fn write(tally: &mut Tally, rng: &mut Rng, built: &Built) -> Result<Vec<u8>, Difference> {
    let [n, m, seed, modulus, _] = built.answer;
    let numbers = [n, m, seed, modulus];
    let agreed = image::written(built.compact, numbers, &built.table, &built.occupancy);
    let index = Index {
        compact: u32::from(built.compact),
        n: n as u32,
        m: m as u32,
        seed,
        modulus: modulus as u32,
        table: &built.table,
        occupancy: &built.occupancy,
        supers: &[],
    };
    let room = agreed.len() + more(rng);
    let mut image = Lent::new(rng, room);
    let number = ours::write_image(index, image.given_mut());
    let fault = image.fault("image", Left::New(&agreed));
    tally.same("bdz_write_image", (number, fault), (DONE, None), || {
        format!(
            "compact {}, n, m, seed and modulus {numbers:x?}, {}, {}; the answers are the number and \
             the first byte of the image that is not left as it must be",
            built.compact,
            listed("words", &built.table),
            listed("bytes of occupancy", &built.occupancy)
        )
    })?;
    met(tally, DONE);
    Ok(agreed)
}

/// Every prefix is refused, with the bytes that were cut off right behind it; the whole opens to what
/// was built.
fn cuts(
    tally: &mut Tally,
    rng: &mut Rng,
    calls: Calls,
    built: &Built,
    image: &[u8],
) -> Result<(), Difference> {
    for length in 0..=image.len() {
        let opened = image::open(built.compact, &image[..length], length as u64);
        let whole = length == image.len();
        let (refusal, answer) = match whole {
            true => (DONE, built.answer),
            false => (opened.refusal, [0; Loan::ANSWER]),
        };
        assert_eq!(opened.refusal == DONE, whole, "the model opens a cut image");
        open(
            tally,
            rng,
            calls,
            built.compact,
            &image[..length],
            (refusal, answer),
        )?;
        tally.notice(match whole {
            true => "whole images",
            false => "prefixes",
        });
    }
    Ok(())
}

fn open(
    tally: &mut Tally,
    rng: &mut Rng,
    calls: Calls,
    compact: bool,
    bytes: &[u8],
    (refusal, answer): (u32, [u64; Loan::ANSWER]),
) -> Result<(), Difference> {
    let (what, open) = match compact {
        true => ("bdz_open_compact", calls.compact),
        false => ("bdz_open_packed", calls.packed),
    };
    let mut told = Lent::new(rng, Loan::ANSWER);
    let number = open(bytes, bytes.len() as u64, told.given_mut());
    let fault = told.fault("answer", Left::New(&answer));
    tally.same(what, (number, fault), (refusal, None), || {
        format!(
            "{}; the answers are the number and the first word (n, m, seed, modulus, width) that is \
             not left as it must be",
            listed("bytes", bytes)
        )
    })?;
    met(tally, refusal);
    Ok(())
}
