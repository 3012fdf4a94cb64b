//! Every cut of an image: what is left is refused, and the whole opens to what was written.

use super::files::Folder;
use super::images::{built, our_image};
use super::lookup::Record;
use super::openings::check;
use super::Topic;
use crate::bdz;
use crate::lent::Loan;
use crate::model::image::HEADER;
use crate::ours::{DONE, G_LENGTH, SHORT_PREAD};
use crate::rng::Rng;
use crate::tally::{Difference, Tally};

/// Numbers of keys, each with one image of either kind.
const COUNTS: [usize; 7] = [0, 1, 2, 3, 17, 200, 1_000];
/// Bytes behind an image, which change nothing.
const BEHIND: [usize; 5] = [0, 1, 7, 32, 5_000];
const IMAGES: u64 = 2 * COUNTS.len() as u64;

pub const TOPIC: Topic = Topic {
    name: "cut",
    needs: &[
        ("cut headers", IMAGES * HEADER as u64),
        ("cut bodies", 4_000),
        ("whole images", IMAGES * 2 * BEHIND.len() as u64),
        (
            "whole images opened to the index",
            IMAGES * 2 * BEHIND.len() as u64,
        ),
    ],
    run,
};

fn run(tally: &mut Tally, rng: &mut Rng) -> Result<(), Difference> {
    let folder = Folder::new("cut");
    for n in COUNTS {
        for compact in [false, true] {
            let record = built(rng, compact, n);
            let image = our_image(&record);
            every_cut(tally, rng, &folder, compact, &image)?;
            whole(tally, rng, &folder, &record, &image)?;
        }
    }
    Ok(())
}

/// The opener is given all that is left, or no more than a header of it.
fn every_cut(
    tally: &mut Tally,
    rng: &mut Rng,
    folder: &Folder,
    compact: bool,
    image: &[u8],
) -> Result<(), Difference> {
    for length in 0..image.len() {
        let (what, refusal) = match (length < HEADER, compact) {
            (true, false) => ("cut headers", SHORT_PREAD),
            (true, true) => ("cut headers", G_LENGTH),
            (false, _) => ("cut bodies", G_LENGTH),
        };
        let mut firsts = vec![length];
        if length > HEADER {
            firsts.push(HEADER);
        }
        for count in firsts {
            let (first, length) = (&image[..count], length as u64);
            let opened = check(tally, rng, folder, what, compact, first, length)?;
            assert_eq!(opened.refusal, refusal, "{what}: a cut image opens");
        }
    }
    Ok(())
}

/// With nothing behind it, and with other bytes.
fn whole(
    tally: &mut Tally,
    rng: &mut Rng,
    folder: &Folder,
    record: &Record,
    image: &[u8],
) -> Result<(), Difference> {
    for behind in BEHIND {
        let long = [image, &rng.bytes(behind)].concat();
        for first in [&long[..], &long[..HEADER]] {
            let (what, length) = ("whole images", long.len() as u64);
            let opened = check(tally, rng, folder, what, record.compact, first, length)?;
            assert_eq!(opened.refusal, DONE, "a whole image is refused");
            let what = "whole images opened to the index";
            tally.same(what, opened.answer, fields(record), || record.describe())?;
        }
    }
    Ok(())
}

/// The answer that tells an index.
fn fields(record: &Record) -> [u64; Loan::ANSWER] {
    let width = match record.compact {
        true => bdz::COMPACT_G_BITS,
        false => bdz::g_bits_for_modulus(record.modulus),
    };
    let [n, m, modulus, width] = [record.n, record.m, record.modulus, width].map(u64::from);
    [n, m, record.seed, modulus, width]
}
