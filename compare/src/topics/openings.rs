//! Opening images: whole ones, and such as have a damaged header or another length, beside the
//! Rust's openings of a file.

use super::files::Folder;
use super::images::{built, our_image};
use super::lookup::{made, Record};
use super::Topic;
use crate::bdz;
use crate::lent::{more, Fenced, Left, Lent, Loan};
use crate::model::image::{
    asked, get, put, Opened, FIELDS, HEADER, M, MAGIC, MODULUS, N, VERSION, WIDTH,
};
use crate::ours::{
    self, BAD_MAGIC, BAD_VERSION, BAD_WIDTH, DONE, G_LENGTH, NO_ROOM, SHORT_PREAD, ZERO_MODULUS,
};
use crate::rng::Rng;
use crate::tally::{Difference, Tally};

/// Numbers of keys of the built images, of either kind.
const COUNTS: [usize; 6] = [0, 1, 2, 3, 17, 200];
/// Headers that are no image's.
const DRAWN: u64 = 2_000;
/// The Rust reads a whole BDZ3 that it opens, so its length is limited.
const READ: u64 = 1 << 16;

pub const TOPIC: Topic = Topic {
    name: "openings",
    needs: &[
        ("whole headers", 150),
        ("damaged fields", 10_000),
        ("pairs of damaged fields", 60_000),
        ("drawn headers", 2 * 9 * DRAWN),
        ("opener of the other kind", 150),
        ("few first bytes", 3_000),
        ("answer too short", 640),
        ("accepted", 20_000),
        ("short pread", 2_000),
        ("g length", 10_000),
        ("bad magic", 10_000),
        ("bad version", 5_000),
        ("g_bits", 5_000),
        ("zero modulus", 1_000),
        ("accepted beyond 4 GiB", 50),
    ],
    run,
};

fn run(tally: &mut Tally, rng: &mut Rng) -> Result<(), Difference> {
    let folder = Folder::new("openings");
    for compact in [false, true] {
        for record in records(rng, compact) {
            let image = our_image(&record);
            whole_headers(tally, rng, &folder, compact, &image)?;
            damaged_fields(tally, rng, &folder, compact, &image)?;
            damaged_pairs(tally, rng, &folder, compact, &image)?;
            few_first_bytes(tally, rng, &folder, compact, &image)?;
            short_answers(tally, rng, compact, &image)?;
        }
        for _ in 0..DRAWN {
            drawn_header(tally, rng, &folder, compact)?;
        }
    }
    Ok(())
}

/// Built ones; and of few keys such as no build makes, with an m and a seed that are not opened.
fn records(rng: &mut Rng, compact: bool) -> Vec<Record> {
    let mut records: Vec<Record> = COUNTS.map(|n| built(rng, compact, n)).into();
    records.extend([0, 1].map(|n| Record {
        n,
        ..made(rng, compact, 9)
    }));
    records
}

/// A field's own value is damaged to these, as far as they fit. The last one makes a magic that of
/// the other kind.
fn damages(rng: &mut Rng, own: u64) -> [u64; 7] {
    let (before, after) = (own.wrapping_sub(1), own.wrapping_add(1));
    [0, 1, before, after, u64::MAX, rng.next_u64(), own ^ 1 << 24]
}

/// One short of what the header asks for, exactly that, and longer.
fn asked_lengths(rng: &mut Rng, compact: bool, header: &[u8]) -> Vec<u64> {
    let asked = asked(compact, header);
    let mut lengths = vec![asked - 1];
    if !compact || asked <= READ {
        lengths.extend([asked, asked + 1 + rng.below(40)]);
    }
    lengths
}

/// The header alone, with rubbish behind it, or with what was behind it.
fn first_bytes(rng: &mut Rng, header: &[u8], image: &[u8]) -> Vec<u8> {
    let behind = match rng.below(3) {
        0 => Vec::new(),
        1 => {
            let count = 1 + rng.below_usize(40);
            rng.bytes(count)
        }
        _ => image[HEADER..].to_vec(),
    };
    [header, &behind].concat()
}

/// Opens an image of so many bytes, of which these are the first, in a dirty answer; and answers
/// what both sides came to.
pub fn check(
    tally: &mut Tally,
    rng: &mut Rng,
    folder: &Folder,
    what: &'static str,
    compact: bool,
    first: &[u8],
    length: u64,
) -> Result<Opened, Difference> {
    let rust = folder.opened(compact, first, length);
    let room = Loan::ANSWER + more(rng);
    let ours = open(rng, compact, first, length, room, Left::New(&rust.answer));
    tally.same(what, ours, (rust.refusal, None), || {
        describe(compact, first, length)
    })?;
    Ok(rust)
}

/// The status of our opening, and the first word of the answer that is not left as it must be.
fn open(
    rng: &mut Rng,
    compact: bool,
    first: &[u8],
    length: u64,
    room: usize,
    left: Left<u64>,
) -> (u32, Option<String>) {
    let first = Fenced::new(rng, first);
    let mut answer = Lent::new(rng, room);
    let open = match compact {
        true => ours::open_compact,
        false => ours::open_packed,
    };
    let status = open(first.given(), length, answer.given_mut());
    (status, answer.fault("answer", left))
}

fn describe(compact: bool, first: &[u8], length: u64) -> String {
    format!(
        "opened as compact: {compact}, the first bytes {first:x?} of {length}; the answers are the \
         status and the first word (n, m, seed, modulus, width) that is not left as it must be"
    )
}

/// The same, with a count of what it came to.
fn check_case(
    tally: &mut Tally,
    rng: &mut Rng,
    folder: &Folder,
    what: &'static str,
    compact: bool,
    first: &[u8],
    length: u64,
) -> Result<(), Difference> {
    let opened = check(tally, rng, folder, what, compact, first, length)?;
    tally.notice(match opened.refusal {
        DONE => "accepted",
        SHORT_PREAD => "short pread",
        G_LENGTH => "g length",
        BAD_MAGIC => "bad magic",
        BAD_VERSION => "bad version",
        BAD_WIDTH => "g_bits",
        ZERO_MODULUS => "zero modulus",
        other => panic!("{other} is no refusal of an opening"),
    });
    if opened.refusal == DONE && asked(compact, first) > u64::from(u32::MAX) {
        tally.notice("accepted beyond 4 GiB");
    }
    Ok(())
}

/// Lengths that have nothing to do with what a header asks for, and those that have.
fn all_lengths(rng: &mut Rng, compact: bool, header: &[u8], image: &[u8]) -> Vec<u64> {
    let own = image.len() as u64;
    let mut lengths = vec![0, 1, 31, 32, 33, own - 1, own, own + 1 + rng.below(40)];
    lengths.extend(asked_lengths(rng, compact, header));
    lengths
}

/// Every length, and either opener: the one of the other kind knows the image by its first bytes.
fn whole_headers(
    tally: &mut Tally,
    rng: &mut Rng,
    folder: &Folder,
    compact: bool,
    image: &[u8],
) -> Result<(), Difference> {
    for length in all_lengths(rng, compact, image, image) {
        let first = first_bytes(rng, &image[..HEADER], image);
        check_case(tally, rng, folder, "whole headers", compact, &first, length)?;
        let what = "opener of the other kind";
        check_case(tally, rng, folder, what, !compact, &first, length)?;
    }
    Ok(())
}

fn damaged_fields(
    tally: &mut Tally,
    rng: &mut Rng,
    folder: &Folder,
    compact: bool,
    image: &[u8],
) -> Result<(), Difference> {
    let what = "damaged fields";
    for field in FIELDS {
        for value in damages(rng, get(image, field)) {
            let mut header = image[..HEADER].to_vec();
            put(&mut header, field, value);
            for length in all_lengths(rng, compact, &header, image) {
                let first = first_bytes(rng, &header, image);
                check_case(tally, rng, folder, what, compact, &first, length)?;
                check_case(tally, rng, folder, what, !compact, &first, length)?;
            }
        }
    }
    Ok(())
}

/// Which of two faults is told.
fn damaged_pairs(
    tally: &mut Tally,
    rng: &mut Rng,
    folder: &Folder,
    compact: bool,
    image: &[u8],
) -> Result<(), Difference> {
    let what = "pairs of damaged fields";
    let pairs = (0..FIELDS.len()).flat_map(|last| (0..last).map(move |first| (first, last)));
    for (one, other) in pairs.map(|(one, other)| (FIELDS[one], FIELDS[other])) {
        let others = damages(rng, get(image, other));
        for value in damages(rng, get(image, one)) {
            for other_value in others {
                let mut header = image[..HEADER].to_vec();
                put(&mut header, one, value);
                put(&mut header, other, other_value);
                let mut lengths = asked_lengths(rng, compact, &header);
                lengths.push(image.len() as u64);
                for length in lengths {
                    let first = first_bytes(rng, &header, image);
                    check_case(tally, rng, folder, what, compact, &first, length)?;
                }
            }
        }
    }
    Ok(())
}

/// Any numbers, behind the right magic and version.
fn drawn_header(
    tally: &mut Tally,
    rng: &mut Rng,
    folder: &Folder,
    compact: bool,
) -> Result<(), Difference> {
    let mut header = rng.bytes(HEADER);
    let magic = match compact {
        true => bdz::MAGIC3,
        false => bdz::MAGIC2,
    };
    put(&mut header, MAGIC, u64::from(u32::from_le_bytes(*magic)));
    put(&mut header, VERSION, u64::from(bdz::VERSION));
    put(&mut header, N, u64::from(rng.edge_u32()));
    put(&mut header, M, u64::from(rng.any_length_u32()));
    put(&mut header, MODULUS, u64::from(rng.edge_u32()));
    let width = match compact {
        true => u64::from(bdz::COMPACT_G_BITS),
        false => 1 + rng.below(32),
    };
    put(&mut header, WIDTH, width);
    let what = "drawn headers";
    for length in all_lengths(rng, compact, &header, &header) {
        let first = first_bytes(rng, &header, &header);
        check_case(tally, rng, folder, what, compact, &first, length)?;
    }
    Ok(())
}

/// Fewer than a header, of an image that may well be long enough.
fn few_first_bytes(
    tally: &mut Tally,
    rng: &mut Rng,
    folder: &Folder,
    compact: bool,
    image: &[u8],
) -> Result<(), Difference> {
    let refusal = match compact {
        true => G_LENGTH,
        false => SHORT_PREAD,
    };
    for count in 0..HEADER {
        let short = count as u64;
        for length in [0, short, 31, 32, image.len() as u64, rng.edge_u64()] {
            let first = &image[..count];
            let what = "few first bytes";
            let opened = check(tally, rng, folder, what, compact, first, length)?;
            assert_eq!(opened.refusal, refusal, "{what}: the input is another case");
        }
    }
    Ok(())
}

/// This is tested before the image is, whatever that is.
fn short_answers(
    tally: &mut Tally,
    rng: &mut Rng,
    compact: bool,
    image: &[u8],
) -> Result<(), Difference> {
    for room in 0..Loan::ANSWER {
        for count in [0, HEADER - 1, HEADER, image.len()] {
            for compact in [compact, !compact] {
                let (first, length) = (&image[..count], image.len() as u64);
                let ours = open(rng, compact, first, length, room, Left::Untouched);
                tally.same("answer too short", ours, (NO_ROOM, None), || {
                    format!("{room} words, {}", describe(compact, first, length))
                })?;
            }
        }
    }
    Ok(())
}
