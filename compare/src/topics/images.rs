//! Writing images: the bytes beside those of the Rust's file, and how many they are.

use super::build_assigned::{different, some_modulus};
use super::builds::{SETS, SMALL};
use super::files::Folder;
use super::lookup::{drawn, made, sizes, Record, LARGE};
use super::pack::long_counts;
use super::Topic;
use crate::bdz::{self, BdzMphf};
use crate::lent::{flag, shorter, Fenced, Left, Lent};
use crate::ours::{self, Index, DONE, MOST, NO_ROOM, OCC_TRUNCATED};
use crate::rng::Rng;
use crate::tally::{Difference, Tally};

/// Each image goes into a buffer that is exact and into a longer one.
const ROOMS: u64 = 2;
const BUILT: u64 = ROOMS * (SMALL + 1 + LARGE.len()) as u64;
/// Images of no keys and of one key, for either kind.
const FEW: u64 = 40;
const LENGTHS: u64 = 400_000;

pub const TOPIC: Topic = Topic {
    name: "images",
    needs: &[
        ("built assigned images", BUILT),
        ("built compact images", BUILT),
        ("built images of every width", ROOMS * 3 * 30),
        ("made assigned images", ROOMS * 32 * 7),
        ("made compact images", ROOMS * 90),
        ("images of no keys", ROOMS * 2 * FEW),
        ("images of one key", ROOMS * 2 * FEW),
        ("words that are masked", 300),
        ("padding bits that are set", 40),
        ("image too short", 2_500),
        ("table too short", 2_000),
        ("occupancy too short", 1_000),
        ("lengths", 750),
        ("trailer offsets", 350),
        ("lengths of any index", LENGTHS),
        ("trailer offsets of any index", LENGTHS / 2),
    ],
    run,
};

fn run(tally: &mut Tally, rng: &mut Rng) -> Result<(), Difference> {
    let folder = Folder::new("images");
    for n in (0..=SMALL).chain(LARGE) {
        for (compact, what) in [
            (false, "built assigned images"),
            (true, "built compact images"),
        ] {
            let record = built(rng, compact, n);
            check(tally, rng, &folder, what, &record)?;
        }
    }
    every_width(tally, rng, &folder)?;
    for m in sizes(rng) {
        let record = made(rng, true, m);
        check(tally, rng, &folder, "made compact images", &record)?;
    }
    for _ in 0..FEW {
        few_keys(tally, rng, &folder)?;
    }
    any_lengths(tally, rng)
}

/// The Rust's index of n different keys.
pub fn built(rng: &mut Rng, compact: bool, n: usize) -> Record {
    let set = rng.below(SETS);
    match compact {
        true => drawn(rng, n, set, BdzMphf::build_compact).1,
        false => {
            let modulus = some_modulus(rng, n);
            built_assigned(rng, n, modulus)
        }
    }
}

fn built_assigned(rng: &mut Rng, n: usize, modulus: u32) -> Record {
    let values = different(rng, n, modulus);
    let set = rng.below(SETS);
    let build = |keys: &[u64]| BdzMphf::build_assigned(keys, &values, modulus);
    drawn(rng, n, set, build).1
}

/// Our image of an index that lends enough.
pub fn our_image(record: &Record) -> Vec<u8> {
    let index = record.lent();
    let length = ours::image_len(index.compact, index.n, index.m, index.modulus);
    let mut image = vec![0; length as usize];
    assert_eq!(ours::write_image(index, &mut image), DONE, "no image");
    image
}

/// Assigned images of every width: built ones where a build takes the modulus, and made ones, whose
/// words have all 32 bits; those also about the end of the first page that the Rust packs into.
fn every_width(tally: &mut Tally, rng: &mut Rng, folder: &Folder) -> Result<(), Difference> {
    for width in 1..=32 {
        for modulus in moduli(rng, width) {
            if (1..=MOST).contains(&modulus) {
                let n = 1 + rng.below_usize(modulus.min(40) as usize);
                let record = built_assigned(rng, n, modulus);
                let what = "built images of every width";
                check(tally, rng, folder, what, &record)?;
            }
            let m = rng.below(71) as u32;
            made_assigned(tally, rng, folder, m, modulus)?;
        }
        for count in long_counts(width) {
            let modulus = moduli(rng, width)[2];
            made_assigned(tally, rng, folder, count as u32, modulus)?;
        }
    }
    Ok(())
}

/// The least modulus of a width that is not 0, the largest, and any.
fn moduli(rng: &mut Rng, width: u32) -> [u32; 3] {
    let least = match width {
        1 => 1,
        _ => (1 << (width - 1)) + 1,
    };
    let largest = 1u32.checked_shl(width).unwrap_or(u32::MAX);
    let any = least + rng.below(u64::from(largest - least) + 1) as u32;
    let moduli = [least, largest, any];
    let widths = moduli.map(bdz::g_bits_for_modulus);
    assert_eq!(widths, [width; 3], "moduli of another width");
    moduli
}

fn made_assigned(
    tally: &mut Tally,
    rng: &mut Rng,
    folder: &Folder,
    m: u32,
    modulus: u32,
) -> Result<(), Difference> {
    let record = Record {
        modulus,
        ..made(rng, false, m)
    };
    check(tally, rng, folder, "made assigned images", &record)
}

/// No keys: the header alone, with any m and seed. The Rust writes all words that its index holds,
/// so it holds none. One key: any number of words.
fn few_keys(tally: &mut Tally, rng: &mut Rng, folder: &Folder) -> Result<(), Difference> {
    for compact in [false, true] {
        for (n, what) in [(0, "images of no keys"), (1, "images of one key")] {
            let m = match n {
                0 => 0,
                _ => rng.below(20) as u32,
            };
            let mut record = Record {
                n,
                modulus: rng.edge_u32(),
                ..made(rng, compact, m)
            };
            if n == 0 {
                record.m = rng.edge_u32();
            }
            check(tally, rng, folder, what, &record)?;
        }
    }
    Ok(())
}

/// An index that lends exactly what its image holds, beside the file of the Rust.
fn check(
    tally: &mut Tally,
    rng: &mut Rng,
    folder: &Folder,
    what: &'static str,
    record: &Record,
) -> Result<(), Difference> {
    let rust = record.rust();
    let image = folder.written(&rust);
    notice_cases(tally, record);
    lengths(tally, rng, &rust, image.len() as u64)?;
    for room in [image.len(), image.len() + 1 + rng.below_usize(40)] {
        let record = record.lengthened(rng);
        write(tally, rng, what, &record, room, &image, DONE)?;
    }
    short_buffers(tally, rng, record, &image)
}

/// Writes into a dirty buffer of `room` bytes. The case is meant to come to this status, and must
/// not be another one by mistake.
fn write(
    tally: &mut Tally,
    rng: &mut Rng,
    what: &'static str,
    record: &Record,
    room: usize,
    rust: &[u8],
    meant: u32,
) -> Result<(), Difference> {
    let agreed = agreed_status(record, room, rust.len());
    assert_eq!(agreed, meant, "{what}: the input is another case");
    let table = Fenced::new(rng, &record.table);
    let occupancy = Fenced::new(rng, &record.occupancy);
    let index = Index {
        compact: flag(rng, record.compact),
        table: table.given(),
        occupancy: occupancy.given(),
        ..record.lent()
    };
    let mut image = Lent::new(rng, room);
    let status = ours::write_image(index, image.given_mut());
    let left = match agreed {
        DONE => Left::New(rust),
        _ => Left::Untouched,
    };
    let fault = image.fault("image", left);
    tally.same(what, (status, fault), (agreed, None), || {
        format!(
            "{}, room for {room} bytes; the answers are the status and the first byte of the image \
             that is not left as it must be",
            record.describe()
        )
    })
}

/// Document 01: "Writer: 12, 14"; "for n = 0 it needs and writes the header alone".
fn agreed_status(record: &Record, room: usize, needed: usize) -> u32 {
    let words = match record.n {
        0 => 0,
        _ => record.m as usize,
    };
    if record.compact && record.occupancy.len() < words.div_ceil(8) {
        OCC_TRUNCATED
    } else if record.table.len() < words || room < needed {
        NO_ROOM
    } else {
        DONE
    }
}

/// Each buffer too short in turn, and with the occupancy others that are tested after it.
fn short_buffers(
    tally: &mut Tally,
    rng: &mut Rng,
    record: &Record,
    image: &[u8],
) -> Result<(), Difference> {
    let enough = image.len();
    for room in shorter(rng, enough) {
        let record = record.lengthened(rng);
        write(tally, rng, "image too short", &record, room, image, NO_ROOM)?;
    }
    for length in shorter(rng, record.table.len()) {
        let mut short = record.lengthened(rng);
        short.table.truncate(length);
        write(
            tally,
            rng,
            "table too short",
            &short,
            enough,
            image,
            NO_ROOM,
        )?;
    }
    for length in shorter(rng, record.occupancy.len()) {
        for (mut short, room) in [
            (record.lengthened(rng), enough),
            (record.lengthened(rng), enough - 1),
            (record.cut(rng), rng.below_usize(enough)),
        ] {
            short.occupancy.truncate(length);
            let what = "occupancy too short";
            write(tally, rng, what, &short, room, image, OCC_TRUNCATED)?;
        }
    }
    Ok(())
}

/// The counts show that words were too wide, and that bits stood where no vertex is.
fn notice_cases(tally: &mut Tally, record: &Record) {
    let width = match record.compact {
        true => bdz::COMPACT_G_BITS,
        false => bdz::g_bits_for_modulus(record.modulus),
    };
    if record
        .table
        .iter()
        .any(|&word| u64::from(word) >> width > 0)
    {
        tally.notice("words that are masked");
    }
    let padding = match (record.n, record.m % 8) {
        (0, _) | (_, 0) => 0,
        (_, used) => record.occupancy.last().map_or(0, |last| last >> used),
    };
    if padding > 0 {
        tally.notice("padding bits that are set");
    }
}

/// How many bytes the Rust's file has, and where it says that its image ends.
fn lengths(
    tally: &mut Tally,
    rng: &mut Rng,
    rust: &BdzMphf,
    written: u64,
) -> Result<(), Difference> {
    let (n, m, modulus) = (rust.n, rust.m, rust.modulus);
    let compact = rust.compact.is_some();
    let ours = ours::image_len(flag(rng, compact), n, m, modulus);
    tally.same("lengths", ours, written, || {
        format!("compact {compact}, n {n}, m {m}, modulus {modulus}")
    })?;
    if compact {
        assert_eq!(rust.trailer_off(), written, "the Rust differs from itself");
        trailer_offset(tally, "trailer offsets", rust)?;
    }
    Ok(())
}

fn trailer_offset(tally: &mut Tally, what: &'static str, rust: &BdzMphf) -> Result<(), Difference> {
    let (n, m) = (rust.n, rust.m);
    let ours = ours::trailer_off(n, m);
    tally.same(what, ours, rust.trailer_off(), || format!("n {n}, m {m}"))
}

/// Of any numbers, however large: no image is written.
fn any_lengths(tally: &mut Tally, rng: &mut Rng) -> Result<(), Difference> {
    let mut rust = BdzMphf::build_compact(&[]).expect("no keys are accepted");
    while tally.count("lengths of any index") < LENGTHS {
        let modulus = rng.edge_u32();
        (rust.n, rust.m) = (rng.edge_u32(), rng.edge_u32());
        trailer_offset(tally, "trailer offsets of any index", &rust)?;
        for compact in [false, true] {
            let ours = ours::image_len(flag(rng, compact), rust.n, rust.m, modulus);
            let expected = match compact {
                true => rust.trailer_off(),
                false => packed_length(&rust, modulus),
            };
            tally.same("lengths of any index", ours, expected, || {
                let (n, m) = (rust.n, rust.m);
                format!("compact {compact}, n {n}, m {m}, modulus {modulus}")
            })?;
        }
    }
    Ok(())
}

/// What `write_packed_to` comes to with m words, and with none where there are no keys.
fn packed_length(rust: &BdzMphf, modulus: u32) -> u64 {
    let words = match rust.n {
        0 => 0,
        _ => rust.m,
    };
    bdz::HEADER_LEN2 + bdz::packed_g_bytes(words, bdz::g_bits_for_modulus(modulus))
}
