//! The plain model is held to the numbers of document 01, and its mixer to published ones.

use compare::lent::Loan;
use compare::model::feed::{page_of, Feed, PAGE_BITS};
use compare::model::hash::{assigned_vertices, compact_vertices, mix64, vertex_count, vertices};
use compare::model::image::{self, open, packed, width, written, Opened};
use compare::model::list::{list, read, List};
use compare::model::rank;
use compare::ours::{FeedIndex, BAD_LIST, DONE, G_LENGTH, NO_ROOM, SHORT_PREAD, WAITING};

/// "Key 7, value 5, modulus 6".
const KEY_7: [u8; 33] = [
    0x42, 0x44, 0x5a, 0x32, 0x01, 0x00, 0x00, 0x00, 0x01, 0x00, 0x00, 0x00, 0x01, 0x00, 0x00, 0x00,
    0x01, 0x00, 0x00, 0x00, 0x00, 0x00, 0x00, 0x00, 0x06, 0x00, 0x00, 0x00, 0x03, 0x00, 0x00, 0x00,
    0x05,
];
/// "List" of the same.
const LIST_7: [u8; 20] = [
    0x4b, 0x4d, 0x06, 0x00, 0x00, 0x00, 0x4b, 0x56, 0x07, 0x00, 0x00, 0x00, 0x00, 0x00, 0x00, 0x00,
    0x05, 0x00, 0x00, 0x00,
];

/// MurmurHash3_x64_128 of no bytes: the seed is added to itself, both sums go through the finalizer,
/// and they are added again. The two hashes, for the seeds 1 and 42, are published.
#[test]
fn mixer() {
    for (seed, published) in [
        (1, [0x4610_abe5_6eff_5cb5, 0x5162_2daa_78f8_3583]),
        (42, [0xf02a_a77d_fa1b_8523, 0xd101_6610_da11_cbb9]),
    ] {
        let (first, second) = (mix64(2 * seed), mix64(3 * seed));
        let sum = first.wrapping_add(second);
        assert_eq!([sum, second.wrapping_add(sum)], published);
    }
    assert_eq!(mix64(0), 0);
}

#[test]
fn numbers_of_vertices() {
    for (n, assigned, compact) in [
        (0, 0, 0),
        (1, 1, 1),
        (2, 5, 6),
        (3, 6, 6),
        (13, 16, 18),
        (14, 18, 18),
        (15, 19, 21),
        (101, 125, 126),
    ] {
        assert_eq!(vertex_count(false, n), assigned);
        assert_eq!(vertex_count(true, n), compact);
    }
}

#[test]
fn vertices_of_hashes() {
    assert_eq!(assigned_vertices(0, 5), [0, 1, 2]);
    assert_eq!(assigned_vertices(0, 2), [0, 1, 0]);
    assert_eq!(compact_vertices(0, 6), [0, 2, 4]);
    assert_eq!(assigned_vertices(1 << 63, 5), [2, 0, 1]);
    assert_eq!(assigned_vertices(u64::MAX, 5), [4, 0, 1]);
    assert_eq!(compact_vertices(u64::MAX, 6), [1, 3, 5]);
    for compact in [false, true] {
        assert_eq!(vertices(7, 1, 0, compact), [0; 3]);
    }
}

/// "h = mix64(key + seed modulo 2^64)": key and seed of the sum 0 have the hash 0.
#[test]
fn vertices_of_keys() {
    let (key, seed) = (u64::MAX, 1);
    assert_eq!(vertices(key, seed, 5, false), [0, 1, 2]);
    assert_eq!(vertices(key, seed, 6, true), [0, 2, 4]);
}

#[test]
fn widths() {
    assert_eq!([0, 1, 2, 3, 4, 5].map(width), [1, 1, 1, 2, 2, 3]);
    let two_to_30 = 1 << 30;
    assert_eq!([two_to_30, two_to_30 + 1].map(width), [30, 31]);
    assert_eq!(width(u32::MAX), 32);
}

#[test]
fn packed_words() {
    assert_eq!(packed(&[1, 2, 3, 4], 3), [0xd1, 0x08]);
    assert_eq!(packed(&[1, 2, 0, 2, 1], 2), [0x89, 0x01]);
    // "A word wider than the width is masked".
    assert_eq!(packed(&[9, 10, 11, 12], 3), [0xd1, 0x08]);
}

#[test]
fn ones_of_an_occupancy() {
    let (occupancy, m, n) = ([0xb2, 0x00], 9, 4);
    let supers = rank::super_counts(m, &occupancy);
    let rank = |vertex| rank::rank(&occupancy, &supers, vertex);
    assert_eq!([2, 5, 8].map(rank), [1, 2, 4]);
    assert_eq!(rank::answer(&occupancy, &supers, 8, n), 3);
    assert_eq!(rank::audit(n, m, &occupancy), Some([4, 1]));
    assert_eq!(rank::audit(3, m, &occupancy), Some([4, 0]));
    assert_eq!(rank::audit(n, m, &occupancy[..1]), None);
}

#[test]
fn super_counts() {
    let ones = [0xff; 65];
    assert_eq!(rank::super_counts(511, &ones), [0, 511]);
    assert_eq!(rank::super_counts(512, &ones), [0, 512]);
    assert_eq!(rank::super_counts(513, &ones), [0, 512, 513]);
    for m in [0, 511, 512, 513] {
        assert_eq!(rank::super_counts(m, &ones).len(), rank::needs(m).1);
    }
}

/// The page of a word's first bit with that bit's byte in the page, and the page of its last bit.
fn word_place(vertex: u64, width: u64) -> (u32, u64, u64, u32) {
    let (page, bit) = page_of(vertex * width);
    let (last, _) = page_of(vertex * width + width - 1);
    (page, bit / 8, bit % 8, last)
}

#[test]
fn crossing_words() {
    assert_eq!(word_place(10_922, 3), (0, 4_095, 6, 1));
    assert_eq!(word_place(1_092, 30), (0, 4_095, 0, 1));
    for width in [1, 2, 4, 8, 16, 32] {
        for vertex in PAGE_BITS / width - 1..=PAGE_BITS / width {
            let (first, _, _, last) = word_place(vertex, width);
            assert_eq!(first, last);
        }
    }
}

#[test]
fn image_of_key_7() {
    assert_eq!(written(false, [1, 1, 1, 6], &[5], &[]), KEY_7);
    let opened = |length: usize| open(false, &KEY_7[..length], length as u64);
    for (length, refusal) in [(0, SHORT_PREAD), (31, SHORT_PREAD), (32, G_LENGTH)] {
        let refused = Opened {
            refusal,
            answer: [0; Loan::ANSWER],
        };
        assert_eq!(opened(length), refused);
    }
    let whole = Opened {
        refusal: DONE,
        answer: [1, 1, 1, 6, 3],
    };
    assert_eq!(opened(33), whole);
    // "The opener takes the first 32 bytes".
    assert_eq!(open(false, &KEY_7[..32], 33), whole);
}

#[test]
fn image_of_one_compact_key() {
    let image = written(true, [1, 1, 1, 1], &[0], &[1]);
    assert_eq!(image.len(), 34);
    assert_eq!(image[32..], [0x00, 0x01]);
    assert_eq!(image::length(true, 1, 2), 34);
    for length in [0, 31, 32, 33] {
        assert_eq!(open(true, &image, length).refusal, G_LENGTH);
    }
    let whole = open(true, &image, 34);
    assert_eq!((whole.refusal, whole.answer), (DONE, [1, 1, 1, 1, 2]));
}

/// "Reading an unfed word as zero and answering" is an error.
#[test]
fn feed_of_key_7() {
    let index = FeedIndex {
        compact: 0,
        n: 1,
        m: 1,
        seed: 1,
        modulus: 6,
        width: 3,
    };
    let mut feed = Feed::new(index, &[7]);
    assert_eq!(feed.listed(), [0]);
    assert_eq!(feed.answer(0, &[], &[]), Err(WAITING));
    assert_eq!(feed.page(0, &KEY_7[32..]), DONE);
    assert_eq!(feed.answer(0, &[], &[]), Ok(5));
}

#[test]
fn list_of_key_7() {
    let seven = List {
        compact: false,
        modulus: 6,
        keys: vec![7],
        values: vec![5],
    };
    assert_eq!(seven.bytes(), LIST_7);
    assert_eq!(read(&LIST_7, 1, 1), Ok(seven.clone()));
    assert_eq!(seven.told(), [0, 6, 1]);
    assert_eq!(read(&LIST_7, 0, 1), Err(NO_ROOM));
    assert_eq!(read(&LIST_7, 1, 0), Err(NO_ROOM));
    for length in (0..20).filter(|&length| length != 6) {
        assert_eq!(read(&LIST_7[..length], 0, 0), Err(BAD_LIST));
    }
    let empty = list(&LIST_7[..6]).expect("an assigned list of no keys");
    assert_eq!(empty.told(), [0, 6, 0]);
}

#[test]
fn compact_lists() {
    let two = List {
        compact: true,
        keys: vec![7, u64::MAX],
        ..List::default()
    };
    let bytes = two.bytes();
    assert_eq!(bytes[..10], [0x4b, 0x43, 7, 0, 0, 0, 0, 0, 0, 0]);
    // It has no values, so it needs no room for them.
    assert_eq!(read(&bytes, 2, 0), Ok(two.clone()));
    assert_eq!(two.told(), [1, 0, 2]);
    assert_eq!(read(&bytes, 1, 0), Err(NO_ROOM));
    assert_eq!(list(&bytes[..19]), None);
    let mixed = [&bytes[..10], &LIST_7[6..]].concat();
    assert_eq!(list(&mixed), None);
}

/// "Over 1,000 records, or of modulus over 65,536".
#[test]
fn largest_lists() {
    for compact in [false, true] {
        for (count, accepted) in [(1_000, true), (1_001, false)] {
            let long = List {
                compact,
                modulus: 0,
                keys: vec![3; count],
                values: vec![4; if compact { 0 } else { count }],
            };
            let bytes = long.bytes();
            assert_eq!(list(&bytes), accepted.then_some(long));
        }
    }
    for (modulus, accepted) in [(65_536, true), (65_537, false)] {
        let large = List {
            modulus,
            ..List::default()
        };
        assert_eq!(list(&large.bytes()), accepted.then_some(large));
    }
}
