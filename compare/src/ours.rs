//! The functions of the static library, each behind a safe call.

use crate::lent::{Lent, Loan, Pair};

/// The status of a call that did what it was asked.
pub const DONE: u32 = 0;
/// The status of a build whose keys and values differ in count.
pub const ASSIGNED_LEN: u32 = 1;
/// The status of a build of keys with the modulus 0.
pub const ASSIGNED_MODULUS: u32 = 2;
/// The status of a build with a value that is not below the modulus.
pub const ASSIGNED_VALUE: u32 = 3;
/// The status of a build with a value that came before.
pub const ASSIGNED_DUPLICATE: u32 = 4;
/// The status of a build whose keys no seed peels.
pub const NOT_PEELED: u32 = 5;
/// The status of an opening of fewer bytes than a BDZ2 header has.
pub const SHORT_PREAD: u32 = 6;
/// The status of an opening of fewer bytes than a BDZ3 header has, or than either header asks for.
pub const G_LENGTH: u32 = 7;
/// The status of an opening of what does not start as an image of that kind.
pub const BAD_MAGIC: u32 = 8;
/// The status of an opening of an image of another version than 1.
pub const BAD_VERSION: u32 = 9;
/// The status of a call with a width that is 0 or over 32, or in BDZ3 not 2.
pub const BAD_WIDTH: u32 = 10;
/// The status of a lookup in an index of two keys or more whose m or modulus is 0, of a feed of it,
/// and of an opening of such a BDZ2.
pub const ZERO_MODULUS: u32 = 11;
/// The status of a call whose occupancy has fewer bits than there are vertices.
pub const OCC_TRUNCATED: u32 = 12;
/// The status of a build of more keys, or of a larger modulus, than `MOST`, and of a feed of more
/// keys.
pub const TOO_LARGE: u32 = 13;
/// The status of a call whose answer has no room.
pub const NO_ROOM: u32 = 14;
/// The status of a page that no key of a feed waits for.
pub const PAGE_NOT_LISTED: u32 = 15;
/// The status of a page that a feed has been given.
pub const PAGE_GIVEN: u32 = 16;
/// The status of a page of more or fewer bytes than it has.
pub const PAGE_LENGTH: u32 = 17;
/// The status of a key that is asked for before its pages have come.
pub const WAITING: u32 = 18;
/// The status of a key list that is none.
pub const BAD_LIST: u32 = 19;
/// The status of a position that is not among a feed's keys.
pub const NO_SUCH_KEY: u32 = 20;

/// The largest number of keys, and the largest modulus, of a build; the largest number of keys of a
/// feed.
pub const MOST: u32 = 1 << 30;

/// The words of a build's answer: its status, n, m, seed, modulus and width.
pub const BUILT_WORDS: usize = 6;

extern "C" {
    fn bdz_splitmix64(state: u64) -> u64;
    fn bdz_splitmix64_state(state: u64) -> u64;
    fn bdz_mix64(k: u64) -> u64;
    fn bdz_high_product(u: u64, v: u64) -> u64;
    fn bdz_hash_verts(
        keys: *const u8,
        keys_length: usize,
        seed: u64,
        m: u32,
        compact: u32,
        out: *mut u32,
        out_length: usize,
    ) -> u32;
    fn bdz_vertex_count(n: u32) -> u64;
    fn bdz_compact_vertex_count(n: u32) -> u64;
    fn bdz_g_bits_for_modulus(modulus: u32) -> u32;
    fn bdz_packed_g_bytes(n_verts: u32, g_bits: u32) -> u64;
    fn bdz_occ_packed_bytes(m: u32) -> u64;
    fn bdz_super_count(m: u32) -> u64;
    fn bdz_pack_g(
        g: *const u32,
        g_length: usize,
        width: u32,
        body: *mut u8,
        body_length: usize,
    ) -> u32;
    fn bdz_unpack_g(
        body: *const u8,
        body_length: usize,
        width: u32,
        out: *mut u32,
        out_length: usize,
    );
    fn bdz_unpack_g_at(body: *const u8, body_length: usize, v: u32, width: u32) -> u32;
    fn bdz_extract_g_window(part: *const u8, part_length: usize, start: u64, width: u32) -> u32;
    fn bdz_build_assigned(
        keys: *const u8,
        keys_length: usize,
        values: *const u8,
        values_length: usize,
        modulus: u32,
        key_room: *mut u64,
        key_room_length: usize,
        value_room: *mut u32,
        value_room_length: usize,
        table: *mut u32,
        table_length: usize,
        degrees: *mut u8,
        degrees_length: usize,
        xors: *mut u32,
        xors_length: usize,
        queue: *mut u32,
        queue_length: usize,
        order: *mut Pair,
        order_length: usize,
        marks: *mut u8,
        marks_length: usize,
        seen: *mut u8,
        seen_length: usize,
        answer: *mut [u64; BUILT_WORDS],
    );
    fn bdz_build_compact(
        keys: *const u8,
        keys_length: usize,
        key_room: *mut u64,
        key_room_length: usize,
        table: *mut u32,
        table_length: usize,
        occupancy: *mut u8,
        occupancy_length: usize,
        degrees: *mut u8,
        degrees_length: usize,
        xors: *mut u32,
        xors_length: usize,
        queue: *mut u32,
        queue_length: usize,
        order: *mut Pair,
        order_length: usize,
        marks: *mut u8,
        marks_length: usize,
        answer: *mut [u64; BUILT_WORDS],
    );
    fn bdz_popcount_bits(occ: *const u8, occ_length: usize, lo: u64, hi: u64) -> u32;
    fn bdz_supers_from_occ_bytes(
        m: u32,
        occ: *const u8,
        occ_length: usize,
        supers: *mut u32,
        supers_length: usize,
    ) -> u32;
    fn bdz_rank1(
        occ: *const u8,
        occ_length: usize,
        supers: *const u32,
        supers_length: usize,
        m: u32,
        v: u32,
    ) -> u32;
    fn bdz_rank1_no(
        occ: *const u8,
        occ_length: usize,
        supers: *const u32,
        supers_length: usize,
        m: u32,
        v: u32,
    ) -> u32;
    fn bdz_index_batch(
        keys: *const u8,
        keys_length: usize,
        compact: u32,
        n: u32,
        m: u32,
        seed: u64,
        modulus: u32,
        table: *const u32,
        table_length: usize,
        occ: *const u8,
        occ_length: usize,
        supers: *const u32,
        supers_length: usize,
        key_room: *mut u64,
        key_room_length: usize,
        out: *mut u32,
        out_length: usize,
    ) -> u32;
    fn bdz_index_words(
        keys: *const u64,
        keys_length: usize,
        compact: u32,
        n: u32,
        m: u32,
        seed: u64,
        modulus: u32,
        table: *const u32,
        table_length: usize,
        occ: *const u8,
        occ_length: usize,
        supers: *const u32,
        supers_length: usize,
        out: *mut u32,
        out_length: usize,
    ) -> u32;
    fn bdz_image_len(compact: u32, n: u32, m: u32, modulus: u32) -> u64;
    fn bdz_trailer_off(n: u32, m: u32) -> u64;
    fn bdz_body_off(compact: u32, n: u32, m: u32, width: u32) -> u64;
    fn bdz_occ_off(compact: u32, n: u32, m: u32, width: u32) -> u64;
    fn bdz_end_off(compact: u32, n: u32, m: u32, width: u32) -> u64;
    fn bdz_write_image(
        compact: u32,
        n: u32,
        m: u32,
        seed: u64,
        modulus: u32,
        table: *const u32,
        table_length: usize,
        occ: *const u8,
        occ_length: usize,
        image: *mut u8,
        image_length: usize,
    ) -> u32;
    fn bdz_open_packed(
        first: *const u8,
        first_length: usize,
        len: u64,
        answer: *mut u64,
        answer_length: usize,
    ) -> u32;
    fn bdz_open_compact(
        first: *const u8,
        first_length: usize,
        len: u64,
        answer: *mut u64,
        answer_length: usize,
    ) -> u32;
    fn bdz_audit(
        n: u32,
        m: u32,
        occ: *const u8,
        occ_length: usize,
        answer: *mut u64,
        answer_length: usize,
    ) -> u32;
    fn bdz_feed_start(
        keys: *const u8,
        keys_length: usize,
        compact: u32,
        n: u32,
        m: u32,
        seed: u64,
        modulus: u32,
        width: u32,
        occ: *const u8,
        occ_length: usize,
        key_room: *mut u64,
        key_room_length: usize,
        order: *mut u64,
        order_length: usize,
        slots: *mut u64,
        slots_length: usize,
        pages: *mut u32,
        pages_length: usize,
        told: *mut u64,
        told_length: usize,
    ) -> u32;
    fn bdz_feed_page(
        compact: u32,
        n: u32,
        m: u32,
        seed: u64,
        modulus: u32,
        width: u32,
        keys: u64,
        page: u32,
        bytes: *const u8,
        bytes_length: usize,
        order: *const u64,
        order_length: usize,
        slots: *mut u64,
        slots_length: usize,
    ) -> u32;
    fn bdz_feed_ask(
        compact: u32,
        n: u32,
        m: u32,
        seed: u64,
        modulus: u32,
        width: u32,
        keys: u64,
        lent: *const u64,
        lent_length: usize,
        position: u64,
        occ: *const u8,
        occ_length: usize,
        supers: *const u32,
        supers_length: usize,
        slots: *const u64,
        slots_length: usize,
        told: *mut u32,
        told_length: usize,
    ) -> u32;
    fn bdz_read_list(
        bytes: *const u8,
        bytes_length: usize,
        keys: *mut u64,
        keys_length: usize,
        values: *mut u32,
        values_length: usize,
        told: *mut u64,
        told_length: usize,
    ) -> u32;
}

// SAFETY of every call below: the library takes numbers, or a slice as its pointer and its length,
// and keeps to the slice.

pub fn splitmix64(state: u64) -> u64 {
    unsafe { bdz_splitmix64(state) }
}

pub fn splitmix64_state(state: u64) -> u64 {
    unsafe { bdz_splitmix64_state(state) }
}

pub fn mix64(k: u64) -> u64 {
    unsafe { bdz_mix64(k) }
}

pub fn high_product(u: u64, v: u64) -> u64 {
    unsafe { bdz_high_product(u, v) }
}

pub fn hash_verts(keys: &[u8], seed: u64, m: u32, compact: u32, out: &mut [u32]) -> u32 {
    unsafe {
        bdz_hash_verts(
            keys.as_ptr(),
            keys.len(),
            seed,
            m,
            compact,
            out.as_mut_ptr(),
            out.len(),
        )
    }
}

pub fn vertex_count(n: u32) -> u64 {
    unsafe { bdz_vertex_count(n) }
}

pub fn compact_vertex_count(n: u32) -> u64 {
    unsafe { bdz_compact_vertex_count(n) }
}

pub fn g_bits_for_modulus(modulus: u32) -> u32 {
    unsafe { bdz_g_bits_for_modulus(modulus) }
}

pub fn packed_g_bytes(n_verts: u32, g_bits: u32) -> u64 {
    unsafe { bdz_packed_g_bytes(n_verts, g_bits) }
}

pub fn occ_packed_bytes(m: u32) -> u64 {
    unsafe { bdz_occ_packed_bytes(m) }
}

pub fn super_count(m: u32) -> u64 {
    unsafe { bdz_super_count(m) }
}

pub fn pack_g(g: &[u32], width: u32, body: &mut [u8]) -> u32 {
    unsafe { bdz_pack_g(g.as_ptr(), g.len(), width, body.as_mut_ptr(), body.len()) }
}

pub fn unpack_g(body: &[u8], width: u32, out: &mut [u32]) {
    unsafe {
        bdz_unpack_g(
            body.as_ptr(),
            body.len(),
            width,
            out.as_mut_ptr(),
            out.len(),
        )
    }
}

pub fn unpack_g_at(body: &[u8], v: u32, width: u32) -> u32 {
    unsafe { bdz_unpack_g_at(body.as_ptr(), body.len(), v, width) }
}

pub fn extract_g_window(part: &[u8], start: u64, width: u32) -> u32 {
    unsafe { bdz_extract_g_window(part.as_ptr(), part.len(), start, width) }
}

/// The status of a build: the first word of its answer.
pub fn build_assigned(keys: &[u8], values: &[u8], modulus: u32, loan: &mut Loan) -> u32 {
    let key_room = loan.key_room.given_mut();
    let value_room = loan.value_room.given_mut();
    let table = loan.table.given_mut();
    let degrees = loan.degrees.given_mut();
    let xors = loan.xors.given_mut();
    let queue = loan.queue.given_mut();
    let order = loan.order.given_mut();
    let marks = loan.marks.given_mut();
    let seen = loan.seen.given_mut();
    unsafe {
        bdz_build_assigned(
            keys.as_ptr(),
            keys.len(),
            values.as_ptr(),
            values.len(),
            modulus,
            key_room.as_mut_ptr(),
            key_room.len(),
            value_room.as_mut_ptr(),
            value_room.len(),
            table.as_mut_ptr(),
            table.len(),
            degrees.as_mut_ptr(),
            degrees.len(),
            xors.as_mut_ptr(),
            xors.len(),
            queue.as_mut_ptr(),
            queue.len(),
            order.as_mut_ptr(),
            order.len(),
            marks.as_mut_ptr(),
            marks.len(),
            seen.as_mut_ptr(),
            seen.len(),
            built_words(&mut loan.answer),
        );
    }
    loan.status()
}

/// The same of the compact kind.
pub fn build_compact(keys: &[u8], loan: &mut Loan) -> u32 {
    let key_room = loan.key_room.given_mut();
    let table = loan.table.given_mut();
    let occupancy = loan.occupancy.given_mut();
    let degrees = loan.degrees.given_mut();
    let xors = loan.xors.given_mut();
    let queue = loan.queue.given_mut();
    let order = loan.order.given_mut();
    let marks = loan.marks.given_mut();
    unsafe {
        bdz_build_compact(
            keys.as_ptr(),
            keys.len(),
            key_room.as_mut_ptr(),
            key_room.len(),
            table.as_mut_ptr(),
            table.len(),
            occupancy.as_mut_ptr(),
            occupancy.len(),
            degrees.as_mut_ptr(),
            degrees.len(),
            xors.as_mut_ptr(),
            xors.len(),
            queue.as_mut_ptr(),
            queue.len(),
            order.as_mut_ptr(),
            order.len(),
            marks.as_mut_ptr(),
            marks.len(),
            built_words(&mut loan.answer),
        );
    }
    loan.status()
}

/// The words that a build's answer is told in.
fn built_words(answer: &mut Lent<u64>) -> &mut [u64; BUILT_WORDS] {
    let words = answer.given_mut();
    words.try_into().expect("a loan has room for the answer")
}

pub fn popcount_bits(occ: &[u8], lo: u64, hi: u64) -> u32 {
    unsafe { bdz_popcount_bits(occ.as_ptr(), occ.len(), lo, hi) }
}

pub fn supers_from_occ_bytes(m: u32, occ: &[u8], supers: &mut [u32]) -> u32 {
    unsafe {
        bdz_supers_from_occ_bytes(
            m,
            occ.as_ptr(),
            occ.len(),
            supers.as_mut_ptr(),
            supers.len(),
        )
    }
}

/// The status and the rank.
pub fn rank1(occ: &[u8], supers: &[u32], m: u32, v: u32) -> (u32, u32) {
    let (bits, bytes) = (occ.as_ptr(), occ.len());
    let (counts, count) = (supers.as_ptr(), supers.len());
    unsafe {
        (
            bdz_rank1_no(bits, bytes, counts, count, m, v),
            bdz_rank1(bits, bytes, counts, count, m, v),
        )
    }
}

/// An index as a lookup and a writer take it: its numbers, and the slices lent beside them.
#[derive(Clone, Copy)]
pub struct Index<'a> {
    /// 0 for the assigned kind, any other number for the compact one.
    pub compact: u32,
    pub n: u32,
    pub m: u32,
    pub seed: u64,
    pub modulus: u32,
    pub table: &'a [u32],
    pub occupancy: &'a [u8],
    pub supers: &'a [u32],
}

/// The keys come as bytes, and are read into their room where nothing is refused.
pub fn index_batch(keys: &[u8], index: Index, key_room: &mut [u64], out: &mut [u32]) -> u32 {
    unsafe {
        bdz_index_batch(
            keys.as_ptr(),
            keys.len(),
            index.compact,
            index.n,
            index.m,
            index.seed,
            index.modulus,
            index.table.as_ptr(),
            index.table.len(),
            index.occupancy.as_ptr(),
            index.occupancy.len(),
            index.supers.as_ptr(),
            index.supers.len(),
            key_room.as_mut_ptr(),
            key_room.len(),
            out.as_mut_ptr(),
            out.len(),
        )
    }
}

/// The same with keys that are words already, as the Rust's are.
pub fn index_words(keys: &[u64], index: Index, out: &mut [u32]) -> u32 {
    unsafe {
        bdz_index_words(
            keys.as_ptr(),
            keys.len(),
            index.compact,
            index.n,
            index.m,
            index.seed,
            index.modulus,
            index.table.as_ptr(),
            index.table.len(),
            index.occupancy.as_ptr(),
            index.occupancy.len(),
            index.supers.as_ptr(),
            index.supers.len(),
            out.as_mut_ptr(),
            out.len(),
        )
    }
}

pub fn image_len(compact: u32, n: u32, m: u32, modulus: u32) -> u64 {
    unsafe { bdz_image_len(compact, n, m, modulus) }
}

pub fn trailer_off(n: u32, m: u32) -> u64 {
    unsafe { bdz_trailer_off(n, m) }
}

/// Where the table starts and ends, and where the image ends.
pub fn parts(compact: u32, n: u32, m: u32, width: u32) -> [u64; 3] {
    [bdz_body_off, bdz_occ_off, bdz_end_off].map(|part| unsafe { part(compact, n, m, width) })
}

/// A writer has no use for super counts.
pub fn write_image(index: Index, image: &mut [u8]) -> u32 {
    unsafe {
        bdz_write_image(
            index.compact,
            index.n,
            index.m,
            index.seed,
            index.modulus,
            index.table.as_ptr(),
            index.table.len(),
            index.occupancy.as_ptr(),
            index.occupancy.len(),
            image.as_mut_ptr(),
            image.len(),
        )
    }
}

/// Opens an image of `length` bytes by its first ones. The answer is n, m, seed, modulus and width.
pub fn open_packed(first: &[u8], length: u64, answer: &mut [u64]) -> u32 {
    unsafe {
        bdz_open_packed(
            first.as_ptr(),
            first.len(),
            length,
            answer.as_mut_ptr(),
            answer.len(),
        )
    }
}

pub fn open_compact(first: &[u8], length: u64, answer: &mut [u64]) -> u32 {
    unsafe {
        bdz_open_compact(
            first.as_ptr(),
            first.len(),
            length,
            answer.as_mut_ptr(),
            answer.len(),
        )
    }
}

/// The answer is the ones, and 1 where they are n.
pub fn audit(n: u32, m: u32, occ: &[u8], answer: &mut [u64]) -> u32 {
    unsafe {
        bdz_audit(
            n,
            m,
            occ.as_ptr(),
            occ.len(),
            answer.as_mut_ptr(),
            answer.len(),
        )
    }
}

/// The numbers of an index, as a feed of it takes them.
#[derive(Clone, Copy, Debug)]
pub struct FeedIndex {
    /// 0 for the assigned kind, any other number for the compact one.
    pub compact: u32,
    pub n: u32,
    pub m: u32,
    pub seed: u64,
    pub modulus: u32,
    pub width: u32,
}

/// What the start of a feed is lent.
pub struct FeedRoom<'a> {
    pub key_room: &'a mut [u64],
    pub order: &'a mut [u64],
    pub slots: &'a mut [u64],
    pub pages: &'a mut [u32],
    /// How many keys there are, and how many pages.
    pub told: &'a mut [u64],
}

/// What a feed is asked, and what is lent for that.
#[derive(Clone, Copy)]
pub struct Question<'a> {
    /// How many keys the feed was started with.
    pub keys: u64,
    /// The keys again.
    pub lent: &'a [u64],
    pub position: u64,
    pub occupancy: &'a [u8],
    pub supers: &'a [u32],
    pub slots: &'a [u64],
}

/// The keys come as bytes, and are read into their room where nothing is refused.
pub fn feed_start(keys: &[u8], index: FeedIndex, occupancy: &[u8], room: FeedRoom) -> u32 {
    unsafe {
        bdz_feed_start(
            keys.as_ptr(),
            keys.len(),
            index.compact,
            index.n,
            index.m,
            index.seed,
            index.modulus,
            index.width,
            occupancy.as_ptr(),
            occupancy.len(),
            room.key_room.as_mut_ptr(),
            room.key_room.len(),
            room.order.as_mut_ptr(),
            room.order.len(),
            room.slots.as_mut_ptr(),
            room.slots.len(),
            room.pages.as_mut_ptr(),
            room.pages.len(),
            room.told.as_mut_ptr(),
            room.told.len(),
        )
    }
}

/// Feeds a page to a feed of so many keys.
pub fn feed_page(
    index: FeedIndex,
    keys: u64,
    page: u32,
    bytes: &[u8],
    order: &[u64],
    slots: &mut [u64],
) -> u32 {
    unsafe {
        bdz_feed_page(
            index.compact,
            index.n,
            index.m,
            index.seed,
            index.modulus,
            index.width,
            keys,
            page,
            bytes.as_ptr(),
            bytes.len(),
            order.as_ptr(),
            order.len(),
            slots.as_mut_ptr(),
            slots.len(),
        )
    }
}

/// The answer is told in one word.
pub fn feed_ask(index: FeedIndex, question: Question, told: &mut [u32]) -> u32 {
    unsafe {
        bdz_feed_ask(
            index.compact,
            index.n,
            index.m,
            index.seed,
            index.modulus,
            index.width,
            question.keys,
            question.lent.as_ptr(),
            question.lent.len(),
            question.position,
            question.occupancy.as_ptr(),
            question.occupancy.len(),
            question.supers.as_ptr(),
            question.supers.len(),
            question.slots.as_ptr(),
            question.slots.len(),
            told.as_mut_ptr(),
            told.len(),
        )
    }
}

/// Reads a key list. Kind (0 assigned, 1 compact), modulus and count are told in three words.
pub fn read_list(bytes: &[u8], keys: &mut [u64], values: &mut [u32], told: &mut [u64]) -> u32 {
    unsafe {
        bdz_read_list(
            bytes.as_ptr(),
            bytes.len(),
            keys.as_mut_ptr(),
            keys.len(),
            values.as_mut_ptr(),
            values.len(),
            told.as_mut_ptr(),
            told.len(),
        )
    }
}
