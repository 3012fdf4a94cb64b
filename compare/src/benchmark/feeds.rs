//! Page feeds: start, all listed pages in their order, and every key asked.

use super::clock::{Bench, Row, Start};
use super::{kind, width_of};
use crate::bdz::{self, BdzMphf, GPageScatter};
use crate::ours::{self, FeedIndex, FeedRoom, Question, DONE};
use crate::topics::builds::{key_bytes, table_of};
use crate::topics::feed::subject::{rust_pages, rust_vertices};
use crate::topics::lookup::lent;
use crate::topics::pack::rust_body;
use crate::trial::Rooms;
use std::hint::black_box;

const BUDGET: f64 = 1.5;

/// All keys of an image, the parts of ours with all of them, and then a tenth of them.
pub fn measure(bench: &mut Bench, built: &BdzMphf, keys: &[u64]) {
    let what = &format!("feed {}", kind(built));
    let body = rust_body(table_of(built), width_of(built));
    let mut ours = OurFeed::new(built, &body, keys);
    whole(bench, what, &mut ours);
    bench.table.note_room(what, ours.room_bytes(), keys.len());
    parts(bench, what, &mut ours);
    let tenth = &keys[..keys.len() / 10];
    let what = &format!("{what}, a tenth of the keys");
    whole(bench, what, &mut OurFeed::new(built, &body, tenth));
}

/// The whole feed beside the Rust's.
fn whole(bench: &mut Bench, what: &str, ours: &mut OurFeed) {
    let (built, body, keys) = (ours.built, ours.body, ours.keys);
    let mut rust_out = vec![0u32; keys.len()];
    let row = Row {
        what,
        items: keys.len(),
        starts: Start::BOTH,
        budget: Some(BUDGET),
    };
    bench.beside(
        row,
        || {
            ours.start();
            ours.feed();
            ours.ask();
        },
        || {
            let (built, keys) = (black_box(built), black_box(keys));
            rust_feed(built, keys, black_box(body), &mut rust_out);
            black_box(&mut rust_out);
        },
    );
    assert!(ours.out == rust_out, "{what}: the answers differ");
}

/// The parts have no counterpart in the Rust, and so no budget.
fn parts(bench: &mut Bench, what: &str, ours: &mut OurFeed) {
    let names = ["start", "pages", "asking"].map(|part| format!("{what}, {part} alone"));
    let [start, pages, asking] = names.each_ref().map(|what| Row {
        what,
        items: ours.keys.len(),
        starts: Start::WARM,
        budget: None,
    });
    bench.alone(start, ours, |_| (), OurFeed::start);
    bench.alone(pages, ours, OurFeed::start, OurFeed::feed);
    bench.alone(asking, ours, |_| (), OurFeed::ask);
}

/// The bytes of a page.
fn page_of(body: &[u8], page: u32) -> &[u8] {
    let start = page as usize * bdz::G_PAGE_BYTES;
    &body[start..body.len().min(start + bdz::G_PAGE_BYTES)]
}

/// A feed of ours, with all that is lent to it.
struct OurFeed<'a> {
    built: &'a BdzMphf,
    body: &'a [u8],
    keys: &'a [u64],
    bytes: Vec<u8>,
    key_room: Vec<u64>,
    order: Vec<u64>,
    slots: Vec<u64>,
    pages: Vec<u32>,
    told: Vec<u64>,
    out: Vec<u32>,
}

impl<'a> OurFeed<'a> {
    fn new(built: &'a BdzMphf, body: &'a [u8], keys: &'a [u64]) -> Self {
        let rooms = Rooms::exact(keys.len());
        Self {
            built,
            body,
            keys,
            bytes: key_bytes(keys),
            key_room: vec![0; rooms.key_room],
            order: vec![0; rooms.order],
            slots: vec![0; rooms.slots],
            pages: vec![0; rooms.pages],
            told: vec![0; rooms.told],
            out: vec![0; keys.len()],
        }
    }

    /// All that is read and written.
    fn room_bytes(&self) -> usize {
        let numbers = self.key_room.len() + self.order.len() + self.slots.len() + self.keys.len();
        let sides = lent(self.built);
        let words = self.pages.len() + self.out.len() + sides.supers.len();
        let bytes = self.bytes.len() + self.body.len() + sides.occupancy.len();
        8 * numbers + 4 * words + bytes
    }

    fn index(&self) -> FeedIndex {
        let built = black_box(self.built);
        FeedIndex {
            compact: u32::from(built.compact.is_some()),
            n: built.n,
            m: built.m,
            seed: built.seed,
            modulus: built.modulus,
            width: width_of(built),
        }
    }

    fn start(&mut self) {
        let (index, occupancy) = (self.index(), lent(self.built).occupancy);
        let room = FeedRoom {
            key_room: &mut self.key_room,
            order: &mut self.order,
            slots: &mut self.slots,
            pages: &mut self.pages,
            told: &mut self.told,
        };
        let status = ours::feed_start(black_box(&self.bytes), index, occupancy, room);
        assert_eq!(status, DONE);
        black_box(&mut self.slots);
    }

    fn feed(&mut self) {
        let (index, count) = (self.index(), self.told[1] as usize);
        for &page in &self.pages[..count] {
            let bytes = page_of(black_box(self.body), page);
            let (order, slots) = (&self.order, &mut self.slots);
            let status = ours::feed_page(index, self.told[0], page, bytes, order, slots);
            assert_eq!(status, DONE);
        }
        black_box(&mut self.slots);
    }

    fn ask(&mut self) {
        let (index, sides) = (self.index(), lent(black_box(self.built)));
        for (position, place) in self.out.chunks_exact_mut(1).enumerate() {
            let question = Question {
                keys: self.told[0],
                lent: self.keys,
                position: position as u64,
                occupancy: sides.occupancy,
                supers: sides.supers,
                slots: &self.slots,
            };
            let status = ours::feed_ask(index, question, place);
            assert_eq!(status, DONE);
        }
        black_box(&mut self.out);
    }
}

/// What `index_batch_fd` does, with its pages in memory.
#[inline(never)]
fn rust_feed(built: &BdzMphf, keys: &[u64], body: &[u8], out: &mut [u32]) {
    let width = width_of(built);
    let vertices = rust_vertices(built, keys);
    let pages = rust_pages(&vertices, width);
    let mut scatter = GPageScatter::from_verts(width, &vertices, &pages);
    for page in pages {
        scatter.fill(page, page_of(body, page));
    }
    let each = scatter.words.iter().zip(vertices);
    for (place, (&[a, b, c], vertices)) in out.iter_mut().zip(each) {
        *place = built.finish_index(a, b, c, vertices);
    }
}
