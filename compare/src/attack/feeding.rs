//! The attack on the page feed: hostile records, buffers about their needs, pages in every order and
//! wrong ones, asking at every stage, and a caller that writes into the feed.

use super::{around, meets, met, rounds, Target, LONGER};
use crate::collisions::{crossing, crossing_key};
use crate::lent::Fenced;
use crate::model::feed::{AskLengths, Feed, PAGE_BITS, PAGE_BYTES};
use crate::model::rank;
use crate::ours::{
    FeedIndex, BAD_WIDTH, DONE, MOST, NO_ROOM, NO_SUCH_KEY, OCC_TRUNCATED, PAGE_GIVEN, PAGE_LENGTH,
    PAGE_NOT_LISTED, TOO_LARGE, WAITING, ZERO_MODULUS,
};
use crate::rng::{occupancy, Rng, OCCUPANCIES};
use crate::tally::{Difference, Tally};
use crate::trial::{orders, AskCall, Calls, Case, PageCall, Rooms, Trial};
use std::collections::BTreeMap;

pub const TARGET: Target = Target {
    name: "feeding",
    needs: &[
        ("bdz_feed_start", 1_000),
        ("bdz_feed_page", 1_000),
        ("bdz_feed_ask", 10_000),
        ("orders of up to five pages", 2 * (1 + 2 + 6 + 24 + 120)),
        ("orders of more pages", 2),
        ("sparse feeds", 2 * SPARSE as u64),
        ("altered feeds", 2 * ALTERED as u64),
        meets(DONE),
        meets(BAD_WIDTH),
        meets(ZERO_MODULUS),
        meets(OCC_TRUNCATED),
        meets(TOO_LARGE),
        meets(NO_ROOM),
        meets(PAGE_NOT_LISTED),
        meets(PAGE_GIVEN),
        meets(PAGE_LENGTH),
        meets(WAITING),
        meets(NO_SUCH_KEY),
    ],
    share: 2,
    run: |tally, rng, least| run(tally, rng, Calls::OURS, least),
};

/// Numbers of keys go up to this.
const KEYS: u64 = 40;
/// Keys of a feed that is fed in every order.
const ORDERED_KEYS: u64 = 12;
/// More pages than this are not fed in every order.
const ORDERED: u64 = 5;
/// Sparse feeds of a round, hostile records, and feeds that are altered.
const SPARSE: usize = 20;
const RECORDS: usize = 200;
const ALTERED: usize = 20;
/// What an index of more vertices needs is too much to be lent.
const LENT_VERTICES: u32 = 1 << 19;

pub fn run(tally: &mut Tally, rng: &mut Rng, calls: Calls, least: u64) -> Result<(), Difference> {
    rounds(tally, least, |tally| {
        let mut attack = Attack { tally, rng, calls };
        for compact in [false, true] {
            for pages in 1..=ORDERED {
                attack.every_order(compact, pages)?;
            }
            attack.any_order(compact)?;
            attack.about_needs(compact)?;
            for _ in 0..SPARSE {
                attack.sparse(compact)?;
            }
            for _ in 0..RECORDS {
                attack.hostile(compact)?;
            }
            for _ in 0..ALTERED {
                attack.altered(compact)?;
            }
        }
        Ok(())
    })
}

/// What is fed, and what is lent beside it: `LONGER` more than is needed, where that is not too much.
struct Subject {
    index: FeedIndex,
    keys: Vec<u64>,
    occupancy: Fenced<u8>,
    supers: Fenced<u32>,
}

impl Subject {
    fn new(rng: &mut Rng, index: FeedIndex, keys: Vec<u64>) -> Self {
        let m = lent_vertices(index);
        let (bytes, counts) = rank::needs(m);
        let kind = rng.below(OCCUPANCIES);
        let bits = occupancy(rng, bytes + LONGER, kind);
        let mut supers = match rng.below(2) {
            0 => rank::super_counts(m, &bits),
            _ => rng.words(counts),
        };
        supers.extend(rng.words(LONGER));
        Self {
            index,
            keys,
            occupancy: Fenced::new(rng, &bits),
            supers: Fenced::new(rng, &supers),
        }
    }

    /// An index that can be fed, whose table fills so many pages or nearly, with keys that wait for
    /// all of them.
    fn of_pages(rng: &mut Rng, compact: bool, width: u32, pages: u64, most_keys: u64) -> Self {
        let index = index_of_pages(rng, compact, width, pages);
        let keys = loop {
            let count = 1 + rng.below(most_keys);
            let keys = crossing_keys(rng, index, count);
            if Feed::new(index, &keys).listed().len() as u64 == pages {
                break keys;
            }
        };
        Self::new(rng, index, keys)
    }

    /// An index of many pages and keys that wait for few of them, some for a crossing word alone.
    fn sparse(rng: &mut Rng, compact: bool) -> Self {
        let width = [3, 5, 7, 12, 23, 30, 31][rng.below_usize(7)];
        let pages = 20 + rng.below(20);
        let index = index_of_pages(rng, compact, width, pages);
        let count = 1 + rng.below(4);
        let keys = crossing_keys(rng, index, count);
        Self::new(rng, index, keys)
    }

    /// Every field at an end or near one, or anything; some keys are equal.
    fn hostile(rng: &mut Rng, compact: bool) -> Self {
        let any = rng.edge_u32();
        let (n, m) = (rng.below_usize(6), rng.below_usize(8));
        let width = 1 + rng.below(32) as u32;
        let index = FeedIndex {
            compact: u32::from(compact),
            n: [0, 1, 2, 3, any, u32::MAX][n],
            m: [0, 1, 2, 3, any, u32::MAX, u32::MAX - 1, any % 100_000][m],
            seed: rng.edge_u64(),
            modulus: [0, 1, 2, rng.edge_u32(), u32::MAX][rng.below_usize(5)],
            width: [0, 1, 32, 33, u32::MAX, width, width, width][rng.below_usize(8)],
        };
        let count = rng.below(KEYS + 1) * rng.below(4).min(1);
        let mut keys: Vec<u64> = (0..count).map(|_| rng.edge_u64()).collect();
        if let [first, .., last] = &mut keys[..] {
            *last = *first;
        }
        Self::new(rng, index, keys)
    }

    /// With the needed part of what is lent, and a little more.
    fn case(&self, rng: &mut Rng, calls: Calls) -> Case<'_> {
        let (bytes, counts) = rank::needs(lent_vertices(self.index));
        let longer = rng.below_usize(LONGER + 1);
        self.case_with(calls, bytes + longer, counts + longer)
    }

    fn case_with(&self, calls: Calls, bytes: usize, counts: usize) -> Case<'_> {
        Case {
            calls,
            index: self.index,
            keys: &self.keys,
            occupancy: &self.occupancy.given()[..bytes],
            supers: &self.supers.given()[..counts],
        }
    }
}

/// The number of vertices whose occupancy and super counts are lent to an index: its own, or a few of
/// too many.
fn lent_vertices(index: FeedIndex) -> u32 {
    match index.m {
        0..=LENT_VERTICES => index.m,
        _ => 8,
    }
}

/// An index whose table fills so many pages or nearly. Most have a modulus that is no power of two,
/// and more keys than an answer counts, so that a wrong sum shows.
fn index_of_pages(rng: &mut Rng, compact: bool, width: u32, pages: u64) -> FeedIndex {
    let full = pages * PAGE_BITS / u64::from(width);
    let mut some = || match rng.below(4) {
        0 => rng.edge_u32(),
        _ => rng.next_u32(),
    };
    let (n, modulus) = (some().max(2), some().max(1));
    FeedIndex {
        compact: u32::from(compact),
        n,
        m: (full - rng.below(3)) as u32,
        seed: rng.edge_u64(),
        modulus,
        width,
    }
}

/// So many keys, of which about half meet words that cross to the next page.
fn crossing_keys(rng: &mut Rng, index: FeedIndex, count: u64) -> Vec<u64> {
    let FeedIndex { m, seed, width, .. } = index;
    let crossing = crossing(m, width);
    let key = |_| match rng.below(2) {
        0 if !crossing.is_empty() => crossing_key(rng, index.compact != 0, m, seed, &crossing),
        _ => rng.next_u64(),
    };
    (0..count).map(key).collect()
}

struct Attack<'t> {
    tally: &'t mut Tally,
    rng: &'t mut Rng,
    calls: Calls,
}

impl Attack<'_> {
    fn start<'a>(&mut self, case: Case<'a>, rooms: Rooms) -> Result<Trial<'a>, Difference> {
        let trial = Trial::start(self.tally, self.rng, "bdz_feed_start", case, rooms)?;
        met(self.tally, trial.status);
        Ok(trial)
    }

    /// Starts a feed with room enough.
    fn begin<'a>(&mut self, subject: &'a Subject) -> Result<Trial<'a>, Difference> {
        let rooms = Rooms::enough(self.rng, subject.keys.len());
        let case = subject.case(self.rng, self.calls);
        self.start(case, rooms)
    }

    /// The same for an index that can be fed.
    fn begin_sound<'a>(&mut self, subject: &'a Subject) -> Result<Trial<'a>, Difference> {
        let trial = self.begin(subject)?;
        assert_eq!(trial.status, DONE, "the input is another case");
        Ok(trial)
    }

    fn page(&mut self, trial: &mut Trial, call: PageCall) -> Result<(), Difference> {
        let number = trial.page(self.tally, self.rng, "bdz_feed_page", call)?;
        met(self.tally, number);
        Ok(())
    }

    /// Feeds a page with all that is lent of the feed.
    fn feed(&mut self, trial: &mut Trial, page: u32, bytes: &[u8]) -> Result<(), Difference> {
        let call = trial.page_call(page, bytes);
        self.page(trial, call)
    }

    fn ask(&mut self, trial: &Trial, call: AskCall) -> Result<(), Difference> {
        let asked = trial.ask_with(self.tally, self.rng, "bdz_feed_ask", call)?;
        met(self.tally, asked.err().unwrap_or(DONE));
        Ok(())
    }

    /// Asks for every position.
    fn ask_all(&mut self, trial: &Trial, keys: usize) -> Result<(), Difference> {
        for position in 0..keys as u64 {
            self.ask(trial, trial.ask_call(position))?;
        }
        Ok(())
    }

    /// Asks for positions and with numbers of keys at their ends.
    fn ask_ends(&mut self, trial: &Trial, keys: usize) -> Result<(), Difference> {
        let (own, most) = (keys as u64, u64::from(MOST));
        let last = own.saturating_sub(1);
        let any = self.rng.edge_u64();
        for position in [0, last, own, own + 1, 1 << 32, any, u64::MAX] {
            for keys in [
                own,
                last,
                own + 1,
                0,
                most,
                most + 1,
                u64::MAX / 3 + 1,
                u64::MAX,
            ] {
                let call = trial.ask_call(position);
                self.ask(trial, AskCall { keys, ..call })?;
            }
        }
        Ok(())
    }

    /// Feeds any page, most likely a listed one, of any length, most likely the right one.
    fn any_page(&mut self, trial: &mut Trial) -> Result<(), Difference> {
        let listed = trial.listed();
        let page = match (self.rng.below(8), listed.len()) {
            (0, _) | (_, 0) => self.rng.edge_u32(),
            (1, count) => listed[self.rng.below_usize(count)].wrapping_add(1),
            (2, count) => listed[self.rng.below_usize(count)].wrapping_sub(1),
            (_, count) => listed[self.rng.below_usize(count)],
        };
        let need = trial.page_bytes(page);
        let whole = PAGE_BYTES as usize;
        let wrong = [0, 1, need.saturating_sub(1), need + 1, whole, whole + 1];
        let length = match self.rng.below(3) {
            0 => wrong[self.rng.below_usize(wrong.len())],
            _ => need,
        };
        let bytes = self.rng.bytes(length);
        self.feed(trial, page, &bytes)
    }

    fn any_width(&mut self) -> u32 {
        1 + self.rng.below(32) as u32
    }

    /// Feeds the pages of one index in every order, and asks for every key at every stage. Few pages
    /// have the widest words, whose sums wrap.
    fn every_order(&mut self, compact: bool, pages: u64) -> Result<(), Difference> {
        let width = match pages {
            1 => 32,
            2 => 31,
            _ => self.any_width(),
        };
        let subject = Subject::of_pages(self.rng, compact, width, pages, ORDERED_KEYS);
        let count = subject.keys.len();
        let feed = Feed::new(subject.index, &subject.keys);
        let listed = feed.listed();
        let drawn = |&page: &u32| (page, self.rng.bytes(feed.page_bytes(page)));
        let bytes: BTreeMap<u32, Vec<u8>> = listed.iter().map(drawn).collect();
        for order in orders(&listed) {
            let mut trial = self.begin_sound(&subject)?;
            self.ask_all(&trial, count)?;
            for page in order {
                self.feed(&mut trial, page, &bytes[&page])?;
                self.ask_all(&trial, count)?;
            }
            self.tally.notice("orders of up to five pages");
        }
        Ok(())
    }

    /// The same in one order of more pages, with wrong pages among them.
    fn any_order(&mut self, compact: bool) -> Result<(), Difference> {
        let (width, pages) = (self.any_width(), ORDERED + 1 + self.rng.below(10));
        let subject = Subject::of_pages(self.rng, compact, width, pages, KEYS);
        self.shuffled(&subject)?;
        self.tally.notice("orders of more pages");
        Ok(())
    }

    /// The same where few pages are listed.
    fn sparse(&mut self, compact: bool) -> Result<(), Difference> {
        let subject = Subject::sparse(self.rng, compact);
        self.shuffled(&subject)?;
        self.tally.notice("sparse feeds");
        Ok(())
    }

    fn shuffled(&mut self, subject: &Subject) -> Result<(), Difference> {
        let count = subject.keys.len();
        let mut trial = self.begin_sound(subject)?;
        let mut order = trial.listed();
        self.rng.shuffle(&mut order);
        for page in order {
            self.ask_all(&trial, count)?;
            self.any_page(&mut trial)?;
            let bytes = self.rng.bytes(trial.page_bytes(page));
            for _ in 0..2 {
                self.feed(&mut trial, page, &bytes)?;
            }
        }
        self.ask_all(&trial, count)?;
        self.ask_ends(&trial, count)
    }

    /// Each buffer of each call at every length about its need.
    fn about_needs(&mut self, compact: bool) -> Result<(), Difference> {
        let (width, pages) = (self.any_width(), 1 + self.rng.below(3));
        let subject = Subject::of_pages(self.rng, compact, width, pages, KEYS);
        let count = subject.keys.len();
        self.starts_about_needs(&subject)?;
        let mut rooms = Rooms::exact(count);
        for room in rooms.all_mut() {
            *room += LONGER;
        }
        let case = subject.case_with(
            self.calls,
            subject.occupancy.given().len(),
            subject.supers.given().len(),
        );
        let mut trial = self.start(case, rooms)?;
        self.asks_about_needs(&trial, &subject)?;
        for page in trial.listed() {
            let bytes = self.rng.bytes(trial.page_bytes(page));
            for short in around(3 * count) {
                let enough = trial.page_call(page, &bytes);
                for (order, slots) in [(short, enough.slots), (enough.order, short), (short, 0)] {
                    let call = PageCall {
                        order,
                        slots,
                        ..enough
                    };
                    self.page(&mut trial, call)?;
                }
            }
            self.feed(&mut trial, page, &bytes)?;
            self.asks_about_needs(&trial, &subject)?;
        }
        Ok(())
    }

    fn starts_about_needs(&mut self, subject: &Subject) -> Result<(), Difference> {
        let count = subject.keys.len();
        let case = subject.case(self.rng, self.calls);
        for short in 0..Rooms::COUNT {
            for length in around(*Rooms::exact(count).all_mut()[short]) {
                let mut rooms = Rooms::enough(self.rng, count);
                *rooms.all_mut()[short] = length;
                self.start(case, rooms)?;
            }
        }
        let (bytes, counts) = rank::needs(subject.index.m);
        for length in around(bytes) {
            let case = subject.case_with(self.calls, length, counts);
            let rooms = Rooms::enough(self.rng, count);
            self.start(case, rooms)?;
        }
        Ok(())
    }

    /// Of a feed that is lent `LONGER` more of everything than it needs.
    fn asks_about_needs(&mut self, trial: &Trial, subject: &Subject) -> Result<(), Difference> {
        type Choose = fn(&mut AskLengths) -> &mut usize;
        let count = subject.keys.len();
        let (bytes, counts) = rank::needs(subject.index.m);
        let buffers: [(Choose, usize); 3] = [
            (|lengths| &mut lengths.occupancy, bytes),
            (|lengths| &mut lengths.supers, counts),
            (|lengths| &mut lengths.slots, 3 * count),
        ];
        for position in [0, count as u64 - 1] {
            for (choose, need) in buffers {
                for length in around(need) {
                    let mut call = trial.ask_call(position);
                    *choose(&mut call.lengths) = length;
                    self.ask(trial, call)?;
                }
            }
            for lent in 0..=count {
                let mut call = trial.ask_call(position);
                call.lengths.lent = lent;
                self.ask(trial, call)?;
            }
            for told in 0..3 {
                let call = trial.ask_call(position);
                self.ask(trial, AskCall { told, ..call })?;
            }
        }
        Ok(())
    }

    /// A record that no build makes: a start in buffers of any lengths and one in sound ones, asking,
    /// and pages of all kinds.
    fn hostile(&mut self, compact: bool) -> Result<(), Difference> {
        let subject = Subject::hostile(self.rng, compact);
        let count = subject.keys.len();
        let mut rooms = Rooms::exact(count);
        for room in rooms.all_mut() {
            let lengths = around(*room);
            if self.rng.below(2) == 0 {
                *room = lengths[self.rng.below_usize(lengths.len())];
            }
        }
        let case = subject.case(self.rng, self.calls);
        self.start(case, rooms)?;
        let mut trial = self.begin(&subject)?;
        self.ask_all(&trial, count)?;
        self.ask_ends(&trial, count)?;
        let steps = 4 + self.rng.below(8);
        for _ in 0..steps {
            self.any_page(&mut trial)?;
            self.ask_all(&trial, count)?;
        }
        Ok(())
    }

    /// A caller that writes into the feed's buffers between the calls: they end, and keep to what they
    /// are lent.
    fn altered(&mut self, compact: bool) -> Result<(), Difference> {
        let (width, pages) = (self.any_width(), 1 + self.rng.below(4));
        let subject = Subject::of_pages(self.rng, compact, width, pages, KEYS);
        let mut trial = self.begin_sound(&subject)?;
        for _ in 0..6 {
            trial.alter(self.rng);
            self.any_page(&mut trial)?;
            self.ask_all(&trial, subject.keys.len())?;
        }
        self.tally.notice("altered feeds");
        Ok(())
    }
}
