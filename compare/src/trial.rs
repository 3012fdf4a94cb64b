//! A feed in dirty buffers, held to the model at every call. The calls are ours, or stand in for
//! them where the comparison itself is tried.

use crate::lent::{flag, lengthened, more, Fenced, KeyBytes, Left, Lent};
use crate::model::feed::{ask_status, page_status, start_status, AskLengths, Feed, StartLengths};
use crate::ours::{
    self, FeedIndex, FeedRoom, Question, DONE, NO_ROOM, PAGE_GIVEN, PAGE_LENGTH, PAGE_NOT_LISTED,
    WAITING,
};
use crate::rng::Rng;
use crate::tally::{listed, Difference, Tally};

type Start = fn(&[u8], FeedIndex, &[u8], FeedRoom) -> u32;
type Page = fn(FeedIndex, u64, u32, &[u8], &[u64], &mut [u64]) -> u32;
type Ask = fn(FeedIndex, Question, &mut [u32]) -> u32;

/// The calls that are compared.
#[derive(Clone, Copy)]
pub struct Calls {
    pub start: Start,
    pub page: Page,
    pub ask: Ask,
}

impl Calls {
    pub const OURS: Self = Self {
        start: ours::feed_start,
        page: ours::feed_page,
        ask: ours::feed_ask,
    };
}

/// What is fed, and what is lent when it is asked.
#[derive(Clone, Copy)]
pub struct Case<'a> {
    pub calls: Calls,
    pub index: FeedIndex,
    pub keys: &'a [u64],
    pub occupancy: &'a [u8],
    pub supers: &'a [u32],
}

impl Case<'_> {
    /// The compact kind has many numbers, and a feed need not keep to one.
    fn index(&self, rng: &mut Rng) -> FeedIndex {
        FeedIndex {
            compact: flag(rng, self.index.compact != 0),
            ..self.index
        }
    }
}

/// How many elements the buffers of a start have.
#[derive(Clone, Copy, Debug)]
pub struct Rooms {
    pub key_room: usize,
    pub order: usize,
    pub slots: usize,
    pub pages: usize,
    pub told: usize,
}

impl Rooms {
    pub const COUNT: usize = 5;
    /// The words of what is told: keys and pages.
    const TOLD: usize = 2;

    pub fn exact(keys: usize) -> Self {
        Self {
            key_room: keys,
            order: 3 * keys,
            slots: 3 * keys,
            pages: 6 * keys,
            told: Self::TOLD,
        }
    }

    /// As much as is needed, or up to 8 more of each.
    pub fn enough(rng: &mut Rng, keys: usize) -> Self {
        let mut rooms = Self::exact(keys);
        for room in rooms.all_mut() {
            *room += more(rng);
        }
        rooms
    }

    pub fn all_mut(&mut self) -> [&mut usize; Self::COUNT] {
        [
            &mut self.key_room,
            &mut self.order,
            &mut self.slots,
            &mut self.pages,
            &mut self.told,
        ]
    }
}

/// What a start is lent, dirty.
struct Buffers {
    key_room: Lent<u64>,
    order: Lent<u64>,
    slots: Lent<u64>,
    pages: Lent<u32>,
    told: Lent<u64>,
}

impl Buffers {
    fn new(rng: &mut Rng, rooms: Rooms) -> Self {
        Self {
            key_room: Lent::new(rng, rooms.key_room),
            order: Lent::new(rng, rooms.order),
            slots: Lent::new(rng, rooms.slots),
            pages: Lent::new(rng, rooms.pages),
            told: Lent::new(rng, rooms.told),
        }
    }

    fn room(&mut self) -> FeedRoom<'_> {
        FeedRoom {
            key_room: self.key_room.given_mut(),
            order: self.order.given_mut(),
            slots: self.slots.given_mut(),
            pages: self.pages.given_mut(),
            told: self.told.given_mut(),
        }
    }

    /// The first element that is not left as it must be, of those buffers that only a start is lent.
    fn fault(&self, keys: &[u64], agreed: &Agreed) -> Option<String> {
        let mut listing = agreed.model.as_ref().map_or(Vec::new(), Feed::listed);
        let told = match agreed.status {
            DONE => [keys.len() as u64, listing.len() as u64],
            _ => [0; Rooms::TOLD],
        };
        if !listing.is_empty() {
            listing.resize(6 * keys.len(), 0);
        }
        let read = match agreed.status {
            DONE => Left::New(keys),
            _ => Left::Untouched,
        };
        let answered = match agreed.untold {
            true => Left::Untouched,
            false => Left::New(&told[..]),
        };
        self.key_room
            .fault("key_room", read)
            .or_else(|| self.told.fault("told", answered))
            .or_else(|| self.pages.fault("pages", Left::New(&listing)))
    }
}

/// What a start must come to.
struct Agreed {
    status: u32,
    /// What is told has no room.
    untold: bool,
    /// None where the start is refused.
    model: Option<Feed>,
}

impl Agreed {
    fn of(case: Case, rooms: Rooms) -> Self {
        let count = case.keys.len();
        let lengths = StartLengths {
            occupancy: case.occupancy.len(),
            order: rooms.order,
            slots: rooms.slots,
            pages: rooms.pages,
        };
        let untold = rooms.told < Rooms::TOLD;
        // The keys come as bytes and need a room of their own, which is tested before all else,
        // together with the room for what is told.
        let status = match untold || rooms.key_room < count {
            true => NO_ROOM,
            false => start_status(case.index, count, lengths),
        };
        Self {
            status,
            untold,
            model: (status == DONE).then(|| Feed::new(case.index, case.keys)),
        }
    }
}

/// A page to feed, the number of keys that is named with it, and how much is lent of the feed.
#[derive(Clone, Copy)]
pub struct PageCall<'a> {
    pub keys: u64,
    pub page: u32,
    pub bytes: &'a [u8],
    pub order: usize,
    pub slots: usize,
}

/// A position to ask for, the number of keys that is named with it, and how much is lent.
#[derive(Clone, Copy, Debug)]
pub struct AskCall {
    pub keys: u64,
    pub position: u64,
    pub lengths: AskLengths,
    pub told: usize,
}

/// A feed after its start.
pub struct Trial<'a> {
    case: Case<'a>,
    /// That of the start.
    pub status: u32,
    /// None where the start was refused.
    model: Option<Feed>,
    order: Lent<u64>,
    slots: Lent<u64>,
    /// What the model says of the order.
    sorted: Vec<u64>,
    /// The keys again.
    lent: Fenced<u64>,
    /// For a report.
    fed: Vec<u32>,
    /// Whether the caller wrote into the feed's buffers.
    altered: bool,
}

impl<'a> Trial<'a> {
    /// Starts a feed with room enough.
    pub fn begin(
        tally: &mut Tally,
        rng: &mut Rng,
        what: &'static str,
        case: Case<'a>,
    ) -> Result<Self, Difference> {
        let rooms = Rooms::enough(rng, case.keys.len());
        Self::start(tally, rng, what, case, rooms)
    }

    /// Starts a feed in dirty buffers of these lengths.
    pub fn start(
        tally: &mut Tally,
        rng: &mut Rng,
        what: &'static str,
        case: Case<'a>,
        rooms: Rooms,
    ) -> Result<Self, Difference> {
        let bytes = KeyBytes::new(rng, case.keys);
        let mut lent = Buffers::new(rng, rooms);
        let index = case.index(rng);
        let status = (case.calls.start)(bytes.given(), index, case.occupancy, lent.room());
        let agreed = Agreed::of(case, rooms);
        let fault = lent.fault(case.keys, &agreed);
        let again = lengthened(rng, case.keys);
        let trial = Self {
            case,
            status: agreed.status,
            sorted: agreed.model.as_ref().map_or(Vec::new(), Feed::order),
            model: agreed.model,
            order: lent.order,
            slots: lent.slots,
            lent: Fenced::new(rng, &again),
            fed: Vec::new(),
            altered: false,
        };
        let fault = fault.or_else(|| trial.fault());
        tally.same(what, (status, fault), (trial.status, None), || {
            format!("{}, the start in buffers {rooms:?}", trial.describe())
        })?;
        Ok(trial)
    }

    /// The pages that the feed waits for, or has had.
    pub fn listed(&self) -> Vec<u32> {
        self.model.as_ref().map_or(Vec::new(), Feed::listed)
    }

    /// The words in the lent slots, three a key.
    pub fn slot_words(&self) -> Vec<[u32; 3]> {
        let slots = &self.slots.given()[..3 * self.case.keys.len()];
        let word = |key: &[u64]| [key[0] as u32, key[1] as u32, key[2] as u32];
        slots.chunks_exact(3).map(word).collect()
    }

    /// The first element of order and slots that is not as it must be.
    fn fault(&self) -> Option<String> {
        let slots = self.model.as_ref().map_or(&[][..], Feed::slots);
        self.order
            .fault("order", Left::New(&self.sorted))
            .or_else(|| self.slots.fault("slots", Left::New(slots)))
    }

    /// A page with all that is lent of the feed.
    pub fn page_call<'b>(&self, page: u32, bytes: &'b [u8]) -> PageCall<'b> {
        PageCall {
            keys: self.case.keys.len() as u64,
            page,
            bytes,
            order: self.order.given().len(),
            slots: self.slots.given().len(),
        }
    }

    /// How many bytes a page has.
    pub fn page_bytes(&self, page: u32) -> usize {
        let model = self.model.as_ref();
        model.map_or(0, |model| model.page_bytes(page))
    }

    /// Feeds a page, and answers the status.
    pub fn page(
        &mut self,
        tally: &mut Tally,
        rng: &mut Rng,
        what: &'static str,
        call: PageCall,
    ) -> Result<u32, Difference> {
        let index = self.case.index(rng);
        let bytes = Fenced::new(rng, call.bytes);
        let early = page_status(index, call.keys, call.order, call.slots);
        let claimed = !self.altered && call.keys == self.case.keys.len() as u64;
        let agreed = match self.model.as_mut().filter(|_| claimed) {
            Some(_) if early != DONE => early,
            Some(model) => model.page(call.page, call.bytes),
            None => return self.unclaimed_page(tally, what, index, call, early),
        };
        let order = &self.order.given()[..call.order];
        let slots = &mut self.slots.given_mut()[..call.slots];
        let status =
            (self.case.calls.page)(index, call.keys, call.page, bytes.given(), order, slots);
        tally.same(what, (status, self.fault()), (agreed, None), || {
            self.describe_page(call)
        })?;
        if agreed == DONE {
            self.fed.push(call.page);
        }
        Ok(agreed)
    }

    /// Where the caller wrote into the buffers, or names other keys, only this is claimed: the call
    /// ends, with a number that a page can have; it keeps to the needed part; refused, it changes
    /// nothing.
    fn unclaimed_page(
        &mut self,
        tally: &mut Tally,
        what: &'static str,
        index: FeedIndex,
        call: PageCall,
        early: u32,
    ) -> Result<u32, Difference> {
        let order_before = self.order.given().to_vec();
        let slots_before = self.slots.given().to_vec();
        let order = &self.order.given()[..call.order];
        let slots = &mut self.slots.given_mut()[..call.slots];
        let status = (self.case.calls.page)(index, call.keys, call.page, call.bytes, order, slots);
        self.altered |= status == DONE;
        let allowed = match early {
            DONE => [DONE, PAGE_NOT_LISTED, PAGE_GIVEN, PAGE_LENGTH].contains(&status),
            _ => status == early,
        };
        let needed = match status {
            DONE => call.keys.saturating_mul(3).min(slots_before.len() as u64) as usize,
            _ => 0,
        };
        let kept = self.order.given() == order_before
            && self.slots.given()[needed..] == slots_before[needed..];
        let fences = self.order.fault("order", Left::Anything);
        let fences = fences.or_else(|| self.slots.fault("slots", Left::Anything));
        let ours = (allowed, kept, fences);
        tally.same(what, ours, (true, true, None), || {
            format!(
                "{}; the feed was altered: the answers are whether the status {status} is one of a \
                 page's, whether what must not change did not, and the first element of a fence \
                 that did",
                self.describe_page(call)
            )
        })?;
        Ok(status)
    }

    /// A position with all that there is to lend.
    pub fn ask_call(&self, position: u64) -> AskCall {
        AskCall {
            keys: self.case.keys.len() as u64,
            position,
            lengths: AskLengths {
                lent: self.lent.given().len(),
                occupancy: self.case.occupancy.len(),
                supers: self.case.supers.len(),
                slots: self.slots.given().len(),
            },
            told: 1,
        }
    }

    /// Asks for a position with all that is needed, and answers what it came to.
    pub fn ask(
        &self,
        tally: &mut Tally,
        rng: &mut Rng,
        what: &'static str,
        position: u64,
    ) -> Result<Result<u32, u32>, Difference> {
        let call = AskCall {
            told: 1 + more(rng),
            ..self.ask_call(position)
        };
        self.ask_with(tally, rng, what, call)
    }

    /// Asks for a position, and answers the answer, or else the refusal.
    pub fn ask_with(
        &self,
        tally: &mut Tally,
        rng: &mut Rng,
        what: &'static str,
        call: AskCall,
    ) -> Result<Result<u32, u32>, Difference> {
        let index = self.case.index(rng);
        let mut told = Lent::new(rng, call.told);
        let status = (self.case.calls.ask)(index, self.question(call), told.given_mut());
        let expected = match ask_status(index, call.keys, call.position, call.lengths) {
            _ if call.told == 0 => Err(NO_ROOM),
            DONE => match self.claimed(call.position) {
                Some(model) => {
                    let Case {
                        occupancy, supers, ..
                    } = self.case;
                    model.answer(call.position as usize, occupancy, supers)
                }
                None => return self.unclaimed_ask(tally, what, call, status, &told),
            },
            early => Err(early),
        };
        let agreed = expected.map_or_else(|refusal| refusal, |_| DONE);
        let answer = [expected.unwrap_or(0)];
        let fault = told.fault("told", Left::New(&answer[..call.told.min(1)]));
        tally.same(what, (status, fault), (agreed, None), || {
            self.describe_ask(call)
        })?;
        Ok(expected)
    }

    /// What is lent with a call.
    fn question(&self, call: AskCall) -> Question<'_> {
        let lengths = call.lengths;
        Question {
            keys: call.keys,
            lent: &self.lent.given()[..lengths.lent],
            position: call.position,
            occupancy: &self.case.occupancy[..lengths.occupancy],
            supers: &self.case.supers[..lengths.supers],
            slots: &self.slots.given()[..lengths.slots],
        }
    }

    /// The model, where it says what a position comes to.
    fn claimed(&self, position: u64) -> Option<&Feed> {
        let claimed = !self.altered && position < self.case.keys.len() as u64;
        self.model.as_ref().filter(|_| claimed)
    }

    /// Where the caller wrote into the slots only this is claimed: the call ends, waits or answers,
    /// and an answer is one that the index can have.
    fn unclaimed_ask(
        &self,
        tally: &mut Tally,
        what: &'static str,
        call: AskCall,
        status: u32,
        told: &Lent<u32>,
    ) -> Result<Result<u32, u32>, Difference> {
        let answer = told.given()[0];
        let FeedIndex {
            compact,
            n,
            modulus,
            ..
        } = self.case.index;
        let allowed = match (status, compact, n) {
            (DONE, _, 0) => answer == 0,
            (DONE, 0, 1) => true,
            (DONE, 0, _) => answer < modulus,
            (DONE, _, _) => answer < n,
            (WAITING, _, _) => answer == 0,
            _ => false,
        };
        let fault = told.fault("told", Left::New(&[answer]));
        tally.same(what, (allowed, fault), (true, None), || {
            format!(
                "{}; the feed was altered: the answers are whether the status {status} with the \
                 answer {answer} can be, and the first word past it that changed",
                self.describe_ask(call)
            )
        })?;
        Ok(match status {
            DONE => Ok(answer),
            _ => Err(status),
        })
    }

    /// Writes into the feed's buffers what no call would, or lends other keys.
    pub fn alter(&mut self, rng: &mut Rng) {
        self.altered = true;
        if rng.below(4) == 0 {
            let others = rng.keys(self.lent.given().len());
            self.lent = Fenced::new(rng, &others);
        }
        let (order, slots) = (self.order.given_mut(), self.slots.given_mut());
        let kind = rng.below(6);
        for buffer in [order, slots] {
            let share = 1 + rng.below(4);
            for word in buffer.iter_mut() {
                match (kind, rng.below(share)) {
                    (0, 0) => *word = rng.next_u64(),
                    (1, 0) => *word = rng.edge_u64(),
                    (2, 0) => *word ^= 1 << rng.below(64),
                    (3, 0) => *word = 0,
                    (4, 0) => *word = u64::MAX,
                    (5, 0) => *word = word.rotate_left(32),
                    _ => (),
                }
            }
            if rng.below(3) == 0 {
                rng.shuffle(buffer);
            }
        }
    }

    fn describe(&self) -> String {
        let Case {
            index,
            keys,
            occupancy,
            supers,
            ..
        } = self.case;
        format!(
            "{index:x?}, {}, {} bytes of occupancy, {} super counts; the answers are the status and \
             the first element of a buffer that is not left as it must be",
            listed("keys", keys),
            occupancy.len(),
            supers.len()
        )
    }

    fn describe_page(&self, call: PageCall) -> String {
        format!(
            "{}, fed with {:?}, then with page {} of {} bytes, for {} keys, in order of {} and \
             slots of {} words",
            self.describe(),
            self.fed,
            call.page,
            call.bytes.len(),
            call.keys,
            call.order,
            call.slots
        )
    }

    fn describe_ask(&self, call: AskCall) -> String {
        format!("{}, fed with {:?}, {call:?}", self.describe(), self.fed)
    }
}

/// All orders of these.
pub fn orders(pages: &[u32]) -> Vec<Vec<u32>> {
    let Some((&first, others)) = pages.split_first() else {
        return vec![Vec::new()];
    };
    let mut all = Vec::new();
    for order in orders(others) {
        for place in 0..=order.len() {
            let mut longer = order.clone();
            longer.insert(place, first);
            all.push(longer);
        }
    }
    all
}
