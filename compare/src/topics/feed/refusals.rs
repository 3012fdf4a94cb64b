//! What a feed refuses, and what it must stand: short buffers, numbers at their ends, and a caller
//! that writes into it.

use super::subject::{Feeding, Subject};
use super::{positions, some_size, WIDTHS};
use crate::bdz;
use crate::lent::shorter;
use crate::model::feed::{page_status, AskLengths};
use crate::model::rank;
use crate::ours::{
    FeedIndex, BAD_WIDTH, DONE, MOST, NO_ROOM, NO_SUCH_KEY, OCC_TRUNCATED, TOO_LARGE, ZERO_MODULUS,
};
use crate::rng::Rng;
use crate::tally::{Difference, Tally};
use crate::topics::lookup::{made, Record};
use crate::topics::pack::words;
use crate::trial::{AskCall, Calls, Case, PageCall, Rooms, Trial};

/// Feeds that are altered in a round, of either kind.
pub const ALTERED: u64 = 150;
/// Hostile records of either kind, each with three numbers of keys.
pub const RECORDS: u64 = 4 * 5 * 6 * 3 * 3;

/// Each buffer of each call too short in turn, and with others that are tested after it.
pub fn short_buffers(
    tally: &mut Tally,
    rng: &mut Rng,
    calls: Calls,
    compact: bool,
    width: u32,
) -> Result<(), Difference> {
    let m = some_size(rng, width, 3);
    let mut subject = Subject::made(rng, compact, width, m);
    if rng.below(8) == 0 && !compact {
        subject.record.n = 1;
    }
    let count = 1 + rng.below_usize(20);
    let keys = subject.keys(rng, count);
    short_starts(tally, rng, calls, &subject, &keys)?;
    short_calls(tally, rng, calls, &subject, &keys)
}

fn short_starts(
    tally: &mut Tally,
    rng: &mut Rng,
    calls: Calls,
    subject: &Subject,
    keys: &[u64],
) -> Result<(), Difference> {
    let feeding = Feeding::of(rng, calls, subject, keys);
    let case = feeding.case();
    for short in 0..Rooms::COUNT {
        let need = *Rooms::exact(keys.len()).all_mut()[short];
        for length in shorter(rng, need) {
            let mut rooms = Rooms::enough(rng, keys.len());
            *rooms.all_mut()[short] = length;
            let what = "buffers of a start too short";
            let trial = Trial::start(tally, rng, what, case, rooms)?;
            assert_eq!(trial.status, NO_ROOM, "{what}: the input is another case");
        }
    }
    if subject.record.compact {
        for length in shorter(rng, rank::needs(subject.record.m).0) {
            let short = Case {
                occupancy: &case.occupancy[..length],
                ..case
            };
            let mut rooms = Rooms::enough(rng, keys.len());
            let lacking = rng.below_usize(Rooms::COUNT);
            if !matches!(lacking, 0 | 4) {
                *rooms.all_mut()[lacking] = 0;
            }
            let what = "occupancy too short";
            let trial = Trial::start(tally, rng, what, short, rooms)?;
            assert_eq!(trial.status, OCC_TRUNCATED, "{what}: another case");
        }
    }
    Ok(())
}

/// Of a feed that is fed with all pages but one, so that a page is there to be refused and keys are
/// there to be answered.
fn short_calls(
    tally: &mut Tally,
    rng: &mut Rng,
    calls: Calls,
    subject: &Subject,
    keys: &[u64],
) -> Result<(), Difference> {
    let feeding = Feeding::of(rng, calls, subject, keys);
    let mut trial = Trial::begin(tally, rng, "starts", feeding.case())?;
    let mut pages = trial.listed();
    rng.shuffle(&mut pages);
    let last = pages.pop().expect("pages are listed");
    for page in pages {
        let bytes = subject.page(page);
        let call = trial.page_call(page, &bytes);
        trial.page(tally, rng, "pages", call)?;
    }
    let bytes = subject.page(last);
    short_pages(tally, rng, &mut trial, last, &bytes, keys.len())?;
    short_asks(tally, rng, &trial, subject, keys.len())?;
    let call = trial.page_call(last, &bytes);
    trial.page(tally, rng, "pages", call)?;
    short_asks(tally, rng, &trial, subject, keys.len())
}

/// The order, the slots or both of a page too short.
fn short_pages(
    tally: &mut Tally,
    rng: &mut Rng,
    trial: &mut Trial,
    page: u32,
    bytes: &[u8],
    count: usize,
) -> Result<(), Difference> {
    for length in shorter(rng, 3 * count) {
        let enough = trial.page_call(page, bytes);
        for call in [
            PageCall {
                order: length,
                ..enough
            },
            PageCall {
                slots: length,
                ..enough
            },
            PageCall {
                order: length,
                slots: length,
                page: rng.next_u32(),
                bytes: &[],
                ..enough
            },
        ] {
            let what = "buffers of a page too short";
            let status = trial.page(tally, rng, what, call)?;
            assert_eq!(status, NO_ROOM, "{what}: the input is another case");
        }
    }
    Ok(())
}

/// Each buffer of an asking too short, and positions that are not there.
fn short_asks(
    tally: &mut Tally,
    rng: &mut Rng,
    trial: &Trial,
    subject: &Subject,
    count: usize,
) -> Result<(), Difference> {
    let mut refuse = |what, call, meant| {
        let asked = trial.ask_with(tally, rng, what, call)?;
        assert_eq!(asked, Err(meant), "{what}: the input is another case");
        Ok(())
    };
    for position in [0, count as u64 - 1] {
        let enough = trial.ask_call(position);
        short_slots(&mut refuse, enough, count)?;
        if subject.record.compact {
            short_ranks(&mut refuse, enough, subject.record.m)?;
        }
        far_positions(&mut refuse, enough, count as u64)?;
    }
    Ok(())
}

/// Asks with a call that is named, and expects this refusal.
type Refuse<'a> = dyn FnMut(&'static str, AskCall, u32) -> Result<(), Difference> + 'a;

/// The call with other lengths.
fn with(mut call: AskCall, change: impl Fn(&mut AskLengths)) -> AskCall {
    change(&mut call.lengths);
    call
}

fn short_slots(refuse: &mut Refuse, enough: AskCall, count: usize) -> Result<(), Difference> {
    let told = AskCall { told: 0, ..enough };
    refuse("no room for the answer", told, NO_ROOM)?;
    for length in [0, 3 * count - 1, 3 * count / 2] {
        let short = with(enough, |lengths| lengths.slots = length);
        refuse("slots of an asking too short", short, NO_ROOM)?;
    }
    Ok(())
}

fn short_ranks(refuse: &mut Refuse, enough: AskCall, m: u32) -> Result<(), Difference> {
    let (bytes, supers) = rank::needs(m);
    for length in [0, supers - 1] {
        let short = with(enough, |lengths| lengths.supers = length);
        refuse("super counts too short", short, NO_ROOM)?;
    }
    let what = "occupancy too short";
    for length in [0, bytes - 1] {
        let short = with(enough, |lengths| lengths.occupancy = length);
        refuse(what, short, OCC_TRUNCATED)?;
        let shorter = with(enough, |lengths| {
            (lengths.occupancy, lengths.supers, lengths.slots) = (length, 0, 0);
        });
        refuse(what, shorter, OCC_TRUNCATED)?;
    }
    Ok(())
}

fn far_positions(refuse: &mut Refuse, enough: AskCall, count: u64) -> Result<(), Difference> {
    let what = "positions that are not there";
    for position in [count, count + 1, u64::MAX, 1 << 32, 1 << 62] {
        let far = AskCall { position, ..enough };
        refuse(what, far, NO_SUCH_KEY)?;
        let bare = with(far, |lengths| {
            (lengths.slots, lengths.occupancy) = (0, 0);
        });
        refuse(what, bare, NO_SUCH_KEY)?;
    }
    let lent = enough.position as usize;
    let few = with(enough, |lengths| lengths.lent = lent);
    refuse(what, few, NO_SUCH_KEY)
}

/// Numbers of keys that are named at feeding and asking and are not those of the start.
fn other_counts(count: usize) -> [u64; 6] {
    let (own, most) = (count as u64, u64::from(MOST));
    [0, own + 3, most, most + 1, u64::MAX, u64::MAX / 3 + 1]
}

/// Every field at its ends, whatever the others are. Too many keys are only told at asking: a start
/// with so many would take 8 GiB of them.
pub fn hostile(
    tally: &mut Tally,
    rng: &mut Rng,
    calls: Calls,
    compact: bool,
) -> Result<(), Difference> {
    for n in [0, 1, 2, u32::MAX] {
        for m in [0, 1, 2, 3, u32::MAX] {
            for width in [0, 1, 31, 32, 33, u32::MAX] {
                for modulus in [0, 1, u32::MAX] {
                    let index = FeedIndex {
                        compact: u32::from(compact),
                        n,
                        m,
                        seed: rng.edge_u64(),
                        modulus,
                        width,
                    };
                    for count in [0, 1, 3] {
                        hostile_feed(tally, rng, calls, index, count)?;
                    }
                }
            }
        }
    }
    Ok(())
}

fn hostile_feed(
    tally: &mut Tally,
    rng: &mut Rng,
    calls: Calls,
    index: FeedIndex,
    count: usize,
) -> Result<(), Difference> {
    let keys: Vec<u64> = (0..count).map(|_| rng.edge_u64()).collect();
    // As much as is needed for a small m, and too little for the largest.
    let (bytes, counts) = rank::needs(index.m.min(8));
    let record = Record {
        occupancy: rng.bytes(bytes),
        supers: words(rng, counts),
        ..made(rng, false, 1)
    };
    let feeding = Feeding::with(rng, calls, index, &record, &keys);
    let case = feeding.case();
    let what = "hostile starts";
    let rooms = hostile_rooms(rng, count);
    Trial::start(tally, rng, what, case, rooms)?;
    let mut trial = Trial::start(tally, rng, what, case, Rooms::exact(count))?;
    tally.notice(match trial.status {
        DONE => "hostile starts accepted",
        BAD_WIDTH => "hostile starts with a bad width",
        ZERO_MODULUS => "hostile starts with a zero modulus",
        OCC_TRUNCATED => "hostile starts with a short occupancy",
        other => panic!("{other} is no refusal of a start with room"),
    });
    hostile_asks(tally, rng, &trial, count)?;
    hostile_pages(tally, rng, &mut trial, count)
}

/// Buffers of which some are too short.
fn hostile_rooms(rng: &mut Rng, count: usize) -> Rooms {
    let mut rooms = Rooms::enough(rng, count);
    for room in rooms.all_mut() {
        if rng.below(6) == 0 {
            *room = rng.below_usize(*room + 1);
        }
    }
    rooms
}

/// Pages for other numbers of keys, and then listed ones and others, of some length and of the right
/// one.
fn hostile_pages(
    tally: &mut Tally,
    rng: &mut Rng,
    trial: &mut Trial,
    count: usize,
) -> Result<(), Difference> {
    let what = "hostile pages";
    for keys in other_counts(count) {
        let call = PageCall {
            keys,
            ..trial.page_call(rng.edge_u32(), &[0; 8])
        };
        trial.page(tally, rng, what, call)?;
    }
    let mut pages = trial.listed();
    pages.extend([0, 1, u32::MAX, rng.edge_u32()]);
    rng.shuffle(&mut pages);
    for page in pages {
        let right = rng.bytes(trial.page_bytes(page));
        let length = rng.below_usize(12);
        for bytes in [&rng.bytes(length)[..], &right] {
            let call = trial.page_call(page, bytes);
            trial.page(tally, rng, what, call)?;
        }
        hostile_asks(tally, rng, trial, count)?;
    }
    Ok(())
}

/// With the right number of keys, and with others.
fn hostile_asks(
    tally: &mut Tally,
    rng: &mut Rng,
    trial: &Trial,
    count: usize,
) -> Result<(), Difference> {
    let own = count as u64;
    let what = "hostile askings";
    let counts = [own, own.saturating_sub(1)].into_iter();
    for keys in counts.chain(other_counts(count)) {
        for position in [0, own.saturating_sub(1), own, rng.edge_u64(), u64::MAX] {
            let call = AskCall {
                keys,
                position,
                ..trial.ask_call(position)
            };
            let asked = trial.ask_with(tally, rng, what, call)?;
            if asked == Err(TOO_LARGE) {
                tally.notice("askings of too many keys");
            }
        }
    }
    Ok(())
}

/// A caller that writes into the buffers of a feed between the calls, or feeds it as one of fewer
/// keys.
pub fn altered(
    tally: &mut Tally,
    rng: &mut Rng,
    calls: Calls,
    compact: bool,
) -> Result<(), Difference> {
    let width = 1 + rng.below(WIDTHS) as u32;
    let m = some_size(rng, width, 3);
    let subject = Subject::made(rng, compact, width, m);
    let count = 1 + rng.below_usize(20);
    let keys = subject.keys(rng, count);
    let feeding = Feeding::of(rng, calls, &subject, &keys);
    let mut trial = Trial::begin(tally, rng, "starts", feeding.case())?;
    let pages = trial.listed();
    for _ in 0..8 {
        if rng.below(3) > 0 {
            trial.alter(rng);
        }
        altered_page(tally, rng, &mut trial, subject.index(), &pages, count)?;
        for position in positions(rng, count) {
            let asked = trial.ask(tally, rng, "askings of altered feeds", position as u64)?;
            if asked.is_ok() {
                tally.notice("answers of altered feeds");
            }
        }
    }
    Ok(())
}

/// A page of an altered feed: listed or not, of the right length or not, and perhaps for fewer keys.
fn altered_page(
    tally: &mut Tally,
    rng: &mut Rng,
    trial: &mut Trial,
    index: FeedIndex,
    pages: &[u32],
    count: usize,
) -> Result<(), Difference> {
    let page = match rng.below(6) {
        0 => rng.edge_u32(),
        1 => rng.below(12) as u32,
        _ => pages[rng.below_usize(pages.len())],
    };
    let length = match rng.below(4) {
        0 => rng.below_usize(bdz::G_PAGE_BYTES + 2),
        _ => trial.page_bytes(page),
    };
    let bytes = rng.bytes(length);
    let mut call = trial.page_call(page, &bytes);
    if rng.below(4) == 0 {
        call.keys = 1 + rng.below(count as u64);
    }
    let early = page_status(index, call.keys, call.order, call.slots);
    assert_eq!(early, DONE, "the input is another case");
    if trial.page(tally, rng, "pages of altered feeds", call)? == DONE {
        tally.notice("pages taken by altered feeds");
    }
    Ok(())
}

/// The occupancy of the largest m takes half a GiB, which is never written and so takes no memory.
pub fn largest_compact(tally: &mut Tally, rng: &mut Rng, calls: Calls) -> Result<(), Difference> {
    let m = u32::MAX;
    let (bytes, counts) = rank::needs(m);
    let (occupancy, supers) = (vec![0; bytes], vec![0; counts]);
    for width in [1, 2, 31, 32] {
        let index = FeedIndex {
            compact: 1,
            n: u32::MAX,
            m,
            seed: rng.next_u64(),
            modulus: 1,
            width,
        };
        let keys = rng.keys(8);
        let whole = Case {
            calls,
            index,
            keys: &keys,
            occupancy: &occupancy,
            supers: &supers,
        };
        largest_feed(tally, rng, whole)?;
    }
    Ok(())
}

/// Refused with a byte less, fed with every page, and every key asked, with a super count less too.
fn largest_feed(tally: &mut Tally, rng: &mut Rng, whole: Case) -> Result<(), Difference> {
    let what = "the largest compact index";
    let short = Case {
        occupancy: &whole.occupancy[1..],
        ..whole
    };
    let refused = Trial::begin(tally, rng, what, short)?;
    assert_eq!(refused.status, OCC_TRUNCATED, "{what}");
    let mut trial = Trial::begin(tally, rng, what, whole)?;
    assert_eq!(trial.status, DONE, "{what}");
    for page in trial.listed() {
        let bytes = rng.bytes(trial.page_bytes(page));
        let call = trial.page_call(page, &bytes);
        trial.page(tally, rng, what, call)?;
    }
    for position in 0..whole.keys.len() as u64 {
        let mut short = trial.ask_call(position);
        short.lengths.supers -= 1;
        let asked = trial.ask_with(tally, rng, what, short)?;
        assert_eq!(asked, Err(NO_ROOM), "{what}");
        let asked = trial.ask(tally, rng, what, position)?;
        assert!(asked.is_ok(), "{what}");
    }
    Ok(())
}
