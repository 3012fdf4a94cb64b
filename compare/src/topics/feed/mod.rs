//! Feeding pages: lists of pages, words and answers beside the Rust's scatter of the same pages, in
//! shuffled orders and, of few pages, in every order; and all that a feed refuses.

mod refusals;
pub mod subject;

use super::build_assigned::different;
use super::builds::{set_of_keys, table_of, SETS};
use super::files::Folder;
use super::images::our_image;
use super::lookup::{drawn, rust_answers};
use super::pack::words;
use super::Topic;
use crate::bdz::{self, BdzMphf};
use crate::model::feed::PAGE_BITS;
use crate::ours::{DONE, MOST, PAGE_GIVEN, PAGE_LENGTH, PAGE_NOT_LISTED, WAITING};
use crate::rng::Rng;
use crate::tally::{listed, Difference, Tally};
use crate::trial::{orders, Calls, Case, Trial};
use crate::uring_session::UringSession;
use crate::IoCtx;
use refusals::{altered, hostile, largest_compact, short_buffers, ALTERED, RECORDS};
use subject::{Feeding, Scatter, Subject};

/// Rounds of everything that is quick.
const ROUNDS: u64 = 12;
/// Every number of keys up to this is fed, for either kind.
const MOST_KEYS: usize = 300;
/// Numbers of keys of built images over that.
const LARGE: [usize; 3] = [1_000, 10_000, 100_000];
/// More pages than this are not fed in every order.
const ORDERED: usize = 6;
/// Keys of a feed that is fed in every order.
const ORDERED_KEYS: usize = 12;
/// Keys that are asked after a page where they are many.
const SOME: usize = 6;
const WIDTHS: u64 = 32;
const BUILT_KEYS: u64 = (MOST_KEYS * (MOST_KEYS + 1) / 2) as u64 + 111_000;

pub const TOPIC: Topic = Topic {
    name: "feed",
    needs: &[
        ("starts", ROUNDS * 2_000),
        ("lists of pages", ROUNDS * 1_600),
        ("pages", ROUNDS * 8_000),
        ("asked unfed", ROUNDS * 1_000),
        ("asked on the way", ROUNDS * 80_000),
        ("asked at the end", 700_000),
        ("waiting beside the Rust", ROUNDS * 80_000),
        ("words", 2_100_000),
        ("answers beside the scatter", 700_000),
        ("answers beside the lookup in memory", 700_000),
        ("answers beside the Rust's file", 320_000),
        ("values found", BUILT_KEYS),
        ("numbers found once", BUILT_KEYS),
        ("feeds of no key or one", ROUNDS * 1_000),
        ("crossing words with the earlier page first", 100_000),
        ("crossing words with the later page first", 100_000),
        ("orders of fewer pages", ROUNDS * 2 * WIDTHS * 24),
        ("orders of five pages", 2 * (4 + 1) * 120),
        ("orders of six pages", 2 * (1 + 1) * 720),
        ("pages not listed", ROUNDS * 20_000),
        ("pages given before", ROUNDS * 9_000),
        ("pages of another length", ROUNDS * 4_000),
        ("buffers of a start too short", ROUNDS * 2 * WIDTHS * 15),
        ("buffers of a page too short", ROUNDS * 2 * WIDTHS * 9),
        ("slots of an asking too short", ROUNDS * 2 * WIDTHS * 12),
        ("no room for the answer", ROUNDS * 2 * WIDTHS * 4),
        ("positions that are not there", ROUNDS * 2 * WIDTHS * 44),
        ("occupancy too short", ROUNDS * WIDTHS * 19),
        ("super counts too short", ROUNDS * WIDTHS * 8),
        ("hostile starts", ROUNDS * 4 * RECORDS),
        ("hostile starts accepted", ROUNDS * RECORDS),
        ("hostile starts with a bad width", ROUNDS * 500),
        ("hostile starts with a zero modulus", ROUNDS * 150),
        ("hostile starts with a short occupancy", ROUNDS * 20),
        ("hostile pages", ROUNDS * 20 * RECORDS),
        ("hostile askings", ROUNDS * 200 * RECORDS),
        ("askings of too many keys", ROUNDS * 10_000),
        ("pages of altered feeds", ROUNDS * 16 * ALTERED),
        ("pages taken by altered feeds", ROUNDS * 100),
        ("askings of altered feeds", ROUNDS * 80 * ALTERED),
        ("answers of altered feeds", ROUNDS * 1_000),
        ("the largest compact index", 160),
    ],
    run,
};

fn run(tally: &mut Tally, rng: &mut Rng) -> Result<(), Difference> {
    let calls = Calls::OURS;
    let folder = Folder::new("feed");
    for _ in 0..ROUNDS {
        once(tally, rng, calls)?;
    }
    for compact in [false, true] {
        for count in 0..=MOST_KEYS {
            let width = 1 + (count as u32 + rng.below(2) as u32) % 32;
            made_feed(tally, rng, calls, compact, width, count)?;
            built_feed(tally, rng, calls, &folder, compact, count)?;
        }
        for count in LARGE {
            built_feed(tally, rng, calls, &folder, compact, count)?;
        }
        for pages in 1..=ORDERED {
            built_orders(tally, rng, calls, compact, pages)?;
        }
        for width in [3, 13, 24, 31] {
            made_orders(tally, rng, calls, compact, width, 5)?;
        }
        made_orders(tally, rng, calls, compact, 30, 6)?;
    }
    largest_compact(tally, rng, calls)
}

/// Everything that is quick, once: enough to show that a call does something else than it should.
pub fn once(tally: &mut Tally, rng: &mut Rng, calls: Calls) -> Result<(), Difference> {
    for compact in [false, true] {
        for width in 1..=WIDTHS as u32 {
            let count = 1 + rng.below_usize(MOST_KEYS);
            made_feed(tally, rng, calls, compact, width, count)?;
            sparse_feed(tally, rng, calls, compact, width)?;
            made_orders(tally, rng, calls, compact, width, 4)?;
            one_key(tally, rng, calls, compact, width)?;
            short_buffers(tally, rng, calls, compact, width)?;
        }
        for _ in 0..ALTERED {
            altered(tally, rng, calls, compact)?;
        }
        hostile(tally, rng, calls, compact)?;
    }
    Ok(())
}

/// Starts a feed of two keys or more, and the Rust's scatter beside it.
fn begin<'a>(
    tally: &mut Tally,
    rng: &mut Rng,
    subject: &Subject,
    case: Case<'a>,
) -> Result<(Trial<'a>, Scatter), Difference> {
    let trial = Trial::begin(tally, rng, "starts", case)?;
    assert_eq!(trial.status, DONE, "the input is another case");
    let scatter = Scatter::new(subject, case.keys);
    let (what, pages) = ("lists of pages", trial.listed());
    tally.same(what, &pages, &scatter.pages, || subject.record.describe())?;
    Ok((trial, scatter))
}

/// Asks for keys: each waits exactly while a page of the Rust's has not come.
fn ask(
    tally: &mut Tally,
    rng: &mut Rng,
    what: &'static str,
    trial: &Trial,
    scatter: &Scatter,
) -> Result<(), Difference> {
    for position in positions(rng, scatter.vertices.len()) {
        let asked = trial.ask(tally, rng, what, position as u64)?;
        let waits = (asked == Err(WAITING), asked.is_ok());
        let rust = scatter.waits(position);
        tally.same("waiting beside the Rust", waits, (rust, !rust), || {
            format!("position {position}, pages {:?}", scatter.came)
        })?;
    }
    Ok(())
}

/// All positions, or some of many.
fn positions(rng: &mut Rng, keys: usize) -> Vec<usize> {
    match keys {
        0..=ORDERED_KEYS => (0..keys).collect(),
        _ => (0..SOME).map(|_| rng.below_usize(keys)).collect(),
    }
}

/// Feeds all pages in this order and asks on the way.
fn feed_pages(
    tally: &mut Tally,
    rng: &mut Rng,
    subject: &Subject,
    trial: &mut Trial,
    scatter: &mut Scatter,
    pages: &[u32],
) -> Result<(), Difference> {
    for &page in pages {
        let bytes = subject.page(page);
        let call = trial.page_call(page, &bytes);
        let status = trial.page(tally, rng, "pages", call)?;
        assert_eq!(status, DONE, "the input is another case");
        notice_crossing(tally, scatter, page);
        scatter.fill(page, &bytes);
        ask(tally, rng, "asked on the way", trial, scatter)?;
    }
    Ok(())
}

/// The counts show that words cross, and that either page of them comes first.
fn notice_crossing(tally: &mut Tally, scatter: &Scatter, page: u32) {
    for &vertex in scatter.vertices.iter().flatten() {
        let mut pages = bdz::vertex_pages(vertex, scatter.width);
        match (pages.next(), pages.next()) {
            (Some(first), Some(next)) if first == page && scatter.came.contains(&next) => {
                tally.notice("crossing words with the later page first");
            }
            (Some(first), Some(next)) if next == page && scatter.came.contains(&first) => {
                tally.notice("crossing words with the earlier page first");
            }
            _ => (),
        }
    }
}

/// After the last page: all words and all answers, also beside the lookup in memory. Answers the
/// answers.
fn whole(
    tally: &mut Tally,
    rng: &mut Rng,
    subject: &Subject,
    trial: &Trial,
    scatter: &Scatter,
    keys: &[u64],
) -> Result<Vec<u32>, Difference> {
    let describe = || format!("{}, {}", subject.record.describe(), listed("keys", keys));
    let (words, rust) = (trial.slot_words(), scatter.words());
    tally.same_all("words", 3 * keys.len(), &words[..], rust, describe)?;
    let mut answers = Vec::new();
    for position in 0..keys.len() {
        let asked = trial.ask(tally, rng, "asked at the end", position as u64)?;
        answers.push(asked.expect("all pages have come"));
    }
    let rust: Vec<u32> = (0..keys.len()).map(|at| scatter.answer(at)).collect();
    let what = "answers beside the scatter";
    tally.same_all(what, keys.len(), &answers, &rust, describe)?;
    if !table_of(&scatter.rust).is_empty() {
        let rust = rust_answers(&scatter.rust, keys);
        let what = "answers beside the lookup in memory";
        tally.same_all(what, keys.len(), &answers, &rust, describe)?;
    }
    Ok(answers)
}

/// A feed of shuffled pages, with wrong ones among them; answers the answers.
fn shuffled_feed(
    tally: &mut Tally,
    rng: &mut Rng,
    calls: Calls,
    subject: &Subject,
    keys: &[u64],
) -> Result<Vec<u32>, Difference> {
    let feeding = Feeding::of(rng, calls, subject, keys);
    let (mut trial, mut scatter) = begin(tally, rng, subject, feeding.case())?;
    ask(tally, rng, "asked unfed", &trial, &scatter)?;
    let mut pages = trial.listed();
    rng.shuffle(&mut pages);
    for step in 0..pages.len() {
        if step < 8 || step + 1 == pages.len() {
            wrong_pages(tally, rng, subject, &mut trial, &pages, step)?;
        }
        let next = &pages[step..=step];
        feed_pages(tally, rng, subject, &mut trial, &mut scatter, next)?;
    }
    let answers = whole(tally, rng, subject, &trial, &scatter, keys)?;
    wrong_pages(tally, rng, subject, &mut trial, &pages, pages.len())?;
    Ok(answers)
}

/// Pages that are refused before this step of a feed: the next one with another length, those that
/// came, and those that nothing waits for.
fn wrong_pages(
    tally: &mut Tally,
    rng: &mut Rng,
    subject: &Subject,
    trial: &mut Trial,
    pages: &[u32],
    step: usize,
) -> Result<(), Difference> {
    let mut refuse = |what, page, bytes: &[u8], meant| {
        let call = trial.page_call(page, bytes);
        let status = trial.page(tally, rng, what, call)?;
        assert_eq!(status, meant, "{what}: the input is another case");
        Ok(())
    };
    if let Some(&next) = pages.get(step) {
        let right = subject.page(next);
        let longer = [&right[..], &[0xa5; bdz::G_PAGE_BYTES]].concat();
        let need = right.len();
        for length in [0, 1, need - 1, need + 1, bdz::G_PAGE_BYTES, longer.len()] {
            if length != need {
                let what = "pages of another length";
                refuse(what, next, &longer[..length], PAGE_LENGTH)?;
            }
        }
    }
    let came = &pages[..step];
    for &given in came.iter().rev().take(2).chain(came.first()) {
        let right = subject.page(given);
        let other: Vec<u8> = right.iter().map(|byte| !byte).collect();
        for bytes in [&right[..], &other, &right[1..], &[]] {
            refuse("pages given before", given, bytes, PAGE_GIVEN)?;
        }
    }
    for page in strange_pages(pages) {
        for length in [0, 1, bdz::G_PAGE_BYTES] {
            let bytes = &[0x5a; bdz::G_PAGE_BYTES][..length];
            refuse("pages not listed", page, bytes, PAGE_NOT_LISTED)?;
        }
    }
    Ok(())
}

/// Pages that are not among these: beside them, past them, and the last that there are numbers for.
fn strange_pages(pages: &[u32]) -> Vec<u32> {
    let least = pages.iter().min().copied().unwrap_or(0);
    let past = pages.iter().max().map_or(0, |last| last + 1);
    let mut strange = vec![past, past + 1, u32::MAX, u32::MAX - 1, 1 << 31];
    strange.push(least.saturating_sub(1));
    strange.extend(pages.iter().take(3).map(|page| page + 1));
    strange.retain(|page| !pages.contains(page));
    strange
}

/// A table of a few pages that no build makes, about the end of a page; words of most widths cross.
fn made_feed(
    tally: &mut Tally,
    rng: &mut Rng,
    calls: Calls,
    compact: bool,
    width: u32,
    count: usize,
) -> Result<(), Difference> {
    let m = some_size(rng, width, 7);
    let subject = Subject::made(rng, compact, width, m);
    let keys = subject.keys(rng, count);
    shuffled_feed(tally, rng, calls, &subject, &keys)?;
    Ok(())
}

/// A number of words that fills up to so many pages, often nearly, just, or with a little more.
fn some_size(rng: &mut Rng, width: u32, pages: u64) -> u32 {
    let full = rng.below(pages + 1) * PAGE_BITS / u64::from(width);
    let m = match rng.below(4) {
        0 => full + rng.below(PAGE_BITS / u64::from(width)),
        1 => full.saturating_sub(rng.below(3)),
        _ => full + rng.below(4),
    };
    m.max(1) as u32
}

/// A table of so many pages that it is not kept, or of few; most of its pages are not listed.
fn sparse_feed(
    tally: &mut Tally,
    rng: &mut Rng,
    calls: Calls,
    compact: bool,
    width: u32,
) -> Result<(), Difference> {
    let m = match (compact, rng.below(3)) {
        (false, 0) => u32::MAX - rng.below(3) as u32,
        (false, _) => rng.any_length_u32().max(1),
        (true, _) => 1 + rng.below(1 << 20) as u32,
    };
    let subject = Subject::sparse(rng, compact, width, m);
    let count = 1 + rng.below_usize(20);
    let keys = subject.keys(rng, count);
    shuffled_feed(tally, rng, calls, &subject, &keys)?;
    Ok(())
}

/// A written image, opened and fed: every key finds what it was built with, and strangers find what
/// they find in memory; so they do in the Rust that has the image as its file.
fn built_feed(
    tally: &mut Tally,
    rng: &mut Rng,
    calls: Calls,
    folder: &Folder,
    compact: bool,
    n: usize,
) -> Result<(), Difference> {
    let set = rng.below(SETS);
    let modulus = match rng.below(2) {
        0 => (n as u32).max(1),
        _ => (n as u32).max(rng.any_length_u32() % MOST) + 1,
    };
    let values = different(rng, n, modulus);
    let (mut keys, record) = match compact {
        true => drawn(rng, n, set, BdzMphf::build_compact),
        false => drawn(rng, n, set, |keys| {
            BdzMphf::build_assigned(keys, &values, modulus)
        }),
    };
    let image = our_image(&record);
    let subject = Subject::opened(&record, &image);
    keys.extend(set_of_keys(rng, 1 + n.min(20), 3));
    let mut found = match n {
        0 | 1 => few(tally, rng, calls, &subject, &keys)?,
        _ => shuffled_feed(tally, rng, calls, &subject, &keys)?,
    };
    let rust = file_answers(rng, folder, compact, &image, &keys);
    let what = "answers beside the Rust's file";
    tally.same_all(what, keys.len(), &found, &rust, || {
        subject.record.describe()
    })?;
    found.truncate(n);
    let (what, meant) = match compact {
        true => {
            found.sort_unstable();
            ("numbers found once", (0..n as u32).collect())
        }
        false => ("values found", values),
    };
    tally.same_all(what, n, found, meant, || subject.record.describe())
}

/// The Rust's answers from its file, whose pages it reads in a drawn order.
fn file_answers(
    rng: &mut Rng,
    folder: &Folder,
    compact: bool,
    image: &[u8],
    keys: &[u64],
) -> Vec<u32> {
    let rust = folder.index(compact, image);
    let mut session = UringSession::new(rng.next_u64());
    let answers = rust.index_batch(keys, &mut IoCtx::with(&mut session));
    answers.expect("the Rust does not refuse")
}

/// A feed of an index of no keys or one, for which the Rust has no scatter: its lookup of a key reads
/// the one word. Answers the answers.
fn few(
    tally: &mut Tally,
    rng: &mut Rng,
    calls: Calls,
    subject: &Subject,
    keys: &[u64],
) -> Result<Vec<u32>, Difference> {
    let feeding = Feeding::of(rng, calls, subject, keys);
    let what = "feeds of no key or one";
    let mut trial = Trial::begin(tally, rng, what, feeding.case())?;
    let rust = rust_answers(&subject.record.rust(), keys);
    let pages: &[u32] = match (subject.record.n, subject.record.compact, keys) {
        (1, false, [_, ..]) => &[0],
        _ => &[],
    };
    tally.same(what, &trial.listed()[..], pages, || {
        subject.record.describe()
    })?;
    for &page in pages {
        for position in 0..keys.len() {
            let asked = trial.ask(tally, rng, what, position as u64)?;
            assert_eq!(asked, Err(WAITING), "the input is another case");
        }
        wrong_pages(tally, rng, subject, &mut trial, pages, 0)?;
        let bytes = subject.page(page);
        let call = trial.page_call(page, &bytes);
        trial.page(tally, rng, what, call)?;
    }
    wrong_pages(tally, rng, subject, &mut trial, pages, pages.len())?;
    let mut answers = Vec::new();
    for position in 0..keys.len() {
        let asked = trial.ask(tally, rng, what, position as u64)?;
        answers.push(asked.expect("all pages have come"));
    }
    tally.same_all(what, keys.len(), &answers, &rust, || {
        subject.record.describe()
    })?;
    Ok(answers)
}

/// One key, or none, with any other numbers: the word is taken from the start of the table whatever m
/// says, and the modulus is not asked.
fn one_key(
    tally: &mut Tally,
    rng: &mut Rng,
    calls: Calls,
    compact: bool,
    width: u32,
) -> Result<(), Difference> {
    for n in [0, 1] {
        let m = rng.below(40) as u32;
        let mut subject = Subject::made(rng, compact, width, m.max(1));
        subject.record.n = n;
        subject.record.m = [0, 1, m, rng.edge_u32()][rng.below_usize(4)];
        subject.record.modulus = [0, 1, rng.edge_u32()][rng.below_usize(3)];
        let (bytes, supers) = (rng.below_usize(3), rng.below_usize(3));
        subject.record.occupancy = rng.bytes(bytes);
        subject.record.supers = words(rng, supers);
        let count = rng.below_usize(8);
        let keys = rng.keys(count);
        few(tally, rng, calls, &subject, &keys)?;
    }
    Ok(())
}

/// Feeds the pages in every order; all keys are asked at every step.
fn every_order(
    tally: &mut Tally,
    rng: &mut Rng,
    calls: Calls,
    subject: &Subject,
    keys: &[u64],
) -> Result<(), Difference> {
    let feeding = Feeding::of(rng, calls, subject, keys);
    for order in orders(&Scatter::new(subject, keys).pages) {
        let (mut trial, mut scatter) = begin(tally, rng, subject, feeding.case())?;
        feed_pages(tally, rng, subject, &mut trial, &mut scatter, &order)?;
        whole(tally, rng, subject, &trial, &scatter, keys)?;
        tally.notice(match order.len() {
            6 => "orders of six pages",
            5 => "orders of five pages",
            _ => "orders of fewer pages",
        });
    }
    Ok(())
}

/// Keys, of those that are drawn, which wait for just so many pages; and for a word that crosses, at
/// widths that let words cross.
fn keys_of_pages(
    rng: &mut Rng,
    subject: &Subject,
    pages: usize,
    draw: impl Fn(&mut Rng) -> Vec<u64>,
) -> Vec<u64> {
    let crosses = |&vertex: &u32| bdz::vertex_pages(vertex, subject.width).count() > 1;
    let can_cross = pages > 1 && !subject.width.is_power_of_two();
    loop {
        let keys = draw(rng);
        let scatter = Scatter::new(subject, &keys);
        let crossing = scatter.vertices.iter().flatten().any(crosses);
        if scatter.pages.len() == pages && crossing == can_cross {
            return keys;
        }
    }
}

/// Of a table that no build makes.
fn made_orders(
    tally: &mut Tally,
    rng: &mut Rng,
    calls: Calls,
    compact: bool,
    width: u32,
    pages: usize,
) -> Result<(), Difference> {
    let full = pages as u64 * PAGE_BITS / u64::from(width);
    let m = full - rng.below(3);
    let subject = Subject::made(rng, compact, width, m as u32);
    let draw = |rng: &mut Rng| subject.keys(rng, ORDERED_KEYS);
    let keys = keys_of_pages(rng, &subject, pages, draw);
    every_order(tally, rng, calls, &subject, &keys)
}

/// Of a written image: the assigned ones have a width at which words cross. Its own keys need not
/// meet such a word, so that half of those that are fed are strangers.
fn built_orders(
    tally: &mut Tally,
    rng: &mut Rng,
    calls: Calls,
    compact: bool,
    pages: usize,
) -> Result<(), Difference> {
    let (all, record) = match compact {
        true => drawn(rng, pages * 12_000, 3, BdzMphf::build_compact),
        false => {
            let n = pages * 800;
            let modulus = MOST - rng.below(1 << 20) as u32;
            let values = different(rng, n, modulus);
            drawn(rng, n, 3, |keys| {
                BdzMphf::build_assigned(keys, &values, modulus)
            })
        }
    };
    let subject = Subject::opened(&record, &our_image(&record));
    let draw = |rng: &mut Rng| {
        let mut keys = subject.keys(rng, ORDERED_KEYS);
        for key in keys.iter_mut().step_by(2) {
            *key = all[rng.below_usize(all.len())];
        }
        keys
    };
    let keys = keys_of_pages(rng, &subject, pages, draw);
    every_order(tally, rng, calls, &subject, &keys)
}
