//! The attack on feeds finds what is wrong, and so does the comparison of feeds with the Rust: each
//! passes a plain feed that stands in for ours, and not the same feed with any one of these faults.

use compare::attack::feeding;
use compare::model::{hash, rank};
use compare::ours::{
    FeedIndex, FeedRoom, Question, BAD_WIDTH, DONE, MOST, NO_ROOM, NO_SUCH_KEY, OCC_TRUNCATED,
    PAGE_GIVEN, PAGE_LENGTH, PAGE_NOT_LISTED, TOO_LARGE, WAITING, ZERO_MODULUS,
};
use compare::rng::Rng;
use compare::tally::{Difference, Tally};
use compare::trial::Calls;

const NO_FAULT: u32 = 0;
/// Takes the first page and nods at the others.
const NODS: u32 = 1;
/// Asks two words of a key whether they have come.
const TWO_WORDS: u32 = 2;
/// Takes the second page of a crossing word as the later one, so that nothing is missing then.
const SECOND_IS_LATER: u32 = 3;
/// Takes the first page of a crossing word as the later one.
const FIRST_IS_LATER: u32 = 4;
/// Reads an unfed word as it is.
const NEVER_WAITS: u32 = 5;
const TAKES_TWICE: u32 = 6;
/// Refuses a page of another length, but has taken it.
const TAKES_AND_REFUSES: u32 = 7;
const TAKES_ANY_LENGTH: u32 = 8;
const TAKES_UNLISTED: u32 = 9;
/// Does not list the second page of a crossing word.
const LISTS_FIRST_PAGES: u32 = 10;
const LISTS_TWICE: u32 = 11;
/// Clears the list to the end of its buffer.
const CLEARS_ALL: u32 = 12;
const NO_ORDER: u32 = 13;
/// Misses 32 bits of every word.
const MISSES_32: u32 = 14;
/// Adds the words without wrapping.
const WIDE_SUM: u32 = 15;
/// Answers up to n.
const UP_TO_N: u32 = 16;
/// Tests the position by the lent keys alone.
const LENT_ALONE: u32 = 17;
/// Does not test the super counts.
const NO_SUPERS: u32 = 18;
/// Tests the width after n = 1.
const WIDTH_LATE: u32 = 19;
/// Tests the zero modulus after the occupancy.
const MODULUS_LATE: u32 = 20;
/// Takes m as it is for one key.
const M_OF_ONE: u32 = 21;
/// Writes the slots before it tests for room.
const SLOTS_EARLY: u32 = 22;
/// Tells the numbers of a refused start.
const TELLS_REFUSED: u32 = 23;
/// Reads the keys into their room before it judges the rest.
const READS_EARLY: u32 = 24;
/// Does not tell zeros where the keys have no room.
const TELLS_NOTHING: u32 = 25;
const FAULTS: u32 = 26;

const PAGE_BITS: u64 = 32_768;

fn common<const FAULT: u32>(index: FeedIndex, keys: u64, occupancy: usize, last: u32) -> u32 {
    let compact = index.compact != 0;
    let bad_width = index.width == 0 || index.width > 32;
    let short = compact && occupancy < index.m.div_ceil(8) as usize;
    let unasked = index.n == 1 && compact;
    if keys == 0 || index.n == 0 || FAULT == WIDTH_LATE && unasked {
        DONE
    } else if bad_width {
        BAD_WIDTH
    } else if unasked {
        DONE
    } else if index.n == 1 {
        last
    } else if FAULT == MODULUS_LATE && short {
        OCC_TRUNCATED
    } else if index.m == 0 || index.modulus == 0 {
        ZERO_MODULUS
    } else if short {
        OCC_TRUNCATED
    } else {
        last
    }
}

fn lists(index: FeedIndex, keys: u64) -> bool {
    keys > 0 && index.n > 0 && !(index.compact != 0 && index.n == 1)
}

fn words<const FAULT: u32>(index: FeedIndex) -> u32 {
    match index.n {
        1 if FAULT == M_OF_ONE => index.m.max(1),
        1 => 1,
        _ => index.m,
    }
}

fn read(keys: &[u8], room: &mut [u64]) {
    for (place, key) in room.iter_mut().zip(keys.chunks_exact(8)) {
        *place = u64::from_le_bytes(key.try_into().unwrap());
    }
}

fn start<const FAULT: u32>(keys: &[u8], index: FeedIndex, occupancy: &[u8], room: FeedRoom) -> u32 {
    let count = keys.len() / 8;
    let need = 3 * count;
    if room.told.len() < 2 {
        return NO_ROOM;
    }
    if room.key_room.len() < count {
        if FAULT != TELLS_NOTHING {
            room.told[..2].fill(0);
        }
        return NO_ROOM;
    }
    if FAULT == READS_EARLY {
        read(keys, room.key_room);
    }
    let missing = match FAULT {
        MISSES_32 => u64::from(u32::MAX),
        _ => (1u64 << index.width.min(32)) - 1,
    };
    if FAULT == SLOTS_EARLY {
        room.slots
            .iter_mut()
            .take(need)
            .for_each(|slot| *slot = missing << 32);
    }
    let short = room.order.len() < need || room.slots.len() < need || room.pages.len() < 2 * need;
    let last = match short {
        _ if count > MOST as usize => TOO_LARGE,
        true => NO_ROOM,
        false => DONE,
    };
    let status = common::<FAULT>(index, count as u64, occupancy.len(), last);
    room.told[..2].fill(0);
    if status == DONE || FAULT == TELLS_REFUSED {
        room.told[0] = count as u64;
    }
    if status == DONE {
        read(keys, room.key_room);
    }
    if status != DONE || !lists(index, count as u64) {
        return status;
    }
    for (at, &key) in room.key_room[..count].iter().enumerate() {
        let compact = index.compact != 0;
        let vertices = hash::vertices(key, index.seed, words::<FAULT>(index), compact);
        for (part, vertex) in vertices.into_iter().enumerate() {
            room.order[3 * at + part] = u64::from(vertex) << 32 | (3 * at + part) as u64;
        }
    }
    if FAULT != NO_ORDER {
        room.order[..need].sort_unstable();
    }
    room.slots[..need].fill(missing << 32);
    let width = u64::from(index.width);
    let mut pages = Vec::new();
    for entry in &room.order[..need] {
        let bit = (entry >> 32) * width;
        pages.push((bit / PAGE_BITS) as u32);
        if FAULT != LISTS_FIRST_PAGES {
            pages.push(((bit + width - 1) / PAGE_BITS) as u32);
        }
    }
    pages.sort_unstable();
    if FAULT != LISTS_TWICE {
        pages.dedup();
    }
    match FAULT {
        CLEARS_ALL => room.pages.fill(0),
        _ => room.pages[..2 * need].fill(0),
    }
    room.pages[..pages.len()].copy_from_slice(&pages);
    room.told[1] = pages.len() as u64;
    DONE
}

/// The bits of a word that stand in a page: how many stand in pages before, and in this one.
fn part(vertex: u64, width: u64, page: u64) -> (u64, u64) {
    let (start, end) = (vertex * width, (vertex + 1) * width);
    let from = start.max(page * PAGE_BITS);
    let to = end.min((page + 1) * PAGE_BITS);
    (from.saturating_sub(start), to.saturating_sub(from))
}

fn page<const FAULT: u32>(
    index: FeedIndex,
    keys: u64,
    page: u32,
    bytes: &[u8],
    order: &[u64],
    slots: &mut [u64],
) -> u32 {
    if keys == 0 || index.n == 0 {
        return PAGE_NOT_LISTED;
    }
    if index.width == 0 || index.width > 32 {
        return BAD_WIDTH;
    }
    if index.compact != 0 && index.n == 1 {
        return PAGE_NOT_LISTED;
    }
    if order.len() as u64 / 3 < keys || slots.len() as u64 / 3 < keys {
        return NO_ROOM;
    }
    let need = 3 * keys as usize;
    let (order, slots) = (&order[..need], &mut slots[..need]);
    let (width, page) = (u64::from(index.width), u64::from(page));
    let mut met = Vec::new();
    for entry in order {
        let (vertex, slot) = (entry >> 32, *entry as u32 as usize);
        let (before, here) = part(vertex, width, page);
        if here > 0 && slot < need {
            met.push((vertex, slot, before, here));
        }
    }
    if met.is_empty() && FAULT != TAKES_UNLISTED {
        return PAGE_NOT_LISTED;
    }
    let lacks = |&(_, slot, before, here): &(u64, usize, u64, u64)| {
        slots[slot] >> (32 + before) & ((1 << here) - 1) > 0
    };
    if !met.iter().any(lacks) && FAULT != TAKES_TWICE && !met.is_empty() {
        return PAGE_GIVEN;
    }
    let table = (u64::from(words::<FAULT>(index)) * width).div_ceil(8);
    let length = table
        .saturating_sub(page * PAGE_BITS / 8)
        .min(PAGE_BITS / 8);
    let refused = bytes.len() as u64 != length;
    if refused && FAULT != TAKES_AND_REFUSES && FAULT != TAKES_ANY_LENGTH {
        return PAGE_LENGTH;
    }
    let fresh = ((1u64 << width) - 1) << 32;
    if FAULT == NODS && slots.iter().any(|&slot| slot != fresh) {
        return DONE;
    }
    for (vertex, slot, before, here) in met {
        for at in before..before + here {
            let bit = (vertex * width + at) % PAGE_BITS;
            let byte = bytes.get(bit as usize / 8).copied().unwrap_or(0);
            slots[slot] &= !(1 << at | 1 << (32 + at));
            slots[slot] |= u64::from(byte >> (bit % 8) & 1) << at;
        }
        let (second, first) = (before > 0, here < width && before == 0);
        if FAULT == SECOND_IS_LATER && second || FAULT == FIRST_IS_LATER && first {
            slots[slot] &= u64::from(u32::MAX);
        }
    }
    match refused && FAULT != TAKES_ANY_LENGTH {
        true => PAGE_LENGTH,
        false => DONE,
    }
}

fn ask<const FAULT: u32>(index: FeedIndex, question: Question, told: &mut [u32]) -> u32 {
    let Question {
        keys,
        lent,
        position,
        occupancy,
        supers,
        slots,
    } = question;
    if told.is_empty() {
        return NO_ROOM;
    }
    told[0] = 0;
    if position >= lent.len() as u64 || FAULT != LENT_ALONE && position >= keys {
        return NO_SUCH_KEY;
    }
    let few = index.compact != 0 && supers.len() < index.m.div_ceil(512) as usize + 1;
    let last = if keys > u64::from(MOST) {
        TOO_LARGE
    } else if (slots.len() as u64) < 3 * keys || few && FAULT != NO_SUPERS {
        NO_ROOM
    } else {
        DONE
    };
    let status = common::<FAULT>(index, keys, occupancy.len(), last);
    if status != DONE || !lists(index, keys) {
        return status;
    }
    let place = 3 * position as usize;
    let Some(own) = slots.get(place..place + 3) else {
        return WAITING;
    };
    let asked = match FAULT {
        TWO_WORDS => &own[..2],
        NEVER_WAITS => &[],
        _ => own,
    };
    if asked.iter().any(|slot| slot >> 32 > 0) {
        return WAITING;
    }
    let words = own.iter().map(|&slot| slot as u32);
    let sum = match FAULT {
        WIDE_SUM => words.map(u64::from).sum(),
        _ => u64::from(words.fold(0, u32::wrapping_add)),
    };
    told[0] = match (index.compact, index.n) {
        (_, 1) => own[0] as u32,
        (0, _) => (sum % u64::from(index.modulus)) as u32,
        _ => {
            let key = lent[position as usize];
            let vertices = hash::vertices(key, index.seed, index.m, true);
            let vertex = vertices[(sum % 3) as usize] as usize;
            let block = vertex / 512;
            let ones = rank::ones(occupancy, 512 * block..vertex);
            let rank = supers
                .get(block)
                .map_or(0, |count| count.wrapping_add(ones));
            match FAULT {
                UP_TO_N => rank.min(index.n),
                _ => rank.min(index.n - 1),
            }
        }
    };
    DONE
}

fn calls<const FAULT: u32>() -> Calls {
    Calls {
        start: start::<FAULT>,
        page: page::<FAULT>,
        ask: ask::<FAULT>,
    }
}

/// What a run finds first, if it finds anything.
type Find = fn(Calls) -> Option<String>;

fn first_found(ended: Result<(), Difference>) -> Option<String> {
    let difference = ended.err()?;
    Some(format!("{}, {}", difference.what, difference.ours))
}

/// One round of the attack.
fn attacked(calls: Calls) -> Option<String> {
    let (mut tally, mut rng) = (Tally::default(), Rng::new(1));
    first_found(feeding::run(&mut tally, &mut rng, calls, 0))
}

/// One round of the comparison.
#[cfg(source_at_hand)]
fn compared(calls: Calls) -> Option<String> {
    let (mut tally, mut rng) = (Tally::default(), Rng::new(1));
    first_found(compare::topics::feed::once(&mut tally, &mut rng, calls))
}

/// The feed without fault passes, and every fault is found.
fn finds_the_faulty(found: Find) {
    assert_eq!(found(calls::<NO_FAULT>()), None);
    let faulty = [
        (NODS, calls::<NODS>()),
        (TWO_WORDS, calls::<TWO_WORDS>()),
        (SECOND_IS_LATER, calls::<SECOND_IS_LATER>()),
        (FIRST_IS_LATER, calls::<FIRST_IS_LATER>()),
        (NEVER_WAITS, calls::<NEVER_WAITS>()),
        (TAKES_TWICE, calls::<TAKES_TWICE>()),
        (TAKES_AND_REFUSES, calls::<TAKES_AND_REFUSES>()),
        (TAKES_ANY_LENGTH, calls::<TAKES_ANY_LENGTH>()),
        (TAKES_UNLISTED, calls::<TAKES_UNLISTED>()),
        (LISTS_FIRST_PAGES, calls::<LISTS_FIRST_PAGES>()),
        (LISTS_TWICE, calls::<LISTS_TWICE>()),
        (CLEARS_ALL, calls::<CLEARS_ALL>()),
        (NO_ORDER, calls::<NO_ORDER>()),
        (MISSES_32, calls::<MISSES_32>()),
        (WIDE_SUM, calls::<WIDE_SUM>()),
        (UP_TO_N, calls::<UP_TO_N>()),
        (LENT_ALONE, calls::<LENT_ALONE>()),
        (NO_SUPERS, calls::<NO_SUPERS>()),
        (WIDTH_LATE, calls::<WIDTH_LATE>()),
        (MODULUS_LATE, calls::<MODULUS_LATE>()),
        (M_OF_ONE, calls::<M_OF_ONE>()),
        (SLOTS_EARLY, calls::<SLOTS_EARLY>()),
        (TELLS_REFUSED, calls::<TELLS_REFUSED>()),
        (READS_EARLY, calls::<READS_EARLY>()),
        (TELLS_NOTHING, calls::<TELLS_NOTHING>()),
    ];
    assert!(faulty.iter().map(|(fault, _)| *fault).eq(1..FAULTS));
    for (fault, calls) in faulty {
        assert!(found(calls).is_some(), "fault {fault} is not found");
    }
}

#[test]
fn the_attack_finds_every_fault() {
    finds_the_faulty(attacked);
}

#[cfg(source_at_hand)]
#[test]
fn the_comparison_finds_every_fault() {
    finds_the_faulty(compared);
}
