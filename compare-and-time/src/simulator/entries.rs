//! One reference to a session's memory as numbers: for memory that passes X2 and may hold anything else, what the one-pass
//! list (M1 to M5) and the counts make of the numbers that stand there. A place holds a page p of rank r as
//! r * 65536 + 65535 - p; LFU's rank is the page's count, LRU's is 0.

use super::{first, refusal, Refusal, CAPACITIES, PAGES, REFERENCES};
use crate::musselrung::Session;

/// The largest rank; a count that has come there stays there, as a depth's does at the end of 32 bits.
const LARGEST: u32 = 65_535;

fn place_of(rank: u32, page: u32) -> u32 {
    rank * 65_536 + 65_535 - page
}

/// Order O4: 6, 3.
pub fn faults(before: &Session, page: u32) -> Vec<Refusal> {
    let mut faults = Vec::new();
    if before.references >= REFERENCES as u64 {
        faults.push(refusal(6));
    }
    if page >= PAGES.into() {
        faults.push(refusal(3));
    }
    faults
}

/// The depth, and the memory after the reference.
pub fn reference(before: &Session, page: u32) -> Result<(usize, Session), Refusal> {
    first(&faults(before, page))?;
    let lfu = before.policy == 1;
    let rank = if lfu { u32::from(before.counts[page as usize]) } else { 0 };
    let next_rank = if lfu { LARGEST.min(rank + 1) } else { 0 };
    let old = place_of(rank, page);
    let list = &before.places[..before.length as usize];
    let depth = list.iter().position(|&place| place == old).map_or(0, |at| at + 1);
    // under LRU the carried page always stays, under LFU the larger number does
    let mut next = placed(list, old, place_of(next_rank, page), |carried, here| !lfu || carried > here);
    next.truncate(list.len().max(CAPACITIES.min(before.k as usize)));

    let mut after = before.clone();
    after.length = next.len() as u64;
    after.places[..next.len()].copy_from_slice(&next);
    after.depths[depth] = after.depths[depth].saturating_add(1);
    if lfu {
        after.counts[page as usize] = next_rank as u16;
    }
    after.references += 1;
    Ok((depth, after))
}

/// M1 to M5, before anything is cut off.
fn placed(list: &[u32], old: u32, new: u32, stays: impl Fn(u32, u32) -> bool) -> Vec<u32> {
    let Some((&first, mut below)) = list.split_first() else { return vec![new] };
    let mut next = vec![new];
    let mut carried = first;
    if first == old {
        next.extend(below);
        return next;
    }
    while let Some((&here, rest)) = below.split_first() {
        if here == old {
            break;
        }
        let keep = stays(carried, here);
        next.push(if keep { carried } else { here });
        carried = if keep { here } else { carried };
        below = rest;
    }
    next.push(carried);
    // what stands behind the old place, which is the first of `below` if it was found
    next.extend(below.iter().skip(1));
    next
}

/// The pages that the places in use show, and 0 behind them (A6).
pub fn shown(memory: &Session) -> [u16; CAPACITIES] {
    let mut shown = [0; CAPACITIES];
    for (page, place) in shown.iter_mut().zip(&memory.places[..memory.length as usize]) {
        *page = (65_535 - place % 65_536) as u16;
    }
    shown
}

/// The hits at a capacity, of depths that add up.
pub fn hits(memory: &Session, capacity: u64) -> Result<u64, Refusal> {
    if capacity < 1 || capacity > memory.k {
        return Err(refusal(7));
    }
    Ok(memory.depths[1..=capacity as usize].iter().map(|&times| u64::from(times)).sum())
}
