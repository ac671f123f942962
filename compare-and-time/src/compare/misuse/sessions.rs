//! Memory that is no session, or only just: zeros, noise, what references give, and those with one thing wrong, or overwritten
//! in part.

use super::bytes::{noise, overwritten};
use crate::gen;
use crate::musselrung::Session;
use crate::rng::Rng;
use crate::simulator::entries;

pub fn made(rng: &mut Rng) -> Session {
    let mut memory = called(rng);
    match rng.below(20) {
        0 => return noise(rng, &memory),
        1 | 2 => return memory,
        3..=5 => {
            let other = called(rng);
            return overwritten(rng, memory, &other);
        }
        6..=8 => spoil(rng, &mut memory),
        _ => {}
    }
    spoil(rng, &mut memory);
    memory
}

/// What references give, by the numbers.
fn called(rng: &mut Rng) -> Session {
    let policy = rng.below(2) as u8;
    let mut memory = Session { policy, k: gen::limit(rng) as u64, ..Session::EMPTY };
    let length = rng.pick(&[0, 1, 10, 60, 100]);
    for page in gen::any_trace(rng, length) {
        memory = entries::reference(&memory, page.into()).unwrap().1;
    }
    memory
}

/// One thing is changed; now and then what comes of it is sound as well.
fn spoil(rng: &mut Rng, s: &mut Session) {
    let (k, length, references) = (s.k, s.length, s.references);
    let wide = rng.pick(&[64, 65, 4095, 4096, 4097, 1 << 32, u64::MAX]);
    match rng.below(16) {
        0 => s.policy = rng.pick(&[0, 1, 2, 3, 255]),
        1 => s.k = rng.pick(&[0, 1, k - 1, k + 1, length, length.wrapping_sub(1), (1 << 32) + k, wide]),
        2 => s.length = rng.pick(&[0, k, k + 1, length + 1, length.wrapping_sub(1), (1 << 32) + length, wide]),
        3 => s.references = rng.pick(&[0, references + 1, references.wrapping_sub(1), (1 << 32) + references, wide]),
        4 => accept(s, rng.pick(&[4095, 4096, 4097, 5000])),
        5 => {
            let any = rng.below(65);
            let at = rng.pick(&[0, 1, 2, any]);
            s.depths[at] = rng.pick(&[s.depths[at] ^ 1, s.depths[at].wrapping_sub(1), 0, u32::MAX, u32::MAX - 1]);
        }
        6 => {
            // they add up again where a sum goes round at the end of 32 bits
            let (a, b) = (rng.below(65), rng.below(65));
            let more = rng.pick(&[1, 7, 1 << 31, u32::MAX]);
            s.depths[a] = s.depths[a].wrapping_add(more);
            s.depths[b] = s.depths[b].wrapping_sub(more);
        }
        7..=9 => count(rng, s),
        _ => place(rng, s),
    }
}

/// So many references, with depths and, under LFU, counts that add up to them.
fn accept(s: &mut Session, references: u64) {
    let more = references.saturating_sub(s.references) as u32;
    s.references += u64::from(more);
    s.depths[0] += more;
    if s.policy == 1 {
        // of a page that no list has
        let away = |&page: &usize| s.places.iter().all(|place| 65_535 - place % 65_536 != page as u32);
        let page = (0..1024).find(away).unwrap();
        s.counts[page] += more as u16;
    }
}

/// A count is changed: of a page of the list with its place or without, or of another one.
fn count(rng: &mut Rng, s: &mut Session) {
    let at = rng.below(64);
    let listed = (65_535 - s.places[at] % 65_536) as usize;
    let page = if rng.percent(60) && listed < 1024 { listed } else { rng.below(1024) };
    let count = s.counts[page];
    let changed = rng.pick(&[count.wrapping_add(1), count.wrapping_sub(1), 0, 65_535, 65_534]);
    s.counts[page] = changed;
    if page == listed && rng.percent(50) {
        s.places[at] = u32::from(changed) * 65_536 + 65_535 - page as u32;
    }
    if rng.percent(50) {
        // and of another page the other way, so that they add up again
        let other = rng.below(1024);
        s.counts[other] = s.counts[other].wrapping_add(count).wrapping_sub(changed);
    }
}

/// A place is changed: its page, its count, to what another one has, behind those in use, or with another one.
fn place(rng: &mut Rng, s: &mut Session) {
    let used = (s.length.min(64) as usize).max(1);
    let (at, other, behind) = (rng.below(used), rng.below(used), rng.within(used - 1, 63));
    let any = rng.below(1024) as u32;
    let page = rng.pick(&[1024, 1025, 2048, 65_535, any]);
    match rng.below(6) {
        0 => s.places[at] = s.places[at] / 65_536 * 65_536 + 65_535 - page,
        1 => s.places[at] = s.places[at].wrapping_add(rng.pick(&[65_536, 131_072, u32::MAX - 65_535])),
        2 => s.places[at] = s.places[other],
        3 => s.places[behind] = rng.pick(&[1, 65_535, 65_536, u32::MAX, s.places[at]]),
        4 => s.places.swap(at, other),
        _ => s.places[at] = rng.next() as u32,
    }
}
