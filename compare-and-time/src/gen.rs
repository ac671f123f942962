//! Random traces of five kinds, and the lengths, limits and damage that random calls are made with.

use crate::rng::Rng;
use crate::simulator::{CAPACITIES, PAGES, REFERENCES};

#[derive(Clone, Copy, Debug)]
pub enum Kind {
    Uniform,
    Zipf,
    Loop,
    Scan,
    Locality,
}

pub const KINDS: [Kind; 5] = [Kind::Uniform, Kind::Zipf, Kind::Loop, Kind::Scan, Kind::Locality];

/// A trace over the pages 0 to `pages` - 1.
pub fn trace(rng: &mut Rng, kind: Kind, length: usize, pages: usize) -> Vec<u16> {
    match kind {
        Kind::Uniform => (0..length).map(|_| rng.below(pages) as u16).collect(),
        Kind::Zipf => zipf(rng, length, pages),
        // a tenth of the pages, again and again, in an order of its own
        Kind::Loop => {
            let around: Vec<u16> = (0..pages / 10 + 1).map(|_| rng.below(pages) as u16).collect();
            (0..length).map(|i| around[i % around.len()]).collect()
        }
        // page after page
        Kind::Scan => {
            let from = rng.below(pages);
            (0..length).map(|i| ((from + i) % pages) as u16).collect()
        }
        Kind::Locality => locality(rng, length, pages),
    }
}

/// Page i comes with a weight of 1 / (i + 1).
fn zipf(rng: &mut Rng, length: usize, pages: usize) -> Vec<u16> {
    let mut sums = Vec::with_capacity(pages);
    let mut sum = 0;
    for i in 0..pages {
        sum += 1_000_000_000 / (i + 1);
        sums.push(sum);
    }
    (0..length)
        .map(|_| {
            let at = rng.below(sum);
            sums.partition_point(|&s| s <= at) as u16
        })
        .collect()
}

/// Nine references in ten go to one of the last eight pages, the others anywhere.
fn locality(rng: &mut Rng, length: usize, pages: usize) -> Vec<u16> {
    let mut recent: Vec<u16> = Vec::new();
    let mut trace = Vec::with_capacity(length);
    for _ in 0..length {
        if recent.is_empty() || rng.percent(10) {
            recent.insert(0, rng.below(pages) as u16);
            recent.truncate(8);
            trace.push(recent[0]);
        } else {
            trace.push(rng.pick(&recent));
        }
    }
    trace
}

/// Short traces mostly, long ones now and then, the longest sometimes.
pub fn length(rng: &mut Rng) -> usize {
    match rng.below(1000) {
        0..=399 => rng.within(0, 12),
        400..=899 => rng.within(13, 150),
        900..=989 => rng.within(151, 600),
        990..=997 => rng.within(601, REFERENCES),
        _ => REFERENCES,
    }
}

/// Few pages mostly, so that they come again.
pub fn pages(rng: &mut Rng) -> usize {
    match rng.below(10) {
        0..=3 => rng.within(1, 8),
        4..=7 => rng.within(9, 100),
        _ => rng.within(101, PAGES as usize),
    }
}

/// A valid trace of any kind, with page numbers over the whole range.
pub fn any_trace(rng: &mut Rng, length: usize) -> Vec<u16> {
    let (kind, pages) = (rng.pick(&KINDS), pages(rng));
    let offset = rng.below(PAGES as usize - pages + 1) as u16;
    trace(rng, kind, length, pages).iter().map(|&page| page + offset).collect()
}

pub fn limit(rng: &mut Rng) -> usize {
    match rng.below(4) {
        0 => rng.within(1, 5),
        1 => CAPACITIES,
        _ => rng.within(1, CAPACITIES),
    }
}

/// Numbers that are no limit and no capacity: 0, those next to the largest one, and wide ones.
pub const BAD_LIMITS: [usize; 9] =
    [0, CAPACITIES + 1, CAPACITIES + 2, 2 * CAPACITIES, 4 * CAPACITIES, 65_536, 1 << 32, (1 << 32) + 1, usize::MAX];

pub fn bad_limit(rng: &mut Rng) -> usize {
    if rng.percent(10) {
        return rng.next() as usize | 65_536;
    }
    rng.pick(&BAD_LIMITS)
}

pub const BAD_PAGES: [u16; 6] = [PAGES, PAGES + 1, 2 * PAGES, 16_384, 32_768, 65_535];

pub fn bad_page(rng: &mut Rng) -> u16 {
    let any = rng.within(PAGES as usize, 65_535) as u16;
    if rng.percent(10) {
        return any;
    }
    rng.pick(&BAD_PAGES)
}

/// Numbers that are no frame, no bank and no policy, and no page from 1,024 on: cut to 8 or 16 bits nearly all of them would be
/// one.
pub const WIDE: [u32; 10] =
    [256, 257, 256 + 5, 512 + 20, 65_536, 65_536 + 1, 65_536 + 7, (1 << 24) + 2, 1 << 31, u32::MAX];

/// A number that is no page, as wide as a session may be asked for it.
pub fn bad_page_number(rng: &mut Rng) -> u32 {
    let wide = rng.pick(&WIDE[4..]);
    if rng.percent(40) {
        return wide;
    }
    bad_page(rng).into()
}

/// Numbers of references that are too many.
pub const TOO_LONG: [usize; 4] = [REFERENCES + 1, REFERENCES + 2, 2 * REFERENCES, 2 * REFERENCES + 1];

/// Puts one to three bad pages anywhere into a trace that is not empty.
pub fn spoil(rng: &mut Rng, trace: &mut [u16]) {
    for _ in 0..rng.within(1, 3) {
        let at = rng.below(trace.len());
        trace[at] = bad_page(rng);
    }
}
