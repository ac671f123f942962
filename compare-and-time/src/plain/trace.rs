//! Whole traces in one pass, all capacities at once, with the same refusals as the proved count.

use super::walk::{entry, lowest, Entries, Pages, LIMIT, PAGES, RANK};

const REFERENCES: usize = 4096;

/// 0, or the number of the refusal and its place.
#[inline(never)]
pub fn count(trace: &[u16], policy: u8, k: usize, hits: &mut [u32]) -> (u8, usize) {
    if policy > 2 {
        return (5, 0);
    }
    if k < 1 || k > LIMIT {
        return (1, 0);
    }
    if trace.len() > REFERENCES {
        return (2, 0);
    }
    if hits.len() < k {
        return (4, 0);
    }
    if let Some(place) = trace.iter().position(|&page| usize::from(page) >= PAGES) {
        return (3, place);
    }
    let depths = match policy {
        0 => lru(trace, k),
        1 => lfu(trace, k),
        _ => opt(trace, k),
    };
    let mut sum = 0;
    for c in 0..k {
        sum += depths[c + 1];
        hits[c] = sum;
    }
    (0, 0)
}

/// How often each depth occurs; entry 0 counts the references that were not found.
type Depths = [u32; LIMIT + 1];

fn lru(trace: &[u16], k: usize) -> Depths {
    let mut depths = [0; LIMIT + 1];
    let mut list = Pages::new(k);
    for &page in trace {
        depths[list.shift(page)] += 1;
    }
    depths
}

fn lfu(trace: &[u16], k: usize) -> Depths {
    let mut depths = [0; LIMIT + 1];
    let mut list = Entries::new(k);
    let mut entries = lowest();
    for &page in trace {
        let entry = &mut entries[usize::from(page)];
        depths[list.carry(*entry, *entry + RANK)] += 1;
        *entry += RANK;
    }
    depths
}

/// The next reference to each page is found for all references in one backward pass; sooner ranks higher.
fn opt(trace: &[u16], k: usize) -> Depths {
    let mut after = [0; REFERENCES];
    let mut coming = lowest();
    for (i, &page) in trace.iter().enumerate().rev() {
        let page = usize::from(page);
        after[i] = coming[page];
        coming[page] = entry(REFERENCES - i, page);
    }
    let mut depths = [0; LIMIT + 1];
    let mut list = Entries::new(k);
    for (i, &page) in trace.iter().enumerate() {
        depths[list.carry(entry(REFERENCES - i, usize::from(page)), after[i])] += 1;
    }
    depths
}
