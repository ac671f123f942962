//! The plain cache (rules C1 to C3), the policies (Q1 to Q3), and a row of plain caches, one for each capacity.

use super::PAGES;

#[derive(Clone, Copy, PartialEq, Eq, Debug)]
pub enum Policy {
    Lru,
    Lfu,
    Opt,
}

/// Rule L7.
pub fn policy(number: u32) -> Option<Policy> {
    match number {
        0 => Some(Policy::Lru),
        1 => Some(Policy::Lfu),
        2 => Some(Policy::Opt),
        _ => None,
    }
}

/// What is known of each page at one moment.
struct Known {
    last: Vec<usize>,
    count: Vec<usize>,
    next: Vec<Option<usize>>,
}

impl Known {
    /// Is page a of higher priority than page b?
    fn higher(&self, policy: Policy, a: u16, b: u16) -> bool {
        let (i, j) = (a as usize, b as usize);
        match policy {
            Policy::Lru => self.last[i] > self.last[j],
            Policy::Lfu if self.count[i] == self.count[j] => a < b,
            Policy::Lfu => self.count[i] > self.count[j],
            Policy::Opt => match (self.next[i], self.next[j]) {
                (Some(sooner), Some(later)) => sooner < later,
                (Some(_), None) => true,
                (None, Some(_)) => false,
                (None, None) => a < b,
            },
        }
    }
}

struct Cache {
    frames: usize,
    held: Vec<u16>,
}

impl Cache {
    /// One reference; true if it is a hit.
    fn reference(&mut self, page: u16, policy: Policy, known: &Known) -> bool {
        if self.held.contains(&page) {
            return true;
        }
        if self.held.len() == self.frames {
            let mut lowest = 0;
            for i in 1..self.held.len() {
                if known.higher(policy, self.held[lowest], self.held[i]) {
                    lowest = i;
                }
            }
            self.held.swap_remove(lowest);
        }
        self.held.push(page);
        false
    }
}

/// Plain caches of 1 to K frames, each run alone on the same references.
pub struct Caches {
    policy: Policy,
    known: Known,
    caches: Vec<Cache>,
    pub accepted: usize,
    pub hits: Vec<u32>,
}

impl Caches {
    pub fn new(policy: Policy, k: usize) -> Caches {
        let pages = PAGES as usize;
        Caches {
            policy,
            known: Known { last: vec![0; pages], count: vec![0; pages], next: vec![None; pages] },
            caches: (1..=k).map(|frames| Cache { frames, held: Vec::new() }).collect(),
            accepted: 0,
            hits: vec![0; k],
        }
    }

    /// One reference, with the references that come after it. Answers the smallest capacity at which it is a hit, or 0.
    pub fn reference(&mut self, page: u16, future: &[u16]) -> usize {
        let mut smallest = 0;
        for c in (1..=self.caches.len()).rev() {
            if self.caches[c - 1].reference(page, self.policy, &self.known) {
                self.hits[c - 1] += 1;
                smallest = c;
            }
        }
        self.accepted += 1;
        let p = page as usize;
        self.known.last[p] = self.accepted;
        self.known.count[p] += 1;
        if self.policy == Policy::Opt {
            let ahead = future.iter().position(|&q| q == page);
            self.known.next[p] = ahead.map(|d| self.accepted + 1 + d);
        }
        smallest
    }

    /// The pages that the cache of so many frames holds.
    pub fn held(&self, frames: usize) -> &[u16] {
        &self.caches[frames - 1].held
    }

    /// Demand D3 of a list, without a list of our own: the first C, if any, whose first C places do not have exactly the
    /// pages of the cache of C frames (M7: of a shorter list they are all of it). As C rises no place is left open.
    pub fn first_difference(&self, list: &[u16]) -> Option<usize> {
        (1..=self.caches.len()).find(|&c| {
            let (places, held) = (&list[..c.min(list.len())], self.held(c));
            places.len() != held.len() || held.iter().any(|page| !places.contains(page))
        })
    }
}
