//! A session that changes in place. As the library does, each call first tests the numbers that it goes by.

use super::walk::{lowest, page_of, Entries, Pages, LIMIT, PAGES, RANK};

#[derive(Clone, PartialEq, Debug)]
pub struct Session {
    limit: usize,
    list: List,
    depths: [u32; LIMIT + 1],
    accepted: usize,
}

#[derive(Clone, PartialEq, Debug)]
enum List {
    Lru(Pages),
    Lfu(Entries, [u32; PAGES]),
}

impl Session {
    pub fn start(policy: u8, k: usize) -> Result<Session, u8> {
        if policy > 1 {
            return Err(5);
        }
        if k < 1 || k > LIMIT {
            return Err(1);
        }
        let list = if policy == 0 { List::Lru(Pages::new(k)) } else { List::Lfu(Entries::new(k), lowest()) };
        Ok(Session { limit: k, list, depths: [0; LIMIT + 1], accepted: 0 })
    }

    /// The depth, or 0.
    #[inline(never)]
    pub fn reference(&mut self, page: u16) -> Result<usize, u8> {
        if !self.fits() {
            return Err(40);
        }
        if self.accepted >= 4096 {
            return Err(6);
        }
        if usize::from(page) >= PAGES {
            return Err(3);
        }
        let depth = match &mut self.list {
            List::Lru(pages) => pages.shift(page),
            List::Lfu(list, entries) => {
                let entry = &mut entries[usize::from(page)];
                *entry += RANK;
                list.carry(*entry - RANK, *entry)
            }
        };
        self.depths[depth] += 1;
        self.accepted += 1;
        Ok(depth)
    }

    pub fn list(&self) -> Vec<u16> {
        match &self.list {
            List::Lru(pages) => pages.places[..pages.length].to_vec(),
            List::Lfu(list, _) => list.places[..list.length].iter().map(|&entry| page_of(entry)).collect(),
        }
    }

    pub fn accepted(&self) -> usize {
        self.accepted
    }

    fn length(&self) -> usize {
        match &self.list {
            List::Lru(pages) => pages.length,
            List::Lfu(list, _) => list.length,
        }
    }

    #[inline]
    fn fits(&self) -> bool {
        1 <= self.limit && self.limit <= LIMIT && self.length() <= self.limit && self.accepted <= 4096
    }

    fn adds_up(&self) -> bool {
        self.depths.iter().map(|&times| u64::from(times)).sum::<u64>() == self.accepted as u64
    }

    /// Is all of it such as a start and references give?
    #[inline(never)]
    pub fn sound(&self) -> bool {
        if !self.fits() || !self.adds_up() {
            return false;
        }
        let mut seen = [false; PAGES];
        let mut new = |page: u16| seen.get_mut(usize::from(page)).is_some_and(|seen| !std::mem::replace(seen, true));
        match &self.list {
            List::Lru(pages) => {
                let (list, behind) = pages.places.split_at(pages.length);
                list.iter().all(|&page| new(page)) && behind.iter().all(|&page| page == 0)
            }
            List::Lfu(list, entries) => {
                let (list, behind) = list.places.split_at(list.length);
                list.iter().all(|&entry| new(page_of(entry)) && entry == entries[usize::from(page_of(entry))])
                    && behind.iter().all(|&entry| entry == 0)
                    && entries.iter().map(|entry| (entry / RANK) as usize).sum::<usize>() == self.accepted
            }
        }
    }

    pub fn hits(&self, capacity: usize) -> Result<u32, u8> {
        if !self.fits() || !self.adds_up() {
            return Err(40);
        }
        if capacity < 1 || capacity > self.limit {
            return Err(7);
        }
        Ok(self.depths[1..=capacity].iter().sum())
    }

    pub fn misses(&self, capacity: usize) -> Result<u32, u8> {
        Ok(self.accepted as u32 - self.hits(capacity)?)
    }
}
