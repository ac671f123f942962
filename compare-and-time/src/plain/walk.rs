//! One reference to a list in place: LRU by find and shift over pages, and the carrying walk over entries for the others.

pub const LIMIT: usize = 64;
pub const PAGES: usize = 1024;

/// The list under LRU: pages alone.
#[derive(Clone, PartialEq, Debug)]
pub struct Pages {
    pub places: [u16; LIMIT],
    pub length: usize,
    limit: usize,
}

impl Pages {
    pub fn new(limit: usize) -> Pages {
        Pages { places: [0; LIMIT], length: 0, limit }
    }

    /// The page moves to place 1 and those before it shift. Answers the depth, or 0.
    #[inline]
    pub fn shift(&mut self, page: u16) -> usize {
        let length = self.length;
        let found = self.places[..length].iter().position(|&q| q == page);
        let moved = match found {
            Some(at) => at,
            None if length < self.limit => {
                self.length = length + 1;
                length
            }
            None => length - 1,
        };
        self.places.copy_within(0..moved, 1);
        self.places[0] = page;
        found.map_or(0, |at| at + 1)
    }
}

/// The list under any other policy: entries, of which the larger stays. Only the referenced page's entry ever changes.
#[derive(Clone, PartialEq, Debug)]
pub struct Entries {
    pub places: [u32; LIMIT],
    pub length: usize,
    limit: usize,
}

impl Entries {
    pub fn new(limit: usize) -> Entries {
        Entries { places: [0; LIMIT], length: 0, limit }
    }

    /// A reference to the page whose entry was `old` and is `new` from now on. Answers the depth, or 0.
    #[inline]
    pub fn carry(&mut self, old: u32, new: u32) -> usize {
        let length = self.length;
        let mut carried = new;
        if length > 0 {
            carried = std::mem::replace(&mut self.places[0], new);
            if carried == old {
                return 1;
            }
        }
        for (i, place) in self.places[..length].iter_mut().enumerate().skip(1) {
            let here = *place;
            if here == old {
                *place = carried;
                return i + 1;
            }
            *place = carried.max(here);
            carried = carried.min(here);
        }
        if length < self.limit {
            self.places[length] = carried;
            self.length = length + 1;
        }
        0
    }
}

/// A rank and, below it, the tie rule: the smaller page number is higher.
#[inline]
pub fn entry(rank: usize, page: usize) -> u32 {
    (rank * PAGES + (PAGES - 1 - page)) as u32
}

/// What one rank more adds to an entry.
pub const RANK: u32 = PAGES as u32;

pub fn page_of(entry: u32) -> u16 {
    (RANK - 1 - entry % RANK) as u16
}

/// The entries of pages that all have rank 0.
pub fn lowest() -> [u32; PAGES] {
    std::array::from_fn(|page| entry(0, page))
}
