//! The independent simulator, written from docs/RULES.md alone. It shares nothing with the library, its limits neither:
//! it keeps no one-pass list, runs a plain cache for every capacity, and looks ahead for OPT. Slow and plain on purpose.
//! `sound`, `memory` and `entries` speak of memory as it is lent: what passes a test, and what a call makes of it, also where
//! no history has given it.
//!
//! Each call has a function `faults` that lists ALL refusals that apply, in the call's order; the answer is the first
//! (rule A2). So a comparison can also say which refusals it has seen apply at once.

pub mod banks;
pub mod cache;
pub mod entries;
pub mod file;
pub mod marked;
pub mod memory;
pub mod row;
pub mod session;
pub mod slots;
pub mod sound;
pub mod trace;

pub const CAPACITIES: usize = 64; // L1
pub const REFERENCES: usize = 4096; // L2
pub const PAGES: u16 = 1024; // L3: page numbers are below it
pub const FRAMES: u32 = 64; // L4: frame numbers are below it
pub const HELD: usize = 32; // L5
pub const SLOTS: usize = 64; // L6
pub const BANKS: u32 = 4; // L8: bank numbers are below it
pub const IN_BANK: u32 = 16; // L8: frames that lie in a bank

/// Rule A1.
#[derive(Clone, Copy, PartialEq, Eq, Debug)]
pub struct Refusal {
    pub number: u8,
    pub place: usize,
}

pub fn refusal(number: u8) -> Refusal {
    Refusal { number, place: 0 }
}

/// Rule A2: the first of those that apply is given.
pub fn first(faults: &[Refusal]) -> Result<(), Refusal> {
    match faults.first() {
        Some(fault) => Err(*fault),
        None => Ok(()),
    }
}

/// Rule R1.
pub fn bad_limit(k: usize) -> bool {
    k < 1 || k > CAPACITIES
}

/// Rules R3 and A1.
pub fn first_bad_page(references: &[u16]) -> Option<Refusal> {
    let place = references.iter().position(|&page| page >= PAGES)?;
    Some(Refusal { number: 3, place })
}
