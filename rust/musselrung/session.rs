//! One reference after the other, under LRU or LFU.

use super::{answer, raw, Answer, CAPACITIES, DEPTHS, PAGES};

/// The memory of a session; only the library should write it.
#[repr(C)]
#[derive(Clone, PartialEq, Eq, Debug)]
pub struct Session {
    pub k: u64,
    pub length: u64,
    pub references: u64,
    pub places: [u32; CAPACITIES],
    pub depths: [u32; DEPTHS],
    pub counts: [u16; PAGES],
    pub policy: u8,
}

impl Session {
    /// Memory in which no session has started: every call on it is refused with 40.
    pub const EMPTY: Session = Session {
        k: 0,
        length: 0,
        references: 0,
        places: [0; CAPACITIES],
        depths: [0; DEPTHS],
        counts: [0; PAGES],
        policy: 0,
    };

    /// A refused start leaves the memory as it was.
    pub fn start(&mut self, policy: u32, k: u64) -> Answer {
        let s = self;
        // a start tells no value
        answer(|_| unsafe {
            raw::musselrung_session_start_parts(
                policy,
                k,
                &mut s.policy,
                &mut s.k,
                &mut s.length,
                &mut s.references,
                &mut s.places,
                &mut s.depths,
                &mut s.counts,
            )
        })
    }

    /// The depth, or 0 if the page was not in the list.
    #[inline]
    pub fn refer(&mut self, page: u32) -> Answer {
        let Session { k, length, references, places, depths, counts, policy } = self;
        answer(|value| unsafe {
            raw::musselrung_session_refer_parts(*policy, *k, length, references, places, depths, counts, page, value)
        })
    }

    /// The pages in the order of places, 0 behind them; answers how many there are.
    pub fn list(&self, shown: &mut [u16; CAPACITIES]) -> Answer {
        let Session { k, length, references, places, policy, .. } = self;
        answer(|value| unsafe {
            raw::musselrung_session_list_parts(*policy, *k, *length, *references, places, shown, value)
        })
    }

    /// How many references were accepted.
    pub fn references(&self) -> Answer {
        let Session { k, length, references, policy, .. } = self;
        answer(|value| unsafe { raw::musselrung_session_references_parts(*policy, *k, *length, *references, value) })
    }

    pub fn hits(&self, capacity: u64) -> Answer {
        let Session { k, length, references, depths, policy, .. } = self;
        answer(|value| unsafe {
            raw::musselrung_session_hits_parts(*policy, *k, *length, *references, depths, capacity, value)
        })
    }

    pub fn misses(&self, capacity: u64) -> Answer {
        let Session { k, length, references, depths, policy, .. } = self;
        answer(|value| unsafe {
            raw::musselrung_session_misses_parts(*policy, *k, *length, *references, depths, capacity, value)
        })
    }

    /// Does it pass the whole test X4?
    pub fn sound(&self) -> bool {
        let Session { k, length, references, places, depths, counts, policy } = self;
        unsafe { raw::musselrung_session_sound_parts(*policy, *k, *length, *references, places, depths, counts) == 1 }
    }
}
