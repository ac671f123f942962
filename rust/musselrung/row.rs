//! The frame row.

use super::{answer, raw, Answer, FRAMES, SLOTS};

/// The memory of a row; only the library should write it.
#[repr(C)]
#[derive(Clone, PartialEq, Eq, Debug)]
pub struct Row {
    pub front: u64,
    pub held: u64,
    pub slots: [u8; SLOTS],
    pub places: [u8; FRAMES],
    pub states: [u8; FRAMES],
}

type Call = unsafe extern "C" fn(
    *mut [u8; SLOTS],
    *mut [u8; FRAMES],
    *mut [u8; FRAMES],
    *mut u64,
    *mut u64,
    u32,
    *mut u64,
) -> u32;

impl Row {
    /// Memory in which no row was made: every call on it is refused with 40.
    pub const EMPTY: Row = Row { front: 0, held: 0, slots: [0; SLOTS], places: [0; FRAMES], states: [0; FRAMES] };

    /// Makes a fresh row of whatever stands there.
    pub fn fresh(&mut self) {
        let Row { front, held, slots, places, states } = self;
        unsafe { raw::musselrung_row_fresh_parts(slots, places, states, front, held) }
    }

    #[inline]
    fn call(&mut self, function: Call, frame: u32) -> Answer {
        let Row { front, held, slots, places, states } = self;
        answer(|value| unsafe { function(slots, places, states, front, held, frame, value) })
    }

    /// The slots examined by squeezing.
    #[inline]
    pub fn put(&mut self, frame: u32) -> Answer {
        self.call(raw::musselrung_row_put_parts, frame)
    }

    /// The slots examined by squeezing.
    #[inline]
    pub fn touch(&mut self, frame: u32) -> Answer {
        self.call(raw::musselrung_row_touch_parts, frame)
    }

    #[inline]
    pub fn start(&mut self, frame: u32) -> Answer {
        self.call(raw::musselrung_row_start_parts, frame)
    }

    #[inline]
    pub fn end(&mut self, frame: u32) -> Answer {
        self.call(raw::musselrung_row_end_parts, frame)
    }

    #[inline]
    pub fn drop(&mut self, frame: u32) -> Answer {
        self.call(raw::musselrung_row_drop_parts, frame)
    }

    /// The idle frame whose last put or touch came earliest.
    #[inline]
    pub fn victim(&self) -> Answer {
        let Row { front, held, slots, places, states } = self;
        answer(|value| unsafe { raw::musselrung_row_victim_parts(slots, places, states, *front, *held, value) })
    }

    /// Does it pass the test X5?
    #[inline]
    pub fn sound(&self) -> bool {
        let Row { front, held, slots, places, states } = self;
        unsafe { raw::musselrung_row_sound_parts(slots, places, states, *front, *held) == 1 }
    }
}
