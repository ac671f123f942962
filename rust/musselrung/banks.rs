//! The row under banks.

use super::{answer, raw, Answer, Row, FRAMES, SLOTS};

/// The memory of a row under banks; only the library should write it.
#[repr(C)]
#[derive(Clone, PartialEq, Eq, Debug)]
pub struct Banks {
    pub row: Row,
    pub gates: [u8; FRAMES],
}

/// A frame call reads the gates, a bank call writes them.
type FrameCall = unsafe extern "C" fn(
    *mut [u8; SLOTS],
    *mut [u8; FRAMES],
    *mut [u8; FRAMES],
    *mut u64,
    *mut u64,
    *const [u8; FRAMES],
    u32,
    *mut u64,
) -> u32;
type BankCall = unsafe extern "C" fn(
    *mut [u8; SLOTS],
    *mut [u8; FRAMES],
    *mut [u8; FRAMES],
    *mut u64,
    *mut u64,
    *mut [u8; FRAMES],
    u32,
    *mut u64,
) -> u32;

impl Banks {
    /// Memory in which no banks were made: every call on it is refused with 40.
    pub const EMPTY: Banks = Banks { row: Row::EMPTY, gates: [0; FRAMES] };

    /// Makes a fresh row under open banks of whatever stands there.
    pub fn fresh(&mut self) {
        let Row { front, held, slots, places, states } = &mut self.row;
        unsafe { raw::musselrung_banks_fresh_parts(slots, places, states, front, held, &mut self.gates) }
    }

    #[inline]
    fn frame_call(&mut self, function: FrameCall, frame: u32) -> Answer {
        let Row { front, held, slots, places, states } = &mut self.row;
        answer(|value| unsafe { function(slots, places, states, front, held, &self.gates, frame, value) })
    }

    #[inline]
    fn bank_call(&mut self, function: BankCall, bank: u32) -> Answer {
        let Row { front, held, slots, places, states } = &mut self.row;
        answer(|value| unsafe { function(slots, places, states, front, held, &mut self.gates, bank, value) })
    }

    /// The slots examined by squeezing.
    #[inline]
    pub fn put(&mut self, frame: u32) -> Answer {
        self.frame_call(raw::musselrung_banks_put_parts, frame)
    }

    /// The slots examined by squeezing.
    #[inline]
    pub fn touch(&mut self, frame: u32) -> Answer {
        self.frame_call(raw::musselrung_banks_touch_parts, frame)
    }

    #[inline]
    pub fn start(&mut self, frame: u32) -> Answer {
        self.frame_call(raw::musselrung_banks_start_parts, frame)
    }

    #[inline]
    pub fn end(&mut self, frame: u32) -> Answer {
        self.frame_call(raw::musselrung_banks_end_parts, frame)
    }

    #[inline]
    pub fn drop(&mut self, frame: u32) -> Answer {
        self.frame_call(raw::musselrung_banks_drop_parts, frame)
    }

    #[inline]
    pub fn close(&mut self, bank: u32) -> Answer {
        self.bank_call(raw::musselrung_banks_close_parts, bank)
    }

    #[inline]
    pub fn cut(&mut self, bank: u32) -> Answer {
        self.bank_call(raw::musselrung_banks_cut_parts, bank)
    }

    #[inline]
    pub fn open(&mut self, bank: u32) -> Answer {
        self.bank_call(raw::musselrung_banks_open_parts, bank)
    }

    /// The idle frame of an open bank whose last put or touch came earliest.
    #[inline]
    pub fn victim(&self) -> Answer {
        let Row { front, held, slots, places, states } = &self.row;
        let gates = &self.gates;
        answer(|value| unsafe {
            raw::musselrung_banks_victim_parts(slots, places, states, *front, *held, gates, value)
        })
    }

    /// Does it pass the test X6?
    #[inline]
    pub fn sound(&self) -> bool {
        let Row { front, held, slots, places, states } = &self.row;
        unsafe { raw::musselrung_banks_sound_parts(slots, places, states, *front, *held, &self.gates) == 1 }
    }
}
