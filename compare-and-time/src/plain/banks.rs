//! A row under banks that changes in place. As the library does, each call first tests what stands there.

use super::row::{Row, PUT, START};
use crate::subject::Memory;

const BANKS: usize = 4;
const IN_BANK: usize = 16;

const OFF: u8 = 0;
const OPEN: u8 = 1;
const CLOSING: u8 = 2;

#[derive(Clone)]
pub struct Banks {
    row: Row,
    states: [u8; BANKS],
}

impl Banks {
    pub fn new() -> Banks {
        Banks { row: Row::new(), states: [OPEN; BANKS] }
    }

    /// The slots examined, or the number of the refusal.
    #[inline(never)]
    pub fn call(&mut self, call: usize, frame: u8) -> Result<usize, u8> {
        self.test()?;
        if call == PUT || call == START {
            // a number that is no frame has no bank, and the row refuses it
            if self.states.get(usize::from(frame) / IN_BANK).is_some_and(|&state| state != OPEN) {
                return Err(33);
            }
        }
        self.row.step(call, frame)
    }

    #[inline(never)]
    pub fn close(&mut self, bank: u8) -> Result<(), u8> {
        self.test()?;
        let state = self.state(bank)?;
        if *state != OPEN {
            return Err(30);
        }
        *state = CLOSING;
        Ok(())
    }

    #[inline(never)]
    pub fn cut(&mut self, bank: u8) -> Result<(), u8> {
        self.test()?;
        if *self.state(bank)? != CLOSING {
            return Err(30);
        }
        let bank = usize::from(bank);
        let frames = bank * IN_BANK..(bank + 1) * IN_BANK;
        if self.row.any_busy(frames.clone()) {
            return Err(31);
        }
        self.row.leave(frames);
        self.states[bank] = OFF;
        Ok(())
    }

    #[inline(never)]
    pub fn open(&mut self, bank: u8) -> Result<(), u8> {
        self.test()?;
        let state = self.state(bank)?;
        if *state == OPEN {
            return Err(30);
        }
        *state = OPEN;
        Ok(())
    }

    /// Can fresh banks and calls give what stands here?
    #[inline(never)]
    pub fn sound(&self) -> bool {
        self.is_sound()
    }

    #[inline(always)]
    fn is_sound(&self) -> bool {
        let empty = |bank: usize| !self.row.any_held(bank * IN_BANK..(bank + 1) * IN_BANK);
        let fits = |bank: usize| self.states[bank] <= CLOSING && (self.states[bank] != OFF || empty(bank));
        self.row.is_sound() && (0..BANKS).all(fits)
    }

    #[inline(always)]
    fn test(&self) -> Result<(), u8> {
        if self.is_sound() {
            Ok(())
        } else {
            Err(40)
        }
    }

    fn state(&mut self, bank: u8) -> Result<&mut u8, u8> {
        self.states.get_mut(usize::from(bank)).ok_or(32)
    }

    /// The idle frame of an open bank that is nearest the old end, or the number of the refusal.
    #[inline(never)]
    pub fn victim(&self) -> Result<u8, u8> {
        self.test()?;
        self.row.victim_among(|frame| self.states[usize::from(frame) / IN_BANK] == OPEN)
    }

    pub fn memory(&self) -> Memory {
        self.row.memory()
    }

    /// For each frame the state of its bank.
    pub fn gates(&self) -> [u8; 64] {
        std::array::from_fn(|frame| self.states[frame / IN_BANK])
    }
}
