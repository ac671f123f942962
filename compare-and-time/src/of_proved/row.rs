//! The proved library's row.

use super::{done, examined, found};
use crate::musselrung::Row;
use crate::simulator::row::Call;
use crate::simulator::Refusal;
use crate::subject::{Answer, Memory, Rows};

/// What a row's memory has before the library makes it a fresh row.
pub const CLUTTERED: Row = Row { slots: [9; 64], places: [9; 64], states: [9; 64], front: 9, held: 9 };

impl Rows for Row {
    fn fresh() -> Row {
        let mut row = CLUTTERED;
        row.fresh();
        row
    }

    #[inline]
    fn call(&mut self, call: Call, frame: u32) -> Answer {
        match call {
            Call::Put => examined(self.put(frame)),
            Call::Touch => examined(self.touch(frame)),
            Call::Start => (done(self.start(frame)), 0),
            Call::End => (done(self.end(frame)), 0),
            Call::Drop => (done(self.drop(frame)), 0),
        }
    }

    #[inline]
    fn victim(&self) -> Result<u32, Refusal> {
        found(self.victim()).map(|frame| frame as u32)
    }

    #[inline]
    fn sound(&self) -> bool {
        self.sound()
    }

    fn memory(&self) -> Memory {
        self.clone()
    }
}
