//! The slots of the row, as rules W1 to W4 and B2 move frames about in them. No answer is read off them: they are what
//! the row's memory has to show.

use super::banks::{bank_of, Asked, BankCall};
use super::row::Call;
use super::SLOTS;

#[derive(Clone)]
pub struct Slots {
    pub slots: [Option<u32>; SLOTS],
    pub front: usize,
}

impl Slots {
    pub fn fresh() -> Slots {
        Slots { slots: [None; SLOTS], front: SLOTS }
    }

    /// What an accepted call does.
    pub fn follow(&mut self, asked: Asked) {
        match asked {
            Asked::Frame(Call::Put, frame) => self.put(frame),
            Asked::Frame(Call::Touch, frame) => {
                self.empty(frame);
                self.put(frame);
            }
            Asked::Frame(Call::Drop, frame) => self.empty(frame),
            Asked::Bank(BankCall::Cut, bank) => self.cut(bank),
            Asked::Frame(Call::Start | Call::End, _) | Asked::Bank(BankCall::Close | BankCall::Open, _) => {}
        }
    }

    fn put(&mut self, frame: u32) {
        if self.front == 0 {
            self.squeeze();
        }
        self.front -= 1;
        self.slots[self.front] = Some(frame);
    }

    fn squeeze(&mut self) {
        let frames: Vec<u32> = self.slots.iter().flatten().copied().collect();
        self.front = SLOTS - frames.len();
        self.slots = [None; SLOTS];
        for (i, &held) in frames.iter().enumerate() {
            self.slots[self.front + i] = Some(held);
        }
    }

    fn empty(&mut self, frame: u32) {
        let at = self.slots.iter().position(|slot| *slot == Some(frame)).unwrap();
        self.slots[at] = None;
    }

    /// Without a squeeze, and the front stays (B2).
    fn cut(&mut self, bank: u32) {
        for slot in &mut self.slots {
            if slot.is_some_and(|frame| bank_of(frame) == bank) {
                *slot = None;
            }
        }
    }
}
