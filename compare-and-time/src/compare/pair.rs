//! A row of a library beside one of the simulator: after each call the answer, the slots examined, the victim and the
//! whole memory, and under banks the gates too.

use super::{must, same, Outcome, Tally};
use crate::simulator::banks::{Asked, Banks};
use crate::simulator::memory;
use crate::simulator::row::Call;
use crate::simulator::slots::Slots;
use crate::subject::{self, Answer, Rows};
use std::fmt::Display;

/// The simulator's row is one under banks, which stay open where the library has none; beside it the slots that the
/// memory has to show.
#[derive(Clone)]
pub struct Pair<L> {
    got: L,
    want: Banks,
    slots: Slots,
}

impl<L: Rows> Pair<L> {
    pub fn fresh(tally: &mut Tally) -> Result<Pair<L>, String> {
        let pair = Pair { got: L::fresh(), want: Banks::fresh(), slots: Slots::fresh() };
        pair.compare_state("a fresh row", tally)?;
        Ok(pair)
    }

    pub fn front(&self) -> usize {
        self.want.row.front
    }

    pub fn call(&mut self, call: Call, frame: u32, tally: &mut Tally) -> Outcome {
        let answer = self.got.call(call, frame);
        self.compare(Asked::Frame(call, frame), answer, tally)
    }

    fn compare(&mut self, asked: Asked, (answer, examined): Answer, tally: &mut Tally) -> Outcome {
        tally.note(&self.want.faults(asked));
        let expected = self.want.ask(asked);
        same(asked, answer, expected.map(|_| ()))?;
        same(format_args!("slots examined by {asked}"), examined, expected.unwrap_or(0))?;
        // a refusal leaves the slots, so the memory has to be what it was
        if expected.is_ok() {
            self.slots.follow(asked);
        }
        must(self.slots.front == self.front(), "the simulator's front is the same with slots and without")?;
        self.compare_state(asked, tally)
    }

    fn compare_state(&self, after: impl Display, tally: &mut Tally) -> Outcome {
        let victim = self.want.victim();
        tally.note(victim.err().as_slice());
        same(format_args!("the victim after {after}"), self.got.victim(), victim)?;
        must(self.got.sound(), "what calls make of a fresh row is sound")?;
        let expected = memory::of_row(&self.want.row, &self.slots);
        same(format_args!("the memory after {after}, and asking for a victim"), self.got.memory(), expected)
    }

    /// Puts these frames, and starts a transfer on those that are to be busy by their index here.
    pub fn hold(&mut self, frames: &[u32], busy: fn(usize) -> bool, tally: &mut Tally) -> Outcome {
        for (i, &frame) in frames.iter().enumerate() {
            self.call(Call::Put, frame, tally)?;
            if busy(i) {
                self.call(Call::Start, frame, tally)?;
            }
        }
        Ok(())
    }

    /// Touches these frames, if there are any, until the front is 0.
    pub fn front_to_0(&mut self, frames: &[u32], tally: &mut Tally) -> Outcome {
        while !frames.is_empty() && self.front() > 0 {
            self.call(Call::Touch, frames[self.front() % frames.len()], tally)?;
        }
        Ok(())
    }

    /// Rules W5 and B5, at any moment.
    pub fn examined_few(&self) -> Outcome {
        let row = &self.want.row;
        must(row.examined <= 2 * row.moves, "the sum of the slots examined is at most twice the puts and touches")
    }
}

impl<L: subject::Banks> Pair<L> {
    /// Any of the eight calls.
    pub fn ask(&mut self, asked: Asked, tally: &mut Tally) -> Outcome {
        let answer = self.got.ask(asked);
        self.compare(asked, answer, tally)?;
        must(self.want.off_banks_are_empty(), "no frame of an off bank is held")?;
        self.compare_gates(asked)
    }

    pub fn compare_gates(&self, after: impl Display) -> Outcome {
        let gates = self.want.gates().map(|state| state as u8);
        same(format_args!("the gates after {after}"), self.got.gates(), gates)
    }
}
