//! The row under banks (rules L8, B1 to B6, O7, O8): the state of each bank, over the row as states and moments. A row
//! by itself is one whose banks stay open.

use super::row::{Call, Row, State};
use super::{first, refusal, Refusal, BANKS, FRAMES, IN_BANK};
use std::fmt;

#[derive(Clone, Copy, PartialEq, Eq, Debug)]
pub enum BankCall {
    Close,
    Cut,
    Open,
}

pub const BANK_CALLS: [BankCall; 3] = [BankCall::Close, BankCall::Cut, BankCall::Open];

/// One of the eight calls, and the number of a frame or of a bank.
#[derive(Clone, Copy, Debug)]
pub enum Asked {
    Frame(Call, u32),
    Bank(BankCall, u32),
}

impl From<(Call, u32)> for Asked {
    fn from((call, frame): (Call, u32)) -> Asked {
        Asked::Frame(call, frame)
    }
}

impl fmt::Display for Asked {
    fn fmt(&self, to: &mut fmt::Formatter) -> fmt::Result {
        match self {
            Asked::Frame(call, frame) => write!(to, "{call:?} of frame {frame}"),
            Asked::Bank(call, bank) => write!(to, "{call:?} of bank {bank}"),
        }
    }
}

#[derive(Clone, Copy, PartialEq, Eq, Debug)]
pub enum BankState {
    Off = 0,
    Open = 1,
    Closing = 2,
}

/// Rule L8, of a number that is a frame.
pub fn bank_of(frame: u32) -> u32 {
    frame / IN_BANK
}

#[derive(Clone)]
pub struct Banks {
    pub row: Row,
    states: [BankState; BANKS as usize],
}

impl Banks {
    /// Rule B1.
    pub fn fresh() -> Banks {
        Banks { row: Row::fresh(), states: [BankState::Open; BANKS as usize] }
    }

    /// A row whose banks are in these states.
    pub fn standing(row: Row, states: [BankState; BANKS as usize]) -> Banks {
        Banks { row, states }
    }

    /// A number that is no bank has no state: it is neither open nor closing.
    fn state(&self, bank: u32) -> Option<BankState> {
        self.states.get(bank as usize).copied()
    }

    fn in_open_bank(&self, frame: u32) -> bool {
        self.state(bank_of(frame)) == Some(BankState::Open)
    }

    pub fn faults(&self, asked: Asked) -> Vec<Refusal> {
        match asked {
            Asked::Frame(call, frame) => self.frame_faults(call, frame),
            Asked::Bank(call, bank) => self.bank_faults(call, bank),
        }
    }

    /// Order O7: 20, then 33, then the state table W6, then 25. A number that is no frame lies in no bank, so 20 and 33
    /// never apply at once, and 33 comes before all that the row has against the call.
    fn frame_faults(&self, call: Call, frame: u32) -> Vec<Refusal> {
        let mut faults = Vec::new();
        if matches!(call, Call::Put | Call::Start) && frame < FRAMES && !self.in_open_bank(frame) {
            faults.push(refusal(33));
        }
        faults.extend(self.row.faults(call, frame));
        faults
    }

    /// Order O8: 32, 30, 31.
    fn bank_faults(&self, call: BankCall, bank: u32) -> Vec<Refusal> {
        let mut faults = Vec::new();
        if bank >= BANKS {
            faults.push(refusal(32));
        }
        let state = self.state(bank);
        let fits = match call {
            BankCall::Close => state == Some(BankState::Open),
            BankCall::Cut => state == Some(BankState::Closing),
            BankCall::Open => state != Some(BankState::Open),
        };
        if !fits {
            faults.push(refusal(30));
        }
        let busy = |(frame, state)| bank_of(frame) == bank && state == State::Busy;
        if call == BankCall::Cut && self.row.held().any(busy) {
            faults.push(refusal(31));
        }
        faults
    }

    /// The slots examined, or the refusal; a bank call examines none (B5).
    pub fn ask(&mut self, asked: Asked) -> Result<usize, Refusal> {
        first(&self.faults(asked))?;
        match asked {
            Asked::Frame(call, frame) => self.row.call(call, frame),
            Asked::Bank(call, bank) => {
                self.change(call, bank);
                Ok(0)
            }
        }
    }

    /// Rule B2.
    fn change(&mut self, call: BankCall, bank: u32) {
        self.states[bank as usize] = match call {
            BankCall::Close => BankState::Closing,
            BankCall::Cut => BankState::Off,
            BankCall::Open => BankState::Open,
        };
        if call == BankCall::Cut {
            self.row.leave(|frame| bank_of(frame) == bank);
        }
    }

    /// Rule B4, refusals 26 and 27.
    pub fn victim(&self) -> Result<u32, Refusal> {
        self.row.victim_among(|frame| self.in_open_bank(frame))
    }

    /// For each frame the state of its bank.
    pub fn gates(&self) -> [BankState; FRAMES as usize] {
        std::array::from_fn(|frame| self.states[bank_of(frame as u32) as usize])
    }

    /// Rule B6: no frame of an off bank is held, and so none is busy.
    pub fn off_banks_are_empty(&self) -> bool {
        self.row.held().all(|(frame, _)| self.state(bank_of(frame)) != Some(BankState::Off))
    }
}
