//! The proved library's row under banks.

use super::row::CLUTTERED;
use super::{done, examined, found};
use crate::musselrung::Banks;
use crate::simulator::banks::BankCall;
use crate::simulator::row::Call;
use crate::simulator::Refusal;
use crate::subject::{self, Answer, Memory, Rows};

impl Rows for Banks {
    fn fresh() -> Banks {
        let mut banks = Banks { row: CLUTTERED, gates: [9; 64] };
        banks.fresh();
        banks
    }

    #[inline]
    fn call(&mut self, call: Call, frame: u32) -> Answer {
        match call {
            Call::Put => examined(self.put(frame)),
            Call::Touch => examined(self.touch(frame)),
            Call::Start => (done(self.start(frame)), 0),
            Call::End => (done(self.end(frame)), 0),
            Call::Drop => (done(self.drop(frame)), 0),
        }
    }

    #[inline]
    fn victim(&self) -> Result<u32, Refusal> {
        found(self.victim()).map(|frame| frame as u32)
    }

    #[inline]
    fn sound(&self) -> bool {
        self.sound()
    }

    fn memory(&self) -> Memory {
        self.row.clone()
    }
}

impl subject::Banks for Banks {
    #[inline]
    fn bank_call(&mut self, call: BankCall, bank: u32) -> Answer {
        let answer = match call {
            BankCall::Close => self.close(bank),
            BankCall::Cut => self.cut(bank),
            BankCall::Open => self.open(bank),
        };
        (done(answer), 0)
    }

    fn gates(&self) -> [u8; 64] {
        self.gates
    }
}
