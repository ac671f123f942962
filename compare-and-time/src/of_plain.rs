//! The plain Rust versions as subjects: a baseline that answers something else is no baseline.

use crate::compare::{banks, row, session, trace, Subject};
use crate::plain;
use crate::simulator::banks::BankCall;
use crate::simulator::row::Call;
use crate::simulator::{refusal, Refusal};
use crate::subject::{Answer, Banks, Counts, Memory, Rows, Sessions};

pub fn subjects() -> Vec<Subject> {
    let mut subjects = trace::subjects::<Plain>();
    subjects.extend(session::subjects::<plain::session::Session>());
    subjects.extend(row::subjects::<plain::row::Row>());
    subjects.extend(banks::subjects::<plain::banks::Banks>());
    subjects
}

pub struct Plain;

/// A number as the plain versions take it; one that is too wide is past every limit.
#[inline]
fn byte(number: u32) -> u8 {
    number.try_into().unwrap_or(u8::MAX)
}

impl Counts for Plain {
    fn count(trace: &[u16], policy: u32, k: usize, table: &mut [u32]) -> Result<(), Refusal> {
        match plain::trace::count(trace, byte(policy), k, table) {
            (0, _) => Ok(()),
            (number, place) => Err(Refusal { number, place }),
        }
    }
}

impl Sessions for plain::session::Session {
    fn start(policy: u32, k: usize) -> Result<Self, Refusal> {
        plain::session::Session::start(byte(policy), k).map_err(refusal)
    }

    fn reference(&mut self, page: u32) -> Result<usize, Refusal> {
        plain::session::Session::reference(self, page.try_into().unwrap_or(u16::MAX)).map_err(refusal)
    }

    fn list(&self) -> (usize, Vec<u16>) {
        let places = self.list();
        (places.len(), places)
    }

    fn accepted(&self) -> usize {
        self.accepted()
    }

    fn hits(&self, capacity: usize) -> Result<u32, Refusal> {
        self.hits(capacity).map_err(refusal)
    }

    fn misses(&self, capacity: usize) -> Result<u32, Refusal> {
        self.misses(capacity).map_err(refusal)
    }

    fn sound(&self) -> bool {
        self.sound()
    }
}

fn answer(said: Result<usize, u8>) -> Answer {
    match said {
        Ok(examined) => (Ok(()), examined),
        Err(refused) => (Err(refusal(refused)), 0),
    }
}

// the plain versions number the five calls as `Call` has them
impl Rows for plain::row::Row {
    fn fresh() -> Self {
        plain::row::Row::new()
    }

    fn call(&mut self, call: Call, frame: u32) -> Answer {
        answer(plain::row::Row::call(self, call as usize, byte(frame)))
    }

    fn victim(&self) -> Result<u32, Refusal> {
        plain::row::Row::victim(self).map(u32::from).map_err(refusal)
    }

    fn sound(&self) -> bool {
        self.sound()
    }

    fn memory(&self) -> Memory {
        self.memory()
    }
}

impl Rows for plain::banks::Banks {
    fn fresh() -> Self {
        plain::banks::Banks::new()
    }

    fn call(&mut self, call: Call, frame: u32) -> Answer {
        answer(plain::banks::Banks::call(self, call as usize, byte(frame)))
    }

    fn victim(&self) -> Result<u32, Refusal> {
        plain::banks::Banks::victim(self).map(u32::from).map_err(refusal)
    }

    fn sound(&self) -> bool {
        self.sound()
    }

    fn memory(&self) -> Memory {
        self.memory()
    }
}

impl Banks for plain::banks::Banks {
    fn bank_call(&mut self, call: BankCall, bank: u32) -> Answer {
        let bank = byte(bank);
        let said = match call {
            BankCall::Close => self.close(bank),
            BankCall::Cut => self.cut(bank),
            BankCall::Open => self.open(bank),
        };
        answer(said.map(|()| 0))
    }

    fn gates(&self) -> [u8; 64] {
        self.gates()
    }
}
