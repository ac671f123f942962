//! The proved library's session.

use super::{done, found, UNTOUCHED};
use crate::musselrung::{Session, CAPACITIES};
use crate::simulator::Refusal;
use crate::subject::Sessions;

/// What a session's memory has before the library starts one in it.
const CLUTTERED: Session =
    Session { k: 9, length: 9, references: 9, places: [9; 64], depths: [9; 65], counts: [9; 1024], policy: 9 };

impl Sessions for Session {
    fn start(policy: u32, k: usize) -> Result<Session, Refusal> {
        let mut session = CLUTTERED;
        let answer = session.start(policy, k as u64);
        assert!(answer.is_ok() || session == CLUTTERED, "a refused start wrote");
        done(answer)?;
        let started = Session { k: k as u64, policy: policy as u8, ..Session::EMPTY };
        assert!(session == started, "a session starts with something in its memory");
        Ok(session)
    }

    #[inline]
    fn reference(&mut self, page: u32) -> Result<usize, Refusal> {
        found(self.refer(page))
    }

    fn list(&self) -> (usize, Vec<u16>) {
        let mut shown = [UNTOUCHED; CAPACITIES];
        let length = found(self.list(&mut shown)).expect("the list of a session");
        (length, shown.to_vec())
    }

    fn accepted(&self) -> usize {
        found(self.references()).expect("the references of a session")
    }

    fn hits(&self, capacity: usize) -> Result<u32, Refusal> {
        found(self.hits(capacity as u64)).map(|hits| hits.try_into().unwrap())
    }

    fn misses(&self, capacity: usize) -> Result<u32, Refusal> {
        found(self.misses(capacity as u64)).map(|misses| misses.try_into().unwrap())
    }

    fn sound(&self) -> bool {
        self.sound()
    }
}
