//! The frame row without slots (rules W5 to W7, O6): which frames are held, when each was last put or touched, by the
//! sequence of calls alone, and the front mark, which falls by one at each such call (W2) and is 64 less the frames that
//! a squeeze packs (W3).

use super::{first, refusal, Refusal, FRAMES, HELD, SLOTS};

#[derive(Clone, Copy, PartialEq, Eq, Debug)]
pub enum Call {
    Put,
    Touch,
    Start,
    End,
    Drop,
}

pub const CALLS: [Call; 5] = [Call::Put, Call::Touch, Call::Start, Call::End, Call::Drop];

#[derive(Clone, Copy, PartialEq, Eq, Debug)]
pub enum State {
    Absent = 0,
    Idle = 1,
    Busy = 2,
}

#[derive(Clone)]
struct Held {
    frame: u32,
    /// Of its last accepted put or touch.
    moment: usize,
    busy: bool,
}

impl Held {
    fn state(&self) -> State {
        if self.busy {
            State::Busy
        } else {
            State::Idle
        }
    }
}

#[derive(Clone)]
pub struct Row {
    calls: usize,
    held: Vec<Held>,
    pub front: usize,
    /// The sum of the slots examined, and how many puts and touches were accepted.
    pub examined: usize,
    pub moves: usize,
}

impl Row {
    pub fn fresh() -> Row {
        Row { calls: 0, held: Vec::new(), front: SLOTS, examined: 0, moves: 0 }
    }

    /// The row that holds these frames, the oldest first.
    pub fn standing(oldest_first: &[(u32, State)], front: usize) -> Row {
        let held = |(moment, &(frame, state))| Held { frame, moment, busy: state == State::Busy };
        let calls = oldest_first.len();
        Row { calls, held: oldest_first.iter().enumerate().map(held).collect(), front, ..Row::fresh() }
    }

    /// A number that is no frame is absent.
    pub fn state(&self, frame: u32) -> State {
        self.held.iter().find(|h| h.frame == frame).map_or(State::Absent, Held::state)
    }

    /// The held frames, each with its state.
    pub fn held(&self) -> impl Iterator<Item = (u32, State)> + '_ {
        self.held.iter().map(|h| (h.frame, h.state()))
    }

    /// Order O6: 20, then the state table W6, then 25.
    pub fn faults(&self, call: Call, frame: u32) -> Vec<Refusal> {
        let mut faults = Vec::new();
        if frame >= FRAMES {
            faults.push(refusal(20));
        }
        match (call, self.state(frame)) {
            (Call::Put, State::Idle | State::Busy) => faults.push(refusal(21)),
            (Call::Touch | Call::Start | Call::End | Call::Drop, State::Absent) => faults.push(refusal(22)),
            (Call::Start | Call::Drop, State::Busy) => faults.push(refusal(23)),
            (Call::End, State::Idle) => faults.push(refusal(24)),
            _ => {}
        }
        if call == Call::Put && self.state(frame) == State::Absent && self.held.len() == HELD {
            faults.push(refusal(25));
        }
        faults
    }

    /// The slots examined, or the refusal; a refusal examines none (W5).
    pub fn call(&mut self, call: Call, frame: u32) -> Result<usize, Refusal> {
        self.calls += 1;
        first(&self.faults(call, frame))?;
        match call {
            Call::Put | Call::Touch => return Ok(self.most_recent(frame)),
            Call::Start | Call::End => {
                let busy = call == Call::Start;
                self.held.iter_mut().filter(|h| h.frame == frame).for_each(|h| h.busy = busy);
            }
            Call::Drop => self.leave(|held| held == frame),
        }
        Ok(0)
    }

    /// These frames are held no more; the front stays.
    pub fn leave(&mut self, leaves: impl Fn(u32) -> bool) {
        self.held.retain(|h| !leaves(h.frame));
    }

    /// W2 to W4: the frame has no slot of its own when the others are squeezed.
    fn most_recent(&mut self, frame: u32) -> usize {
        let busy = self.state(frame) == State::Busy;
        self.leave(|held| held == frame);
        let examined = if self.front == 0 { SLOTS } else { 0 };
        if self.front == 0 {
            self.front = SLOTS - self.held.len();
        }
        self.front -= 1;
        self.held.push(Held { frame, moment: self.calls, busy });
        self.moves += 1;
        self.examined += examined;
        examined
    }

    /// Rule W7, refusals 26 and 27.
    pub fn victim(&self) -> Result<u32, Refusal> {
        self.victim_among(|_| true)
    }

    /// The same, where only some frames may be given.
    pub fn victim_among(&self, givable: impl Fn(u32) -> bool) -> Result<u32, Refusal> {
        if self.held.is_empty() {
            return Err(refusal(26));
        }
        let idle = self.held.iter().filter(|h| !h.busy && givable(h.frame));
        match idle.min_by_key(|h| h.moment) {
            None => Err(refusal(27)),
            Some(oldest) => Ok(oldest.frame),
        }
    }
}
