//! A frame row that changes in place. As the library does, each call first tests what stands there.

use crate::subject::Memory;
use std::ops::Range;

const FRAMES: u8 = 64;
const SLOTS: usize = 64;
const HELD: usize = 32;
const EMPTY: u8 = FRAMES;

const ABSENT: u8 = 0;
const IDLE: u8 = 1;
const BUSY: u8 = 2;

pub const PUT: usize = 0;
pub const TOUCH: usize = 1;
pub const START: usize = 2;
pub const DROP: usize = 4;

/// The next state, or the number of the refusal: by state, then by put, touch, start, end, drop.
const NEXT: [[u8; 5]; 3] = [[IDLE, 22, 22, 22, 22], [21, IDLE, BUSY, 24, ABSENT], [21, BUSY, 23, IDLE, 23]];

#[derive(Clone)]
pub struct Row {
    slots: [u8; SLOTS],
    /// Which slot a held frame has; an absent one has none.
    places: [u8; 64],
    states: [u8; 64],
    front: usize,
    held: usize,
}

impl Row {
    pub fn new() -> Row {
        Row { slots: [EMPTY; SLOTS], places: [EMPTY; 64], states: [ABSENT; 64], front: SLOTS, held: 0 }
    }

    /// The slots examined, or the number of the refusal.
    #[inline(never)]
    pub fn call(&mut self, call: usize, frame: u8) -> Result<usize, u8> {
        if !self.is_sound() {
            return Err(40);
        }
        self.step(call, frame)
    }

    /// Can a fresh row and calls give what stands here?
    #[inline(never)]
    pub fn sound(&self) -> bool {
        self.is_sound()
    }

    /// The same, made part of the calls.
    #[inline(always)]
    pub fn is_sound(&self) -> bool {
        let Row { slots, places, states, front, held } = self;
        if *front > SLOTS {
            return false;
        }
        // no way out of a loop, and no branch on what it reads: sixteen bytes at a time where that can be
        let top = *front as u8;
        let slot = |ok: bool, (i, &x): (u8, &u8)| ok & if x < FRAMES { top <= i } else { x == EMPTY };
        let frame = |ok: bool, (&place, &state): (&u8, &u8)| {
            ok & if state == ABSENT { place == EMPTY } else { (state <= BUSY) & (place < EMPTY) }
        };
        let stands = |ok: bool, (f, &place): (u8, &u8)| ok & ((place >= EMPTY) | (slots[usize::from(place) % SLOTS] == f));
        (0..).zip(slots).fold(true, slot)
            && places.iter().zip(states).fold(true, frame)
            && (0..).zip(places).fold(true, stands)
            && states.iter().filter(|&&state| state != ABSENT).count() == *held
            && slots.iter().filter(|&&x| x < FRAMES).count() == *held
            && (*held < HELD || *held == HELD && *front < SLOTS && slots[*front] < FRAMES)
    }

    /// A call on a row that is sound, made part of the calls of what stands on the row.
    #[inline(always)]
    pub fn step(&mut self, call: usize, frame: u8) -> Result<usize, u8> {
        if frame >= FRAMES {
            return Err(20);
        }
        let state = &mut self.states[usize::from(frame)];
        let next = NEXT[usize::from(*state)][call];
        if next > BUSY {
            return Err(next);
        }
        if call == PUT && self.held == HELD {
            return Err(25);
        }
        *state = next;
        match call {
            PUT => {
                self.held += 1;
                Ok(self.place(frame))
            }
            TOUCH => {
                self.empty(frame);
                Ok(self.place(frame))
            }
            DROP => {
                self.held -= 1;
                self.empty(frame);
                Ok(0)
            }
            _ => Ok(0),
        }
    }

    fn empty(&mut self, frame: u8) {
        let place = std::mem::replace(&mut self.places[usize::from(frame)], EMPTY);
        self.slots[usize::from(place)] = EMPTY;
    }

    fn place(&mut self, frame: u8) -> usize {
        let mut examined = 0;
        if self.front == 0 {
            self.squeeze();
            examined = SLOTS;
        }
        self.front -= 1;
        self.seat(self.front, frame);
        examined
    }

    fn seat(&mut self, slot: usize, frame: u8) {
        self.slots[slot] = frame;
        self.places[usize::from(frame)] = slot as u8;
    }

    fn squeeze(&mut self) {
        let mut to = SLOTS;
        for from in (0..SLOTS).rev() {
            let frame = self.slots[from];
            if frame != EMPTY {
                self.slots[from] = EMPTY;
                to -= 1;
                self.seat(to, frame);
            }
        }
        self.front = to;
    }

    /// The idle frame nearest the old end, or the number of the refusal.
    #[inline(never)]
    pub fn victim(&self) -> Result<u8, u8> {
        if !self.is_sound() {
            return Err(40);
        }
        self.victim_among(|_| true)
    }

    /// The same among the frames that may be given.
    #[inline(always)]
    pub fn victim_among(&self, givable: impl Fn(u8) -> bool) -> Result<u8, u8> {
        if self.held == 0 {
            return Err(26);
        }
        let idle = |frame: u8| frame != EMPTY && self.states[usize::from(frame)] == IDLE;
        match self.slots[self.front..].iter().rev().find(|&&frame| idle(frame) && givable(frame)) {
            Some(&frame) => Ok(frame),
            None => Err(27),
        }
    }

    pub fn any_busy(&self, frames: Range<usize>) -> bool {
        self.states[frames].contains(&BUSY)
    }

    /// Those of these frames that are held leave together.
    pub fn leave(&mut self, frames: Range<usize>) {
        for (state, place) in self.states[frames.clone()].iter_mut().zip(&mut self.places[frames]) {
            if *state != ABSENT {
                *state = ABSENT;
                self.slots[usize::from(*place)] = EMPTY;
                *place = EMPTY;
                self.held -= 1;
            }
        }
    }

    pub fn any_held(&self, frames: Range<usize>) -> bool {
        self.states[frames].iter().any(|&state| state != ABSENT)
    }

    pub fn memory(&self) -> Memory {
        let Row { slots, places, states, front, held } = self.clone();
        Memory { slots, places, states, front: front as u64, held: held as u64 }
    }
}
