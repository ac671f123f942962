//! The exported functions over parts, with each part lent in memory of its own between guard bytes.

use super::fault::Fault;
use super::Ask;
use crate::guarded::Guarded;
use crate::musselrung::{raw, Banks, Row, Session, CAPACITIES};
use crate::simulator::banks::{Asked, BankCall};
use crate::simulator::row::Call;

/// What stands where the library has not told anything.
pub const UNTOLD: u64 = 0xa5a5_a5a5_a5a5_a5a5;
pub const UNSHOWN: [u16; CAPACITIES] = [0xa5a5; CAPACITIES];

/// What a call told: its number, its value, and the places that it shows.
#[derive(Clone, PartialEq, Debug)]
pub struct Told {
    pub number: u32,
    pub value: u64,
    pub shown: [u16; CAPACITIES],
}

impl Told {
    pub fn new(number: u32, value: u64) -> Told {
        Told { number, value, shown: UNSHOWN }
    }
}

fn unless_torn(whole: bool, told: Told) -> Result<Told, String> {
    if whole {
        return Ok(told);
    }
    Err("a byte beside what was lent was written".to_string())
}

struct LentBanks {
    slots: Guarded<[u8; 64]>,
    places: Guarded<[u8; 64]>,
    states: Guarded<[u8; 64]>,
    front: Guarded<u64>,
    held: Guarded<u64>,
    gates: Guarded<[u8; 64]>,
    value: Guarded<u64>,
}

impl LentBanks {
    fn new(banks: &Banks) -> LentBanks {
        let Row { front, held, slots, places, states } = banks.row.clone();
        LentBanks {
            slots: Guarded::new(slots),
            places: Guarded::new(places),
            states: Guarded::new(states),
            front: Guarded::new(front),
            held: Guarded::new(held),
            gates: Guarded::new(banks.gates),
            value: Guarded::new(UNTOLD),
        }
    }

    fn whole(&self) -> bool {
        let tables = [&self.slots, &self.places, &self.states, &self.gates];
        let numbers = [&self.front, &self.held, &self.value];
        tables.into_iter().all(Guarded::whole) && numbers.into_iter().all(Guarded::whole)
    }

    fn back(&self) -> Banks {
        let (slots, places, states) = (self.slots.it, self.places.it, self.states.it);
        Banks { row: Row { front: self.front.it, held: self.held.it, slots, places, states }, gates: self.gates.it }
    }

    /// Calls a function of the row alone: the gates are not lent.
    fn ask_row(&mut self, ask: Ask) -> u32 {
        let function = match ask {
            Ask::Fresh => return self.row_fresh(),
            Ask::Victim => return self.row_victim(),
            Ask::Sound => return self.row_sound(),
            Ask::Call(Asked::Frame(Call::Put, _)) => raw::musselrung_row_put_parts,
            Ask::Call(Asked::Frame(Call::Touch, _)) => raw::musselrung_row_touch_parts,
            Ask::Call(Asked::Frame(Call::Start, _)) => raw::musselrung_row_start_parts,
            Ask::Call(Asked::Frame(Call::End, _)) => raw::musselrung_row_end_parts,
            Ask::Call(Asked::Frame(Call::Drop, _)) => raw::musselrung_row_drop_parts,
            Ask::Call(Asked::Bank(..)) => unreachable!("a row has no banks"),
        };
        let LentBanks { slots, places, states, front, held, value, .. } = self;
        unsafe { function(slots.at(), places.at(), states.at(), front.at(), held.at(), ask.number(), value.at()) }
    }

    fn row_fresh(&mut self) -> u32 {
        let LentBanks { slots, places, states, front, held, .. } = self;
        unsafe { raw::musselrung_row_fresh_parts(slots.at(), places.at(), states.at(), front.at(), held.at()) }
        0
    }

    fn row_victim(&mut self) -> u32 {
        let LentBanks { slots, places, states, front, held, value, .. } = self;
        unsafe { raw::musselrung_row_victim_parts(slots.at(), places.at(), states.at(), front.it, held.it, value.at()) }
    }

    fn row_sound(&mut self) -> u32 {
        let LentBanks { slots, places, states, front, held, .. } = self;
        unsafe { raw::musselrung_row_sound_parts(slots.at(), places.at(), states.at(), front.it, held.it) }
    }

    fn ask_banks(&mut self, ask: Ask) -> u32 {
        match ask {
            Ask::Fresh => self.banks_fresh(),
            Ask::Victim => self.banks_victim(),
            Ask::Sound => self.banks_sound(),
            Ask::Call(Asked::Frame(call, frame)) => self.frame_call(call, frame),
            Ask::Call(Asked::Bank(call, bank)) => self.bank_call(call, bank),
        }
    }

    fn banks_fresh(&mut self) -> u32 {
        let LentBanks { slots, places, states, front, held, gates, .. } = self;
        let (front, held, gates) = (front.at(), held.at(), gates.at());
        unsafe { raw::musselrung_banks_fresh_parts(slots.at(), places.at(), states.at(), front, held, gates) }
        0
    }

    fn frame_call(&mut self, call: Call, frame: u32) -> u32 {
        let function = match call {
            Call::Put => raw::musselrung_banks_put_parts,
            Call::Touch => raw::musselrung_banks_touch_parts,
            Call::Start => raw::musselrung_banks_start_parts,
            Call::End => raw::musselrung_banks_end_parts,
            Call::Drop => raw::musselrung_banks_drop_parts,
        };
        let LentBanks { slots, places, states, front, held, gates, value } = self;
        unsafe { function(slots.at(), places.at(), states.at(), front.at(), held.at(), gates.at(), frame, value.at()) }
    }

    fn bank_call(&mut self, call: BankCall, bank: u32) -> u32 {
        let function = match call {
            BankCall::Close => raw::musselrung_banks_close_parts,
            BankCall::Cut => raw::musselrung_banks_cut_parts,
            BankCall::Open => raw::musselrung_banks_open_parts,
        };
        let LentBanks { slots, places, states, front, held, gates, value } = self;
        unsafe { function(slots.at(), places.at(), states.at(), front.at(), held.at(), gates.at(), bank, value.at()) }
    }

    fn banks_victim(&mut self) -> u32 {
        let LentBanks { slots, places, states, front, held, gates, value } = self;
        let (front, held) = (front.it, held.it);
        unsafe {
            let gates = gates.at();
            raw::musselrung_banks_victim_parts(slots.at(), places.at(), states.at(), front, held, gates, value.at())
        }
    }

    fn banks_sound(&mut self) -> u32 {
        let LentBanks { slots, places, states, front, held, gates, .. } = self;
        let (front, held) = (front.it, held.it);
        unsafe { raw::musselrung_banks_sound_parts(slots.at(), places.at(), states.at(), front, held, gates.at()) }
    }
}

/// Asks the library of a row, or of a row under banks.
pub fn ask_banks(under_banks: bool, memory: &mut Banks, ask: Ask, fault: Fault) -> Result<Told, String> {
    let mut lent = LentBanks::new(memory);
    let number = if under_banks { lent.ask_banks(ask) } else { lent.ask_row(ask) };
    if number == 40 && fault == Fault::Guard {
        lent.places.after[0] = 0;
    }
    *memory = lent.back();
    unless_torn(lent.whole(), Told::new(number, lent.value.it))
}

/// What a session is asked.
#[derive(Clone, Copy, Debug)]
pub enum SessionAsk {
    Start(u32, u64),
    Refer(u32),
    List,
    References,
    Hits(u64),
    Misses(u64),
    Sound,
}

/// Asks the library of a session. Only a start is lent its policy and K, and only a reference the other numbers too.
pub fn ask_session(memory: &mut Session, ask: SessionAsk, fault: Fault) -> Result<Told, String> {
    let Session { k, length, references, policy, .. } = *memory;
    let (mut policy_lent, mut k_lent) = (Guarded::new(policy), Guarded::new(k));
    let mut used = Guarded::new(length);
    let mut accepted = Guarded::new(references);
    let mut places = Guarded::new(memory.places);
    let mut depths = Guarded::new(memory.depths);
    let mut counts = Guarded::new(memory.counts);
    let (mut shown, mut value) = (Guarded::new(UNSHOWN), Guarded::new(UNTOLD));
    let number = unsafe {
        let (places, depths, counts) = (places.at(), depths.at(), counts.at());
        let (used, accepted, shown, value) = (used.at(), accepted.at(), shown.at(), value.at());
        use raw::*;
        match ask {
            SessionAsk::Start(wanted, limit) => {
                let (policy, k) = (policy_lent.at(), k_lent.at());
                musselrung_session_start_parts(wanted, limit, policy, k, used, accepted, places, depths, counts)
            }
            SessionAsk::Refer(page) => {
                musselrung_session_refer_parts(policy, k, used, accepted, places, depths, counts, page, value)
            }
            SessionAsk::List => musselrung_session_list_parts(policy, k, length, references, places, shown, value),
            SessionAsk::References => musselrung_session_references_parts(policy, k, length, references, value),
            SessionAsk::Hits(c) => musselrung_session_hits_parts(policy, k, length, references, depths, c, value),
            SessionAsk::Misses(c) => musselrung_session_misses_parts(policy, k, length, references, depths, c, value),
            SessionAsk::Sound => musselrung_session_sound_parts(policy, k, length, references, places, depths, counts),
        }
    };
    if number == 40 && fault == Fault::Guard {
        depths.before[63] = 0;
    }
    let whole = [&used, &accepted, &value, &k_lent].into_iter().all(Guarded::whole)
        && policy_lent.whole()
        && places.whole()
        && depths.whole()
        && counts.whole()
        && shown.whole();
    let (policy, k, length, references) = (policy_lent.it, k_lent.it, used.it, accepted.it);
    *memory = Session { k, length, references, places: places.it, depths: depths.it, counts: counts.it, policy };
    unless_torn(whole, Told { number, value: value.it, shown: shown.it })
}
