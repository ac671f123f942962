//! What a row's memory shows of the simulator's row, and the simulator's row that a memory shows: slots, places, states and
//! gates as W1, W6 and B1 number them.

use super::banks::{BankState, Banks};
use super::row::{Row, State};
use super::slots::Slots;
use super::{BANKS, FRAMES, IN_BANK, SLOTS};
use crate::musselrung;

/// The memory that has to show this row.
pub fn of_row(row: &Row, slots: &Slots) -> musselrung::Row {
    let mut memory = musselrung::Row {
        slots: [FRAMES as u8; SLOTS],
        places: [SLOTS as u8; FRAMES as usize],
        states: [0; FRAMES as usize],
        front: slots.front as u64,
        held: row.held().count() as u64,
    };
    for (slot, frame) in slots.slots.iter().enumerate().filter_map(|(i, frame)| Some((i, (*frame)?))) {
        memory.slots[slot] = frame as u8;
        memory.places[frame as usize] = slot as u8;
    }
    for (frame, state) in row.held() {
        memory.states[frame as usize] = state as u8;
    }
    memory
}

pub fn of_banks(banks: &Banks, slots: &Slots) -> musselrung::Banks {
    musselrung::Banks { row: of_row(&banks.row, slots), gates: banks.gates().map(|state| state as u8) }
}

/// The row in memory that is sound: in the order of slots the oldest frame is the last (W1).
pub fn row_in(memory: &musselrung::Row) -> (Row, Slots) {
    let front = memory.front as usize;
    let slots = memory.slots.map(|frame| Some(u32::from(frame)).filter(|&frame| frame < FRAMES));
    let state = |frame: u32| if memory.states[frame as usize] == 2 { State::Busy } else { State::Idle };
    let held: Vec<(u32, State)> = slots.iter().rev().flatten().map(|&frame| (frame, state(frame))).collect();
    (Row::standing(&held, front), Slots { slots, front })
}

pub fn banks_in(memory: &musselrung::Banks) -> (Banks, Slots) {
    let (row, slots) = row_in(&memory.row);
    let states: [BankState; BANKS as usize] = std::array::from_fn(|bank| match memory.gates[bank * IN_BANK as usize] {
        0 => BankState::Off,
        1 => BankState::Open,
        _ => BankState::Closing,
    });
    (Banks::standing(row, states), slots)
}
