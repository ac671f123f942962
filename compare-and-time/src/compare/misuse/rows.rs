//! Memory that is no row or no banks, or only just: zeros, noise, what calls give, what is put together, and those with one
//! thing wrong, or overwritten in part.

use super::bytes::{noise, overwritten};
use crate::compare::banks::{drawn_frames, Mix};
use crate::musselrung::{Banks, Row};
use crate::rng::Rng;
use crate::simulator;
use crate::simulator::memory::of_banks;
use crate::simulator::slots::Slots;

pub fn made(rng: &mut Rng) -> Banks {
    let mut memory = if rng.percent(50) { called(rng) } else { put_together(rng) };
    let other = put_together(rng);
    match rng.below(20) {
        0 => return noise(rng, &memory),
        1..=3 => return memory,
        4..=7 => return overwritten(rng, memory, &other),
        8 => spoil(rng, &mut memory),
        _ => {}
    }
    spoil(rng, &mut memory);
    memory
}

/// What calls give, by the simulator.
fn called(rng: &mut Rng) -> Banks {
    let (mut banks, mut slots) = (simulator::banks::Banks::fresh(), Slots::fresh());
    let (frames, mix) = (drawn_frames(rng), Mix::drawn(rng));
    for _ in 0..rng.pick(&[3, 40, 150]) {
        let asked = mix.call(rng, &frames, banks.row.front);
        if banks.ask(asked).is_ok() {
            slots.follow(asked);
        }
    }
    of_banks(&banks, &slots)
}

fn shuffled(rng: &mut Rng, from: usize, to: usize) -> Vec<usize> {
    let mut all: Vec<usize> = (from..to).collect();
    for i in 1..all.len() {
        let j = rng.below(i + 1);
        all.swap(i, j);
    }
    all
}

/// Any frames in any slots, at most as many as can be held mostly, under banks of which some may be off where all are absent.
fn put_together(rng: &mut Rng) -> Banks {
    let any = rng.below(40);
    let count = rng.pick(&[0, 1, 2, 31, 32, 32, 33, any]);
    let any = rng.below(64 - count + 1);
    let front = rng.pick(&[0, 64 - count, any]);
    let mut slots = shuffled(rng, front, 64);
    // the slot at the front is full, or as it comes
    if let Some(at) = slots.iter().position(|&slot| slot == front).filter(|_| rng.percent(60)) {
        slots.swap(0, at);
    }
    let mut row = Row { front: front as u64, held: count as u64, slots: [64; 64], places: [64; 64], states: [0; 64] };
    for (&slot, frame) in slots.iter().zip(shuffled(rng, 0, 64)).take(count) {
        seat(&mut row, slot, frame);
        row.states[frame] = rng.within(1, 2) as u8;
    }
    let mut gates = [1; 64];
    for bank in 0..4 {
        let empty = row.states[16 * bank..][..16].iter().all(|&state| state == 0);
        let state = rng.pick(&[1, 1, 1, 2, if empty { 0 } else { 2 }]);
        gates[16 * bank..][..16].fill(state);
    }
    Banks { row, gates }
}

fn seat(row: &mut Row, slot: usize, frame: usize) {
    row.slots[slot] = frame as u8;
    row.places[frame] = slot as u8;
}

/// One thing is changed; now and then what comes of it is sound as well.
fn spoil(rng: &mut Rng, memory: &mut Banks) {
    let Banks { row, gates } = memory;
    let (slot, frame, bank, any) = (rng.below(64), rng.below(64), rng.below(4), rng.next() as u8);
    let (front, held) = (row.front, row.held);
    let wide = rng.pick(&[64, 65, 66, 255, 256, 1 << 32, u64::MAX]);
    let small = rng.pick(&[0, 1, 2, 3, 63, 64, 65, 255, any]);
    match rng.below(13) {
        0 => row.front = rng.pick(&[front.wrapping_sub(1), front + 1, 0, 63, wide]),
        1 => row.held = rng.pick(&[held.wrapping_sub(1), held + 1, 0, 32, (1 << 32) + held, wide]),
        2 => row.slots[slot] = small,
        3 => row.slots[slot] = frame as u8,
        4 => row.places[frame] = rng.pick(&[small, slot as u8]),
        5 => row.states[frame] = rng.pick(&[0, 1, 2, 3, any]),
        6 => move_below(row),
        7 => exchange(row, slot, frame),
        8 => drop_but(rng, row),
        9 => gates[frame] = rng.pick(&[0, 1, 2, 3, any]),
        10 | 11 => gates[16 * bank..][..16].fill(rng.pick(&[0, 1, 2, 3, any])),
        _ => row.slots[slot] = row.slots[63 - slot / 2],
    }
}

/// The frame nearest the old end moves below the front.
fn move_below(row: &mut Row) {
    let at = row.slots.iter().rposition(|&slot| slot < 64);
    if let (Some(at), 1..=64) = (at, row.front) {
        let frame = usize::from(row.slots[at]);
        row.slots[at] = 64;
        seat(row, row.front as usize - 1, frame);
    }
}

/// What stands in two slots changes places, and the frames know.
fn exchange(row: &mut Row, a: usize, b: usize) {
    row.slots.swap(a, b);
    for slot in [a, b] {
        if let Some(place) = row.places.get_mut(usize::from(row.slots[slot])) {
            *place = slot as u8;
        }
    }
}

/// A frame leaves, but something of it stays: its slot, its place, its state or the number of frames held.
fn drop_but(rng: &mut Rng, row: &mut Row) {
    let Some(&frame) = row.slots.iter().find(|&&slot| slot < 64) else { return };
    let (frame, stays) = (usize::from(frame), rng.below(4));
    if let (Some(slot), true) = (row.slots.get_mut(usize::from(row.places[frame])), stays != 0) {
        *slot = 64;
    }
    row.places[frame] = if stays == 1 { row.places[frame] } else { 64 };
    row.states[frame] = if stays == 2 { row.states[frame] } else { 0 };
    row.held = if stays == 3 { row.held } else { row.held.wrapping_sub(1) };
}
