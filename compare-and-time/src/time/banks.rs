//! The row under banks: a mix of all eight calls, the victim, and a cut by itself.

use super::{after, mixed, nanoseconds, race, race_timed, test, Line};
use crate::rng::Rng;
use crate::simulator::banks::{Asked, BankCall, BANK_CALLS};
use crate::simulator::row::{Call, CALLS};
use crate::simulator::{BANKS, FRAMES, IN_BANK};
use crate::subject::{Banks, Memory};
use std::hint::black_box;

/// The calls that working banks get: mostly frame calls as a row gets them, but with shorter transfers, for a bank is
/// cut only when none is under way in it; now and then a bank is closed, cut or opened.
fn any_call(rng: &mut Rng) -> Asked {
    if rng.percent(5) {
        return Asked::Bank(rng.pick_by(&BANK_CALLS, &[2, 6, 3]), rng.below(BANKS as usize) as u32);
    }
    Asked::Frame(rng.pick_by(&CALLS, &[14, 54, 6, 20, 6]), rng.below(FRAMES as usize) as u32)
}

pub fn banks<A: Banks, B: Banks>() -> Vec<Line> {
    let calls = mixed("banks", any_call);
    let mut a = || drop(black_box(after(black_box(&calls), A::ask)));
    let mut b = || drop(black_box(after(black_box(&calls), B::ask)));
    let moved = race("banks call, a mix of all eight".to_string(), 1.5, calls.len(), &mut a, &mut b);
    let (full, empty) = (cut::<A, B>("a full bank", IN_BANK), cut::<A, B>("an empty bank", 0));
    let (ours, theirs): (A, B) = (after(&calls, A::ask), after(&calls, B::ask));
    vec![moved, victim::<A, B>(&calls), full, empty, test("the test of banks", 2.0, &ours, &theirs, A::sound, B::sound)]
}

fn memories<L: Banks>(all: &[L]) -> Vec<(Memory, [u8; 64])> {
    all.iter().map(|banks| (banks.memory(), banks.gates())).collect()
}

fn must_be_same<A: Banks, B: Banks>(ours: &[A], theirs: &[B]) {
    assert!(memories(ours) == memories(theirs), "the two sides differ on banks");
}

/// How many moments of the mix are kept, for how far the search goes differs much, and how many victims are asked for
/// at each.
const MOMENTS: usize = 64;
const VICTIMS: usize = 16;

fn victim<A: Banks, B: Banks>(calls: &[Asked]) -> Line {
    let (ours, theirs) = (moments::<A>(calls), moments::<B>(calls));
    must_be_same(&ours, &theirs);
    let mut a = || victims(&ours);
    let mut b = || victims(&theirs);
    race("banks call, victim".to_string(), 1.5, MOMENTS * VICTIMS, &mut a, &mut b)
}

/// Copies of the memory, evenly over the calls.
fn moments<L: Banks>(calls: &[Asked]) -> Vec<L> {
    let (mut banks, mut moments) = (L::fresh(), Vec::new());
    for part in calls.chunks(calls.len() / MOMENTS) {
        for &asked in part {
            let _ = banks.ask(asked);
        }
        moments.push(banks.clone());
    }
    moments
}

fn victims<L: Banks>(moments: &[L]) {
    for _ in 0..VICTIMS {
        for banks in black_box(moments) {
            let _ = black_box(banks.victim());
        }
    }
}

/// The bank that is cut.
const BANK: u32 = 1;
/// So few that they stay near the processor on both sides.
const COPIES: usize = 200;

/// A cut alone: copies of one memory are made outside the time, and each is cut once.
fn cut<A: Banks, B: Banks>(what: &str, held: u32) -> Line {
    let (ours, theirs) = (closing::<A>(held), closing::<B>(held));
    let (mut our_copies, mut their_copies) = (Vec::new(), Vec::new());
    let mut a = || cut_copies(&ours, &mut our_copies);
    let mut b = || cut_copies(&theirs, &mut their_copies);
    let line = race_timed(format!("banks call, cut of {what}"), 2.0, COPIES, &mut a, &mut b);
    must_be_same(&our_copies, &their_copies);
    line
}

/// The bank is closing and holds so many idle frames, between those of the banks beside it.
fn closing<L: Banks>(held: u32) -> L {
    let mut banks = L::fresh();
    for i in 0..IN_BANK {
        let beside = IN_BANK * (BANK - 1 + i % 2 * 2) + i / 2;
        banks.call(Call::Put, beside).0.unwrap();
        if i < held {
            banks.call(Call::Put, IN_BANK * BANK + i).0.unwrap();
        }
    }
    banks.bank_call(BankCall::Close, BANK).0.unwrap();
    banks
}

/// The nanoseconds of the cuts.
fn cut_copies<L: Banks>(prepared: &L, copies: &mut Vec<L>) -> f64 {
    *copies = vec![prepared.clone(); COPIES];
    nanoseconds(&mut || {
        for banks in black_box(&mut *copies) {
            let _ = black_box(banks.bank_call(BankCall::Cut, BANK));
        }
    })
}
