//! The row under banks: the answer to each of the eight calls, the slots examined, the victim after it, and the whole
//! memory then, the gates with it.

use super::pair::Pair;
use super::row::{self, drawn_length, numbers, BAD_FRAMES, BUSY, MIXES};
use super::{Outcome, Subject, Tally};
use crate::rng::Rng;
use crate::simulator::banks::{bank_of, Asked, BankCall, BankState, BANK_CALLS};
use crate::simulator::row::{Call, CALLS};
use crate::simulator::{BANKS, FRAMES, HELD, IN_BANK};
use crate::subject::Banks;

/// Orders O7 and O8, beside the sets of the row. A number that is no frame lies in no bank, so 33 does not apply beside
/// 20. A number that is no bank is neither open nor closing, so 30 applies beside 32 to a close and to a cut.
const SETS: [&[u8]; 10] =
    [&[33], &[33, 21], &[33, 22], &[33, 23], &[33, 25], &[32], &[32, 30], &[30], &[30, 31], &[31]];

pub fn subjects<L: Banks>() -> Vec<Subject> {
    let sets: Vec<Vec<u8>> = row::SETS.iter().chain(&SETS).map(|set| set.to_vec()).collect();
    vec![
        Subject { name: "banks", short: 5_000, full: 100_000, case: drawn_case::<L>, sets: sets.clone() },
        Subject::every("bank-calls", STATES + FRAMES as usize, call_case::<L>, sets),
    ]
}

/// How often close, cut and open come among the bank calls: as often, banks mostly open, mostly cut, mostly closing.
const BANK_MIXES: [[usize; 3]; 4] = [[1, 1, 1], [1, 1, 4], [2, 4, 1], [4, 1, 2]];

/// Filling up while transfers end, beside the row's mixes: a bank is to be full and not busy now and then.
const CALM: [usize; 5] = [50, 30, 0, 20, 0];

/// How often each call comes: bank calls in 100 calls, and the shares within them and within the frame calls.
pub struct Mix {
    bank_calls: usize,
    banks: [usize; 3],
    frames: [usize; 5],
}

impl Mix {
    pub fn drawn(rng: &mut Rng) -> Mix {
        let frames = if rng.percent(30) { CALM } else { rng.pick(&MIXES) };
        Mix { bank_calls: rng.pick(&[1, 3, 10, 40]), banks: rng.pick(&BANK_MIXES), frames }
    }

    /// A call on any bank, or on one of these frames; on a number that is none now and then. The front is seldom at 0,
    /// so bank calls come more often then.
    pub fn call(&self, rng: &mut Rng, frames: &[u32], front: usize) -> Asked {
        let bad = rng.percent(2);
        if rng.percent(if front == 0 { 50 } else { self.bank_calls }) {
            let bank = if bad { rng.pick(&BAD_BANKS) } else { rng.below(BANKS as usize) as u32 };
            return Asked::Bank(rng.pick_by(&BANK_CALLS, &self.banks), bank);
        }
        let frame = if bad { rng.pick(&BAD_FRAMES) } else { rng.pick(frames) };
        Asked::Frame(rng.pick_by(&CALLS, &self.frames), frame)
    }
}

/// Numbers that are no bank, some of them frames.
const BAD_BANKS: [u32; 10] = [BANKS, BANKS + 1, IN_BANK, FRAMES, 128, 255, 256, 256 + 1, 65_536 + 3, u32::MAX];

/// The frames that a sequence is about: within one bank, side by side over several, or spread over all.
pub fn drawn_frames(rng: &mut Rng) -> Vec<u32> {
    let (bank, frames) = (IN_BANK as usize, FRAMES as usize);
    let count = rng.pick(&[1, 4, bank, 20, HELD, HELD + 1, 40, frames]);
    let (from, apart) = (bank * rng.below(BANKS as usize), rng.pick(&[1, 1, 5]));
    (0..count).map(|i| ((from + i * apart) % frames) as u32).collect()
}

/// Long random sequences of calls.
fn drawn_case<L: Banks>(_: u64, rng: &mut Rng, tally: &mut Tally) -> Outcome {
    let mut pair = Pair::<L>::fresh(tally)?;
    pair.compare_gates("a fresh row")?;
    let (frames, mut mix) = (drawn_frames(rng), Mix::drawn(rng));
    for i in 0..drawn_length(rng) {
        if rng.percent(1) {
            mix = Mix::drawn(rng);
        }
        pair.ask(mix.call(rng, &frames, pair.front()), tally).map_err(|fault| format!("call {i}: {fault}"))?;
    }
    pair.examined_few()
}

const BANK_STATES: [BankState; 3] = [BankState::Open, BankState::Closing, BankState::Off];
/// All four banks in each state.
const ALL_BANK_STATES: usize = BANK_STATES.len().pow(BANKS);
/// Those, with no frame, one, all that can be held then but one, or all, of which none, every second or all are busy,
/// the front at 0 or above it.
const STATES: usize = ALL_BANK_STATES * 4 * BUSY.len() * 2;

/// So many frames, in turn from each of these banks.
fn spread(banks: &[u32], count: usize) -> Vec<u32> {
    (0..count).map(|i| IN_BANK * banks[i % banks.len()] + (i / banks.len()) as u32).collect()
}

fn state_of<L: Banks>(number: usize, tally: &mut Tally) -> Result<Pair<L>, String> {
    let (states, number) = (number % ALL_BANK_STATES, number / ALL_BANK_STATES);
    let state = |bank: u32| BANK_STATES[states / BANK_STATES.len().pow(bank) % BANK_STATES.len()];
    let (off, on): (Vec<u32>, Vec<u32>) = (0..BANKS).partition(|&bank| state(bank) == BankState::Off);
    let most = HELD.min(on.len() * IN_BANK as usize);
    let held = spread(&on, [0, 1.min(most), most.saturating_sub(1), most][number % 4]);
    let front_at_0 = number / 12 == 1;
    let mut pair = Pair::<L>::fresh(tally)?;
    // frames that leave with their bank, so that there are slots that a cut has emptied
    let gone = spread(&off, 4 * off.len());
    pair.hold(&gone, BUSY[0], tally)?;
    if front_at_0 {
        pair.front_to_0(&gone, tally)?;
    }
    for &bank in &off {
        pair.ask(Asked::Bank(BankCall::Close, bank), tally)?;
        pair.ask(Asked::Bank(BankCall::Cut, bank), tally)?;
    }
    pair.hold(&held, BUSY[number / 4 % 3], tally)?;
    if front_at_0 {
        pair.front_to_0(&held, tally)?;
    }
    for bank in (0..BANKS).filter(|&bank| state(bank) == BankState::Closing) {
        pair.ask(Asked::Bank(BankCall::Close, bank), tally)?;
    }
    Ok(pair)
}

/// A full bank that is closing, where this frame alone is busy.
fn one_busy<L: Banks>(frame: u32, tally: &mut Tally) -> Result<Pair<L>, String> {
    let bank = bank_of(frame);
    let mut pair = Pair::<L>::fresh(tally)?;
    pair.hold(&spread(&[bank], IN_BANK as usize), BUSY[0], tally)?;
    pair.ask(Asked::Frame(Call::Start, frame), tally)?;
    pair.ask(Asked::Bank(BankCall::Close, bank), tally)?;
    Ok(pair)
}

/// Every call on every number, in one of those states; and with each frame as the only busy one.
fn call_case<L: Banks>(case: u64, _: &mut Rng, tally: &mut Tally) -> Outcome {
    let case = case as usize;
    let pair: Pair<L> = if case < STATES { state_of(case, tally)? } else { one_busy((case - STATES) as u32, tally)? };
    for number in numbers() {
        let frame_calls = CALLS.map(|call| Asked::Frame(call, number));
        let bank_calls = BANK_CALLS.map(|call| Asked::Bank(call, number));
        for asked in frame_calls.into_iter().chain(bank_calls) {
            pair.clone().ask(asked, tally)?;
        }
    }
    Ok(())
}
