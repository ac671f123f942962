//! Frame rows: the answer to each call, the slots examined, the victim after it, and the whole memory then.

use super::pair::Pair;
use super::{Outcome, Subject, Tally};
use crate::gen::WIDE;
use crate::rng::Rng;
use crate::simulator::row::CALLS;
use crate::simulator::{FRAMES, HELD};
use crate::subject::Rows;

/// Order O6, and the victim: a number that is no frame is not held either, so 20 applies beside 22, or beside 25 in a
/// full row.
pub const SETS: [&[u8]; 11] = [&[], &[20], &[20, 22], &[20, 25], &[21], &[22], &[23], &[24], &[25], &[26], &[27]];

pub fn subjects<L: Rows>() -> Vec<Subject> {
    let sets = SETS.map(<[u8]>::to_vec).to_vec();
    vec![
        Subject { name: "rows", short: 5_000, full: 100_000, case: drawn_case::<L>, sets: sets.clone() },
        Subject::every("row-calls", ROWS * CALLS.len() * NUMBERS, call_case::<L>, sets),
    ]
}

/// How often each of the five calls comes, in 100: an even mix, mostly touches, filling up, mostly transfers, coming
/// and going.
pub const MIXES: [[usize; 5]; 5] =
    [[20, 20, 20, 20, 20], [10, 80, 4, 4, 2], [60, 20, 10, 8, 2], [15, 10, 50, 20, 5], [40, 10, 5, 5, 40]];

/// Numbers that are no frame.
pub const BAD_FRAMES: [u32; 8] = [FRAMES, FRAMES + 1, 128, 255, 256, 256 + 5, 65_536 + 7, u32::MAX];

/// How many calls a random sequence has: long enough for several squeezes mostly, for many now and then.
pub fn drawn_length(rng: &mut Rng) -> usize {
    if rng.percent(5) {
        return rng.within(500, 3000);
    }
    rng.within(0, 400)
}

/// Long random sequences of calls.
fn drawn_case<L: Rows>(_: u64, rng: &mut Rng, tally: &mut Tally) -> Outcome {
    let mut pair = Pair::<L>::fresh(tally)?;
    let frames = rng.pick(&[1, 2, 5, 20, HELD, HELD + 1, 40, FRAMES as usize]);
    let length = drawn_length(rng);
    let mut mix = rng.pick(&MIXES);
    for i in 0..length {
        if rng.percent(1) {
            mix = rng.pick(&MIXES);
        }
        let bad = rng.pick(&BAD_FRAMES);
        let frame = if rng.percent(2) { bad } else { rng.below(frames) as u32 };
        let call = rng.pick_by(&CALLS, &mix);
        pair.call(call, frame, tally).map_err(|fault| format!("call {i}: {fault}"))?;
    }
    pair.examined_few()
}

/// Which of the frames that are held, counted from 0, are busy: none, every second or all.
pub const BUSY: [fn(usize) -> bool; 3] = [|_| false, |i| i % 2 == 1, |_| true];

/// Rows with no frame, one, all that can be held but one, or all, each with those busy, the front at 0 or above it.
const ROWS: usize = 4 * BUSY.len() * 2;
/// All numbers of 8 bits, and wide ones.
const NUMBERS: usize = 256 + WIDE.len();

pub fn number(at: usize) -> u32 {
    if at < 256 {
        at as u32
    } else {
        WIDE[at - 256]
    }
}

pub fn numbers() -> impl Iterator<Item = u32> {
    (0..NUMBERS).map(number)
}

fn row_of<L: Rows>(number: usize, tally: &mut Tally) -> Result<Pair<L>, String> {
    let frames: Vec<u32> = (0..[0, 1, HELD - 1, HELD][number % 4] as u32).collect();
    let mut pair = Pair::<L>::fresh(tally)?;
    pair.hold(&frames, BUSY[number / 4 % 3], tally)?;
    if number / 12 == 1 {
        pair.front_to_0(&frames, tally)?;
    }
    Ok(pair)
}

/// Every call on every number, in each of those rows.
fn call_case<L: Rows>(case: u64, _: &mut Rng, tally: &mut Tally) -> Outcome {
    let (frame, case) = (number(case as usize % NUMBERS), case as usize / NUMBERS);
    let (call, row) = (CALLS[case % CALLS.len()], case / CALLS.len());
    row_of::<L>(row, tally)?.call(call, frame, tally)
}
