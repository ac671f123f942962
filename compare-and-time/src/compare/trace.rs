//! Whole traces: the answer and the whole hit table after the call, for every policy.

use super::faults::{at_edge, drawn, Call, Faults, EDGES};
use super::{all_sets, chosen, made_with, must, numbers, same, Outcome, Subject, Tally};
use crate::gen::BAD_LIMITS;
use crate::rng::Rng;
use crate::simulator::trace::{count, count_faults};
use crate::simulator::CAPACITIES;
use crate::subject::Counts;

/// Order O1.
const ORDER: [u8; 5] = [5, 1, 2, 4, 3];
const SETS: usize = 32;
/// No larger table is lent.
const MOST: usize = 5 * CAPACITIES;
/// What stands beside the table that is lent.
const BESIDE: [u32; 16] = [0xa5a5_a5a5; 16];

pub fn subjects<L: Counts>() -> Vec<Subject> {
    let sets = all_sets(&ORDER);
    vec![
        Subject { name: "traces", short: 20_000, full: 200_000, case: drawn_case::<L>, sets: sets.clone() },
        Subject::every("trace-faults", SETS * EDGES, fault_case::<L>, sets),
    ]
}

/// The faults that the bits name, in the order of the refusals; bit 3 is a table that is too short.
fn faults(bits: usize) -> (Faults, bool) {
    let with = |bit: usize| bits >> bit & 1 == 1;
    (Faults { policy: with(0), limit: with(1), length: with(2), page: with(4) }, with(3))
}

/// Most cases meet no refusal.
fn drawn_case<L: Counts>(_: u64, rng: &mut Rng, tally: &mut Tally) -> Outcome {
    let (faults, short) = faults(if rng.percent(80) { 0 } else { rng.below(SETS) });
    let call = drawn(rng, faults);
    let room = if short { rng.below(call.k.clamp(1, MOST)) } else { call.k.min(MOST) + rng.below(4) };
    compare::<L>(&call, &table(rng, room), tally).map(|_| ())
}

/// Every set of faults, at every edge.
fn fault_case<L: Counts>(case: u64, rng: &mut Rng, tally: &mut Tally) -> Outcome {
    let (bits, edge) = (case as usize % SETS, case as usize / SETS);
    let (faults, short) = faults(bits);
    // a limit of 0, which is first, has no shorter table, and a wide one no table that is long enough
    let limits = if short { &BAD_LIMITS[1..] } else { &BAD_LIMITS[..5] };
    let call = at_edge(rng, faults, edge, limits);
    let room = if short { (call.k - 1).min(MOST) } else { call.k + edge % 3 };
    made_with(chosen(&ORDER, bits), compare::<L>(&call, &table(rng, room), tally)?)
}

fn table(rng: &mut Rng, room: usize) -> Vec<u32> {
    (0..room).map(|_| rng.next() as u32).collect()
}

/// Compares the call under each of its policies, and answers which refusals applied.
fn compare<L: Counts>(call: &Call, before: &[u32], tally: &mut Tally) -> Result<Vec<u8>, String> {
    let Call { trace, policies, k } = call;
    let mut met = Vec::new();
    for &policy in policies {
        let text = format!("count of {} references, policy {policy}, K {k}, a table of {}", trace.len(), before.len());
        let faults = count_faults(trace, policy, *k, before);
        // the table stands between others of ours
        let (mut lent, mut want) = ([&BESIDE, before, &BESIDE].concat(), before.to_vec());
        let got = BESIDE.len()..BESIDE.len() + before.len();
        same(&text, L::count(trace, policy, *k, &mut lent[got.clone()]), count(trace, policy, *k, &mut want))?;
        same(&format!("hit table after {text}"), &lent[got.clone()], &want[..])?;
        must(
            lent[..got.start] == BESIDE && lent[got.end..] == BESIDE,
            &format!("nothing is written beside it: {text}"),
        )?;
        tally.note(&faults);
        met = numbers(&faults);
    }
    Ok(met)
}
