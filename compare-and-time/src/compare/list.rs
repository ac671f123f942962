//! The list of a trace after its first t references, for every policy.

use super::faults::{at_edge, drawn, pick, Call, Faults, EDGES};
use super::{all_sets, chosen, made_with, numbers, same, same_list, Outcome, Subject, Tally};
use crate::gen::BAD_LIMITS;
use crate::rng::Rng;
use crate::simulator::trace::{list, list_faults};
use crate::subject::Lists;

/// Order O2.
const ORDER: [u8; 5] = [5, 1, 2, 3, 14];
const SETS: usize = 32;

pub fn subjects<L: Lists>() -> Vec<Subject> {
    let sets = all_sets(&ORDER);
    vec![
        Subject { name: "lists", short: 10_000, full: 100_000, case: drawn_case::<L>, sets: sets.clone() },
        Subject::every("list-faults", SETS * EDGES, fault_case::<L>, sets),
    ]
}

/// The faults that the bits name, in the order of the refusals; bit 4 is more references than the trace has.
fn faults(bits: usize) -> (Faults, bool) {
    let with = |bit: usize| bits >> bit & 1 == 1;
    (Faults { policy: with(0), limit: with(1), length: with(2), page: with(3) }, with(4))
}

/// Most cases meet no refusal.
fn drawn_case<L: Lists>(_: u64, rng: &mut Rng, tally: &mut Tally) -> Outcome {
    let (faults, beyond) = faults(if rng.percent(80) { 0 } else { rng.below(SETS) });
    let call = drawn(rng, faults);
    let length = call.trace.len();
    let inside = rng.within(0, length);
    let outside = rng.pick(&[length + 1, length + 2, length + 5000, usize::MAX]);
    let t = if beyond { outside } else { rng.pick(&[inside, inside, inside, 0, length]) };
    compare::<L>(&call, t, tally).map(|_| ())
}

/// Every set of faults, at every edge.
fn fault_case<L: Lists>(case: u64, rng: &mut Rng, tally: &mut Tally) -> Outcome {
    let (bits, edge) = (case as usize % SETS, case as usize / SETS);
    let (faults, beyond) = faults(bits);
    let call = at_edge(rng, faults, edge, &BAD_LIMITS);
    let length = call.trace.len();
    let (inside, outside) = ([length, length / 2, 0], [length + 1, length + 5000, usize::MAX]);
    let t = pick(if beyond { &outside } else { &inside }, edge);
    made_with(chosen(&ORDER, bits), compare::<L>(&call, t, tally)?)
}

/// Compares the call under each of its policies, and answers which refusals applied.
fn compare<L: Lists>(call: &Call, t: usize, tally: &mut Tally) -> Result<Vec<u8>, String> {
    let Call { trace, policies, k } = call;
    let mut met = Vec::new();
    for &policy in policies {
        let text = format!("list of {} references, policy {policy}, K {k}, after {t}", trace.len());
        match (L::list(trace, policy, *k, t), list(trace, policy, *k, t)) {
            (Ok(shown), Ok(caches)) => same_list(shown, *k, &caches).map_err(|fault| format!("{text}: {fault}"))?,
            (got, want) => same(&text, got.map(|_| ()), want.map(|_| ()))?,
        }
        let faults = list_faults(trace, policy, *k, t);
        tally.note(&faults);
        met = numbers(&faults);
    }
    Ok(met)
}
