//! Calls on a trace with faults on purpose: which of the refusals shall apply is asked for, and the values at fault, and
//! the good ones beside them, are chosen by a number or drawn.

use crate::gen;
use crate::rng::Rng;
use crate::simulator::{CAPACITIES, PAGES, REFERENCES};

/// What is wrong with a call on a trace.
#[derive(Clone, Copy)]
pub struct Faults {
    pub policy: bool,
    pub limit: bool,
    pub length: bool,
    pub page: bool,
}

pub struct Call {
    pub trace: Vec<u16>,
    pub policies: Vec<u32>,
    pub k: usize,
}

const BAD_POLICIES: [u32; 8] = [3, 4, 128, 255, 256, 256 + 1, 65_536 + 2, u32::MAX];

/// A call of any kind, drawn.
pub fn drawn(rng: &mut Rng, faults: Faults) -> Call {
    let length = if faults.length { rng.pick(&gen::TOO_LONG) } else { gen::length(rng) };
    let mut trace = gen::any_trace(rng, length);
    if faults.page && length > 0 {
        gen::spoil(rng, &mut trace);
    }
    let k = if faults.limit { gen::bad_limit(rng) } else { gen::limit(rng) };
    let policies = if faults.policy { vec![rng.pick(&BAD_POLICIES)] } else { vec![0, 1, 2] };
    Call { trace, policies, k }
}

/// How many calls there are for a set of faults: `edge` goes through the values next to each limit.
pub const EDGES: usize = 60;

/// A call at the edges of the limits: outside where there is a fault, and just inside where there is none. A bad limit is
/// one of those given.
pub fn at_edge(rng: &mut Rng, faults: Faults, edge: usize, bad_limits: &[usize]) -> Call {
    let length = pick(if faults.length { &gen::TOO_LONG } else { &[1, 40, REFERENCES - 1, REFERENCES] }, edge);
    let mut trace = gen::any_trace(rng, length);
    let place = pick(&[0, length / 2, length - 1], edge);
    trace[place] = pick(if faults.page { &gen::BAD_PAGES } else { &[PAGES - 1, 0] }, edge);
    let policy = pick(if faults.policy { &BAD_POLICIES } else { &[0, 1, 2] }, edge);
    let k = pick(if faults.limit { bad_limits } else { &[1, 2, 5, CAPACITIES - 1, CAPACITIES] }, edge);
    Call { trace, policies: vec![policy], k }
}

pub fn pick<T: Copy>(of: &[T], edge: usize) -> T {
    of[edge % of.len()]
}
