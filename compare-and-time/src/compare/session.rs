//! Sessions: the answer to each reference, everything that can be read after it, and the memory that a refusal leaves.

use super::row::number;
use super::{all_sets, must, same, same_list, Outcome, Subject, Tally};
use crate::gen;
use crate::rng::Rng;
use crate::simulator::session::{start, start_faults, Session};
use crate::simulator::{CAPACITIES, PAGES, REFERENCES};
use crate::subject::Sessions;

pub fn subjects<L: Sessions>() -> Vec<Subject> {
    // orders O3 and O4, and a capacity out of range
    let starts = all_sets(&[5, 1]);
    let references = [all_sets(&[6, 3]), vec![vec![7]]].concat();
    let all = [starts.clone(), references.clone()].concat();
    vec![
        Subject { name: "sessions", short: 5_000, full: 100_000, case: drawn_case::<L>, sets: all },
        Subject::every("session-starts", POLICIES * LIMITS, start_case::<L>, starts),
        Subject::every("full-sessions", 2 * FULL.len(), full_case::<L>, references),
    ]
}

/// A session of the library beside one of the simulator.
struct Pair<L> {
    policy: u32,
    k: usize,
    got: L,
    want: Session,
}

impl<L: Sessions> Pair<L> {
    /// None if the start is refused.
    fn start(policy: u32, k: usize, tally: &mut Tally) -> Result<Option<Pair<L>>, String> {
        tally.note(&start_faults(policy, k));
        match (L::start(policy, k), start(policy, k)) {
            (Ok(got), Ok(want)) => Ok(Some(Pair { policy, k, got, want })),
            (got, want) => {
                let text = format!("start of a session, policy {policy}, K {k}");
                same(&text, got.map(|_| ()), want.map(|_| ())).map(|()| None)
            }
        }
    }

    fn refer(&mut self, page: u32, tally: &mut Tally) -> Outcome {
        let faults = self.want.reference_faults(page);
        let before = if faults.is_empty() { None } else { Some(self.got.clone()) };
        tally.note(&faults);
        let text = format!("policy {}, K {}, reference to {page}", self.policy, self.k);
        same(&text, self.got.reference(page), self.want.reference(page))?;
        must(before.map_or(true, |before| before == self.got), &format!("{text}: a refusal leaves the session"))
    }

    /// The list, the references accepted, and the hits and misses at these capacities.
    fn read(&self, capacities: &[usize], tally: &mut Tally) -> Outcome {
        must(self.got.sound(), "what references make of a session is sound")?;
        same_list(self.got.list(), self.k, &self.want.caches)?;
        same("references accepted", self.got.accepted(), self.want.accepted())?;
        for &capacity in capacities {
            let answer = self.want.hits_and_misses(capacity);
            tally.note(&answer.err().into_iter().collect::<Vec<_>>());
            same(&format!("hits at {capacity}"), self.got.hits(capacity), answer.map(|both| both.0))?;
            same(&format!("misses at {capacity}"), self.got.misses(capacity), answer.map(|both| both.1))?;
        }
        Ok(())
    }

    /// The same at every capacity, and at some that are none.
    fn read_all(&self, tally: &mut Tally) -> Outcome {
        let capacities: Vec<usize> = (0..=self.k + 1).chain(gen::BAD_LIMITS).collect();
        self.read(&capacities, tally)
    }

    fn read_some(&self, rng: &mut Rng, tally: &mut Tally) -> Outcome {
        let k = self.k;
        self.read(&[1, k, rng.within(1, k), 0, k + 1, rng.within(1, CAPACITIES), gen::bad_limit(rng)], tally)
    }
}

/// Random histories, bad references among them, read at random moments.
fn drawn_case<L: Sessions>(_: u64, rng: &mut Rng, tally: &mut Tally) -> Outcome {
    let bits = if rng.percent(80) { 0 } else { rng.below(4) };
    let bad = rng.pick(&[2, 2, 3, 255, 256, 256 + 1, 65_536 + 1, u32::MAX]);
    let policy = if bits & 1 == 1 { bad } else { rng.below(2) as u32 };
    let k = if bits & 2 == 2 { gen::bad_limit(rng) } else { gen::limit(rng) };
    let Some(mut pair) = Pair::<L>::start(policy, k, tally)? else { return Ok(()) };
    // some sessions go on after they are full
    let length = if rng.percent(1) { REFERENCES + 30 } else { gen::length(rng) };
    let often = rng.pick(&[0, 1, 20]);
    pair.read_some(rng, tally)?;
    for (i, valid) in gen::any_trace(rng, length).into_iter().enumerate() {
        let bad = rng.percent(often) || i > REFERENCES && i % 2 == 0;
        pair.refer(if bad { gen::bad_page_number(rng) } else { valid.into() }, tally)?;
        if rng.percent(3) {
            pair.read_some(rng, tally)?;
        }
    }
    pair.read_some(rng, tally)
}

/// All policy numbers of 8 bits, and wide ones.
const POLICIES: usize = 256 + gen::WIDE.len();
/// Every limit up to the largest, then those that are none.
const LIMITS: usize = CAPACITIES + gen::BAD_LIMITS.len();

/// Every policy number with every limit; a session that starts is read whole after each of some references.
fn start_case<L: Sessions>(case: u64, rng: &mut Rng, tally: &mut Tally) -> Outcome {
    let (policy, at) = (number(case as usize % POLICIES), case as usize / POLICIES);
    let k = if at < CAPACITIES { at + 1 } else { gen::BAD_LIMITS[at - CAPACITIES] };
    let Some(mut pair) = Pair::<L>::start(policy, k, tally)? else { return Ok(()) };
    pair.read_all(tally)?;
    for page in gen::any_trace(rng, 1 + k * 7 % 60) {
        pair.refer(if rng.percent(10) { gen::bad_page_number(rng) } else { page.into() }, tally)?;
        pair.read_all(tally)?;
    }
    Ok(())
}

/// Limits of sessions that are filled, under each of the two policies.
const FULL: [usize; 5] = [1, 2, 3, CAPACITIES - 1, CAPACITIES];

/// A session that is filled, and then asked for pages and for numbers that are none.
fn full_case<L: Sessions>(case: u64, rng: &mut Rng, tally: &mut Tally) -> Outcome {
    let (policy, k) = ((case as usize / FULL.len()) as u32, FULL[case as usize % FULL.len()]);
    let mut pair = Pair::<L>::start(policy, k, tally)?.ok_or("no session")?;
    pair.refer(PAGES.into(), tally)?;
    let pages = gen::any_trace(rng, REFERENCES);
    for &page in &pages {
        pair.refer(page.into(), tally)?;
    }
    let pages = [pages[0], pages[REFERENCES - 1], 0, PAGES - 1, PAGES, u16::MAX].map(u32::from);
    for page in pages.into_iter().chain(gen::WIDE) {
        pair.read_all(tally)?;
        pair.refer(page, tally)?;
    }
    pair.read_all(tally)
}
