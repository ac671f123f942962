//! Compares a library with the simulator, case by case. A case is made from the seed, the subject and its number alone,
//! so that any of them can be run again by itself. Some subjects draw their cases; of the others every case there is, is
//! run in every round.

pub mod banks;
pub mod faults;
pub mod file;
pub mod file_bytes;
pub mod list;
pub mod misuse;
pub mod pair;
pub mod row;
pub mod session;
pub mod trace;

use crate::rng::Rng;
use crate::simulator::cache::Caches;
use crate::simulator::Refusal;
use std::collections::BTreeMap;
use std::fmt::{Debug, Display};

/// Nothing, or what differs.
pub type Outcome = Result<(), String>;

/// What a subject's cases have shown so far.
#[derive(Default)]
pub struct Tally {
    /// How many answers were compared.
    pub answers: u64,
    /// The refusals that were seen to apply at once, in the call's order, and how often; the first was given.
    pub sets: BTreeMap<Vec<u8>, u64>,
}

impl Tally {
    /// Notes the refusals that apply to one call, in the call's order.
    pub fn note(&mut self, faults: &[Refusal]) {
        self.answers += 1;
        *self.sets.entry(numbers(faults)).or_default() += 1;
    }

    /// How often each refusal was given.
    pub fn given(&self) -> BTreeMap<u8, u64> {
        let mut given = BTreeMap::new();
        for (set, times) in &self.sets {
            if let Some(&number) = set.first() {
                *given.entry(number).or_default() += times;
            }
        }
        given
    }
}

/// The numbers of the refusals that apply, each once.
pub fn numbers(faults: &[Refusal]) -> Vec<u8> {
    let mut numbers = Vec::new();
    for fault in faults {
        if !numbers.contains(&fault.number) {
            numbers.push(fault.number);
        }
    }
    numbers
}

/// All sets of refusals, each in the order given: where each can apply beside any other.
pub fn all_sets(order: &[u8]) -> Vec<Vec<u8>> {
    (0..1 << order.len()).map(|bits| chosen(order, bits)).collect()
}

/// Those that the bits name.
pub fn chosen<T: Copy>(of: &[T], bits: usize) -> Vec<T> {
    (0..of.len()).filter(|bit| bits >> bit & 1 == 1).map(|bit| of[bit]).collect()
}

pub fn same<T: PartialEq + Debug>(what: impl Display, got: T, want: T) -> Outcome {
    if got == want {
        return Ok(());
    }
    Err(format!("{what}: the library says {got:?}, the simulator {want:?}"))
}

/// What has to hold beside that the answers are the same.
pub fn must(holds: bool, what: &str) -> Outcome {
    if holds {
        return Ok(());
    }
    Err(format!("not so: {what}"))
}

/// A case made with these faults must be one to which exactly these refusals apply.
pub fn made_with(asked: Vec<u8>, met: Vec<u8>) -> Outcome {
    must(asked == met, &format!("the case is made for the refusals {asked:?}, and the simulator sees {met:?}"))
}

/// A list as a library shows it: its places are those of the plain caches (demand D3), its length is theirs, and past it
/// there are zeros (rule A6).
pub fn same_list(shown: (usize, Vec<u16>), k: usize, caches: &Caches) -> Outcome {
    let (length, places) = shown;
    same("the list's length", length, caches.held(k).len())?;
    if let Some(c) = caches.first_difference(&places[..length]) {
        let (places, held) = (&places[..length.min(c)], caches.held(c));
        return Err(format!("the first {c} places have {places:?}, a plain cache of {c} frames {held:?}"));
    }
    must(places[length..].iter().all(|&page| page == 0), "places past the list's length are 0")
}

/// How to run a case again; also said where the case panics.
struct Again {
    name: &'static str,
    seed: u64,
    case: u64,
}

impl Again {
    fn text(&self) -> String {
        let Again { name, seed, case } = self;
        format!("{name}: case {case} FAILED; run it again: compare-and-time/compare {name} --seed {seed} --only {case}")
    }
}

impl Drop for Again {
    fn drop(&mut self) {
        if std::thread::panicking() {
            eprintln!("{}", self.text());
        }
    }
}

/// A subject: its name, how many cases a short and a full round have, one case, and the sets of refusals that a round
/// must have met, the empty set among them if a call must have been accepted.
pub struct Subject {
    pub name: &'static str,
    pub short: u64,
    pub full: u64,
    pub case: fn(u64, &mut Rng, &mut Tally) -> Outcome,
    pub sets: Vec<Vec<u8>>,
}

impl Subject {
    /// A subject whose cases are all that there are.
    pub fn every(
        name: &'static str,
        cases: usize,
        case: fn(u64, &mut Rng, &mut Tally) -> Outcome,
        sets: Vec<Vec<u8>>,
    ) -> Subject {
        Subject { name, short: cases as u64, full: cases as u64, case, sets }
    }

    /// Runs cases `from` to `to` - 1. The error is what to print.
    pub fn run(&self, seed: u64, from: u64, to: u64) -> Result<Tally, String> {
        let mut tally = Tally::default();
        for case in from..to {
            let mut rng = Rng::of_case(seed, self.name, case);
            let again = Again { name: self.name, seed, case };
            let before = tally.answers;
            (self.case)(case, &mut rng, &mut tally).map_err(|fault| format!("{fault}\n{}", again.text()))?;
            if tally.answers == before {
                return Err(format!("no answer was compared\n{}", again.text()));
            }
        }
        Ok(tally)
    }

    /// A round that never met a set of refusals shows nothing about it.
    pub fn complete(&self, tally: &Tally) -> Outcome {
        match self.sets.iter().find(|&set| !tally.sets.contains_key(set)) {
            None => Ok(()),
            Some(set) if set.is_empty() => Err(format!("{}: no case was accepted", self.name)),
            Some(set) => Err(format!("{}: no case met the refusals {set:?} at once", self.name)),
        }
    }
}
