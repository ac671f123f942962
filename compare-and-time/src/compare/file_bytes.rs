//! The bytes of trace files, written by hand: whole ones, and ones that are broken on purpose.

use super::faults::pick;
use crate::gen;
use crate::rng::Rng;
use crate::simulator::{CAPACITIES, PAGES, REFERENCES};

/// The largest capacity and the largest count of capacities, and counts that are too large.
const MOST: u16 = CAPACITIES as u16;
const TOO_MANY: [u16; 3] = [MOST + 1, MOST + 2, 2 * MOST];

/// A section: its count and its values.
fn section(values: &[u16]) -> Vec<u8> {
    let count = values.len() as u16;
    [count].iter().chain(values).flat_map(|value| value.to_le_bytes()).collect()
}

pub fn bytes(capacities: &[u16], references: &[u16]) -> Vec<u8> {
    [section(capacities), section(references)].concat()
}

/// Good files of a few bytes, and of more.
pub fn small_files(rng: &mut Rng) -> [Vec<u8>; 5] {
    let sample = [2, 3, 2, 1, 5, 2, 4, 5, 3, 2, 5, 2];
    [
        bytes(&[], &[]),
        bytes(&[], &gen::any_trace(rng, 9)),
        bytes(&[6, 7, 8, 9, MOST], &[]),
        bytes(&[6, 7, 8, 9, 10], &gen::any_trace(rng, 20)),
        bytes(&[1, 3, 4], &sample),
    ]
}

/// How many bytes those files have.
pub const SMALL_FILES: [usize; 5] = [4, 22, 14, 54, 34];

/// The file with every number at its limit.
pub fn longest(rng: &mut Rng) -> Vec<u8> {
    let capacities: Vec<u16> = (1..=MOST).collect();
    let mut references = gen::any_trace(rng, REFERENCES);
    references[REFERENCES - 1] = PAGES - 1;
    bytes(&capacities, &references)
}

/// A file that is broken in the ways that the eight bits name: a capacity of 0, capacities that do not rise, too many of
/// them, a cut in them, a cut in the references, bytes left, too many references, a bad page. Of two ways that cannot be
/// together the earlier is taken.
pub fn with_faults(rng: &mut Rng, bits: usize, edge: usize) -> Vec<u8> {
    let with = |bit: usize| bits >> bit & 1 == 1;
    let n = pick(if with(2) { &TOO_MANY } else { &[6, MOST, 3] }, edge);
    let mut capacities: Vec<u16> = (1..=n).collect();
    if with(0) {
        capacities[0] = 0;
    }
    if with(1) {
        capacities[2] = capacities[1] - (edge % 2) as u16;
    }
    let length = pick(if with(6) { &gen::TOO_LONG } else { &[8, 9, REFERENCES - 1, REFERENCES] }, edge);
    let mut references = gen::any_trace(rng, length);
    if with(7) {
        references[pick(&[0, length / 2, length - 1], edge)] = pick(&gen::BAD_PAGES, edge);
    }
    let mut file = bytes(&capacities, &references);
    let start = 2 + 2 * capacities.len();
    if with(3) {
        file.truncate(start - 1 - edge % 4);
    } else if with(4) {
        file.truncate(file.len() - 1 - edge % 4);
    } else if with(5) {
        file.resize(file.len() + 1 + edge % 3, 7);
    }
    file
}

/// The refusals that those ways lead to, in order O5.
pub fn refusals(bits: usize) -> Vec<u8> {
    let with = |bit: usize| bits >> bit & 1 == 1;
    let (cut_early, cut_late) = (with(3), !with(3) && with(4));
    let whole = !cut_early && !cut_late;
    let applies = [
        (9, with(2) || !cut_early && (with(0) || with(1))),
        (2, !cut_early && with(6)),
        (8, !whole),
        (10, whole && with(5)),
        (3, whole && with(7)),
    ];
    applies.into_iter().filter(|applies| applies.1).map(|applies| applies.0).collect()
}

/// Any file: noise, a good one, a cut one, or one broken in several ways at once.
pub fn drawn(rng: &mut Rng) -> Vec<u8> {
    match rng.below(10) {
        0 => (0..rng.below(40)).map(|_| rng.below(256) as u8).collect(),
        1 => (0..rng.below(40)).map(|_| rng.below(3) as u8).collect(),
        2 | 3 => {
            let whole = broken(rng, 0);
            let cut = rng.below(whole.len());
            whole[..cut].to_vec()
        }
        4 | 5 => broken(rng, 0),
        _ => {
            let bits = rng.below(32);
            broken(rng, bits)
        }
    }
}

fn broken(rng: &mut Rng, bits: usize) -> Vec<u8> {
    let with = |bit: usize| bits >> bit & 1 == 1;
    let mut capacities: Vec<u16> = (1..=MOST).filter(|_| rng.percent(20)).collect();
    if with(0) {
        spoil_capacities(rng, &mut capacities);
    }
    let length = if with(1) { rng.pick(&gen::TOO_LONG) } else { gen::length(rng) };
    let mut references = gen::any_trace(rng, length);
    if with(2) && length > 0 {
        gen::spoil(rng, &mut references);
    }
    let mut file = bytes(&capacities, &references);
    if with(3) {
        (0..rng.within(1, 5)).for_each(|i| file.push(i as u8));
    }
    if with(4) {
        file.truncate(file.len() - rng.below(file.len().min(20)));
    }
    file
}

fn spoil_capacities(rng: &mut Rng, capacities: &mut Vec<u16>) {
    match rng.below(5) {
        0 => capacities.insert(0, 0),
        1 => capacities.push(rng.pick(&[MOST + 1, MOST + 2, 4 * MOST, u16::MAX])),
        2 => capacities.extend([7, 7]),
        3 => capacities.extend([9, 3]),
        _ => *capacities = (1..=rng.pick(&TOO_MANY)).collect(),
    }
}
