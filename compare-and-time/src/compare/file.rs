//! Trace files, what is read from them and what is reported of them: good ones, ones with every set of faults, cut at
//! every place, with every byte changed, and drawn ones.

use super::file_bytes::{drawn, longest, refusals, small_files, with_faults, SMALL_FILES};
use super::{all_sets, made_with, must, numbers, same, Outcome, Subject, Tally};
use crate::rng::Rng;
use crate::simulator::file::{faults, read, report};
use crate::subject::Files;

pub fn subjects<L: Files>() -> Vec<Subject> {
    vec![
        Subject { name: "files", short: 20_000, full: 400_000, case: read_case::<L>, sets: sets() },
        Subject { name: "reports", short: 2_000, full: 40_000, case: report_case::<L>, sets: sets() },
        Subject::every("file-faults", SETS * EDGES, fault_case::<L>, sets()),
        Subject::every("file-damage", SMALL_FILES.iter().sum(), damage_case::<L>, DAMAGE.map(<[u8]>::to_vec).to_vec()),
        Subject::every("longest-file", 1, longest_case::<L>, LONGEST.map(<[u8]>::to_vec).to_vec()),
    ]
}

/// What a change of one byte, or a cut, can lead to: a count that is too large leaves values missing too.
const DAMAGE: [&[u8]; 6] = [&[], &[9], &[8], &[2, 8], &[10], &[3]];
const LONGEST: [&[u8]; 3] = [&[], &[8], &[10]];

/// Order O5. A file that ends too soon (8) has no bytes left (10), and its references are not all there to be bad (3).
fn sets() -> Vec<Vec<u8>> {
    let mut sets = all_sets(&[9, 2, 10, 3]);
    sets.extend(all_sets(&[9, 2, 8]).into_iter().filter(|set| set.contains(&8)));
    sets
}

fn read_case<L: Files>(_: u64, rng: &mut Rng, tally: &mut Tally) -> Outcome {
    compare_reading::<L>(&drawn(rng), tally)
}

fn report_case<L: Files>(_: u64, rng: &mut Rng, tally: &mut Tally) -> Outcome {
    compare_report::<L>(&drawn(rng), tally)
}

const SETS: usize = 256;
/// How many files there are for a set of faults.
const EDGES: usize = 6;

fn fault_case<L: Files>(case: u64, rng: &mut Rng, tally: &mut Tally) -> Outcome {
    let (bits, edge) = (case as usize % SETS, case as usize / SETS);
    let file = with_faults(rng, bits, edge);
    made_with(refusals(bits), numbers(&faults(&file)))?;
    compare_both::<L>(&file, tally)
}

/// One place of one of the small files: cut there, some bytes put in at the end, and that byte changed to every other.
fn damage_case<L: Files>(case: u64, rng: &mut Rng, tally: &mut Tally) -> Outcome {
    let (mut file, mut place) = (0, case as usize);
    while place >= SMALL_FILES[file] {
        place -= SMALL_FILES[file];
        file += 1;
    }
    let whole = &small_files(rng)[file];
    must(whole.len() == SMALL_FILES[file], "each small file is as long as it is said to be")?;
    compare_both::<L>(&whole[..place], tally)?;
    compare_both::<L>(&[&whole[..], &whole[..place]].concat(), tally)?;
    for change in 0..=255 {
        let mut changed = whole.clone();
        changed[place] ^= change;
        compare_both::<L>(&changed, tally)?;
    }
    Ok(())
}

/// The longest file, a byte less, a byte more, and many more.
fn longest_case<L: Files>(_: u64, rng: &mut Rng, tally: &mut Tally) -> Outcome {
    let mut file = longest(rng);
    must(file.len() == 8324, "the longest file has 8,324 bytes")?;
    compare_both::<L>(&file, tally)?;
    compare_both::<L>(&file[..8323], tally)?;
    file.resize(20_000, 0);
    compare_both::<L>(&file[..8325], tally)?;
    compare_both::<L>(&file, tally)
}

fn compare_both<L: Files>(bytes: &[u8], tally: &mut Tally) -> Outcome {
    compare_reading::<L>(bytes, tally)?;
    compare_report::<L>(bytes, tally)
}

/// The bytes as a file, and as the part of one that starts at its reference section (F3): behind no capacities the
/// reader hands on exactly these bytes.
fn compare_reading<L: Files>(bytes: &[u8], tally: &mut Tally) -> Outcome {
    for file in [bytes, &[&[0, 0], bytes].concat()] {
        tally.note(&faults(file));
        same(&shown("file", file), L::read(file), read(file))?;
    }
    Ok(())
}

fn compare_report<L: Files>(bytes: &[u8], tally: &mut Tally) -> Outcome {
    tally.note(&faults(bytes));
    let got = String::from_utf8_lossy(&L::report(bytes)).into_owned();
    same(&shown("report of a file", bytes), got, report(bytes))
}

fn shown(what: &str, bytes: &[u8]) -> String {
    format!("{what} of {} bytes that begins {:?}", bytes.len(), &bytes[..bytes.len().min(24)])
}
