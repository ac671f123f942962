//! Memory that is not what it should be. Rows, banks and sessions that nobody prepared, or that somebody else has written
//! into, are lent to the library between guard bytes: each call answers 40 and leaves all as it was, or what the simulator
//! says of the memory; no guard byte is touched; and `sound` says what the simulator's tests say.

mod bytes;
mod fault;
mod lent;
mod rows;
mod sessions;

use self::fault::Fault;
use self::lent::{ask_banks, ask_session, SessionAsk, Told, UNTOLD};
use super::row::BAD_FRAMES;
use super::{must, same, Outcome, Subject, Tally};
use crate::gen;
use crate::musselrung::{Banks, Session};
use crate::rng::Rng;
use crate::simulator::banks::{Asked, BANK_CALLS};
use crate::simulator::memory::{banks_in, of_banks};
use crate::simulator::row::CALLS;
use crate::simulator::session::start_faults;
use crate::simulator::slots::Slots;
use crate::simulator::{self, entries, first, refusal, sound, Refusal};

/// What a row, or a row under banks, is asked.
#[derive(Clone, Copy, Debug)]
pub enum Ask {
    Fresh,
    Call(Asked),
    Victim,
    Sound,
}

impl Ask {
    fn number(self) -> u32 {
        match self {
            Ask::Call(Asked::Frame(_, number) | Asked::Bank(_, number)) => number,
            Ask::Fresh | Ask::Victim | Ask::Sound => unreachable!("nothing is asked of a number"),
        }
    }
}

#[derive(Clone, Copy, PartialEq, Eq, Debug)]
enum Kind {
    Row,
    Banks,
    Session,
}

const KINDS: [Kind; 3] = [Kind::Row, Kind::Banks, Kind::Session];

pub fn subjects() -> Vec<Subject> {
    // 40 where one part of a test alone objects, for each part; and refusals that come after it
    let parts = [&sound::X2[..], &sound::X3, &sound::X4, &sound::X5, &sound::X6].concat();
    let mut sets: Vec<Vec<u8>> = parts.into_iter().map(|part| vec![40, part]).collect();
    let others: [&[u8]; 13] =
        [&[], &[40], &[3], &[6], &[7], &[5, 1], &[20, 22], &[25], &[27], &[30], &[31], &[32], &[33, 22]];
    sets.extend(others.map(<[u8]>::to_vec));
    vec![
        Subject { name: "misuse", short: 60_000, full: 1_000_000, case, sets },
        Subject::every("misuse-faults", faults().len(), fault_case, vec![vec![]]),
    ]
}

fn case(case: u64, rng: &mut Rng, tally: &mut Tally) -> Outcome {
    case_of(KINDS[case as usize % KINDS.len()], Fault::None, rng, tally)
}

fn case_of(kind: Kind, fault: Fault, rng: &mut Rng, tally: &mut Tally) -> Outcome {
    match kind {
        Kind::Session => session_case(fault, rng, tally),
        _ => banks_case(kind == Kind::Banks, fault, rng, tally),
    }
}

/// Every fault of every kind of memory.
fn faults() -> Vec<(Kind, Fault)> {
    let row = sound::X5.to_vec();
    let parts = [row.clone(), [&row[..], &sound::X6].concat(), [&sound::X2[..], &sound::X3, &sound::X4].concat()];
    let mut faults = Vec::new();
    for (kind, parts) in KINDS.into_iter().zip(parts) {
        faults.extend(parts.into_iter().map(|part| (kind, Fault::LeftOut(part))));
        faults.extend([Fault::Changed, Fault::Valued, Fault::Guard].map(|fault| (kind, fault)));
    }
    faults
}

/// How many cases may pass before a fault is found.
const PATIENCE: usize = 20_000;

/// A library with a fault is found out.
fn fault_case(case: u64, rng: &mut Rng, tally: &mut Tally) -> Outcome {
    let (kind, fault) = faults()[case as usize];
    tally.note(&[]);
    let found = (0..PATIENCE).any(|_| case_of(kind, fault, rng, &mut Tally::default()).is_err());
    must(found, &format!("a library with the fault {fault:?} of a {kind:?} is found out"))
}

/// Notes a 40, with the part of the test that alone objects; or the refusals that apply.
fn note(tally: &mut Tally, failing: &[u8], faults: &[Refusal]) {
    match failing {
        [] => tally.note(faults),
        &[part] => tally.note(&[refusal(40), refusal(part)]),
        _ => tally.note(&[refusal(40)]),
    }
}

/// Number and value of an answer.
fn told(answer: Result<u64, Refusal>) -> Told {
    match answer {
        Ok(value) => Told::new(0, value),
        Err(refused) => Told::new(refused.number.into(), refused.place as u64),
    }
}

// ---- rows and banks

fn banks_case(under_banks: bool, fault: Fault, rng: &mut Rng, tally: &mut Tally) -> Outcome {
    let mut memory = rows::made(rng);
    if !under_banks {
        // a row is not lent them, and the simulator's stay open
        memory.gates = [1; 64];
    }
    let frame_calls = CALLS.map(|call| Ask::Call(Asked::Frame(call, frame(rng, &memory))));
    let bank_calls = BANK_CALLS.map(|call| Ask::Call(Asked::Bank(call, rng.pick(&[0, 1, 2, 3, 3, 2, 1, 0, 4, 257]))));
    let mut asks = [&[Ask::Fresh, Ask::Sound, Ask::Victim], &frame_calls[..]].concat();
    if under_banks {
        asks.extend(bank_calls);
    }
    for &ask in &asks {
        compare_banks(under_banks, &mut memory.clone(), ask, fault, tally)?;
    }
    // and some of them one after the other
    for _ in 0..6 {
        compare_banks(under_banks, &mut memory, rng.pick(&asks), fault, tally)?;
    }
    Ok(())
}

/// One that is held mostly, as far as the memory shows any.
fn frame(rng: &mut Rng, memory: &Banks) -> u32 {
    let (slot, any) = (rng.pick(&memory.row.slots), rng.below(64) as u32);
    match rng.below(20) {
        0 => rng.pick(&BAD_FRAMES),
        1..=12 if slot < 64 => slot.into(),
        _ => any,
    }
}

fn compare_banks(under_banks: bool, memory: &mut Banks, ask: Ask, fault: Fault, tally: &mut Tally) -> Outcome {
    let failing = match ask {
        Ask::Fresh => Vec::new(),
        _ if under_banks => sound::banks(memory),
        _ => sound::row(&memory.row),
    };
    let (want, after) = banks_answer(memory, ask, &failing, tally);
    let before = memory.clone();
    let shown = |fault: String| format!("{ask:?} on {before:?}, of which {failing:?} fail: {fault}");
    let mut got = ask_banks(under_banks, memory, ask, fault).map_err(shown)?;
    if fault.of(&failing, &mut got, matches!(ask, Ask::Sound)) {
        memory.row.held ^= 1;
    }
    same("what is told", got, want).map_err(shown)?;
    same("the memory after it", &*memory, &after).map_err(shown)
}

/// What has to be told, and the memory after it.
fn banks_answer(before: &Banks, ask: Ask, failing: &[u8], tally: &mut Tally) -> (Told, Banks) {
    if let Ask::Sound = ask {
        note(tally, failing, &[]);
        return (Told::new(failing.is_empty().into(), UNTOLD), before.clone());
    }
    if !failing.is_empty() {
        note(tally, failing, &[]);
        return (Told::new(40, 0), before.clone());
    }
    if let Ask::Fresh = ask {
        tally.note(&[]);
        return (Told::new(0, UNTOLD), of_banks(&simulator::banks::Banks::fresh(), &Slots::fresh()));
    }
    let (mut banks, mut slots) = banks_in(before);
    match ask {
        Ask::Call(asked) => {
            note(tally, failing, &banks.faults(asked));
            let answer = banks.ask(asked).map(|examined| examined as u64);
            if answer.is_ok() {
                slots.follow(asked);
            }
            (told(answer), of_banks(&banks, &slots))
        }
        _ => {
            note(tally, failing, banks.victim().err().as_slice());
            (told(banks.victim().map(u64::from)), before.clone())
        }
    }
}

// ---- sessions

fn session_case(fault: Fault, rng: &mut Rng, tally: &mut Tally) -> Outcome {
    let mut memory = sessions::made(rng);
    let (listed, any, bad) = (rng.pick(&memory.places), rng.below(1024) as u32, gen::bad_page_number(rng));
    // of all counts the largest may be at its end
    let largest = (0..1024).max_by_key(|&page| memory.counts[page as usize]).unwrap();
    let page = rng.pick(&[any, (65_535 - listed % 65_536) & 1023, largest, bad]);
    let (k, some) = (memory.k, rng.below(70) as u64);
    let capacity = rng.pick(&[0, 1, k, k.wrapping_add(1), 64, 65, some, u64::MAX]);
    let (policy, limit) = (rng.pick(&[0, 1, 1, 2, 255, 256]), rng.pick(&[1, 64, some, capacity]));
    let asks = [
        SessionAsk::Start(policy, limit),
        SessionAsk::Sound,
        SessionAsk::Refer(page),
        SessionAsk::Refer(any),
        SessionAsk::List,
        SessionAsk::References,
        SessionAsk::Hits(capacity),
        SessionAsk::Misses(capacity),
    ];
    for ask in asks {
        compare_session(&mut memory.clone(), ask, fault, tally)?;
    }
    for _ in 0..6 {
        compare_session(&mut memory, rng.pick(&asks), fault, tally)?;
    }
    Ok(())
}

fn compare_session(memory: &mut Session, ask: SessionAsk, fault: Fault, tally: &mut Tally) -> Outcome {
    let failing = match ask {
        SessionAsk::Start(..) => Vec::new(),
        SessionAsk::Sound => sound::session(memory),
        SessionAsk::Hits(_) | SessionAsk::Misses(_) => sound::depths(memory),
        SessionAsk::Refer(_) | SessionAsk::List | SessionAsk::References => sound::numbers(memory),
    };
    let (want, after) = session_answer(memory, ask, &failing, tally);
    let Session { k, length, references, policy, .. } = *memory;
    let shown = |fault: String| {
        let numbers = format!("policy {policy}, K {k}, {length} places, {references} references");
        format!("{ask:?} on a session of {numbers}, of which {failing:?} fail: {fault}")
    };
    let mut got = ask_session(memory, ask, fault).map_err(shown)?;
    if fault.of(&failing, &mut got, matches!(ask, SessionAsk::Sound)) {
        memory.depths[64] ^= 1;
    }
    same("what is told", got, want).map_err(shown)?;
    must(*memory == after, "the memory after it is what it has to be").map_err(shown)
}

/// What has to be told, and the memory after it.
fn session_answer(before: &Session, ask: SessionAsk, failing: &[u8], tally: &mut Tally) -> (Told, Session) {
    let same = before.clone();
    if let SessionAsk::Sound = ask {
        note(tally, failing, &[]);
        return (Told::new(failing.is_empty().into(), UNTOLD), same);
    }
    if !failing.is_empty() {
        note(tally, failing, &[]);
        return (Told::new(40, 0), same);
    }
    let hits = |capacity| entries::hits(before, capacity);
    let (answer, after) = match ask {
        SessionAsk::Start(policy, k) => {
            let faults = start_faults(policy, k as usize);
            tally.note(&faults);
            let started = Session { policy: policy as u8, k, ..Session::EMPTY };
            return match first(&faults) {
                Ok(()) => (Told::new(0, UNTOLD), started),
                Err(refused) => (Told::new(refused.number.into(), UNTOLD), same),
            };
        }
        SessionAsk::Refer(page) => {
            tally.note(&entries::faults(before, page));
            return match entries::reference(before, page) {
                Ok((depth, after)) => (Told::new(0, depth as u64), after),
                Err(refused) => (told(Err(refused)), same),
            };
        }
        SessionAsk::List => {
            tally.note(&[]);
            return (Told { number: 0, value: before.length, shown: entries::shown(before) }, same);
        }
        SessionAsk::Hits(capacity) => (hits(capacity), same),
        SessionAsk::Misses(capacity) => (hits(capacity).map(|hits| before.references - hits), same),
        SessionAsk::References | SessionAsk::Sound => (Ok(before.references), same),
    };
    tally.note(answer.err().as_slice());
    (told(answer), after)
}
