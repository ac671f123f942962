//! The tests of lent memory (rules X2 to X6), as docs/RULES.md words them. Each answers ALL its parts that fail, by number: so a
//! comparison can say that it met memory to which nothing but one part objects. Part n of test m has the number
//! 100 + 10 m + n; X5 has ten parts, so X6 comes after 160.

use super::{CAPACITIES, FRAMES, HELD, IN_BANK, PAGES, REFERENCES, SLOTS};
use crate::musselrung::{Banks, Row, Session};

/// The numbers of the parts of each test.
pub const X2: [u8; 4] = [121, 122, 123, 124];
pub const X3: [u8; 1] = [131];
pub const X4: [u8; 5] = [141, 142, 143, 144, 145];
pub const X5: [u8; 10] = [151, 152, 153, 154, 155, 156, 157, 158, 159, 160];
pub const X6: [u8; 3] = [161, 162, 163];

/// Those parts of a test that do not hold.
fn failing<const N: usize>(numbers: [u8; N], hold: [bool; N]) -> Vec<u8> {
    numbers.into_iter().zip(hold).filter(|part| !part.1).map(|part| part.0).collect()
}

/// A session's numbers fit.
pub fn numbers(s: &Session) -> Vec<u8> {
    let policy = s.policy == 0 || s.policy == 1;
    let limit = s.k >= 1 && s.k <= CAPACITIES as u64;
    failing(X2, [policy, limit, s.length <= s.k, s.references <= REFERENCES as u64])
}

/// And its depths add up.
pub fn depths(s: &Session) -> Vec<u8> {
    let sum: u64 = s.depths.iter().map(|&times| u64::from(times)).sum();
    [numbers(s), failing(X3, [sum == s.references])].concat()
}

/// And all the rest of it.
pub fn session(s: &Session) -> Vec<u8> {
    let used = s.length.min(CAPACITIES as u64) as usize;
    let page = |place: u32| 65_535 - place % 65_536;
    let (list, behind) = s.places.split_at(used);
    let pages: Vec<u32> = list.iter().map(|&place| page(place)).collect();
    let is_page = |p: u32| p < u32::from(PAGES);
    let counted = |&place: &u32| !is_page(page(place)) || place / 65_536 == u32::from(s.counts[page(place) as usize]);
    let once = (0..used).all(|i| !pages[..i].contains(&pages[i]));
    let sum: u64 = s.counts.iter().map(|&times| u64::from(times)).sum();
    let sum_fits = sum == if s.policy == 1 { s.references } else { 0 };
    let rest = [
        pages.iter().all(|&p| is_page(p)),
        list.iter().all(counted),
        once,
        behind.iter().all(|&place| place == 0),
        sum_fits,
    ];
    [depths(s), failing(X4, rest)].concat()
}

/// A row is sound.
pub fn row(row: &Row) -> Vec<u8> {
    let (empty, nowhere) = (FRAMES as u8, SLOTS as u8);
    let below = row.front.min(SLOTS as u64) as usize;
    let is_held = |frame: usize| row.states[frame] == 1 || row.states[frame] == 2;
    let stands = |frame: usize| row.slots.get(usize::from(row.places[frame])) == Some(&(frame as u8));
    let frames = 0..FRAMES as usize;
    let filled = row.slots.iter().filter(|&&slot| slot < empty).count();
    let held = frames.clone().filter(|&frame| is_held(frame)).count();
    let front_empty = row.slots.get(below) == Some(&empty);
    failing(
        X5,
        [
            row.front <= SLOTS as u64,
            row.slots[..below].iter().all(|&slot| slot == empty),
            row.slots.iter().all(|&slot| slot <= empty),
            row.states.iter().all(|&state| state <= 2),
            frames.clone().all(|frame| !is_held(frame) || stands(frame)),
            frames.clone().all(|frame| row.states[frame] != 0 || row.places[frame] == nowhere),
            filled == held,
            held as u64 == row.held,
            held <= HELD,
            held < HELD || !front_empty,
        ],
    )
}

/// Banks are sound.
pub fn banks(banks: &Banks) -> Vec<u8> {
    let (gates, states) = (&banks.gates, &banks.row.states);
    let alike = gates.chunks(IN_BANK as usize).all(|bank| bank.windows(2).all(|two| two[0] == two[1]));
    let off_and_held = (0..FRAMES as usize).any(|frame| gates[frame] == 0 && matches!(states[frame], 1 | 2));
    [row(&banks.row), failing(X6, [gates.iter().all(|&gate| gate <= 2), alike, !off_and_held])].concat()
}
