//! Musselrung from Rust, as include/musselrung.h gives it to C: the same structures, and the same calls. It needs no more
//! than `core`; copy this folder beside your own modules and link with libmusselrung.a, which `tools/library` builds.
//!
//! Every method is safe whatever stands in a structure: the library tests what it was lent, and answers refusal 40 where
//! that is no session, no row or no banks. The header says what each call changes and in which order it refuses.

#![allow(dead_code)] // who copies this may need a part of it

mod banks;
pub mod raw;
mod row;
mod session;

pub use banks::Banks;
pub use row::Row;
pub use session::Session;

pub const CAPACITIES: usize = 64;
pub const REFERENCES: usize = 4096;
pub const PAGES: usize = 1024;
pub const FRAMES: usize = 64;
pub const SLOTS: usize = 64;
/// Depths 1 to 64, and 0 for "not in the list".
pub const DEPTHS: usize = 65;
/// The room that a report is written into.
pub const REPORT: usize = 2880;

/// The number of a refusal, and its place, which is 0 but for a bad page of a trace or a file.
#[derive(Clone, Copy, PartialEq, Eq, Debug)]
pub struct Refused {
    pub number: u32,
    pub place: u64,
}

/// What an accepted call tells, or its refusal.
pub type Answer = Result<u64, Refused>;

/// The answer of a call that returns its number and writes the rest.
#[inline]
fn answer(call: impl FnOnce(*mut u64) -> u32) -> Answer {
    let mut value = 0;
    match call(&mut value) {
        0 => Ok(value),
        number => Err(Refused { number, place: value }),
    }
}

/// The hits of a trace at each capacity 1 to `k`, into the first `k` entries of the table.
#[inline]
pub fn count(trace: &[u16], policy: u32, k: u64, hits: &mut [u32]) -> Answer {
    let (references, room) = (trace.len() as u64, hits.len() as u64);
    answer(|place| unsafe {
        raw::musselrung_count(trace.as_ptr(), references, policy, k, hits.as_mut_ptr(), room, place)
    })
}

/// The list of a trace after its first `t` references; answers its length.
pub fn list(trace: &[u16], policy: u32, k: u64, t: u64, places: &mut [u16; CAPACITIES]) -> Answer {
    let references = trace.len() as u64;
    answer(|length| unsafe { raw::musselrung_list(trace.as_ptr(), references, policy, k, t, places, length) })
}

/// Reads a trace file into the tables, with how many capacities and references there are.
pub fn read(
    file: &[u8],
    capacities: &mut [u16; CAPACITIES],
    references: &mut [u16; REFERENCES],
    counts: &mut [u64; 2],
) -> Answer {
    let length = file.len() as u64;
    answer(|place| unsafe { raw::musselrung_read(file.as_ptr(), length, capacities, references, counts, place) })
}

/// Writes the report of a trace file, and answers how many bytes that is.
pub fn report(file: &[u8], out: &mut [u8; REPORT]) -> usize {
    unsafe { raw::musselrung_report(file.as_ptr(), file.len() as u64, out) as usize }
}
