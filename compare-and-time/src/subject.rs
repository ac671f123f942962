//! What the harness asks of a library, subject by subject. The proved library answers through `musselrung`, the plain Rust
//! versions directly, and both are held to the simulator. Numbers of frames, banks, pages and policies come as wide as C
//! passes them.

use crate::musselrung;
use crate::simulator::banks::{Asked, BankCall};
use crate::simulator::file::File;
use crate::simulator::row::Call;
use crate::simulator::Refusal;
use std::fmt::Debug;

pub trait Counts {
    /// Writes to the table as the library does.
    fn count(trace: &[u16], policy: u32, k: usize, table: &mut [u32]) -> Result<(), Refusal>;
}

pub trait Lists {
    /// The length, and all places that the library shows.
    fn list(trace: &[u16], policy: u32, k: usize, t: usize) -> Result<(usize, Vec<u16>), Refusal>;
}

/// Equal sessions have equal memory, so that what a refusal leaves can be compared with what was there.
pub trait Sessions: Clone + PartialEq + Debug {
    fn start(policy: u32, k: usize) -> Result<Self, Refusal>;
    fn reference(&mut self, page: u32) -> Result<usize, Refusal>;
    fn list(&self) -> (usize, Vec<u16>);
    fn accepted(&self) -> usize;
    fn hits(&self, capacity: usize) -> Result<u32, Refusal>;
    fn misses(&self, capacity: usize) -> Result<u32, Refusal>;
    /// The test of all of it.
    fn sound(&self) -> bool;
}

/// A row's memory: slots (64 for an empty one), the slot of each frame (64 for none) and its state (0 absent, 1 idle, 2
/// busy), the front, and how many frames are held.
pub type Memory = musselrung::Row;

/// The refusal if any, and the slots examined.
pub type Answer = (Result<(), Refusal>, usize);

pub trait Rows {
    fn fresh() -> Self;
    fn call(&mut self, call: Call, frame: u32) -> Answer;
    fn victim(&self) -> Result<u32, Refusal>;
    /// The test of the whole memory.
    fn sound(&self) -> bool;
    fn memory(&self) -> Memory;
}

/// A row under banks is asked all that a row is, and the bank calls.
pub trait Banks: Rows + Clone {
    fn bank_call(&mut self, call: BankCall, bank: u32) -> Answer;
    /// The rest of the memory: for each frame the state of its bank (0 off, 1 open, 2 closing).
    fn gates(&self) -> [u8; 64];

    #[inline]
    fn ask(&mut self, asked: Asked) -> Answer {
        match asked {
            Asked::Frame(call, frame) => self.call(call, frame),
            Asked::Bank(call, bank) => self.bank_call(call, bank),
        }
    }
}

pub trait Files {
    fn read(bytes: &[u8]) -> Result<File, Refusal>;
    fn report(bytes: &[u8]) -> Vec<u8>;
}
