//! The same work as plain Rust, as a good engineer would write it: what the proved code is timed against.

pub mod banks;
pub mod row;
pub mod session;
pub mod trace;
pub mod walk;
