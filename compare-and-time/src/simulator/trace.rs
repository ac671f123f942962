//! Whole traces (rules O1, A4) and the list of a trace (O2, M8).

use super::cache::{policy, Caches};
use super::{bad_limit, first, first_bad_page, refusal, Refusal, REFERENCES};

/// Order O1: 5, 1, 2, 4, 3.
pub fn count_faults(trace: &[u16], policy_number: u32, k: usize, table: &[u32]) -> Vec<Refusal> {
    let mut faults = Vec::new();
    if policy(policy_number).is_none() {
        faults.push(refusal(5));
    }
    if bad_limit(k) {
        faults.push(refusal(1));
    }
    if trace.len() > REFERENCES {
        faults.push(refusal(2));
    }
    if table.len() < k {
        faults.push(refusal(4));
    }
    faults.extend(first_bad_page(trace));
    faults
}

pub fn count(trace: &[u16], policy_number: u32, k: usize, table: &mut [u32]) -> Result<(), Refusal> {
    first(&count_faults(trace, policy_number, k, table))?;
    let caches = run(trace, policy_number, k, trace.len());
    table[..k].copy_from_slice(&caches.hits);
    Ok(())
}

/// Order O2: 5, 1, 2, 3, 14.
pub fn list_faults(trace: &[u16], policy_number: u32, k: usize, t: usize) -> Vec<Refusal> {
    let mut faults = Vec::new();
    if policy(policy_number).is_none() {
        faults.push(refusal(5));
    }
    if bad_limit(k) {
        faults.push(refusal(1));
    }
    if trace.len() > REFERENCES {
        faults.push(refusal(2));
    }
    faults.extend(first_bad_page(trace));
    if t > trace.len() {
        faults.push(refusal(14));
    }
    faults
}

/// The caches that the list after t references has to be read off.
pub fn list(trace: &[u16], policy_number: u32, k: usize, t: usize) -> Result<Caches, Refusal> {
    first(&list_faults(trace, policy_number, k, t))?;
    Ok(run(trace, policy_number, k, t))
}

fn run(trace: &[u16], policy_number: u32, k: usize, t: usize) -> Caches {
    let mut caches = Caches::new(policy(policy_number).unwrap(), k);
    for i in 0..t {
        caches.reference(trace[i], &trace[i + 1..]);
    }
    caches
}
