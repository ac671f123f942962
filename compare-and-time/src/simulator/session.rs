//! A session (rules S1 to S3, O3, O4, R7).

use super::cache::{policy, Caches, Policy};
use super::{bad_limit, first, refusal, Refusal, PAGES, REFERENCES};

pub struct Session {
    pub caches: Caches,
    k: usize,
}

/// Order O3: 5, 1.
pub fn start_faults(policy_number: u32, k: usize) -> Vec<Refusal> {
    let mut faults = Vec::new();
    if matches!(policy(policy_number), None | Some(Policy::Opt)) {
        faults.push(refusal(5));
    }
    if bad_limit(k) {
        faults.push(refusal(1));
    }
    faults
}

pub fn start(policy_number: u32, k: usize) -> Result<Session, Refusal> {
    first(&start_faults(policy_number, k))?;
    Ok(Session { caches: Caches::new(policy(policy_number).unwrap(), k), k })
}

impl Session {
    /// Order O4: 6, 3. The place of a bad page is 0 here.
    pub fn reference_faults(&self, page: u32) -> Vec<Refusal> {
        let mut faults = Vec::new();
        if self.caches.accepted == REFERENCES {
            faults.push(refusal(6));
        }
        if page >= PAGES.into() {
            faults.push(refusal(3));
        }
        faults
    }

    /// The depth, or 0.
    pub fn reference(&mut self, page: u32) -> Result<usize, Refusal> {
        first(&self.reference_faults(page))?;
        Ok(self.caches.reference(page as u16, &[]))
    }

    pub fn accepted(&self) -> usize {
        self.caches.accepted
    }

    /// The hits and the misses at a capacity; they add up to the references accepted (A5).
    pub fn hits_and_misses(&self, capacity: usize) -> Result<(u32, u32), Refusal> {
        if capacity < 1 || capacity > self.k {
            return Err(refusal(7));
        }
        let hits = self.caches.hits[capacity - 1];
        Ok((hits, self.caches.accepted as u32 - hits))
    }
}
