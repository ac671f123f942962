//! Random numbers that a seed gives again: SplitMix64 (Steele, Lea, Flood 2014).

pub struct Rng(u64);

impl Rng {
    /// The generator of one case: the same seed, subject and case give the same numbers on every machine.
    pub fn of_case(seed: u64, subject: &str, case: u64) -> Rng {
        let mut state = seed;
        for byte in subject.bytes() {
            state = Rng(state ^ u64::from(byte)).next();
        }
        Rng(state ^ Rng(case).next())
    }

    pub fn next(&mut self) -> u64 {
        self.0 = self.0.wrapping_add(0x9e37_79b9_7f4a_7c15);
        let mut z = self.0;
        z = (z ^ (z >> 30)).wrapping_mul(0xbf58_476d_1ce4_e5b9);
        z = (z ^ (z >> 27)).wrapping_mul(0x94d0_49bb_1331_11eb);
        z ^ (z >> 31)
    }

    /// A number below n, which is not 0.
    pub fn below(&mut self, n: usize) -> usize {
        (self.next() % n as u64) as usize
    }

    /// A number from low to high, both included.
    pub fn within(&mut self, low: usize, high: usize) -> usize {
        low + self.below(high - low + 1)
    }

    /// True n times in 100.
    pub fn percent(&mut self, n: usize) -> bool {
        self.below(100) < n
    }

    pub fn pick<T: Copy>(&mut self, of: &[T]) -> T {
        of[self.below(of.len())]
    }

    /// One of them, each as often as its share of the sum says.
    pub fn pick_by<T: Copy>(&mut self, of: &[T], shares: &[usize]) -> T {
        let mut at = self.below(shares.iter().sum());
        for (&one, &share) in of.iter().zip(shares) {
            if at < share {
                return one;
            }
            at -= share;
        }
        unreachable!("a number below the sum of the shares lies in one of them")
    }
}
