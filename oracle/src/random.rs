//! splitmix64: one seed, one sequence of numbers, on every machine.

pub struct Random(u64);

impl Random {
    pub fn new(seed: u64) -> Self {
        Random(seed)
    }

    pub fn next(&mut self) -> u64 {
        self.0 = self.0.wrapping_add(0x9E37_79B9_7F4A_7C15);
        let mut z = self.0;
        z = (z ^ (z >> 30)).wrapping_mul(0xBF58_476D_1CE4_E5B9);
        z = (z ^ (z >> 27)).wrapping_mul(0x94D0_49BB_1331_11EB);
        z ^ (z >> 31)
    }

    /// A number below `n`; `n` is at least 1.
    pub fn below(&mut self, n: u64) -> u64 {
        ((self.next() as u128 * n as u128) >> 64) as u64
    }

    /// A number from `lo` to `hi`, both included.
    pub fn range(&mut self, lo: u64, hi: u64) -> u64 {
        lo + self.below(hi - lo + 1)
    }

    /// True once in `n` times.
    pub fn one_in(&mut self, n: u64) -> bool {
        self.below(n) == 0
    }

    pub fn pick<T: Copy>(&mut self, of: &[T]) -> T {
        of[self.below(of.len() as u64) as usize]
    }

    /// A number of random size: each count of bits from 0 to `bits` is as likely.
    pub fn sized(&mut self, bits: u32) -> u64 {
        match self.range(0, bits as u64) {
            0 => 0,
            n => self.next() >> (64 - n),
        }
    }

    /// A signed number of random size, of at most `bits` bits beside the sign.
    pub fn signed(&mut self, bits: u32) -> i64 {
        let n = self.sized(bits) as i64;
        if self.one_in(2) { n.wrapping_neg() } else { n }
    }
}
