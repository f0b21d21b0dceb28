//! A small random number generator (splitmix64), the same on every machine.

pub struct Rng(u64);

impl Rng {
    pub fn new(seed: u64) -> Rng {
        Rng(seed)
    }

    pub fn next(&mut self) -> u64 {
        self.0 = self.0.wrapping_add(0x9e37_79b9_7f4a_7c15);
        let mut mixed = self.0;
        mixed = (mixed ^ mixed >> 30).wrapping_mul(0xbf58_476d_1ce4_e5b9);
        mixed = (mixed ^ mixed >> 27).wrapping_mul(0x94d0_49bb_1331_11eb);
        mixed ^ mixed >> 31
    }

    /// A number below a limit that is not 0.
    pub fn below(&mut self, limit: usize) -> usize {
        ((self.next() >> 32) * limit as u64 >> 32) as usize
    }

    /// A number from the first to the last.
    pub fn within(&mut self, first: usize, last: usize) -> usize {
        first + self.below(last - first + 1)
    }

    pub fn chance(&mut self, percent: usize) -> bool {
        self.below(100) < percent
    }

    pub fn pick<T: Copy>(&mut self, choices: &[T]) -> T {
        choices[self.below(choices.len())]
    }

    /// A number of so many bits; often 0 or the largest.
    pub fn number(&mut self, bits: u32) -> u32 {
        let largest = (u64::MAX >> (64 - bits)) as u32;
        match self.below(8) {
            0 => 0,
            1 => largest,
            _ => self.next() as u32 & largest,
        }
    }

    /// A count from the first to the last; often one of the two, mostly a small one.
    pub fn count(&mut self, first: usize, last: usize) -> usize {
        match self.below(12) {
            0..=2 => first,
            3 => last,
            4 => self.within(first, last),
            _ => self.within(first, last.min(first + 3)),
        }
    }

    /// So many different ones of the choices, in random order.
    pub fn distinct(&mut self, choices: &[u32], count: usize) -> Vec<u32> {
        let mut left = choices.to_vec();
        for index in 0..count {
            let other = self.within(index, left.len() - 1);
            left.swap(index, other);
        }
        left.truncate(count);
        left
    }
}
