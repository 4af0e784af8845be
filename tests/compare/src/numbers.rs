//! Repeatable random numbers (xorshift with a multiplied output), one generator for each case.

pub struct Numbers(u64);

impl Numbers {
    /// The generator of case `case` of the suite `suite`.
    pub fn new(suite: u64, case: u64) -> Numbers {
        let mut numbers = Numbers(
            suite.wrapping_mul(0x9E37_79B9_7F4A_7C15)
                ^ (case + 1).wrapping_mul(0xD134_2543_DE82_EF95),
        );
        for _ in 0..4 {
            numbers.next();
        }
        numbers
    }

    pub fn next(&mut self) -> u64 {
        if self.0 == 0 {
            self.0 = 0x2545_F491_4F6C_DD1D;
        }
        self.0 ^= self.0 >> 12;
        self.0 ^= self.0 << 25;
        self.0 ^= self.0 >> 27;
        self.0.wrapping_mul(0x2545_F491_4F6C_DD1D)
    }

    /// A number below `n`, which is above 0.
    pub fn below(&mut self, n: u64) -> u64 {
        self.next() % n
    }

    /// Whether a chance of one in `n` came up.
    pub fn once_in(&mut self, n: u64) -> bool {
        self.below(n) == 0
    }

    /// One of the values given.
    pub fn one_of<T: Copy>(&mut self, values: &[T]) -> T {
        values[self.below(values.len() as u64) as usize]
    }

    /// An index into a list of `n`, which is above 0.
    pub fn index(&mut self, n: usize) -> usize {
        self.below(n as u64) as usize
    }

    /// So many bytes of noise.
    pub fn bytes(&mut self, count: usize) -> Vec<u8> {
        (0..count).map(|_| self.next() as u8).collect()
    }

    /// So many words of noise.
    pub fn words(&mut self, count: usize) -> Vec<u32> {
        (0..count).map(|_| self.next() as u32).collect()
    }

    /// So many words of 64 bits of noise.
    pub fn wide_words(&mut self, count: usize) -> Vec<u64> {
        (0..count).map(|_| self.next()).collect()
    }

    /// Puts the values into any order.
    pub fn shuffle<T>(&mut self, values: &mut [T]) {
        for at in (1..values.len()).rev() {
            values.swap(at, self.index(at + 1));
        }
    }
}
