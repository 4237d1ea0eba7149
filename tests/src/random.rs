//! A small generator of numbers (splitmix64), the same on every machine.

pub struct Random(u64);

impl Random {
    pub fn seeded(seed: u64) -> Random {
        Random(seed)
    }

    /// A generator for each number under each name.
    pub fn named(name: &str, number: u64) -> Random {
        Random(name.bytes().fold(number, |seed, letter| seed.wrapping_mul(1_000_003).wrapping_add(letter as u64)))
    }

    pub fn word64(&mut self) -> u64 {
        self.0 = self.0.wrapping_add(0x9e37_79b9_7f4a_7c15);
        let x = (self.0 ^ self.0 >> 30).wrapping_mul(0xbf58_476d_1ce4_e5b9);
        let x = (x ^ x >> 27).wrapping_mul(0x94d0_49bb_1331_11eb);
        x ^ x >> 31
    }

    pub fn word(&mut self) -> u32 {
        (self.word64() >> 32) as u32
    }

    /// A number below the bound, which is not 0.
    pub fn below(&mut self, bound: usize) -> usize {
        (self.word64() % bound as u64) as usize
    }

    /// A number from first to last.
    pub fn between(&mut self, first: u32, last: u32) -> u32 {
        first + (self.word64() % (last as u64 - first as u64 + 1)) as u32
    }

    /// True once in so many times.
    pub fn once_in(&mut self, times: usize) -> bool {
        self.below(times) == 0
    }

    pub fn one_of<T: Copy>(&mut self, choices: &[T]) -> T {
        choices[self.below(choices.len())]
    }
}
