//! Numbers that look random: splitmix64. The same seed gives the same numbers on every machine.

pub struct Random {
    state: u64,
    below: Below,
}

/// How a number below a bound is made of 64 bits. There are two ways because the files drawn by
/// each are fixed: those of the agreement by the high bits, those of the benchmark, of which
/// docs/PERFORMANCE.md has the sizes and times, by the remainder.
enum Below {
    HighBits,
    Remainder,
}

impl Random {
    /// The numbers for one file of one seed; each file has its own, so it does not matter which
    /// thread makes it.
    pub fn of(seed: u64, number: u64) -> Random {
        let start = mixed(seed).wrapping_add(number);
        Random { state: mixed(start), below: Below::HighBits }
    }

    /// The numbers for a file of the benchmark.
    pub fn by_remainder(seed: u64) -> Random {
        Random { state: seed, below: Below::Remainder }
    }

    pub fn number(&mut self) -> u64 {
        self.state = self.state.wrapping_add(0x9e37_79b9_7f4a_7c15);
        mixed(self.state)
    }

    /// From 0 up to, but without, the bound, which is at least 1 and below 2^32.
    pub fn below(&mut self, bound: usize) -> usize {
        let (number, bound) = (self.number(), bound as u64);
        let below = match self.below {
            Below::HighBits => ((number >> 32) * bound) >> 32,
            Below::Remainder => number % bound,
        };
        below as usize
    }

    /// From the lowest to the highest, both included.
    pub fn between(&mut self, lowest: usize, highest: usize) -> usize {
        lowest + self.below(highest - lowest + 1)
    }

    pub fn one_in(&mut self, count: usize) -> bool {
        self.below(count) == 0
    }

    pub fn word(&mut self) -> u16 {
        self.number() as u16
    }

    pub fn pick<T: Copy>(&mut self, from: &[T]) -> T {
        from[self.below(from.len())]
    }

    pub fn shuffle<T>(&mut self, list: &mut [T]) {
        for i in (1..list.len()).rev() {
            list.swap(i, self.below(i + 1));
        }
    }

    /// The number of an atom or of a principal: mostly small, so that they meet one another and
    /// formula numbers; also around 4,095.
    pub fn name(&mut self) -> u16 {
        match self.below(8) {
            0 => self.between(4090, 4095) as u16,
            1 => self.below(4096) as u16,
            _ => self.below(5) as u16,
        }
    }
}

fn mixed(number: u64) -> u64 {
    let a = (number ^ (number >> 30)).wrapping_mul(0xbf58_476d_1ce4_e5b9);
    let b = (a ^ (a >> 27)).wrapping_mul(0x94d0_49bb_1331_11eb);
    b ^ (b >> 31)
}
