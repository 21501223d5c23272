//! The random numbers of a run: the generator SplitMix64, so that a seed gives the same run on every machine.

pub struct Random {
    state: u64,
}

impl Random {
    pub fn new(seed: u64) -> Random {
        Random { state: seed }
    }

    /// The next 64 bits.
    pub fn bits(&mut self) -> u64 {
        self.state = self.state.wrapping_add(0x9E37_79B9_7F4A_7C15);
        let mut z = self.state;
        z = (z ^ (z >> 30)).wrapping_mul(0xBF58_476D_1CE4_E5B9);
        z = (z ^ (z >> 27)).wrapping_mul(0x94D0_49BB_1331_11EB);
        z ^ (z >> 31)
    }

    /// A number below `n`.
    pub fn below(&mut self, n: usize) -> usize {
        ((u128::from(self.bits()) * n as u128) >> 64) as usize
    }

    /// True once in `n` times.
    pub fn once_in(&mut self, n: usize) -> bool {
        self.below(n) == 0
    }

    pub fn byte(&mut self) -> u8 {
        self.bits() as u8
    }

    pub fn short(&mut self) -> i16 {
        self.bits() as i16
    }

    /// One of the items.
    pub fn of<T: Copy>(&mut self, items: &[T]) -> T {
        items[self.below(items.len())]
    }

    /// Bytes without any rule.
    pub fn bytes(&mut self, out: &mut [u8]) {
        for eight in out.chunks_mut(8) {
            let bits = self.bits().to_le_bytes();
            eight.copy_from_slice(&bits[..eight.len()]);
        }
    }

    /// 16-bit numbers without any rule.
    pub fn shorts(&mut self, out: &mut [i16]) {
        for four in out.chunks_mut(4) {
            let mut bits = self.bits();
            for x in four {
                *x = bits as i16;
                bits >>= 16;
            }
        }
    }
}
