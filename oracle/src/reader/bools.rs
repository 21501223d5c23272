//! The bool decoder as the listing of RFC 6386, 7.3, has it: two bytes of value, a shift at a time, a byte after each
//! eighth shift.

/// The value's two bytes: what is shifted above them is lost. That happens only where the partition begins with 255, which
/// no encoder writes: the value is then not below its range.
const TWO_BYTES: u32 = 0xFFFF;

#[derive(Clone)]
pub struct Bools<'a> {
    partition: &'a [u8],
    at: usize,
    value: u32,
    range: u32,
    shifts: u32,
    /// A byte past the partition's end was loaded, as 0.
    pub past: bool,
}

impl<'a> Bools<'a> {
    pub fn new(partition: &'a [u8]) -> Bools<'a> {
        let mut bools = Bools { partition, at: 0, value: 0, range: 255, shifts: 0, past: false };
        bools.value = 256 * bools.byte();
        bools.value += bools.byte();
        bools
    }

    /// The place of the next byte, the range, the value and the shifts since a byte was loaded: the state of
    /// `zopredil_tokens`.
    pub fn state(&self) -> [u64; 4] {
        [self.at as u64, self.range.into(), self.value.into(), self.shifts.into()]
    }

    /// The decoder of a state, or nothing where no start and no read of this partition leaves such a one: the place lies in
    /// the partition, two bytes on at least; the range has its upper bit; at most seven bits were shifted; and of the value
    /// the lower byte is what those shifts leave of the last byte loaded, the upper one below the range, unless the
    /// partition begins with 255.
    pub fn resume(partition: &'a [u8], state: [u64; 4]) -> Option<Bools<'a>> {
        let [at, range, value, shifts] = state;
        let inside = at >= 2 && at <= partition.len() as u64;
        if !inside || !(128..256).contains(&range) || shifts > 7 || value > TWO_BYTES.into() {
            return None;
        }
        let at = at as usize;
        let low = u64::from(partition[at - 1]) << shifts & 255;
        if value & 255 != low || (partition[0] != 255 && value >> 8 >= range) {
            return None;
        }
        Some(Bools { partition, at, value: value as u32, range: range as u32, shifts: shifts as u32, past: false })
    }

    fn byte(&mut self) -> u32 {
        self.past |= self.at >= self.partition.len();
        let byte = self.partition.get(self.at).copied().unwrap_or(0);
        self.at += 1;
        byte.into()
    }

    /// A bool whose probability of being 0 is `prob` / 256.
    pub fn bool(&mut self, prob: u8) -> bool {
        let split = 1 + (((self.range - 1) * u32::from(prob)) >> 8);
        let bit = self.value >= split << 8;
        if bit {
            self.range -= split;
            self.value -= split << 8;
        } else {
            self.range = split;
        }
        while self.range < 128 {
            self.value = self.value << 1 & TWO_BYTES;
            self.range <<= 1;
            self.shifts += 1;
            if self.shifts == 8 {
                self.shifts = 0;
                self.value |= self.byte();
            }
        }
        bit
    }

    /// A bool of even chances.
    pub fn flag(&mut self) -> bool {
        self.bool(128)
    }

    /// A number of n bits, the highest first.
    pub fn literal(&mut self, n: u32) -> u32 {
        (0..n).fold(0, |number, _| 2 * number + u32::from(self.flag()))
    }

    /// A number of n bits and its sign.
    pub fn signed(&mut self, n: u32) -> i32 {
        let size = self.literal(n) as i32;
        if self.flag() {
            -size
        } else {
            size
        }
    }

    /// The same where a flag says that it is there.
    pub fn optional(&mut self, n: u32) -> Option<i32> {
        self.flag().then(|| self.signed(n))
    }

    /// A tree of 8.1: `tree[i]` and `tree[i + 1]` are where a 0 and a 1 lead from node i; a number above 0 is a node, any
    /// other a leaf's, negated. `first` is the node to start at.
    pub fn tree(&mut self, tree: &[i8], probs: &[u8], first: usize) -> usize {
        let mut node = first;
        loop {
            let next = tree[node + usize::from(self.bool(probs[node / 2]))];
            if next <= 0 {
                return usize::from(next.unsigned_abs());
            }
            node = next as usize;
        }
    }
}
