// Pseudo-random inputs: xorshift64*.
use crate::ours::Source;
use crate::plain::String16;

pub struct Random(pub u64);

impl Random {
    pub fn byte(&mut self) -> u8 {
        self.0 ^= self.0 >> 12;
        self.0 ^= self.0 << 25;
        self.0 ^= self.0 >> 27;
        (self.0.wrapping_mul(0x2545_f491_4f6c_dd1d) >> 56) as u8
    }

    // A number below `n`.
    pub fn below(&mut self, n: usize) -> usize {
        (usize::from(self.byte()) << 8 | usize::from(self.byte())) % n
    }

    pub fn string(&mut self) -> String16 {
        std::array::from_fn(|_| self.byte())
    }

    pub fn source(&mut self, height: u8) -> Source {
        Source {
            seed: self.string(),
            hash_key: self.string(),
            masks: std::array::from_fn(|_| self.byte()),
            height,
        }
    }
}
