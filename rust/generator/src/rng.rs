//! The source of chance.

/// A small seeded generator (splitmix64).
#[derive(Clone, Debug)]
pub struct Rng {
    state: u64,
}

impl Rng {
    /// A generator that gives the same numbers for the same seed.
    pub fn new(seed: u64) -> Self {
        Rng { state: seed }
    }

    /// The next 64 bits.
    #[inline]
    pub fn bits(&mut self) -> u64 {
        self.state = self.state.wrapping_add(0x9E37_79B9_7F4A_7C15);
        let mut mixed = self.state;
        mixed = (mixed ^ (mixed >> 30)).wrapping_mul(0xBF58_476D_1CE4_E5B9);
        mixed = (mixed ^ (mixed >> 27)).wrapping_mul(0x94D0_49BB_1331_11EB);
        mixed ^ (mixed >> 31)
    }

    /// A number below `n`; 0 where `n` is 0.
    #[inline]
    pub fn below(&mut self, n: usize) -> usize {
        ((u128::from(self.bits()) * n as u128) >> 64) as usize
    }

    /// A number from `low` to `high`, both included; `low` where `high` is
    /// not above it.
    #[inline]
    pub fn between(&mut self, low: usize, high: usize) -> usize {
        low + self.below(high.saturating_sub(low).saturating_add(1))
    }

    /// True once in about `n` times.
    #[inline]
    pub fn chance(&mut self, n: usize) -> bool {
        self.below(n) == 0
    }

    /// One of `list`, which is not empty.
    #[inline]
    pub fn pick<T: Copy>(&mut self, list: &[T]) -> T {
        list[self.below(list.len())]
    }

    /// A byte.
    #[inline]
    pub fn byte(&mut self) -> u8 {
        self.bits() as u8
    }

    /// Fills `bytes`.
    pub fn fill(&mut self, bytes: &mut [u8]) {
        for part in bytes.chunks_mut(8) {
            let bits = self.bits().to_le_bytes();
            part.copy_from_slice(&bits[..part.len()]);
        }
    }

    /// `length` bytes.
    pub fn bytes(&mut self, length: usize) -> Vec<u8> {
        let mut bytes = vec![0; length];
        self.fill(&mut bytes);
        bytes
    }

    /// A number of at most `width` bits (1 to 64) that is often at or near
    /// a bound.
    pub fn number(&mut self, width: u32) -> u64 {
        let most = u64::MAX >> (64 - width);
        let power = 1 << self.below(width as usize);
        match self.below(8) {
            0 => self.below(2) as u64,
            1 => most - self.below(2) as u64,
            2 => power - 1,
            3 => power,
            4 => self.bits() & most & 0xFF,
            _ => self.bits() & most,
        }
    }

    /// The same with 8 bits.
    pub fn u8(&mut self) -> u8 {
        self.number(8) as u8
    }

    /// The same with 16 bits.
    pub fn u16(&mut self) -> u16 {
        self.number(16) as u16
    }

    /// The same with 32 bits.
    pub fn u32(&mut self) -> u32 {
        self.number(32) as u32
    }

    /// The same with 64 bits.
    pub fn u64(&mut self) -> u64 {
        self.number(64)
    }
}
