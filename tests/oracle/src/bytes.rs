//! Random bytes for all groups.

/// Marsaglia's xorshift64: it needs no dependency, and the same seed gives the
/// same questions everywhere. A group has its own, so that a change in one
/// group leaves the questions of the others as they are.
pub struct Random(u64);

impl Random {
    pub fn new(seed: u64) -> Self {
        // Nothing but zeros would follow.
        assert_ne!(seed, 0);
        Self(seed)
    }

    pub fn byte(&mut self) -> u8 {
        self.0 ^= self.0 << 13;
        self.0 ^= self.0 >> 7;
        self.0 ^= self.0 << 17;
        (self.0 >> 56) as u8
    }

    pub fn bytes(&mut self, length: usize) -> Vec<u8> {
        (0..length).map(|_| self.byte()).collect()
    }
}
