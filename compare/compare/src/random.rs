//! Numbers that look random and are the same for the same seed (SplitMix64).

pub struct Random(u64);

impl Random {
    pub fn new(seed: u64) -> Self {
        Random(seed)
    }

    pub fn word(&mut self) -> u32 {
        self.0 = self.0.wrapping_add(0x9E37_79B9_7F4A_7C15);
        let z = (self.0 ^ self.0 >> 30).wrapping_mul(0xBF58_476D_1CE4_E5B9);
        let z = (z ^ z >> 27).wrapping_mul(0x94D0_49BB_1331_11EB);
        (z >> 32) as u32
    }

    /// Any number up to and including `most`.
    pub fn up_to(&mut self, most: u32) -> u32 {
        ((u64::from(self.word()) * (u64::from(most) + 1)) >> 32) as u32
    }

    /// A number of up to this many bits, each length as often as another.
    pub fn of_length(&mut self, most: u32) -> u32 {
        let length = self.up_to(most);
        self.word().checked_shr(32 - length).unwrap_or(0)
    }

    /// One of these.
    pub fn pick<T: Copy>(&mut self, of: &[T]) -> T {
        of[self.up_to(of.len() as u32 - 1) as usize]
    }

    /// Numbers apart from those that follow here.
    pub fn split(&mut self) -> Self {
        Random(u64::from(self.word()) << 32 | u64::from(self.word()))
    }
}
