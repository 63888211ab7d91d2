//! A small generator of random numbers (splitmix64), the same for the same seed.

pub struct Random(u64);

impl Random {
    pub fn new(seed: u64) -> Self {
        Random(seed)
    }

    fn next(&mut self) -> u64 {
        self.0 = self.0.wrapping_add(0x9E37_79B9_7F4A_7C15);
        let mut z = self.0;
        z = (z ^ (z >> 30)).wrapping_mul(0xBF58_476D_1CE4_E5B9);
        z = (z ^ (z >> 27)).wrapping_mul(0x94D0_49BB_1331_11EB);
        z ^ (z >> 31)
    }

    pub fn any(&mut self) -> u32 {
        (self.next() >> 32) as u32
    }

    /// From 0 up to but not including `end`; the bias of the remainder is far too
    /// small to matter here.
    pub fn below(&mut self, end: u32) -> u32 {
        (self.next() % u64::from(end)) as u32
    }

    /// Both ends included.
    pub fn within(&mut self, low: u32, high: u32) -> u32 {
        let span = u64::from(high) - u64::from(low) + 1;
        low + (self.next() % span) as u32
    }

    /// True once in `times`.
    pub fn once_in(&mut self, times: u32) -> bool {
        self.below(times) == 0
    }

    pub fn one_of<T: Copy>(&mut self, list: &[T]) -> T {
        list[self.below(list.len() as u32) as usize]
    }

    /// A value for a limit: inside, at an end or one beside it, small, or any.
    pub fn around(&mut self, low: u32, high: u32) -> u32 {
        match self.below(8) {
            0..=2 => self.within(low, high),
            3 | 4 => self.within(low.saturating_sub(1), low.saturating_add(1)),
            5 => self.within(high.saturating_sub(1), high.saturating_add(1)),
            6 => self.below(600),
            _ => self.any(),
        }
    }
}
