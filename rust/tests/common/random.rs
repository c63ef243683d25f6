//! Random numbers from a seed (splitmix64), so that every failure can be had again.

use std::ops::RangeInclusive;

pub struct Random(u64);

impl Random {
    /// The part's name goes into the state: two parts with one seed do not see the same numbers.
    pub fn new(seed: u64, part: &str) -> Random {
        let state = part.bytes().fold(seed, |s, b| mixed(s ^ u64::from(b)));
        Random(state)
    }

    pub fn u64(&mut self) -> u64 {
        self.0 = self.0.wrapping_add(0x9E37_79B9_7F4A_7C15);
        mixed(self.0)
    }

    pub fn u32(&mut self) -> u32 {
        (self.u64() >> 32) as u32
    }

    pub fn u16(&mut self) -> u16 {
        (self.u64() >> 48) as u16
    }

    pub fn u8(&mut self) -> u8 {
        (self.u64() >> 56) as u8
    }

    pub fn bool(&mut self) -> bool {
        self.u64() >> 63 == 1
    }

    pub fn below(&mut self, end: usize) -> usize {
        (((self.u64() >> 32) * end as u64) >> 32) as usize
    }

    pub fn one_in(&mut self, n: usize) -> bool {
        self.below(n) == 0
    }

    pub fn within(&mut self, range: RangeInclusive<u16>) -> u16 {
        let (low, high) = range.into_inner();
        low + self.below(usize::from(high - low) + 1) as u16
    }

    pub fn pick<T: Copy>(&mut self, from: &[T]) -> T {
        from[self.below(from.len())]
    }

    /// As often short as long: 32 random bits are nearly always a large number.
    pub fn any_width(&mut self) -> u32 {
        let bits = self.below(33) as u32;
        self.u32().checked_shr(bits).unwrap_or(0)
    }

    /// At a limit, one beside it, or anything of so many bits.
    pub fn near(&mut self, limit: u16, bits: u32) -> u16 {
        let mask = (1u32 << bits) - 1;
        let figure = match self.below(8) {
            0 | 1 => u32::from(limit),
            2 => u32::from(limit) + 1,
            3 => u32::from(limit).saturating_sub(1),
            4 => 0,
            5 => mask,
            6 => self.below(usize::from(limit) + 1) as u32,
            _ => self.u32(),
        };
        (figure & mask) as u16
    }
}

fn mixed(mut z: u64) -> u64 {
    z = (z ^ (z >> 30)).wrapping_mul(0xBF58_476D_1CE4_E5B9);
    z = (z ^ (z >> 27)).wrapping_mul(0x94D0_49BB_1331_11EB);
    z ^ (z >> 31)
}
