//! A small generator of numbers, so that a run can be had again from its seed.
pub struct Random(u64);

impl Random {
    pub fn new(seed: u64) -> Random {
        Random(seed.wrapping_mul(2) + 1)
    }

    pub fn next(&mut self) -> u64 {
        // xorshift64*
        self.0 ^= self.0 >> 12;
        self.0 ^= self.0 << 25;
        self.0 ^= self.0 >> 27;
        self.0.wrapping_mul(0x2545_F491_4F6C_DD1D)
    }

    pub fn below(&mut self, n: u64) -> u64 {
        (self.next() >> 16) % n
    }

    pub fn chance(&mut self, one_in: u64) -> bool {
        self.below(one_in) == 0
    }

    /// A float word with a fraction that is often short or zero, and any characteristic, often one at the ends of the range.
    pub fn float(&mut self) -> u32 {
        let w = self.next() as u32;
        match self.below(9) {
            0 => w & 0xff00_0000,
            1 => w & 0xff00_00ff,
            2 => w & 0xff00_0000 | 1 << self.below(24),
            3 => 0x4100_0000 | w & 0x80ff_ffff,
            4 => 0,
            5 => w & 0x81ff_ffff | (self.below(2) as u32 * 0x7e00_0000),
            _ => w,
        }
    }

    /// A long number of either sign near another: the same, one bit of its fraction changed, its characteristic some digits
    /// higher, or its fraction moved right by as many; or one of two kinds that differ only in digits that a long compare
    /// drops.
    pub fn near(&mut self, w: u64) -> u64 {
        let (sign, digits) = (self.below(2) << 63, self.below(17) >> self.below(2));
        let higher = |digits: u64| w.wrapping_add(digits << 56) & 0x7f << 56;
        let fraction = w & !(0xff << 56);
        // one distance for all numbers near w, so that the two kinds meet
        let apart = 3 + w % 8;
        sign ^ match self.below(8) {
            0 => w,
            1 => w ^ 1 << self.below(56),
            2 => higher(digits) | fraction,
            3 => higher(digits) | fraction >> (4 * digits).min(63),
            4 | 5 => higher(apart) | fraction >> (4 * apart),
            _ => w >> (4 * apart) << (4 * apart) | self.next() & ((1 << (4 * (apart - 2))) - 1),
        }
    }

    /// A long number whose product with another stands at a limit of the characteristic, or near one.
    pub fn at_limit(&mut self, w: u64) -> u64 {
        let sum = [62, 188][self.below(2) as usize] + self.below(7);
        let characteristic = sum.wrapping_sub(w >> 56 & 0x7f) & 0x7f;
        let fraction = self.next() >> 8 >> (4 * (self.below(17) >> self.below(3)).min(13));
        self.below(2) << 63 | characteristic << 56 | fraction
    }
}
