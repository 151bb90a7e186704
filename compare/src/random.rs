//! Random arguments, biased to what is near a limit, and the same for the same seed.
use crate::values;
use crate::whole;

pub struct Random(pub u64);

impl Random {
    pub fn next(&mut self) -> u64 {
        self.0 ^= self.0 << 13;
        self.0 ^= self.0 >> 7;
        self.0 ^= self.0 << 17;
        self.0.wrapping_mul(0x2545_f491_4f6c_dd1d)
    }

    pub fn below(&mut self, n: u64) -> u64 {
        self.next() % n
    }

    pub fn one_of<T: Copy>(&mut self, some: &[T]) -> T {
        some[self.below(some.len() as u64) as usize]
    }

    pub fn literal(&mut self) -> i64 {
        const SOME: [i64; 14] = [0, 1, -1, 2, 3, -2, whole::MAX, -whole::MAX, whole::MAX - 1, 94_906_265, -94_906_266, 1 << 52, whole::MAX + 1, i64::MIN];
        match self.below(4) {
            0 => self.next() as i64,
            1 => self.below(10) as i64 - 5,
            _ => self.one_of(&SOME),
        }
    }

    pub fn node(&mut self, count: u64) -> u64 {
        match self.below(64) {
            0 => count,
            1 => u64::MAX,
            2..=20 => self.below(count.max(1)),
            21..=30 => self.below(count.clamp(1, 6)),
            _ => count.saturating_sub(1 + self.below(8)),
        }
    }

    pub fn variable(&mut self) -> u64 {
        match self.below(32) {
            0 => 65_535 + self.below(2),
            1 => self.next(),
            _ => self.below(3),
        }
    }

    /// The length of a table of values: mostly enough for the variables in use, now and then at the limit.
    pub fn values(&mut self) -> usize {
        match self.below(300) {
            0 => 65_536,
            1 => 65_537,
            2..=20 => 0,
            _ => 1 + self.below(3) as usize,
        }
    }

    pub fn double(&mut self) -> f64 {
        const SOME: [f64; 10] = [0.0, -0.0, 1.0, -1.0, 2.0, f64::INFINITY, f64::NEG_INFINITY, f64::NAN, f64::MIN_POSITIVE, f64::MAX];
        match self.below(4) {
            0 => f64::from_bits(self.next()),
            1 => self.below(20) as f64 / 8.0 - 1.0,
            _ => self.one_of(&SOME),
        }
    }

    pub fn residue(&mut self) -> u32 {
        match self.below(200) {
            0 => values::MODULUS as u32,
            1 => self.next() as u32,
            2..=40 => values::MODULUS as u32 - 1 - self.below(3) as u32,
            41..=120 => self.below(4) as u32,
            _ => (self.next() % values::MODULUS) as u32,
        }
    }

    pub fn exponent(&mut self) -> u32 {
        match self.below(6) {
            0 => u32::MAX - self.below(3) as u32,
            1 => 1 << 31,
            2 => self.next() as u32,
            _ => self.below(5) as u32,
        }
    }

    /// An order: mostly small, now and then at the limit or far above it.
    pub fn order(&mut self) -> u64 {
        match self.below(64) {
            0 => 24,
            1 => 25,
            2 => self.one_of(&[26, u64::MAX, u64::MAX - 1, 1 << 63, 1 << 32, (1 << 32) + 1]),
            3..=8 => self.below(25),
            _ => self.below(5),
        }
    }

    /// An index: mostly in a short list or at its end, now and then anything.
    pub fn index(&mut self, order: u64) -> u64 {
        match self.below(8) {
            0 => order,
            1 => order.wrapping_sub(1),
            2 => self.next(),
            3 => self.one_of(&[17, 18, 19, 20, 24, 25, u64::MAX, 1 << 32]),
            _ => self.below(order.clamp(1, 25)),
        }
    }
}
