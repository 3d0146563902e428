//! Random numbers that are the same on every machine: splitmix64, and only
//! arithmetic that IEEE 754 fixes to the bit (so no sine or cosine).

use glam::Vec2;

pub struct Random {
    state: u64,
}

impl Random {
    pub fn new(seed: u64) -> Random {
        Random { state: seed }
    }

    pub fn bits(&mut self) -> u64 {
        self.state = self.state.wrapping_add(0x9E37_79B9_7F4A_7C15);
        let mut mixed = self.state;
        mixed = (mixed ^ (mixed >> 30)).wrapping_mul(0xBF58_476D_1CE4_E5B9);
        mixed = (mixed ^ (mixed >> 27)).wrapping_mul(0x94D0_49BB_1331_11EB);
        mixed ^ (mixed >> 31)
    }

    /// From 0 to `limit` - 1. The limits used are so small that the remainder's bias does not matter.
    pub fn below(&mut self, limit: usize) -> usize {
        (self.bits() % limit as u64) as usize
    }

    pub fn one_in(&mut self, count: usize) -> bool {
        self.below(count) == 0
    }

    pub fn pick<T: Copy>(&mut self, values: &[T]) -> T {
        values[self.below(values.len())]
    }

    /// A place among the counts, each as often as its count says.
    pub fn place_by(&mut self, counts: &[usize]) -> usize {
        let mut drawn = self.below(counts.iter().sum());
        for (place, count) in counts.iter().enumerate() {
            if drawn < *count {
                return place;
            }
            drawn -= count;
        }
        unreachable!("what is drawn is below the sum of the counts")
    }

    /// From -1 to 1, evenly, in steps of 2^-52.
    fn unit(&mut self) -> f64 {
        (self.bits() >> 11) as f64 / (1u64 << 52) as f64 - 1.0
    }

    /// From `-size` to `size`, evenly.
    pub fn within(&mut self, size: f32) -> f32 {
        (self.unit() * f64::from(size)) as f32
    }

    pub fn vector_within(&mut self, size: f32) -> Vec2 {
        Vec2::new(self.within(size), self.within(size))
    }

    pub fn signed(&mut self, number: f32) -> f32 {
        if self.one_in(2) {
            -number
        } else {
            number
        }
    }

    /// Either sign; the magnitude is even over the f32s from `low` to `high`, so over their exponents.
    pub fn magnitude(&mut self, low: f32, high: f32) -> f32 {
        let count = high.to_bits() - low.to_bits() + 1;
        let magnitude = f32::from_bits(low.to_bits() + self.below(count as usize) as u32);
        self.signed(magnitude)
    }

    /// At the ends of what reaches to `reach`: 0, the smallest numbers, 1, `reach` and just below; else any. Either sign.
    pub fn extreme(&mut self, reach: f32) -> f32 {
        let smallest = f32::from_bits(1);
        let any = self.magnitude(smallest, reach);
        let subnormal = self.magnitude(smallest, f32::MIN_POSITIVE);
        let number = self.pick(&[
            0.0,
            smallest,
            subnormal,
            f32::MIN_POSITIVE,
            any,
            1.0,
            reach.next_down(),
            reach,
        ]);
        self.signed(number)
    }

    /// A whole number from `-size` to `size`, its zero with either sign.
    pub fn whole(&mut self, size: usize) -> f32 {
        let magnitude = self.below(size + 1) as f32;
        self.signed(magnitude)
    }

    /// A vector of length 1, but for rounding: a rational point of the circle in any quarter.
    pub fn direction(&mut self) -> Vec2 {
        let t = self.unit();
        let along = ((1.0 - t * t) / (1.0 + t * t)) as f32;
        let across = (2.0 * t / (1.0 + t * t)) as f32;
        let along = self.signed(along);
        if self.one_in(2) {
            Vec2::new(along, across)
        } else {
            Vec2::new(across, along)
        }
    }
}
