//! A small generator (splitmix64): the same questions for the same seed, on every machine.

pub struct Random(pub u64);

impl Random {
    pub fn next(&mut self) -> u64 {
        self.0 = self.0.wrapping_add(0x9e37_79b9_7f4a_7c15);
        let mut z = self.0;
        z = (z ^ (z >> 30)).wrapping_mul(0xbf58_476d_1ce4_e5b9);
        z = (z ^ (z >> 27)).wrapping_mul(0x94d0_49bb_1331_11eb);
        z ^ (z >> 31)
    }

    pub fn below(&mut self, n: u64) -> u64 {
        ((u128::from(self.next()) * u128::from(n)) >> 64) as u64
    }

    pub fn index(&mut self, n: usize) -> usize {
        self.below(n as u64) as usize
    }

    pub fn flip(&mut self) -> bool {
        self.next() >> 63 == 1
    }

    /// One time in n.
    pub fn once_in(&mut self, n: u64) -> bool {
        self.below(n) == 0
    }

    pub fn pick<T: Copy>(&mut self, of: &[T]) -> T {
        of[self.index(of.len())]
    }

    pub fn uniform(&mut self, lo: f64, hi: f64) -> f64 {
        let unit = (self.next() >> 11) as f64 / (1u64 << 53) as f64;
        lo + (hi - lo) * unit
    }

    /// Log-uniform in lo to hi, both above 0: each bit pattern is as likely.
    pub fn magnitude(&mut self, lo: f64, hi: f64) -> f64 {
        f64::from_bits(lo.to_bits() + self.below(hi.to_bits() - lo.to_bits() + 1))
    }

    pub fn shuffle<T>(&mut self, of: &mut [T]) {
        for i in (1..of.len()).rev() {
            of.swap(i, self.index(i + 1));
        }
    }
}

/// The float that many last places above x, or below.
pub fn neighbour(x: f64, places: i64) -> f64 {
    if !x.is_finite() {
        return x;
    }
    // The floats in order, as whole numbers; 0 and -0 are one.
    let bits = x.to_bits() as i64;
    let at = if bits < 0 { i64::MIN.wrapping_sub(bits) } else { bits };
    let to = at + places;
    f64::from_bits(if to < 0 { i64::MIN.wrapping_sub(to) } else { to } as u64)
}
