//! Document 01's meanings of the square root, exp (with document 02's S-8), ln and erfc, transcribed a sentence at a time.

const H: f64 = 0.693147180369123816490;
const J: f64 = 1.90821492927058770002e-10;

/// E[i] is the f64 nearest 1/i!, L[i] the f64 nearest 1/(2i+1): a factorial up to 22! is an f64 exactly, and one division is rounded once.
const E: [f64; 14] = {
    let (mut table, mut factorial, mut i) = ([1.0; 14], 1.0, 1);
    while i < 14 {
        factorial *= i as f64;
        table[i] = 1.0 / factorial;
        i += 1;
    }
    table
};
const L: [f64; 11] = {
    let (mut table, mut i) = ([1.0; 11], 1);
    while i < 11 {
        table[i] = 1.0 / (2 * i + 1) as f64;
        i += 1;
    }
    table
};

/// 2^k for k from -1022 to 1023.
fn two_to(k: i64) -> f64 {
    f64::from_bits(((k + 1023) as u64) << 52)
}

pub fn exp(v: f64) -> f64 {
    if v.is_nan() {
        return v;
    }
    if v > 709.0 {
        return f64::INFINITY;
    }
    if v < -745.0 {
        return 0.0;
    }
    let k = (v * 1.4426950408889634 + 0.5).floor();
    let r = (v - k * H) - k * J;
    let mut p = E[13];
    for i in (0..=12).rev() {
        p = p * r + E[i];
    }
    if v < -708.0 {
        return p * two_to(k as i64 + 200) * two_to(-200);
    }
    p * two_to(k as i64)
}

pub fn ln(v: f64) -> f64 {
    if v.is_nan() {
        return v;
    }
    if v == 0.0 {
        return f64::NEG_INFINITY;
    }
    if v < 0.0 {
        return f64::NAN;
    }
    if v == f64::INFINITY {
        return v;
    }
    // v = m × 2^e, m in [1, 2), subnormals also: 2^54 lifts those, exactly.
    let (scaled, lift) = if v < f64::MIN_POSITIVE { (v * two_to(54), 54) } else { (v, 0) };
    let bits = scaled.to_bits();
    let mut e = (bits >> 52) as i64 - 1023 - lift;
    let mut m = f64::from_bits((bits & ((1 << 52) - 1)) | (1023 << 52));
    if m > 1.4142135623730951 {
        m *= 0.5;
        e += 1;
    }
    let z = (m - 1.0) / (m + 1.0);
    let w = z * z;
    let mut q = L[10];
    for i in (0..=9).rev() {
        q = q * w + L[i];
    }
    let e = e as f64;
    e * H + ((2.0 * z) * q + e * J)
}

pub fn erfc(v: f64) -> f64 {
    if v < 0.0 {
        return 2.0 - erfc(-v);
    }
    if v < 2.0 {
        let (mut g, mut sum) = (v, v);
        for n in 0..40 {
            g = (g * ((2.0 * v) * v)) / f64::from(2 * n + 3);
            sum += g;
        }
        return 1.0 - (1.1283791670955126 * exp(-(v * v))) * sum;
    }
    let mut c = v;
    for j in (1..=60).rev() {
        c = v + (f64::from(j) / 2.0) / c;
    }
    (exp(-(v * v)) * 0.5641895835477563) / c
}

/// The 53 leading binary digits of a float above 0, and how many digits it has in units of 2^-1074.
fn taken_apart(v: f64) -> (u64, u64) {
    let bits = v.to_bits();
    let field = bits >> 52;
    if field == 0 {
        let zeros = u64::from(bits.leading_zeros());
        (bits << (zeros - 11), 64 - zeros)
    } else {
        (bits % (1 << 52) + (1 << 52), field + 52)
    }
}

/// One more binary digit of a root, for two more digits d of the number under it.
#[inline]
fn step(q: u64, rest: u64, d: u64) -> (u64, u64) {
    let r = 4 * rest + d;
    if 4 * q < r {
        (2 * q + 1, r - (4 * q + 1))
    } else {
        (2 * q, r)
    }
}

/// The root as ours computes it, digit by digit: for the benchmark, so that both sides have the same root. It is correctly rounded too.
pub fn sqrt_by_digits(v: f64) -> f64 {
    if v.is_nan() || v == 0.0 || v == f64::INFINITY {
        return v;
    }
    if v < 0.0 {
        return f64::NAN;
    }
    let (digits, size) = taken_apart(v);
    let t = if size % 2 == 0 { 2 * digits } else { digits };
    let (mut q, mut rest) = (0, 0);
    for i in (0..27).rev() {
        (q, rest) = step(q, rest, (t >> (2 * i)) % 4);
    }
    for _ in 0..27 {
        (q, rest) = step(q, rest, 0);
    }
    f64::from_bits((q + 1) / 2 + ((size + 969) / 2) * (1 << 52))
}

/// The methods that the substitution calls in place of the standard ones.
pub trait Document01 {
    fn exp_01(self) -> f64;
    fn ln_01(self) -> f64;
    fn sqrt_01(self) -> f64;
    fn sqrt_digits(self) -> f64;
}

impl Document01 for f64 {
    #[inline]
    fn exp_01(self) -> f64 {
        exp(self)
    }
    #[inline]
    fn ln_01(self) -> f64 {
        ln(self)
    }
    /// The processor's root is correctly rounded, as IEEE 754 asks.
    #[inline]
    fn sqrt_01(self) -> f64 {
        self.sqrt()
    }
    #[inline]
    fn sqrt_digits(self) -> f64 {
        sqrt_by_digits(self)
    }
}
