//! Numbers from a seed, and floats of every kind that is worth a call.

pub struct Numbers(u64);

impl Numbers {
    pub fn new(seed: u64) -> Self {
        Self(seed.wrapping_mul(0x9e37_79b9_7f4a_7c15) ^ 0x2545_f491_4f6c_dd1d)
    }

    pub fn next(&mut self) -> u64 {
        self.0 = self.0.wrapping_add(0x9e37_79b9_7f4a_7c15);
        let a = (self.0 ^ (self.0 >> 30)).wrapping_mul(0xbf58_476d_1ce4_e5b9);
        let b = (a ^ (a >> 27)).wrapping_mul(0x94d0_49bb_1331_11eb);
        b ^ (b >> 31)
    }

    pub fn below(&mut self, limit: u64) -> u64 {
        self.next() % limit
    }

    pub fn fraction(&mut self) -> f64 {
        (self.next() >> 11) as f64 / (1u64 << 53) as f64
    }

    /// Any bit pattern; a signalling NaN is made quiet, as docs/DIFFERENCES.md says why.
    pub fn bits(&mut self) -> f64 {
        quiet(f64::from_bits(self.next()))
    }

    pub fn telling(&mut self) -> f64 {
        TELLING[self.below(TELLING.len() as u64) as usize]
    }
}

fn quiet(x: f64) -> f64 {
    if x.is_nan() { f64::from_bits(x.to_bits() | 1 << 51) } else { x }
}

/// Forty floats at which something changes: zeros, the ends of the range, the test for a zero and its neighbours.
pub const TELLING: [f64; 40] = [
    0.0, -0.0, 1.0, -1.0, 2.0, 3.0, 0.5, -0.5, 1e-10, -1e-10, 9.999999999999999e-11, 1.0000000000000002e-10, 2e-10, 1e-9,
    1e-11, f64::MIN_POSITIVE, -f64::MIN_POSITIVE, 5e-324, -5e-324, f64::EPSILON, 1.0000000000000002, 0.9999999999999999,
    f64::MAX, f64::MIN, f64::INFINITY, f64::NEG_INFINITY, f64::NAN, 1e308, -1e308, 1e300, 1e16, 9007199254740993.0, 0.1,
    0.2, 0.3, 0.30000000000000004, 1e6, 1048576.0, 1048576.0000000001, 100.0,
];

/// The same answer but for a NaN's payload and a zero's sign.
pub fn same(a: f64, b: f64) -> bool {
    a == b || (a.is_nan() && b.is_nan())
}
