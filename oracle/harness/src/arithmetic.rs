//! Document 01's logarithm.

const RECIPROCALS: [f64; 11] = [
    1.0 / 21.0,
    1.0 / 19.0,
    1.0 / 17.0,
    1.0 / 15.0,
    1.0 / 13.0,
    1.0 / 11.0,
    1.0 / 9.0,
    1.0 / 7.0,
    1.0 / 5.0,
    1.0 / 3.0,
    1.0,
];

pub fn ln(a: f64) -> f64 {
    if a.is_nan() || a < 0.0 {
        return f64::NAN;
    }
    if a == 0.0 {
        return f64::NEG_INFINITY;
    }
    if a == f64::INFINITY {
        return a;
    }
    // a = m · 2^e, 1 ≤ m < 2; a subnormal is brought up by 2^54 first
    let (b, low) = if a < f64::MIN_POSITIVE { (a * 18014398509481984.0, 54) } else { (a, 0) };
    let bits = b.to_bits();
    let mut e = ((bits >> 52) & 0x7ff) as i64 - 1023 - low;
    let mut m = f64::from_bits((bits & 0x000f_ffff_ffff_ffff) | 0x3ff0_0000_0000_0000);
    if m > 1.4142135623730951 {
        m *= 0.5;
        e += 1;
    }
    let f = (m - 1.0) / (m + 1.0);
    let w = f * f;
    let mut s = RECIPROCALS[0];
    for r in &RECIPROCALS[1..] {
        s = s * w + r;
    }
    e as f64 * 0.6931471805599453 + 2.0 * f * s
}
