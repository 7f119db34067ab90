// Document 01's exponential, with #106 of document 02, and logarithm, as the comparison's Rust uses them.

const H: u64 = 0x3FE6_2E42_FEE0_0000;
const T: u64 = 0x3DEA_39EF_3579_3C76;

pub fn exp(x: f64) -> f64 {
    exp_within(x, -745.0, 709.0)
}

// With other borders, for a slip: 0 below `low` and +infinity above `high`.
pub fn exp_within(x: f64, low: f64, high: f64) -> f64 {
    if x.is_nan() {
        return f64::NAN;
    }
    if x > high {
        return f64::INFINITY;
    }
    if x < low {
        return 0.0;
    }
    let n = (x * 1.4426950408889634 + 0.5).floor();
    let r = (x - n * f64::from_bits(H)) - n * f64::from_bits(T);
    let mut p = 1.0;
    for j in (1..=13).rev() {
        p = 1.0 + (r * p) / j as f64;
    }
    if n < -1021.0 {
        return p * power(n + 200.0) * power(-200.0);
    }
    p * power(n)
}

// 2^n, n from -1022 to 1023, by its exponent's field
fn power(n: f64) -> f64 {
    f64::from_bits(((n as i64 + 1023) as u64) << 52)
}

pub fn ln(x: f64) -> f64 {
    if x.is_nan() || x < 0.0 {
        return f64::NAN;
    }
    if x == 0.0 {
        return f64::NEG_INFINITY;
    }
    if x == f64::INFINITY {
        return x;
    }
    // a subnormal is scaled by 2^54 first, exactly
    let (y, scaled) = if x < f64::MIN_POSITIVE { (x * 18014398509481984.0, 54) } else { (x, 0) };
    let bits = y.to_bits();
    let mut e = (bits >> 52) as i64 - 1023 - scaled;
    let mut f = f64::from_bits((bits & 0x000F_FFFF_FFFF_FFFF) | 0x3FF0_0000_0000_0000);
    if f > 1.4142135623730951 {
        f *= 0.5;
        e += 1;
    }
    let e = e as f64;
    let s = (f - 1.0) / (f + 1.0);
    let z = s * s;
    let mut p = 1.0 / 21.0;
    for j in (1..=19).rev().step_by(2) {
        p = 1.0 / j as f64 + z * p;
    }
    e * f64::from_bits(H) + ((2.0 * s) * p + e * f64::from_bits(T))
}
