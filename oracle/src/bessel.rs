// Kinds 17 to 20: ln_gamma, log_vmf_norm, estimate_kappa, kappa_max of the original; and kind 26, ln_gamma of d / 2.
use crate::cases::{around, bits, Case, List};
use crate::rng::SplitMix64;
use crate::vmf;
use std::io::Write;

const DIMENSIONS: [usize; 10] = [1, 2, 3, 4, 5, 8, 16, 64, 255, 256];

pub fn bessel<W: Write>(list: &mut List<W>) {
    let mut gamma: Vec<u64> = (1..=256).map(|d| (d as f64 / 2.0).to_bits()).collect();
    for y in [0.0, -0.0, -1.5, -7.5, 1e-8, 1e300, f64::INFINITY, f64::NEG_INFINITY, f64::NAN] {
        gamma.push(y.to_bits());
    }
    let cases: Vec<Case> =
        gamma.iter().map(|&y| (vec![y], vec![bits(vmf::probe_ln_gamma(f64::from_bits(y)))])).collect();
    list.block(17, &cases);
    norms(list);
    estimates(list);
    let cases: Vec<Case> = (1..=256).map(|d| (vec![d as u64], vec![bits(vmf::probe_kappa_max(d))])).collect();
    list.block(20, &cases);
}

// Kind 26: d, from 1 to 256.
pub fn halves<W: Write>(list: &mut List<W>) {
    let of = |d: u64| bits(vmf::probe_ln_gamma(d as f64 / 2.0));
    let cases: Vec<Case> = (1..=256).map(|d| (vec![d], vec![of(d)])).collect();
    list.block(26, &cases);
}

// Kind 18: the dimension, the concentration.
fn norms<W: Write>(list: &mut List<W>) {
    let mut g = SplitMix64::new(300);
    let mut cases: Vec<Case> = Vec::new();
    let mut add = |d: usize, kappa: f64| {
        cases.push((vec![d as u64, kappa.to_bits()], vec![bits(vmf::probe_log_vmf_norm(d, kappa))]));
    };
    for d in DIMENSIONS {
        for kappa in [1e-8, 1e4] {
            for b in around(kappa, 1) {
                add(d, f64::from_bits(b));
            }
        }
        for kappa in [1e-4, 0.5, 1.0, 2.0, 10.0, 99.5, 1000.0, 5000.0, 9999.0] {
            add(d, kappa);
        }
        // from 2^-26 to 2^14, evenly by exponent
        for _ in 0..8 {
            add(d, f64::from_bits((997 + g.next_u64() % 40) << 52 | g.next_u64() >> 12));
        }
        if d >= 4 {
            for kappa in [10001.0, 54321.0, 1e5, 999999.0] {
                add(d, kappa);
            }
            for b in around(1e6, 1) {
                add(d, f64::from_bits(b));
            }
        }
    }
    // every dimension, where the series starts from ln_gamma(d / 2)
    for d in 1..=256 {
        for kappa in [1e-8, 1.0, 25.0, 9999.0] {
            add(d, kappa);
        }
    }
    // outside of what a mixture asks; the series stops at 200,000
    for (d, kappa) in [(3, 0.0), (4, 0.0), (2, -1.0), (3, f64::NAN), (5, f64::NAN), (5, f64::INFINITY), (3, 1e6)] {
        add(d, kappa);
    }
    list.block(18, &cases);
}

// Kind 19: the mean resultant length, the dimension.
fn estimates<W: Write>(list: &mut List<W>) {
    let mut lengths: Vec<u64> = Vec::new();
    for x in [1e-8, 1.0 - 1e-9, 1.0] {
        lengths.extend(around(x, 2));
    }
    for x in [0.0, -0.0, -1e-8, -1.0, 2.0, f64::NAN, f64::INFINITY, f64::NEG_INFINITY, f64::from_bits(1), 1e-7] {
        lengths.push(x.to_bits());
    }
    for x in [0.1f64, 0.5, 0.9, 0.99, 0.999, 0.9999, 0.99999, 0.999999, 1.0 - 1e-8] {
        lengths.push(x.to_bits());
    }
    let mut g = SplitMix64::new(400);
    for _ in 0..8 {
        lengths.push(g.next_f64().to_bits());
    }
    let mut cases: Vec<Case> = Vec::new();
    for d in DIMENSIONS {
        for &r in &lengths {
            cases.push((vec![r, d as u64], vec![bits(vmf::probe_estimate_kappa(f64::from_bits(r), d))]));
        }
    }
    list.block(19, &cases);
}
