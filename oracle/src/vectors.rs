// Kinds 11 to 16: dot, norm, unit, argmax, argmin, weighted_pick of the original, on vectors of 1 to 256 elements.
use crate::cases::{bits, seeds, Case, Kinded, List};
use crate::original::Original;
use crate::rng::SplitMix64;
use crate::vmf;
use std::io::Write;

const LENGTHS: [usize; 7] = [1, 2, 3, 7, 16, 64, 256];

// Vectors of n elements: all the sorts below where n is small, the first ones where it is large.
fn vectors(n: usize) -> Vec<Vec<f64>> {
    let most = if n <= 7 {
        24
    } else if n <= 16 {
        16
    } else if n <= 64 {
        6
    } else {
        3
    };
    let mut g = SplitMix64::new(100 + n as u64);
    (0..most).map(|sort| (0..n).map(|i| element(sort, i, &mut g)).collect()).collect()
}

// Element i of a vector of this sort.
fn element(sort: usize, i: usize, g: &mut SplitMix64) -> f64 {
    let r = g.next_u64();
    let x = (r >> 11) as f64 / (1u64 << 53) as f64;
    let odd = i % 2 == 1;
    let sign = if r & 1 == 1 { -1.0 } else { 1.0 };
    match sort {
        0 => x * 4.0 - 2.0,
        1 => f64::from_bits((r & 1) << 63 | r >> 12),
        2 => (r % 3) as f64 - 1.0,
        3 => {
            if odd {
                -2.0
            } else {
                2.0
            }
        }
        4 => -0.0,
        5 => x * 2.0 - 1.0,
        6 => 0.0,
        7 => f64::from_bits(r),
        8 => {
            if odd {
                -0.0
            } else {
                0.0
            }
        }
        9 => {
            if odd {
                0.0
            } else {
                -0.0
            }
        }
        10 => f64::from_bits(1),
        11 => -f64::from_bits(1),
        12 => 2.0,
        13 => -2.0,
        14 => sign * (1.0 + x) * 1e-160,
        15 => sign * (1.0 + x) * 1e160,
        16 => i as f64,
        17 => -(i as f64),
        18 => {
            if i == 1 {
                f64::NAN
            } else {
                x
            }
        }
        19 => {
            if i == 0 {
                f64::NAN
            } else {
                x
            }
        }
        20 => {
            if odd {
                f64::NEG_INFINITY
            } else {
                f64::INFINITY
            }
        }
        21 => {
            if i == 0 {
                1.0
            } else {
                sign * 1e-9 * x
            }
        }
        22 => sign * 1099511627776.0,
        _ => {
            if odd {
                f64::MIN_POSITIVE
            } else {
                -f64::MIN_POSITIVE
            }
        }
    }
}

fn words(v: &[f64]) -> Vec<u64> {
    v.iter().map(|x| x.to_bits()).collect()
}

// Vectors of each length, of a function from a vector to an answer.
fn answers(kind: u64, f: impl Fn(&[f64]) -> Vec<u64>) -> Vec<Kinded> {
    LENGTHS.into_iter().flat_map(vectors).map(|v| (kind, (words(&v), f(&v)))).collect()
}

// Kinds 14 and 15.
pub fn places(of: &Original) -> Vec<Kinded> {
    let [most, least] = [(14, of.argmax), (15, of.argmin)].map(|(kind, f)| answers(kind, |v| vec![f(v) as u64]));
    [most, least].concat()
}

pub fn vector<W: Write>(list: &mut List<W>) {
    for n in LENGTHS {
        dots(list, n, n);
    }
    for (n, m) in [(1, 2), (3, 7), (16, 2), (64, 1)] {
        dots(list, n, m);
    }
    list.cases(&answers(12, |v| vec![bits(vmf::probe_norm(v))]));
    list.cases(&answers(13, |v| vmf::probe_unit(v).iter().map(|&x| bits(x)).collect()));
    list.cases(&places(&vmf::ORIGINAL));
    for n in LENGTHS {
        picks(list, n);
    }
}

// Kind 11: the two lengths, the two vectors.
fn dots<W: Write>(list: &mut List<W>, n: usize, m: usize) {
    let (left, right) = (vectors(n), vectors(m));
    let mut cases: Vec<Case> = Vec::new();
    for (i, a) in left.iter().enumerate() {
        // a vector with itself, and with one of another sort
        for j in [i, i * 5 + 3] {
            let b = &right[j % right.len()];
            let ins = [vec![n as u64, m as u64], words(a), words(b)].concat();
            cases.push((ins, vec![bits(vmf::probe_dot(a, b))]));
        }
    }
    // long ones: the second half of the cases is left out
    if n >= 64 {
        cases.truncate(cases.len() / 2);
    }
    list.block(11, &cases);
}

// Weights of n leaves, as vectors above.
fn weights(n: usize) -> Vec<Vec<f64>> {
    let mut g = SplitMix64::new(200 + n as u64);
    let most = if n <= 16 { 12 } else { 3 };
    (0..most).map(|sort| (0..n).map(|i| weight(sort, i, &mut g)).collect()).collect()
}

fn weight(sort: usize, i: usize, g: &mut SplitMix64) -> f64 {
    let r = g.next_u64();
    let x = (r >> 11) as f64 / (1u64 << 53) as f64;
    match sort {
        0 => x,
        1 => {
            if r % 3 == 0 {
                0.0
            } else {
                x * x
            }
        }
        2 => 0.0,
        3 => -0.0,
        4 => f64::from_bits(1 + r % 3),
        5 => f64::from_bits(r >> 12),
        6 => 1.0,
        7 => (1.0 + x) * 1099511627776.0,
        8 => {
            if i % 2 == 0 {
                0.0
            } else {
                -0.0
            }
        }
        9 => x * 2.0 - 1.0,
        10 => {
            if i % 2 == 1 {
                f64::NAN
            } else {
                x
            }
        }
        _ => {
            if i == 0 {
                f64::INFINITY
            } else {
                x
            }
        }
    }
}

// Kind 16: the generator's state and the weights; the place, and the state after the draw.
fn picks<W: Write>(list: &mut List<W>, n: usize) {
    let seeds = seeds();
    let draws = if n <= 3 {
        12
    } else if n <= 7 {
        8
    } else if n <= 16 {
        4
    } else {
        2
    };
    let mut cases: Vec<Case> = Vec::new();
    for (sort, w) in weights(n).iter().enumerate() {
        for k in 0..draws {
            // the eight named seeds first, then others
            let seed = if k < 8 { seeds[(k + sort) % 8] } else { seeds[8 + sort * 24 + k] };
            let mut g = SplitMix64::new(seed);
            let index = vmf::probe_weighted_pick(w, &mut g) as u64;
            // the state that the generator is left with, by its next number
            let next = seed.wrapping_add(0x9E37_79B9_7F4A_7C15);
            assert_eq!(g.next_u64(), SplitMix64::new(next).next_u64());
            cases.push(([vec![seed], words(w)].concat(), vec![index, next]));
        }
    }
    list.block(16, &cases);
}
