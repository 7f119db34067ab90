// Kinds 22 and 23: the original's `movmf_with`. In: m, d, k, rounds, seed, Kappa (0 Free, 1 Shared), the weights, the
// coordinates. Out: log-likelihood, made, saved, then the six outputs: labels, responsibilities, weights, directions,
// concentrations, logw. Kind 23 has a digest of each output in its place, for cases that would have too many words.
use crate::cases::{bits, Kinded, List};
use crate::counts;
use crate::leaves::{leaves, odd, words, SORTS};
use crate::original::Original;
use crate::rng::SplitMix64;
use crate::standins::Leaf;
use crate::vmf;
use std::io::Write;

// What `replay` has room for.
const WORDS: usize = 3855;

struct Settings {
    k: usize,
    rounds: usize,
    seed: u64,
    shared: bool,
}

// SplitMix64's output function, by which a digest takes one word more.
fn mix(z: u64) -> u64 {
    let z = (z ^ (z >> 30)).wrapping_mul(0xBF58_476D_1CE4_E5B9);
    let z = (z ^ (z >> 27)).wrapping_mul(0x94D0_49BB_1331_11EB);
    z ^ (z >> 31)
}

pub fn digest(words: &[u64]) -> u64 {
    words.iter().fold(0, |h: u64, &w| mix(h.wrapping_add(w)))
}

fn case(of: &Original, leaves: &[Leaf], s: &Settings) -> Kinded {
    let (m, d) = (leaves.len(), leaves[0].mean.len());
    counts::take();
    let r = (of.movmf_with)(leaves, s.k, s.rounds, s.seed, s.shared);
    let c = counts::take();
    assert!(of.slipped || c.made + c.saved == (s.k * m) as u64 * c.begun);
    let sizes = [m as u64, d as u64, s.k as u64, s.rounds as u64, s.seed, s.shared as u64];
    let ins = [&sizes[..], &words(leaves)].concat();
    let mut out = vec![bits(r.loglik), c.made, c.saved];
    if ins.len() + out.len() + r.outputs.iter().map(Vec::len).sum::<usize>() <= WORDS {
        out.extend(r.outputs.concat());
        (22, (ins, out))
    } else {
        out.extend(r.outputs.iter().map(|o| digest(o)));
        (23, (ins, out))
    }
}

// Labels that alternate in the warm start, the skip that changes a label, a weight of exactly 0 whose logw shows its
// floor, one leaf, leaves of zero weight.
fn special(of: &Original) -> Vec<Kinded> {
    let leaf = |mean: &[f64], weight: f64| Leaf { mean: mean.to_vec(), weight };
    let axis =
        |j: usize, weight: f64| Leaf { mean: (0..256).map(|i| if i == j { 1.0 } else { 0.0 }).collect(), weight };
    let cycle = vec![leaf(&[0.5, -2.0, 1.0], 2.0), leaf(&[0.5, -2.0, 1.0], 1.0)];
    let skip =
        vec![leaf(&[1.0, 0.0], 1.0), leaf(&[0.0, 1.0], 1.0), leaf(&[0.6, 0.8], 1e-8), leaf(&[0.500000001, 0.5], 0.0)];
    let floor = vec![axis(0, 1.0), axis(1, 0.0)];
    let one = vec![leaf(&[1.0], 1.0)];
    let empty = vec![leaf(&[1.0, 0.0], 0.0), leaf(&[0.0, 1.0], -0.0), leaf(&[0.0, -1.0], 0.0)];
    let mut all = Vec::new();
    for shared in [false, true] {
        for (set, k, seed) in
            [(&cycle, 2, 27), (&skip, 2, 7), (&floor, 2, 7), (&one, 1, 7), (&empty, 2, 7), (&empty, 3, 5)]
        {
            for rounds in [0, 1, 2, 100, 10000] {
                all.push(case(of, set, &Settings { k, rounds, seed, shared }));
            }
        }
    }
    all
}

// Five leaves along five axes.
pub fn along_axes(length: f64) -> Vec<Leaf> {
    (0..5).map(|i| Leaf { mean: (0..5).map(|j| if j == i { length } else { 0.0 }).collect(), weight: 1.0 }).collect()
}

// These in five groups. Their length says by how much a leaf is less like another group than its own: 708.02, 720,
// 744.88 and 745.1. So its share there is the exponential of a number just below -708, of one between the borders, and
// of numbers just above and just below -745, where it is 0.
fn small_shares(of: &Original) -> Vec<Kinded> {
    let mut all = Vec::new();
    for (length, small) in [(0.9971832, 0), (0.99723, 20), (0.9973222, 20), (0.997323, 0)] {
        let leaves = along_axes(length);
        for shared in [false, true] {
            for rounds in [1, 100] {
                let c = case(of, &leaves, &Settings { k: 5, rounds, seed: 7, shared });
                // behind three numbers and five labels, five shares a leaf
                let shares = &c.1 .1[8..33];
                let found = shares.iter().filter(|&&w| f64::from_bits(w).is_subnormal()).count();
                assert!(of.slipped || found == small);
                all.push(c);
            }
        }
    }
    all
}

// Seeds of odd cases: one tells `served` without its refresh, one sums of k-means and one the mixture's sums that start
// from -0.
const ODD: [u64; 3] = [1442, 23, 46];

pub fn odd_case(of: &Original, seed: u64) -> Kinded {
    let mut g = SplitMix64::new(seed);
    let r = g.next_u64();
    let (m, d) = (2 + (r % 6) as usize, 1 + (r / 8 % 6) as usize);
    let k = 1 + (r >> 16) as usize % m;
    let rounds = [0, 1, 2, 10][(r >> 32) as usize % 4];
    case(of, &odd(m, d, &mut g), &Settings { k, rounds, seed, shared: r >> 63 == 1 })
}

// The stored cases, those of kind 22 first.
pub fn mixture(of: &Original) -> Vec<Kinded> {
    let mut all = special(of);
    all.extend(small_shares(of));
    all.extend(ODD.map(|seed| odd_case(of, seed)));
    for (m, d) in [
        (1, 1),
        (1, 3),
        (2, 2),
        (3, 1),
        (5, 2),
        (6, 3),
        (8, 4),
        (12, 5),
        (20, 2),
        (33, 16),
        (64, 3),
        (100, 8),
        (7, 64),
        (3, 256),
    ] {
        for k in (1..=m.min(64)).filter(|&k| k <= 3 || k == 5 || k == m.min(64)) {
            all.extend(sorts(of, m, d, k));
        }
    }
    all.sort_by_key(|c| c.0);
    all
}

// One case of each sort of leaves, with rounds and Kappa that go round.
fn sorts(of: &Original, m: usize, d: usize, k: usize) -> Vec<Kinded> {
    let sorts = if m * d > 200 {
        3
    } else if m * d > 30 {
        7
    } else {
        SORTS
    };
    (0..sorts)
        .map(|sort| {
            let seed = (m * 1000 + d * 100 + k * 10 + sort) as u64;
            let rounds = [100, 1, 2, 10000, 0, 7][(sort + k) % 6];
            let shared = (sort + m) % 2 == 1;
            case(of, &leaves(sort, m, d, seed), &Settings { k, rounds, seed, shared })
        })
        .collect()
}

// 2,000 random small cases: leaves of every sort, up to 24 of them, of up to 9 coordinates, in up to 12 groups.
pub fn many<W: Write>(list: &mut List<W>, seed: u64) {
    let mut g = SplitMix64::new(seed);
    for _ in 0..2000 {
        let r = g.next_u64();
        let m = 1 + (r % 24) as usize;
        let d = 1 + (r / 24 % 9) as usize;
        let k = 1 + (r / 1000 % (m as u64).min(12)) as usize;
        let sort = (r / 100000 % SORTS as u64) as usize;
        let rounds = [100, 1, 2, 0, 7, 50, 10000][(r / 7000000 % 7) as usize];
        let shared = r / 70000000 % 2 == 1;
        let seed = g.next_u64();
        list.cases(&[case(&vmf::ORIGINAL, &leaves(sort, m, d, seed), &Settings { k, rounds, seed, shared })]);
    }
}
