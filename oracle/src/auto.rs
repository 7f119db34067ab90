// Kind 24: the original's `movmf_auto_with`. In: m, d, k_min, k_max, rounds, seed, Kappa (0 Free, 1 Shared), the
// weights, the coordinates. Out: the number kept, or 0 where the original finds none and panics, its log-likelihood and
// score, made, saved, and a digest of each of the six outputs. The score is not in the original's answer; it is worked
// out here by the original's expression.
use crate::cases::{bits, Kinded, List};
use crate::counts;
use crate::document;
use crate::leaves::{leaves, odd, words, SORTS};
use crate::mixture::{along_axes, digest};
use crate::original::Original;
use crate::rng::SplitMix64;
use crate::standins::Leaf;
use crate::vmf;
use std::io::Write;

struct Settings {
    k_min: usize,
    k_max: usize,
    rounds: usize,
    seed: u64,
    shared: bool,
}

fn case(of: &Original, leaves: &[Leaf], s: &Settings) -> Kinded {
    let (m, d) = (leaves.len(), leaves[0].mean.len());
    let sizes = [m, d, s.k_min, s.k_max, s.rounds].map(|n| n as u64);
    let rest = [s.seed, s.shared as u64];
    let ins = [&sizes[..], &rest[..], &words(leaves)].concat();
    counts::take();
    let fit = std::panic::catch_unwind(|| (of.movmf_auto_with)(leaves, s.k_min, s.k_max, s.rounds, s.seed, s.shared));
    let c = counts::take();
    let Ok(r) = fit else {
        return (24, (ins, [&[0, 0, 0, c.made, c.saved][..], &[0; 6]].concat()));
    };
    let p = if s.shared { r.k * d } else { r.k * d + (r.k - 1) };
    let total: f64 = leaves.iter().map(|l| l.weight).sum();
    let score = -2.0 * r.loglik + p as f64 * document::ln(total);
    let mut out = vec![r.k as u64, bits(r.loglik), bits(score), c.made, c.saved];
    out.extend(r.outputs.iter().map(|o| digest(o)));
    (24, (ins, out))
}

// Seeds of odd cases: one tells the mixture's sums that start from -0.
const ODD: [u64; 1] = [46];

pub fn odd_case(of: &Original, seed: u64) -> Kinded {
    let mut g = SplitMix64::new(seed);
    let r = g.next_u64();
    let (m, d) = (2 + (r % 6) as usize, 1 + (r / 8 % 6) as usize);
    let (k_min, k_max) = ((r >> 16) as usize % 4, (r >> 24) as usize % 6);
    let rounds = [1, 2, 3, 10][(r >> 32) as usize % 4];
    case(of, &odd(m, d, &mut g), &Settings { k_min, k_max, rounds, seed, shared: r >> 63 == 1 })
}

// Five leaves in five groups, whose shares in the others' groups are exponentials just below -708 and around -720.
fn small_shares(of: &Original, length: f64) -> Kinded {
    case(of, &along_axes(length), &Settings { k_min: 5, k_max: 5, rounds: 100, seed: 7, shared: false })
}

// The stored cases.
pub fn auto(of: &Original) -> Vec<Kinded> {
    let mut all = ODD.map(|seed| odd_case(of, seed)).to_vec();
    all.extend([0.9971832, 0.99723].map(|length| small_shares(of, length)));
    for (m, d) in [(1, 1), (2, 2), (3, 1), (5, 2), (6, 3), (8, 4), (12, 5), (20, 2), (33, 16), (64, 3), (7, 64)] {
        for (at, (k_min, k_max)) in [(1, 4), (3, 2), (2, 0), (9, 12), (2, 6)].into_iter().enumerate() {
            let sorts = if m * d > 200 {
                2
            } else if m * d > 30 {
                4
            } else {
                SORTS
            };
            for sort in 0..sorts {
                let seed = (m * 1000 + d * 100 + at * 10 + sort) as u64;
                let rounds = [100, 1, 2, 10000, 0, 7][(sort + at) % 6];
                let shared = (sort + m + at) % 2 == 1;
                all.push(case(of, &leaves(sort, m, d, seed), &Settings { k_min, k_max, rounds, seed, shared }));
            }
        }
    }
    all
}

// 1,000 random small cases.
pub fn many<W: Write>(list: &mut List<W>, seed: u64) {
    let mut g = SplitMix64::new(seed);
    for _ in 0..1000 {
        let r = g.next_u64();
        let m = 1 + (r % 20) as usize;
        let d = 1 + (r / 24 % 9) as usize;
        let k_min = (r / 1000 % 5) as usize;
        let k_max = (r / 5000 % 9) as usize;
        let sort = (r / 100000 % SORTS as u64) as usize;
        let rounds = [100, 1, 2, 0, 7, 50, 10000][(r / 7000000 % 7) as usize];
        let shared = r / 70000000 % 2 == 1;
        let seed = g.next_u64();
        let settings = Settings { k_min, k_max, rounds, seed, shared };
        list.cases(&[case(&vmf::ORIGINAL, &leaves(sort, m, d, seed), &settings)]);
    }
}
