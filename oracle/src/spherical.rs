// Kind 21: the original's `spherical_kmeans`. In: m, d, k, rounds, restarts, seed, the weights, the coordinates. Out:
// cohesion, made, saved, the labels, the directions.
use crate::cases::{bits, Kinded, List};
use crate::counts;
use crate::leaves::{leaves, odd, words, SORTS};
use crate::original::Original;
use crate::rng::SplitMix64;
use crate::standins::Leaf;
use crate::vmf;
use std::io::Write;

struct Settings {
    k: usize,
    rounds: usize,
    restarts: usize,
    seed: u64,
}

fn case(of: &Original, leaves: &[Leaf], s: &Settings) -> Kinded {
    let (m, d) = (leaves.len(), leaves[0].mean.len());
    counts::take();
    let r = (of.spherical_kmeans)(leaves, s.k, s.rounds, s.restarts, s.seed);
    let c = counts::take();
    assert!(of.slipped || c.made + c.saved == (s.k * m) as u64 * c.begun);
    let sizes = [m as u64, d as u64, s.k as u64, s.rounds as u64, s.restarts as u64, s.seed];
    let out = [vec![bits(r.cohesion), c.made, c.saved], r.outputs.concat()].concat();
    (21, ([&sizes[..], &words(leaves)].concat(), out))
}

// The inputs that were found to be special: labels that alternate for ever, the skip that changes a label, one leaf of
// each sort; a reseed after a skip, a reseed in the only round, a centre next to nothing that stays; and odd leaves.
fn special(of: &Original) -> Vec<Kinded> {
    let leaf = |mean: &[f64], weight: f64| Leaf { mean: mean.to_vec(), weight };
    let cycle = [leaf(&[0.5, -2.0, 1.0], 2.0), leaf(&[0.5, -2.0, 1.0], 1.0)];
    let skip =
        [leaf(&[1.0, 0.0], 1.0), leaf(&[0.0, 1.0], 1.0), leaf(&[0.6, 0.8], 1e-8), leaf(&[0.500000001, 0.5], 0.0)];
    let zero = [leaf(&[0.0], 1.0)];
    let one = [leaf(&[1.0], 1.0)];
    let tiny = [leaf(&[1e-170, 1e-170], 1.0), leaf(&[1.0, -1.0], 1.0)];
    let [far, near, wide] = [
        [0.1679197425387513, -0.055624244410273915],
        [0.09047266886577887, 0.15075029897319014],
        [0.8877168267643947, 0.08571275957136404],
    ];
    let served =
        [leaf(&far, 0.0), leaf(&near, 1e6), leaf(&near, 1.0), leaf(&near, 2.0), leaf(&wide, 100.0), leaf(&wide, 1e-8)];
    let reseed = [leaf(&[1.0], 1e-8), leaf(&[0.0], 1e-8)];
    let stays = [leaf(&[1.0], -0.0), leaf(&[-1e-162], -0.0)];
    let run = |leaves: &[Leaf], k, rounds, restarts, seed| case(of, leaves, &Settings { k, rounds, restarts, seed });
    let mut all = vec![
        run(&cycle, 2, 10000, 1, 27),
        run(&skip, 2, 100, 1, 7),
        run(&zero, 1, 50, 1, 7),
        run(&one, 1, 50, 4, 7),
        run(&tiny, 2, 50, 2, 3),
        run(&tiny, 1, 0, 0, 3),
        run(&served, 5, 25, 1, 7431),
        run(&reseed, 2, 1, 1, 11317627457985123720),
        run(&stays, 2, 3, 1, 6185492013993183880),
    ];
    all.extend(ODD.map(|seed| odd_case(of, seed)));
    all
}

// Seeds of odd cases: one tells `shift_lower` without its guard, one sums that start from -0.
const ODD: [u64; 2] = [169, 23];

pub fn odd_case(of: &Original, seed: u64) -> Kinded {
    let mut g = SplitMix64::new(seed);
    let r = g.next_u64();
    let (m, d) = (2 + (r % 6) as usize, 1 + (r / 8 % 4) as usize);
    let k = 1 + (r >> 16) as usize % m;
    let rounds = [100, 1, 2, 3, 25][(r >> 32) as usize % 5];
    let restarts = 1 + (r >> 48) as usize % 3;
    case(of, &odd(m, d, &mut g), &Settings { k, rounds, restarts, seed })
}

// The stored cases.
pub fn spherical(of: &Original) -> Vec<Kinded> {
    let mut all = special(of);
    for (m, d) in
        [(1, 1), (1, 3), (2, 2), (3, 1), (5, 2), (6, 3), (8, 4), (12, 5), (20, 2), (33, 16), (64, 3), (100, 8), (7, 64)]
    {
        for k in (1..=m.min(64)).filter(|&k| k <= 3 || k == 5 || k == m) {
            all.extend(sorts(of, m, d, k));
        }
    }
    all
}

// One case of each sort of leaves, with rounds and restarts that go round.
fn sorts(of: &Original, m: usize, d: usize, k: usize) -> Vec<Kinded> {
    let sorts = if m * d > 200 {
        3
    } else if m * d > 30 {
        7
    } else {
        SORTS
    };
    (0..sorts)
        .map(|sort| {
            let seed = (m * 1000 + d * 100 + k * 10 + sort) as u64;
            let rounds = [100, 1, 2, 0, 7][(sort + k) % 5];
            let restarts = [1, 2, 0, 3][(sort + m) % 4];
            case(of, &leaves(sort, m, d, seed), &Settings { k, rounds, restarts, seed })
        })
        .collect()
}

// 4,000 random small cases: leaves of every sort, up to 24 of them, of up to 9 coordinates, in up to 12 groups.
pub fn many<W: Write>(list: &mut List<W>, seed: u64) {
    let mut g = SplitMix64::new(seed);
    for _ in 0..4000 {
        let r = g.next_u64();
        let m = 1 + (r % 24) as usize;
        let d = 1 + (r / 24 % 9) as usize;
        let k = 1 + (r / 1000 % (m as u64).min(12)) as usize;
        let sort = (r / 100000 % SORTS as u64) as usize;
        let rounds = [100, 1, 2, 0, 7, 50, 3][(r / 7000000 % 7) as usize];
        let restarts = [1, 2, 0, 3, 4][(r / 70000000 % 5) as usize];
        let seed = g.next_u64();
        list.cases(&[case(&vmf::ORIGINAL, &leaves(sort, m, d, seed), &Settings { k, rounds, restarts, seed })]);
    }
}
