// The original's fits as the cases ask for them, so that a case's answer is a function of which original is run: the
// one that stands, or one with a slip.
use crate::cases::bits;
use crate::standins::Leaf;

// What `spherical_kmeans` answers, its labels and its directions as words.
pub struct Clusters {
    pub cohesion: f64,
    pub outputs: [Vec<u64>; 2],
}

// What a mixture fit answers. Its outputs as words are labels, responsibilities, weights, directions, concentrations
// and logw.
pub struct Fit {
    pub k: usize,
    pub loglik: f64,
    pub outputs: [Vec<u64>; 6],
}

// The last argument of the mixture fits is whether Kappa is Shared.
#[derive(Clone, Copy)]
pub struct Original {
    pub slipped: bool,
    pub exp: fn(f64) -> f64,
    pub argmax: fn(&[f64]) -> usize,
    pub argmin: fn(&[f64]) -> usize,
    pub spherical_kmeans: fn(&[Leaf], usize, usize, usize, u64) -> Clusters,
    pub movmf_with: fn(&[Leaf], usize, usize, u64, bool) -> Fit,
    pub movmf_auto_with: fn(&[Leaf], usize, usize, usize, u64, bool) -> Fit,
    pub movmf_auto: fn(&[Leaf], usize, usize, usize, u64) -> Fit,
}

pub fn numbers(v: &[f64]) -> Vec<u64> {
    v.iter().map(|&x| bits(x)).collect()
}

pub fn labels(v: &[usize]) -> Vec<u64> {
    v.iter().map(|&l| l as u64).collect()
}

// In a module that holds vmf.rs: its fits.
#[macro_export]
macro_rules! fits {
    (slipped: $slipped:literal) => {
        use $crate::original::{labels, numbers, Clusters, Fit, Original};
        use $crate::standins::Leaf;

        // A refresh of `served` that counts as made, for a slip.
        #[allow(dead_code)]
        fn counted_dot<R: Real>(a: &[R], b: &[R]) -> R {
            $crate::counts::made(1);
            dot(a, b)
        }

        fn kappa(shared: bool) -> Kappa {
            if shared {
                Kappa::Shared
            } else {
                Kappa::Free
            }
        }

        fn fit(r: Movmf<f64>) -> Fit {
            let resp = numbers(&r.resp.concat());
            let means = numbers(&r.means.concat());
            let [weights, kappas, logw] = [&r.weights, &r.kappas, &r.mixture.logw].map(|v| numbers(v));
            Fit {
                k: r.weights.len(),
                loglik: r.loglik,
                outputs: [labels(&r.labels), resp, weights, means, kappas, logw],
            }
        }

        pub const ORIGINAL: Original = Original {
            slipped: $slipped,
            exp: probe_exp,
            argmax: probe_argmax,
            argmin: probe_argmin,
            spherical_kmeans: |leaves, k, rounds, restarts, seed| {
                let r = spherical_kmeans::<f64, Leaf>(leaves, k, rounds, restarts, seed);
                Clusters { cohesion: r.cohesion, outputs: [labels(&r.labels), numbers(&r.centers.concat())] }
            },
            movmf_with: |leaves, k, rounds, seed, shared| {
                fit(movmf_with::<f64, Leaf>(leaves, k, rounds, seed, kappa(shared)))
            },
            movmf_auto_with: |leaves, k_min, k_max, rounds, seed, shared| {
                fit(movmf_auto_with::<f64, Leaf>(leaves, k_min, k_max, rounds, seed, kappa(shared)))
            },
            movmf_auto: |leaves, k_min, k_max, rounds, seed| {
                fit(movmf_auto::<f64, Leaf>(leaves, k_min, k_max, rounds, seed))
            },
        };
    };
}
