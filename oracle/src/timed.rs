// The original's three fits of f64 leaves, compiled in this crate, beside its exponential and logarithm: without
// counters and, to show what these cost, with them.
use crate::standins::Leaf;
use crate::{plain, vmf};

// The original's `Kappa` of either build.
fn of(shared: bool) -> plain::Kappa {
    if shared {
        plain::Kappa::Shared
    } else {
        plain::Kappa::Free
    }
}

#[inline(never)]
pub fn spherical_kmeans(
    leaves: &[Leaf], k: usize, rounds: usize, restarts: usize, seed: u64,
) -> plain::SphericalKMeans<f64> {
    plain::spherical_kmeans::<f64, Leaf>(leaves, k, rounds, restarts, seed)
}

#[inline(never)]
pub fn movmf_with(leaves: &[Leaf], k: usize, rounds: usize, seed: u64, shared: bool) -> plain::Movmf<f64> {
    plain::movmf_with::<f64, Leaf>(leaves, k, rounds, seed, of(shared))
}

#[inline(never)]
pub fn movmf_auto_with(
    leaves: &[Leaf], k_min: usize, k_max: usize, rounds: usize, seed: u64, shared: bool,
) -> plain::Movmf<f64> {
    plain::movmf_auto_with::<f64, Leaf>(leaves, k_min, k_max, rounds, seed, of(shared))
}

// With the counters.
#[inline(never)]
pub fn counted_spherical_kmeans(
    leaves: &[Leaf], k: usize, rounds: usize, restarts: usize, seed: u64,
) -> vmf::SphericalKMeans<f64> {
    vmf::spherical_kmeans::<f64, Leaf>(leaves, k, rounds, restarts, seed)
}
