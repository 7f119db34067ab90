// Random calls of the three entries: leaves of every sort, settings, arrays longer than needed, and now and then one or
// two faults.
use crate::port::{Flat, Lent};
use oracle::leaves::{leaves, SORTS};
use oracle::rng::SplitMix64;
use oracle::standins::Leaf;

#[derive(Clone, Copy, PartialEq, Debug)]
pub enum Fit {
    Spherical,
    Mixture,
    Auto,
}

// One call. The automatic fit tries k_min to k, the others k; only spherical k-means has restarts, only the mixtures
// have a Kappa.
pub struct Call {
    pub fit: Fit,
    pub sort: usize,
    pub flat: Flat,
    pub d: usize,
    pub k_min: usize,
    pub k: usize,
    pub rounds: usize,
    pub restarts: usize,
    pub seed: u64,
    // the kind as it crosses the border: 0 Free, 1 Shared, any other none
    pub kappa: u32,
    pub lent: Lent,
}

// The sorts of oracle/src/leaves.rs, in its order, and leaves of all of them mixed.
pub const NAMES: [&str; SORTS + 1] = [
    "clustered",
    "uniform",
    "duplicates",
    "zero leaves",
    "subnormal",
    "within 2, weight 2^40",
    "near-identical",
    "antipodal",
    "axes, zero weights",
    "tiny squares",
    "uniform within 2",
    "first weight zero",
    "whole weights",
    "small weights",
    "mixed",
];

fn below(g: &mut SplitMix64, n: usize) -> usize {
    (g.next_u64() % n as u64) as usize
}

// From 1 to most, as often below the middle of its digits as above.
fn size(g: &mut SplitMix64, most: usize) -> usize {
    let x = (most as f64 + 1.0).powf(g.next_f64());
    (x as usize).clamp(1, most)
}

fn set_of(sort: usize, m: usize, d: usize, seed: u64) -> Vec<Leaf> {
    if sort < SORTS {
        return leaves(sort, m, d, seed);
    }
    let mut g = SplitMix64::new(seed);
    (0..m).map(|i| leaves(below(&mut g, SORTS), i + 1, d, seed.wrapping_add(i as u64)).pop().unwrap()).collect()
}

pub fn flat(leaves: &[Leaf]) -> Flat {
    Flat {
        weights: leaves.iter().map(|l| l.weight).collect(),
        coords: leaves.iter().flat_map(|l| l.mean.clone()).collect(),
    }
}

impl Call {
    // The greatest number of groups.
    pub fn most(&self) -> usize {
        if self.fit == Fit::Auto {
            self.k.min(self.flat.weights.len()).max(1)
        } else {
            self.k
        }
    }
}

// m up to 40, d up to 8, any number of groups.
pub fn small(fit: Fit, g: &mut SplitMix64) -> Call {
    let m = if below(g, 12) == 0 { 1 } else { 1 + below(g, 40) };
    let d = 1 + below(g, 8);
    let k = match below(g, 6) {
        0 => m,
        1 => 1,
        _ => 1 + below(g, m.min(8)),
    };
    let rounds = [0, 1, 2, 3, 7, 20, 50, 100, 100, 1000, 10000][below(g, 11)];
    let restarts = [0, 1, 2, 3, 5][below(g, 5)];
    let k_min = if fit == Fit::Auto { [0, 1, 1, k.saturating_sub(2), k, k + 3][below(g, 6)] } else { k };
    // the automatic fit: a range that may reach past the leaves; with fewer rounds where it is long
    let k = if fit == Fit::Auto {
        [k.min(5), k.min(5), k.min(5), k.min(5), k.min(5), k.min(5), k, 0, m + 5][below(g, 9)]
    } else {
        k
    };
    let rounds = if fit == Fit::Auto && k > 5 { rounds.min(7) } else { rounds };
    let sort = below(g, NAMES.len());
    let faults = [0, 0, 0, 1, 1, 2][below(g, 6)];
    call(fit, sort, m, d, k_min, k, rounds, restarts, faults, g)
}

// m up to 4,096, d up to 256, k up to 64, of about 0.1 to 2 seconds on each side; faults are rarer.
pub fn large(fit: Fit, g: &mut SplitMix64) -> Call {
    loop {
        let (m, d, k) = (4096 - below(g, 4096) * below(g, 2), size(g, 256), size(g, 64));
        let rounds = [1, 2, 5, 10, 50, 100][below(g, 6)];
        let restarts = 1 + below(g, 2);
        // passes over all products of leaves and groups; the mixture's cost about three times as much, beside four warm
        // starts of some 30 passes
        let passes = match fit {
            Fit::Spherical => rounds * restarts,
            Fit::Mixture => 4 * (30 + 3 * rounds),
            Fit::Auto => 8 * (30 + 3 * rounds),
        };
        let cost = m * k * (d + 30) * passes;
        if k <= m && cost > 100_000_000 && cost < 4_000_000_000 {
            let (sort, faults) = (below(g, SORTS), (below(g, 8) == 0) as usize);
            return call(fit, sort, m, d, k.saturating_sub(1), k, rounds, restarts, faults, g);
        }
    }
}

#[allow(clippy::too_many_arguments)]
fn call(
    fit: Fit, sort: usize, m: usize, d: usize, k_min: usize, k: usize, rounds: usize, restarts: usize, faults: usize,
    g: &mut SplitMix64,
) -> Call {
    let flat = flat(&set_of(sort, m, d, g.next_u64()));
    let (seed, kappa) = (g.next_u64(), (below(g, 2) == 0) as u32);
    let mut c = Call { fit, sort, flat, d, k_min, k, rounds, restarts, seed, kappa, lent: Lent::new(0, 0, 0) };
    c.lent = Lent::new(m, d, c.most());
    lengthen(&mut c.lent, g);
    for _ in 0..faults {
        spoil(&mut c, g);
    }
    mark(&mut c.lent);
    c
}

// Each array up to five entries longer.
fn lengthen(l: &mut Lent, g: &mut SplitMix64) {
    for v in
        [&mut l.responsibilities, &mut l.weights, &mut l.directions, &mut l.concentrations, &mut l.logw, &mut l.work]
    {
        v.resize(v.len() + below(g, 6), 0.0);
    }
    for v in [&mut l.labels, &mut l.work_u32] {
        v.resize(v.len() + below(g, 6), 0);
    }
}

// Every entry a number of its own, which no fit gives.
fn mark(l: &mut Lent) {
    for v in
        [&mut l.responsibilities, &mut l.weights, &mut l.directions, &mut l.concentrations, &mut l.logw, &mut l.work]
    {
        v.iter_mut().enumerate().for_each(|(i, x)| *x = f64::from_bits(0x6A5A_0000_0000_0000 + i as u64));
    }
    for v in [&mut l.labels, &mut l.work_u32] {
        v.iter_mut().enumerate().for_each(|(i, x)| *x = 0xA500_0000 + i as u32);
    }
    (l.groups, l.cohesion, l.loglik, l.score, l.counts) = (77, 1.25e200, 1.5e200, 1.75e200, [81, 82, 83]);
}

// One fault, of any refusal; it may also be none, or hidden by another.
fn spoil(c: &mut Call, g: &mut SplitMix64) {
    let far = [usize::MAX, 1 << 63, 1 << 32][below(g, 3)];
    let any = below(g, 7);
    match below(g, 6) {
        0 => spoil_sizes(c, any, far, g),
        1 => spoil_groups(c, any, far),
        2 if c.fit == Fit::Spherical && any < 3 => c.restarts = [65, 64, far][any],
        2 if c.fit != Fit::Spherical && any == 6 => c.kappa = [2, 3, 13, 256, u32::MAX][below(g, 5)],
        2 => c.rounds = [10001, 10001, 10002, 20000, far, far, 1 << 16][any],
        3 => shorten(c, g),
        4 => put(
            &mut c.flat.weights,
            [f64::NAN, -1.0, f64::INFINITY, 1099511627776.0002, -5e-324, f64::NEG_INFINITY, -0.0][any],
            g,
        ),
        _ => put(
            &mut c.flat.coords,
            [f64::NAN, 2.0000000000000004, -2.0000000000000004, f64::INFINITY, f64::NEG_INFINITY, 1e300, -2.0][any],
            g,
        ),
    }
}

// The automatic fit: more than 64 leaves, so that the range reaches past 64.
fn spoil_groups(c: &mut Call, any: usize, far: usize) {
    c.k = [0, 65, c.flat.weights.len() + 1, far, 64, 66, 1000][any];
    if c.fit == Fit::Auto && c.k > 64 {
        let d = c.d.clamp(1, 256);
        (c.d, c.flat) = (d, flat(&leaves(1, 60 + any, d, 3)));
    }
}

fn spoil_sizes(c: &mut Call, any: usize, far: usize, g: &mut SplitMix64) {
    match any {
        0 => c.d = 0,
        1 => c.d = far,
        2 => c.d += 1,
        3 => c.flat.coords.resize((c.flat.coords.len() + 3).saturating_sub(below(g, 7)), 0.5),
        4 => c.flat = Flat { weights: vec![], coords: vec![] },
        5 => {
            let d = c.d.min(2);
            (c.d, c.flat) = (d, flat(&leaves(1, 4097, d.max(1), 3)));
        }
        _ => {
            let m = c.flat.weights.len().min(9);
            (c.d, c.flat) = (257, flat(&leaves(1, m, 257, 3)));
        }
    }
}

// One of the arrays that the entry takes too short, by a few entries or empty.
fn shorten(c: &mut Call, g: &mut SplitMix64) {
    let l = &mut c.lent;
    let cut = |n: usize, g: &mut SplitMix64| if below(g, 4) == 0 { 0 } else { n.saturating_sub(1 + below(g, 8)) };
    let any = below(g, 8);
    if any < 2 {
        let v = if any == 0 { &mut l.labels } else { &mut l.work_u32 };
        v.truncate(cut(v.len(), g));
        return;
    }
    let v =
        [&mut l.directions, &mut l.work, &mut l.responsibilities, &mut l.weights, &mut l.concentrations, &mut l.logw]
            .into_iter()
            .nth(any - 2)
            .unwrap();
    v.truncate(cut(v.len(), g));
}

fn put(v: &mut [f64], x: f64, g: &mut SplitMix64) {
    if !v.is_empty() {
        let i = [0, v.len() - 1, below(g, v.len())][below(g, 3)];
        v[i] = x;
    }
}
