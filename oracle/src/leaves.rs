// Leaf sets of every sort that the fits are tried on.
use crate::rng::SplitMix64;
use crate::standins::Leaf;

pub const SORTS: usize = 14;

fn unit(g: &mut SplitMix64) -> f64 {
    g.next_f64() * 2.0 - 1.0
}

// A coordinate of a leaf of this sort: clustered, uniform, duplicates, zero leaves, subnormals, ends of the range,
// near-identical, antipodal, along the axes, tiny squares.
fn coordinate(sort: usize, i: usize, j: usize, g: &mut SplitMix64) -> f64 {
    let x = unit(g);
    let centre = (((i % 3) * 7 + j * 5) % 11) as f64 / 5.5 - 1.0;
    match sort {
        0 | 11 | 12 | 13 => (centre + 0.1 * x).clamp(-2.0, 2.0),
        1 => x,
        2 => (((i % 2) * 3 + j) % 5) as f64 * 0.5 - 1.0,
        3 => {
            if i % 3 == 0 {
                if j % 2 == 0 {
                    0.0
                } else {
                    -0.0
                }
            } else {
                x
            }
        }
        4 => f64::from_bits((g.next_u64() & 1) << 63 | g.next_u64() >> 12),
        5 => {
            if x < 0.0 {
                -2.0
            } else {
                2.0
            }
        }
        6 => (centre + 1e-9 * x).clamp(-2.0, 2.0),
        7 => {
            if i % 2 == 0 {
                centre
            } else {
                -centre
            }
        }
        8 => {
            if j == i % 3 {
                1.0
            } else {
                0.0
            }
        }
        9 => x * 1e-162,
        _ => 2.0 * x,
    }
}

// A weight of a leaf of this sort: ones, random, zeros of both signs, 2^40, subnormals, whole numbers.
fn weight(sort: usize, i: usize, g: &mut SplitMix64) -> f64 {
    let x = g.next_f64();
    match sort {
        0 | 2 | 6 => 1.0 + (i % 4) as f64,
        3 => {
            if i % 4 == 1 {
                0.0
            } else {
                x
            }
        }
        4 => f64::from_bits(1 + g.next_u64() % 5),
        5 => 1099511627776.0,
        8 => {
            if i % 2 == 0 {
                0.0
            } else {
                -0.0
            }
        }
        11 => {
            if i == 0 {
                0.0
            } else {
                1.0
            }
        }
        12 => (x * 1024.0).floor(),
        13 => x * 1e-3,
        _ => x * 10.0,
    }
}

// m leaves of d coordinates.
pub fn leaves(sort: usize, m: usize, d: usize, seed: u64) -> Vec<Leaf> {
    let mut g = SplitMix64::new(seed);
    (0..m)
        .map(|i| {
            let mean = (0..d).map(|j| coordinate(sort, i, j, &mut g)).collect();
            Leaf { mean, weight: weight(sort, i, &mut g) }
        })
        .collect()
}

// Leaves that repeat or nearly repeat another one, have coordinates and weights that are zeros of both signs or next to
// nothing, and weights of very different sizes.
pub fn odd(m: usize, d: usize, g: &mut SplitMix64) -> Vec<Leaf> {
    const COORDINATES: [f64; 8] = [0.0, -0.0, 1.0, -1.0, 0.5, 2.0, 1e-8, -1e-162];
    const WEIGHTS: [f64; 8] = [0.0, -0.0, 1.0, 2.0, 1e-8, 100.0, 1e6, 5e-324];
    let mut all: Vec<Leaf> = Vec::with_capacity(m);
    for i in 0..m {
        let r = g.next_u64();
        let near = if r % 5 == 0 { 1e-9 } else { 0.0 };
        let mean = if i > 0 && r % 5 < 3 {
            all[(r / 5) as usize % i].mean.iter().map(|x| (x + near * unit(g)).clamp(-2.0, 2.0)).collect()
        } else if r % 5 == 3 {
            (0..d).map(|_| COORDINATES[g.next_u64() as usize % 8]).collect()
        } else {
            (0..d).map(|_| unit(g)).collect()
        };
        all.push(Leaf { mean, weight: WEIGHTS[(r >> 32) as usize % 8] });
    }
    all
}

// The weights and then the coordinates, row by row.
pub fn words(leaves: &[Leaf]) -> Vec<u64> {
    let weights = leaves.iter().map(|l| l.weight.to_bits());
    let rows = leaves.iter().flat_map(|l| l.mean.iter().map(|x| x.to_bits()));
    weights.chain(rows).collect()
}
