// Times the port against the original, in one run, the two taking turns: the best time of each, and how many times as
// fast the port is. `bench` prints the table and how time grows; `bench quick` is the same with fewer turns; `bench
// only FIT M D K ROUNDS LEAVES SIDE SECONDS` runs one fit again and again, for a profiler: FIT is spherical, movmf or
// auto, LEAVES clustered or uniform, SIDE port or rust.
use bench::calls::{flat, Fit};
use bench::clock::seconds;
use bench::port::{Flat, Lent};
use oracle::rng::SplitMix64;
use oracle::standins::Leaf;
use oracle::timed;
use std::hint::black_box;

#[derive(Clone, Copy, PartialEq)]
enum Leaves {
    Clustered,
    Uniform,
}

// One row of the table: the automatic fit tries k_min to k.
#[derive(Clone, Copy)]
struct Row {
    fit: Fit,
    shared: bool,
    leaves: Leaves,
    m: usize,
    d: usize,
    k_min: usize,
    k: usize,
    rounds: usize,
}

const SEED: u64 = 7;

// A direction, by d numbers from −1 to 1.
fn direction(d: usize, g: &mut SplitMix64) -> Vec<f64> {
    unit((0..d).map(|_| g.next_f64() * 2.0 - 1.0).collect())
}

fn unit(v: Vec<f64>) -> Vec<f64> {
    let n = v.iter().map(|x| x * x).sum::<f64>().sqrt();
    v.iter().map(|x| x / n).collect()
}

// m leaves: means of length 0.8 to 1, weights 1 to 4. Clustered: around k directions, within 27 degrees. Uniform: in
// any direction.
fn leaves(sort: Leaves, m: usize, d: usize, k: usize) -> Vec<Leaf> {
    let mut g = SplitMix64::new(1000 * m as u64 + 10 * d as u64 + k as u64);
    let centres: Vec<Vec<f64>> = (0..k).map(|_| direction(d, &mut g)).collect();
    (0..m)
        .map(|i| {
            let noise = direction(d, &mut g);
            let way = match sort {
                Leaves::Clustered => unit(noise.iter().zip(&centres[i % k]).map(|(x, c)| c + 0.45 * x).collect()),
                Leaves::Uniform => noise,
            };
            let length = 0.8 + 0.2 * g.next_f64();
            Leaf { mean: way.iter().map(|x| x * length).collect(), weight: 1.0 + (i % 4) as f64 }
        })
        .collect()
}

// Seconds of one call of the port, on arrays that are ready.
fn port(r: &Row, f: &Flat, lent: &mut Lent) -> f64 {
    let start = seconds();
    let code = match r.fit {
        Fit::Spherical => lent.spherical_kmeans(black_box(f), r.d, r.k, r.rounds, 1, SEED),
        Fit::Mixture => lent.movmf_with(black_box(f), r.d, r.k, r.rounds, SEED, r.shared as u32),
        Fit::Auto => lent.movmf_auto_with(black_box(f), r.d, r.k_min, r.k, r.rounds, SEED, r.shared as u32),
    };
    let time = seconds() - start;
    assert_eq!(code, 0);
    time
}

// Seconds of one call of the original, on leaves that are ready; what it returns is freed after the clock has stopped.
// The log-likelihood, or the cohesion.
fn original(r: &Row, leaves: &[Leaf]) -> (f64, f64) {
    let start = seconds();
    match r.fit {
        Fit::Spherical => {
            let q = timed::spherical_kmeans(black_box(leaves), r.k, r.rounds, 1, SEED);
            (seconds() - start, q.cohesion)
        }
        Fit::Mixture => {
            let q = timed::movmf_with(black_box(leaves), r.k, r.rounds, SEED, r.shared);
            (seconds() - start, q.loglik)
        }
        Fit::Auto => {
            let q = timed::movmf_auto_with(black_box(leaves), r.k_min, r.k, r.rounds, SEED, r.shared);
            (seconds() - start, q.loglik)
        }
    }
}

// The best times of the port and of the original, taking turns; both must come to the same number.
fn measure(r: &Row, turns: usize) -> (f64, f64) {
    let set = leaves(r.leaves, r.m, r.d, r.k);
    let f = flat(&set);
    let mut lent = Lent::new(r.m, r.d, r.k);
    let (mut ours, mut theirs) = (f64::INFINITY, f64::INFINITY);
    for _ in 0..turns {
        ours = ours.min(port(r, &f, &mut lent));
        let (time, number) = original(r, &set);
        theirs = theirs.min(time);
        let own = if r.fit == Fit::Spherical { lent.cohesion } else { lent.loglik };
        assert_eq!(own.to_bits(), number.to_bits(), "the two differ");
    }
    (ours, theirs)
}

fn name(r: &Row) -> String {
    let kappa = if r.shared { "Shared" } else { "Free" };
    match r.fit {
        Fit::Spherical => "spherical_kmeans".into(),
        Fit::Mixture => format!("movmf_with {kappa}"),
        Fit::Auto => format!("movmf_auto_with {kappa}"),
    }
}

fn print(r: &Row, turns: usize) {
    let (ours, theirs) = measure(r, turns);
    let groups = if r.fit == Fit::Auto { format!("{}..{}", r.k_min, r.k) } else { r.k.to_string() };
    let sort = if r.leaves == Leaves::Clustered { "clustered" } else { "uniform" };
    println!(
        "{:<23} {sort:<9} {:>5} {:>4} {groups:>6} {:>6} {:>10.3} {:>10.3} {:>6.2}",
        name(r),
        r.m,
        r.d,
        r.rounds,
        ours * 1e3,
        theirs * 1e3,
        theirs / ours
    );
}

fn head() {
    println!(
        "{:<23} {:<9} {:>5} {:>4} {:>6} {:>6} {:>10} {:>10} {:>6}",
        "fit", "leaves", "m", "d", "k", "rounds", "port ms", "Rust ms", "ratio"
    );
}

// The sizes with their round limits: of spherical_kmeans, and of the mixture.
const SIZES: [(usize, usize, usize, usize, usize); 4] =
    [(4096, 16, 8, 100, 25), (4096, 64, 16, 50, 10), (1024, 256, 32, 50, 10), (4096, 3, 8, 100, 25)];

fn table(turns: usize) {
    head();
    for leaves in [Leaves::Clustered, Leaves::Uniform] {
        for k in 1..=4 {
            print(
                &Row { fit: Fit::Spherical, shared: false, leaves, m: 64, d: 16, k_min: k, k, rounds: 1000 },
                20 * turns,
            );
        }
        for shared in [false, true] {
            for k in 1..=4 {
                print(&Row { fit: Fit::Mixture, shared, leaves, m: 64, d: 16, k_min: k, k, rounds: 100 }, 20 * turns);
            }
            print(&Row { fit: Fit::Auto, shared, leaves, m: 64, d: 16, k_min: 1, k: 4, rounds: 100 }, 20 * turns);
        }
        for (m, d, k, spherical, mixture) in SIZES {
            print(&Row { fit: Fit::Spherical, shared: false, leaves, m, d, k_min: k, k, rounds: spherical }, turns);
            for shared in [false, true] {
                print(&Row { fit: Fit::Mixture, shared, leaves, m, d, k_min: k, k, rounds: mixture }, turns);
                print(&Row { fit: Fit::Auto, shared, leaves, m, d, k_min: k - 1, k, rounds: mixture }, turns);
            }
        }
    }
}

// One of m, d and k grows, the others stay.
fn growth(turns: usize) {
    let base =
        Row { fit: Fit::Spherical, shared: false, leaves: Leaves::Uniform, m: 1024, d: 16, k_min: 8, k: 8, rounds: 10 };
    for fit in [Fit::Spherical, Fit::Mixture] {
        println!("\n{}: m grows", name(&Row { fit, ..base }));
        head();
        for m in [256, 512, 1024, 2048, 4096] {
            print(&Row { fit, m, ..base }, turns);
        }
        println!("\n{}: d grows", name(&Row { fit, ..base }));
        head();
        for d in [1, 2, 4, 8, 16, 32, 64, 128, 256] {
            print(&Row { fit, d, ..base }, turns);
        }
        println!("\n{}: k grows", name(&Row { fit, ..base }));
        head();
        for k in [1, 2, 4, 8, 16, 32, 64] {
            print(&Row { fit, k, k_min: k, ..base }, turns);
        }
    }
}

// What the counters of `compare` would cost the original: they are not in what is timed above.
fn counters() {
    let set = leaves(Leaves::Uniform, 4096, 16, 8);
    let (mut with, mut without) = (f64::INFINITY, f64::INFINITY);
    for _ in 0..5 {
        let start = seconds();
        black_box(timed::spherical_kmeans(&set, 8, 50, 1, SEED));
        without = without.min(seconds() - start);
        let start = seconds();
        black_box(timed::counted_spherical_kmeans(&set, 8, 50, 1, SEED));
        with = with.min(seconds() - start);
    }
    println!(
        "\nthe original's spherical_kmeans, m 4096 d 16 k 8, without counters {:.3} ms, with counters {:.3} ms",
        without * 1e3,
        with * 1e3
    );
}

// One fit again and again, on one side.
fn only(args: &[String]) {
    let number = |i: usize| args[i].parse::<usize>().expect("a number");
    let fit = match args[0].as_str() {
        "spherical" => Fit::Spherical,
        "movmf" => Fit::Mixture,
        _ => Fit::Auto,
    };
    let sort = if args[5] == "uniform" { Leaves::Uniform } else { Leaves::Clustered };
    let k = number(3);
    let r = Row { fit, shared: false, leaves: sort, m: number(1), d: number(2), k_min: k, k, rounds: number(4) };
    let set = leaves(r.leaves, r.m, r.d, r.k);
    let f = flat(&set);
    let mut lent = Lent::new(r.m, r.d, r.k);
    let start = seconds();
    let mut calls = 0;
    while seconds() - start < number(7) as f64 {
        if args[6] == "rust" {
            black_box(original(&r, &set));
        } else {
            black_box(port(&r, &f, &mut lent));
        }
        calls += 1;
    }
    println!("{calls} calls, made {} saved {}", lent.counts[0], lent.counts[1]);
}

fn main() {
    let args: Vec<String> = std::env::args().skip(1).collect();
    if args.first().is_some_and(|a| a == "only") {
        return only(&args[1..]);
    }
    let turns = if args.first().is_some_and(|a| a == "quick") { 2 } else { 5 };
    table(turns);
    growth(turns);
    counters();
}
