// Compares the port with the original, bit for bit, all NaN as one: `compare KIND COUNT SEED`, KIND being spherical,
// movmf or auto, with -large behind it for large calls, or all, which is each of the six (a hundredth of COUNT of the
// large ones). `compare example` compiles and runs examples/station.c.
use bench::calls::{large, small, Call, Fit, NAMES};
use bench::example;
use bench::expected::answer;
use bench::port::Lent;
use oracle::cases::bits;
use oracle::rng::SplitMix64;

// How many calls of each sort and of each answer were compared, how many have a responsibility above 0 and below
// 2^-1022, and how many numbers were compared.
struct Seen {
    sorts: [u64; NAMES.len()],
    answers: [u64; 14],
    small_shares: u64,
    numbers: u64,
}

fn run(c: &Call) -> (u32, Lent) {
    let mut l = c.lent.clone();
    let code = match c.fit {
        Fit::Spherical => l.spherical_kmeans(&c.flat, c.d, c.k, c.rounds, c.restarts, c.seed),
        Fit::Mixture => l.movmf_with(&c.flat, c.d, c.k, c.rounds, c.seed, c.kappa),
        Fit::Auto => l.movmf_auto_with(&c.flat, c.d, c.k_min, c.k, c.rounds, c.seed, c.kappa),
    };
    (code, l)
}

// Every number that a call gives, by name: its refusal, its values, the whole of each output array.
fn numbers(code: u32, l: &Lent) -> Vec<(&'static str, Vec<u64>)> {
    let floats = |v: &[f64]| v.iter().map(|&x| bits(x)).collect();
    vec![
        ("refusal", vec![code as u64]),
        ("groups", vec![l.groups as u64]),
        ("cohesion", vec![bits(l.cohesion)]),
        ("loglik", vec![bits(l.loglik)]),
        ("score", vec![bits(l.score)]),
        ("counts", l.counts.to_vec()),
        ("labels", l.labels.iter().map(|&x| x as u64).collect()),
        ("responsibilities", floats(&l.responsibilities)),
        ("weights", floats(&l.weights)),
        ("directions", floats(&l.directions)),
        ("concentrations", floats(&l.concentrations)),
        ("logw", floats(&l.logw)),
    ]
}

// The call's input as patterns, to be found again.
fn show(c: &Call) {
    let words = |v: &[f64]| v.iter().map(|x| format!("{:016x}", x.to_bits())).collect::<Vec<_>>().join(" ");
    println!("{:?}, leaves: {}", c.fit, NAMES[c.sort]);
    println!(
        "m {} d {} k_min {} k {} rounds {} restarts {} seed {} kappa {}",
        c.flat.weights.len(),
        c.d,
        c.k_min,
        c.k,
        c.rounds,
        c.restarts,
        c.seed,
        c.kappa
    );
    let l = &c.lent;
    println!(
        "lengths: labels {} responsibilities {} weights {} directions {} concentrations {} logw {} work {} work_u32 {}",
        l.labels.len(),
        l.responsibilities.len(),
        l.weights.len(),
        l.directions.len(),
        l.concentrations.len(),
        l.logw.len(),
        l.work.len(),
        l.work_u32.len()
    );
    println!("weights {}\ncoordinates {}", words(&c.flat.weights), words(&c.flat.coords));
}

// Compares one call; the first difference ends the program.
fn compare(c: &Call, at: u64, seen: &mut Seen) {
    let (code, got) = run(c);
    let mut want = c.lent.clone();
    let wanted = answer(c, &mut want);
    let (ours, theirs) = (numbers(code, &got), numbers(wanted, &want));
    for ((name, a), (_, b)) in ours.iter().zip(&theirs) {
        if let Some(i) = (0..a.len()).find(|&i| a[i] != b[i]) {
            println!("call {at} differs: {name} [{i}] is {:016x}, not {:016x}", a[i], b[i]);
            show(c);
            std::process::exit(1);
        }
        seen.numbers += a.len() as u64;
    }
    seen.sorts[c.sort] += 1;
    seen.answers[code as usize] += 1;
    if code == 0 && got.responsibilities.iter().any(|r| r.is_subnormal()) {
        seen.small_shares += 1;
    }
}

fn kind(name: &str, make: fn(Fit, &mut SplitMix64) -> Call, fit: Fit, count: u64, seed: u64) {
    let mut seen = Seen { sorts: [0; NAMES.len()], answers: [0; 14], small_shares: 0, numbers: 0 };
    let mut g = SplitMix64::new(seed);
    for at in 0..count {
        compare(&make(fit, &mut g), at, &mut seen);
    }
    println!("{name}: {count} calls agree, {} numbers", seen.numbers);
    let sorts: Vec<String> = NAMES.iter().zip(seen.sorts).map(|(n, s)| format!("{n} {s}")).collect();
    println!("  leaves: {}", sorts.join("; "));
    let answers = [0, 1, 2, 3, 4, 5, 6, 7, 13].map(|i: usize| format!("{i}: {}", seen.answers[i]));
    println!("  refusals (0 for none): {}", answers.join(", "));
    if fit != Fit::Spherical {
        println!("  with a responsibility above 0 and below 2^-1022: {}", seen.small_shares);
    }
}

fn example() {
    if let Err(text) = example::check() {
        println!("{text}");
        std::process::exit(1);
    }
    println!("examples/station.c prints what the original gives");
}

fn main() {
    std::panic::set_hook(Box::new(|_| {}));
    let args: Vec<String> = std::env::args().skip(1).collect();
    let usage = "compare KIND COUNT SEED, KIND: spherical, movmf, auto, spherical-large, movmf-large, auto-large, all; \
                 or compare example";
    if args.len() == 1 && args[0] == "example" {
        return example();
    }
    let number = |i: usize| args.get(i).and_then(|a| a.parse::<u64>().ok());
    let (Some(count), Some(seed)) = (number(1), number(2)) else {
        println!("{usage}");
        std::process::exit(2);
    };
    let mut ran = false;
    for (name, fit) in [("spherical", Fit::Spherical), ("movmf", Fit::Mixture), ("auto", Fit::Auto)] {
        let big = format!("{name}-large");
        if args[0] == name || args[0] == "all" {
            kind(name, small, fit, count, seed);
            ran = true;
        }
        if args[0] == big || args[0] == "all" {
            kind(&big, large, fit, if args[0] == "all" { count / 100 } else { count }, seed);
            ran = true;
        }
    }
    if !ran {
        println!("{usage}");
        std::process::exit(2);
    }
    if args[0] == "all" {
        example();
    }
}
