// Writes the list of cases that crates/replay runs: bit patterns and answers of the original and of document 01's
// exponential and logarithm; with the arguments `many SEED`, `mixtures SEED`, `choices SEED` or `files SEED` a list of
// random fits or leaf files; with `slips` a table of which stored cases tell which slip, and with `search KIND SLIP
// CALLS` the seeds of odd cases that tell one. README.md beside this folder's Cargo.toml says how a list is made and
// what it holds.
mod slips;

// what the modules of slips name by their crate
use oracle::{auto, bessel, cases, counts, files, fits, mixture, original, rng, spherical, standins, vectors, vmf};

fn main() {
    // the original panics where no number is kept, which is a case of its own
    std::panic::set_hook(Box::new(|_| {}));
    let args: Vec<String> = std::env::args().collect();
    let words: Vec<&str> = args[1..].iter().map(String::as_str).collect();
    let number = |text: &str| text.parse().expect("a number");
    match words[..] {
        ["slips"] => return slips::table(),
        ["search", kind, slip, calls] => return slips::search(number(kind), number(slip) as usize, number(calls)),
        _ => {}
    }
    let mut list = cases::List::new(std::io::stdout().lock());
    match words[..] {
        ["many", seed] => spherical::many(&mut list, number(seed)),
        ["mixtures", seed] => mixture::many(&mut list, number(seed)),
        ["choices", seed] => auto::many(&mut list, number(seed)),
        ["files", seed] => files::many(&mut list, number(seed)),
        [] => stored(&mut list),
        _ => panic!("many SEED, mixtures SEED, choices SEED, files SEED, slips, search KIND SLIP CALLS, or nothing"),
    }
    list.end();
}

fn stored<W: std::io::Write>(list: &mut cases::List<W>) {
    cases::arithmetic(list);
    cases::generator(list);
    vectors::vector(list);
    bessel::bessel(list);
    let of = &vmf::ORIGINAL;
    for fits in [spherical::spherical(of), mixture::mixture(of), auto::auto(of), files::files(of)] {
        list.cases(&fits);
    }
    bessel::halves(list);
}
