// The originals with a slip, and which cases tell them.
use crate::cases::Kinded;
use crate::original::Original;
use crate::{auto, cases, files, mixture, spherical, vectors, vmf};

include!(concat!(env!("OUT_DIR"), "/slips.rs"));

const KINDS: [u64; 8] = [2, 14, 15, 21, 22, 23, 24, 25];

// The stored cases of these kinds.
fn stored(of: &Original) -> Vec<Kinded> {
    let fits = [spherical::spherical(of), mixture::mixture(of), auto::auto(of), files::files(of)];
    [cases::exps(of), vectors::places(of), fits.concat()].concat()
}

// A line for each slip: of how many stored cases of each kind the answer is another.
pub fn table() {
    let right = &stored(&vmf::ORIGINAL);
    let places = |kind: u64| (0..right.len()).filter(move |&i| right[i].0 == kind);
    println!("| slip | {} |", KINDS.map(|kind| format!("{kind} (of {})", places(kind).count())).join(" | "));
    for (what, slip) in SLIPS {
        let other = stored(slip);
        let told = KINDS.map(|kind| places(kind).filter(|&i| other[i] != right[i]).count().to_string());
        println!("| {what} | {} |", told.join(" | "));
    }
}

// Which of the odd cases of a kind from 21 on, with the seeds from 0 on, tell a slip.
pub fn search(kind: u64, slip: usize, calls: u64) {
    let case = match kind {
        21 => spherical::odd_case,
        22 => mixture::odd_case,
        24 => auto::odd_case,
        _ => files::odd_case,
    };
    let (what, slipped) = &SLIPS[slip];
    let told: Vec<u64> = (0..calls).filter(|&seed| case(slipped, seed) != case(&vmf::ORIGINAL, seed)).collect();
    println!("{what}: {} of {calls} cases of kind {kind}, seeds {:?}", told.len(), &told[..told.len().min(9)]);
}
