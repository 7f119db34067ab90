// Brings the original's vmf.rs and rng.rs into the build. ORIGINAL names a folder: a checkout of betula-cluster at
// commit 6eba1999bc, or a folder that holds the two files under the names src--src--clustering--vmf.rs.txt and
// src--src--clustering--rng.rs.txt. Nothing of them is kept in this repository.
//
// Changed by textual substitution, the number of matches asserted: the logarithm and the exponential become document
// 01's; the crate's own paths become the stand-ins of src/standins.rs. Inner doc comments become plain ones, since the
// files are included inside modules. Appended to vmf.rs: a public function for each private one that is compared, and
// the fits as src/original.rs has them. Of vmf.rs a copy is made for each slip of slips.rs, by the same substitution.
mod slips;

use std::path::PathBuf;
use std::{env, fs};

fn main() {
    println!("cargo:rerun-if-env-changed=ORIGINAL");
    let folder = PathBuf::from(env::var("ORIGINAL").expect("ORIGINAL: the folder with vmf.rs and rng.rs"));
    let out = PathBuf::from(env::var("OUT_DIR").unwrap());

    let rng = plain_comments(&read(&folder, "clustering", "rng.rs"));
    fs::write(out.join("rng.rs"), rng).unwrap();

    let mut vmf = plain_comments(&read(&folder, "clustering", "vmf.rs"));
    vmf = replaced(&vmf, ".ln()", ".document_ln()", 16);
    vmf = replaced(&vmf, ".exp()", ".document_exp()", 4);
    vmf = replaced(&vmf, "use crate::clustering::rng::SplitMix64;", "use crate::rng::SplitMix64;", 1);
    vmf = replaced(&vmf, "use crate::feature::ClusterFeature;", "use crate::standins::ClusterFeature;", 1);
    vmf = replaced(&vmf, "use crate::mixture::Mixture;", "use crate::standins::Mixture;", 1);
    vmf = replaced(&vmf, "use crate::types::Real;", "use crate::standins::Real;", 1);
    // once without the counters, to be timed, and once with them and the probes
    fs::write(out.join("plain.rs"), &vmf).unwrap();
    vmf = counted(&vmf);
    vmf.push_str(PROBES);
    fs::write(out.join("slips.rs"), slipped(&vmf)).unwrap();
    fs::write(out.join("vmf.rs"), vmf).unwrap();
}

// A module for each slip, and a list of what they are and of their fits.
fn slipped(vmf: &str) -> String {
    let (mut modules, mut list) = (String::new(), String::new());
    for (at, (what, changes)) in slips::SLIPS.iter().enumerate() {
        let mut text = replaced(vmf, "slipped: false", "slipped: true", 1);
        for (from, to, times) in *changes {
            text = replaced(&text, from, to, *times);
        }
        let module = format!("mod slip_{at} {{\n    use crate::standins::Document;\n{text}}}\n");
        modules.push_str(&format!("#[allow(warnings)]\n{module}"));
        list.push_str(&format!("    ({what:?}, slip_{at}::ORIGINAL),\n"));
    }
    format!("{modules}pub const SLIPS: &[(&str, crate::original::Original)] = &[\n{list}];\n")
}

// The counters of document 01, and of the rounds begun, beside the original's own lines.
fn counted(vmf: &str) -> String {
    let mut vmf = replaced(
        vmf,
        "        // Loosen every bound",
        "        crate::counts::begun();\n        // Loosen every bound",
        1,
    );
    let skip = ">= BOUND_SLACK {\n                continue;";
    vmf = replaced(
        &vmf,
        skip,
        ">= BOUND_SLACK {\n                crate::counts::saved(k);\n                continue;",
        1,
    );
    let pass = "            let mut best = 0;\n            let mut best_dot";
    vmf = replaced(&vmf, pass, &format!("            crate::counts::made(k);\n{pass}"), 1);
    let update = "        let previous = centers.clone();\n";
    vmf = replaced(&vmf, update, &format!("{update}        let mut picked: Vec<usize> = Vec::new();\n"), 1);
    let reseed = "                let worst = argmin(&served);\n";
    let pick =
        "                crate::counts::doubled(picked.contains(&worst));\n                picked.push(worst);\n";
    replaced(&vmf, reseed, &format!("{reseed}{pick}"), 1)
}

const PROBES: &str = "
pub fn probe_dot(a: &[f64], b: &[f64]) -> f64 { dot(a, b) }
pub fn probe_norm(v: &[f64]) -> f64 { norm(v) }
pub fn probe_unit(v: &[f64]) -> Vec<f64> { unit(v) }
pub fn probe_argmax(v: &[f64]) -> usize { argmax(v) }
pub fn probe_argmin(v: &[f64]) -> usize { argmin(v) }
pub fn probe_weighted_pick(w: &[f64], rng: &mut SplitMix64) -> usize { weighted_pick(w, rng) }
pub fn probe_ln_gamma(x: f64) -> f64 { ln_gamma(x) }
pub fn probe_log_vmf_norm(dim: usize, kappa: f64) -> f64 { log_vmf_norm(dim, kappa) }
pub fn probe_estimate_kappa(rbar: f64, dim: usize) -> f64 { estimate_kappa(rbar, dim) }
pub fn probe_kappa_max(dim: usize) -> f64 { kappa_max(dim) }
pub fn probe_exp(x: f64) -> f64 { x.document_exp() }
crate::fits! { slipped: false }
";

fn read(folder: &PathBuf, part: &str, name: &str) -> String {
    let checkout = folder.join("src").join(part).join(name);
    let flat = folder.join(format!("src--src--{part}--{name}.txt"));
    let path = if checkout.exists() { checkout } else { flat };
    println!("cargo:rerun-if-changed={}", path.display());
    fs::read_to_string(&path).unwrap_or_else(|e| panic!("{}: {e}", path.display()))
}

fn plain_comments(text: &str) -> String {
    text.replace("//!", "//")
}

fn replaced(text: &str, from: &str, to: &str, times: usize) -> String {
    assert_eq!(text.matches(from).count(), times, "matches of {from}");
    text.replace(from, to)
}
