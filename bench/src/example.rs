// examples/station.c, compiled against include/mosterklomp.h and the library, must print what the original gives for
// its shops.
use oracle::standins::Leaf;
use oracle::vmf::{self, Kappa};
use std::path::Path;
use std::process::Command;

// The shops of examples/station.c.
const SALES: [[f64; 3]; 9] = [
    [0.9, 0.1, 0.0],
    [0.8, 0.2, 0.1],
    [0.9, 0.0, 0.2],
    [0.1, 0.9, 0.1],
    [0.0, 0.8, 0.2],
    [0.2, 0.9, 0.0],
    [0.1, 0.0, 0.9],
    [0.0, 0.1, 0.8],
    [0.2, 0.1, 0.9],
];

fn expected() -> String {
    let set: Vec<Leaf> =
        SALES.iter().enumerate().map(|(i, s)| Leaf { mean: s.to_vec(), weight: 100.0 * (1 + i % 3) as f64 }).collect();
    let r = vmf::movmf_auto_with::<f64, Leaf>(&set, 1, 4, 100, 7, Kappa::Free);
    let lines = r.labels.iter().enumerate().map(|(i, l)| format!("{i} {l}\n"));
    format!("groups {}\n{}", r.weights.len(), lines.collect::<String>())
}

// The difference, if there is one.
pub fn check() -> Result<(), String> {
    let top = Path::new(env!("CARGO_MANIFEST_DIR")).parent().unwrap();
    let program = std::env::temp_dir().join(format!("mosterklomp-station-{}", std::process::id()));
    let built = Command::new("gcc")
        .args(["-std=c11", "-Wall", "-Wextra", "-Werror", "-O2", "-I"])
        .arg(top.join("include"))
        .arg(top.join("examples/station.c"))
        .arg(env!("STATION_FILE"))
        .arg("-o")
        .arg(&program)
        .status()
        .map_err(|e| format!("gcc: {e}"))?;
    if !built.success() {
        return Err("examples/station.c does not compile".into());
    }
    let ran = Command::new(&program).output().map_err(|e| e.to_string());
    let _ = std::fs::remove_file(&program);
    let ran = ran?;
    let text = String::from_utf8_lossy(&ran.stdout).into_owned();
    if !ran.status.success() || text != expected() {
        return Err(format!("examples/station.c printed\n{text}and not\n{}", expected()));
    }
    Ok(())
}
