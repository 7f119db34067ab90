// Links the proved static library. STATION names the file libstation.a, which `rt lib` in crates/station writes.
use std::path::PathBuf;

fn main() {
    println!("cargo:rerun-if-env-changed=STATION");
    let file = PathBuf::from(std::env::var("STATION").expect("STATION: the file libstation.a"));
    let file = file.canonicalize().unwrap_or_else(|e| panic!("{}: {e}", file.display()));
    println!("cargo:rerun-if-changed={}", file.display());
    println!("cargo:rustc-link-search=native={}", file.parent().unwrap().display());
    println!("cargo:rustc-link-lib=static=station");
    println!("cargo:rustc-env=STATION_FILE={}", file.display());
}
