//! Links `compare` and `entries` with the engine's static library, whose folder is in KNITPASTURE_LIB.
use std::env;

fn main() {
    println!("cargo:rerun-if-env-changed=KNITPASTURE_LIB");
    println!("cargo:rerun-if-changed=build.rs");
    if env::var_os("CARGO_FEATURE_ENGINE").is_none() {
        return;
    }
    let folder = env::var("KNITPASTURE_LIB").expect("KNITPASTURE_LIB names the folder of libknitpasture.a");
    println!("cargo:rerun-if-changed={folder}/libknitpasture.a");
    for program in ["compare", "entries"] {
        println!("cargo:rustc-link-arg-bin={program}={folder}/libknitpasture.a");
    }
}
