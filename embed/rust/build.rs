//! Links libkatara.a, which `embed/build` makes, from the folder that KATARA_OUT names, or else from embed/out.
use std::env;
use std::path::PathBuf;

fn main() {
    let here = PathBuf::from(env::var_os("CARGO_MANIFEST_DIR").expect("cargo sets it"));
    let out = env::var_os("KATARA_OUT").map_or_else(|| here.join("../out"), PathBuf::from);
    // (where only the documentation is made, nothing is linked)
    if !out.join("libkatara.a").exists() {
        println!(
            "cargo::warning=there is no libkatara.a in {}: let KATARA_OUT name the folder that has it",
            out.display()
        );
    }
    println!("cargo::rustc-link-search=native={}", out.display());
    println!("cargo::rustc-link-lib=static=katara");
    println!("cargo::rerun-if-env-changed=KATARA_OUT");
    println!(
        "cargo::rerun-if-changed={}",
        out.join("libkatara.a").display()
    );
}
