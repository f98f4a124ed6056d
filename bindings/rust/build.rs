//! Links the archive that `rt lib` in crates/ambiguity_c writes. AMBIGUITY_LIB names another folder that holds it.

use std::env;
use std::path::PathBuf;
use std::process;

fn main() {
    println!("cargo:rerun-if-env-changed=AMBIGUITY_LIB");
    let here = PathBuf::from(env::var_os("CARGO_MANIFEST_DIR").expect("cargo says where the package is"));
    let folder = env::var_os("AMBIGUITY_LIB").map_or_else(|| here.join("../../crates/ambiguity_c/out"), PathBuf::from);
    let archive = folder.join("libambiguity_c.a");
    if !archive.exists() {
        eprintln!(
            "{} is not there: run `rt lib` in crates/ambiguity_c, or name its folder in AMBIGUITY_LIB",
            archive.display()
        );
        process::exit(1);
    }
    println!("cargo:rerun-if-changed={}", archive.display());
    println!("cargo:rustc-link-search=native={}", folder.display());
    println!("cargo:rustc-link-lib=static=ambiguity_c");
}
