//! Links the static libraries that ./prepare laid out.

use std::env;
use std::path::Path;

fn main() {
    let folder = Path::new(&env::var("CARGO_MANIFEST_DIR").unwrap()).join("../../target/staticlib");
    println!("cargo:rustc-link-search=native={}", folder.display());
    let mut libraries = vec!["motion"];
    if env::var("CARGO_FEATURE_BESIDE").is_ok() {
        libraries.push("test_beside");
    }
    for name in libraries {
        println!("cargo:rustc-link-lib=static={name}");
        println!("cargo:rerun-if-changed={}/lib{name}.a", folder.display());
    }
    // The Rust's `%` on f64 calls fmod.
    println!("cargo:rustc-link-lib=m");
}
