//! Links libtest_beside_ticks.a, which tests/beside_rust/prepare laid out.

use std::env;
use std::path::Path;

fn main() {
    if env::var("CARGO_FEATURE_RECORDS").is_ok() {
        let folder =
            Path::new(&env::var("CARGO_MANIFEST_DIR").unwrap()).join("../target/staticlib");
        println!("cargo:rustc-link-search=native={}", folder.display());
        println!("cargo:rustc-link-lib=static=test_beside_ticks");
        println!(
            "cargo:rerun-if-changed={}/libtest_beside_ticks.a",
            folder.display()
        );
    }
}
