//! Lays the crate out in OUT_DIR: a copy of each file of the Rust source and of each stand-in. They are no links, since `rt ci`
//! refuses a link in the checkout.

use std::env;
use std::fs;
use std::path::{Path, PathBuf};

fn main() {
    let here = PathBuf::from(env::var("CARGO_MANIFEST_DIR").unwrap());
    println!("cargo:rerun-if-env-changed=ELEVATOR_CORE_SRC");
    let source = env::var("ELEVATOR_CORE_SRC")
        .map_or_else(|_| here.join("../../../../shared/docs/src"), PathBuf::from)
        .join("crates/elevator-core/src");
    assert!(
        source.is_dir(),
        "no folder {}: set ELEVATOR_CORE_SRC to the one that holds crates/elevator-core",
        source.display()
    );

    let out = PathBuf::from(env::var("OUT_DIR").unwrap()).join("src");
    if out.exists() {
        fs::remove_dir_all(&out).unwrap();
    }
    copy_all(&source, &out);
    copy_all(&here.join("stand_ins"), &out);
}

/// Copies every file under `from` to the same place under `to`. A file there twice is an error:
/// a stand-in never takes the place of a source file.
fn copy_all(from: &Path, to: &Path) {
    println!("cargo:rerun-if-changed={}", from.display());
    fs::create_dir_all(to).unwrap();
    for entry in fs::read_dir(from).unwrap() {
        let entry = entry.unwrap();
        let target = to.join(entry.file_name());
        if entry.path().is_dir() {
            copy_all(&entry.path(), &target);
        } else {
            assert!(!target.exists(), "{} is there twice", target.display());
            fs::copy(entry.path(), &target).unwrap();
        }
    }
}
