//! Links the proved archive, which `rt lib` makes in the folder crates/pinthar, and compiles the plain side a
//! second time, as the crate `native`, for the processor of this machine. Checking needs no
//! archive, building does.

use std::env;
use std::path::Path;
use std::process::Command;

fn link_archive(here: &Path) {
    let folder = here.join("../crates/pinthar/out");
    let archive = folder.join("libpinthar.a");
    if !archive.exists() {
        let archive = archive.display();
        println!("cargo:warning={archive} is missing: run `rt lib` in the folder crates/pinthar");
    }
    println!("cargo:rustc-link-search=native={}", folder.display());
    println!("cargo:rerun-if-changed={}", archive.display());
}

/// With the optimisation of the profile: without any where the program is only checked.
fn compile_native(here: &Path) {
    let told = |name: &str| env::var(name).expect("cargo tells it");
    let folder = told("OUT_DIR");
    let status = Command::new(told("RUSTC"))
        .args(["--edition", "2021", "--crate-type", "rlib", "--crate-name", "native"])
        .args(["-C", "target-cpu=native", "-C", "codegen-units=1", "-C", "debuginfo=1"])
        .args(["-C", &format!("opt-level={}", told("OPT_LEVEL")), "--out-dir", &folder])
        .arg(here.join("src/plain/mod.rs"))
        .status();
    assert!(status.is_ok_and(|status| status.success()), "the plain side compiles");
    println!("cargo:rustc-link-search=crate={folder}");
    println!("cargo:rerun-if-changed=src/plain");
}

fn main() {
    let here = Path::new(env!("CARGO_MANIFEST_DIR"));
    link_archive(here);
    compile_native(here);
}
