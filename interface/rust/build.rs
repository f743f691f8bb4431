//! Links crates/pinthar/out/libpinthar.a, which `rt lib` makes in the folder crates/pinthar. The variable
//! PINTHAR_ARCHIVE names another folder that has it. Checking this crate needs no archive, building it does.

use std::env;
use std::path::PathBuf;

fn main() {
    let here =
        PathBuf::from(env::var("CARGO_MANIFEST_DIR").expect("cargo tells this package's folder"));
    let folder = match env::var("PINTHAR_ARCHIVE") {
        Ok(given) => PathBuf::from(given),
        Err(_) => here.join("../../crates/pinthar/out"),
    };
    let archive = folder.join("libpinthar.a");
    if !archive.exists() {
        let archive = archive.display();
        println!("cargo:warning={archive} is missing: run `rt lib` in the folder crates/pinthar");
    }
    println!("cargo:rerun-if-env-changed=PINTHAR_ARCHIVE");
    println!("cargo:rerun-if-changed={}", archive.display());
    println!("cargo:rustc-link-search=native={}", folder.display());
    println!("cargo:rustc-link-lib=static=pinthar");
}
