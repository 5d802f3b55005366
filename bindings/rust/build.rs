//! Tells the linker where libkif.a stands: in the folder that KIF_LIBRARY names, else where the project builds it.

use std::path::PathBuf;
use std::{env, process};

fn main() {
    println!("cargo:rerun-if-env-changed=KIF_LIBRARY");
    let beside = PathBuf::from(env::var_os("CARGO_MANIFEST_DIR").expect("cargo sets it")).join("../../target/native");
    let folder = env::var_os("KIF_LIBRARY").map_or(beside, PathBuf::from);
    let library = folder.join("libkif.a");
    if !library.is_file() {
        eprintln!("kif: there is no {}.", library.display());
        eprintln!("kif: run `oracle/compile-proved kif native` at the project's root, which proves and builds it,");
        eprintln!("kif: or set KIF_LIBRARY to the folder that holds libkif.a.");
        process::exit(1);
    }
    println!("cargo:rerun-if-changed={}", library.display());
    println!("cargo:rustc-link-search=native={}", folder.display());
    println!("cargo:rustc-link-lib=static=kif");
}
