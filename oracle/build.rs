//! Tells the compiler where the original's files stand and, for `compare`, where the library is.

use std::path::{Path, PathBuf};
use std::{env, fs};

fn main() {
    let original = folder("KIF_RUST");
    println!("cargo:rustc-env=KIF_RUST={}", original.display());
    println!("cargo:rerun-if-changed={}", original.join("src").display());
    // jkf.rs begins with inner doc comments, which `include!` refuses and `#[path]` takes.
    let module = format!("#[path = {:?}]\npub mod jkf;\n", original.join("src/jkf.rs"));
    fs::write(Path::new(&env::var("OUT_DIR").unwrap()).join("jkf.rs"), module).unwrap();
    if env::var_os("CARGO_FEATURE_LINKED").is_some() {
        let library = folder("KIF_LIBRARY");
        println!("cargo:rustc-link-search=native={}", library.display());
        println!("cargo:rustc-link-lib=static=kif");
        println!("cargo:rerun-if-changed={}", library.join("libkif.a").display());
        if env::var_os("CARGO_FEATURE_SEARCHES").is_some() {
            println!("cargo:rustc-link-lib=static=searches");
            println!("cargo:rerun-if-changed={}", library.join("libsearches.a").display());
        }
    }
}

/// The folder that a variable names, as an absolute path.
fn folder(variable: &str) -> PathBuf {
    println!("cargo:rerun-if-env-changed={variable}");
    let named = env::var(variable).unwrap_or_else(|_| panic!("{variable} is not set; use oracle/run"));
    fs::canonicalize(&named).unwrap_or_else(|e| panic!("{variable}={named}: {e}"))
}
