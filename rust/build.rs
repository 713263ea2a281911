//! Finds the static library that `./build library` writes.
use std::{env, path::PathBuf, process};

fn main() {
    println!("cargo:rerun-if-env-changed=PANNUQREIK_LIB");
    let dir = match env::var_os("PANNUQREIK_LIB") {
        Some(dir) => PathBuf::from(dir),
        None => PathBuf::from(env::var_os("CARGO_MANIFEST_DIR").expect("cargo sets it")).join("../target/staticlib"),
    };
    let file = dir.join("libabi.a");
    println!("cargo:rerun-if-changed={}", file.display());
    if !file.is_file() {
        eprintln!("{} is not there.", file.display());
        eprintln!("Run `./build library` at the root of the repository, or set PANNUQREIK_LIB to the folder of libabi.a.");
        process::exit(1);
    }
    println!("cargo:rustc-link-search=native={}", dir.display());
    println!("cargo:rustc-link-lib=static=abi");
}
