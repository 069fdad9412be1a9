// Finds the static library of the pairing, which is no call of the header's. Without it the program can be looked at, and not linked.
use std::path::PathBuf;
use std::{env, fs};

fn main() {
    let root = PathBuf::from(env::var("CARGO_MANIFEST_DIR").unwrap()).join("..");
    let archive = root.join("target/staticlib/libbench_pairing.a");
    println!("cargo:rerun-if-changed={}", archive.display());
    let Ok(archive) = fs::canonicalize(archive) else {
        println!("cargo:warning=no libbench_pairing.a: run `make archive name=bench_pairing` first");
        return;
    };
    println!("cargo:rustc-link-search=native={}", archive.parent().unwrap().display());
    println!("cargo:rustc-link-lib=static=bench_pairing");
}
