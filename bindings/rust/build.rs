// Finds the library: in the folder PELOSUMBA_LIB, as it is installed or built, or where `make capi` leaves it.
use std::{env, path::PathBuf};

fn main() {
    println!("cargo:rerun-if-env-changed=PELOSUMBA_LIB");
    let built = PathBuf::from(env::var_os("CARGO_MANIFEST_DIR").expect("cargo sets it")).join("../../target/staticlib");
    let folder = env::var_os("PELOSUMBA_LIB").map_or(built, PathBuf::from);
    let name = if folder.join("libpelosumba.a").is_file() { "pelosumba" } else { "capi" };
    println!("cargo:rerun-if-changed={}", folder.join(format!("lib{name}.a")).display());
    println!("cargo:rustc-link-search=native={}", folder.display());
    println!("cargo:rustc-link-lib=static={name}");
}
