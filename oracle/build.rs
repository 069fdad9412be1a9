// Finds the static library under test, and what its header declares.
use std::path::{Path, PathBuf};
use std::{env, fs};

fn main() {
    let root = PathBuf::from(env::var("CARGO_MANIFEST_DIR").unwrap()).join("..").canonicalize().unwrap();
    let out = PathBuf::from(env::var("OUT_DIR").unwrap());
    fs::write(out.join("unmatched.rs"), unmatched(&root)).unwrap();

    let archive = root.join("target/staticlib/libcapi.a");
    assert!(archive.is_file(), "no {}: run `make capi` first", archive.display());
    println!("cargo:rerun-if-changed={}", archive.display());
    println!("cargo:rustc-link-search=native={}", archive.parent().unwrap().display());
    println!("cargo:rustc-link-lib=static=capi");
}

// The calls that only one of `src/ffi.rs` and the header has: each fails the run.
fn unmatched(root: &Path) -> String {
    let header = root.join("include/pelosumba.h");
    println!("cargo:rerun-if-changed={}", header.display());
    println!("cargo:rerun-if-changed=src/ffi.rs");
    let declared = calls(&read(&header));
    let known = calls(&read(Path::new("src/ffi.rs")));
    let missing = |from: &[String], of: &[String]| -> Vec<String> {
        of.iter().filter(|name| !from.contains(name)).cloned().collect()
    };
    format!(
        "pub const UNDECLARED: &[&str] = &{:?};\npub const UNKNOWN: &[&str] = &{:?};\n",
        missing(&declared, &known),
        missing(&known, &declared)
    )
}

// The names `pel_..` that stand before a parenthesis, each once.
fn calls(text: &str) -> Vec<String> {
    let mut names: Vec<String> = Vec::new();
    for (at, _) in text.match_indices("pel_") {
        let name: String = text[at..].chars().take_while(|c| c.is_ascii_alphanumeric() || *c == '_').collect();
        if text[at + name.len()..].starts_with('(') && !names.contains(&name) {
            names.push(name);
        }
    }
    names
}

fn read(path: &Path) -> String {
    fs::read_to_string(path).unwrap_or_else(|e| panic!("{}: {e}", path.display()))
}
