// Wraps the Rust source where it stands; nothing of it is copied.
use std::path::{Path, PathBuf};
use std::{env, fs};

// The source's files that are compared with.
const FILES: [&str; 6] = [
    "traits.rs",
    "impls/f64_traits.rs",
    "linalg/mod.rs",
    "linalg/generic.rs",
    "linalg/regularize.rs",
    "linalg/mat3.rs",
];

// FNV-1a, 64 bits.
fn hash(bytes: &[u8]) -> u64 {
    bytes.iter().fold(0xCBF2_9CE4_8422_2325, |hash, byte| (hash ^ u64::from(*byte)).wrapping_mul(0x100_0000_01B3))
}

// The modules of the source under their own names. `linalg/mod.rs` also declares modules that the source at hand lacks,
// so its two constants are taken and its declarations are made here.
fn main() {
    println!("cargo:rerun-if-env-changed=NOLAN_SRC");
    let root = Path::new(&env::var("CARGO_MANIFEST_DIR").unwrap()).join("../..");
    let given = env::var("NOLAN_SRC").map(PathBuf::from).unwrap_or_else(|_| root.join("../shared/docs/src"));
    let src = given.join("src").canonicalize().unwrap_or_else(|_| panic!("no Rust source at {}", given.display()));
    println!("cargo:rerun-if-changed={}", src.display());
    let constants: String = fs::read_to_string(src.join("linalg/mod.rs"))
        .expect("linalg/mod.rs")
        .lines()
        .filter(|line| line.starts_with("pub const NOLAN_"))
        .map(|line| format!("    {line}\n"))
        .collect();
    let module = |file: &str| {
        let name = Path::new(file).file_stem().unwrap().to_str().unwrap();
        format!("#[path = {:?}]\n#[allow(dead_code)]\npub mod {name};\n", src.join(file))
    };
    let hashes: String =
        FILES.iter().map(|file| format!("    ({file:?}, {:#018x}),\n", hash(&fs::read(src.join(file)).expect(file)))).collect();
    let modules = format!(
        "/// The source's files, each with a hash of it.\npub static FILES: &[(&str, u64)] = &[\n{hashes}];\n\
         {}pub mod impls {{\n{}}}\npub mod linalg {{\n{constants}{}{}{}}}\n",
        module("traits.rs"),
        module("impls/f64_traits.rs"),
        module("linalg/generic.rs"),
        module("linalg/regularize.rs"),
        module("linalg/mat3.rs"),
    );
    fs::write(Path::new(&env::var("OUT_DIR").unwrap()).join("source.rs"), modules).unwrap();
}
