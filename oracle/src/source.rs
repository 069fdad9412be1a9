//! Which Rust source the library is compared with: six files, pinned by a hash of each.

/// FNV-1a, 64 bits, of each file as the library was compared with it. A hash against mistakes, not against malice.
const PINNED: &[(&str, u64)] = &[
    ("traits.rs", 0x141d_6872_e629_4466),
    ("impls/f64_traits.rs", 0xedd2_5568_6363_9b8e),
    ("linalg/mod.rs", 0xd3c7_ce1c_43d7_22f6),
    ("linalg/generic.rs", 0x26e9_d455_2d04_c6df),
    ("linalg/regularize.rs", 0xf452_88a2_f3d5_2e1c),
    ("linalg/mat3.rs", 0x6f47_9798_6294_3f48),
];

/// Tells the files that are not those that were pinned, and answers how many there are.
pub fn differences() -> u64 {
    let mut differences = 0;
    for (file, hash) in nolan::FILES {
        if !PINNED.contains(&(file, *hash)) {
            println!("Rust source: {file} is not the file that is pinned; its hash is {hash:#018x}");
            differences += 1;
        }
    }
    if differences == 0 {
        println!("Rust source: its {} files are those that are pinned", nolan::FILES.len());
    }
    differences
}
