//! The crate has every call that the header declares, and no other, and the header's version.

/// The names `pel_..` that stand before a parenthesis or a `;` of a list, each once.
fn names(text: &str) -> Vec<&str> {
    let mut names: Vec<&str> = text
        .match_indices("pel_")
        .map(|(at, _)| text[at..].split(|c: char| !c.is_ascii_alphanumeric() && c != '_').next().unwrap())
        .collect();
    names.sort_unstable();
    names.dedup();
    names
}

#[test]
fn every_call() {
    let declared = names(include_str!("../../../include/pelosumba.h"));
    assert_eq!(declared, names(include_str!("../src/ffi.rs")));
    assert_eq!(declared.len(), 42);
}

#[test]
fn one_version() {
    let line = format!("#define PEL_VERSION \"{}\"\n", env!("CARGO_PKG_VERSION"));
    assert!(include_str!("../../../include/pelosumba.h").contains(&line), "{line}");
}
