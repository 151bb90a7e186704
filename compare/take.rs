//! What the two build scripts share: the Rust's sources, and the one textual change that both make.
use std::path::{Path, PathBuf};
use std::{env, fs};

pub fn once(text: String, old: &str, new: &str) -> String {
    times(text, 1, old, new)
}

pub fn times(text: String, n: usize, old: &str, new: &str) -> String {
    let found = text.matches(old).count();
    assert_eq!(found, n, "expected {n} times, found {found} times: {old}");
    text.replace(old, new)
}

/// Where the Rust's sources are: the folder that BUNLAYOG_RUST names, or the one beside the repository.
pub fn sources(repository: &Path) -> PathBuf {
    println!("cargo:rerun-if-env-changed=BUNLAYOG_RUST");
    env::var("BUNLAYOG_RUST").map_or(repository.join("../shared/docs/src/src"), PathBuf::from)
}

pub fn read(sources: &Path, name: &str) -> String {
    let path = sources.join(name);
    println!("cargo:rerun-if-changed={}", path.display());
    fs::read_to_string(&path).unwrap_or_else(|e| panic!("{}: {e}", path.display()))
}

/// univariate_taylor.rs, in which the square after the exponent's highest one bit is not taken.
pub fn taylor(sources: &Path) -> String {
    once(
        read(sources, "univariate_taylor.rs"),
        "            base *= base.clone();\n            exp >>= 1;",
        "            exp >>= 1;\n            if exp > 0 { base *= base.clone(); }",
    )
}

/// Links the engine's archive.
pub fn link(repository: &Path) {
    let archive = repository.join("crates/bunlayog/out");
    println!("cargo:rerun-if-changed={}", archive.join("libbunlayog.a").display());
    println!("cargo:rustc-link-search=native={}", archive.display());
    println!("cargo:rustc-link-lib=static=bunlayog");
}
