//! Links `libcloverdrum.a` from the directory that `CLOVERDRUM_LIBRARY` names, `../target/staticlib`
//! where it names none. A relative directory starts at this crate.

use std::{env, path::Path};

const VARIABLE: &str = "CLOVERDRUM_LIBRARY";

fn main() {
    let named = env::var(VARIABLE).unwrap_or_else(|_| "../target/staticlib".to_string());
    let directory = Path::new(&env::var("CARGO_MANIFEST_DIR").unwrap()).join(named);
    let archive = directory.join("libcloverdrum.a");
    println!("cargo:rerun-if-env-changed={VARIABLE}");
    println!("cargo:rerun-if-changed={}", archive.display());
    assert!(
        archive.is_file(),
        "{} is missing: {VARIABLE} names its directory",
        archive.display()
    );
    println!("cargo:rustc-link-search=native={}", directory.display());
    println!("cargo:rustc-link-lib=static=cloverdrum");
}
