//! Links the static library, if the feature `library` is on; says what to do if it is not there.

use std::path::Path;

fn main() {
    println!("cargo:rerun-if-env-changed=RATTLE_LIB");
    if std::env::var_os("CARGO_FEATURE_LIBRARY").is_none() {
        return;
    }
    let folder = std::env::var("RATTLE_LIB")
        .unwrap_or_else(|_| format!("{}/../target/staticlib", env!("CARGO_MANIFEST_DIR")));
    let library = format!("{folder}/libfikarehu.a");
    if !Path::new(&library).exists() {
        println!(
            "cargo:warning=there is no {library}: run `make library` in the repository, \
             or name its folder in RATTLE_LIB, or build without --features library"
        );
    }
    println!("cargo:rustc-link-search=native={folder}");
    println!("cargo:rustc-link-lib=static=fikarehu");
    println!("cargo:rerun-if-changed={library}");
}
