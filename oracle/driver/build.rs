//! Links the library whose archive KONSJIFT_LIB names, where it names one.

use std::path::Path;

fn main() {
    println!("cargo:rerun-if-env-changed=KONSJIFT_LIB");
    println!("cargo:rustc-check-cfg=cfg(konsjift)");
    let archive = std::env::var("KONSJIFT_LIB").unwrap_or_default();
    if std::env::var("CARGO_FEATURE_MOCK").is_ok() {
        println!("cargo:rustc-cfg=konsjift");
    } else if !archive.is_empty() {
        let path = Path::new(&archive)
            .canonicalize()
            .expect("KONSJIFT_LIB names a file");
        let name = path.file_stem().unwrap().to_str().unwrap();
        let name = name
            .strip_prefix("lib")
            .expect("an archive is called libNAME.a");
        println!("cargo:rerun-if-changed={archive}");
        println!(
            "cargo:rustc-link-search=native={}",
            path.parent().unwrap().display()
        );
        println!("cargo:rustc-link-lib=static={name}");
        println!("cargo:rustc-cfg=konsjift");
    }
}
