//! Links the proved library, which `bindings/archive` writes into the repository's target folder.

use std::path::Path;

fn main() {
    let package = std::env::var("CARGO_MANIFEST_DIR").expect("cargo names the package's folder");
    let folder = Path::new(&package).join("../../target/staticlib");
    let archive = folder.join("libcundarivo.a");
    if !archive.exists() {
        let name = archive.display();
        println!("cargo::warning={name} is missing: run 'bindings/archive' in the repository");
    }
    println!("cargo::rustc-link-search=native={}", folder.display());
    println!("cargo::rustc-link-lib=static=cundarivo");
    println!("cargo::rerun-if-changed={}", archive.display());
}
