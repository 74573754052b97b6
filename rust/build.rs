//! Links the proved library, target/staticlib/libzaatarloft.a at the repository's root.

use std::env;
use std::path::Path;
use std::process;

fn main() {
    let root = env::var("CARGO_MANIFEST_DIR").expect("cargo sets CARGO_MANIFEST_DIR");
    let folder = Path::new(&root).join("../target/staticlib");
    let library = folder.join("libzaatarloft.a");
    println!("cargo:rerun-if-changed={}", library.display());
    if !library.exists() {
        eprintln!(
            "{} is missing. At the repository's root run: scripts/build zaatarloft",
            library.display()
        );
        process::exit(1);
    }
    println!("cargo:rustc-link-search=native={}", folder.display());
    println!("cargo:rustc-link-lib=static=zaatarloft");
}
