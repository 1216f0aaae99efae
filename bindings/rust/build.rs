//! Links the proved archive, which `bindings/test` and `bindings/play` make by `rt lib` in `crates/host_c`.

use std::path::Path;

fn main() {
    let here = std::env::var("CARGO_MANIFEST_DIR").expect("cargo names the crate's folder");
    let folder = Path::new(&here).join("../../target/staticlib");
    let archive = folder.join("libhost.a");
    println!("cargo:rerun-if-changed={}", archive.display());
    if !archive.is_file() {
        eprintln!(
            "{} is missing: run bindings/test of the repository, which makes it",
            archive.display()
        );
        std::process::exit(1);
    }
    println!("cargo:rustc-link-search=native={}", folder.display());
    println!("cargo:rustc-link-lib=static=host");
    // The remainder of two floats is the C library's.
    println!("cargo:rustc-link-lib=m");
}
