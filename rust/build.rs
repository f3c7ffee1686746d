//! Links the proved board: the static library that `tools/prove library` writes for C and Rust.
//! If a program is built too, `cfg(runner)` or `cfg(queue_run)` is set, and a test runs it.

use std::path::Path;

fn main() {
    let target = Path::new(env!("CARGO_MANIFEST_DIR")).join("../target");
    let folder = target.join("staticlib");
    let library = folder.join("libexport.a");
    println!("cargo::rerun-if-changed=build.rs");
    println!("cargo::rerun-if-changed={}", library.display());
    for name in ["runner", "queue_run"] {
        let program = target.join("bin").join(name);
        println!("cargo::rerun-if-changed={}", program.display());
        println!("cargo::rustc-check-cfg=cfg({name})");
        if program.is_file() {
            println!("cargo::rustc-cfg={name}");
        }
    }
    if !library.is_file() {
        println!(
            "cargo::error={} is missing: run `tools/prove library` in the repository's root first",
            library.display()
        );
        return;
    }
    println!("cargo::rustc-link-search=native={}", folder.display());
    println!("cargo::rustc-link-lib=static=export");
}
