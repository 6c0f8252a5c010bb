// The proved library is where `tools/library` writes it, below the repository's root, or in the folder KUNZEASTYLUS_LIBRARY. Where it
// isn't, that is said here, since the linker would only say what it can't find.
use std::path::PathBuf;

fn main() {
    println!("cargo::rerun-if-env-changed=KUNZEASTYLUS_LIBRARY");
    let standard = || concat!(env!("CARGO_MANIFEST_DIR"), "/../target/staticlib").into();
    let folder = std::env::var_os("KUNZEASTYLUS_LIBRARY").map_or_else(standard, PathBuf::from);
    let library = folder.join("libkunzeastylus.a");
    println!("cargo::rerun-if-changed={}", library.display());
    println!("cargo::rustc-link-search=native={}", folder.display());
    if !library.is_file() {
        println!(
            "cargo::error=the proved library is not there: {}. `tools/library` at the repository's root proves and writes it; \
             one that stands elsewhere is found by its folder in KUNZEASTYLUS_LIBRARY",
            library.display()
        );
    }
}
