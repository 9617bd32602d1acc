//! Links `libcurlewstand.a`, the static library of whole sessions.

#[path = "build/archive.rs"]
mod archive;

fn main() {
    println!("cargo::rerun-if-changed=build.rs");
    println!("cargo::rerun-if-changed=build/archive.rs");
    archive::link("curlewstand");
}
