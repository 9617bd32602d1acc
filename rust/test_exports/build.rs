//! Links `libtest_exports.a`, the parts of a session by themselves.

#[path = "../curlewstand/build/archive.rs"]
mod archive;

fn main() {
    println!("cargo::rerun-if-changed=build.rs");
    println!("cargo::rerun-if-changed=../curlewstand/build/archive.rs");
    archive::link("test_exports");
}
