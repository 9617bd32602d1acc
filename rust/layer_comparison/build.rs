//! Passes on whether the original's source was at hand when the oracle was
//! built.

fn main() {
    println!("cargo::rerun-if-changed=build.rs");
    println!("cargo::rerun-if-env-changed=DEP_QSPQUEST_SOURCE_AT_HAND");
    println!("cargo::rustc-check-cfg=cfg(source_at_hand)");
    if std::env::var("DEP_QSPQUEST_SOURCE_AT_HAND").as_deref() == Ok("yes") {
        println!("cargo::rustc-cfg=source_at_hand");
    }
}
