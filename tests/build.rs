//! Links the proved library when the feature `library` is on.

#[path = "../bindings/rust/archive.rs"]
mod archive;

fn main() {
    println!("cargo:rerun-if-changed=build.rs");
    if std::env::var_os("CARGO_FEATURE_LIBRARY").is_some() {
        archive::link("..");
    }
}
