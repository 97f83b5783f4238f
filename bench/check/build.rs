//! Links the library of another clone, as `bench/run --before` writes it under other names.
fn main() {
    println!("cargo:rerun-if-changed=build.rs");
    if std::env::var_os("CARGO_FEATURE_BEFORE").is_some() {
        let folder = concat!(env!("CARGO_MANIFEST_DIR"), "/../../target/bench");
        println!("cargo:rustc-link-search=native={folder}");
        println!("cargo:rustc-link-lib=static=gate_c_before");
        println!("cargo:rerun-if-changed={folder}/libgate_c_before.a");
    }
}
