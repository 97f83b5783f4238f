//! Links the archive that `tools/prove walk_c` writes, and one of another clone under other names.
fn main() {
    let archives = concat!(env!("CARGO_MANIFEST_DIR"), "/../../target/staticlib");
    println!("cargo:rustc-link-search=native={archives}");
    println!("cargo:rustc-link-lib=static=walk_c");
    println!("cargo:rerun-if-changed={archives}/libwalk_c.a");
    if std::env::var_os("CARGO_FEATURE_BEFORE").is_some() {
        println!("cargo:rustc-link-lib=static=walk_c_before");
        println!("cargo:rerun-if-changed={archives}/libwalk_c_before.a");
    }
}
